#!/usr/bin/env bash
# Makes the Debian packages of debian/control and a wheel for Python: package.sh DIR [PROGRAM LIBRARIES]
# Where nothing is handed in, scripts/install.sh and scripts/library.sh prove and build the program and the library
# first; LIBRARIES is a folder as the latter makes it. A machine that installs a package needs no Rattle kit.
# DEBFULLNAME and DEBEMAIL name another maintainer than the project. The paths are the lines of standard output, that
# of the program's package first. The same files give the same bytes.
set -eu
umask 022
if [ $# -ne 1 ] && [ $# -ne 3 ]; then
  echo "usage: bash scripts/package.sh DIR [PROGRAM LIBRARIES]" >&2
  exit 2
fi
if ! command -v dpkg-gencontrol > /dev/null || ! python3 -c 'import setuptools, wheel, pip' 2> /dev/null; then
  echo "packages need more: sudo apt install dpkg-dev python3-pip python3-setuptools python3-wheel" >&2
  exit 1
fi
mkdir -p "$1"
folder=$(cd "$1" && pwd)
scratch=$(mktemp -d)
trap 'rm -rf "$scratch"' EXIT
if [ $# -eq 3 ]; then
  program=$(realpath "$2")
  libraries=$(realpath "$3")
else
  libraries=$scratch/built
  program=$(bash "$(dirname "$0")/install.sh" "$libraries")
  bash "$(dirname "$0")/library.sh" "$libraries" > /dev/null
fi
cd "$(dirname "$0")/.."

version=$("$program" --version)
version=${version#flow }
if ! grep -q "^__version__ = \"$version\"$" python/provedflow/__init__.py; then
  echo "the program is of version $version, and python/provedflow/__init__.py tells another" >&2
  exit 1
fi
maintainer="${DEBFULLNAME:-Zelkovarummy maintainers} <${DEBEMAIL:-maintainers@users.noreply.zelkovarummy.example}>"
SOURCE_DATE_EPOCH=${SOURCE_DATE_EPOCH:-$(git log -1 --format=%ct 2> /dev/null || date +%s)}
export SOURCE_DATE_EPOCH
printf '%s\n\n' "flow ($version) unstable; urgency=medium" '  * What changed stands in NEWS.md of the package flow.' \
  " -- $maintainer  $(date -R -u -d "@$SOURCE_DATE_EPOCH")" > "$scratch/changelog"

# libc_of FILE: the oldest C library that has every symbol of a file, which has to be linked to that library alone.
libc_of() {
  local needed
  needed=$(objdump -p "$1" | sed -n 's/^ *NEEDED *//p')
  if [ "$needed" != libc.so.6 ]; then
    echo "$1 is linked to other libraries than the C library: $needed" >&2
    exit 1
  fi
  objdump -T "$1" | grep -o 'GLIBC_[0-9.]*' | sort -V | tail -n 1 | sed 's/^GLIBC_//'
}

# put MODE SOURCE PLACE: a file of the package that is being made.
put() {
  install -D -m "$1" "$2" "$root/$3"
}

# pack: makes a package of the root, which has its name.
pack() {
  local package=${root##*/}
  put 644 debian/copyright "usr/share/doc/$package/copyright"
  put 644 "$scratch/changelog" "usr/share/doc/$package/changelog"
  python3 scripts/package_pages.py "$root/usr/share/doc/$package"
  find "$root/usr/share" \( -path '*/man/*' -o -name changelog -o -name NEWS.md \) -type f -print0 | xargs -0 gzip -9 -n
  mkdir "$root/DEBIAN"
  dpkg-gencontrol "-p$package" "-l$scratch/changelog" "-P$root" "-f$scratch/files" -T/dev/null "-Vlibc=$libc" \
    "-Vmaintainer=$maintainer"
  (cd "$root" && find usr -type f -print0 | sort -z | xargs -0 md5sum) > "$root/DEBIAN/md5sums"
  chmod 644 "$root/DEBIAN"/*
  dpkg-deb --build --root-owner-group "$root" "$folder" | sed -n "s/^dpkg-deb: building .* in '\(.*\)'\.$/\1/p"
}

root=$scratch/flow
libc=$(libc_of "$program")
put 755 "$program" usr/bin/flow
strip --remove-section=.comment --remove-section=.note "$root/usr/bin/flow"
put 644 man/flow.1 usr/share/man/man1/flow.1
put 644 completions/flow.bash usr/share/bash-completion/completions/flow
put 644 completions/_flow usr/share/zsh/vendor-completions/_flow
put 644 completions/flow.fish usr/share/fish/vendor_completions.d/flow.fish
put 644 CHANGELOG.md usr/share/doc/flow/NEWS.md
# The pages and examples lie as in the repository, and say and name what the package has.
find README.md docs examples -type f -not -path '*/out/*' -not -name '*.pyc' | while IFS= read -r page; do
  put 644 "$page" "usr/share/doc/flow/$page"
done
pack

place=usr/lib/x86_64-linux-gnu
root=$scratch/libprovedflow0
libc=$(libc_of "$libraries/libprovedflow.so.0")
put 644 "$libraries/libprovedflow.so.0" "$place/libprovedflow.so.0"
pack

root=$scratch/libprovedflow-dev
put 644 c/provedflow.h usr/include/provedflow.h
put 644 c/provedflow.hpp usr/include/provedflow.hpp
for file in c/*.cmake; do
  put 644 "$file" "$place/cmake/provedflow/${file#c/}"
done
put 644 "$libraries/libprovedflow.a" "$place/libprovedflow.a"
ln -s libprovedflow.so.0 "$root/$place/libprovedflow.so"
put 644 c/provedflow.pc "$place/pkgconfig/provedflow.pc"
put 644 docs/C.md usr/share/doc/libprovedflow-dev/C.md
pack

root=$scratch/python3-provedflow
put 644 docs/PYTHON.md usr/share/doc/python3-provedflow/PYTHON.md
python3 scripts/package_pages.py "$root"
wheel=$scratch/wheel
mkdir -p "$wheel/provedflow"
install -m 644 python/pyproject.toml LICENSE "$root/usr/share/doc/python3-provedflow/PYTHON.md" "$wheel"
install -m 644 python/provedflow/*.py python/provedflow/py.typed "$libraries/libprovedflow.so.0" "$wheel/provedflow"
oldest=$(printf '%s\n' 2.17 "$libc" | sort -V | tail -n 1)  # no wheel can be for a C library before 2.17
printf '[bdist_wheel]\nplat_name = manylinux_%s_x86_64\n' "${oldest/./_}" > "$wheel/setup.cfg"
python3 -m pip wheel --quiet --no-index --no-deps --no-build-isolation --wheel-dir "$folder" "$wheel" >&2
# The Debian package has what the wheel has, but for the library and what pip alone reads.
packages=usr/lib/python3/dist-packages
mkdir -p "$root/$packages"
python3 -m zipfile -e "$folder/provedflow-$version-"*.whl "$root/$packages"
(cd "$root/$packages" && rm provedflow/*.so.0 provedflow-*/{LICENSE,RECORD,WHEEL,top_level.txt})
pack
echo "$folder/provedflow-$version-"*.whl
