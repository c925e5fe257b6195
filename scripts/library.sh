#!/usr/bin/env bash
# Makes the library for C and C++ and puts it into a folder with its header: library.sh DIR [ARCHIVE]
# DIR gets libprovedflow.so.0 with the link libprovedflow.so, libprovedflow.a, the headers for C and C++, and the files
# by which CMake finds them. ARCHIVE is what was built of the crate flow_c; without it scripts/build.sh proves and
# builds the crate.
# To its code comes the kit's heap, which calls malloc, realloc and free, and nothing else: there is no C of ours in the
# library. It needs the C library alone, its code may lie anywhere in memory, and of its names only provedflow_* can be
# seen from outside. Progress goes to standard error. The one line of standard output is the path of the shared library.
set -eu
if [ $# -lt 1 ] || [ $# -gt 2 ]; then
  echo "usage: bash scripts/library.sh DIR [ARCHIVE]" >&2
  exit 2
fi
scripts=$(cd "$(dirname "$0")" && pwd)
if [ $# -eq 1 ]; then
  bash "$scripts/build.sh" flow_c
fi
archive=$(realpath "${2:-$scripts/../crates/flow_c/out/libflow_c.a}")
mkdir -p "$1"
folder=$(cd "$1" && pwd)
cd "$scripts/.."
scratch=$(mktemp -d)
trap 'rm -rf "$scratch"' EXIT

kit=$(dirname "$(rt doc)")

# One object of it all, in which every other name than those of the exports is local.
heap=$kit/c/liblibc_c.a
(cd "$scratch" && ar x "$archive" && ar x "$heap" heap.pic.o && ld -r -o all.o ./*.o)
objcopy --wildcard --keep-global-symbol='provedflow_*' --remove-section=.comment "$scratch/all.o" \
  "$scratch/provedflow.o"
ar rcsD "$scratch/libprovedflow.a" "$scratch/provedflow.o"

echo '{ global: provedflow_*; local: *; };' > "$scratch/names.map"
${CC:-cc} -shared -nostartfiles -o "$scratch/libprovedflow.so.0" -Wl,-soname,libprovedflow.so.0 \
  -Wl,--version-script="$scratch/names.map" -Wl,-z,defs,-z,noexecstack,-z,relro,-z,now -Wl,--build-id=none \
  -Wl,--as-needed "$scratch/provedflow.o"
strip --strip-unneeded --remove-section=.comment --remove-section=.note "$scratch/libprovedflow.so.0"

needed=$(objdump -p "$scratch/libprovedflow.so.0" | sed -n 's/^ *NEEDED *//p')
if [ "$needed" != libc.so.6 ]; then
  echo "the library is linked to other libraries than the C library: $needed" >&2
  exit 1
fi
wanted=$(sed -n 's/^uint32_t \(provedflow_[a-z]*_lists\)(.*/\1/p' c/provedflow.h | sort)
for nm in "nm -D $scratch/libprovedflow.so.0" "nm -g $scratch/provedflow.o"; do
  seen=$($nm --defined-only | awk '{ print $3 }' | sort)
  if [ "$seen" != "$wanted" ]; then
    printf 'the library shows the names\n%s\nand the header declares\n%s\n' "$seen" "$wanted" >&2
    exit 1
  fi
done

install -m 644 "$scratch/libprovedflow.so.0" "$scratch/libprovedflow.a" c/provedflow.h c/provedflow.hpp \
  c/*.cmake "$folder"
ln -sf libprovedflow.so.0 "$folder/libprovedflow.so"
echo "$folder/libprovedflow.so.0"
