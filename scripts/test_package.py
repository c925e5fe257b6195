"""The Debian packages and the wheel, as scripts/package.sh makes them, installed into a root of their own.

The root isn't a whole system: dpkg goes on where it lacks what a package depends on, and by their environments the
compiler, the loader and Python find what was installed.
"""
import os
import pathlib
import shlex
import subprocess

import pytest

from conftest import ROOT, needs
from test_documents import LINK

pytestmark = [pytest.mark.long, pytest.mark.xdist_group("package")]
PLACE = "usr/lib/x86_64-linux-gnu"
PACKAGES = ["flow", "libprovedflow0", "libprovedflow-dev", "python3-provedflow"]
IN_PYTHON = "print(provedflow.maximum_flow([0, 0, 1, 1, 2], [1, 2, 2, 3, 3], [3, 2, 1, 2, 3], 0, 3).value)"
FOUR = "$ROOT/usr/share/doc/flow/examples/four_nodes.max"
CALLS = ROOT / "c/tests/calls.c"
BUILD = f"gcc -o calls {CALLS} $(pkg-config --cflags --libs provedflow)"
PASSED = "tail -n 1 | sed -E 's/: [1-9][0-9]* passed/: passed/'"
LINES = {
    "value": (f"flow solve --value {FOUR}", "s 5"),
    "cut": (f"flow cut {FOUR}", "s 5\nn 1"),
    "connectivity": (f"flow connect --undirected {FOUR}", "k 2"),
    "verdict": (f"flow solve {FOUR} | flow check {FOUR}", "optimal 5"),
    "shared": (f"{BUILD} && ./calls | {PASSED}", "calls: passed, 0 failed"),
    "needed": (f"{BUILD} && objdump -p calls | sed -n 's/^ *NEEDED *//p' | sort", "libc.so.6\nlibprovedflow.so.0"),
    "static": (f"gcc -o still {CALLS} -I$ROOT/usr/include $ROOT/{PLACE}/libprovedflow.a && ./still | {PASSED}",
               "calls: passed, 0 failed"),
    "version in C": ("test $(pkg-config --modversion provedflow) = $(flow --version | cut -c6-) && echo same", "same"),
    "from Python": (f"python3 -c 'import provedflow; {IN_PYTHON}'", "5"),
    "version in Python": ("python3 -c 'from importlib.metadata import version; print(\"flow\", version(\"provedflow\"))'"
                          " | diff - <(flow --version) && echo same", "same"),
    "backend": ("python3 -c 'from importlib.metadata import entry_points; [found] = entry_points(name=\"provedflow\", "
                "group=\"networkx.backends\"); found.load(); print(found.value)'", "provedflow.networkx:backend"),
    "wheel": ("python3 -m pip install --quiet --no-index --target wheel --root-user-action ignore packages/*.whl && "
              f"env -u LD_LIBRARY_PATH PYTHONPATH=wheel python3 -c 'import provedflow; {IN_PYTHON}'", "5"),
}
"""What the installed packages do: lines for bash, and what they print."""


@pytest.fixture(scope="session")
def run(flow, made, tmp_path_factory):
    """Runs a line of bash in a folder with the packages, where it finds what they have brought into the root."""
    needs("dpkg-gencontrol")
    for module in ("setuptools", "wheel", "pip"):
        pytest.importorskip(module)
    home = tmp_path_factory.mktemp("home")
    root = home / "root"
    for name in ("info", "updates"):
        (root / "var/lib/dpkg" / name).mkdir(parents=True)
    (root / "var/lib/dpkg/status").touch()
    env = dict(os.environ, ROOT=str(root), PATH=f"{root}/usr/bin:{os.environ['PATH']}:/usr/sbin:/sbin",
               LD_LIBRARY_PATH=f"{root}/{PLACE}", PYTHONPATH=f"{root}/usr/lib/python3/dist-packages",
               PKG_CONFIG_LIBDIR=f"{root}/{PLACE}/pkgconfig", PKG_CONFIG_SYSROOT_DIR=str(root), LC_ALL="C.UTF-8",
               PYTHONDONTWRITEBYTECODE="1",
               DPKG=f"dpkg --root={root} --force-not-root --force-depends --path-include=*")

    def run(line):
        done = subprocess.run(["bash", "-c", line], cwd=home, env=env, text=True, capture_output=True, timeout=600)
        assert done.returncode == 0, done.stderr
        return done.stdout.rstrip("\n")
    run(shlex.join(["bash", f"{ROOT}/scripts/package.sh", "packages", str(flow), str(made)]))
    run("$DPKG --install packages/*.deb")
    return run


@pytest.mark.parametrize("package", PACKAGES)
def test_state(run, checks, package):
    assert run(f"$DPKG --status {package} | sed -n 's/^Status: //p'") == "install ok installed"
    assert run(f"$DPKG --verify {package}") == ""
    checks(2)


def test_what_the_program_cannot_stand_beside(run):
    assert run("$DPKG --status flow | sed -n 's/^Conflicts: //p'") == "libopm-simulators-bin"


@pytest.mark.parametrize("name", LINES)
def test_line(run, name):
    line, shown = LINES[name]
    for program in ("gcc", "pkg-config"):
        if program in line:
            needs(program)
    assert run(line) == shown


@pytest.mark.parametrize("example", [
    "segmentation/segment", "scheduling/schedule", "roads/roads", "redundancy/redundancy"])
def test_example(run, example):
    for package in ("numpy", "scipy", "networkx", "PIL", "matplotlib"):
        pytest.importorskip(package)
    *_, last = run(f"python3 $ROOT/usr/share/doc/flow/examples/{example}.py --out drawn").splitlines()
    assert last.startswith("drawn: drawn/")


def test_pages_name_what_is_there(run, checks):
    pages = [pathlib.Path(page) for page in run("find $ROOT/usr/share/doc -name '*.md'").splitlines()]
    for page in pages:
        assert "repository: " not in page.read_text()
        links = [name for name, _ in LINK.findall(page.read_text())]
        assert [name for name in links if name and not (page.parent / name).exists()] == [], page
    checks(len(pages))


def test_removal(run):
    run(f"$DPKG --purge {' '.join(PACKAGES)}")
    assert run('find $ROOT -not -type d -not -path "$ROOT/var/*"') == ""
