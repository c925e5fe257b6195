"""The pages: what their commands print, where their links lead, and what they name.

In a block fenced as ```console, a line `$ COMMAND` is run by bash, with the lines of its here document, and the lines
after it are what it prints, on standard output and standard error together. The commands of a page run one after the
other in a scratch folder of its own, with a copy of examples/ and a link to crates/, with the program on the PATH as
`flow`, and with the library for C where the compiler and the loader find it; `$?` is the status of the command before.
"""
import os
import re
import shutil
import subprocess

import pytest

from conftest import ROOT

PAGES = ["README.md", "CONTRIBUTING.md", *sorted(str(page.relative_to(ROOT)) for page in (ROOT / "docs").glob("*.md"))]
PROSE = sorted({str(page.relative_to(ROOT)) for kind in ("*.md", "docs/*.md", "examples/**/*.md")
                for page in ROOT.glob(kind)} - {"README.md", "docs/BENCHMARKS.md"})  # Benchmarks write these two.
LIBRARY_PLACES = ("C_INCLUDE_PATH", "CPLUS_INCLUDE_PATH", "LIBRARY_PATH", "LD_LIBRARY_PATH")
BLOCK = re.compile(r"^```console\n(.*?)^```$", re.M | re.S)
COMMAND = re.compile(r"\$ ([^\n]*<< ?'?(\w+)'?[^\n]*\n.*?^\2$|[^\n]*)\n(.*?)(?=^\$ |\Z)", re.M | re.S)
LINK = re.compile(r"\]\((?![a-z]+:)([^)#\s]*)(?:#([^)\s]*))?\)")
NUMBER = (r"(?:\d[\d,.]*[\s-]*|(?:one|two|three|four|five|six|seven|eight|nine|ten|twelve|fifteen|twenty|thirty|forty|"
          r"fifty|sixty|hundred|thousand|few|several|half an?)[\s-]+)")
SPEED = re.compile(rf"\b{NUMBER}(?:CPU[\s-])?(?:[mµ]?s|(?:milli|micro)?seconds?|minutes?|hours?|times|%|per ?cent)(?!\w)"
                   r"|\b(?:twice|thrice|half) as (?:long|fast|slow|quick)", re.I)
NO_SPEED = re.compile(r"^```.*?^```$|^    .*?$|`[^`\n]+`|times the greatest capacity", re.M | re.S)  # Code, a limit.


@pytest.fixture
def shell(flow, made, tmp_path):
    """Runs a command of a page after one that ended with this status; answers its status and what it printed."""
    folder, programs = tmp_path / "work", tmp_path / "bin"
    programs.mkdir()
    (programs / "flow").symlink_to(flow)
    shutil.copytree(ROOT / "examples", folder / "examples")
    (folder / "crates").symlink_to(ROOT / "crates")
    env = dict(os.environ, PATH=f"{programs}:{os.environ['PATH']}", LC_ALL="C", PYTHONDONTWRITEBYTECODE="1")
    env.update(dict.fromkeys(LIBRARY_PLACES, str(made)))

    def run(command, status):
        done = subprocess.run(["bash", "-c", f"(exit {status})\n{command}\n"], cwd=folder, env=env, errors="replace",
                              stdin=subprocess.DEVNULL, stdout=subprocess.PIPE, stderr=subprocess.STDOUT, timeout=600)
        return done.returncode, done.stdout
    return run


@pytest.mark.parametrize("page", PAGES)
def test_commands(shell, checks, page):
    text = (ROOT / page).read_text()
    assert len(re.findall("^```", text, re.M)) % 2 == 0, "a block without an end"
    for lines in BLOCK.findall(text):
        assert lines.startswith("$ "), f"a console block that doesn't begin with a command:\n{lines}"
        status = 0
        for command, _, shown in COMMAND.findall(lines):
            status, printed = shell(command, status)
            assert printed == shown, f"{command}\nended with status {status}"
            checks()


def places(page):
    """The names by which links reach the headings of a page."""
    headings = re.findall(r"^#+ (.*)$", page.read_text(), re.M)
    return {re.sub(r"[^\w\- ]", "", heading.lower()).replace(" ", "-") for heading in headings}


@pytest.mark.parametrize("page", PAGES)
def test_links(checks, page):
    """Links, and pictures that are shown, lead somewhere."""
    page = ROOT / page
    for name, place in LINK.findall(page.read_text()):
        target = page.parent / name if name else page
        assert target.exists(), name
        assert not place or place in places(target), f"{name}#{place}"
        checks()


@pytest.mark.parametrize("page", PROSE)
def test_figures_of_speed(page):
    """They stand on the pages that the benchmarks write, and in no other's prose."""
    prose = NO_SPEED.sub("_", (ROOT / page).read_text())
    assert SPEED.findall(prose) == []


def declares_alone(file):
    """Whether a file has nothing but the names of the files in its folder."""
    return all(re.match(r"(pub )?mod \w+$|$", line) for line in file.read_text().splitlines())


@pytest.mark.parametrize("crate", sorted(path.name for path in ROOT.glob("crates/*")))
def test_first_lines(checks, crate):
    """The first line of a file of a crate says what the file is about, but for files of goals and of tests."""
    for kind, sign in (("src/**/*.rt", "//! "), ("specs/**/*.antt", "-- "), ("proofs/**/*.antt", "-- ")):
        for file in sorted((ROOT / "crates" / crate).glob(kind)):
            if not declares_alone(file) and not {"tests", "Answers", "Invariants", "Proof"} & {file.stem}:
                assert file.read_text().startswith(sign), file
                checks()


def test_paths():
    """What the page that tells where to look names in code is there."""
    page = (ROOT / "docs/ARCHITECTURE.md").read_text()
    named = re.findall(r"`([\w./-]+\.(?:rt|antt|py|sh|cpp|h|hpp|cmake))`", page)
    assert named and [name for name in named if not any((ROOT / at / name).exists() for at in ("", "crates"))] == []


def test_constants():
    """Each constant that the same page says steers is one of the code."""
    page = (ROOT / "docs/ARCHITECTURE.md").read_text()
    code = "".join(file.read_text() for file in ROOT.glob("crates/*/src/**/*.rt"))
    named = re.findall(r"`([A-Z_]{5,})`", page)
    assert named and [name for name in named if not re.search(rf"\bconst {name}\b", code)] == []


def test_proofs_by_hand():
    """A proof by hand could claim any count of steps, so there is one place for such proofs: the counter itself."""
    found = [str(path.relative_to(ROOT)) for path in ROOT.rglob("Proof.antt")]
    stray = re.compile(r"(?!crates/(\w+/out|flow_net/proofs/tables/steps)/)")
    assert [*filter(stray.match, found)] == []


def test_logic():
    """The README names the logic of the kit by its sum."""
    logic = subprocess.run(["rt", "version"], capture_output=True, text=True, check=True).stdout.split()[-1]
    assert f"logic `{logic}`" in (ROOT / "README.md").read_text()
