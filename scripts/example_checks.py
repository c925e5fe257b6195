"""What the tests of the examples share: scripts that are run, and files that they read."""

import os
import re
import subprocess
import sys

import pytest

from conftest import ROOT

EXAMPLES = ROOT / "examples"
sys.path[:0] = [str(EXAMPLES / folder) for folder in ("common", "guide", "redundancy", "scheduling")]


@pytest.fixture(autouse=True)
def built(flow, library, tmp_path, monkeypatch):
    """Puts the program on the PATH, and says where the library is, for each test of a file that imports this."""
    (tmp_path / "bin").mkdir()
    (tmp_path / "bin/flow").symlink_to(flow)
    monkeypatch.setenv("PATH", str(tmp_path / "bin"), prepend=os.pathsep)
    monkeypatch.setenv("PROVEDFLOW_LIBRARY", str(library))


def run(words, cwd, **options):
    """Runs a script of the examples: its status, what it wrote, and its complaint."""
    done = subprocess.run([sys.executable, "-B", EXAMPLES / words[0], *words[1:]], text=True, check=False, cwd=cwd,
                          timeout=60, **{"stdout": subprocess.PIPE, "stderr": subprocess.PIPE, **options})
    return done.returncode, done.stdout, done.stderr


def write(folder, **files):
    """Writes tables into a folder: people=".." goes into people.csv."""
    for name, text in files.items():
        (folder / f"{name}.csv").write_text(text, encoding="utf-8", newline="")


def untried(script, commands):
    """The options that the help of a script lists and that are in none of these commands."""
    return set(re.findall(r"--[a-z-]+", run([script, "--help"], ROOT)[1])) - set(" ".join(commands).split())
