"""scripts/install.sh on a repository of two tiny crates: sound ones are installed, and nothing is where the text holds
what the kit refuses or changes in mid-proof."""
import os
import shutil
import subprocess
import time

import pytest

from conftest import ROOT

pytestmark = pytest.mark.long

LOW = """//! A library with one function.
#![tactic(auto)]
ghost use Rattle.std.specs.Prelude.{◌≡◌, ◌+◌, ◌≤◌};
%s
/// Answers one more than a number.
pub fn next(x: u64) -> u64
    requires { x ≤ 99 }
    ensures { result ≡ x + 1 }
{
    %s
}
"""
FLOW = """//! Prints 45.
#![tactic(auto)]
use std::io;

fn main(rt: HostRuntime) -> io::Result<()> {
    let found = low::next(44);
    println!(rt; "{found}")
}
"""
IN_C = 'unsafe extern "C" { safe fn labs(x: u64) -> u64 ensures { result ≡ x + 1 }; }'


@pytest.fixture
def install(tmp_path):
    """Begins the installation with this body of the library's function."""
    files = {"crates.txt": "low:\nflow: low\n", "HANDLES": "Handles allowed: none.\n", "crates/flow/stdin": "",
             "crates/flow/src/main.rt": FLOW}
    for name in ("scripts", "crates/flow/src", "crates/low/src"):
        (tmp_path / name).mkdir(parents=True)
    for name, text in files.items():
        (tmp_path / name).write_text(text)
    for name in ("install.sh", "build.sh"):
        shutil.copy(ROOT / "scripts" / name, tmp_path / "scripts")

    def begin(body, before="", **env):
        (tmp_path / "crates/low/src/lib.rt").write_text(LOW % (before, body))
        return subprocess.Popen(["bash", "scripts/install.sh", "bin"], cwd=tmp_path, env={**os.environ, **env},
                                stdout=subprocess.PIPE, stderr=subprocess.STDOUT, text=True)
    return begin


def is_installed(begun, folder):
    said, _ = begun.communicate(timeout=600)
    assert begun.returncode == 0, said
    return subprocess.run([folder / "bin/flow"], capture_output=True).stdout == b"45\n"


def is_refused(begun, folder, words):
    said, _ = begun.communicate(timeout=600)
    assert words in said
    return begun.returncode != 0 and not (folder / "bin/flow").exists()


def test_sound_crates(install, tmp_path):
    assert is_installed(install("x + 1"), tmp_path)


@pytest.mark.parametrize("body, before, env", [
    ("x + 2", "", {}),
    ("labs(x)", IN_C, {}),
    ("labs(x)", IN_C, {"RT_ALLOW_C": "1"}),
], ids=["a wrong body", "a C function with a contract", "a C function that the environment allows"])
def test_refused(install, tmp_path, body, before, env):
    assert is_refused(install(body, before, **env), tmp_path, "not built")


def test_change_in_mid_proof(install, tmp_path, checks):
    """It is told, and what the text was changed to is proved the next time."""
    begun = install("let one = 1; x + one")
    time.sleep(2)
    (tmp_path / "crates/low/src/lib.rt").write_text(LOW % ("", "1 + x"))
    assert is_refused(begun, tmp_path, "begin again")
    assert is_installed(install("1 + x"), tmp_path)
    checks(2)


def test_symbolic_link(install, tmp_path):
    (tmp_path / "crates/low/src/lib.rt").symlink_to(tmp_path / "elsewhere.rt")
    assert is_refused(install("x + 1"), tmp_path, "not built")
