"""What the tests share: the paths of what was built, and the count of checks.

    pytest -k words

runs one file of them. They need the built programs and the library for C: `bash scripts/test.sh` builds all of it and
names the places; by hand `--library=DIR` names the folder that `scripts/library.sh DIR` fills.
"""

import pathlib
import shutil
import subprocess
import sys

import pytest

ROOT = pathlib.Path(__file__).resolve().parent
BUILT = {"flow": "crates/flow/out/flow", "growths": "crates/growths/out/growths", "library": "out/library"}
"""What has to be built before the tests, and where it is looked for unless an option names another place."""

sys.dont_write_bytecode = True


def pytest_addoption(parser):
    for name, place in BUILT.items():
        parser.addoption(f"--{name}", default=str(ROOT / place), metavar="PATH", help=f"in place of {place}")


def pytest_collection_modifyitems(items):
    items.sort(key=lambda item: item.get_closest_marker("long") is None)


def built(config, name):
    """The place of something that was built; a test that needs it fails where it isn't there."""
    place = pathlib.Path(config.getoption(f"--{name}")).resolve()
    if not place.exists():
        pytest.fail(f"{place} isn't there: build it, or name its place by --{name}", pytrace=False)
    return place


def needs(program):
    """Skips a test where a program isn't installed."""
    return shutil.which(program) or pytest.skip(f"could not find {program}")


@pytest.fixture(scope="session")
def flow(pytestconfig):
    """The path of the program."""
    return built(pytestconfig, "flow")


@pytest.fixture(scope="session")
def growths(pytestconfig):
    """The path of the program that makes single calls of the library."""
    return built(pytestconfig, "growths")


@pytest.fixture(scope="session")
def made(pytestconfig):
    """The folder with the library for C and its headers, as scripts/library.sh fills it."""
    return built(pytestconfig, "library")


@pytest.fixture(scope="session")
def library(made):
    """The path of the shared library."""
    return made / "libprovedflow.so.0"


@pytest.fixture(scope="session")
def ask(flow):
    """Runs the program, or another: `ask(words, stdin)` answers its status, output and message, as bytes."""
    def run(words, stdin=b"", program=flow, **named):
        words = words.split() if isinstance(words, str) else words
        done = subprocess.run([program, *words], input=stdin, capture_output=True, timeout=60, **named)
        return done.returncode, done.stdout, done.stderr
    return run


@pytest.fixture
def checks(record_property):
    """Counts the checks of a test that makes many: `checks(number)`. A test without it counts as one."""
    record_property("checks", 0)
    return lambda number=1: record_property("checks", number)


def pytest_terminal_summary(terminalreporter):
    """Tells how many checks the tests that passed have made."""
    passed = terminalreporter.stats.get("passed", [])
    counts = [sum([number for name, number in report.user_properties if name == "checks"] or [1]) for report in passed]
    terminalreporter.write_line(f"{sum(counts)} checks in {len(counts)} tests")
