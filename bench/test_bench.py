"""The families and the runner of the benchmarks, on tiny problems."""
import subprocess
import sys

import pytest

import generate
import report
from conftest import ROOT
from independent import connectivity, greatest_value

ARCS, NODES = 600, 18
FLOWS = [*generate.COLLECTIONS["foreign"], *generate.COLLECTIONS["own"]]
CONNECT = [*generate.COLLECTIONS["connect"]]


def made(family, size):
    """A problem of a family, as a text that is the same each time, and as another with its arcs shuffled."""
    problem = generate.made(family, size, 1)
    text, again, shuffled = ("".join(generate.written(each, family, size, 1)) for each in (
        problem, generate.made(family, size, 1), generate.shuffled(problem, family, size, 1)))
    assert text == again != shuffled
    return problem, text.encode(), shuffled.encode()


@pytest.mark.parametrize("family", FLOWS)
def test_flows(ask, checks, family):
    """The value is that of a plain search, in both orders."""
    problem, *texts = made(family, ARCS)
    value = greatest_value(*problem[1:])
    for text in texts:
        assert ask("solve --value", text) == (0, b"s %d\n" % value, b"")
    checks(2)


@pytest.mark.parametrize("family", CONNECT)
def test_connectivity(ask, checks, family):
    """The connectivity is what flows between all nodes show."""
    (nodes, sources, sinks, arcs), _, shuffled = made(family, NODES)
    problem = nodes, [(u + 1, v + 1, cap) for u, v, cap in arcs], {*sources}, {*sinks}
    for undirected in (False, True):
        links = connectivity(problem, undirected, False)
        assert ask(["connect", *["--undirected"] * undirected], shuffled) == (0, b"k %d\n" % links, b"")
    checks(3)


@pytest.fixture
def run(flow, tmp_path):
    """What the runner prints, with another solver beside, and its status."""
    def run(collections, name, command, *more):
        done = subprocess.run(
            [sys.executable, ROOT / "bench/run.py", "--flow", flow, "--folder", tmp_path, "--runs", "1", "--nodes",
             str(NODES), "--sizes", str(ARCS), "--only", *collections, *more, "--also", name, command],
            stdout=subprocess.PIPE, stderr=subprocess.STDOUT, text=True)
        return done.stdout, done.returncode
    return run


@pytest.mark.long
def test_runner(run, flow):
    """The runner tells each family, and that all values agree."""
    told, status = run(["foreign", "own", "connect"], "plain", f"{flow} solve")
    assert status == 0 and "all values agree" in told
    assert [family for family in [*FLOWS, *CONNECT] if f"\n| {family} | " not in told] == []


@pytest.mark.long
@pytest.mark.parametrize("name, command, wanted", [
    ("wrong", "sh -c 'echo s 1'", "'wrong': 1"), ("slow", "sh -c 'while :; do :; done'", "| rope | <0.0")])
def test_runner_tells_of_a_solver(run, name, command, wanted):
    told, status = run(["rope"], name, command, "--alone")
    assert status == (name == "wrong") and wanted in told


def test_report(tmp_path):
    """The tables are put between their markers."""
    row = {"collection": "own", "family": "any", "size": 1, "order": "generated", "flow": "2.000", "one": "1.000"}
    pictures = [{**row, "collection": "real", "family": f"photograph-{name}-4", "flow": took}
                for name, took in (("a", "0.500"), ("b", "2.000"))]
    (tmp_path / "docs").mkdir()
    (tmp_path / "bench").mkdir()
    for name in ("README.md", "docs/BENCHMARKS.md"):
        (tmp_path / name).write_text(f"before\n{report.BEGIN}\nold\n{report.END}\nafter\n")
    report.Report("today", [row, *pictures], []).write(tmp_path)
    page, raw = ((tmp_path / name).read_text() for name in ("docs/BENCHMARKS.md", "bench/results/flows.csv"))
    assert page.startswith("before") and page.endswith("after\n") and "old" not in page
    assert "| any | **2.0 one** |" in page and "| photographs-4 | 1.0 one |" in page
    assert "own,any,1,generated,2.000" in raw
