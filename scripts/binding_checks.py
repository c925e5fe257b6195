"""What the tests of the package for Python share."""

import os
import pathlib
import re
import subprocess
import sys
from fractions import Fraction

import pytest

from independent import least

ROOT = pathlib.Path(__file__).resolve().parent.parent
PACKAGE = ROOT / "python"
sys.path[:0] = [str(PACKAGE)]


@pytest.fixture(autouse=True, scope="session")
def named_library(library):
    """Names the library to the package, here and in processes of their own."""
    os.environ["PROVEDFLOW_LIBRARY"] = str(library)


def refused(kind, words, call, *given, **named):
    """Asserts that a call raises an error of just this kind, whose text has these words."""
    with pytest.raises(kind, match=re.escape(words)) as failure:
        call(*given, **named)
    assert failure.type is kind


def refusals(call, *rows):
    """A test for each row that the call refuses: the kind of the error, words of its text, and what is given."""
    @pytest.mark.parametrize("kind, words, given", [(*row[:2], row[2:]) for row in rows], ids=[row[1] for row in rows])
    def test(kind, words, given):
        refused(kind, words, call, *given)
    return test


def least_cuts(nodes, arcs):
    """The least cost of a cut between node 0 and the last one, exactly, and the sides that have it, by trial of all."""
    arcs = [(u + 1, v + 1, weight if weight == float("inf") else Fraction(weight)) for u, v, weight in arcs]
    cost, sides = least(nodes, arcs, lambda inside: 1 in inside and nodes not in inside)
    return cost, [{v - 1 for v in side} for side in sides]


def assert_near(value, gap, of_cut, exact):
    """The exact value lies between a value and what its gap allows, and is the nearest float where there is none."""
    least = Fraction(value) - (Fraction(gap) if of_cut else 0)
    assert least <= exact <= least + Fraction(gap) if gap else value == float(exact), (value, gap, exact)


def python(*words, path="", **environment):
    """Runs Python with the package on its path: its status, what it printed, and its errors."""
    paths = os.pathsep.join(filter(None, [str(PACKAGE), path, os.environ.get("PYTHONPATH")]))
    done = subprocess.run([sys.executable, "-B", *words], capture_output=True, text=True, check=False, cwd=ROOT,
                          env={**os.environ, "PYTHONPATH": paths, **environment})
    return done.returncode, done.stdout, done.stderr
