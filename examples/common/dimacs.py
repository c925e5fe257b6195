"""Problems with nodes of any name, and `flow` run on them.

Copy this file beside your own script. It needs Python's standard library and the program `flow`.

    problem = Problem()
    problem.source("quarry")
    problem.sink("port")
    problem.arc("quarry", "mill", 3)
    problem.arc("mill", "port", 2)
    flow = Flow()
    print(flow.value(problem))               # 2
    print(flow.cut(problem).arcs)            # [('mill', 'port', 2)]

A problem is written in the DIMACS maximum flow format (First DIMACS Implementation Challenge, 1990). A name gets the
next number from 1 when it is first heard of.
"""

import os
import shutil
import subprocess
from collections import namedtuple

Cut = namedtuple("Cut", "value source_side arcs")
"""A minimum cut: its capacity, the names on its source side, and the arcs that leave them as (from, to, capacity)."""


class FlowFailed(OSError):
    """The program refused its input or failed; the text is what it said."""


class Problem:
    """A maximum flow problem. Names may be of any kind that a dict takes: words, numbers, pairs."""

    def __init__(self):
        self.names, self.sources, self.sinks, self.arcs, self._numbers = [], [], [], [], {}

    def node(self, name):
        """The number of a name, from 1."""
        if name not in self._numbers:
            self.names.append(name)
            self._numbers[name] = len(self.names)
        return self._numbers[name]

    def source(self, *names):
        """Makes nodes sources. A source gives as much as its arcs take."""
        self.sources.extend(map(self.node, names))

    def sink(self, *names):
        """Makes nodes sinks. A sink takes as much as its arcs bring."""
        self.sinks.extend(map(self.node, names))

    def arc(self, src, dst, capacity):
        """Adds an arc. Parallel arcs add up."""
        self.arcs.append((self.node(src), self.node(dst), capacity))

    def text(self):
        """The problem in the DIMACS format."""
        lines = [f"p max {len(self.names)} {len(self.arcs)}\n"]
        lines += [f"n {number} s\n" for number in self.sources]
        lines += [f"n {number} t\n" for number in self.sinks]
        return "".join(lines + [f"a {src} {dst} {capacity}\n" for src, dst, capacity in self.arcs])


class Flow:
    """The program `flow`, which answers questions on problems: the one that is named, `bin/flow` of the repository that
    this file lies in, or the one on the PATH."""

    def __init__(self, program=None):
        built = os.path.join(os.path.dirname(os.path.abspath(__file__)), "..", "..", "bin", "flow")
        self.program = program or (built if os.access(built, os.X_OK) else shutil.which("flow"))
        if self.program is None:
            raise FlowFailed("the program flow was not found: put it on the PATH, or into bin of the repository")

    def value(self, problem):
        """The greatest value of a flow from the sources to the sinks."""
        return int(self._run(problem, "solve", "--value").split()[1])

    def solve(self, problem):
        """The greatest value, and one of the flows that have it, for each arc in the order in which arcs were added."""
        first, *rest = self._run(problem, "solve").splitlines()
        return int(first.split()[1]), [int(line.split()[3]) for line in rest]

    def cut(self, problem, sink=False):
        """The minimum cut nearest the sources, or with `sink` the one nearest the sinks."""
        first, *rest = map(str.split, self._run(problem, "cut", "--arcs", *["--sink"] * sink).splitlines())
        names = problem.names
        arcs = [(names[int(src) - 1], names[int(dst) - 1], int(capacity))
                for src, dst, capacity in (line[1:] for line in rest if line[0] == "a")]
        return Cut(int(first[1]), {names[int(line[1]) - 1] for line in rest if line[0] == "n"}, arcs)

    def _run(self, problem, *words):
        done = subprocess.run([self.program, *words], input=problem.text(), capture_output=True, text=True, check=False)
        if done.returncode != 0:
            raise FlowFailed(done.stderr.strip() or f"flow ended with status {done.returncode}")
        return done.stdout
