#!/usr/bin/env python3
"""Compares flow with the libraries that are installed: from file to value, families of problems, CPU seconds.

It makes the problems in a folder outside the repository, runs flow and the others in turn, and prints the tables. With
--write it puts what was measured into bench/results/ and the tables into docs/BENCHMARKS.md and README.md. The others
are compiled from bench/others.cpp, as far as they are there (Debian: g++, liblemon-dev, libboost-graph-dev,
libigraph-dev, libmaxflow-dev); photographs are those of python3-skimage and opencv-doc (with python3-pil), packages
those that apt lists. The values of all have to agree: where two differ, the status is 1.
"""
import argparse
import concurrent.futures
import datetime
import itertools
import math
import os
import re
import resource
import shlex
import shutil
import signal
import subprocess
import sys
import tempfile
from pathlib import Path

HERE = Path(__file__).resolve().parent
sys.path.insert(0, str(HERE))
sys.dont_write_bytecode = True

import generate  # noqa: E402
import report  # noqa: E402

# The other solvers: for which library bench/others.cpp is compiled, with which words, its package, and its method.
OTHERS = {
    'LEMON': ('LEMON', [], 'liblemon-dev', 'preflow'),
    'Boost push-relabel': ('BOOST', [], 'libboost-graph-dev', 'push-relabel'),
    'Boost B-K': ('BOOST', [], 'libboost-graph-dev', 'boykov-kolmogorov'),
    'igraph': ('IGRAPH', ['-ligraph'], 'libigraph-dev', 'push-relabel'),
    'B-K': ('KOLMOGOROV', ['-lmaxflow', '-isystem/usr/include/maxflow-3.0'], 'libmaxflow-dev', 'boykov-kolmogorov'),
}
LINKS = {'LEMON N-I': ('LEMON', [], 'liblemon-dev', 'connect')}
MEMORY = 8 << 30
# How a program ends that the limit on its time stops: by a signal, or by way of GNU time by a status.
STOPPED = [way for number in (signal.SIGXCPU, signal.SIGKILL) for way in (-number, 128 + number)]


class Problem:
    """A problem, and what was measured on it: for each solver its least time, its memory at the peak in MiB, its value,
    or why it has none: the second at which it was stopped, or 'failed'."""

    def __init__(self, collection, family, size, order, path):
        self.collection, self.family, self.size, self.order, self.path = collection, family, size, order, path
        self.nodes, self.arcs = map(int, re.search(rb'^p max (\d+) (\d+)', path.open('rb').read(4096), re.M).groups())
        self.times, self.peaks, self.values, self.stopped = {}, {}, {}, {}

    def row(self):
        """What a table of results tells of it."""
        cells = {name: f'{took:.3f}' for name, took in self.times.items()}
        cells.update({name: why if why == 'failed' else f'>{why}' for name, why in self.stopped.items()})
        return {'collection': self.collection, 'family': self.family, 'size': self.size, 'order': self.order,
                'nodes': self.nodes, 'arcs': self.arcs, 'MiB of flow': self.peaks.get('flow', ''),
                'least MiB of others': min((peak for name, peak in self.peaks.items() if name != 'flow'), default=''),
                **cells}


def output_of(*words):
    """What a command prints; nothing where it can't be run or fails."""
    try:
        return subprocess.run(words, capture_output=True, text=True, check=True, timeout=120).stdout.strip()
    except (OSError, subprocess.SubprocessError):
        return ''


def compiled(folder, known):
    """The words of those other solvers whose library is there."""
    found, source = {}, HERE / 'others.cpp'
    for name, (library, words, _, method) in known.items():
        program = folder / library.lower()
        if shutil.which('g++') and not (program.exists() and program.stat().st_mtime > source.stat().st_mtime):
            output_of('g++', '-O2', '-w', f'-D{library}', '-o', program, source, *words)
        if program.exists():
            found[name] = [str(program), method]
    return found


def limits(seconds):
    """What a solver may take of the processor and of memory."""
    resource.setrlimit(resource.RLIMIT_CPU, (seconds, seconds + 1))
    resource.setrlimit(resource.RLIMIT_AS, (MEMORY, MEMORY))


def run_once(problem, name, words, seconds):
    """One run of a solver, stopped at so many seconds. GNU time, where it is there, tells the memory of the first."""
    seconds = math.ceil(seconds)
    with tempfile.TemporaryFile('w+') as out, tempfile.NamedTemporaryFile('r') as told:
        timer = ['time', '-f', '%M', '-o', told.name] if shutil.which('time') and name not in problem.times else []
        started = subprocess.Popen([*timer, *words, str(problem.path)], stdout=out, stderr=subprocess.STDOUT,
                                   stdin=subprocess.DEVNULL, preexec_fn=lambda: limits(seconds))
        _, status, used = os.wait4(started.pid, 0)
        started.returncode = os.waitstatus_to_exitcode(status)
        out.seek(0)
        value = re.search(r'^[sk] (\d+)', out.read(), re.M)
        peak = told.read().split()
    if started.returncode != 0 or not value:
        problem.stopped[name] = seconds if started.returncode in STOPPED else 'failed'
        return
    problem.values[name] = int(value[1])
    problem.times[name] = min(used.ru_utime + used.ru_stime, problem.times.get(name, math.inf))
    if peak:
        problem.peaks[name] = int(peak[-1]) // 1024


def measure(problem, own, others, given):
    """Runs all in turn, the least time of each counts. Flow's run comes first: another solver is stopped at ten times
    it and a second more, and isn't run again where it took more than twice the fastest other's time."""
    for turn in range(given.runs):
        least = min((took for name, took in problem.times.items() if name in others), default=math.inf)
        for name, words in {**own, **others}.items():
            took = problem.times.get(name, 0)
            if name in problem.stopped or turn and (took > 5 or name in others and took > 2 * least):
                continue
            ours = problem.times.get('flow', math.inf)
            run_once(problem, name, words, min(given.limit, 10 * ours + 1 if name in others else given.limit))
    times = [f'{name} {took:.3f}' for name, took in problem.times.items()]
    print(f'{problem.family} {problem.size} {problem.order}:', *times, *problem.stopped.items(), file=sys.stderr)


def problems(given, collections, sizes):
    """The problems of some collections at some sizes, in each order; those that aren't there yet are made first."""
    wanted = [(collection, family, size) for collection in collections for size in sizes
              for family in generate.COLLECTIONS[collection] if not given.only or {family, collection} & {*given.only}]
    missing = [what for what in ((family, size, given.seed) for _, family, size in wanted) if not all(
        generate.path_of(given.folder, *what, order).exists() for order in generate.ORDERS)]
    with concurrent.futures.ProcessPoolExecutor() as workers:
        list(workers.map(generate.write_both, itertools.repeat(given.folder), missing))
    return [Problem(*what, order, generate.path_of(given.folder, *what[1:], given.seed, order))
            for what in wanted for order in given.orders]


def disagreements(found):
    """The problems on which two solvers say different values."""
    return [f'{problem.family} {problem.size} {problem.order}: {problem.values}' for problem in found
            if len(set(problem.values.values())) > 1]


def measured_flows(given, flow, others):
    """What was measured of flows."""
    found = problems(given, ['foreign', 'own'], given.sizes) + problems(given, ['real'], [1])
    for problem in found:
        measure(problem, {'flow': [flow, 'solve', '--value']}, others, given)
    return found


def measured_links(given, flow, others):
    """What was measured of connect, beside another solver where links have no direction."""
    found = problems(given, ['connect'], given.nodes)
    for problem in found:
        directed = Problem('connect', problem.family, problem.size, problem.order, problem.path)
        measure(directed, {'directed': [flow, 'connect']}, {}, given)
        if not problem.family.startswith('directed'):
            measure(problem, {'flow': [flow, 'connect', '--undirected']}, others, given)
        problem.times.update(directed.times)
        problem.stopped.update(directed.stopped)
    return found


def machine():
    """What the machine is, in a line."""
    lines = Path('/proc/cpuinfo').read_text().splitlines()
    processor = next((line.split(': ')[1] for line in lines if line.startswith('model name')), 'an unnamed processor')
    memory = round(os.sysconf('SC_PAGE_SIZE') * os.sysconf('SC_PHYS_PAGES') / (1 << 30))
    return f'{processor}, {os.cpu_count()} cores, {memory} GiB'


def options():
    """The words of the command line."""
    parser = argparse.ArgumentParser(description=__doc__, formatter_class=argparse.RawDescriptionHelpFormatter)
    parser.add_argument('--flow', metavar='PROGRAM', help='the program to measure, in place of one built anew')
    parser.add_argument('--sizes', nargs='*', type=int, default=[200000, 2000000], help='arcs wanted (%(default)s)')
    parser.add_argument('--nodes', nargs='*', type=int, default=[10000, 1000000],
                        help='nodes of the networks for connect (%(default)s)')
    parser.add_argument('--orders', nargs='+', choices=generate.ORDERS, default=list(generate.ORDERS),
                        help='of nodes and arcs (%(default)s)')
    parser.add_argument('--seed', type=int, default=1, help='of the problems (%(default)s)')
    parser.add_argument('--runs', type=int, default=3, help='the least of which counts (%(default)s)')
    parser.add_argument('--limit', type=float, default=30, metavar='SECONDS', help='to stop a solver at (%(default)s)')
    cache = Path(os.environ.get('XDG_CACHE_HOME') or Path.home() / '.cache')
    parser.add_argument('--folder', type=Path, default=cache / 'flow-bench',
                        help='of problems and programs (%(default)s)')
    parser.add_argument('--only', nargs='+', default=[], metavar='NAME', help='families or collections (all)')
    parser.add_argument('--alone', action='store_true', help='without the libraries')
    parser.add_argument('--also', nargs=2, action='append', default=[], metavar=('NAME', 'COMMAND'),
                        help='one more solver of flows, whose last word will be the file and which prints s VALUE')
    parser.add_argument('--write', action='store_true', help='write bench/results/ and the tables of the documents')
    return parser.parse_args()


def main():
    given = options()
    given.folder.mkdir(parents=True, exist_ok=True)
    if not given.flow:
        subprocess.run(['bash', HERE.parent / 'scripts' / 'install.sh', given.folder / 'bin'], check=True)
    flow = str(Path(given.flow or given.folder / 'bin' / 'flow').resolve())
    others, links = ({}, {}) if given.alone else (compiled(given.folder, OTHERS), compiled(given.folder, LINKS))
    others.update({name: shlex.split(command) for name, command in given.also})
    flows, connects = measured_flows(given, flow, others), measured_links(given, flow, links)
    packages = dict.fromkeys(package for name, (_, _, package, _) in OTHERS.items() if name in others)
    versions = [f'{package} {output_of("dpkg-query", "-W", "-f", "${Version}", package)}' for package in packages]
    about = (f'{datetime.date.today().isoformat()} on {machine()}; {output_of(flow, "--version")}, '
             f'{", ".join(versions) or "no other library"}; seed {given.seed}, the least of {given.runs} runs')
    told = report.Report(about, [problem.row() for problem in flows], [problem.row() for problem in connects])
    if given.write:
        told.write(HERE.parent)
    else:
        print(told.page())
    wrong = disagreements(flows + connects)
    print('\n'.join(wrong) or 'all values agree', file=sys.stderr)
    return 1 if wrong else 0


if __name__ == '__main__':
    sys.exit(main())
