#!/usr/bin/env python3
"""Problems in the DIMACS maximum flow format, of the families that papers and users measure with.

usage: generate.py FAMILY SIZE [SEED] [--shuffle] > FILE

SIZE is a target, the number of arcs, of a network for `connect` that of its nodes: a family picks its dimensions to
come near it, and stays within the limits of a problem. A photograph has the size that it has, and so have the packages
that apt lists. With --shuffle the nodes are renamed and the arcs reordered at random. Equal words give equal files, but
for the packages of another day. With no words it lists the families and says what they are.
"""
import argparse
import gc
import os
import random
import sys
from pathlib import Path

sys.path.insert(0, str(Path(__file__).resolve().parent))

import families  # noqa: E402
import grids  # noqa: E402
import links  # noqa: E402
import networks  # noqa: E402
import packages  # noqa: E402

# The limits of a problem, and how many lines are written in one piece.
NODES, ARCS = 1000000, 4000000
PIECE = 50000
ORDERS = ('generated', 'shuffled')

# The families by collection: those that are hard for one method or another, those that `flow` was first measured with,
# and the problems that were found and not made, which have one size; then the networks for connect.
COLLECTIONS = {
    'foreign': families.FAMILIES,
    'own': {**grids.FAMILIES, **networks.FAMILIES},
    'real': {**grids.photographs(), **packages.FAMILIES},
    'connect': links.FAMILIES,
}
FAMILIES = {name: call for collection in COLLECTIONS.values() for name, call in collection.items()}


def several(terminals):
    """The sources or the sinks of a problem, of which it may have one or several."""
    return [terminals] if isinstance(terminals, int) else list(terminals)


def made(family, size, seed):
    """The problem of a family: its number of nodes, its sources, its sinks and its arcs."""
    nodes, sources, sinks, arcs = FAMILIES[family](random.Random(f'{family} {size} {seed}'), size)
    if nodes > NODES or len(arcs) > ARCS:
        raise ValueError(f'{family} of size {size}: {nodes} nodes and {len(arcs)} arcs are too many')
    return nodes, several(sources), several(sinks), arcs


def shuffled(problem, family, size, seed):
    """The same problem with its nodes renamed and its arcs reordered at random."""
    rand = random.Random(f'{family} {size} {seed} shuffled')
    nodes, sources, sinks, arcs = problem
    names = list(range(nodes))
    rand.shuffle(names)
    arcs = [(names[tail], names[head], capacity) for tail, head, capacity in arcs]
    rand.shuffle(arcs)
    return nodes, [names[node] for node in sources], [names[node] for node in sinks], arcs


def written(problem, family, size, seed):
    """The text of a problem, in pieces."""
    nodes, sources, sinks, arcs = problem
    yield f'c {family}, size {size}, seed {seed}\np max {nodes} {len(arcs)}\n'
    yield ''.join(f'n {node + 1} {kind}\n' for kind, some in (('s', sources), ('t', sinks)) for node in some)
    for start in range(0, len(arcs), PIECE):
        yield ''.join([f'a {tail + 1} {head + 1} {capacity}\n' for tail, head, capacity in arcs[start:start + PIECE]])


def path_of(folder, family, size, seed, order):
    """The file of a problem in a folder."""
    return Path(folder) / f'{family}-{size}-{seed}-{order}.max'


def write_both(folder, what):
    """Writes a problem in both orders; a file is there only when it's whole."""
    gc.disable()
    problem = made(*what)
    for order in ORDERS:
        path = path_of(folder, *what, order)
        unfinished = path.with_suffix(f'.{os.getpid()}.part')
        with unfinished.open('w', encoding='ascii') as out:
            out.writelines(written(problem if order == 'generated' else shuffled(problem, *what), *what))
        unfinished.rename(path)
    print(f'made {path.name}', file=sys.stderr)


def main():
    if len(sys.argv) < 2 or sys.argv[1] not in FAMILIES:
        print(__doc__)
        for collection, calls in COLLECTIONS.items():
            print(f'{collection}:', *(f'  {name}: {" ".join(call.__doc__.split())}' for name, call in calls.items()),
                  sep='\n')
        return 2
    parser = argparse.ArgumentParser(description=__doc__, formatter_class=argparse.RawDescriptionHelpFormatter)
    parser.add_argument('family', choices=FAMILIES)
    parser.add_argument('size', type=int)
    parser.add_argument('seed', type=int, nargs='?', default=1)
    parser.add_argument('--shuffle', action='store_true')
    given = parser.parse_args()
    what = given.family, given.size, given.seed
    problem = made(*what)
    sys.stdout.writelines(written(shuffled(problem, *what) if given.shuffle else problem, *what))
    return 0


if __name__ == '__main__':
    sys.exit(main())
