"""The edge connectivity of many networks, held against all sets of nodes and against flows to each node.

The small networks have at most seven nodes and are held against all sets of nodes: links both ways, single arcs,
parallel and opposite ones, self-loops, even degrees, bridges and pieces. The composed ones have some hundred nodes:
rings, complete parts, circulants, permutations, lattices, trees and hubs that few links join, parts of parts. The
regular ones have three, five or seven links at each node, at random, so that forests need all arcs. Both are held
against the greatest flows from one node to each other and back. Each network is asked directed and undirected, by the
package for Python, and each hundredth also by the program. A ring of 300,000 nodes in no order is asked by the
program, since rows of so many are filled slice by slice.
"""
import random
from array import array

import pytest

import provedflow
from independent import text_of

np = pytest.importorskip("numpy")


def by_sets(nodes, arcs):
    """The least numbers of arcs that leave a set which is neither empty nor all, and that have one end in such a set;
    nodes count from 0."""
    sets = np.arange(1, 2**nodes - 1)[:, None]
    tails, heads = np.array(arcs, int).reshape(-1, 2).T
    leaving = (sets >> tails & ~(sets >> heads) & 1).sum(axis=1)
    return leaving.min(), (leaving + leaving[::-1]).min()


def both_ways(arcs):
    """The arcs, and each of them turned round."""
    return arcs + [(head, tail) for tail, head in arcs]


def ends(arcs):
    """The tails and the heads, as the package for Python takes them without a copy."""
    return array("I", (tail for tail, _ in arcs)), array("I", (head for _, head in arcs))


def least_flow(nodes, arcs, pairs):
    """The least of the greatest values between the nodes of some pairs, one unit for an arc."""
    src, dst = ends(arcs)
    units = array("Q", [1]) * len(arcs)
    return min(provedflow.maximum_flow(src, dst, units, source, sink, nodes).value for source, sink in pairs)


def by_flows(nodes, arcs):
    """The same numbers as the least of the greatest values from the first node to each other and back; where each
    arc is there both ways, as much comes back."""
    there, back = [(0, node) for node in range(1, nodes)], [(node, 0) for node in range(1, nodes)]
    return least_flow(nodes, arcs, there + back), least_flow(nodes, both_ways(arcs), there)


def closed_walk(rand, nodes):
    """The arcs of a walk that comes back to where it began: as many leave each node as enter it."""
    walk = [rand.randrange(nodes) for _ in range(rand.randint(2, 3 * nodes))]
    return list(zip(walk, walk[1:] + walk[:1]))


def some_arcs(rand, nodes):
    return [(rand.randrange(nodes), rand.randrange(nodes)) for _ in range(rand.randint(0, 5 * nodes))]


def two_parts(rand, nodes):
    """Arcs within either of two parts, and a few between them."""
    part = rand.randint(1, nodes - 1)
    inner = [(tail, head) for tail, head in some_arcs(rand, nodes) * 2 if (tail < part) == (head < part)]
    return inner + [(rand.randrange(part), rand.randrange(part, nodes))[::rand.choice((1, -1))]
                    for _ in range(rand.randint(0, 3))]


def small(rand):
    nodes = rand.randint(2, 7)
    arcs = rand.choice((some_arcs, closed_walk, two_parts))(rand, nodes)
    if rand.random() < .4:
        arcs = both_ways(arcs)
    if rand.random() < .3:
        arcs += arcs
    if rand.random() < .3:
        rand.shuffle(arcs)
    return nodes, arcs


def wheel(size, steps):
    return [(i, (i + step) % size) for i in range(size) for step in steps]


# The links of a part by its shape, of so many nodes, where each is to have about so many links.
PARTS = {
    "ring": lambda rand, size, links: wheel(size, [1] * ((links + 1) // 2)),
    "complete": lambda rand, size, links: [(i, j) for i in range(min(size, 24)) for j in range(i)] + [
        (i, i - 1) for i in range(24, size) for _ in range(links)],
    "circulant": lambda rand, size, links: wheel(size, range(1, links // 2 + 2)),
    "permutations": lambda rand, size, links: wheel(size, [1]) + [
        pair for _ in range((links + 1) // 2) for pair in zip(range(size), rand.sample(range(size), size))],
    "lattice": lambda rand, size, links: wheel(size, (1, int(size ** .5), int(size ** .5) + 1)[:2 + (links > 4)]),
    "tree": lambda rand, size, links: [(i, max(0, i - rand.randint(1, 8))) for i in range(1, size)
                                       for _ in range(links)],
    "hubs": lambda rand, size, links: wheel(max(1, size // 10), [1] * links) + [
        (i, (i + rand.randrange(size)) % max(1, size // 10)) for i in range(max(1, size // 10), size)
        for _ in range(links)],
}


def composed_links(rand, first, size, links, depth):
    """The links of a network of the nodes from `first` on: of one shape, or of parts that few links join."""
    if size <= 6 or depth == 0 or rand.random() < .1:
        part = rand.choice([*PARTS.values()])(rand, size, links)
        return [(first + i, first + j) for i, j in part if i != j or links > 4]
    parts = min(rand.randint(2, rand.choice((8, 30))), size // 2)
    starts = [first + size * part // parts for part in range(parts)] + [first + size]
    found = []
    for start, end in zip(starts, starts[1:]):
        found += composed_links(rand, start, end - start, links, depth - 1)
    shape = PARTS[rand.choice(("ring", "circulant", "lattice", "tree"))](rand, parts, links)
    return found + [(rand.randrange(starts[i], starts[i + 1]), rand.randrange(starts[j], starts[j + 1]))
                    for i, j in shape]


def composed(rand):
    """Nodes and arcs: most links both ways, or all one way at random, or all both ways; mostly in no order."""
    nodes, links = rand.randint(40, 200), rand.randint(1, 7)
    names = rand.sample(range(nodes), nodes) if rand.random() < .6 else range(nodes)
    one_way = rand.choice((0, 0, .05, 1))
    arcs = []
    for tail, head in composed_links(rand, 0, nodes, links, rand.randint(1, 4)):
        ends = (names[tail], names[head])[::rand.choice((1, -1))]
        arcs += [ends] if rand.random() < one_way else [ends, ends[::-1]]
    return nodes, arcs


def regular(rand):
    """An odd number of links at each node, drawn at random until none is a self-loop."""
    nodes, links = 2 * rand.randint(20, 100), rand.choice((3, 5, 7))
    ends = [node for node in range(nodes) for _ in range(links)]
    while any(tail == head for tail, head in zip(ends[::2], ends[1::2])):
        rand.shuffle(ends)
    return nodes, list(zip(ends[::2], ends[1::2]))


# What makes networks of a kind, how many there are, and in tests of how many. Only small ones have few enough sets.
KINDS = {"composed": (composed, 1_000, 100), "regular": (regular, 200, 100), "small": (small, 100_000, 5_000)}
FIRST_SEED = 1736


@pytest.fixture
def by_library(library, monkeypatch):
    monkeypatch.setenv("PROVEDFLOW_LIBRARY", str(library))
    return lambda nodes, arcs, **named: provedflow.edge_connectivity(*ends(arcs), nodes, **named)


@pytest.fixture
def by_program(ask):
    def by_program(nodes, arcs, *flags):
        return ask(["connect", *flags], text_of(nodes, [(u + 1, v + 1, 1) for u, v in arcs], [1], [2]))
    return by_program


def links(number):
    """What the program answers for a connectivity."""
    return 0, b"k %d\n" % number, b""


@pytest.mark.long
@pytest.mark.parametrize("kind, first", [(kind, FIRST_SEED + at) for kind, (_, count, batch) in KINDS.items()
                                         for at in range(0, count, batch)])
def test_networks(by_library, by_program, checks, kind, first):
    made = 0
    make, _, batch = KINDS[kind]
    for seed in range(first, first + batch):
        nodes, arcs = make(random.Random(f"{kind} {seed}"))
        directed, undirected = (by_sets if kind == "small" else by_flows)(nodes, arcs)
        assert by_library(nodes, arcs) == directed, (seed, nodes, arcs)
        assert by_library(nodes, arcs, directed=False) == undirected, (seed, nodes, arcs)
        made += 2
        if seed % 100 == 0:
            assert by_program(nodes, arcs) == links(directed), (seed, nodes, arcs)
            assert by_program(nodes, arcs, "--undirected") == links(undirected), (seed, nodes, arcs)
            made += 2
    checks(made)


def test_large_ring(by_program, checks):
    """The ring is too large for a solve for each node."""
    nodes = list(range(300_000))
    random.Random(1736).shuffle(nodes)
    arcs = list(zip(nodes, nodes[1:] + nodes[:1]))
    random.Random(1737).shuffle(arcs)
    assert by_program(len(nodes), arcs) == links(1)
    assert by_program(len(nodes), arcs, "--undirected") == links(2)
    checks(2)
