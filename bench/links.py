"""Networks to test the redundancy of: every capacity is 1, the first node is the source, the last the sink.

Each takes a random generator and the number of nodes wanted. A problem is as in networks.py.
"""
import math

import networks


def unit(nodes, pairs):
    return nodes, 0, nodes - 1, [(tail, head, 1) for tail, head in pairs]


def grid(_, nodes):
    """A square grid."""
    side = max(2, math.isqrt(nodes))
    return unit(side * side, networks.lattice(side, side))


def small_world(rand, nodes):
    """Watts and Strogatz 1998: a ring, each node joined to four on either side, a tenth of the ends moved."""
    return unit(nodes, [(i, (i + j) % nodes if rand.random() > .1 else int(nodes * rand.random()))
                        for i in range(nodes) for j in range(1, 5)])


def attachment(rand, nodes):
    """Barabasi and Albert 1999: each new node is joined to four earlier ones, the busier the likelier."""
    return unit(nodes, networks.attached(rand, nodes))


def two_halves(rand, nodes):
    """Two halves in which every node has six neighbours, joined by three links."""
    half = nodes // 2
    pairs = [(base + i, base + (i + step) % half) for base in (0, half) for i in range(half) for step in (1, 53, 1999)]
    return unit(2 * half, pairs + [(int(half * rand.random()), half + int(half * rand.random())) for _ in range(3)])


def tree_with_links(rand, nodes):
    """A tree in which a node hangs on one of the fifty before it, and a link more for every fifth node."""
    pairs = [(i, max(0, i - 1 - int(50 * rand.random()))) for i in range(1, nodes)]
    return unit(nodes, pairs + [(int(nodes * rand.random()), int(nodes * rand.random())) for _ in range(nodes // 5)])


def ring(_, nodes):
    """A ring and nothing else."""
    return unit(nodes, [(i, (i + 1) % nodes) for i in range(nodes)])


def regular(rand, nodes, degree):
    """So many links at each node, which is how many random matchings."""
    orders = [rand.sample(range(nodes), nodes // 2 * 2) for _ in range(degree)]
    return unit(nodes, [pair for order in orders for pair in zip(order[::2], order[1::2])])


def cubic(rand, nodes):
    """Three random links at each node."""
    return regular(rand, nodes, 3)


def six_regular(rand, nodes):
    """Six random links at each node."""
    return regular(rand, nodes, 6)


def ring_with_matching(rand, nodes):
    """A ring, and one random link more at each node."""
    nodes, source, sink, arcs = regular(rand, nodes, 1)
    return nodes, source, sink, arcs + ring(rand, nodes)[3]


def torus(_, nodes):
    """A square grid closed to a ring in both directions."""
    side = max(3, math.isqrt(nodes))
    return unit(side * side, [(i * side + j, head) for i in range(side) for j in range(side)
                              for head in (i * side + (j + 1) % side, (i + 1) % side * side + j)])


def hypercube(_, nodes):
    """The corners of a cube of up to 18 dimensions, joined along its edges."""
    dimensions = min(18, nodes.bit_length() - 1)
    return unit(1 << dimensions, [(i, i | 1 << bit) for i in range(1 << dimensions) for bit in range(dimensions)
                                  if not i >> bit & 1])


def hubs(rand, nodes):
    """A hub for every ten thousand nodes, at least four of them, and each other node joined to two."""
    count = max(4, nodes // 10000)
    pairs = []
    for node in range(count, nodes):
        hub = int(count * rand.random())
        pairs += [(node, hub), (node, (hub + 1 + int((count - 1) * rand.random())) % count)]
    return unit(nodes, pairs)


def clusters(rand, nodes):
    """Groups of eight nodes that are all joined to one another, in a ring: two links from a group to the next."""
    groups = max(2, nodes // 8)
    pairs = []
    for group in range(groups):
        pairs += [(8 * group + i, 8 * group + j) for i in range(8) for j in range(i)]
        pairs += [(8 * group + int(8 * rand.random()), (group + 1) % groups * 8 + int(8 * rand.random()))
                  for _ in range(2)]
    return unit(8 * groups, pairs)


def complete(_, nodes):
    """A link between any two of up to 2,000 nodes."""
    nodes = min(nodes, 2000)
    return unit(nodes, [(i, j) for i in range(nodes) for j in range(i + 1, nodes)])


def directed_attachment(rand, nodes):
    """Each of up to 300,000 nodes has two arcs to earlier ones and two from them, the busier the likelier."""
    nodes = min(nodes, 300000)
    pairs = [(i, j) for i in range(4) for j in range(4) if i != j]
    ends = [end for pair in pairs for end in pair]
    for node in range(4, nodes):
        one, two, three, four = (ends[int(len(ends) * rand.random())] for _ in range(4))
        pairs += [(node, one), (node, two), (three, node), (four, node)]
        ends += [node, one, node, two, node, three, node, four]
    return unit(nodes, pairs)


def directed_permutations(rand, nodes):
    """Three random permutations, each a single cycle: three arcs out of each node, and three into it."""
    pairs = []
    for _ in range(3):
        cycle = list(range(nodes))
        rand.shuffle(cycle)
        pairs += zip(cycle, cycle[1:] + cycle[:1])
    return unit(nodes, sorted(pairs))


def directed_torus(_, nodes):
    """A torus of three dimensions, each link one way."""
    side = max(2, round(min(nodes, 970299) ** (1 / 3)))
    return unit(side ** 3, [(here, here - here // step % side * step + (here // step + 1) % side * step)
                            for here in range(side ** 3) for step in (1, side, side ** 2)])


FAMILIES = networks.collected(globals(), 'nodes')
