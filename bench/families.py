"""Families that are hard for one method or another.

A problem is its number of nodes, its source or sources, its sink or sinks, and its arcs as triples of tail, head and
capacity. Nodes are numbers from 0. Each family takes a random generator and the number of arcs wanted.
"""
import math

import networks
from networks import lattice

NODES = networks.NODES
AMPLE = 10 ** 12


def joined(nodes, sources, sinks, arcs, capacity=AMPLE):
    """The problem with one source and one sink more, from and to which ample arcs lead."""
    return nodes + 2, nodes, nodes + 1, [*((nodes, node, capacity) for node in sources), *arcs,
                                         *((node, nodes + 1, capacity) for node in sinks)]


def two_way(pairs, capacity):
    """An arc each way between the nodes of each pair, both of one capacity."""
    return [arc for one, other in pairs for most in [capacity()] for arc in ((one, other, most), (other, one, most))]


def sides(height, width):
    """The nodes of a grid's first column and of its last."""
    return range(0, height * width, width), range(width - 1, height * width, width)


def upto(rand, most):
    """A function that draws a number from 1 to that."""
    return lambda: 1 + int(most * rand.random())


def root(arcs, share):
    """The side of a square of as many nodes as get that share of the arcs, within the limits."""
    return max(4, math.isqrt(min(NODES, int(arcs / share))))


# Dense networks.

def dense_chain(_, arcs):
    """Waissi 1991: an arc from each node to every later one, wide to the next node and of 1 else."""
    nodes = math.isqrt(2 * arcs)
    return nodes, 0, nodes - 1, [(i, j, nodes if j == i + 1 else 1) for i in range(nodes) for j in range(i + 1, nodes)]


def backward_arcs(rand, arcs):
    """After Waissi 1991: a wide chain, an arc of 1 from each node to the sink, and forty arcs back from each node."""
    nodes, draw = max(8, arcs // 42), upto(rand, 1000)
    return nodes, 0, nodes - 1, [arc for i in range(nodes - 1) for arc in (
        (i, i + 1, nodes), (i, nodes - 1, 1), *((i, int(i * rand.random()), draw()) for _ in range(40 if i else 0)))]


def zadeh(_, arcs):
    """Zadeh 1972: two full sides, entered and left in turn by ever longer chains."""
    side = 2 * max(1, math.isqrt(arcs // 8))
    right, down, up = side, 2 * side, 3 * side + 1
    found = [(i, right + j, 1) for i in range(side) for j in range(side)]
    for i in range(side):
        found += [(down + i, down + i + 1, AMPLE), (up + i + 1, up + i, AMPLE)]
        to, back = (0, right) if i % 4 == 0 else (right, 0)
        found += [arc for j in range(side if i % 2 == 0 else 0)
                  for arc in ((down + i, to + j, side), (back + j, up + i, side))]
    return 4 * side + 2, down, up, found


def dense_window(rand, arcs):
    """Sixty arcs from each node to others at most a hundred nodes away."""
    nodes, draw = max(12, arcs // 60), upto(rand, 10000)
    heads = ((i, i + int(201 * rand.random()) - 100) for i in range(nodes) for _ in range(60))
    ends = range(min(100, nodes // 4))
    return joined(nodes, ends, [nodes - 1 - i for i in ends], [(i, j, draw()) for i, j in heads if 0 <= j < nodes])


def dense_band(rand, arcs):
    """Each node joined to the twenty after it."""
    nodes = max(44, arcs // 40)
    pairs = ((i, j) for i in range(nodes) for j in range(i + 1, min(nodes, i + 21)))
    return joined(nodes, range(20), range(nodes - 20, nodes), two_way(pairs, upto(rand, 1000)))


def dense_layers(rand, arcs):
    """Layers of eighty nodes, an arc from each node to every node of the next layer, one of ten wide."""
    width = min(80, math.isqrt(arcs // 4))
    count, narrow, wide = max(3, arcs // width ** 2), upto(rand, 10), upto(rand, 10000)
    return networks.levels(width, count, AMPLE, lambda _: range(width),
                           lambda: wide() if rand.random() < .1 else narrow())


def flights(rand, arcs):
    """A network over time: sixty airports, flights between any two at each time, and planes that wait."""
    size, draw = min(60, math.isqrt(arcs // 4)), upto(rand, 30)
    times = max(3, arcs // size ** 2)
    found = [(at * size + a, (at + 1) * size + b, 500 if a == b else draw())
             for at in range(times - 1) for a in range(size) for b in range(size)]
    return joined(size * times, range(size), range(size * (times - 1), size * times), found, 10000)


# Chains, traps and bottlenecks.

def two_chains(_, arcs):
    """A chain from the source, one to the sink, and rungs of 1: each shortest path is two arcs longer than the last."""
    nodes = min(NODES // 2, arcs // 3)
    found = [arc for i in range(nodes - 1) for arc in ((i, i + 1, nodes), (nodes + i + 1, nodes + i, nodes))]
    return 2 * nodes, 0, nodes, found + [(i, nodes + i, 1) for i in range(nodes)]


def traps(rand, arcs):
    """Pockets in a row: a wide path of sixty-four nodes into each, and two narrow arcs out."""
    count, wide, narrow = max(2, min(NODES // 65, arcs // 130)), upto(rand, 1000), upto(rand, 10)
    found = []
    for base in range(0, 65 * count, 65):
        found += [arc for i in range(64) for arc in ((base + i, base + i + 1, 100 + wide()), (base + i + 1, base, 2))]
        found += [(base, base + 65, narrow()), (base + 64, base + 65, 1)]
    return 65 * count + 1, 0, 65 * count, found


def hubs_in_a_row(rand, arcs):
    """Few hubs in a row, a thousand nodes between each and the next."""
    between = min(999, arcs // 16)
    count = max(3, min(NODES // (between + 1), arcs // (4 * between) + 1))
    pairs = (pair for hub in range(count - 1) for i in range(between)
             for pair in ((hub, count + hub * between + i), (count + hub * between + i, hub + 1)))
    return count + (count - 1) * between, 0, count - 1, two_way(pairs, upto(rand, 100))


def bottlenecks(rand, arcs):
    """A grid with a wall at each thirty-second column, of which one node in fifty is open."""
    side = root(arcs, 4)
    pairs = (pair for pair in lattice(side, side) if pair[1] - pair[0] > 1 or pair[0] % side % 32 != 31
             or rand.random() < .02)
    return joined(side * side, *sides(side, side), two_way(pairs, upto(rand, 1000)))


# Grids and many terminals.

def strong_smoothing(rand, arcs):
    """A picture of noise to be cut in two, its neighbours joined far more strongly than pixels are to the terminals."""
    side = root(arcs, 5)
    source, sink = side * side, side * side + 1
    costs = enumerate(int(2001 * rand.random()) - 1000 for _ in range(side * side))
    return side * side + 2, source, sink, two_way(lattice(side, side), upto(rand, 6000)) + [
        (source, here, cost) if cost > 0 else (here, sink, -cost) for here, cost in costs if cost]


def elastic_surface(rand, arcs):
    """A surface of least cost through a cube that never turns back (Zeng, Middleton and Shapir 1996)."""
    side, draw = max(3, round((arcs / 5) ** (1 / 3))), upto(rand, 10000)
    found = []
    for here in range(side ** 3):
        z, y, x = here // side ** 2, here // side % side, here % side
        if x + 1 < side:
            found += [(here, here + 1, draw()), (here + 1, here, AMPLE)]
            found += [(here, here + step + 1, AMPLE // 1000) for step, inside in
                      ((side, y + 1 < side), (-side, y > 0), (side ** 2, z + 1 < side)) if inside]
    return joined(side ** 3, *sides(side ** 2, side), found)


def strokes(rand, arcs):
    """A picture cut between strokes whose pixels are themselves sources and sinks, thousands of them."""
    side, marked = max(16, root(arcs, 4)), [set(), set()]
    for turn in range(16):
        high, wide = ((3, side // 4), (side // 4, 3))[turn // 2 % 2]
        top, left = int((side - high) * rand.random()), int((side - wide) * rand.random())
        marked[turn % 2] |= {(top + i) * side + left + j for i in range(high) for j in range(wide)}
    links = two_way(lattice(side, side), lambda: 1 + int(400 * rand.random() ** 4))
    return side * side, sorted(marked[0]), sorted(marked[1] - marked[0]), links


def random_terminals(rand, arcs):
    """Three arcs for each node drawn at random, an eighth of the nodes sources and an eighth sinks."""
    nodes, draw = max(8, min(NODES, arcs // 3)), upto(rand, 100)
    order = rand.sample(range(nodes), nodes // 8 * 2)
    return nodes, order[::2], order[1::2], [(int(nodes * rand.random()), int(nodes * rand.random()), draw())
                                            for _ in range(arcs)]


def terminals_aside(rand, arcs):
    """A grid: a fifth of the nodes of its west third are sources, and of its east third sinks."""
    side = root(arcs, 4)
    chosen = [here for here in range(side * side) if rand.random() < .2] + [0, side - 1]
    return side * side, {here for here in chosen if here % side < side // 3}, \
        {here for here in chosen if here % side >= side - side // 3}, two_way(lattice(side, side), upto(rand, 100))


def escape(rand, arcs):
    """Ways from random points of a grid to its border that share no node."""
    side = max(4, math.isqrt(min(NODES // 2, arcs // 5)))
    count, found, starts = side * side, [(here, side * side + here, 1) for here in range(side * side)], [side + 1]
    found += [arc for one, other in lattice(side, side) for arc in ((count + one, other, 1), (count + other, one, 1))]
    border = {*range(side), *range(count - side, count), *range(0, count, side), *range(side - 1, count, side)}
    starts += [here for here in range(side + 2, count) if here not in border and rand.random() < 4 / side]
    return joined(2 * count, starts, [count + here for here in sorted(border)], found, 1)


# Parallel arcs and capacities of 0.

def parallel_arcs(rand, arcs):
    """Random levels, each arc in twelve pieces."""
    nodes, source, sink, found = networks.random_levels(rand, arcs // 12)
    return nodes, source, sink, [(tail, head, 1 + int(most * rand.random() / 6)) for tail, head, most in found
                                 for _ in range(12)]


def zero_capacities(rand, arcs):
    """A grid of wide and narrow streets, and for each arc twelve of capacity 0 anywhere."""
    side = root(arcs, 52)
    nodes, source, sink, found = joined(side * side, *sides(side, side), two_way(lattice(side, side), upto(rand, 1000)))
    return nodes, source, sink, [arc for each in found for arc in (each, *(
        (int(nodes * rand.random()), int(nodes * rand.random()), 0) for _ in range(12)))]


# Matchings.

def bipartite(side, choices, capacity=1):
    """A matching of two sides, with the pairs that may be matched."""
    return joined(2 * side, range(side), range(side, 2 * side), [(i, side + j, 1) for i, j in choices], capacity)


def sparse_matching(rand, arcs):
    """A random matching with 2.7 choices for each node, where most searches go far."""
    side = min(NODES // 2, arcs * 10 // 47)
    return bipartite(side, sorted((int(side * rand.random()), int(side * rand.random()))
                                  for _ in range(int(2.7 * side))))


def chain_matching(_, arcs):
    """Each node may be matched with its own number or the next, the next being tried first."""
    side = min(NODES // 2, arcs // 4)
    return bipartite(side, [(i, j) for i in range(side) for j in (i + 1, i) if j < side])


def rope(rand, arcs):
    """Cherkassky, Goldberg, Martin, Setubal and Stolfi 1998: groups of nodes strung in a row, dense and single in
    turn, so that the shortest augmenting paths grow long."""
    side = max(2, min(NODES // 128, arcs // 352)) * 64
    near = [(i, i // 64 * 64 + int(64 * rand.random())) for i in range(side) if i // 64 % 2 == 0 for _ in range(5)]
    far = [(i, (i + 64) % side) for i in range(side) if i // 64 % 2 == 1]
    back = [(i, i - 64) for i in range(64, side)]
    return bipartite(side, sorted(near + far + back))


def few_servers(rand, arcs):
    """Jobs with four servers each, of which a few are wanted by most, each server for two hundred jobs."""
    jobs = min(NODES * 9 // 10, arcs // 5)
    servers, found = max(2, jobs // 200), [(i, jobs + int(max(2, jobs // 200) * rand.random() ** 2), 1)
                                           for i in range(jobs) for _ in range(4)]
    nodes, source, sink, found = joined(jobs + servers, range(jobs), [], found, 1)
    return nodes, source, sink, found + [(jobs + i, sink, 200) for i in range(servers)]


# Applications.

def shifts(rand, arcs):
    """Jobs that may be worked at in up to forty hours in a row, each hour with so many hands (Horn 1974)."""
    jobs, hours, draw = max(2, arcs // 22), max(100, arcs // 400), upto(rand, 40)
    found = []
    for job in range(jobs):
        length = draw()
        begin = jobs + int((hours - length) * rand.random())
        found += [(jobs + hours, job, 1 + length // 3), *((job, begin + i, 1) for i in range(length))]
    found += [(jobs + hour, jobs + hours + 1, int(10 * jobs / hours * rand.random())) for hour in range(hours)]
    return jobs + hours + 2, jobs + hours, jobs + hours + 1, found


def deep_pit(rand, arcs):
    """Picard 1976: an open pit in columns two thousand blocks deep, in which all that is worth the work lies at the
    bottom; one such block in fifty has to be dug out (a lower bound of 1)."""
    depth = min(2000, arcs // 10)
    nodes, cost, worth = depth * max(1, min(NODES, arcs * 10 // 22) // depth), upto(rand, 120), upto(rand, 100000)
    found = [(here, nodes + 1, cost()) for here in range(nodes)]
    found += [(nodes, here, AMPLE if rand.random() < .02 else worth()) for here in range(nodes) if here % depth < 20]
    above = [here for here in range(nodes) if (here + 1) % depth]
    found += [(here, here + 1, AMPLE) for here in above]
    return nodes + 2, nodes, nodes + 1, found + [
        (here, (here + 1 + depth * int(100 * rand.random())) % nodes, AMPLE) for here in above if rand.random() < .2]


def circulation(rand, arcs):
    """Hoffman 1960: has a random network with lower bounds on its arcs a circulation? It has if the source's arcs are
    full."""
    nodes, draw = max(4, arcs // 5), upto(rand, 1000)
    found, excess = [], [0] * nodes
    for _ in range(4 * nodes):
        tail, head, least = int(nodes * rand.random()), int(nodes * rand.random()), draw()
        excess[head] += least
        excess[tail] -= least
        found.append((tail, head, draw()))
    return nodes + 2, nodes, nodes + 1, found + [
        (nodes, node, more) if more > 0 else (node, nodes + 1, -more) for node, more in enumerate(excess) if more]


def fat_tree(rand, arcs):
    """Leiserson 1985: the switches of a data centre, half of whose hosts send to the other half."""
    half = max(2, round((arcs / 14) ** (1 / 3)))
    hosts, low, core = 2 * half ** 3, 2 * half ** 3, 2 * half ** 3 + 4 * half ** 2
    pairs = [(host, low + host // half) for host in range(hosts)]
    for edge in range(2 * half ** 2):
        high = low + 2 * half ** 2 + edge // half * half
        pairs += [(low + edge, high + i) for i in range(half)]
        pairs += [(high + edge % half, core + edge % half * half + i) for i in range(half)]
    return joined(core + half ** 2, range(hosts // 2), range(hosts // 2, hosts), two_way(pairs, upto(rand, 100)), 100)


# Random networks and those of few distances.

def expander(rand, arcs):
    """Three random links at each node."""
    nodes = max(20, min(NODES, arcs // 3)) // 2 * 2
    ends = [rand.sample(range(nodes), nodes) for _ in range(3)]
    links = two_way((pair for order in ends for pair in zip(order[::2], order[1::2])), upto(rand, 1000))
    return joined(nodes, range(nodes // 20), range(nodes - nodes // 20, nodes), links)


def cube_corners(rand, arcs):
    """The corners of a cube of many dimensions, from one corner to the opposite one."""
    size = next(d for d in range(19, 1, -1) if d << d <= max(8, arcs))
    pairs = ((i, i | 1 << bit) for i in range(1 << size) for bit in range(size) if not i >> bit & 1)
    return 1 << size, 0, (1 << size) - 1, two_way(pairs, upto(rand, 1000))


def trees_leaf_to_leaf(rand, arcs):
    """A tree of four branches at each node, its mirror image, and two random arcs from each leaf to the other's."""
    depth = next(d for d in range(9, 0, -1) if 4 ** (d + 1) <= max(16, arcs))
    nodes, leaves, draw = (4 ** (depth + 1) - 1) // 3, 4 ** depth, upto(rand, 100)
    found = [arc for i in range(1, nodes) for most in [1 + int(10 ** 6 / (1 + i / 10) * rand.random())]
             for arc in (((i - 1) // 4, i, most), (nodes + i, nodes + (i - 1) // 4, most))]
    return 2 * nodes, 0, nodes, found + [
        (nodes - leaves + i, 2 * nodes - leaves + j, draw()) for _ in range(2)
        for i, j in enumerate(rand.sample(range(leaves), leaves))]


FAMILIES = networks.collected(globals(), 'arcs')
