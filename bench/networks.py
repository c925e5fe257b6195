"""Problems of flows that aren't on a grid of pixels or streets: those of the challenges, of textbooks and of practice.

A problem is its number of nodes, its source, its sink, and its arcs as triples of tail, head and capacity. Nodes are
numbers from 0. Each family takes a random generator and the number of arcs wanted.
"""
import functools
import inspect
import math

NODES = 999_998


def collected(names, size):
    """The families of a module: its functions of a random generator and a size, by their names."""
    return {name.replace('_', '-'): call for name, call in names.items()
            if inspect.isfunction(call) and [*inspect.signature(call).parameters][1:] == [size]}


def variant(call, **named):
    """A family with some words that its function takes besides."""
    return functools.update_wrapper(functools.partial(call, **named), call)


def lattice(height, width):
    """The pairs of neighbours in a grid, row by row."""
    count = height * width
    return [(here, there) for here in range(count) for there, inside in
            ((here + 1, (here + 1) % width), (here + width, here + width < count)) if inside]


def genrmf(rand, arcs, degree=4):
    """Goldfarb and Grigoriadis 1988: square frames in a row, ample within, a random permutation to the next; many small
    frames, or few large ones."""
    side = max(2, round((arcs / 5) ** (1 / degree)))
    frame, frames = side * side, max(2, arcs // 5 // side ** 2)
    most = 10000
    found, grid = [], lattice(side, side)
    for k in range(frames):
        base = k * frame
        found += [(base + tail, base + head, most * frame) for pair in grid for tail, head in (pair, pair[::-1])]
        if k + 1 < frames:
            found += [(base + i, base + frame + to, rand.randint(1, most))
                      for i, to in enumerate(rand.sample(range(frame), frame))]
    return frame * frames, 0, frame * frames - 1, found


def levels(width, count, ample, heads, capacity):
    """Levels of nodes one behind the other, each node with arcs to some of the next level."""
    source, sink = width * count, width * count + 1
    found = [(source, j, ample) for j in range(width)]
    for base in range(0, width * (count - 1), width):
        found += [(base + j, base + width + head, capacity()) for j in range(width) for head in heads(j)]
    found += [(width * (count - 1) + j, sink, ample) for j in range(width)]
    return width * count + 2, source, sink, found


def random_levels(rand, arcs, is_long=True):
    """The Washington generator's random levels (Johnson and McGeoch 1993): three arcs from each node to random ones of
    the next level; 64 nodes a level, or 64 levels."""
    other = min(NODES // 64, max(2, arcs // 192))
    width, count = (64, other) if is_long else (other, 64)
    return levels(width, count, 30000, lambda j: [int(width * rand.random()) for _ in range(3)],
                  lambda: 1 + int(10000 * rand.random()))


def mesh(rand, arcs):
    """The Washington generator's mesh (Johnson and McGeoch 1993): arcs to the three nearest nodes of the next level."""
    width = min(999, max(3, round((arcs / 3) ** .5)))
    near = [[k for k in (j - 1, j, j + 1) if 0 <= k < width] for j in range(width)]
    return levels(width, width, 30000, near.__getitem__, lambda: 1 + int(10000 * rand.random()))


def acyclic_dense(rand, arcs):
    """Waissi 1990: an arc from each node to every later one."""
    nodes = max(3, math.isqrt(2 * arcs))
    found = [(i, j, 1 + int(100000 * rand.random())) for i in range(nodes) for j in range(i + 1, nodes)]
    return nodes, 0, nodes - 1, found


def growing_paths(rand, arcs):
    """After the family of Cherkassky and Goldberg 1997 that is hard for every method: two chains with rungs between
    them, by which each augmenting path is longer than the one before, once with narrow chains and once with wide. The
    time of all known methods grows by the square, so the size grows by the root of that wanted."""
    count = max(2, min(arcs, math.isqrt(2000 * arcs)) // 6)
    source, sink = 4 * count, 4 * count + 1
    found = []
    for base, narrow in ((0, True), (2 * count, False)):
        other = base + count
        found += [(source, base, count), (other + count - 1, sink, count if narrow else count - count // 4)]
        for i in range(count):
            if i + 1 < count:
                most = count - i - 1 if narrow else count
                found += [(base + i, base + i + 1, most), (other + i, other + i + 1, i + 1 if narrow else count)]
            found.append((base + i, other + count - 1 - i, 1 if narrow else 1 + int(2 * rand.random())))
    return 4 * count + 2, source, sink, found


def matching(rand, arcs):
    """Bipartite matching (Hopcroft and Karp 1973): each worker may do one to four of the jobs, every capacity is 1."""
    side = min(NODES // 2, max(2, arcs * 2 // 9))
    source, sink = 2 * side, 2 * side + 1
    found = [(source, i, 1) for i in range(side)]
    for i in range(side):
        found += [(i, side + int(side * rand.random()), 1) for _ in range(1 + int(4 * rand.random()))]
    found += [(side + j, sink, 1) for j in range(side)]
    return 2 * side + 2, source, sink, found


def transportation(rand, arcs):
    """Hitchcock 1941: suppliers and customers, each supplier with roads to ten customers, of which most are near."""
    side = max(2, arcs // 12)
    source, sink = 2 * side, 2 * side + 1
    found = [(source, i, 100 + int(900 * rand.random())) for i in range(side)]
    for i in range(side):
        for _ in range(10):
            reach = side if rand.random() < .1 else min(side, 200)
            found.append((i, side + (i + int(reach * rand.random())) % side, 10 + int(140 * rand.random())))
    found += [(side + j, sink, 100 + int(900 * rand.random())) for j in range(side)]
    return 2 * side + 2, source, sink, found


def evacuation(rand, arcs):
    """Flows over time (Ford and Fulkerson 1958): a building's rooms at each minute; people wait or walk, doors hold so
    many at a time, exits are few."""
    side = max(2, round((arcs / 7.6) ** (1 / 3)))
    rooms, minutes = side * side, max(2, round(1.5 * side))
    source, sink = rooms * minutes, rooms * minutes + 1
    doors = []
    for here in range(rooms):
        for there, inside in ((here + 1, here % side + 1 < side), (here + side, here + side < rooms)):
            if inside and rand.random() < .9:
                most, delay = 1 + int(30 * rand.random()), 1 if rand.random() < .8 else 2
                doors += [(here, there, most, delay), (there, here, most, delay)]
    exits = {int(rooms * rand.random()) for _ in range(max(1, side // 8))}
    found = [(source, room, int(3 * minutes * rand.random())) for room in range(rooms)]
    for minute in range(minutes):
        base = minute * rooms
        if minute + 1 < minutes:
            found += [(base + room, base + rooms + room, 1000000) for room in range(rooms)]
        found += [(base + here, base + delay * rooms + there, most) for here, there, most, delay in doors
                  if minute + delay < minutes]
        found += [(base + room, sink, 120) for room in sorted(exits)]
    return rooms * minutes + 2, source, sink, found


def project_selection(rand, arcs):
    """A closure of most profit (Picard 1976) in an open pit: a block wants the nine above it dug out first."""
    side = max(2, round((arcs / 2) ** (1 / 3)))
    depth = max(2, side // 4)
    bodies = [((rand.uniform(0, side), rand.uniform(0, side), rand.uniform(depth / 3, depth)), rand.uniform(2, depth))
              for _ in range(3 + side // 8)]
    source, sink = side * side * depth, side * side * depth + 1
    above = []
    profits = []
    for z in range(depth):
        for y in range(side):
            for x in range(side):
                here = (z * side + y) * side + x
                rich = max(1 - math.dist((y, x, z), centre) / radius for centre, radius in bodies)
                profits.append(int(rand.gauss(2500 * max(0, rich) - 300 - 8 * z, 150)))
                if z > 0:
                    above += [(here, ((z - 1) * side + i) * side + j)
                              for i in range(max(0, y - 1), min(side, y + 2))
                              for j in range(max(0, x - 1), min(side, x + 2))]
    endless = 1 + sum(profit for profit in profits if profit > 0)
    found = [(source, here, profit) if profit > 0 else (here, sink, -profit) for here, profit in enumerate(profits)]
    found += [(here, there, endless) for here, there in above]
    return side * side * depth + 2, source, sink, found


def attached(rand, nodes):
    """Pairs of a network of attachment (Barabasi and Albert 1999): each new node is joined to four earlier ones, the
    busier the likelier."""
    pairs = [(i, j) for i in range(1, 5) for j in range(i)]
    ends = [end for pair in pairs for end in pair]
    for node in range(5, nodes):
        near = set()
        while len(near) < 4:
            near.add(ends[int(len(ends) * rand.random())])
        for other in sorted(near):
            pairs.append((node, other))
            ends += [node, other]
    return pairs


def communities(rand, arcs):
    """Flake, Lawrence and Giles 2000: which of two groups of seeds each member of a network of attachment belongs to;
    every link is one arc of capacity 1 each way."""
    nodes = max(8, round(arcs / 8.2))
    source, sink = nodes, nodes + 1
    found = []
    for node in range(nodes):
        if rand.random() < .1:
            found.append((source, node, 1000) if rand.random() < .5 else (node, sink, 1000))
    for one, other in attached(rand, nodes):
        found += [(one, other, 1), (other, one, 1)]
    return nodes + 2, source, sink, found


def denser_part(nodes, pairs, links):
    """Goldberg 1984: is there a part of a network with more than so many links a node? It is given by its pairs of
    nodes, in order, and all is in tenths. There is one if the greatest value is less than what leaves the source."""
    degrees = [0] * nodes
    for pair in pairs:
        for node in pair:
            degrees[node] += 1
    whole = 10 * len(pairs)
    source, sink = nodes, nodes + 1
    found = [arc for node in range(nodes)
             for arc in ((source, node, whole), (node, sink, whole + 2 * links - 10 * degrees[node]))]
    found += [arc for one, other in pairs for arc in ((one, other, 10), (other, one, 10))]
    return nodes + 2, source, sink, found


def densest_subgraph(rand, arcs):
    """Goldberg 1984, on a network some nodes of which have many more links than others."""
    nodes = max(4, arcs // 10)
    pairs = set()
    while len(pairs) < 4 * nodes - 6:
        one, other = int(nodes * rand.random() ** 2.2), int(nodes * rand.random() ** 2.2)
        if one != other:
            pairs.add((min(one, other), max(one, other)))
    return denser_part(nodes, sorted(pairs), 55)


def netlist(rand, arcs):
    """Yang and Wong 1996: cells joined by nets of two to six pins, to be cut between the top and the bottom of a chip;
    a net is two nodes with its weight between them."""
    side = max(2, round((arcs / 9.1) ** .5))
    cells = side * side
    source, sink = 3 * cells, 3 * cells + 1
    endless = 10 ** 9
    found = [arc for x in range(side) for arc in ((source, x, endless), (cells - side + x, sink, endless))]
    for net in range(cells):
        enter, leave = cells + 2 * net, cells + 2 * net + 1
        found.append((enter, leave, 1 + int(3 * rand.random())))
        for _ in range(2 + int(5 * rand.random())):
            reach = 3 if rand.random() < .95 else side
            y, x = (min(side - 1, max(0, at - reach + int((2 * reach + 1) * rand.random())))
                    for at in divmod(net, side))
            found += [(y * side + x, enter, endless), (leave, y * side + x, endless)]
    return 3 * cells + 2, source, sink, found


FAMILIES = {'genrmf-long': genrmf, 'genrmf-wide': variant(genrmf, degree=2.5), 'rlg-long': random_levels,
            'rlg-wide': variant(random_levels, is_long=False), **collected(globals(), 'arcs')}
