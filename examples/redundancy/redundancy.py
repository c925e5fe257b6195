#!/usr/bin/env python3
"""Finds the weakest spots of a network: which links must fail to split it, and which new link helps; see README.md."""

import argparse
import os
import sys
from collections import namedtuple

HERE = os.path.dirname(os.path.abspath(__file__))
sys.path[:0] = [os.path.join(HERE, "..", "common")]

import graphs
import networkx as nx
import numpy as np
import script
from graphs import BLACK, GREEN, GREY, ORANGE, RED
from provedflow import edge_connectivity, minimum_cut
from scipy.sparse import coo_matrix, csgraph
from scipy.spatial import cKDTree
from script import count

SHOWN = 12  # How many spots are printed, and have their names in the picture.

Weak = namedtuple("Weak", "least links spots")
"""How many links must fail, the numbers of those that are in some such set, and the weakest spots."""


def weakest(names, ends):
    """The weakest spots of a connected network, whose links have their ends' numbers in two rows. A link is in some
    least cut where a minimum cut between its ends is as small as the least, and nowhere else. So the library is asked
    for one link after the other. Where their cut is greater, the two ends count as one place from here on; else all
    links of the cut are found at once."""
    least, found = edge_connectivity(*ends, len(names), directed=False), np.zeros(ends.shape[1], bool)
    place = part_of(len(names), ends[:, surely_strong(len(names), ends, least)])
    left = np.flatnonzero(place[ends[0]] != place[ends[1]])
    while len(left):
        numbers, small = np.unique(place[ends[:, left]], return_inverse=True)
        small = small.reshape(2, -1).astype(np.uint32)
        link = int(np.argmin(found[left]))
        if found[left[link]]:
            break
        src, dst = np.concatenate([small, small[::-1]], axis=1)
        cut = minimum_cut(src, dst, np.ones(len(src), np.uint64), *small[:, link].tolist(), len(numbers))
        if cut.value == least:
            found[left[cut.side[small[0]] != cut.side[small[1]]]] = True
        else:
            one, other = numbers[small[:, link]]
            place[place == other] = one
            left = left[place[ends[0, left]] != place[ends[1, left]]]
    # Without the links of all least cuts, the weakest spots are the parts to which just so many of these lead.
    part, names = part_of(len(names), ends[:, ~found]), np.array(names, object)
    leading = np.bincount(part[ends[:, found]].ravel())
    spots = [names[part == number].tolist() for number in np.flatnonzero(leading == least)]
    return Weak(least, np.flatnonzero(found), sorted(spots, key=len))


def surely_strong(count_, ends, least):
    """Links that are surely in no least cut, where that has one link or two; else none. Each link outside a tree of the
    network gets a random number, and a link of the tree the sum, bit by bit, of those whose circle it is on. Then the
    sum over every cut is 0: the only link of a cut has the number 0, and two links that make a cut have the same."""
    marks = np.random.default_rng(1).integers(1, 2 ** 62, ends.shape[1])
    tree = nx.Graph()
    tree.add_edges_from((one, other, {"link": link}) for link, (one, other) in enumerate(ends.T.tolist()))
    order = [(parent, child, tree[parent][child]["link"]) for parent, child in nx.bfs_edges(tree, 0)]
    sums, rest = np.zeros(count_, np.int64), np.ones(len(marks), bool)
    rest[[link for _, _, link in order]] = False
    for row in ends:
        np.bitwise_xor.at(sums, row[rest], marks[rest])
    for parent, child, link in reversed(order):
        marks[link] = sums[child]
        sums[parent] ^= sums[child]
    _, place, times = np.unique(marks, return_inverse=True, return_counts=True)
    return (least <= 2) & (marks != 0) & ((times[place] == 1) | (least == 1))


def part_of(count_, ends):
    """Of each of so many places the number of the part that it is in, where links between these ends join places."""
    links = coo_matrix((np.ones(ends.shape[1]), ends), (count_, count_))
    return csgraph.connected_components(links, directed=False)[1]


def new_link(graph, where, spots):
    """A short link between two of the spots that isn't there yet, or any such link: each place's nearest are tried."""
    spot_of = {name: number for number, spot in enumerate(spots) for name in spot}
    names, spots_at = list(spot_of), [where[name] for name in spot_of]
    far, near = cKDTree(spots_at).query(spots_at, k=min(len(names), 8))
    pairs = sorted((length, name, names[other]) for name, row, others in zip(names, far, near)
                   for length, other in zip(row, others) if spot_of[name] != spot_of[names[other]])
    pairs = [pair for _, *pair in pairs] + [(one, other) for one in spots[0][:99] for other in spots[1][:99]]
    return next((pair for pair in pairs if not graph.has_edge(*pair)), pairs[0])


def tell(graph, weak, inside, new):
    """The weakest spots in words, and an example of a new link."""
    print(f"{count(len(graph), 'place')}, {count(graph.number_of_edges(), 'link')}; the loss of "
          f"{count(weak.least, 'link')} can split the network, that of fewer can't")
    print(f"weakest spots: {len(weak.spots):,}, with {count(len(inside), 'link')} whose loss can be to blame")
    for spot in weak.spots[:SHOWN]:
        links = [" to ".join(pair) for pair in inside if len({*pair}.intersection(spot)) == 1]
        print(f"  {script.some(spot)}: cut off by the loss of {' and '.join(links)}")
    if len(weak.spots) > SHOWN:
        print(f"  and {len(weak.spots) - SHOWN:,} more")
    helps = "one new link from one spot to the other helps, so that {} must fail" if len(weak.spots) == 2 else (
        "each spot needs a new link, so that {} must fail: {:,} new links or more, from spot to spot")
    print(helps.format(weak.least + 1, (len(weak.spots) + 1) // 2)
          + f"; {new}")


def draw(picture, graph, weak, inside, new):
    """The network, with its weakest links and spots and the new link."""
    picture.links(graph.edges(), GREY, 0.3 + picture.small / 4)
    picture.links(inside, RED, 1.5 + picture.small / 3, "solid", "weakest links")
    picture.links([new], GREEN, 3, "dotted", "a new link")
    spots = [spot for spot in weak.spots if len(spot) <= len(graph) / 2]
    lost = {name for spot in spots for name in spot}
    picture.places([name for name in graph if name not in lost], BLACK)
    picture.places(list(lost), ORANGE, max(picture.small * 1.6, 3), "o", "weakest spots")
    for name in [*new, *(name for spot in spots[:SHOWN] for name in spot[:SHOWN]),
                 *(graph if len(graph) <= 50 else ())]:
        picture.label(name, name)


def main():
    parser = argparse.ArgumentParser(description=__doc__)
    graphs.add_options(parser, "from", "to")
    parser.set_defaults(one_way=False, both_ways=True)
    words = parser.parse_args()
    if words.network is None:
        words.network, words.places = os.path.join(HERE, "links.csv"), os.path.join(HERE, "sites.csv")
    graph = graphs.read(words)
    parts = graphs.parts(graph)
    if len(parts) > 1:
        print(f"the network has {len(parts):,} parts that no link joins, of {script.some(map(len, parts))} places; "
              f"{count(len(parts) - 1, 'new link')} would join them. Of the largest part:")
        graph.remove_nodes_from(set(graph) - parts[0])
    if len(graph) < 2:
        raise script.Refused(f"{words.network}: a network has two places or more")
    weak, (where, measured) = weakest(list(graph), graphs.ends_of(graph)), graphs.spots(graph)
    links, new = graphs.links_of(graph), new_link(graph, where, weak.spots)
    inside = [links[link][:2] for link in weak.links]
    tell(graph, weak, inside, f"{'a short one' if measured else 'for instance'}: {' to '.join(new)}")
    picture = graphs.Picture(where, f"The loss of {count(weak.least, 'link')} can split this network")
    draw(picture, graph, weak, inside, new)
    path = script.output(words, "redundancy", "redundancy.png")
    picture.save(path)
    print(f"drawn: {path}")


if __name__ == "__main__":
    script.run(main)
