#!/usr/bin/env python3
"""Prints how much gets through if one link of a table fails, or one site.

Usage: failures.py [OPTIONS] TABLE SOURCE[,SOURCE ..] SINK[,SINK ..]

TABLE and the options are as those of table.py. What is printed is the greatest value; then each link, and each site but
the sources and sinks, whose failure lowers it, with the value that is left; and how many can fail alone.
"""

import os
import sys
from collections import Counter

sys.path.insert(0, os.path.join(os.path.dirname(os.path.abspath(__file__)), "..", "common"))

import links
import script
from dimacs import Flow


class Spare:
    """What a greatest flow leaves free. Of half-arc 2 a that is how much more arc a can carry, of half-arc 2 a + 1 how
    much less. Sources are joined with the node 0, and sinks with one more node."""

    def __init__(self, problem, units):
        count, self.heads, self.room, self.units = len(problem.names), [], [], units
        self.leaving = [[] for _ in range(count + 2)]
        extra, plenty = [0] * (count + 2), 1 + sum(capacity for _, _, capacity in problem.arcs)
        for (src, dst, capacity), amount in zip(problem.arcs, units):
            self._add(src, dst, capacity - amount, amount)
            extra[src] += amount
            extra[dst] -= amount
        for source in problem.sources:
            self._add(0, source, plenty, extra[source])
        for sink in problem.sinks:
            self._add(sink, count + 1, plenty, -extra[sink])

    def _add(self, src, dst, more, less):
        self.leaving[src].append(len(self.heads))
        self.leaving[dst].append(len(self.heads) + 1)
        self.heads += [dst, src]
        self.room += [more, less]

    def loss(self, arcs):
        """How much less gets through where these arcs fail: what they carried, less what other ways can carry from
        their starts to their ends. The flow stays as it is."""
        over, before = Counter(), []
        for arc in arcs:
            over[self.heads[2 * arc + 1]] += self.units[arc]
            over[self.heads[2 * arc]] -= self.units[arc]
            before += [(half, self.room[half]) for half in (2 * arc, 2 * arc + 1)]
            self.room[2 * arc] = self.room[2 * arc + 1] = 0
        starts = {node: amount for node, amount in over.items() if amount > 0}
        ends = {node: -amount for node, amount in over.items() if amount < 0}
        while way := self._way(starts, ends):
            start, end = self.heads[way[0] ^ 1], self.heads[way[-1]]
            amount = min(starts[start], ends[end], *(self.room[half] for half in way))
            for half in way:
                before += [(half, self.room[half]), (half ^ 1, self.room[half ^ 1])]
                self.room[half] -= amount
                self.room[half ^ 1] += amount
            for left, node in ((starts, start), (ends, end)):
                left[node] -= amount
                if not left[node]:
                    del left[node]
        for half, room in reversed(before):
            self.room[half] = room
        return sum(starts.values())

    def _way(self, starts, ends):
        """The half-arcs of a shortest way with room, or None."""
        found, nodes = dict.fromkeys(starts), list(starts)
        for node in nodes:
            if node in ends:
                way = []
                while found[node] is not None:
                    way.append(found[node])
                    node = self.heads[way[-1] ^ 1]
                return way[::-1]
            for half in self.leaving[node]:
                if self.room[half] and self.heads[half] not in found:
                    found[self.heads[half]] = half
                    nodes.append(self.heads[half])
        return None


def sites_of(given):
    """The arcs that fail with each site that is neither source nor sink: those at it, or the one within it where it has
    a capacity."""
    problem, within = given.problem, len(given.problem.arcs) - len(given.limits)
    arcs = {name: [] for name in given.names}
    for place, (src, dst, _) in enumerate(problem.arcs[:within]):
        for name in arcs.keys() & {problem.names[src - 1], problem.names[dst - 1]}:
            arcs[name].append(place)
    arcs.update((name, [within + place]) for place, name in enumerate(given.limits))
    for node in problem.sources + problem.sinks:
        arcs.pop(problem.names[node - 1].removesuffix(" (out)"), None)
        arcs.pop(problem.names[node - 1], None)
    return arcs


def main():
    given = links.Links(links.given("Prints what gets through if a link or a site fails."))
    value, units = Flow().solve(given.problem)
    spare, sites = Spare(given.problem, units), sites_of(given)
    names = [f"link {row['from']}, {row['to']}" for row in given.rows] + [f"site {name}" for name in sites]
    lost = [spare.loss(arcs) for arcs in [*given.arcs, *sites.values()]]
    print(f"value {value}")
    for name, loss in zip(names, lost):
        if loss:
            print(f"{value - loss} without {name}")
    for what, found in (("links", lost[:len(given.rows)]), ("sites", lost[len(given.rows):])):
        print(f"{what} that can fail alone: {found.count(0)} of {len(found)}")


if __name__ == "__main__":
    script.run(main)
