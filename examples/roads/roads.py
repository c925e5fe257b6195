#!/usr/bin/env python3
"""Finds the bottleneck of a road network, and the roads whose upgrade helps. README.md describes the model."""

import argparse
import os
import sys
from fractions import Fraction

HERE = os.path.dirname(os.path.abspath(__file__))
sys.path[:0] = [os.path.join(HERE, "..", "common")]

import graphs
import script
import tables
from graphs import BLACK, BLUE, GREY, ORANGE, RED
from provedflow import maximum_flow, minimum_cut

TRIED = 12  # How many upgrades are tried at the most.


class Roads:
    """The network with its terminals, and the numbers of the links in its two bottlenecks and in both."""

    def __init__(self, words):
        graph = graphs.read(words)
        self.graph, self.edges, self.more = graph, graphs.links_of(graph), words.more
        self.given, unit = graphs.amounts(words.network, graph)
        self.unit = unit if words.unit is None else words.unit
        named = [getattr(words, f"{role}s") or self.listed(role) for role in ("source", "sink")]
        self.sources, self.sinks = tables.terminals(*named, graph, words.network)
        self.src, self.dst, self.units, self.scale = graphs.arcs(graph, words.network, self.given, words.more)
        number = {place: index for index, place in enumerate(graph)}
        self.ends = *([number[name] for name in names] for names in (self.sources, self.sinks)), len(graph)
        near, far = (minimum_cut(self.src, self.dst, self.units, *self.ends, nearest=kind)
                     for kind in ("sources", "sinks"))
        self.value, self.first, self.last = near.value, self.crossing(near.side), self.crossing(far.side)
        self.both = [place for place in self.first if place in set(self.last)]

    def listed(self, role):
        """The places that have a role, as a list in a text."""
        found = [place.replace('"', '""') for place, data in self.graph.nodes(data=True) if data.get("role") == role]
        if not found:
            raise script.Refused(f"no place is a {role}; --{role}s NAMES says which, or the column role of the places")
        return '"' + '","'.join(found) + '"'

    def crossing(self, side):
        """The numbers of the links that lead out of a source side."""
        out, count = side[self.src] & ~side[self.dst], len(self.edges)
        return (out[:count] | out[-count:]).nonzero()[0].tolist()

    def upgraded(self, place):
        """The value where a link takes more."""
        units = self.units.copy()
        for arc in range(place, len(units), len(self.edges)):
            units[arc] = min(int(units[arc]) + int(self.more * self.scale), tables.GREATEST)
        return maximum_flow(self.src, self.dst, units, *self.ends).value

    def title(self, name):
        """What a place is called."""
        return self.graph.nodes[name].get("name") or name

    def name(self, place):
        """What a link is called, by its number."""
        one, other, data = self.edges[place]
        row = f" in {data['where']}" if self.graph.number_of_edges(one, other) > 1 else ""
        return data["name"] or f"{self.title(one)} to {self.title(other)}{row}"

    def amount(self, units, unit=None):
        """So many units of 1/scale as a decimal number."""
        whole, rest = divmod(int(units), self.scale)
        decimals = f".{rest:0{len(str(self.scale)) - 1}}".rstrip("0") if rest else ""
        return f"{whole}{decimals} {self.unit if unit is None else unit}".rstrip()

    def capacity(self, place):
        return self.amount(self.given[place] * self.scale, "")

    def way(self):
        return " to ".join(script.some(map(self.title, names), 2) for names in (self.sources, self.sinks))


def tell(roads):
    """The bottlenecks in words."""
    split = graphs.parts(roads.graph)
    if len(split) > 1:
        print(f"the network has {len(split)} parts that no road joins, with {script.some(map(len, split))} places")
    print(f"from {roads.way()}: {roads.amount(roads.value)}")
    for end, places in (("sources", roads.first), ("sinks", roads.last)):
        told = script.some(f"{roads.name(place)} ({roads.capacity(place)})" for place in places)
        print(f"bottleneck nearest the {end}: {told or 'none, since no roads lead there'}")
    if not roads.both:
        print("no road is in both, so no upgrade of one road alone helps")
        return
    print(f"in both, so that an upgrade of one such road alone helps: {script.some(map(roads.name, roads.both))}")
    for place in roads.both[:TRIED]:
        print(f"  {roads.name(place)} with {roads.amount(roads.more * roads.scale)} more: "
              f"{roads.amount(roads.upgraded(place))}")


def draw(roads, path):
    """The map: all roads, the wider the more they take, and the bottlenecks with their names."""
    where, _ = graphs.spots(roads.graph)
    picture = graphs.Picture(where, f"{roads.amount(roads.value)} from {roads.way()}")
    most, both = max(*roads.given, Fraction(1, 10 ** 9)), set(roads.both)
    picture.links(roads.edges, GREY, [0.3 + picture.small * float(amount / most) / 2 for amount in roads.given])
    for places, colour, style, words in (
            (set(roads.first) - both, ORANGE, "dashed", "bottleneck nearest the sources"),
            (set(roads.last) - both, BLUE, "dotted", "bottleneck nearest the sinks"),
            (both, RED, "solid", "in both: an upgrade of one such road helps")):
        if places:
            picture.links([roads.edges[place] for place in places], colour, 4, style, words)
    picture.places([name for name in where if name not in {*roads.sources, *roads.sinks}], BLACK)
    for names, marker, role in ((roads.sources, "o", "source"), (roads.sinks, "s", "sink")):
        picture.places(names, BLACK, 9, marker, role)
        for name in names[:TRIED]:
            picture.label(name, roads.title(name))
    for place in list(dict.fromkeys(roads.both + roads.first + roads.last))[:3 * TRIED]:
        middle = tuple(sum(axis) / 2 for axis in zip(*(where[end] for end in roads.edges[place][:2])))
        picture.label(middle, f"{roads.name(place)}: {roads.capacity(place)}", place in both)
    picture.save(path)


def main():
    parser = argparse.ArgumentParser(description=__doc__)
    graphs.add_options(parser, "from", "to", "capacity")
    parser.add_argument("--sources", metavar="NAMES", help="where the way starts, separated by commas")
    parser.add_argument("--sinks", metavar="NAMES", help="where it ends")
    parser.add_argument("--unit", metavar="WORDS", help="what the capacities count")
    parser.add_argument("--more", metavar="NUMBER", default="500", help="what an upgrade adds; else 500")
    ways = parser.add_mutually_exclusive_group()
    ways.add_argument("--one-way", action="store_true", help="the roads of a table lead from the first place alone")
    ways.add_argument("--both-ways", action="store_true", help="the edges of GraphML and GML can be used both ways")
    words = parser.parse_args()
    if words.network is None:
        words.network, words.places = os.path.join(HERE, "roads.csv"), os.path.join(HERE, "places.csv")
        words.unit = words.unit or "vehicles an hour"
    words.more, unit = tables.only_number(words.more, tables.numbers([words.more])[words.more])
    if unit or not words.more:
        parser.error("--more is a number above 0, without a unit")
    roads, path = Roads(words), script.output(words, "roads", "roads.png")
    tell(roads)
    draw(roads, path)
    print(f"drawn: {path}")


if __name__ == "__main__":
    script.run(main)
