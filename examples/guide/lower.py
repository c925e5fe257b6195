#!/usr/bin/env python3
"""Finds a greatest flow that keeps lower limits too, or the least such flow.

Usage: lower.py [--least] TABLE SOURCE[,SOURCE ..] SINK[,SINK ..]

TABLE is a CSV file with the columns from, to, low and high: the least and the most that flows from one end to the
other. What is printed is the value and the flow of each row. Where no flow keeps the limits, a set of nodes is printed
into which more must come than can leave it, or the other way round.
"""

import argparse
import os
import sys
from collections import Counter

sys.path.insert(0, os.path.join(os.path.dirname(os.path.abspath(__file__)), "..", "common"))

import script
import tables
from dimacs import Flow, Problem


def feasible(flow, arcs, sources, sinks):
    """A flow within the limits of arcs (from, to, low, high), for each arc, or None; and where there is none, nodes
    into which more must come than can leave them. The least of each arc is taken for granted, so that its head has a
    supply and its tail a demand. A node more gives the supplies, another takes the demands, a third joins terminals."""
    start, end, back = object(), object(), object()
    needed, plenty = Counter(), 1 + sum(high for _, _, _, high in arcs)
    problem = Problem()
    problem.source(start)
    problem.sink(end)
    for src, dst, low, high in arcs:
        problem.arc(src, dst, high - low)
        needed[dst] += low
        needed[src] -= low
    for node in [*sources, *sinks]:
        problem.arc(node, back, plenty)
        problem.arc(back, node, plenty)
    for node, amount in needed.items():
        if amount:
            problem.arc(*((start, node) if amount > 0 else (node, end)), abs(amount))
    value, units = flow.solve(problem)
    if value == sum(amount for amount in needed.values() if amount > 0):
        return [low + more for (_, _, low, _), more in zip(arcs, units)], None
    return None, flow.cut(problem).source_side - {start}


def greatest(flow, arcs, sources, sinks, units):
    """The greatest flow within the limits, from any that keeps them: what can still be sent is a flow over what is left
    along and against the arcs. With sources and sinks exchanged it is the least flow."""
    problem = Problem()
    problem.source(*sources)
    problem.sink(*sinks)
    for (src, dst, _, high), amount in zip(arcs, units):
        problem.arc(src, dst, high - amount)
    for (src, dst, low, _), amount in zip(arcs, units):
        problem.arc(dst, src, amount - low)
    _, more = flow.solve(problem)
    return [amount + along - against for amount, along, against in zip(units, more, more[len(arcs):])]


def tell_why(names, arcs, sources, side):
    """That no flow keeps the limits, and the nodes that show it."""
    into = sum(low for src, dst, low, _ in arcs if dst in side and src not in side)
    out = sum(high for src, dst, _, high in arcs if src in side and dst not in side)
    must, can = "come into", "leave"
    if side.intersection(sources):
        side, must, can = set(names) - side, can, must
    print(f"no flow keeps the limits: at least {into} must {must} these nodes, and at most {out} can {can} them:")
    print(", ".join(name for name in names if name in side))


def main():
    words = argparse.ArgumentParser(description="Finds a greatest flow that keeps lower limits too.")
    words.add_argument("--least", action="store_true", help="find the least flow that keeps them")
    words.add_argument("table", help="a CSV file with the columns from, to, low and high")
    words.add_argument("sources", help="the names of the sources, separated by commas")
    words.add_argument("sinks", help="the names of the sinks, separated by commas")
    given = words.parse_args()
    arcs, flow = [], Flow()
    for row in tables.read_table(given.table, "from", "to", "low", "high"):
        arcs.append((row.name("from"), row.name("to"), row.whole("low"), row.whole("high")))
        if arcs[-1][2] > arcs[-1][3]:
            row.refuse("low", f"{arcs[-1][2]} is greater than high, which is {arcs[-1][3]}")
    names = list(dict.fromkeys(end for arc in arcs for end in arc[:2]))
    sources, sinks = tables.terminals(given.sources, given.sinks, names, given.table)
    units, side = feasible(flow, arcs, sources, sinks)
    if units is None:
        tell_why(names, arcs, sources, side)
        return 1
    units = greatest(flow, arcs, *((sinks, sources) if given.least else (sources, sinks)), units)
    value = sum(((src in sources) - (dst in sources)) * amount for (src, dst, _, _), amount in zip(arcs, units))
    print(f"value {value}")
    for (src, dst, low, high), amount in zip(arcs, units):
        print(f"{src} -> {dst}: {amount} of {low} to {high}")


if __name__ == "__main__":
    script.run(main)
