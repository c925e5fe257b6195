"""Links between nodes that have names, out of tables, made into problems."""

import argparse

import tables
from dimacs import Problem
from script import Refused


def given(description):
    """The words of a command line that names a table of links, its sources and its sinks."""
    words = argparse.ArgumentParser(description=description)
    words.add_argument("--both-ways", action="store_true", help="links can be used in both directions")
    words.add_argument("--unit", action="store_true", help="each link has the capacity 1")
    words.add_argument("--scale", metavar="NUMBER", type=int, default=1, help="count capacities in parts of 1/NUMBER")
    words.add_argument("--sites", help="a CSV file with the columns site and capacity")
    for column in ("from", "to", "capacity"):
        words.add_argument(f"--{column}", metavar="COLUMN", help=f"what the column {column} is called")
    words.add_argument("table", help="a CSV file with the columns from, to and capacity")
    words.add_argument("sources", help="the names of the sources, separated by commas")
    words.add_argument("sinks", help="the names of the sinks, separated by commas")
    given = words.parse_args()
    if given.scale < 1:
        words.error("--scale is a number from 1")
    return given


class Links:
    """The links of a table, and the problem that they make; `arcs[row]` has the places of a row's arcs in it, and
    `limits` the capacities of the sites that have one."""

    def __init__(self, words):
        self.words = words
        self.rows = tables.read_table(words.table, "from", "to", *["capacity"] * (not words.unit), names=vars(words))
        self.names = list(dict.fromkeys(row.name(end) for row in self.rows for end in ("from", "to")))
        self.limits = self._read_sites() if words.sites else {}
        self.problem = Problem()
        for name in self.names:
            self.problem.node(name)
        ways = [("from", "to"), ("to", "from")][:1 + words.both_ways]
        self.arcs = [range(row * len(ways), (row + 1) * len(ways)) for row in range(len(self.rows))]
        for row, capacity in zip(self.rows, self._capacities()):
            for src, dst in ways:
                self.problem.arc(self.out_of(row[src]), row[dst], capacity)
        for site, capacity in self.limits.items():
            self.problem.arc(site, self.out_of(site), capacity)
        sources, sinks = tables.terminals(words.sources, words.sinks, self.names, words.table)
        self.problem.source(*sources)
        self.problem.sink(*map(self.out_of, sinks))

    def out_of(self, name):
        """The node at which the arcs out of a site begin: one of its own where the site has a capacity."""
        return f"{name} (out)" if name in self.limits else name

    def _capacities(self):
        """The capacity of each row, where `inf` is one more than all others together."""
        if self.words.unit:
            return [1 for _ in self.rows]
        finite = [None if row["capacity"] == "inf" else row.whole("capacity", scale=self.words.scale)
                  for row in self.rows]
        infinite = 1 + sum(filter(None, finite)) + sum(self.limits.values())
        if None in finite and infinite > tables.GREATEST:
            raise Refused(f"{self.words.table}: the capacities add up to {infinite - 1}, so none is left for inf: "
                          f"the greatest is {tables.GREATEST}")
        return [infinite if capacity is None else capacity for capacity in finite]

    def _read_sites(self):
        """The capacity of each site that has one."""
        rows = tables.once(tables.read_table(self.words.sites, "site", "capacity"), "site")
        for name, row in rows.items():
            if name not in self.names:
                row.refuse("site", f"'{name}' isn't in {self.words.table}")
            if f"{name} (out)" in self.names:
                row.refuse("site", f"'{name} (out)' is the name of another site")
        return {name: row.whole("capacity", scale=self.words.scale) for name, row in rows.items()}
