#!/usr/bin/env python3
"""Writes a maximum flow problem from a table of links whose ends have names.

Usage: table.py [OPTIONS] TABLE SOURCE[,SOURCE ..] SINK[,SINK ..] > PROBLEM; table.py --help lists the options.

TABLE is a CSV file with the columns from, to and capacity, or source, target and weight. A capacity is a number from 0,
and whole once it is multiplied with the scale, or it is `inf`: one more than all the others together, which no cut pays
where it needn't. SITES is a CSV file with the columns site and capacity: no more than that passes through the site,
which becomes two nodes with an arc between them. A name with a comma stands in double quotes, in a table as among the
sources and sinks. The problem's comments keep the names, and names.py puts them back into what flow prints.
"""

import os
import sys

sys.path.insert(0, os.path.join(os.path.dirname(os.path.abspath(__file__)), "..", "common"))

import links
import script


def main():
    problem = links.Links(links.given("Writes a maximum flow problem from a table of links.")).problem
    for number, name in enumerate(problem.names, start=1):
        print(f"c node {number} {name}")
    print(problem.text(), end="")


if __name__ == "__main__":
    script.run(main)
