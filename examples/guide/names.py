#!/usr/bin/env python3
"""Puts the names of a problem that table.py wrote into what flow prints: names.py PROBLEM < OUTPUT

A name with a comma is printed in double quotes.
"""

import os
import sys

sys.path.insert(0, os.path.join(os.path.dirname(os.path.abspath(__file__)), "..", "common"))

import script

ENDS = {"n": 1, "f": 2, "a": 2, "over": 2, "unbalanced": 1}


def main():
    if len(sys.argv) != 2:
        raise script.Refused("usage: names.py PROBLEM < OUTPUT")
    with open(sys.argv[1], encoding="utf-8") as file:
        names = dict(line[len("c node "):].rstrip("\n").split(" ", 1) for line in file if line.startswith("c node "))
    for number, name in names.items():
        if "," in name or '"' in name:
            names[number] = '"' + name.replace('"', '""') + '"'
    for line in sys.stdin:
        kind, *fields = line.split()
        for place, field in enumerate(fields[:ENDS.get(kind, 0)]):
            if field not in names:
                raise script.Refused(f"{sys.argv[1]} has no line 'c node {field} NAME'; table.py writes these")
            fields[place] = names[field]
        print(kind, ", ".join(fields))


if __name__ == "__main__":
    script.run(main)
