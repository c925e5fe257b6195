#!/usr/bin/env python3
"""Cuts an object out of a grey picture (a PGM file of the plain kind, P2).

Usage: picture.py problem PICTURE OBJECT BACKGROUND > PROBLEM
       picture.py mask PICTURE < CUT

OBJECT and BACKGROUND are places that are known to lie inside and outside, as COLUMN,ROW COLUMN,ROW .. in one word
separated by blanks, counted from 0 at the upper left. The first form writes the problem: each pixel is a node, and two
neighbours are joined both ways, the more strongly the more alike they are. The second turns what `flow cut` prints into
rows of # for the object and . for the background.
"""

import os
import sys

sys.path.insert(0, os.path.join(os.path.dirname(os.path.abspath(__file__)), "..", "common"))

import script


def read_picture(name):
    """The width and height of a picture, and the grey of each pixel, row by row."""
    with open(name, encoding="latin-1") as file:
        kind, *fields = [field for line in file for field in line.split("#")[0].split()] or [""]
    if kind != "P2" or not all(field.isascii() and field.isdigit() for field in fields):
        raise script.Refused(f"{name} isn't a PGM file of the plain kind, which begins with P2 and has numbers alone")
    width, height, _, *grey = map(int, fields + ["0"] * (3 - len(fields)))
    if len(grey) != width * height or not grey:
        raise script.Refused(f"{name} has {len(grey)} pixels, and says that it has {width} by {height}")
    return width, height, grey


def read_places(words, width, height):
    """The pixels of a list of places, each as its node."""
    nodes = []
    for place in words.split():
        column, _, row = place.partition(",")
        if not (column.isdecimal() and row.isdecimal()):
            raise script.Refused(f"'{place}' isn't COLUMN,ROW")
        if int(column) >= width or int(row) >= height:
            raise script.Refused(f"column {column}, row {row}: the picture has the columns 0 to {width - 1} and the "
                                 f"rows 0 to {height - 1}")
        nodes.append(1 + int(column) + width * int(row))
    return list(dict.fromkeys(nodes))


def write_problem(width, height, grey, objects, background):
    """Prints the problem: pixel (column, row) is node 1 + column + width * row."""
    for node in set(objects) & set(background):
        row, column = divmod(node - 1, width)
        raise script.Refused(f"column {column}, row {row}: marked as object and as background")
    arcs = []
    for place, here in enumerate(grey):
        for other, is_inside in ((place + 1, (place + 1) % width), (place + width, place + width < len(grey))):
            if is_inside:
                strength = 1 + 1000 // (1 + (here - grey[other]) ** 2)
                arcs += [(place + 1, other + 1, strength), (other + 1, place + 1, strength)]
    print(f"p max {width * height} {len(arcs)}")
    print("".join(f"n {node} s\n" for node in objects) + "".join(f"n {node} t\n" for node in background), end="")
    print("".join("a %d %d %d\n" % arc for arc in arcs), end="")


def main():
    kind, *words = sys.argv[1:] or [""]
    if (kind, len(words)) not in (("problem", 3), ("mask", 1)):
        raise script.Refused("usage: picture.py problem PICTURE OBJECT BACKGROUND > PROBLEM, or mask PICTURE < CUT")
    width, height, grey = read_picture(words[0])
    if kind == "problem":
        write_problem(width, height, grey, *(read_places(places, width, height) for places in words[1:]))
    else:
        inside = {int(line.split()[1]) for line in sys.stdin if line.startswith("n ")}
        for row in range(height):
            print(" ".join("#" if 1 + column + width * row in inside else "." for column in range(width)))


if __name__ == "__main__":
    script.run(main)
