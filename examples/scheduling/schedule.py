#!/usr/bin/env python3
"""Gives the shifts of a week to people, and says which can't be staffed and why. README.md describes the model."""

import argparse
import csv
import os
import sys
from collections import Counter

HERE = os.path.dirname(os.path.abspath(__file__))
sys.path[:0] = [os.path.join(HERE, "..", "common")]

import script
import tables
from script import count

import graphs
from graphs import np, nx, plt
from provedflow import minimum_cut

SOURCE, SINK = 0, 1
CANT, COULD, WORKS, WISHED = range(4)
COLOURS = "#F2F2F2", "#CFE3F2", "#0072B2", "#2E8B57"
WORDS = "can't", "could, and doesn't", "works", "works, as wished"


class Week:
    """The people and shifts of two tables, and their network: a unit of flow is one person in one shift. It goes from
    the source to the person, the person's day, the shift and the sink. `low` and `high` are the limits of each arc. A
    roster can keep the least of all."""

    def __init__(self, people, shifts):
        people = tables.once(tables.read_table(people, "person", "most", "can", known=("least", "wishes")), "person")
        shifts = tables.once(tables.read_table(shifts, "shift", "day", "places", known=["least"]), "shift")
        if not shifts or not people:
            raise script.Refused("people and shifts need a row each")
        self.day = {name: row.name("day") for name, row in shifts.items()}
        self.shifts, self.people, self.days = list(shifts), list(people), list(dict.fromkeys(self.day.values()))
        self.can = {name: shifts_of(row, "can", shifts) for name, row in people.items()}
        self.wishes = {name: shifts_of(row, "wishes", self.can[name]) for name, row in people.items()}
        self.node = {key: 2 + place for place, key in enumerate(
            [*self.people, *((name, day) for name in self.people for day in self.days),
             *((None, shift) for shift in self.shifts)])}
        self.pairs = [(name, shift) for shift in self.shifts for name in self.people if shift in self.can[name]]
        arcs = [(SOURCE, self.node[name], *limits(row, "most")) for name, row in people.items()]
        arcs += [(self.node[None, name], SINK, *limits(row, "places")) for name, row in shifts.items()]
        arcs += [(self.node[name, self.day[shift]], self.node[None, shift], 0, 1) for name, shift in self.pairs]
        arcs += [(self.node[name], self.node[name, day], 0, 1) for name in self.people for day in self.days]
        src, dst, self.low, self.high = np.array(arcs, np.int64).T
        self.src, self.dst, self.nodes = src.astype(np.uint32), dst.astype(np.uint32), 2 + len(self.node)
        stops = np.cumsum([0, len(people), len(shifts), len(self.pairs)])
        self.of_people, self.of_shifts, self.of_pairs = map(slice, stops, stops[1:])
        self.check_least()

    def cut(self, high, nearest="sources"):
        """The minimum cut of the network with these capacities."""
        return minimum_cut(self.src, self.dst, high, SOURCE, SINK, self.nodes, nearest=nearest)

    def check_least(self):
        """Sees that everybody can get the least, and that the shifts can; then both can at once."""
        for part, names, ends, words in (
                (self.of_people, self.people, self.dst, "have to work {} shifts together, and can work {}"),
                (self.of_shifts, self.shifts, self.src, "have to be given {} people together, and can get {}")):
            high = self.high.copy()
            high[part] = self.low[part]
            cut = self.cut(high)
            missing = int(self.low[part].sum()) - cut.value
            if missing:
                inside = cut.side[ends[part]] == (part == self.of_people)
                needed = int(self.low[part][inside].sum())
                raise script.Refused(f"no roster keeps the least: {', '.join(np.array(names)[inside])} "
                                     + words.format(needed, needed - missing))

    def roster(self):
        """The pairs of person and shift, and those of them that were wished: a flow of least cost, in which each aim
        outweighs all that come after it. These are what everybody and each shift needs at least; places; equal numbers,
        where a person's next shift costs more than the one before; wishes; and of as many wishes the first ones."""
        turns, base = max(map(len, self.wishes.values())), 1 + len(self.people)
        arc_of = {pair: (self.node[pair[0], self.day[pair[1]]], self.node[None, pair[1]]) for pair in self.pairs}
        worth = {arc_of[name, shift]: base ** turns + base ** (turns - 1 - turn)
                 for name, wishes in self.wishes.items() for turn, shift in enumerate(wishes)}
        equal = 1 + sum(worth.values())
        place = equal * (1 + len(self.people) * len(self.days) ** 2)
        least, network = place * (1 + len(self.pairs)), nx.MultiDiGraph([(SINK, SOURCE)])
        for src, dst, low, high in zip(*(row.tolist() for row in (self.src, self.dst, self.low, self.high))):
            for unit in range(min(high, max(len(self.people), len(self.days)))):
                cost = (equal * (2 * unit + 1) if src == SOURCE else -place if dst == SINK
                        else -worth.get((src, dst), 0))
                network.add_edge(src, dst, capacity=1, weight=cost - least * (unit < low))
        _, flow = nx.network_simplex(network)
        pairs = [pair for pair, (src, dst) in arc_of.items() if flow[src][dst][0]]
        return pairs, [pair for pair in pairs if arc_of[pair] in worth]


def limits(row, most):
    """The least and the most of a row."""
    high = row.whole(most, most=10 ** 6)
    return row.whole("least", most=high) if row["least"] else 0, high


def shifts_of(row, column, shifts):
    """The shifts that a row lists between semicolons."""
    found = list(dict.fromkeys(shift.strip() for shift in row[column].split(";") if shift.strip()))
    where = "the column can" if column == "wishes" else "the table of shifts"
    for shift in (shift for shift in found if shift not in shifts):
        row.refuse(column, f"'{shift}' isn't in {where}")
    return found


def explain(week):
    """Prints why places stay empty. The shifts outside the source side of the cut nearest the sink are those that some
    best roster leaves short, and what can come to them is the capacity of the arcs there. A new arc fills one place
    more where it leads there from the source side of the cut nearest the source, as one unit more on such an arc."""
    near, far = week.cut(week.high), week.cut(week.high, "sinks")
    outside = ~far.side
    short = [shift for shift in week.shifts if outside[week.node[None, shift]]]
    if not short:
        return
    owner = np.array(["", "", *(key[0] if isinstance(key, tuple) else key for key in week.node)], object)
    owners = owner[np.where(week.src == SOURCE, week.dst, week.src)]
    crosses = far.side[week.src] & outside[week.dst] & (week.dst != SINK)
    gives = {name: week.high[crosses & (owners == name)].sum() for name in week.people}
    helpers = [name for name in week.people
               if any(shift not in week.can[name] and near.side[week.node[name, week.day[shift]]] for shift in short)]
    places = sum(int(week.high[week.of_shifts][week.shifts.index(shift)]) for shift in short)
    print(f"these shifts have {count(places, 'place')}: {', '.join(short)}")
    told = ", ".join(f"{name} ({number})" for name, number in gives.items() if number)
    print(f"at most {sum(gives.values())} of them can be filled: {told or 'nobody can work then'}")
    print(f"one more would be filled if one of these could work then: {', '.join(helpers) or 'nobody'}")
    raised = [name for name in week.people if outside[week.node[name]]]
    print(f"one more would be filled if one of these worked one shift more: {', '.join(raised) or 'nobody'}")


def tell(week, pairs, granted):
    """The roster in words."""
    places, wishes = int(week.high[week.of_shifts].sum()), sum(map(len, week.wishes.values()))
    print(f"{count(len(week.people), 'person', 'people')}, {count(len(week.shifts), 'shift')} with "
          f"{count(places, 'place')}; {len(pairs)} can be filled")
    for name in week.people:
        print(f"  {name}: " + ", ".join(shift for who, shift in pairs if who == name))
    if wishes:
        print(f"wishes granted: {len(granted)} of {wishes}")
    explain(week)


def draw(path, week, pairs, granted):
    """The roster: a row for each person, a column for each shift."""
    cells = np.array([[COULD if shift in week.can[name] else CANT for shift in week.shifts] for name in week.people])
    for name, shift in pairs:
        cells[week.people.index(name), week.shifts.index(shift)] = WISHED if (name, shift) in granted else WORKS
    figure, axes = plt.subplots(figsize=(2 + 0.42 * len(week.shifts), 1 + 0.36 * len(week.people)), dpi=90)
    axes.pcolormesh(cells, cmap=plt.matplotlib.colors.ListedColormap(COLOURS), vmin=0, vmax=len(COLOURS) - 1,
                    edgecolors="white", linewidth=3)
    axes.invert_yaxis()
    axes.set_frame_on(False)
    axes.tick_params(length=0)
    filled, places = Counter(shift for _, shift in pairs), week.high[week.of_shifts]
    axes.set_xticks(np.arange(len(week.shifts)) + 0.5, rotation=90, labels=[
        f"{shift}: {filled[shift]} of {most}" for shift, most in zip(week.shifts, places)])
    for label, shift, most in zip(axes.get_xticklabels(), week.shifts, places):
        label.set(color=graphs.RED if filled[shift] < most else graphs.BLACK)
    worked = Counter(name for name, _ in pairs)
    axes.set_yticks(np.arange(len(week.people)) + 0.5, labels=[
        f"{name}: {worked[name]} of {most}" for name, most in zip(week.people, week.high[week.of_people])])
    axes.set_title(f"{len(pairs)} of {count(int(places.sum()), 'place')} filled", loc="left", weight="bold")
    keys = [plt.Rectangle((0, 0), 1, 1, color=COLOURS[kind], label=WORDS[kind]) for kind in np.unique(cells)]
    figure.legend(handles=keys, loc="upper left", bbox_to_anchor=(0.92, 0.9), frameon=False)
    figure.savefig(path, bbox_inches="tight", facecolor="white")


def main():
    parser = argparse.ArgumentParser(description=__doc__)
    for table in ("people", "shifts"):
        parser.add_argument(table, nargs="?", default=os.path.join(HERE, f"{table}.csv"), help="else the example's own")
    parser.add_argument("--out", metavar="FOLDER", help="where the roster goes; else out/scheduling")
    words = parser.parse_args()
    week = Week(words.people, words.shifts)
    pairs, granted = week.roster()
    tell(week, pairs, granted)
    picture, table = (script.output(words, "scheduling", f"roster.{kind}") for kind in ("png", "csv"))
    draw(picture, week, pairs, granted)
    with open(table, "w", newline="", encoding="utf-8") as file:
        writer = csv.writer(file, lineterminator="\n")
        writer.writerow(["day", "shift", "person"])
        writer.writerows([week.day[shift], shift, name] for name, shift in pairs)
    print(f"drawn: {picture}, and as a table: {table}")


if __name__ == "__main__":
    script.run(main)
