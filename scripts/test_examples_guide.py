"""The guide's scripts and the modules behind them, on small data with answers by hand or by trial; the guide's first
commands, and its lines for Python."""

import os
import random
import re
import shlex
import subprocess
import sys
from itertools import product

import pytest
from example_checks import EXAMPLES, ROOT, built, run, untried, write

GUIDE = (ROOT / "docs/GUIDE.md").read_text(encoding="utf-8")


@pytest.mark.parametrize("trial", range(4))
def test_failures_in_random_networks(trial):
    """What is left where a link or a site fails, against the problem without its arcs."""
    import dimacs
    from failures import Spare
    chance, program, arcs = random.Random(trial), dimacs.Flow(), []

    def problem_of(arcs):
        problem = dimacs.Problem()
        problem.source(0, 1)
        problem.sink(7)
        for arc in arcs:
            problem.arc(*arc)
        return problem

    for src, dst in [(chance.randrange(8), chance.randrange(8)) for _ in range(14)]:
        arcs += [(src, dst, chance.randrange(1, 5)), (dst, src, chance.randrange(1, 5))][:1 + trial % 2]
    failing = [[], *([arc] for arc in range(len(arcs))), *([2 * link, 2 * link + 1] for link in range(7)),
               *([place for place, arc in enumerate(arcs) if node in arc[:2]] for node in range(8))]
    expected = [program.value(problem_of(arc for place, arc in enumerate(arcs) if place not in gone))
                for gone in failing]
    value, units = program.solve(problem_of(arcs))
    spare = Spare(problem_of(arcs), units)
    assert [value - spare.loss(gone) for gone in failing] == expected


def test_flows_with_lower_limits(checks):
    """Random networks from node 0 to node 3, against a trial of all flows: the greatest and the least value, or nodes
    into which more must come than can leave them."""
    import dimacs
    import lower
    chance, program, made = random.Random(1962), dimacs.Flow(), 0
    for _ in range(16):
        arcs = []
        for src, dst in (chance.sample(range(4), 2) for _ in range(6)):
            low = chance.choice((0, 0, 1))
            arcs.append((src, dst, low, chance.randrange(low, 3)))

        def gain(units, node):
            return sum(amount * ((dst == node) - (src == node)) for (src, dst, _, _), amount in zip(arcs, units))

        def is_flow(units):
            within = all(low <= amount <= high for (_, _, low, high), amount in zip(arcs, units))
            return within and gain(units, 1) == gain(units, 2) == 0

        values = [gain(units, 3) for units in product(range(3), repeat=len(arcs)) if is_flow(units)]
        units, side = lower.feasible(program, arcs, [0], [3])
        assert (units is not None) == bool(values), arcs
        if values:
            found = [lower.greatest(program, arcs, *ends, units) for ends in (([0], [3]), ([3], [0]))]
            assert all(map(is_flow, [units, *found])), arcs
            assert [gain(one, 3) for one in found] == [max(values), min(values)], arcs
        else:  # The terminals give and take what they like, so they lie on the same side.
            into = sum(low for src, dst, low, _ in arcs if src not in side and dst in side)
            out = sum(high for src, dst, _, high in arcs if src in side and dst not in side)
            assert into > out and (0 in side) == (3 in side), arcs
        made += 3 if values else 2
    checks(made)


@pytest.mark.parametrize("column, expected", (
    (["1,200"], "'1,200' can be 1200 or 1.2: write 1,200.0 or 1,2000"), (["1,200.0"], 1200), (["1,2000"], 1.2),
    (["7", "1.000 t"], "'1.000 t' can be 1000 or 1: write 1.000,0 or 1.0000"), (["1.200,5"], 1200.5), (["1e-3"], .001),
    (["1,000,000", "1,200"], 1200), (["52.5", "1,200"], 1200), (["52,5", "1.200"], 1200), (["0,125", "1,200"], 1.2),
    (["1\u00a0000 000,5 t"], 1000000.5), (["1'200", "1’000.5"], 1000.5), (["1.250e2"], 125), (["50%"], 50), (["0"], 0),
    (["1,000,000", "12,5"], "'12,5' separates thousands or decimals unlike the rows before it"),
    *(([text], f"'{text}' isn't a number from 0, as 52 or 52.5") for text in (
        "-5", "1e-300", "1 20", "1,2,3", "1,20,000", "5-3", "1/3", "5–7", "1,,000", ".5", "inf", "nan", "1_000", "٣"))))
def test_numbers(tmp_path, column, expected):
    """What the last number of a column is, or why it is none."""
    import tables
    write(tmp_path, T="number\n" + "".join(f'"{text}"\n' for text in column))
    row = tables.read_table(str(tmp_path / "T.csv"), "number")[-1]
    try:
        found = float(tables.only_number(row["number"], row.numbers_of("number")[row["number"]])[0])
    except tables.Refused as refused:
        found = str(refused)
    assert found == expected


LINKS = "from,to,capacity\nA,B,3\nB,C,inf\nA,C,1\n"
ALONE = "links that can fail alone: 0 of 3\nsites that can fail alone: 0 of 1\n"
TABLES = (
    # As German spreadsheets save them, with decimals and a capacity of each site, in any case and form of Unicode.
    ('sep=;\r\nSource;TARGET;weight\r\nKo\u0308ln;"Bonn;West";52,5\r\n"Bonn;West";Köln;inf\r\n',
     "table.py --scale 10 T.csv K\u00f6ln 'Bonn;West'",
     "c node 1 Köln\nc node 2 Bonn;West\np max 2 2\nn 1 s\nn 2 t\na 1 2 525\na 2 1 526\n"),
    ("Von\tNach\tLast\nA\tB\t7\n", "table.py --from von --to nach --capacity last --both-ways T.csv A B",
     "c node 1 A\nc node 2 B\np max 2 2\nn 1 s\nn 2 t\na 1 2 7\na 2 1 7\n"),
    ("from,to\nA,B\nB,C\n", "table.py --unit --sites sites.csv T.csv A C", "c node 1 A\nc node 2 B\nc node 3 C\n"
     "c node 4 B (out)\np max 4 3\nn 1 s\nn 3 t\na 1 2 1\na 4 3 1\na 2 4 2\n"),
    ('from,to\nA,B\n"A,B\n', "table.py T.csv A B", "T.csv: row 3 isn't a row of a table: unexpected end of data"),
    *((f"from;to;capacity\nA;B;{text}\n", "table.py T.csv A B", f"T.csv: row 2, column capacity: '{text}' {fault}")
      for text, fault in (("1.200,5", "isn't whole; --scale 10 counts in smaller units"),
                          ("1e-3", "isn't whole; --scale 1000 counts in smaller units"),
                          ("1,000", "can be 1000 or 1: write 1,000.0 or 1,0000"),
                          ("5 t", "isn't a number from 0, as 52 or 52.5"))),
    (LINKS, "table.py T.csv A A", "'A' is a source and a sink"),
    (LINKS, "table.py T.csv A,A B", "'A,A' names a node twice, or none"),
    (LINKS, "table.py T.csv Ann B", "'Ann' isn't in T.csv"),
    ("from,to,capacity\nA,B,1\nB,C\n", "table.py T.csv A B",
     "T.csv: row 3, column capacity: the row ends before it: it has 2 of 3 columns"),
    ("from,to\nA,B\n", "table.py T.csv A B", "T.csv: row 1: the column capacity isn't among from, to"),
    (f"from,to,capacity\nA,B,{2 ** 64 - 1}\nA,B,inf\n", "table.py T.csv A B", f"T.csv: the capacities add up to "
     f"{2 ** 64 - 1}, so none is left for inf: the greatest is {2 ** 64 - 1}"),
    ("", "table.py none.csv A B", "there is no file none.csv"),
    (LINKS, "table.py --scale 0 T.csv A B", "error: --scale is a number from 1"),
    ("from,to,low,high\nA,B,3,2\n", "lower.py T.csv A B",
     "T.csv: row 2, column low: 3 is greater than high, which is 2"),
    ("from,to,low,high\nA,B,1,2\n", "lower.py --least T.csv A B", "value 1\nA -> B: 1 of 1 to 2\n"),
    (LINKS, "failures.py T.csv A C", "value 4\n1 without link A, B\n1 without link B, C\n3 without link A, C\n"
     f"1 without site B\n{ALONE}"),
    (LINKS, "failures.py --unit T.csv A C", "value 2\n1 without link A, B\n1 without link B, C\n1 without link A, C\n"
     f"1 without site B\n{ALONE}"),
    (LINKS, "failures.py --sites sites.csv T.csv A C", "value 3\n1 without link A, B\n1 without link B, C\n"
     f"2 without link A, C\n1 without site B\n{ALONE}"),
    ("on;off;load\nB;A;2,5\n", "failures.py --both-ways --scale 2 --from on --to off --capacity load T.csv A B",
     "value 5\n0 without link B, A\nlinks that can fail alone: 0 of 1\nsites that can fail alone: 0 of 0\n"),
)
"""A table, a command, and what it prints or refuses. A site B takes 2."""


@pytest.mark.parametrize("text, command, expected", TABLES)
def test_tables(tmp_path, text, command, expected):
    write(tmp_path, T=text, sites="site,capacity\nB,2\n")
    _, found, complaint = run(shlex.split(f"guide/{command}"), tmp_path)
    assert (complaint.splitlines() or [found])[-1].removeprefix(f"{command.split()[0]}: ") == expected


@pytest.mark.parametrize("script", ("table.py", "failures.py", "lower.py"))
def test_each_option_is_tried(script):
    assert untried(f"guide/{script}", [words for _, words, _ in TABLES if words.startswith(script)]) == {"--help"}


def test_names_with_commas_and_quotes(tmp_path):
    (tmp_path / "names.max").write_text('c node 1 Smith, Ann\nc node 2 Über "Bridge"\np max 2 1\n', encoding="utf-8")
    found = run(["guide/names.py", "names.max"], tmp_path, input="s 0\nn 1\nf 1 2 0\n")
    assert found == (0, 's 0\nn "Smith, Ann"\nf "Smith, Ann", "Über ""Bridge""", 0\n', "")


@pytest.mark.parametrize("objects, expected", (
    ("8,0", "column 8, row 0: the picture has the columns 0 to 7 and the rows 0 to 5"),
    ("3,2 0,0", "column 0, row 0: marked as object and as background"), ("3;2", "'3;2' isn't COLUMN,ROW")))
def test_places_of_pictures(objects, expected):
    found = run(["guide/picture.py", "problem", "guide/spot.pgm", objects, "0,0"], EXAMPLES)
    assert found == (1, "", f"picture.py: {expected}\n")


@pytest.mark.parametrize("section", GUIDE.split("\n## ")[1:])
def test_lines_from_python(section, checks):
    """The lines of the guide for Python answer what they say. Each section has one, but that on lower limits."""
    import provedflow
    lines = re.findall(r"From Python, `(.*?)` is `(.*?)`", section)
    assert [str(eval(line, {"provedflow": provedflow})) for line, _ in lines] == [answer for _, answer in lines]
    assert lines or section.startswith("6. Lower limits")
    checks(max(len(lines), 1))


def test_the_first_commands(tmp_path):
    """The commands at the guide's head, for a table of roads, run as they stand there. From A to B two roads lead."""
    pytest.importorskip("matplotlib")
    write(tmp_path, roads="from,to,capacity\nA,C,3\nB,C,2\nA,B,1\n")
    (tmp_path / "examples").symlink_to(EXAMPLES)
    commands = re.search(r"```sh\n(guide=.*?)```", GUIDE, re.S).group(1)
    python = f'python3() {{ "{sys.executable}" -B "$@"; }}\n'
    found = subprocess.run(["bash", "-euo", "pipefail", "-c", python + commands], cwd=tmp_path, capture_output=True,
                           text=True, timeout=60)
    assert (found.returncode, found.stderr) == (0, "")
    for answer in ("s 3\ns 3\n", "n A\nn C\n", "\nfrom A to B: 3\n", "A to B with 500 more: 503\n", "\nk 2\nk 2\n",
                   "the loss of 2 links can split the network", "value 3\n1 without link A, C\n"):
        assert answer in found.stdout


def test_a_reader_that_leaves(tmp_path):
    """A script whose output nobody reads ends without a traceback."""
    write(tmp_path, long="from,to,capacity\n" + "".join(f"N{row},N{row + 1},{row}\n" for row in range(30_000)))
    reader, writer = os.pipe()
    os.close(reader)
    status, _, complaint = run(["guide/table.py", "long.csv", "N0", "N9"], tmp_path, stdout=writer)
    os.close(writer)
    assert (status, complaint) == (1, "")
