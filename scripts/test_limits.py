"""The texts tell the limits as their constants say.

A limit is one constant of a file limits.rt. These are the sentences that tell it and that no other test shows: each has
to stand in its file just once, with the constant's digits. Where its lines end doesn't matter.
"""
import functools
import re

import pytest

from conftest import ROOT

SENTENCES = {
    "README.md": ["Limits: 2 to {MOST_PROBLEM_NODES:,} nodes, at most {MOST_PROBLEM_ARCS:,} arcs",
                  "flows of a line up to {GREATEST_CAPACITY:,}, at most {MOST_FLOW_LINES:,} flow lines",
                  "lines of at most {LONGEST_LINE} bytes (comments apart)"],
    "man/flow.1": ["There are 2 to {MOST_PROBLEM_NODES:,} nodes and at most {MOST_PROBLEM_ARCS:,} arcs.",
                   "solution, are 0 to {GREATEST_CAPACITY:,}.", "A line has at most {LONGEST_LINE} bytes"],
    "docs/MESSAGES.md": ["has more than {LONGEST_LINE} bytes, its end not counted",
                         "declares fewer than 2 nodes or more than {MOST_PROBLEM_NODES:,}.",
                         "declares more than {MOST_PROBLEM_ARCS:,} arcs.",
                         "A line `f` stands after {MOST_FLOW_LINES:,} others.",
                         "is greater than {GREATEST_VALUE:,}, which is {MOST_FLOW_LINES:,} times the greatest"],
    "docs/DEFINITIONS.md": ["at most `LONGEST_LINE` bytes, which are {LONGEST_LINE};",
                            "A line of more than {LONGEST_LINE} bytes is a fault whatever stands behind its first "
                            "{LONGEST_LINE} bytes"],
    "crates/flow_words/src/commands.rt": [
        "Limits: 2 to {MOST_PROBLEM_NODES} nodes, {MOST_PROBLEM_ARCS} arcs, whole capacities up to {GREATEST_CAPACITY}, "
        "lines of {LONGEST_LINE} bytes",
        "{GREATEST_CAPACITY}, {MOST_FLOW_LINES} lines f, lines of {LONGEST_LINE} bytes"],
    "c/provedflow.h": ["Limits: 2 to {MOST_NODES:,} nodes, at most {MOST_ARCS_BOTH_WAYS:,} arcs,",
                       "capacities from 0 to {GREATEST_CAPACITY:,}.",
                       "fewer than 2 nodes, or more than {MOST_NODES:,} */",
                       "provedflow_links takes at most {MOST_ARCS:,} arcs.",
                       "#define PROVEDFLOW_MOST_NODES {MOST_NODES} ", "#define PROVEDFLOW_MOST_LINKS {MOST_ARCS} ",
                       "#define PROVEDFLOW_MOST_ARCS {MOST_ARCS_BOTH_WAYS} "],
    "docs/C.md": ["A network has 2 to {MOST_NODES:,} nodes, counted from 0, and at most {MOST_ARCS_BOTH_WAYS:,} arcs, "
                  "or {MOST_ARCS:,} where links are counted;"],
    "python/provedflow/__init__.py": [
        "Limits: 2 to {MOST_NODES:,} nodes, at most {MOST_ARCS_BOTH_WAYS:,} arcs, or {MOST_ARCS:,} where "
        "links are counted, capacities from 0 to {GREATEST_CAPACITY:,}"],
    "python/provedflow/calls.py": ["at most {MOST_ARCS:,} arcs."],
    "python/provedflow/library.py": ["MOST_NODES = {MOST_NODES:_}", "MOST_ARCS = {MOST_ARCS_BOTH_WAYS:_}",
                                     "MOST_LINKS = {MOST_ARCS:_}"],
    "python/provedflow/scipy.py": ["beyond the limits of {MOST_NODES:,} nodes and {MOST_ARCS_BOTH_WAYS:,} arcs"],
    "python/provedflow/networkx.py": ["beyond the limits of {MOST_NODES:,} nodes and {MOST_ARCS_BOTH_WAYS:,} arcs, or "
                                      "{MOST_ARCS:,} edges where links are counted;"],
    "python/provedflow/pixels.py": ["of {MOST_ARCS_BOTH_WAYS:,} arcs and {MOST_NODES:,} nodes there is room"],
}


@functools.cache
def constants():
    """The limits, by their names."""
    found = {}
    for file in sorted(ROOT.glob("crates/*/src/limits.rt")):
        for name, words in re.findall(r"^pub const (\w+): \w+ = (.*);$", file.read_text(), re.M):
            words = re.sub(r" as \w+|(?<=\d)_(?=\d)", "", words).replace("u64::MAX", str(2**64 - 1))
            found[name] = eval(words, {}, found)  # a sum or a product of numbers and of limits before it
    return found


@pytest.mark.parametrize("name, sentence", [(name, it) for name, those in SENTENCES.items() for it in those],
                         ids=[name for name, those in SENTENCES.items() for _ in those])
def test_limits(name, sentence):
    sentence = sentence.format(**constants())
    text = re.sub(r"\s+(\* )?", " ", (ROOT / name).read_text())
    assert sentence in text
    assert text.count(sentence) == 1
