"""Capacities of NetworkX's graphs: numbers of any kind, as floats or brought to whole numbers of 64 bits exactly."""

import contextlib
import math
from array import array
from fractions import Fraction
from itertools import islice
from numbers import Integral, Rational, Real

import networkx as nx

from provedflow.arrays import INFINITE, floats_of, plain
from provedflow.library import GREATEST_CAPACITY

MOST_PIECES = 8_000_000
"""The most arcs that great capacities are split into; more would take gigabytes."""


class TooMuch(nx.NetworkXError, NotImplementedError):
    """A graph beyond the limits. It is a NotImplementedError too, for which NetworkX asks its next backend."""


def edges_of(G, capacity):
    """The edges that can carry something, each with its capacity. Checks that each capacity is a number. Where a finite
    one is a float, all are."""
    edges = list(G.edges(data=capacity, default=INFINITE))
    if {type(amount) for _, _, amount in edges} != {int}:
        edges = [(u, v, number_of(amount, u, v)) for u, v, amount in edges]
    edges = [edge for edge in edges if edge[2] > 0 and edge[0] != edge[1]]
    if kind_of(amount for _, _, amount in edges) is not float:
        return edges
    try:
        return [(u, v, float(amount)) for u, v, amount in edges]
    except OverflowError:
        raise nx.NetworkXError("beside a float, a capacity has to be less than 2^1024") from None


def number_of(amount, u, v):
    """The capacity of an edge as a number of Python, whose sums can't overflow: NumPy's are converted, and whole ones
    are ints. Raises NetworkXError where it is none, as a text or nan."""
    if type(amount) in (int, float) and amount == amount:
        return amount
    if isinstance(number := plain(amount), Integral):
        return int(number)
    with contextlib.suppress(Exception):  # whatever a foreign kind raises where it is no number
        if number in (INFINITE, -INFINITE) or isinstance(number, Rational) or number.as_integer_ratio():
            return number
    raise nx.NetworkXError(f"the capacity of the edge ({u!r}, {v!r}) has to be a number, and is {amount!r}")


def as_fraction(amount):
    """A capacity as a Fraction, exactly."""
    if isinstance(amount, Rational):
        return Fraction(int(amount.numerator), int(amount.denominator))
    try:
        return Fraction(*amount.as_integer_ratio())
    except (AttributeError, OverflowError, ValueError):
        raise nx.NetworkXError(f"the capacity {amount!r} isn't a finite number") from None


def kind_of(amounts):
    """The kind of the answers: int where all finite capacities are whole, float where one is a float, else Fraction."""
    kinds = {type(amount) for amount in amounts if amount != INFINITE}
    if all(issubclass(kind, Integral) for kind in kinds):
        return int
    if any(issubclass(kind, Real) and not issubclass(kind, Rational) for kind in kinds):
        return float
    return Fraction


def whole_amounts(capacities, kind):
    """The capacities as whole numbers of a unit, how many of these make 1, and what an infinite one counts as: more
    than all others together, so that no minimum cut has it. Floats stay as they are."""
    if kind is float:
        return capacities, 1, INFINITE
    amounts, scale = [0 if amount == INFINITE else amount for amount in capacities], 1
    if kind is Fraction:
        amounts = list(map(as_fraction, amounts))
        scale = math.lcm(*(amount.denominator for amount in amounts))
        amounts = [int(amount * scale) for amount in amounts]
    most = 1 + sum(amounts)
    return [most if given == INFINITE else amount for given, amount in zip(capacities, amounts)], scale, most


def split(srcs, dsts, amounts, kind, scale):
    """The arcs as arrays, one of more than the greatest capacity as several beside each other, and how many each is;
    None where each is one. The amounts are floats or whole numbers of 1/scale."""
    if kind is float:
        return (array("I", srcs), array("I", dsts), floats_of(amounts)), None
    if max(amounts, default=0) <= GREATEST_CAPACITY:
        return (array("I", srcs), array("I", dsts), array("Q", amounts)), None
    parts = [max(1, -(-amount // GREATEST_CAPACITY)) for amount in amounts]
    if sum(parts) - len(parts) > MOST_PIECES:
        raise TooMuch("the capacities are too great or too different to be counted exactly; they fit if each is "
                      f"rounded to {rounding(Fraction(max(amounts), scale))}")
    pieces = [piece for amount, count in zip(amounts, parts)
              for piece in [GREATEST_CAPACITY] * (count - 1) + [amount - (count - 1) * GREATEST_CAPACITY]]
    srcs, dsts = ([end for end, count in zip(ends, parts) for _ in range(count)] for ends in (srcs, dsts))
    return (array("I", srcs), array("I", dsts), array("Q", pieces)), parts


def rounding(most):
    """To how many digits after the point capacities can be rounded, so that whole numbers of that unit have 63 bits
    where none is more than this, and how. That leaves a bit for the rounding, and for all of them together where an
    infinite one stands for more than all."""
    room = 2 ** 63 / most
    if room >= 1:
        digits = len(str(int(room))) - 1
        return f"{digits} digits after the point, as round(capacity * 10 ** {digits})"
    digits = len(str(int(1 / room)))
    return f"{digits} digits before the point, as round(capacity / 10 ** {digits})"


def joined(flows, parts):
    """The flows of arcs that `split` has split, of a list that the library has written."""
    flows = iter(flows.keeper.tolist())
    return flows if parts is None else [sum(islice(flows, count)) for count in parts]
