"""Weights with fractions: floats as whole numbers of a unit, and answers as floats again.

There is one rule. The bound of a network is the lesser of what can leave its sources and what can enter its sinks;
nodes that infinite weights join to a terminal count as terminals. The unit is a power of two, the least of which the
bound has surely fewer than 2^63. Weights are rounded down to whole units, and those of 2^63 or more, infinite ones
among them, count as 2^63, so that no minimum cut has one. The flow found keeps to the weights given, so its value is at
most the greatest; and what the cut found costs in the weights given is at least that.
"""

import math
from fractions import Fraction

import numpy as np

from provedflow.library import FlowError

WHOLE = 1074
"""Doubled so often, each float is whole."""
SURE = 1 + 2.0 ** -20
"""What a sum of floats is multiplied by to be no less than the exact one."""


class Value(float):
    """A value of weights that are floats: by how much more that of a flow may be, or less that of a cut, is its gap."""

    gap: float = 0


class Unit:
    """The unit of a network: 2^shift of it make 1. Weights are arrays of float64.

    - cuts: the weights of two cuts, which are finite: of what leaves the sources, and of what enters the sinks.
    """

    def __init__(self, *cuts):
        with np.errstate(over="ignore"):
            bound = float(min(cut.sum() for cut in cuts)) * SURE
        if bound >= 2.0 ** 1023:
            raise FlowError("the weights add up to 2^1023 or more")
        self.shift = min(WHOLE, 63 - math.frexp(bound)[1]) if bound else WHOLE

    def units(self, weights):
        """Weights in whole units, rounded down, and at most 2^63."""
        limit = math.ldexp(1.0, 63 - self.shift)
        return np.ldexp(np.minimum(weights, limit), self.shift).astype(np.uint64)

    def amounts(self, units):
        """Units as floats, the nearest ones: a flow that keeps to a weight in units keeps to the weight given."""
        return np.ldexp(units.astype(float), -self.shift)

    def lost(self, weights):
        """How many units rounding has taken from the weights of a minimum cut; rounded up to 2^-40 of one for each."""
        parts = np.ldexp(weights, self.shift)
        parts = np.ceil((parts - np.floor(parts)) * 2.0 ** 40)
        return Fraction(exact_sum(parts.astype(np.uint64)), 2 ** 40)

    def value(self, units, lost, of_cut):
        """The value of a flow of so many units, or of a cut that costs so many and what it has lost. This and the other
        bound are rounded away from each other; where nothing is lost, the value is the nearest float."""
        scale = Fraction(2) ** -self.shift
        least, most = units * scale, (units + lost) * scale
        if not lost:
            return Value(least)
        value = Value(rounded(most, math.inf) if of_cut else rounded(least, 0))
        value.gap = rounded(Fraction(value) - least if of_cut else most - Fraction(value), math.inf)
        return value


def rounded(exact, towards):
    """The nearest float of a number on the side that leads towards another."""
    near = float(exact)
    return near if near == exact or (near > exact) == (towards > exact) else math.nextafter(near, towards)


def exact_sum(units):
    """The sum of an array of whole numbers of 64 bits, which may take more."""
    return (int((units >> np.uint64(32)).sum()) << 32) + int((units & np.uint64(0xffffffff)).sum())
