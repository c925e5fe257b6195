"""`provedflow.pixels` by hand, and by trial of all masks."""

import tracemalloc
from fractions import Fraction
from itertools import product

import pytest

from binding_checks import assert_near, least_cuts, named_library, refusals, refused

np = pytest.importorskip("numpy")

from provedflow import pixels
from provedflow.pixels import Grid, fits, steps
from provedflow.library import FlowError, Unbounded

SHAPES = {(8,): 2, (2, 4): 4, (3, 3): 8, (2, 2, 2): 6, (2, 1, 4): 26, (1, 3, 3): 18}
"""Small grids, each with how many neighbours its pixels have."""


def neighbours_by_hand(shape, neighbours):
    """The pairs of neighbouring pixels, found from how far they are from each other."""
    most = {2: 1, 4: 1, 8: 2, 6: 1, 18: 2, 26: 3}[neighbours]
    for here, there in product(product(*map(range, shape)), repeat=2):
        far = [abs(one - other) for one, other in zip(here, there)]
        if here < there and max(far) == 1 and sum(far) <= most:
            yield here, there


def trial(chance, shape, neighbours, scale):
    """A small grid with random weights, multiplied by a scale; the least cost of a mask, and the masks that have it."""
    picture = chance.integers(0, 9, shape)
    sources, sinks = chance.integers(0, 30, (2, *shape)) * scale
    grid = Grid(shape, neighbours)
    grid.join((lambda here, there, step: np.maximum(0, 9 - abs(here - there)) * scale,
               lambda here, there, step: (here + there) * scale), of=picture)
    half = sources // 2 if scale == 1 else sources / 2
    grid.add_terminals(half, 0)
    grid.add_terminals(sources - half, sinks)
    nodes = np.arange(1, picture.size + 1).reshape(shape)
    arcs = [(0, *row) for row in zip(nodes.flat, sources.flat)]
    arcs += [(node, picture.size + 1, weight) for node, weight in zip(nodes.flat, sinks.flat)]
    for here, there in neighbours_by_hand(shape, neighbours):
        one, other = int(picture[here]), int(picture[there])
        arcs += [(nodes[here], nodes[there], max(0, 9 - abs(one - other)) * scale),
                 (nodes[there], nodes[here], (one + other) * scale)]
    cost, sides = least_cuts(picture.size + 2, [(u, v, weight * 1.0) for u, v, weight in arcs])
    return grid, cost, [~np.isin(nodes, list(side)) for side in sides]


@pytest.mark.parametrize("shape, neighbours", SHAPES.items())
@pytest.mark.parametrize("scale", [1, 0.25, 1 / 3])
def test_random_grids(shape, neighbours, scale, checks):
    """Small grids: the least cost of all masks, and the two nearest masks of that cost; of floats that were rounded the
    bounds."""
    chance = np.random.default_rng(1989)
    checks(20)
    for number in range(10):
        grid, cost, best = trial(chance, shape, neighbours, scale)
        for end, wanted in (("source", np.logical_or.reduce(best)), ("sink", np.logical_and.reduce(best))):
            found = grid.cut(nearest=end + "s" * (number % 2))
            assert_near(found.value, found.gap, True, cost)
            assert scale == 1 / 3 or not found.gap and (found.mask == wanted).all()
            assert isinstance(found.value, type(scale))


ENDS, MORE = ([9, 0, 0, 0], [0, 0, 0, 9]), 10 ** 19


@pytest.mark.parametrize("step, weights, sources, sinks, value, mask", [
    (0, [5, 2, 7], *ENDS, 2, [0, 0, 1, 1]),
    (0, [5, 2.5, 7], *ENDS, 2.5, [0, 0, 1, 1]),
    # With 10^19 more on all terminals each pixel pays the lesser of its two, and the sum takes 66 bits.
    (-1, [5, 2, 7], [MORE + 9] + [MORE] * 3, [MORE] * 3 + [MORE + 9], 4 * MORE + 2, [0, 0, 1, 1]),
    ((2,), [3, 4], [9, 0, 0, 9], [0, 0, 9, 0], 3, [0, 1, 1, 0]),
    ((4,), 7, *ENDS, 0, [0, 1, 1, 1]),  # a step that leads out of the grid joins nothing
    ((-9,), 7, *ENDS, 0, [0, 1, 1, 1]),
    (0, [True, False, True], *ENDS, 0, [0, 0, 1, 1]),
    (0, np.array([True, False, True]), np.array(ENDS[0]) > 0, np.array(ENDS[1]) > 0, 0, [0, 0, 1, 1]),
    (0, [5, 2, 7], [np.inf, 0, 0, 0], [0, 0, 0, np.inf], 2.0, [0, 0, 1, 1]),
    (0, [5, np.inf, 7], [np.inf, 0, 0, 0], [0, 0, 0.5, np.inf], 5.0, [0, 1, 1, 1]),
])
def test_rows(step, weights, sources, sinks, value, mask):
    """Rows whose cuts can be seen: the step along which pixels are joined, the weights of these edges, the weights to
    the source and to the sink, the value and the mask."""
    grid = Grid((4,))
    grid.join_step(step, weights, back=0)
    grid.add_terminals(*(np.array(ends, np.uint64) if max(ends) == MORE + 9 else ends for ends in (sources, sinks)))
    found = grid.cut()
    assert (found.value, found.mask.tolist(), found.gap) == (value, list(map(bool, mask)), 0)


def test_arcs_to_terminals():
    """Two weights of a pixel make one arc, and none where they are the same."""
    grid = Grid((3,))
    grid.add_terminals([5, 3, 4], [2, 3, 6])
    assert [*zip(*(ends.tolist() for ends in grid.arcs()))] == [(3, 0, 3), (2, 4, 2)] and grid.cut().value == 9
    assert repr(Grid([2, 3], 4)) == "Grid((2, 3), neighbours=4)"


@pytest.mark.parametrize("kind", ["uint8", "int8", "uint16", "uint64", "bool", "float32"])
def test_pictures(kind):
    """The page's recipe, whatever kind of numbers a photograph has: beside a step the mask pays nothing."""
    picture = np.array([[0, 0, 1, 1]]) * (1 if kind == "bool" else 200) - (100 if kind == "int8" else 0)
    grid = Grid((1, 4), 4)
    grid.join(lambda here, there, step: np.where(here == there, 100, 100 // (1 + 200 * (here - there) ** 2)),
              of=picture.astype(kind))
    grid.add_terminals([[90, 0, 0, 0]], [[0, 0, 0, 90]])
    found = grid.cut()
    assert (found.value, found.mask.tolist()) == (0, [[False, False, True, True]])


@pytest.mark.parametrize("form", [np.asarray, np.ndarray.tolist])
def test_weights_at_pixels(form):
    """Weights in the grid's shape are those of the edges from each pixel; the last ones lead out and are ignored."""
    there, back = np.arange(1, 13).reshape(3, 4), np.arange(21, 33).reshape(3, 4)
    one, other = Grid((3, 4), 8), Grid((3, 4), 8)
    one.join((form(there), form(back)))
    for step in steps(2, 8):
        other.join_step(step, pixels.pairs(there, step)[0], pixels.pairs(back, step)[0])
    assert all((mine == theirs).all() for mine, theirs in zip(one.arcs(), other.arcs()))
    row = Grid((4,), 2)
    row.join(form(np.array([5, 2, 7, 0])))
    row.add_terminals(*ENDS)
    assert row.cut().value == 2


def test_arrays_are_filled_once():
    """A large grid takes little more than the memory of its arcs: no list of a step is made beside them."""
    tracemalloc.start()
    grid = Grid((300, 300), 8)
    grid.join(3)
    grid.add_terminals(np.arange(90000).reshape(300, 300), 45000)
    before = tracemalloc.get_traced_memory()[0]
    tracemalloc.reset_peak()
    arcs = grid.arcs()
    most = tracemalloc.get_traced_memory()[1] - before
    tracemalloc.stop()
    assert most < 1.4 * sum(part.nbytes for part in arcs)


@pytest.mark.parametrize("side, axes, neighbours", [(14654, 2, 4), (10923, 2, 8), (535, 3, 6), (342, 3, 26)])
def test_limits(side, axes, neighbours):
    """The greatest squares and cubes, as the page has them."""
    assert [fits((size,) * axes, steps(axes, neighbours)) for size in (side, side + 1)] == [True, False]


def test_too_many_steps(monkeypatch):
    grid = Grid((300, 400))
    for step in (*steps(2, 4), (1, 1)):
        grid.join_step(step, 1)
    monkeypatch.setattr(pixels, "MOST_ARCS", 1_000_000)
    refused(ValueError, "with 4 steps to neighbours doesn't fit", grid.join_step, (1, -1), 1)


@pytest.mark.parametrize("weight", [9, 4.5])
def test_large(weight):
    """A photograph of the size of a screen, which is more than a file may have: as many pixels on either side of a line
    that a cut goes along."""
    grid = Grid((1080, 1920), 4)
    grid.join(1)
    halves = np.arange(1920) < 960
    grid.add_terminals(np.broadcast_to(weight * halves, grid.shape), np.broadcast_to(weight * ~halves, grid.shape))
    value, mask = grid.cut()
    assert value == 1080 and (mask == ~halves).all()


MASKED, HIDDEN, FULL = np.ma.masked_array([1, 2], [False, True]), np.ma.array(1, mask=True), Grid((2,), 2)
FULL.add_terminals(2 ** 64 - 1, 0)


def endless(weight, sources, sinks):
    """The cut of a row of three pixels with infinite weights."""
    grid = Grid((3,), 2)
    grid.join(weight)
    grid.add_terminals(sources, sinks)
    return grid.cut()


test_refused = refusals(
    lambda call, *given: call(*given),
    *((Unbounded, "no cut has a value", endless, *weights) for weights in (
        (np.inf, [np.inf, 0, 0], [0, 0, np.inf]), (1, [0, np.inf, 0], [0, np.inf, 1]), (np.inf, [np.inf] * 3, np.inf))),
    *((TypeError, "masked elements", *row) for row in (
        (FULL.join, max, MASKED), (FULL.add_terminals, MASKED, 0), (FULL.join, MASKED), (FULL.join, max, [HIDDEN, 1]),
        (FULL.join_step, 0, [HIDDEN]), (FULL.join_step, 0, 1, [HIDDEN]), (FULL.add_terminals, 0, [1, HIDDEN]))),
    *((ValueError, f"of a grid of 2 axes, and this step is {step!r}", Grid((2, 2)).join_step, step, 1)
      for step in [(0, 1, 1), (1,), (0, 0), 2, -3]),
    # What doesn't fit is told in pixels, and before anything is made.
    (ValueError, "268,435,456 pixels, and 214,748,364 fit surely, as 14,654 x 14,654", Grid, (2 ** 14, 2 ** 14), 4),
    (ValueError, "11,000 x 11,000 pixels with 8 neighbours doesn't fit: it has 121,", Grid, (11000, 11000), 8),
    (ValueError, "1,000,000 x 1,000,000 pixels", Grid, (10 ** 6, 10 ** 6), 4),
    (TypeError, "step 0: weights has to have numbers, and is an array of complex", FULL.join_step, 0, 0.5j),
    (TypeError, "weights[0] has to be a number, and is Fraction(1, 2)", FULL.join_step, 0, [Fraction(1, 2)]),
    (FlowError, "step 0: weights has to be a whole number from 0 to", FULL.join_step, 0, -1),
    (FlowError, "step 0: back[0] has to be a number from 0, and is -0.5", FULL.join_step, 0, 1, [-0.5]),
    (FlowError, "sources[1] has to be a number from 0, and is nan", FULL.add_terminals, [1, np.nan], 0),
    (FlowError, "sinks[1, 0] has to be a number from 0, and is -1", Grid((2, 2)).add_terminals, 0, [[1, 2], [-1., 0]]),
    (FlowError, "sinks[0] has to be a whole number from 0 to", FULL.add_terminals, 0, [2 ** 64, 1]),
    (ValueError, "has to have the shape (1,), and has (2,)", FULL.join_step, 0, [1, 2]),
    (ValueError, "sources has to have the shape (2,), and has (3,)", FULL.add_terminals, [1, 2, 3], 0),
    (ValueError, "add up to more than 18446744073709551615", FULL.add_terminals, [0, 1], 0),
    (ValueError, "a grid of 2 axes has 4, 8 neighbours, not 6", Grid, (2, 2), 6),
    (ValueError, "goes up to 9223372036854775808", FULL.join, max, np.array([2 ** 63, 0], np.uint64)),
    (ValueError, "without a number of neighbours", Grid((2,)).join, 5),
    (ValueError, "one pixel or more along each axis", Grid, (2, 0), 4),
    (ValueError, "nearest has to be", FULL.cut, "middle"))
