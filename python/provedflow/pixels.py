"""Minimum cuts of grids of pixels and voxels: NumPy arrays of weights in, a mask out.

    import numpy as np
    from provedflow.pixels import Grid

    grid = Grid(picture.shape, neighbours=8)
    grid.join(lambda here, there, step: np.exp(-(here - there) ** 2 / 200), of=picture)
    grid.add_terminals(sources, sinks)
    value, mask = grid.cut()

A grid has any number of axes. Each pixel is joined with neighbours by edges, and with two terminals, the source and the
sink. A cut puts each pixel on one of two sides, and costs the weights of the edges between the sides: the mask is true
for the pixels on the sink's side, as with PyMaxflow. Weights are whole numbers from 0 to 2^64 - 1, or floats, where
infinity is an edge that must not be cut; where one is a float, all are.

A grid takes one arc for each pixel and two for each pair of neighbours: of 1,073,741,824 arcs and 268,435,456 nodes
there is room for 14,654 x 14,654 pixels with 4 neighbours, 10,923 x 10,923 with 8, 535 x 535 x 535 voxels with 6, and
342 x 342 x 342 with 26.
"""

from __future__ import annotations

import operator
from copy import copy
from itertools import product
from math import prod
from typing import TYPE_CHECKING, Any, Callable, Literal, NamedTuple, Optional, Union

import numpy as np

from provedflow.arrays import AMOUNT, check_numbers, read, refuse_masked
from provedflow.calls import minimum_cut
from provedflow.library import GREATEST_CAPACITY, MOST_ARCS, MOST_NODES, Unbounded
from provedflow.weights import Unit, exact_sum

if TYPE_CHECKING:
    from collections.abc import Sequence

    from numpy.typing import ArrayLike, NDArray

    Way = Union[ArrayLike, Callable[[Any, Any, Any], ArrayLike]]


class Cut(NamedTuple):
    """What a cut costs, and a mask in the grid's shape: true for a pixel on the sink's side."""

    value: Union[int, Any]
    mask: NDArray[np.bool_]

    @property
    def gap(self) -> float:
        """By how much more that may be than the least; 0 where no weight was rounded."""
        return getattr(self.value, "gap", 0)


NEIGHBOURS = {(1, 2): 1, (2, 4): 1, (2, 8): 2, (3, 6): 1, (3, 18): 2, (3, 26): 3}
"""How many axes a step to a neighbour may go along, by the number of axes and the number of neighbours."""


def steps(axes: int, neighbours: int) -> list[tuple[int, ...]]:
    """One step for each pair of neighbours, as a tuple of -1, 0 and 1 for the axes, in the order of the axes.

    - axes: how many axes a grid has.
    - neighbours: 2 for a row, 4 or 8 for a picture, 6, 18 or 26 for a volume. Raises ValueError for others.

    >>> steps(2, 8)
    [(0, 1), (1, -1), (1, 0), (1, 1)]
    """
    if (axes, neighbours) not in NEIGHBOURS:
        known = ", ".join(str(number) for count, number in NEIGHBOURS if count == axes) or "no fixed number of"
        raise ValueError(f"a grid of {axes} axes has {known} neighbours, not {neighbours}")
    all_steps = [step for step in product((-1, 0, 1), repeat=axes) if step > (0,) * axes]
    return [step for step in all_steps if sum(abs(part) for part in step) <= NEIGHBOURS[axes, neighbours]]


def pairs(pixels: NDArray[Any], step: tuple[int, ...]) -> tuple[NDArray[Any], NDArray[Any]]:
    """Two views of an array: the pixels that have a neighbour at a step, and these neighbours, in the same order.

    >>> here, there = pairs(np.arange(6).reshape(2, 3), (0, 1))
    >>> here.tolist(), there.tolist()
    ([[0, 1], [3, 4]], [[1, 2], [4, 5]])
    """
    here, there = (tuple(slice(max(0, -way * part), max(0, size - max(0, way * part)))
                         for size, part in zip(pixels.shape, step)) for way in (1, -1))
    return pixels[here], pixels[there]


class Grid:
    """A grid of pixels, with edges between neighbours and to the two terminals.

    - shape: how many pixels there are along each axis.
    - neighbours: how many neighbours a pixel has: 2 in a row, 4 or 8 in a picture, 6, 18 or 26 in a volume; else edges
      are joined step by step.

    Raises ValueError if a grid of this shape with so many neighbours has more nodes or arcs than fit.

    >>> grid = Grid((4,))
    >>> grid.join_step((1,), np.array([5, 2, 7]))
    >>> grid.add_terminals([9, 0, 0, 0], [0, 0, 0, 9])
    >>> value, mask = grid.cut()
    >>> value, mask.tolist()
    (2, [False, False, True, True])
    """

    def __init__(self, shape: Sequence[int], neighbours: Optional[int] = None) -> None:
        self.shape = tuple(map(operator.index, shape))
        self.steps = [] if neighbours is None else steps(len(self.shape), neighbours)
        check_room(self.shape, self.steps, neighbours)
        self.neighbours = neighbours
        self.joined: list[tuple[tuple[int, ...], Any, Any]] = []
        self.terminals = [np.zeros(self.shape, np.uint64), np.zeros(self.shape, np.uint64)]

    def __repr__(self) -> str:
        return f"Grid({self.shape}, neighbours={self.neighbours})"

    def join(self, weights: Union[Way, tuple[Way, Way]], of: Optional[ArrayLike] = None) -> None:
        """Joins each pixel with its neighbours.

        - weights: one number for all edges; or an array in the grid's shape, where the weight at a pixel is that of its
          edges to the pixels at the `steps`, and is ignored where these lead out of the grid; or a function that is
          called with the arrays `here` and `there` and a step, and answers the weights of these edges, an array of the
          same shape or a number; or a pair of these, for the ways there and back.
        - of: the picture that `here` and `there` are parts of, an array whose first axes are those of the grid. Whole
          numbers and bools are passed on in 64 bits (int64), so that no difference of those of a photograph wraps.
        """
        if not self.steps:
            raise ValueError("this grid was made without a number of neighbours: give it one, or use join_step")
        picture = as_picture(of)
        there_and_back = weights if isinstance(weights, tuple) else (weights,)
        for step in self.steps:
            self.join_step(step, *(self.weights_of(way, picture, step) for way in there_and_back))

    def weights_of(self, way, picture, step):
        """The weights of the edges of a step one way."""
        if callable(way):
            return way(*pairs(picture, step), step)
        refuse_masked(way, "the weights")
        way = np.asarray(way)
        return pairs(way, step)[0] if way.shape == self.shape else way

    def join_step(self, step: Union[int, tuple[int, ...]], weights: ArrayLike,
                  back: Optional[ArrayLike] = None) -> None:
        """Joins each pixel with the one at a step, by edges of a weight there, and back of another or else the same.

        - step: how far along each axis, as (0, 1) for the next pixel of a row; or the number of an axis, for the next
          pixel along it. Steps of any length are taken; one that leads out of the grid from everywhere joins nothing.
        - weights, back: a number, or an array in the shape of `pairs(pixels, step)`, from 0.
        """
        parts = self.step_of(step)
        shape = tuple(max(0, size - abs(part)) for size, part in zip(self.shape, parts))
        check_room(self.shape, [done for done, _, _ in self.joined] + [parts], None)
        there = as_weights(weights, shape, f"step {step}: weights")
        back = there if back is None else as_weights(back, shape, f"step {step}: back")
        self.joined.append((parts, there, back))

    def step_of(self, step):
        """A step as a number for each axis."""
        axes = len(self.shape)
        if isinstance(step, tuple):
            parts = tuple(map(operator.index, step))
            if len(parts) == axes and any(parts):
                return parts
        elif -axes <= operator.index(step) < axes:
            return tuple(int(axis == step % axes) for axis in range(axes))
        raise ValueError(f"a step leads from a pixel to another of a grid of {axes} axes, and this step is {step!r}")

    def add_terminals(self, sources: ArrayLike, sinks: ArrayLike) -> None:
        """Joins each pixel with the source and with the sink; weights that were there before are added.

        - sources, sinks: a number, or an array in the grid's shape, from 0. The source's is what it costs to be on the
          sink's side, and the other way round.
        """
        more = as_weights(sources, self.shape, "sources"), as_weights(sinks, self.shape, "sinks")
        sums = [before + weights for before, weights in zip(self.terminals, more)]
        if any(both.dtype.kind == "u" and (both < weights).any() for both, weights in zip(sums, more)):
            raise ValueError(f"a pixel's weights to a terminal add up to more than {GREATEST_CAPACITY}")
        self.terminals = sums

    def cut(self, nearest: Literal["source", "sources", "sink", "sinks"] = "source") -> Cut:
        """Finds a minimum cut: of several the one with the fewest pixels on the source's side, or with nearest="sink"
        the one with the fewest on the sink's; "sources" and "sinks" mean the same.

        Returns Cut(value, mask). Floats are rounded as `provedflow.maximum_flow` says: the least lies no more than the
        answer's `gap` below the value. Raises FlowError where each cut has an infinite weight, MemoryError, and
        provedflow.LibraryNotFound if the C library isn't there.
        """
        if any(weights.dtype.kind == "f" for weights in self.weights()):
            return self.cut_of_floats(nearest)
        pixels = prod(self.shape)
        lesser = np.minimum(*self.terminals)
        found = minimum_cut(*self.arcs(), pixels, pixels + 1, pixels + 2, nearest=nearest)
        return Cut(found.value + exact_sum(lesser), ~found.side[:pixels].reshape(self.shape))

    def cut_of_floats(self, nearest):
        """The cut of the grid whose weights are those of this one in whole units."""
        source, sink = map(np.isinf, self.terminals)
        masks, is_endless = [~source, sink], (source & sink).any()
        if any(np.isinf(weights).any() for weights in self.weights()[2:]):
            infinite = self.changed(lambda weights: np.isinf(weights).astype(np.uint64))
            found = [infinite.cut(end) for end in ("source", "sink")]
            masks, is_endless = [mask for _, mask in found], found[0].value
        if is_endless:
            raise Unbounded
        unit = Unit(*map(self.paid, masks))
        found = self.changed(unit.units).cut(nearest)
        return Cut(unit.value(found.value, unit.lost(self.paid(found.mask)), True), found.mask)

    def weights(self):
        """All arrays of weights."""
        return [*self.terminals, *(weights for _, *ways in self.joined for weights in ways)]

    def changed(self, change):
        """A grid like this one with other weights."""
        other = copy(self)
        other.terminals = list(map(change, self.terminals))
        other.joined = [(step, new := change(there), new if back is there else change(back))
                        for step, there, back in self.joined]
        return other

    def paid(self, mask):
        """The weights that a cut pays."""
        parts = [self.terminals[0][mask], self.terminals[1][~mask]]
        for step, there, back in self.joined:
            here, other = pairs(mask, step)
            parts += [there[~here & other], back[here & ~other]]
        return np.concatenate(parts).astype(float, copy=False)

    def arcs(self):
        """The ends and the capacities of all arcs. The source is the node after the last pixel, and the sink the one
        after that. Every cut pays the lesser of a pixel's two weights, so only what the other is more is an arc."""
        nodes = np.arange(prod(self.shape), dtype=np.uint32).reshape(self.shape)
        sources, sinks = (weights.ravel() for weights in self.terminals)
        near, far = np.flatnonzero(sources > sinks), np.flatnonzero(sources < sinks)
        joined = [it for it in self.joined if it[1].any() or it[2].any()]
        size, start = near.size + far.size + sum(2 * there.size for _, there, _ in joined), near.size + far.size
        srcs, dsts, capacities = lists = [np.empty(size, kind) for kind in (np.uint32, np.uint32, np.uint64)]
        srcs[:near.size], srcs[near.size:start] = nodes.size, far
        dsts[:near.size], dsts[near.size:start] = near, nodes.size + 1
        capacities[:near.size], capacities[near.size:start] = sources[near] - sinks[near], sinks[far] - sources[far]
        for step, there, back in joined:
            here, other = pairs(nodes, step)
            for arcs, ways in zip(lists, ((here, other), (other, here), (there, back))):
                # An arc and its opposite side by side, which the library takes for one edge.
                both = arcs[start:start + 2 * here.size].reshape(*here.shape, 2)
                both[..., 0], both[..., 1] = ways
            start += 2 * here.size
        return lists


def as_picture(picture):
    """A picture as an array, whole numbers of it in 64 bits."""
    refuse_masked(picture, "the picture")
    picture = np.asarray(picture)
    if picture.dtype.kind not in "biu":
        return picture
    if picture.size and int(picture.max()) >= 2 ** 63:
        raise ValueError(f"a picture has whole numbers of up to 63 bits, and this one goes up to {picture.max()}")
    return picture.astype(np.int64, copy=False)


def as_weights(weights, shape, name):
    """Weights as an array of this shape of 64 bits each, floats or whole numbers."""
    refuse_masked(weights, name)
    weights = np.asarray(weights)
    if weights.dtype.kind == "O":
        found = read(weights.ravel(), AMOUNT, name, True)
        weights = np.asarray(getattr(found, "keeper", found)).reshape(weights.shape)
    check_numbers(weights, AMOUNT, name, True)
    if weights.ndim and weights.shape != shape:
        raise ValueError(f"{name} has to have the shape {shape}, and has {weights.shape}")
    has_floats = weights.size and weights.dtype.kind == "f"
    return np.broadcast_to(weights.astype(np.float64 if has_floats else np.uint64), shape)


def fits(shape, all_steps):
    """Whether a grid has no more nodes and arcs than a network may have."""
    links = sum(prod(max(0, size - abs(part)) for size, part in zip(shape, step)) for step in all_steps)
    return prod(shape) <= MOST_NODES - 2 and prod(shape) + 2 * links <= MOST_ARCS


def check_room(shape, all_steps, neighbours):
    """Checks that a grid's nodes and arcs fit; the error says in pixels what would fit."""
    if not shape or min(shape) < 1:
        raise ValueError(f"a grid has one pixel or more along each axis, and this shape is {shape}")
    if fits(shape, all_steps):
        return
    pixels, most = prod(shape), min(MOST_NODES - 2, MOST_ARCS // (1 + 2 * len(all_steps)))
    square = " x ".join([f"{int(most ** (1 / len(shape))):,}"] * len(shape))
    joined = f"{neighbours} neighbours" if neighbours else f"{len(all_steps)} steps to neighbours"
    raise ValueError(f"a grid of {' x '.join(f'{size:,}' for size in shape)} pixels with {joined} doesn't fit: it has "
                     f"{pixels:,} pixels, and {most:,} fit surely, as {square}")
