"""The four calls, over arrays."""

from __future__ import annotations

import ctypes
import threading
from typing import TYPE_CHECKING, Any, Literal, NamedTuple, Optional, Union

from provedflow.arrays import AMOUNT, NODE, Buffer, as_given, numpy_of, read, room, terminals, whole
from provedflow.library import (
    ARC, MEMORY, MOST_ARCS, MOST_LINKS, MOST_NODES, OK, TERMINALS, FlowError, Unbounded, library)

if TYPE_CHECKING:
    from collections.abc import Iterable
    from typing import SupportsIndex

    import numpy
    from numpy.typing import NDArray

    Numbers = Union[Iterable[SupportsIndex], NDArray[Any]]
    Weights = Union[Iterable[Union[float, SupportsIndex]], NDArray[Any]]
    Nodes = Union[SupportsIndex, Numbers]
    Nearest = Literal["source", "sources", "sink", "sinks"]


class Flow(NamedTuple):
    """A flow of the greatest value: the value, and what each arc carries, an array of 64 bits each, or a list."""

    value: Union[int, Any]
    flows: Union[list[Any], NDArray[Any]]

    @property
    def gap(self) -> float:
        """By how much less the value may be than the greatest; 0 where no weight was rounded."""
        return getattr(self.value, "gap", 0)


class Cut(NamedTuple):
    """A minimum cut, with a flow of the same value: the capacity of the arcs that lead from the source side to the
    other; for each node whether it lies on the source side, an array of bool or a list of bools; what each arc carries.
    """

    value: Union[int, Any]
    side: Union[list[bool], NDArray[numpy.bool_]]
    flows: Union[list[Any], NDArray[Any]]

    @property
    def gap(self) -> float:
        """By how much more the value may be than the least; 0 where no weight was rounded."""
        return getattr(self.value, "gap", 0)


class Verdict(NamedTuple):
    """The verdict on a flow: 'greatest', 'feasible', 'over' or 'unbalanced'; the value of a feasible flow, negative if
    more enters the sources than leaves them; the first arc that carries too much, or the first unbalanced node."""

    word: str
    value: Optional[int]
    place: Optional[int]


WORDS = ("greatest", "feasible", "over", "unbalanced")
"""The verdicts by their numbers."""
NEAREST = {"source": 0, "sources": 0, "sink": 1, "sinks": 1}
"""The terminals that a cut may be nearest, each with the library's flag for it."""
LONG = 20_000
"""The fewest arcs of a call that is made in a thread of its own. Starting one costs too much for smaller calls."""


def maximum_flow(src: Numbers, dst: Numbers, capacities: Weights, sources: Nodes, sinks: Nodes,
                 nodes: Optional[SupportsIndex] = None) -> Flow:
    """Finds the greatest value of a flow from the sources to the sinks, and such a flow.

    - src, dst: the two ends of each arc, nodes from 0; arrays of one length, the number of arcs.
    - capacities: how much each arc may carry, in any unit; an array of the same length. Whole numbers go from 0 to
      2^64 - 1. Where one is a float, all are floats, each answer is one, and infinity is no limit.
    - sources, sinks: a node, or an array of different nodes; no node is both.
    - nodes: how many nodes there are; by default one more than the greatest named, and at least 2.

    Returns Flow(value, flows). Takes some 100 bytes for each arc while it runs. Floats are rounded down to multiples of
    a unit with which the value has up to 63 bits. The greatest value is at most `gap` more than the value.

    Raises FlowError (a ValueError) if that is no network with its terminals, or where no cut is finite, TypeError if
    something is no such number, ImportError for floats without NumPy, MemoryError, and LibraryNotFound.

    >>> maximum_flow([0, 0, 1], [1, 1, 2], [2 ** 64 - 1, 5, 2 ** 63], 0, 2)
    Flow(value=9223372036854775808, flows=[9223372036854775808, 0, 9223372036854775808])
    >>> maximum_flow([0, 0, 1], [1, 1, 2], [0.5, 0.25, float("inf")], 0, 2)
    Flow(value=0.75, flows=[0.5, 0.25, 0.75])
    """
    given = Network(src, dst, sources, sinks, nodes, capacities=capacities)
    found = given.solve()
    return Flow(given.value(found, False), given.flows(found))


def minimum_cut(src: Numbers, dst: Numbers, capacities: Weights, sources: Nodes, sinks: Nodes,
                nodes: Optional[SupportsIndex] = None, *, nearest: Nearest = "sources") -> Cut:
    """Finds a minimum cut between the sources and the sinks: the parameters are those of `maximum_flow`.

    Of several minimum cuts it is the one nearest the sources, whose source side lies within that of each other; with
    nearest="sinks" the one nearest the sinks ("source" and "sink" mean the same). Floats are counted as they are
    rounded: the value is what the cut costs in the weights given, and the least lies no more than `gap` below.

    Returns Cut(value, side, flows). Raises what `maximum_flow` raises.

    >>> minimum_cut([0, 1, 2], [1, 2, 3], [4, 1, 1], 0, 3)
    Cut(value=1, side=[True, True, False, False], flows=[1, 1, 1])
    >>> minimum_cut([0, 1, 2], [1, 2, 3], [4, 1, 1], 0, 3, nearest="sinks").side
    [True, True, True, False]
    """
    given = Network(src, dst, sources, sinks, nodes, capacities=capacities)
    found = given.solve(nearest)
    side = found.side if given.in_numpy else list(map(bool, found.side))
    return Cut(given.value(found, True), side, given.flows(found))


def edge_connectivity(src: Numbers, dst: Numbers, nodes: Optional[SupportsIndex] = None, *,
                      sources: Optional[Nodes] = None, sinks: Optional[Nodes] = None, directed: bool = True) -> int:
    """Finds how many arcs must fail before some node is cut off from another.

    It is the least number of arcs that leave a set of nodes that is neither empty nor all, and 0 for one node. With
    sources and sinks it is how many must fail before every sink is cut off from every source: only sets count that have
    all sources inside and all sinks outside. With directed=False arcs have no direction: those count that have exactly
    one end in the set.

    - src, dst, nodes: as of `maximum_flow`; there are no capacities, each of parallel arcs counts, and there are
      at most 536,870,912 arcs.
    - sources, sinks: a node or an array of nodes each, or both left out.

    Returns an int. Raises what `maximum_flow` raises.

    >>> edge_connectivity([0, 1, 2, 0], [1, 2, 0, 1])
    1
    >>> edge_connectivity([0, 1, 2, 0], [1, 2, 0, 1], directed=False)
    2
    >>> edge_connectivity([0, 1, 2, 0], [1, 2, 0, 1], sources=0, sinks=1)
    2
    """
    pair = sources is not None or sinks is not None
    if pair and (sources is None or sinks is None):
        raise ValueError("give both sources and sinks, or neither")
    given = Network(src, dst, sources if pair else (), sinks if pair else (), nodes)
    if given.nodes == 1 and not pair:  # the library takes 2 or more
        given.check_ends()
        return 0
    links = ctypes.c_uint64()
    given.ask("provedflow_links_lists", *given.lists(), int(not directed), int(pair), ctypes.byref(links))
    return links.value


def check(src: Numbers, dst: Numbers, capacities: Numbers, sources: Nodes, sinks: Nodes, flows: Numbers,
          nodes: Optional[SupportsIndex] = None) -> Verdict:
    """Checks whether a flow, wherever it comes from, has the greatest value.

    - flows: what each arc carries, whole numbers from 0 to 2^64 - 1; an array as long as src.
    - the others: as of `maximum_flow`; capacities are whole numbers too.

    Returns Verdict(word, value, place). Its word is the first of these that applies: 'over' if an arc carries more than
    its capacity, 'unbalanced' if what enters a node that is no terminal isn't what leaves it, 'feasible' if another
    flow has a greater value, 'greatest'. The place of the first two is an arc and a node. Raises what `maximum_flow`
    raises.

    >>> check([0, 1], [1, 2], [4, 3], 0, 2, [3, 3])
    Verdict(word='greatest', value=3, place=None)
    >>> check([0, 1], [1, 2], [4, 3], 0, 2, [2, 1])
    Verdict(word='unbalanced', value=None, place=1)
    """
    given = Network(src, dst, sources, sinks, nodes, capacities=capacities, flows=flows)
    verdict, words = ctypes.c_uint32(), Words()
    given.ask("provedflow_check_lists", *given.lists(), ctypes.byref(verdict), *words.addresses())
    word, number = WORDS[verdict.value], words.value()
    return Verdict(word, number, None) if word in ("greatest", "feasible") else Verdict(word, None, number)


class Words(ctypes.c_uint64 * 2):
    """The two words of a value, for the library to write: 128 bits in two's complement."""

    def addresses(self):
        """Where the upper and the lower word lie."""
        return ctypes.byref(self), ctypes.byref(self, 8)

    def value(self):
        """The value, an int that may be negative."""
        return (self[0] << 64) + self[1] - (self[0] >> 63 << 128)


class Found(NamedTuple):
    """What the library has found: a value, the side of a cut, and the flows, as it counts them."""

    value: int
    side: Any
    flows: Buffer


class Network:
    """The lists of a call. Capacities that are floats are counted in a unit.

    - amounts: the capacities and the flows, as far as the call has them; where there are flows too, both are whole.
    """

    def __init__(self, src, dst, sources, sinks, nodes, **amounts):
        src, dst, sources, sinks, *given = map(as_given, (src, dst, sources, sinks, *amounts.values()))
        self.src, self.dst = read(src, NODE, "src"), read(dst, NODE, "dst")
        self.amounts = {name: read(thing, AMOUNT, name, "flows" not in amounts) for name, thing in zip(amounts, given)}
        self.in_numpy = numpy_of([src, dst, sources, sinks, *given])
        self.numpy = self.in_numpy or numpy_of(self.amounts.values())
        self.sources, self.sinks = terminals(sources, "sources"), terminals(sinks, "sinks")
        self.arcs = len(self.src)
        self.nodes = self.count_nodes() if nodes is None else whole(nodes, "nodes")
        self.check_lengths()
        weights, self.unit = self.amounts.get("capacities", self.src), None
        if not isinstance(weights, Buffer):
            self.weigh(weights)

    def weigh(self, weights):
        """Counts weights that are floats in the unit that two cuts give: the nearest to the terminals that have no
        infinite weight."""
        from provedflow.weights import Unit  # which needs NumPy
        self.check_ends()
        src, dst = map(self.numpy.asarray, (self.src.keeper, self.dst.keeper))
        self.weights = src, dst, weights
        endless = self.numpy.isinf(weights)
        infinite = Network(src[endless], dst[endless], self.sources.keeper, self.sinks.keeper, self.nodes,
                           capacities=endless[endless])
        found = [infinite.solve(nearest) for nearest in ("sources", "sinks")]
        if found[0].value:
            raise Unbounded
        self.unit = Unit(*(self.leaving(side) for _, side, _ in found))
        self.amounts["capacities"] = Buffer(self.unit.units(weights))

    def leaving(self, side):
        """The weights of the arcs that leave a side."""
        src, dst, weights = self.weights
        return weights[side[src] & ~side[dst]]

    def lists(self):
        """The lists as the library takes them, with the number of nodes before them."""
        amounts = list(self.amounts.values())
        return [self.nodes, self.src, self.dst, *amounts[:1], self.sources, self.sinks, *amounts[1:]]

    def solve(self, nearest=None):
        """A maximum flow, as the library counts; with a terminal that it is nearest, or a unit, a minimum cut too."""
        if nearest is not None and nearest not in NEAREST:
            raise ValueError(f"nearest has to be 'sources' or 'sinks', and is {nearest!r}")
        nearest = nearest or (self.unit and "sinks")
        flows, words = room(self.numpy, AMOUNT, self.arcs), Words()
        if nearest is None:
            self.ask("provedflow_flow_lists", *self.lists(), flows, *words.addresses())
            return Found(words.value(), None, flows)
        side = room(self.numpy, "B", self.nodes)
        self.ask("provedflow_cut_lists", *self.lists(), NEAREST[nearest], flows, side, *words.addresses())
        return Found(words.value(), side.keeper.view("bool") if self.numpy else side.keeper, flows)

    def value(self, found, of_cut):
        """The value of a flow or a cut that was found."""
        if self.unit is None:
            return found.value
        return self.unit.value(found.value, self.unit.lost(self.leaving(found.side)), of_cut)

    def flows(self, found):
        """The flows that were found, as an answer to the caller."""
        flows = self.unit.amounts(found.flows.keeper) if self.unit else found.flows.keeper
        return flows if self.in_numpy else flows.tolist()

    def count_nodes(self):
        """One more than the greatest node that is named, and at least 2."""
        return max([2] + [1 + max_of(ends) for ends in (self.src, self.dst, self.sources, self.sinks)])

    def check_ends(self):
        """Checks that the ends of all arcs are nodes, as the library does too."""
        if max(max_of(self.src), max_of(self.dst)) >= self.nodes:
            raise FlowError(self.bad_arc())

    def check_lengths(self):
        """Checks that the lists fit each other and the limits, as the library's exports require."""
        for name, length in {"dst": len(self.dst), **{name: len(it) for name, it in self.amounts.items()}}.items():
            if length != self.arcs:
                raise FlowError(f"src has {self.arcs} elements and {name} has {length}; both need one for each arc")
        most = MOST_ARCS if self.amounts else MOST_LINKS
        if self.arcs > most:
            raise FlowError(f"there are {self.arcs} arcs, and at most {most} are taken")
        least = 2 if self.amounts or self.sources.length else 1
        if not least <= self.nodes <= MOST_NODES:
            raise FlowError(f"there are {self.nodes} nodes, and {least} to {MOST_NODES} are taken")

    def ask(self, name, *words):
        """Calls the library, and raises an error if it refuses the lists."""
        flat = []
        for word in words:
            flat += [word.address, word.length] if isinstance(word, Buffer) else [word]
        export = getattr(library(), name)
        status = interruptible(export, flat, (self, words)) if self.arcs >= LONG else export(*flat)
        if status == MEMORY:
            raise MemoryError("there isn't enough memory for this network")
        if status != OK:
            raise FlowError(self.bad_arc() if status == ARC else self.bad_terminal() if status == TERMINALS else
                            f"the library refuses the network with status {status}")

    def bad_arc(self):
        """What is wrong with the first arc that has an end that is no node."""
        return next(f"{name}[{place}] is {node}, and the nodes are 0 to {self.nodes - 1}"
                    for place, ends in enumerate(zip(self.src.keeper, self.dst.keeper))
                    for name, node in zip(("src", "dst"), ends) if node >= self.nodes)

    def bad_terminal(self):
        """What is wrong with the first terminal that can't be taken."""
        seen = {}
        for name, buffer in (("sources", self.sources), ("sinks", self.sinks)):
            if not buffer.length:
                return f"there are no {name}"
            for place, node in enumerate(buffer.keeper.tolist()):
                if node >= self.nodes:
                    return f"{name}[{place}] is {node}, and the nodes are 0 to {self.nodes - 1}"
                if node in seen:
                    return f"{name}[{place}] is {node}, and so is {seen[node]}; all terminals must differ"
                seen[node] = f"{name}[{place}]"
        return "a source or a sink can't be taken"


def interruptible(export, words, kept):
    """Makes a call of the library that Ctrl-C can interrupt: in another thread, which then goes on to the end of the
    call and keeps the lists alive. Only the main thread receives Ctrl-C, so others call directly."""
    if threading.current_thread() is not threading.main_thread():
        return export(*words)
    status = []
    thread = threading.Thread(target=lambda _: status.append(export(*words)), args=(kept,), daemon=True)
    try:
        thread.start()
    except RuntimeError:  # no more threads, or none that end with the interpreter
        return export(*words)
    thread.join()
    return status[0]


def max_of(buffer):
    """The greatest element of a list, or 0."""
    if not buffer.length:
        return 0
    return int(buffer.keeper.max() if hasattr(buffer.keeper, "max") else max(buffer.keeper))
