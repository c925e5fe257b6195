"""Graphs of NetworkX as arrays, and the residual networks that its own functions read."""

import contextlib
import gc
import math
from array import array
from fractions import Fraction

import networkx as nx

from provedflow import calls
from provedflow.arrays import INFINITE
from provedflow.capacities import TooMuch, as_fraction, edges_of, joined, kind_of, number_of, split, whole_amounts
from provedflow.library import MOST_ARCS, MOST_LINKS, MOST_NODES, FlowError, Unbounded


@contextlib.contextmanager
def collector_paused():
    """Pauses the garbage collector, which would go through all lists again and again while they grow."""
    was_running = gc.isenabled()
    gc.disable()
    try:
        yield
    finally:
        if was_running:
            gc.enable()


class Problem:
    """Arcs between some nodes, with capacities that are floats or brought to whole numbers."""

    def __init__(self, nodes, arcs):
        self.nodes, self.arcs, self.numbers = nodes, arcs, {node: number for number, node in enumerate(nodes)}
        check_size(len(self.numbers), len(arcs))
        amounts = [amount for _, _, amount in arcs]
        self.kind, self.unit = kind_of(amounts), None  # each call has a unit of floats of its own
        amounts, self.scale, self.most = whole_amounts(amounts, self.kind)
        srcs, dsts = [self.numbers[u] for u, _, _ in arcs], [self.numbers[v] for _, v, _ in arcs]
        self.lists, self.parts = split(srcs, dsts, amounts, self.kind, self.scale)

    def solve(self, s, t, nearest=None):
        """A flow or a cut: its value, which has to be less than what an infinite capacity counts as, and all found."""
        check_ends(self.nodes, s, t)
        try:
            network = calls.Network(*self.lists[:2], self.numbers[s], self.numbers[t], len(self.numbers),
                                    capacities=self.lists[2])
            found = network.solve(nearest)
        except Unbounded:
            found = None
        except FlowError as failure:
            raise nx.NetworkXError(str(failure)) from None
        if found is None or found.value >= self.most:
            raise nx.NetworkXUnbounded("Infinite capacity path, flow unbounded above.")
        self.unit, value = network.unit, network.value(found, nearest is not None)
        return value if self.unit else self.answer(value), found

    def answer(self, units):
        """A number of units as an answer."""
        if self.unit:
            return math.ldexp(units, -self.unit.shift)
        return units if self.kind is int else Fraction(units, self.scale)


class GraphProblem(Problem):
    """The edges of a graph as such arcs, both ways where it isn't directed."""

    @collector_paused()
    def __init__(self, G, capacity):
        check_kind(G)
        edges = edges_of(G, capacity)
        super().__init__(G, edges if G.is_directed() else edges + [(v, u, amount) for u, v, amount in edges])

    def cut(self, s, t):
        """The value of the minimum cut nearest t, and its two sides."""
        value, found = self.solve(s, t, "sinks")
        sides = set(), set()
        for node, side in zip(self.numbers, found.side):
            sides[not side].add(node)
        return value, sides

    @collector_paused()
    def flow_dict(self, found):
        """The flow of each edge as in NetworkX: of two opposite arcs only the one that carries more has its surplus."""
        rows = {u: dict.fromkeys(row, 0) for u, row in self.nodes.adjacency()}
        for (u, v, _), units in zip(self.arcs, joined(found.flows, self.parts)):
            back = rows[v].get(u, 0)
            if back:
                rows[v][u] = max(0, back - units)
            rows[u][v] = max(0, units - back)
        if self.kind is not int:
            for row in rows.values():
                row.update((v, self.answer(units)) for v, units in row.items())
        return rows


class EdgeUnits:
    """The edges of a graph as arcs that carry one unit each."""

    @collector_paused()
    def __init__(self, G):
        check_kind(G)
        self.G, self.names = G, list(G)
        self.numbers = {node: number for number, node in enumerate(G)}
        edges = [(self.numbers[u], self.numbers[v]) for u, v in G.edges() if u != v]
        arcs, self.nodes = self.arcs_of(edges if G.is_directed() else edges + [(v, u) for u, v in edges])
        check_size(self.nodes, len(arcs), MOST_LINKS)
        self.src, self.dst = array("I", [u for u, _ in arcs]), array("I", [v for _, v in arcs])

    def arcs_of(self, edges):
        """The arcs of these edges between numbers of nodes, and how many nodes these arcs have."""
        return edges, len(self.names)

    def ends(self, s, t):
        """The numbers of two nodes as a source and a sink."""
        check_ends(self.G, s, t)
        return self.numbers[s], self.numbers[t]

    def count(self, s, t):
        """How many paths from s to t share no arc."""
        source, sink = self.ends(s, t)
        return calls.edge_connectivity(self.src, self.dst, self.nodes, sources=source, sinks=sink)

    def cut_arcs(self, s, t):
        """The arcs of the minimum cut nearest t."""
        ones = array("Q", [1]) * len(self.src)
        side = calls.minimum_cut(self.src, self.dst, ones, *self.ends(s, t), self.nodes, nearest="sinks").side
        return ((u, v) for u, v in zip(self.src, self.dst) if side[u] and not side[v])

    def cut(self, s, t):
        """A least set of edges whose removal cuts t off from s."""
        return {(self.names[u], self.names[v]) for u, v in self.cut_arcs(s, t)}


class NodeUnits(EdgeUnits):
    """The nodes of a graph as arcs that carry one unit each: node i is entered at 2·i and left at 2·i + 1."""

    def arcs_of(self, edges):
        count = len(self.names)
        return [(2 * i, 2 * i + 1) for i in range(count)] + [(2 * u + 1, 2 * v) for u, v in edges], 2 * count

    def ends(self, s, t):
        source, sink = super().ends(s, t)
        return 2 * source + 1, 2 * sink

    def cut(self, s, t):
        """A least set of nodes whose removal cuts t off from s, where no edge joins them."""
        return {self.names[end // 2] for arc in self.cut_arcs(s, t) for end in arc} - {s, t}


def residual_rows(G, capacity):
    """The edges of the residual network of a graph, as NetworkX's `build_residual_network` makes them, with no flow:
    a dict of attributes for each, in a dict of dicts; and the number that stands for an infinite capacity there."""
    check_kind(G)
    edges = edges_of(G, capacity)
    infinite = 3 * sum(amount for _, _, amount in edges if amount != INFINITE) or 1
    rows = {u: {} for u in G}
    both_ways = not G.is_directed()
    for u, v, amount in edges:
        most = infinite if amount == INFINITE else amount
        if v in rows[u]:
            rows[u][v]["capacity"] = most
        else:
            rows[u][v] = {"capacity": most, "flow": 0}
            rows[v][u] = {"capacity": most if both_ways else 0, "flow": 0}
    return rows, infinite


def graph_of(rows, infinite):
    """The residual network of these rows. They become its own, where `add_edges_from` would copy each attribute."""
    R = nx.DiGraph(inf=infinite)
    R.add_nodes_from(rows)
    for u, row in rows.items():
        R._succ[u].update(row)
        for v, attr in row.items():
            R._pred[v][u] = attr
    return R


def send(rows, s, t, cutoff, infinite):
    """Sets the flows of a residual network without flows to a maximum flow, and answers its value."""
    edges = [(u, v, attr) for u, row in rows.items() for v, attr in row.items() if attr["capacity"] > 0]
    given = [INFINITE if attr["capacity"] == infinite else number_of(attr["capacity"], u, v) for u, v, attr in edges]
    nodes, arcs, source = list(rows), [(u, v, amount) for (u, v, _), amount in zip(edges, given)], s
    if cutoff is not None and cutoff != INFINITE:  # one node more becomes the source, with an arc that takes no more
        limit, source = max(as_fraction(cutoff), 0), object()
        arcs.append((source, s, {int: math.ceil, float: float, Fraction: Fraction}[kind_of(given)](limit)))
        nodes.append(source)
    problem = Problem(nodes, arcs)
    value, found = problem.solve(source, t)
    for (u, v, attr), carried in zip(edges, joined(found.flows, problem.parts)):
        if carried:
            attr["flow"] += carried
            rows[v][u]["flow"] -= carried
    if problem.unit:
        set_floats(rows, edges, problem.unit, {u for u, side in zip(rows, found.side) if side})
    elif problem.kind is Fraction:
        for row in rows.values():
            for attr in row.values():
                attr["flow"] = problem.answer(attr["flow"])
    return value


def set_floats(rows, arcs, unit, inside):
    """Sets the flows of a residual network, which are in units, to floats. The flow of an edge is its capacity only
    where it is full; edges of less than a unit are so where they leave the minimum cut."""
    for (u, v, attr), most in zip(arcs, unit.units([float(attr["capacity"]) for _, _, attr in arcs]).tolist()):
        flow, capacity = attr["flow"], float(attr["capacity"])
        is_full = type(flow) is int and flow == most and (most or u in inside and v not in inside)
        if is_full or type(flow) is int and flow > 0:
            partly = min(math.ldexp(flow, -unit.shift), math.nextafter(capacity, 0))
            attr["flow"] = capacity if is_full else partly
            rows[v][u]["flow"] = 0.0 - attr["flow"]
    for row in rows.values():
        for attr in row.values():
            attr["flow"] = float(attr["flow"])


def check_ends(G, s, t):
    """Checks that s and t are two nodes of the graph."""
    for node in (s, t):
        if node not in G:
            raise nx.NetworkXError(f"node {node} not in graph")
    if s == t:
        raise nx.NetworkXError("source and sink are the same node")


def check_kind(G):
    """Checks that a graph has no parallel edges."""
    if G.is_multigraph():
        raise nx.NetworkXError("MultiGraph and MultiDiGraph not supported (yet).")


def check_size(nodes, arcs, most=MOST_ARCS):
    """Checks that a graph keeps the limits."""
    if nodes > MOST_NODES or arcs > most:
        raise TooMuch(f"there are {nodes} nodes and {arcs} arcs, and at most {MOST_NODES} and {most} fit")
