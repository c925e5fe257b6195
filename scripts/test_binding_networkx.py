"""`provedflow.networkx` by NetworkX's own tests, and side by side with its functions: test_binding_networkx.py WAY

NetworkX's tests are those of the installed package, run by pytest in a process of their own: with WAY `flow_func` it
takes the place of the flow functions that they try, with `backend` each call that NetworkX can hand on comes here.
"""

import functools
import gc
import importlib.metadata
import random
import re
import sys
import time
import timeit
import unittest.mock
import warnings
from collections import Counter
from decimal import Decimal
from fractions import Fraction

import pytest

from binding_checks import assert_near, least_cuts, named_library, python

nx = pytest.importorskip("networkx")

import provedflow
from provedflow import graphs, networkx as ours
from provedflow.networkx import flow_func

TESTS = "networkx.algorithms.flow", "networkx.algorithms.connectivity"
NOT_OURS = {"test_minimum_cut_no_cutoff", "test_brandes_erlebach", "test_cutoff"}
"""Tests that ask of NetworkX 2 what it does with a cutoff for its own functions alone: it hands it to no other."""
THEIRS = {name: getattr(nx.algorithms.flow, name, None) or getattr(nx.algorithms.connectivity, name)
          for name in ours.ALGORITHMS}
WHOLE = ["edge_connectivity", "minimum_edge_cut", "all_pairs_node_connectivity", "average_node_connectivity"]
UNDIRECTED = ["gomory_hu_tree", "node_connectivity", "minimum_node_cut"]
FLOWS = ["maximum_flow", "maximum_flow_value", "minimum_cut", "minimum_cut_value"]
PAIRS = [name for name in THEIRS if name not in ("gomory_hu_tree", *WHOLE[2:])]
"""The functions that are asked about a whole graph, or one without directions, and about two nodes."""
INFINITE, COUNTS = float("inf"), Counter()


def counted(function):
    """A function that counts its calls."""
    @functools.wraps(function)
    def call(*words, **named):
        COUNTS[function.__name__] += 1
        return function(*words, **named)
    return call


class InPlace:
    """What pytest asks once it has found tests: puts `flow_func` in place of the flow functions in them."""

    @staticmethod
    def pytest_collection_modifyitems(items):
        items[:] = [item for item in items if nx.__version__ >= "3" or item.originalname not in NOT_OURS]
        function = counted(flow_func)
        for module in {item.module for item in items}:
            vars(module).update(flow_funcs=[function], all_funcs={function} | getattr(module, "interface_funcs", set()))


def run_theirs(way):
    """Runs NetworkX's own tests one way, and sees that they come here."""
    if way == "backend":
        backend_by_hand()
        vars(ours.backend).update((name, counted(function)) for name, function in ours.ALGORITHMS.items())
    plugins, names = ([], ours.ALGORITHMS) if way == "backend" else ([InPlace], ["flow_func"])
    status = pytest.main(["-q", "-p", "no:cacheprovider", "--pyargs", *TESTS], plugins=plugins)
    assert not status and all(COUNTS[name] > 1 for name in names), (status, COUNTS)


def backend_by_hand():
    """A call by name comes here, reads the graph as it is then, and leaves nothing at it; others are NetworkX's."""
    assert importlib.metadata.version("provedflow") == provedflow.__version__
    warnings.simplefilter("error")
    graph = nx.DiGraph([("s", "t", {"capacity": 3})])
    for amount in (3, 5):
        graph["s"]["t"]["capacity"] = amount
        assert nx.maximum_flow(graph, "s", "t", backend="provedflow") == (amount, {"s": {"t": amount}, "t": {}})
    for call in (lambda **name: nx.maximum_flow_value(graph, "s", "t", flow_func=functools.partial(flow_func), **name),
                 lambda **name: nx.minimum_cut_value(graph, "s", "t", flow_func=flow_func, cutoff=9, **name),
                 lambda **name: 5 * nx.node_connectivity(graph, **name),
                 lambda **name: 5 * nx.edge_connectivity(nx.MultiDiGraph([(0, 1)] * 3), 0, 1, **name),
                 lambda **name: 5 * nx.edge_connectivity(nx.path_graph(20), **name)):
        with unittest.mock.patch.object(graphs, "MOST_NODES", 10):
            assert isinstance(outcome(call, backend="provedflow"), NotImplementedError) and call() == 5


@pytest.mark.parametrize("way", ["flow_func", "backend"] if nx.__version__ >= "3.2" else ["flow_func"])
def test_theirs(way, tmp_path):
    """NetworkX's own tests, each way in a process of its own. The backend takes NetworkX 3.2."""
    (tmp_path / "provedflow-0.dist-info").mkdir()
    (tmp_path / "provedflow-0.dist-info/entry_points.txt").write_text(
        "[networkx.backends]\nprovedflow = provedflow.networkx:backend\n")
    named = {f"NETWORKX_{word}": "provedflow" if way == "backend" else ""
             for word in ("BACKEND_PRIORITY", "BACKEND_PRIORITY_GENERATORS", "AUTOMATIC_BACKENDS")}
    status, printed, errors = python(__file__, way, path=str(tmp_path), **named)
    assert status == 0, printed[-3000:] + errors[-3000:]


def outcome(call, *words, **named):
    """What a call answers, or the error that it raises; of a graph its edges."""
    try:
        found = call(*words, **named)
    except (nx.NetworkXException, NotImplementedError) as failure:
        return failure
    return list(found.edges(data=True)) if isinstance(found, nx.Graph) else found


def side_by_side(graph):
    """Our functions and `flow_func` answer what NetworkX's answer; a maximum flow and a least cut of a whole graph may
    be others: they are right where they have the same size, and keep the capacities, or part the graph."""
    without_loops = nx.restricted_view(graph, [], list(nx.selfloop_edges(graph)))  # which NetworkX counts as links
    asked = [(name, ()) for name in WHOLE + ([] if graph.is_directed() else UNDIRECTED)]
    for name, words in asked + [(name, (0, 1)) for name in PAIRS]:
        given = graph if name in FLOWS else without_loops
        wanted = outcome(THEIRS[name], given, *words)
        for call in (ours.ALGORITHMS[name], functools.partial(THEIRS[name], flow_func=flow_func))[:1 + (name in FLOWS)]:
            found = outcome(call, given, *words)
            if isinstance(wanted, Exception):
                assert type(found) is type(wanted), (name, words, given.edges(data=True), found, wanted)
            elif name == "maximum_flow" and found != wanted:
                assert_feasible(given, wanted[0], *found)
            elif name.endswith(("edge_cut", "node_cut")) and not words and found != wanted:
                parted = given.copy()
                (parted.remove_edges_from if "edge" in name else parted.remove_nodes_from)(found)
                assert ours.edge_connectivity(parted) == 0 and len(found) == len(wanted), (name, given.edges, found)
            else:
                assert found == wanted or not found and not wanted, (name, words, given.edges(data=True), found, wanted)


def assert_feasible(graph, wanted, value, flows):
    """A dict of flows from node 0 to node 1 fits the graph, keeps to its capacities, and has the value."""
    gain = dict.fromkeys(graph, 0)
    assert value == wanted and {u: set(row) for u, row in flows.items()} == {u: set(graph[u]) for u in graph}
    for u, v, amount in [(u, v, amount) for u, row in flows.items() for v, amount in row.items()]:
        assert 0 <= amount <= max(graph[u][v].get("capacity", INFINITE), 0)
        assert u == v or not amount or not flows[v].get(u)
        gain[u] -= amount
        gain[v] += amount
    assert gain.pop(0) == -value and gain.pop(1) == value and not any(gain.values())


def of_edges(*edges):
    """A directed graph of edges with capacities; None is no capacity."""
    graph = nx.DiGraph()
    for u, v, amount in edges:
        graph.add_edge(u, v, **{"capacity": amount} if amount is not None else {})
    return graph


ROWS = [
    ([("s", "a", 10 ** 21), ("a", "t", 10 ** 21), ("s", "t", 2 ** 64)], 10 ** 21 + 2 ** 64),
    ([("s", "a", Fraction(1, 3)), ("s", "b", Fraction(1, 6)), ("a", "t", None), ("b", "t", None)], Fraction(1, 2)),
    ([("s", "t", Decimal("0.1")), ("s", "a", 2), ("a", "t", Decimal("0.2"))], Fraction(3, 10)),
    ([("s", "t", 0.1), ("s", "a", 0.1), ("a", "t", 1)], float(2 * Fraction(0.1))),
    # 0.1 + 0.2 is more than 0.3, where each is what its float stands for, so the cut is the last edge alone.
    ([("s", "a", 0.1), ("s", "b", 0.2), ("a", "c", None), ("b", "c", None), ("c", "t", 0.3)], 0.3),
    ([("s", "a", 0.5), ("a", "t", Fraction(1, 4)), ("s", "t", 10 ** 30), ("s", "t", Decimal(2))], 2.25),
    ([(b"t", 2.5, 9), ("s", 7, 3), (7, (1, "two"), 2), ((1, "two"), "t", INFINITE)], 2),
    # Floats may differ as they like: the bits are left to what lies between infinite edges.
    ([("s", "a", None), ("a", "b", 1e-30), ("b", "t", None), ("c", "b", 1e30), ("b", "c", 1e30)], 1e-30),
    *(([("s", "a", most), ("a", "b", None), ("b", "t", least), ("s", "t", least)], 2 * least)
      for most, least in [(3.7e9, 1e-5), (1e300, 1e-300), (3e-15, 1e-30)])]
for KIND, AMOUNT in (("int64", 2 ** 62), ("uint64", 3), ("uint8", 255), ("bool_", True), ("float32", 0.25),
                     ("longdouble", 0.25)):
    for BESIDE in (None, 7 * AMOUNT):
        GIVEN = getattr(sys.modules.get("numpy"), KIND, type(AMOUNT))(AMOUNT)
        ROWS.append(([("s", "a", GIVEN), ("a", "t", BESIDE), ("s", "b", GIVEN), ("b", "t", BESIDE)], 2 * AMOUNT))


@pytest.mark.parametrize("edges, value", ROWS)
def test_by_hand(edges, value):
    """Graphs whose answers can be seen: the edges, and the value from "s" to "t" in its kind. Whole numbers are NumPy's
    where that is installed, and the sum that stands in for an infinite capacity has more bits than they have."""
    for call in (ours.maximum_flow_value, ours.minimum_cut_value,
                 functools.partial(nx.maximum_flow_value, flow_func=flow_func)):
        found = call(of_edges(*edges), "s", "t")
        assert found == value and isinstance(found, type(value))


def test_cuts_by_hand():
    assert ours.minimum_cut(of_edges(*ROWS[4][0]), "s", "t")[1][1] == {"t"}
    # 1 + 2^-53 + 2^-60 come to the last edge, which takes 1 + 2^-52, the float nearest to that: more, so it isn't full.
    parts = [("s", node, amount) for node, amount in zip("abc", (1.0, 2.0 ** -53, 2.0 ** -60))]
    graph = of_edges(*parts, ("a", "d", 9), ("b", "d", 9), ("c", "d", 9), ("d", "t", 1 + 2.0 ** -52))
    assert nx.minimum_cut(graph, "s", "t", flow_func=flow_func) == (1 + 2.0 ** -52, ({"s"}, set("abcdt")))
    assert ours.maximum_flow(graph, "s", "t") == (1 + 2.0 ** -52, {
        "s": {"a": 1.0, "b": 2.0 ** -53, "c": 2.0 ** -60}, "a": {"d": 1.0}, "b": {"d": 2.0 ** -53},
        "c": {"d": 2.0 ** -60}, "d": {"t": 1 + 2.0 ** -52}, "t": {}})
    assert ours.edge_connectivity(nx.MultiGraph([(0, 1)] * 3)) == 3 and ours.edge_connectivity(nx.empty_graph(1)) == 0


@pytest.mark.parametrize("graph_kind", [nx.DiGraph, nx.Graph])
def test_floats(graph_kind, checks):
    """The exact value lies between the bounds of floats of all sizes, by our functions and by NetworkX's over ours."""
    chance, gaps = random.Random(104), 0
    checks(400)
    for _ in range(100):
        graph = graph_kind()
        graph.add_nodes_from(range(8))
        for u, v in (chance.sample(range(8), 2) for _ in range(chance.randint(8, 40))):
            graph.add_edge(u, v, capacity=chance.random() * 10.0 ** chance.randint(-12, 12))
        exact, _ = least_cuts(8, graph.to_directed().edges(data="capacity"))
        flow, cut = ours.maximum_flow(graph, 0, 7), ours.minimum_cut(graph, 0, 7)
        theirs, R = nx.minimum_cut(graph, 0, 7, flow_func=flow_func), flow_func(graph, 0, 7)
        for value in (flow[0], cut[0], theirs[0]):
            assert_near(value, value.gap, value is cut[0], exact)
            gaps += value.gap > 0
        assert theirs[1] == cut[1] and 0 in cut[1][0] and 7 in cut[1][1], graph.edges(data=True)
        assert all(0 <= amount <= graph[u][v]["capacity"] for u, row in flow[1].items() for v, amount in row.items())
        assert all(R[u][v]["flow"] == -R[v][u]["flow"] for u, v in R.edges)
    assert gaps > 50


@pytest.mark.parametrize("draw", [lambda chance: chance.expovariate(1), lambda chance: 10 ** chance.uniform(-9, 9),
                                  lambda chance: chance.paretovariate(1)], ids=["exponential", "log-uniform", "Pareto"])
def test_floats_are_fast(draw):
    """A flow of floats takes no longer than NetworkX's own function."""
    chance, graph = random.Random(5), nx.gnm_random_graph(300, 3000, seed=5, directed=True)
    for _, _, attr in graph.edges(data=True):
        attr["capacity"] = draw(chance)
    one, other = (timeit.timeit(lambda: function(graph, 0, 1), timer=time.process_time, number=1)
                  for function in (ours.maximum_flow, nx.maximum_flow))
    assert one <= other


CALLS = [ours.maximum_flow_value, ours.minimum_cut, lambda *words: flow_func(*words).graph["flow_value"]]


@pytest.mark.parametrize("call", CALLS)
@pytest.mark.parametrize("words, beside, amount", [
    *((f"('s', 't') has to be a number, and is {amount!r}", beside, amount) for beside in (2, 0.5)
      for amount in (None, "7", float("nan"), [], 1j, Decimal("nan"))),
    ("add up to 2^1023 or more", 1.7e308, 1.7e308), ("2^1024", 10 ** 400, 0.5)])
def test_refused(call, words, beside, amount):
    """What is no number is told with its edge. The collector of garbage runs after that where it ran before."""
    graph = nx.DiGraph([("s", "a", {"capacity": beside}), ("s", "t", {"capacity": amount}), ("a", "t")])
    for switch in gc.disable, gc.enable:
        switch()
        text = str(outcome(call, graph, "s", "t"))
        assert words in text and gc.isenabled() == (switch is gc.enable), text


@pytest.mark.parametrize("call", CALLS)
@pytest.mark.parametrize("most, least", [
    (10 ** 30, 1), (1, Fraction(1, 3 ** 90)), (Decimal("1e25"), Decimal("1e-9")),
    (Decimal("1e300"), Decimal("1e-300"))])
def test_too_different(call, most, least):
    """What differs too much to be counted exactly is refused with how to round it, which then fits, and uses most of
    the bits there are."""
    edges = [("s", "a", most), ("a", "b", None), ("b", "t", least), ("s", "t", least)]
    rounded = re.search(r"as (round\(.*\))", str(outcome(call, of_edges(*edges), "s", "t")))[1]
    given = [(u, v, amount and eval(rounded, {"capacity": amount})) for u, v, amount in edges]
    found = outcome(call, of_edges(*given), "s", "t")
    assert given[0][2] > 2 ** 63 // 100 and not isinstance(found, Exception), (rounded, found)


@pytest.mark.parametrize("kind", [nx.DiGraph, nx.Graph])
@pytest.mark.parametrize("amounts", [
    (0, 1, 2, 8, 10 ** 12, -1), (0.0, 0.25, 0.5, 1.5, 3, -0.5), (Fraction(1, 3), Fraction(5, 7), 2)])
def test_random_graphs(kind, amounts):
    """Random graphs of 2 to 8 nodes with self-loops, opposite edges, edges without capacity, and those of all kinds."""
    chance = random.Random(1970)
    for _ in range(40):
        nodes, graph = range(chance.randint(2, 8)), kind()
        graph.add_nodes_from(nodes)
        for _ in range(chance.randrange(3 * len(nodes))):
            named = {"capacity": chance.choice(amounts)} if chance.random() < .9 else {}
            graph.add_edge(*chance.choices(nodes, k=2), **named)
        side_by_side(graph)


if __name__ == "__main__":
    run_theirs(sys.argv[1])
