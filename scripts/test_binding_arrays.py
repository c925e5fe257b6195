"""The calls of the package over arrays, held against the definitions by trial of all sets of nodes."""

import array
import random
from collections import Counter
from concurrent.futures import ThreadPoolExecutor
from fractions import Fraction

import pytest

from binding_checks import assert_near, least_cuts, named_library, python, refusals, refused
from independent import connectivity, cuts, least

np = pytest.importorskip("numpy")

import provedflow
from provedflow import arrays, calls, library
from provedflow.library import FlowError

INFINITE = float("inf")
FORMS = {"list": lambda numbers, _: list(numbers), "tuple": lambda numbers, _: tuple(numbers),
         "array": lambda numbers, size: array.array({4: "I", 8: "Q"}[size], numbers),
         "numpy": lambda numbers, size: np.array(numbers, f"u{size}"),
         "numpy of 64 bits": lambda numbers, _: np.array(numbers, "i8" if max(numbers, default=0) < 2 ** 63 else "u8")}
"""The forms in which a call takes numbers, each made of them and of the bytes of one."""


def random_network(chance):
    """Nodes from 1, arcs with capacities, sources and sinks: with parallel arcs, opposite ones and self-loops."""
    nodes, most = chance.randint(2, 7), chance.choice([1, 5, 2 ** 40, 2 ** 64 - 1])
    order = chance.sample(range(1, nodes + 1), nodes)
    count = chance.randint(1, max(1, nodes // 2))
    arcs = [(chance.choice(order), chance.choice(order), chance.randint(0, most))
            for _ in range(chance.randint(0, 3 * nodes))]
    return nodes, arcs, set(order[:count]), set(order[count:count + chance.randint(1, 2)])


@pytest.mark.parametrize("form", FORMS)
def test_random_networks(form, checks):
    """Random networks in one of the forms: each call against the definitions."""
    chance, made = random.Random(f"1927 {form}"), FORMS[form]
    checks(60 * 8)
    for number in range(60):
        problem = nodes, arcs, sources, sinks = random_network(chance)
        ends = [made([arc[place] - 1 for arc in arcs], 4) for place in (0, 1)]
        pair = [made([v - 1 for v in terminals], 4) for terminals in (sources, sinks)]
        given = [*ends, made([arc[2] for arc in arcs], 8), *pair]
        greatest, _ = least(nodes, arcs, lambda inside: sources <= inside and not sinks & inside)
        flow = provedflow.maximum_flow(*given, nodes)
        flows = list(map(int, flow.flows))
        right = "greatest", greatest, None
        assert (flow.value, verdict(problem, flows, greatest)) == (greatest, right), problem
        assert type(flow.flows) is (np.ndarray if form.startswith("numpy") else list) and not flow.gap
        for end, side in zip(("sources", "sinks"), cuts(problem, flows)):
            cut = provedflow.minimum_cut(*given, nodes, nearest=end[:len(end) - number % 2])
            found = cut.value, {v for v, inside in enumerate(cut.side, 1) if inside}
            assert (*found, verdict(problem, cut.flows, greatest)) == (greatest, side, right), (problem, end)
        for directed in (True, False):
            found = [provedflow.edge_connectivity(*ends, nodes, directed=directed),
                     provedflow.edge_connectivity(*ends, nodes, sources=pair[0], sinks=pair[1], directed=directed)]
            wanted = [connectivity(problem, not directed, is_pair) for is_pair in (False, True)]
            assert found == wanted, (problem, directed)
        for base in (flows, flows, [0] * len(arcs)):
            changed = [min(2 ** 64 - 1, units + chance.choice((0, 0, 0, 0, 0, 1, 2))) for units in base]
            found = provedflow.check(*given, made(changed, 8), nodes)
            assert tuple(found) == verdict(problem, changed, greatest), (problem, changed)


def verdict(problem, flows, greatest):
    """What is to be said of a flow."""
    _, arcs, sources, sinks = problem
    gains = Counter()
    for place, ((u, v, most), units) in enumerate(zip(arcs, map(int, flows))):
        if units > most:
            return "over", None, place
        gains[u] -= units
        gains[v] += units
    unbalanced = [v - 1 for v, gain in gains.items() if gain and v not in sources | sinks]
    if unbalanced:
        return "unbalanced", None, min(unbalanced)
    value = -sum(gains[v] for v in sources)
    return "greatest" if value == greatest else "feasible", value, None


NAN, HIDDEN, MASKED = float("nan"), np.ma.array(0, mask=True), np.ma.masked_array([1], [True])
test_refused = refusals(
    lambda *given: given[0](*given[1:]) if callable(given[0]) else provedflow.maximum_flow(*given),
    (FlowError, "src[1] is 5, and the nodes are 0 to 2", [0, 5], [1, 1], [1, 1], 0, 1, 3),
    (FlowError, "dst[0] is 7, and the nodes are 0 to 2", [0, 2], [7, 1], [1, 1], 0, 1, 3),
    (FlowError, "dst[0] is 7, and the nodes are 0 to 2", [0, 2], [7, 1], [1, 1.5], 0, 1, 3),
    (FlowError, "capacities[1] has to be a whole number from 0 to", [0, 1], [1, 1], [1, -1], 0, 1),
    (FlowError, "and is 18446744073709551616", [0], [1], [2 ** 64], 0, 1),
    (FlowError, "capacities[1] has to be a number from 0, and is nan", [0, 1], [1, 1], [1, NAN], 0, 1),
    (FlowError, "capacities[2] has to be a number from 0, and is -0.5", [0] * 3, [1] * 3, [1, 0.5, -0.5], 0, 1),
    (TypeError, "capacities[1] has to be a number, and is None", [0, 1], [1, 1], [1, None], 0, 1),
    (TypeError, "capacities[1] has to be a number, and is '2'", [0, 1], [1, 1], (each for each in (0.5, "2")), 0, 1),
    (TypeError, "src[0] has to be a whole number, and is '0'", (each for each in "0"), [1], [1], 0, 1),
    (TypeError, "dst[1] has to be a whole number, and is 1.0", [0, 0], [1, 1.0], [1, 1], 0, 1),
    (TypeError, "nodes has to be a whole number, and is 4.0", [0], [1], [1], 0, 1, 4.0),
    (TypeError, "and is str", [0, 1], [1, 1], "12", 0, 1),
    (TypeError, "capacities has to be an array or a sequence of numbers, and is NoneType", [0], [1], None, 0, 1),
    (TypeError, "and is bytearray", bytearray(8), bytearray(8), [1, 1], 0, 1),
    (TypeError, "and is [0, 1]", memoryview(bytes([0, 1])).cast("B", (1, 2)), [1], [1], 0, 1),
    (TypeError, "src has to be an array or a sequence of numbers, and is 3", 3, [1], [1], 0, 1),
    (FlowError, "src has 2 elements and dst has 1", [0, 1], [1], [1, 1], 0, 1),
    (FlowError, "src has 1 elements and capacities has 2", [0], [1], [1, 1], 0, 1),
    (FlowError, "there are no sources", [0], [1], [1], [], 1),
    (FlowError, "sinks[0] is 0, and so is sources[0]", [0], [1], [1], 0, 0),
    (FlowError, "sinks[1] is 1, and so is sinks[0]", [0], [1], [1], 0, [1, 1]),
    (FlowError, "sinks[1] is 1, and so is sinks[0]", [0], [1], [0.5], 0, [1, 1]),
    (FlowError, "sinks[0] is 2, and the nodes are 0 to 1", [0], [1], [1], 0, 2, 2),
    (FlowError, "there are 1 nodes, and 2 to ", [0], [0], [1], 0, 1, 1),
    (FlowError, f"and 2 to {provedflow.MOST_NODES} are taken", [0], [provedflow.MOST_NODES], [1], 0, 1),
    (library.Unbounded, "no cut has a value", [0, 1, 1], [1, 2, 2], [INFINITE, 1.5, INFINITE], 0, 2),
    (FlowError, "the weights add up to 2^1023 or more", [0, 0], [1, 1], [9e307, 1.0], 0, 1),
    (TypeError, "capacities has to have numbers, and is an array of complex", [0], [1], np.ones(1) * 1j, 0, 1),
    (TypeError, "src has to have whole numbers, and is an array of float64", np.zeros(1), [1], [1], 0, 1),
    (FlowError, "capacities has to have one axis, and has the shape (1, 1)", [0], [1], np.array([[1]]), 0, 1),
    (FlowError, "capacities[1] has to be a whole number from 0 to", [0, 0], [1, 1], np.array([1, -3]), 0, 1),
    (FlowError, "capacities[1] has to be a number from 0, and is nan", [0, 0], [1, 1], np.array([1, NAN]), 0, 1),
    (FlowError, "capacities[0] has to be a number from 0, and is -0.5", [0, 0], [1, 1], np.array([-0.5, 1]), 0, 1),
    (FlowError, "src[0] has to be a node, and is 4294967296", np.array([2 ** 32]), [1], [1], 0, 1),
    (FlowError, "src[0] has to be a node, and is -1", np.array([-1], np.int32), [1], [1], 0, 1),
    (TypeError, "capacities has masked elements", [0], [1], MASKED, 0, 1),
    (TypeError, "capacities has masked elements", [0], [1], MASKED * 0.5, 0, 1),
    (TypeError, "capacities has masked elements", [0, 0], [1, 1], [2, HIDDEN], 0, 1),
    (TypeError, "sources has masked elements", [0], [1], [1], HIDDEN, 1),
    (TypeError, "sinks has masked elements", [0], [1], [1], 0, [np.ma.array(1, mask=True)]),
    (FlowError, "and is 1000", [0, 0], [1, 1], [0.5, 10 ** 400], 0, 1),
    (FlowError, "src has 1 elements and flows has 0", provedflow.check, [0], [1], [1], 0, 1, []),
    (TypeError, "capacities[0] has to be a whole number", provedflow.check, [0], [1], [0.5], 0, 1, [0]),
    (ValueError, "nearest has to be", lambda: provedflow.minimum_cut([0], [1], [1], 0, 1, nearest="middle")),
    (ValueError, "give both sources and sinks", lambda: provedflow.edge_connectivity([0], [1], sources=0)),
    (FlowError, "dst[0] is 1, and the nodes are 0 to 0", provedflow.edge_connectivity, [0], [1], 1),
    (FlowError, "there are 1 nodes, and 2 to", lambda: provedflow.edge_connectivity([0], [0], 1, sources=0, sinks=0)))


def test_without_numpy():
    """Floats need NumPy, and whole numbers don't."""
    code = """import sys; sys.modules["numpy"] = None; import provedflow
print(provedflow.minimum_cut([0, 1], [1, 2], [2, True], 0, 2))
provedflow.maximum_flow([0], [1], [0.5], 0, 1)"""
    status, printed, errors = python("-c", code)
    assert status and printed == "Cut(value=1, side=[True, True, False], flows=[1, 1])\n"
    assert errors.endswith("ImportError: weights with fractions need NumPy\n")


def test_one_node():
    """A network of one node has the connectivity 0, as NetworkX says too."""
    assert provedflow.edge_connectivity([], [], 1) == provedflow.edge_connectivity([0, 0], [0, 0], nodes=1) == 0


@pytest.mark.parametrize("name", ["MOST_LINKS", "MOST_ARCS"])
def test_many_arcs(name, monkeypatch):
    """More arcs than a file may have are taken, and one more than the limit is refused."""
    ends = array.array("I", [0]) * 9_000_000
    call = {"MOST_LINKS": lambda: provedflow.edge_connectivity(ends, ends, 2),
            "MOST_ARCS": lambda: provedflow.maximum_flow(ends, ends, ends.tolist(), 0, 1, 2).value}[name]
    assert call() == 0
    monkeypatch.setattr(calls, name, len(ends) - 1)
    refused(FlowError, f"there are {len(ends)} arcs, and at most {len(ends) - 1} are taken", call)


def test_no_copies():
    """Arrays whose elements lie as the library reads them are read where they lie, and others are converted."""
    for kind, given in [("I", array.array("I", [1, 2])), ("Q", array.array("Q", [1, 2]))] + [
            (kind, np.zeros(2, dtype)) for kind, dtype in (("I", "u4"), ("I", "i4"), ("Q", "u8"), ("Q", "i8"))]:
        assert arrays.read(given, kind, "an array").keeper is given
    for given in (array.array("B", [1, 2]), np.array([1, 0, 2, 0], np.uint32)[::2], np.array([1, 2], ">u4"),
                  np.array([1, 2], np.uint8)):
        assert arrays.read(given, "I", "an array").keeper.tolist() == [1, 2], given


def test_two_threads():
    """Two threads at once answer what one does."""
    chance = random.Random(1927)
    problems = [[chance.choices(range(most), k=2000) for most in (300, 300, 90)] for _ in range(2)]
    value = lambda problem: provedflow.maximum_flow(*problem, 0, 1, 300).value
    with ThreadPoolExecutor(2) as pool:
        assert list(pool.map(value, problems * 20)) == list(map(value, problems)) * 20


def test_columns_and_bools():
    """A column of pandas is read by its array, and answers are arrays then; bools are 0 and 1."""
    pandas = pytest.importorskip("pandas")
    column = pandas.Series([3, 2, 2 ** 63], dtype="uint64")
    assert arrays.as_given(column) is column.array.to_numpy() or np.shares_memory(arrays.as_given(column), column)
    for capacities in (column, pandas.Series([3.0, 2.0, 9.0])):
        flow = provedflow.maximum_flow(pandas.Series([0, 0, 1]), [1, 1, 2], capacities, 0, 2)
        assert flow.value == 5 and isinstance(flow.flows, np.ndarray)
    refused(TypeError, "capacities[1] has to be a number, and is <NA>", provedflow.maximum_flow, [0, 0], [1, 1],
            pandas.Series([1, None], dtype="Int64"), 0, 1)
    for given in ([True, True], np.array([True, True])):
        assert provedflow.maximum_flow([False, False], [True, True], given, 0, True).value == 2


def draw(chance, rough):
    """A weight of some size: a fraction of any size, infinity, a few quarters or a float that is whole."""
    return float(chance.choice((chance.expovariate(1), chance.random() * 10.0 ** chance.randint(-rough, rough),
                                INFINITE if chance.random() < .4 else chance.paretovariate(0.5),
                                chance.randint(0, 5) / 4, chance.randint(0, 2 ** 53))))


@pytest.mark.parametrize("form", [list, np.array])
@pytest.mark.parametrize("rough", [0, 9, 300])
def test_floats(form, rough, checks):
    """The exact value lies between the bounds of floats, and is the nearest float where there is no gap."""
    chance, met = random.Random(f"104 {rough}"), Counter()
    for number in range(200):
        nodes = chance.randint(2, 8)
        arcs = [(*chance.choices(range(nodes), k=2), draw(chance, rough)) for _ in range(chance.randint(1, 25))]
        given = list(map(form, zip(*arcs)))
        exact, _ = least_cuts(nodes, arcs)
        checks(3)
        if exact == INFINITE:
            refused(library.Unbounded, "no cut has a value", provedflow.minimum_cut, *given, 0, nodes - 1, nodes)
            continue
        flow = provedflow.maximum_flow(*given, 0, nodes - 1, nodes)
        cut = provedflow.minimum_cut(*given, 0, nodes - 1, nodes, nearest=("sources", "sinks")[number % 2])
        assert isinstance(flow.value, float) and isinstance(cut.value, float)
        for value, gap, of_cut in (flow.value, flow.gap, False), (cut.value, cut.gap, True):
            assert_near(value, gap, of_cut, exact)
            assert gap <= 2.0 ** -51 * value + 2.0 ** -55 * sum(weight for _, _, weight in arcs if weight < INFINITE)
        paid = sum(Fraction(weight) for u, v, weight in arcs if cut.side[u] and not cut.side[v])
        assert paid <= cut.value or float(paid) == cut.value
        for flows in flow.flows, cut.flows:
            assert all(0 <= amount <= weight for amount, (_, _, weight) in zip(flows, arcs))
            for node in range(1, nodes - 1):
                ins, outs = (sum(amount for ends, amount in zip(arcs, flows) if ends[way] == node) for way in (1, 0))
                assert abs(ins - outs) <= 2.0 ** -40 * max(ins, outs)
        met[bool(cut.gap)] += 1
    assert min(met.values()) > 5 and (rough or len(met) == 2), met


@pytest.mark.parametrize("given, value", [
    ([19.0, 35.0, INFINITE], 54.0), ([0.5, 0.25, 7], 0.75), ([2.0 ** 52, 1.5, INFINITE], 2.0 ** 52 + 1.5),
    ([5e-324, 1e-323, 1e300], 1.5e-323), ([3, 4, INFINITE], 7.0), ([0.1, 0.0, 0.3], 0.1),
    *((np.array([0.5, 0.25, 7], kind), 0.75) for kind in ("float16", "float32", "float64"))])
def test_floats_that_are_exact(given, value):
    """Nothing is rounded where all weights are multiples of the unit: halves, whole numbers beside infinite ones."""
    for call in provedflow.maximum_flow, provedflow.minimum_cut:
        found = call([0, 0, 1], [1, 1, 2], given, 0, 2)
        assert (found.value, found.gap) == (value, 0) and isinstance(found.value, float)
        assert [type(row) for row in found[1:]] == [type(given)] * (len(found) - 1)
        assert isinstance(given, np.ndarray) or eval(repr(found), vars(calls)) == found


def test_hard_constraints():
    """Infinite weights at both ends, and a path of them, leave the bits to the weights between."""
    arcs = [(0, 1, INFINITE), (1, 2, INFINITE), (2, 3, 0.5), (3, 4, INFINITE), (4, 5, INFINITE), (1, 4, 2.0 ** -63),
            (0, 0, 1e300), (3, 3, 1e-300)]
    cut = provedflow.minimum_cut(*map(list, zip(*arcs)), 0, 5)
    assert cut.value == 0.5 and cut.flows[5] == 2.0 ** -63 and cut.gap == 0 and cut.side == [True] * 3 + [False] * 3
