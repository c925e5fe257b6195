"""`provedflow.scipy` side by side with SciPy's own `maximum_flow`."""

import random

import pytest

from binding_checks import named_library, refusals, refused

np = pytest.importorskip("numpy")
pytest.importorskip("scipy.sparse")
from scipy.sparse import coo_matrix, csc_matrix, csr_matrix, lil_matrix
from scipy.sparse.csgraph import maximum_flow as scipy_flow

from provedflow.library import FlowError
from provedflow.scipy import maximum_flow

FORMATS, KINDS = (csr_matrix, csc_matrix, coo_matrix, lil_matrix), (np.int32, np.int64, np.uint16, np.uint64)


def is_flow(capacities, source, sink, result):
    """Whether the result is a flow of its value that keeps the capacities."""
    flow, value = result.flow.toarray(), result.flow_value
    gain = flow.sum(axis=0)
    gain[source] += value
    gain[sink] -= value
    return bool((flow == -flow.T).all() and (flow <= capacities).all() and not gain.any())


@pytest.mark.parametrize("kind", KINDS, ids=lambda kind: kind.__name__)
def test_side_by_side(kind, checks):
    """Random matrices: the same value as SciPy's, by the same parameters, and a flow of that value."""
    chance = random.Random(1973)
    checks(80)
    for number in range(40):
        nodes = chance.randint(2, 10)
        capacities = np.zeros((nodes, nodes), dtype=np.int32)
        for _ in range(chance.randint(0, 4 * nodes)):
            capacities[chance.randrange(nodes), chance.randrange(nodes)] = chance.randint(0, 20)
        given = FORMATS[number % len(FORMATS)](capacities.astype(kind))
        ours, theirs = (call(csgraph=matrix, source=0, sink=nodes - 1, method=("dinic", "edmonds_karp")[number % 2])
                        for call, matrix in ((maximum_flow, given), (scipy_flow, csr_matrix(capacities))))
        assert ours.flow_value == int(theirs.flow_value) and type(ours.flow_value) is int, capacities
        assert is_flow(capacities.astype(np.int64), 0, nodes - 1, ours), (capacities, ours.flow.toarray())


WIDE, ROWS = 2 ** 63 - 1, [[0, 2 ** 31, 2 ** 33], [-2 ** 31, 0, 2 ** 31], [-2 ** 33, -2 ** 31, 0]]


@pytest.mark.parametrize("srcs, dsts, capacities, kind, value, flow", [
    ([0, 0, 1], [1, 2, 2], [2 ** 31, 2 ** 33, 2 ** 40], np.int64, 2 ** 31 + 2 ** 33, ROWS),
    ([0, 0], [1, 1], [255, 255], np.uint8, 510, [[0, 510], [-510, 0]]),
    ([0, 0], [1, 1], [True, True], np.bool_, 2, [[0, 2], [-2, 0]]),
    ([0, 0], [1, 1], [2 ** 31 - 1] * 2, np.int32, 2 ** 32 - 2, [[0, 2 ** 32 - 2], [2 - 2 ** 32, 0]]),
    ([0, 0], [1, 1], [2 ** 62 - 1, 2 ** 62], np.int64, WIDE, [[0, WIDE], [-WIDE, 0]]),
    ([0, 0], [1, 1], [WIDE, 1], np.int64, 2 ** 63, None),
    ([0, 0], [1, 1], [WIDE, WIDE], np.int64, 2 ** 64 - 2, None),
    ([0], [1], [2 ** 64 - 1], np.uint64, 2 ** 64 - 1, None),
    ([0, 0, 1, 1], [1, 1, 2, 0], [0.5, np.inf, 3.25, 7], np.float32, 3.25,
     [[0, 3.25, 0], [-3.25, 0, 3.25], [0, -3.25, 0]]),
])
def test_by_hand(srcs, dsts, capacities, kind, value, flow):
    """Matrices whose own kind can't count what flows: where arcs lead from and to, their capacities, the kind of these,
    the value, and what flows, where 63 bits can tell it. Parallel arcs stand in a matrix twice."""
    matrix, sink = coo_matrix((np.array(capacities, kind), (srcs, dsts)), (max(dsts) + 1,) * 2), max(dsts)
    if flow is None:
        refused(OverflowError, "2^63", maximum_flow, matrix, 0, 1)
    else:
        found = maximum_flow(matrix, 0, sink)
        assert (found.flow_value, found.flow.toarray().tolist()) == (value, flow)


def test_floats():
    """Fractions are rounded by less than the gap says, and what flows is antisymmetric."""
    chance = np.random.default_rng(104)
    matrix = coo_matrix((10 ** chance.uniform(-9, 9, 400), chance.integers(0, 20, (2, 400))), (20, 20))
    found = maximum_flow(matrix, 0, 19)
    flow = found.flow.toarray()
    assert (flow == -flow.T).all() and 0 < found.flow_value.gap < 1e-9 * found.flow_value
    assert np.abs(flow[1:-1].sum(axis=1)).max() < 1e-12 * matrix.data.max()


WHOLE = csr_matrix(np.array([[0, 1], [0, 0]]))


test_refused = refusals(
    lambda matrix, source, sink, method="dinic": maximum_flow(matrix, source, sink, method=method),
    (ValueError, "xx method is not supported", WHOLE, 0, 1, "xx"),
    (TypeError, "sparse matrix", np.array([[0, 1], [0, 0]]), 0, 1),
    (ValueError, "must differ", WHOLE, 0, 0),
    (ValueError, "between 0 and 1", WHOLE, 0, 2),
    (ValueError, "between 0 and 1", WHOLE, -1, 1),
    (FlowError, "capacities[0] has to be a whole number from 0 to", -WHOLE, 0, 1),
    (FlowError, "capacities[0] has to be a number from 0, and is nan", WHOLE * np.nan, 0, 1),
    (TypeError, "capacities has to have numbers, and is an array of complex128", WHOLE * 1j, 0, 1),
    (ValueError, "square", WHOLE[:1], 0, 1))
