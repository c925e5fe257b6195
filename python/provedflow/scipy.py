"""`maximum_flow` in the place of SciPy's.

    from provedflow.scipy import maximum_flow

    result = maximum_flow(capacities, source, sink)
    result.flow_value, result.flow

The signature and the answer are those of `scipy.sparse.csgraph.maximum_flow`, which counts in 32 bits.
"""

from __future__ import annotations

from typing import TYPE_CHECKING, Any, Literal, NamedTuple, Union

import numpy as np
from scipy.sparse import coo_matrix, issparse

from provedflow.calls import maximum_flow as flow_of_arcs

if TYPE_CHECKING:
    from typing import SupportsIndex


class MaximumFlowResult(NamedTuple):
    """The greatest value of a flow, and what flows from i to j less what flows from j to i, a CSR matrix of int64, or
    of float64 where the capacities are floats; then the value has the attribute `gap`."""

    flow_value: Union[int, Any]
    flow: Any


def maximum_flow(csgraph: Any, source: SupportsIndex, sink: SupportsIndex, *,
                 method: Literal["dinic", "edmonds_karp"] = "dinic") -> MaximumFlowResult:
    """Finds a flow of the greatest value from a source to a sink.

    - csgraph: a sparse matrix of any format and of any kind of integers, or of floats of up to 64 bits, of shape
      (nodes, nodes). Its element in row i and column j is the capacity of the arc from i to j, from 0 to 2^64 - 1;
      duplicate elements are parallel arcs. Floats are rounded as `provedflow.maximum_flow` says.
    - source, sink: two different nodes, from 0.
    - method: one that SciPy has, without effect.

    Returns MaximumFlowResult(flow_value, flow). The flow is antisymmetric, and has elements where something flows. If
    several flows have the greatest value, it is one of them, and not always SciPy's.

    Raises TypeError where csgraph is no sparse matrix of such numbers, ValueError where it isn't square, a number is
    negative or nan, or a node isn't one, and beyond the limits of 268,435,456 nodes and 1,073,741,824 arcs;
    OverflowError where from one node to another flow 2^63 or more, beyond int64; MemoryError.

    >>> from scipy.sparse import csr_matrix
    >>> capacities = csr_matrix([[0, 3, 2, 0], [0, 0, 1, 2], [0, 0, 0, 3], [0, 0, 0, 0]])
    >>> maximum_flow(capacities, 0, 3).flow_value
    5
    """
    if method not in ("dinic", "edmonds_karp"):
        raise ValueError(f"{method} method is not supported: it has no effect, and is 'dinic' or 'edmonds_karp'")
    matrix = checked(csgraph, source, sink)
    found = flow_of_arcs(matrix.row, matrix.col, matrix.data, source, sink, matrix.shape[0])
    return MaximumFlowResult(found.value, net_flow(matrix, found.flows))


def net_flow(matrix, flows):
    """What flows from i to j less what flows from j to i. Halves of 32 bits are added up, so that no sum wraps."""
    some = flows > 0
    rows, columns, flows = matrix.row[some], matrix.col[some], flows[some]
    if flows.dtype.kind == "f":
        one_way = coo_matrix((flows, (rows, columns)), matrix.shape).tocsr()
        net = one_way - one_way.T.tocsr()
        net.eliminate_zeros()
        return net
    ends = np.concatenate((rows, columns)), np.concatenate((columns, rows))
    halves = (flows >> np.uint64(32)).view(np.int64), (flows & np.uint64(0xffffffff)).view(np.int64)
    upper, lower = (coo_matrix((np.concatenate((half, -half)), ends), matrix.shape).tocsr() for half in halves)
    upper.data += lower.data >> 32
    if upper.nnz and upper.data.max() >= 2 ** 31:
        raise OverflowError("the flow from one node to another is 2^63 or more, beyond the int64 of the result")
    upper.data = (upper.data << 32) + (lower.data & 0xffffffff)
    upper.eliminate_zeros()
    return upper


def checked(csgraph, source, sink):
    """The matrix as a list of elements, or what is wrong with it."""
    if not issparse(csgraph):
        raise TypeError("graph must be a sparse matrix")
    if csgraph.ndim != 2 or csgraph.shape[0] != csgraph.shape[1]:
        raise ValueError("graph must be a square matrix")
    for name, node in (("source", source), ("sink", sink)):
        if not 0 <= node < csgraph.shape[0]:
            raise ValueError(f"{name} value ({node}) must be between 0 and {csgraph.shape[0] - 1}")
    if source == sink:
        raise ValueError("source and sink vertices must differ")
    return csgraph.tocoo()
