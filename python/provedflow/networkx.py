"""NetworkX's algorithms of flows, cuts and connectivity, over the proved library.

    import networkx as nx
    from provedflow.networkx import flow_func, minimum_cut

    value, (one_side, other_side) = minimum_cut(G, s, t)
    value, flows = nx.maximum_flow(G, s, t, backend="provedflow")    # NetworkX 3.2 and newer
    value, flows = nx.maximum_flow(G, s, t, flow_func=flow_func)     # each NetworkX

The functions of `ALGORITHMS` have the parameters and the results of NetworkX's functions of the same names; of several
maximum flows or minimum cuts of a whole graph the result is one, and not always NetworkX's. `flow_func`, `auxiliary`
and `residual` are accepted and ignored. Most of the time of the function `flow_func` goes into the residual network.

An edge without the attribute is infinite, as one of float("inf") is; self-loops and edges of capacity 0 or less carry
nothing. Multigraphs raise NetworkXError, but for `edge_connectivity`, which counts parallel edges.

Capacities may be ints of any size, floats, Fractions and Decimals. Where one is a float, all are, and are rounded as
`provedflow.maximum_flow` says, with the attribute `gap`; in the residual network of `flow_func` the flow of an edge is
its capacity just where it is full. All others are brought to a common denominator, exactly: where all are whole, so are
all answers, and else they are Fractions. A capacity of 2^64 or more becomes several arcs.

Raised: NetworkXUnbounded where a path of infinite edges leads from s to t; NetworkXError where s or t isn't in the
graph, where they are the same, where a capacity is no number (with the edge), where capacities differ too much (with
how to round), and beyond the limits of 268,435,456 nodes and 1,073,741,824 arcs, or 536,870,912 edges where links are
counted; where nodes are cut or their connectivity is asked for, each node is two with an arc between them, and an edge
without direction two arcs; MemoryError; ImportError for floats without NumPy; provedflow.LibraryNotFound.
"""

from __future__ import annotations

import inspect
import types
from array import array
from itertools import combinations, permutations
from typing import Any

import networkx as nx
from networkx.algorithms import flow as theirs

from provedflow import calls
from provedflow.graphs import (
    EdgeUnits, GraphProblem, NodeUnits, check_ends, check_kind, check_size, collector_paused, graph_of,
    residual_rows, send)
from provedflow.library import MOST_LINKS


def maximum_flow(flowG: Any, _s: Any, _t: Any, capacity: str = "capacity",
                 flow_func: Any = None) -> tuple[Any, dict[Any, dict[Any, Any]]]:
    """Finds a flow of the greatest value: the pair of its value and a dict of dicts, flows[u][v].

    - flowG, _s, _t: a Graph or a DiGraph, and two different nodes of it.
    - capacity: the name of the edges' attribute.

    >>> G = nx.DiGraph()
    >>> G.add_edge("s", "a", capacity=3)
    >>> G.add_edge("a", "t", capacity=2.5)
    >>> maximum_flow(G, "s", "t")
    (2.5, {'s': {'a': 2.5}, 'a': {'t': 2.5}, 't': {}})
    """
    problem = GraphProblem(flowG, capacity)
    value, found = problem.solve(_s, _t)
    return value, problem.flow_dict(found)


def maximum_flow_value(flowG: Any, _s: Any, _t: Any, capacity: str = "capacity", flow_func: Any = None) -> Any:
    """Finds the greatest value of a flow; the parameters are those of `maximum_flow`."""
    return GraphProblem(flowG, capacity).solve(_s, _t)[0]


def minimum_cut(flowG: Any, _s: Any, _t: Any, capacity: str = "capacity",
                flow_func: Any = None) -> tuple[Any, tuple[set[Any], set[Any]]]:
    """Finds a minimum cut: the pair of its value and a partition of the nodes, a set with _s and a set with _t.

    As with NetworkX, the second set is the least that has _t, of all minimum cuts. The parameters are those of
    `maximum_flow`.

    >>> G = nx.Graph()
    >>> nx.add_path(G, "sat", capacity=4)
    >>> G.add_edge("a", "b", capacity=1)
    >>> value, (one_side, other_side) = minimum_cut(G, "s", "t")
    >>> value, sorted(one_side), sorted(other_side)
    (4, ['a', 'b', 's'], ['t'])
    """
    return GraphProblem(flowG, capacity).cut(_s, _t)


def minimum_cut_value(flowG: Any, _s: Any, _t: Any, capacity: str = "capacity", flow_func: Any = None) -> Any:
    """Finds the capacity of a minimum cut; the parameters are those of `maximum_flow`."""
    return GraphProblem(flowG, capacity).solve(_s, _t, "sinks")[0]


def gomory_hu_tree(G: Any, capacity: str = "capacity", flow_func: Any = None) -> Any:
    """Finds a Gomory-Hu tree of an undirected graph: the least `weight` of an edge between two nodes in it is the value
    of a minimum cut between them in the graph.

    >>> G = nx.path_graph(3)
    >>> nx.set_edge_attributes(G, {(0, 1): 4, (1, 2): 1}, "capacity")
    >>> sorted(gomory_hu_tree(G).edges(data="weight"))
    [(0, 1, 4), (1, 2, 1)]
    """
    if G.is_directed():
        raise nx.NetworkXNotImplemented("not implemented for directed type")
    if not G:
        raise nx.NetworkXError("Empty Graph does not have a Gomory-Hu tree representation")
    problem, (root, *others) = GraphProblem(G, capacity), G
    parents, weights = dict.fromkeys(others, root), {}
    for node in others:
        parent = parents[node]
        weights[node], (side, _) = problem.cut(node, parent)
        for other in others:
            if other != node and parents[other] == parent and other in side:
                parents[other] = node
                weights.setdefault(other, weights[node])
        if parent != root and parents[parent] in side:
            weights[node], weights[parent] = weights[parent], weights[node]
            parents[node], parents[parent] = parents[parent], node
    tree = nx.Graph()
    tree.add_nodes_from(G)
    tree.add_weighted_edges_from((node, parent, weights[node]) for node, parent in parents.items())
    return tree


@collector_paused()
def edge_connectivity(G: Any, s: Any = None, t: Any = None, flow_func: Any = None, cutoff: Any = None) -> int:
    """Finds how many edges must fail before the graph falls apart, or before t can't be reached from s; at most the
    cutoff.

    For a directed graph it is how many must fail before some node can't be reached from another. A graph of one node
    has the connectivity 0. Capacities are ignored. Raises NetworkXPointlessConcept for a graph without nodes.

    >>> edge_connectivity(nx.complete_graph(5)), edge_connectivity(nx.path_graph(4), 0, 3)
    (4, 1)
    """
    check_size(len(G), G.number_of_edges(), MOST_LINKS)
    numbers = {node: number for number, node in enumerate(G)}
    edges = list(G.edges())
    src, dst = array("I", [numbers[u] for u, _ in edges]), array("I", [numbers[v] for _, v in edges])
    pair = {"sources": numbers[s], "sinks": numbers[t]} if names_pair(G, s, t) else {}
    links = calls.edge_connectivity(src, dst, len(G), directed=G.is_directed(), **pair)
    return links if cutoff is None else min(links, cutoff)


def local_edge_connectivity(G: Any, s: Any, t: Any, flow_func: Any = None, auxiliary: Any = None, residual: Any = None,
                            cutoff: Any = None) -> int:
    """Finds how many edges must fail before t can't be reached from s; at most the cutoff."""
    return edge_connectivity(G, s, t, cutoff=cutoff)


def minimum_edge_cut(G: Any, s: Any = None, t: Any = None, flow_func: Any = None) -> set[tuple[Any, Any]]:
    """Finds a least set of edges whose removal cuts t off from s, or some node from another.

    Raises NetworkXError where the graph isn't connected (weakly, if it is directed).

    >>> sorted(minimum_edge_cut(nx.path_graph(3), 0, 1))
    [(0, 1)]
    """
    if names_pair(G, s, t):
        return minimum_st_edge_cut(G, s, t)
    units = EdgeUnits(G)
    check_connected(G)
    least, nodes = edge_connectivity(G), list(G)
    for edges in (G.out_edges, G.in_edges) if G.is_directed() else (G.edges,):
        around = min(({edge for edge in edges(node) if edge[0] != edge[1]} for node in nodes), key=len)
        if len(around) == least:
            return around
    ways = zip(nodes, nodes[1:] + nodes[:1]) if G.is_directed() else ((nodes[0], node) for node in nodes[1:])
    return next(cut for cut in (units.cut(u, v) for u, v in ways) if len(cut) == least)


def minimum_st_edge_cut(G: Any, s: Any, t: Any, flow_func: Any = None, auxiliary: Any = None,
                        residual: Any = None) -> set[tuple[Any, Any]]:
    """Finds a least set of edges whose removal cuts t off from s."""
    return EdgeUnits(G).cut(s, t)


def node_connectivity(G: Any, s: Any = None, t: Any = None, flow_func: Any = None) -> int:
    """Finds how many nodes must fail before the graph falls apart or one is left, or before t can't be reached from s.

    An edge from s to t counts as one more. For a directed graph, name two nodes.

    >>> node_connectivity(nx.petersen_graph()), node_connectivity(nx.star_graph(4))
    (3, 1)
    """
    if names_pair(G, s, t):
        return local_node_connectivity(G, s, t)
    units = NodeUnits(G)
    return min((units.count(u, v) for u, v in parted_pairs(G)), default=len(G) - 1)


def local_node_connectivity(G: Any, s: Any, t: Any, flow_func: Any = None, auxiliary: Any = None, residual: Any = None,
                            cutoff: Any = None) -> int:
    """Finds how many paths from s to t there are at most that share no other node; at most the cutoff."""
    paths = NodeUnits(G).count(s, t)
    return paths if cutoff is None else min(paths, cutoff)


def minimum_node_cut(G: Any, s: Any = None, t: Any = None, flow_func: Any = None) -> set[Any]:
    """Finds a least set of nodes whose removal cuts t off from s, or the graph into parts, or leaves one node.

    It is empty if an edge joins s and t. For a directed graph, name two nodes. Raises NetworkXError if the graph isn't
    connected.
    """
    if names_pair(G, s, t):
        return minimum_st_node_cut(G, s, t)
    check_connected(G)
    units, pairs = NodeUnits(G), list(parted_pairs(G))
    return min((units.cut(u, v) for u, v in pairs), key=len, default=set(list(G)[1:]))


def minimum_st_node_cut(G: Any, s: Any, t: Any, flow_func: Any = None, auxiliary: Any = None,
                        residual: Any = None) -> set[Any]:
    """Finds a least set of nodes whose removal cuts t off from s; it is empty where an edge joins the two."""
    check_kind(G)
    return set() if G.has_edge(s, t) or G.has_edge(t, s) else NodeUnits(G).cut(s, t)


def all_pairs_node_connectivity(G: Any, nbunch: Any = None, flow_func: Any = None) -> dict[Any, dict[Any, int]]:
    """Finds the local node connectivity of all pairs of nodes, or of those of nbunch, as a dict of dicts."""
    nodes, units = list(G) if nbunch is None else list(set(nbunch)), NodeUnits(G)
    found: dict[Any, dict[Any, int]] = {node: {} for node in nodes}
    for u, v in (permutations if G.is_directed() else combinations)(nodes, 2):
        found[u][v] = units.count(u, v)
        if not G.is_directed():
            found[v][u] = found[u][v]
    return found


def average_node_connectivity(G: Any, flow_func: Any = None) -> float:
    """Finds the average of the local node connectivity of all pairs of nodes."""
    found = [paths for row in all_pairs_node_connectivity(G).values() for paths in row.values()]
    return sum(found) / len(found) if found else 0


@collector_paused()
def flow_func(G: Any, s: Any, t: Any, capacity: str = "capacity", residual: Any = None, value_only: bool = False,
              cutoff: Any = None) -> Any:
    """Finds a maximum flow, and returns the residual network that NetworkX's functions read: that of
    `networkx.algorithms.flow.edmonds_karp`, with the same parameters.

    - residual: a residual network of the same graph to be used again; its old flow is lost.
    - value_only: ignored, since a minimum cut needs the flow.
    - cutoff: the flow need be no greater than this; then the residual network need not show a minimum cut.
    """
    check_ends(G, s, t)
    if residual is None:
        rows, infinite = residual_rows(G, capacity)
    else:
        rows, infinite = dict(residual.adjacency()), residual.graph["inf"]
        for attr in (attr for row in rows.values() for attr in row.values()):
            attr["flow"] = 0
    value = send(rows, s, t, cutoff, infinite)
    R = graph_of(rows, infinite) if residual is None else residual
    R.graph.update(flow_value=value, algorithm="flow_func")
    return R


def names_pair(G, s, t):
    """Whether a call asks about two nodes, and not about the whole graph, which then has to have a node."""
    if (s is None) != (t is None):
        raise nx.NetworkXError("Both source and target must be specified.")
    if s is not None:
        check_ends(G, s, t)
    elif not G:
        raise nx.NetworkXPointlessConcept("Connectivity is undefined for the null graph.")
    return s is not None


def check_connected(G):
    """Checks that a graph is connected."""
    if not (nx.is_weakly_connected if G.is_directed() else nx.is_connected)(G):
        raise nx.NetworkXError("Input graph is not connected")


def parted_pairs(G):
    """Pairs of nodes that no edge joins, one of which at least is parted by a minimum node cut: a node of few
    neighbours and each other node, and, where the cut has that node itself, two of its neighbours."""
    if G.is_directed():
        raise nx.NetworkXNotImplemented("for a directed graph, name two nodes")
    node = min(G, key=lambda each: len(set(G[each]) - {each}))
    near = set(G[node]) - {node}
    yield from ((node, other) for other in G if other != node and other not in near)
    yield from ((u, v) for u, v in combinations(near, 2) if v not in G[u])


ALGORITHMS = {function.__name__: function for function in (
    maximum_flow, maximum_flow_value, minimum_cut, minimum_cut_value, gomory_hu_tree, edge_connectivity,
    local_edge_connectivity, minimum_edge_cut, minimum_st_edge_cut, node_connectivity, local_node_connectivity,
    minimum_node_cut, minimum_st_node_cut, all_pairs_node_connectivity, average_node_connectivity)}
"""The functions that NetworkX finds here."""
FLOW_FUNCS = (None, flow_func, theirs.boykov_kolmogorov, theirs.dinitz, theirs.edmonds_karp, theirs.preflow_push,
              theirs.shortest_augmenting_path)
"""The functions that all find a maximum flow, so it doesn't matter which of them a call names."""


def can_run(name, args, kwargs):
    """Whether a call of NetworkX is one for this package. Multigraphs, networks that NetworkX has built before, and
    whatever names another flow function or parameters of one, are left to NetworkX."""
    try:
        given = inspect.signature(ALGORITHMS[name]).bind(*args, **kwargs).arguments
    except TypeError:
        return False
    G, asked = next(iter(given.values())), {word for word, thing in given.items() if thing is not None}
    return not (G.is_multigraph() or asked & {"auxiliary", "residual"} or given.get("flow_func") not in FLOW_FUNCS
                or "cutoff" in asked and given.get("flow_func") is theirs.preflow_push
                or name in ("node_connectivity", "minimum_node_cut") and G.is_directed() and not asked & {"s", "t"})


def convert_from_nx(graph, **_):
    """The graph itself, which is read as it is at each call. So nothing of it is to be kept for the next call."""
    (getattr(graph, "__networkx_cache__", None) or {}).get("backends", {}).pop("provedflow", None)
    return graph


backend = types.SimpleNamespace(**ALGORITHMS, can_run=can_run, should_run=lambda name, args, kwargs: True,
                                convert_from_nx=convert_from_nx, convert_to_nx=lambda graph, **_: graph)
"""What NetworkX asks: the entry point `provedflow` of the group `networkx.backends`."""
