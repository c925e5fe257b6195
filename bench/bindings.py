#!/usr/bin/env python3
"""What calls from Python take, beside SciPy's and NetworkX's own: bindings.py LIBRARY [WORD ...]

LIBRARY is the shared library that scripts/library.sh makes; only problems whose names have one of the WORDs are run.
Needs NumPy, SciPy and NetworkX. Each problem is made first, and then each call on it is timed, from the matrix or graph
to the answer in the same kind, in seconds by the clock and CPU seconds; a call runs in a process of its own, whose
greatest memory is told, with the problem in it. The values have to be the same. The table is in Markdown.
"""
import json
import os
import pathlib
import random
import resource
import subprocess
import sys
import time

ROOT = pathlib.Path(__file__).resolve().parent.parent
SEED = 4


def matrix_of(nodes, source, sink, arcs):
    """The calls on a network as a sparse matrix."""
    import numpy as np
    import provedflow.scipy
    from scipy.sparse import coo_matrix
    from scipy.sparse.csgraph import maximum_flow
    rows, columns, weights = np.array(arcs, dtype=np.int32).T
    matrix = coo_matrix((weights, (rows, columns)), (nodes, nodes)).tocsr()
    return {"provedflow.scipy": lambda: provedflow.scipy.maximum_flow(matrix, source, sink).flow_value,
            "SciPy": lambda: int(maximum_flow(matrix, source, sink).flow_value)}


def random_arcs(arcs):
    """A random network of a fifth as many nodes."""
    chance, nodes = random.Random(SEED), arcs // 5
    return nodes, 0, 1, [(chance.randrange(nodes), chance.randrange(nodes), chance.randint(1, 1000))
                         for _ in range(arcs)]


def graph_of(nodes, source, sink, arcs):
    """The calls on a network as a graph of NetworkX."""
    import networkx as nx
    from provedflow import networkx as ours
    graph = nx.DiGraph()
    graph.add_nodes_from(range(nodes))
    graph.add_edges_from((tail, head, {"capacity": capacity}) for tail, head, capacity in arcs)
    links = nx.Graph(graph)
    return {"provedflow.networkx.maximum_flow": lambda: ours.maximum_flow(graph, source, sink)[0],
            "provedflow.networkx.minimum_cut": lambda: ours.minimum_cut(graph, source, sink)[0],
            "NetworkX with provedflow's flow_func":
                lambda: nx.maximum_flow(graph, source, sink, flow_func=ours.flow_func)[0],
            "NetworkX": lambda: nx.maximum_flow(graph, source, sink)[0],
            "its links by provedflow.networkx.edge_connectivity": lambda: ("links", ours.edge_connectivity(links))}


def floats_of(edges, draw):
    """The calls on a random graph whose capacities are floats."""
    import networkx as nx
    from provedflow import networkx as ours
    chance, graph = random.Random(SEED), nx.gnm_random_graph(edges // 10, edges, SEED, directed=True)
    for _, _, attributes in graph.edges(data=True):
        attributes["capacity"] = draw(chance)
    return {"provedflow.networkx.maximum_flow": lambda: round(ours.maximum_flow(graph, 0, 1)[0], 6),
            "NetworkX": lambda: round(nx.maximum_flow(graph, 0, 1)[0], 6)}


def grid_of(pixels):
    """The calls on a noisy picture of discs, by floats and by whole numbers."""
    import numpy as np
    from provedflow.pixels import Grid
    chance, side = np.random.default_rng(SEED), round(pixels ** 0.5)
    rows, columns = np.mgrid[:side, :side] * (8 / side)
    picture = np.clip(128 + 90 * np.sin(rows) * np.sin(columns) + chance.normal(0, 25, (side, side)), 0, 255)

    def cut(rounded):
        grid = Grid((side, side), 4)
        grid.join(lambda here, there, step: rounded(np.exp(-(here - there) ** 2 / 200)), of=picture.astype(np.uint8))
        grid.add_terminals(rounded(picture / 364), rounded((255 - picture) / 364))
        return float(grid.cut().mask.mean().round(3))
    return {"Grid of floats": lambda: cut(lambda weights: weights),
            "Grid of the same in integers": lambda: cut(lambda weights: (weights * 1e9).astype(np.int64))}


def image(arcs):
    """A picture of discs to be cut out, of the benchmarks' family segmentation-4."""
    from grids import segmentation
    return segmentation(random.Random(SEED), arcs)


PROBLEMS = {
    "image of 262,000 pixels": lambda: matrix_of(*image(1_310_720)),
    "random network, 50,000 arcs": lambda: matrix_of(*random_arcs(50_000)),
    "random network, 1,000,000 arcs": lambda: matrix_of(*random_arcs(1_000_000)),
    "random graph, 400,000 edges": lambda: graph_of(*random_arcs(400_000)),
    "floats, 3,000 edges, exponential": lambda: floats_of(3_000, lambda chance: chance.expovariate(1)),
    "floats, 60,000 edges, exponential": lambda: floats_of(60_000, lambda chance: chance.expovariate(1)),
    "floats, 60,000 edges, log-uniform": lambda: floats_of(60_000, lambda chance: 10 ** chance.uniform(-9, 9)),
    "floats, 60,000 edges, Pareto": lambda: floats_of(60_000, lambda chance: chance.paretovariate(1)),
    "picture of 1,000,000 pixels": lambda: grid_of(1_000_000),
}


def run_one(name, place):
    """Makes a problem and times one call on it; prints the call, its value, seconds (by the clock and CPU) and MiB, and
    whether it is the last one."""
    calls = list(PROBLEMS[name]().items())
    call, solve = calls[place]
    start = time.perf_counter(), time.process_time()
    value = solve()
    wall, processor = time.perf_counter() - start[0], time.process_time() - start[1]
    peak = resource.getrusage(resource.RUSAGE_SELF).ru_maxrss / 1024
    print(json.dumps([call, value, wall, processor, peak, place + 1 == len(calls)]))


def main():
    if len(sys.argv) == 4 and sys.argv[1] == "--one":
        return run_one(sys.argv[2], int(sys.argv[3]))
    if len(sys.argv) < 2:
        sys.exit(__doc__)
    environment = {**os.environ, "PROVEDFLOW_LIBRARY": str(pathlib.Path(sys.argv[1]).resolve()), "PYTHONPATH":
                   os.pathsep.join(filter(None, [str(ROOT / "python"), os.environ.get("PYTHONPATH")]))}
    print("| Problem | Call | Seconds | CPU seconds | MiB | Value |\n|---|---|---:|---:|---:|---:|")
    for name in PROBLEMS if len(sys.argv) == 2 else [it for it in PROBLEMS if any(word in it for word in sys.argv[2:])]:
        values, place, is_last = set(), 0, False
        while not is_last:
            done = subprocess.run([sys.executable, __file__, "--one", name, str(place)], env=environment, check=True,
                                  stdout=subprocess.PIPE, text=True)
            call, value, wall, processor, peak, is_last = json.loads(done.stdout)
            print(f"| {name} | {call} | {wall:.3g} | {processor:.3g} | {peak:,.0f} | {value} |", flush=True)
            values |= set() if isinstance(value, list) else {value}
            place += 1
        if len(values) > 1:
            sys.exit(f"{name}: the values differ: {values}")


if __name__ == "__main__":
    sys.exit(main())
