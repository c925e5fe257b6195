"""Networks out of tables, GraphML and GML as NetworkX graphs, as arrays for provedflow, and drawn by matplotlib."""

import os
import textwrap
import unicodedata

import script
import tables

import matplotlib
import matplotlib.pyplot as plt
import networkx as nx
import numpy as np
from matplotlib.collections import LineCollection
from scipy.sparse import coo_matrix, csgraph

matplotlib.use("Agg")
plt.rcParams["text.parse_math"] = False

PREFIXES = {"k": 10 ** 3, "K": 10 ** 3, "M": 10 ** 6, "G": 10 ** 9, "T": 10 ** 12}
BLACK, GREY, RED, BLUE, ORANGE, GREEN = "#222222", "#B0B0B0", "#C00000", "#0072B2", "#D98000", "#2E8B57"
AROUND = [(0, 1, "center", "bottom"), (0, -1, "center", "top"), (1, 0, "left", "center"), (-1, 0, "right", "center"),
          (1, 1, "left", "bottom"), (-1, 1, "right", "bottom"), (1, -1, "left", "top"), (-1, -1, "right", "top")]


def add_options(parser, *columns):
    """The options that say where the network is, and what the columns of its table are called."""
    parser.add_argument("network", nargs="?", help="a table of links (CSV), GraphML or GML; else the example's own")
    parser.add_argument("--places", metavar="TABLE", help="a table of the places, with the column place, and x and y")
    for column in columns:
        parser.add_argument(f"--{column}", metavar="COLUMN", help=f"what the column {column} is called")
    parser.add_argument("--out", metavar="FOLDER", help="where the picture goes; else a folder in out")


def read(words):
    """The network as a MultiGraph, or a MultiDiGraph where links lead one way. Places have the attributes of their row
    or node, in small letters. `links_of` has the links, with their `name`, `where` and `capacity`, a text."""
    path, names = words.network, vars(words)
    if path.lower().endswith((".graphml", ".xml", ".gml")):
        graph = read_graph(words)
    else:
        columns = [column for column in ("from", "to", "capacity") if column in names]
        links = [(row.name("from"), row.name("to"), {"name": row["name"], "where": f"row {row.number}",
                                                     "capacity": row["capacity"]})
                 for row in tables.read_table(path, *columns, names=names)]
        graph = (nx.MultiDiGraph if words.one_way else nx.MultiGraph)(links=links, points=",.")
        graph.add_edges_from(links)
    if words.places:
        rows = tables.once(tables.read_table(words.places, "place"), "place")
        for *ends, data in links_of(graph):
            for end in (end for end in ends if end not in rows):
                raise script.Refused(f"{path}: {data['where']}: '{end}' isn't in {words.places}")
        graph.add_nodes_from((place, row.texts) for place, row in rows.items())
    if not graph.number_of_edges():
        raise script.Refused(f"{path} has no links")
    return graph


def read_graph(words):
    """The network of a GraphML or GML file. A place is called by its attribute name or label where each has one of its
    own, else by its id. Numbers that the file tells from texts have a decimal dot."""
    path, name = words.network, vars(words).get("capacity")
    try:
        found = nx.read_gml(path, label=None) if path.lower().endswith(".gml") else nx.read_graphml(path)
    except (nx.NetworkXError, SyntaxError, ValueError, KeyError) as failure:
        raise script.Refused(f"{path} isn't GraphML or GML that NetworkX can read: {failure}") from None
    called = {node: plain(node) for node in found}
    for key in ("label", "name"):
        texts = {node: plain(data.get(key, "")) for node, data in found.nodes(data=True)}
        called = texts if len({*texts.values()} - {""}) == len(texts) else called
    directed = words.one_way or found.is_directed() and not words.both_ways
    there = sorted({str(key) for *_, data in found.edges(data=True) for key in data})
    wanted = [name] if name else ["capacity", *tables.OTHER_NAMES["capacity"]]
    key = next((key for name in wanted for key in there if key.casefold() == name.casefold()), None)
    if "capacity" in vars(words) and key is None:
        raise script.Refused(f"{path}: no edge has the attribute {wanted[0]}; there are "
                             f"{script.some(there) or 'none'}, and --capacity names one")
    links = [(called[one], called[other], {
        "name": plain(data.get("name", "")), "where": f"edge {number}", "capacity": plain(data.get(key, ""))})
        for number, (one, other, data) in enumerate(found.edges(data=True), start=1)]
    typed = any(not isinstance(data.get(key, ""), str) for *_, data in found.edges(data=True))
    graph = (nx.MultiDiGraph if directed else nx.MultiGraph)(links=links, points="." if typed else ",.")
    graph.add_nodes_from((called[node], {key.casefold(): value for key, value in data.items() if key != "name"})
                         for node, data in found.nodes(data=True))
    graph.add_edges_from(links)
    return graph


def links_of(graph):
    """The links that are left, as (one end, other end, attributes), in the order and direction of their rows."""
    return [link for link in graph.graph["links"] if link[0] in graph]


def plain(text):
    """A text in NFC, without blanks around it and line ends within."""
    return " ".join(unicodedata.normalize("NFC", str(text)).split())


def amounts(path, graph):
    """The capacities of the links as exact numbers of a unit, and the unit: 2.5 Gbit and 800 Mbit are 2.5 and 0.8 of
    Gbit, and numbers may stand without a unit."""
    links, read = links_of(graph), {}
    found = tables.numbers((data["capacity"] for *_, data in links), graph.graph["points"])
    for *_, data in links:
        try:
            read[data["capacity"]] = tables.only_number(data["capacity"], found[data["capacity"]])
        except script.Refused as failure:
            raise script.Refused(f"{path}: {data['where']}: the capacity {failure}") from None
    texts = {unit for _, unit in read.values()}
    stem = os.path.commonprefix([text[::-1] for text in texts])[::-1]
    if len(texts) > 1 and not (stem and all(text[:-len(stem)] in ("", *PREFIXES) for text in texts)):
        raise script.Refused(f"{path}: the capacities have different units: {script.some(sorted(texts))}")
    factors = {text: PREFIXES.get(text[:-len(stem)], 1) if len(texts) > 1 else 1 for text in texts}
    best = max(texts, key=factors.get)
    exact = {text: number * factors[unit] / factors[best] for text, (number, unit) in read.items()}
    return [exact[data["capacity"]] for *_, data in links], best


def arcs(graph, path, given, more):
    """The network in arrays for provedflow: the ends and the capacities of the arcs, where each link without direction
    is one both ways, the ways back behind all others; and how many units make 1, so that the given capacities and the
    number `more` are whole."""
    ends, scale = ends_of(graph), 1
    while any(scale % denominator for denominator in {amount.denominator for amount in (*given, more)}):
        scale *= 10
    units = [int(amount * scale) for amount in given]
    if max(units) > tables.GREATEST:
        raise script.Refused(f"{path}: a capacity is too great, or has too many digits")
    src, dst = ends if graph.is_directed() else np.concatenate([ends, ends[::-1]], axis=1)
    return src, dst, np.resize(np.array(units, np.uint64), len(src)), scale


def ends_of(graph):
    """The ends of the links by number, in an array with two rows."""
    number = {place: index for index, place in enumerate(graph)}
    return np.array([(number[one], number[other]) for one, other, _ in links_of(graph)], np.uint32).T.copy()


def parts(graph):
    """The sets of places that no link joins with another, the largest first."""
    return sorted(nx.connected_components(nx.Graph(graph)), key=len, reverse=True)


def spots(graph):
    """Where each place stands, upwards: as the data says, or else laid out by the links; and which of the two. The
    coordinate y grows downwards. Up to 500 places are laid out by springs."""
    for x, y, sign in ("x", "y", -1), ("lon", "lat", 1), ("longitude", "latitude", 1):
        try:
            return {place: (float(data[x]), sign * float(data[y])) for place, data in graph.nodes(data=True)}, True
        except (KeyError, ValueError, TypeError):
            continue
    return nx.spring_layout(nx.Graph(graph), seed=1) if len(graph) <= 500 else by_distances(graph), False


def by_distances(graph, pivots=24):
    """A layout that keeps the distances from some places that lie far from each other."""
    ends, largest = ends_of(graph), parts(graph)[0]
    links = coo_matrix((np.ones(ends.shape[1]), ends), (len(graph), len(graph))).tocsr()
    found, place = [], next(number for number, name in enumerate(graph) if name in largest)
    for _ in range(pivots):
        far = csgraph.dijkstra(links, False, place, unweighted=True)
        found.append(np.where(np.isinf(far), far[~np.isinf(far)].mean(), far))
        place = int(np.min(found, axis=0).argmax())
    squares = np.array(found).T ** 2
    squares -= squares.mean(axis=0)
    squares -= squares.mean(axis=1, keepdims=True)
    flat = squares @ np.linalg.svd(squares, full_matrices=False)[2][:2].T
    return dict(zip(graph, flat / np.abs(flat).max()))


class Picture:
    """A drawing of a network: links and places, and labels where there is room for them."""

    def __init__(self, where, title):
        self.where, self.labels, self.taken = where, {}, []
        across, along = np.maximum(np.ptp(list(where.values()), axis=0), 1e-9)
        self.figure, self.axes = plt.subplots(figsize=(10, float(np.clip(10 * along / across, 4, 10))), dpi=110)
        self.axes.set_axis_off()
        self.axes.set_title(textwrap.fill(title, 85), loc="left", fontsize=13, weight="bold")
        self.small = float(np.clip(40 / len(where) ** 0.5, 0.4, 5))

    def links(self, edges, colour, width, style="solid", label=None):
        """Lines between places."""
        lines = [(self.where[one], self.where[other]) for one, other, *_ in edges]
        self.axes.add_collection(LineCollection(lines, colors=colour, linewidths=width, linestyles=style, label=label))

    def places(self, names, colour, size=None, marker="o", label=None):
        """Marks for places."""
        if names:
            x, y = zip(*(self.where[name] for name in names))
            self.axes.scatter(x, y, s=(size or self.small) ** 2, c=colour, marker=marker, label=label, zorder=3,
                              linewidths=0)

    def label(self, place, text, bold=False):
        """A text beside a place or a point; those named first have the room first."""
        spot = tuple(self.where[place] if place in self.where else place)
        self.labels.setdefault((spot, text), "bold" if bold else "normal")

    def save(self, path):
        """Writes the picture. A label stands where it hides no other one, or not at all, and is cut nowhere."""
        self.figure.legend(loc="upper center", bbox_to_anchor=(0.5, 0.1), ncol=2, frameon=False)
        self.axes.margins(0.06)
        self.axes.autoscale_view()
        renderer = self.figure.canvas.get_renderer()
        for (spot, text), weight in self.labels.items():
            for dx, dy, across, along in AROUND:
                note = self.axes.annotate(text, spot, (7 * dx, 7 * dy), textcoords="offset points", ha=across, va=along,
                                          fontsize=9, weight=weight, zorder=4,
                                          bbox={"fc": "white", "ec": "none", "alpha": 0.75, "pad": 0.6})
                box = note.get_window_extent(renderer)
                if not any(box.overlaps(other) for other in self.taken):
                    self.taken.append(box)
                    break
                note.remove()
        self.figure.savefig(path, bbox_inches="tight", facecolor="white")
