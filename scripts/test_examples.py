"""The large examples. They have to say what their READMEs show and draw a picture; their numbers are found in another
way too: by hand, as the comments here say, by NetworkX, and on small random data by trial of all cases. What has to be
refused is refused in the words told here. Each option of each script is tried, and none may take a minute."""

import random
import re
import shlex
from collections import Counter
from itertools import combinations, product

import pytest
from example_checks import EXAMPLES, built, run, untried, write

np, nx, Image, *_ = map(pytest.importorskip, ("numpy", "networkx", "PIL.Image", "scipy", "matplotlib"))


def example(words, folder):
    """Runs an example in a folder: whether it did its work, and its words but for the line that names the results."""
    status, said, complaint = run([*shlex.split(words), "--out", "out"], folder)
    assert "Traceback" not in complaint
    return status == 0, "".join(said.splitlines(True)[:-1]) + complaint


SHIPPED = {
    "segmentation/segment.py": ["320 by 240 pixels with 8 neighbours"],
    # On Saturday and Sunday only Ben, Cleo and Eva can work: Ben and Cleo once a day, Eva once in the week, so 5 of
    # 8 places. The 17 places from Monday to Friday are filled in the roster that is told.
    "scheduling/schedule.py": ["25 places; 22 can be filled", "8 places: Sat early, Sat late, Sun early, Sun late\nat "
                               "most 5 of them can be filled: Ben (2), Cleo (2), Eva (1)"],
    # The bridges to the island take 600 + 900 + 500, those from it 800 + 1200, the bridge beside it 1400.
    "roads/roads.py": ["3400 vehicles an hour", "alone helps: Ring Bridge\n", "500 vehicles an hour more: 3900"],
    # Skerry has two links, and two links join the five eastern places to the rest.
    "redundancy/redundancy.py": ["  Skerry: cut off by the loss of Skerry to Holme and Skerry to Kelby\n  Marsh, Ness, "
                                 "Orford, Priory, Quay: cut off by the loss of Dunmore to Marsh and Garth to Priory\n"],
}


@pytest.mark.parametrize("script", SHIPPED)
def test_the_data_that_ships(script, tmp_path, checks):
    is_done, said = example(script, tmp_path)
    assert is_done and [number for number in SHIPPED[script] if number not in said] == []
    page = (EXAMPLES / script).with_name("README.md").read_text(encoding="utf-8")
    shown = re.search(r"```console\n\$ .*\n((?:.*\n)*?)drawn: .*\n```", page).group(1)
    # Which of the best rosters is found is open.
    said, shown = (re.sub(r"(?m)^  \w+: \w{3} (early|late).*\n", "", text) for text in (said, shown))
    assert said == shown
    checks(2)


GRAPHML = """<graphml xmlns="http://graphml.graphdrawing.org/xmlns" xmlns:y="http://www.yworks.com/xml/graphml">
  <key for="node" id="n" yfiles.type="nodegraphics"/> <key for="edge" id="e" yfiles.type="edgegraphics"/>
  <key for="edge" id="w" attr.name="weight" attr.type="double"/> <graph edgedefault="directed">{}</graph>
</graphml>"""
NODE = """<node id="{0}"><data key="n"><y:ShapeNode><y:Geometry height="30" width="30" x="{2}" y="5"/>
<y:NodeLabel>{1}</y:NodeLabel></y:ShapeNode></data></node>"""
EDGE = """<edge source="{}" target="{}"><data key="e"><y:PolyLineEdge><y:EdgeLabel>{}</y:EdgeLabel>
</y:PolyLineEdge></data><data key="w">1.125</data></edge>"""
GML = """graph [ node [ id 7 label "A" ] node [ id 8 label "B" ] node [ id 9 label "C" ]
edge [ source 7 target 8 value 1.125 ] edge [ source 9 target 8 value 2 ] ]"""
GRID = "".join(f"{one},{other}\n" for one, other in nx.convert_node_labels_to_integers(nx.grid_2d_graph(10, 10)).edges)


@pytest.fixture(scope="module")
def data(tmp_path_factory):
    """Networks: GraphML as yEd writes it, GML and tables. Pictures of a dark and a light half, 8 by 6 pixels."""
    folder = tmp_path_factory.mktemp("data")
    parts = [NODE.format(f"n{place}", name, 9 * place) for place, name in enumerate(("Süd\nWest", "Mitte", "Ost"))]
    parts += [EDGE.format(f"n{one}", f"n{other}", speed) for one, other, speed in (
        (0, 1, "2.5 Gbit"), (1, 2, "800 Mbit"), (2, 0, "1 Gbit"), (2, 1, "100 Mbit"))]
    (folder / "yed.graphml").write_text(GRAPHML.format("".join(parts)), encoding="utf-8")
    (folder / "net.gml").write_text(GML)
    (folder / "bad.gml").write_text("graph [ edge [ source 1 target 2 ] ]")
    write(folder, roads="Von,nach,Last\nA,B,3\nC,D,4\nB,E,1e2\n", kinds="from,to,capacity\nA,B,3 t\nB,C,2 kg\n",
          ways="from,to,capacity\nA,B,3\nC,B,4\n", order="from,to,capacity\nA,B,3\nC,D,4\nA,D,5\n",
          twice="from,to,capacity\nB,A,3\nA,B,4\nC,B,5\n", comma='from,to,capacity\nA,B,"1,200"\n',
          spots="place,x,y,role\nA,1,5,source\nB,2,5,\nC,3,5,\nD,4,5,\nE,5,5,sink\n", ring="from,to\nA,B\nB,C\nC,A\n",
          parts="from,to\nA,B\nB,C\nD,E\n", one="from,to\nA,A\n", grid="from,to\n" + GRID * 2)
    grey, strokes = np.full((6, 8), 20, np.uint8), np.zeros((6, 8, 4), np.uint8)
    grey[:, 4:], strokes[1:5, 1], strokes[1:5, 6] = 230, (255, 0, 0, 255), (10, 0, 250, 255)
    piece, floats = np.where((np.arange(8) > 5) & (np.arange(6) == 0)[:, None], 20, grey), grey.astype(np.float32) / 255
    for name, values in (("picture.png", grey), ("strokes.png", strokes), ("other.png", grey[1:]), ("piece.png", piece),
                         ("bits16.png", (floats * 65535).astype(np.uint16)), ("floats.tif", floats),
                         ("bits12.tif", (floats * 4095).astype(np.uint16))):
        Image.fromarray(values).save(folder / name)
    for name in ("picture.png", "strokes.png"):
        Image.open(folder / name).resize((1000, 1000)).save(folder / f"large_{name}")
    return folder


COLUMNS = "roads.csv --from von --to NACH --capacity last"
CASES = {
    "roads/roads.py": (
        ("yed.graphml --sources 'Su\u0308d West' --sinks Ost --capacity Label",  # The name isn't in NFC.
         "from Süd West to Ost: 0.8 Gbit\n"),
        ("yed.graphml --sources 'Süd West' --sinks Ost --capacity label --both-ways", "West to Ost: 1.9 Gbit\n"),
        ("yed.graphml --sources 'Süd West' --sinks Ost", "from Süd West to Ost: 1.125\n"),
        ("yed.graphml --capacity speed", "yed.graphml: no edge has the attribute speed; there are label, weight, and"),
        ("net.gml", "net.gml: no edge has the attribute capacity; there are value, and --capacity names one\n"),
        ("net.gml --sources A --sinks C --capacity value --more 0.5", "helps: A to B\n  A to B with 0.5 more: 1.625\n"),
        ("bad.gml", "roads.py: bad.gml isn't GraphML or GML that NetworkX can read: "),
        ("ways.csv --sources C --sinks B --one-way", "from C to B: 4\n"),
        ("ways.csv --sources A --sinks C --one-way", "from A to C: 0\n"),
        ("order.csv --sources A,C --sinks B,D", "nearest the sources: A to B (3), C to D (4), A to D (5)\n"),
        ("twice.csv --sources A,C --sinks B", "B to A in row 2 (3), A to B in row 3 (4), C to B (5)\n"),
        (f"{COLUMNS} --sources A --sinks E", "2 parts that no road joins, with 3, 2 places\nfrom A to E: 3\n"),
        (f"{COLUMNS} --sources A --sinks D", "from A to D: 0\nbottleneck nearest the sources: none, since no roads"),
        (f"{COLUMNS} --places spots.csv --unit 't a day'", "from A to E: 3 t a day\n"),
        (f"{COLUMNS} --sources A --sinks A", "roads.py: 'A' is a source and a sink\n"),
        (f"{COLUMNS} --sources A", "roads.py: no place is a sink; --sinks NAMES says which"),
        ("roads.csv", "roads.py: roads.csv: row 1: the column from isn't among Von, nach, Last\n"),
        ("kinds.csv", "roads.py: kinds.csv: the capacities have different units: kg, t\n"),
        ("none.csv", "roads.py: there is no file none.csv\n"),
        ("ways.csv --sources A --sinks B --more 1e-3", "A to B with 0.001 more: 3.001\n"),
        ("ways.csv --sources A --sinks B --more 1e999999999", "roads.py: '1e999999999' isn't a number from 0"),
        ("ways.csv --sources A --sinks B --more 0", "error: --more is a number above 0, without a unit\n"),
        ("comma.csv", "csv: row 2: the capacity '1,200' can be 1200 or 1.2: write 1,200.0 or 1,2000\n")),
    "redundancy/redundancy.py": (
        ("ring.csv", "each spot needs a new link, so that 3 must fail: 2 new links or more, from spot to spot"),
        ("parts.csv", "the network has 2 parts that no link joins, of 3, 2 places; 1 new link would join them. Of the "
         "largest part:\n3 places, 2 links; the loss of 1 link can"),
        ("one.csv", "redundancy.py: one.csv: a network has two places or more\n"),
        ("roads.csv --from von --to nach --places spots.csv", "; a short one: A to E\n"),
        # Each corner has four links, in pairs; every other place has more, and each wider set too.
        ("grid.csv", "weakest spots: 4, with 16 links")),
    "segmentation/segment.py": (
        ("piece.png strokes.png --outline 0.1", "26 of 48 pixels are object\n"),
        ("piece.png strokes.png --outline 0.1 --marked-only", "24 of 48 pixels are object\n"),
        ("picture.png other.png", "other.png is 8 by 5 pixels, and the picture is 8 by 6\n"),
        ("picture.png picture.png", "no stroke marks the object; such strokes have the colour (255, 0, 0)\n"),
        ("picture.png none.png", "segment.py: there is no file none.png\n"),
        ("one.csv strokes.png", "segment.py: cannot identify image file"),
        ("--outline nan", "error: give an outline above 0 and up to a million, and pixels from 1\n"),
        ("--most 0", "error: give an outline above 0 and up to a million, and pixels from 1\n"),
        ("--neighbours 5", "invalid choice: 5 (choose from 4, 8)\n")),
    "scheduling/schedule.py": (),
}
"""The words of commands, and what they say or refuse."""


@pytest.mark.parametrize("script, words, expected", [(script, *case) for script in CASES for case in CASES[script]])
def test_words(data, script, words, expected):
    assert expected in example(f"{script} {words}", data)[1]


@pytest.mark.parametrize("script", CASES)
def test_each_option_is_tried(script):
    """`example` itself gives --out."""
    assert untried(script, [words for words, _ in CASES[script]]) <= {"--help", "--out"}


def test_a_large_picture_and_its_sheet(data, checks):
    said = example("segmentation/segment.py large_picture.png large_strokes.png --most 900", data)[1]
    assert "900 by 900 pixels" in said
    assert Image.open(data / "out/sheet.png").width == 1600
    checks(2)


@pytest.mark.parametrize("picture", ("picture.png", "bits16.png", "bits12.tif", "floats.tif"))
@pytest.mark.parametrize("neighbours, value", ((4, 2832), (8, 6 * 236 + 10 * 165)))
def test_a_dark_and_a_light_half(data, checks, picture, neighbours, value):
    """The dark half is the object: 24 pixels, 4 at each row's left.

    With 4 neighbours each of the 6 links across costs 70000 * 900 // (900 + 3 * 210 * 210) = 472. With 8 each costs
    35000 * 900 // 133200 = 236, and each of 10 slanting ones 24500 * 900 // 133200 = 165.
    """
    said = f"8 by 6 pixels with {neighbours} neighbours: minimum cut {value}\n24 of 48 pixels are object\n"
    assert example(f"segmentation/segment.py {picture} strokes.png --neighbours {neighbours}", data) == (True, said)
    mask, cut_out, grey = (np.asarray(Image.open(data / name)) for name in (
        "out/mask.png", "out/object.png", "picture.png"))
    assert (mask == 255 * (np.arange(8) < 4)).all() and (cut_out[..., 3] == mask).all()
    assert (cut_out[..., :3] == grey[..., None]).all()
    checks(3)


@pytest.mark.parametrize("trial", range(8))
def test_roads_of_a_random_network(tmp_path, checks, trial):
    """A random network against NetworkX: the value, and the roads whose upgrade raises it."""
    chance = random.Random(trial)
    roads = [(*chance.sample("ABCDEFGH", 2), chance.randrange(1, 40)) for _ in range(14)]
    roads += [("A", "B", 3), ("G", "H", 3)]

    def value(upgraded):
        graph = nx.Graph()
        for place, (one, other, units) in enumerate(roads):
            before = graph.get_edge_data(one, other, {"capacity": 0})["capacity"]
            graph.add_edge(one, other, capacity=before + units + 5 * (place == upgraded))
        return str(nx.maximum_flow_value(graph, "A", "H") / 10).removesuffix(".0")

    write(tmp_path, roads="sep=;\nSource;TARGET;weight;Name\n" + "".join(
        f"{one};{other};{units // 10},{units % 10};{number}\n" for number, (one, other, units) in enumerate(roads)))
    _, said = example("roads/roads.py roads.csv --sources A --sinks H --more 0.5 --unit t", tmp_path)
    assert re.search("from A to H: (.*) t", said).group(1) == value(None)
    told = {int(name): new for name, new in re.findall(r"^  (\d+) with 0.5 t more: (.*) t$", said, re.M)}
    values = {place: value(place) for place in range(len(roads))}
    assert told == {place: new for place, new in values.items() if new != value(None)}
    checks(2)


def crossing(links, side):
    return sum((one in side) != (other in side) for one, other in links)


def test_weakest_spots_of_random_networks(checks):
    """Random networks against a trial of all sets of places: the weakest spots, and the new links that help."""
    import redundancy
    chance = random.Random(1736)
    for trial in range(40):
        places = list(range(5 + trial % 3))
        links = [(place, chance.randrange(place)) for place in places if place]
        links += [tuple(chance.sample(places, 2)) for _ in range(trial % 16)]
        found = redundancy.weakest(places, np.array(links, np.uint32).T.copy())
        sets = [set(one) for size in range(1, len(places)) for one in combinations(places, size)]
        least = min(crossing(links, side) for side in sets)
        weak = [side for side in sets if crossing(links, side) == least]
        spots = [side for side in weak if not any(other < side for other in weak)]
        inside = [place for place, link in enumerate(links) if any(crossing([link], side) for side in weak)]
        assert (found.least, found.links.tolist(), sorted(map(sorted, found.spots))) == (
            least, inside, sorted(map(sorted, spots)))
        better = {pair for pair in combinations(places, 2) if all(crossing([pair], side) for side in weak)}
        told = set(tuple(sorted(pair)) for pair in product(*found.spots)) if len(found.spots) == 2 else set()
        assert told == better
    checks(80)


def all_rosters(can, day, most, places):
    """Each roster within the limits, as a set of pairs of person and shift."""
    for choice in product(*([None, *((person, shift) for shift in can[person] if day[shift] == one)]
                            for person in can for one in sorted(set(day.values())))):
        roster = {pair for pair in choice if pair}
        works, filled = (Counter(pair[end] for pair in roster) for end in (0, 1))
        if (all(low <= works[person] <= high for person, (low, high) in most.items())
                and all(low <= filled[shift] <= high for shift, (low, high) in places.items())):
            yield roster


def test_rosters_of_random_weeks(tmp_path, checks):
    """Random weeks against a trial of all rosters: the most places, then numbers as equal as can be, then the most
    wishes, of these the most first ones; and the least of all kept."""
    import schedule
    chance, people, day = random.Random(1912), "abc", {"s": "x", "t": "x", "u": "y", "v": "y"}
    for _ in range(200):
        can = {person: [shift for shift in day if chance.random() < 0.6] for person in people}
        wishes = {person: chance.sample(can[person], min(len(can[person]), chance.randrange(4))) for person in people}
        most = {person: (low, chance.randrange(low, 4)) for person in people for low in [chance.choice((0, 0, 1))]}
        places = {shift: (low, chance.randrange(low, 3)) for shift in day for low in [chance.choice((0, 0, 1))]}
        write(tmp_path, people="person,most,can,least,wishes\n" + "".join(
            f"{one},{most[one][1]},{';'.join(can[one])},{most[one][0]},{';'.join(wishes[one])}\n" for one in people),
            shifts="shift,day,places,least\n" + "".join(
                f"{shift},{day[shift]},{places[shift][1]},{places[shift][0]}\n" for shift in day))

        def worth(roster):
            works = Counter(person for person, _ in roster)
            granted = Counter(wishes[person].index(shift) for person, shift in roster if shift in wishes[person])
            return len(roster), sorted(works[one] for one in people), granted.total(), granted[0], granted[1]

        rosters = list(all_rosters(can, day, most, places))
        try:
            roster, granted = schedule.Week(tmp_path / "people.csv", tmp_path / "shifts.csv").roster()
            assert set(roster) in rosters and worth(roster) == max(map(worth, rosters))
            assert granted == [(person, shift) for person, shift in roster if shift in wishes[person]]
        except schedule.script.Refused:
            assert not rosters
    checks(200)


SHIFTS = "shift,day,places\nMon a,Mon,1\nTue a,Tue,1\nTue b,Tue,1\n"
THREE = "person,most,can,wishes\nIda,9,Mon a;Tue a;Tue b,Tue b\nJon,9,Tue a;Tue b,Tue b\nKim,9,Mon a;Tue a,Mon a\n"


@pytest.mark.parametrize("people, shifts, expected", (
    (THREE, SHIFTS, "  Kim: Mon a\nwishes granted: 2 of 3\n"),
    ("person,most,can,wishes\nIda,1,Mon a,\nJon,1,Mon a,Mon a\n", SHIFTS, "  Jon: Mon a\nwishes granted: 1 of 1\n"),
    ("person,most,can,wishes\nJon,1,Mon a,Mon a\nIda,1,Mon a,\n", SHIFTS, "wishes granted: 1 of 1\n"),
    ("person,most,can,lest\nIda,1,Mon a,\n", SHIFTS,
     "the column lest is unknown and ignored; known are person, most, can, least, wishes\n"),
    ("person,most,can\nIda,2,Mon b\n", SHIFTS, "row 2, column can: 'Mon b' isn't in the table of shifts\n"),
    ("person,most,can\nIda,2,Mon a\nIda,1,\n", SHIFTS, "row 3, column person: 'Ida' is already in row 2\n"),
    ("person,most,can,least\nIda,2,Mon a,3\n", SHIFTS, "row 2, column least: '3' isn't between 0 and 2\n"),
    ("person,most,can,least\nIda,2,Mon a;Tue a,2\nJon,2,Mon a;Tue a,1\nKim,1,Tue b,\n", SHIFTS,
     "no roster keeps the least: Ida, Jon have to work 3 shifts together, and can work 2\n"),
    ("person,most,can\nIda,1,Mon a;Tue a\nJon,1,Mon a;Tue a\n",
     "shift,day,places,least\nMon a,Mon,2,2\nTue a,Tue,1,1\n",
     "no roster keeps the least: Mon a, Tue a have to be given 3 people together, and can get 2\n"),
    (THREE, "shift,places\nMon a,1\n", "shifts.csv: row 1: the column day isn't among shift, places\n")))
def test_rosters(tmp_path, people, shifts, expected):
    write(tmp_path, people=people, shifts=shifts)
    assert expected in example("scheduling/schedule.py people.csv shifts.csv", tmp_path)[1]
