"""A second reading of docs/DEFINITIONS.md, in plain Python.

On small networks it goes over all sets of nodes, as the definitions do; on larger ones a printed flow and a cut of its
value show each other greatest and least.
"""
import random
from collections import Counter, defaultdict

SMALL, LINE, NODES, ARCS, CAP = 9, 200, 1_000_000, 4_000_000, 2**64 - 1
VALUE = 4_000_000 * CAP
NUMBERS = [0, 1, 2, 9, LINE, 2**32, NODES, NODES + 1, ARCS + 1, CAP, CAP + 1, VALUE, VALUE + 1, 10**30]
LINES = [b"c note", b" \t\r", b" c", b"p max 2 0", b"p min 2 0", b"n 1 s", b"n 1 1", b"s 1", b"f 1 2 1", b"a 1 1 5",
         b"", b"x", b"n 2 t", b"a 1 2 18446744073709551616", b"c" + b"y" * 300, b" " * LINE, b" " * (LINE + 1),
         b"a 1 2 " + b"0" * 190 + b"1", b"a 1 2"]
JOBS = [["solve"], ["solve", "--value"], ["cut"], ["cut", "--arcs"], ["cut", "--arcs", "--sink"], ["connect"],
        ["connect", "--undirected"], ["connect", "--pair"], ["connect", "--pair", "--undirected"]]


def fail_if(fails, number, what):
    if fails:
        raise ValueError("line %d: %s\n" % (number, what))


def records(text):
    """The lines that count: the number of each, and its fields; then the number of the line after the last."""
    lines = text.split(b"\n")
    lines = lines if lines[-1] else lines[:-1]
    for number, line in enumerate(lines, 1):
        fail_if(line[:1] != b"c" and len(line) > LINE, number, "line too long")
        fields = [field for field in line.replace(b"\t", b" ").replace(b"\r", b" ").split(b" ") if field]
        if fields and line[:1] != b"c":
            yield number, fields
    yield len(lines) + 1, [b""]


def number_of(field, least, most, number, what):
    fail_if(any(byte not in b"0123456789" for byte in field), number, "bad number")
    fail_if(not least <= int(field) <= most, number, what)
    return int(field)


def ends(fields, nodes, number, what):
    """SRC, DST and a number of 64 bits."""
    fail_if(len(fields) != 4, number, "wrong number of fields")
    src, dst = [number_of(field, 1, nodes, number, "node out of range") for field in fields[1:3]]
    return src, dst, number_of(fields[3], 0, CAP, number, what)


def read_problem(text):
    """NODES, the arcs, the sources and the sinks."""
    size, arcs, sources, sinks = None, [], set(), set()
    for number, fields in records(text):
        fail_if(fields[0] not in (b"p", b"n", b"a", b""), number, "unknown line")
        if fields[0] == b"p":
            fail_if(size, number, "second problem line")
            fail_if(len(fields) != 4, number, "wrong number of fields")
            fail_if(fields[1] != b"max", number, "problem is not max")
            size = (number_of(fields[2], 2, NODES, number, "number of nodes out of range"),
                    number_of(fields[3], 0, ARCS, number, "number of arcs out of range"))
            continue
        fail_if(not size, number, "problem line missing")
        if fields[0] == b"n":
            fail_if(arcs, number, "node line after an arc line")
            fail_if(len(fields) != 3, number, "wrong number of fields")
            node = number_of(fields[1], 1, size[0], number, "node out of range")
            fail_if(fields[2] not in (b"s", b"t"), number, "terminal must be s or t")
            fail_if(node in sources | sinks, number, "node is already a terminal")
            (sources if fields[2] == b"s" else sinks).add(node)
            continue
        fail_if(not sources or not sinks, number, "terminals missing")
        if fields[0] == b"a":
            fail_if(len(arcs) >= size[1], number, "too many arcs")
            arcs.append(ends(fields, size[0], number, "capacity out of range"))
    fail_if(len(arcs) < size[1], number, "too few arcs")
    return size[0], arcs, sources, sinks


def read_solution(text, nodes):
    """VALUE and the flow lines."""
    value, lines = None, []
    for number, fields in records(text):
        if fields[0] == b"s":
            fail_if(value is not None, number, "second solution line")
            fail_if(len(fields) != 2, number, "wrong number of fields")
            value = number_of(fields[1], 0, VALUE, number, "value out of range")
        else:
            fail_if(fields[0] not in (b"f", b""), number, "unknown line")
            fail_if(value is None, number, "solution line missing")
            lines += [ends(fields, nodes, number, "flow out of range")] if fields[0] else []
    return value, lines


def leaving(arcs, X):
    return [arc for arc in arcs if arc[0] in X and arc[1] not in X]


def least(nodes, arcs, is_kind):
    """The least capacity of the sets of a kind, and those that have it."""
    sets = [{v for v in range(1, nodes + 1) if code >> v & 1} for code in range(0, 2 << nodes, 2)]
    caps = [(sum(cap for *_, cap in leaving(arcs, X)), X) for X in sets if is_kind(X)]
    cap = min(cap for cap, _ in caps)
    return cap, [X for other, X in caps if other == cap]


def reached(arcs, flows, starts):
    """What the residual network reaches from these nodes."""
    near, seen, todo = {}, set(starts), list(starts)
    for (u, v, cap), flow in zip(arcs, flows):
        near.setdefault(u, set()).update([v] * (flow < cap))
        near.setdefault(v, set()).update([u] * (flow > 0))
    for u in todo:
        todo += near.get(u, seen) - seen
        seen |= near.get(u, seen)
    return seen


def cuts(problem, flows):
    """The source sides of the minimum cuts nearest the sources and nearest the sinks."""
    nodes, arcs, sources, sinks = problem
    if nodes > SMALL:
        back = reached([(v, u, cap) for u, v, cap in arcs], flows, sinks)
        return reached(arcs, flows, sources), set(range(1, nodes + 1)) - back
    minimum = least(nodes, arcs, lambda X: sources <= X and not sinks & X)[1]
    return set.intersection(*minimum), set.union(*minimum)


def connectivity(problem, undirected, pair):
    """The least number of arcs that leave a set, or have exactly one end in it; in larger networks, by flows."""
    nodes, arcs, sources, sinks = problem
    arcs = [(u, v, 1) for u, v, _ in arcs] + [(v, u, 1) for u, v, _ in arcs if undirected]
    if nodes > SMALL:
        others = [] if pair else [ends for v in range(2, nodes + 1) for ends in (([1], [v]), ([v], [1]))]
        return min(greatest_value(*ends, arcs) for ends in others or [(sources, sinks)])
    return least(nodes, arcs, lambda X: sources <= X and not sinks & X if pair else 0 < len(X) < nodes)[0]


def greatest_value(sources, sinks, arcs):
    """The greatest value of a flow, by shortest augmenting paths (Edmonds and Karp 1972)."""
    rest, value = defaultdict(Counter), 0
    for tail, head, capacity in arcs:
        rest[tail][head] += capacity
    while True:
        before, todo = dict.fromkeys(sources), list(sources)
        for tail in todo:
            found = [head for head, units in rest[tail].items() if units and head not in before]
            before.update(dict.fromkeys(found, tail))
            todo += found
        head = next((node for node in todo if node in sinks), None)
        if head is None:
            return value
        steps = []
        while (tail := before[head]) is not None:
            steps.append((tail, head))
            head = tail
        least = min(rest[tail][head] for tail, head in steps)
        for tail, head in steps:
            rest[tail][head] -= least
            rest[head][tail] += least
        value += least


def verdict(problem, value, lines, greatest, feasible_only):
    """The first verdict that applies, and the status."""
    _, arcs, sources, sinks = problem
    flow, cap, into, out = Counter(), Counter(), Counter(), Counter()
    for src, dst, amount in lines:
        flow[src, dst] += amount
        out[src] += amount
        into[dst] += amount
    for src, dst, amount in arcs:
        cap[src, dst] += amount
    found = sum(out[v] - into[v] for v in sources)
    no = [f"over {u} {v} {flow[u, v]} {cap[u, v]}" for u, v in sorted(flow) if flow[u, v] > cap[u, v]]
    no += [f"unbalanced {v} {into[v]} {out[v]}" for v in sorted({*into, *out} - sources - sinks) if into[v] != out[v]]
    no += [f"value {value} {found}"] * (value != found)
    no += [f"not-maximal {value}"] * (value < greatest and not feasible_only)
    return (no + [f"feasible {value}" if feasible_only else f"optimal {value}"])[0], int(bool(no))


def text_of(nodes, arcs, sources, sinks):
    lines = [f"p max {nodes} {len(arcs)}"] + [f"n {v} s" for v in sources] + [f"n {v} t" for v in sinks]
    return "".join(line + "\n" for line in lines + [f"a {u} {v} {cap}" for u, v, cap in arcs]).encode()


def generated(rng):
    """A problem's text: with parallel arcs, opposite arcs and self-loops."""
    nodes = rng.randrange(2, SMALL - 1) if rng.randrange(10) else rng.randrange(SMALL, 60)
    order = rng.sample(range(1, nodes + 1), nodes)
    first, most, pick = rng.randrange(1, nodes), rng.choice([1, 3, 100, CAP]), lambda: rng.randrange(1, nodes + 1)
    arcs = [(pick(), pick(), rng.randrange(most + 1)) for _ in range(rng.randrange(3 * nodes))]
    return text_of(nodes, arcs, order[: min(first, 4)], order[first:][: rng.randrange(1, 5)])


def changed(rng, text):
    """A text with some of its lines, fields and bytes changed, and sometimes cut off."""
    lines = text.split(b"\n")
    for _ in range(rng.choice([0, 1, 1, 2, 3, 8])):
        at, other = sorted(rng.choices(range(len(lines)), k=2))
        if rng.randrange(8) == 0:
            lines[at], lines[other] = lines[other], lines[at]
        line, place, byte = lines[at], rng.randrange(len(lines[at]) + 1), bytes([rng.randrange(256)])
        number = b"%d" % rng.choice(NUMBERS + [rng.randrange(10)] * 20)
        fields = line.split(b" ")
        fields[min(rng.randrange(6), len(fields) - 1)] = rng.choice([number] * 20 + [b"-1", b"1x", b"s", b"007"])
        blank, end = rng.choice([b"\t", b"  ", b" \r", b"\x0b"]), rng.choice([b"", b"\r", b" 1"])
        lines[at : at + 1] = rng.choice([
            [], [line, line], [rng.choice(rng.choice([LINES, lines])), line], [line[:place], line[place:]],
            [line[:place] + byte + line[place:]], [line[:place] + line[place + 1 :]],
            [line[:place] + byte + line[place + 1 :]], [line[:place] + number + line[place:]],
            [line.replace(b" ", blank, rng.randrange(1, 4)) + end], *[[b" ".join(fields)]] * 6])
        lines = lines or [b""]
    text = b"\n".join(lines)
    return text[: rng.randrange(len(text) + 1)] if rng.randrange(6) == 0 else text


def answer(problem, words, flows):
    """What a job prints, where `solve` prints these flows."""
    if words[0] == "connect":
        return [f"k {connectivity(problem, '--undirected' in words, '--pair' in words)}"]
    arcs, sides = problem[1], cuts(problem, flows)
    lines = [f"s {sum(cap for *_, cap in leaving(arcs, sides[0]))}"]
    if words[0] == "solve":
        return lines + [f"f {u} {v} {flow}" for (u, v, _), flow in zip(arcs, flows) if "--value" not in words]
    lines += [f"n {v}" for v in sorted(sides["--sink" in words])]
    return lines + [f"a {u} {v} {cap}" for u, v, cap in leaving(arcs, sides["--sink" in words]) if "--arcs" in words]
