"""docs/DEFINITIONS.md held against the definitions that the contract of `run` and those of the streams rest on.

This starts from the names that these contracts cite and follows the definitions in crates/*/specs from one to the next,
however a name is brought in: by itself, under another name, or with its module before it. An import that it can't
follow fails. The page tells each file that is reached with its number of lines (comments, blank lines and imports don't
count), what these definitions rest on in turn (names of the standard library, constants, types, what each stream says
of its bytes), and some definitions as they stand in the specs.
"""
import functools
import re

import pytest

from conftest import ROOT

PAGE = ROOT / "docs" / "DEFINITIONS.md"

# The contracts to start from: a file, and the text at which each begins and ends.
STARTS = [
    ("crates/flow_tools/src/running.rt", "pub fn run<", "\n{"),
    ("crates/flow_tools/src/streams.rt", "pub trait Input", "\n}"),
    ("crates/flow_tools/src/streams.rt", "pub trait Output", "\n}"),
]

# The contract that stands above these, of which the page tells how many lines it takes more.
CLOSED = [("crates/flow_tools/src/running/texts.rt", "pub fn run_on_texts", "\n{")]

# A name, with what stands before and behind its dots: a run of characters between blanks and brackets.
WORD = re.compile(r"[^\s(){}\[\];:,]+")
USE = re.compile(r"^(?:pub )?use ([^\s{};]+?)(?:\.\{([^}]*)\})?(?: as ([^\s;]+))?;?[ \t]*$", re.M)
HEAD = re.compile(r"^(?:abbrev |unfoldable )?(?:pub )?(?:record |data )?([^\s({:]+)")
OPENS = re.compile(r"^(?:open|module|mutual|infix\w*|ruleset|axiom)\b", re.M)


def squeezed(text):
    return " ".join(text.split())


class Outside(str):
    """A name that isn't defined in specs/: of the standard library, a constant, or a type of the code."""


def target(path, name):
    """What a name of a module stands for: a file of specs/ and the name there, or a name from outside."""
    parts = path.split(".")
    of_the_kit = parts[0] == "Rattle" and len(parts) > 2 and not (ROOT / "crates" / parts[1]).is_dir()
    if parts[0] == "Prim" or of_the_kit or parts[0] == "Rattle" and parts[2:4] == ["specs", "declared"]:
        return Outside(f"{path}.{name}")
    file = ROOT.joinpath("crates", *parts[1:2], *parts[2:]).with_suffix(".antt")
    if parts[0] != "Rattle" or parts[2:3] != ["specs"] or not file.is_file():
        raise ValueError(f"the name {name} of {path} can't be followed")
    return file, name


def imports(text, where):
    """What each imported name stands for, and the modules that are imported whole."""
    names, modules = {}, {}
    for path, items, other in USE.findall(text):
        if not items:
            modules[other or path.split(".")[-1]] = path
        for item in filter(None, map(str.strip, items.split(","))):
            names[item.split(" as ")[-1]] = (path, item.split(" as ")[0])
    if re.search(r"^(?:pub )?use\b", USE.sub("", text), re.M) or OPENS.search(text):
        raise ValueError(f"{where} has an import or a section that can't be followed")
    return names, modules


def blocks(text):
    """The definitions of a file: the name of each, and its lines without comments and blank lines."""
    found, name = {}, None
    for line in USE.sub("", text).splitlines():
        bare = line.split("--")[0].rstrip()
        if not bare or bare.startswith(("pub mod ", "mod ", "unfolding ")):
            continue
        if not line.startswith((" ", "}")):
            name = HEAD.match(bare)[1]
        found.setdefault(name, []).append(bare)
    return found


def cited(text, names, modules):
    """What the words of a text stand for: pairs of a module's path and a name."""
    found = set()
    words = {word for word in WORD.findall(text)} | ({"[]"} if "[]" in text else set())
    for word in words:
        parts = word.split(".")
        if parts[0] in modules and len(parts) > 1:
            found.add((modules[parts[0]], parts[1]))
        elif parts[0] == "Rattle":
            raise ValueError(f"{word} can't be followed")
        found |= {names[part] for part in parts if part in names}
    for name, there in names.items():
        pieces = [piece for piece in name.split("◌") if piece]
        if "◌" in name and all(piece in words for piece in pieces):
            found.add(there)
    return found


@functools.cache
def spec(path):
    """A file of specs/: its definitions, the names that it imports and the modules that it imports whole."""
    text = path.read_text()
    return blocks(text), *imports(text, path.relative_to(ROOT))


def reached_from(starts):
    """All that these names cite, and they themselves: those defined in specs/, and those from outside."""
    todo, seen, outside = list(starts), set(), set()
    while todo:
        there = todo.pop()
        if isinstance(there, Outside):
            outside.add(there)
        elif there not in seen:
            seen.add(there)
            path, name = there
            defined, names, modules = spec(path)
            if name not in defined:
                raise ValueError(f"{path.relative_to(ROOT)} has no {name}")
            text = "\n".join(defined[name])
            todo += [target(*pair) for pair in cited(text, names, modules)]
            todo += [(path, part) for word in WORD.findall(text) for part in word.split(".") if part in defined]
    return seen, outside


def starts(contracts):
    """What these contracts cite."""
    found = []
    for file, begin, end in contracts:
        text = (ROOT / file).read_text()
        at = text.index(begin)
        contract = text[at : text.index(end, at)]
        contract = "\n".join(line for line in contract.splitlines() if not line.strip().startswith("//"))
        ghost = "\n".join(re.findall(r"^ghost (use [^;]*);", text, re.M))
        found += [target(*pair) for pair in cited(contract, *imports(ghost, file))]
    return found


def source_of(path):
    """The file of the code in which a declared module stands, and the crate."""
    _, crate, _, _, *modules = path.split(".")
    source = ROOT / "crates" / crate / "src"
    files = [source.joinpath(*modules[:count]).with_suffix(".rt") for count in range(len(modules), 0, -1)]
    return next(file for file in [*files, source / "lib.rt"] if file.is_file())


def rows(counts, outside):
    """The lines of the page's lists."""
    table = [f"- `{name}`: {lines}" for name, lines in counts.items()]
    library, constants, types = {}, {}, {}
    for name in sorted(outside):
        path, _, last = name.rpartition(".")
        parts = path.split(".")
        if parts[2:4] != ["specs", "declared"] or not (ROOT / "crates" / parts[1]).is_dir():
            library.setdefault(path, []).append(last)
        elif parts[-1] == "TheConstants":
            constants[last] = re.search(rf"^pub const {last}: (.*);$", source_of(path).read_text(), re.M)[1]
        else:
            kind = parts[-2] if parts[-1] == "TheVariants" else last
            file = source_of(path)
            text = re.search(rf"^pub (?:struct|enum) {kind} .*?^}}$", file.read_text(), re.M | re.S)
            lines = [line for line in text[0].splitlines() if not re.match(r"\s*(//|#\[|$)", line)]
            held = squeezed(" ".join(lines[1:-1]).replace("pub ", "")).rstrip(",").replace(", }", " }")
            types[f"- `{kind}` of `{file.relative_to(ROOT)}`, {len(lines)} lines: `{held}`"] = len(lines)
    table += [f"- `{path}`: {' '.join(f'`{name}`' for name in names)}" for path, names in sorted(library.items())]
    table += [f"- `{name}`: `{value}`" for name, value in sorted(constants.items())]
    table += [*sorted(types), *(f"- `{line}`" for line in streams())]
    return table, library, constants, types


def streams():
    """What each stream of the crates says of its bytes and its bound, and of which type."""
    return [f"{of}: {line}" for file in sorted(ROOT.glob("crates/*/src/**/*.rt"))
            for of, body in re.findall(r"^(impl.*?)[ {]*\n(.*?)(?=^impl|\Z)", file.read_text(), re.M | re.S)
            for line in re.findall(r"^ +(ghost (?:state|bound) =.*?);*$", body, re.M)]


def ways_to_flows():
    """The public functions of flow_net whose signature has a table of flows, or that are methods of one."""
    return {name for file in (ROOT / "crates/flow_net/src").rglob("*.rt")
            for owner, body in re.findall(r"^(\S.*\n)((?:[ })].*\n|\n)*)", file.read_text(), re.M)
            for name, words in re.findall(r"pub fn (\w+)(.*?)(?:\{|requires|ensures)", owner + body, re.S)
            if "FlowTable" in words or owner.startswith("impl FlowTable")}


def public_contracts(crate):
    """Where the contract of each item stands that a library exports: its file, and how its text begins and ends."""
    source = ROOT / "crates" / crate / "src"
    found = []
    for modules, names in re.findall(r"^pub use ((?:\w+::)+)\{?([^};:]*)\}?;", (source / "lib.rt").read_text(), re.M):
        file = source.joinpath(*modules.split("::")[:-1]).with_suffix(".rt")
        for name in re.findall(r"\w+", names):
            kind = re.search(rf"^pub (fn|trait|struct) {name}\b", file.read_text(), re.M)[1]
            end = "\n{" if kind == "fn" else "\n}" if kind == "trait" else ";"
            found.append((str(file.relative_to(ROOT)), f"pub {kind} {name}", end))
    return found


def beyond_the_public(crate, above):
    """What the crates above cite of a crate beside the words that its public contracts rest on."""
    public, _ = reached_from(starts(public_contracts(crate)))
    found = []
    for file in sorted(it for other in above for it in (ROOT / "crates" / other).glob("*/**/*.*t")):
        if file.suffix not in (".rt", ".antt") or {"out", "tests"} & {*file.relative_to(ROOT).parts}:
            continue
        text = file.read_text()
        for path, names in re.findall(rf"use (Rattle\.{crate}\.[\w.]+)\.\{{([^}}]*)\}}", text):
            for name in (it.split(" as ")[0].strip() for it in names.split(",")):
                there = None if ".proofs." in path else target(path, name)
                if there not in public and not isinstance(there, Outside):
                    found.append(f"{path}.{name} ({file.relative_to(ROOT)})")
    return found


def clauses(lines):
    """The clauses of a definition as the page quotes them: without its types, but for those of a record's fields."""
    if re.match(r"^(pub )?record ", lines[0]):
        head, _, fields = squeezed(" ".join(lines)).partition(" where ")
        name = HEAD.match(head)[1]
        binders = re.findall(r"\(([^:()]+) :", head[head.index(name) + len(name) :])
        fields = re.sub(r"\bpub ", "", fields)
        return [squeezed(f"record {' '.join([name, *binders])} where {fields}")]
    return [squeezed(part) for part in re.split(r"\n(?![ }])", "\n".join(lines))[1:]]


def quotes():
    """The definitions that the page quotes: the name of each and its clauses."""
    parts, before = [], ""
    for line in PAGE.read_text().splitlines():
        bare = line.split("--")[0].rstrip()
        if re.match(r" {4}\S", line):
            parts.append(bare)
        elif re.match(r" {5}", line) and before.startswith("    "):
            parts[-1] += " " + bare
        before = line
    found = {}
    for part in parts:
        part = squeezed(part)
        found.setdefault(part.split()[part.startswith("record ")], []).append(part)
    return found


@functools.cache
def reading():
    """What the contracts reach: the lines of the page's lists, the sentences with its counts, what each file that is
    reached holds beside, and the definitions that are reached or cited above these contracts."""
    reached, outside = reached_from(starts(STARTS))
    closed = reached_from(starts(CLOSED))[0] - reached
    more = sum(len(spec(path)[0][name]) for path, name in closed)
    counts, others = {}, {}
    for path in sorted({path for path, _ in reached}):
        defined = spec(path)[0]
        name = str(path.relative_to(ROOT))
        counts[name] = sum(len(defined[item]) for other, item in reached if other == path)
        others[name] = [item for item in defined if (path, item) not in reached]
    table, library, constants, types = rows(counts, outside)
    sentences = [
        f"{sum(counts.values())} lines in {len(counts)} files",
        f"takes {more} lines more",
        f"{sum(map(len, library.values()))} names of the standard library",
        f"{len(constants)} constants",
        f"{len(types)} types of {sum(types.values())} lines",
    ]
    return table, sentences, others, reached | closed


def defined_as(name):
    """The clauses of the definitions of this name in the specs: of those that are reached, or else of all."""
    every = [((path, name), clauses(blocks_of[name])) for path in sorted(ROOT.glob("crates/*/specs/**/*.antt"))
             if name in (blocks_of := blocks(path.read_text()))]
    known = reading()[-1]
    return [text for there, text in every if there in known] or [text for _, text in every]


def test_lists(checks):
    """Each file, name, constant, type and stream is a line of the page, and the page has no other."""
    page = PAGE.read_text()
    table = {*reading()[0]}
    assert {*re.findall(r"^- `.*$", page[page.index("## How much it is") :], re.M)} == table
    checks(len(table))


@pytest.mark.parametrize("which", range(5), ids=["lines", "closed", "names", "constants", "types"])
def test_counts(which):
    assert reading()[1][which] in PAGE.read_text()


def test_files_hold_nothing_else(checks):
    """A file that is reached holds nothing else, so that its reader never wonders what a definition is there for."""
    others = reading()[2]
    assert {name: rest for name, rest in others.items() if rest} == {}
    checks(len(others))


@pytest.mark.parametrize("name", quotes())
def test_quote(name):
    """The page quotes the definition whole, as it stands in the specs."""
    assert [quotes()[name]] == defined_as(name)


def test_ways_to_flows():
    """Flows are got at by the counted calls of a table alone."""
    assert ways_to_flows() == {"new", "look", "push", "clear", "into_flows"}


def test_nothing_beyond_the_public_contracts():
    """The crates above the solvers cite nothing of these but the words of their public contracts."""
    assert beyond_the_public("flow_solve", ["flow_tools", "flow", "growths", "ferries"]) == []
