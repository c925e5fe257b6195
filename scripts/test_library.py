"""The library for C.

The programs of c/tests/ are compiled as C99 and as C++11, by gcc and by clang, with the static library and with the
shared one, and run: plainly, with the sanitizers of addresses and undefined behaviour, and the calls from two threads
also with the sanitizer of threads. In one of them each request for memory is refused in turn. Random problems are
answered by the library and by the second reading of the definitions. The header for C++17 is tried, by CMake too, and
the library is called from Rust and Go.
"""

import functools
import os
import pathlib
import random
import re
import subprocess

import pytest

from conftest import ROOT, needs
from independent import connectivity, cuts, generated, leaving, read_problem, verdict

TESTS = ROOT / "c/tests"
STRICT = ["-O2", "-g", "-Wall", "-Wextra", "-Wpedantic", "-Werror", "-Wl,--fatal-warnings", "-I", ROOT / "c"]
CLASSES = ["-std=c++17", *STRICT, "-Wconversion", "-Wold-style-cast"]
COMPILERS = {"gcc": ["-std=c99"], "clang": ["-std=c99"], "g++": ["-x", "c++", "-std=c++11"],
             "clang++": ["-x", "c++", "-std=c++11"]}
KINDS = ["static", "shared"]
SANITIZED = {"plain": [], "addresses": ["-fsanitize=address,undefined", "-fno-sanitize-recover=all"],
             "races": ["-fsanitize=thread"]}
PROGRAMS = {"calls": ["plain", "addresses"], "threads": ["plain", "addresses", "races"], "memory": ["plain"]}
"""How each is compiled. The one that refuses memory has a malloc of its own, and no sanitizer."""
VERDICTS = {"optimal": 0, "not-maximal": 1, "over": 2, "unbalanced": 3}


def run(*words, **more):
    """Runs a command."""
    return subprocess.run(list(map(str, words)), capture_output=True, text=True, check=False, **more)


def said(*words, **more):
    """What a command that ends well says on standard output."""
    done = run(*words, **more)
    assert done.returncode == 0 and not done.stderr, f"{words}: {done.returncode}\n{done.stdout}{done.stderr}"
    return done.stdout


def compiled(name, compiler, kind, sanitized, made, folder):
    """The path of a program of c/tests/."""
    needs(compiler)
    links = [made / "libprovedflow.a"] if kind == "static" else ["-L", made, "-lprovedflow", f"-Wl,-rpath,{made}"]
    said(compiler, *COMPILERS[compiler], *STRICT, *SANITIZED[sanitized], TESTS / f"{name}.c", "-x", "none", *links,
         "-pthread", "-o", folder / name)
    return folder / name


@pytest.mark.parametrize("kind", KINDS)
@pytest.mark.parametrize("compiler, name, sanitized", [
    (compiler, name, sanitized) for compiler in COMPILERS for name, kinds in PROGRAMS.items() for sanitized in kinds
    if name != "memory" or "++" not in compiler])  # A malloc of one's own is C.
def test_program(name, compiler, kind, sanitized, made, tmp_path):
    program = compiled(name, compiler, kind, sanitized, made, tmp_path)
    is_first = (name, compiler, kind, sanitized) == ("calls", "gcc", "shared", "plain")
    last = said(program, *["many"] * is_first).splitlines()[-1]
    assert re.fullmatch(rf"{name}: [1-9]\d* passed, 0 failed", last)


@pytest.mark.parametrize("sanitized", ["plain", "addresses"])
@pytest.mark.parametrize("compiler", ["g++", "clang++"])
def test_classes(compiler, sanitized, made, tmp_path):
    needs(compiler)
    said(compiler, *CLASSES, *SANITIZED[sanitized], TESTS / "lists.cpp", made / "libprovedflow.a", "-o",
         tmp_path / "lists")
    assert re.search(r"^lists: [1-9]\d* passed, 0 failed\n\Z", said(tmp_path / "lists"), re.M)


@pytest.mark.parametrize("src, cap, words", [
    ("std::vector<int>", "std::vector<std::uint64_t>", "elements of another type"),
    ("std::vector<std::uint64_t>", "std::vector<std::uint64_t>", "elements of another type"),
    ("std::vector<std::uint32_t>", "std::vector<double>", "elements of another type"),
    ("std::vector<std::uint32_t>", "std::vector<long long>", "elements of another type"),
    ("std::vector<std::uint32_t>", "std::vector<bool>", "this is no list"),
    ("std::vector<std::uint32_t>", "int", "this is no list")])
@pytest.mark.parametrize("compiler", ["g++", "clang++"])
def test_refused_elements(compiler, src, cap, words):
    needs(compiler)
    done = run(compiler, "-std=c++17", "-I", ROOT / "c", "-fsyntax-only", "-x", "c++", "-", input=f"""
#include <provedflow.hpp>
auto flow(const {src} &src, const {cap} &cap) {{ return provedflow::maximum_flow(2, src, src, cap, 0, 1); }}
""")
    errors = re.findall(r"error: .*", done.stderr)
    assert len(errors) == 1 and words in errors[0], done.stderr


@pytest.mark.parametrize("compiler, header, name", [
    ("gcc", "provedflow.h", "provedflow.h"), ("g++", "provedflow.hpp", "provedflow")])
def test_size_of_32_bits(compiler, header, name, tmp_path):
    needs(compiler)
    (tmp_path / "gnu").mkdir()
    (tmp_path / "gnu/stubs-32.h").touch()  # Of the headers for 32 bits only this one isn't in those for 64.
    system = pathlib.Path("/usr/include/x86_64-linux-gnu")
    headers = [word for folder in (tmp_path, *system.glob("c++/*"), system) for word in ("-isystem", folder)]
    done = run(compiler, "-m32", "-fsyntax-only", *headers, ROOT / "c" / header)
    assert f"{name} needs a size_t of 64 bits" in done.stderr


def test_cuts_in_process(made, tmp_path):
    needs("g++")
    if not pathlib.Path("/usr/include/maxflow-3.0").exists():
        pytest.skip("libmaxflow-dev isn't installed")
    said("g++", "-std=c++17", "-isystem/usr/include/maxflow-3.0", f"-I{made}", ROOT / "bench/in_process.cpp",
         made / "libprovedflow.a", "-lmaxflow", "-o", tmp_path / "cuts")
    said(tmp_path / "cuts", 1, ROOT / "examples/four_nodes.max")


def test_cmake(made, tmp_path):
    needs("cmake")
    version = re.search(r'PROVEDFLOW_VERSION "(.*)"', (made / "provedflow.h").read_text())[1]
    (tmp_path / "CMakeLists.txt").write_text(f"""cmake_minimum_required(VERSION 3.13)
project(trial CXX)
foreach(other 0.1.1 0.2 1 1.0)
  find_package(provedflow ${{other}} QUIET HINTS {made})
  if(provedflow_FOUND)
    message(FATAL_ERROR "${{other}} is found")
  endif()
endforeach()
find_package(provedflow {version} EXACT REQUIRED HINTS {made})
find_package(provedflow 0.1 REQUIRED)
foreach(target provedflow provedflow_static)
  add_executable(${{target}} {TESTS / "lists.cpp"})
  target_compile_features(${{target}} PRIVATE cxx_std_17)
  target_link_libraries(${{target}} provedflow::${{target}})
endforeach()
""")
    said("cmake", "-S", tmp_path, "-B", tmp_path / "made")
    said("cmake", "--build", tmp_path / "made")
    for target in ("provedflow", "provedflow_static"):
        said(tmp_path / "made" / target)
        needed = said("objdump", "-p", tmp_path / "made" / target)
        assert ("libprovedflow.so.0" in needed) == (target == "provedflow")


@pytest.mark.parametrize("compiler, words", [("rustc", ["-O", "-L", "MADE", "four.rs", "-o"]),
                                             ("go", ["build", "-o"])])
def test_language(compiler, words, made, tmp_path):
    needs(compiler)
    where = {**os.environ, "CGO_CFLAGS": f"-I{made}", "CGO_LDFLAGS": f"-L{made}", "GO111MODULE": "off",
             "GOCACHE": str(tmp_path / "go"), "GOPATH": str(tmp_path / "path"), "LD_LIBRARY_PATH": str(made)}
    words = [str(made) if word == "MADE" else word for word in words]
    said(compiler, *words, tmp_path / "four", *["four.go"] * (compiler == "go"), env=where, cwd=TESTS)
    assert re.findall(r"\d+", said(tmp_path / "four", env=where)) == "0 0 5 3 2 1 2 3".split()


PROBLEMS = [read_problem(generated(random.Random(seed))) for seed in range(400)]


def as_numbers(nodes, arcs, sources, sinks):
    """A problem as c/tests/problems.c reads it."""
    numbers = [nodes, len(arcs), len(sources), len(sinks), *(v - 1 for v in (*sources, *sinks))]
    return " ".join(map(str, numbers + [number for u, v, cap in arcs for number in (u - 1, v - 1, cap)])) + "\n"


def number_of_verdict(problem, flows, greatest):
    """That on a flow whose solution claims the value that it has."""
    lines = [(u, v, units) for (u, v, _), units in zip(problem[1], flows)]
    value = sum(units * ((u in problem[2]) - (v in problem[2])) for u, v, units in lines)
    return VERDICTS[verdict(problem, value, lines, greatest, False)[0].split()[0]]


@functools.cache
def by_definitions(place, flows):
    """What the second reading says of a problem and of a flow, as answers() has it."""
    problem = nodes, arcs, *_ = PROBLEMS[place]
    near, far = cuts(problem, flows)
    value = sum(cap for *_, cap in leaving(arcs, near))
    room = [i for i, (arc, units) in enumerate(zip(arcs, flows)) if units < arc[2]]
    more = [units + (i in room[:1]) for i, units in enumerate(flows)]
    return {"value": [*divmod(value, 2 ** 64)],
            **{name: [int(v in side) for v in range(1, nodes + 1)] for name, side in (("near", near), ("far", far))},
            "links": [connectivity(problem, both, pair) for pair in (False, True) for both in (False, True)],
            "check": [number_of_verdict(problem, units, value) for units in (flows, more)]}


def answers(text):
    """What c/tests/problems.c printed of each problem: the numbers of each line, by its word."""
    lines = [line.split() for line in text.splitlines()]
    rows = [(line[0], list(map(int, line[1:]))) for line in lines]
    return [dict(rows[at:at + 6]) for at in range(0, len(rows), 6)]


@pytest.mark.parametrize("kind", KINDS)
@pytest.mark.parametrize("compiler", COMPILERS)
def test_random_problems(compiler, kind, made, tmp_path, checks):
    program = compiled("problems", compiler, kind, "addresses", made, tmp_path)
    found = answers(said(program, input="".join(as_numbers(*problem) for problem in PROBLEMS)))
    assert len(found) == len(PROBLEMS)
    for place, answer in enumerate(found):
        wanted = by_definitions(place, tuple(answer.pop("flow")))
        assert answer == wanted and wanted["check"][0] == VERDICTS["optimal"], PROBLEMS[place]
    checks(len(found))
