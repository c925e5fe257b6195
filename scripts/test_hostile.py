"""Hostile use of the built programs: memory that is refused, and devices that fail.

It needs `cc`, for the allocator that refuses requests.
"""

import itertools
import os
import resource
import subprocess

import pytest

from conftest import ROOT

NET = b"p max 4 5\nn 1 s\nn 4 t\na 1 2 3\na 1 3 2\na 2 3 1\na 2 4 2\na 3 4 3\n"
SOLUTION = b"s 5\nf 3 4 3\nf 2 4 2\nf 2 3 1\nf 1 3 2\nf 1 2 3\n"
SOLVED = b"s 5\nf 1 2 3\nf 1 3 2\nf 2 3 1\nf 2 4 2\nf 3 4 3\n"
TOO_FEW_ARCS = b"p max 2 2\nn 1 s\nn 2 t\na 1 2 1\n"
OUT_OF_MEMORY = 4, b"", b"flow: out of memory\n"
READ_FAILED = b"flow: read failed\n"
WRITE_FAILED = b"flow: write failed\n"


@pytest.fixture(scope="session")
def refuse(ask, tmp_path_factory):
    """Runs a program that is refused one request for memory, by its number, or all. Answers how many it made, and its
    status, output and message."""
    folder = tmp_path_factory.mktemp("refuse")
    log, allocator = folder / "requests", folder / "refuse.so"
    subprocess.run(["cc", "-O1", "-shared", "-fPIC", "-o", allocator, ROOT / "scripts/refuse.c"], check=True)
    (folder / "net").write_bytes(NET)

    def run(words, stdin, nth, **named):
        env = dict(os.environ, LD_PRELOAD=str(allocator), REFUSE_NTH=str(nth), REFUSE_LOG=str(log))
        answer = ask(words, stdin, env=env, cwd=folder, **named)
        return int(log.read_text()), answer
    return run


def refused_in_turn(refuse, words, stdin, **named):
    """The answers of a program that is refused each request in turn, until a run makes no further one; that of this
    run stands last."""
    answers = []
    for nth in itertools.count(1):
        requests, answer = refuse(words, stdin, nth, **named)
        answers.append(answer)
        if requests < nth:
            return answers


def chain(step):
    """A chain of 8210 nodes and arcs of capacity 7, which stand in turns of a step, and what `solve` puts for it."""
    tails = [1 + i * step % 8209 for i in range(8209)]
    head = b"p max 8210 8209\nn 1 s\nn 8210 t\n"
    arcs = b"".join(b"a %d %d 7\n" % (tail, tail + 1) for tail in tails)
    return head + arcs, b"s 7\n" + b"".join(b"f %d %d 7\n" % (tail, tail + 1) for tail in tails)


def circle(nodes, steps, turn):
    """Nodes in a circle, each with a link of capacity 7 to the node some steps on, for each number of steps; the links
    stand in turns. All nodes are alike, so where it is connected the connectivity is the number of links at a node
    (Mader 1971)."""
    links = [(i, (i + step) % nodes) for i in range(nodes) for step in steps]
    arcs = b"".join(b"a %d %d 7\n" % (tail + 1, head + 1)
                    for tail, head in (links[i * turn % len(links)] for i in range(len(links))))
    return b"p max %d %d\nn 1 s\nn 2 t\n" % (nodes, len(links)) + arcs


IN_ORDER, IN_ORDER_SOLVED = chain(1)
SCATTERED, SCATTERED_SOLVED = chain(1009)
NEAR, NEAR_SCATTERED = circle(4100, (1, 2), 1), circle(4100, (1, 2), 1009)
JOBS = {
    "solve, in order": ("solve", IN_ORDER, (0, IN_ORDER_SOLVED, b"")),
    "solve, scattered": ("solve", SCATTERED, (0, SCATTERED_SOLVED, b"")),
    "cut, scattered": ("cut --arcs", SCATTERED, (0, b"s 7\nn 1\na 1 2 7\n", b"")),
    "solve": ("solve", NET, (0, SOLVED, b"")),
    "cut": ("cut --arcs", NET, (0, b"s 5\nn 1\na 1 2 3\na 1 3 2\n", b"")),
    "connect": ("connect --undirected", NET, (0, b"k 2\n", b"")),
    "connect, in order": ("connect --undirected", IN_ORDER, (0, b"k 1\n", b"")),
    "pair, in order": ("connect --pair", IN_ORDER, (0, b"k 1\n", b"")),
    "pair, scattered": ("connect --pair", SCATTERED, (0, b"k 1\n", b"")),
    "connect, near": ("connect --undirected", NEAR, (0, b"k 4\n", b"")),
    "connect, near and scattered": ("connect --undirected", NEAR_SCATTERED, (0, b"k 4\n", b"")),
    "check": ("check net", SOLUTION, (0, b"optimal 5\n", b"")),
    "a fault": ("solve", TOO_FEW_ARCS, (3, b"", b"flow: line 5: too few arcs\n")),
}


@pytest.mark.parametrize("name", JOBS)
def test_memory_refused_to_a_job(refuse, checks, name):
    words, stdin, wanted = JOBS[name]
    *answers, last = refused_in_turn(refuse, words, stdin)
    assert last == wanted
    assert all(answer in (OUT_OF_MEMORY, wanted) for answer in answers), answers
    assert answers.count(wanted) <= 1, "at the start one request is made that the program does without"
    assert refuse(words, stdin, "all")[1] == OUT_OF_MEMORY
    checks(len(answers) + 2)


@pytest.mark.parametrize("words, plain, scattered, more", [
    # Lists of its arcs, their spots, the names of the nodes and either terminals, and of the flows that are read.
    ("solve", IN_ORDER, SCATTERED, 6),
    # For its connectivity it is taken as it comes.
    ("connect --undirected", NEAR, NEAR_SCATTERED, 0),
], ids=["solve", "connect"])
def test_requests_more_for_a_file_in_no_order(refuse, words, plain, scattered, more):
    """A file whose arcs come in no order is solved in a copy."""
    assert refuse(words, scattered, 0)[0] - refuse(words, plain, 0)[0] == more


CALLS = {
    "push": "20 arcs", "both_ways": "40 arcs", "read_problem": "5 arcs", "read_solution": "5 flow lines",
    "finish": "1 arc", "check": "optimal 5", "run_faulty": "line 5: too few arcs", **dict.fromkeys(
        ["run_solve", "run_cut", "run_connect", "run_check", "run_on_texts"], "answered")}


@pytest.mark.parametrize("name", CALLS)
def test_memory_refused_to_a_call(refuse, growths, checks, name):
    """Single calls of the library, and runs over streams that ask for no memory."""
    told, promised, before = ((0, f"{name}: {words}\n".encode(), b"") for words in (
        CALLS[name], "out of memory, as promised", "out of memory before"))
    *answers, last = refused_in_turn(refuse, "", name.encode(), program=growths)
    assert last == told
    assert set(answers) <= {promised, before}
    assert promised in answers, "the call is refused a growth of its own"
    assert refuse("", name.encode(), "all", program=growths)[1] in (promised, before)
    checks(len(answers) + 3)


def test_a_problem_line_takes_no_memory(refuse, growths):
    """A reader that is refused every request answers Ok, whatever the line declares."""
    assert refuse("", b"declare", "all", program=growths)[1] == (0, b"declare: Ok\n", b"")


@pytest.mark.parametrize("command", ["solve", "cut"])
def test_small_address_space(ask, tmp_path, command):
    """A large problem in little memory ends with its message and nothing on standard output."""
    nodes, arcs, room = 200000, 1000000, 24 << 20
    with open(tmp_path / "large", "w") as file:
        file.write(f"p max {nodes} {arcs}\nn 1 s\nn {nodes} t\n")
        file.writelines(f"a {i % nodes + 1} {i * 7 % nodes + 1} {i % 1000}\n" for i in range(arcs))
    limit = lambda: resource.setrlimit(resource.RLIMIT_AS, (room, room))
    assert ask([command, tmp_path / "large"], preexec_fn=limit) == OUT_OF_MEMORY


DEVICES = {
    "a full device": ('"$0" solve net > /dev/full', 4, WRITE_FAILED),
    "a full device for help": ('"$0" --help > /dev/full', 4, WRITE_FAILED),
    "a folder as FILE": ('"$0" solve .', 4, READ_FAILED),
    "a missing file": ('"$0" solve "$PWD/missing.max"', 4, b"flow: cannot open FOLDER/missing.max\n"),
    "a closed standard input": ('"$0" solve <&-', 4, READ_FAILED),
    "a closed standard output": ('"$0" solve net >&-', 4, WRITE_FAILED),
    "a closed standard error": ('"$0" solve . 2>&-; exit $?', 4, b""),
    "a file of the name -": ('"$0" solve -', 4, b"flow: cannot open -\n"),
    "no command": ('"$0"', 2, b""),
    "a word that isn't UTF-8": ('"$0" solve "$(printf "\\377")"', 2, b"flow: a word of the command line isn't UTF-8\n"),
}
"""Lines for bash, the status, and what is told; nothing is put."""


@pytest.mark.parametrize("name", DEVICES)
def test_device(ask, flow, tmp_path, name):
    line, status, message = DEVICES[name]
    (tmp_path / "net").write_bytes(NET)
    ended, put, told = ask(["-c", line, flow], program="bash", cwd=tmp_path)
    assert (ended, put, told.replace(bytes(tmp_path), b"FOLDER")) == (status, b"", message)


def test_a_reader_that_goes_away(ask, flow, tmp_path):
    (tmp_path / "big").write_text("p max 2 300000\nn 1 s\nn 2 t\n" + "a 1 2 1\n" * 300000)
    line = '"$0" solve big | head -c 5; exit "${PIPESTATUS[0]}"'
    assert ask(["-c", line, flow], program="bash", cwd=tmp_path) == (4, b"s 300", WRITE_FAILED)
