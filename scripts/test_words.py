"""What the words of the command line lead to: what the program prints, what it tells, and its status."""

import os
import resource
import signal
import subprocess

import pytest

NET_A = b"p max 4 5\nn 1 s\nn 4 t\na 1 2 3\na 1 3 2\na 2 3 1\na 2 4 2\na 3 4 3\n"
SOLVED_A = b"s 5\nf 1 2 3\nf 1 3 2\nf 2 3 1\nf 2 4 2\nf 3 4 3\n"
NET_B = b"p max 3 2\nn 1 s\nn 3 t\na 1 2 2\na 2 3 2\n"
SOLUTION_B = b"s 2\nf 1 2 2\nf 2 3 2\n"
FILES = {"b.max": NET_B, "-": NET_B, "b.sol": SOLUTION_B, "fault.max": b"p min 2 0\n"}
"""The files of the folder in which the program runs."""

WORDS = [
    ("solve --value b.max", b"s 2\n", b"", 0),
    ("solve --value -", b"s 2\n", b"", 0),
    ("cut b.max", b"s 2\nn 1\n", b"", 0),
    ("cut --sink b.max", b"s 2\nn 1\nn 2\n", b"", 0),
    ("connect --pair b.max", b"k 1\n", b"", 0),
    ("check missing.max missing.sol", b"", b"flow: cannot open missing.max\n", 4),
    ("check b.max missing.sol", b"", b"flow: cannot open missing.sol\n", 4),
    ("check --feasible b.max b.sol", b"feasible 2\n", b"", 0),
    ("solve missing.max", b"", b"flow: cannot open missing.max\n", 4),
    # Both inputs are opened before anything is read.
    ("check fault.max missing.sol", b"", b"flow: cannot open missing.sol\n", 4),
]
"""Words over the files and net A as standard input, what is put and told, and the status. test_independent.py has the
answers of each flag on standard input."""

REFUSED = [
    ("solve --dot", b"error: unexpected argument '--dot' found\n\n"
     b"Usage: flow solve [OPTIONS] [FILE]\n\nFor more information, try '--help'.\n"),
    ("cut -x", b"error: unexpected argument '-x' found\n\n"
     b"Usage: flow cut [OPTIONS] [FILE]\n\nFor more information, try '--help'.\n"),
    ("cut --ar", b"error: unexpected argument '--ar' found\n\n  tip: a similar argument exists: '--arcs'\n\n"
     b"Usage: flow cut --arcs [FILE]\n\nFor more information, try '--help'.\n"),
    ("check", b"error: the following required arguments were not provided:\n  <PROBLEM>\n\n"
     b"Usage: flow check <PROBLEM> [SOLUTION]\n\nFor more information, try '--help'.\n"),
    ("", b""),
    ("solve --arcs", None),
    ("solve a.max b.max", None),
    ("paint", None),
    ("cut --sink=2", None),
]
"""Words that are refused, and all that is told of them, where that is expected whole. No tip says how to pass an
unknown flag as a value."""

HELP = {
    "solve": "$ printf 'p max 3 2\\nn 1 s\\nn 3 t\\na 1 2 5\\na 2 3 2\\n' | flow solve\n  s 2\n  f 1 2 2\n  f 2 3 2\n",
    "cut": " | flow cut --arcs\n  s 2\n  n 1\n  n 2\n  a 2 3 2\n",
    "connect": " | flow connect\n  k 1\n",
    "check": "  s VALUE            the value that the flow is said to have\n            f SRC DST FLOW ",
}
"""What the help of a command has to say beside what test_pages.py compares with the manual page; below, what that of
each command has to."""
HELP_OF_ALL = [
    "            p max NODES ARCS ", "            n ID s | n ID t ", "            a SRC DST CAP ",
    "Limits: 2 to 1000000 nodes, 4000000\n", "capacities up to 18446744073709551615, lines of 200 bytes",
    "standard input is read; - names a file like any other.\n", "docs/GUIDE.md", "docs/MESSAGES.md"]

GIVEN = [
    ("solve", b"p max 1000000 4000000\n", b"", b"flow: line 2: terminals missing\n", 3),
    ("cut", b"p max 1000000 0\nn 1 s\nn 1000000 t\n", b"s 0\nn 1\n", b"", 0),
    ("solve", b"\xFF\n", b"", b"flow: line 1: unknown line\n", 3),
    ("solve", b"p\x0Bmax 2 0\n", b"", b"flow: line 1: unknown line\n", 3),
    ("solve", b"p max 2\xC2\xA00\n", b"", b"flow: line 1: wrong number of fields\n", 3),
    ("solve", b"\xEF\xBB\xBF" + NET_A, b"", b"flow: line 1: unknown line\n", 3),
    # Zeros before a number don't count, digits do, and so do the blanks of a line.
    ("cut", b"p max " + b"0" * 150 + b"2 0\nn 1 s\nn 2 t\n", b"s 0\nn 1\n", b"", 0),
    ("solve", b"p max " + b"9" * 150 + b" 0\n", b"", b"flow: line 1: number of nodes out of range\n", 3),
    ("solve", b" " * 5000 + b"\np max 2 0\n", b"", b"flow: line 1: line too long\n", 3),
    # A comment of a million bytes counts as one line. Without an end it is a file without a problem line.
    ("solve", b"c" + b"\xFF" * 1_000_000, b"", b"flow: line 2: problem line missing\n", 3),
    ("solve", b"c" + b"\xFF" * 1_000_000 + b"\n" + NET_A, SOLVED_A, b"", 0),
]
"""Problems on standard input that declare much, number wrongly, go on or hold bytes that aren't text."""

ASKS = [("solve b.max", False), ("solve", True), ("cut b.max", False), ("cut --sink --arcs", True),
        ("connect b.max", False), ("connect --pair", True), ("check b.max", True), ("check b.max b.max", False)]
"""Words, and whether standard input is read."""


@pytest.fixture
def folder(tmp_path):
    """A folder with the files."""
    for name, text in FILES.items():
        (tmp_path / name).write_bytes(text)
    return tmp_path


@pytest.fixture
def run(ask, folder):
    """Runs the program in the folder."""
    return lambda words, stdin=b"": ask(words, stdin, cwd=folder)


@pytest.fixture
def run_cut_short(flow, folder):
    """Runs the program with an output, `stdout` or `stderr`, that takes three bytes and then fails: its status, what
    this one took, and what the other."""
    def three_bytes():
        signal.signal(signal.SIGXFSZ, signal.SIG_IGN)
        resource.setrlimit(resource.RLIMIT_FSIZE, (3, 3))

    def run(words, stream):
        with open(folder / "taken", "wb") as taken:
            streams = {"stdout": subprocess.PIPE, "stderr": subprocess.PIPE, stream: taken}
            done = subprocess.run([flow, *words.split()], stdin=subprocess.DEVNULL, cwd=folder, timeout=60,
                                  preexec_fn=three_bytes, **streams)
        other = done.stderr if stream == "stdout" else done.stdout
        return done.returncode, (folder / "taken").read_bytes(), other
    return run


def named(names, table):
    """A test for each row of a table, with the row's first column as its name."""
    return pytest.mark.parametrize(names, table, ids=[row[0] or "no words" for row in table])


@named("words, put, told, status", WORDS)
def test_words(run, words, put, told, status):
    assert run(words, NET_A) == (status, put, told)


@named("words, text, put, told, status", GIVEN)
def test_problem(run, words, text, put, told, status):
    assert run(words, text) == (status, put, told)


@named("words, wanted", ASKS)
def test_reads_standard_input(flow, folder, words, wanted):
    read, write = os.pipe()
    os.write(write, NET_B)
    os.close(write)
    nowhere = subprocess.DEVNULL
    subprocess.run([flow, *words.split()], stdin=read, stdout=nowhere, stderr=nowhere, cwd=folder, timeout=60)
    left = os.read(read, 4096)
    os.close(read)
    assert (left != NET_B) == wanted


@named("words, message", REFUSED)
def test_refused(run, run_cut_short, checks, words, message):
    """Nothing is put, and the status is 2, whatever is taken of the message."""
    status, put, told = run(words)
    assert (status, put) == (2, b"")
    assert told == message if message is not None else told.startswith(b"error: ")
    assert run_cut_short(words, "stderr") == (2, told[:3], b"")
    checks(3)


@pytest.mark.parametrize("words", ["--help", "help", "cut --help", "--version"])
def test_help_cut_short(run, run_cut_short, checks, words):
    status, put, told = run(words)
    assert (status, put != b"", told) == (0, True, b"")
    assert run_cut_short(words, "stdout") == (4, put[:3], b"flow: write failed\n")
    checks(2)


@pytest.mark.parametrize("command", HELP)
def test_help(run, checks, command):
    status, put, told = run(f"{command} --help")
    assert (status, told) == (0, b"")
    assert [sentence for sentence in [HELP[command], *HELP_OF_ALL] if sentence not in put.decode()] == []
    checks(1 + len(HELP_OF_ALL))
