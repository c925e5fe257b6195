"""The package as a whole: the examples of its docstrings and pages, their types, Ctrl-C, and a library that is missing.

Every example of a docstring is run, and every block of Python of the pages below, which has to print what the block
`text` after it shows.
"""

import re

import pytest

from binding_checks import PACKAGE, ROOT, named_library, python

PAGES = {"README.md": 0, "docs/PYTHON.md": 5, "examples/python/README.md": 3}
"""The pages, each with how many blocks of Python it has at least."""
MODULES = {"provedflow": "array", "provedflow.calls": "numpy", "provedflow.scipy": "scipy",
           "provedflow.networkx": "networkx", "provedflow.pixels": "numpy"}
"""The modules with examples, and what each needs."""


@pytest.mark.parametrize("name, needed", MODULES.items())
def test_docstrings(name, needed):
    pytest.importorskip(needed)
    script = ("import doctest, importlib, sys; found = doctest.testmod(importlib.import_module(sys.argv[1]));"
              "sys.exit(found.failed > 0 or not found.attempted)")
    assert python("-c", script, name) == (0, "", "")


def blocks(page):
    """The blocks of Python of a page, each with what it is shown to print."""
    text = (ROOT / page).read_text(encoding="utf-8")
    return re.findall(r"```python\n(.*?)```(?:(?:(?!```).)*?```text\n(.*?)```)?", text, re.DOTALL)


BLOCKS = {f"{page} {number}": block for page in PAGES for number, block in enumerate(blocks(page), 1)}


def test_pages_have_examples():
    assert all(len(blocks(page)) >= least for page, least in PAGES.items())


@pytest.mark.parametrize("code, shown", BLOCKS.values(), ids=BLOCKS)
def test_pages(code, shown):
    for needed in re.findall(r"^(?:import|from) (?:provedflow\.)?(numpy|scipy|networkx)\b", code, re.M):
        pytest.importorskip(needed)
    assert python("-c", code) == (0, shown, "")


TYPED = """
import numpy as np
import provedflow
from provedflow.pixels import Grid
from provedflow.scipy import maximum_flow

whole = provedflow.maximum_flow((place for place in (0, 1)), [1, 2], (4 for _ in "ab"), np.int64(0), np.uint8(2))
units: int = whole.value + whole.flows[0]
cut = provedflow.minimum_cut(np.array([0]), np.array([1]), np.ones(1), np.array([0]), [1], nearest="sink")
side: bool = bool(cut.side[0])
part: float = provedflow.minimum_cut([0], [1], [0.5], 0, 1, np.int64(2)).value + cut.gap
grid = Grid((2, 2), 4)
grid.join(np.ones((2, 2)))
cost: float = grid.cut(nearest="sinks").value
"""
MISTYPED = """
provedflow.minimum_cut([0], [1], [1], 0, 1, nearest="middle")
provedflow.minimum_cut([0], [1], [1], 0, 1).side.no_such()
provedflow.maximum_flow([0], [1], [1], 0, 1).flows.no_such()
provedflow.maximum_flow([0], [1], [1], 0, 1).value.no_such()
provedflow.maximum_flow([0], [1], ["1"], 0, 1)
provedflow.maximum_flow([0], [1], [1], 0, 1, nodes=4.0)
grid.cut(nearest="middle")
maximum_flow(None, 0, 1, method="push")
"""


def test_types(tmp_path):
    """What is right and what the pages show have no errors of types, and each line of what is wrong has one."""
    pytest.importorskip("mypy")
    files = {"right": TYPED, "wrong": TYPED + MISTYPED}
    for name, code in {**files, **{re.sub(r"\W", "_", name): code for name, (code, _) in BLOCKS.items()}}.items():
        (tmp_path / f"{name}.py").write_text(code)
    words = "--strict", "--ignore-missing-imports", "--follow-imports=silent", "--no-incremental"
    printed = python("-m", "mypy", *words, str(tmp_path), MYPYPATH=str(PACKAGE))[1]
    wrong = re.findall(r"(\w+)\.py:(\d+): error", printed)
    lines = range(TYPED.count("\n") + 2, (TYPED + MISTYPED).count("\n") + 1)
    assert set(wrong) == {("wrong", str(line)) for line in lines}, printed


def test_ctrl_c():
    """Ctrl-C works while a foreign call runs, and a long call of the library is made in that way."""
    code = """if True:
        import ctypes, os, signal, threading, time
        import provedflow
        from provedflow import calls
        signal.signal(signal.SIGINT, signal.default_int_handler)  # a shell's background command ignores it
        threading.Timer(0.2, os.kill, (os.getpid(), signal.SIGINT)).start()
        start = time.monotonic()
        try:
            calls.interruptible(ctypes.CDLL(None).sleep, [60], ())
        except KeyboardInterrupt:
            print("heard" if time.monotonic() - start < 30 else "late")
        made = []
        calls.interruptible = lambda export, words, kept: made.append(words) or export(*words)
        arcs = calls.LONG
        print(provedflow.maximum_flow([0] * arcs, [1] * arcs, [1] * arcs, [0], [1], 2).value == arcs, len(made))"""
    assert python("-c", code) == (0, "heard\nTrue 1\n", "")


def test_missing_library():
    """Where the library isn't, the package can be imported, and a call says what is missing."""
    errors = python("-c", "import provedflow; provedflow.edge_connectivity([0], [1])", PROVEDFLOW_LIBRARY="/no/such")[2]
    assert re.search("LibraryNotFound: .*/no/such.* PROVEDFLOW_LIBRARY", errors), errors
