"""The C library: where it is, what it exports, and what it refuses."""

import ctypes
import functools
import os

MOST_NODES = 268_435_456
"""The most nodes of a network."""
MOST_ARCS = 1_073_741_824
"""The most arcs of a network."""
MOST_LINKS = 536_870_912
"""The most arcs of a network whose links are counted."""
GREATEST_CAPACITY = 2 ** 64 - 1
"""The greatest capacity of an arc."""

NAME = "libprovedflow.so.0"
OK, NODES, LENGTHS, ARC, TERMINALS, MEMORY = range(6)
"""What a call of the library answers."""


class FlowError(ValueError):
    """The arrays are no network with its terminals. The text says what is wrong, and where."""


class Unbounded(FlowError):
    """Each cut has an infinite weight."""

    def __init__(self):
        super().__init__("a path of infinite weights leads from a source to a sink, so no cut has a value")


class LibraryNotFound(OSError):
    """The C library libprovedflow.so.0 isn't where it is looked for, or can't be loaded."""


LIST, NUMBER, ADDRESS = (ctypes.c_void_p, ctypes.c_size_t), (ctypes.c_uint32,), (ctypes.c_void_p,)
EXPORTS = {
    "provedflow_flow_lists": NUMBER + 6 * LIST + 2 * ADDRESS,
    "provedflow_cut_lists": NUMBER + 5 * LIST + NUMBER + 2 * LIST + 2 * ADDRESS,
    "provedflow_links_lists": NUMBER + 4 * LIST + 2 * NUMBER + ADDRESS,
    "provedflow_check_lists": NUMBER + 6 * LIST + 3 * ADDRESS,
}
"""The exports, each with the types of its parameters. A list is an address and a length."""


@functools.lru_cache(maxsize=None)
def library():
    """The library, loaded. Raises LibraryNotFound."""
    beside = os.path.join(os.path.dirname(os.path.abspath(__file__)), NAME)
    try:
        loaded = ctypes.CDLL(os.environ.get("PROVEDFLOW_LIBRARY") or (beside if os.path.exists(beside) else NAME))
    except OSError as failure:
        raise LibraryNotFound(
            f"the C library {NAME} can't be loaded ({failure}); install the package libprovedflow0, put the library "
            "where the system looks for libraries, or set the environment variable PROVEDFLOW_LIBRARY to its path"
        ) from None
    for name, parameters in EXPORTS.items():
        export = getattr(loaded, name)
        export.argtypes, export.restype = parameters, ctypes.c_uint32
    return loaded
