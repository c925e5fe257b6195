"""Maximum flows, minimum cuts and edge connectivity, by a library that is proved.

    >>> import provedflow
    >>> provedflow.maximum_flow([0, 0, 1, 1, 2], [1, 2, 2, 3, 3], [3, 2, 1, 2, 3], 0, 3)
    Flow(value=5, flows=[3, 2, 1, 2, 3])

A network is given by arrays: arc i leads from node src[i] to node dst[i] and may carry up to capacities[i] units.
Nodes are the numbers from 0 on. Parallel and opposite arcs, self-loops, arcs into a source and out of a sink are
accepted, and so are several sources and sinks. Limits: 2 to 268,435,456 nodes, at most 1,073,741,824 arcs, or
536,870,912 where links are counted, capacities from 0 to 18,446,744,073,709,551,615 (2^64 - 1). A value is an int of
any size; where capacities are floats it is a float with the attribute `gap`, as `help(maximum_flow)` says.

An array is a NumPy array or what stands for one (as a column of pandas), another object with a buffer of machine
numbers (as array.array), or any iterable of numbers; bools are 0 and 1. Floats need NumPy. Answers are NumPy arrays
where one of the arrays is, and else lists. A contiguous array of 32 bits for ends and of 64 bits for capacities and
flows is read where it lies, with no copy; other kinds of integers are converted, and no integer is ever rounded or
wrapped around. While a call runs, no other thread may write its arrays; calls on different arrays may run at once, and
other Python threads go on meanwhile. Ctrl-C raises KeyboardInterrupt at once; a call of 20,000 arcs or more then goes
on to its end in a thread of its own, so don't change its arrays.

`provedflow.scipy`, `provedflow.networkx` and `provedflow.pixels` take sparse matrices, graphs and pictures. The work is
done by the C library libprovedflow.so.0, which is looked for where the environment variable PROVEDFLOW_LIBRARY says,
then beside this package, then where the system looks for libraries. Its exports are proved to answer what their
contracts say of the lists that they are given. The Python around them is tested.
"""

from provedflow.calls import Cut, Flow, Verdict, check, edge_connectivity, maximum_flow, minimum_cut
from provedflow.library import (
    GREATEST_CAPACITY, MOST_ARCS, MOST_LINKS, MOST_NODES, FlowError, LibraryNotFound)

__all__ = ["Cut", "Flow", "FlowError", "GREATEST_CAPACITY", "LibraryNotFound", "MOST_ARCS", "MOST_LINKS", "MOST_NODES",
           "Verdict", "check", "edge_connectivity", "maximum_flow", "minimum_cut"]
__version__ = "0.1.0"
