"""Arrays of machine integers, as the C library reads and writes them, and of floats, out of what Python has.

NumPy is imported for floats in lists alone: only where it is loaded can there be an array of it.
"""

import array
import operator
import sys

from provedflow.library import GREATEST_CAPACITY, FlowError

NODE, AMOUNT = "I", "Q"
"""The kinds of elements, as the module array names them: of 32 bits for nodes, of 64 for capacities and flows."""
BYTES = {NODE: 4, AMOUNT: 8}
GREATEST = {NODE: 2 ** 32 - 1, AMOUNT: GREATEST_CAPACITY}
TYPES = {NODE: "uint32", AMOUNT: "uint64", "B": "uint8"}
INFINITE = float("inf")


def as_given(thing):
    """What a caller has given: an array of NumPy where it is one, masked or not, or stands for one, as a column of
    pandas does; anything else as it is."""
    numpy = sys.modules.get("numpy")
    if not numpy or isinstance(thing, (numpy.ndarray, numpy.generic)) or not hasattr(thing, "__array__"):
        return thing
    return numpy.asarray(thing)


def numpy_of(things):
    """The module NumPy, if one of these is an array of it; else None."""
    numpy = sys.modules.get("numpy")
    return numpy if numpy and any(isinstance(thing, numpy.ndarray) for thing in things) else None


def plain(number):
    """A number of NumPy as one of Python, and anything else as it is."""
    numpy = sys.modules.get("numpy")
    return number.item() if numpy and isinstance(number, numpy.generic) else number


class Buffer:
    """A list that the library reads or writes: its address, its length, and what keeps the memory alive. The view keeps
    it in its place, since an array of Python that has a view can't grow."""

    def __init__(self, keeper):
        self.keeper = keeper
        if isinstance(keeper, array.array):
            self.address, self.length = keeper.buffer_info()
            self.view = memoryview(keeper)
        else:
            self.address, self.length = keeper.ctypes.data, keeper.size
        # An empty list has no memory, and the library wants an address that is aligned and not 0.
        self.address = self.address if self.length else 8

    def __len__(self):
        return self.length


def read(thing, kind, name, fractions=False):
    """The elements of an array or a sequence, as a list for the library; where fractions may be and one element is a
    float, an array of float64 in its place.

    Raises TypeError where an element is no such number, FlowError where one is out of range or the array has more than
    one axis, and ImportError where floats in a list need NumPy, and it isn't installed.
    """
    if numpy_of([thing]):
        refuse_masked(thing, name)
        if thing.ndim != 1:
            raise FlowError(f"{name} has to have one axis, and has the shape {thing.shape}")
        if thing.dtype.kind != "O":
            return read_numpy(thing, kind, name, fractions)
    if isinstance(thing, array.array) and thing.typecode == kind:
        return Buffer(thing)
    numbers = listed(thing, name)
    try:
        return Buffer(array.array(kind, numbers))
    except (TypeError, OverflowError, ValueError):
        numbers = list(map(plain, numbers))
    has_floats = fractions and any(isinstance(number, float) for number in numbers)
    most = sys.float_info.max if has_floats else GREATEST[kind]
    for place, number in enumerate(numbers):
        is_float = has_floats and isinstance(number, float)
        if not is_float:
            number = whole(number, f"{name}[{place}]", "a number" if fractions else "a whole number")
        if not 0 <= number <= (INFINITE if is_float else most):
            raise out_of_range(f"{name}[{place}]", number, kind)
    return floats_of(numbers) if has_floats else Buffer(array.array(kind, numbers))


def listed(thing, name):
    """The elements of a sequence, or whatever can be gone through, as a list."""
    is_text = thing is None or isinstance(thing, (str, bytes, bytearray))
    try:
        if not isinstance(thing, (list, tuple)):
            thing = thing.tolist() if isinstance(thing, memoryview) else list(None if is_text else thing)
    except TypeError:
        what = type(thing).__name__ if is_text else repr(thing)
        raise TypeError(f"{name} has to be an array or a sequence of numbers, and is {what}") from None
    refuse_masked(thing, name)
    return thing


def floats_of(numbers):
    """Numbers as an array of floats, for which NumPy is imported."""
    try:
        import numpy
    except ImportError:
        raise ImportError("weights with fractions need NumPy") from None
    return numpy.array(list(map(float, numbers)))


def out_of_range(place, number, kind):
    """The error about a number that is too small or too great."""
    what = f"a whole number from 0 to {GREATEST_CAPACITY}" if isinstance(number, int) else "a number from 0"
    return FlowError(f"{place} has to be {'a node' if kind == NODE else what}, and is {number}")


def read_numpy(thing, kind, name, fractions):
    """The same for an array of NumPy: where its elements lie as they are read, no copy is made."""
    numpy = sys.modules["numpy"]
    check_numbers(thing, kind, name, fractions)
    if thing.dtype.kind == "f":
        return numpy.ascontiguousarray(thing, numpy.float64)
    fits = thing.dtype.itemsize == BYTES[kind] and thing.dtype.isnative
    if fits and thing.flags.c_contiguous and thing.flags.aligned:
        return Buffer(thing)
    return Buffer(numpy.ascontiguousarray(thing, TYPES[kind]))


def check_numbers(thing, kind, name, fractions):
    """Checks the kind of an array of NumPy, with any number of axes, and that no element is out of range."""
    if thing.dtype.kind not in ("biuf" if fractions else "biu") or thing.dtype.itemsize > 8:
        raise TypeError(f"{name} has to have {'' if fractions else 'whole '}numbers, and is an array of {thing.dtype}")
    place, is_wide = None, thing.dtype.itemsize > BYTES[kind]
    if thing.size and thing.dtype.kind in "if" and not thing.min() >= 0:  # which nan isn't
        place = thing.argmin()
    elif thing.size and is_wide and thing.max() > GREATEST[kind]:
        place = thing.argmax()
    if place is not None:
        place = sys.modules["numpy"].unravel_index(place, thing.shape)
        raise out_of_range(f"{name}{list(map(int, place)) or ''}", thing[place].item(), kind)


def refuse_masked(thing, name):
    """Checks that no element of an array, or of lists of these, is masked: what lies below a mask is no number of the
    caller's."""
    numpy = sys.modules.get("numpy")
    if isinstance(thing, (list, tuple)) and numpy and not set(map(type, thing)) <= {int, float}:
        for element in thing:
            refuse_masked(element, name)
    elif numpy and isinstance(thing, numpy.ma.MaskedArray) and numpy.ma.is_masked(thing):
        raise TypeError(f"{name} has masked elements, which are no numbers")


def room(numpy, kind, length):
    """A list for the library to write: a NumPy array if that module is given, else an array of Python."""
    if numpy:
        return Buffer(numpy.empty(length, TYPES[kind]))
    return Buffer(array.array(kind, bytes(length * array.array(kind).itemsize)))


def terminals(thing, name):
    """The nodes of a terminal or of several, as a list for the library."""
    refuse_masked(thing, name)
    try:
        thing = [operator.index(thing)]
    except TypeError:
        pass
    return read(thing, NODE, name)


def whole(number, name, what="a whole number"):
    """A whole number of any kind as an int."""
    try:
        return operator.index(number)
    except TypeError:
        raise TypeError(f"{name} has to be {what}, and is {number!r}") from None
