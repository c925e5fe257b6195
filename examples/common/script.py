"""The frame of a script: an error is one line on standard error, and an interrupt or a closed pipe prints nothing."""

import os
import signal
import sys

# Where the package provedflow isn't installed, the one of this repository is used.
sys.path.append(os.path.join(os.path.dirname(os.path.abspath(__file__)), "..", "..", "python"))


class Refused(Exception):
    """An error in the data or on the command line; the text says which."""


def run(main):
    """Runs a script's `main`, and ends with the status that it returns. Text is read and written in UTF-8."""
    signal.signal(signal.SIGINT, signal.SIG_DFL)
    for stream in (sys.stdin, sys.stdout, sys.stderr):
        stream.reconfigure(encoding="utf-8", errors="surrogateescape")
    try:
        status = main()
        sys.stdout.flush()
    except BrokenPipeError:
        # Whoever read the output has left. What Python would still write at its end goes nowhere.
        os.dup2(os.open(os.devnull, os.O_WRONLY), sys.stdout.fileno())
        status = 1
    except (Refused, OSError) as failure:
        name, words = getattr(failure, "filename", None), failure
        if name:
            is_missing = isinstance(failure, FileNotFoundError)
            words = f"there is no file {name}" if is_missing else f"{name} can't be opened: {failure.strerror.lower()}"
        sys.exit(f"{os.path.basename(sys.argv[0])}: {words}")
    sys.exit(status)


def count(number, thing, things=None):
    """So many of a thing, in words: '1 link', '2 links', '3 people'."""
    return f"{number:,} {thing if number == 1 else things or thing + 's'}"


def some(names, most=12):
    """The names, or the first of many."""
    names = list(names)
    return ", ".join(map(str, names[:most])) + (f" and {len(names) - most:,} more" if len(names) > most else "")


def output(words, example, name):
    """The path of a result: in the folder of --out, else in out/EXAMPLE here, or in the user's own folder where nothing
    can be written here."""
    folder = words.out or os.path.join("out", example)
    if not words.out and not os.access(".", os.W_OK):
        folder = os.path.join(os.path.expanduser("~"), "flow", folder)
    os.makedirs(folder, exist_ok=True)
    return os.path.join(folder, name)
