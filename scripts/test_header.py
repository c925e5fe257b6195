"""The header for C against the exports of the proved crate.

Each function that the crate exports has to be declared in the header just once, and nothing else may be: the same name,
the same parameters in the same order under the same names, each of the type that the kit gives it at the border to C,
and the same result. A slice is a pointer and then a length of type size_t, named after the slice.
"""

import re

from conftest import ROOT

EXPORT = re.compile(r'#\[unsafe\(no_mangle\)\]\s*pub extern "C" fn (\w+)\(([^)]*)\)(?: -> (\w+))?')
DECLARATION = re.compile(r"^(\w+) (\w+)\(([^)]*)\);", re.M)
NUMBERS = {"u8": "uint8_t", "u32": "uint32_t", "u64": "uint64_t", "usize": "size_t"}


def parameters_for_c(parameters):
    """What the parameters of an export are in C, one text for each."""
    found = []
    for parameter in filter(None, (text.strip() for text in parameters.split(","))):
        name, kind = (text.strip() for text in parameter.split(":"))
        if kind == "Global":
            continue  # It takes no bytes, and stands in no call of C.
        borrowed, changed, slice_of, plain = re.fullmatch(r"(&)?(mut )?(?:\[(\w+)\]|(\w+))", kind).groups()
        constant = "" if changed or not borrowed else "const "
        found.append(f"{constant}{NUMBERS[slice_of or plain]} {'*' if borrowed else ''}{name}")
        if slice_of:
            found.append(f"size_t {name}_length")
    return found


def test_header(checks):
    code = "".join(file.read_text() for file in sorted((ROOT / "crates/flow_c/src").rglob("*.rt")))
    exported = [(name, NUMBERS.get(result, "void"), parameters_for_c(parameters))
                for name, parameters, result in EXPORT.findall(code)]
    header = re.sub(r"/\*.*?\*/", "", (ROOT / "c/provedflow.h").read_text(), flags=re.DOTALL)
    declared = [(name, result, [" ".join(parameter.split()) for parameter in parameters.split(",")])
                for result, name, parameters in DECLARATION.findall(header)]
    assert exported and sorted(declared) == sorted(exported)
    checks(len(declared))
