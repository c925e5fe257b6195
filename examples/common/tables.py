"""Tables as spreadsheets save them: a row of column names, then rows of texts, separated by commas, semicolons or tabs.

    for row in read_table("roads.csv", "from", "to", "capacity"):
        print(row.name("from"), row.name("to"), row.whole("capacity"))

Rows are counted as a spreadsheet counts them: the column names are row 1. An error is a `Refused` with its row
and column. Texts are brought into one form of Unicode (NFC), so that names that look alike are the same.
"""

import codecs
import csv
import functools
import io
import itertools
import os
import re
import sys
import unicodedata
from fractions import Fraction

from script import Refused

GREATEST = 2 ** 64 - 1  # The greatest capacity that `flow` takes.
OTHER_NAMES = {"from": ("source", "src", "one"), "to": ("target", "dst", "other"), "capacity": ("weight", "cap"),
               "place": ("site", "node")}
"""What a column may be called too. Small letters and capitals are the same."""
WAYS = {mark + point: re.compile(
    rf"([0-9]+(?:[{point}][0-9]+)?(?:e[+-]?[0-9]{{1,2}})?|[1-9][0-9]{{0,2}}(?:[{mark}][0-9]{{3}})+(?:[{point}][0-9]+)?)"
    r"\s*((?!e[+-]?[0-9])(?:/?[^\W\d_]|[%‰€$£¥]).*)?", re.IGNORECASE)
    for mark, point in ((",", "."), (".", ","), (" '’", "."), (" '’", ","))}
"""The ways to write a number and its unit, by what separates thousands and, last, what separates decimals."""


def numbers(texts, points=",."):
    """For each text of a column what it can be: pairs of a number from 0, in Python's way, and its unit. All texts are
    written in one way, with one of these decimal points, which those with two separators or without groups of three
    tell. Where two ways are left that differ, a text has two pairs; where none is, it has none."""
    texts, left, found = dict.fromkeys(texts), {way: form for way, form in WAYS.items() if way[-1] in points}, {}
    for text in texts:
        if not (text.isascii() and text.isdigit()):  # Digits alone are the same in every way.
            fits = {way: fit for way, form in left.items() if (fit := form.fullmatch(text))}
            left, found[text] = {way: left[way] for way in fits} or left, fits
    read = {text: {(re.sub(f"[{way[:-1]}]", "", fit[1]).replace(way[-1], "."), fit[2] or "")
                   for way, fit in fits.items() if way in left} for text, fits in found.items()}
    return {text: read.get(text, {(text, "")}) for text in texts}


def only_number(text, found):
    """The number and the unit of a text, where it can be one number alone."""
    if len(found) == 1:
        (digits, unit), = found
        return Fraction(digits), unit
    if not any(form.fullmatch(text) for form in WAYS.values()):
        raise Refused(f"'{text}' isn't a number from 0, as 52 or 52.5")
    if not found:
        raise Refused(f"'{text}' separates thousands or decimals unlike the rows before it")
    less, more = sorted(float(digits) for digits, _ in found)
    shown, other = re.match(r"[\d.,]+", text)[0], "," if "." in text else "."
    raise Refused(f"'{text}' can be {more:g} or {less:g}: write {shown}{other}0 or {shown}0")


class Row:
    """A row: `row[column]` is its text, empty where the table has no such column. Blanks around a text don't count, and
    a run of blanks within it is one blank. `numbers` tells what the texts of a column of the table can be."""

    def __init__(self, path, number, texts, numbers_of):
        self.path, self.number, self.texts, self.numbers_of = path, number, texts, numbers_of

    def __getitem__(self, column):
        return self.texts.get(column, "")

    def refuse(self, column, words):
        """Raises an error about this row's text in a column."""
        raise Refused(f"{self.path}: row {self.number}, column {column}: {words}")

    def name(self, column):
        """The text, which has to be there."""
        return self[column] or self.refuse(column, "it is empty")

    def whole(self, column, most=GREATEST, scale=None):
        """The whole number from 0 up to the most, once it is multiplied with the scale, if there is one."""
        text = self.name(column)
        try:
            number, unit = only_number(text, self.numbers_of(column)[text])
        except Refused as failure:
            self.refuse(column, failure)
        if unit:
            self.refuse(column, f"'{text}' isn't a number from 0, as 52 or 52.5")
        number *= scale or 1
        if number.denominator > 1:
            more = next(10 ** digits for digits in itertools.count(1) if (number * 10 ** digits).denominator == 1)
            hint = f"; --scale {scale * more} counts in smaller units" if scale else ""
            self.refuse(column, f"'{text}' isn't whole{hint}")
        return int(number) if number <= most else self.refuse(column, f"'{text}' isn't between 0 and {most}")


def read_table(path, *columns, names=(), known=None):
    """The rows of a table with these columns. `names` says what some are called in this table; a note on standard error
    names columns that aren't among the `known` ones."""
    rows = _fields(path)
    if not rows:
        raise Refused(f"{path}: row 1 must name the columns {', '.join(columns)}, but the file is empty")
    (_, header), *rows = rows
    keys = _keys(path, header, columns, dict(names))
    strange = [name for name, key in zip(header, keys) if name and key not in (*columns, *(known or keys))]
    if strange:
        print(f"{os.path.basename(sys.argv[0])}: {path}: the column {', '.join(strange)} is unknown and ignored; known "
              f"are {', '.join([*columns, *known])}", file=sys.stderr, flush=True)
    numbers_of = functools.cache(lambda column: numbers(row[column] for row in found))
    found = [Row(path, number, dict(zip(keys, fields)), numbers_of) for number, fields in rows]
    for row, (number, fields) in zip(found, rows):
        for column in set(columns) - set(row.texts):
            row.refuse(column, f"the row ends before it: it has {len(fields)} of {len(keys)} columns")
        if any(fields[len(keys):]):
            raise Refused(f"{path}: row {number} has {len(fields)} columns where row 1 has {len(keys)}; put quotes "
                          "around a text that contains the separator of columns")
    return found


def once(rows, column):
    """The rows by their name in a column, in which no name may stand twice."""
    found = {}
    for row in rows:
        name = row.name(column)
        if name in found:
            row.refuse(column, f"'{name}' is already in row {found[name].number}")
        found[name] = row
    return found


def _keys(path, header, columns, names):
    """The column that stands at each place of the header."""
    folded = [name.casefold() for name in header]
    keys = list(folded)
    for column in columns:
        wanted = [names[column].casefold()] if names.get(column) else [column, *OTHER_NAMES.get(column, ())]
        found = next((name for name in wanted if name in folded), wanted[0])
        if folded.count(found) != 1:
            fault = "is twice" if found in folded else "isn't"
            raise Refused(f"{path}: row 1: the column {found} {fault} among {', '.join(filter(None, header))}")
        keys[folded.index(found)] = column
    return keys


def _fields(path):
    """The number and the texts of each row that isn't empty, out of a file in UTF-8, or in UTF-16 with its mark. The
    line `sep=;` of Excel names the separator of columns, and Excel doesn't count it as a row; else it is the first
    row's most frequent one outside quotes."""
    with open(path, "rb") as file:
        raw, number = file.read(), 0
    wide = raw.startswith((codecs.BOM_UTF16_LE, codecs.BOM_UTF16_BE))
    try:
        text = unicodedata.normalize("NFC", raw.decode("utf-16" if wide else "utf-8-sig"))
    except UnicodeDecodeError as failure:
        row = 1 + raw.count(b"\n", 0, failure.start + 3 * raw.startswith(codecs.BOM_UTF8))
        raise Refused(f"{path}: row {row} isn't UTF-8; save the table as 'CSV UTF-8'") from None
    named = re.match(r"sep=(.)\r?\n", text)
    text = text[named.end():] if named else text
    mark = named.group(1) if named else max(",;\t", key="".join(text.split("\n", 1)[0].split('"')[::2]).count)
    lines, rows = csv.reader(io.StringIO(text, newline=""), delimiter=mark, skipinitialspace=True, strict=True), []
    try:
        for number, fields in enumerate(lines, start=1):
            if any(map(str.strip, fields)):
                rows.append((number, [" ".join(field.split()) for field in fields]))
    except csv.Error as failure:
        raise Refused(f"{path}: row {number + 1} isn't a row of a table: {failure}") from None
    return rows


def terminals(sources, sinks, names, where):
    """The sources and the sinks, from two lists in texts that are separated by commas; a name with a comma stands in
    double quotes. Each has to be one of these names, and none may be both."""
    both = []
    for words in (sources, sinks):
        fields = next(csv.reader([unicodedata.normalize("NFC", words)], skipinitialspace=True), [])
        found = [" ".join(field.split()) for field in fields]
        for name in (name for name in found if name not in names):
            raise Refused(f"'{name}' isn't in {where}")
        if len(set(found)) < len(found) or not found:
            raise Refused(f"'{words}' names a node twice, or none")
        both.append(found)
    for name in set(both[0]) & set(both[1]):
        raise Refused(f"'{name}' is a source and a sink")
    return both
