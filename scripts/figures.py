"""The rows that crates/measure prints, as scripts/plot_figures and scripts/check_figures read them.

Cells of a line are parted by two spaces or more.

- A heading has no number: what the part is about, what its rows count (threads, waiting), then the columns, each a name with its unit at the
  end (`ours ns`, `99% ns`); a last column `ratio` has no unit. A heading opens a part; equal headings are one part.
- A row has as many cells as the heading above it: a name, a count, and a figure for each column. A figure is a number, or a number with the
  least and the most of its passes: `58.0 (55.1..63.2)`.
- A line of one cell is a note of its part. Those that begin with `of which`, and rt's own lines (`run=..`), are left out.
- A row that doesn't fit its heading is left out, and named on the standard error.
"""
import re
import sys
from collections import namedtuple

Part = namedtuple("Part", "title counts columns rows notes")
Column = namedtuple("Column", "name unit")
Row = namedtuple("Row", "name count figures")
Figure = namedtuple("Figure", "value least most text")

NUMBER = r"[0-9][0-9,]*(?:\.[0-9]+)?"
RANGED = re.compile(rf"({NUMBER})(?: \(({NUMBER})\.\.({NUMBER})\))?")


def value_of(text):
    return float(text.replace(",", ""))


def figure_of(text):
    """Returns the figure of a cell; without a range its least and most are its value."""
    value, least, most = RANGED.fullmatch(text).groups()
    return Figure(value_of(value), value_of(least or value), value_of(most or value), text)


def column_of(text):
    name, _, unit = text.rpartition(" ")
    return Column("ratio", "") if text == "ratio" else Column(name or unit, unit)


def parts_of(text):
    """Returns the parts of what measure printed, by their titles."""
    parts, part = {}, None
    for line in text.splitlines():
        cells = re.split(r"  +", line.strip())
        numbers = [bool(RANGED.fullmatch(it)) for it in cells]
        if len(cells) >= 3 and not any(numbers):
            part = parts.setdefault(cells[0], Part(cells[0], cells[1], [column_of(it) for it in cells[2:]], [], []))
        elif part and len(cells) == len(part.columns) + 2 and all(numbers[1:]):
            part.rows.append(Row(cells[0], int(value_of(cells[1])), [figure_of(it) for it in cells[2:]]))
        elif part and len(cells) == 1 and not re.match(r"of which|[a-z]+[:=]|$", cells[0]):
            part.notes.append(cells[0])
        elif any(numbers):
            print(f"left out, since it does not fit its heading: {line}", file=sys.stderr)
    return parts
