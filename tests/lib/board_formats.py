"""The formats of boards: how a board begins and ends in each. The tests go through this table, and it has to have each
format that the program's help lists."""

import dataclasses
import subprocess

import harness


@dataclasses.dataclass(frozen=True)
class Format:
    """How a board begins, as a pattern for the begin of a line, and how it ends."""

    begins: bytes
    ends: bytes


SECTION = Format(rb'<section class="board"', b"</section>\n")
TABLE = {
    "pbn": Format(rb"\[Deal ", b"\n\n"),
    "hands": Format(rb"Board \d", b"\n\n"),
    "lin": Format(rb"qx\|", b"\n"),
    "html": SECTION,
    "sheet": SECTION,
    # A board has a slip for each hand.
    "slips": Format(rb'<section class="slip">\n<h2>\d+ North', b"</section>\n"),
    "json": Format(rb'\{"board":', b"\n"),
}
FORMATS = tuple(TABLE)


def listed():
    """The formats that the help of `make` lists."""
    told = subprocess.run([harness.PROGRAM, "make", "--help"], capture_output=True, text=True, check=True).stdout
    text = told.partition("--format")[2].partition("[possible values: ")[2].partition("]")[0]
    return tuple("".join(text.split()).split(","))


def checked():
    """Whether the table has just the formats that there are."""
    there = listed()
    yield "the table of formats", None if sorted(there) == sorted(FORMATS) else f"the program has {', '.join(there)}"
