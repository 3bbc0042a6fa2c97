"""Gives the built program each text of the tables beside this file, and compares what is said of it.

A table of mistakes has a line `$ CONDITION` for each, and below it what the program says after its first line; lines
that begin with `#` are comments. A condition that a hint tells to write is given to the program again, on a terminal: it
is accepted, and no note says that no deal meets it.

A table of places/ has a line `WHERE | TEXT` for each: where and why the text is refused, as the program's first line has
it, and behind a `;` what could stand there. A second reader (second/grammar.py) says the same.

A table of notes/ has a line `NOTE | CONDITION` for each: a piece of the note that is shown on a terminal; `any` for any
note that no deal meets the condition, `none` for none of these, and `silent` for no note at all.

How texts are escaped is said in lib/tables.py. In what is said `\\{measures}` stands for the words of all measures, and
`\\{"measures"}` for these in quotes.
"""

import pathlib
import re

import grammar
import language
import report
import tables
from texts import fault_of_note, fault_of_suggestion, fault_of_text, safely, told

HERE = pathlib.Path(__file__).resolve().parent
# How many rows there are at the least.
LEAST = {"mistakes": 330, "places": 90, "notes": 80}


def spelled_out(said):
    """What is said, with the words of all measures in it."""
    quoted = ", ".join(f'"{word}"' for word in language.MEASURES)
    return said.replace('\\{"measures"}', quoted).replace("\\{measures}", ", ".join(language.MEASURES))


def mistakes():
    """Each table's name, with each condition and what is said of it."""
    for file in sorted((HERE / "mistakes").glob("*.txt")):
        text = re.sub(r"^#.*\n", "", file.read_text(), flags=re.M)
        _, *rows = re.split(r"^\$ ", text, flags=re.M)
        for row in rows:
            condition, said = row.split("\n", 1)
            yield file.stem, tables.unescaped(condition), spelled_out(said).rstrip("\n") + "\n"


def rows_of(folder):
    """The rows of a folder's tables, each with its table's name and its text first."""
    for file in sorted((HERE / folder).glob("*.txt")):
        yield from ((f"{folder}/{file.stem}", text, spelled_out(left)) for left, text in tables.lines(file))


def fault_of_mistake(condition, said):
    """Why what is said of the condition isn't this, or None."""
    status, text = told(condition)
    first, _, rest = text.partition("\n")
    if status != 3 or not first.startswith("condition refused"):
        return f"status {status}, {first!r}"
    if rest != said:
        return f"said {rest!r}"
    return fault_of_suggestion(said)


def fault_of_place(text, where):
    """Why the second reader or the program doesn't refuse the text in this way, or None."""
    why, _, expected = where.partition("; ")
    read, found = grammar.refusal(text.encode())
    if read != why or (expected and found != expected):
        return f"the second reader: {read}, {found}"
    return fault_of_text(text)


def judged(fault_of, kind, rows):
    """The rows of a kind, each with why it is wrong, or None; there have to be enough of them."""
    rows = list(rows)
    yield "how many there are", None if len(rows) >= LEAST[kind] else f"{len(rows)} of {kind}"
    yield from report.asked(lambda row: safely(fault_of, *row[1:]), rows, lambda row: f"{row[0]}: {row[1]!r}")


def of_mistakes():
    """The tables of mistakes."""
    yield from judged(fault_of_mistake, "mistakes", mistakes())


def of_places():
    """The tables of places."""
    yield from judged(fault_of_place, "places", rows_of("places"))


def of_notes():
    """The tables of notes."""
    yield from judged(fault_of_note, "notes", rows_of("notes"))
