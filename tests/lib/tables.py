"""Tables of texts, as those of second/truths and of rows/places.

A line that begins with # says something of the rows below it. In a text, \\n, \\t, \\r, \\x0c, \\x1b and \\\\ stand for what
can't be there, and \\{12 not } for `not `, twelve times.
"""

import re

ESCAPED = {"n": "\n", "t": "\t", "r": "\r", "x0c": "\x0c", "x1b": "\x1b", "\\": "\\"}


def meant(found):
    """What an escape stands for."""
    count, text, name = found.groups()
    return ESCAPED[name] if name else int(count) * text


def unescaped(text):
    """The text that a table's text stands for."""
    return re.sub(r"\\(?:\{(\d+) ([^}]*)\}|(n|t|r|x0c|x1b|\\))", meant, text)


def lines(file):
    """The lines of a table: for `LEFT | TEXT` these two, and for any other line itself and None."""
    for line in file.read_text().splitlines():
        if line and not line.startswith("#"):
            left, bar, text = line.partition(" | ")
            yield left, unescaped(text) if bar else None
