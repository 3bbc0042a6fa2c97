"""A small emulator of a terminal: the lines that a person sees of what it was given.

It knows printable text of UTF-8, the ends of lines, `\\r`, and of the sequences that the program draws its counts by
`ESC [K` (the row is empty from here on), `ESC [?7l` and `ESC [?7h` (a row that is too long is cut or goes on in the
next). Anything else is an error, so a sequence that this emulator doesn't know can't go unseen.
"""

import codecs
import re

COLUMNS = 80
PIECE = re.compile(r"\x1b\[(?:K|\?7[lh])|[^\x00-\x1f\x7f]+|[\r\n]")


class Screen:
    """All rows from the first on; nothing scrolls away."""

    def __init__(self):
        self.rows, self.goes_on = [[]], [False]
        self.column, self.wraps = 0, True
        self.decoder, self.left = codecs.getincrementaldecoder("utf-8")(), ""

    def feed(self, given):
        """Shows what comes next. A character or a sequence that isn't whole yet waits for the rest."""
        text = self.left + self.decoder.decode(given)
        at, whole = 0, re.search(r"(\x1b(\[\??7?)?)?\Z", text).start()
        while at < whole:
            piece = PIECE.match(text, at, whole)
            if not piece:
                raise ValueError(f"the emulator doesn't know {text[at : at + 8]!r}")
            self.show(piece[0])
            at = piece.end()
        self.left = text[whole:]

    def show(self, piece):
        if piece == "\r":
            self.column = 0
        elif piece == "\n":
            self.next_row(False)
        elif piece == "\x1b[K":
            del self.rows[-1][self.column :]
        elif piece[0] == "\x1b":
            self.wraps = piece[-1] == "h"
        else:
            for character in piece:
                self.put(character)

    def next_row(self, goes_on):
        self.rows.append([" "] * self.column if not goes_on else [])
        self.goes_on.append(goes_on)

    def put(self, character):
        if self.column == COLUMNS and self.wraps:
            self.column = 0
            self.next_row(True)
        self.column = min(self.column, COLUMNS - 1)
        row = self.rows[-1]
        row += [" "] * (self.column - len(row))
        row[self.column : self.column + 1] = [character]
        self.column += 1

    def lines(self):
        """The lines, each with the rows that it goes on in."""
        lines = []
        for row, goes_on in zip(self.rows, self.goes_on):
            if goes_on:
                lines[-1] += "".join(row)
            else:
                lines.append("".join(row).rstrip(" "))
        return lines

