"""A second reading of texts of games: what boards a text spells, up to a line that is refused.

A line ends with LF, and a CR before it is dropped. A line that begins with `%` is skipped, and so are text in
braces, which may go over lines, and text from `;` to the end of its line, outside a tag. A tag is `[`, a name of
letters, digits and `_`, blanks, a value in quotes, in which a backslash takes the next byte with it, blanks, `]`. All
else but blanks is skipped up to the next line that begins with `[`. A game ends at an empty line, at a tag of a kind
that it has, or at the end of the text; one with a Deal tag is a board. Three tags tell of its tricks.

Here a text is split at its line ends, and each line is read with regular expressions.
"""
from __future__ import annotations

import re
from dataclasses import dataclass, field
from unicodedata import bidirectional, category

MOST_BYTES = 4096
MOST_NUMBER = 2**40
SEATS = "NESW"
DEALERS = "NESWNESWNESWNESW"
SIDES = "None NS EW All NS EW All None EW All None NS All None NS EW".split()
VULNERABLE = {"none": "None", "-": "None", "love": "None", "ns": "NS", "ew": "EW", "all": "All", "both": "All"}
TRICKS = {
    "DoubleDummyTricks": r"[0-9a-dA-D]{20}",
    "OptimumScore": r"(NS|EW) [0-9]{1,4}",
    "ParContract": r"[A-Za-z0-9+\-*=,/]{1,24}",
}
KINDS = ("Event", "Site", "Date", "Board", "Dealer", "Vulnerable", "Deal", *TRICKS)

TAG = re.compile(rb'\[([A-Za-z0-9_]+)[ \t]*"((?:[^"\\]|\\.)*)"[ \t]*\]', re.DOTALL)
RANKS = "AKQJT98765432"


class Refused(Exception):
    """A line that is refused."""

    def __init__(self, line: int, fault: str) -> None:
        super().__init__(f"input refused at line {line}: {fault}")
        self.line = line
        self.fault = fault


@dataclass
class Board:
    """A board: its hands are those of North, East, South and West, each a list of four suits."""

    number: int
    dealer: str
    vulnerable: str
    hands: list[list[str]]
    labels: list[tuple[str, str]] = field(default_factory=list)
    tricks: tuple[str, str, str] = ("", "", "")

    def deal(self) -> str:
        """The value of a Deal tag, from North on."""
        return "N:" + " ".join(".".join(suits) for suits in self.hands)


@dataclass
class Game:
    """The tags of a game, each with its line."""

    tags: dict[str, tuple[int, str]] = field(default_factory=dict)


def hands_of(value: str) -> list[list[str]] | None:
    """The hands that a Deal tag tells, North's first."""
    if not re.fullmatch(r"[NESW]:[^ ]* [^ ]* [^ ]* [^ ]*", value, re.DOTALL):
        return None
    first = SEATS.index(value[0])
    hands: list[list[str]] = [[]] * 4
    seen: set[tuple[int, str]] = set()
    for place, text in enumerate(value[2:].split(" ")):
        suits = text.split(".")
        cards = [(suit, rank) for suit, ranks in enumerate(suits) for rank in ranks]
        if len(suits) != 4 or len(cards) != 13 or any(rank not in RANKS for _, rank in cards):
            return None
        seen.update(cards)
        hands[(first + place) % 4] = ["".join(sorted(ranks, key=RANKS.index)) for ranks in suits]
    return hands if len(seen) == 52 else None


def printable(letter: str) -> bool:
    """Whether a character is neither a control character, nor ends a line, nor sets the direction of text."""
    directions = ("LRE", "RLE", "LRO", "RLO", "PDF", "LRI", "RLI", "FSI", "PDI")
    return category(letter) not in ("Cc", "Zl", "Zp") and bidirectional(letter) not in directions


def label(value: str) -> str | None:
    """The text of an event or a site in UTF-8, if it can be one."""
    try:
        text = value.encode("latin1").decode()
    except UnicodeDecodeError:
        return None
    whole = len(text) <= 100 and "\\" not in text and text not in ("?", "#")
    return text if whole and all(map(printable, text)) else None


def labels_of(game: Game) -> list[tuple[str, str]]:
    """The labels of a game: `?` and `#` are none."""
    values = {name: label(game.tags[name][1]) for name in ("Event", "Site") if name in game.tags}
    date = game.tags["Date"][1] if "Date" in game.tags else ""
    values["Date"] = date if re.fullmatch(r"[0-9]{4}\.[0-9]{2}\.[0-9]{2}", date) else None
    return [(name, value) for name, value in values.items() if value is not None]


def tricks_of(game: Game) -> tuple[str, str, str]:
    """The digits, par and its contract that a game tells: each only if it is of its form, and the one before is there."""
    told = ["", "", ""]
    for place, (name, form) in enumerate(TRICKS.items()):
        value = game.tags[name][1] if name in game.tags else ""
        if not re.fullmatch(form, value):
            break
        told[place] = value if place else value.lower()
    return told[0], told[1], told[2]


def board_of(game: Game, last: int) -> Board | None:
    """The board of a game that ends, after the one of number `last`."""
    if "Deal" not in game.tags:
        return None
    faults: list[tuple[int, int, str]] = []
    number, dealer, vulnerable = last + 1, "?", "?"
    hands: list[list[str]] | None = None
    for order, (name, (line, value)) in enumerate(game.tags.items()):
        if name == "Deal":
            hands = hands_of(value)
            if hands is None:
                faults.append((line, order, "not a deal"))
        elif name == "Board":
            number = int(value) if re.fullmatch("[0-9]+", value) else 0
            if not 1 <= number <= MOST_NUMBER:
                faults.append((line, order, "not a board's number"))
        elif name == "Dealer":
            dealer = value
            if value not in ("N", "E", "S", "W", "?"):
                faults.append((line, order, "not a dealer"))
        elif name == "Vulnerable":
            vulnerable = "?" if value == "?" else VULNERABLE.get(value.lower(), "")
            if not vulnerable:
                faults.append((line, order, "not a vulnerability"))
    if faults:
        line, _, fault = min(faults)
        raise Refused(line, fault)
    assert hands is not None
    return Board(
        number,
        DEALERS[(number - 1) % 16] if dealer == "?" else dealer,
        SIDES[(number - 1) % 16] if vulnerable == "?" else vulnerable,
        hands,
        labels_of(game),
        tricks_of(game),
    )


@dataclass
class Reader:
    """What was read so far."""

    game: Game = field(default_factory=Game)
    boards: list[Board] = field(default_factory=list)
    last: int = 0
    skips: bool = False
    comment: bool = False

    def end_game(self) -> None:
        """Ends the game."""
        board = board_of(self.game, self.last)
        self.game = Game()
        if board is not None:
            self.boards.append(board)
            self.last = board.number

    def take_tag(self, line: int, name: str, value: str) -> None:
        """Takes a tag."""
        if name not in KINDS:
            return
        if name in self.game.tags:
            self.end_game()
        self.game.tags[name] = (line, value)

    def take_line(self, line: int, text: bytes) -> None:
        """Takes a line, which ends a game if it is empty."""
        if not text and not self.comment:
            self.end_game()
            return
        if text.startswith(b"%"):
            self.too_long(line, len(text))
            return
        at = 0
        if text.startswith(b"[") and not self.comment:
            self.skips = False
        while at < len(text):
            if self.comment:
                end = text.find(b"}", at)
                self.comment = end < 0
                at = len(text) if end < 0 else end + 1
            elif text[at : at + 1] == b"{":
                self.comment = True
                at += 1
            elif text[at : at + 1] == b";":
                at = len(text)
            elif text[at : at + 1] == b"[" and not self.skips:
                tag = TAG.match(text, at)
                if tag is None:
                    raise Refused(line, self.fault_within(text, at))
                self.too_long(line, tag.end())
                self.take_tag(line, tag[1].decode("latin1"), tag[2].decode("latin1"))
                at = tag.end()
            else:
                self.skips = self.skips or text[at : at + 1] not in (b" ", b"\t")
                at += 1
            self.too_long(line, at)

    @staticmethod
    def fault_within(text: bytes, at: int) -> str:
        """What is wrong with what begins with `[` there and isn't a tag: it may be too long for that."""
        head = text[at:MOST_BYTES]
        begun = re.fullmatch(rb'\[([A-Za-z0-9_]+([ \t]*("((?:[^"\\]|\\.)*)("[ \t]*|\\)?)?)?)?', head, re.DOTALL)
        return "longer than 4096 bytes" if len(text) > MOST_BYTES and begun else "not a tag"

    @staticmethod
    def too_long(line: int, read: int) -> None:
        """Refuses a line of which more than its most bytes were read."""
        if read > MOST_BYTES:
            raise Refused(line, "longer than 4096 bytes")


def read(text: bytes) -> tuple[list[Board], Refused | None]:
    """The boards that a text spells, and the line that is refused, if one is."""
    reader = Reader()
    lines = text.replace(b"\r\n", b"\n").split(b"\n")
    try:
        for number, line in enumerate(lines[:-1], 1):
            reader.take_line(number, line)
        if lines[-1]:
            reader.take_line(len(lines), lines[-1])
        reader.end_game()
    except Refused as refused:
        return reader.boards, refused
    return reader.boards, None
