"""The fields of the pages' forms: one table, from which forms are drawn and words are made."""

import dataclasses
import enum

# Beyond this many characters a field is cut, since no option takes more.
LONGEST = 4096


class Kind(enum.Enum):
    """How a field is drawn."""

    TEXT = "text"
    NUMBER = "number"
    CONDITION = "condition"
    CHOICE = "choice"


@dataclasses.dataclass(frozen=True)
class Field:
    """A field of a form. `option` is that of `deals` or `deals-tricks` to which its value goes; of
    some of them `words` knows more."""

    name: str
    label: str
    option: str
    kind: Kind = Kind.TEXT
    default: str = ""
    choices: tuple[tuple[str, str], ...] = ()
    note: str = ""
    example: str = ""


SEATS = ("north", "east", "south", "west")
# What stands for the option `--rotate`, in place of `--dealer`.
TURNING = "turn"

TURNS = (
    (TURNING, "each in turn, with the hand of north"),
    ("", "by board number"),
    ("N", "North on each board"),
    ("E", "East on each board"),
    ("S", "South on each board"),
    ("W", "West on each board"),
)
VULNERABLE = (
    ("", "by board number"),
    ("None", "nobody"),
    ("NS", "North and South"),
    ("EW", "East and West"),
    ("All", "all"),
)

SHOWN = (
    ("", "all four"),
    ("dealer", "the dealer's"),
    *((seat, f"{seat.title()}'s") for seat in SEATS),
    ("ns", "North's and South's"),
    ("ew", "East's and West's"),
)
POINTS = (("", "shown"), ("hide", "hidden"))

CONDITION_NOTE = "Each deal has to meet it; leave it empty for any deal."
HAND_EXAMPLE = "AKQ32.K..A"

FIELDS = (
    Field("seed", "Seed", "--seed", Kind.NUMBER, "7", note="The same number gives the same boards again."),
    Field("boards", "How many boards", "--boards", Kind.NUMBER, "12"),
    Field("first_board", "First board", "--first-board", Kind.NUMBER, "1"),
    Field("first", "Begin at deal", "--first", Kind.NUMBER, "0"),
    Field("candidates", "Deals to try", "--candidates", Kind.NUMBER, "100000"),
    Field("where", "Condition", "--where", Kind.CONDITION, example="hcp(north) in 15-17 and balanced(north)",
          note=CONDITION_NOTE),
    Field("of", "What is counted", "--of", Kind.CONDITION, example="len(south,spades)",
          note="A value, such as hcp(south), or a condition."),
    Field("by", "In columns", "--by", Kind.CONDITION, example="hcp(south)",
          note="A second value or condition, or nothing."),
    Field("turn", "Dealer", "--dealer", Kind.CHOICE, TURNING, TURNS),
    Field("vulnerable", "Vulnerable", "--vulnerable", Kind.CHOICE, "", VULNERABLE),
    Field("show", "Hands on the page", "--show", Kind.CHOICE, "", SHOWN),
    Field("points", "Points of each hand", "--points", Kind.CHOICE, "", POINTS),
    *(Field(seat, seat.title(), f"--{seat}", example=HAND_EXAMPLE) for seat in SEATS),
    Field("event", "Event", "--event", example="Club night"),
    Field("site", "Club", "--site", example="Riverside"),
    Field("date", "Date", "--date", example="2026.11.24"),
    Field("makes", "A contract that makes", "--makes", example="4S-NS"),
    Field("beaten", "A contract that is beaten", "--beaten", example="3NT-NS"),
)
BY_NAME = {field.name: field for field in FIELDS}
BY_OPTION = {field.option: field for field in FIELDS}

LABELS = ("event", "site", "date")
# The fields of each page, in the order of its words.
TONIGHT = ("seed", "boards", "first_board", *LABELS)
LESSON = ("seed", "boards", "where", "turn", "vulnerable", "show", "points", *SEATS, *LABELS, "makes", "beaten")
COUNT = ("seed", "candidates", "where", "of", "by")
SEARCH = ("seed", "boards", "first", "candidates", "where", *SEATS)

# Where a page begins with another value.
DEFAULTS = {
    "tonight": {"boards": "27", "event": "Club night"},
    "search": {"boards": "4", "candidates": "1000000000"},
}

# What is said at a field that is empty, where a page can't do without it.
SEED_NEEDED = "write a number, 0 to 4294967295: the same one gives the same boards again"
BOARDS_NEEDED = "say how many boards, 1 to {most}"
NEEDED = {
    "tonight": {"seed": "draw another seed, or write the one whose boards you want again", "boards": BOARDS_NEEDED},
    "lesson": {"seed": SEED_NEEDED, "boards": BOARDS_NEEDED},
    "count": {"seed": SEED_NEEDED, "candidates": "say how many deals are tried, as 100000"},
    "search": {"seed": SEED_NEEDED, "boards": BOARDS_NEEDED},
}
# What is said at a field that is empty, where another one can't do without it.
BESIDE = {"by": ("of", "columns come beside what is counted: write a value here, as hcp(north)")}


def begins_with(page: str, name: str) -> str:
    """What a field has at first."""
    return DEFAULTS.get(page, {}).get(name, BY_NAME[name].default)
