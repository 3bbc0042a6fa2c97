"""What can be had of boards: one table, which buttons, addresses and tests read."""

import dataclasses


@dataclasses.dataclass(frozen=True)
class File:
    """A text of boards, and what it is for. `look` is its options, and `asks` the fields that change how it looks; one
    with `tricks` needs a solver. One that is saved is given as a file."""

    name: str
    label: str
    what: str
    look: tuple[str, ...]
    type: str
    ending: str
    saved: bool = False
    tricks: bool = False
    asks: tuple[str, ...] = ()


HTML, PBN, LIN = "text/html; charset=utf-8", "application/x-pbn", "application/x-lin"
SHEET = ("--format=sheet",)
WITH_TRICKS = (
    "Eighteen boards on a page, with the tricks of each side and par: to hang up after play. It takes some seconds."
)
FILES = (
    File("boards", "Boards", "All four hands of each board.", ("--format=html",), HTML, "html", asks=("show", "points")),
    File("handout", "Handout", "The dealer's hand alone.", ("--show=dealer", "--points=hide", "--format=html"), HTML, "html"),
    File("sheet", "Sheet", "All hands, eighteen boards on a page, to print from the browser.", SHEET, HTML, "html", asks=("points",)),
    File("slips", "Slips", "A slip for each hand, to be cut out.", ("--format=slips",), HTML, "html", asks=("show",)),
    File("tricks", "Sheet with tricks", WITH_TRICKS, SHEET, HTML, "html", tricks=True, asks=("points",)),
    File("pbn", "PBN", "For dealing machines and bridge programs.", ("--format=pbn",), PBN, "pbn", saved=True),
    File("lin", "LIN", "For Bridge Base Online.", ("--format=lin",), LIN, "lin", saved=True),
)
BY_NAME = {file.name: file for file in FILES}

TONIGHT = ("pbn", "tricks", "sheet", "slips", "lin")
LESSON = ("boards", "handout", "pbn", "lin", "sheet", "slips", "tricks")
SEARCH = ("boards", "pbn", "lin", "sheet")
