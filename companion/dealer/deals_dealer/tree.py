"""What a script says, as a tree: expressions, and what is asked for."""

import dataclasses
from typing import Optional, Union

SEATS = ("north", "east", "south", "west")
SUITS = ("spades", "hearts", "diamonds", "clubs")


@dataclasses.dataclass(frozen=True)
class Place:
    """A line and a column of the script, counted from 1."""

    line: int
    column: int


class Refusal(Exception):
    """What can't be read or said, where, and what to do."""

    def __init__(self, place: Place, text: str) -> None:
        super().__init__(text)
        self.place, self.text = place, text


@dataclasses.dataclass(frozen=True)
class Number:
    at: Place
    value: int


@dataclasses.dataclass(frozen=True)
class Count:
    """What is counted of a hand, or of a suit of it: `hcp`, `top3`, `len` and so on."""

    at: Place
    what: str
    seat: str
    suit: Optional[str]


@dataclasses.dataclass(frozen=True)
class Shape:
    """Shapes that are added and taken away: a sign, whether in any order, and four lengths."""

    at: Place
    seat: str
    parts: tuple[tuple[str, bool, str], ...]


@dataclasses.dataclass(frozen=True)
class HasCard:
    at: Place
    seat: str
    rank: str
    suit: str


@dataclasses.dataclass(frozen=True)
class Unary:
    """`not` or `-`."""

    at: Place
    sign: str
    of: "Expression"


@dataclasses.dataclass(frozen=True)
class Binary:
    """Two expressions that `and`, `or`, a comparison or an operator of arithmetic joins."""

    at: Place
    sign: str
    left: "Expression"
    right: "Expression"


@dataclasses.dataclass(frozen=True)
class Chosen:
    at: Place
    test: "Expression"
    then: "Expression"
    other: "Expression"


@dataclasses.dataclass(frozen=True)
class Named:
    """What a name stands for."""

    at: Place
    name: str
    of: "Expression"


Expression = Union[Number, Named, Count, Shape, HasCard, Unary, Binary, Chosen]


@dataclasses.dataclass(frozen=True)
class Action:
    """What is done with the deals: its name, its expressions, and its seats."""

    at: Place
    name: str
    expressions: tuple[Expression, ...] = ()
    seats: tuple[str, ...] = ()
    bounds: tuple[int, ...] = ()


@dataclasses.dataclass
class Script:
    """All that a script asks for."""

    generate: Optional[int] = None
    produce: Optional[int] = None
    seed: Optional[int] = None
    dealer: Optional[str] = None
    vulnerable: Optional[str] = None
    # Of each seat the ranks of each suit.
    cards: dict[str, dict[str, str]] = dataclasses.field(default_factory=dict)
    lengths: list[Expression] = dataclasses.field(default_factory=list)
    # Weights of the ranks, from the ace to the two.
    weights: dict[str, tuple[int, ...]] = dataclasses.field(default_factory=dict)
    condition: Optional[Expression] = None
    actions: list[Action] = dataclasses.field(default_factory=list)
