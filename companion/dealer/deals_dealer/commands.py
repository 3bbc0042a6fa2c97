"""The commands of `deals` that do what a script asks for, and what is other in them."""

import dataclasses
import shlex
from typing import Optional

from .formulas import Always, all_of
from .meaning import Meaning
from .names import plain, written
from .tree import SUITS, Action, Place, Refusal, Script

LONGEST = 1024
MOST_BOARDS = 4294967295
# What dealer's manual says; dealer 20211121 tries ten million deals, and counts all that meet the condition.
GENERATE, PRODUCE, PRODUCE_COUNTED = 1_000_000, 40, 100_000
SEED = 1
ORDER = "AKQJT98765432"
# Debian's dealer sets another count by altcount than its manual says: that of two numbers before. It takes lengths in
# predeal, and deals as without them.
ALTCOUNT = "altcount sets the count that dealer's manual says; dealer 20211121 sets another"
LENGTHS = "lengths in predeal are kept, as dealer's manual says; dealer 20211121 ignores them"

# The actions that write boards: the look, and what is other.
LOOKS = {
    "printall": (("--format=hands",), ""),
    "printew": (("--show=ew", "--format=hands"), ""),
    "printpbn": (("--format=pbn",), ""),
    "printcompact": (("--format=hands",), "hand records in place of four lines a deal"),
    "printoneline": (("--format=json",), "JSON in place of dealer's own line"),
}


@dataclasses.dataclass(frozen=True)
class Command:
    """A command with its words, and what a person is told of it."""

    words: tuple[str, ...]
    notes: tuple[str, ...] = ()

    def line(self) -> str:
        return shlex.join(self.words)


class Translation:
    """A script, as commands."""

    def __init__(self, script: Script, seed: Optional[int]) -> None:
        self.script = script
        self.meaning = Meaning(script.weights)
        chosen = seed if seed is not None else script.seed
        self.seed = SEED if chosen is None else chosen

    def where(self) -> list[str]:
        """The condition, with the lengths that seats are given."""
        truths = [self.meaning.truth(length) for length in self.script.lengths]
        if self.script.condition is not None:
            truths.append(self.meaning.truth(self.script.condition))
        formula = all_of(*truths)
        if formula == Always(True):
            return []
        text = min(written(formula), plain(formula), key=lambda text: len(text) > LONGEST)
        if len(text) > LONGEST:
            raise Refusal(self.place(), too_long("the condition", text))
        return [f"--where={text}"]

    def place(self) -> Place:
        return self.script.condition.at if self.script.condition else Place(1, 1)

    def hands(self) -> list[str]:
        return [f"--{seat}={hand(held)}" for seat, held in self.script.cards.items()]

    def which(self, produce: int) -> list[str]:
        script = self.script
        boards = min(script.produce or produce, MOST_BOARDS)
        tried = script.generate or GENERATE
        return [f"--seed={self.seed}", f"--boards={boards}", f"--candidates={tried}", *self.hands(), *self.where()]

    def made(self, look: tuple[str, ...], note: str) -> Command:
        """Boards. Dealer has one dealer and one vulnerability for all of them."""
        dealer = (self.script.dealer or "north")[0].upper()
        table = [f"--dealer={dealer}", f"--vulnerable={self.script.vulnerable or 'None'}"]
        return Command(("deals", "make", *self.which(PRODUCE), *table, *look), self.notes(note))

    def counted(self, action: Action) -> Command:
        texts = [self.meaning.number(expression) for expression in action.expressions]
        asked = [f"{option}={text}" for option, text in zip(("--of", "--by"), texts)]
        for text in texts:
            if len(text) > LONGEST:
                raise Refusal(action.at, too_long("this", text))
        note = "all values are shown, and not only those between the bounds" if action.bounds else ""
        return Command(("deals", "count", *self.which(PRODUCE_COUNTED), *asked), self.notes(note))

    def notes(self, note: str) -> tuple[str, ...]:
        """What is other in an action, and in the whole script."""
        alternative = ALTCOUNT if self.script.weights.keys() - {"hcp"} else ""
        lengths = LENGTHS if self.script.lengths else ""
        return tuple(text for text in (note, alternative, lengths) if text)

    def command(self, action: Action) -> list[Command]:
        """What an action becomes."""
        if action.name in ("average", "frequency"):
            return [self.counted(action)]
        if action.name == "print":
            return [self.made((f"--show={shown}", "--format=html"), "") for shown in pages(action.seats)]
        if action.name == "printes" or action.expressions:
            raise Refusal(action.at, "deals prints no expressions beside boards: count them by frequency")
        return [self.made(*LOOKS[action.name])]

    def commands(self) -> list[Command]:
        actions = self.script.actions or [Action(Place(1, 1), "printall")]
        found: dict[Command, None] = {}
        for action in actions:
            for command in self.command(action):
                found[command] = None
        return list(found)


def too_long(what: str, text: str) -> str:
    return f"{what} takes {len(text)} bytes, and deals {LONGEST} at most: shorten it"


def pages(seats: tuple[str, ...]) -> list[str]:
    """Each seat has a page of its own."""
    return list(dict.fromkeys(seats))


def hand(held: dict[str, str]) -> str:
    """A seat's cards as `deals` takes them."""
    return ".".join("".join(sorted(held.get(suit, ""), key=ORDER.index)) for suit in SUITS)
