"""What a page asks for becomes words: pure functions from a form to the commands that `deals` is given."""

import dataclasses
import shlex
from collections.abc import Iterable, Mapping

from . import fields

DEALS = "deals"
TRICKS = "deals-tricks"
HINTS = "--hints=always"

Form = Mapping[str, str]


@dataclasses.dataclass(frozen=True)
class Command:
    """Programs with their words. Each reads what the one before it writes."""

    steps: tuple[tuple[str, ...], ...]

    def line(self) -> str:
        """The line to be typed into a shell."""
        return " |\n    ".join(shlex.join(step) for step in self.steps)

    def hinted(self) -> "Command":
        """The same, where the last program says what helps if it refuses something."""
        return Command((*self.steps[:-1], (*self.steps[-1], HINTS)))

    @property
    def needs_tricks(self) -> bool:
        return any(step[0] == TRICKS for step in self.steps)


def asked_for(names: Iterable[str], given: Form, page: str) -> dict[str, str]:
    """The values of these fields as a form gives them. A field that isn't there has what the page begins with."""
    return {name: cleaned(given[name]) if name in given else fields.begins_with(page, name) for name in names}


def cleaned(value: str) -> str:
    """A value without blanks around it, with line feeds alone, and with no byte that a word can't have."""
    return value.replace("\r\n", "\n").replace("\0", "\ufffd").strip()[: fields.LONGEST]


def word(option: str, value: str) -> str:
    """An option and its value as one word, so that the value may begin with a hyphen."""
    return f"{option}={value}"


def words_of(form: Form, names: Iterable[str]) -> list[str]:
    """The options of these fields; a field that is empty gives none."""
    given = [(fields.BY_NAME[name], form.get(name, "")) for name in names]
    return [word(field.option, value) for field, value in given if value]


def turned(form: Form) -> list[str]:
    """The option that says who deals."""
    return ["--rotate"] if form.get("turn") == fields.TURNING else words_of(form, ("turn",))


WHICH = ("seed", "boards", "first", "candidates", "where", *fields.SEATS)
LOOK = ("first_board", "vulnerable", *fields.LABELS)


def make(form: Form, *look: str) -> tuple[str, ...]:
    return (DEALS, "make", *words_of(form, WHICH), *turned(form), *words_of(form, LOOK), *look)


def pick(form: Form, *look: str) -> tuple[str, ...]:
    return (DEALS, "pick", *words_of(form, ("seed", *fields.SEATS)), *turned(form), *words_of(form, LOOK), *look)


def find(form: Form, *words: str) -> tuple[str, ...]:
    return (DEALS, "find", *words_of(form, WHICH), *words)


def rules(form: Form) -> list[str]:
    """The rules of the contracts that are named, separated by blanks."""
    named = [(fields.BY_NAME[name], form.get(name, "")) for name in ("makes", "beaten")]
    return [word(field.option, contract) for field, text in named for contract in text.split()]


def boards(form: Form, look: Iterable[str]) -> Command:
    """The boards that a form asks for, with this look."""
    if not rules(form):
        return Command((make(form, *look),))
    unlimited = {**form, "boards": ""}
    return Command((
        find({"candidates": MOST_SOLVED, **unlimited}),
        (DEALS, "pick", *words_of(form, ("seed", *fields.SEATS)), "--format=json"),
        (TRICKS, *rules(form), "--numbers", *words_of(form, ("boards",))),
        pick(form, *look),
    ))


# So many deals are tried where contracts decide, since a search for them has no other end.
MOST_SOLVED = "10000000"


def with_tricks(form: Form, look: Iterable[str]) -> Command:
    """The same with the tricks of each board, which a solver counts. It reads PBN, so labels are given after it."""
    unlabelled = {**form, **dict.fromkeys(fields.LABELS, "")}
    shown = (DEALS, "show", *words_of(form, fields.LABELS), *look)
    return Command((*boards(unlabelled, ("--format=pbn",)).steps, (TRICKS, "--add"), shown))


def count(form: Form, style: str) -> Command:
    return Command(((DEALS, "count", *words_of(form, fields.COUNT), word("--format", style)),))


def search(form: Form) -> Command:
    return Command((find(form),))


def found(form: Form, look: Iterable[str]) -> Command:
    """The boards of the numbers that it reads."""
    return Command((pick(form, *look),))


def check(form: Form) -> Command:
    """What tells at once whether the words of `make` are refused: it tries one deal, in a format that has all letters. A
    report is in place of a note that one deal gives too few boards."""
    tried = {**form, "candidates": "1", "boards": form.get("boards", "")}
    return Command((make(tried, "--format=hands", "--report"),)).hinted()


def check_count(form: Form) -> Command:
    return Command(((DEALS, "count", *words_of({**form, "candidates": "1"}, fields.COUNT)),)).hinted()


# A condition that no deal meets, so that a search for it is over at once, however many deals it has.
NEVER = "1==2"


def check_range(form: Form) -> Command:
    """What tells at once whether the deals to be tried are refused, which `check` doesn't try."""
    return Command((find({**form, "where": NEVER, **dict.fromkeys(fields.SEATS, "")}),)).hinted()


def rarity(where: str, candidates: int) -> Command:
    """How many of the first deals of a seed meet a condition."""
    words = [word("--where", where)] if where else []
    return Command(((DEALS, "count", "--seed=1", word("--candidates", str(candidates)), *words, "--format=csv"),))


def check_rules(form: Form) -> Command:
    """What tells at once whether contracts are refused: it reads no board."""
    return Command(((TRICKS, *rules(form), "--numbers"),))
