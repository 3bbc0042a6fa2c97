"""Names of a script in the conditions of `deals`: one that is used more than once stays a name, and another is put in."""

import collections
from collections.abc import Iterator

from .formulas import All, Any, Formula, Not, Use, all_of, any_of, negated, spelled

RANKS = "akqjt"
# The words of conditions, which aren't names.
WORDS = frozenset(
    "or and not balanced shape pattern hcp controls losers cards len longest second shortest stops any every suit major "
    "minor other seat ns ew partner left right in x let is north east south west spades hearts diamonds clubs".split()
)
# A name has letters alone: what stands for a digit.
DIGITS = ("zero", "one", "two", "three", "four", "five", "six", "seven", "eight", "nine")


def parts_of(formula: Formula) -> tuple[Formula, ...]:
    if isinstance(formula, (All, Any)):
        return formula.parts
    return (formula.of,) if isinstance(formula, (Not, Use)) else ()


def counted(formula: Formula, found: "collections.Counter[Use]") -> None:
    """Counts how often each name is used; what it stands for is looked at once."""
    if isinstance(formula, Use):
        found[formula] += 1
        if found[formula] > 1:
            return
    for part in parts_of(formula):
        counted(part, found)


def put_in(formula: Formula, letters: dict[Use, str]) -> Formula:
    """The formula with these names alone, by their letters."""
    if isinstance(formula, Use):
        inside = put_in(formula.of, letters)
        return Use(letters[formula], inside) if formula in letters else inside
    if isinstance(formula, Not):
        return negated(put_in(formula.of, letters))
    if isinstance(formula, All):
        return all_of(*(put_in(part, letters) for part in formula.parts))
    if isinstance(formula, Any):
        return any_of(*(put_in(part, letters) for part in formula.parts))
    return formula


def letters_of(name: str, taken: set[str]) -> str:
    """A name of `deals` for one of a script."""
    spelt = "".join(DIGITS[int(sign)] if sign.isdigit() else sign for sign in name.lower())
    letters = "".join(sign for sign in spelt if "a" <= sign <= "z")
    while letters in taken | WORDS or set(letters) <= set(RANKS):
        letters += "x"
    return letters


def uses(formula: Formula) -> Iterator[Use]:
    """The names, each after those that it needs."""
    for part in parts_of(formula):
        yield from uses(part)
    if isinstance(formula, Use):
        yield formula


def plain(formula: Formula) -> str:
    """The condition's text without names."""
    return spelled(put_in(formula, {}))


def written(formula: Formula) -> str:
    """The condition's text: its names, and then what uses them."""
    found: collections.Counter[Use] = collections.Counter()
    counted(formula, found)
    letters: dict[Use, str] = {}
    for use, often in found.items():
        if often > 1:
            letters[use] = letters_of(use.name, set(letters.values()))
    named = put_in(formula, letters)
    given = [f"let {use.name} is ({spelled(use.of)})" for use in dict.fromkeys(uses(named))]
    return " ".join([*given, spelled(named)])
