"""Conditions of `deals` as they are put together, and how they are spelled with as few brackets as they need."""

import dataclasses
from typing import Union


@dataclasses.dataclass(frozen=True)
class Always:
    """Always true, or never."""

    value: bool


@dataclasses.dataclass(frozen=True)
class Test:
    """One test, as it is spelled."""

    text: str


@dataclasses.dataclass(frozen=True)
class Not:
    of: "Formula"


@dataclasses.dataclass(frozen=True)
class All:
    parts: tuple["Formula", ...]


@dataclasses.dataclass(frozen=True)
class Any:
    parts: tuple["Formula", ...]


@dataclasses.dataclass(frozen=True)
class Use:
    """What the script calls by a name."""

    name: str
    of: "Formula"


Formula = Union[Always, Test, Not, All, Any, Use]


def named(name: str, formula: Formula) -> Formula:
    return formula if isinstance(formula, Always) else Use(name, formula)


def negated(formula: Formula) -> Formula:
    if isinstance(formula, Always):
        return Always(not formula.value)
    return formula.of if isinstance(formula, Not) else Not(formula)


def all_of(*formulas: Formula) -> Formula:
    parts: list[Formula] = []
    for formula in formulas:
        if formula == Always(False):
            return formula
        parts += formula.parts if isinstance(formula, All) else [] if formula == Always(True) else [formula]
    return All(tuple(parts)) if len(parts) > 1 else parts[0] if parts else Always(True)


def any_of(*formulas: Formula) -> Formula:
    parts: list[Formula] = []
    for formula in formulas:
        if formula == Always(True):
            return formula
        parts += formula.parts if isinstance(formula, Any) else [] if formula == Always(False) else [formula]
    return Any(tuple(parts)) if len(parts) > 1 else parts[0] if parts else Always(False)


def inner(formula: Formula) -> str:
    """Spelled so that it can be joined by `and`, or put after `not`."""
    text = spelled(formula)
    return text if isinstance(formula, (Test, Not, Always, Use)) else f"({text})"


def spelled(formula: Formula) -> str:
    """The condition's text, where names are given before it."""
    if isinstance(formula, Use):
        return formula.name
    if isinstance(formula, Always):
        return "1==1" if formula.value else "0==1"
    if isinstance(formula, Test):
        return formula.text
    if isinstance(formula, Not):
        return f"not {inner(formula.of)}"
    if isinstance(formula, All):
        return " and ".join(inner(part) for part in ranged(formula.parts))
    return " or ".join(spelled(part) if isinstance(part, All) else inner(part) for part in formula.parts)


def ranged(parts: tuple[Formula, ...]) -> list[Formula]:
    """The parts of an `and`, where a least and a most number of one count are a range."""
    found: list[Formula] = []
    for part in parts:
        joined = range_of(found[-1], part) if found else None
        if joined:
            found[-1] = joined
        else:
            found.append(part)
    return found


def range_of(first: Formula, second: Formula) -> Union[Test, None]:
    if not (isinstance(first, Test) and isinstance(second, Test)):
        return None
    for low, high in ((first.text, second.text), (second.text, first.text)):
        least, most = low.partition(">="), high.partition("<=")
        if least[0] == most[0] and least[1] and most[1] and least[2].isdigit() and most[2].isdigit():
            if int(least[2]) <= int(most[2]):
                return Test(f"{least[0]} in {least[2]}-{most[2]}")
    return None
