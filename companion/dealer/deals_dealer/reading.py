"""Reads a script by its grammar (`script.lark`). A name stands for what was defined before it."""

import itertools
import pathlib
from typing import Any, Optional, cast

import lark
from lark import Token, Tree

from .tree import (
    SUITS, Action, Binary, Chosen, Count, Expression, HasCard, Named, Number, Place, Refusal, Script, Shape, Unary,
)

GRAMMAR = (pathlib.Path(__file__).parent / "script.lark").read_text(encoding="utf-8")
PARSER = lark.Lark(GRAMMAR, parser="lalr", propagate_positions=True, maybe_placeholders=True)

# The actions of the grammar that `deals` has something for.
ACTIONS = tuple(dict.fromkeys(rule.alias for rule in PARSER.rules if rule.origin.name == "action" and rule.alias != "printes"))
SIGNS = {"or": "or", "and": "and", "added": "+", "taken": "-", "times": "*", "divided": "/", "modulo": "%"}
LETTERS = dict(zip("SHDC", SUITS))
VULNERABLE = {"none": "None", "ns": "NS", "ew": "EW", "all": "All"}
# The ten counts that `altcount` can set, by their usual names.
ALTERNATIVES = ("tens", "jacks", "queens", "kings", "aces", "top2", "top3", "top4", "top5", "c13")
# The most that `deals` takes: of boards and of a seed, and of candidates.
MOST, MOST_GENERATE = 4294967295, 1 << 40
# The parts of all expressions, with what their names stand for: names within names may double them with each line.
MOST_PARTS = 10_000
# Words of dealer that `deals` has nothing for.
UNKNOWN = {
    "cccc": "no evaluation by cccc: count points, controls or losers",
    "quality": "no quality of a suit: count its top cards by top2 to top5",
    "trick": "tricks are counted afterwards: pass the boards to deals-tricks",
    "score": "scores aren't known: pass the boards to deals-tricks",
    "imp": "scores aren't known: pass the boards to deals-tricks",
    "rnd": "no random numbers in a condition",
}


def place(node: Any) -> Place:
    if isinstance(node, Token):
        return Place(node.line or 1, node.column or 1)
    return Place(getattr(node.meta, "line", 1), getattr(node.meta, "column", 1))


def seat_of(token: Token) -> str:
    return str(token)


def suit_of(token: Token) -> str:
    return str(token).rstrip("s") + "s"


def count_of(token: Token) -> str:
    """The usual name of what is counted: of `pt3` `kings`, of `losers` `loser`."""
    word = str(token)
    if word.startswith("pt"):
        return ALTERNATIVES[int(word[2])]
    if word in ("c13",) or word.startswith("top"):
        return word
    word = word.rstrip("s")
    return word + "s" if word + "s" in ALTERNATIVES else word


def signed_of(tree: Tree[Token]) -> int:
    value = number_of(cast(Token, tree.children[0]), MOST)
    return -value if tree.data == "minus" else value


def number_of(token: Token, most: int) -> int:
    """A number; Python refuses to read one of very many digits."""
    digits = str(token).lstrip("0") or "0"
    if len(digits) > len(str(most)) or int(digits) > most:
        raise Refusal(place(token), f"expected a number of at most {most}")
    return int(digits)


class Reader:
    """Turns what the grammar found into what the script says."""

    def __init__(self) -> None:
        self.script = Script()
        self.names: dict[str, Expression] = {}
        # How many parts were read, and how many each name stands for.
        self.parts, self.sizes = 0, dict[str, int]()

    def expression(self, node: Any) -> Expression:
        at = place(node)
        self.parts += 1
        kind, parts = str(node.data), node.children
        if kind == "number":
            return Number(place(parts[0]), number_of(parts[0], MOST))
        if kind == "name":
            return self.named(parts[0])
        if kind in SIGNS:
            return Binary(at, SIGNS[kind], self.expression(parts[0]), self.expression(parts[1]))
        if kind == "compared":
            return Binary(at, str(parts[1]), self.expression(parts[0]), self.expression(parts[2]))
        if kind in ("not", "negative"):
            return Unary(at, "not" if kind == "not" else "-", self.expression(parts[0]))
        if kind == "chosen":
            return Chosen(at, *(self.expression(part) for part in parts))
        return self.asked(kind, at, parts)

    def asked(self, kind: str, at: Place, parts: list[Any]) -> Expression:
        """What is asked of a hand."""
        if kind == "suit_length":
            return Count(at, "len", seat_of(parts[1]), suit_of(parts[0]))
        if kind == "counted":
            return Count(at, count_of(parts[0]), seat_of(parts[1]), suit_of(parts[2]) if parts[2] else None)
        if kind == "hascard":
            card = str(parts[1])
            return HasCard(place(parts[1]), seat_of(parts[0]), card[0].lower(), LETTERS[card[1]])
        if kind == "shape":
            return Shape(at, seat_of(parts[0]), tuple(shapes_of(parts[1])))
        word = str(parts[0])
        raise Refusal(at, UNKNOWN.get(word, UNKNOWN.get(word.rstrip("s"), "unknown")))

    def named(self, token: Token) -> Expression:
        if str(token) not in self.names:
            raise Refusal(place(token), f"unknown name {token}: define it before it is used, as {token} = hcp(north)>=15")
        self.parts += self.sizes[str(token)]
        if self.parts > MOST_PARTS:
            raise Refusal(place(token), f"with what {token} stands for the script has more than {MOST_PARTS} parts")
        return Named(place(token), str(token), self.names[str(token)])

    def item(self, tree: Tree[Token]) -> None:
        """One statement."""
        kind, parts = str(tree.data), cast(list[Any], tree.children)
        script = self.script
        if kind == "generate":
            script.generate = number_of(parts[0], MOST_GENERATE)
        elif kind == "produce":
            script.produce = number_of(parts[0], MOST)
        elif kind == "seed":
            script.seed = number_of(parts[0], MOST)
        elif kind == "dealer":
            script.dealer = seat_of(parts[0])
        elif kind == "vulnerable":
            script.vulnerable = VULNERABLE[str(parts[0]).lower()]
        elif kind == "definition":
            before = self.parts
            self.names[str(parts[0])] = self.expression(parts[1])
            self.sizes[str(parts[0])] = self.parts - before
        elif kind == "condition":
            script.condition = self.expression(parts[0])
        elif kind == "actions":
            script.actions += [self.action(part) for part in parts if part is not None]
        else:
            self.dealt(kind, place(tree), parts)

    def dealt(self, kind: str, at: Place, parts: list[Any]) -> None:
        """Cards that seats have, and what cards count."""
        if kind == "predeal":
            for part in parts:
                self.predealt(part)
            return
        name, weights = ("hcp", parts) if kind == "pointcount" else (alternative(parts[0]), parts[1:])
        numbers = [signed_of(part) for part in weights]
        if len(numbers) > 13:
            raise Refusal(at, "at most thirteen numbers, from the ace to the two")
        self.script.weights[name] = (*numbers, *[0] * (13 - len(numbers)))

    def predealt(self, tree: Tree[Token]) -> None:
        parts = cast(list[Any], tree.children)
        if tree.data == "length":
            count = Count(place(parts[0]), "len", seat_of(parts[1]), suit_of(parts[0]))
            self.script.lengths.append(Binary(place(parts[0]), "==", count, Number(place(parts[2]), number_of(parts[2], MOST))))
            return
        held = self.script.cards.setdefault(seat_of(parts[0]), {})
        for holding in parts[1:]:
            suit = LETTERS[str(holding)[0]]
            held[suit] = held.get(suit, "") + str(holding)[1:]

    def action(self, tree: Tree[Token]) -> Action:
        kind, parts = str(tree.data), [part for part in cast(list[Any], tree.children) if part is not None]
        seats = tuple(str(part) for part in parts if isinstance(part, Token) and part.type == "SEAT")
        trees = [part for part in parts if isinstance(part, Tree)]
        bounds = tuple(signed_of(part) for part in trees if part.data in ("plus", "minus"))
        asked = [part for part in trees if part.data not in ("plus", "minus")]
        return Action(place(tree), kind, tuple(self.expression(part) for part in asked), seats, bounds)


def alternative(token: Token) -> str:
    number = str(token).lstrip("0") or "0"
    if len(number) > 1:
        raise Refusal(place(token), "altcount has a number from 0 to 9")
    return ALTERNATIVES[int(number)]


def shapes_of(tree: Tree[Any]) -> list[tuple[str, bool, str]]:
    """Each shape with its sign; the first is added, and so is one after a comma."""
    found, sign = [], "+"
    for part in tree.children:
        if isinstance(part, Token):
            sign = "-" if str(part) == "-" else "+"
        else:
            found.append((sign, part.children[0] is not None, str(part.children[1])))
    return found


def told(error: lark.UnexpectedInput) -> Refusal:
    """What is wrong where the grammar stops."""
    at = Place(max(error.line, 1), max(error.column, 1))
    token: Optional[Token] = getattr(error, "token", None)
    if token is not None and token.type == "$END":
        return Refusal(at, "the script ends in the middle of a statement")
    if token is None:
        return Refusal(at, "a sign that dealer doesn't know")
    return Refusal(at, f"{str(token)!r} isn't expected here")


def parsed(error: lark.UnexpectedInput) -> list[Any]:
    """The statements before the place where the grammar stops, as far as they are known."""
    stopped = getattr(error, "interactive_parser", None)
    stack = stopped.parser_state.value_stack if stopped else []
    has_some = bool(stack) and isinstance(stack[0], Tree) and str(stack[0].data).startswith("__start")
    return list(stack[0].children) if has_some else []


def first_token(node: Any) -> Any:
    """What a statement begins with, where that is a name or a number."""
    first = node
    while isinstance(first, Tree) and first.children:
        first = first.children[0]
    return first if isinstance(first, Token) and place(first) == place(node) else None


def look_for_actions(items: list[Any]) -> None:
    """Refuses a name that nothing has, where an action is awaited. To the grammar it begins a condition."""
    known: set[str] = set()
    for item, after in itertools.pairwise(items):
        if item.data == "definition":
            known.add(str(item.children[0]))
        token = first_token(after) if item.data == "actions" and item.children[-1] is None else None
        if after.data == "condition" and token is not None and token.type == "NAME" and str(token) not in known:
            raise Refusal(place(token), f"unknown action {token}; these are known: {', '.join(ACTIONS)}")


def read(text: str) -> Script:
    """What a script says; a `Refusal` where it can't be read."""
    try:
        tree = PARSER.parse(text)
    except lark.UnexpectedInput as error:
        look_for_actions(parsed(error))
        raise told(error) from None
    look_for_actions(tree.children)
    reader = Reader()
    for item in tree.children:
        reader.item(cast("Tree[Token]", item))
    return reader.script
