"""A reader of another kind than the program's, which keeps a state and counts brackets: why a text is refused, where, and
what could be there; and random texts for it. Written from docs/CONDITIONS.md alone; the words that count a hand are
those of language.py.
"""

import dataclasses
import re

import language

WORDS = {
    "or": "or",
    "and": "and",
    "not": "not",
    "balanced": "balanced",
    "shape": "shape",
    "pattern": "shape",
    "any": "any",
    "every": "any",
    "stops": "stops",
    **dict.fromkeys(language.MEASURES, "measure"),
    "cards": "cards",
    "len": "len",
    "longest": "longest",
    "second": "longest",
    "shortest": "longest",
    "in": "in",
    "x": "x",
    **dict.fromkeys(["north", "east", "south", "west"], "seat"),
    **dict.fromkeys(["spades", "hearts", "diamonds", "clubs"], "suit"),
    # A class is a kind of its own: which one may come depends on those around it.
    **{word: f"class {word}" for word in [*language.CLASSES, *language.SIDES]},
    **{word: word for word in language.BESIDE},
    "let": "let",
    "is": "is",
}
SYMBOLS = {**{sign: sign for sign in "(),-+*"}, **dict.fromkeys(["==", "!=", "<=", ">=", "<", ">"], "relation")}
PIECE = re.compile(rb"[ \t\r\n]+|#[^\n]*|(?P<word>[a-z]+)|(?P<number>[0-9]+)|(?P<symbol>[<>=!]=|[<>]|[(),+*-])")
MOST_BYTES = 1024
MOST_BYTES_ALONE = 4096
MOST_PARTS = 16_384

VALUES = {"number", "measure", "cards", "len", "longest"}
# Each of these is a part, but for a number in a range, a shape or a pattern, or one that is a factor.
PARTS = VALUES | {"balanced", "shape", "stops"}
# All that begins a condition, and all that begins a value.
INNERMOST = VALUES | {"balanced", "shape", "stops", "not", "("}
BEGINNING = {
    "condition": INNERMOST | {"any"},
    "innermost": INNERMOST,
    "value": VALUES,
    # What counts a hand, after a factor.
    "count": VALUES - {"number"},
}
# What must follow a word whatever happens, a letter each, and the state after it: q a seat, s a suit, r ranks, n a
# number, i a length or x, e a suit or ranks, ? a comma with a suit or a bracket, c a class, [ the bracket in which it
# stands for a suit or a seat, and signs for themselves.
OWED = {
    "balanced": ("(q)", "test"),
    "shape": ("(q,i-i-i-i)", "test"),
    "any": ("c[", "unit"),
    "stops": ("(q,s)", "test"),
    "in": ("n-n", "test"),
    "measure": ("(q?", "atom"),
    "cards": ("(q,e)", "atom"),
    "len": ("(q,s)", "atom"),
    "longest": ("(q)", "atom"),
}
MEANT = {
    "q": {"seat", *language.BESIDE},
    "s": {"suit"},
    "[": {"("},
    "r": {"ranks"},
    "n": {"number"},
    "i": {"number", "x"},
    "e": {"suit", "ranks"},
    "?": {",", ")"},
}
SUIT_KINDS = {f"class {word}" for word in language.CLASSES}
SEAT_KINDS = {f"class {word}" for word in language.SIDES}
# How each is named where it could be, in the order of the line that names them. Where all classes are bound no more
# can be.
CONDITION, VALUE = "a condition such as balanced(north)", "a value such as hcp(north)"
TESTS = ['"not"', '"("', '"balanced"', '"shape"', '"pattern"', '"stops"']
COUNTS = [f'"{word}"' for word in [*language.MEASURES, "cards", "len", "longest", "second", "shortest"]]
NAMES = {
    "let": '"let"',
    "+": '"+"',
    "*": '"*"',
    "relation": "a comparison such as >=",
    "in": '"in"',
    "number": "a number",
    "x": '"x"',
    "-": '"-"',
    "(": '"("',
    ",": '","',
    "seat": "a seat",
    **{f"class {word}": f'"{word}"' for word in language.SIDES},
    **{word: f'"{word}"' for word in ["partner", "left", "right"]},
    "suit": "a suit",
    **{f"class {word}": f'"{word}"' for word in language.CLASSES},
    "ranks": "ranks such as akq",
    "new": "a new name",
    "is": '"is"',
    ")": '")"',
    "and": '"and"',
    "or": '"or"',
    "end": "the end",
}


@dataclasses.dataclass
class Name:
    """A given name: its letters, what must follow it, and its body once it was read."""

    letters: str
    owed: str = ""
    body: "Machine | None" = None
    # How many parts it has, by the number of the suit in its parameter's place.
    counted: dict = dataclasses.field(default_factory=dict)

    @property
    def is_value(self):
        return self.body.is_value

    def parts(self, suit):
        if suit not in self.counted:
            self.counted[suit] = self.body.parts({} if suit is None else {"suit": suit})
        return self.counted[suit]


@dataclasses.dataclass
class Use:
    """A use of a name, with the word for a suit in its brackets."""

    name: Name
    suit: str | None = None

    def parts(self, bound):
        if self.suit is None:
            return self.name.parts(None)
        return self.name.parts(bound[self.suit] if self.suit in bound else language.SUITS.index(self.suit))


@dataclasses.dataclass
class Machine:
    """A condition as far as it was read, or a question, which may be a value too."""

    names: list = dataclasses.field(default_factory=list)
    # The classes around what comes next, each with how many brackets were open before its own; None of a parameter.
    around: list = dataclasses.field(default_factory=list)
    may_be_value: bool = False
    owed: str = ""
    state: str = "unit"
    depth: int = 0
    is_left: bool = True
    is_value: bool = True
    named: str = ""
    used: Use | None = None
    # The parts so far: the classes around each, and how many it is, or a use.
    leaves: list = dataclasses.field(default_factory=list)

    def free(self):
        """The classes that may be bound here."""
        bound = {name for name, _ in self.around}
        return (SUIT_KINDS | SEAT_KINDS) - bound - (set() if bound & SUIT_KINDS else {"class other"})

    def due(self):
        """The kinds of tokens of which one must come next."""
        code = self.owed[0]
        kinds = self.free() if code == "c" else MEANT.get(code, {code})
        bound = {name for name, _ in self.around}
        return kinds | (bound & SUIT_KINDS if "suit" in kinds else set()) | (bound & SEAT_KINDS if "seat" in kinds else set())

    def allowed(self):
        """The kinds of tokens that may come next, `condition` and `value` for all that begins one."""
        if self.owed:
            return self.due()
        after = {"and", "or", ")" if self.depth else "end"}
        match self.state:
            case "unit":
                return {"condition" if self.free() else "innermost"} | self.given(values=True, conditions=True)
            case "value":
                return {"value"} | self.given(values=True)
            case "count":
                return {"count"}
            case "atom" | "number":
                times = {"*"} if self.state == "number" else set()
                whole = {"end"} if self.may_be_value and self.is_value else set()
                return {"+"} | times | whole | ({"relation", "in"} if self.is_left else after)
            case "test":
                return after

    def given(self, values=False, conditions=False):
        """The given names, of values or conditions."""
        return {f"name {at}" for at, name in enumerate(self.names) if (values if name.is_value else conditions)}

    def kinds(self):
        """What may come next, each kind by its own name."""
        return set().union(*(BEGINNING.get(kind, {kind}) for kind in self.allowed()))

    def take(self, kind, text):
        """Passes a token that may come next."""
        if self.owed:
            self.pay(kind, text)
            return
        self.used = Use(self.names[int(kind.split()[1])]) if kind.startswith("name ") else None
        self.count(kind)
        is_of_value = kind in VALUES or kind in ("+", "*") or (self.used is not None and self.used.name.is_value)
        self.is_value = self.is_value and is_of_value
        self.depth += {"(": 1, ")": -1}.get(kind, 0)
        if kind == ")" and self.around and self.around[-1][1] == self.depth:
            self.around.pop()
        if self.used:
            self.owed, self.state = self.used.name.owed, "atom" if self.used.name.is_value else "test"
        elif kind in OWED:
            self.owed, self.state = OWED[kind]
        elif kind == "number":
            self.state = "number"
        elif kind == "*":
            self.state = "count"
        elif kind == ")":
            self.state = "test"
        elif kind in ("+", "relation"):
            self.state, self.is_left = "value", self.is_left and kind == "+"
        elif kind in ("and", "or"):
            self.state, self.is_left = "unit", True

    def count(self, kind):
        """Keeps the parts that a token brings."""
        weight = self.used or (kind in PARTS) - (kind == "*")
        if weight:
            classes = [name.removeprefix("class ") for name, depth in self.around if depth is not None]
            self.leaves.append((classes, weight))

    def pay(self, kind, text):
        """Passes a token that had to come."""
        code, self.owed = self.owed[0], self.owed[1:]
        if code == "c":
            self.named = kind
        elif code == "[":
            self.around.append((self.named, self.depth))
            self.depth += 1
            self.is_left = True
        elif code == "q" and kind in language.BESIDE:
            self.owed = f"(q){self.owed}"
        elif code == "s" and self.used:
            self.used.suit = text
        elif code == "?" and kind == ",":
            self.owed = "s)"
        elif code == "e" and kind != "ranks":
            self.owed = ",r)"

    def parts(self, bound):
        """How many parts it has, with the classes written out, where classes are bound to these suits."""
        return sum(ways(classes, weight, bound) for classes, weight in self.leaves)


# What may come in the head of a definition, by what came last there.
HEAD = {
    "let": {"new"},
    "new": {"(", "is"},
    "(": {"class seat", "class suit"},
    "class seat": {",", ")"},
    ",": {"class suit"},
    "class suit": {")"},
    ")": {"is"},
    "is": {"("},
}


class Text:
    """A text as far as it was read: definitions, and then a condition or a question, or nothing more."""

    def __init__(self, asks=False, is_alone=False):
        self.asks = asks
        self.is_alone = is_alone
        self.names = []
        # The token that came last in the head of a definition, and the parameters there.
        self.head = ""
        self.parameters = []
        self.given = None
        self.inside = Machine(may_be_value=asks)
        self.is_begun = False

    def is_between(self):
        """Whether what was read is whole definitions."""
        return not (self.head or self.given or self.is_begun)

    def allowed(self):
        if self.head:
            return HEAD[self.head]
        if self.is_alone and self.is_between():
            return {"let", "end"}
        allowed = self.inside.allowed()
        if self.given:
            return {")" if kind == "end" else kind for kind in allowed}
        return allowed | (set() if self.is_begun else {"let"})

    def kinds(self):
        return set().union(*(BEGINNING.get(kind, {kind}) for kind in self.allowed()))

    def allows(self, kind):
        return kind == f"name {len(self.names)}" if self.head == "let" else kind in self.kinds()

    def take(self, kind, text):
        if self.head:
            self.define(kind, text)
        elif kind == "let" and not self.given and not self.is_begun:
            self.head = "let"
        elif kind == ")" and self.given and self.inside.depth == 0 and not self.inside.owed:
            self.given.body = self.inside
            self.names.append(self.given)
            self.given, self.inside = None, Machine(names=list(self.names), may_be_value=self.asks)
        else:
            self.is_begun = not self.given
            self.inside.take(kind, text)

    def define(self, kind, text):
        """Passes a token of the head of a definition."""
        if self.head == "let":
            self.given, self.parameters, self.head = Name(text), [], "new"
        elif self.head == "is":
            codes = ",".join({"class seat": "q", "class suit": "s"}[name] for name in self.parameters)
            self.given.owed = f"({codes})" if codes else ""
            around = [(name, None) for name in self.parameters]
            self.head, self.inside = "", Machine(names=list(self.names), around=around, may_be_value=True)
        else:
            self.parameters += [kind] if kind.startswith("class ") else []
            self.head = kind

    def said(self):
        """What may come next, as it is told."""
        kinds = self.allowed()
        begun = [f'"{name.letters}"' for name in self.names]
        tests = [text for at, text in enumerate(begun) if f"name {at}" in kinds and not self.names[at].is_value]
        values = [text for at, text in enumerate(begun) if f"name {at}" in kinds and self.names[at].is_value]
        found = [CONDITION] if "condition" in kinds else TESTS if "innermost" in kinds else []
        found = [*found, *tests, *([VALUE] if kinds & {"innermost", "value"} else []), *values]
        found += (COUNTS if "count" in kinds else []) + [name for kind, name in NAMES.items() if kind in kinds]
        return f"{', '.join(found[:-1])} or {found[-1]}" if found[1:] else found[0]


def ways(classes, weight, bound):
    """How many parts there are of one with these classes around it, the outermost first, beside those that are bound."""
    if not classes:
        return weight.parts(bound) if isinstance(weight, Use) else weight
    name, *inner = classes
    if name in language.SIDES:
        return len(language.SIDES[name]) * ways(inner, weight, bound)
    suits = [suit for suit in language.CLASSES[name] if name != "other" or suit not in bound.values()]
    return sum(ways(inner, weight, {**bound, name: suit}) for suit in suits)


def kind_of(piece):
    """The kind of a piece, None of one that says nothing; and what is wrong with it, or None."""
    if not piece:
        return None, "unexpected byte"
    if not piece.lastgroup:
        return None, None
    text = piece.group().decode()
    if piece.lastgroup == "number":
        return "number", "number too long" if len(text) > 4 else None
    if piece.lastgroup == "symbol":
        return SYMBOLS[text], None
    is_ranks = len(set(text)) == len(text) and set(text) <= set("akqjt")
    kind = WORDS.get(text, "ranks" if is_ranks else None)
    return kind, None if kind else "unknown word"


def tokens_of(text):
    """The tokens, each with its place and its text; and why there are none, or None."""
    tokens, names, at = [], [], 0
    while at < len(text):
        piece = PIECE.match(text, at)
        kind, fault = kind_of(piece)
        letters = piece.group().decode() if piece else ""
        if fault == "unknown word":
            if tokens and tokens[-1][0] == "let" and letters not in names:
                names.append(letters)
            if letters in names:
                kind, fault = f"name {names.index(letters)}", None
        if fault:
            return [], f"at byte {at}: {fault}"
        if kind:
            tokens.append((kind, at, letters))
        at = piece.end()
    return tokens, None


def fault_of(machine, text):
    """Why the machine doesn't take a text, None where it does; and what could be there, where another token is."""
    tokens, fault = tokens_of(text)
    if fault:
        return fault, None
    for kind, at, word in [*tokens, ("end", len(text), "")]:
        if not machine.allows(kind):
            return f"at byte {at}: syntax", machine.said()
        if kind != "end":
            machine.take(kind, word)
    return f"more than {MOST_PARTS} parts" if machine.inside.parts({}) > MOST_PARTS else None, None


def refusal(text, asks=False):
    """Why a condition is refused, or a question, None where it isn't; and what could be there, where it isn't one."""
    return ("longer than 1024 bytes", None) if len(text) > MOST_BYTES else fault_of(Text(asks), text)


def refusal_alone(text):
    """Why definitions are refused, None where they aren't; and what could be there, which is told within one alone."""
    if len(text) > MOST_BYTES_ALONE:
        return "longer than 4096 bytes", None
    machine = Text(is_alone=True)
    why, expected = fault_of(machine, text)
    return why, None if machine.is_between() else expected


def refusal_after(definitions, text):
    """The same as `refusal` of a condition after definitions that aren't refused; places count from its beginning."""
    if len(text) > MOST_BYTES:
        return "longer than 1024 bytes", None
    why, expected = fault_of(Text(), definitions + b"\n" + text)
    start = len(definitions) + 1
    return why and re.sub(r"(?<=^at byte )\d+", lambda at: str(int(at.group()) - start), why), expected


def boundaries(text):
    """Where the definitions that a text begins with may be cut off from the rest."""
    machine, found = Text(), [0]
    for kind, at, word in tokens_of(text.encode())[0]:
        if not machine.allows(kind):
            break
        machine.take(kind, word)
        if machine.is_between():
            found.append(at + len(word))
    return found
