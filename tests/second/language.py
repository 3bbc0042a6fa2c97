"""The condition language, written from docs/CONDITIONS.md alone: a condition as a function of four hands.

A hand is a list of card numbers, 13 times the suit (spades 0 to clubs 3) plus the rank (ace 0 to two 12).
"""

import itertools
import operator
import re
import sys

# 1,024 bytes have 510 brackets around a test, and three rules read each.
sys.setrecursionlimit(5_000)

SEATS = ["north", "east", "south", "west"]
SUITS = ["spades", "hearts", "diamonds", "clubs"]
# The suits of a class; `other` has those that no class around it stands for.
CLASSES = {"suit": [0, 1, 2, 3], "major": [0, 1], "minor": [2, 3], "other": [0, 1, 2, 3]}
# The seats of a class.
SIDES = {"seat": [0, 1, 2, 3], "ns": [0, 2], "ew": [1, 3]}
# How many seats further clockwise each is.
BESIDE = {"left": 1, "partner": 2, "right": 3}
RANKS = "akqjt"
RELATIONS = {
    "==": operator.eq,
    "!=": operator.ne,
    "<": operator.lt,
    "<=": operator.le,
    ">": operator.gt,
    ">=": operator.ge,
}
TOKEN = re.compile(r"[ \t\r\n]|#[^\n]*|[a-z]+|[0-9]{1,4}|[<>=!]=|[<>]|[(),+*-]")


def ranks_in(hand, suit):
    return {card % 13 for card in hand if card // 13 == suit}


def lengths(hand):
    return [len(ranks_in(hand, suit)) for suit in range(4)]


def weighed(weights):
    def measure(hand, suits):
        return sum(weights.get(card % 13, 0) for card in hand if card // 13 in suits)

    return measure


def losers(hand, suits):
    count = 0
    for suit in suits:
        held = ranks_in(hand, suit)
        count += sum(1 for top in range(min(3, len(held))) if top not in held)
    return count


MEASURES = {"hcp": weighed({0: 4, 1: 3, 2: 2, 3: 1}), "controls": weighed({0: 2, 1: 1}), "losers": losers}


# The words that aren't names; ranks aren't either.
WORDS = [
    *["or", "and", "not", "balanced", "shape", "pattern", "any", "every", "stops", "cards", "len", "longest", "second"],
    *["shortest", "in", "x", "let", "is", *MEASURES, *SEATS, *SUITS, *CLASSES, *SIDES, *BESIDE],
]


def is_known(word):
    return word in WORDS or (set(word) <= set(RANKS) and len(set(word)) == len(word))


def tokens_of(text):
    tokens, at = [], 0
    while at < len(text):
        found = TOKEN.match(text, at)
        if not found:
            raise ValueError(f"byte {at}")
        if not found.group().isspace() and not found.group().startswith("#"):
            tokens.append(found.group())
        at = found.end()
    return tokens


# What a name may have in its brackets.
PARAMETERS = (["seat"], ["suit"], ["seat", "suit"])


class Name:
    """A given name: its parameters, what its body asks, and whether that is a value."""

    def __init__(self, tokens, parameters, names):
        self.parameters = parameters
        left = list(tokens)
        try:
            self.read(tokens, names, Reader.condition)
            self.is_value = False
        except (ValueError, KeyError):
            tokens[:] = left
            self.read(tokens, names, Reader.value)
            self.is_value = True

    def read(self, tokens, names, rule):
        self.reader = Reader(tokens, names, self.parameters)
        self.body = rule(self.reader)
        self.reader.expect(")")

    def ask(self, members, hands):
        """The answer of the body with these members in the place of the parameters."""
        around, self.reader.bound = self.reader.bound, dict(zip(self.parameters, members))
        answer = self.body(hands)
        self.reader.bound = around
        return answer


class Reader:
    """Reads tokens from the left; each rule returns a function of the four hands."""

    def __init__(self, tokens, names=(), around=()):
        self.tokens = tokens
        # The given names.
        self.names = dict(names)
        # The classes around what is read; and, when the condition is asked, the suit or seat that each stands for.
        self.around = list(around)
        self.bound = {}

    def definitions(self):
        """Reads the definitions before the condition or value."""
        while self.sees("let"):
            self.next()
            name = self.next()
            if not name.isalpha() or is_known(name) or name in self.names:
                raise ValueError(f"{name!r} for a new name")
            parameters = self.parameters() if self.sees("(") else []
            self.expect("is")
            self.expect("(")
            self.names[name] = Name(self.tokens, parameters, self.names)

    def parameters(self):
        self.expect("(")
        found = [self.next()]
        while self.sees(","):
            self.next()
            found.append(self.next())
        self.expect(")")
        if found not in PARAMETERS:
            raise ValueError(f"{found} for parameters")
        return found

    def used(self, name):
        """What a name asks here."""
        members = []
        for sign, parameter in zip("(,", name.parameters):
            self.expect(sign)
            members.append(self.seat() if parameter == "seat" else self.suit())
        if members:
            self.expect(")")
        return lambda hands: name.ask([member() for member in members], hands)

    def sees_name(self, is_value):
        """Whether a name of a value, or of a condition, comes next."""
        name = self.names.get(self.tokens[0]) if self.tokens else None
        return name is not None and name.is_value == is_value

    def sees(self, *words):
        return bool(self.tokens) and self.tokens[0] in words

    def next(self):
        if not self.tokens:
            raise ValueError("it ends too early")
        return self.tokens.pop(0)

    def expect(self, word):
        found = self.next()
        if found != word:
            raise ValueError(f"{found!r} for {word!r}")

    def one_of(self, words):
        return words.index(self.next())

    def condition(self):
        parts = [self.both()]
        while self.sees("or"):
            self.next()
            parts.append(self.both())
        return parts[0] if len(parts) == 1 else lambda hands: any(part(hands) for part in parts)

    def both(self):
        parts = [self.unit()]
        while self.sees("and"):
            self.next()
            parts.append(self.unit())
        return parts[0] if len(parts) == 1 else lambda hands: all(part(hands) for part in parts)

    def unit(self):
        if self.sees("not"):
            self.next()
            inner = self.unit()
            return lambda hands: not inner(hands)
        if self.sees("("):
            self.next()
            inner = self.condition()
            self.expect(")")
            return inner
        if self.sees("balanced", "shape", "pattern"):
            return self.shape(self.next())
        if self.sees("any", "every"):
            return self.quantified(any if self.next() == "any" else all)
        if self.sees("stops"):
            return self.stopper()
        if self.sees_name(is_value=False):
            return self.used(self.names[self.next()])
        return self.comparison()

    def quantified(self, of):
        """Whether the bracket is true with some suit or seat of a class, or with each."""
        name = self.next()
        is_alone = not any(around in CLASSES for around in self.around)
        if name not in CLASSES | SIDES or name in self.around or (name == "other" and is_alone):
            raise ValueError(f"{name!r} for a class")
        self.around.append(name)
        self.expect("(")
        inner = self.condition()
        self.expect(")")
        self.around.remove(name)

        def holds(hands):
            taken = {self.bound[around] for around in self.bound if around in CLASSES} if name == "other" else set()
            members = [member for member in (CLASSES | SIDES)[name] if member not in taken]
            return of([self.with_member(name, member, inner, hands) for member in members])

        return holds

    def with_member(self, name, member, inner, hands):
        self.bound[name] = member
        answer = inner(hands)
        del self.bound[name]
        return answer

    def suit(self):
        """A suit's word, or that of a class around it: a function of nothing."""
        return self.member(self.next(), SUITS, CLASSES)

    def seat(self):
        """A seat's word, that of a class around it, or a seat beside one: a function of nothing."""
        word = self.next()
        if word not in BESIDE:
            return self.member(word, SEATS, SIDES)
        self.expect("(")
        inner = self.seat()
        self.expect(")")
        return lambda: (inner() + BESIDE[word]) % 4

    def member(self, word, words, classes):
        if word in self.around and word in classes:
            return lambda: self.bound[word]
        found = words.index(word)
        return lambda: found

    def stopper(self):
        self.expect("stops")
        self.expect("(")
        seat = self.seat()
        self.expect(",")
        suit = self.suit()
        self.expect(")")

        def holds(hands):
            held = ranks_in(hands[seat()], suit())
            return any(honour in held and len(held) > honour for honour in range(4))

        return holds

    def shape(self, word):
        self.expect("(")
        seat = self.seat()
        if word == "balanced":
            self.expect(")")
            wanted = ([3, 3, 3, 4], [2, 3, 4, 4], [2, 3, 3, 5])
            return lambda hands: sorted(lengths(hands[seat()])) in wanted
        items = []
        for sign in ",---":
            self.expect(sign)
            item = self.next()
            items.append(None if item == "x" else int(item))
        self.expect(")")
        orders = [tuple(items)] if word == "shape" else set(itertools.permutations(items))
        fits = lambda order, held: all(item in (None, length) for item, length in zip(order, held))  # noqa: E731
        return lambda hands: any(fits(order, lengths(hands[seat()])) for order in orders)

    def comparison(self):
        left = self.value()
        if self.sees("in"):
            self.next()
            least = int(self.next())
            self.expect("-")
            most = int(self.next())
            return lambda hands: least <= left(hands) <= most
        relation = RELATIONS[self.next()]
        right = self.value()
        return lambda hands: relation(left(hands), right(hands))

    def value(self):
        parts = [self.atom()]
        while self.sees("+"):
            self.next()
            parts.append(self.atom())
        return lambda hands: sum(part(hands) for part in parts)

    def atom(self):
        if self.sees_name(is_value=True):
            return self.used(self.names[self.next()])
        word = self.next()
        if not word.isdigit():
            return self.count(word)
        if not self.sees("*"):
            return lambda hands: int(word)
        self.next()
        count = self.count(self.next())
        return lambda hands: int(word) * count(hands)

    def count(self, word):
        """What a word counts in a hand."""
        if word not in [*MEASURES, "longest", "second", "shortest", "len", "cards"]:
            raise ValueError(f"{word!r} for what counts")
        self.expect("(")
        seat = self.seat()
        if word in ("longest", "second", "shortest"):
            self.expect(")")
            place = {"longest": 3, "second": 2, "shortest": 0}[word]
            return lambda hands: sorted(lengths(hands[seat()]))[place]
        suits = lambda: range(4)  # noqa: E731
        if word in ("len", "cards") or self.sees(","):
            self.expect(",")
            if word != "cards" or self.sees(*SUITS, *CLASSES):
                suit = self.suit()
                suits = lambda: [suit()]  # noqa: E731
                if word == "cards":
                    self.expect(",")
        ranks = {RANKS.index(letter) for letter in self.next()} if word == "cards" else set()
        self.expect(")")
        if word == "cards":
            return lambda hands: sum(card % 13 in ranks and card // 13 in suits() for card in hands[seat()])
        if word == "len":
            return lambda hands: sum(card // 13 in suits() for card in hands[seat()])
        measure = MEASURES[word]
        return lambda hands: measure(hands[seat()], suits())


def condition(text):
    """The condition of a text, as a function of four hands, clockwise from North."""
    return whole(Reader.condition, text)


def value(text):
    """The value of a text, as a function of four hands."""
    return whole(Reader.value, text)


def whole(rule, text):
    """What a rule makes of the whole text."""
    reader = Reader(tokens_of(text))
    reader.definitions()
    found = rule(reader)
    if reader.tokens:
        raise ValueError(f"{reader.tokens[0]!r} comes after the end")
    return found
