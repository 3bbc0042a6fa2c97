"""What an expression of dealer means, said in the conditions and sums of `deals`.

Dealer has numbers everywhere: a test is 1 or 0, and a number that isn't 0 is true. `deals` has conditions, and compares
sums of counts. So an expression is turned into sums, one for each case of the tests in it, and a comparison puts what
is taken away on its other side.
"""

import dataclasses
import itertools
import operator
from collections.abc import Callable, Iterator, Mapping

from .formulas import Always, Formula, Test, all_of, any_of, named, negated
from .names import RANKS, written
from .tree import Binary, Chosen, Count, Expression, HasCard, Named, Number, Place, Refusal, Shape, Unary

# What the words of dealer count: the weights of ace, king, queen, jack and ten.
WEIGHTS = {
    "hcp": (4, 3, 2, 1, 0), "tens": (0, 0, 0, 0, 1), "jacks": (0, 0, 0, 1, 0), "queens": (0, 0, 1, 0, 0),
    "kings": (0, 1, 0, 0, 0), "aces": (1, 0, 0, 0, 0), "top2": (1, 1, 0, 0, 0), "top3": (1, 1, 1, 0, 0),
    "top4": (1, 1, 1, 1, 0), "top5": (1, 1, 1, 1, 1), "c13": (6, 4, 2, 1, 0),
}
# A comparison has at most this many cases: beyond, a text of `deals` has no room.
MOST_CASES = 16
MOST_NUMBER = 9999
FLIPPED = {"<": ">", ">": "<", "<=": ">=", ">=": "<=", "==": "==", "!=": "!="}
HOLDS: Mapping[str, Callable[[int, int], bool]] = {
    "<": operator.lt, ">": operator.gt, "<=": operator.le, ">=": operator.ge, "==": operator.eq, "!=": operator.ne,
}


@dataclasses.dataclass(frozen=True)
class Sum:
    """Counts with how often each is added, and a number; and perhaps a sum that is divided and rounded down."""

    counts: tuple[tuple[str, int], ...] = ()
    number: int = 0
    divided: tuple[tuple["Sum", int, int], ...] = ()

    def plus(self, other: "Sum", times: int = 1) -> "Sum":
        counts = dict(self.counts)
        for count, often in other.counts:
            counts[count] = counts.get(count, 0) + times * often
        kept = tuple((count, often) for count, often in counts.items() if often)
        divided = (*self.divided, *((of, by, times * often) for of, by, often in other.divided))
        return Sum(kept, self.number + times * other.number, divided)

    def times(self, factor: int) -> "Sum":
        return Sum().plus(self, factor)

    @property
    def is_number(self) -> bool:
        return not self.counts and not self.divided


NOTHING = Sum()


class Meaning:
    """What expressions mean, with what this script's words count."""

    def __init__(self, weights: Mapping[str, tuple[int, ...]]) -> None:
        self.weights = weights

    # ---- numbers

    def cases(self, expression: Expression) -> list[tuple[Formula, Sum]]:
        """The sums that an expression is, each with when it is that one."""
        found = [(when, total) for when, total in self.all_cases(expression) if when != Always(False)]
        if len(found) > MOST_CASES:
            raise Refusal(expression.at, "too many tests are added here: say the cases with and, or and not")
        return found

    def all_cases(self, expression: Expression) -> Iterator[tuple[Formula, Sum]]:
        if isinstance(expression, Number):
            yield Always(True), Sum(number=expression.value)
        elif isinstance(expression, Named):
            yield from self.all_cases(expression.of)
        elif isinstance(expression, Count):
            yield Always(True), self.count(expression)
        elif isinstance(expression, Chosen):
            test = self.truth(expression.test)
            for when, branch in ((test, expression.then), (negated(test), expression.other)):
                for inner, total in self.cases(branch):
                    yield all_of(when, inner), total
        elif isinstance(expression, Unary) and expression.sign == "-":
            for when, total in self.cases(expression.of):
                yield when, total.times(-1)
        elif isinstance(expression, Binary) and expression.sign in ARITHMETIC:
            pairs = itertools.product(self.cases(expression.left), self.cases(expression.right))
            for (one, left), (two, right) in pairs:
                yield all_of(one, two), combined(expression, left, right)
        else:
            test = self.truth(expression)
            yield test, Sum(number=1)
            yield negated(test), Sum(number=0)

    def count(self, count: Count) -> Sum:
        """A count as counts of `deals`."""
        inside = count.seat + (f",{count.suit}" if count.suit else "")
        if count.what == "len":
            return Sum(((f"len({inside})", 1),))
        if count.what in ("control", "loser") and count.what not in self.weights:
            return Sum(((f"{count.what}s({inside})", 1),))
        weights = self.weights.get(count.what, WEIGHTS[count.what])
        if weights[:5] == WEIGHTS["hcp"] and not any(weights[5:]):
            return Sum(((f"hcp({inside})", 1),))
        if any(weights[5:]):
            raise Refusal(count.at, f"{count.what} counts cards below the ten here, which deals doesn't")
        return weighed(weights[:5], inside)

    def number(self, expression: Expression) -> str:
        """A value for `--of` and `--by`: a sum of counts, or a condition."""
        cases = self.cases(expression)
        if len(cases) == 1:
            ((_, total),) = cases
            if not total.divided and total.number >= 0 and all(often > 0 for _, often in total.counts):
                return side(expression.at, total.counts, total.number)
        if {total for _, total in cases} <= {Sum(number=0), Sum(number=1)}:
            return written(any_of(*(when for when, total in cases if total.number)))
        raise Refusal(expression.at, "deals counts sums of counts and conditions alone, without - / % and ?:")

    # ---- truth

    def truth(self, expression: Expression) -> Formula:
        """When an expression isn't 0."""
        if isinstance(expression, Named):
            return named(expression.name, self.truth(expression.of))
        if isinstance(expression, Unary) and expression.sign == "not":
            return negated(self.truth(expression.of))
        if isinstance(expression, Binary) and expression.sign == "and":
            return all_of(self.truth(expression.left), self.truth(expression.right))
        if isinstance(expression, Binary) and expression.sign == "or":
            return any_of(self.truth(expression.left), self.truth(expression.right))
        if isinstance(expression, Binary) and expression.sign in HOLDS:
            return self.compared(expression)
        if isinstance(expression, Shape):
            return shaped(expression)
        if isinstance(expression, HasCard):
            return has_card(expression)
        cases = self.cases(expression)
        return any_of(*(all_of(when, compared(expression.at, "!=", total, NOTHING)) for when, total in cases))

    def compared(self, expression: Binary) -> Formula:
        pairs = itertools.product(self.cases(expression.left), self.cases(expression.right))
        return any_of(*(
            all_of(one, two, compared(expression.at, expression.sign, left, right)) for (one, left), (two, right) in pairs
        ))


ARITHMETIC = ("+", "-", "*", "/", "%")


def combined(expression: Binary, left: Sum, right: Sum) -> Sum:
    """Two sums that an operator of arithmetic joins."""
    sign = expression.sign
    if sign in "+-":
        return left.plus(right, 1 if sign == "+" else -1)
    if sign == "*":
        if left.is_number or right.is_number:
            return right.times(left.number) if left.is_number else left.times(right.number)
        raise Refusal(expression.at, "deals multiplies by a number alone")
    if not right.is_number or right.number == 0:
        raise Refusal(expression.at, "deals divides by a number alone, and not by 0")
    if left.is_number:
        quotient = abs(left.number) // abs(right.number) * (1 if (left.number < 0) == (right.number < 0) else -1)
        return Sum(number=quotient if sign == "/" else left.number - quotient * right.number)
    is_simple = not left.divided and left.number >= 0 and all(often > 0 for _, often in left.counts)
    if sign == "/":
        if is_simple and right.number > 0:
            return Sum(divided=((left, right.number, 1),))
        raise Refusal(expression.at, "deals has no division: multiply both sides")
    raise Refusal(
        expression.at, "deals has no remainders: say which numbers it may be, as hcp(north)==10 or hcp(north)==12"
    )


def weighed(weights: tuple[int, ...], inside: str) -> Sum:
    """Weights of the five top ranks: those of one weight are counted together."""
    chosen: dict[int, str] = {}
    for rank, weight in zip(RANKS, weights):
        if weight:
            chosen[weight] = chosen.get(weight, "") + rank
    return Sum(tuple((f"cards({inside},{ranks})", weight) for weight, ranks in chosen.items()))


def side(at: Place, counts: tuple[tuple[str, int], ...], number: int) -> str:
    """One side of a comparison."""
    for written in (number, *(often for _, often in counts)):
        if written > MOST_NUMBER:
            raise Refusal(at, f"a number of deals has at most four digits, and {written} has more")
    terms = [count if often == 1 else f"{often}*{count}" for count, often in counts]
    return "+".join([*terms, *([str(number)] if number or not terms else [])])


def compared(at: Place, sign: str, left: Sum, right: Sum) -> Formula:
    """A comparison of two sums, with nothing taken away on either side."""
    difference = left.plus(right, -1)
    if difference.divided:
        return of_divided(at, sign, difference)
    if difference.is_number:
        return Always(HOLDS[sign](difference.number, 0))
    more = tuple((count, often) for count, often in difference.counts if often > 0)
    less = tuple((count, -often) for count, often in difference.counts if often < 0)
    number = difference.number
    if not more:
        more, less, number, sign = less, more, -number, FLIPPED[sign]
    if not less and number > 0:
        # Counts are at least 0: what is compared with a number below 0 is known.
        return Always(HOLDS[sign](1, 0))
    one, other = side(at, more, max(number, 0)), side(at, less, max(-number, 0))
    return Test(steady(one, sign, other))


def steady(one: str, sign: str, other: str) -> str:
    """A comparison with a number, by >= and <= alone."""
    if other.isdigit() and sign == ">" and int(other) < MOST_NUMBER:
        return f"{one}>={int(other) + 1}"
    if other.isdigit() and sign == "<" and int(other) > 0:
        return f"{one}<={int(other) - 1}"
    return f"{one}{sign}{other}"


def of_divided(at: Place, sign: str, difference: Sum) -> Formula:
    """rest + s * floor(of / by) compared with 0, where s is 1 or -1: x >= floor(y / n) is n * x + n - 1 >= y."""
    if len(difference.divided) > 1 or abs(difference.divided[0][2]) != 1:
        raise Refusal(at, "deals has no division: multiply both sides")
    ((of, by, often),) = difference.divided
    rest = Sum(difference.counts, difference.number)
    if often == 1:
        rest, sign = rest.times(-1), FLIPPED[sign]
    # Now rest is compared with floor(of / by).
    at_least = compared(at, ">=", rest.times(by).plus(Sum(number=by - 1)), of)
    more = compared(at, ">", rest.times(by), of)
    answers = {
        ">=": at_least, ">": more, "<": negated(at_least), "<=": negated(more),
        "==": all_of(at_least, negated(more)), "!=": negated(all_of(at_least, negated(more))),
    }
    return answers[sign]


BALANCED = {("+", True, "4333"), ("+", True, "4432"), ("+", True, "5332")}


def shaped(shape: Shape) -> Formula:
    """Shapes that are added and taken away one after another."""
    parts, found = list(shape.parts), Always(False)
    formula: Formula = found
    at = 0
    while at < len(parts):
        canonical = {(sign, is_any, "".join(sorted(text, reverse=True))) for sign, is_any, text in parts[at : at + 3]}
        if canonical == BALANCED:
            formula = any_of(formula, Test(f"balanced({shape.seat})"))
            at += 3
            continue
        sign, is_any, text = parts[at]
        one = one_shape(shape.seat, is_any, text)
        formula = any_of(formula, one) if sign == "+" else all_of(formula, negated(one))
        at += 1
    return formula


def one_shape(seat: str, is_any: bool, text: str) -> Formula:
    digits = [int(sign) for sign in text if sign != "x"]
    if not digits:
        return Always(True)
    # The lengths of a hand come to 13.
    if sum(digits) > 13 or (len(digits) == 4 and sum(digits) != 13):
        return Always(False)
    return Test(f"{'pattern' if is_any else 'shape'}({seat},{'-'.join(text)})")


def has_card(card: HasCard) -> Formula:
    if card.rank not in RANKS:
        raise Refusal(card.at, "deals counts no single card below the ten")
    return Test(f"cards({card.seat},{card.suit},{card.rank})==1")
