"""Conditions that no deal meets: which of them the program sees, and what it writes then.

Random conditions over shapes and points are given to the program. Of those that it calls impossible no one of 100,000
deals meets them where it searches, and the second reader (language.py) says so of 2,000 deals, with `many` of 100,000.
And where a condition is seen to be impossible, the program writes, reports and ends as where it searches: with an `or`
and a test that no deal meets either, but of which the program doesn't see that, each candidate is dealt.
"""

import concurrent.futures
import functools
import os
import random
import subprocess

import board_formats
import harness
import language
import model
import report

SEED = 52
# How many random conditions there are, how many of them are called impossible at the least, of how many deals none is to
# meet one of these, and of how many the second reader says that.
RANDOM, LEAST, SEARCHED = 2_000, 300, 100_000
DEALS = 100_000 if report.has("many") else 2_000
NEVER = "note: no deal "
UNSEEN = " or stops(west,clubs) and len(west,clubs)==0"
# Impossible conditions, with the words for the cards that are dealt beforehand.
SEEN = [
    ([], "pattern(north,5-4-3-2)"),
    ([], "balanced(north) and len(north,spades)>=6"),
    ([], "every suit (len(north,suit)>=4)"),
    ([], "hcp(north)>=20 and hcp(south)>=21"),
    ([], "balanced(north) and shortest(north)<2"),
    ([], "len(north,spades)>=5 and len(north,hearts)>=5 and len(north,clubs)>=5"),
    ([], "shape(north,5-5-x-x) and len(north,clubs)>=4"),
    ([], "hcp(north)+hcp(south)>=25 and hcp(east)+hcp(west)>=16"),
    (["--north", "AKQ2.K..A"], "hcp(north)<10"),
    (["--south", "AKQJ..."], "cards(north,a)==4"),
    (["--east", "AK.AK.AK.AK"], "any seat (controls(seat)>=1 and len(seat,clubs)>11)"),
]
SEARCH = ["--seed", "7", "--candidates", "300", "--first", "11"]
# What is asked of each, with what the search is to have found.
ASKED = [
    *(["make", "--format", format] for format in board_formats.FORMATS),
    ["make", "--report"],
    ["make", "--format", "hands", "--boards", "5", "--report", "--event", "Club"],
    ["make", "--format", "json", "--first-board", "9", "--report"],
    ["make", "--format", "html", "--rotate"],
    ["make", "--tricks", "--report"],
    ["find", "--report"],
    ["find", "--boards", "3", "--report", "--workers", "3"],
    ["count"],
    ["count", "--of", "hcp(north)"],
    ["count", "--of", "hcp(north)", "--by", "balanced(south)", "--format", "csv"],
    ["count", "--of", "hcp(north)", "--format", "html"],
]


def test(dice):
    """A test of a hand's shape or of its points."""
    seat, suit = dice.choice(["north", "north", "south"]), dice.choice(language.SUITS)
    relation = dice.choice(list(language.RELATIONS))
    match dice.randrange(10):
        case 0:
            return f"balanced({seat})"
        case 1:
            return f"{dice.choice(['shape', 'pattern'])}({seat},{items(dice)})"
        case 2:
            return f"{dice.choice(['longest', 'second', 'shortest'])}({seat}){relation}{dice.randrange(7)}"
        case 3 | 4:
            return f"hcp({seat}){relation}{dice.randrange(38)}"
        case 5:
            return f"{dice.choice(['controls', 'losers'])}({seat}){relation}{dice.randrange(13)}"
        case 6:
            return f"cards({seat},{dice.choice(['a', 'ak', 'akq', 'akqjt'])}){relation}{dice.randrange(9)}"
        case 7:
            return f"hcp({seat},{suit})+{dice.randrange(3)}*hcp(east,{suit}){relation}{dice.randrange(14)}"
    return f"len({seat},{suit}){relation}{dice.randrange(10)}"


def items(dice):
    """Four lengths, some of them left open, and mostly thirteen together."""
    shape = dice.choice([(4, 4, 3, 2), (5, 3, 3, 2), (5, 5, 2, 1), (6, 3, 2, 2), (7, 3, 3, 0), (5, 4, 3, 2)])
    return "-".join(str(n) if dice.randrange(3) else "x" for n in dice.sample(shape, 4))


def put_together(dice):
    """Two to four tests."""
    text = test(dice)
    for _ in range(dice.randint(1, 3)):
        text = dice.choice([f"{text} and {test(dice)}"] * 4 + [f"({text}) and not {test(dice)}", f"({text} or {test(dice)})"])
    return text


def run(words, given=b""):
    ended = subprocess.run([harness.PROGRAM, *words], input=given, capture_output=True, timeout=60, check=False)
    return ended.returncode, ended.stdout, ended.stderr.decode()


def is_called_impossible(condition, words=()):
    words = ["make", "--seed", "7", "--candidates", "1", "--hints", "always", *words, "--where", condition]
    status, _, said = run(words)
    if status != 0:
        raise ValueError(f"{condition}: status {status}, {said}")
    return NEVER in said


@functools.cache
def deals():
    """The deals that the second reader is asked of."""
    return list(model.dealt(SEED, DEALS))


def met(condition):
    """What is wrong with a condition that was called impossible: a deal that meets it, or None."""
    asked = ["count", "--seed", str(SEED), "--candidates", str(SEARCHED), "--format", "csv", "--where", f"({condition}){UNSEEN}"]
    status, found, said = run(asked)
    if (status, found) != (0, b"deals,candidates\n0,%d\n" % SEARCHED):
        return f"status {status}, {found!r}, {said}"
    is_true = language.condition(condition)
    number = next((number for number, hands in enumerate(deals()) if is_true(hands)), None)
    return None if number is None else f"deal {number} of seed {SEED} meets it"


def called_impossible():
    """Random conditions that are called impossible, each with whether a deal meets it."""
    dice = random.Random(SEED)
    conditions = [put_together(dice) for _ in range(RANDOM)]
    with concurrent.futures.ThreadPoolExecutor(len(os.sched_getaffinity(0))) as pool:
        impossible = [text for text, is_so in zip(conditions, pool.map(is_called_impossible, conditions)) if is_so]
    yield "how many are called impossible", None if len(impossible) >= LEAST else f"{len(impossible)} of {RANDOM}"
    deals()
    with concurrent.futures.ProcessPoolExecutor(len(os.sched_getaffinity(0))) as pool:
        yield from zip(impossible, pool.map(met, impossible, chunksize=8))


def complaint(fixed, condition):
    """Why the program doesn't end as where it searches, or None."""
    whole = f"({condition}){UNSEEN}"
    if not is_called_impossible(condition, fixed) or is_called_impossible(whole, fixed):
        return "it isn't seen, or what isn't to be seen is"
    for asked in ASKED:
        once, searched = (run([*asked, *SEARCH, *fixed, "--where", text]) for text in (condition, whole))
        if once != searched or once[0] != 0:
            return f"{' '.join(asked)}: {once} for {searched}"
    return None


def ended_at_once():
    """Impossible conditions, each with what is written without a search and with one."""
    for fixed, condition in SEEN:
        yield condition, complaint(fixed, condition)
