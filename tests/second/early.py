"""Candidates are given up as soon as no completion can be accepted. Here the same is found without that.

`(C) or balanced(north) and not balanced(north)` is true of the deals of which C is true, and of a hand's shape nothing
is known before the deal is whole: so each candidate is dealt whole. Both have to find the same candidates.
"""

import hashlib
import random
import subprocess

import harness
import language
import random_conditions

CANDIDATES = 10_000_000
WHOLE = " or balanced(north) and not balanced(north)"
# How many conditions are put together by chance, besides those below.
RANDOM = 26
CHOSEN = [
    "hcp(north)+hcp(south)>=33",
    "hcp(north)>=32",
    "hcp(north)>=22",
    "hcp(south)>=20",
    "hcp(west)>=20",
    "hcp(north)<2",
    "not hcp(north)+hcp(east)<30",
    "hcp(north)+hcp(east)+hcp(south)>=36",
    "hcp(north)+hcp(east)+hcp(south)<=24",
    "hcp(north)+controls(north)+hcp(south)>=42",
    "controls(east)>=9 or controls(south)>=9",
    "hcp(west)<hcp(south) and hcp(south)+3<hcp(east) and hcp(east)+6<hcp(north)",
    "len(north,spades)>=8",
    "len(north,spades)>=5 and len(south,spades)>=5",
    "len(north,spades)+len(south,spades)==13",
    "len(east,hearts)+len(west,hearts)<=1 or len(north,clubs)>9",
    "cards(north,a)==4 or cards(south,a)+cards(east,a)==4",
    "any suit (hcp(west,suit)==10 and len(west,suit)>=7)",
    "every suit (hcp(north,suit)+hcp(south,suit)>=8)",
    "hcp(north) in 15-17 and balanced(north)",
    "losers(north)<=2 and hcp(south)>=10",
    "shortest(west)==0 and not hcp(west)>3",
    "hcp(north)+losers(south)<=9",
    "hcp(north)!=hcp(north)",
]
# Cards that are dealt beforehand, with a condition each.
AROUND = [
    (["--north", "A...A", "--south", ".A.A."], "hcp(north)+hcp(south)>=34"),
    (["--west", "AKQJ.AK.."], "hcp(north)+hcp(south)>=19 or hcp(west)<=18"),
    (["--north", "AQ742.K5.KJ3.842"], "hcp(south)>=18 and len(south,spades)==0"),
    (["--south", "AKQ32.K..", "--east", "...AKQJ"], "len(north,hearts)+len(east,hearts)>=11"),
]


def extreme(dice):
    """A sum over some seats with a bound that few deals or most deals meet."""
    seats = dice.sample(language.SEATS, dice.randint(1, 3))
    word, most = dice.choice([("hcp", 40), ("controls", 12), ("len", 13), ("cards", 4)])
    suit = dice.choice(language.SUITS)
    argument = {"len": f",{suit}", "cards": f",{dice.choice('akqjt')}"}.get(word, "")
    value = "+".join(f"{word}({seat}{argument})" for seat in seats)
    middle = most * len(seats) // 4
    bound = dice.choice([max(0, middle - most // 3), min(most, middle + most // 3)])
    return f"{value}{dice.choice(['>=', '<=', '>', '<'])}{bound}"


def put_together(dice):
    """A condition of extremes and of any tests."""
    kinds = [extreme, extreme, lambda dice: random_conditions.test(dice, [], random_conditions.DEEPEST)]
    tests = [dice.choice(kinds)(dice) for _ in range(dice.randint(1, 4))]
    text = tests[0]
    for test in tests[1:]:
        text = dice.choice([f"({text} and {test})", f"({text} or {test})", f"(not {text} and {test})"])
    return text


def asked():
    """The conditions, each with the words for the cards that are dealt beforehand."""
    dice = random.Random(52)
    for text in CHOSEN + [put_together(dice) for _ in range(RANDOM)]:
        yield [], text
    yield from AROUND


def found(words, condition):
    """The sum of all that `find` says, and how many candidates it finds."""
    command = [harness.PROGRAM, "find", "--seed", "2026", "--candidates", str(CANDIDATES), "--lane", "4096"]
    digest, lines = hashlib.sha256(), 0
    with subprocess.Popen([*command, *words, "--where", condition], stdout=subprocess.PIPE) as process:
        while piece := process.stdout.read(1 << 20):
            digest.update(piece)
            lines += piece.count(b"\n")
    if process.returncode != 0:
        raise ValueError(f"status {process.returncode}")
    return digest.hexdigest(), lines


def complaint(words, condition):
    """Why the two find other candidates, or None."""
    try:
        early, whole = found(words, condition), found(words, f"({condition}){WHOLE}")
    except ValueError as error:
        return str(error)
    return None if early == whole else f"{early[1]} candidates for {whole[1]}"
