"""Conditions over given deals: the tables of truths/ beside the built program and the second program.

A table has its deals first, a line of four hands each. A row says of each deal what is true of it: `y n | CONDITION`, or
which number a value has, `5 3 | VALUE`, which is asked as a comparison and as a range. The program is given the four
whole hands, so that there is one deal, and writes its board or none. `make` judges with a clone of the condition.
"""

import pathlib
import re
import subprocess

import harness
import language
import model
import tables

HERE = pathlib.Path(__file__).resolve().parent
TRUTHS = {"y": True, "n": False}


def asked():
    """Each row's table and text, with a deal, a condition, and whether it is true of the deal."""
    for file in sorted((HERE / "truths").glob("*.txt")):
        deals = []
        for left, text in tables.lines(file):
            if text is None:
                deals.append(left)
                continue
            said = left.split()
            if len(said) != len(deals):
                raise ValueError(f"{file.name}: {len(said)} for {len(deals)} deals: {text}")
            for deal, word in zip(deals, said):
                yield from ((file.stem, deal, *asking) for asking in askings(text, word))


def askings(text, word):
    """The conditions that a word of a row asks, and whether each is true."""
    if word in TRUTHS:
        return [(text, TRUTHS[word])]
    return [(f"{text}=={word}", True), (f"{text} in {word}-{word}", True), (f"{text}!={word}", False)]


def cards_of(hand):
    """The hand's card numbers."""
    return [
        13 * suit + model.RANKS.index(letter) for suit, held in enumerate(hand.split(".")) for letter in held
    ]


def complaint(deal, condition, truth):
    """What is wrong with what the two programs say; None where nothing is."""
    hands = deal.split()
    if language.condition(condition)([cards_of(hand) for hand in hands]) != truth:
        return "the second program says something else"
    given = [word for seat, hand in zip(language.SEATS, hands) for word in (f"--{seat}", hand)]
    words = ["make", "--seed", "0", "--candidates", "1", *given, "--where", condition]
    ended = subprocess.run([harness.PROGRAM, *words], capture_output=True, text=True)
    if ended.returncode != 0 or ended.stderr:
        return f"status {ended.returncode}, {ended.stderr!r}"
    found = re.findall(r'^\[Deal "N:([^"]+)"\]$', ended.stdout, re.M)
    return None if found == ([deal] if truth else []) else f"the deals {found}"
