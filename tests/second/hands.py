"""Gives texts of hands to the built program, written by hand and at random, and compares what it deals and what it says
of a text that is refused with a second reading of them.

A text that is a hand has its cards in the seat's hand of each deal. Of four texts the first that isn't a hand, or that has
a card of an earlier one, is refused: with status 2, nothing written, its seat, and below it a fault that the text has. A
hand that is told in its place is one, of the same ranks.
"""

import collections
import random
import re
import subprocess
import sys

import harness
import report

SEATS = ["north", "east", "south", "west"]
RANKS = "AKQJT98765432"
SUITS = ["spades", "hearts", "diamonds", "clubs"]
NAMES = "ace king queen jack ten nine eight seven six five four three two".split()
SEED = 2026
RANDOM_DEALS = 1000
# Bytes of hands, and some others.
BYTES = RANKS + "...ak10 -\n."

LOWER_CASE = "ranks are capital letters, A K Q J T 9 8 7 6 5 4 3 2"
TEN_AS_DIGITS = "a ten is written T"
UNKNOWN = "write A K Q J T 9 8 7 6 5 4 3 2 and dots, without the cards that may be any"
DOTS = "three dots separate spades, hearts, diamonds and clubs, as AKQ32.K..A"
TOO_MANY = "a hand has 13 cards at most"

# What North holds by texts that are hands; each seat is given each of them.
HANDS = """... AKQ32.K..A 2KA3Q.K..A AKQJT98765432... .AKQJT98765432.. ...AKQJT98765432 ...23456789TJQKA A... ...2 .T..T
AKQ.AKQ.AKQ.AKQJ 72.AT64.75.AT872""".split()
# Four hands that are a whole deal, or a few cards.
DEALS = [
    "AKQJT98765432... .AKQJT98765432.. ..AKQJT98765432. ...AKQJT98765432",
    ".63.AKQ987.A9732 A8654.KQ5.T.QJT6 J973.J98742.3.K4 KQT2.AT.J6542.85",
    "72.AT64.75.AT872 AK985.85.A6.Q654 QJ43.Q732.QT3.K9 T6.KJ9.KJ9842.J3",
    "KQ432.A93.AJ.JT8 6.865.6.AQ976532 A985.KJ742.KQ32. JT7.QT.T98754.K4",
    "A... .A.. ..A. ...A",
    "... ... ... ...",
]
# What isn't a hand, and what is said of it. Of several faults the first in this order is told: a byte, the dots, a card
# that is there twice, too many cards.
NO_HANDS = [
    ("", DOTS),
    (".", DOTS),
    ("..", DOTS),
    ("....", DOTS),
    ("AK..", DOTS),
    ("AKQ32", DOTS),
    ("A....", DOTS),
    ("AA.A", DOTS),
    ("AA...", "the ace of spades is there twice"),
    ("AKA...", "the ace of spades is there twice"),
    ("..KQK.", "the king of diamonds is there twice"),
    ("...22", "the two of clubs is there twice"),
    ("...3422", "the two of clubs is there twice"),
    ("AKQJT98765432A...", "the ace of spades is there twice"),
    ("ak...", LOWER_CASE),
    ("a...", LOWER_CASE),
    ("A.K.Q.t", LOWER_CASE),
    ("AA.k", LOWER_CASE),
    ("10...", TEN_AS_DIGITS),
    ("A.K.Q.J10", TEN_AS_DIGITS),
    ("1...", UNKNOWN),
    ("A.1.0.", UNKNOWN),
    ("0...", UNKNOWN),
    ("...1", UNKNOWN),
    ("x...", UNKNOWN),
    ("Ax...", UNKNOWN),
    ("A K...", UNKNOWN),
    (" ...", UNKNOWN),
    ("... ", UNKNOWN),
    ("-...", UNKNOWN),
    ("A,K,Q,J", UNKNOWN),
    ("AK,Q,J,T", UNKNOWN),
    ("♠A...", UNKNOWN),
    ("A.K.Q.♠", UNKNOWN),
    ("A.K.Q.J\n", UNKNOWN),
    ("AKQJT98765432.A..", TOO_MANY),
    ("AKQJT98765432...2", TOO_MANY),
    ("AKQ.AKQ.AKQ.AKQJT", TOO_MANY),
]
# A card of an earlier hand.
TAKEN = [
    (["A...", "A...", None, None], "east", "the ace of spades is north's"),
    (["A...", None, "A...", None], "south", "the ace of spades is north's"),
    (["A...", "K...", "A...", "K..."], "south", "the ace of spades is north's"),
    ([None, "A...", "K...", "A..."], "west", "the ace of spades is east's"),
    ([None, ".A..", "...2", ".A.."], "west", "the ace of hearts is east's"),
    ([None, None, "...2", "...2"], "west", "the two of clubs is south's"),
]
TAKEN += [
    (["AKQJT98765432...", None, None, f"{rank}..."], "west", f"the {name} of spades is north's")
    for rank, name in zip(RANKS, NAMES)
]


def cards_of(text):
    """The cards of a text, suit and rank of each, in its order; ranks that are none are kept."""
    return [(suit, rank) for suit, ranks in enumerate(text.split(".")) for rank in ranks]


def name_of(card):
    suit, rank = card
    return f"the {NAMES[RANKS.index(rank)]} of {SUITS[suit]}"


def faults_of(text, held):
    """What may be said of a text, beside the cards that earlier seats hold; nothing of a hand."""
    odd = [at for at, sign in enumerate(text) if sign not in RANKS + "."]
    if odd:
        lower = {LOWER_CASE for at in odd if text[at] in "akqjt"}
        tens = {TEN_AS_DIGITS for at in odd if text[at : at + 2] == "10"}
        return lower | tens | {UNKNOWN for at in odd if text[at] not in "akqjt"}
    if text.count(".") != 3:
        return {DOTS}
    counts = collections.Counter(cards_of(text))
    twice = {f"{name_of(card)} is there twice" for card, count in counts.items() if count > 1}
    if twice:
        return twice
    if counts.total() > 13:
        return {TOO_MANY}
    return {f"{name_of(card)} is {held[card]}'s" for card in counts if card in held}


def reading(texts):
    """Which seat holds which card by the texts; or the seat of the first that is refused, and what may be said of it."""
    held = {}
    for seat, text in zip(SEATS, texts):
        if text is None:
            continue
        faults = faults_of(text, held)
        if faults:
            return None, (seat, faults)
        held.update((card, seat) for card in cards_of(text))
    return held, None


def run(texts, seed):
    words = [f"--{seat}={text}" for seat, text in zip(SEATS, texts) if text is not None]
    command = [harness.PROGRAM, "make", "--seed", str(seed), "--candidates", "1", "--hints", "always", *words]
    return subprocess.run(command, capture_output=True, text=True)


def below_refusal(said):
    """The lines below a refusal: what the option was given, the fault, and the hand that is told, or None."""
    _, _, below = said.partition("\n")
    given, _, fault = below.partition("\n")[0].rpartition(": ")
    hint = re.search("^  hint: write (.*)\n", below, re.M)
    return given, fault, hint and hint[1]


def is_likely(hand, text):
    """Whether a hand that is told is one, and of the ranks of this text."""
    ranks = [sign for sign in text.upper().replace("10", "T") if sign in RANKS]
    return not faults_of(hand, {}) and list(hand.replace(".", "")) == ranks


def complaint(texts, seed=SEED):
    """What is wrong with the run with these texts; None where nothing is."""
    ended = run(texts, seed)
    held, refused = reading(texts)
    if refused:
        seat, faults = refused
        given, said, hand = below_refusal(ended.stderr)
        is_right = ended.returncode == 2 and not ended.stdout and ended.stderr.startswith(f"hand refused: {seat}\n")
        is_right = is_right and given.startswith(f"  --{seat} ") and said in faults
        is_right = is_right and (hand is None or is_likely(hand, texts[SEATS.index(seat)]))
        return None if is_right else f"{texts}: status {ended.returncode}, {ended.stderr!r}, not {refused}"
    deal = re.search(r'^\[Deal "N:(.*)"\]$', ended.stdout, re.M)
    if ended.returncode != 0 or ended.stderr or not deal:
        return f"{texts}: status {ended.returncode}, {ended.stderr!r}"
    dealt = {card: seat for seat, hand in zip(SEATS, deal[1].split(" ")) for card in cards_of(hand)}
    wrong = [card for card, seat in held.items() if dealt.get(card) != seat]
    return f"{texts}: {wrong} not where they were given" if wrong or len(dealt) != 52 else None


def told(texts, seat, rule):
    """What is wrong with what is said of a text whose fault is known by hand."""
    if reading(texts)[1][0] != seat:
        return f"{texts}: the second reading is wrong"
    _, said, _ = below_refusal(run(texts, SEED).stderr)
    return complaint(texts) or (None if said == rule else f"{texts}: said {said!r}, not {rule!r}")


def alone(text, place):
    return [text if at == place else None for at in range(4)]


def written():
    """What is to be checked of the texts by hand: a function and what it takes."""
    for text in HANDS:
        yield from ((complaint, alone(text, place)) for place in range(4))
    yield from ((complaint, deal.split(" ")) for deal in DEALS)
    for text, rule in NO_HANDS:
        yield from ((told, alone(text, place), seat, rule) for place, seat in enumerate(SEATS))
        yield told, ["A...", text, "A...", text], "east", rule
    yield from ((told, *row) for row in TAKEN)


def random_text(dice):
    """A text that is mostly a hand, or none."""
    if dice.randrange(4) == 0:
        return None
    # Of 52 cards, often about three, and at times about thirteen.
    often = 10 if dice.randrange(8) == 0 else dice.randrange(4)
    suits = ("".join(rank for rank in RANKS if dice.randrange(40) < often) for _ in range(4))
    signs = list(".".join(suits))
    for _ in range(dice.randrange(4)):
        one, other = dice.randrange(len(signs)), dice.randrange(len(signs))
        signs[one], signs[other] = signs[other], signs[one]
    if dice.randrange(8) == 0:
        signs[dice.randrange(len(signs))] = dice.choice(BYTES)
    return "".join(signs)


def at_random():
    dice = random.Random(SEED)
    each = [[random_text(dice) for _ in range(4)] for _ in range(RANDOM_DEALS)]
    sound = sum(reading(texts)[1] is None for texts in each)
    if not RANDOM_DEALS // 5 < sound < RANDOM_DEALS * 4 // 5:
        sys.exit(f"{sound} of {RANDOM_DEALS} random texts are sound: too few or too many")
    yield from ((complaint, texts, seed) for seed, texts in enumerate(each))


def judged(row):
    """What is wrong with a row: a function and what it takes."""
    return row[0](*row[1:])


def by_hand():
    """Texts by hand."""
    yield from report.asked(judged, written(), lambda row: str(row[1:]))


def random_ones():
    """Random texts."""
    yield from report.asked(judged, at_random(), lambda row: str(row[1:]))
