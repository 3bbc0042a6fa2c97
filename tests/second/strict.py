"""A strict reader of Portable Bridge Notation, for what `make` writes in it: escape lines first, games of tag pairs with
names of the standard, each once, tables with as many columns as their tag says, and an empty line after each game.

What it reads has to be what `make --format json` says of the same boards.
"""

import json
import re

import harness

NAMES = {"Event", "Site", "Date", "Board", "Dealer", "Vulnerable", "Deal"}
NAMES |= {"DoubleDummyTricks", "OptimumScore", "ParContract", "OptimumResultTable"}
RANKS = "AKQJT98765432"
PAIR = re.compile(r'\[([A-Za-z]+) "([ -!#-\[\]-~]*(?:\\[0-9]R[ -!#-\[\]-~]*)*)"\]')
TRICKS = b"97b8997b892624426244 NS 450 4H-NS+1\n-\n0123456789abcd012345 EW 7600 7N*-N\n"
LOOKS = [
    [],
    ["--event", "Club night", "--site", "Riverside", "--date", "2026.11.24"],
    ["--show", "ns"],
    ["--show", "dealer", "--rotate"],
    ["--tricks"],
]


class Refused(Exception):
    """A text that isn't Portable Bridge Notation."""


def hand_of(text):
    """The cards of a hand, or None of one that isn't shown."""
    if text == "-":
        return None
    suits = text.split(".")
    if len(suits) != 4 or any(list(suit) != sorted(set(suit), key=RANKS.index) for suit in suits):
        raise Refused(f"hand {text}")
    if sum(map(len, suits)) != 13:
        raise Refused(f"{text} has not thirteen cards")
    return {(at, rank) for at, suit in enumerate(suits) for rank in suit}


def deal_of(text):
    """Checks a deal: a seat, and four hands of which no two have a card."""
    if not re.fullmatch(r"[NESW]:\S+ \S+ \S+ \S+", text):
        raise Refused(f"deal {text}")
    shown = [hand for hand in map(hand_of, text[2:].split(" ")) if hand is not None]
    if len(set().union(*shown)) != 13 * len(shown):
        raise Refused(f"a card of {text} is dealt twice")


def game_of(lines):
    """The tags of a game, and the rows of its table."""
    tags, rows = {}, []
    for line in lines:
        pair = PAIR.fullmatch(line)
        if pair is None and list(tags)[-1:] == ["OptimumResultTable"]:
            rows.append(line.split())
            continue
        if pair is None or pair[1] not in NAMES or pair[1] in tags:
            raise Refused(f"line {line}")
        tags[pair[1]] = pair[2]
    columns = len(tags.get("OptimumResultTable", "").split(";"))
    if any(len(row) != columns for row in rows) or len(rows) not in (0, 20):
        raise Refused(f"{len(rows)} rows")
    deal_of(tags["Deal"])
    return tags, rows


def games_of(text):
    """The games of a text."""
    lines = text.decode("ascii").split("\n")
    if any(len(line) > 255 for line in lines) or not lines[0].startswith("%"):
        raise Refused(lines[0])
    *games, rest = "\n".join(line for line in lines if not line.startswith("%")).split("\n\n")
    if rest:
        raise Refused(f"after the last game: {rest}")
    return [game_of(game.split("\n")) for game in games]


def told(game):
    """What a game tells, as a line of JSON has it."""
    tags, rows = game
    found = {"board": int(tags["Board"]), "dealer": tags["Dealer"], "vulnerable": tags["Vulnerable"], "deal": tags["Deal"]}
    if "DoubleDummyTricks" in tags:
        found["tricks"] = tags["DoubleDummyTricks"]
        par = [tags[name] for name in ("OptimumScore", "ParContract") if name in tags]
        if par:
            found["par"] = " ".join(par)
        if [int(row[2]) for row in rows] != [int(digit, 16) for digit in found["tricks"]] * bool(rows):
            raise Refused(f"rows {rows}")
    return found


def read():
    """What is read is what JSON says."""
    for look in LOOKS:
        words = ["make", "--seed", "7", "--candidates", "3", *look]
        boards = [json.loads(line) for line in harness.deals(*words, "--format", "json", given=TRICKS).stdout.splitlines()]
        for board in boards:
            del board["number"]
        try:
            found = [told(game) for game in games_of(harness.deals(*words, given=TRICKS).stdout)]
        except (Refused, KeyError, ValueError) as error:
            found = repr(error)
        yield " ".join(words), None if found == boards and len(boards) == 3 else f"{found} for {boards}"
