"""Random texts of games as other programs write them, some spoiled: what `deals show` of the built program writes and says,
by a second reading of them (records.py) and a second program (notation.py).
"""
from __future__ import annotations

import random
import re
from collections.abc import Iterator

import board_formats
import harness
import model
import notation
import records
import report

# How many games the texts have in the gate, and with `many`.
GAMES, MANY = 3_000, 20_000
# Whose hands are written, beside those of all.
WHO = ["dealer", "north", "east", "south", "west", "ns", "ew"]
PLAYERS = ("West", "North", "East", "South", "Scoring", "Declarer", "Contract", "Result", "Auction", "_x1")
IN_UTF_8 = ("Z\xfcrich", "\u738b" * 100, "\u738b" * 101, "\U0001f0a1" * 100, "to\u202eend", "a\u2028b", "a\x85b")
COMMENTS = ("; a remark", "{one line}", "{over\n[Board \"9\"]\n\nlines}", "% an escape [Deal]", "{a {b} c", "}", ";{")
TABLES = ("[Auction \"N\"]\n1NT Pass 3NT\nPass Pass", "[Play \"W\"]\nSA S2 S3 S4\n*", "\t", "AP", "-- [Deal \"no\"]")
BAD_DEALS = ("N:.... ... ... ...", "", "X:AKQ.J.T.9", "N:AK.AK.AK.AK - - -", "n:AKQJT98765432... - - -", "N:")
SCORES = ("NS 450", "EW 1400", "NS 0", "NS -50", "NS", "ns 50", "EW 12345", "NS 50 ", "")
CONTRACTS = ("4H-NS+1", "3NT-N=,3NT-S=", "5C*-EW-2", "NS 4H", "4H/N", "a" * 24, "a" * 25, "")
BAD_TAGS = ("[", "[Deal", "[Deal \"N", "[De al \"x\"]", "[\"x\"]", "[Deal \"x\"", "[Deal \"x\" y]", "[Deal x]", "[Deal \"x\\\"]")


def random_deal(rng: random.Random) -> str:
    """The value of a Deal tag, from any seat on, with ranks in any order."""
    pack = list(range(52))
    rng.shuffle(pack)
    if rng.random() < 0.8:
        hands = [sorted(pack[13 * seat : 13 * seat + 13]) for seat in range(4)]
    else:
        hands = [pack[13 * seat : 13 * seat + 13] for seat in range(4)]
    texts = [".".join("".join(model.RANKS[c % 13] for c in hand if c // 13 == suit) for suit in range(4)) for hand in hands]
    return rng.choice("NESW") + ":" + " ".join(texts)


def random_value(rng: random.Random, name: str) -> str:
    """A value of a tag of this name, seldom a wrong one."""
    spoiled = rng.random() < 0.01
    if name == "Deal":
        return rng.choice(BAD_DEALS) if spoiled else random_deal(rng)
    if name == "Board":
        wrong = rng.choice(["0", "x", "", "-1", str(2**40 + 1), "1 "])
        return wrong if spoiled else str(rng.choice([rng.randrange(1, 40), rng.randrange(1, 2**40 + 1), 2**40]))
    if name == "Dealer":
        return rng.choice(["n", "NS", "-"]) if spoiled else rng.choice("NESW?")
    if name == "Vulnerable":
        return "both sides" if spoiled else rng.choice(["None", "NS", "EW", "All", "Both", "love", "-", "?", "ns", "aLL"])
    if name == "Date":
        return rng.choice(["2026.11.29", "????.??.??", "2026.1.2", "?", "#", ""])
    if name == "DoubleDummyTricks":
        digits = "".join(rng.choice("0123456789abcdABCD") for _ in range(20))
        return rng.choice([digits[1:], digits + "0", digits[:-1] + "e", "", "*"]) if rng.random() < 0.2 else digits
    if name == "OptimumScore":
        return rng.choice(SCORES)
    if name == "ParContract":
        return rng.choice(CONTRACTS)
    if name in ("Event", "Site"):
        return rng.choice(["Club night", "?", "#", "", "a" * 100, "a" * 101, r"an \"open\" one", "<b>", "caf\xe9", "  ",
                           r"back\\slash", *(text.encode().decode("latin1") for text in IN_UTF_8)])
    return rng.choice(["?", "x", r"back\\slash", "[{;%"])


def random_tag(rng: random.Random, name: str) -> str:
    """A tag, mostly as programs write it."""
    before, after = rng.choice([(" ", "")] * 9 + [("", ""), ("\t ", " ")])
    return f'[{name}{before}"{random_value(rng, name)}"{after}]'


def random_game(rng: random.Random) -> str:
    """A game with some tags in some order, other lines between them, and mostly an empty line at its end."""
    names = [name for name in records.KINDS if rng.random() < 0.85]
    if rng.random() < 0.3:
        rng.shuffle(names)
    lines = []
    for name in names:
        lines.append(random_tag(rng, name))
        if rng.random() < 0.15:
            lines.append(rng.choice([random_tag(rng, rng.choice(PLAYERS)), *COMMENTS, *TABLES]))
        if rng.random() < 0.05 and len(lines) > 1:
            lines[-2:] = [rng.choice(["", " ", " ; "]).join(lines[-2:])]
        if rng.random() < 0.002:
            lines.append(rng.choice([*BAD_TAGS, "[Event \"" + "x" * 4100 + "\"]", "x" * 5000]))
    return "\n".join(lines) + rng.choice(["\n\n"] * 8 + ["\n", "\n \n", "\n\n\n"])


def random_text(rng: random.Random, games: int) -> bytes:
    """A text with this many games."""
    text = rng.choice(["% PBN 2.1\n", "", "\n", "% EXPORT\n;\n"]) + "".join(random_game(rng) for _ in range(games))
    text = rng.choice([text, text, text.rstrip("\n"), text + "[Deal"])
    text = text.replace("\n", "\r\n") if rng.random() < 0.25 else text
    if rng.random() < 0.1:
        at = rng.randrange(len(text) + 1)
        text = text[:at] + rng.choice(["\r", "\n", "\"", "[", "]", "{", "\x00", "\\"]) + text[at:]
    return text.encode("latin1")


def written(form: str, boards: list[records.Board], whole: bool, who: str, has_points: bool) -> bytes:
    """These hands of the boards in a format, with tricks where all are written, under the labels of the first, whose
    tricks decide on a page's style."""
    labels = boards[0].labels if boards else []
    parts = [notation.header(form, labels, bool(boards and boards[0].tricks[0]))]
    for board in boards:
        dealer, tricks = model.SEATS.index(board.dealer), board.tricks if who == "all" else ("", "", "")
        hands = [[13 * suit + model.RANKS.index(r) for suit in range(4) for r in hand[suit]] for hand in board.hands]
        hands = notation.shown(hands, dealer, who)
        if form == "pbn":
            ascii_only = [(name, value) for name, value in labels if re.fullmatch(r"[ !#-\[\]-~]*", value)]
            parts.append(notation.game(board.number, dealer, board.vulnerable, hands, tricks, ascii_only))
        elif form == "json":
            line = notation.json_line(board.number, dealer, board.vulnerable, hands, tricks, 0)
            parts.append(line.replace(',"number":0', ""))
        else:
            write = notation.WRITERS[form]
            parts.append(write(board.number, dealer, board.vulnerable, hands, tricks, has_points))
    if whole and form in notation.PAGES:
        parts.append(notation.frame(1, ()))
    return "".join(parts).encode()


def of_texts() -> Iterator[tuple[str, str | None]]:
    """What is wrong with each text; None where nothing is."""
    rng, left = random.Random(17), MANY if report.has("many") else GAMES
    while left > 0:
        games, form = min(left, rng.randrange(1, 12)), rng.choice(board_formats.FORMATS)
        left -= games
        text = random_text(rng, games)
        boards, refused = records.read(text)
        who, points = rng.choice(["all"] * 8 + WHO), rng.choice(["show", "show", "hide"])
        words = ["show", "--format", form, "--show", who, "--points", points]
        ended = harness.deals(*words, given=text)
        out = written(form, boards, refused is None, who, points == "show")
        wanted = (7 if refused else 0, out, f"{refused}\n" if refused else "")
        right = (ended.returncode, ended.stdout, ended.stderr.decode()) == wanted
        name = f"{' '.join(words)} < {text[:300]!r}"
        yield name, None if right else f"not {len(boards)} boards, {refused}: {ended.returncode} {ended.stderr.decode()}"
