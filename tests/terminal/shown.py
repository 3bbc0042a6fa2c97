"""Runs `show` of the built program over inputs of all kinds.

What `make` writes in PBN and `show` reads has to be what `make` writes in each format, but for the numbers of candidates
in JSON, which are left out.
"""

import os
import re
import subprocess

import harness
import report
from board_formats import FORMATS

# Options of `make`, and those that both commands take.
LABELS = ["--event", "Club night", "--site", "", "--date", "2024.05.01"]
MADE = [
    [],
    LABELS,
    ["--rotate", "--dealer", "S", "--vulnerable", "All"],
    ["--first-board", "17", "--date", "2024.05.01"],
    ["--first-board", "1099511627770"],
]
BOTH = [[], *(["--show", who] for who in ("dealer", "north", "east", "south", "west", "ns", "ew")), LABELS]
BOTH += [["--points", "hide"], ["--points", "show", "--show", "all"]]
BOARDS = ["make", "--seed", "0", "--boards", "6"]

# The first deal of seed 0, which POSIX's drand48 draws, as a game of PBN.
DEAL = b'[Deal "N:72.AT64.75.AT872 AK985.85.A6.Q654 QJ43.Q732.QT3.K9 T6.KJ9.KJ9842.J3"]\n'
LINE = b"qx|o1|md|3SQJ43HQ732DQT3CK9,ST6HKJ9DKJ9842CJ3,S72HAT64D75CAT872,SAK985H85DA6CQ654|sv|o|ah|Board 1|pg||\n"
OTHER = LINE.replace(b"o1", b"o2").replace(b"md|3", b"md|4").replace(b"sv|o", b"sv|n").replace(b"Board 1", b"Board 2")

# An input, the status, what is written in LIN, and what is said.
INPUTS = [
    (b"", 0, b"", b""),
    (b"% PBN 2.1\n% EXPORT\n\n\n", 0, b"", b""),
    (DEAL, 0, LINE, b""),
    (DEAL.rstrip(b"\n"), 0, LINE, b""),
    (DEAL.replace(b"\n", b"\r\n") * 2, 0, LINE + OTHER, b""),
    (b"{ [Deal \"none\"]\n} ; [\n" + DEAL, 0, LINE, b""),
    (b'[Event "1\\"2"] [Site "?"]' + DEAL, 0, LINE, b""),
    (b'[Board "1"]\n[Dealer "N"]\n[Vulnerable "None"]\n' + DEAL + b'[Auction "N"]\n1NT Pass Pass Pass\n\n', 0, LINE, b""),
    (b'[Board "2"]\n\n' + DEAL, 0, LINE, b""),
    (b"\xef\xbb\xbf% PBN 2.1\n" + DEAL, 0, LINE, b""),
    (LINE, 0, b"", b""),
    (b'{"board":1}\n', 0, b"", b""),
    (DEAL + b'\n[Deal "N:A K Q J"]\n', 7, LINE, b"input refused at line 3: not a deal\n"),
    (DEAL + DEAL.replace(b"72.", b"7.")[:-3] + b'"]\n', 7, LINE, b"input refused at line 2: not a deal\n"),
    (b'[Board "0"]\n' + DEAL, 7, b"", b"input refused at line 1: not a board's number\n"),
    (b'[Board "1099511627777"]\n' + DEAL, 7, b"", b"input refused at line 1: not a board's number\n"),
    (b'[Dealer "North"]\n' + DEAL, 7, b"", b"input refused at line 1: not a dealer\n"),
    (DEAL + b'[Vulnerable "NSEW"]\n[Board "x"]\n', 7, b"", b"input refused at line 2: not a vulnerability\n"),
    (b'[Vulnerable "x"]\n\n' + DEAL, 0, LINE, b""),
    (DEAL + b"\n[Board 2]\n", 7, LINE, b"input refused at line 3: not a tag\n"),
    (DEAL + b'[Event "a\n', 7, b"", b"input refused at line 2: not a tag\n"),
    (DEAL + b"\n" + b" " * 4097, 7, LINE, b"input refused at line 3: longer than 4096 bytes\n"),
    (b" " * 4096 + b"\n" + DEAL, 0, LINE, b""),
]

# Lines of tricks for six boards: with par and without, and of one nothing is known.
TRICKS = b"""97b8997b892624426244 NS 450 4H-NS+1
67b8967b89D624Cd6240 EW 1400
0123456789abcd012345
-
77777777777777777777 NS 0
88888888885555555555 EW 90 1NT-N=,2C*-S-1
"""

# How many boards are read, and in which time at most, in seconds.
MANY = 100_000
LONGEST = 20
# The most memory, in KiB, whatever the input.
MOST_MEMORY = 8 * 1024


def inputs():
    """Games of all kinds, and what is none."""
    for given, status, written, said in INPUTS:
        ended = harness.deals("show", "--format", "lin", given=given)
        right = (ended.returncode, ended.stdout, ended.stderr) == (status, written, said)
        yield f"show of {given[:60]!r}", None if right else f"{ended.returncode}, {ended.stdout!r}, {ended.stderr!r}"


def without_numbers(text):
    """The text without the numbers of candidates that JSON has."""
    return re.sub(rb',"number":\d+', b"", text)


def made_and_shown():
    """What is made and shown is what `make` writes, in each format, and with each option."""
    for made in MADE:
        games = harness.deals(*BOARDS, *made).stdout
        for form in FORMATS:
            for both in BOTH:
                if "--date" in made and "--date" in both:
                    continue
                words = ["--format", form, *both]
                shown = harness.deals("show", *words, given=games)
                right = harness.deals(*BOARDS, *made, *words)
                same = shown.stdout == without_numbers(right.stdout) != b""
                ends = (shown.returncode, shown.stderr, right.returncode) == (0, b"", 0)
                yield " ".join(["make", *made, "| show", *words]), None if same and ends else "isn't what make writes"


def made_with_tricks():
    """Boards that have their tricks in tags are shown as `make` writes them with these tricks."""
    games = harness.deals(*BOARDS, "--tricks", given=TRICKS).stdout
    for form in FORMATS:
        for both in BOTH:
            words = ["--format", form, *both]
            shown = harness.deals("show", *words, given=games)
            right = harness.deals(*BOARDS, "--tricks", *words, given=TRICKS)
            same = shown.stdout == without_numbers(right.stdout) != b""
            ends = (shown.returncode, shown.stderr, right.returncode) == (0, b"", 0)
            yield " ".join(["make --tricks | show", *words]), None if same and ends else "isn't what make writes"


def other_inputs():
    """A folder, and a closed descriptor."""
    folder = os.open("/", os.O_RDONLY)
    ended = harness.deals("show", "--format", "hands", "--site", "Club", stdin=folder)
    os.close(folder)
    right = (ended.returncode, ended.stdout, ended.stderr) == (7, b"", b"input failed\n")
    yield "a folder", None if right else repr(ended)
    closed = ["sh", "-c", 'exec "$0" show <&-', harness.PROGRAM]
    ended = subprocess.run(closed, capture_output=True, check=False)
    right = (ended.returncode, ended.stdout, ended.stderr) == (0, b"% PBN 2.1\n", b"")
    yield "a closed descriptor", None if right else repr(ended)


def game_by_game():
    """A board is on the output before the next game is given."""
    told = harness.line_by_line(["show", "--format", "lin"], [DEAL + b"\n"] * 2)
    yield "a board at once", None if told == ([LINE, OTHER], b"", 0) else repr(told)


def many_games():
    """Many games are read in a constant room."""
    games = harness.deals("make", "--seed", "0", "--boards", "1000").stdout * (MANY // 1000)
    process = subprocess.Popen(
        [harness.PROGRAM, "show"], stdin=subprocess.PIPE, stdout=subprocess.DEVNULL
    )
    process.stdin.write(games)
    process.stdin.flush()
    peak = harness.peak_of(process)
    process.stdin.close()
    right = process.wait(LONGEST) == 0
    yield "many games", None if right else f"status {process.returncode}"
    yield "memory", None if peak < MOST_MEMORY else f"{peak} KiB"


def shown():
    """Whether `show` writes the boards of its input."""
    yield from report.in_turn([inputs, made_and_shown, made_with_tricks, other_inputs, game_by_game, many_games])
