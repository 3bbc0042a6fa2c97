"""Runs `make` of the built program in each format, with each dealer and vulnerability, turned and not, with chosen hands
and with tricks.

A second program (notation.py over model.py) says what each has to write. Texts that were worked out elsewhere are
compared by their sha256. In each format 200,000 boards have to need as little memory as 1,000.
"""

import fcntl
import hashlib
import itertools
import os
import random
import subprocess

import board_formats
import harness
import model
import notation

FORMATS = board_formats.FORMATS
SHOWS = ("all", "dealer", "north", "east", "south", "west", "ns", "ew")
PAGE = 4096
# By how many KiB the peak may differ from run to run, less than six bytes a board.
SLACK = 1024

# The words after `make --seed 0`, and the length and the sha256 of what they write.
ELSEWHERE = [
    ("--candidates 16 --format hands", 6338, "8c4c3d9900a4ebbf512e26a81b6f1d92cb79f56571674f70275c80de0524eea3"),
    ("--candidates 16 --format lin", 1662, "37e8ea1a0ca9a76582e787aa75c10cdbdbc7972ae5c925b7fdd583d46c716123"),
    ("--candidates 16 --rotate", 1997, "23d97f0eb443010df8b81946302d3deeff88b287a3b80bf0cce446199bbb587a"),
    (
        "--candidates 16 --rotate --format hands",
        6338,
        "0eecf37492c0ab1eb1fdecdf1707ebf0e1c286e6c4bcf95cf73120eaa1299f86",
    ),
    (
        "--candidates 16 --rotate --dealer S --vulnerable All --format lin",
        1662,
        "e4d77db53abf5ffe1d2e05349d3c09a81c56bda1365b08e4e5a702d84daa5783",
    ),
    ("--candidates 16 --dealer E", 1997, "3553a109797ff3cf89b801cc7f1ce59015618c2c3238907d213f4ca75e2c6293"),
    ("--candidates 16 --vulnerable EW", 1985, "116e65b1b00adbac2666fb6257df771f366e201200de42a0ffd6ae7d7e14e79e"),
    (
        "--boards 16 --where losers(north)<=6 --rotate",
        1997,
        "ae9ee10139bba92dfbe3d181eab03b7911dd31b2daf2f101aa54245b58ca648d",
    ),
    (
        "--candidates 3 --format hands --first-board 1099511627776",
        1196,
        "6460b35f8f0cc6cb0e4cb127da9bb1034147d8e9167a78726fbfba9ee9a1ecf5",
    ),
    (
        "--candidates 0 --format hands --site Club",
        6,
        "2ad345a65057841adececf3d716f83d2fe40706be4532a2c7bc538c3e03a40f6",
    ),
    ("--candidates 0 --format hands", 0, "e3b0c44298fc1c149afbf4c8996fb92427ae41e4649b934ca495991b7852b855"),
    ("--candidates 0 --format lin", 0, "e3b0c44298fc1c149afbf4c8996fb92427ae41e4649b934ca495991b7852b855"),
    ("--boards 5 --first 1099511627774", 258, "3f4673f71b875fe3d7b15e43f2e015880c2e3d6792572aec3d90266ef448fa39"),
]

# Words, and how their refusal begins.
REFUSED = [
    (
        "--format text",
        f"error: invalid value 'text' for '--format <FORMAT>'\n  [possible values: {', '.join(FORMATS)}]\n",
    ),
    ("--format PBN", "error: invalid value 'PBN' for '--format <FORMAT>'\n"),
    ("--dealer north", "error: invalid value 'north' for '--dealer <SEAT>'\n  [possible values: N, E, S, W]\n"),
    (
        "--vulnerable both",
        "error: invalid value 'both' for '--vulnerable <SIDES>'\n  [possible values: None, NS, EW, All]\n",
    ),
    ("--rotate=yes", "error: "),
    ("--rotate --rotate", "error: "),
    ("--dealer N --dealer N", "error: "),
]


def run(words, lines=b""):
    return subprocess.run([harness.PROGRAM, "make", *words], input=lines, capture_output=True, check=False)


def random_line(rng):
    """A line that tells of tricks: nothing, the tricks, or also par, or also its contract."""
    half = ["".join(rng.choice("0123456789abcd") for _ in range(5)) for _ in range(4)]
    # Partners often make the same.
    half[1] = rng.choice((half[0], half[1]))
    half[3] = rng.choice((half[2], half[3]))
    digits = rng.choice((str.lower, str.upper))("".join(half))
    score = f"{digits} {rng.choice(('NS', 'EW'))} {rng.randrange(7601)}"
    contract = "".join(rng.choice("1234567NSHDCXEW+-*=,/") for _ in range(rng.randint(1, 24)))
    return rng.choice(("-", digits, score, f"{score} {contract}"))


def chosen():
    """Words, lines of tricks, and what they have to write: with chosen hands, and with tricks."""
    rng = random.Random(9)
    labels = [("Event", "Club night"), ("Date", "2024.05.01")]
    for form, show in itertools.product(FORMATS, SHOWS):
        words = ["--seed", "11", "--candidates", "40", "--format", form, "--show", show]
        words += ["--event", "Club night", "--date", "2024.05.01"]
        yield words, b"", notation.text(11, 40, form, labels=labels, show=show)
        yield [*words, "--rotate"], b"", notation.text(11, 40, form, rotate=True, labels=labels, show=show)
        hidden = notation.text(11, 40, form, labels=labels, show=show, has_points=False)
        yield [*words, "--points", "hide"], b"", hidden
        yield [*words, "--points", "show"], b"", notation.text(11, 40, form, labels=labels, show=show)
        lines = [random_line(rng) for _ in range(40)]
        wanted = notation.text(11, 40, form, labels=labels, show=show, lines=lines)
        given = "".join(line + "\n" for line in lines).encode()
        yield [*words, "--tricks"], given, wanted
        wanted = notation.text(11, 40, form, labels=labels, show=show, lines=lines, has_points=False)
        yield [*words, "--tricks", "--points", "hide"], given, wanted


def strong(hands):
    return model.points(hands[0]) >= 13


def cases():
    """Words, and what they have to write."""
    for form, dealer, sides, rotate in itertools.product(
        FORMATS, (None, *"NESW"), (None, *model.VULNERABLE), (False, True)
    ):
        words = ["--seed", "7", "--candidates", "40", "--format", form, "--where", "hcp(north)>=13"]
        words += ["--dealer", dealer] if dealer else []
        words += ["--vulnerable", sides] if sides else []
        words += ["--rotate"] if rotate else []
        yield words, notation.text(7, 40, form, dealer, sides, rotate, strong)
    for form in FORMATS:
        words = ["--seed", "2024", "--candidates", "3000", "--format", form, "--workers", "3", "--lane", "7"]
        words += ["--first", "3", "--first-board", "16", "--boards", "999", "--rotate"]
        words += ["--event", "Club night", "--site", "", "--date", "2024.05.01"]
        labels = [("Event", "Club night"), ("Site", ""), ("Date", "2024.05.01")]
        yield words, notation.text(
            2024, 3000, form, rotate=True, first=3, first_board=16, boards=999, labels=labels
        )
    for event, site in itertools.product(("", "   ", "Pairs & <Teams>'"), ("", " ", "&lt;&&>" * 14)):
        words = ["--seed", "3", "--candidates", "2", "--format", "html", "--event", event, "--site", site]
        yield words, notation.text(3, 2, "html", labels=[("Event", event), ("Site", site)])
    for form, event in itertools.product(("hands", *notation.PAGES), ('Coupe d\u2019\xe9t\xe9 "\\', "<\u738b>" * 33)):
        words = ["--seed", "3", "--candidates", "2", "--format", form, "--event", event, "--site", "Z\xfcrich"]
        yield words, notation.text(3, 2, form, labels=[("Event", event), ("Site", "Z\xfcrich")])
    for words in (["--first-board", "1099511627776"], ["--first-board", "99", "--date", "2024.05.01"]):
        labels = [("Date", words[-1])] if "--date" in words else []
        wanted = notation.text(3, 1, "html", first_board=int(words[1]), labels=labels)
        yield ["--seed", "3", "--candidates", "1", "--format", "html", *words], wanted
    yield ["--seed", "3", "--candidates", "0", "--format", "html"], notation.text(3, 0, "html")


def peak(form, boards):
    """How much memory a run had at the most, in KiB, when its last pages were still to be written; None if its text was
    shorter than that of its boards can be."""
    reader, writer = os.pipe()
    fcntl.fcntl(writer, fcntl.F_SETPIPE_SZ, PAGE)
    words = ["make", "--seed", "7", "--candidates", str(boards), "--format", form]
    length = len(run(words[1:]).stdout)
    process = subprocess.Popen([harness.PROGRAM, *words], stdout=writer)
    os.close(writer)
    with open(reader, "rb") as text:
        taken = len(text.read(length - 2 * PAGE))
        most = harness.peak_of(process)
        taken += len(text.read())
    is_whole = process.wait() == 0 and taken == length > 50 * boards
    return most if is_whole else None


def constant_memory():
    """Whether a format needs more memory for more boards."""
    for form in FORMATS:
        few, many = peak(form, 1_000), peak(form, 200_000)
        is_constant = None not in (few, many) and many - few <= SLACK
        yield f"--format {form}", None if is_constant else f"{few} and then {many} KiB of memory"


def written():
    """What is wrong with each call; None where nothing is."""
    yield from board_formats.checked()
    for words, wanted in cases():
        ended = run(words)
        right = ended.returncode == 0 and ended.stdout == wanted and ended.stderr == b""
        yield " ".join(words), None if right else "other bytes"
    for words, lines, wanted in chosen():
        ended = run(words, lines)
        right = ended.returncode == 0 and ended.stdout == wanted and ended.stderr == b""
        yield " ".join(words), None if right else "other bytes"
    for words, length, digest in ELSEWHERE:
        ended = run(["--seed", "0", *words.split()])
        right = ended.returncode == 0 and len(ended.stdout) == length
        right = right and hashlib.sha256(ended.stdout).hexdigest() == digest
        yield words, None if right else "other bytes"
    for words, begins in REFUSED:
        ended = run(["--seed", "0", "--boards", "4", *words.split()])
        right = ended.returncode == 2 and ended.stdout == b"" and ended.stderr.startswith(begins.encode())
        yield words, None if right else ended.stderr.decode()
