"""Runs `find` and `pick` of the built program over inputs of all kinds.

What was found and is picked has to be what `make` writes. Texts that were worked out elsewhere are compared by their
sha256.
"""

import hashlib
import os
import re
import subprocess

import harness
import report
from board_formats import FORMATS

# The words, the input, the status, and the length and the sha256 of what is written. What is said is the last.
LIN_ONE = (103, "a4de71a769e5681641f7f6b3a3330869a0dedbd360486e3d80b4291645263dfd")
NOTHING = (0, "e3b0c44298fc1c149afbf4c8996fb92427ae41e4649b934ca495991b7852b855")
THREE = (381, "430d42fc75fbf77907647beac1d05c6bd91bed1c9bc0e11b0640ccb1128b5f52")
ELSEWHERE = [
    ("", b"2\n0\n2\n", 0, THREE, b""),
    ("", b" 2\t\r\n\r\n\n0\r\n2", 0, THREE, b""),
    (
        "--first-board 4 --rotate",
        b"2\n0\n2\n",
        0,
        (380, "8a9b4d8f267bb3f145e7856f2ba5794bdbae62df7f791f5378c29e8f00096265"),
        b"",
    ),
    ("--format hands --site Club", b"", 0, (6, hashlib.sha256(b"Club\n\n").hexdigest()), b""),
    ("", b"", 0, (10, hashlib.sha256(b"% PBN 2.1\n").hexdigest()), b""),
    (
        "--format lin",
        b"1\n2\nthree\n4\n",
        7,
        (206, "c79a9076474f268b9eed1fc8b17f45bfdc4d7616c4a5c4d3b8c4ed2a9b4d23b5"),
        b"input refused at line 3: not a number\n",
    ),
    ("--format lin", b"1\n\n1099511627776\n", 7, LIN_ONE, b"input refused at line 3: not below 1099511627776\n"),
    ("--format lin", b"1\n\n10995116277760\n", 7, LIN_ONE, b"input refused at line 3: not a number\n"),
    ("--format lin", b"0000000000001\n00000000000001", 7, LIN_ONE, b"input refused at line 2: not a number\n"),
    ("--format lin", b"1\n-2\n", 7, LIN_ONE, b"input refused at line 2: not a number\n"),
    ("--format lin", b"1\n2\0\n", 7, LIN_ONE, b"input refused at line 2: not a number\n"),
    ("--format lin", b"1\r2\n", 7, NOTHING, b"input refused at line 1: not a number\n"),
    (
        "--format lin --first-board 0",
        b"junk",
        2,
        NOTHING,
        b"plan refused: first board\n",
    ),
    (
        "--format lin --first-board 0 --hints always",
        b"junk",
        2,
        NOTHING,
        b"plan refused: first board\n  --first-board 0: 1 to 1099511627776\n",
    ),
    (
        "--date 2024.5.1",
        b"junk",
        2,
        NOTHING,
        b"label refused: date\n",
    ),
]

# Further options of `pick` and `make`.
OPTIONS = [[], ["--show", "dealer"], ["--rotate", "--dealer", "S", "--vulnerable", "All"], ["--first-board", "17", "--event", "Club"]]
OPTIONS += [["--show", "ew", "--points", "hide"], ["--points", "hide"], ["--site", "Riverside", "--date", "2024.05.01"]]

# How many numbers are dealt in a second of the processor at the least, and how slow this one may be beside that.
NUMBERS_A_SECOND = 1_000_000
SLOWEST = 4
MANY = 400_000
# The most memory, in KiB, whatever the input.
MOST_MEMORY = 8 * 1024


def elsewhere():
    """Texts that were worked out elsewhere."""
    for words, given, status, (length, digest), said in ELSEWHERE:
        ended = harness.deals("pick", "--seed", "0", *words.split(), given=given)
        right = ended.returncode == status and ended.stderr == said and len(ended.stdout) == length
        right = right and hashlib.sha256(ended.stdout).hexdigest() == digest
        yield f"pick {words} of {given!r}", None if right else f"{ended.returncode}, {ended.stderr!r}"


def found_and_picked():
    """What is found and picked is what `make` writes, in each format, and with each option."""
    where = ["--candidates", "2000", "--where", "hcp(north) in 15-17 and balanced(north)"]
    numbers = harness.deals("find", "--seed", "0", *where).stdout
    right = len(numbers) == 415 and hashlib.sha256(numbers).hexdigest() == (
        "695ee426c1dd2ab49faa34d99cc00a24a78f0e1414cacdf3e5ec27e319f0d3f7"
    )
    yield "find", None if right else f"{len(numbers)} bytes"
    turned = harness.deals("pick", "--seed", "0", "--rotate", "--format", "hands", given=numbers).stdout
    right = hashlib.sha256(turned).hexdigest() == "1452d846105c742103d889206e9e13c31c771725a1951cbb82b1f83212dfcf21"
    yield "find | pick --rotate --format hands", None if right else f"{len(turned)} bytes"
    for form in FORMATS:
        for more in OPTIONS:
            words = ["--seed", "0", "--format", form, *more]
            picked = harness.deals("pick", *words, given=numbers)
            made = harness.deals("make", *words, *where)
            right = picked.returncode == made.returncode == 0 and picked.stdout == made.stdout != b""
            yield " ".join(["find | pick", *words]), None if right else "isn't what make writes"


def other_inputs():
    """A folder, a closed descriptor, a closed pipe, an empty file, and a line of a megabyte."""
    folder = os.open("/", os.O_RDONLY)
    ended = harness.deals("pick", "--seed", "0", "--format", "hands", "--site", "Club", stdin=folder)
    os.close(folder)
    right = (ended.returncode, ended.stdout, ended.stderr) == (7, b"Club\n\n", b"input failed\n")
    yield "a folder", None if right else repr(ended)
    closed = ["sh", "-c", 'exec "$0" pick --seed 0 <&-', harness.PROGRAM]
    ended = subprocess.run(closed, capture_output=True, check=False)
    right = (ended.returncode, ended.stdout, ended.stderr) == (0, b"% PBN 2.1\n", b"")
    yield "a closed descriptor", None if right else repr(ended)
    ended = harness.deals("pick", "--seed", "0", stdin=subprocess.DEVNULL)
    yield "no input", None if (ended.returncode, ended.stdout) == (0, b"% PBN 2.1\n") else repr(ended)
    blanks = harness.deals("pick", "--seed", "0", given=b"2\n0\n" + b" " * (1 << 20) + b"2\n")
    right = blanks.stdout == harness.deals("pick", "--seed", "0", given=b"2\n0\n2\n").stdout
    yield "a megabyte of blanks", None if right else "other boards"
    digits = harness.deals("pick", "--seed", "0", "--format", "lin", given=b"1\n" + b"7" * (1 << 20))
    right = digits.returncode == 7 and digits.stderr == b"input refused at line 2: not a number\n"
    right = right and hashlib.sha256(digits.stdout).hexdigest() == LIN_ONE[1]
    yield "a megabyte of digits", None if right else repr(digits)[:200]


def line_by_line():
    """A board is on the output before the next number is given."""
    words, numbers = ["pick", "--seed", "0", "--format", "lin"], [b"1\n", b"2\n", b"1\n"]
    whole = harness.deals(*words, given=b"".join(numbers)).stdout
    told = harness.line_by_line(words, numbers)
    yield "a board at once", None if told == (whole.splitlines(keepends=True), b"", 0) else repr(told)


def closed_output():
    """An output whose reader has gone ends it with status 4, without a word."""
    reader, writer = os.pipe()
    os.close(reader)
    ended = subprocess.run(
        [harness.PROGRAM, "pick", "--seed", "0"], input=b"1\n", stdout=writer, stderr=subprocess.PIPE, check=False
    )
    os.close(writer)
    right = (ended.returncode, ended.stderr) == (4, b"")
    yield "a closed output", None if right else repr(ended)


def many_numbers():
    """Many numbers need no more processor time than on a machine a few times slower, and no more memory than few."""
    numbers = b"".join(b"%d\n" % (number * 2654435761 % 2**40) for number in range(MANY))
    process = subprocess.Popen(
        [harness.PROGRAM, "pick", "--seed", "7"], stdin=subprocess.PIPE, stdout=subprocess.DEVNULL
    )
    process.stdin.write(numbers)
    process.stdin.flush()
    peak = harness.peak_of(process)
    process.stdin.close()
    _, status, used = os.wait4(process.pid, 0)
    process.returncode = os.waitstatus_to_exitcode(status)
    a_second = MANY / (used.ru_utime + used.ru_stime)
    print(f"pick deals {a_second:,.0f} numbers a second of the processor, in {peak} KiB")
    is_fast = status == 0 and a_second * SLOWEST >= NUMBERS_A_SECOND
    yield "speed", None if is_fast else f"status {status}, {a_second:,.0f} numbers a second"
    yield "memory", None if peak < MOST_MEMORY else f"{peak} KiB"


def drawn():
    """A seed is drawn from the kernel: a number of 32 bits, another each time."""
    seeds = [harness.deals("seed", given=b"junk") for _ in range(20)]
    right = all((seed.returncode, seed.stderr) == (0, b"") for seed in seeds)
    numbers = [int(seed.stdout) for seed in seeds if re.fullmatch(rb"[0-9]+\n", seed.stdout)]
    right = right and len(set(numbers)) > 15 and max(numbers) < 2**32
    yield "seeds", None if right else f"{numbers}"


def picked():
    """What is found and picked."""
    tests = [elsewhere, found_and_picked, drawn, other_inputs, line_by_line, closed_output, many_numbers]
    yield from report.in_turn(tests)
