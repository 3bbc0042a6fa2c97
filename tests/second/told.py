"""Random lines of tricks with the deals that they are for, or others, too many and too few, and behind the numbers of
candidates: what `make --tricks` and `pick --tricks` of the built program write and say, by a second reading of the lines
(a regular expression) and a second program (notation.py).
"""

import json
import random
import re
import subprocess

import formats
import harness
import notation
import report

HAND = r"[AKQJT2-9.]{16}"
LINE = re.compile(
    r"(?P<tricks>-|[0-9a-dA-D]{20}(?: (?:NS|EW) [0-9]{1,4}(?: [A-Za-z0-9+*=,/-]{1,24})?)?)"
    rf"(?: (?P<deal>N:{HAND} {HAND} {HAND} {HAND}))?"
)
# In the gate, and by hand.
CASES, MANY = 400, 2000


def lines_of(text):
    """The lines of a text: LF or CR LF ends one, and the last may have no end."""
    lines = text.replace("\r\n", "\n").split("\n")
    return lines[:-1] if lines[-1] == "" else lines


def told(text, deals):
    """The tricks of the boards that are written, and what is refused."""
    lines, tricks = lines_of(text), []
    for number, deal in enumerate(deals, 1):
        if number > len(lines):
            return tricks, f"line {number}: missing"
        found = LINE.fullmatch(lines[number - 1])
        if not found:
            return tricks, f"line {number}: not tricks"
        if found["deal"] not in (None, deal):
            return tricks, f"line {number}: tricks of another deal"
        tricks.append(found["tricks"])
    for number, line in enumerate(lines[len(deals) :], len(deals) + 1):
        if line:
            return tricks, f"line {number}: more than the boards"
    return tricks, None


def spoiled(rng, line):
    """The line, mostly as it is."""
    at = rng.randrange(len(line) + 1)
    return rng.choice([line] * 12 + [line[:at], line[:at] + " " + line[at:], line + "\r", "", line + " ", "x" * 300])


def random_text(rng, deals, others):
    """A line for each deal, or some fewer or more."""
    lines = []
    for at, deal in enumerate(deals):
        named = rng.choice([deal, deal, deal, deal, deal, rng.choice(others), deals[at - 1], deal.swapcase()])
        ending = rng.choice(["", " " + named, " " + named])
        lines.append(spoiled(rng, formats.random_line(rng) + ending))
    lines = rng.choice([lines, lines, lines, lines[:-1], [*lines, ""], [*lines, "", "", "-"], [*lines, "\r"]])
    text = "".join(line + rng.choice(["\n", "\n", "\r\n"]) for line in lines)
    return rng.choice([text, text, text[:-1]])


def cases():
    """The words, the lines, and what has to be written and said."""
    rng = random.Random(15)
    for _ in range(MANY if report.has("many") else CASES):
        seed, count, rotate = rng.randrange(9), rng.randrange(5), rng.random() < 0.5
        form, show = rng.choice(["json", "pbn", "hands", *notation.PAGES]), rng.choice(["all", "all", "north", "dealer"])
        boards = notation.text(seed, count, "json", rotate=rotate).decode().splitlines()
        deals = [json.loads(board)["deal"] for board in boards]
        others = [json.loads(board)["deal"] for board in notation.text(seed + 1, 5, "json").decode().splitlines()]
        text = random_text(rng, deals, others)
        tricks, refused = told(text, deals)
        wanted = notation.text(seed, len(tricks), form, rotate=rotate, show=show, lines=tricks)
        if refused and form in notation.PAGES:
            wanted = wanted.removesuffix(notation.frame(1, ()).encode())
        words = ["--seed", str(seed), "--candidates", str(count), "--format", form, "--show", show, "--tricks"]
        yield words + ["--rotate"] * rotate, text, wanted, refused


def picked(text, seed, rotate):
    """The candidates of the boards that are written, with their tricks, and what is refused."""
    boards = []
    for number, line in enumerate(lines_of(text), 1):
        if not line.strip(" \t"):
            continue
        word, *rest = re.split(r"[ \t]", line.lstrip(" \t"), maxsplit=1)
        if not re.fullmatch(r"[0-9]{1,13}", word):
            return boards, f"line {number}: not a number"
        if int(word) >= 2**40:
            return boards, f"line {number}: not below {2**40}"
        found = LINE.fullmatch("".join(rest))
        if not found:
            return boards, f"line {number}: not tricks"
        if found["deal"] not in (None, deal_of(seed, int(word), len(boards) + 1, rotate)):
            return boards, f"line {number}: tricks of another deal"
        boards.append((int(word), found["tricks"]))
    return boards, None


def deal_of(seed, candidate, number, rotate):
    """The Deal value of a candidate's board."""
    return json.loads(notation.text(seed, 1, "json", rotate=rotate, first=candidate, first_board=number))["deal"]


def numbered_text(rng, seed, rotate):
    """Lines of numbers with tricks, mostly as they have to be; and lines that are skipped."""
    lines, count = [], 0
    for _ in range(rng.randrange(6)):
        candidate = rng.randrange(5)
        count += 1
        deal = deal_of(seed, rng.choice([candidate] * 9 + [candidate + 1]), count, rotate)
        named = rng.choice(["", " " + deal, " " + deal])
        number = rng.choice([str(candidate)] * 16 + [f"{candidate:013}", "0" * 14, str(2**40), "-1", "1\0"])
        front, blank = rng.choice(["", "", "", " \t ", " " * 300]), rng.choice([" ", " ", " ", "\t", "  ", ""])
        lines.append(front + number + rng.choice([blank, " "]) + spoiled(rng, formats.random_line(rng) + named))
        lines += rng.choice([[], [], [], [""], [" \t" * rng.choice([1, 200])]])
    text = "".join(line + rng.choice(["\n", "\n", "\r\n"]) for line in lines)
    return rng.choice([text, text, text[:-1]])


def numbered_cases():
    """The words, the lines, and what has to be written and said."""
    rng = random.Random(16)
    for _ in range(MANY if report.has("many") else CASES):
        seed, rotate = rng.randrange(9), rng.random() < 0.5
        form, show = rng.choice(["json", "pbn", "hands", "lin"]), rng.choice(["all", "all", "north", "dealer"])
        text = numbered_text(rng, seed, rotate)
        boards, refused = picked(text, seed, rotate)
        head = notation.header(form, (), True).encode()
        wanted = head
        for number, (candidate, tricks) in enumerate(boards, 1):
            board = notation.text(seed, 1, form, rotate=rotate, first=candidate, first_board=number, show=show, lines=[tricks])
            wanted += board.removeprefix(head)
        words = ["--seed", str(seed), "--format", form, "--show", show, "--tricks"]
        yield words + ["--rotate"] * rotate, text, wanted, refused


def judged(command, each):
    """What is wrong with each call; None where nothing is."""
    for words, text, wanted, refused in each:
        ended = subprocess.run([harness.PROGRAM, command, *words], input=text.encode(), capture_output=True, check=False)
        said = f"input refused at {refused}\n" if refused else ""
        right = (ended.returncode, ended.stdout, ended.stderr.decode()) == (7 if refused else 0, wanted, said)
        yield f"{command} {' '.join(words)} < {text!r}", None if right else f"not {refused}: {ended.stderr.decode()}"


def of_their_deals():
    """Lines of the boards that `make` finds, and of numbers that `pick` reads."""
    yield from judged("make", cases())
    yield from judged("pick", numbered_cases())
