"""Random texts of conditions: the program has to refuse each where a second reader (grammar.py) does, say what could
stand there, and take what it tells to write. So it does of texts after definitions beside them, in `--let`. With `many`
there are ten times as many.
"""

import os
import pty
import random
import re
import subprocess

import grammar
import harness
import random_texts
import report

SECONDS = 60
# How many texts there are of each kind.
RANDOM = [(random_texts.sentence, 10_000), (random_texts.pieces, 5_000), (random_texts.characters, 1_000)]
RANDOM += [(random_texts.large, 200), (random_texts.doubled, 200)]
BESIDE = 1_000
# What one deal is tried with, and the most processor time for a text with as many parts as a condition may have.
WORDS_OF_ONE = ["make", "--seed", "1", "--candidates", "1"]
MOST_SECONDS = 0.05
# How often a text is tried, since a machine with other guests counts their time too.
TRIES = 20
TIMES = 10 if report.has("many") else 1
# The classes of suits and of seats in whose brackets a test may be.
CLASSES = ("suit", "major", "minor", "seat", "ns", "ew")
NEVER = "note: no deal meets this condition"
MIXED = 'note: "and" binds first: A and B or C is (A and B) or C; brackets would say so\n'
UNNAMED = 'note: "{0}" isn\'t named in the brackets of "{1} {0}", so that it asks the same each time\n'
MISCOUNTED = "note: {0} is {1}, and a hand has 13\n"
NOTES = {
    "silent": "",
    "binds first": MIXED.replace("\n", "\r\n"),
    "suit isn't named": UNNAMED.format("suit", "any").replace("\n", "\r\n"),
    "ew isn't named": UNNAMED.format("ew", "every").replace("\n", "\r\n"),
    "14 cards": MISCOUNTED.format("5-3-3-3", "14 cards").replace("\n", "\r\n"),
    "14 cards or more": MISCOUNTED.format("7-7-x-x", "14 cards or more").replace("\n", "\r\n"),
    "by its numbers alone": f"{NEVER}, by its numbers alone\r\n",
    "write in 12-14": f"{NEVER}: in 14-12 has its ends turned; write in 12-14\r\n",
}


def nested(tokens):
    """The tokens up to the bracket that closes them, those in brackets as lists."""
    out = []
    for token in tokens:
        if token == ")":
            break
        out.append(nested(tokens) if token == "(" else token)
    return out


def flat(tokens):
    """The tokens without brackets."""
    return [word for token in tokens for word in (flat(token) if isinstance(token, list) else [token])]


def through(tokens):
    """Each `any` and `every` with its class and what is in its brackets, in the order of the text."""
    for at, token in enumerate(tokens):
        if isinstance(token, list):
            yield from through(token)
        elif token in ("any", "every"):
            yield token, *tokens[at + 1:at + 3]


def is_unnamed(name, inside):
    """Whether the brackets don't name their class; `other` names a class of suits."""
    return not {name, name if name in ("seat", "ns", "ew") else "other"} & set(flat(inside))


def is_mixed(tokens):
    """Whether `and` and `or` stand beside each other somewhere."""
    mixed = "and" in tokens and "or" in tokens
    return mixed or any(is_mixed(token) for token in tokens if isinstance(token, list))


def miscounted(text):
    """The note on the first shape or pattern whose lengths aren't thirteen cards, or nothing; lengths over several lines
    have none."""
    for found in re.finditer(r"\b(?:shape|pattern)\b[^,]*,\s*((?:\w+\s*-\s*){3}\w+)", text):
        lengths = re.findall(r"\w+", found.group(1))
        is_open = "x" in lengths
        cards = sum(int(length) for length in lengths if length != "x")
        if cards > 13 or cards < 13 and not is_open:
            is_line = re.fullmatch(r"[ -~]{,40}", found.group(1))
            return MISCOUNTED.format(found.group(1), f"{cards} cards{' or more' * is_open}") if is_line else ""
    return ""


def slip(condition):
    """The note on a slip in a condition that is accepted, or nothing."""
    text = re.sub(r"#[^\n]*", "", condition)
    tokens = nested(iter(re.findall(r"[a-z]+|[()]|[^\sa-z()]+", text)))
    for one, name, inside in through(tokens):
        if is_unnamed(name, inside):
            return UNNAMED.format(name, one)
    return miscounted(text) or (MIXED if is_mixed(tokens) else "")


def words(condition, *more):
    where = [f"--where={condition}"] if condition.startswith("-") else ["--where", condition]
    return [harness.PROGRAM, "make", "--seed", "7", "--candidates", "1", "--hints", "always", *where, *more]


def told(condition, *more):
    """The status, and the lines on standard error; of a refusal nothing is on standard output."""
    ended = subprocess.run(words(condition, *more), capture_output=True, timeout=SECONDS)
    if ended.returncode and ended.stdout:
        raise ValueError(f"wrote {ended.stdout!r}")
    return ended.returncode, ended.stderr.decode("ascii")


def fault_of_suggestion(said):
    """Why the condition that a hint tells to write isn't accepted, or no deal meets it, or no lesson has the name that it
    tells, or None.

    A test of a class is one for the brackets of the class.
    """
    for lesson in re.findall(r"--lesson ([a-z0-9-]+)", said):
        if subprocess.run([harness.PROGRAM, "lessons", lesson], capture_output=True, timeout=SECONDS).returncode:
            return f"no lesson {lesson}"
    suggested = re.search(r"write: (.*)\n", said)
    if not suggested:
        return None
    condition = suggested.group(1)
    for name in CLASSES:
        if re.search(rf"\b{name}\b", condition) and not re.search(rf"\b(any|every) {name}\b", condition):
            condition = f"any {name} ({condition})"
    return fault_of_note(condition, "none")


def fault_of_note(condition, note):
    """Why the condition isn't accepted with this note on a terminal, or None."""
    ours, theirs = pty.openpty()
    ended = subprocess.run(words(condition), stdout=subprocess.DEVNULL, stderr=theirs, timeout=SECONDS)
    os.close(theirs)
    noted = harness.all_of(ours).decode()
    os.close(ours)
    if note == "any":
        is_so = noted.startswith(NEVER)
    else:
        is_so = noted == (slip(condition).replace("\n", "\r\n") if note == "none" else NOTES[note])
    return None if ended.returncode == 0 and is_so else f"status {ended.returncode}, {noted!r}"


def difference(told_of, why, expected, what="condition"):
    """What is wrong with what the program says of a text, or of the one that `what` names, by the second reader's
    reason and by what that expects there; or None."""
    status, said = told_of
    first, *lines = said.split("\n")
    line = f"{what} refused{' ' if why and why.startswith('at') else ': '}{why}" if why else ""
    stands = [line for line in lines[2:] if line.startswith("  expected ")]
    if status != (3 if why else 0) or first != line or stands != ([f"  expected {expected}"] if expected else []):
        return f"status {status}, {said!r} for {why}, {expected}"
    return None


def without_note(told_of, text):
    """What the program says, without the note on a text that it accepts."""
    status, said = told_of
    return status, "" if status == 0 and (said.startswith(NEVER) or said == slip(text)) else said


def fault_of_text(text):
    """Why the program says something else of the text than the second reader, or None."""
    told_of = told(text)
    return difference(without_note(told_of, text), *grammar.refusal(text.encode())) or fault_of_suggestion(told_of[1])


def fault_of_beside(definitions, text):
    """The same of a text after definitions, which are refused first."""
    told_of = told(text, f"--let={definitions}")
    why, expected = grammar.refusal_alone(definitions.encode())
    if why:
        return difference(told_of, why, expected, "let")
    after = grammar.refusal_after(definitions.encode(), text.encode())
    return difference(without_note(told_of, text), *after)


def safely(fault_of, *given):
    """Why something is wrong, also where the program doesn't end or writes what it may not."""
    try:
        return fault_of(*given)
    except (ValueError, subprocess.TimeoutExpired) as error:
        return str(error)


def random_ones():
    """Random texts, the same in each run."""
    for make, count in RANDOM:
        dice = random.Random(2026)
        rows = [make(dice) for _ in range(count * TIMES)]
        yield from report.asked(lambda text: safely(fault_of_text, text), rows, repr)


def beside():
    """Random definitions beside random texts, the same in each run."""
    dice = random.Random(2026)
    rows = [random_texts.beside(dice) for _ in range(BESIDE * TIMES)]
    yield from report.asked(lambda row: safely(fault_of_beside, *row), rows, repr)


def seconds_of(text):
    """The processor seconds in which the program answers a text and tries one deal."""
    process = subprocess.Popen([harness.PROGRAM, *WORDS_OF_ONE, f"--where={text}"], stdout=subprocess.DEVNULL, stderr=subprocess.DEVNULL)
    _, _, used = os.wait4(process.pid, 0)
    process.returncode = 0
    return used.ru_utime + used.ru_stime


def large_ones():
    """Texts that make large trees are answered at once."""
    dice = random.Random(2026)
    for make in (random_texts.large, random_texts.doubled):
        for text in [make(dice) for _ in range(30)]:
            is_quick = any(seconds_of(text) <= MOST_SECONDS for _ in range(TRIES))
            yield text, None if is_quick else f"took more than {MOST_SECONDS} seconds, {TRIES} times"
