"""Asks the built program random questions with `count`, and a second program (counts.py over language.py and model.py)
the same: tables and comma-separated values byte for byte, pages by their heading, lines, cells, bars and shades. Some
use names that are defined beside them. Lines of several runs are added up, as the docs say, by awk and by GNU parallel.

With `many` there are 20,000 random questions in place of 2,000.
"""

import collections
import os
import pathlib
import random
import re
import subprocess
import tempfile

import harness
import language
import model
import packages
import random_conditions
import report
import counts

SEED = 2026
CANDIDATES = 240
ASKED = 20_000 if report.has("many") else 2_000


def question(text):
    """Whether the text is a condition or a value, and its answer as a function of four hands."""
    try:
        return "condition", language.condition(text)
    except (ValueError, IndexError):
        return "value", language.value(text)


def random_value(dice):
    """A sum of one to three values, some of them numbers."""
    parts = [random_conditions.of_hand(dice, [])[0] for _ in range(dice.choice([1, 1, 1, 2, 3]))]
    if dice.randrange(6) == 0:
        parts.append(str(dice.choice([0, 7, 995, 1200])))
    return dice.choice(["+", " + "]).join(parts)


def random_question(dice):
    text = random_value(dice) if dice.randrange(3) else random_conditions.test(dice, [])
    # A comment has a byte that no title shows, as has a tab.
    return text + dice.choice(["", "", "", "", " # <i>", "\t", " # é"])


def asked():
    """Random words of `count`: the style, where, the questions, the first candidate, and how many."""
    dice = random.Random(1912)
    for _ in range(ASKED):
        where = random_conditions.test(dice, []) if dice.randrange(3) else None
        questions = [random_question(dice) for _ in range(dice.choice([0, 1, 1, 1, 2, 2]))]
        first = dice.randrange(200)
        count = dice.choice([0, 1, 5, 20, CANDIDATES - first])
        style = dice.choice(["table", "csv", "html", "json"])
        boards = dice.choice([None, None, 1, 3])
        # Two questions with numbers of thousands would have too many cells.
        if sum("995" in text or "1200" in text for text in questions) == 2:
            questions.pop()
        if all(len(text.encode()) <= 1024 for text in [*questions, where or ""]):
            yield style, where, questions, first, min(count, CANDIDATES - first), boards


def named_question(dice, names):
    """A question in which names are used: a value, where one of them is a value, or a test."""
    values = [name for name in names if name[-1]]
    if not values or dice.randrange(3) == 0:
        return random_conditions.test(dice, [], 1, names)
    use = random_conditions.called(dice, [], dice.choice(values))
    return dice.choice([use, f"{use}+{random_conditions.count(dice, [])[0]}"])


def asked_beside():
    """The same of one or two questions, and of definitions beside them whose names they and the condition use."""
    dice = random.Random(1913)
    for _ in range(ASKED // 5):
        definitions, names = random_conditions.definitions(dice)
        where = random_conditions.test(dice, [], 1, names) if dice.randrange(3) else None
        questions = [named_question(dice, names), random_conditions.test(dice, [], 1, names)][: dice.choice([1, 1, 2])]
        if all(len(text.encode()) <= 1024 for text in [*questions, where or ""]):
            style = dice.choice(["table", "csv", "html", "json"])
            yield style, where, questions, 0, dice.choice([1, 20, CANDIDATES]), None, definitions


def words_of(style, where, questions, first, count, boards, definitions=""):
    words = ["count", "--seed", str(SEED), "--first", str(first), "--candidates", str(count), "--format", style]
    words += ["--where", where] if where else []
    words += ["--boards", str(boards)] if boards else []
    words += ["--let", definitions] if definitions else []
    for name, text in zip(["--of", "--by"], questions):
        words += [name, text]
    return words


def expected(deals, where, questions, first, count, boards, definitions=""):
    """The kinds of the questions, the answers of the accepted deals, and how many candidates were tried."""
    kinds, askers = zip(*(question(f"{definitions} {text}") for text in questions)) if questions else ((), ())
    is_true = language.condition(f"{definitions} {where}") if where else lambda hands: True
    answers, tried = [], 0
    for hands in deals[first : first + count]:
        if boards is not None and len(answers) == boards:
            break
        tried += 1
        if is_true(hands):
            found = tuple(int(asker(hands)) for asker in askers)
            answers.append(found[0] if len(found) == 1 else found)
    return kinds, answers, tried


def asked_of_each():
    """The same of two to eight questions that have a table each."""
    dice = random.Random(1912)
    for _ in range(ASKED // 5):
        where = random_conditions.test(dice, []) if dice.randrange(3) else None
        questions = [random_question(dice) for _ in range(dice.randrange(2, 9))]
        if all(len(text.encode()) <= 1024 for text in [*questions, where or ""]):
            yield dice.choice(["table", "csv", "json"]), where, questions, 0, dice.choice([0, 1, 20, 90]), None


def complaint_of_each(deals, style, where, questions, first, count, boards):
    """What is wrong with the program's answer to several questions, or None."""
    words = words_of(style, where, [], first, count, boards)
    run = subprocess.run([harness.PROGRAM, *words, *(f"--of={text}" for text in questions)], capture_output=True, check=False)
    kinds, answers, tried = expected(deals, where, questions, first, count, boards)
    found = [[answer[at] for answer in answers] for at in range(len(questions))]
    wanted = "\n".join(counts.each(style, questions, kinds, found, tried)) + "\n"
    is_right = (run.returncode, run.stdout.decode(), run.stderr) == (0, wanted, b"")
    return None if is_right else f"status {run.returncode}: {run.stdout.decode()!r} for {wanted!r}, {run.stderr!r}"


def complaint(deals, style, where, questions, first, count, boards, definitions=""):
    """What is wrong with the program's answer, or None."""
    words = words_of(style, where, questions, first, count, boards, definitions)
    run = subprocess.run([harness.PROGRAM, *words], capture_output=True, check=False)
    if run.returncode != 0 or run.stderr:
        return f"status {run.returncode}: {run.stderr.decode()}"
    kinds, answers, tried = expected(deals, where, questions, first, count, boards, definitions)
    written = run.stdout.decode()
    if style == "csv":
        wanted = "\n".join(counts.csv(kinds, answers, tried)) + "\n"
        return None if written == wanted else f"{written!r} for {wanted!r}"
    if style == "json":
        wanted = counts.as_json(questions, kinds, answers, tried) + "\n"
        return None if written == wanted else f"{written!r} for {wanted!r}"
    if style == "table":
        wanted = "\n".join(counts.table(questions, kinds, answers, tried)) + "\n"
        return None if written == wanted else f"{written!r} for {wanted!r}"
    return page_complaint(written, questions, kinds, answers, tried)


def page_complaint(written, questions, kinds, answers, tried):
    """What is wrong with a page, or None."""
    heading, lines, cells = counts.page(questions, kinds, answers, tried)
    page = counts.Page(written)
    wanted = counts.styles(kinds, answers) if kinds and answers else []
    told = (page.parts["title"], page.parts["h1"], page.parts["p"], page.cells, page.styles)
    if told != ([heading], [heading], lines, cells, wanted):
        return f"{told} for {(heading, lines, cells, wanted)}"
    if page.open or "<script" in written or "http" in written:
        return "it isn't whole, or not alone"
    return None


def added_up():
    """What the docs say of adding up: the lines of two runs by awk, and of four by GNU parallel."""
    text = (harness.TOP / "docs/COUNTING.md").read_text(encoding="utf-8")
    whole = f"'{harness.PROGRAM}' count --seed 7 --candidates 20000 --of 'longest(north)' --format csv"
    _, *wanted = output(whole).splitlines()
    block = text.partition("deals count --seed 7 --candidates 10000")
    commands = (block[1] + block[2]).partition("\n```")[0].replace("| sort -n > both.csv", "| sort -n")
    yield "awk", None if output(commands).splitlines() == wanted else output(commands)
    packages.need("parallel", "parallel")
    shards = re.search(r"^parallel .*$", text, re.M).group().replace("parallel ", "parallel --will-cite ", 1)
    found = collections.Counter()
    for value, deals in re.findall(r"^(\d+),(\d+)$", output(shards), re.M):
        found[value] += int(deals)
    lines = [f"{value},{found[value]}" for value in sorted(found, key=int)]
    yield "GNU parallel", None if lines == wanted else str(lines)


def output(commands):
    """What commands of bash write, in a folder of their own where `deals` is the built program."""
    with tempfile.TemporaryDirectory(prefix="counting-") as folder:
        (pathlib.Path(folder) / "deals").symlink_to(harness.PROGRAM)
        known = {**os.environ, "PATH": f"{folder}:{os.environ['PATH']}"}
        return subprocess.run(["bash", "-euc", commands], cwd=folder, env=known, stdout=subprocess.PIPE, text=True, check=True).stdout


def random_ones():
    """Random questions."""
    deals = list(model.dealt(SEED, CANDIDATES))
    yield from report.asked(lambda row: complaint(deals, *row), asked())
    yield from report.asked(lambda row: complaint_of_each(deals, *row), asked_of_each())
    yield from report.asked(lambda row: complaint(deals, *row), asked_beside())
