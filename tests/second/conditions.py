"""Runs each worked condition of docs/CONDITIONS.md, each file of examples/ and each lesson in the built program.

A second program (language.py over model.py) deals the same candidates and says of which
of them each condition is true; `make` has to write the games of these and no others. Each condition is true of some
candidate and not of all. Then the tables of truths/ are asked of both (given.py): conditions over given deals,
with what is true of each; and random conditions (random_conditions.py). Fifty conditions are asked of ten million
candidates each, given up early and dealt whole (early.py). The page that `conditions` prints is read as well (page.py).

With `many` there are 20,000 random conditions in place of 2,000.
"""

import concurrent.futures
import functools
import os
import random
import re
import subprocess
import sys

import early
import given
import grammar
import harness
import language
import model
import page
import random_conditions
import report

sys.path.append(str(harness.TOP / "companion" / "desk"))
from deals_desk import starts  # noqa: E402

SEED = 2026
CANDIDATES = 20_000
# How many random conditions there are, and of how many candidates each is asked.
RANDOM = 20_000 if report.has("many") else 2_000
ASKED = 48
# How many worked conditions and how many examples there are at the least.
WORKED, EXAMPLES = 20, 13
# How many lessons there are, and of how many candidates the condition of each is asked.
LESSONS, TAUGHT = 67, 4_000
# The pack has forty points: true of each candidate, and false of each.
POINTS = "+".join(f"hcp({seat})" for seat in language.SEATS)
FORTY = [(f"{POINTS}==40", CANDIDATES), (f"{POINTS}!=40", 0)]


def worked():
    """The worked conditions of the docs, each with its heading."""
    text = (harness.TOP / "docs" / "CONDITIONS.md").read_text()
    part = text.partition("\n## Worked conditions\n")[2].partition("\n## ")[0]
    yield from re.findall(r"^### ([^\n]+)\n\n```\n(.*?)\n```", part, re.M | re.S)


def lessons():
    """The lessons, each with its condition."""
    for group in starts.groups(str(harness.PROGRAM)):
        for lesson in group.lessons:
            yield lesson.name, lesson.where


def examples():
    """The files of examples/."""
    for file in sorted((harness.TOP / "examples").glob("*.cond")):
        yield f"examples/{file.name}", file.read_text()


def expected(condition, deals):
    """The deals of the boards that are to be written, as the program writes them."""
    is_true = language.condition(condition)
    return ["N:" + " ".join(model.spelled(hand) for hand in hands) for hands in deals if is_true(hands)]


def written(condition):
    """The deals of the boards that the program writes."""
    words = ["make", "--seed", str(SEED), "--candidates", str(CANDIDATES), "--workers", "2", "--where", condition]
    run = subprocess.run([harness.PROGRAM, *words], capture_output=True, text=True, check=False)
    if run.returncode != 0:
        raise ValueError(run.stderr)
    return re.findall(r'^\[Deal "([^"]+)"\]$', run.stdout, re.M)


def complaint(condition, deals):
    """What is wrong with a condition; None where nothing is."""
    try:
        wanted, found = expected(condition, deals), written(condition)
    except ValueError as error:
        return str(error)
    if not 0 < len(wanted) < len(deals):
        return f"true of {len(wanted)} of {len(deals)} candidates"
    if found != wanted:
        return f"{len(found)} boards for {len(wanted)}"
    return None


def randoms():
    """Random conditions, the same in each run."""
    dice = random.Random(2026)
    makers = [random_conditions.named, lambda dice: random_conditions.test(dice, []), lambda dice: random_conditions.test(dice, [])]
    found = (dice.choice(makers)(dice) for _ in range(RANDOM))
    return [condition for condition in found if len(condition) <= 1024]


def spelled(condition):
    """The words that give a condition: itself, and without its definitions where it has some, which are beside it."""
    yield ["--where", condition]
    at = grammar.boundaries(condition)[-1]
    if at > 0:
        yield ["--let", condition[:at], "--where", condition[at:]]


def random_complaint(condition, deals, asked=ASKED):
    """Why the program finds other candidates than the second one, or None."""
    is_true = language.condition(condition)
    wanted = [str(number) for number, hands in enumerate(deals[:asked]) if is_true(hands)]
    for text in spelled(condition):
        words = ["find", "--seed", str(SEED), "--candidates", str(asked), *text]
        run = subprocess.run([harness.PROGRAM, *words], capture_output=True, text=True, check=False)
        if run.returncode != 0 or run.stdout.split() != wanted:
            return f"{text}: status {run.returncode}, {run.stdout.split()} for {wanted}"
    return None


@functools.cache
def deals():
    """The candidates of each worked condition."""
    return list(model.dealt(SEED, CANDIDATES))


def worked_conditions():
    """The worked conditions, lessons and examples, each with what it finds."""
    chosen = [(complaint, name, text, deals()) for name, text in [*worked(), *examples()]]
    # A lesson may be rarer than one in these candidates.
    taught = [(random_complaint, name, text, deals(), TAUGHT) for name, text in lessons()]
    is_whole = len(list(worked())) >= WORKED and len(list(examples())) >= EXAMPLES and len(taught) == LESSONS
    yield "how many there are", None if is_whole else "fewer than there were"
    with concurrent.futures.ProcessPoolExecutor(len(os.sched_getaffinity(0))) as pool:
        tried = [(name, pool.submit(judge, *asked)) for judge, name, *asked in [*chosen, *taught]]
        for name, outcome in tried:
            yield name, outcome.result()
    for condition, count in FORTY:
        found = len(written(condition))
        yield condition, None if found == count else f"{found} boards for {count}"
    yield "the page of the language", page.complaint()


def random_ones():
    """Random conditions."""
    yield from report.asked(lambda condition: random_complaint(condition, deals()), randoms())


def given_up_early():
    """Conditions of which candidates are given up before they are dealt whole."""
    yield from report.asked(lambda row: early.complaint(*row), early.asked())


def truths():
    """Conditions over given deals."""
    rows = list(given.asked())
    yield "how many there are", None if len(rows) >= 700 else f"{len(rows)} of them"
    yield from report.asked(lambda row: given.complaint(*row[1:]), rows, lambda row: f"{row[0]}: {row[2]} of {row[1]}")
