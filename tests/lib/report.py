"""Runs the parts of a test program: names them, counts what passed, and shows what is wrong.

A part is a function that yields the name of each thing that it looks at, and what is wrong with it: None where nothing
is. A part that needs a program which isn't there and can't be installed is skipped and named, and under CI=true fails.
One that looks at nothing fails.
"""

import concurrent.futures
import os
import sys
import time

import harness
import packages

# How many faults of a part are shown.
SHOWN = 40
# The parts that were skipped.
skipped = []


def judged(pairs):
    """The pairs of a name and whether it is right, as what is wrong. A text, which would be taken for right, fails."""
    for name, is_right in pairs:
        if isinstance(is_right, str):
            raise TypeError(f"{name}: {is_right!r} is a text, and not whether it is right")
        yield name, None if is_right else "wrong"


def asked(judge, rows, name=str):
    """Judges the rows, as many at a time as there are processors: the name of each, and what is wrong with it."""
    rows = list(rows)
    with concurrent.futures.ThreadPoolExecutor(len(os.sched_getaffinity(0))) as pool:
        yield from zip(map(name, rows), pool.map(judge, rows))


def results(name, part):
    """What a part yields, and what ends it early."""
    is_empty, before = True, len(skipped)
    try:
        for result in part():
            is_empty = False
            yield result
        if is_empty and len(skipped) == before:
            yield name, "it looked at nothing"
    except packages.Missing as missing:
        if os.environ.get("CI") == "true":
            yield name, str(missing)
        else:
            skipped.append(name)
            print(f"SKIPPED: {name}: {missing}")
    except Exception as error:
        yield name, f"{type(error).__name__}: {error}"


def in_turn(parts, *given):
    """What each of these parts yields of what is given, by its own name."""
    for part in parts:
        yield from results(part.__name__, lambda part=part: part(*given))


def each(parts, *given):
    """The same of parts that yield whether each thing is right."""
    for part in parts:
        yield from results(part.__name__, lambda part=part: judged(part(*given)))


def run_part(name, part):
    """Runs a part, and tells how many passed and failed."""
    began = time.monotonic()
    passed = failed = 0
    for what, wrong in results(name, part):
        if wrong is None:
            passed += 1
            continue
        failed += 1
        if failed <= SHOWN:
            print(f"FAILED: {name}: {what}: {wrong}", flush=True)
    print(f"{name}: {passed} passed, {failed} failed, {time.monotonic() - began:.0f} s", flush=True)
    return passed, failed


def main(parts, needs_program=True):
    """Runs the parts that are named, or all. The last line is 'N passed, M failed'."""
    unknown = [word for word in sys.argv[1:] if word not in parts and word not in OPTIONS]
    if unknown:
        sys.exit(f"{unknown[0]}: no part of this name; there are {', '.join(parts)}")
    chosen = [name for name in parts if name in sys.argv[1:]] or list(parts)
    if needs_program:
        harness.build()
    counts = [run_part(name, parts[name]) for name in chosen]
    passed, failed = (sum(column) for column in zip(*counts))
    print(f"{passed} passed, {failed} failed")
    sys.exit(1 if failed or not passed else 0)


# What says that more is asked, beside the names of parts.
OPTIONS = ("many", "all", "slow")


def has(option):
    """Whether the option is one of the words."""
    return option in sys.argv[1:]
