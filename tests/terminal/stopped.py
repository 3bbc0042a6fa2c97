"""Runs that are stopped at a random moment, as by Ctrl-C: what is in their file, or came through their pipe.

Where boards are rare, each that was found is there or was found in the last quarter of a second, all are whole, and
none is missing that the counts on the terminal told. Where they come fast the last one may be cut, since the kernel
ends a write where a signal waits; all before it are right.
"""

import concurrent.futures
import itertools
import os
import pty
import random
import re
import subprocess
import tempfile

import harness
from board_formats import FORMATS, TABLE

EVERY = ["--candidates", "1000000000"]
# So rare that what is gathered between two looks at the clock goes into a pipe in one piece: up to 4,096 bytes.
RARE = [*EVERY, "--where", "hcp(north)>=30"]
# When a run is stopped, in seconds: counts are drawn from the first second on.
MOMENTS = {"every": (0.01, 0.2), "rare": (0.05, 1.8)}
COUNTED = re.compile(rb"candidates  ([\d,]+) boards?")


def words_of(kind, form):
    return ["make", "--seed", "9", "--format", form, *(RARE if kind == "rare" else EVERY)]


def stopped(words, into, seconds):
    """What is on the output of a run that is stopped after this many seconds, and what it drew on the terminal.

    `timeout` stops it, and not this process: it may be busy with the text of another run, and while it is, this one
    would go on, and its text would be the larger.
    """
    terminal, drawn_on = pty.openpty()
    with tempfile.TemporaryFile() as file, concurrent.futures.ThreadPoolExecutor(1) as readers:
        cat = subprocess.Popen(["cat"], stdin=subprocess.PIPE, stdout=file) if into == "pipe" else None
        output = cat.stdin if cat else file
        stop = ["timeout", "--foreground", "--signal=INT", f"{seconds:.3f}"]
        process = subprocess.Popen(
            [*stop, harness.PROGRAM, *words], stdin=subprocess.DEVNULL, stdout=output, stderr=drawn_on
        )
        os.close(drawn_on)
        drawn = readers.submit(harness.all_of, terminal)
        process.wait()
        if cat:
            cat.stdin.close()
            cat.wait()
        file.seek(0)
        shown = drawn.result()
        os.close(terminal)
        return file.read(), shown


def text_of(words):
    """What a run writes that isn't stopped."""
    return subprocess.run([harness.PROGRAM, *words], stdout=subprocess.PIPE, check=True).stdout


def whole_text(kind, form, boards):
    """The text of the first boards, without what closes it."""
    words = words_of(kind, form)
    if boards:
        words += ["--boards", str(boards), "--workers", "2"]
    else:
        words[words.index(EVERY[1])] = "0"
    # A page is closed at its end.
    return text_of(words).partition(b"</main>\n")[0]


def fault_of(kind, into, form, seconds):
    """What is wrong with the output of a stopped run, or None; and how many boards it has."""
    words = words_of(kind, form)
    out, drawn = stopped(words, into, seconds)
    begun = len(re.findall(b"^" + TABLE[form].begins, out, re.M))
    is_whole = out.endswith(TABLE[form].ends) if begun else out in (b"", whole_text(kind, form, 0))
    # A board may be cut before it is counted.
    if not whole_text(kind, form, begun + 1).startswith(out):
        return f"{len(out)} bytes that don't begin the right text", begun
    if kind == "rare" and not is_whole:
        return f"{len(out)} bytes, and the last board is cut", begun
    told = [int(text.replace(b",", b"")) for text in COUNTED.findall(drawn)]
    if told and told[-1] > begun - (not is_whole):
        return f"{begun} boards, and the counts told {told[-1]}", begun
    return None, begun


def every(runs):
    """Each run's name, and what is wrong with it, or None."""
    dice = random.Random()
    kinds = list(itertools.product(MOMENTS, ("file", "pipe"), FORMATS))
    chosen = [(*kinds[at % len(kinds)], dice.uniform(*MOMENTS[kinds[at % len(kinds)][0]])) for at in range(runs)]
    has_boards = {kind: False for kind in MOMENTS}
    with concurrent.futures.ThreadPoolExecutor(len(os.sched_getaffinity(0))) as pool:
        for run, (fault, boards) in zip(chosen, pool.map(lambda run: fault_of(*run), chosen)):
            has_boards[run[0]] |= boards > 0
            yield f"stopped, {run[0]} into a {run[1]}, {run[2]}, after {run[3]:.3f} s", fault
    for kind, has_some in has_boards.items():
        yield f"stopped, {kind}: some run has a board", None if has_some else "none has"
