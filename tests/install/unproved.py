"""Runs the launcher in a fresh copy of the checkout, where nothing is built, with the real toolchain: what it answers
without proofs is what the built program answers, to the byte, and what can't be had so is refused.

One call each compiles all crates: a minute or more. The gate makes the first call alone; `slow` makes all.
"""

import os
import pathlib
import shutil
import signal
import subprocess
import tempfile
import time

import harness
import report
from board_formats import FORMATS

PATIENCE = 900
SEARCH = ["--seed", "7", "--boards", "3", "--where", "hcp(north) in 15-17 and balanced(north)"]
NUMBERS = b"5\n17\n2\n"
TRICKS = b"97b8997b892624426244 NS 450 4H-NS+1\r\n-\n"
# The words of each call, and its input. The first reads an input, writes boards, and fails then.
CALLS = [
    (["pick", "--seed", "7", "--format", "hands"], NUMBERS + b"x\n"),
    (["stream", "--seed", "0", "--count", "3"], b""),
    (["find", *SEARCH, "--report"], b""),
    (["count", "--seed", "7", "--candidates", "3000", "--of", "hcp(north)"], b""),
    (["pick", "--seed", "7", "--format", "json"], NUMBERS),
    (["show", "--format", "hands"], b'[Deal "N:AKQJT98765432... .AKQJT98765432.. ..AKQJT98765432. ...AKQJT98765432"]\n'),
    (["make", "--seed", "7", "--boards", "2", "--format", "json", "--tricks"], TRICKS),
    (["make", "--seed", "7", "--boards", "2", "--where", "hcp(north)=>15"], b""),
    (["make", "--sed", "7", "--boards", "2"], b""),
    (["--version"], b""),
]


def calls():
    """All calls, with one for each format."""
    return [*CALLS, *((["make", *SEARCH, "--format", name], b"") for name in FORMATS)]


class Fresh:
    """A copy of the checkout in which nothing is built, and a folder for what runs there."""

    def __init__(self, folder):
        self.top = pathlib.Path(folder) / "checkout"
        self.scratch = pathlib.Path(folder) / "scratch"
        self.scratch.mkdir()
        kept = shutil.ignore_patterns("out", "__pycache__", ".git", "must-fail")
        shutil.copytree(harness.TOP, self.top, symlinks=True, ignore=kept)
        self.environment = {**os.environ, "TMPDIR": str(self.scratch)}

    def start(self, *words):
        pipes = {name: subprocess.PIPE for name in ("stdin", "stdout", "stderr")}
        return subprocess.Popen([self.top / "deals", *words], env=self.environment, **pipes)

    def call(self, words, given=b""):
        """The status and the two texts, the second without the launcher's first line."""
        process = self.start(*words)
        out, err = process.communicate(given, timeout=PATIENCE)
        return process.returncode, out, err.partition(b"\n")[2]

    def is_clean(self):
        return not os.listdir(self.scratch) and not (self.top / "crates" / "deals" / "out").exists()


def same(fresh, call):
    """Judges a call: what differs from the built program."""
    words, given = call
    built = harness.deals(*words, given=given)
    right = (built.returncode, built.stdout, built.stderr)
    got = fresh.call(words, given)
    return None if got == right else f"{got}, and not {right}"


def refused(fresh, words):
    """Judges a call that can't be answered without proofs."""
    status, out, err = fresh.call(words)
    right = (status, out) == (1, b"") and err.count(b"\n") == 1 and b"; ./check program" in err
    return None if right else f"{status}, {len(out)} bytes, {err}"


def ended(fresh):
    """Judges a call that is ended by Ctrl-C."""
    process = fresh.start("stream", "--seed", "0", "--count", "3")
    time.sleep(5)
    process.send_signal(signal.SIGINT)
    out, _ = process.communicate(timeout=PATIENCE)
    listed = subprocess.run(["ps", "-eo", "args"], capture_output=True, text=True, check=True).stdout
    left = [line for line in listed.splitlines() if str(fresh.scratch) in line]
    right = (process.returncode, out, left) == (-signal.SIGINT, b"", []) and fresh.is_clean()
    return None if right else f"{process.returncode}, {left}"


BEYOND = {
    "too much output": ["stream", "--seed", "0", "--count", "200000"],
    "too long a run": ["find", "--seed", "7", "--candidates", "1000000000", "--where", "hcp(north)>=37"],
}


def answered():
    """What the launcher answers without proofs."""
    with tempfile.TemporaryDirectory(prefix="unproved-") as folder:
        fresh = Fresh(folder)
        chosen = calls() if report.has("slow") else CALLS[:1]
        yield from report.asked(lambda call: same(fresh, call), chosen, lambda call: " ".join(call[0]))
        if report.has("slow"):
            yield from report.asked(lambda name: refused(fresh, BEYOND[name]), BEYOND)
            yield "ended", ended(fresh)
        yield "no file is left", None if fresh.is_clean() else str(os.listdir(fresh.scratch))


def first_byte():
    """The seconds until the built program's first byte, by the launcher."""
    began = time.monotonic()
    with subprocess.Popen([harness.TOP / "deals", "--version"], stdout=subprocess.PIPE) as process:
        process.stdout.read(1)
        return time.monotonic() - began


def by_another_name():
    """What a refused option's usage calls the program, where its file is called otherwise."""
    end = subprocess.run(["other", "make", "--sed", "7"], executable=harness.PROGRAM, capture_output=True, check=False)
    return None if b"\nUsage: deals make " in end.stderr else str(end.stderr)


def started():
    """The launcher over a real checkout: without proofs, and how soon the built program answers."""
    harness.usual_signals()
    yield "by another name", by_another_name()
    yield from answered()
    if harness.PROGRAM == harness.BUILT:
        # Others only ever slow a run down: on a quiet machine, as `slow` asks for, it takes 20 milliseconds at the most.
        best = min(first_byte() for _ in range(40))
        yield "the first byte", None if best < (0.020 if report.has("slow") else 0.100) else f"after {best * 1000:.0f} ms"
