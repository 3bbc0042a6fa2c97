"""Boards and counts on one terminal, where standard output and standard error both go, as a person sees them."""

import os
import pty
import re
import subprocess
import time

import harness
import screen
from board_formats import FORMATS

# Boards that come slowly, so that counts are drawn between them, and for how many seconds at least.
RARE = ["--seed", "9", "--where", "hcp(north)>=30"]
SECONDS = 2.5
# How many runs that take so long are looked at, at most, each with twice the boards of the one before.
LONG_RUNS = 5
# A line of counts, which is cut where the screen ends.
COUNTS = re.compile(r"(\d+%  )?[\d,]+ (of [\d,]+ )?candidates  [\d,]+ boards? .*")
# What ends the line of counts.
DRAWN = b"\x1b[?7h"


def pieces_of(terminal):
    """What the terminal was given, cut after each line of counts."""
    text, is_open = b"", True
    while is_open:
        try:
            piece = os.read(terminal, 65536)
        except OSError:
            # What a terminal says when nobody is there to write.
            piece = b""
        is_open = bool(piece)
        *whole, text = (text + piece).split(DRAWN)
        yield from (piece + DRAWN for piece in whole)
    yield text


def look(words, text):
    """What is wrong with a row of the screen, or None, and whether a board was seen while counts were drawn. The run
    writes this text into a pipe."""
    ours, theirs = pty.openpty()
    process = subprocess.Popen([harness.PROGRAM, *words], stdin=subprocess.DEVNULL, stdout=theirs, stderr=theirs)
    os.close(theirs)
    try:
        return fault_of_rows(process, ours, text)
    finally:
        os.close(ours)
        process.kill()
        process.wait()


def fault_of_rows(process, terminal, text):
    """The same of a run that has begun on this terminal."""
    wanted = [line.rstrip(" ") for line in text.decode().split("\n")]
    seen, is_behind_counts = screen.Screen(), False
    for piece in pieces_of(terminal):
        seen.feed(piece)
        lines = seen.lines()
        if piece.endswith(DRAWN):
            is_behind_counts = is_behind_counts or len(lines) > 2
            if not COUNTS.fullmatch(lines.pop()):
                return f"no line of counts, but {seen.lines()[-1]!r}", is_behind_counts
            lines.append("")
        if lines[:-1] != wanted[: len(lines) - 1] or lines[-1]:
            return f"the rows {lines[-6:]}", is_behind_counts
    is_right = process.wait() == 0 and lines == wanted
    return None if is_right else f"at the end the rows {lines[-6:]}", is_behind_counts


def complaint_of(words):
    """What is wrong with a row of the screen, or None. A run that ends before counts are drawn is followed by one with
    twice the boards, since a machine may be slow in one and fast in the next."""
    boards, lasting = 6, 0
    while lasting < LONG_RUNS:
        boards *= 2
        limited = [*words, "--boards", str(boards)]
        began = time.monotonic()
        text = subprocess.run([harness.PROGRAM, *limited], stdout=subprocess.PIPE, check=True).stdout
        if time.monotonic() - began < SECONDS:
            continue
        lasting += 1
        complaint, is_seen = look(limited, text)
        if complaint or is_seen:
            return complaint
    return "no board was seen while counts were drawn"


def every():
    """Each check's name, and what is wrong, or None."""
    for words in [["make", "--format", form] for form in FORMATS] + [["find"], ["make", "--candidates", "900000000"]]:
        yield f"one terminal, {' '.join(words)}", complaint_of([*words, *RARE])
