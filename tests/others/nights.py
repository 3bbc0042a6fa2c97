"""The script of a club's night: killed at every step and run again, run twice, with words of another night, and where a
program fails. There is never a sheet of other boards, and nobody else can read them."""

import fcntl
import os
import pathlib
import signal
import subprocess
import time

import companion
import harness
import report

NIGHT = harness.TOP / "examples" / "night"
WORDS = ("4", "Club night", "night")
# A program that counts its calls in a file, and at one of them stops the script that called it, or fails.
STAND_IN = """#!/bin/bash
count=$(($(cat "$COUNTS" 2>/dev/null) + 1))
echo "$count" >"$COUNTS"
if [ "$count" = "$AT" ]; then
    [ "$HOW" != killed ] || kill -KILL "$PPID"
    [ "$HOW" != half ] || "{program}" "$@" | head -c 40
    exit 5
fi
exec "{program}" "$@"
"""


def stand_ins(folder):
    """A folder with both programs, by stand-ins."""
    programs = folder / "bin"
    programs.mkdir()
    for name, program in (("deals", harness.PROGRAM), ("deals-tricks", companion.build())):
        (programs / name).write_text(STAND_IN.replace("{program}", str(program)))
        (programs / name).chmod(0o755)
    return programs


class Night:
    """A folder in which nights are made."""

    def __init__(self, folder):
        self.folder = pathlib.Path(folder)
        self.programs = stand_ins(self.folder)

    def run(self, *words, at=0, how="", without=(), **more):
        """The script's status, and what it said; `at` is the call that goes wrong, `more` is in its environment."""
        counts = self.folder / "counts"
        counts.unlink(missing_ok=True)
        path = f"{self.programs}:{self.machine_without(without) if without else '/usr/bin:/bin'}"
        settings = {"PATH": path, "COUNTS": str(counts), "AT": str(at), "HOW": how, **more}
        for name in without:
            (self.programs / name).rename(self.folder / name)
        try:
            ended = subprocess.run(["sh", NIGHT, *words], cwd=self.folder, env=settings, capture_output=True, text=True, check=False)
        finally:
            for name in without:
                (self.folder / name).rename(self.programs / name)
        return ended.returncode, ended.stderr

    def machine_without(self, names):
        """A folder with the machine's programs but these, which may be installed."""
        folder = self.folder / "machine"
        folder.mkdir()
        for program in {file.name: file for place in ("/bin", "/usr/bin") for file in pathlib.Path(place).iterdir()}.values():
            if program.name not in names:
                (folder / program.name).symlink_to(program)
        return folder

    def files(self):
        there = self.folder / "night"
        return {file.name: file.read_bytes() for file in there.iterdir()} if there.is_dir() else {}

    def is_right(self, event=WORDS[1]):
        """Whether all files are those of the seed that is kept. PBN has an event of ASCII alone."""
        files = self.files()
        boards = ["make", "--seed", files["seed"].decode().strip(), "--boards", "4"]
        make = [*boards, f"--event={event}"]
        pbn = harness.deals(*(make if event.isascii() else boards)).stdout
        tricks = subprocess.run([companion.build()], input=pbn, capture_output=True, check=True).stdout
        page = harness.deals(*make, "--format", "sheet", "--tricks", given=tricks).stdout
        slips = harness.deals(*make, "--format", "slips").stdout
        wanted = {"night.pbn": pbn, "night.tricks": tricks, "slips.html": slips, "night.html": page}
        return all(files[name] == text != b"" for name, text in wanted.items())


def made():
    """A night is made, and made again it stays as it is."""
    with harness.scratch() as folder:
        night = Night(folder)
        status, said = night.run(*WORDS)
        yield "made", status == 0 and night.is_right()
        first = night.files()
        for again in range(2):
            status, said = night.run(*WORDS)
            yield f"pasted again, {again}", status == 0 and night.files() == first and "stays as it is" in said
        status, said = night.run("5", *WORDS[1:])
        yield "another night in its folder", status == 2 and night.files() == first and "another folder" in said
        status, _ = night.run("x", "Club night", "other")
        yield "words that can't be read", status == 2 and not (night.folder / "other").exists()
        status, _ = night.run("4", 101 * "x", "other")
        yield "a label that is refused", status == 2 and not (night.folder / "other").exists()
        status, _ = night.run("4")
        yield "too few words", status == 2
        status, said = night.run("3", "Club night", "28")
        yield "a first board without a folder", status == 2 and "play-off 28" in said and not (night.folder / "28").exists()
        status, said = night.run("3", "Club night", "more", "28")
        more = (night.folder / "more" / "night.pbn").read_text()
        yield "more boards", status == 0 and [f'[Board "{board}"]' in more for board in (27, 28, 30, 31)] == [False, True, True, False]
        yield "of another seed", "a new seed for new boards" in said and (night.folder / "more" / "seed").read_bytes() != first["seed"]
        status, said = night.run("3", "Club night", "more", "31")
        yield "others in their folder", status == 2 and "3 boards from 28 on, Club night" in said


def days():
    """A folder that is named doesn't give its boards on another day, unless it is named for that day; on its own day it
    changes nothing."""
    with harness.scratch() as folder:
        night = Night(folder)
        words = ("3", "Club", "night")
        yield "an event without quotes", night.run(*words)[0] == 0
        first = night.files()
        status, said = night.run(*words)
        yield "the same day", status == 0 and night.files() == first and "stays as it is" in said
        week = time.time() - 7 * 86400
        day = time.strftime("%Y-%m-%d", time.localtime(week))
        os.utime(night.folder / "night" / "asked", (week, week))
        (night.folder / "night" / "night.html").unlink()
        before = night.files()
        status, said = night.run(*words)
        is_told = f"night has the night of {day}, whose boards are known" in said and 'as "Club night"' in said
        yield "a week later", status == 2 and is_told and night.files() == before
        (night.folder / "night").rename(night.folder / f"night-{day}")
        status, said = night.run(*words[:2], f"night-{day}")
        yield "in a folder of its day", status == 0 and (night.folder / f"night-{day}" / "night.html").read_bytes() == first["night.html"]
        (night.folder / f"night-{day}").rename(night.folder / f"play-off-{day}")
        yield "in another one of its day", night.run(*words[:2], f"play-off-{day}")[0] == 0
        status, said = night.run(*words[:2], "night")
        yield "a new night", status == 0 and night.files()["seed"] != first["seed"]
        yield "too many words", night.run("3", "Club", "night", "1", "x")[0] == 2


def letters():
    """An event of any letters is on the pages, and night.pbn has none; it stays the same night."""
    for event in ("Bridgeclub Zürich", "Łódź"):
        with harness.scratch() as folder:
            night = Night(folder)
            status, said = night.run("4", event, "night")
            is_right = night.is_right(event) and event.encode() in night.files()["night.html"]
            yield f"{event}, made", status == 0 and is_right and said.count("night.pbn is without the event") == 1
            first = night.files()
            status, said = night.run("4", event, "night")
            yield f"{event}, again", status == 0 and night.files() == first and "stays as it is" in said
            status, said = night.run("4", "Club night", "night")
            yield f"{event}, another night", status == 2 and night.files() == first
    with harness.scratch() as folder:
        night = Night(folder)
        status, _ = night.run("4", 101 * "ü", "night")
        yield "too many letters", status == 2 and not night.files()
        for at in (1, 2):
            status, _ = night.run("4", "Łódź", "night", at=at, how="fails")
            yield f"letters, fails at call {at}", status == 5 and not night.files()


def stopped():
    """Killed at each call of a program, or with one that fails at once or after some bytes, and run again."""
    for how, status, calls in (("killed", -signal.SIGKILL, (1, 2, 3, 4, 5, 6)), ("fails", 5, (2, 4)), ("half", 5, (3, 4, 5, 6))):
        for at in calls:
            with harness.scratch() as folder:
                night = Night(folder)
                ended, _ = night.run(*WORDS, at=at, how=how)
                left = night.files()
                yield f"{how} at call {at}", ended == status and "night.html" not in left
                seed = left.get("seed")
                ended, _ = night.run(*WORDS)
                is_kept = seed is None or night.files()["seed"] == seed
                yield f"{how} at call {at}, run again", ended == 0 and is_kept and night.is_right()


def without():
    """Without deals-tricks the sheet has no tricks, and that is said."""
    with harness.scratch() as folder:
        night = Night(folder)
        status, said = night.run(*WORDS, without=["deals-tricks"])
        files = night.files()
        is_plain = "night.tricks" not in files and b"Par" not in files["night.html"]
        yield "without the solver", status == 0 and is_plain and "deals-tricks isn't installed" in said


def elsewhere():
    """The files are in the folder that is named, whatever its name is and wherever else there is one of this name."""
    with harness.scratch() as folder:
        night = Night(folder)
        (night.folder / "others" / "night").mkdir(parents=True)
        status, _ = night.run(*WORDS, CDPATH=str(night.folder / "others"))
        yield "CDPATH", status == 0 and night.is_right() and not list((night.folder / "others" / "night").iterdir())
        status, _ = night.run(WORDS[0], WORDS[1], "-n")
        yield "a hyphen in front", status == 0 and (night.folder / "-n" / "night.pbn").exists()


def unnamed():
    """A folder that isn't named has the name of its day."""
    with harness.scratch() as folder:
        night = Night(folder)
        before = time.strftime("%Y-%m-%d")
        status, _ = night.run(*WORDS[:2])
        (there,) = night.folder.glob("night-*")
        yield "the folder's name", status == 0 and there.name in (f"night-{before}", f"night-{time.strftime('%Y-%m-%d')}")
        yield "its files", {file.name for file in there.iterdir()} >= {"seed", "night.pbn", "slips.html", "night.html"}
        there.rename(night.folder / "night")
        yield "its boards", night.is_right()
        status, said = night.run(*WORDS[:2], "")
        yield "an empty name", (status, said) == (2, "night: the folder's name is empty\n")


def private():
    """Nobody else can read the folder or a file of it."""
    with harness.scratch() as folder:
        night = Night(folder)
        status, _ = night.run(*WORDS)
        there = night.folder / "night"
        yield "the folder's rights", status == 0 and there.stat().st_mode & 0o777 == 0o700
        yield "the files' rights", {file.stat().st_mode & 0o777 for file in there.iterdir()} == {0o600}


def locked():
    """While one works in a folder, another stops and changes nothing there."""
    with harness.scratch() as folder:
        night = Night(folder)
        there = night.folder / "night"
        there.mkdir()
        with (there / "lock").open("wb") as lock:
            fcntl.flock(lock, fcntl.LOCK_EX)
            status, said = night.run(*WORDS)
            is_told = said == "night: another one works in night\n"
            yield "another one works there", status == 2 and is_told and set(night.files()) == {"lock"}
        status, _ = night.run(*WORDS)
        yield "after it has ended", status == 0 and night.is_right()


def nights():
    # Files that are made as usual can be read by others.
    os.umask(0o022)
    yield from report.each([made, days, letters, stopped, without, elsewhere, unnamed, private, locked])
