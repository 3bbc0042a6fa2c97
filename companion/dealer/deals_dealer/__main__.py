"""deals-dealer: prints the commands of `deals` that do what a script of dealer does."""

import argparse
import os
import re
import signal
import subprocess
import sys
from collections.abc import Sequence

from .commands import Command, Translation
from .reading import read
from .tree import Refusal

# Statuses: the script is refused or can't be read; words that can't be read; the output failed.
SCRIPT, WORDS, OUTPUT = 1, 2, 4
MOST_SEED = 4294967295


def seed(text: str) -> int:
    if not re.fullmatch("[0-9]{1,10}", text) or int(text) > MOST_SEED:
        raise argparse.ArgumentTypeError(f"{text}: write a number, 0 to {MOST_SEED}")
    return int(text)


def parser() -> argparse.ArgumentParser:
    parse = argparse.ArgumentParser(
        prog="deals-dealer",
        description="Prints the commands of deals that do what a script of dealer does, each on a line.",
        epilog="What can't be said in deals is refused with its line and column.",
    )
    add = parse.add_argument
    add("script", nargs="?", default="-", metavar="FILE", help="the script; -: from standard input [default: -]")
    add("--seed", type=seed, metavar="S", help="the seed, 0 to 4294967295 [default: that of the script, else 1]")
    add("--run", action="store_true", help="runs the commands, in place of printing them")
    return parse


def say(text: str) -> None:
    print(f"deals-dealer: {text}", file=sys.stderr)


def text_of(path: str) -> str:
    """The script's text; bytes that are no UTF-8 may be in its comments."""
    with open(0 if path == "-" else path, "rb", closefd=path != "-") as file:
        return file.read().decode("utf-8", "replace")


def notes_of(commands: Sequence[Command]) -> list[str]:
    return list(dict.fromkeys(note for command in commands for note in command.notes))


def run(commands: Sequence[Command]) -> int:
    """Runs the commands one after another, up to the first that fails."""
    program = os.environ.get("DEALS", "deals")
    for command in commands:
        try:
            status = subprocess.run([program, *command.words[1:]], check=False).returncode
        except OSError:
            say("deals isn't installed: its package has to be there")
            return SCRIPT
        if status:
            return status if status > 0 else 128 - status
    return 0


def main(words: Sequence[str] | None = None) -> int:
    # Where standard error is closed, what is said would go to standard output.
    sys.stderr = sys.stderr or open(os.devnull, "w")
    # Ctrl-C ends it as it ends other programs, unless it was told to ignore it.
    if signal.getsignal(signal.SIGINT) is signal.default_int_handler:
        signal.signal(signal.SIGINT, signal.SIG_DFL)
    asked = parser().parse_args(words)
    try:
        text = text_of(asked.script)
    except OSError as error:
        say(f"{asked.script}: {error.strerror}")
        return SCRIPT
    try:
        commands = Translation(read(text), asked.seed).commands()
    except Refusal as refused:
        say(f"line {refused.place.line}, column {refused.place.column}: {refused.text}")
        return SCRIPT
    except RecursionError:
        say("line 1, column 1: brackets or definitions within one another go too deep")
        return SCRIPT
    for note in notes_of(commands):
        say(f"note: {note}")
    if asked.run:
        return run(commands)
    try:
        with open(1, "w", encoding="utf-8", errors="surrogateescape", closefd=False) as output:
            output.write("".join(f"{command.line()}\n" for command in commands))
    except OSError as error:
        if not isinstance(error, BrokenPipeError):
            say(f"the output failed: {error.strerror}")
        return OUTPUT
    return 0


if __name__ == "__main__":
    sys.exit(main())
