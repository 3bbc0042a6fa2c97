"""Lessons to start from, as `deals lessons` lists and tells them. North holds the hand that deals."""

import dataclasses
import functools
import subprocess
import threading

from .runs import ENVIRONMENT

# So long the program may take to tell of one.
SECONDS = 10
# Held while a program is asked, so that it is asked once, however many pages wait.
ASKING = threading.Lock()


@dataclasses.dataclass(frozen=True)
class Lesson:
    """A lesson: its name, its title, what it shows in a sentence, and the condition of its deals."""

    name: str
    title: str
    shows: str
    where: str


@dataclasses.dataclass(frozen=True)
class Group:
    """Lessons on one subject."""

    title: str
    lessons: tuple[Lesson, ...]


def told(program: str, *words: str) -> str:
    """What the program tells of lessons; LookupError, where it can't."""
    command = [program, "lessons", *words]
    try:
        return subprocess.run(
            command, capture_output=True, text=True, check=True, timeout=SECONDS, env=ENVIRONMENT
        ).stdout
    except (OSError, subprocess.SubprocessError) as error:
        raise LookupError("no lessons") from error


def lesson_of(program: str, line: str) -> Lesson:
    """The lesson of a line of the list, `name: title`. What is told of it is its sentence, its condition and a command, with
    an empty line between."""
    name, _, title = line.strip().partition(": ")
    shows, where, *_ = [*told(program, name).split("\n\n"), "", ""]
    return Lesson(name, title, shows, where)


def group_of(program: str, part: str) -> Group:
    """A group of its title and a line for each lesson."""
    title, *lines = part.splitlines()
    return Group(title, tuple(lesson_of(program, line) for line in lines))


@functools.cache
def known(program: str) -> tuple[Group, ...]:
    """The groups of this program's lessons. The list has an empty line after each, and a last line of advice."""
    *parts, _ = told(program).split("\n\n")
    return tuple(group_of(program, part) for part in parts)


def groups(program: str) -> tuple[Group, ...]:
    """The groups, or none where the program can't tell them; it is asked again then."""
    try:
        with ASKING:
            return known(program)
    except LookupError:
        return ()
