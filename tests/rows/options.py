"""Goes through the options of all commands, as their help lists them. Where a command lacks one that another has, by
name or letter, and where one has no value or an empty one, a person is told what helps. Each has a text, and the words
that it may have by its text are those that it is read by. Each lesson that a hint names is one.
"""

import re

import commands
import harness
import report
import words

# What a run needs.
NEEDED = {"--seed": "7", "--candidates": "4", "--count": "3"}
# How many calls there are at the least.
LEAST = 300
# A line for a person: a hint, or an option with what it takes.
HELP = re.compile(r"^  (hint: |--[a-z-]+ \")", re.M)
# What is said of a word that an option may not have.
REFUSED = re.compile(r"error: invalid value '([^']*)' for '(--[a-z-]+) <\w+>'\n  \[possible values: ([^]]+)\]")
# The tables of hints that name lessons, and how they do.
LESSONS = {
    "explain/src/words/values.rt": r"^ +lesson .* => ([a-z0-9-]+)$",
    "explain_conditions/src/rules/tables/lessons.rt": r"(?:--lesson|, or) ([a-z0-9-]+)",
}


def lacking(command, own, others):
    """The words of a call for each option that the command lacks."""
    for short, long, value, _ in others:
        for option in (short, long):
            if option and long not in own:
                yield f"{command} {option} 4" if value else f"{command} {option}"


def valueless(command, own):
    """The words of two calls for each option that takes a value: without one, and with an empty one."""
    for option in (long for long, value in own.items() if value):
        needed = " ".join(f"{long} {value}" for long, value in NEEDED.items() if long in own and long != option)
        yield f"{command} {needed} {option}"
        yield f"{command} {needed} {option} ''"


def calls():
    """The words of each call that is refused."""
    listed = {name: commands.listed_options(name) for name in commands.commands() if name != "help"}
    every = {row[1]: row for rows in listed.values() for row in rows}
    for command, rows in listed.items():
        own = {long: value for _, long, value, _ in rows}
        yield from lacking(command, own, every.values())
        yield from valueless(command, own)


def fault_of(call):
    """Why a person isn't helped with this call, or None. An empty text may be right."""
    ended = words.run(call, b"")
    if ended.returncode == 0 and call.endswith("''"):
        return None
    told = words.said_on_terminal(call, b"")
    is_refused = ended.returncode in (2, 3) and not ended.stdout
    return None if is_refused and HELP.search(told) else f"status {ended.returncode}, told {told!r}"


def told_of(call):
    """What the refusal of this call says of a word: the word, the option, and the words that it may have."""
    found = REFUSED.match(words.run(call, b"").stderr.decode())
    return found.groups() if found else None


def text_fault(command, rows, option, text):
    """Why what help says of an option isn't what is read of it, or None."""
    if not text:
        return "help says nothing of it"
    values = commands.values(text)
    if not values:
        return None
    needed = " ".join(f"{long} {NEEDED[long]}" for _, long, *_ in rows if long in NEEDED)
    told = told_of(f"{command} {needed} {option} nothing")
    if told != ("nothing", option, ", ".join(values)):
        return f"help has {values}, and a refusal {told}"
    refused = [value for value in values if told_of(f"{command} {needed} {option} {value}")]
    return f"{refused} refused" if refused else None


def texts():
    """Each option of each command, with what is wrong with its text."""
    for command in commands.commands():
        rows = commands.listed_options(command) if command != "help" else []
        for _, option, _, text in rows:
            yield f"{command} {option}", text_fault(command, rows, option, text)


def lessons():
    """Each lesson that a hint names, with what is wrong with it."""
    for table, pattern in LESSONS.items():
        names = re.findall(pattern, (harness.TOP / "crates" / table).read_text(encoding="utf-8"), re.M)
        yield f"lessons in {table}", None if names else "it names none"
        for name in names:
            told = words.run(f"lessons {name}", b"").stderr.decode()
            yield f"lesson {name} in {table}", told or None


def options():
    """Each option that a command lacks, or that lacks its value, the text of each, and the lessons of hints."""
    refused = list(calls())
    yield "how many there are", None if len(refused) >= LEAST else f"{len(refused)} calls"
    yield from report.asked(fault_of, refused)
    yield from texts()
    yield from lessons()
