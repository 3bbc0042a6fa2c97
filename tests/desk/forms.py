"""What forms become: words, in the place of forms and servers; and what is read from the answers of `deals`."""

import subprocess
import tempfile
import time

import board_formats
import harness
import packages
import report
import serving
import tables
from deals_desk import answers, fields, files, limits, runs, searches, words

WHERE = "hcp(north) in 15-17 and balanced(north)"

# A page, what its form has, and the words that it becomes.
ROWS = [
    ({}, "deals make --seed=7 --boards=12 --rotate"),
    ({"where": WHERE}, f"deals make --seed=7 --boards=12 '--where={WHERE}' --rotate"),
    ({"turn": "N", "vulnerable": "NS"}, "deals make --seed=7 --boards=12 --dealer=N --vulnerable=NS"),
    ({"turn": "", "north": "AKQ32.K..A"}, "deals make --seed=7 --boards=12 --north=AKQ32.K..A"),
    ({"turn": "", "event": "It's; $(x)"}, "deals make --seed=7 --boards=12 '--event=It'\"'\"'s; $(x)'"),
    ({"turn": "", "where": "-x", "boards": "\r\n 3 "}, "deals make --seed=7 --boards=3 --where=-x"),
    ({"turn": "", "where": "1==1\r\nand 2==2"}, "deals make --seed=7 --boards=12 '--where=1==1\nand 2==2'"),
    (
        {"turn": "", "where": "1==1", "makes": "4S-NS", "beaten": "3NT-NS 4H-N"},
        "deals find --seed=7 --candidates=10000000 --where=1==1 |\n"
        "    deals pick --seed=7 --format=json |\n"
        "    deals-tricks --makes=4S-NS --beaten=3NT-NS --beaten=4H-N --numbers --boards=12 |\n"
        "    deals pick --seed=7",
    ),
]

# What a person is told of a text, the characters that are marked, and the mended text.
FAULTS = [
    ("hcp(nord)>=15", "where", "nord", "hcp(north)>=15"),
    ("balanced(north) and hcp(nord)>=15", "where", "nord", "balanced(north) and hcp(north)>=15"),
    ("hcp(north)=12+", "where", "=", "hcp(north)>=12"),
    ("hcp(north) in", "where", "", None),
    ("\u00fc", "where", "\u00fc", None),
]


def told():
    """The command of each form."""
    for given, line in ROWS:
        form = words.asked_for(fields.LESSON, given, "lesson")
        yield f"{given}", words.boards(form, ()).line() == line


def marked():
    """What is refused, told apart."""
    for text, field, fault, mended in FAULTS:
        ended = harness.deals("make", "--seed=1", "--boards=1", f"--where={text}", "--hints=always")
        answer = answers.read(ended.stderr.decode(), {"where": text})
        found = text[answer.at : answer.at + answer.length]
        yield text, (answer.field, found, answer.mended) == (field, fault, mended)


# A field, and a value of it that is refused.
REFUSED = [
    ("seed", "x"), ("boards", "0"), ("first_board", "-1"), ("north", "AKQ"), ("event", '"'),
    ("date", "today"), ("vulnerable", "Nobody"), ("candidates", "9999999999999"),
    ("candidates", "1e6"), ("first", "9999999999999"), ("first", "x"), ("show", "all four"),
    ("points", "no"),
]


def named():
    """The field that each refusal of an option belongs to, which is told by its label."""
    for name, value in REFUSED:
        field = fields.BY_NAME[name]
        given = f"{field.option}={value}"
        ended = harness.deals("make", "--seed=1", "--candidates=1", "--hints=always", given)
        answer = answers.read(ended.stderr.decode(), {})
        said = f"{answer.line}\n{answer.text}"
        yield given, answer.field == name and f"«{field.label}»" in said and "--" not in said
    for name in ("of", "by"):
        ended = harness.deals("count", "--seed=1", "--candidates=1", "--of=1", f"--{name}=nord")
        yield name, answers.read(ended.stderr.decode(), {name: "nord"}).field == name


def hinted():
    """Hints of mistakes in conditions name no option."""
    for file in sorted((harness.TOP / "tests" / "rows" / "mistakes").glob("*.txt")):
        for line in file.read_text().splitlines():
            if line.startswith("  hint: ") and "--" in line:
                hint = answers.on_a_page(line)
                yield f"{line} | {hint}", "--" not in hint


def possible():
    """All that could be anywhere has words to be put there, but the end and a name that a person has to think of."""
    for left, text in tables.lines(harness.TOP / "tests" / "rows" / "places" / "expected.txt"):
        if text is not None:
            expected = left.partition("; ")[2]
            has_none = expected in ("the end", "nothing more", "a new name")
            yield f"{expected} | {text}", has_none or bool(answers.could_stand(f"  expected {expected}\n"))


# How a search ended: its status, what it said, and its boards of four; what is told of it, and whether it goes on.
ENDS = [
    (0, "", 0, "all is searched", True),
    (0, "", 4, "it has ended", True),
    (0, " 50% 500 of 1,000 candidates, 4 boards\n", 4, "50% 500 of 1,000 candidates, 4 boards", True),
    (1, "", 0, "nothing is searched", False),
    (1, 2 * " 50% 500 of 1,000 candidates, 4 boards\n", 0, "50% 500 of 1,000 candidates, 4 boards", True),
]


def unseen():
    """A search goes on while the page of a tab behind others asks for it, which Chromium lets it
    once a minute (developer.chrome.com/blog/timer-throttling-in-chrome-88), and ends where none asks."""
    class Process:
        def poll(self):
            return None

    form = {"boards": "4", "first": "0", "candidates": ""}
    for bounds in (limits.HOME, limits.CLUB):
        for asked, is_stopped in ((70, False), (200, True)):
            then = time.monotonic() - asked
            with tempfile.TemporaryFile() as said:
                search = searches.Search(form, words.search(form), Process(), said, then, then)
                search.stop = lambda search=search: setattr(search, "stopped", True)
                known = searches.Searches(runs.Runner(bounds))
                known.all["key"] = search
                known.look()
            yield f"asked for {asked} seconds ago", search.stopped == is_stopped


def searched():
    """What is told of a search that ended: that all is searched only if it ended well."""
    form = {"boards": "4", "first": "0", "candidates": "1000"}
    for status, said, boards, told, has_more in ENDS:
        with tempfile.TemporaryFile() as file:
            process = subprocess.Popen(["sh", "-c", f"exit {status}"])
            process.wait()
            file.write(said.encode())
            file.flush()
            search = searches.Search(form, words.search(form), process, file, 0, 0, list(range(boards)), 1)
            yield f"a search: {told}", (search.progress(), search.has_more) == (told, has_more)


def listed():
    """Each format that a file has is one of `deals`."""
    for file in files.FILES:
        style = file.look[-1].partition("=")[2]
        yield file.name, style in board_formats.FORMATS


def typed():
    """The desk's types, by a checker."""
    packages.need("mypy", "/usr/bin/mypy")
    serving.need()  # the types of its libraries
    folder = harness.TOP / "companion" / "desk"
    with harness.scratch() as cache:
        words = ["/usr/bin/mypy", "--strict", "--no-warn-unused-ignores", f"--cache-dir={cache}", "deals_desk"]
        ended = subprocess.run(words, cwd=folder, capture_output=True, text=True, check=False)
    yield "types", ended.stdout.strip() or f"status {ended.returncode}" if ended.returncode else None


def words_of_forms():
    yield from report.results("types", typed)
    yield from report.each([told, marked, named, hinted, possible, unseen, searched, listed])
