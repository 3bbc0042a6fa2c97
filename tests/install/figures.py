"""No figure has two values: what the pages say of times, speeds and memory is the same wherever they say it.

A figure is a number with a unit. In the text of README, PERFORMANCE and SCALE each one has a name here, by a sentence
that tells it; wherever another page has such a sentence, its number is the same. In their tables the same row and
column have one value.
"""

import collections
import re

import harness

READ = ("README.md", "docs/PERFORMANCE.md", "docs/SCALE.md")
WORDS = {"a": "1", "an": "1", "one": "1", "two": "2", "three": "3", "five": "5", "ten": "10", "eighteen": "18"}
WORDS["half a"] = "0.5"
DIGITS = r"\d[\d,.]*(?: to \d[\d,.]*)?"
NUMBER = rf"(?:{DIGITS}|\b(?:{'|'.join(sorted(WORDS, reverse=True))})\b)"
# A second alone may be a rate, or another one.
UNIT = r"(?:milliseconds?|nanoseconds?|seconds?|minutes?|hours?|GHz|MB|bytes|instructions|times as (?:fast|long))\b"
FIGURE = re.compile(rf"(?:{DIGITS}|two|three|five|ten|(?:about|within|in) an?) {UNIT}")

# What is told, and the sentences and rows that tell it: # is the number.
NAMED = {
    "the machine": ["Intel Xeon at # GHz"],
    "a start": [r"[Aa] start costs # milliseconds", r"\| a start \| # milliseconds"],
    "tricks of 27 boards": ["par of 27 boards, one processor \\| # seconds", "some # seconds of one processor for 27"],
    "a file of boards": [r"`deals show` of 1,000,000 boards \| # seconds"],
    "boards of a sheet": ["sheet of A4 or Letter has #", "# boards on a sheet of paper", "room for # boards a sheet"],
    "a shard": [r"`hcp\(north\)>=35`, one core \| # seconds", r"\| 100,000,000 \| # seconds", "The # seconds are measured"],
    "the spread of a shard": [r">=35`, one core \| \d+ seconds \| #", "100,000,000 candidates takes # seconds"],
    "the sources": [r"`\./deals` without proofs \| # minute", "answers in about # minute", r"takes # minute\*\*"],
    "the program built": ["in some # minutes on four cores"],
    "the gate": ["in about # hour", "takes about # hour on four"],
    "memory of a run": ["run takes # MB"],
    "a stored verdict": ["# bytes for each verdict", "`Slot` of # bytes", "in the # bytes of an accepted"],
    "a deal": ["whole deal takes some # instructions"],
}


def told(number):
    """A number as digits."""
    return WORDS.get(number, number)


def text_of(page):
    """A page in one line, without its blocks of commands."""
    text = re.sub(r"^ *```.*?^ *```$", "", page.read_text(encoding="utf-8"), flags=re.M | re.S)
    return re.sub(r"\s+", " ", re.sub(r"^\|.*\n", r"\g<0>\n", text, flags=re.M))


def patterns():
    for name, sentences in NAMED.items():
        for sentence in sentences:
            yield name, sentence, re.compile(sentence.replace("#", f"({NUMBER})"))


def check_named(pages):
    """What has a name has one value, and each sentence is somewhere."""
    values = collections.defaultdict(set)
    for name, sentence, pattern in patterns():
        found = {(told(match[1]), page) for page, text in pages.items() for match in pattern.finditer(text)}
        values[name] |= found
        yield f"said: {sentence}", None if found else "no page says it"
    for name, found in values.items():
        yield name, None if len({value for value, _ in found}) <= 1 else f"{sorted(found)}"


def check_nameless(pages):
    """Each figure in the text of these pages has a name."""
    for page in READ:
        text = re.sub(r"\|[^|]*(?=\|)", lambda cell: "|" + " " * (len(cell[0]) - 1), pages[page])
        spans = [match.span() for _, _, pattern in patterns() for match in pattern.finditer(pages[page])]
        for match in FIGURE.finditer(text):
            if not any(start < match.end() and match.start() < end for start, end in spans):
                yield f"{page}: {match[0]}", "it has no name in tests/install/figures.py"


def cells():
    """Each cell of a table of these pages that has a number, with its row and column."""
    for page in READ:
        lines = (harness.TOP / page).read_text(encoding="utf-8").splitlines()
        head = None
        for line in lines:
            row = [cell.strip() for cell in line.strip("|").split("|")]
            if not line.startswith("|"):
                head = None
            elif head is None:
                head = row
            elif not set(line) <= set("|-: "):
                yield from ((row[0], column, cell) for column, cell in zip(head[1:], row[1:]) if re.search(r"\d", cell))


def check_tables():
    found = collections.defaultdict(set)
    for row, column, cell in cells():
        found[row, column].add(cell)
    for (row, column), values in found.items():
        yield f"{row}, {column}", None if len(values) == 1 else f"{sorted(values)}"


def figures():
    """The figures of the pages."""
    top = harness.TOP
    written = [*top.glob("[RC]*.md"), *(top / "docs").glob("*.md")]
    pages = {str(page.relative_to(top)): text_of(page) for page in written}
    for part in (check_named(pages), check_nameless(pages), check_tables()):
        yield from part
