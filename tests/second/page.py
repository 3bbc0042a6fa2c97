"""The page that `conditions` prints: its width, that its examples are conditions, and that it has each word."""

import pathlib
import re
import subprocess

import harness
import language

TOP = pathlib.Path(__file__).resolve().parent.parent.parent
EXAMPLES = 10
# What is asked of a hand and has a number: it has a line of its own.
VALUES = [*language.MEASURES, "cards", "len", "longest", "second", "shortest"]


def words():
    """The words of the language, as the docs list them."""
    text = (TOP / "docs" / "CONDITIONS.md").read_text()
    listed = re.search(r"^The words are (.*?)\. Ranks\s", text, re.M | re.S).group(1)
    return re.findall(r"`([a-z]+)`", listed)


def is_condition(text):
    """Whether the program takes the text; the second one raises ValueError where it doesn't."""
    language.condition(text)
    run = [harness.PROGRAM, "make", "--seed", "0", "--candidates", "1", "--where", text]
    return subprocess.run(run, capture_output=True).returncode == 0


def has(page, word):
    """Whether the page has the word: of what has a number its line, of another the word alone."""
    return f"  {word}(north" in page if word in VALUES else re.search(rf"\b{word}\b", page) is not None


def complaint():
    """What is wrong with the page; None where nothing is."""
    ended = subprocess.run([harness.PROGRAM, "conditions"], capture_output=True, text=True)
    page = ended.stdout
    if ended.returncode != 0 or ended.stderr or not page.endswith("\n"):
        return f"status {ended.returncode}, {ended.stderr!r}"
    wide = [line for line in page.splitlines() if len(line) > 80 or not line.isascii()]
    examples = re.findall(r"^    ([^ \n].*)$", page, re.M)
    refused = [example for example in examples if not is_condition(example)]
    if wide or refused or len(examples) != EXAMPLES:
        return f"wide {wide}, refused {refused}, {len(examples)} examples"
    missing = [word for word in words() if not has(page, word)]
    return f"without {missing} of {len(words())} words" if missing or len(words()) < 37 else None
