"""Runs each command that README, the pages for clubs and teachers and the man page show, and compares what it prints;
and the drawn pictures with what is drawn now.

A command is a line of a block that begins with `deals`, `deals-tricks`, `./deals`, `printf`, `sed` or `cat`, with `$ `
before it where what it prints follows; what a line such as `seed=$(..)` sets is known to those after it in its block.
Each page's commands run in order in an empty folder, `deals` as it is installed and `./deals` as the launcher. A `make`
that has no condition, or a number of boards, has to write this many. Commands that install, build or check are known
here and are run by other tests; a block that shows any other is wrong.
"""

import functools
import os
import pathlib
import pty
import re
import shlex
import subprocess
import tempfile

import board_formats
import commands
import companion
import harness
import packages
import recipes

PAGES = ["README.md", "docs/INSTALL.md", "docs/GUIDE.md", "docs/CONDITIONS.md", "docs/SECRECY.md"]
PAGES += ["docs/SCALE.md", "docs/COUNTING.md", "package/deals.1.in"]
BLOCK = re.compile(r"^ *```(\w*)\n(.*?)^ *```$", re.M | re.S)
EXAMPLE = re.compile(r"^\.EX\n(.*?)^\.EE$", re.M | re.S)
OURS = re.compile(r"(\./)?deals(-tricks)? |printf |sed |cat |\[ -e ")
# What is a command, though no block may begin with it.
COMMAND = re.compile(r"(^|[|;&(] *)(deals(-\w+)?|nohup|sh) ")
# A file or a folder of the repository, where a page names it.
PATH = re.compile(r"\b(?:bench|companion|crates|docs|examples|package|tests|tools)/[\w./-]*\w")
# A source of a crate, as the pages name it.
SOURCE = re.compile(r"`([a-z_0-9]+/(?:src|specs)/[\w/]+\.(?:rt|antt))`")
ASSIGNS = re.compile(r"\w+=")
# What other tests and ./check themselves run.
ELSEWHERE = ("sudo apt install ", "parallel ", "tar -xzf ", "sh ", "package/build", "./check", "tests/", "rt ")
ELSEWHERE += ("companion/build", "nohup ")
PATIENCE = 600
# The pictures that are drawn, and what draws them.
DRAWN = {"terminal.svg": "tools/record", "crates.svg": "tools/crates"}
# How many words README and the pages have at most, and how often what isn't plain English may be written.
MOST_OF_README, MOST_WORDS = 900, 17_000
PROGRAMS = ("companion", "examples", "package", "tests", "tools")
WRITTEN = ("", ".py", ".sh", ".bash", ".cpp", ".hpp", ".c", ".js")
SELDOM = {r"\bstands?\b(?! for|-ins?\b)": 34, r"(?<![Tt]here )\bis no [a-z]": 8, r"\bso many\b": 12, r"\bbehind\b": 28}
SELDOM |= {r"\bthat (?:is|are) given\b": 2, r"\bexactly if\b": 0, r"\bwant of\b": 1, r"\bwants?\b": 16}
SELDOM |= {r"\bparted\b": 0, r"\bhangs on\b": 0}


def blocks_of(path):
    """The blocks of a page, without the spaces before them."""
    text = path.read_text(encoding="utf-8")
    if path.suffix == ".in":
        found = [commands.plain(block) for block in EXAMPLE.findall(text)]
    else:
        # Those of a language are for many machines, and run by other tests.
        found = [block for language, block in BLOCK.findall(text) if not language]
    for block in found:
        indent = min((len(line) - len(line.lstrip()) for line in block.splitlines() if line.strip()), default=0)
        yield [line[indent:] for line in block.splitlines()]


def joined(lines):
    """The lines, with those that end with a backslash joined to the next."""
    whole = []
    for line in lines:
        if whole and whole[-1].endswith("\\"):
            whole[-1] = whole[-1][:-1] + line
        else:
            whole.append(line)
    return whole


def commands_of(lines):
    """Each command of a block, with what it prints by the page, None where the page doesn't show it."""
    shown = [at for at, line in enumerate(lines) if line.startswith("$ ")]
    if shown:
        for at, end in zip(shown, [*shown[1:], len(lines)]):
            yield lines[at][2:], "".join(line + "\n" for line in lines[at + 1 : end])
    elif OURS.match(lines[0]) or ASSIGNS.match(lines[0]) or lines[0].startswith(ELSEWHERE):
        yield from ((line, None) for line in joined(lines))


def wanted_boards(words):
    """How many boards a `make` has to write, if its words say so."""
    options = dict(zip(words, [*words[1:], None]))
    if "--boards" in options and "--candidates" not in options:
        return int(options["--boards"])
    return int(options["--candidates"]) if "--where" not in options and "--boards" not in options else None


def shown_on_terminal(bash):
    """What a person sees of a command."""
    ours, theirs = pty.openpty()
    process = subprocess.Popen(**bash, stdout=theirs, stderr=theirs)
    os.close(theirs)
    shown = harness.all_of(ours)
    os.close(ours)
    process.wait(timeout=PATIENCE)
    return harness.without_counts(shown.replace(b"\r\n", b"\n"))


@functools.cache
def solver():
    """The companion program, or None where the solver isn't there and can't be installed."""
    try:
        return companion.build()
    except packages.Missing as missing:
        if os.environ.get("CI") == "true":
            raise
        print(f"SKIPPED: commands with tricks: {missing}")
        return None


class Checkout:
    """A folder with the built program and its companion, where the commands of a page run."""

    # Commands that aren't run here, since other tests run them.
    elsewhere = ELSEWHERE

    def __init__(self, folder):
        self.folder = folder
        (folder / "bin").mkdir()
        if solver() is not None:
            (folder / "bin" / "deals-tricks").symlink_to(solver())
        (folder / "bin" / "deals").symlink_to(harness.PROGRAM)
        (folder / "deals").symlink_to(harness.TOP / "deals" if harness.PROGRAM == harness.BUILT else harness.PROGRAM)
        (folder / "examples").symlink_to(harness.TOP / "examples")

    def bash(self, text):
        """How bash runs a text there, for subprocess."""
        path = f"{self.folder}/bin:/usr/bin:/bin"
        return {
            "args": ["bash", "-euc", text.replace("/usr/share/doc/deals/examples/", f"{self.folder}/examples/")],
            "cwd": self.folder,
            "env": {**os.environ, "PATH": path, "LC_ALL": "C.UTF-8"},
            "stdin": subprocess.DEVNULL,
        }


def complaint_of(command, wanted, place, before=""):
    """What is wrong with a command that ran at a place, after what its block sets; None where nothing is."""
    bash = place.bash(before + command)
    if wanted is not None:
        shown = shown_on_terminal(bash)
        return None if shown == wanted.encode() else f"it prints {shown.decode(errors='replace')!r}"
    end = subprocess.run(**bash, stdout=subprocess.PIPE, stderr=subprocess.STDOUT, timeout=PATIENCE)
    if end.returncode != 0:
        return f"status {end.returncode}, {end.stdout[-300:]!r}"
    words = shlex.split(command)
    if words[:2] == ["deals", "seed"]:
        return None if int(end.stdout) < 2**32 else f"it prints {end.stdout!r}"
    if len(words) < 2 or words[1] != "make":
        return None
    text = (place.folder / words[-1]).read_bytes() if words[-2] == ">" else end.stdout
    form = words[words.index("--format") + 1] if "--format" in words else "pbn"
    boards = len(re.findall(b"^" + board_formats.TABLE[form].begins, text, re.M))
    return None if boards in (wanted_boards(words), boards * (wanted_boards(words) is None)) else f"{boards} boards"


def prose():
    """What a reader reads: pages, comments and texts of sources and definitions, and the other programs."""
    for page in [*(harness.TOP / "docs").glob("*.md"), *harness.TOP.glob("*.md")]:
        yield page.read_text(encoding="utf-8")
    for source in (harness.TOP / "crates").glob("*/src/**/*.rt"):
        yield from re.findall(r"//.*|\".*", source.read_text(encoding="utf-8"))
    for definitions in (harness.TOP / "crates").glob("*/specs/**/*.antt"):
        yield from re.findall(r"^ *--.*", definitions.read_text(encoding="utf-8"), re.M)
    for program in (path for folder in PROGRAMS for path in (harness.TOP / folder).glob("**/*")):
        if program.is_file() and program.suffix in WRITTEN and program.name != "docs.py" and "out" not in program.parts:
            yield program.read_text(encoding="utf-8")


def check_words():
    """The pages are short, and plain words are written."""
    for name, most in (("README.md", MOST_OF_README), ("docs/*.md", MOST_WORDS)):
        words = sum(len(page.read_text(encoding="utf-8").split()) for page in harness.TOP.glob(name))
        yield f"words of {name}", None if words < most else f"{words} words"
    text = "\n".join(prose())
    for pattern, most in SELDOM.items():
        found = len(re.findall(pattern, text))
        yield pattern, None if found <= most else f"{found} times, and not {most}"


def what_it_sets(command, place):
    """A line of bash that sets what the command sets."""
    line = f"{command} > /dev/null; declare -p {command.partition('=')[0]}"
    return subprocess.run(**place.bash(line), stdout=subprocess.PIPE, text=True, check=True).stdout


def check_page(path, place):
    """The name of each command of a page, and what is wrong with it."""
    for lines in blocks_of(path):
        before = ""
        if not list(commands_of(lines)) and any(map(COMMAND.search, lines)):
            yield lines[0], "nothing runs this block"
        for command, wanted in commands_of(lines):
            if command.startswith(place.elsewhere):
                continue
            if "tricks" in command and solver() is None:
                continue
            if ASSIGNS.match(command):
                before += what_it_sets(command, place)
            elif OURS.match(command):
                yield command, complaint_of(command, wanted, place, before)
            else:
                yield command, "nothing runs this command"


def rows_of(heading):
    """The rows of the first table below a heading of CONDITIONS, as lists of cells."""
    text = (harness.TOP / "docs/CONDITIONS.md").read_text(encoding="utf-8").partition(heading)[2]
    for line in text.partition("\n|---")[2].splitlines()[1:]:
        if not line.startswith("|"):
            return
        yield [cell.strip() for cell in line.strip("|").split("|")]


def refusal_of(condition):
    words = [harness.PROGRAM, "make", "--seed", "1", "--candidates", "1", "--where", condition]
    return subprocess.run(words, capture_output=True, text=True, timeout=PATIENCE).stderr.partition("\n")[0]


def check_refusals():
    """The tables of CONDITIONS that say where a text goes wrong."""
    for message, example, _ in rows_of("\n## Refusals\n"):
        if example.startswith("`"):
            said = refusal_of(example.strip("`"))
            yield f"{example}", None if said == message.strip("`") else said
    for example, place, _ in rows_of("\n`syntax` points at"):
        said = refusal_of(example.strip("`"))
        right = said == f"condition refused at byte {re.match(r'[0-9]+', place).group()}: syntax"
        yield f"{example}", None if right else said


def check_changelog():
    """The pages and files that the newest version's changes name are there."""
    newest = (harness.TOP / "CHANGELOG.md").read_text(encoding="utf-8").split("\n## ")[1]
    for name in sorted(set(PATH.findall(newest))):
        yield f"CHANGELOG: {name}", None if (harness.TOP / name).exists() else "it isn't there"


def check_pictures():
    """A picture that is drawn shows what there is now, and is drawn the same each time."""
    for name, tool in DRAWN.items():
        kept = (harness.TOP / "docs/pictures" / name).read_bytes()
        for time in ("first", "second"):
            drawn = subprocess.run([harness.TOP / tool], capture_output=True, timeout=PATIENCE)
            right = (drawn.returncode, drawn.stdout) == (0, kept)
            wrong = drawn.stderr.decode() or f"{tool} draws another: look at it, and keep it by {tool} --write"
            yield f"{name}, the {time} drawing", None if right else wrong


def check_usages():
    """Tools refuse a word that they don't know, in a line that says which there are, and a command that isn't there."""
    for tool in ("calls", "crates", "lessons", "record", "statement"):
        end = subprocess.run([harness.TOP / "tools" / tool, "--wirte"], capture_output=True, text=True, timeout=PATIENCE)
        right = (end.returncode, end.stdout, end.stderr.count("\n")) == (2, "", 1)
        yield f"tools/{tool}", None if right and end.stderr.startswith(f"usage: tools/{tool} [") else f"{end}"
    end = subprocess.run([harness.TOP / "tools" / "cost", "/nowhere"], capture_output=True, text=True, timeout=PATIENCE)
    yield "tools/cost", None if end.returncode == 1 and "/nowhere can't be started" in end.stderr else f"{end}"


def check_sources():
    """The sources that the pages name are there, and ARCHITECTURE names each crate but those of tests."""
    listed = re.findall(r"^(?!test_)(\w+):", (harness.TOP / "crates.txt").read_text(encoding="utf-8"), re.M)
    named = (harness.TOP / "docs/ARCHITECTURE.md").read_text(encoding="utf-8").partition("\n## The crates\n")[2]
    yield from ((f"ARCHITECTURE: {name}", None if f"`{name}`" in named else "it isn't there") for name in listed)
    for page in sorted((harness.TOP / "docs").glob("*.md")):
        for name in sorted(set(SOURCE.findall(page.read_text(encoding="utf-8")))):
            yield f"{page.name}: {name}", None if (harness.TOP / "crates" / name).exists() else "it isn't there"


def shown():
    """The commands of the pages, and what the pages show."""
    for name in PAGES:
        path = harness.TOP / name
        if path.exists():
            with tempfile.TemporaryDirectory(prefix="docs-") as folder:
                place = Checkout(pathlib.Path(folder))
                yield from ((f"{name}: {command}", wrong) for command, wrong in check_page(path, place))
    yield from check_refusals()
    yield from check_changelog()
    yield from check_pictures()
    yield from check_usages()
    yield from check_sources()
    yield from recipes.check_recipes()
    yield from check_words()
