"""Looks for the files and the names of code that the recipes of CONTRIBUTING name."""

import re

import harness

# A name that a recipe gives to what is new.
NEW = re.compile("xml", re.I)
FILE = re.compile(r"[\w./]+\.(?:rt|antt|py|txt|md|html)|[\w./]+/")
NAME = re.compile(r"[A-Za-z_]{3,}")
# Where code is.
CODE = ("crates/*/src/**/*.rt", "crates/*/specs/**/*.antt", "crates/*/proofs/**/*.antt", "tests/*/*.py", "companion/**/*.py")


def recipes():
    """What each recipe has between backticks."""
    page = (harness.TOP / "CONTRIBUTING.md").read_text(encoding="utf-8")
    part = page.partition("\n## Recipes\n")[2].partition("\n## ")[0]
    return [re.findall(r"`([^`\n]+)`", recipe) for recipe in re.split(r"\n(?=\*\*)", part)]


def words_of_code():
    """Each word of the code."""
    files = (path for pattern in CODE for path in harness.TOP.glob(pattern) if "out" not in path.parts)
    return {word for path in files for word in re.findall(r"\w+", path.read_text(encoding="utf-8"))}


def places_of(names):
    """The folders in which these names of a recipe may be: those of the crates that it names, of tests and of the desk."""
    crates = {found.group(1) for name in names if (found := re.match(r"(?:crates/)?(\w+)(?:/|$)", name))}
    folders = [harness.TOP / "crates" / crate for crate in sorted(crates) if (harness.TOP / "crates" / crate).is_dir()]
    within = [folder for crate in folders for folder in (crate, crate / "src", *(crate / "src").glob("*/"))]
    desk = harness.TOP / "companion/desk/deals_desk"
    return [harness.TOP, harness.TOP / "crates", *within, desk, desk / "templates", *(harness.TOP / "tests").glob("*/")]


def check_recipes():
    """Each file and each name of code is there."""
    known = words_of_code()
    for names in recipes():
        places = places_of(names)
        for name in (name for name in names if not NEW.search(name)):
            if FILE.fullmatch(name):
                there = any((place / name).exists() for place in places)
                yield f"CONTRIBUTING: {name}", None if there else "it isn't there"
            elif NAME.fullmatch(name):
                yield f"CONTRIBUTING: {name}", None if name in known else "no code has it"
