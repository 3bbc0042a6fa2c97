"""Compares the man page and the completions with the built program's help; makes, installs and removes the packages.
With `all` the Debian package is tried in a clean Debian too, which is fetched: some minutes, as root.
"""

import pathlib
import re
import shutil
import subprocess
import tempfile

import commands
import harness
import installs
import packages
import report

# Ranges, defaults and limits.
NUMBER = re.compile(r"\d+ to \d+|\d+")


def names():
    """The commands with options of their own, as help lists them, and the program itself."""
    listed = commands.commands()
    return [None, *(name for name in listed if name != "help")]


def numbers_in(text):
    return set(NUMBER.findall(text.replace("\n", " ")))


def check_man(_):
    parts = commands.man_parts()
    yield "man, the commands", set(parts) == {None, *commands.commands()}
    for name in names():
        told, written = commands.options(name), parts.get(name, {})
        yield f"man, the options of {name}", bool(told) and set(written) == set(told)
        for option, text in told.items():
            entry = written.get(option, "")
            has_numbers = numbers_in(text.replace("2024.05.01", "")) <= numbers_in(entry)
            has_words = set(commands.values(text)) <= set(re.findall(r"\w+", entry))
            yield f"man, {name} {option}", has_numbers and has_words
    text = commands.plain(commands.MAN.read_text(encoding="utf-8"))
    known = {option for name in names() for option in commands.options(name)}
    yield "man, no option that isn't there", set(commands.LONG.findall(text)) <= known
    head = commands.MAN.read_text(encoding="utf-8").splitlines()[0]
    yield "man, the version", f'"{commands.told("--version").strip()}"' in head


def check_man_form(_):
    packages.need("mandoc", "mandoc")
    packages.need("groff-base", "groff")
    packages.need("man-db", "man")
    for words in (["mandoc", "-Tlint", "-Wall"], ["man", "--warnings", "-l", "-Tutf8", "-Z"]):
        words = [*words, commands.MAN]
        status, out, err = installs.told(words, LC_ALL="C.UTF-8", MANWIDTH="80", MANROFFSEQ="")
        said = out if words[0] == "mandoc" else b""
        yield f"man, no warning of {words[0]}", (status, said, err) == (0, b"", b"")


def right_words(name):
    """What may follow a command, and where that is another list than its options, what is completed there."""
    options = commands.options(name)
    yield "--", set(options)
    yield "-", set(options) | commands.shorts(name)
    for option, text in options.items():
        if commands.completed(text):
            yield f"{option} ", set(commands.completed(text))


def check_bash(_):
    for name in names():
        start = "deals " if name is None else f"deals {name} "
        for words, right in right_words(name):
            yield f"bash, {start}{words}", set(commands.in_bash(start + words)) == right
    listed = set(commands.commands())
    yield "bash, the commands", {word for word in commands.in_bash("deals ") if word[0] != "-"} == listed
    yield "bash, help", set(commands.in_bash("deals help ")) == listed
    yield "bash, nothing after a number's option", commands.in_bash("deals make --seed ") == []
    yield "bash, nothing of another command", commands.in_bash("deals stream --w") == []
    shell = commands.Terminal(["bash", "--norc", "--noprofile", "-i"])
    shell.do(f"source '{commands.PAGES}/deals.bash'")
    for line, wanted in (("make --wo", "make --workers"), ("make --format=ha", "make --format=hands"), ("fi", "find")):
        yield f"bash, {line} on a terminal", shell.completed(f"deals {line}", 1)[1] == f"deals {wanted}"
    shown, line = shell.completed("deals make --w")
    right = line == "deals make --w" and re.search(r"\n--west +--where +--workers *\r", shown) is not None
    yield "bash, --w on a terminal", right
    shell.close()


def check_fish(_):
    packages.need("fish", "fish")
    for name in names():
        start = "deals " if name is None else f"deals {name} "
        for words, right in right_words(name):
            yield f"fish, {start}{words}", set(commands.in_fish(start + words)) == right
    listed = set(commands.commands())
    yield "fish, the commands", set(commands.in_fish("deals ")) == listed
    yield "fish, help", set(commands.in_fish("deals help ")) == listed
    yield "fish, nothing of another command", commands.in_fish("deals stream --w") == []


def listed_by_zsh(shell, line, tabs=2):
    """The words that zsh lists for a line, or the one that it completes, by a tab."""
    shown, completed = shell.completed(line, tabs)
    rows = shown.split("\r\n")[1:-1]
    if len(rows) < 2:
        return {completed.split()[-1]} if completed != line.strip() else set()
    rows = [row.split("  -- ")[0] if "  -- " in row else row for row in rows[:-1]]
    return {word for row in rows for word in row.replace("\r", "").split()}


def check_zsh(_):
    packages.need("zsh", "zsh")
    shell = commands.zsh()
    for name in names():
        start = "deals " if name is None else f"deals {name} "
        for words, right in right_words(name):
            found = listed_by_zsh(shell, start + words, min(len(right), 2))
            # zsh lists -h beside --help; where one word is left, it is completed.
            shorts = commands.shorts(name)
            yield f"zsh, {start}{words}", found - shorts == right - shorts
    listed = set(commands.commands())
    yield "zsh, the commands", listed_by_zsh(shell, "deals ") == listed
    yield "zsh, help", listed_by_zsh(shell, "deals help ") == listed
    yield "zsh, nothing of another command", listed_by_zsh(shell, "deals stream --w") == set()
    shell.close()


def linked_crates():
    """The crates of the toolchain that those of `deals` use."""
    lines = [line.partition(":") for line in (harness.TOP / "crates.txt").read_text().splitlines() if not line.startswith("test_")]
    own = {name for name, _, _ in lines}
    return {used for _, _, uses in lines for used in uses.split()} - own


def paragraphs(text):
    """The paragraphs of a file of copyrights that speak of files, by the files."""
    parts = [part for part in text.split("\n\n") if part.startswith("Files: ")]
    return {part.splitlines()[0].removeprefix("Files: ").removesuffix("/*"): part for part in parts}


def permission(text):
    """The text of the licence named Expat that a file has, in one line."""
    return " ".join(text.partition("Permission is hereby")[2].replace("\n .\n", "\n\n").split())


def check_copyright(_):
    """Each crate of the toolchain that is linked has its notice, by its licence files, if the toolchain is there."""
    line = f"top='{harness.TOP}'; . '{harness.TOP}/package/debian.bash'; write_copyright '{harness.TOP}/package/crates.copyright'"
    written = subprocess.run(["bash", "-ec", line], capture_output=True, text=True, check=True).stdout
    parts = paragraphs(written)
    yield "copyright, the crates", set(parts) == {"*", *linked_crates()}
    expat = permission(re.search(r"^License: Expat\n(?: .*\n)+", written, re.M)[0])
    found = shutil.which("rt")
    kit = pathlib.Path(found).resolve().parent.parent / "rattle" if found else None
    for name in sorted(linked_crates() if kit and kit.is_dir() else []):
        texts = {file.name: file.read_text(encoding="utf-8") for file in (kit / name).glob("LICENSE*")}
        text = texts.get("LICENSE-MIT") or texts["LICENSE"]
        holders = re.findall(r"^Copyright \(c\) (.*)$", text, re.M)
        has_holders = all(holder in parts[name] for holder in holders) if holders else "doesn't name" in parts[name]
        yield f"copyright, whom {name} names", has_holders
        yield f"copyright, the licence of {name}", permission(text) == expat
        has_apache = "LICENSE-APACHE" in texts or "MIT or Apache" in (kit / name / "README.md").read_text(encoding="utf-8")
        yield f"copyright, the licences of {name}", ("Apache-2.0" in parts[name]) == has_apache


QUICK = [check_copyright, check_man, check_man_form, check_bash, check_fish, check_zsh, *installs.QUICK]


def packaged():
    """The packages, their pages and completions."""
    commands.make_pages()
    with tempfile.TemporaryDirectory(prefix="package-") as folder:
        yield from report.each(QUICK + (installs.SLOW if report.has("all") else []), pathlib.Path(folder))
