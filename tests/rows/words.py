"""Gives the built program the words of each row of the tables beside this file, and compares what it writes and says.

A row begins with `$` and the words after `deals`, which bash reads. `< LINE` is a line of its input. Then comes
the status that it ends with. The lines after `|` are what it writes, those after `!` what it says on standard error;
where `...` ends them, anything may follow. With no such line it writes or says nothing. `> 381 bytes` and `> 3 boards`
count what it writes, and `> 80 columns` is the width of its longest line at most; a row may have these alone. It runs
in the folder of the checkout.

Standard error is a pipe, so of a refusal it has the line alone, or the text of the library that reads words. Where it is
a terminal more may come below, and a tip of that library that is far from what was tried is left out; `--hints always`
says the same into a pipe, and `--hints never` nothing more on a terminal.

A row of refused/ has words that are refused with status 2, or 3 for their condition, and below them what a person is
told on a terminal: the lines that begin with `  tip: ` and `  hint: `.

In a row `\\{formats}` stands for the names of all formats, and `\\{other formats}` for these but PBN.
"""

import os
import pathlib
import pty
import re
import subprocess

HERE = pathlib.Path(__file__).resolve().parent
import board_formats
import harness
import report

# A line of a row below its words.
LINE = re.compile(r"\d|[<|!>]( .*)?")
# The commands whose `--hints` are tried.
HINTED = ("make", "find", "count", "pick", "show")


def spelled_out(text):
    """The rows of a table, with the names of all formats in them."""
    _, *others, last = board_formats.FORMATS
    text = text.replace(r"\{formats}", ", ".join(board_formats.FORMATS))
    return text.replace(r"\{other formats}", f"{', '.join(others)} or {last}")


def rows(folder):
    """Each table of a folder by its name, with the words and the other lines of each row."""
    for file in sorted((HERE / folder).glob("*.txt")):
        _, *each = re.split(r"^\$ ", spelled_out(file.read_text()), flags=re.M)
        for row in each:
            words, *lines = row.split("\n")
            yield file.stem, words, [line for line in lines if line and not line.startswith("#")]


def after(lines, sign):
    """What comes after the sign in the lines that begin with it."""
    return [line[2:] for line in lines if line == sign or line.startswith(sign + " ")]


def pattern(lines):
    """What matches these lines: `...` in place of a line, or at the end of one, is any text."""
    return "".join(
        re.escape(line.removesuffix("...")) + r"(?s:.*)"
        if line == "..." or line.endswith(" ...")
        else re.escape(line) + "\n"
        for line in lines
    )


def counted(text, lines):
    """What is wrong with the counts of the text, or None."""
    for amount, what in (line.split() for line in lines):
        if what == "columns":
            widest = max(len(line) for line in text.decode().split("\n"))
            if widest > int(amount):
                return f"wrote a line of {widest} columns"
            continue
        found = len(text) if what == "bytes" else text.count(b"\n\n")
        if found != int(amount):
            return f"wrote {found} {what}, not {amount}"
    return None


def run(words, given, stderr=subprocess.PIPE):
    """The program's run with these words, as bash reads them."""
    command = ["bash", "-c", f'exec "$0" {words}', harness.PROGRAM]
    return subprocess.run(command, cwd=harness.TOP, input=given, stdout=subprocess.PIPE, stderr=stderr)


def said_on_terminal(words, given):
    """What a run says where standard error is a terminal."""
    ours, theirs = pty.openpty()
    run(words, given, theirs)
    os.close(theirs)
    said = harness.all_of(ours).replace(b"\r\n", b"\n").decode()
    os.close(ours)
    return said


def without_far_tip(said, shown):
    """What a program is told of a refusal, without a tip that a person isn't shown, and the usage that goes with it."""
    first, _, rest = said.partition("\n")
    if re.match(r"\n  tip: (a|some) similar ", rest) and "  tip: " not in shown:
        return first + "\n\n" + said.rpartition("\n\n")[2]
    return said


def fault_of_hints(words, given, said):
    """Why the lines below this refusal aren't on a terminal alone, unless the option says otherwise, or None."""
    shown = said_on_terminal(words, given)
    if not shown.startswith(without_far_tip(said, shown)):
        return f"said {said!r}, and on a terminal {shown!r}"
    if re.search("^  hint: ", said, flags=re.M) or (not said.startswith("error: ") and said.count("\n") != 1):
        return f"said {said!r} to a program"
    if words.split()[0] in HINTED and "--format" != words.split()[-1]:
        always = run(f"{words} --hints always", given).stderr.decode()
        if always.replace(" --hints <WHEN>", "") != shown:
            return f"said {always!r} with --hints always, and on a terminal {shown!r}"
        never = said_on_terminal(f"{words} --hints=never", given)
        if never.replace(" --hints <WHEN>", "") != said:
            return f"said {never!r} with --hints never, and into a pipe {said!r}"
    return None


def fault_of(words, lines):
    """Why the program's run isn't what the row says, or None."""
    unread = [line for line in lines if not LINE.fullmatch(line)]
    if unread:
        return f"the row has {unread}"
    given = "".join(line + "\n" for line in after(lines, "<")).encode()
    ended = run(words, given)
    (status,) = (int(line) for line in lines if line.isdigit())
    if ended.returncode != status:
        return f"status {ended.returncode}, not {status}: {ended.stderr[:200]}"
    counts, written = after(lines, ">"), after(lines, "|")
    said = ended.stderr.decode()
    if not re.fullmatch(pattern(after(lines, "!")), said):
        return f"said {said!r}"
    is_counted = counts and not written and status == 0
    if not is_counted and not re.fullmatch(pattern(written), ended.stdout.decode()):
        return f"wrote {ended.stdout.decode()!r}"
    if status in (2, 3):
        fault = fault_of_hints(words, given, said)
        if fault:
            return fault
    return counted(ended.stdout, counts)


def words():
    """Each row of the tables."""
    yield from report.asked(lambda row: fault_of(row[1], row[2]), rows("words"), lambda row: f"{row[0]}: {row[1]}")


def fault_of_refused(words, lines):
    """Why a person isn't told these lines of words that are refused, or a program is told one, or None."""
    ended = run(words, b"")
    if ended.returncode not in (2, 3) or ended.stdout:
        return f"status {ended.returncode}, wrote {ended.stdout[:200]!r}"
    if b"\n  hint: " in ended.stderr:
        return f"said {ended.stderr!r} to a program"
    told = re.findall("^  (?:tip|hint): .*$", said_on_terminal(words, b""), flags=re.M)
    return None if told == lines else f"told {told!r}"


def refused():
    """Words that are refused."""
    name = lambda row: f"{row[0]}: {row[1]}"  # noqa: E731
    yield from report.asked(lambda row: fault_of_refused(row[1], row[2]), rows("refused"), name)
