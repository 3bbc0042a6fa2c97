"""What the built program's help, its man page and its completions say of commands and options."""

import atexit
import os
import pathlib
import pty
import re
import secrets
import select
import shutil
import subprocess
import tempfile
import time

import harness

# Where the man page and the completions are, which package/pages makes. Nobody can know the name before.
PAGES = pathlib.Path(tempfile.gettempdir()) / f"deals-pages-{secrets.token_hex(8)}"
MAN = PAGES / "deals.1"
# The seconds that a shell has for an answer.
PATIENCE = 60
# An option in a help, with its text, which goes on in the lines below that begin at the same column.
OPTION = re.compile(r"^ +(?:(-\w), )?(--[a-z-]+)( <\w+>)? {2,}(.*(?:\n {20,}.*)*)$", re.M)
LONG = re.compile(r"(?<![\w-])--[a-z][a-z-]*")


def make_pages():
    atexit.register(shutil.rmtree, PAGES)
    subprocess.run([harness.TOP / "package/pages", harness.PROGRAM, PAGES], check=True)


def told(*words):
    return subprocess.run([harness.PROGRAM, *words], capture_output=True, text=True, check=True).stdout


def commands():
    """The names of the commands, as help lists them."""
    part = told("--help").partition("\nCommands:\n")[2].partition("\n\n")[0]
    return [line.split()[0] for line in part.splitlines()]


def listed_options(command):
    """The letter, the name, the value and the text of each option of a command; of the program's own without one."""
    words = [] if command is None else [command]
    listed, _, _ = told(*words, "--help").partition("\nExample")
    return [(short, long, value, " ".join(text.split())) for short, long, value, text in OPTION.findall(listed)]


def options(command):
    """Each option of a command by its long name, with what help says of it; the program's own without a command."""
    return {long: text for _, long, _, text in listed_options(command)}


def shorts(command):
    return {short for short, *_ in listed_options(command) if short}


def values(text):
    """The words that an option can have, by what help says of it."""
    found = re.search(r"\[possible values: ([^]]+)\]", text)
    return found.group(1).split(", ") if found else []


def completed(text):
    """The words that are completed for an option: these, or one that stands for a number, as `auto`."""
    return values(text) or (["auto"] if re.search(r";\s+auto:", text) else [])


def plain(text):
    """A man page's line without its marks."""
    text = re.sub(r"\\f.", "", text).replace(r"\-", "-").replace(r"\(aq", "'").replace(r"\(dq", '"')
    return text.replace(r"\e", "\\").replace(r"\~", " ").replace(r"\|", "")


def man_parts():
    """Each command of the man page, None for the program's own options, with its entries: option and text."""
    parts, at, entry = {}, None, None
    commands_part = MAN.read_text(encoding="utf-8").partition("\n.SH COMMANDS\n")[2].partition("\n.SH ")[0]
    lines = iter(commands_part.splitlines())
    for line in lines:
        if line.startswith(".SS "):
            at = line.split()[2] if len(line.split()) > 2 else None
            parts[at], entry = {}, None
        elif line == ".TP":
            entry = LONG.search(plain(next(lines))).group()
            parts[at][entry] = ""
        elif entry is not None:
            parts[at][entry] += plain(line) + "\n"
    return parts


class Terminal:
    """A shell on a terminal."""

    def __init__(self, words, **environment):
        self.reader, writer = pty.openpty()
        plain_one = {"PATH": "/usr/sbin:/usr/bin:/bin", "HOME": "/nonexistent"}
        plain_one |= {"TERM": "dumb", "COLUMNS": "200", "LINES": "100"}
        self.process = subprocess.Popen(
            words,
            stdin=writer,
            stdout=writer,
            stderr=writer,
            start_new_session=True,
            env={**plain_one, **environment},
        )
        os.close(writer)
        self.unread = ""
        self.do("PS1=rea''dy:")

    def send(self, text):
        os.write(self.reader, text.encode())

    def until(self, mark):
        """What it shows, up to and with a mark."""
        began = time.monotonic()
        while mark not in self.unread:
            left = PATIENCE - (time.monotonic() - began)
            if left <= 0 or not select.select([self.reader], [], [], left)[0]:
                raise TimeoutError(f"{mark!r} didn't come: {self.unread[-500:]!r}")
            self.unread += os.read(self.reader, 65536).decode(errors="replace")
        shown, _, self.unread = self.unread.partition(mark)
        return shown + mark

    def do(self, command):
        """Runs a command line, and waits for its end and the next prompt."""
        self.send(command + "; echo do''ne\n")
        self.until("\ndone")
        self.until("ready:")

    def completed(self, line, tabs=2):
        """What the shell shows for a line and some tabs, and the line as it is then."""
        self.send(line + "\t" * tabs)
        # The line is given to echo, and isn't run.
        self.send("\x01echo ma''rk \n")
        shown, completed = self.until("\nmark "), self.until("\n").strip()
        self.until("ready:")
        return shown, completed

    def close(self):
        self.process.kill()
        self.process.wait()
        os.close(self.reader)


def in_bash(line):
    """What bash would complete a line to, without a terminal."""
    script = (
        'source "$1"; COMP_WORDS=($2); [[ $2 != *" " ]] || COMP_WORDS+=(""); '
        'COMP_CWORD=$((${#COMP_WORDS[@]} - 1)); _deals; printf "%s\\n" "${COMPREPLY[@]}"'
    )
    words = ["bash", "--norc", "-c", script, "", PAGES / "deals.bash", line]
    return subprocess.run(words, capture_output=True, text=True, check=True).stdout.split()


def in_fish(line):
    script = 'source $argv[1]; complete -C $argv[2] | string replace -r "\\t.*" ""; true'
    words = ["fish", "--no-config", "-c", script, PAGES / "deals.fish", line]
    nowhere = {name: "/nonexistent" for name in ("HOME", "XDG_CONFIG_HOME", "XDG_DATA_HOME")}
    environment = {**os.environ, **nowhere}
    return subprocess.run(words, capture_output=True, text=True, check=True, env=environment).stdout.split()


def zsh():
    """A zsh with our completion."""
    shell = Terminal(["zsh", "-f", "-i"])
    shell.do("setopt no_beep no_list_beep; bindkey -e; LISTMAX=1000")
    folder = str(PAGES).replace("'", "'\\''")
    shell.do(f"fpath=('{folder}' $fpath); autoload -Uz compinit; compinit -u -D")
    return shell
