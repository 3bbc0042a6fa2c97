"""Runs the launcher `deals` and `check` in small checkouts, with a stand-in for the toolchain's `rt`: nothing is proved
or compiled but a small program that prints its words. `slow` runs the real ones too (unproved.py).

The stand-in notes each call. Asked to build, it puts the small program in place; asked to try, it runs it as `rt try`
does. The launcher has to run the program that was built, and nothing else, where it was built from these sources; else
the sources, and to say so. `check program` has to build once, in a room of its own, from the product's crates alone.
Both have to work through links, from any folder, in a path of any bytes; to say on a terminal how far they are; to end
what they started; and to leave no file.
"""

import contextlib
import os
import pathlib
import pty
import re
import shutil
import signal
import subprocess
import tempfile
import time

import harness
import report

TOP = harness.TOP
PATIENCE = 60
SCRIPTS = ["deals", "check", *(f"tools/{name}.bash" for name in ("sources", "rooms", "unproved", "build"))]
# Prints each word and its end; with `pick`, `show` or `cat` as the first word its input too, with `end` it ends with status 41,
# with `err` it says something of its own.
SHOWN = r"""
#include <stdio.h>
#include <string.h>
int main(int count, char **words) {
    const char *first = count > 1 ? words[1] : "";
    for (int at = 0; at < count; at++) fwrite(words[at], 1, strlen(words[at]) + 1, stdout);
    if (!strcmp(first, "cat") || !strcmp(first, "pick") || !strcmp(first, "show") || (count > 2 && !strcmp(words[2], "--tricks")))
        for (int byte; (byte = getchar()) != EOF;) putchar(byte);
    if (!strcmp(first, "err")) fputs("said\nraces: its own\n", stderr);
    return !strcmp(first, "end") ? 41 : 0;
}
"""
# Notes its folder and words, keeps its input, and does what the file `how` beside it says.
STAND_IN = r"""#!/bin/bash
here=${0%/*}
printf '%s\0' "$PWD" "$1" >> "$here/calls"
find . -type f | LC_ALL=C sort > "$here/listed"
[ "$1" = try ] || cp crates.txt "$here/crates.txt"
cat > "$here/input"
tries() {
    shift 2
    (exec -a deals "$here/shown" "$@") < "$here/input"
    local status=$?
    printf 'checked: ended status=%s\nraces: not looked for\n' "$status" >&2
    printf 'run=ended status=%s runners=1 races=unchecked proved=no\n' "$status" >&2
    exit "$status"
}
[ "$1" = try ] || {
    echo "words for standard output"
    echo "words for standard error" >&2
}
. "$here/how"
"""
DOES = '[ "$1" != try ] || tries "$@"\nmkdir -p crates/deals/out; cp "$here/shown" crates/deals/out/deals\n'
CHANGES = "echo '// later' >> \"$here/../checkout/crates/deals/src/main.rt\"\n" + DOES
TELLS = "[ \"$1\" != try ] || { sleep 2; tries \"$@\"; }\n"
TELLS += "echo 'rt: low is kept: so'; sleep 2; echo 'rt: deals proved'; sleep 2\n" + DOES
FAILS = 'for at in $(seq 100); do echo "line $at" >&2; done; exit 3\n'
LASTS = 'sleep 300 & echo "$$ $!" > "$here/pids.new"; mv "$here/pids.new" "$here/pids"; wait\n'
STAYS = "trap '' TERM; " + LASTS.replace("wait\n", "while :; do sleep 1; done\n")
WAITS = "sleep 4\n" + DOES
EDITED = "(sleep 1; echo '// later' >> \"$here/../checkout/crates/deals/src/main.rt\")\n"
# What `rt try` says where there is no answer: too much output, too long a run, a fault that the checks found.
LACKS = {
    "too much": ("checked: no-answer: the program wrote more than 1048576 bytes\nraces: no\nrun=no-answer proved=no", 6),
    "too long": ("checked: no-answer: the program ran for 60 seconds\nraces: no\nrun=no-answer proved=no", 6),
    "a fault": ("checked: fault: an index at or past the length\nrun=fault proved=no", 4),
    "sources that are wrong": ("src/main.rt:1: error: expected an item\nrun=none proved=no", 1),
    "nothing": ("", 2),
}
UNPROVED = b"deals: %s without proofs, with checks, in about a minute; ./check program proves and builds it\n"
FIRST_LINE = UNPROVED % b"not built here: running it"
CHANGED_LINE = UNPROVED % b"the sources have changed since the program was built: running them"
BUILD_LINE = b"check: proving and building the program, which takes some 20 minutes on four cores\n"
LAST_LINE = b"check: the program is built, and ./deals runs it\n"
SOURCES = {
    "crates.txt": "low:\ndeals: low\ntest_low: low\n",
    "HANDLES": "Handles allowed: none.\n",
    "crates/low/src/lib.rt": "// low\n",
    "crates/low/specs/Low.antt": "-- low\n",
    "crates/low/must-fail/a.edit": "file: src/lib.rt\n",
    "crates/deals/src/main.rt": "// main\n",
    "crates/deals/src/part.rt": "// part\n",
    "crates/deals/stdout": "shown\n",
    "crates/test_low/src/lib.rt": "// test_low\n",
}
BUILT_FROM = """./HANDLES
./crates.txt
./crates/deals/src/main.rt
./crates/deals/src/part.rt
./crates/deals/stdout
./crates/low/specs/Low.antt
./crates/low/src/lib.rt
"""


class Checkout:
    """A checkout in a folder of its own, and a folder on the PATH with the stand-in."""

    def __init__(self, folder, shown, name=b"checkout"):
        self.folder = os.path.join(os.fsencode(folder), name)
        self.tools = os.path.join(os.fsencode(folder), b"tools")
        self.scratch = os.path.join(os.fsencode(folder), b"scratch")
        for path in (self.folder, self.tools, self.scratch):
            os.makedirs(path)
        for source, text in SOURCES.items():
            self.put(source, text)
        os.makedirs(self.path("tools"))
        for script in SCRIPTS:
            shutil.copy(TOP / script, self.path(script))
        shutil.copy(shown, os.path.join(self.tools, b"shown"))
        tool = os.path.join(self.tools, b"rt")
        pathlib.Path(os.fsdecode(tool)).write_text(STAND_IN)
        os.chmod(tool, 0o755)
        self.works_by(DOES)

    def path(self, name):
        return os.path.join(self.folder, os.fsencode(name))

    def put(self, name, text):
        os.makedirs(os.path.dirname(self.path(name)), exist_ok=True)
        with open(self.path(name), "w", encoding="utf-8") as file:
            file.write(text)

    def works_by(self, how):
        with open(os.path.join(self.tools, b"how"), "w", encoding="utf-8") as file:
            file.write(how)

    def environment(self, has_tools=True, **more):
        plain = {"PATH": "/usr/bin:/bin", "TMPDIR": self.scratch, "HOME": "/nonexistent", "LANG": "C.UTF-8"}
        if has_tools:
            plain["PATH"] = self.tools + b":/usr/bin:/bin"
        return {**plain, **more}

    def start(self, *words, launcher=None, folder="/", has_tools=True, **more):
        """A call of the launcher that goes on."""
        words = [launcher or self.path("deals"), *words]
        pipes = {name: subprocess.PIPE for name in ("stdin", "stdout", "stderr")}
        return subprocess.Popen(words, cwd=folder, env=self.environment(has_tools, **more), **pipes)

    def call(self, *words, given=b"", **more):
        """The status and the two texts of a call of the launcher."""
        process = self.start(*words, **more)
        out, err = process.communicate(given, timeout=PATIENCE)
        return process.returncode, out, err

    def build(self, **more):
        """The same of `check program`."""
        return self.call("program", launcher=self.path("check"), **more)

    def calls(self, command):
        """How many calls of this command the stand-in has noted, with those that were wrong; it forgets them."""
        try:
            with open(os.path.join(self.tools, b"calls"), "rb") as file:
                noted = file.read().split(b"\0")[:-1]
            os.remove(os.path.join(self.tools, b"calls"))
        except FileNotFoundError:
            return 0
        within = {b"ci": os.path.join(self.scratch, b"deals-build."), b"try": self.path("crates/deals")}
        pairs = list(zip(noted[::2], noted[1::2]))
        is_right = all(name == command.encode() and folder.startswith(within[name]) for folder, name in pairs)
        return len(pairs) if is_right else -1

    def told(self, name):
        with open(os.path.join(self.tools, os.fsencode(name)), encoding="utf-8") as file:
            return file.read()

    def is_clean(self):
        """Whether there is nothing but the sources, the program and what it was built from."""
        out = self.path("crates/deals/out")
        left = set(os.listdir(out)) if os.path.exists(out) else set()
        return left <= {b"deals", b"built-from"} and os.listdir(self.scratch) == []


def shown(*words):
    return b"".join(os.fsencode(word) + b"\0" for word in ("deals", *words))


def on_terminal(words, environment):
    """The status, and what a command says on a terminal."""
    ours, theirs = pty.openpty()
    end = subprocess.Popen(
        words, cwd="/", env=environment, stdin=subprocess.DEVNULL, stdout=theirs, stderr=theirs, start_new_session=True
    )
    os.close(theirs)
    said = harness.all_of(ours)
    os.close(ours)
    return end.wait(timeout=PATIENCE), said


def source_changes():
    """What may change in a checkout, and whether the launcher has to say so."""

    def aged(seconds):
        return lambda it: os.utime(it.path("crates/low/src/lib.rt"), (seconds, seconds))

    def older(it):
        it.put("crates/low/src/lib.rt", "// changed\n")
        aged(1_000_000_000)(it)

    def rename(it):
        os.rename(it.path("crates/deals/src/part.rt"), it.path("crates/deals/src/parts.rt"))

    return {
        "a source": (lambda it: it.put("crates/low/src/lib.rt", "// changed\n"), True),
        "a source, by as many bytes": (lambda it: it.put("crates/low/src/lib.rt", "// LOW\n"), True),
        "a source, with an old time": (older, True),
        "a definition": (lambda it: it.put("crates/low/specs/Low.antt", "-- changed\n"), True),
        "a new source": (lambda it: it.put("crates/low/src/more.rt", ""), True),
        "a deleted source": (lambda it: os.remove(it.path("crates/deals/src/part.rt")), True),
        "a renamed source": (rename, True),
        "the list of crates": (lambda it: it.put("crates.txt", "low:\ndeals: low # x\ntest_low: low\n"), True),
        "HANDLES": (lambda it: it.put("HANDLES", "Handles allowed: Threads, Wait.\n"), True),
        "the program is missing": (lambda it: os.remove(it.path("crates/deals/out/deals")), True),
        "the program is another": (lambda it: it.put("crates/deals/out/deals", "#!/bin/sh\n"), True),
        "the program can't be run": (lambda it: os.chmod(it.path("crates/deals/out/deals"), 0o644), True),
        "the note is missing": (lambda it: os.remove(it.path("crates/deals/out/built-from")), True),
        "a time from the future": (aged(4_000_000_000), False),
        "an old time": (aged(1_000_000_000), False),
        "an edit": (lambda it: it.put("crates/low/must-fail/a.edit", "file: src/main.rt\n"), False),
        "a crate of tests": (lambda it: it.put("crates/test_low/src/lib.rt", "// changed\n"), False),
        "the stored run": (lambda it: it.put("crates/deals/stdout", "changed\n"), True),
        "what another build made": (lambda it: it.put("crates/low/out/made.rt", ""), False),
        "a page": (lambda it: it.put("README.md", ""), False),
        "an editor's lock": (lambda it: os.symlink("nowhere", it.path("crates/low/src/.#lib.rt")), False),
    }


class Checks:
    """The tests; each is a method, and yields names and whether they are right."""

    def __init__(self, folder):
        self.folder = folder
        self.shown = os.path.join(folder, "shown")
        source = os.path.join(folder, "shown.c")
        pathlib.Path(source).write_text(SHOWN)
        subprocess.run(["cc", "-O1", "-Wall", "-o", self.shown, source], check=True)

    @contextlib.contextmanager
    def checkout(self, name=b"checkout", is_built=False):
        with tempfile.TemporaryDirectory(dir=self.folder) as folder:
            it = Checkout(folder, self.shown, name)
            if is_built:
                it.build()
                it.calls("ci")
            yield it

    def check_unproved(self):
        with self.checkout() as it:
            yield "without proofs", it.call("a", "b") == (0, shown("a", "b"), FIRST_LINE) and it.calls("try") == 1
            yield "again", it.call() == (0, shown(), FIRST_LINE) and it.calls("try") == 1
            words = ["", "two words", "a\nb", b"\xff\xfe", "'", "*", "--", "-n"]
            yield "words of any bytes", it.call(*words) == (0, shown(*words), FIRST_LINE)
            yield "the program's status", it.call("end")[:2] == (41, shown("end"))
            own = FIRST_LINE + b"said\nraces: its own\n"
            yield "what the program says itself", it.call("err") == (0, shown("err"), own)
            yield "no file is left", it.is_clean() and not os.path.exists(it.path("crates/deals/out"))
            given = b"1\n2\n\x00\xff" * 40000
            for words in (["pick"], ["show"], ["make", "--tricks"]):
                right = (0, shown(*words) + given, FIRST_LINE)
                yield f"the input of {words}", it.call(*words, given=given) == right
            process = it.start("stream")
            yield "an input that nothing reads", process.stdout.read() == shown("stream") and process.wait() == 0
            process.communicate()
            refused = it.call("pick", given=bytes((64 << 20) + 1))
            yield "too much input", refused[:2] == (1, b"") and b"64 MiB" in refused[2] and it.is_clean()
            yield from self.check_left(it)
            for words in ("2>&-", "2> /dev/full"):
                line = ["bash", "-c", f'"$0" end {words}', it.path("deals")]
                end = subprocess.run(line, env=it.environment(), capture_output=True, timeout=PATIENCE)
                yield f"standard error, {words}", (end.returncode, end.stdout) == (41, shown("end"))

    def check_left(self, it):
        """A reader of standard output that left."""
        reading, writing = os.pipe()
        os.close(reading)
        settings = {"env": it.environment(), "stdout": writing, "stderr": subprocess.PIPE, "timeout": PATIENCE}
        end = subprocess.run([it.path("deals"), "a"], **settings)
        os.close(writing)
        right = (end.returncode, end.stderr) == (4, FIRST_LINE)
        yield "a reader that left", right and it.is_clean()

    def check_no_answer(self):
        for name, (said, status) in LACKS.items():
            with self.checkout() as it:
                it.works_by(f"echo 'a part of it'; printf '%s\\n' '{said}' >&2; exit {status}\n")
                status, out, err = it.call("x")
                last = err.splitlines()[-1]
                is_said = last.startswith(b"deals: without proofs") and b"./check program" in last
                yield f"no answer, {name}", (status, out) == (1, b"") and is_said and it.is_clean()
                if "no-answer" in said:
                    yield f"no answer, {name}, why", said.split("\n")[0].split(": ")[2].encode() in last

    def check_built(self):
        with self.checkout() as it:
            yield "built", it.build() == (0, b"", BUILD_LINE + LAST_LINE) and it.calls("ci") == 1
            yield "the build has no input", os.path.getsize(os.path.join(it.tools, b"input")) == 0
            yield "built from the product alone", it.told("listed") == BUILT_FROM
            yield "with its crates alone", it.told("crates.txt") == "low:\ndeals: low\n"
            it.works_by(FAILS)
            words = ["", "two words", "a\nb", b"\xff\xfe", "'", "*", "--", "-n"]
            yield "built, words of any bytes", it.call(*words) == (0, shown(*words), b"")
            yield "built, the program's status", it.call("end") == (41, shown("end"), b"")
            given = b"1\n2\n" * 40000
            yield "built, the input", it.call("cat", given=given) == (0, shown("cat") + given, b"")
            yield "built, not again", it.build() == (0, b"", LAST_LINE)
            time.sleep(2.1)
            yield "built, some time ago", it.call("x") == (0, shown("x"), b"") and it.call("y") == (0, shown("y"), b"")
            yield "built, rt isn't called", it.calls("ci") == 0 and it.is_clean()
            it.works_by(DOES)
            it.put("crates/low/proofs/Low.antt", "-- a proof\n")
            yield "built, a proof later", it.call("x") == (0, shown("x"), b"") and it.calls("ci") == 0
            yield "a proof is proved", it.build() == (0, b"", BUILD_LINE + LAST_LINE) and it.calls("ci") == 1
            it.works_by(FAILS)
            it.put("crates/low/src/lib.rt", "// LOW\n")
            yield "built, a change later", it.call("x")[2].startswith(CHANGED_LINE)
            usage = it.call("programme", launcher=it.path("check"))
            yield "a wrong word", usage[0] == 2 and usage[2].count(b"\n") == 1 and b"./check program" in usage[2]

    def check_terminal(self):
        with self.checkout() as it:
            it.works_by(TELLS)
            status, said = on_terminal([it.path("deals"), "a"], it.environment())
            first, rest = said.split(b"\r\n", 1)
            yield "on a terminal", status == 0 and first + b"\n" == FIRST_LINE
            seconds = [int(at) for at in re.findall(rb"\rdeals: (\d+) seconds", rest)]
            yield "the seconds", len(set(seconds)) > 1 and seconds == sorted(seconds)
            yield "are wiped", rest.endswith(b"\r\x1b[K" + shown("a"))
            status, said = on_terminal([it.path("check"), "program"], it.environment())
            yield "a build on a terminal", status == 0 and said.startswith(BUILD_LINE.replace(b"\n", b"\r\n"))
            yield "how far it is", all(b"check: %d of 2 crates proved, 0 minutes" % at in said for at in (1, 2))
            yield "the count is wiped", said.endswith(b"\r\x1b[K" + LAST_LINE.replace(b"\n", b"\r\n"))

    def check_whole(self):
        """`./check` itself, with stand-ins for its steps."""
        steps = re.findall(r"^step (tests/\w+/run|tools/\w+)", (TOP / "check").read_text(), re.M)
        last = b"%d passed, 0 failed" % (3 + 20 * len(steps))
        with self.checkout() as it:
            for step in steps:
                it.put(step, "#!/bin/sh\necho 'part: 20 passed, 0 failed, 1 s'; sleep 0.1; echo '20 passed, 0 failed'\n")
                os.chmod(it.path(step), 0o755)
            says = "echo 'rt: low proved'; echo 'rt: low: trying its must-fail edits (1)'; sleep 7\n" + DOES
            it.works_by(says + "echo '3 passed, 0 failed'\n")
            environment = it.environment()
            end = subprocess.run([it.path("check")], cwd="/", env=environment, capture_output=True, timeout=PATIENCE)
            right = end.returncode == 0 and end.stdout.endswith(b"\n" + last + b"\n")
            yield "the whole check", right and b"\ncheck: tests/rows/run\n" in end.stdout and b"\r" not in end.stdout
            it.works_by(FAILS)
            yield "it leaves the program built", it.call("x") == (0, shown("x"), b"")
            it.works_by(DOES + EDITED + "sleep 3; echo '3 passed, 0 failed'\n")
            subprocess.run([it.path("check")], cwd="/", env=environment, capture_output=True, timeout=PATIENCE)
            it.works_by(DOES)
            yield "changed during the whole check", it.call("x") == (0, shown("x"), CHANGED_LINE)
            it.works_by(FAILS)
            failed = subprocess.run([it.path("check")], cwd="/", env=environment, capture_output=True, timeout=PATIENCE)
            yield "a whole check that fails", failed.returncode == 3 and b"line 100" in failed.stdout
            it.works_by(says + "echo '3 passed, 0 failed'\n")
            status, said = on_terminal([it.path("check")], environment)
            told = b"\rcheck: rt ci: 1 of 3 crates proved, 1 of 1 edits tried, 0 minutes"
            yield "the whole check on a terminal", status == 0 and told in said and last + b"\r\n" in said
            yield "shows no more there", b"words for" not in said and b"tests passed, 0 minutes" in said

    def check_without_toolchain(self):
        with self.checkout() as it:
            status, out, err = it.call(has_tools=False)
            is_said = err.startswith(b"deals: ") and err.count(b"\n") == 1 and err.endswith(b"\n")
            yield "no toolchain", (status, out) == (127, b"") and is_said
            yield "no toolchain, what to do", all(word in err for word in (b"rt", b"toolchain", b"package"))
            yield "no toolchain, nothing to build by", it.build(has_tools=False)[:2] == (127, b"")
            yield "no toolchain, nothing is left", not os.path.exists(it.path("crates/deals/out")) and it.is_clean()
            it.build()
            yield "no toolchain, but built", it.call("x", has_tools=False) == (0, shown("x"), b"")
            yield "no toolchain, built before", it.build(has_tools=False) == (0, b"", LAST_LINE)
            it.put("crates/low/src/lib.rt", "// another\n")
            yield "no toolchain, built from others", it.call(has_tools=False) == (127, b"", err)
            it.put("crates/low/src/lib.rt", SOURCES["crates/low/src/lib.rt"])
            yield "no toolchain, and back", it.call(has_tools=False) == (0, shown(), b"")
        for name in ("crates.txt", "HANDLES", "crates/deals", "tools/rooms.bash"):
            with self.checkout(is_built=True) as it:
                os.rename(it.path(name), it.path("away"))
                status, out, err = it.call()
                is_said = err.startswith(b"deals: " + os.fsencode(name)) and err.count(b"\n") == 1
                yield f"{name} is missing", (status, out) == (1, b"") and is_said

    def check_unwritable(self):
        """A place that can't be written is refused before anything is built; without proofs nothing is written there."""
        with self.checkout() as it:
            it.put("crates/deals/out", "a file in its place\n")
            status, out, err = it.build()
            yield "no place for the program", (status, out) == (1, b"") and b"can't be written" in err
            yield "no place, nothing is built", it.calls("ci") == 0 and os.listdir(it.scratch) == []
            yield "no place, without proofs", it.call("x") == (0, shown("x"), FIRST_LINE)
            nowhere = it.call("x", TMPDIR=os.path.join(it.scratch, b"absent"))
            yield "no folder to work in", nowhere[:2] == (1, b"") and b"set TMPDIR" in nowhere[2]

    def check_at_once(self):
        with self.checkout() as it:
            it.works_by(WAITS)
            both = [it.start("program", launcher=it.path("check")) for _ in range(2)]
            ends = [(process.wait(timeout=PATIENCE), process.communicate()[1]) for process in both]
            waits = [err for _, err in ends if b"check: waiting for another build in this checkout\n" in err]
            yield "two builds at once", all(status == 0 and err.endswith(LAST_LINE) for status, err in ends)
            yield "one builds, and one takes it", it.calls("ci") == 1 and len(waits) == 1 and it.is_clean()
        with self.checkout() as it:
            it.works_by("sleep 0.3\n" + DOES)
            line = '"$0" a | "$0" pick | "$0" pick | "$0" pick'
            settings = {"env": it.environment(), "capture_output": True, "timeout": PATIENCE}
            end = subprocess.run(["bash", "-c", line, it.path("deals")], **settings)
            right = shown("pick") * 3 + shown("a")
            yield "a pipe of four", (end.returncode, end.stdout) == (0, right) and it.is_clean()
            many = [it.start(str(at)) for at in range(12)]
            ends = [process.communicate(timeout=PATIENCE) for process in many]
            yield "twelve at once", ends == [(shown(str(at)), FIRST_LINE) for at in range(12)] and it.is_clean()

    def check_rooms(self):
        """What others put where rooms are is left as it is; what a killed launcher left isn't."""
        with self.checkout() as it:
            home, left = os.path.join(it.scratch, b"home"), os.path.join(it.scratch, b"deals-try.left")
            for folder in (home, left):
                os.makedirs(folder)
                with open(os.path.join(folder, b"kept"), "wb"):
                    pass
            os.symlink(home, os.path.join(it.scratch, b"deals-try.link"))
            yield "a link among rooms", it.call("x") == (0, shown("x"), FIRST_LINE)
            yield "its folder stays", os.listdir(home) == [b"kept"]
            yield "a room that was left goes", sorted(os.listdir(it.scratch)) == [b"deals-try.link", b"home"]

    def check_places(self):
        with self.checkout(is_built=True) as it:
            links = os.path.join(it.scratch, b"links")
            os.makedirs(links)
            os.symlink(it.path("deals"), os.path.join(links, b"far"))
            os.symlink(b"far", os.path.join(links, b"deals"))
            os.symlink(b"../../checkout/deals", os.path.join(links, b"near"))
            os.symlink(it.folder, os.path.join(links, b"folder"))
            for name in (b"far", b"deals", b"near", b"folder/deals"):
                launcher = os.path.join(links, name)
                yield f"through {name}", it.call("x", launcher=launcher)[:2] == (0, shown("x"))
                yield f"through {name}, from there", it.call(launcher=b"./" + name, folder=links)[:2] == (0, shown())
            path = links + b":" + it.tools + b":/usr/bin:/bin"
            yield "by the PATH", it.call("-c", "deals x", launcher="sh", PATH=path)[:2] == (0, shown("x"))
            yield "nothing built there", it.calls("ci") == 0 and not os.path.exists(os.path.join(links, b"crates"))
            for folder, launcher in ((".", "./deals"), ("crates", "../deals"), ("crates/low/src", "../../../deals")):
                yield f"from {folder}", it.call(launcher=launcher, folder=it.path(folder)) == (0, shown(), b"")
            decoy = os.path.join(it.scratch, b"decoy")
            os.makedirs(os.path.join(decoy, b"checkout", b"crates", b"deals"))
            above = os.path.dirname(it.folder)
            for cdpath in (decoy, b"/:" + above, b".:" + above):
                end = it.call("x", launcher=b"checkout/deals", folder=above, CDPATH=cdpath)
                yield f"CDPATH, {cdpath[:2]}", end == (0, shown("x"), b"")
        names = [b"a b", b"it's \"q\"", b"a\nb", b"end\n", b"\n", b"\xff\xfe", b"\xc3", b"$(x)`y`", b"*?[a]", b"-n"]
        names += [b"a\\nb"]
        for name in names:
            for language in ("C", "C.UTF-8"):
                with self.checkout(name) as it:
                    end = it.call("x", LC_ALL=language)
                    yield f"in {name}, {language}", end == (0, shown("x"), FIRST_LINE) and it.calls("try") == 1
                    yield f"in {name}, {language}, built", it.build(LC_ALL=language)[0] == 0 and it.calls("ci") == 1
                    again = it.call("x", launcher=b"./deals", folder=it.folder, LC_ALL=language)
                    yield f"in {name}, {language}, again", again == (0, shown("x"), b"") and it.calls("try") == 0

    def check_sources(self):
        for name, (change, is_told) in source_changes().items():
            with self.checkout(is_built=True) as it:
                if name == "a source":
                    time.sleep(2.1)
                    it.call()
                change(it)
                status, out, err = it.call()
                line = FIRST_LINE if name.startswith("the program is missing") or "can't be run" in name else CHANGED_LINE
                right = (status, out, err) == (0, shown(), line if is_told else b"")
                yield f"changed: {name}", right and it.calls("try") == is_told
                yield f"changed: {name}, built", it.build()[0] == 0 and it.calls("ci") == is_told
                yield f"changed: {name}, and run", it.call() == (0, shown(), b"") and it.calls("try") == 0
        with self.checkout() as it:
            it.works_by(CHANGES)
            it.build()
            it.works_by(DOES)
            yield "changed during the build", it.calls("ci") == 1 and it.call()[2] == CHANGED_LINE

    def check_failed(self):
        with self.checkout() as it:
            it.works_by(FAILS)
            status, out, err = it.build()
            tail = b"".join(b"line %d\n" % at for at in range(61, 101))
            right = (1, b"", BUILD_LINE + tail + b"check: the build failed\n")
            yield "a build that fails", (status, out, err) == right and it.is_clean()
            it.works_by("exit 0\n")
            status, out, err = it.build()
            yield "a build that makes nothing", (status, out) == (1, b"") and err.endswith(b"check: the build failed\n")
            it.works_by(DOES)
            yield "and one that doesn't fail", it.build()[0] == 0 and it.call("x") == (0, shown("x"), b"")
            it.calls("ci")
            it.put("crates/low/src/lib.rt", "// wrong\n")
            it.works_by(FAILS)
            yield "another that fails", it.build()[0] == 1
            it.put("crates/low/src/lib.rt", SOURCES["crates/low/src/lib.rt"])
            it.works_by(DOES)
            yield "back to what was built", it.call() == (0, shown(), b"") and it.calls("ci") == 1

    def check_ended(self):
        for how in (LASTS, STAYS):
            for number in (signal.SIGINT, signal.SIGTERM, signal.SIGHUP, signal.SIGQUIT):
                if how == STAYS and number != signal.SIGTERM:
                    continue
                yield from self.check_ended_by(number, how, "ended" if how == LASTS else "ended, a stubborn child")
        yield from self.check_ended_by(signal.SIGKILL, LASTS, "killed")

    def check_ended_whole(self):
        """The whole check: its step ends with it, and it leaves no file."""
        out = b"check: rt ci\nwords for standard output\nwords for standard error\n"
        for number in (signal.SIGINT, signal.SIGTERM, signal.SIGHUP, signal.SIGQUIT):
            with self.checkout() as it:
                yield from self.judge_end(it, number, LASTS, "check", [], b"", f"the whole check by {number.name}", out, 1)

    def check_ended_by(self, number, how, name):
        for script, words, line in (("deals", ["x"], FIRST_LINE), ("check", ["program"], BUILD_LINE)):
            with self.checkout() as it:
                yield from self.judge_end(it, number, how, script, words, line, f"{script} {name} by {number.name}")

    def judge_end(self, it, number, how, script, words, line, name, wanted_out=b"", next_status=0):
        it.works_by(how)
        started = it.start(*words, launcher=it.path(script))
        pids = pids_in(os.path.join(it.tools, b"pids"))
        started.send_signal(number)
        out, err = started.communicate(timeout=PATIENCE) if number != signal.SIGKILL else (b"", line)
        status = started.wait(timeout=PATIENCE)
        # bash itself can't end by SIGQUIT.
        wanted = signal.SIGTERM if number == signal.SIGQUIT else number
        yield f"{name}, the status", (status, out, err) == (-wanted, wanted_out, line)
        if number == signal.SIGKILL:
            os.kill(pids[0], signal.SIGKILL)
            os.kill(pids[1], signal.SIGKILL)
            started.communicate()
        yield f"{name}, its child has ended", all(has_ended(pid) for pid in pids)
        yield f"{name}, no file is left", it.is_clean() or number == signal.SIGKILL
        it.works_by(DOES)
        yield f"{name}, the next call", it.call(*words, launcher=it.path(script))[0] == next_status and it.is_clean()


def pids_in(path):
    """The numbers of the child's processes, once they run."""
    began = time.monotonic()
    while not os.path.exists(path) and time.monotonic() - began < PATIENCE:
        time.sleep(0.02)
    return [int(word) for word in pathlib.Path(os.fsdecode(path)).read_text().split()]


def has_ended(pid):
    """Whether a process is gone, or only its parent doesn't know yet; a signal takes a moment."""
    for _ in range(100):
        try:
            state = pathlib.Path(f"/proc/{pid}/stat").read_text().rpartition(")")[2].split()[0]
        except (FileNotFoundError, ProcessLookupError):
            return True
        if state in "ZX":
            return True
        time.sleep(0.05)
    os.kill(pid, signal.SIGKILL)
    return False


def launched():
    """The launcher and `check program`, over a stand-in for what builds and tries."""
    harness.usual_signals()
    with tempfile.TemporaryDirectory(prefix="launcher-") as folder:
        checks = Checks(folder)
        parts = [name for name in dir(Checks) if name.startswith("check_") and name not in ("check_ended_by", "check_left")]
        for name in parts:
            yield from report.judged(getattr(checks, name)())
