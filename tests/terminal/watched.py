"""Watches the built program as a person would: on a terminal, into a file, and stopped in the middle.

With `all` 400 runs are stopped in place of 48.

Boards have to be in the file as they are found, and counts on the terminal alone. What `find` and `conditions` print,
and what is refused, is compared with texts that were worked out elsewhere. A run that is watched goes on until enough
was seen of it, so a slow or busy machine takes longer and sees the same; only what is promised is a bound on time, and
that is always "no sooner than".
"""

import hashlib
import os
import pathlib
import pty
import re
import select
import signal
import subprocess
import tempfile
import time

import harness
import report
import shared
import stopped

NOTRUMPS = "hcp(north) in 15-17 and balanced(north)"
# The words of `find`, and what it prints or the length and the sha256 of that.
FOUND = [
    (["--candidates", "6"], b"0\n1\n2\n3\n4\n5\n"),
    (["--candidates", "60", "--where", "losers(north)<=5"], b"1\n4\n5\n8\n40\n57\n"),
    (["--boards", "4", "--where", "cards(north,a)>=3", "--first", "10"], b"40\n47\n69\n114\n"),
    (["--candidates", "60", "--where", "pattern(north,5-5-x-x)"], b"8\n28\n48\n55\n"),
    (["--boards", "9", "--first", "1099511627773"], b"1099511627773\n1099511627774\n1099511627775\n"),
    (["--candidates", "9", "--where", "hcp(north)>40"], b""),
    (
        ["--candidates", "2000", "--where", NOTRUMPS],
        (415, "695ee426c1dd2ab49faa34d99cc00a24a78f0e1414cacdf3e5ec27e319f0d3f7"),
    ),
    (
        ["--candidates", "2000", "--where", NOTRUMPS, "--workers", "5", "--lane", "3"],
        (415, "695ee426c1dd2ab49faa34d99cc00a24a78f0e1414cacdf3e5ec27e319f0d3f7"),
    ),
]
REPORTED = b"4 boards from 4 candidates, numbers 0 to 3, of seed 0\nnext: --first 4\n"
# Words, a status, and the first line on standard error; None where it is of the library that reads words.
REFUSED = [
    ("find --seed 0 --candidates 5 --boards 0", 2, "plan refused: boards"),
    ("find --seed 0 --candidates 5 --where cards(north,kk)==1", 3, "condition refused at byte 12: unknown word"),
    ("make --seed 0", 2, None),
    ("find --seed 0 --first 4", 2, None),
    ("make --seed 0 --boards 4 --first 1099511627777", 2, "plan refused: range"),
    ("make --seed 0 --boards 0 --first 1099511627777", 2, "plan refused: range"),
    ("make --seed 0 --boards 4 --dealer north", 2, None),
    ("make --seed 0 --boards 4 --vulnerable both", 2, None),
    ("make --seed 0 --boards 4 --format text", 2, None),
    ("make --seed 0 --boards 4 --format numbers", 2, None),
    ("make --seed 0 --boards 4 --progress sometimes", 2, None),
    ("make --seed 0 --boards 4 --rotate=yes", 2, None),
    ("find --seed 0 --boards 4 --rotate", 2, None),
    ("find --seed 0 --boards 4 --first-board 2", 2, None),
    ("conditions --seed 0", 2, None),
    ("make --seed 0 --boards 4 --lane 0 --rotate", 2, "plan refused: lane capacity"),
    ("make --seed 0 --boards 4 --format pbn --event Clés", 2, "label refused: event"),
    ("find --seed 0 --boards 4 --where losers(nort)<=5", 3, "condition refused at byte 7: unknown word"),
]
LABEL = 'at most 100 characters of ASCII, from space to ~, without " and \\'
CAPTION = "at most 100 characters, without control characters and direction marks"
DATE = "a date is written YYYY.MM.DD, as 2024.05.01"
DOTS = "three dots separate spades, hearts, diamonds and clubs, as AKQ32.K..A"
CAPITALS = "ranks are capital letters, A K Q J T 9 8 7 6 5 4 3 2"
# Words of which an option is refused, and the line below the one that names the refusal.
ADVISED = [
    (["--candidates", "1", "--workers", "17"], "--workers 17: 1 to 16 workers, or auto"),
    (["--candidates", "1", "--workers", "0", "--event", "é"], "--workers 0: 1 to 16 workers, or auto"),
    (["--candidates", "1", "--lane", "0"], "--lane 0: 1 to 4096 deals"),
    (["--candidates", "1", "--lane", "5000", "--where", "hcp("], "--lane 5000: 1 to 4096 deals"),
    (["--boards", "0"], "--boards 0: 1 to 4294967295 boards"),
    (["--boards", "1", "--first-board", "0"], "--first-board 0: 1 to 1099511627776"),
    (["--boards", "1", "--first-board", "1099511627777"], "--first-board 1099511627777: 1 to 1099511627776"),
    (["--boards", "1", "--first", "1099511627777"], "--first 1099511627777: 0 to 1099511627776"),
    (["--candidates", "9", "--first", "1099511627776"], "--candidates 9: 0 to 0 from this --first on"),
    (["--candidates", "9", "--first", "1099511627768"], "--candidates 9: 0 to 8 from this --first on"),
    (["--candidates", "1099511627777"], "--candidates 1099511627777: 0 to 1099511627776 from this --first on"),
    (["--boards", "1", "--event", "Clés"], f'--event "Cl??s": {LABEL}\n  hint: write Cles'),
    (["--boards", "1", "--event", "a" * 101], f'--event "{"a" * 70}..": {LABEL}'),
    (["--boards", "1", "--site", "\x1b[2J\t"], f'--site "?[2J ": {LABEL}'),
    (["--boards", "1", "--site", 'a"b', "--date", "soon"], f'--site "a"b": {LABEL}\n  hint: write a\'b'),
    (["--boards", "1", "--date", "2024-05-01"], f'--date "2024-05-01": {DATE}\n  hint: write 2024.05.01'),
    (["--boards", "1", "--date", "28.11.2026"], f'--date "28.11.2026": {DATE}\n  hint: write 2026.11.28'),
    (["--boards", "1", "--date", "1/13/2026"], f'--date "1/13/2026": {DATE}\n  hint: write 2026.01.13'),
    (["--boards", "1", "--date", "1/2/2026"], f'--date "1/2/2026": {DATE}'),
    (["--boards", "1", "--date", "32.1.2026"], f'--date "32.1.2026": {DATE}'),
    (["--boards", "1", "--date", "2024.5.1"], f'--date "2024.5.1": {DATE}\n  hint: write 2024.05.01'),
    (["--boards", "1", "--date", ""], f'--date "": {DATE}'),
    (["--candidates", "1", "--first", str(2**64 - 1)], "--first 18446744073709551615: 0 to 1099511627776"),
    (["--candidates", "7", "--first", "1099511627770"], "--candidates 7: 0 to 6 from this --first on"),
    (["--boards", "1", "--lane", "4097"], "--lane 4097: 1 to 4096 deals"),
    (["--boards", "1", "--event", 'a"b'], f'--event "a"b": {LABEL}\n  hint: write a\'b'),
    (["--boards", "1", "--event", "Zürich, Œuvre"], f'--event "Z??rich, ??uvre": {LABEL}\n  hint: write Zurich, OEuvre'),
    (["--boards", "1", "--event", "Киев"], f'--event "????????": {LABEL}'),
    (["--boards", "1", "--site", "a\\b\t\a"], f'--site "a\\b ?": {LABEL}'),
    (["--boards", "1", "--format", "html", "--event", "Clés\u202e"], f'--event "Cl??s???": {CAPTION}'),
    (["--boards", "1", "--format", "hands", "--site", "Clés\t1"], f'--site "Cl??s 1": {CAPTION}\n  hint: write Clés 1'),
    (["--boards", "1", "--north", "AK.."], f'--north "AK..": {DOTS}'),
    (["--boards", "1", "--north", "A...", "--east", "KA..."], '--east "KA...": the ace of spades is north\'s'),
    (["--boards", "1", "--south", "ak...", "--west", "ak..."], f'--south "ak...": {CAPITALS}\n  hint: write AK...'),
    (["--boards", "1", "--west", "A.10.K.K"], '--west "A.10.K.K": a ten is written T\n  hint: write A.T.K.K'),
]
NOTE = b"note: no deal meets this condition, by its numbers alone\r\n"
TURNED = b"note: no deal meets this condition: in 17-15 has its ends turned; write in 15-17\r\n"
# Conditions that no deal meets, and others.
NEVER = ["hcp(north)>37", "shape(north,5-3-3-3)", "hcp(north) in 17-15", "len(west,clubs)==14 and hcp(east)>=15"]
MAYBE = ["hcp(north)>=37", "shape(north,5-3-3-2)", "hcp(north) in 15-15", "len(west,clubs)==14 or hcp(east)>=15"]
# A search that finds nothing for long, and what is said of it.
HARDLY = ["find", "--seed", "7", "--candidates", "1000000000", "--where", "hcp(north)>=36 and len(south,spades)<13"]
RARELY = b"note: no board yet; of 100,000 deals hcp(north)>=36 holds of 0\r\n"
# About one deal in four hundred thousand: some boards a second.
RARE = ["make", "--seed", "9", "--candidates", "1000000000", "--where", "hcp(north)>=30"]
# The time left is in its two largest units: hours, on a machine that is slow enough.
LINE = re.compile(
    rb"\d+%  \d{1,3}(,\d{3})* of 1,000,000,000 candidates  (1 board|[\d,]+ boards)  (\d+ /s|\d+\.\d [kM]/s)  "
    rb"(\d+ d \d+ h|\d+ h \d+ min|\d+ min \d+ s|\d+ s) left"
)
# The same of a `count` of fewer deals.
COUNT_LINE = re.compile(LINE.pattern.replace(b"1,000,000,000", b"30,000,000"))
# The counts as a terminal's line, which is drawn anew.
REDRAWN = re.compile(rb"\r\x1b\[\?7l(.*?)\x1b\[K\x1b\[\?7h")
# How much output is gathered at most, before it is passed on.
BUFFER = 64 * 1024
# The seconds that a test waits for anything at all, and how exactly two clocks agree.
PATIENCE = 240
CLOCKS = 0.01


def told(words):
    """The status and the two texts of a call."""
    end = subprocess.run([harness.PROGRAM, *words], stdin=subprocess.DEVNULL, capture_output=True, timeout=PATIENCE)
    return end.returncode, end.stdout, end.stderr


def check_found():
    for words, wanted in FOUND:
        status, out, err = told(["find", "--seed", "0", *words])
        if isinstance(wanted, tuple):
            out = (len(out), hashlib.sha256(out).hexdigest())
        yield f"find {' '.join(words)}", (status, err) == (0, b"") and out == wanted
    status, out, err = told("find --seed 0 --candidates 10 --boards 4 --report".split())
    yield "find, a report", (status, out, err) == (0, b"0\n1\n2\n3\n", REPORTED)
    status, out, err = told("find --seed 0 --first 1099511627775 --boards 1 --report".split())
    yield "find, nothing comes after", (status, err.count(b"\n")) == (0, 1) and b"next" not in err


def check_refused():
    for text, wanted, line in REFUSED:
        status, out, err = told(text.split(" "))
        is_said = err.startswith(b"error: ") if line is None else err.decode().split("\n")[0] == line
        yield f"refused: {text}", status == wanted and out == b"" and is_said


def check_advised():
    for words, wanted in ADVISED:
        status, out, err = told(["make", "--seed", "0", "--hints", "always", *words])
        named, _, below = err.decode().partition("\n")
        is_named = re.fullmatch(r"(plan|label|hand) refused: [a-z ]+", named) is not None
        yield f"advised: {words}", (status, out, below) == (2, b"", f"  {wanted}\n") and is_named
    status, out, err = told("find --seed 0 --boards 1 --workers 99 --hints always".split())
    yield "advised: find", (status, out, err) == (2, b"", b"plan refused: workers\n  --workers 99: 1 to 16 workers, or auto\n")


def check_page():
    status, page, err = told(["conditions"])
    examples = re.findall(r"^    (\S.*\(.*)$", page.decode(), re.M)
    yield "conditions, a page", (status, err) == (0, b"") and len(page) > 1000 and page.endswith(b"\n")
    yield "conditions, ten examples", len(examples) == 10
    for example in examples:
        status, _, err = told(["make", "--seed", "1", "--candidates", "1", "--where", example])
        yield f"conditions, {example}", (status, err) == (0, b"")
    status, err = told_to_full("conditions")
    yield "conditions, to a full disk", status == 4 and err.startswith(b"output failed\n")
    status, text, _ = told(["help"])
    order = [text.find(b"\n  " + name) for name in (b"make ", b"find ", b"conditions ", b"stream ")]
    yield "help, the order of the subcommands", status == 0 and -1 not in order and order == sorted(order)


def told_to_full(words):
    """The status and standard error of a call whose output is full."""
    with open("/dev/full", "wb") as full:
        end = subprocess.run([harness.PROGRAM, *words.split()], stdout=full, stderr=subprocess.PIPE, timeout=PATIENCE)
    return end.returncode, end.stderr


class Watched:
    """A run that is watched: its output goes into a file, and what it says on standard error is read as it comes."""

    def __init__(self, words, folder, reader, writer):
        self.path = os.path.join(folder, "boards")
        self.reader = reader
        # The length of the file, each time that it was another, and each piece with its seconds since the start.
        self.sizes, self.said = [], []
        self.began = time.monotonic()
        with open(self.path, "wb") as file:
            self.process = subprocess.Popen(
                [harness.PROGRAM, *words], stdin=subprocess.DEVNULL, stdout=file, stderr=writer
            )
        os.close(writer)

    def seconds(self):
        return time.monotonic() - self.began

    def text(self):
        return b"".join(piece for _, piece in self.said)

    def out(self):
        return pathlib.Path(self.path).read_bytes()

    def look(self, wait):
        """Looks once, for `wait` seconds at most; returns False if nothing comes any more."""
        size = os.path.getsize(self.path)
        if size != (self.sizes[-1] if self.sizes else 0):
            self.sizes.append(size)
        if select.select([self.reader], [], [], wait)[0]:
            try:
                piece = os.read(self.reader, 65536)
            except OSError:
                # What a terminal says when nobody is there to write.
                piece = b""
            if not piece:
                return False
            self.said.append((self.seconds(), piece))
        return True

    def watch(self, is_enough):
        """Watches until enough was seen, then stops the run as Ctrl-C does, if it hasn't ended; returns its status."""
        is_open = True
        while is_open and self.seconds() < PATIENCE and not is_enough(self):
            is_open = self.look(0.02)
        if self.process.poll() is None and (is_open or self.seconds() >= PATIENCE):
            self.process.send_signal(signal.SIGINT)
        status = self.process.wait(timeout=PATIENCE)
        while is_open and select.select([self.reader], [], [], 0)[0]:
            is_open = self.look(0)
        os.close(self.reader)
        return status


def into_a_file(words, is_enough, folder):
    """A run whose standard error isn't a terminal, and that is stopped once enough was seen."""
    run = Watched(words, folder, *os.pipe())
    run.watch(is_enough)
    return run


def on_a_terminal(words, is_enough):
    """The status of a run whose standard error is a terminal, what was drawn there with its times, and the output."""
    with tempfile.TemporaryDirectory() as folder:
        run = Watched(words, folder, *pty.openpty())
        status = run.watch(is_enough)
        return status, run.said, run.out()


def never_enough(_):
    """The run has to end by itself."""
    return False


def times_of(said, form):
    """When each line of counts was there at the latest, in order, and the lines."""
    text, times = b"", []
    for seconds, piece in said:
        text += piece
        times += [seconds] * (len(form.findall(text)) - len(times))
    return times, form.findall(text)


def check_stopped():
    with tempfile.TemporaryDirectory() as folder:
        run = into_a_file(RARE, lambda run: len(run.sizes) > 2, folder)
        text = run.out()
        games = text.count(b"[Deal ")
        yield "stopped, boards were seen before", len(run.sizes) > 2 and run.sizes[2] < BUFFER
        yield "stopped, some boards are there", games > 0
        yield "stopped, a whole game is the last", text.endswith(b'"]\n\n') and run.text() == b""
        right = told([*RARE, "--boards", str(games)])[1]
        yield "stopped, they are the right ones", text == right
        words = [*RARE, "--workers", "3", "--progress", "always"]
        run = into_a_file(words, lambda run: run.text().count(b"\n") > 2, folder)
        times, lines = times_of(run.said, re.compile(rb"(.*)\n"))
        none_sooner = all(seconds > at + 1 - CLOCKS for at, seconds in enumerate(times))
        yield "counts in a file, a line a second and none in the first", len(times) > 2 and none_sooner
        whole = run.text().endswith(b"\n") and all(LINE.fullmatch(line) for line in lines)
        yield "counts in a file, their form", whole
        text = run.out()
        yield "counts in a file, none in the output", b"%  " not in text and text.startswith(b"% PBN 2.1\n")


def check_terminal():
    status, drawn, _ = on_a_terminal(RARE, lambda run: len(REDRAWN.findall(run.text())) > 4)
    times, lines = times_of(drawn, REDRAWN)
    yield "a terminal, nothing in the first second", bool(drawn) and drawn[0][0] > 1 - CLOCKS
    none_sooner = all(seconds > 1 + at / 4 - CLOCKS for at, seconds in enumerate(times))
    yield "a terminal, four times a second at most", len(times) > 4 and none_sooner
    yield "a terminal, the form of the line", all(LINE.fullmatch(line) for line in lines)
    long = [*RARE[:4], "30000000", *RARE[5:], "--report", "--workers", "1"]
    status, drawn, out = on_a_terminal(long, never_enough)
    text = b"".join(piece for _, piece in drawn)
    wiped, _, said = text.rpartition(b"\r\x1b[K")
    is_there = b"candidates" in wiped and b"boards from 30000000" in said
    yield "a terminal, wiped before the report", status == 0 and is_there
    yield "a terminal, the output is the same", out == told(long)[1]
    # Its first board is there, and it has been running for a second and a half since.
    began = []
    def is_past(run):
        began.extend([run.seconds()] if run.sizes and not began else [])
        return began and run.seconds() > began[0] + 1.5
    status, drawn, _ = on_a_terminal([*RARE, "--progress", "never"], is_past)
    yield "a terminal, never", drawn == [] and bool(began)
    short = ["make", "--seed", "1", "--candidates", "36"]
    status, drawn, out = on_a_terminal(short, never_enough)
    yield "a terminal, a short run", status == 0 and drawn == [] and out.count(b"[Deal ") == 36


def drawn_text(words):
    """The status of a run, and what it writes on a terminal as its standard error."""
    status, drawn, _ = on_a_terminal(words, never_enough)
    return status, b"".join(piece for _, piece in drawn)


def check_never():
    for text in NEVER + MAYBE:
        words = ["make", "--seed", "7", "--candidates", "9", "--where", text]
        note = TURNED if " in " in text else NOTE
        wanted = note if text in NEVER else b""
        yield f"never met: {text}", drawn_text(words) == (0, wanted)
    words = ["find", "--seed", "7", "--candidates", "9", "--where", NEVER[0]]
    yield "never met, find", drawn_text(words) == (0, NOTE)
    yield "never met, not into a file", told(words) == (0, b"", b"")
    yield "never met, into a file", told([*words, "--hints", "always"]) == (0, b"", NOTE.replace(b"\r", b""))
    yield "never met, not on a terminal", drawn_text([*words, "--hints", "never"]) == (0, b"")
    report = b"0 boards from 9 candidates, numbers 0 to 8, of seed 7\r\nnext: --first 9\r\n"
    yield "never met, before the report", drawn_text([*words, "--report"]) == (0, NOTE + report)
    yield "never met, no long search", drawn_text([*RARE[:-1], NEVER[0]]) == (0, NOTE)
    refused = b"plan refused: workers\r\n  --workers 17: 1 to 16 workers, or auto\r\n"
    yield "never met, a refused plan", drawn_text([*words, "--workers", "17"]) == (2, refused)
    with harness.scratch() as folder:
        yield from check_never_without_memory([harness.PROGRAM, *words], harness.compile_shim(folder))


def check_never_without_memory(command, shim):
    """Each allocation is refused, with standard error on a terminal: all is said, or the note alone is missing."""
    at, refused = 1, 1
    while refused:
        reader, writer = pty.openpty()
        end = harness.run(command, shim, harness.Fault("alloc", "once"), at, stderr=writer)
        os.close(writer)
        said = harness.all_of(reader)
        os.close(reader)
        right = {0: b"", 5: b"out of memory\r\n", 6: b"thread not started\r\n"}
        line = right.get(end.status, b"?")
        is_right = said in (line, NOTE + line) and (end.out, end.live) == (b"", 0)
        yield f"never met, allocation {at} refused", is_right
        at, refused = at + 1, end.failed


def check_rare():
    _, drawn, _ = on_a_terminal(HARDLY, lambda run: RARELY in run.text())
    text = b"".join(piece for _, piece in drawn)
    yield "hardly ever met, after a second", text.count(b"note: ") == 1 and RARELY in text and drawn[0][0] > 1 - CLOCKS
    for words in [[*HARDLY, "--hints", "never"], [*HARDLY[:-1], "hcp(north)>=36"], [*HARDLY[:-1], f"({HARDLY[-1]}) or 0==1"]]:
        _, drawn, _ = on_a_terminal(words, lambda run: len(REDRAWN.findall(run.text())) > 4)
        text = b"".join(piece for _, piece in drawn)
        yield f"hardly ever met, nothing of {words[5:]}", len(REDRAWN.findall(text)) > 4 and b"note: " not in text
    words = [*HARDLY[:4], "30000000", *HARDLY[5:]]
    yield "hardly ever met, into a file", told(words) == (0, b"", b"")


def check_counted():
    """The line of counts of a `count`: on a terminal, where it is wiped, and into a pipe. The table is the same."""
    words = ["count", *RARE[1:4], "30000000", *RARE[5:], "--of", "hcp(north)"]
    table = told(words)
    yield "a count, into a pipe", (table[0], table[2]) == (0, b"") and b" of 30,000,000 deals: " in table[1]
    status, drawn, out = on_a_terminal(words, never_enough)
    text = b"".join(piece for _, piece in drawn)
    lines = REDRAWN.findall(text)
    yield "a count, the line", bool(lines) and all(COUNT_LINE.fullmatch(line) for line in lines)
    yield "a count, wiped", text.endswith(b"\r\x1b[K") and harness.without_counts(text) == b""
    yield "a count, the table", (status, out) == (0, table[1])
    yield "a count, never", drawn_text([*words, "--progress", "never"]) == (0, b"")
    status, out, err = told([*words, "--progress", "always"])
    is_whole = err.endswith(b"\n") and all(COUNT_LINE.fullmatch(line) for line in err.splitlines())
    yield "a count, always", is_whole
    yield "a count, always, the table", (status, out) == (0, table[1])


def check_shared():
    for name, complaint in shared.every():
        if complaint:
            print(f"{name}: {complaint}")
        yield name, complaint is None


def check_whole():
    runs = 400 if report.has("all") else 48
    for name, complaint in stopped.every(runs):
        if complaint:
            print(f"{name}: {complaint}")
        yield name, complaint is None


CHECKS = [check_found, check_refused, check_advised, check_page, check_stopped, check_terminal, check_never]
CHECKS += [check_rare, check_counted, check_shared, check_whole]


def watched():
    """Runs that are watched."""
    # A job in the background is started with this signal ignored, and so would be what it starts.
    signal.signal(signal.SIGINT, signal.default_int_handler)
    yield from report.each(CHECKS)
