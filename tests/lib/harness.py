"""Runs the program: as it is, or with one thing refused by the shim."""

import dataclasses
import os
import pathlib
import re
import select
import signal
import struct
import subprocess
import sys
import tempfile

HERE = pathlib.Path(__file__).resolve().parent
TOP = HERE.parent.parent
BUILT = TOP / "crates" / "deals" / "out" / "deals"
# The program that the tests run: the one that is built here, or the one that PROGRAM names.
PROGRAM = pathlib.Path(os.environ.get("PROGRAM") or BUILT).absolute()
SECONDS = 20
# The line of counts as it is drawn on a terminal, which a run shows after a second, and as it is wiped.
COUNTS = re.compile(rb"\r\x1b\[\?7l[^\x1b]*\x1b\[K\x1b\[\?7h|\r\x1b\[K")
REPORT = struct.Struct("QQq")


@dataclasses.dataclass(frozen=True)
class Fault:
    """A kind of call, and how it fails: see shim.c."""

    call: str
    mode: str = "once"
    descriptor: int = 1
    error: int = 0
    most: int = 1

    def __str__(self):
        return f"{self.call} {self.mode}, descriptor {self.descriptor}, error {self.error}, at most {self.most}"


@dataclasses.dataclass
class End:
    """How a run ended; `status` is None where it did not end in time."""

    status: int | None
    out: bytes
    err: bytes
    calls: int
    failed: int
    live: int


def compile_shim(folder):
    """The shim, compiled into a folder."""
    library = pathlib.Path(folder) / "shim.so"
    command = ["cc", "-O2", "-Wall", "-Wextra", "-shared", "-fPIC", "-o", library, HERE / "shim.c", "-ldl"]
    subprocess.run(command, check=True)
    return library


def build():
    """Builds the program, where it is missing or was built from other sources, or says which one runs in its place."""
    if PROGRAM != BUILT:
        print(f"the tests run {PROGRAM}", file=sys.stderr, flush=True)
        return
    subprocess.run([TOP / "check", "program"], check=True)


def deals(*words, given=b"", stdin=None):
    """Runs the program; it has the descriptor as its input, or these bytes."""
    source = {"stdin": stdin} if stdin is not None else {"input": given}
    return subprocess.run([PROGRAM, *words], capture_output=True, check=False, **source)


def run(command, shim, fault, at, stderr=subprocess.PIPE, given=b""):
    """Runs a command whose call number `at` of the fault's kind fails; 0: none fails. What it writes to a given
    standard error isn't told. Its input has the bytes of `given`."""
    report = os.memfd_create("report")
    os.truncate(report, REPORT.size)
    settings = {
        "LD_PRELOAD": str(shim),
        "FAULT_CALL": fault.call,
        "FAULT_AT": str(at),
        "FAULT_MODE": fault.mode,
        "FAULT_FD": str(fault.descriptor),
        "FAULT_ERRNO": str(fault.error),
        "FAULT_MOST": str(fault.most),
        "FAULT_REPORT": str(report),
    }
    stdin = subprocess.PIPE if given else subprocess.DEVNULL
    process = subprocess.Popen(
        command, env=settings, pass_fds=[report], stdout=subprocess.PIPE, stderr=stderr, stdin=stdin
    )
    try:
        out, err = process.communicate(given or None, timeout=SECONDS)
        status = process.returncode
    except subprocess.TimeoutExpired:
        process.kill()
        out, err = process.communicate()
        status = None
    calls, failed, live = REPORT.unpack(os.pread(report, REPORT.size, 0))
    os.close(report)
    return End(status, out, err or b"", calls, failed, live)


def line_by_line(words, pieces):
    """The line that a run writes after each piece of its input, before the next is given: empty where none comes in
    time. Then the rest, and its status."""
    lines = []
    with subprocess.Popen([PROGRAM, *words], stdin=subprocess.PIPE, stdout=subprocess.PIPE, bufsize=0) as process:
        for piece in pieces:
            process.stdin.write(piece)
            is_there = select.select([process.stdout], [], [], SECONDS)[0]
            lines.append(process.stdout.readline() if is_there else b"")
        process.stdin.close()
        rest = process.stdout.read()
    return lines, rest, process.returncode


def peak_of(process):
    """The most memory that a process has had so far, in KiB."""
    told = pathlib.Path(f"/proc/{process.pid}/status").read_text()
    return int(re.search(r"VmHWM:\s+(\d+) kB", told).group(1))


def usual_signals():
    """A job in the background, or one under nohup, is started with these ignored, and so would be what it starts."""
    for number in (signal.SIGINT, signal.SIGQUIT, signal.SIGHUP):
        signal.signal(number, signal.SIG_DFL)


def scratch():
    return tempfile.TemporaryDirectory(prefix="faults-")


def without_counts(shown):
    """What a terminal was given, without the lines of counts: how many there are depends on how busy the machine is."""
    return COUNTS.sub(b"", shown)


def all_of(terminal):
    """What a terminal was given, whose other end is closed. It may come in several pieces."""
    said = b""
    while True:
        try:
            piece = os.read(terminal, 65536)
        except OSError:
            return said
        if not piece:
            return said
        said += piece
