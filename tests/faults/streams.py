"""The program over standard streams that are full, closed, or read no further."""

import dataclasses
import errno
import os
import subprocess
import threading

import harness
import model


def failed(words, reason):
    """What is said of an output that failed: nothing where its reader has gone; else a line, and where hints are asked
    for the system's reason."""
    if reason == errno.EPIPE:
        return b""
    more = f"  {os.strerror(reason)} (os error {reason})\n" if HINTS in words else ""
    return f"output failed\n{more}".encode()


@dataclasses.dataclass
class Check:
    """A command of the shell, in which DEALS is the program, and what it gives."""

    name: str
    command: str
    status: int
    out: bytes = b""
    err: bytes = b""
    output: str = "read"  # or: broken, a pipe that nobody reads; stuck, one that is full and does not block


VALUES = "stream --seed 0 --count 3"
BOARDS = "make --seed 7 --candidates 3"
HINTS = " --hints always"
HEADER = b"% PBN 2.1\n"
WORDS = "make --seed 7 --candidates 1 --lane 0"
REFUSED = b"plan refused: lane capacity\n"


def of_output():
    for words in (VALUES, BOARDS, BOARDS + HINTS, BOARDS + HINTS + " --workers 16", "--version", "--help", "help make"):
        yield Check(f"a full disk, {words}", f"$DEALS {words} >/dev/full", 4, err=failed(words, errno.ENOSPC))
        yield Check(f"a closed output, {words}", f"$DEALS {words} >&-", 4, err=failed(words, errno.EBADF))
        yield Check(f"an output that can only be read, {words}", f"$DEALS {words} 1</dev/null", 4, err=failed(words, errno.EBADF))
        yield Check(f"nobody reads, {words}", f"exec $DEALS {words}", 4, err=failed(words, errno.EPIPE), output="broken")
        yield Check(f"nothing more fits, {words}", f"exec $DEALS {words}", 4, err=failed(words, errno.EAGAIN), output="stuck")
    below = b"  --lane 0: 1 to 4096 deals\n"
    line = b"condition refused at byte 0: unknown word\n"
    where = "make --seed 7 --candidates 1 --where y"
    for words, status, text in (
        (WORDS, 2, REFUSED),
        (WORDS + HINTS, 2, REFUSED + below),
        (where, 3, line),
        (where + HINTS, 3, line + b"  y\n  ^\n  hint: deals conditions has all words, with examples\n"),
    ):
        yield Check(f"refused to a full disk, {words}", f"$DEALS {words} >/dev/full", status, err=text)
        yield Check(f"refused to a closed output, {words}", f"$DEALS {words} >&-", status, err=text)


def of_readers():
    """A reader that takes a line and goes: the rest of an endless output is refused."""
    for workers in (1, 3, 16):
        words = f"make --seed 7 --candidates 1000000000 --workers {workers}"
        command = f"$DEALS {words} | head -n 1; exit ${{PIPESTATUS[0]}}"
        yield Check(f"one line is read, {workers} workers", command, 4, HEADER, failed(words, errno.EPIPE))
        words += " --where '0==0 and hcp(north)>=0' --lane 4096"
        command = f"$DEALS {words} | head -n 1; exit ${{PIPESTATUS[0]}}"
        yield Check(f"one line is read, {workers} workers and a condition", command, 4, HEADER, failed(words, errno.EPIPE))
        words = f"make --seed 7 --candidates 2000 --workers {workers}"
        yield Check(f"a reader that waits, {workers} workers", f"$DEALS {words} | (sleep 0.3; cat)", 0, model.games(7, 2000))
    command = "$DEALS stream --seed 0 --count 1000000000 | head -n 1; exit ${PIPESTATUS[0]}"
    yield Check("one value is read", command, 4, b"366850414\n", failed(command, errno.EPIPE))


def of_errors():
    values, boards = b"366850414\n1610402240\n206956554\n", model.games(7, 3)
    for where, name in (("2>&-", "closed"), ("2>/dev/full", "full")):
        yield Check(f"standard error is {name}, values", f"$DEALS {VALUES} {where}", 0, values)
        yield Check(f"standard error is {name}, boards", f"$DEALS {BOARDS} {where}", 0, boards)
        yield Check(f"standard error is {name}, refused", f"$DEALS {WORDS} {where}", 2)
        yield Check(f"standard error is {name}, words refused", f"$DEALS --frist {where}", 2)
        yield Check(f"standard error is {name}, output full", f"$DEALS {BOARDS} {where} >/dev/full", 4)
    why = f"  {os.strerror(errno.EISDIR)} (os error {errno.EISDIR})\n".encode()
    for hints, below in (("", b""), (HINTS, why)):
        for words, written in (("pick --seed 7", HEADER), ("show", b"")):
            command = f"$DEALS {words}{hints} </"
            yield Check(f"an input that can't be read, {words}{hints}", command, 7, written, b"input failed\n" + below)
    yield Check("both are closed", f"$DEALS {BOARDS} >&- 2>&-", 4)
    yield Check("all three are closed", f"$DEALS {BOARDS} <&- >&- 2>&-", 4)
    yield Check("standard input is closed", f"$DEALS {BOARDS} <&-", 0, boards)
    yield Check("errors go where nobody reads", f"{{ $DEALS {WORDS} 2>&1 >&3 | exec sleep 0; exit ${{PIPESTATUS[0]}}; }} 3>&1", 2)


def every():
    return [*of_output(), *of_readers(), *of_errors()]


# Until it is another program, a process that starts has all that is open here, and so a pipe's reader too: none starts
# between a pipe and the end of its reader.
STARTING = threading.Lock()


def output_of(check):
    """Where standard output goes, and the end of it that is to stay open."""
    if check.output == "read":
        return subprocess.PIPE, None
    reader, writer = os.pipe()
    if check.output == "broken":
        os.close(reader)
        return writer, None
    os.set_blocking(writer, False)
    try:
        while True:
            os.write(writer, bytes(4096))
    except BlockingIOError:
        return writer, reader


def complaint_of(check):
    with STARTING:
        output, reader = output_of(check)
        process = subprocess.Popen(
            ["bash", "-c", check.command],
            env={**os.environ, "DEALS": str(harness.PROGRAM)},
            stdin=subprocess.DEVNULL,
            stdout=output,
            stderr=subprocess.PIPE,
            start_new_session=True,
        )
    try:
        out, err = process.communicate(timeout=60)
    except subprocess.TimeoutExpired:
        os.killpg(process.pid, 9)
        process.communicate()
        return None, "it did not end"
    if output != subprocess.PIPE:
        out = b""
        os.close(output)
    if reader is not None:
        os.close(reader)
    status = process.returncode
    if (status, out, err) == (check.status, check.out, check.err):
        return status, None
    return status, f"status {status}, {len(out)} bytes of output, {err!r} on standard error"


def note(check, tally):
    status, complaint = complaint_of(check)
    tally.note(check.name, "standard streams", status, complaint)
