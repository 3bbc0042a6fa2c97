"""Runs the built program in a small stack, and in a small address space.

The program is started as a shell would start it, with nothing loaded beside it and no stack touched before. In a stack
of the size that docs/TESTING.md names each call has to end as it does in a large one. In an address space that is
limited to every 100 KiB from 2 to 40 MiB it has to end with its text, with status 5 and 'out of memory', or with
status 6 and 'thread not started', and never by a signal; in the largest one worker has room for the text.
"""

import errno
import resource
import subprocess

import harness
import model
import report

KIB = 1024
SECONDS = 20
LINES = {5: b"out of memory\n", 6: b"thread not started\n"}
# What the kernel and the C library's loader say before the program's first instruction.
NOT_LOADED = 127
# The address spaces, in KiB.
SPACES = range(2 * KIB, 40 * KIB + 1, 100)


def deepest():
    """The deepest conditions that 1,024 bytes can hold, each with the status of `make` under it."""
    return {
        "1,024 brackets": ("(" * 1024, 3),
        "510 brackets around a test": ("(" * 510 + "0==0" + ")" * 510, 0),
        "255 negations": ("not " * 255 + "0==0", 0),
        "170 alternatives": ("0==0or" * 170 + "0==0", 0),
        "145 conjunctions": ("0==0and" * 145 + "0==0", 0),
        "a sum of 511 numbers": ("+".join("1" * 511) + "==1", 0),
        "brackets after each alternative": ("0==0or(" * 146, 3),
    }


def small_stacks():
    """The size of the stack in KiB, the words, the status and the text."""
    yield 128, ["stream", "--seed", "0", "--count", "3"], 0, model.values(0, 3)
    yield 128, ["pick", "--seed", "7"], 0, model.games(7, 0)
    yield 320, ["show"], 0, model.games(7, 0)
    yield 192, ["make", "--seed", "7", "--candidates", "20"], 0, model.games(7, 20)
    strong = lambda d: model.points(d[0]) >= 15 and model.is_balanced(d[0])  # noqa: E731
    for workers in (1, 3, 16):
        words = ["make", "--seed", "7", "--candidates", "200", "--workers", str(workers)]
        words += ["--where", "hcp(north)>=15 and balanced(north)", "--boards", "5", "--event", "Club night"]
        yield 192, words, 0, model.games(7, 200, strong, boards=5, labels=[("Event", "Club night")])
    for text in ("hcp(nord)>=15", "hcp(north)>=15 and and"):
        yield 192, ["make", "--seed", "7", "--candidates", "20", "--where", text], 3, b""
    for text, status in deepest().values():
        words = ["make", "--seed", "7", "--candidates", "1", "--where", text]
        yield 1024, words, status, None
    strong = ["--let", "let strong(seat) is (hcp(seat)>=15)", "--where", "strong(north)"]
    yield 1024, ["make", "--seed", "7", "--candidates", "20", *strong], 0, None
    for inside, status in (("(" * 4080, 3), ("(" * 2038 + "0==0" + ")" * 2038, 0)):
        words = ["make", "--seed", "7", "--candidates", "1", "--let", f"let deep is ({inside})", "--where", "deep"]
        yield 4096, words, status, None
    for words, text in ((["--format", "csv"], b"deals,candidates\n20,20\n"), (["--of", "7", "--format", "csv"], b"value,deals\n7,20\n")):
        yield 192, ["count", "--seed", "7", "--candidates", "20", *words], 0, text
    both = ["--of", "hcp(north)+hcp(south)", "--by", "longest(north)"]
    for style in ("table", "html"):
        yield 224, ["count", "--seed", "7", "--candidates", "200", "--workers", "3", "--format", style, *both], 0, None
    for text in ("hcp(nord)", "(" * 1024):
        yield 1024, ["count", "--seed", "7", "--candidates", "20", "--of", text], 3, b""


def limited(kind, size):
    return lambda: resource.setrlimit(kind, (size, size))


def run(words, kind, size):
    command = [harness.PROGRAM, *words]
    done = subprocess.run(
        command, stdin=subprocess.DEVNULL, capture_output=True, timeout=SECONDS, preexec_fn=limited(kind, size)
    )
    return done.returncode, done.stdout, done.stderr


def of_stack(size, words, status, text):
    got, out, err = run(words, resource.RLIMIT_STACK, size * KIB)
    if got != status or (text is not None and out != text):
        return f"stack of {size} KiB, {' '.join(words)[:90]}: status {got}, {len(out)} bytes, {err[-80:]!r}"
    return None


def of_space(size, workers, text):
    words = ["make", "--seed", "7", "--candidates", "20", "--workers", str(workers)]
    try:
        got, out, err = run(words, resource.RLIMIT_AS, size * KIB)
    except subprocess.TimeoutExpired:
        return f"address space of {size} KiB, {workers} workers: it did not end"
    except (subprocess.SubprocessError, OSError) as error:
        # There was not even room for the program to be started.
        return str(error) if getattr(error, "errno", errno.ENOMEM) != errno.ENOMEM or size == SPACES[-1] else None
    is_small = got in LINES and not out and err == LINES[got] or got == NOT_LOADED and not out
    if got == 0 and out == text or is_small and (size, workers) != (SPACES[-1], 1):
        return None
    return f"address space of {size} KiB, {workers} workers: status {got}, {len(out)} bytes, {err[-80:]!r}"


def stacks():
    """The calls in a small stack."""
    rows = list(small_stacks())
    yield from report.asked(lambda row: of_stack(*row), rows, lambda row: f"{row[0]} KiB, {' '.join(row[1])[:90]}")


def spaces():
    """A call in small address spaces."""
    text = model.games(7, 20)
    rows = [(size, workers) for workers in (1, 3, 16) for size in SPACES]
    yield from report.asked(lambda row: of_space(*row, text), rows)
