"""A temporary folder with servers in it, and all that they started: ended with it, whatever happened."""

import contextlib
import ctypes
import os
import pathlib
import signal
import socket
import subprocess
import tempfile
import time

# From sys/prctl.h: what outlives the process that started it becomes a child of this one.
PR_SET_CHILD_SUBREAPER = 36
# How long a server may take to end by itself, and how long is slept between two looks.
GRACE = 10
LOOK = 0.05


def children():
    """The processes that this one started, or that were left to it."""
    found = []
    for entry in pathlib.Path("/proc").glob("[0-9]*/stat"):
        try:
            parent = entry.read_text(errors="replace").rpartition(")")[2].split()[1]
        except OSError:
            continue
        if int(parent) == os.getpid():
            found.append(int(entry.parent.name))
    return found


def signal_children(number):
    """Gives each child this signal, and those that are left to this process meanwhile, until none is there or the time
    is over."""
    given = set()
    end = time.monotonic() + GRACE
    while (running := children()) and time.monotonic() < end:
        for child in running:
            if child not in given:
                os.kill(child, number)
                given.add(child)
            os.waitpid(child, os.WNOHANG)
        time.sleep(LOOK)


@contextlib.contextmanager
def place():
    """A temporary folder. What is started while it is there is ended before it is removed. No other child of this
    process may run meanwhile."""
    library = ctypes.CDLL(None)
    library.prctl(PR_SET_CHILD_SUBREAPER, 1, 0, 0, 0)
    try:
        with tempfile.TemporaryDirectory(prefix="machines-") as folder:
            try:
                yield pathlib.Path(folder).resolve()
            finally:
                signal_children(signal.SIGTERM)
                signal_children(signal.SIGKILL)
    finally:
        library.prctl(PR_SET_CHILD_SUBREAPER, 0, 0, 0, 0)


def start(folder, name, words, settings=None):
    """Starts a program; what it says is in a file of this name. A file, since what it starts may outlive it."""
    with open(folder / name, "ab") as said:
        return subprocess.Popen(
            words, cwd=folder, env=settings, stdin=subprocess.DEVNULL, stdout=said, stderr=subprocess.STDOUT
        )


def ended(process, seconds):
    """The status of a process; None if it didn't end in time."""
    try:
        return process.wait(seconds)
    except subprocess.TimeoutExpired:
        return None


def becomes(test, seconds):
    """Whether this is so before the time is over."""
    end = time.monotonic() + seconds
    while not (right := test()) and time.monotonic() < end:
        time.sleep(LOOK)
    return right


def said(folder, *names):
    """The ends of what was said in these files, on one line."""
    texts = [(folder / name).read_text(errors="replace")[-600:] for name in names if (folder / name).exists()]
    return " | ".join(" / ".join(text.splitlines()) for text in texts)


def free_ports(count):
    """Ports of this machine on which nothing listens."""
    with contextlib.ExitStack() as stack:
        sockets = [stack.enter_context(socket.socket()) for _ in range(count)]
        for each in sockets:
            each.bind(("127.0.0.1", 0))
        return [each.getsockname()[1] for each in sockets]


def listens(port):
    """Whether something listens on this port."""
    with socket.socket() as tried:
        tried.settimeout(1)
        return tried.connect_ex(("127.0.0.1", port)) == 0
