"""Runs commands for pages: bounded in number, time and output, and ended when nobody waits any more."""

import contextlib
import dataclasses
import os
import select
import shutil
import signal
import subprocess
import tempfile
import threading
import time
from collections.abc import Callable, Iterator
from typing import IO

from .limits import Limits
from .words import DEALS, TRICKS, Command

PIECE = 65536
# So often it is looked whether somebody still waits.
LOOK = 0.1
# So long a program whose reader has gone may still run.
GRACE = 0.2
# Of what is said on standard error, this many bytes are kept.
MOST_SAID = 65536


class Busy(Exception):
    """Too many runs at once."""


class Missing(Exception):
    """A program that isn't installed."""


class TooLong(Exception):
    """A run that took longer than a page may wait."""


class TooLarge(Exception):
    """A run that wrote more than a page may have."""


class Left(Exception):
    """Nobody waits for the run any more."""


class Broken(Exception):
    """A program that a signal ended, so that it may not have written all."""


@dataclasses.dataclass(frozen=True)
class Ended:
    """How a run ended. `said` is what was said on standard error by the program that the status is of."""

    status: int
    output: bytes
    said: str


def find_programs() -> dict[str, str]:
    """The paths of the programs: those that the environment names, else those on the PATH."""
    named = {DEALS: os.environ.get("DEALS"), TRICKS: os.environ.get("DEALS_TRICKS")}
    found = {name: shutil.which(path or name) for name, path in named.items()}
    return {name: path for name, path in found.items() if path}


class Pipeline:
    """Programs that run, each with the output of the one before it."""

    def __init__(self, command: Command, programs: dict[str, str], given: bytes = b"") -> None:
        self.command = command
        self.processes: list[subprocess.Popen[bytes]] = []
        self.saids: list[IO[bytes]] = []
        # The first program reads a file, which needs no thread that feeds it.
        source = tempfile.TemporaryFile()
        source.write(given)
        source.seek(0)
        reading: IO[bytes] = source
        try:
            for name, *words in command.steps:
                said = tempfile.TemporaryFile()
                self.saids.append(said)
                process = subprocess.Popen(
                    [programs[name], *words], stdin=reading, stdout=subprocess.PIPE, stderr=said, env=ENVIRONMENT
                )
                self.processes.append(process)
                reading.close()
                assert process.stdout is not None
                reading = process.stdout
        except (OSError, ValueError):
            self.end()
            raise
        self.output = reading

    def kill(self) -> None:
        for process in self.processes:
            if process.poll() is None:
                process.kill()

    def end(self) -> None:
        """Ends what still runs."""
        self.kill()
        for process in self.processes:
            process.wait()

    def ended(self, output: bytes) -> Ended:
        """How it ended, after the last one wrote all: by the first program that refused something
        or broke off. What still runs then has lost its reader, and is ended."""
        last = self.processes[-1].wait()
        statuses = [*map(end_soon, self.processes[:-1]), last]
        failed = [place for place, status in enumerate(statuses) if has_failed(status)]
        told = failed[0] if failed else len(statuses) - 1
        if statuses[told] < 0:
            raise Broken(self.command.steps[told][0])
        return Ended(statuses[told], output, self.said_by(told))

    def said_by(self, place: int) -> str:
        said = self.saids[place]
        said.seek(0)
        return said.read(MOST_SAID).decode("utf-8", "replace")

    def close(self) -> None:
        self.end()
        self.output.close()
        for said in self.saids:
            said.close()


ENVIRONMENT = {"PATH": "/usr/local/bin:/usr/bin:/bin", "LC_ALL": "C.UTF-8"}
# The output failed because the next program needs no more: no failure.
OUTPUT_FAILED = 4


def end_soon(process: subprocess.Popen[bytes]) -> int:
    """The status of a program whose reader has ended. One that goes on for more than a little is
    ended: it would have found that its output fails."""
    try:
        status = process.wait(GRACE)
    except subprocess.TimeoutExpired:
        process.kill()
        process.wait()
        return OUTPUT_FAILED
    return OUTPUT_FAILED if status == -signal.SIGPIPE else status


def has_failed(status: int) -> bool:
    return status not in (0, OUTPUT_FAILED)


def read_all(output: IO[bytes], most: int, seconds: float, is_left: Callable[[], bool]) -> bytes:
    """All that comes, unless it is too much, too late, or nobody waits for it."""
    until = time.monotonic() + seconds
    os.set_blocking(output.fileno(), False)
    read = bytearray()
    while True:
        piece = output.read(PIECE)
        if piece:
            read += piece
            if len(read) > most:
                raise TooLarge
            continue
        if piece == b"":
            return bytes(read)
        if time.monotonic() > until:
            raise TooLong
        if is_left():
            raise Left
        wait_for(output, LOOK)


def wait_for(output: IO[bytes], seconds: float) -> None:
    """Waits until there is something to read, or so long."""
    select.select([output], [], [], seconds)


class Runner:
    """Runs commands, at most this many at once."""

    def __init__(self, limits: Limits) -> None:
        self.limits = limits
        self.programs = find_programs()
        self.places = threading.BoundedSemaphore(limits.runs)
        # What runs now, and whether nothing may be started any more.
        self.running: set[Pipeline] = set()
        self.has_ended = False
        self.lock = threading.Lock()

    def has(self, name: str) -> bool:
        return name in self.programs

    def need(self, command: Command) -> None:
        for name, *_ in command.steps:
            if name not in self.programs:
                raise Missing(name)

    @contextlib.contextmanager
    def place(self) -> Iterator[None]:
        """Waits for a place among the runs."""
        if not self.places.acquire(timeout=self.limits.wait):
            raise Busy
        try:
            yield
        finally:
            self.places.release()

    @contextlib.contextmanager
    def started(self, command: Command, given: bytes) -> Iterator[Pipeline]:
        """The programs of a command, which are ended with the block."""
        with self.lock:
            if self.has_ended:
                raise Left
            pipeline = Pipeline(command, self.programs, given)
            self.running.add(pipeline)
        try:
            yield pipeline
        finally:
            with self.lock:
                self.running.discard(pipeline)
            pipeline.close()

    def end_all(self) -> None:
        """Ends what runs, and lets nothing be started any more."""
        with self.lock:
            self.has_ended = True
            for pipeline in self.running:
                pipeline.kill()

    def run(self, command: Command, given: bytes = b"", is_left: Callable[[], bool] = lambda: False) -> Ended:
        """Runs a command to its end."""
        self.need(command)
        seconds = self.limits.solving if command.needs_tricks else self.limits.seconds
        with self.place(), self.started(command, given) as pipeline:
            output = read_all(pipeline.output, self.limits.output, seconds, is_left)
            return pipeline.ended(output)
