"""Long searches: they go on while a page asks for them, and keep the numbers that they found."""

import dataclasses
import os
import re
import secrets
import signal
import subprocess
import tempfile
import threading
import time
from typing import IO

from .runs import ENVIRONMENT, MOST_SAID, Busy, Runner
from .words import Command, Form

# What `--progress=always` writes each second.
PROGRESS = re.compile(r"^\s*\S+%\s+([\d,]+) of [\d,]+ candidates.*$", re.MULTILINE)


@dataclasses.dataclass
class Search:
    """A search and what is known of it."""

    form: dict[str, str]
    command: Command
    process: subprocess.Popen[bytes]
    said: IO[bytes]
    began: float
    asked: float
    numbers: list[int] = dataclasses.field(default_factory=list)
    ended: float | None = None
    stopped: bool = False

    @property
    def status(self) -> int | None:
        return self.process.poll()

    @property
    def is_running(self) -> bool:
        """Whether it goes on, or its last numbers are still read."""
        return self.ended is None

    @property
    def is_whole(self) -> bool:
        """Whether it came to the end of its candidates, with fewer boards than were asked for."""
        has_ended = not self.is_running and not self.stopped and self.status == 0
        return has_ended and len(self.numbers) < int(self.form["boards"])

    def lines(self) -> str:
        """The last of what it said. The program writes on in the same file, so its place there isn't moved."""
        begin = max(0, os.fstat(self.said.fileno()).st_size - MOST_SAID)
        return os.pread(self.said.fileno(), MOST_SAID, begin).decode("utf-8", "replace").replace("\r", "\n")

    @property
    def has_failed(self) -> bool:
        return not self.is_running and not self.stopped and self.status != 0

    def progress(self) -> str:
        """The last line of progress, or what there is to say in its place."""
        if self.is_whole:
            return "all is searched"
        found = [match[0].strip() for match in PROGRESS.finditer(self.lines())]
        if found:
            return found[-1]
        return "it has begun" if self.is_running else "nothing is searched" if self.has_failed else "it has ended"

    def searched(self) -> int:
        """How many candidates are searched for sure: as the line before the last one told, since the numbers of the
        last second may still be on their way."""
        told = [int(match[1].replace(",", "")) for match in PROGRESS.finditer(self.lines())]
        return told[-2] if len(told) > 1 else 0

    def goes_on_at(self) -> int:
        """The first deal that isn't searched, or is searched again."""
        after = self.numbers[-1] + 1 if self.numbers else 0
        first = int(self.form["first"] or 0)
        if self.is_whole and self.form["candidates"]:
            return first + int(self.form["candidates"])
        return max(after, first + self.searched())

    @property
    def has_more(self) -> bool:
        """Whether deals are left to be searched, by a search that didn't fail at once."""
        if self.has_failed:
            return self.goes_on_at() > int(self.form["first"] or 0)
        return not self.is_whole or self.form["candidates"] != ""

    def stop(self) -> None:
        if self.is_running:
            self.stopped = True
            self.process.send_signal(signal.SIGINT)
            try:
                self.process.wait(2)
            except subprocess.TimeoutExpired:
                self.process.kill()

    def collect(self) -> None:
        """Reads numbers until the search ends."""
        assert self.process.stdout is not None
        for line in self.process.stdout:
            if line.endswith(b"\n"):
                self.numbers.append(int(line))
        self.process.stdout.close()
        self.process.wait()
        self.ended = time.monotonic()

    def given(self) -> bytes:
        """The numbers that were found, as `pick` reads them."""
        return "".join(f"{number}\n" for number in list(self.numbers)).encode()


class Searches:
    """The searches of all pages. One that no page asks for ends, and is forgotten some time later."""

    FORGET = 3600.0
    # So many that have ended are kept, of those that were asked for last.
    KEPT = 100

    def __init__(self, runner: Runner) -> None:
        self.runner = runner
        self.all: dict[str, Search] = {}
        self.lock = threading.Lock()
        threading.Thread(target=self.watch, daemon=True).start()

    def start(self, form: Form, command: Command) -> str:
        """Starts a search and tells its name."""
        self.runner.need(command)
        with self.lock:
            if sum(search.is_running for search in self.all.values()) >= self.runner.limits.searches:
                raise Busy
            said = tempfile.TemporaryFile()
            (name, *words), *_ = command.steps
            process = subprocess.Popen(
                [self.runner.programs[name], *words, "--progress=always"],
                stdin=subprocess.DEVNULL, stdout=subprocess.PIPE, stderr=said, env=ENVIRONMENT,
            )
            now = time.monotonic()
            search = Search(dict(form), command, process, said, now, now)
            key = secrets.token_urlsafe(12)
            self.all[key] = search
            self.forget()
        threading.Thread(target=search.collect, daemon=True).start()
        return key

    def get(self, key: str) -> Search | None:
        """The search of this name, which somebody asks for now."""
        search = self.all.get(key)
        if search:
            search.asked = time.monotonic()
        return search

    def forget(self) -> None:
        """Forgets those that ended, the ones that nobody asked for the longest time first, where there are too many."""
        ended = sorted((search.asked, key) for key, search in self.all.items() if search.ended)
        for _, key in ended[: -self.KEPT]:
            del self.all[key]

    def look(self) -> None:
        """Ends what nobody asks for, or what took too long; forgets what ended long ago."""
        now = time.monotonic()
        limits = self.runner.limits
        for key, search in list(self.all.items()):
            if search.is_running and (now - search.asked > limits.unasked or now - search.began > limits.searching):
                search.stop()
            elif search.ended and now - max(search.ended, search.asked) > self.FORGET:
                with self.lock:
                    self.all.pop(key, None)

    def watch(self) -> None:
        while True:
            time.sleep(1)
            self.look()

    def end_all(self) -> None:
        for search in list(self.all.values()):
            search.stop()
