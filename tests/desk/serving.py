"""A desk that serves pages for a test, and requests of it."""

import contextlib
import dataclasses
import http.client
import os
import pathlib
import re
import signal
import subprocess
import time
import urllib.parse

import companion
import harness
import packages

DESK = harness.TOP / "companion" / "desk" / "deals-desk"
TRICKS = companion.PROGRAM
PYTHON = "/usr/bin/python3"
SECONDS = 60


def need():
    """The packages of the desk and of its solver."""
    packages.need("python3-flask", "/usr/lib/python3/dist-packages/flask/__init__.py")
    packages.need("python3-waitress", "/usr/lib/python3/dist-packages/waitress/__init__.py")
    companion.build()


@dataclasses.dataclass(frozen=True)
class Answer:
    status: int
    headers: dict[str, str]
    body: bytes

    @property
    def text(self):
        return self.body.decode("utf-8", "replace")


@dataclasses.dataclass(frozen=True)
class Desk:
    """A server that runs, and its port."""

    process: subprocess.Popen
    port: int

    @property
    def address(self):
        return f"http://127.0.0.1:{self.port}"

    def ask(self, method, path, form=None, headers=None, body=None, seconds=SECONDS):
        """An answer, as a browser of this machine would get it."""
        given = {"Host": f"127.0.0.1:{self.port}", **(headers or {})}
        if form is not None:
            body = urllib.parse.urlencode(form)
            given["Content-Type"] = "application/x-www-form-urlencoded"
        connection = http.client.HTTPConnection("127.0.0.1", self.port, timeout=seconds)
        try:
            connection.request(method, path, body=body, headers=given)
            response = connection.getresponse()
            return Answer(response.status, dict(response.getheaders()), response.read())
        finally:
            connection.close()

    def get(self, path, form=None, **more):
        return self.ask("GET", path + ("?" + urllib.parse.urlencode(form) if form else ""), **more)

    def post(self, path, form, **more):
        return self.ask("POST", path, form, **more)

    def children(self):
        """The programs that the server runs now."""
        told = subprocess.run(["ps", "-o", "pid=", "--ppid", str(self.process.pid)], capture_output=True, text=True)
        return told.stdout.split()


@contextlib.contextmanager
def desk(*words, program=DESK, before=(), folder=None, deals=harness.PROGRAM, tricks=TRICKS):
    """A server, which ends at the end. `before` are words before its own, as of taskset; its files are in the folder, if
    one is given; it runs `deals`, and `tricks` as its solver."""
    settings = {**os.environ, "DEALS": str(deals), "DEALS_TRICKS": str(tricks)}
    settings |= {"TMPDIR": folder} if folder else {}
    process = subprocess.Popen(
        [*before, PYTHON, program, "--port", "0", "--no-browser", *words], env=settings, stderr=subprocess.PIPE, text=True,
        preexec_fn=harness.usual_signals,
    )
    try:
        line = process.stderr.readline()
        yield Desk(process, int(re.search(r":(\d+)/ ", line)[1]))
    finally:
        process.send_signal(signal.SIGTERM)
        try:
            process.wait(SECONDS)
        except subprocess.TimeoutExpired:
            process.kill()
            process.wait()
            raise
        finally:
            process.stderr.close()


def until(is_so, seconds=10):
    """Whether it is so before this many seconds are over."""
    end = time.monotonic() + seconds
    while time.monotonic() < end:
        if is_so():
            return True
        time.sleep(0.1)
    return False


def typed(line):
    """What a line that a page shows writes when it is typed into a shell, where the programs have their names."""
    with harness.scratch() as folder:
        for name, path in (("deals", harness.PROGRAM), ("deals-tricks", TRICKS)):
            (pathlib.Path(folder) / name).symlink_to(path)
        path = f"{folder}:/usr/bin:/bin"
        return subprocess.run(["bash", "-c", line], env={"PATH": path}, capture_output=True, check=False).stdout
