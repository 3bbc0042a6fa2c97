"""The desk, asked by who means harm: other hosts and origins, words that would be options, bodies of any bytes, many
requests at once, runs that never end, and clients that never read."""

import concurrent.futures
import contextlib
import http.client
import json
import os
import pathlib
import random
import signal
import socket
import time

import harness
import report
import serving
from deals_desk import fields
from serving import until

OWN = {"Sec-Fetch-Site": "same-origin"}
NIGHT = {"seed": "1", "boards": "2"}
NASTY = [
    "--where=", "-", "--help", "$(touch {file})", "`touch {file}`", "; touch {file}", "| touch {file}", "' ; touch {file} ; '",
    "../../../../etc/passwd", "\0", "\r\nX-Set: 1", "<script>alert(1)</script>", "{{ 7*7 }}", "%s%n", "\ud7ff\u202e", "9" * 4000,
    "((((((((((", "--format=json --where=1==1", '"', "\\", "\u0000--boards=9", "e\u0301" * 500, "\u00b2",
]


def foreign(desk):
    """Requests that other sites make, or that come by another name."""
    own = f"http://127.0.0.1:{desk.port}"
    rows = [
        ("another host", "GET", "/", {"Host": "evil.example"}, 403),
        ("another port", "GET", "/", {"Host": "127.0.0.1:1"}, 403),
        ("no host", "GET", "/", {"Host": ""}, 403),
        ("another origin", "POST", "/tonight", {"Origin": "http://evil.example"}, 403),
        ("an origin without a name", "POST", "/tonight", {"Origin": "null"}, 403),
        ("an origin like ours", "POST", "/tonight", {"Origin": own + ".evil.example"}, 403),
        ("a form of another site", "POST", "/tonight", {"Sec-Fetch-Site": "cross-site"}, 403),
        ("a picture of another site", "GET", "/lesson/boards", {"Sec-Fetch-Site": "cross-site", "Sec-Fetch-Mode": "no-cors"}, 403),
        ("a frame of another site", "GET", "/lesson",
         {"Sec-Fetch-Site": "cross-site", "Sec-Fetch-Mode": "navigate", "Sec-Fetch-Dest": "iframe"}, 403),
        ("a link on another site", "GET", "/lesson",
         {"Sec-Fetch-Site": "cross-site", "Sec-Fetch-Mode": "navigate", "Sec-Fetch-Dest": "document"}, 200),
        ("its name in capitals", "POST", "/check/where", {"Host": f"LOCALHOST:{desk.port}", "Origin": own.upper(), **OWN}, 200),
        ("this site", "POST", "/check/where", {"Origin": own, **OWN}, 200),
    ]
    for name, method, path, headers, status in rows:
        form = NIGHT if method == "POST" else None
        answer = desk.ask(method, path, form, headers)
        yield name, answer.status == status
        yield f"{name}, what helps", ("deals-desk --name HOST" in answer.text) == (status == 403 and "Host" in headers)


def is_page(answer):
    """Whether an answer is a whole page or text of ours, without a trace of Python, and with its policy."""
    return (
        answer.status in (200, 303, 400, 403, 404, 405, 413, 422)
        and "Traceback" not in answer.text
        and "default-src 'none'" in answer.headers.get("Content-Security-Policy", "")
        and "X-Set" not in answer.headers
    )


def nasty_fields(desk):
    """Fields with anything in them run nothing and make no file."""
    with harness.scratch() as folder:
        file = f"{folder}/made"
        drawn = random.Random(20261128)
        names = [*fields.BY_NAME, "x"]
        for number in range(2000 if report.has("many") else 400):
            values = {name: drawn.choice(NASTY).replace("{file}", file) for name in drawn.sample(names, 4)}
            if drawn.random() < 0.3:
                values["seed"], values["boards"] = "1", "1"
            encoded = {name: value.encode("utf-8", "replace") for name, value in values.items()}
            path = drawn.choice(["/lesson", "/lesson/boards", "/lesson/pbn", "/count", "/count/html"])
            answer = desk.get(path, encoded) if number % 2 else desk.post(drawn.choice(["/tonight", "/tonight/pbn"]), encoded)
            is_html = answer.headers.get("Content-Type", "").startswith("text/html")
            yield f"fields, {number}: {values}", is_page(answer) and not (is_html and "<script>alert" in answer.text)
        yield "no file was made", os.listdir(folder) == []


def too_many_boards(desk):
    """More boards than a page may have are refused, however their number is written."""
    for text in ("129", "+200", "0200"):
        answer = desk.get("/lesson", {"boards": text, "seed": "1"})
        yield f"boards: {text}", answer.status == 422 and "at most 128 boards on a page" in answer.text
    yield "boards: none", "say how many boards, 1 to 128" in desk.get("/lesson", {"boards": "", "seed": "1"}).text


def ended_searches(desk):
    """Searches that ended hold few descriptors."""
    form = {"seed": "1", "candidates": "1", "where": "1==1"}
    statuses = set()
    for _ in range(150):
        statuses.add(desk.post("/search", form).status)
        until(lambda: not desk.children())
    yield f"searches: {statuses}", statuses == {303}
    held = len(os.listdir(f"/proc/{desk.process.pid}/fd"))
    yield f"they hold {held} descriptors", held < 150


def nasty_bodies(desk):
    """Bodies of any bytes, and of too many."""
    drawn = random.Random(7)
    for number in range(2000 if report.has("many") else 200):
        body = drawn.randbytes(drawn.choice([0, 1, 100, 5000]))
        kind = drawn.choice(["application/x-www-form-urlencoded", "multipart/form-data; boundary=x", "text/plain"])
        path = drawn.choice(["/tonight", "/tonight/pbn", "/check/where", "/rarity", "/search", "/tonight/more"])
        answer = desk.ask("POST", path, headers={"Content-Type": kind}, body=body)
        yield f"body, {number}", is_page(answer) and answer.status < 500
    try:
        status = desk.post("/tonight", {"event": "x" * 10_000_000}).status
    except (BrokenPipeError, ConnectionResetError, http.client.HTTPException):
        status = 413
    yield "a body of 10 MB", status in (400, 413)
    yield "no such page", desk.get("/nothing").status == 404
    yield "a file outside", desk.get("/static/../app.py").status == 404
    yield "a method that isn't taken", desk.ask("DELETE", "/").status == 405


def at_once(desk, count, path, form=None):
    """The statuses of a number of requests at once, and how many programs ran at most meanwhile."""
    with concurrent.futures.ThreadPoolExecutor(count) as pool:
        asked = [pool.submit(desk.get, path, form) for _ in range(count)]
        most = 0
        while not all(future.done() for future in asked):
            most = max(most, len(desk.children()))
            time.sleep(0.02)
        return {future.result().status for future in asked}, most


def first_pages():
    """Pages that come at once, before the desk has asked for the lessons, start one program at a time."""
    with serving.desk() as desk:
        statuses, most = at_once(desk, 12, "/lesson")
    yield f"programs for lessons at once: {most}", statuses == {200} and most <= 1


def many(desk):
    """Two hundred requests at once are answered, and few runs work at a time."""
    statuses, most = at_once(desk, 200, "/lesson/boards", {"boards": "100", "seed": "5", "where": "hcp(north)>=20"})
    yield "all are answered", statuses <= {200, 503} and 200 in statuses
    yield f"runs at once: {most}", most <= 4
    yield "no run is left", until(lambda: not desk.children())


NEVER = "/lesson/boards?boards=5&seed=1&where=hcp(north)%3E%3D37"


def endless(desk):
    """A run that never ends is ended, and one whose page goes too."""
    began = time.monotonic()
    answer = desk.get(NEVER)
    yield "a run that never ends", answer.status == 504 and time.monotonic() - began < 10
    yield "rare hands are for a long search", 'href="/search?where=hcp%28north%29%3E%3D37&amp;seed=1">Long search' in answer.text
    yield "its frame shows it", answer.headers["Content-Security-Policy"].endswith("frame-ancestors 'self'")
    yield "it is ended", until(lambda: not desk.children())
    connection = http.client.HTTPConnection("127.0.0.1", desk.port)
    connection.request("GET", NEVER, headers={"Host": f"127.0.0.1:{desk.port}"})
    yield "a run works", until(lambda: bool(desk.children()))
    connection.sock.close()
    yield "it is ended when its page goes", until(lambda: not desk.children(), 3)


def idle(desk):
    """Clients that never read, or never ask, don't stop others."""
    held = []
    for number in range(40):
        client = socket.create_connection(("127.0.0.1", desk.port))
        if number % 2:
            text = f"GET /lesson/boards?boards=128&seed={number} HTTP/1.1\r\nHost: 127.0.0.1:{desk.port}\r\n\r\n"
            client.sendall(text.encode())
        held.append(client)
    yield "another is served", until(lambda: desk.get("/help").status == 200)
    for client in held:
        client.close()
    yield "no run is left", until(lambda: not desk.children())


def has_ended(process):
    """Whether a process has ended, so that it has no words any more."""
    try:
        return not pathlib.Path(f"/proc/{process}/cmdline").read_bytes()
    except OSError:
        return True


def ended(number):
    """A desk that ends by a signal ends its runs at once: of a page that waits, and of a search."""
    with serving.desk() as desk:
        desk.post("/search", {"seed": "1", "where": "hcp(north)>=37"})
        with socket.create_connection(("127.0.0.1", desk.port)) as client:
            client.sendall(f"GET {NEVER} HTTP/1.1\r\nHost: 127.0.0.1:{desk.port}\r\n\r\n".encode())
            yield f"{number.name}: both run", until(lambda: len(desk.children()) == 2)
            runs = desk.children()
            desk.process.send_signal(number)
            yield f"{number.name}: the desk ends", until(lambda: desk.process.poll() == 0, 4)
        yield f"{number.name}: no run is left", until(lambda: all(map(has_ended, runs)), 1)


# A solver that writes two boards, and is ended by a signal.
BROKEN_OFF = f'#!/bin/sh\n"{serving.TRICKS}" "$@" --boards=2\nkill -s %s $$\n'
# The signals, with the status of the page and what it has.
SIGNALS = [
    ("KILL", 500, "<code>deals-tricks</code>"),
    ("SEGV", 500, "broke off"),
    ("PIPE", 200, "<h2>2</h2>"),
]


@contextlib.contextmanager
def script(text):
    """A program that is this script."""
    with harness.scratch() as folder:
        program = pathlib.Path(folder) / "program"
        program.write_text(text)
        program.chmod(0o755)
        yield program


def broken_off():
    """A solver that a signal ends gives no page with some of the boards, but by that of a pipe."""
    for sign, status, said in SIGNALS:
        with script(BROKEN_OFF % sign) as solver, serving.desk(tricks=solver) as desk:
            answer = desk.post("/tonight/tricks", {"seed": "1", "boards": "9"})
        yield f"a solver that ends by {sign}", answer.status == status and said in answer.text


# A program that has no memory for what is found.
NO_MEMORY = f"""#!/bin/sh
[ "$1" != pick ] || {{ echo "out of memory" >&2; exit 5; }}
exec "{harness.PROGRAM}" "$@"
"""


def failed_pick():
    """Boards of a search that fail are told as a fault, and aren't given as a file."""
    with script(NO_MEMORY) as program, serving.desk(deals=program) as desk:
        form = {"seed": "7", "where": "hcp(north)>=20", "boards": "2"}
        key = desk.post("/search", form).headers["Location"]
        yield "it ends", until(lambda: not json.loads(desk.get(f"{key}/state").text)["running"])
        answer = desk.get(f"{key}/pbn")
    is_told = "out of memory" in answer.text and "[Deal" not in answer.text
    yield "no file", answer.status == 422 and is_told


PARTS = (foreign, nasty_fields, too_many_boards, nasty_bodies, many, endless, idle, ended_searches)


def refused():
    serving.need()
    with harness.scratch() as folder:
        with serving.desk("--limits", folder=folder) as desk:
            yield from report.each(PARTS, desk)
        left = os.listdir(folder)
        yield "no file is left", f"{left}" if left else None
    yield from report.each([first_pages, broken_off, failed_pick])
    for number in (signal.SIGTERM, signal.SIGHUP, signal.SIGINT):
        yield from report.judged(ended(number))
