"""What the page gives is what the shown line gives when it is typed, byte for byte."""

import html
import json
import re
import shlex
import subprocess

import report
import serving
from deals_desk import files

WHERE = "hcp(north) in 15-17 and balanced(north)"
LESSONS = [
    {"boards": "6", "seed": "7", "where": WHERE, "turn": "turn"},
    {"boards": "3", "seed": "4294967295", "where": "1==1\nand hcp(south)>=9", "turn": "N", "vulnerable": "EW"},
    {"boards": "2", "seed": "0", "turn": "", "south": "AQ742.K5.KJ3.842", "event": "It's <one> & two", "site": "$(id)"},
    {"boards": "3", "seed": "7", "turn": "turn", "where": WHERE, "show": "ns", "points": "hide"},
    {"boards": "3", "seed": "7", "turn": "E", "show": "dealer"},
    {"boards": "2", "seed": "7", "turn": "turn", "where": "len(south,spades)>=5", "makes": "4S-NS", "beaten": "3NT-NS"},
    {"boards": "2", "seed": "9", "vulnerable": "All", "turn": "", "makes": "2H-E 1C-N", "event": "Contracts", "points": "hide"},
]
# The options of the fields that change how a file looks.
LOOKS = {"show": "--show=", "points": "--points="}
# Those that a solver isn't given, since PBN may lack their letters.
LABELS = {"event": "--event=", "site": "--site="}
LETTERS = {"event": "Łódź", "site": "Zürich"}
COUNTS = [
    {"candidates": "3000", "seed": "7", "where": WHERE, "of": "len(south,spades)"},
    {"candidates": "1000", "seed": "7", "of": "hcp(north)", "by": "len(north,spades)"},
    {"candidates": "1000", "seed": "7"},
]
TONIGHT = {"seed": "3469703443", "boards": "5", "first_board": "3", "event": "Club night", "site": "", "date": "2026.11.24"}


def shown_lines(page):
    """The lines to be typed that a page shows."""
    return [html.unescape(code) for code in re.findall(r"<pre><code>(.*?)</code></pre>", page, re.DOTALL)]


def buttons(page):
    """The files that the buttons of a lesson's page give."""
    return re.findall(r'formaction="/lesson/(\w+)"', page.text)


def framed(desk, page):
    """What the frame of a page shows."""
    (address,) = re.findall(r'<iframe title="[\w ]+" src="([^"]+)"', page.text)
    return desk.get(html.unescape(address)).body


def options(form, table):
    """The options of the fields that a table names."""
    return [option + form[field] for field, option in table.items() if form.get(field)]


def line_of(desk, form, file):
    """The line that writes a file of a lesson, by the one that its page shows."""
    unlabelled = {name: value for name, value in form.items() if name not in LABELS}
    (line,) = shown_lines(desk.get("/lesson", unlabelled if file.tricks else form).text)
    plain = re.sub(r" --(show|points)=\w+", "", line)
    look = [*options(form, {field: LOOKS[field] for field in file.asks}), *file.look]
    if not file.tricks:
        return plain.replace("--format=html", " ".join(look))
    shown = shlex.join(["deals", "show", *options(form, LABELS), *look])
    return f"{plain.replace('--format=html', '--format=pbn')} | deals-tricks --add | {shown}"


def lessons(desk):
    """All buttons, those of a page on which nothing is dealt yet too, give what their lines write."""
    first = buttons(desk.get("/lesson"))
    yield "a button for each file", {*first, "boards"} == set(files.LESSON)
    for form in LESSONS:
        page = desk.get("/lesson", form)
        yield f"the same buttons after Deal, {form}", buttons(page) == first
        (line,) = shown_lines(page.text)
        yield f"the frame after Deal, {form}", framed(desk, page) == serving.typed(line) != b""
        given = {name: desk.get(f"/lesson/{name}", form) for name in ("boards", *first)}
        for name, answer in given.items():
            is_same = answer.body == serving.typed(line_of(desk, form, files.BY_NAME[name])) != b""
            yield f"lesson, {name}, {form}", answer.status == 200 and is_same
        boards = given["tricks"].text.split('<section class="board')[1:]
        yield "a sheet with tricks", len(boards) == int(form["boards"]) and all("Par " in board for board in boards)


def contracts(desk):
    """The contracts make on each board, and their sides turn with its hands, as the page says."""
    yield "the sides turn", "the sides turn with the hands" in desk.get("/lesson").text
    for form in LESSONS:
        games = desk.get("/lesson/pbn", form).text.removeprefix("% PBN 2.1\n").split("\n\n")[:-1] if "makes" in form else []
        for number, game in enumerate(games):
            names = form["makes"].split()
            turned = [name.replace("-NS", "-EW") for name in names] if form["turn"] == "turn" and number % 2 else names
            kept = subprocess.run([serving.TRICKS, *(f"--makes={name}" for name in turned)], input=game, capture_output=True, text=True)
            yield f"{turned} on board {number + 1}", kept.stdout == game != ""


def counts(desk):
    for form in COUNTS:
        page = desk.get("/count", form)
        (line,) = shown_lines(page.text)
        yield f"the frame of a count, {form}", framed(desk, page) == serving.typed(line) != b""
        given = desk.get("/count/html", form)
        yield f"count, {form}", given.body == serving.typed(line) != b""
        given = desk.get("/count/csv", form)
        yield "count, csv", given.body == serving.typed(line.replace("--format=html", "--format=csv")) != b""


def nights(desk):
    lines = desk.post("/tonight/lines", TONIGHT)
    for name, line in json.loads(lines.text).items():
        given = desk.post(f"/tonight/{name}", TONIGHT)
        yield f"tonight, {name}", given.status == 200 and given.body == serving.typed(line) != b""
        yield f"tonight, {name}, not kept", given.headers["Cache-Control"] == "no-store"


def searches(desk):
    """A search that came to the end of its deals says so, and goes on after them; its boards are those of its lines."""
    form = {"seed": "7", "where": "hcp(north)>=33", "boards": "1000", "first": "5", "candidates": "60000000"}
    key = desk.post("/search", form).headers["Location"]
    yield "a search ends", serving.until(lambda: not json.loads(desk.get(f"{key}/state").text)["running"], serving.SECONDS)
    page = desk.get(key).text
    yield "all is searched", "all is searched" in page and "first=60000005" in page
    find, pick = (line.partition(" > ")[0].partition(" < ")[0] for line in shown_lines(page))
    yield "a search's boards", desk.get(f"{key}/pbn").body == serving.typed(f"{find} | {pick}") != b""
    key = desk.post("/search", {"seed": "7", "where": "hcp(north)>37", "boards": "1", "candidates": ""}).headers["Location"]
    yield "no deal meets it", serving.until(lambda: not json.loads(desk.get(f"{key}/state").text)["running"], serving.SECONDS)
    page = desk.get(key).text
    yield "nothing to go on with", "all is searched" in page and "Go on from here" not in page
    form = {"seed": "7", "where": "hcp(north)>=20", "boards": "1", "candidates": ""}
    key = desk.post("/search", form).headers["Location"]
    yield "a board", serving.until(lambda: not json.loads(desk.get(f"{key}/state").text)["running"])
    (on,) = re.findall(r'<a href="(/search\?[^"]+)">Go on', desk.get(key).text)
    page = desk.get(html.unescape(on)).text
    yield "all deals are gone on with", 'name="candidates" value=""' in page


def letters(desk):
    """Letters that PBN lacks are in pages and sheets; of the files PBN alone refuses them, and says that it does."""
    night, lesson = {**TONIGHT, **LETTERS}, {**LESSONS[0], **LETTERS}
    asked = [*((name, desk.post(f"/tonight/{name}", night)) for name in files.TONIGHT),
             *((name, desk.get(f"/lesson/{name}", lesson)) for name in files.LESSON)]
    for name, given in asked:
        file = files.BY_NAME[name]
        if file.type == files.PBN:
            yield "PBN refuses letters", given.status == 422 and "PBN has ASCII letters alone" in given.text and "write Lodz" in given.text
        else:
            has_labels = file.type == files.HTML and name != "slips"
            yield f"letters, {name}", given.status == 200 and (not has_labels or all(text in given.text for text in LETTERS.values()))
    yield "letters, more boards", desk.post("/tonight/more", night).status == 303
    yield "letters, kept", desk.post("/tonight", night).status == 303
    yield "letters, Deal", desk.get("/lesson", lesson).status == 200
    yield "too long a label", desk.post("/tonight/more", {**night, "event": 101 * "Ł"}).status == 422


def bytes_of_lines():
    serving.need()
    with serving.desk() as desk:
        yield from report.each([lessons, contracts, letters, counts, nights, searches], desk)
