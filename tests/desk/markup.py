"""The pages' HTML in a checker, and what browsers are told of it."""

import html
import json
import pathlib
import re
import subprocess
import time

import harness
import packages
import report
import serving

BAD = {"where": "hcp(nord)", "boards": "2", "seed": "7"}
PAGES = [
    ("/", {}), ("/lesson", {}), ("/lesson", {"boards": "2", "seed": "7"}), ("/lesson", BAD),
    ("/lesson", {"boards": "2", "north": "AKQ"}), ("/lesson", {"boards": "2", "seed": "<b>"}), ("/lesson/boards", BAD),
    ("/count", {}), ("/count", {"candidates": "10", "of": "nord"}), ("/count", {"candidates": "10", "of": "hcp(north)"}),
    ("/search", {}), ("/help", {}), ("/nothing", {}),
]
# Attributes newer than this checker (inputmode, autocapitalize, aria-current) are none of its faults.
OPTIONS = ("-q", "-e", "-utf8", "--warn-proprietary-attributes", "no")


def tidied(text):
    """What HTML Tidy says of a page."""
    with harness.scratch() as folder:
        file = pathlib.Path(folder) / "page.html"
        file.write_text(text)
        ended = subprocess.run(["tidy", *OPTIONS, file], capture_output=True, text=True, check=False)
    return ended.stderr.strip()


def checked(desk):
    packages.need("tidy", "tidy")
    for path, form in PAGES:
        answer = desk.get(path, form)
        yield f"tidy, {path} {form}", tidied(answer.text) or None
        policy = answer.headers.get("Content-Security-Policy", "")
        yield f"policy, {path}", None if "script-src 'self'" in policy and "unsafe" not in policy else policy
    (key,) = [desk.post("/search", {"where": "hcp(north)>=30", "boards": "1"}).headers["Location"]]
    yield "tidy, a search", tidied(desk.get(key).text) or None
    desk.post(f"{key}/stop", {})
    yield "tidy, a search that is stopped", tidied(desk.get(key).text) or None


def empty(desk):
    """A field that may not be empty is told by the desk's own words, and by no option; pages say it at the field."""
    lesson, count, night = {"boards": "2", "seed": "7"}, {"candidates": "10", "seed": "7"}, {"boards": "2", "seed": "7", "first_board": "1"}
    columns = {**count, "by": "hcp(south)"}
    for ask, path, form, name, said in [
        (desk.get, "/lesson", lesson, "seed", "write a number, 0 to 4294967295"),
        (desk.get, "/lesson/pbn", lesson, "seed", "write a number, 0 to 4294967295"),
        (desk.get, "/lesson/boards", lesson, "boards", "say how many boards, 1 to "),
        (desk.get, "/count", count, "seed", "write a number, 0 to 4294967295"),
        (desk.get, "/count/csv", count, "candidates", "say how many deals are tried"),
        (desk.get, "/count", columns, "of", "columns come beside what is counted"),
        (desk.get, "/count/csv", columns, "of", "columns come beside what is counted"),
        (desk.post, "/search", lesson, "seed", "write a number, 0 to 4294967295"),
        (desk.post, "/tonight", night, "seed", "draw another seed"),
        (desk.post, "/tonight/more", night, "seed", "draw another seed"),
        (desk.post, "/tonight/sheet", night, "seed", "draw another seed"),
    ]:
        answer = ask(path, {**form, name: ""})
        _, _, refusal = answer.text.partition(f'<div class="refusal" id="{name}-refusal" role="alert">')
        told = refusal.partition("</div>")[0]
        yield f"{path} without {name}", answer.status == 422 and said in told and "--" not in told
        yield f"tidy, {path} without {name}", not tidied(answer.text)


def boards(desk):
    """A number of boards that is refused is told in the page's own bounds."""
    for number in ("0", "-3", "1e3", "x"):
        form = {"seed": "7", "boards": number, "first_board": "1"}
        for ask, path in ((desk.get, "/lesson"), (desk.get, "/lesson/pbn"), (desk.post, "/search"), (desk.post, "/tonight/pbn")):
            answer = ask(path, form)
            told = answer.text.partition('id="boards-refusal"')[2].partition("</div>")[0]
            yield f"{path}, {number} boards", answer.status == 422 and "say how many boards, 1 to 1000" in told and "--" not in told


# Numbers of deals that are refused, with what is said of them.
DEALS_TO_TRY = [
    ("1e6", "for «Deals to try»"), ("1,000", "write digits alone: «Deals to try» 1000"),
    ("-3", "a whole number"), ("10000000000000", "«Deals to try» 10000000000000: 0 to 1099511627776"),
]


def deals_to_try(desk):
    """A number of deals that is refused is told at its field before anything is searched."""
    for number, said in DEALS_TO_TRY:
        form = {"seed": "7", "boards": "4", "candidates": number, "where": "hcp(north)>=31"}
        for ask, path in ((desk.get, "/count"), (desk.post, "/search")):
            answer = ask(path, form)
            told = answer.text.partition('id="candidates-refusal"')[2].partition("</div>")[0]
            is_told = said in told and "--" not in told and "<iframe" not in answer.text
            yield f"{path}, {number}", answer.status == 422 and is_told
    answer = desk.post("/search", {"seed": "7", "candidates": "", "boards": "1", "where": "hcp(north)>=20"})
    yield "all deals", answer.status == 303
    answer = desk.get("/count", {"seed": "7", "candidates": "10", "of": "nord"})
    yield "a fault of another field", 'id="of-refusal"' in answer.text
    for first, name, said in [
        ("1099511627776", "candidates", "«Deals to try» 4: 0 to 0 from where it begins"),
        ("1099511627777", "first", "«Begin at deal» 1099511627777: 0 to 1099511627776"),
    ]:
        form = {"seed": "7", "first": first, "candidates": "4", "boards": "1"}
        answer = desk.post("/search", form)
        told = answer.text.partition(f'id="{name}-refusal"')[2].partition("</div>")[0]
        yield f"a place to begin that is too far, {first}", answer.status == 422 and said in told


# A request for what a page has in a frame.
FRAMED = {"Sec-Fetch-Dest": "iframe", "Sec-Fetch-Mode": "navigate", "Sec-Fetch-Site": "same-origin"}


def framed(desk):
    """A fault is seen in a frame of this site's pages alone, and is short there."""
    for path in ("/lesson/boards?show=foo&boards=2&seed=7", "/count/html?candidates=1e6&seed=7", "/search/gone/boards"):
        for headers in (FRAMED, None):
            answer = desk.get(path, headers=headers)
            policy = answer.headers["Content-Security-Policy"]
            yield f"{path}: may be in a frame", answer.status in (404, 422) and policy.endswith("frame-ancestors 'self'")
            yield f"{path}: links leave the frame", '<base target="_top">' in answer.text
            yield f"{path}: links of pages, {headers}", ("<nav" in answer.text) == (headers is None)
            yield f"tidy, {path}", not tidied(answer.text)
    for path in ("/", "/lesson", "/lesson?boards=x", "/count", "/search", "/help"):
        yield f"{path}: in no frame", desk.get(path).headers["Content-Security-Policy"].endswith("frame-ancestors 'none'")


def contracts(desk):
    """A contract that can't be read is told at its field, and boards with contracts say that sides turn with hands."""
    form = {"boards": "1", "seed": "7", "where": "len(south,spades)>=6", "makes": "4S-NS"}
    answer = desk.get("/lesson", {**form, "makes": "4s-ns"})
    told = answer.text.partition('id="makes-refusal"')[2].partition("</div>")[0]
    is_told = "«A contract that makes» 4s-ns" in told and "--" not in told
    yield "a faulty contract", answer.status == 422 and is_told and "<iframe" not in answer.text
    yield "tidy, a faulty contract", not tidied(answer.text)
    yield "its file", desk.get("/lesson/pbn", {**form, "makes": "4s-ns"}).status == 422
    answer = desk.get("/lesson", {**form, "beaten": "3NT-NS 4S-NS"})
    yield "contracts that no board meets", answer.status == 422 and "no board meets both" in answer.text.partition('id="makes-refusal"')[2]
    for turn, is_told in (("turn", True), ("S", False)):
        page = desk.get("/lesson", {**form, "turn": turn}).text
        yield f"sides turn: {turn}", ("The sides turn with the hands" in page) == is_told and "<iframe" in page


# A text, and the text that its button gives; none where a hint is for more or less than what it would replace.
MENDS = [
    ("hcp(nord)>=15", "hcp(north)>=15"),
    ("hcp(nord)>=15 and hcp(sud)>=3", "hcp(north)>=15 and hcp(sud)>=3"),
    ("hcp(north) is 15", "hcp(north) == 15"),
    ("hcp(north)=5-9", "hcp(north) in 5-9"),
    ("(hcp(north)+hcp(south))>=25", "hcp(north)+hcp(south)>=25"),
    ("shape(north,5332)", "shape(north,5-3-3-2)"),
    ("not (hcp(north)+hcp(south))>=25", None),
    ("not shape(north,5332)", None),
    ("any suit (len(north,suit)==5-6)", None),
    ("every suit (len(north,suit)==2-5)", None),
    ("let nt(seat) is (unbalanced(seat)) nt(north)", None),
    ("# a weak hand\nhcp(north)=5-9", None),
    ("hcp(north)=5-9 # a weak hand", None),
    ("hcp(north)=5-9 & hcp(south)>=3", None),
    ("hcp(north)=5-9, hcp(south)>=3", None),
    ("hcp(north)=5-9\nhcp(south)>=3", None),
    ("hcp north >= 15", None),
    ("aces(north)==2", None),
    ("top3(north,spades)>=2", None),
    ("hcp(north+south)>=25", None),
    ("[hcp north] >= 15", None),
    ("no suit (len(north,suit)>=5)", None),
    ("Punkte(nord)>=15", None),
    ("hcp(s\u00fcd)>=12", None),
    ("hcp(nord", None),
]


# A text, and the hint below it, which says nothing of a shell.
HINTS = [
    ("of", "hcp", "hint: say whose, as in hcp(north)"),
    ("of", "longest", "hint: say whose, as in longest(north)"),
    ("where", "\u201chcp(north)>=15\u201d", "hint: leave the quotes out"),
    ("where", "@file", "hint: the text itself goes here"),
    ("where", "./file.cond", "hint: the text itself goes here"),
    ("where", "$(cat file)", "hint: the text itself goes here"),
]


def hints(desk):
    """Hints are for who writes on a page."""
    for name, text, hint in HINTS:
        answer = json.loads(desk.post(f"/check/{name}", {"text": text}).text)
        yield f"hint: {text}", hint in answer["text"].splitlines() and "shell" not in json.dumps(answer)
    page = desk.get("/count", {"seed": "7", "candidates": "10", "of": "hcp"}).text
    yield "on the page too", "hint: say whose, as in hcp(north)\n" in page.replace("<", "\n")


def mends(desk):
    """A button writes what a hint surely means: the word in the marked place, or the whole of a text that is one test."""
    for text, mended in MENDS:
        answer = json.loads(desk.post("/check/where", {"text": text}).text)
        yield f"mended: {text}", answer["mended"] == mended and bool(answer["mend"]) == (mended is not None)
        yield f"accepted: {mended}", mended is None or "sud" in mended or not json.loads(desk.post("/check/where", {"text": mended}).text)
    for name in ("of", "by"):
        answer = json.loads(desk.post(f"/check/{name}", {"text": "hcp(nord)"}).text)
        yield f"mended in {name}", answer["mended"] == "hcp(north)"


def rare(desk):
    """A page of rare hands notes nothing of the one deal that is tried to check its words."""
    page = desk.get("/lesson", {"boards": "1", "seed": "7", "where": "hcp(north)>=26"}).text
    yield "nothing is noted", "<iframe" in page and 'class="note"' not in page and "asked for" not in page


def secret(desk):
    """The seed of tonight is in no address and no cookie, and nothing with it is kept by browsers."""
    first = desk.get("/")
    seed = first.text.partition('name="seed" value="')[2].partition('"')[0]
    cookie = first.headers["Set-Cookie"]
    yield "a seed", seed.isdigit()
    yield "not in the cookie", seed not in cookie and "HttpOnly" in cookie and "SameSite=Lax" in cookie
    yield "not kept", first.headers["Cache-Control"] == "no-store"
    same = desk.get("/", headers={"Cookie": cookie.partition(";")[0]})
    yield "the same night when it is loaded again", f'value="{seed}"' in same.text
    other = desk.get("/")
    yield "another seed for somebody else", f'value="{seed}"' not in other.text
    form = {"seed": seed, "boards": "27", "first_board": "1", "event": "A"}
    more = desk.post("/tonight/more", form, headers={"Cookie": cookie.partition(";")[0]})
    yield "more boards", more.status == 303 and more.headers["Location"] == "/"
    next_page = desk.get("/", headers={"Cookie": cookie.partition(";")[0]}).text
    yield "they go on, by another seed", 'value="28"' in next_page and f'value="{seed}"' not in next_page


def opened(desk):
    """The address of a form that was refused leads back to its page when it is opened anew, and acts nothing."""
    own = {"Cookie": desk.get("/").headers["Set-Cookie"].partition(";")[0]}
    night = values(desk.get("/", headers=own).text)
    for path in ("/tonight", "/tonight/more", "/tonight/new", "/tonight/back", "/tonight/pbn", "/tonight/sheet"):
        answer = desk.get(path, headers=own)
        yield f"{path} opened anew", answer.status == 303 and answer.headers["Location"] == "/"
    yield "the night is as it was", values(desk.get("/", headers=own).text) == night
    yield "no such address", desk.get("/tonight/nothing").status == 404
    key = desk.post("/search", {"where": "hcp(north)>=30", "boards": "1", "candidates": "10"}).headers["Location"]
    yield "a stop opened anew", desk.get(f"{key}/stop").headers.get("Location") == key


def values(page):
    """What the form of tonight has on a page."""
    return {name: html.unescape(value) for name, value in re.findall(r'name="(\w+)" value="([^"]*)" maxlength', page)}


def parts(desk):
    """Boards that are left for more boards stay on the page with their seeds, which are in no address, and come back."""
    own = {"Cookie": desk.get("/").headers["Set-Cookie"].partition(";")[0]}
    first = {**values(desk.get("/", headers=own).text), "event": "A & B", "boards": "24"}
    yield "no other part", "Other boards" not in desk.get("/", headers=own).text
    desk.post("/tonight/more", first, headers=own)
    page = desk.get("/", headers=own).text
    second = values(page)
    yield "tidy, another part", not tidied(page)
    yield "the part is there", page.count("Boards 1 to 24, A &amp; B: ") == 1 and f"<p>Seed {first['seed']}</p>" in page
    (name,) = re.findall(r'name="part" value="([^"]+)"', page)
    back = desk.post("/tonight/back", {**second, "part": name}, headers=own)
    page = desk.get("/", headers=own).text
    is_secret = back.headers["Location"] == "/" and first["seed"] not in back.headers["Set-Cookie"] + name
    yield "back to the part", back.status == 303 and is_secret and values(page) == first
    yield "the other one stays", f"<p>Seed {second['seed']}</p>" in page and page.count("Boards 25 to 27, A &amp; B: ") == 1
    desk.post("/tonight/back", {**first, "part": name}, headers=own)
    yield "no such part", values(desk.get("/", headers=own).text) == first
    yield "a fault first", desk.post("/tonight/back", {**first, "boards": "x", "part": name}, headers=own).status == 422
    yield "a faulty part is left out", "Boards x" not in desk.get("/", headers=own).text
    for form in (first, second, first):
        desk.post("/tonight", form, headers=own)
    yield "another tab's stay", f"<p>Seed {second['seed']}</p>" in desk.get("/", headers=own).text
    desk.post("/tonight/new", first, headers=own)
    page = desk.get("/", headers=own).text
    yield "the same boards aren't another part", f"Seed {first['seed']}<" not in page and f"Seed {second['seed']}<" in page
    # As deals itself takes them.
    signed = {**first, "seed": "+5", "boards": "+3", "first_board": "+1"}
    yield "numbers with signs", desk.post("/tonight/more", signed, headers=own).status == 303
    page = desk.get("/", headers=own).text
    yield "a part with signs", "<p>Seed +5</p>" in page and "Boards 1 to 3, A &amp; B: " in page
    anew = desk.post("/tonight/more", first)
    page = desk.get("/", headers={"Cookie": anew.headers["Set-Cookie"].partition(";")[0]}).text
    yield "a night that was forgotten", f"<p>Seed {first['seed']}</p>" in page
    yield "nobody else's", "Other boards" not in desk.get("/").text


def alike(desk):
    """Parts of the same boards and event, as two tabs leave them, are told apart by when their seeds came."""
    own = {"Cookie": desk.get("/").headers["Set-Cookie"].partition(";")[0]}
    night = values(desk.get("/", headers=own).text)
    time.sleep(1.1)
    desk.post("/tonight/new", night, headers=own)
    for part in (night, {**night, "seed": "3", "event": "Juniors"}, {**night, "seed": "4", "event": ""}):
        desk.post("/tonight/more", part, headers=own)
    names = re.findall(r"<summary>Boards (1 to 27.*): show or hide", desk.get("/", headers=own).text)
    timed = [name for name in names if re.fullmatch(r"1 to 27, Club night, seed of \d\d:\d\d:\d\d", name)]
    yield f"parts are called {names}", len(names) == len(set(names)) == 4 and len(timed) == 2
    yield "others by their event alone", {"1 to 27, Juniors", "1 to 27"} <= set(names)


def pages():
    serving.need()
    with serving.desk() as desk:
        yield from checked(desk)
        judged = [empty, contracts, boards, deals_to_try, framed, mends, hints, rare, secret, opened, parts, alike]
        yield from report.each(judged, desk)
