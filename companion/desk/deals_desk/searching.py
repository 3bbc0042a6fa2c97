"""The page for a long search."""

from flask import Blueprint, Response, abort, jsonify, redirect, request
from werkzeug.wrappers import Response as AnyResponse

from . import fields, files, words
from .desk import Refused, bounded, checked, desk, page, written
from .lesson import address
from .searches import Search

pages = Blueprint("searching", __name__)


def asked(given: words.Form) -> dict[str, str]:
    return words.asked_for(fields.SEARCH, given, "search")


def shown(form: dict[str, str], refused: Refused | None = None) -> Response:
    answer = refused.answer if refused else None
    return page("search.html", 422 if refused else 200, form=form, answer=answer, key=None)


@pages.get("/search")
def search() -> Response:
    return shown(asked(request.args))


@pages.post("/search")
def start() -> AnyResponse:
    form = asked(request.form)
    try:
        bounded(form, "search")
        checked(words.check_range(form), form)
        checked(words.check(form), form)
    except Refused as refused:
        return shown(form, refused)
    key = desk().searches.start(form, words.search(form))
    return redirect(f"/search/{key}", 303)


def running(key: str) -> Search:
    found = desk().searches.get(key)
    if not found:
        abort(404)
    return found


def state(found: Search) -> dict[str, object]:
    """What a page is told of a search."""
    return {
        "running": found.is_running,
        "progress": found.progress(),
        "found": len(found.numbers),
        "wanted": found.form["boards"],
        "stopped": found.stopped,
        "said": found.lines().strip() if found.has_failed else "",
    }


@pages.get("/search/<key>")
def progress(key: str) -> Response:
    found = running(key)
    form = found.form
    on = {**form, "first": str(found.goes_on_at())}
    return page(
        "search.html", form=form, answer=None, key=key, search=found, state=state(found),
        goes_on=address(on, "search"),
        files=[files.BY_NAME[name] for name in files.SEARCH], find=words.search(form).line(),
        pick=words.found(form, files.BY_NAME["pbn"].look).line(),
    )


@pages.get("/search/<key>/state")
def told(key: str) -> Response:
    return jsonify(state(running(key)))


@pages.get("/search/<key>/stop")
def opened(key: str) -> AnyResponse:
    """The address of a stop that is opened anew leads to the search."""
    return redirect(f"/search/{key}", 303)


@pages.post("/search/<key>/stop")
def stop(key: str) -> AnyResponse:
    running(key).stop()
    return redirect(f"/search/{key}", 303)


@pages.get("/search/<key>/<name>")
def file(key: str, name: str) -> Response:
    found = running(key)
    if name not in files.SEARCH:
        abort(404)
    wanted = files.BY_NAME[name]
    ended = checked(words.found(found.form, wanted.look), found.form, found.given())
    return written(ended.output, wanted, "search")
