"""The page for a club's night."""

from collections.abc import Callable

from flask import Blueprint, Response, abort, jsonify, redirect, request
from werkzeug.wrappers import Response as AnyResponse

from . import fields, files, nights, words
from .desk import Refused, bounded, checked, desk, lines, offered, page, text_of, written
from .nights import COOKIE, Night
from .words import DEALS, TRICKS, Command

pages = Blueprint("tonight", __name__)

# What a form of this page may do besides giving a file.
ACTS = ("new", "more", "back", "lines")


def drawn() -> str:
    """A seed that nobody can guess."""
    return checked(Command(((DEALS, "seed"),)), {}).output.decode().strip()


def shown(night: Night, refused: Refused | None = None) -> Response:
    answer = refused.answer if refused else None
    parts = desk().nights.parts(request.cookies.get(COOKIE))
    return page(
        "tonight.html", 422 if refused else 200, form=night, answer=answer, files=offered(files.TONIGHT),
        lines=lines(offered(files.TONIGHT), night), has_solver=desk().runner.has(TRICKS), parts=parts, called=desk().nights.called(request.cookies.get(COOKIE)),
    )


def kept(response: AnyResponse, night: Night, left: Night | None = None) -> AnyResponse:
    """The response, once the night is kept for this browser, and the part that is left. Its name is
    sent after a link of another site too, where the page would begin another night without it;
    others' forms are refused."""
    name = desk().nights.put(request.cookies.get(COOKIE), night, left)
    response.set_cookie(COOKIE, name, httponly=True, samesite="Lax", max_age=int(nights.LASTS))
    return response


def posted() -> Night:
    return words.asked_for(fields.TONIGHT, request.form, "tonight")


@pages.get("/")
def tonight() -> AnyResponse:
    night = desk().nights.get(request.cookies.get(COOKIE))
    if night:
        return shown(night)
    night = nights.first(drawn())
    return kept(shown(night), night)


def answered(act: Callable[[Night], tuple[AnyResponse, Night]], is_left: bool = False) -> AnyResponse:
    """What an act makes of the form's night, and the night after it; the page with the fault, if words are refused. A
    night that is left stays as another part."""
    night = posted()
    try:
        bounded(night, "tonight")
        response, after = act(night)
    except Refused as refused:
        return kept(shown(night, refused), night)
    return kept(response, after, night if is_left else None)


@pages.post("/tonight")
def update() -> AnyResponse:
    """Keeps what the form says."""

    def keep(night: Night) -> tuple[AnyResponse, Night]:
        checked(words.check(night), night)
        return redirect("/", 303), night

    return answered(keep)


@pages.post("/tonight/new")
def anew() -> AnyResponse:
    """Draws another seed."""
    return kept(redirect("/", 303), {**posted(), "seed": drawn()})


@pages.post("/tonight/more")
def more() -> AnyResponse:
    """Goes on after the night's boards."""

    def go_on(night: Night) -> tuple[AnyResponse, Night]:
        checked(words.check(night), night)
        return redirect("/", 303), nights.more(night, drawn())

    return answered(go_on, is_left=True)


@pages.post("/tonight/back")
def back() -> AnyResponse:
    """Goes to another part of the night."""

    def go_back(night: Night) -> tuple[AnyResponse, Night]:
        checked(words.check(night), night)
        parts = desk().nights.parts(request.cookies.get(COOKIE))
        return redirect("/", 303), parts.get(request.form.get("part", ""), night)

    return answered(go_back, is_left=True)


@pages.post("/tonight/lines")
def typed() -> Response:
    """The commands of what the form says now."""
    return jsonify(lines(offered(files.TONIGHT), posted()))


@pages.get("/tonight", defaults={"name": ""})
@pages.get("/tonight/<name>")
def opened(name: str) -> AnyResponse:
    """An act's address that is opened anew, as after a refusal: it leads to the page."""
    if name and name not in (*ACTS, *files.TONIGHT):
        abort(404)
    return redirect("/", 303)


@pages.post("/tonight/<name>")
def file(name: str) -> AnyResponse:
    """One file of the night's boards."""
    if name not in files.TONIGHT:
        abort(404)
    wanted = files.BY_NAME[name]

    def make(night: Night) -> tuple[AnyResponse, Night]:
        checked(words.check(night), night)
        return written(text_of(wanted, night), wanted, "night"), night

    return answered(make)
