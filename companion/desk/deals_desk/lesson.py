"""The page for lessons. Its address has all that a lesson is, so that it can be kept and shared."""

from urllib.parse import urlencode

from flask import Blueprint, Response, abort, request

from . import fields, files, starts, words
from .answers import note
from .desk import Refused, bounded, checked, command_of, desk, offered, page, text_of, written
from .runs import Ended
from .words import DEALS, TRICKS, Form

pages = Blueprint("lesson", __name__)


def asked() -> dict[str, str]:
    return words.asked_for(fields.LESSON, request.args, "lesson")


def address(form: Form, page: str) -> str:
    """The words of an address, without what is empty as the page begins."""
    given = {name: value for name, value in form.items() if value or fields.begins_with(page, name)}
    return urlencode(given)


def accepted(form: dict[str, str]) -> Ended:
    """The run that tells that no field is refused."""
    bounded(form, "lesson")
    if words.rules(form):
        checked(words.check_rules(form), form)
    return checked(words.check(form), form)


@pages.get("/lesson")
def lesson() -> Response:
    form = asked()
    answer, noted = None, ""
    is_asked = "boards" in request.args
    if is_asked:
        try:
            noted = note(accepted(form).said)
        except Refused as refused:
            answer = refused.answer
    line = command_of(files.BY_NAME["boards"], form).line()
    return page(
        "lesson.html", 422 if answer else 200, form=form, answer=answer, noted=noted,
        files=offered(files.LESSON), address=address(form, "lesson"), line=line,
        is_dealt=is_asked and not answer, has_solver=desk().runner.has(TRICKS),
        groups=starts.groups(desk().runner.programs.get(DEALS, "")),
    )


@pages.get("/lesson/<name>")
def file(name: str) -> Response:
    form = asked()
    if name not in files.LESSON:
        abort(404)
    wanted = files.BY_NAME[name]
    accepted(form)
    return written(text_of(wanted, form), wanted, "lesson")
