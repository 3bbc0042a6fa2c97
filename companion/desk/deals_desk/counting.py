"""The page that tells how often something comes."""

from flask import Blueprint, Response, abort, request

from . import fields, words
from .desk import Refused, bounded, checked, page, written
from .files import HTML, File
from .lesson import address

pages = Blueprint("counting", __name__)

STYLES = {
    "html": File("html", "Page", "", (), HTML, "html"),
    "csv": File("csv", "CSV", "", (), "text/csv; charset=utf-8", "csv", saved=True),
}


def accepted(form: dict[str, str]) -> None:
    """Refuses what is to be refused before anything is counted."""
    bounded(form, "count")
    checked(words.check_range(form), form)
    checked(words.check_count(form), form)


def asked() -> dict[str, str]:
    return words.asked_for(fields.COUNT, request.args, "count")


@pages.get("/count")
def count() -> Response:
    form = asked()
    answer = None
    is_asked = "candidates" in request.args
    if is_asked:
        try:
            accepted(form)
        except Refused as refused:
            answer = refused.answer
    return page(
        "count.html", 422 if answer else 200, form=form, answer=answer,
        address=address(form, "count"), is_counted=is_asked and not answer,
        line=words.count(form, "html").line(),
    )


@pages.get("/count/<style>")
def table(style: str) -> Response:
    form = asked()
    if style not in STYLES:
        abort(404)
    bounded(form, "count")
    ended = checked(words.count(form, style), form)
    return written(ended.output, STYLES[style], "count")


# How many deals are tried to tell how rare hands are: more, if few of the first ones met the condition.
FEW, MANY = 100_000, 3_000_000
ENOUGH = 50


def counted(where: str, candidates: int) -> int:
    """How many of this many deals meet a condition."""
    # A heading, and a line with the deals and the candidates.
    _, line = checked(words.rarity(where, candidates), {"where": where}).output.decode().splitlines()
    return int(line.partition(",")[0])


def rarity(where: str) -> tuple[int, int]:
    """How many deals met a condition, of how many."""
    found = counted(where, FEW)
    return (found, FEW) if found >= ENOUGH else (counted(where, MANY), MANY)
