"""What the page asks while somebody types: whether a condition is well, and how rare its hands are."""

from dataclasses import replace

from flask import Blueprint, Response, abort, jsonify, request

from . import fields, words
from .answers import Answer, is_sure, note
from .counting import rarity
from .desk import Refused, checked
from .words import DEALS, Command

pages = Blueprint("checking", __name__)

# The option of `count` by which a text is tried: a condition by itself, a question by what is counted.
TRIED = {"where": "--where", "of": "--of", "by": "--of"}


def text_of(name: str) -> str:
    if name not in TRIED:
        abort(404)
    return words.cleaned(request.form.get("text", ""))


def tried(name: str, text: str) -> tuple[Answer | None, str]:
    """What is refused of a text, if anything is, and what there is to note of it."""
    asked = words.word(TRIED[name], text)
    command = Command(((DEALS, "count", "--seed=1", "--candidates=1", asked),)).hinted()
    try:
        ended = checked(command, {name: text, fields.BY_NAME["of"].name: text} if name == "by" else {name: text})
    except Refused as refused:
        return refused.answer, ""
    return None, note(ended.said)


@pages.post("/check/<name>")
def check(name: str) -> Response:
    """What is wrong with a text, if anything is, or what there is to note of it. A mended text is offered if it surely is
    one: it is tried too."""
    text = text_of(name)
    if not text:
        return jsonify(None)
    answer, noted = tried(name, text)
    if answer and answer.mended is not None and not is_sure(answer, tried(name, answer.mended)[0]):
        answer = replace(answer, mended=None, mend="")
    if answer:
        return jsonify(answer.told())
    return jsonify({"note": noted} if noted else None)


@pages.post("/rarity")
def rare() -> Response:
    """How many of this many deals meet the condition."""
    text = text_of("where")
    try:
        found, tried = rarity(text)
    except Refused:
        return jsonify(None)
    return jsonify({"found": found, "tried": tried})
