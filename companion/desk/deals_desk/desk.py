"""What all pages share: the runs, the nights and the searches; and how an answer is made of a run."""

import dataclasses
from collections.abc import Callable, Iterable
from typing import cast

from flask import Response, current_app, render_template, request

from . import answers, fields, words
from .files import BY_NAME, File
from .nights import Nights
from .runs import Ended, Runner
from .searches import Searches
from .guard import WRITTEN_POLICY


@dataclasses.dataclass
class Desk:
    runner: Runner
    nights: Nights
    searches: Searches


def desk() -> Desk:
    return cast(Desk, current_app.extensions["desk"])


def is_left() -> Callable[[], bool]:
    """What tells whether the browser has gone, if the server can tell."""
    told = request.environ.get("waitress.client_disconnected")
    return cast(Callable[[], bool], told) if callable(told) else lambda: False


def run(command: words.Command, given: bytes = b"") -> Ended:
    return desk().runner.run(command, given, is_left())


class Refused(Exception):
    """What `deals` says of a form."""

    def __init__(self, answer: answers.Answer) -> None:
        super().__init__(answer.line)
        self.answer = answer


def number(text: str) -> int:
    """The number of a text, also where it has a sign; 0 for what is none."""
    try:
        return int(text)
    except ValueError:
        return 0


def bounded(form: words.Form, page: str) -> None:
    """Refuses other numbers of boards than a page may have, which `deals` itself would write or tell the bounds of, and
    what is empty and may not be."""
    most = desk().runner.limits.boards
    boards = form.get("boards", "")
    if number(boards) > most:
        raise Refused(answers.Answer("boards", f"at most {most} boards on a page"))
    if boards and number(boards) < 1:
        raise Refused(answers.Answer("boards", fields.BOARDS_NEEDED.format(most=most)))
    for name, needed in fields.NEEDED[page].items():
        if not form[name]:
            raise Refused(answers.Answer(name, needed.format(most=most)))
    for name, (beside, needed) in fields.BESIDE.items():
        if form.get(name) and not form.get(beside):
            raise Refused(answers.Answer(beside, needed))


def checked(command: words.Command, form: dict[str, str], given: bytes = b"") -> Ended:
    """The run, unless it is refused."""
    ended = run(command, given)
    if ended.status != 0:
        raise Refused(answers.read(ended.said, form))
    return ended


def page(template: str, status: int = 200, **values: object) -> Response:
    text = render_template(template, fields=fields, **values)
    return Response(text, status, content_type="text/html; charset=utf-8")


def written(output: bytes, file: File, name: str) -> Response:
    """What `deals` wrote, as it is."""
    response = Response(output, content_type=file.type)
    response.headers["Content-Security-Policy"] = WRITTEN_POLICY
    if file.saved:
        response.headers["Content-Disposition"] = f'attachment; filename="{name}.{file.ending}"'
    return response


def offered(names: Iterable[str]) -> list[File]:
    """The files of these names that can be had here."""
    has_solver = desk().runner.has(words.TRICKS)
    return [BY_NAME[name] for name in names if has_solver or not BY_NAME[name].tricks]


def command_of(file: File, form: words.Form) -> words.Command:
    """The command that makes a file of the boards that a form asks for."""
    look = (*words.words_of(form, file.asks), *file.look)
    return words.with_tricks(form, look) if file.tricks else words.boards(form, look)


def text_of(file: File, form: dict[str, str]) -> bytes:
    """A file of a form that isn't refused for all files."""
    try:
        return checked(command_of(file, form).hinted(), form).output
    except Refused as refused:
        raise Refused(answers.by_pbn(refused.answer)) from None


def lines(files: Iterable[File], form: words.Form) -> dict[str, str]:
    """The command of each file, to be typed."""
    return {file.name: command_of(file, form).line() for file in files}
