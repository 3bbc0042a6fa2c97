"""The page as a program for a web server."""

from urllib.parse import urlencode

from flask import Flask, Response, request
from werkzeug.exceptions import HTTPException

from . import checking, counting, fields, lesson, searching, tonight
from .desk import Desk, Refused, checked, page
from .guard import FAULT_POLICY, Guard
from .limits import BODY
from .nights import Nights
from .runs import Broken, Busy, Left, Missing, Runner, TooLarge, TooLong
from .searches import Searches
from .words import DEALS, Command

# What is said of a run that wasn't, or didn't come to its end: a status, a title and advice.
FAULTS: dict[type[Exception], tuple[int, str, str]] = {
    Busy: (503, "Too much at once", "Other pages keep this machine busy. Wait a few seconds, and try again."),
    Missing: (503, "A program is missing", "Install the package of this name, and start deals-desk anew."),
    TooLong: (504, "This takes longer than a page can wait", "Ask for less. Rare hands are for the page Long search."),
    TooLarge: (413, "This is more than a page can hold", "Ask for fewer boards, or run the command yourself."),
    Broken: (500, "A program broke off", "It may not have written all. Try it again."),
    Left: (503, "Nobody waited", "The browser left before the boards were there."),
}


# What a long search takes over of a page that can't wait.
SEARCHED = ("where", "seed", *fields.SEATS)


def long_search() -> str:
    """The address of a long search for what is asked; nothing where no condition is."""
    given = {name: request.args[name] for name in SEARCHED if request.args.get(name)}
    return f"/search?{urlencode(given)}" if "where" in given else ""


def fault(template: str, status: int, **values: object) -> Response:
    """The page of a fault. One in a frame, as browsers tell, is without what the page around it has."""
    is_framed = request.headers.get("Sec-Fetch-Dest") == "iframe"
    response = page(template, status, is_fault=True, is_framed=is_framed, **values)
    response.headers["Content-Security-Policy"] = FAULT_POLICY
    return response


def say_faults(app: Flask) -> None:
    """A page for each fault."""

    @app.errorhandler(HTTPException)
    def told(error: HTTPException) -> Response:
        return fault("fault.html", error.code or 500, title=error.name, advice=error.description or "", what="")

    @app.errorhandler(Refused)
    def refused(error: Refused) -> Response:
        return fault("refused.html", 422, answer=error.answer)

    @app.errorhandler(Exception)
    def failed(error: Exception) -> Response:
        for kind, (status, title, advice) in FAULTS.items():
            if isinstance(error, kind):
                on = long_search() if kind is TooLong else ""
                return fault("fault.html", status, title=title, advice=advice, what=str(error), long_search=on)
        app.logger.error("a page failed: %s", type(error).__name__)
        return fault("fault.html", 500, title="This page failed", advice="Go back, and try something else.", what="")


def create(runner: Runner, guard: Guard) -> Flask:
    """The program that answers requests."""
    app = Flask(__name__)
    app.config["MAX_CONTENT_LENGTH"] = BODY
    app.jinja_env.trim_blocks = app.jinja_env.lstrip_blocks = True
    app.extensions["desk"] = Desk(runner, Nights(), Searches(runner))
    for part in (tonight, lesson, counting, searching, checking):
        app.register_blueprint(part.pages)
    guard.watch(app)
    say_faults(app)

    @app.get("/help")
    def helped() -> Response:
        """What the pages are for, and the language as `deals` has it."""
        language = checked(Command(((DEALS, "conditions"),)), {}).output.decode()
        return page("help.html", language=language)

    return app
