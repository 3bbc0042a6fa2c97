"""Which requests are answered, and what browsers may do with the answers."""

import dataclasses

from flask import Flask, Request, Response, abort, request

# Pages have files of their own alone.
PAGE_POLICY = (
    "default-src 'none'; style-src 'self'; script-src 'self'; img-src 'self'; connect-src 'self'; frame-src 'self'; "
    "form-action 'self'; base-uri 'none'; frame-ancestors 'none'"
)
# A fault is seen where a page has a frame for boards or a table.
FAULT_POLICY = PAGE_POLICY.replace("frame-ancestors 'none'", "frame-ancestors 'self'")
# What `deals` wrote has its style in it, and nothing else: no scripts, but the page around it may print it.
WRITTEN_POLICY = (
    "default-src 'none'; style-src 'unsafe-inline'; base-uri 'none'; form-action 'none'; frame-ancestors 'self'; "
    "sandbox allow-same-origin allow-modals"
)
HEADERS = {
    "X-Content-Type-Options": "nosniff",
    # Not `no-referrer`: with it browsers don't tell the origin of a form.
    "Referrer-Policy": "same-origin",
    "Cross-Origin-Opener-Policy": "same-origin",
    "Cross-Origin-Resource-Policy": "same-origin",
}
# What is told of a request by another name.
OTHER_NAME = "This desk isn't called so: open the address that it told, or start it with deals-desk --name HOST."


@dataclasses.dataclass(frozen=True)
class Guard:
    """The names that this server has in requests, as `127.0.0.1:8270`, in small letters."""

    hosts: frozenset[str]

    def is_own(self, origin: str) -> bool:
        scheme, separator, host = origin.lower().partition("://")
        return bool(separator) and scheme in ("http", "https") and host in self.hosts

    def is_called(self, asked: Request) -> bool:
        """Whether a request came by a name of this server."""
        return asked.headers.get("Host", "").lower() in self.hosts

    def refuses(self, asked: Request) -> bool:
        """Whether a request was sent by the page of another site."""
        origin = asked.headers.get("Origin")
        if origin is not None and not self.is_own(origin):
            return True
        if asked.headers.get("Sec-Fetch-Site", "none") in ("none", "same-origin"):
            return False
        # A link to a lesson may be anywhere.
        return asked.method != "GET" or asked.headers.get("Sec-Fetch-Mode") != "navigate" or asked.headers.get(
            "Sec-Fetch-Dest"
        ) != "document"

    def watch(self, app: Flask) -> None:
        """Refuses what is to be refused, and sets the headers of all answers."""

        @app.before_request
        def refuse() -> None:
            if not self.is_called(request):
                abort(403, OTHER_NAME)
            if self.refuses(request):
                abort(403)

        @app.after_request
        def set_headers(response: Response) -> Response:
            response.headers.setdefault("Content-Security-Policy", PAGE_POLICY)
            response.headers.setdefault("Cache-Control", "no-store")
            for name, value in HEADERS.items():
                response.headers[name] = value
            return response
