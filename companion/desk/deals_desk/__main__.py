"""deals-desk: serves the page on this machine, and opens it in the browser."""

import argparse
import errno
import logging
import os
import re
import shutil
import signal
import socket
import subprocess
import sys
import threading
import webbrowser
from collections.abc import Sequence

import waitress  # type: ignore[import]

from . import limits
from .app import create
from .guard import Guard
from .runs import Runner
from .words import DEALS

HERE, PORT = "127.0.0.1", 8270
MOST_PORT = 65535
LISTEN_HELP = f"the address to listen at [default: {HERE}, this machine alone]"
NAME_HELP = "a name by which browsers may reach it, as deals.example.org; may be given several times"
# Statuses, as `deals` has them.
WORDS, UNABLE = 2, 6
THREADS = 16


def port(text: str) -> int:
    if not re.fullmatch("[0-9]{1,5}", text) or int(text) > MOST_PORT:
        raise argparse.ArgumentTypeError(f"{text}: write a number, 0 to {MOST_PORT}")
    return int(text)


def host(text: str) -> str:
    """A host, which may not be empty: that would be every address of this machine."""
    if not text:
        raise argparse.ArgumentTypeError(f"nothing is given: write an address or a name, as {HERE}")
    return text


def parser() -> argparse.ArgumentParser:
    parse = argparse.ArgumentParser(
        prog="deals-desk",
        description="Bridge deals on a page: serves it on this machine, and opens it in the browser.",
        epilog="End it with Ctrl-C.",
    )
    add = parse.add_argument
    add("--port", type=port, default=PORT, metavar="N", help=f"the port, 0 for any that is free [default: {PORT}]")
    add("--listen", type=host, default=HERE, metavar="ADDRESS", help=LISTEN_HELP)
    add("--name", type=host, action="append", default=[], metavar="HOST", help=NAME_HELP)
    add("--limits", action="store_true", help="bounds for a club's server: fewer boards, less time")
    add("--no-browser", action="store_true", help="don't open a browser")
    add("--version", action="store_true", help="print the version of deals that it runs")
    return parse


def in_address(host: str) -> str:
    """A host as an address has it: IPv6 is in brackets."""
    return f"[{host}]" if ":" in host else host


def hosts(address: str, number: int, names: Sequence[str]) -> frozenset[str]:
    """What browsers may call this server."""
    own = [HERE, "localhost", "[::1]"] if address in (HERE, "::1", "localhost") else [in_address(address)]
    called = [*(f"{name}:{number}" for name in [*own, *names]), *names, *(own if number == 80 else [])]
    return frozenset(name.lower() for name in called)


def open_browser(address: str) -> None:
    """Opens the browser of this machine; in WSL the one of Windows."""
    if "WSL_DISTRO_NAME" in os.environ and shutil.which("explorer.exe"):
        subprocess.run(["explorer.exe", address], check=False, stdout=subprocess.DEVNULL, stderr=subprocess.DEVNULL)
    elif any(name in os.environ for name in ("DISPLAY", "WAYLAND_DISPLAY", "BROWSER")):
        webbrowser.open(address)


def say(text: str) -> None:
    print(f"deals-desk: {text}", file=sys.stderr, flush=True)


def listen(address: str, number: int) -> socket.socket:
    family = socket.AF_INET6 if ":" in address else socket.AF_INET
    listening = socket.socket(family, socket.SOCK_STREAM)
    listening.setsockopt(socket.SOL_SOCKET, socket.SO_REUSEADDR, 1)
    listening.bind((address, number))
    listening.listen(64)
    return listening


def advice(error: OSError, asked: argparse.Namespace) -> str:
    """What helps where the server can't listen."""
    if error.errno == errno.EADDRINUSE:
        return f"is the page open already, at http://{in_address(asked.listen)}:{asked.port}/? else try another by --port"
    return "try a port from 1024 on by --port, or an address of this machine by --listen"


def end_by_signals(runner: Runner) -> None:
    """Lets signals end the runs at once, since the server waits for its pages, and then the server. Those that were
    ignored stay so."""
    ending = [it for it in (signal.SIGINT, signal.SIGTERM, signal.SIGHUP) if signal.getsignal(it) is not signal.SIG_IGN]

    def end(*_: object) -> None:
        for number in ending:
            signal.signal(number, signal.SIG_IGN)
        runner.end_all()
        raise SystemExit(0)

    for number in ending:
        signal.signal(number, end)


def serve(asked: argparse.Namespace, runner: Runner) -> int:
    try:
        listening = listen(asked.listen, asked.port)
    except OSError as error:
        say(f"can't listen at {asked.listen}, port {asked.port}: {error.strerror}\n  {advice(error, asked)}")
        return UNABLE
    number = listening.getsockname()[1]
    app = create(runner, Guard(hosts(asked.listen, number, asked.name)))
    server = waitress.create_server(
        app, sockets=[listening], threads=THREADS, ident=None, channel_request_lookahead=1, channel_timeout=60,
        connection_limit=200, max_request_body_size=limits.BODY, clear_untrusted_proxy_headers=True,
    )
    address = f"http://{in_address(asked.listen)}:{number}/"
    say(f"the page is at {address} until you end it with Ctrl-C")
    if not asked.no_browser:
        threading.Thread(target=open_browser, args=[address], daemon=True).start()
    end_by_signals(runner)
    try:
        server.run()
    except (KeyboardInterrupt, SystemExit):
        pass
    finally:
        runner.end_all()
        app.extensions["desk"].searches.end_all()
    return 0


def main(words: Sequence[str] | None = None) -> int:
    # Where standard error is closed, what is said would go to standard output.
    sys.stderr = sys.stderr or open(os.devnull, "w")
    asked = parser().parse_args(words)
    logging.getLogger("waitress").setLevel(logging.ERROR)
    runner = Runner(limits.CLUB if asked.limits else limits.HOME)
    if not runner.has(DEALS):
        say("deals isn't installed: its package has to be there")
        return UNABLE
    if asked.version:
        subprocess.run([runner.programs[DEALS], "--version"], check=False)
        return 0
    return serve(asked, runner)


if __name__ == "__main__":
    sys.exit(main())
