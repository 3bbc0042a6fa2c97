"""Gives what `make` of the built program writes to programs of others.

Pages go to a checker of HTML, to a browser and onto paper, turned deals to a double-dummy solver, LIN to a viewer of
hand records. README.md beside this file says which. Without `slow` only the
checker and the solver are asked, which take seconds.
"""

import pathlib
import subprocess
import tempfile

import harness
import pages
import report
import sheets
import solver
import viewer

QUICK = [pages.checked, sheets.checked, sheets.crowded, solver.turned]
SLOW = [pages.shown, pages.printed, sheets.shown, sheets.printed, viewer.opened]


def make(*words, lines=b""):
    """What `make` writes, with these lines as its input."""
    return subprocess.run([harness.PROGRAM, "make", *words], input=lines, capture_output=True, check=True).stdout


def programs():
    """Each program of others; with `slow` the browser and the viewer too."""
    with tempfile.TemporaryDirectory(prefix="clients-") as folder:
        yield from report.in_turn(QUICK + (SLOW if report.has("slow") else []), make, pathlib.Path(folder))
