"""Deals that `--rotate` turned, and a double-dummy solver."""

import pathlib
import re
import subprocess

import packages

HERE = pathlib.Path(__file__).resolve().parent
BOARDS = 8


def solver(folder):
    packages.need("g++", "g++")
    packages.need("libdds-dev", "/usr/include/dds/dll.h")
    program = folder / "tables"
    subprocess.run(["g++", "-O2", "-Wall", "-Wextra", "-o", program, HERE / "tables.cpp", "-ldds"], check=True)
    return program


def solved(program, text):
    """The table of each deal of a PBN text: five rows, each of North's, East's, South's and West's tricks."""
    deals = re.findall(r'^\[Deal "([^"]*)"\]$', text.decode(), re.M)
    ended = subprocess.run([program], input="\n".join(deals), capture_output=True, text=True, timeout=300, check=True)
    for line in ended.stdout.splitlines():
        tricks = [int(word) for word in line.split()] if line != "refused" else None
        yield tricks and [tricks[4 * strain:4 * strain + 4] for strain in range(5)]


def turned(make, folder):
    """The solver takes the turned deals, and what North made in the deal as it was, the dealer makes in the turned
    one."""
    program = solver(folder)
    words = ["--seed", "2026", "--candidates", str(BOARDS)]
    straight, rotated = (list(solved(program, make(*words, *more))) for more in ([], ["--rotate"]))
    yield "libdds, how many boards", None if len(straight) == BOARDS else f"{len(straight)}, and not {BOARDS}"
    for index, (before, after) in enumerate(zip(straight, rotated, strict=True)):
        dealer = index % 4
        if before is None or after is None:
            said = "refused"
        else:
            wanted = [[row[(seat - dealer) % 4] for seat in range(4)] for row in before]
            said = None if after == wanted else f"{after} in place of {wanted}"
        yield f"libdds, board {index + 1}", said
