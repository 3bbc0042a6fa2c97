"""The package of deals-desk: what is in it, that it runs from there, its man page, its entry in menus, its unit."""

import pathlib
import re
import subprocess

import harness
import packages
import report
import serving

FOLDER = harness.TOP / "companion" / "desk"
OPTION = re.compile(r"--[a-z-]+")
ENTRY = pathlib.PurePath("usr/share/applications/deals-desk.desktop")


def options_of_man():
    text = (FOLDER / "deals-desk.1").read_text().replace("\\-", "-").partition(".SH OPTIONS")[2].partition(".SH ENV")[0]
    return set(re.findall(r"^\.BI? (--[a-z-]+)", text, re.M))


def options_of_help():
    told = subprocess.run([serving.PYTHON, serving.DESK, "--help"], capture_output=True, text=True, check=True).stdout
    return set(OPTION.findall(told))


def installed(folder):
    """The package, unpacked as it would be installed."""
    subprocess.run([FOLDER / "build", folder], check=True)
    (package,) = folder.glob("deals-desk_*_all.deb")
    root = folder / "root"
    subprocess.run(["dpkg-deb", "-x", package, root], check=True)
    return root


def sources():
    """What the desk is made of, below its folder."""
    return {file.relative_to(FOLDER) for file in (FOLDER / "deals_desk").rglob("*.*") if "__pycache__" not in file.parts}


def package():
    with harness.scratch() as scratch:
        root = installed(pathlib.Path(scratch))
        there = root / "usr" / "share" / "deals-desk"
        yield "all its files", {file.relative_to(there) for file in (there / "deals_desk").rglob("*.*")} == sources()
        yield "the entry that is here", (root / ENTRY).read_bytes() == (FOLDER / ENTRY.name).read_bytes()
        program = root / "usr" / "bin" / "deals-desk"
        with serving.desk(program=program) as desk:
            yield "it serves from there", desk.get("/help").status == 200
    yield "its man page has its options", options_of_man() == options_of_help()
    unit = (FOLDER / "deals-desk.service").read_text()
    used = set(OPTION.findall(re.search(r"^ExecStart=.*", unit, re.M)[0]))
    yield "its unit has options that are there", used <= options_of_help()


def entry():
    """Its entry in menus, which the package has as it is here."""
    packages.need("desktop-file-utils", "desktop-file-validate")
    ended = subprocess.run(["desktop-file-validate", FOLDER / ENTRY.name], capture_output=True, check=False)
    yield "its entry in menus", ended.returncode == 0 and not ended.stdout


def refused_words():
    """Words that can't be read, a port that is taken, and no program: a status and a line."""
    port, listen = "write a number, 0 to 65535", {"DEALS": str(harness.PROGRAM)}
    rows = [
        (["--port", "x"], {}, 2, port), (["--port", "70000"], {}, 2, port), (["--port=-1"], {}, 2, port),
        (["--boards", "3"], {}, 2, "--boards"), ([], {"DEALS": "/nowhere"}, 6, "its package has to be there"),
        (["--listen="], listen, 2, "write an address or a name"),
        (["--name="], listen, 2, "write an address or a name"),
        (["--listen", "192.0.2.1"], listen, 6, "an address of this machine by --listen"),
    ]
    for words, settings, status, said in rows:
        ended = subprocess.run(
            [serving.PYTHON, serving.DESK, "--no-browser", *words], env={"PATH": "/nowhere", **settings}, capture_output=True, text=True, check=False
        )
        yield f"{words}", ended.returncode == status and "Traceback" not in ended.stderr and said in ended.stderr
    closed = subprocess.run(["bash", "-c", '"$@" 2>&-', "", serving.PYTHON, serving.DESK, "--port=x"], capture_output=True, check=False)
    yield "closed error", (closed.returncode, closed.stdout) == (2, b"")
    with serving.desk() as desk:
        settings = {"DEALS": str(harness.PROGRAM)}
        words = [serving.PYTHON, serving.DESK, "--no-browser", "--port", str(desk.port)]
        ended = subprocess.run(words, env=settings, capture_output=True, text=True, check=False)
        yield "a port that is taken", ended.returncode == 6 and "is the page open already" in ended.stderr


def parts():
    serving.need()
    yield from report.each([package, entry, refused_words])
