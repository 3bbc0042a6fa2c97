"""Sheets of `make --format sheet`, in a checker of HTML, in a browser, and on paper."""

import random
import re
import subprocess

import packages
import pages

LABELS = ["--event", "Pairs & <Teams>", "--site", "Riverside Bridge Club", "--date", "2026.11.25"]
# The least height of a letter on paper, in points.
SMALLEST = 8


def tricks(count):
    """A line of tricks for each board: partners who make the same and who don't, with and without par."""
    lines = []
    for board in range(count):
        ours = [(3 * board + 2 * suit) % 14 for suit in range(5)]
        theirs = [13 - made for made in ours]
        south = [made - (made > 0 and board % 3 == 0) for made in ours]
        west = [made - (made > 0 and board % 5 == 0) for made in theirs]
        digits = "".join(f"{made:x}" for made in (*ours, *south, *theirs, *west))
        lines.append(digits + ("", " NS 450", " EW 1430 6SX-E=,7NX-EW-2")[board % 3])
    return "".join(line + "\n" for line in lines).encode()


# How many random boards are measured, and pars that take much room and little.
MANY = 200
PARS = ("", " NS 0 pass", " NS 450 4H-NS+1", " EW 1430 6NT-E", " NS 300 4H*-EW-2,4S*-EW-2", " EW 1400 7NT*-NS-5,7S*-NS-5")


def random_tricks(count):
    """A line of tricks for each board, with numbers of one and two digits, and partners who make the same or don't."""
    drawn = random.Random(20261129)
    lines = []
    for _ in range(count):
        north, east = ([drawn.randrange(14) for _ in range(5)] for _ in "NE")
        south, west = (drawn.choice([five, five[::-1]]) for five in (north, east))
        lines.append("".join(f"{made:x}" for made in (*north, *south, *east, *west)) + drawn.choice(PARS))
    return "".join(line + "\n" for line in lines).encode()


def sheet(make, count, *words):
    """A sheet of this many boards, with tricks."""
    words = ["--seed", "7", "--candidates", str(count), "--format", "sheet", "--tricks", *words]
    return make(*words, lines=tricks(count))


def checked(make, folder):
    """HTML Tidy has neither an error nor a warning for sheets with tricks, without, and with chosen hands, and for pages
    with tricks."""
    packages.need("tidy", "tidy")
    plain = ["--seed", "7", "--candidates", "27"]
    texts = {f"{count} boards": sheet(make, count, *LABELS) for count in (0, 1, 27)}
    texts["no tricks"] = make(*plain, "--format", "sheet")
    texts["chosen hands"] = make(*plain, "--format", "sheet", "--show", "ew")
    texts["a page"] = make(*plain, "--format", "html", "--tricks", lines=tricks(27))
    for name, text in texts.items():
        file = folder / "checked-sheet.html"
        file.write_bytes(text)
        ended = subprocess.run(["tidy", "-q", "-e", "-utf8", file], capture_output=True, text=True, check=False)
        said = ended.stderr.strip() or None
        yield f"tidy, sheet, {name}", said if ended.returncode == 0 else said or "refused"


def faults_on_screen(measures, columns):
    if measures["columns"] not in columns:
        yield f"{measures['columns']} columns"
    if measures["overflows"]:
        yield "wider than the window"
    if measures["red"] != ["rgb(200, 16, 46)"]:
        yield f"red signs in {measures['red']}"
    if not measures["seated"]:
        yield "a hand is not in its seat"
    for fault in ("cut", "touching"):
        if measures[fault]:
            yield fault


def shown(make, folder):
    """The sheet on a phone and on a desktop's screen, measured; a picture of each."""
    packages.need("chromium", "chromium")
    file = folder / "shown-sheet.html"
    file.write_bytes(sheet(make, 18, *LABELS))
    for name, width, columns in pages.SCREENS:
        found = list(faults_on_screen(pages.measured(folder, file, width), columns))
        yield f"chromium, sheet, {name}", "; ".join(found) or None
        picture = folder / f"sheet-{name}.png"
        pages.chromium(folder, f"--window-size={width},1400", f"--screenshot={picture}", file.as_uri())
        yield f"picture, sheet, {name}", None if picture.stat().st_size > 10_000 else "empty"


def on_paper(text):
    """A page that a screen shows as paper does."""
    return text.replace(b"@media print{", b"@media all{")


# How wide paper is between the margins of A4, in pixels, and how high a board may be there: eight and eighteen on a
# sheet of Letter, which is the lowest.
WIDE = 733
LOOKS = {"page": (["--format", "html"], 226), "sheet": (["--format", "sheet"], 160), "handout": (["--format", "html", "--show", "dealer"], 226)}


def crowded(make, folder):
    """Of many boards nothing is cut or lies over something else, on a phone, a wide screen and paper; contracts of par
    are broken nowhere."""
    packages.need("chromium", "chromium")
    for name, (words, height) in LOOKS.items():
        tricks_too = ["--tricks"] if name != "handout" else []
        words = ["--seed", "20261129", "--candidates", str(MANY), *words, *tricks_too]
        text = make(*words, lines=random_tricks(MANY) if tricks_too else b"")
        for screen, width, shown_text in (("phone", 360, text), ("desktop", 1280, text), ("paper", WIDE, on_paper(text))):
            file = folder / "crowded.html"
            file.write_bytes(shown_text)
            found = pages.measured(folder, file, width)
            faults = [fault for fault in ("cut", "overflows", "crowded", "broken") if found[fault]]
            if found["boards"] != MANY:
                faults.append(f"{found['boards']} boards")
            if screen == "paper" and found["tallest"] > height:
                faults.append(f"a board of {found['tallest']} pixels")
            yield f"many boards, {name}, {screen}", "; ".join(f"{fault}: {found.get(fault)}" for fault in faults) or None


def faults_on_paper(pdf):
    """What is wrong with the sheets of 27 boards: 18 and 9, each whole, with the event, the number and letters of 8
    points."""
    sheets = pages.paper(pdf)
    if len(sheets) != 2:
        yield f"{len(sheets)} sheets"
    for number, (text, boards) in enumerate(zip(sheets, (18, 9)), 1):
        parts = [len(re.findall(part, text)) for part in (r"Dealer\s", r"Vul\s", "♠", "♥", "♦", "♣")]
        # Four hands, the head of the table of tricks, and six spades as par of each third board.
        if parts != [boards] * 2 + [5 * boards + boards // 3] + [5 * boards] * 3:
            yield f"sheet {number} has {parts}"
        if "Pairs & <Teams>, Riverside Bridge Club, 2026.11.25" not in text.replace("\n", " "):
            yield f"sheet {number} without its title"
        if not re.search(rf"^{number}/2$", text, re.M):
            yield f"sheet {number} without its number"
    boxes = subprocess.run(["pdftotext", "-bbox", pdf, "-"], capture_output=True, text=True, check=True).stdout
    heights = [float(low) - float(high) for high, low in re.findall(r'yMin="([\d.]+)".*?yMax="([\d.]+)"', boxes)]
    if min(heights) < SMALLEST:
        yield f"letters of {min(heights)} points"


def printed(make, folder):
    """The sheet on A4 and on Letter."""
    packages.need("chromium", "chromium")
    packages.need("poppler-utils", "pdftotext", "pdfinfo")
    for name, size in (("A4", (595, 842)), ("Letter", (612, 792))):
        file, pdf = folder / "printed-sheet.html", folder / f"sheet-{name}.pdf"
        text = sheet(make, 27, *LABELS)
        file.write_bytes(text.replace(b"</style>", f"@page{{size:{name}}}\n</style>".encode()))
        pages.chromium(folder, "--no-pdf-header-footer", f"--print-to-pdf={pdf}", file.as_uri())
        info = subprocess.run(["pdfinfo", pdf], capture_output=True, text=True, check=True).stdout
        found = [*faults_on_paper(pdf), *pages.faults_of_margins(pdf)]
        points = re.search(r"Page size: +([\d.]+) x ([\d.]+)", info).groups()
        if tuple(round(float(point)) for point in points) != size:
            found.append(f"sheets of {points}")
        yield f"paper, sheet, {name}", "; ".join(found) or None
