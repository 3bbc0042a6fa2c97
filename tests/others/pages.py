"""Pages of `make --format html`, in a checker of HTML, in a browser, and on paper."""

import html
import json
import pathlib
import re
import subprocess

import packages

HERE = pathlib.Path(__file__).resolve().parent
LABELS = ["--event", "Pairs & <Teams>'s final", "--site", "a&lt;b" * 16, "--date", "2026.11.22"]
# The screens that it is looked at on, with how many boards are side by side there.
SCREENS = [("small phone", 320, {1}), ("phone", 360, {1}), ("wide phone", 390, {1, 2}), ("desktop", 1280, {3, 4})]


def checked(make, folder):
    """HTML Tidy has neither an error nor a warning for pages of none, some and many boards."""
    packages.need("tidy", "tidy")
    for count in (0, 1, 16, 36):
        for labels in ([], LABELS):
            file = folder / "checked.html"
            file.write_bytes(make("--seed", "7", "--candidates", str(count), "--format", "html", *labels))
            ended = subprocess.run(["tidy", "-q", "-e", "-utf8", file], capture_output=True, text=True, check=False)
            said = ended.stderr.strip() or None
            name = f"tidy, {count} boards, {'labels' if labels else 'no labels'}"
            yield name, said if ended.returncode == 0 else said or "refused"


def chromium(folder, *words):
    packages.need("chromium", "chromium")
    options = ["--headless", "--no-sandbox", "--disable-gpu", "--hide-scrollbars", "--allow-file-access-from-files"]
    options += [f"--user-data-dir={folder / 'profile'}", "--virtual-time-budget=10000"]
    ended = subprocess.run(["chromium", *options, *words], capture_output=True, text=True, timeout=120, check=True)
    return ended.stdout


def measured(folder, file, width):
    """What the browser makes of a page in a window of this width."""
    text = chromium(folder, "--dump-dom", f"{(HERE / 'measure.html').as_uri()}#{width},{file.as_uri()}")
    return json.loads(html.unescape(re.search(r'data-measures="([^"]*)"', text).group(1)))


def faults_on_screen(measures, columns):
    """What is wrong with a page on a screen that has room for this many columns."""
    if measures["columns"] not in columns:
        yield f"{measures['columns']} columns"
    if measures["overflows"]:
        yield "wider than the window"
    if measures["red"] != ["rgb(200, 16, 46)"] or measures["black"] != ["rgb(17, 17, 17)"]:
        yield f"signs in {measures['red']} and {measures['black']}"
    if not measures["seated"]:
        yield "a hand is not in its seat"
    for fault in ("cut", "wrapped", "touching"):
        if measures[fault]:
            yield fault


def shown(make, folder):
    """The page on a phone and on a desktop's screen, measured; a picture of each."""
    packages.need("chromium", "chromium")
    file = folder / "shown.html"
    file.write_bytes(make("--seed", "7", "--candidates", "16", "--format", "html", *LABELS))
    for name, width, columns in SCREENS:
        found = list(faults_on_screen(measured(folder, file, width), columns))
        yield f"chromium, {name}", "; ".join(found) or None
        picture = folder / f"page-{name}.png"
        chromium(folder, f"--window-size={width},1400", f"--screenshot={picture}", file.as_uri())
        yield f"picture, {name}", None if picture.stat().st_size > 10_000 else "empty"


def paper(pdf):
    """The sheets of a PDF, as text."""
    text = subprocess.run(["pdftotext", "-raw", pdf, "-"], capture_output=True, text=True, check=True).stdout
    return text.split("\f")[:-1]


def faults_on_paper(sheets, count):
    """What is wrong with the sheets of this many boards."""
    boards = [len(re.findall(r"Board \d", sheet)) for sheet in sheets]
    if sum(boards) != count:
        yield f"{sum(boards)} boards"
    if any(number < (8 if sheet else 6) for sheet, number in enumerate(boards[:-1])):
        yield f"few boards on a sheet: {boards}"
    for sheet, number in zip(sheets, boards):
        parts = [len(re.findall(part, sheet)) for part in (r"Dealer\s", r"Vul\s", "♠", "♥", "♦", "♣", r"\d\s+HCP")]
        if parts != [number] * 2 + [4 * number] * 5:
            yield "a board is broken over two sheets"


def faults_of_margins(pdf):
    """The borders of the boards are as far from the left edge as from the right one, so none is cut off."""
    packages.need("poppler-utils", "pdftoppm")
    picture = subprocess.run(["pdftoppm", "-r", "100", "-gray", "-f", "1", "-l", "1", pdf], capture_output=True, check=True)
    _, size, _, grays = picture.stdout.split(b"\n", 3)
    width, height = map(int, size.split())
    # Rows in the middle of the sheet have boards and no heading.
    dark = [x for y in range(height // 3, height // 2) for x in range(width) if grays[y * width + x] < 230]
    if not dark or abs(min(dark) - (width - 1 - max(dark))) > 4:
        yield f"borders {min(dark, default=0)} from the left and {width - 1 - max(dark, default=0)} from the right"


def printed(make, folder):
    """The page on A4 and on Letter."""
    packages.need("chromium", "chromium")
    packages.need("poppler-utils", "pdftotext", "pdfinfo")
    for name, size in (("A4", (595, 842)), ("Letter", (612, 792))):
        for labels in ([], LABELS):
            file, pdf = folder / "printed.html", folder / f"page-{name}.pdf"
            text = make("--seed", "7", "--candidates", "36", "--format", "html", *labels)
            file.write_bytes(text.replace(b"</style>", f"@page{{size:{name}}}\n</style>".encode()))
            chromium(folder, "--no-pdf-header-footer", f"--print-to-pdf={pdf}", file.as_uri())
            info = subprocess.run(["pdfinfo", pdf], capture_output=True, text=True, check=True).stdout
            found = [*faults_on_paper(paper(pdf), 36), *faults_of_margins(pdf)]
            if labels and not all("Pairs & <Teams>'s final" in sheet for sheet in paper(pdf)):
                found.append("a sheet without the title")
            points = re.search(r"Page size: +([\d.]+) x ([\d.]+)", info).groups()
            if tuple(round(float(point)) for point in points) != size:
                found.append(f"sheets of {points}")
            yield f"paper, {name}, {'labels' if labels else 'no labels'}", "; ".join(found) or None
