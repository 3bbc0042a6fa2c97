"""What `count` writes, worked out from docs/COUNTING.md alone: the sentence, tables, comma-separated values, and what
the cells of a page say. Answers are numbers; those of a condition are 0 and 1, which are written `no` and `yes`.
"""

import fractions
import html.parser
import json
import math


def rounded(fraction, digits):
    """The fraction in decimal, rounded to this many digits, the half up; commas in its whole part."""
    scaled = math.floor(fraction * 10**digits + fractions.Fraction(1, 2))
    whole, rest = divmod(scaled, 10**digits)
    return f"{whole:,}.{rest:0{digits}}"


def sentence(deals, candidates):
    text = f"{deals:,} of {candidates:,} deals"
    if candidates:
        text += f": {rounded(fractions.Fraction(100 * deals, candidates), 3)} %"
    if deals:
        one_in = math.floor(fractions.Fraction(candidates, deals) + fractions.Fraction(1, 2))
        if one_in >= 2:
            text += f", one in {one_in:,}"
    return text


def title(text):
    return text if len(text.encode()) <= 72 and all(" " <= sign <= "~" for sign in text) else "value"


def numbers(kind, answers):
    """The numbers that have a row or a column."""
    return [0, 1] if kind == "condition" else list(range(min(answers), max(answers) + 1))


def named(kind, number):
    return ["no", "yes"][number] if kind == "condition" else f"{number:,}"


def mean(answers, digits):
    return rounded(fractions.Fraction(sum(answers), len(answers)), digits)


def deviation(answers):
    count = len(answers)
    variance = fractions.Fraction(sum(a * a for a in answers), count) - fractions.Fraction(sum(answers), count) ** 2
    return f"{math.isqrt(math.floor(10**6 * variance)) // 1000:,}.{math.isqrt(math.floor(10**6 * variance)) % 1000:03}"


def mean_line(answers):
    return f"mean {mean(answers, 3)}, standard deviation {deviation(answers)}"


def columns(rows, least):
    """The lines of rows of cells, each column as wide as its widest and at least so wide, and set right."""
    widths = [max(floor, *(len(row[place]) for row in rows)) for place, floor in enumerate(least)]
    return ["  ".join(cell.rjust(width) for cell, width in zip(row, widths)) for row in rows]


def rows_of_one(kind, answers):
    """Each number with how many deals there are and their share of all."""
    for number in numbers(kind, answers):
        count = answers.count(number)
        yield named(kind, number), count, rounded(fractions.Fraction(100 * count, len(answers)), 2)


def one(text, kind, answers):
    rows = list(rows_of_one(kind, answers))
    most = max(count for _, count, _ in rows)
    cells = [["value", "deals", "%"], *([name, f"{count:,}", share] for name, count, share in rows)]
    head, *lines = columns(cells, [5, 5, 6])
    bars = [max(1, (80 * count + most) // (2 * most)) if count else 0 for _, count, _ in rows]
    body = [line + ("  " + "█" * bar if bar else "") for line, bar in zip(lines, bars)]
    after = [] if kind == "condition" else ["", mean_line(answers)]
    return ["", title(text), head, *body, *after]


def count_or_dash(count):
    return f"{count:,}" if count else "-"


def mean_or_dash(answers):
    return mean(answers, 2) if answers else "-"


def cells_of_two(of, by, pairs):
    """The rows of the table of two questions, without its header: names, then a cell for each column, then `all`."""
    across = numbers(by, [column for _, column in pairs])
    for row in numbers(of, [row for row, _ in pairs]):
        found = [pairs.count((row, column)) for column in across]
        yield [named(of, row), *map(count_or_dash, found), count_or_dash(sum(found))]
    parts = [[row for row, answer in pairs if answer == column] for column in across]
    yield ["all", *(count_or_dash(len(part)) for part in parts), count_or_dash(len(pairs))]
    if of == "value":
        yield ["mean", *map(mean_or_dash, parts), mean_or_dash([row for row, _ in pairs])]


def header_of_two(by, pairs):
    return ["value", *(named(by, number) for number in numbers(by, [column for _, column in pairs])), "all"]


def two(texts, of, by, pairs):
    rows = [header_of_two(by, pairs), *cells_of_two(of, by, pairs)]
    return ["", " by ".join(map(title, texts)), *columns(rows, [0] * len(rows[0]))]


def plain(kind, number):
    return named(kind, number).replace(",", "")


def csv(kinds, answers, candidates):
    if not kinds:
        return ["deals,candidates", f"{len(answers)},{candidates}"]
    if len(kinds) == 1:
        return ["value,deals", *(f"{plain(kinds[0], n)},{answers.count(n)}" for n in sorted(set(answers)))]
    lines = [
        f"{plain(kinds[0], row)},{plain(kinds[1], column)},{answers.count((row, column))}"
        for row, column in sorted(set(answers))
    ]
    return ["value,by,deals", *lines]


def counted(kinds, answers):
    """A question's members of JSON: the numbers that came, and of a value its sums."""
    if len(kinds) == 2:
        return {"values": [[*pair, answers.count(pair)] for pair in sorted(set(answers))]}
    sums = {"sum": sum(answers), "squares": sum(n * n for n in answers)} if kinds[0] == "value" else {}
    return {"values": [[n, answers.count(n)] for n in sorted(set(answers))], **sums}


def as_object(deals, candidates, asked):
    """The whole object, as Python's own writer of JSON has it."""
    whole = {"candidates": candidates, "deals": deals, "questions": asked}
    return json.dumps(whole, ensure_ascii=False, separators=(",", ":"))


def as_json(texts, kinds, answers, candidates):
    asked = [{**dict(zip(["of", "by"], texts)), **counted(kinds, answers)}] if kinds else []
    return as_object(len(answers), candidates, asked)


def each(style, texts, kinds, answers, candidates):
    """The lines of several questions: the answers to each are in a list of their own."""
    deals, asked = len(answers[0]), list(zip(texts, kinds, answers))
    if style == "json":
        return [as_object(deals, candidates, [{"of": text, **counted([kind], found)} for text, kind, found in asked])]
    if style == "csv":
        rows = [[f"{number},{plain(kind, n)},{found.count(n)}" for n in sorted(set(found))]
                for number, (_, kind, found) in enumerate(asked, 1)]
        return ["question,value,deals", f"0,candidates,{candidates}", f"0,deals,{deals}", *sum(rows, [])]
    return [sentence(deals, candidates), *sum((one(*question) for question in asked if deals), [])]


def table(texts, kinds, answers, candidates):
    """The text of a table: of no question, one, or two; then each answer is a pair."""
    lines = [sentence(len(answers), candidates)]
    if answers and len(kinds) == 1:
        lines += one(texts[0], kinds[0], answers)
    if answers and len(kinds) == 2:
        lines += two(texts, *kinds, answers)
    return lines


def page(texts, kinds, answers, candidates):
    """What a page says: its heading, its lines of text, and the cells of its table."""
    heading = " by ".join(map(title, texts)) or "Deals"
    lines = [sentence(len(answers), candidates)]
    cells = []
    if answers and len(kinds) == 1:
        cells = [["value", "deals", "%", ""]]
        cells += [[name, f"{count:,}", share, ""] for name, count, share in rows_of_one(kinds[0], answers)]
        if kinds[0] == "value":
            lines.append(mean_line(answers))
    if answers and len(kinds) == 2:
        cells = [header_of_two(kinds[1], answers), *cells_of_two(*kinds, answers)]
    return heading, lines, cells


def written(style, texts, kinds, answers, candidates):
    """The bytes of a table, or of comma-separated values."""
    lines = csv(kinds, answers, candidates) if style == "csv" else table(texts, kinds, answers, candidates)
    return ("\n".join(lines) + "\n").encode()


class Page(html.parser.HTMLParser):
    """Reads a page: its title and heading, its lines of text, the cells of its table, and its bars and shades."""

    def __init__(self, text):
        super().__init__()
        self.parts, self.open, self.cells, self.styles = {"title": [], "h1": [], "p": []}, [], [], []
        self.feed(text)

    def handle_starttag(self, tag, attrs):
        self.open.append(tag)
        self.styles += [value for name, value in attrs if name == "style"]
        if tag == "tr":
            self.cells.append([])
        elif tag in ("th", "td"):
            self.cells[-1].append("")
        elif tag in self.parts:
            self.parts[tag].append("")
        if tag == "meta":
            self.open.pop()

    def handle_endtag(self, tag):
        if self.open.pop() != tag:
            raise ValueError(f"</{tag}> closes another")

    def handle_data(self, data):
        if self.open and self.open[-1] in ("th", "td"):
            self.cells[-1][-1] += data
        elif self.open and self.open[-1] in self.parts:
            self.parts[self.open[-1]][-1] += data


def styles(kinds, answers):
    """The widths of bars, and the shades of cells."""
    if len(kinds) == 1:
        counts = [answers.count(number) for number in numbers(kinds[0], answers)]
        return [f"width:{rounded(fractions.Fraction(100 * c, max(counts)), 2)}%" for c in counts if c]
    rows, across = (numbers(kind, [pair[i] for pair in answers]) for i, kind in enumerate(kinds))
    counts = [answers.count((row, column)) for row in rows for column in across]
    return [f"--share:{rounded(fractions.Fraction(c, max(counts)), 2)}" for c in counts if c]
