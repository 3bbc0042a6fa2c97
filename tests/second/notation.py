"""What `make` writes in each format, worked out from the page that defines them (docs/FORMATS.md, PBN 2.1), from what pages
are made of (styles/), and from the deals of model.py. Nothing here is taken from the program.
"""

import html
import json
import pathlib
import re

import model

HERE = pathlib.Path(__file__).resolve().parent
STYLES = HERE / "styles"
PAGES = ("html", "sheet", "slips")

SEATS = ["North", "East", "South", "West"]
SIGNS = "♠♥♦♣"
PAGE_SIGNS = ["<i>♠</i>", "<b>♥</b>", "<b>♦</b>", "<i>♣</i>"]


def turned(hands, dealer):
    """The hands clockwise from North, when what was North's is the dealer's."""
    return [hands[(seat - dealer) % 4] for seat in range(4)]


def shown(hands, dealer, show):
    """The hands that are written, and None for the others."""
    seats = {"all": "NESW", "dealer": model.SEATS[dealer], "ns": "NS", "ew": "EW"}.get(show, show[0].upper())
    return [hand if seat in seats else None for seat, hand in zip(model.SEATS, hands)]


def known(line):
    """The digits, the score and the contract of a line of tricks; each empty where it isn't known."""
    digits, _, after = line.partition(" ")
    side, _, after = after.partition(" ")
    points, _, contract = after.partition(" ")
    return ("" if digits == "-" else digits.lower()), f"{side} {points}".strip(), contract


def fives(digits):
    """The declarers, and how many tricks each makes in notrump, spades, hearts, diamonds and clubs."""
    return [(seat, [int(digit, 16) for digit in digits[5 * i : 5 * i + 5]]) for i, seat in enumerate("NSEW")]


def par(tricks):
    return " ".join(part for part in tricks[1:] if part)


def suits(hand):
    """A line for each suit, empty where the hand isn't shown."""
    if hand is None:
        return [""] * 4
    return [f"{sign} {suit or '-'}" for sign, suit in zip(SIGNS, model.spelled(hand).split("."))]


def record(number, dealer, sides, hands, tricks, has_points=True):
    """A hand record: twelve lines, those of the tricks, and an empty one."""
    north, east, south, west = map(suits, hands)
    points = [model.points(hand) if hand is not None and has_points else "" for hand in hands]
    left = [f"Board {number}", f"Dealer {SEATS[dealer]}", f"Vul {sides}", ""]
    counts = ["", f"{points[0]:>8}", f"{points[3]:>4}{points[1]:>8}", f"{points[2]:>8}"]
    lines = [max(text + " ", f"{text:18}", key=len) + suit for text, suit in zip(left, north)]
    lines += [f"{one:36}{other}" for one, other in zip(west, east)]
    lines += [f"{text:18}{suit}" for text, suit in zip(counts, south)]
    if tricks[0]:
        lines.append("     NT" + "".join(f"  {sign}" for sign in SIGNS))
        lines += [f"{seat}   " + "".join(f" {count:2}" for count in five) for seat, five in fives(tricks[0])]
    if tricks[1]:
        lines.append(f"Par {par(tricks)}")
    return "".join(line.rstrip(" ") + "\n" for line in lines) + "\n"


def line(number, dealer, sides, hands, _tricks, _has_points=True):
    """A line of LIN."""
    spelled = []
    for hand in (hands[2], hands[3], hands[0], hands[1]):
        held = zip("SHDC", model.spelled(hand).split(".")) if hand is not None else ()
        spelled.append("".join(name + suit for name, suit in held))
    letter = {"None": "o", "NS": "n", "EW": "e", "All": "b"}[sides]
    return (
        f"qx|o{number}|md|{'3412'[dealer]}{','.join(spelled)}|sv|{letter}|ah|Board {number}|pg||\n"
    )


def deal(hands):
    return "N:" + " ".join("-" if hand is None else model.spelled(hand) for hand in hands)


def json_line(number, dealer, sides, hands, tricks, candidate):
    """A line of JSON, whose names come in this order and without blanks."""
    board = {"board": number, "dealer": model.SEATS[dealer], "vulnerable": sides}
    board |= {"deal": deal(hands), "number": candidate}
    board |= {"tricks": tricks[0]} if tricks[0] else {}
    board |= {"par": par(tricks)} if tricks[1] else {}
    return json.dumps(board, separators=(",", ":")) + "\n"


def game(number, dealer, sides, hands, tricks, labels):
    """A game of PBN."""
    tags = [*labels, ("Board", number), ("Dealer", model.SEATS[dealer]), ("Vulnerable", sides), ("Deal", deal(hands))]
    names = ("DoubleDummyTricks", "OptimumScore", "ParContract")
    tags += [(name, value) for name, value in zip(names, tricks) if value]
    lines = [f'[{name} "{value}"]' for name, value in tags]
    if tricks[0]:
        lines.append(r'[OptimumResultTable "Declarer;Denomination\2R;Result\2R"]')
        for seat, five in fives(tricks[0]):
            lines += [f"{seat} {name:>2} {count:>2}" for name, count in zip(("NT", *"SHDC"), five)]
    return "".join(line + "\n" for line in lines) + "\n"


def held(hand):
    """The suits of a hand on a page."""
    return "<br>".join(sign + (suit or "–") for sign, suit in zip(PAGE_SIGNS, model.spelled(hand).split(".")))


def marked(contracts):
    """Contracts of par with signs: a denomination comes before the first hyphen, and what follows the second is a result."""
    if not contracts:
        return ""
    told = []
    for contract in contracts.split(","):
        bid, *rest = contract.split("-", 1)
        bid = re.sub("[SHDC]", lambda suit: PAGE_SIGNS["SHDC".index(suit[0])], bid)
        told.append("-".join([bid, *(part.replace("-", "−") for part in rest)]).replace("*", "×"))
    return " <span>" + ",</span><span>".join(told) + "</span>"


def table(tricks):
    """The lines of a page's table of tricks, and of par."""
    lines = []
    if tricks[0]:
        lines += ["<table>", "<tr><td></td>" + "".join(f"<th>{name}</th>" for name in ("NT", *PAGE_SIGNS)) + "</tr>"]
        rows = fives(tricks[0])
        for one, other in (rows[:2], rows[2:]):
            alike = one[1] == other[1]
            for who, five in [(one[0] + other[0], one[1])] if alike else (one, other):
                lines.append(f"<tr><th>{who}</th>" + "".join(f"<td>{count}</td>" for count in five) + "</tr>")
        lines.append("</table>")
    return lines + ([f'<p class="par">Par {tricks[1]}{marked(tricks[2])}</p>'] if tricks[1] else [])


def section(number, dealer, sides, hands, tricks, has_points=True):
    """A section of a page."""
    lines = ['<section class="board">', f'<h2 class="{sides}">Board {number}</h2>']
    lines.append(f"<p>Dealer {SEATS[dealer]}<br>Vul {sides}</p>")
    for seat, hand in zip(SEATS, hands):
        if hand is not None:
            points = f" <small>{model.points(hand)} HCP</small>" if has_points else ""
            lines.append(f'<div class="{seat}"><h3>{seat}{points}</h3>{held(hand)}</div>')
    return "".join(line + "\n" for line in [*lines, *table(tricks), "</section>"])


def small_section(number, dealer, sides, hands, tricks, has_points=True):
    """A section of a sheet."""
    lines = ['<section class="board">', f"<h2>{number}</h2>", f"<p>Dealer {SEATS[dealer]}<br>Vul {sides}</p>"]
    there = [(seat, hand) for seat, hand in zip(SEATS, hands) if hand is not None]
    lines += [f'<div class="{seat}">{held(hand)}</div>' for seat, hand in there]
    points = "".join(f'<span class="{seat}">{model.points(hand)}</span>' for seat, hand in there if has_points)
    lines.append(f'<div class="middle {sides}">{points}</div>')
    return "".join(line + "\n" for line in [*lines, *table(tricks), "</section>"])


def slips(number, dealer, sides, hands, _tricks, _has_points=True):
    """The sections of a board's slips, one for each hand that is shown."""
    return "".join(
        f'<section class="slip">\n<h2>{number} {seat}</h2>\n<p>Dealer {SEATS[dealer]}<br>Vul {sides}</p>\n<div>{held(hand)}</div>\n</section>\n'
        for seat, hand in zip(SEATS, hands)
        if hand is not None
    )


# What writes a board in the formats whose boards have no candidate and no labels.
WRITERS = {"hands": record, "lin": line, "html": section, "sheet": small_section, "slips": slips}


def styled(form, with_tricks):
    """The style of a page without labels."""
    name = form if form != "html" else "tricks" if with_tricks else "page"
    return (STYLES / f"{name}.css").read_text()


def frame(part, labels, form="html", with_tricks=False):
    """The header of a page, part 0, or its footer, part 1: as it is in styles/, under these labels."""
    text = (STYLES / ("header.html", "footer.html")[part]).read_text()
    text = text.replace("<style>\n..\n", "<style>\n" + styled(form, with_tricks))
    title = ", ".join(value for _, value in labels if value.strip(" ")) or "Boards"
    escaped = html.escape(title, quote=False)
    first, *rest = text.split("Boards")
    quoted = title.replace("\\", "\\5C ").replace('"', "\\22 ").replace("<", "\\3C ")
    # It is the title, a string of CSS, and the heading.
    return first + "".join(put + piece for put, piece in zip([escaped, quoted, escaped], rest))


def header(form, labels, with_tricks=False):
    if form == "pbn":
        return "% PBN 2.1\n"
    if form == "hands" and labels:
        return "".join(value + "\n" for _, value in labels) + "\n"
    return frame(0, labels, form, with_tricks) if form in PAGES else ""


def text(seed, count, form="pbn", dealer=None, sides=None, rotate=False, accepts=None, first=0, first_board=1,
         boards=None, labels=(), show="all", lines=None, has_points=True):
    """The text of a `make` of this many candidates. The condition is asked of the hands before they are turned. With lines
    of tricks there is one for each board; they are written only beside all hands."""
    state, parts, number = model.start(seed), [header(form, labels, lines is not None)], first_board
    for candidate in range(first + count):
        hands, state = model.hands(state)
        if candidate < first or (accepts and not accepts(hands)):
            continue
        if boards is not None and number == first_board + boards:
            break
        index = (number - 1) % 16
        by = index % 4 if dealer is None else model.SEATS.index(dealer)
        vulnerable = sides or model.VULNERABLE[(index + index // 4) % 4]
        dealt = turned(hands, by) if rotate else hands
        dealt = shown(dealt, by, show)
        tricks = known(lines[number - first_board] if lines is not None and show == "all" else "-")
        if form == "pbn":
            parts.append(game(number, by, vulnerable, dealt, tricks, labels))
        elif form == "json":
            parts.append(json_line(number, by, vulnerable, dealt, tricks, candidate))
        else:
            parts.append(WRITERS[form](number, by, vulnerable, dealt, tricks, has_points))
        number += 1
    if form in PAGES:
        parts.append(frame(1, ()))
    return "".join(parts).encode()
