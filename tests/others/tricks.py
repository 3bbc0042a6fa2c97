"""Builds companion/deals-tricks and compares what it says with the solver's own examples, with a sheet that was made
elsewhere (boards.txt), with deals that anybody can play, and par with a second implementation (par.py); tries malformed
deals, comments, ends of the input and an output that can't be written; and looks into its package.
"""

import pathlib
import random
import re
import subprocess
import tempfile

HERE = pathlib.Path(__file__).resolve().parent
TOP = HERE.parent.parent
import companion
import harness
import packages
import par
import report

PROGRAM = companion.PROGRAM
FORM = re.compile(r"[0-9a-d]{20}(?: (NS|EW) (\d{1,4})(?: ([A-Za-z0-9+*=,/-]{1,24}))?)?(?: N:[AKQJT2-9. ]{67})")
# The deals of DDS's own examples with their tables: spades, hearts, diamonds, clubs and notrump, each for North, East,
# South and West.
EXAMPLES = [
    ("N:QJ6.K652.J85.T98 873.J97.AT764.Q4 K5.T83.KQ9.A7652 AT942.AQ4.32.KJ3",
     [5, 8, 5, 8, 6, 6, 6, 6, 5, 7, 5, 7, 7, 5, 7, 5, 6, 6, 6, 6]),
    ("E:QJT5432.T.6.QJ82 .J97543.K7532.94 87.A62.QJT4.AT75 AK96.KQ8.A98.K63",
     [4, 9, 4, 9, 10, 2, 10, 2, 8, 3, 8, 3, 6, 7, 6, 7, 9, 3, 9, 3]),
    ("N:73.QJT.AQ54.T752 QT6.876.KJ9.AQ84 5.A95432.7632.K6 AKJ9842.K.T8.J93",
     [3, 10, 3, 10, 9, 4, 9, 4, 8, 4, 8, 4, 3, 9, 3, 9, 4, 8, 4, 8]),
]
ALL = "AKQJT98765432"
# Each has one suit. Who declares in a suit of the own side takes all, or nothing; at notrump the leader takes all.
FOUR_SUITS = f"N:{ALL}... .{ALL}.. ..{ALL}. ...{ALL}"
# North and South have all aces, kings and queens, and three suits to run.
SOLID = "N:AKQJ.AKQ.AKQ.AKQ T98.T98.T98.T987 765.J765.J76.J65 432.432.5432.432"
GOOD = EXAMPLES[0][0]


def ask(text, *words, **more):
    return subprocess.run([PROGRAM, *words], input=text, capture_output=True, text=True, timeout=120, check=False, **more)


def game(deal, dealer=None, vulnerable=None):
    tags = [f'[Dealer "{dealer}"]', f'[Vulnerable "{vulnerable}"]'] if dealer else []
    return "\n".join([*tags, f'[Deal "{deal}"]', "", ""])


def digits(table):
    """A line's digits from a table of DDS's examples."""
    return "".join("0123456789abcd"[table[4 * strain + seat]] for seat in (0, 2, 1, 3) for strain in (4, 0, 1, 2, 3))


def spelled(deal):
    """The deal as a line ends with it: North's hand first. The hands are in order, and so are their cards."""
    hands = deal[2:].split(" ")
    north = -"NESW".index(deal[0]) % 4
    return "N:" + " ".join(hands[north:] + hands[:north])


def line_of(deal, table):
    return f"{digits(table)} {spelled(deal)}"


def dealt(count):
    """Random deals, the same in each run."""
    dice = random.Random(7)
    for _ in range(count):
        pack = dice.sample(range(52), 52)
        hands = [pack[13 * seat : 13 * seat + 13] for seat in range(4)]
        spelled = [".".join("".join(ALL[card % 13] for card in sorted(hand) if card // 13 == suit) for suit in range(4))
                   for hand in hands]
        yield "N:" + " ".join(spelled)


def tables():
    lines = ask("".join(game(deal) for deal, _ in EXAMPLES)).stdout.split("\n")
    for (deal, table), line in zip(EXAMPLES, lines):
        yield f"the table of {deal}", line == line_of(deal, table)
    # North and South own spades and diamonds, East and West hearts and clubs.
    yield "four suits", ask(game(FOUR_SUITS)).stdout == f"{2 * '0d0d0'}{2 * '00d0d'} {FOUR_SUITS}\n"
    solid = ask(game(SOLID, "N", "All")).stdout
    yield "a solid hand", solid.startswith("d") and solid[10] == "0" and " NS 2220 7N-" in solid


def made_elsewhere():
    """The boards of boards.txt: the tags and the deal, the odd tricks of each declarer, and par."""
    boards = []
    for line in (HERE / "boards.txt").read_text().splitlines():
        words = line.split()
        if words and not line.startswith((" ", "#")):
            boards.append(((line.split(" ", 3)[3], *words[1:3]), {}, words))
        elif words and words[0] == "par":
            boards[-1] = (*boards[-1][:2], words[1:])
        elif line.startswith(" "):
            boards[-1][1].update({seat: words[1:] for seat in words[0]})
    return boards


def sheets():
    boards = made_elsewhere()
    lines = ask("".join(game(*board) for board, _, _ in boards)).stdout.splitlines()
    yield "boards of a sheet", len(lines) == len(boards) == 27
    for (board, odd, (score, contract)), line in zip(boards, lines):
        number = iter(int(digit, 16) for digit in line[:20])
        found = {seat: [next(number) for _ in range(5)] for seat in par.SEATS}
        made = {seat: [str(n - 6) if n > 6 else "-" for n in [c, d, h, s, notrump]]
                for seat, (notrump, s, h, d, c) in found.items()}
        told = f" {'EW' if score[0] == '-' else 'NS'} {score.lstrip('-')} {contract}"
        yield f"what board {board} makes", made == odd
        yield f"par of board {board}", re.match(re.escape(told) + "[, ]", line[20:])


def pars():
    """Par by the digits that the program itself says, for random deals, dealers and vulnerabilities."""
    boards = [(deal, "NESW"[i % 4], ["None", "NS", "EW", "All"][i // 4 % 4]) for i, deal in enumerate(dealt(16))]
    run = ask("".join(game(*board) for board in boards))
    yield "the deals in order", run.returncode == 0 and len(run.stdout.splitlines()) == len(boards)
    for (deal, dealer, vulnerable), line in zip(boards, run.stdout.splitlines()):
        found = FORM.fullmatch(line)
        number = iter(int(digit, 16) for digit in line[:20])
        tricks = {seat: {strain: next(number) for strain in par.DENOMINATIONS} for seat in par.SEATS}
        told = found and int(found[2]) * (1 if found[1] == "NS" else -1)
        yield f"par of {deal}, {dealer}, {vulnerable}", told == par.par(tricks, dealer, vulnerable)


def texts():
    line = line_of(*EXAMPLES[0]) + "\n"
    for name, text in {
        "no line feed at the end": f'[Deal "{GOOD}"]',
        "carriage returns": f'[Event "x"]\r\n[Deal "{GOOD}"]\r\n\r\n',
        "a comment": f'{{ [Deal "x"]\n[Deal "y"] }}\n; [Deal "x"]\n% [Deal "x"]\n[Deal "{GOOD}"] ; x\n',
        "blanks": f'  [ Deal  "{GOOD}" ]\n',
        "an unknown dealer": f'[Dealer "?"]\n[Vulnerable "All"]\n[Deal "{GOOD}"]\n',
    }.items():
        run = ask(text)
        yield name, (run.stdout, run.returncode) == (line, 0)
    after = ask(f'[Deal "{GOOD}"]\n[Dealer "N"]\n[Vulnerable "Love"]\n\n').stdout
    yield "the dealer after the deal", after == ask(game(GOOD, "N", "None")).stdout and re.search(" (NS|EW) ", after)
    yield "the next deal without an empty line", ask(2 * f'[Deal "{GOOD}"]\n').stdout == 2 * line
    yield "nothing", (ask("").stdout, ask("").returncode) == ("", 0)


def refusals():
    first, second, third, fourth = GOOD[2:].split(" ")
    for name, deal in {
        "twelve cards": f"N:{first[1:]} {second} {third} {fourth}",
        "a card twice": f"N:{first} {first} {third} {fourth}",
        "a hidden hand": f"N:{first} - {third} -",
        "three hands": f"N:{first} {second} {third}",
        "no such card": f"N:{first.replace('Q', 'X')} {second} {third} {fourth}",
        "five suits": f"N:{first}. {second} {third} {fourth}",
        "no such seat": f"X:{first} {second} {third} {fourth}",
        "nothing": "",
    }.items():
        run = ask(game(GOOD) + game(deal) + game(GOOD))
        said = (run.returncode, run.stderr, run.stdout)
        yield name, said == (1, "deals-tricks: line 3: the deal can't be read\n", line_of(*EXAMPLES[0]) + "\n")
    with open("/dev/full", "w", encoding="ascii") as full:
        run = subprocess.run([PROGRAM], input=game(GOOD), stdout=full, stderr=subprocess.PIPE, text=True, check=False)
    yield "a full output", run.returncode == 4 and run.stderr.startswith("deals-tricks: output failed: ")
    run = subprocess.run([PROGRAM], input="hello\n", capture_output=True, text=True, check=False)
    yield "a text without a deal", run.returncode == 1 and "no deal" in run.stderr and run.stdout == ""
    for word in ("--what", "boards.pbn"):
        run = subprocess.run([PROGRAM, word], capture_output=True, text=True, check=False)
        says = ("unrecognized option" if word[0] == "-" else "write deals-tricks < FILE\n") in run.stderr
        yield f"an unknown word: {word}", run.returncode == 2 and says and run.stdout == ""
    run = subprocess.run([PROGRAM, "--help"], capture_output=True, text=True, check=False)
    yield "help", run.returncode == 0 and run.stdout.startswith("usage: ") and max(map(len, run.stdout.split("\n"))) <= 120


def passed_on():
    """With --add the deal that can't be read is passed on as it is, so that who reads the boards refuses it too."""
    first, second = (f'[Board "{board}"]\n{game(EXAMPLES[board][0], "N", "None")}' for board in (1, 2))
    added = ask("% PBN 2.1\n" + first, "--add").stdout
    cards = EXAMPLES[2][0][2:].split(" ")
    for name, text, told in [
        ("a card twice", second.replace(cards[1], cards[0]), " of board 2"),
        ("a deal without its end", second.replace('"]\n\n', "\n\n"), " of board 2"),
        ("no number", second.replace(cards[1], cards[0]).replace('"2"', '"?"'), ""),
        ("a long number", second.replace(cards[1], cards[0]).replace('"2"', f'"{20 * "2"}"'), ""),
        ("more on its line", second.replace(cards[1], cards[0]).replace('"]\n\n', '"] ; x\n\n'), " of board 2"),
    ]:
        run = ask("% PBN 2.1\n" + first + text + first, "--add")
        said = (1, f"deals-tricks: line 10: the deal{told} can't be read\n", added + text[:-1])
        yield f"{name}, passed on", (run.returncode, run.stderr, run.stdout) == said
        shown = harness.deals("show", "--format", "sheet", given=run.stdout.encode())
        yield f"{name}, refused by show", shown.returncode == 7
    run = ask(second.replace(cards[1], cards[0]) + first, "--add")
    yield "the first deal, passed on", (run.returncode, run.stdout) == (1, second.replace(cards[1], cards[0])[:-1])
    for words in ([], ["--tricks", "S-N>=0"], ["--numbers", "--add"]):
        run = ask(second.replace(cards[1], cards[0]), *words)
        yield f"{words}, not passed on", (run.returncode, run.stdout) == (1, "")


def streams():
    """A line comes while more is awaited."""
    with subprocess.Popen([PROGRAM], stdin=subprocess.PIPE, stdout=subprocess.PIPE, text=True) as process:
        process.stdin.write(game(GOOD, "N", "None"))
        process.stdin.flush()
        first = process.stdout.readline()
        process.stdin.write(game(GOOD))
        process.stdin.close()
        yield "a line at once", first.startswith(digits(EXAMPLES[0][1]))
        yield "and the next", process.stdout.read() == line_of(*EXAMPLES[0]) + "\n"


def boards():
    """The boards of `deals make`, as the guide has it."""
    harness.build()
    made = subprocess.run([harness.PROGRAM, "make", "--seed", "7", "--boards", "3"], capture_output=True, text=True, check=True)
    run = ask(made.stdout)
    lines = [FORM.fullmatch(line) for line in run.stdout.splitlines()]
    yield "boards of deals", run.returncode == 0 and len(lines) == 3 and all(line and line[1] for line in lines)


def package(folder):
    subprocess.run([TOP / "companion" / "build", folder], check=True)
    made = next(pathlib.Path(folder).glob("deals-tricks_*_amd64.deb"))
    told = subprocess.run(["dpkg-deb", "-I", made], capture_output=True, text=True, check=True).stdout
    listed = subprocess.run(["dpkg-deb", "-c", made], capture_output=True, text=True, check=True).stdout
    yield "the package needs the solver", "Depends: libc6, libdds0," in told
    for path in ["./usr/bin/deals-tricks", "./usr/share/man/man1/deals-tricks.1.gz", "./usr/share/doc/deals-tricks/copyright"]:
        yield f"the package has {path}", path in listed
    subprocess.run(["dpkg-deb", "-x", made, folder], check=True)
    run = subprocess.run([f"{folder}/usr/bin/deals-tricks"], input=game(GOOD), capture_output=True, text=True, check=False)
    yield "the package's program", run.stdout == line_of(*EXAMPLES[0]) + "\n"


def man_page(folder):
    """The page of the package that was unpacked there."""
    packages.need("man-db", "man")
    words = ["man", "--warnings", "-l", f"{folder}/usr/share/man/man1/deals-tricks.1.gz"]
    ended = subprocess.run(words, capture_output=True, text=True, check=False)
    yield "the man page", ended.returncode == 0 and not ended.stderr and "SYNOPSIS" in ended.stdout


def tricks():
    """The companion program without rules."""
    companion.build()
    yield from report.each([tables, sheets, pars, texts, refusals, passed_on, streams, boards])
    with tempfile.TemporaryDirectory() as folder:
        yield from report.each([package, man_page], folder)
