"""Scripts of dealer, translated: dealer deals, and says which of its deals a script's condition accepts; the second reader of
conditions says which the translated one accepts. They have to be the same, one by one."""

import concurrent.futures
import functools
import os
import pathlib
import random
import re
import shlex
import subprocess
import sys

import harness
import language
import packages
import page
import report
import tables

TRANSLATOR = harness.TOP / "companion" / "dealer" / "deals-dealer"
PYTHON = "/usr/bin/python3"
DEALER = "/usr/games/dealer"
EXAMPLES = pathlib.Path("/usr/share/doc/dealer/examples")
# What deals has nothing for, and the place that is told.
REFUSED = {"evaluation": "line 27, column 16", "test_dealer": "line 36, column 50", "test_operator_order": "line 68, column 1"}
DEALS, MANY_DEALS = 2_000, 100_000
SCRIPTS, MANY_SCRIPTS = 40, 200
SPOILED, MANY_SPOILED = 80, 300
SEATS = ("north", "east", "south", "west")
SUITS = ("spades", "hearts", "diamonds", "clubs")
RANKS = "AKQJT98765432"


def translated(script):
    """What the translator writes of a script: its status, its commands, and what it says."""
    ended = subprocess.run([PYTHON, TRANSLATOR], input=script, capture_output=True, text=True, check=False)
    return ended.returncode, [shlex.split(line) for line in ended.stdout.splitlines()], ended.stderr


def where_of(words):
    """The condition of a command; what every deal meets, if it has none."""
    found = [word.partition("=")[2] for word in words if word.startswith("--where=")]
    return found[0] if found else "1==1"


def by_manual(script):
    """The script for Debian's dealer, whose altcount sets the count of two numbers before."""
    return re.sub(r"\baltcount (\d+)", lambda found: f"altcount {int(found[1]) + 2}", script)


def dealt(script, count):
    """The deals that dealer prints of a script, as texts of four hands."""
    asked = f"{by_manual(script)}\ngenerate {count}\nproduce {count}\naction printoneline\n"
    ended = subprocess.run([DEALER, "-s", "7", "-v"], input=asked, capture_output=True, text=True, check=True)
    return [line for line in ended.stdout.splitlines() if line.startswith("n ")]


# Most scripts are asked of the same deals.
@functools.lru_cache(2 * MANY_DEALS)
def hands_of(line):
    """The four hands of a line, as lists of card numbers."""
    hands = []
    for text in line.split()[1::2]:
        suits = text.split(".")
        hands.append([13 * suit + RANKS.index(rank) for suit in range(4) for rank in suits[suit]])
    return hands


def complaint(script):
    """What is wrong with a translation: the deals that dealer accepts and the condition doesn't, or the other way."""
    count = MANY_DEALS if report.has("many") else DEALS
    status, commands, said = translated(script + "\naction printpbn\n")
    if status != 0:
        return said.strip()
    test = language.condition(where_of(commands[0]))
    accepted = set(dealt(script, count))
    all_deals = dealt(f"{script}\ncondition 1\n", count)
    wrong = [line for line in all_deals if bool(test(hands_of(line))) != (line in accepted)]
    if len(all_deals) != count or not accepted <= set(all_deals):
        return f"{len(all_deals)} deals, {len(accepted)} accepted"
    return f"{len(wrong)} deals, as {wrong[0]}, by {where_of(commands[0])}" if wrong else None


def without_actions(text):
    """A script's hands and condition alone. Dealer takes the first number of deals that is said."""
    return re.sub(r"\b(generate|produce)\s+\d+", "", re.split(r"^action", text, maxsplit=1, flags=re.M)[0])


def examples():
    """The scripts of Debian's package: translated whole, or refused at the first thing that can't be said."""
    for file in [*sorted(EXAMPLES.glob("Descr.*")), EXAMPLES / "Test.distribution"]:
        name, text = file.suffix[1:], file.read_text(encoding="latin-1")
        status, commands, said = translated(text)
        if name in REFUSED:
            yield name, None if status == 1 and REFUSED[name] in said else said or "not refused"
            continue
        yield name, said if status else None
        yield f"{name}, the same deals", complaint(without_actions(text))
        for words in commands:
            tried = ["--candidates=10" if word.startswith("--candidates=") else word for word in words[1:]]
            ended = harness.deals(*tried)
            yield f"{name}, {words[1]}", None if ended.returncode == 0 else ended.stderr.decode()


class Writer:
    """Writes expressions of dealer at random."""

    def __init__(self, dice):
        self.dice = dice

    def count(self):
        dice, seat, suit = self.dice, self.dice.choice(SEATS), self.dice.choice(SUITS)
        words = ["hcp", "control", "loser", "aces", "kings", "top3", "top4", "c13", "pt0", "pt3", "pt6", "queens", "tens"]
        word = dice.choice(words)
        return dice.choice([f"{suit}({seat})", f"{word}({seat})", f"{word}({seat}, {suit})", f"hcp({seat})", f"{suit[:-1]}({seat})"])

    def number(self, depth):
        dice = self.dice
        kind = dice.randrange(10) if depth else dice.randrange(3)
        if kind < 3:
            return dice.choice([self.count(), self.count(), str(dice.randrange(14))])
        if kind < 7:
            return f"{self.number(depth - 1)} {dice.choice('+-')} {self.number(0)}"
        if kind == 7:
            return f"{dice.choice([1, 2, 3, 10, 73, 900])}*{self.count()}"
        if kind == 8:
            return f"({self.test(0)} ? {self.number(0)} : {self.number(0)})"
        return f"(({self.test(0)}) + ({self.test(0)}))"

    def shape(self):
        dice = self.dice
        texts = ["any 4333", "any 4432", "any 5332", "5xxx", "x5xx", "any 0xxx", "4441", "54xx", "any 54xx", "xx6x", "any 7xxx"]
        parts = [dice.choice(texts)]
        for _ in range(dice.randrange(4)):
            parts += [dice.choice([" + ", " - ", " + ", ", "]), dice.choice(texts)]
        return f"shape({dice.choice(SEATS)}, {''.join(parts)})"

    def test(self, depth):
        dice = self.dice
        kind = dice.randrange(9) if depth else dice.randrange(6)
        if kind < 3:
            return f"{self.number(min(depth, 1))} {dice.choice(['<', '<=', '>', '>=', '==', '!='])} {self.number(0)}"
        if kind == 3:
            return self.shape()
        if kind == 4:
            return f"hascard({dice.choice(SEATS)}, {dice.choice('AKQJT')}{dice.choice('SHDC')})"
        if kind == 5:
            divided = dice.choice([f"hcp({dice.choice(SEATS)})", f"{dice.choice(SUITS)}({dice.choice(SEATS)})"])
            return f"{divided}/{dice.randrange(2, 6)} {dice.choice(['<', '<=', '>', '>=', '==', '!='])} {self.number(0)}"
        if kind == 6:
            return f"{dice.choice(['!', 'not '])}({self.test(depth - 1)})"
        if kind == 7:
            return f"({self.test(depth - 1)} {dice.choice(['and', '&&'])} {self.test(depth - 1)})"
        return f"({self.test(depth - 1)} {dice.choice(['or', '||'])} {self.test(depth - 1)})"

    def script(self):
        """A script with names, a comment, and perhaps cards that a seat has."""
        dice = self.dice
        lines = ["# made at random", f"one = {self.test(2)}", f"two = {self.number(1)}"]
        if dice.random() < 0.3:
            lines.insert(1, f"pointcount {' '.join(str(dice.randrange(6)) for _ in range(5))}")
        if dice.random() < 0.5:
            lines.insert(1, f"altcount {dice.choice([0, 3, 9])} {' '.join(str(dice.randrange(-20, 99)) for _ in range(5))}")
        if dice.random() < 0.3:
            lines.append("predeal south SAQ5, HK /* some cards */ west DT")
        test = f"one {dice.choice(['and', 'or'])} two > {dice.randrange(12)}"
        if dice.random() < 0.6:
            lines.append(f"three_4 = {dice.choice(['one', 'not one'])} {dice.choice(['and', 'or'])} {self.test(0)}")
            test = dice.choice([f"three_4 and ({test})", f"three_4 || one && not {self.test(0)}", f"not three_4 and one or ({test})"])
        lines.append(f"{dice.choice(['condition ', ''])}{test} // the last")
        return "\n".join(lines)


def random_scripts():
    dice = random.Random(20261128)
    scripts = [Writer(dice).script() for _ in range(MANY_SCRIPTS if report.has("many") else SCRIPTS)]
    with concurrent.futures.ProcessPoolExecutor(len(os.sched_getaffinity(0))) as pool:
        yield from zip((script.replace("\n", "; ") for script in scripts), pool.map(complaint, scripts), strict=True)


def words():
    """The words that aren't names are those of the language, as the docs list them, and so does the second reader."""
    sys.path.append(str(TRANSLATOR.parent))
    from deals_dealer import names

    listed = set(page.words())
    for who, known in (("the language", names.WORDS), ("the second reader", set(language.WORDS))):
        yield f"words of {who}", None if known == listed else f"{sorted(known ^ listed)}"


def table():
    """Scripts by hand, with what is told of them: a command, or a refusal by line and column."""
    for told, script in tables.lines(pathlib.Path(__file__).parent / "scripts.txt"):
        status, commands, said = translated(script)
        answer = shlex.join(commands[0]) if status == 0 else said.strip()
        yield script, None if answer == told else answer


def spoiled():
    """Scripts that lost, gained or changed some bytes: a line, a column and a sentence, and no trace of Python."""
    dice = random.Random(7)
    texts = [file.read_text(encoding="latin-1") for file in sorted(EXAMPLES.glob("Descr.*"))]
    for number in range(MANY_SPOILED if report.has("many") else SPOILED):
        text = list(dice.choice(texts)[:1500])
        for _ in range(dice.randrange(1, 4)):
            at = dice.randrange(len(text))
            text[at : at + dice.randrange(3)] = dice.choice(["", "(", ")", "\0", "9", "\u00fc", "condition", "=", '"', ",", "/*"])
        status, _, said = translated("".join(text))
        is_told = status == 0 or (status == 1 and re.search(r"^deals-dealer: line \d+, column \d+: .+$", said, re.M))
        yield f"spoiled, {number}", None if is_told and "Traceback" not in said else f"{status}: {said}"


# Scripts whose shares and averages both programs tell, of this many deals each.
COUNTED = ("1c", "controls", "2nt", "weaktwo", "you_hold", "notrump")
BY_DEALER, BY_DEALS = (1_000_000, 10_000_000) if report.has("many") else (200_000, 1_000_000)
# Standard errors that two shares may differ by.
ERRORS = 4


def share_by_dealer(script):
    asked = f"{script}\ngenerate {BY_DEALER}\nproduce {BY_DEALER}\naction average 1\n"
    ended = subprocess.run([DEALER, "-s", "11"], input=asked, capture_output=True, text=True, check=True)
    return int(re.search(r"Produced (\d+) hands", ended.stdout + ended.stderr)[1])


def shares():
    """Both programs accept the same share of their deals, within what chance allows."""
    for name in COUNTED:
        script = without_actions((EXAMPLES / f"Descr.{name}").read_text(encoding="latin-1"))
        _, commands, _ = translated(script + "\naction printpbn\n")
        hands = [word for word in commands[0] if re.match(r"--(north|east|south|west)=", word)]
        words = ["--seed=11", f"--candidates={BY_DEALS}", f"--where={where_of(commands[0])}", "--format=csv", *hands]
        deals = int(harness.deals("count", *words).stdout.splitlines()[1].partition(b",")[0])
        one, other = share_by_dealer(script) / BY_DEALER, deals / BY_DEALS
        share = (one * BY_DEALER + other * BY_DEALS) / (BY_DEALER + BY_DEALS)
        error = (share * (1 - share) * (1 / BY_DEALER + 1 / BY_DEALS)) ** 0.5
        yield f"{name}, its share", None if share and abs(one - other) <= ERRORS * error else f"{one} and {other}"


# What both programs average and count by value, each with a condition that about a third of all deals meets.
VALUES = (
    "hcp(north)",
    "hcp(north) + hcp(south)",
    "losers(east)",
    "controls(west)",
    "spades(south)",
    "hearts(north) + hearts(south)",
    "2*aces(south) + kings(south)",
    "c13(north)",
    "5*queens(west) + 2*tens(west)",
)
ON_CONDITION = "condition hcp(north) > 11 and not shape(east, any 4333)"


def values_by_dealer(value):
    """The average that dealer prints, how many deals have each value, and how many there are."""
    asked = f'{ON_CONDITION}\ngenerate {BY_DEALER}\nproduce {BY_DEALER}\naction average "a" {value}, frequency "f" ({value}, 0, 40)\n'
    said = subprocess.run([DEALER, "-s", "12"], input=asked, capture_output=True, text=True, check=True)
    told = said.stdout + said.stderr
    rows = {int(number): int(deals) for number, deals in re.findall(r"^ +(\d+)\t +(\d+)$", told, re.M)}
    return float(re.search(r"^a: ([\d.]+)", told, re.M)[1]), rows, int(re.search(r"Produced (\d+) hands", told)[1])


def values_by_deals(value):
    """How many deals have each value, by the command that the translator writes for the average."""
    script = f'{ON_CONDITION}\ngenerate {BY_DEALS} produce {BY_DEALS}\naction average "a" {value}'
    status, commands, said = translated(script)
    if status:
        raise AssertionError(said)
    ended = harness.deals(*commands[0][1:], "--format=csv", "--workers=auto")
    return {int(number): int(deals) for number, deals in (row.split(b",") for row in ended.stdout.splitlines()[1:])}


def values():
    """Both programs have the same averages, and the same share of their deals has each value, within what chance allows."""
    for value in VALUES:
        average, theirs, produced = values_by_dealer(value)
        ours = values_by_deals(value)
        deals = sum(ours.values())
        mean = sum(number * count for number, count in ours.items()) / deals
        spread = sum((number - mean) ** 2 * count for number, count in ours.items()) / deals
        error = (spread * (1 / produced + 1 / deals)) ** 0.5
        yield f"{value}, its average", None if abs(average - mean) <= ERRORS * error else f"{average} and {mean}"
        for number in sorted({*ours, *(row for row, count in theirs.items() if count)}):
            one, other = theirs.get(number, 0) / produced, ours.get(number, 0) / deals
            share = (theirs.get(number, 0) + ours.get(number, 0)) / (produced + deals)
            error = (share * (1 - share) * (1 / produced + 1 / deals)) ** 0.5
            yield f"{value}, {number}", None if abs(one - other) <= ERRORS * error else f"{one} and {other}"


def package():
    """The package's program runs from where it is installed, and its man page has its options."""
    folder = TRANSLATOR.parent
    with harness.scratch() as scratch:
        subprocess.run([folder / "build", scratch], check=True)
        (made,) = pathlib.Path(scratch).glob("deals-dealer_*_all.deb")
        subprocess.run(["dpkg-deb", "-x", made, f"{scratch}/root"], check=True)
        ended = subprocess.run([f"{scratch}/root/usr/bin/deals-dealer"], input="produce 1", capture_output=True, text=True, check=False)
    yield "package", None if ended.stdout.startswith("deals make --seed=1 --boards=1 ") else ended.stderr
    told = subprocess.run([TRANSLATOR, "--help"], capture_output=True, text=True, check=True).stdout
    man = (folder / "deals-dealer.1").read_text().replace("\\-", "-").partition(".SH OPTIONS")[2].partition(".SH ENV")[0]
    listed = set(re.findall(r"^\.BI? (--[a-z-]+)", man, re.M))
    yield "man page", None if set(re.findall(r"--[a-z-]+", told)) == listed else f"{listed}"


def runs():
    """With --run the commands are run; a program that is missing, and words that can't be read, end with a line."""
    script = "produce 2 hcp(north)>14 action printpbn"
    words = [PYTHON, TRANSLATOR, "--run"]
    ended = subprocess.run(words, input=script.encode(), capture_output=True, env={"DEALS": str(harness.PROGRAM)}, check=False)
    wanted = harness.deals(*translated(script)[1][0][1:])
    yield "run", None if (ended.returncode, ended.stdout) == (0, wanted.stdout) and wanted.stdout else "other"
    ended = subprocess.run(words, input=script.encode(), capture_output=True, env={"DEALS": "/nowhere"}, check=False)
    yield "run, no program", None if ended.returncode == 1 and b"isn't installed" in ended.stderr else "other"
    with open("/dev/full", "wb") as full:
        ended = subprocess.run([PYTHON, TRANSLATOR], input=script.encode(), stdout=full, stderr=subprocess.PIPE, check=False)
    said = b"deals-dealer: the output failed: No space left on device\n"
    yield "a full disk", None if (ended.returncode, ended.stderr) == (4, said) else f"{ended.returncode}: {ended.stderr!r}"
    _, _, said = translated("altcount 6 3 2\npt6(north)>2")
    yield "altcount, what is told", None if "manual" in said else said
    _, _, said = translated("predeal spades(north)==1")
    yield "lengths in predeal, what is told", None if "manual" in said else said
    seed = "write a number, 0 to 4294967295"
    for given, status, told in (
        (["/nowhere"], 1, "No such file"), (["--seed", "x"], 2, seed), (["--seed", "4294967296"], 2, seed), (["a", "b"], 2, "b"),
    ):
        ended = subprocess.run([PYTHON, TRANSLATOR, *given], capture_output=True, text=True, check=False)
        right = ended.returncode == status and "Traceback" not in ended.stderr and told in ended.stderr
        yield f"words, {given}", None if right else ended.stderr
        closed = ["bash", "-c", '"$@" 2>&-', "", PYTHON, TRANSLATOR, *given]
        ended = subprocess.run(closed, capture_output=True, text=True, check=False)
        yield f"closed error, {given}", None if (ended.returncode, ended.stdout) == (status, "") else ended.stdout


def scripts():
    packages.need("dealer", DEALER)
    packages.need("python3-lark", "/usr/lib/python3/dist-packages/lark/__init__.py")
    yield from report.in_turn([words, table, examples, random_scripts, spoiled, shares, values, package, runs])
