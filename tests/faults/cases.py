"""The calls of the program that are made to fail, and what each ends with where nothing fails."""

import dataclasses

import counts
import model


@dataclasses.dataclass
class Case:
    name: str
    words: list
    status: int = 0
    out: bytes | None = b""  # None: whatever it writes undisturbed, as help
    err: bytes | None = b""
    line: bytes = b""  # what err begins with: below it what is refused is explained, where memory allows
    workers: int = 0  # how many threads it starts
    given: bytes = b""  # what is on its input


NORTH, EAST, SOUTH, WEST = range(4)
# What a label and a date may be, and the first 70 characters of a label that may not.
LABEL = 'at most 100 characters of ASCII, from space to ~, without " and \\'
DATE = "a date is written YYYY.MM.DD, as 2024.05.01"
SHOWN = "a\\bca\\bca\\bca\\bca\\bca\\bca\\bca\\bca\\bca\\bca\\bca\\bca\\bca\\bca\\bca\\bca\\bca\\"

# Says what helps a person below a refusal, though standard error isn't a terminal.
HINTS = ["--hints", "always"]

# What clap says of a missing option, and what is below it where a seed is missing.
MISSING = "error: the following required arguments were not provided:\n"
MORE_INFORMATION = "For more information, try '--help'.\n"
SEED_HINTS = (
    "  hint: for a lesson any number is a good seed: --seed 7\n"
    "  hint: for a club draw one that nobody can guess: deals seed\n"
)

# A condition, and whether it accepts four hands.
CONDITIONS = {
    "every deal": (None, lambda d: True),
    "simple": ("hcp(north)>=15", lambda d: model.points(d[NORTH]) >= 15),
    "sums": (
        "hcp(north)+hcp(south)+1>=len(east,spades)+20",
        lambda d: model.points(d[NORTH]) + model.points(d[SOUTH]) + 1 >= model.lengths(d[EAST])[0] + 20,
    ),
    "nested": (
        "not (hcp(north)<12 and (not balanced(south) or (len(west,clubs)!=3 and not (balanced(east)))))",
        lambda d: not (
            model.points(d[NORTH]) < 12
            and (
                not model.is_balanced(d[SOUTH])
                or (model.lengths(d[WEST])[3] != 3 and not model.is_balanced(d[EAST]))
            )
        ),
    ),
    "shapes": (
        "pattern(east,5-4-3-1) or shape(north,4-3-3-3) or balanced(west)",
        lambda d: sorted(model.lengths(d[EAST])) == [1, 3, 4, 5]
        or model.lengths(d[NORTH]) == [4, 3, 3, 3]
        or model.is_balanced(d[WEST]),
    ),
}


def made(name, count, workers, condition="every deal", more=(), **settings):
    text, accepts = CONDITIONS[condition]
    words = ["make", "--seed", "7", "--candidates", str(count), "--workers", str(workers), *more]
    words += ["--hints", "always"] if workers == 3 else []
    if text is not None:
        words += ["--where", text]
    out = model.games(7, count, accepts, **settings)
    return Case(f"make, {name}, {workers} workers", words, out=out, workers=workers)


def of_make():
    for workers in (1, 3, 16):
        for condition in CONDITIONS:
            yield made(condition, 40, workers, condition)
        yield made("no candidate", 0, workers)
        yield made("a long text", 3000, workers, more=["--lane", "2"])
        yield made("some boards", 400, workers, "simple", ["--boards", "5"], boards=5)
        more = ["--first", "3", "--first-board", "16", "--event", "Club night", "--site", "", "--date", "2024.05.01"]
        labels = [("Event", "Club night"), ("Site", ""), ("Date", "2024.05.01")]
        yield made("labels", 20, workers, more=more, first=3, first_board=16, labels=labels)
    words = ["make", "--seed", "7", "--boards", "5", "--workers", "3"]
    yield Case("make, a limit alone", words, out=model.games(7, 5), workers=3)
    report = b"36 boards from 36 candidates, numbers 0 to 35, of seed 7\nnext: --first 36 --first-board 37\n"
    words = ["make", "--seed", "7", "--candidates", "36", "--report", "--workers", "3"]
    yield Case("make, a report", words, out=model.games(7, 36), err=report, workers=3)
    for more in (["--format", "hands", "--event", "Club night"], ["--format", "lin", "--rotate", "--dealer", "S"]):
        words = ["make", "--seed", "7", "--candidates", "40", "--workers", "3", *more]
        yield Case(f"make, {more[1]}", words, out=None, workers=3)
    deep = "(" * 509 + "0==0" + ")" * 509
    yield Case("make, brackets", asked("--where", deep), out=model.games(7, 1), workers=1)
    yield Case("make, negations", asked("--where", "not " * 254 + "0==0"), out=model.games(7, 1), workers=1)


def of_names():
    """Definitions beside a condition and a question, and such that are refused."""
    strong = ["--let", "let strong(seat) is (hcp(seat)>=15)"]
    words = ["make", "--seed", "7", "--candidates", "40", "--workers", "3", *strong, "--where", "strong(north)"]
    yield Case("make, names", words, out=model.games(7, 40, CONDITIONS["simple"][1]), workers=3)
    words = ["count", "--seed", "7", "--candidates", "40", "--workers", "1", *strong, "--format", "csv"]
    found = len(model.numbers(7, 40, CONDITIONS["simple"][1]).split())
    out = b"value,deals\nno,%d\nyes,%d\n" % (40 - found, found)
    yield Case("count, names", [*words, "--of", "strong(north)"], out=out, workers=1)
    for names, line in (("let a is (1>0)", "at byte 4: syntax"), (" " * 4097, ": longer than 4096 bytes")):
        line = f"let refused{'' if line.startswith(':') else ' '}{line}\n".encode()
        yield Case(f"let, {line}", asked("--let", names, *HINTS), 3, err=None, line=line)
        yield Case(f"let, {line} alone", asked("--let", names), 3, err=line)


def asked(*more):
    return ["make", "--seed", "7", "--candidates", "1", *more]


def of_pick():
    words = ["pick", "--seed", "7"]
    yield Case("pick, nothing", words, out=model.games(7, 0))
    yield Case("pick, three", words, out=model.games(7, 3), given=b"0\n1\r\n\n 2")
    numbers = b"".join(b"%d\n" % number for number in range(3000))
    yield Case("pick, many", words, out=model.games(7, 3000), given=numbers)
    refused = b"input refused at line 3: not a number\n"
    yield Case("pick, a refused line", words, 7, model.games(7, 2), refused, given=b"0\n1\ntwo\n")
    words = [*words, "--tricks"]
    yield Case("pick with tricks", words, out=model.games(7, 3), given=b"0 -\n1\t-\r\n\n 2 -")
    refused = b"input refused at line 2: not tricks\n"
    yield Case("pick with tricks, a refused line", words, 7, model.games(7, 1), refused, given=b"0 -\n1\n2 -\n")


def of_show():
    words = ["show"]
    yield Case("show, nothing", words, out=model.games(7, 0))
    yield Case("show, three", words, out=model.games(7, 3), given=model.games(7, 3))
    yield Case("show, many", words, out=model.games(7, 3000), given=model.games(7, 3000))
    yield Case("show, hands", [*words, "--format", "hands"], out=None, given=model.games(7, 40))
    refused = b"input refused at line 7: not a deal\n"
    given = model.games(7, 1) + b'[Deal "N:"]\n'
    yield Case("show, a refused line", words, 7, model.games(7, 1), refused, given=given)
    advice = f'  --event "a"b": {LABEL}\n  hint: write a\'b\n'
    said = b"label refused: event\n" + advice.encode()
    yield Case("show, a label", [*words, "--event", 'a"b', *HINTS], 2, err=said, line=b"label refused: event\n")


def of_tricks():
    words = ["make", "--seed", "7", "--candidates", "3", "--tricks", "--workers", "1"]
    yield Case("tricks, three", words, out=model.games(7, 3), workers=1, given=b"-\n-\r\n-")
    refused = b"input refused at line 2: not tricks\n"
    yield Case("tricks, a refused line", words, 7, model.games(7, 1), refused, workers=1, given=b"-\nthree\n-\n")
    refused = b"input refused at line 5: more than the boards\n"
    yield Case("tricks, a line too many", words, 7, model.games(7, 3), refused, workers=1, given=b"-\n-\n-\n\n-\n")


def of_texts():
    yield Case("stream", ["stream", "--seed", "0", "--count", "3"], out=b"366850414\n1610402240\n206956554\n")
    yield Case("stream, nothing", ["stream", "--seed", "0", "--count", "0"])
    yield Case("stream, long", ["stream", "--seed", "9", "--count", "20000"], out=model.values(9, 20000))
    yield Case("version", ["--version"], out=b"deals 0.3.0\n")
    for words in (["--help"], ["help"], ["help", "make"], ["make", "--help"], ["stream", "-h"]):
        yield Case(" ".join(words), words, out=None)


SEED_OF_SEARCH = "  hint: write the seed of the search that found the numbers: deals pick --seed 7\n"


def without_seed(command, more):
    """clap's text, and for new boards how to come to a seed."""
    words = [*more.replace("<M>", "36").replace("<TEXT>", "hcp(north)>=15").split(), *HINTS]
    usage = f"Usage: deals {command} --seed <S> {more} --hints <WHEN>"
    line = f"{MISSING}  --seed <S>\n\n{usage}\n\n{MORE_INFORMATION}"
    said = line + (SEED_OF_SEARCH if command == "pick" else SEED_HINTS)
    return Case(f"{command}, no seed", [command, *words], 2, err=said.encode(), line=line.encode())


# What is below an option that isn't there, and below words whose command was left out.
COMMAND_FIRST = "  hint: the command comes first: deals make --seed 7 --boards 36\n"
TO_A_FILE = "  hint: boards go to standard output, and so into a file: deals make .. > boards.pbn\n"
BY_WHERE = "  hint: a condition comes after --where, in quotes: --where 'hcp(north)>=15'\n"
HOW_MANY = "  hint: --boards 36 says how many boards, --candidates 1000 how many deals are tried\n"


def unexpected(words, option, usage, hint, tip=""):
    """clap's text, and what to write in the place of the option. A far tip, and the usage that goes with it, are left out
    unless memory is refused."""
    head = f"error: unexpected argument '{option}' found\n\n"
    line = f"{head}{tip}{usage}\n\n{MORE_INFORMATION}"
    said = head + MORE_INFORMATION if tip else line
    return Case(f"words, {option}", words, 2, err=(said + hint).encode(), line=line.encode())


def of_tried_options():
    usage = "Usage: deals make --seed <S> --boards <M>"
    boards = ["make", "--seed", "7", "--boards", "12"]
    for words in (["--seed", "7", "--boards", "12"], ["--frist"]):
        yield unexpected([*words, *HINTS], words[0], "Usage: deals <COMMAND>", COMMAND_FIRST)
    yield unexpected(["--frist"], "--frist", "Usage: deals <COMMAND>", "")
    south, dealer = (f"  tip: a similar argument exists: '--{name}'\n\n" for name in ("south", "dealer"))
    yield unexpected([*boards, "--output", "x", *HINTS], "--output", f"{usage} --south <HAND>", TO_A_FILE, south)
    yield unexpected([*boards, "--condition", "hcp(north)>9", *HINTS], "--condition", usage, BY_WHERE)
    yield unexpected([*boards, "--deals", "12", *HINTS], "--deals", f"{usage} --dealer <SEAT>", HOW_MANY, dealer)
    yield unexpected([*boards, "--nothing-like-it"], "--nothing-like-it", usage, "")


def of_refusals():
    for words in (
        [],
        ["deal"],
        ["stream"],
        ["stream", "--seed", "0"],
        ["stream", "--seed", "4294967296", "--count", "1"],
        ["stream", "--seed", "x", "--count", "1"],
        ["make", "--seed", "0", "--candidates", "18446744073709551616"],
        asked("--frist", "3"),
        asked("--event", "-x"),
    ):
        yield Case("words: " + " ".join(words), words, 2, err=None)
    for command, more in (("make", "--boards <M>"), ("find", "--where <TEXT> --boards <M>"), ("pick", "--rotate")):
        yield without_seed(command, more)
    yield Case("words: no text", ["make", b"\xff"], 2, err=b"")
    yield from of_tried_options()


def of_refused_values():
    for more, line, advice in (
        (["--first", "1099511627776"], "plan refused: range", "--candidates 1: 0 to 0 from this --first on"),
        (["--first", "1099511627777"], "plan refused: range", "--first 1099511627777: 0 to 1099511627776"),
        (["--workers", "17"], "plan refused: workers", "--workers 17: 1 to 16 workers, or auto"),
        (["--lane", "0"], "plan refused: lane capacity", "--lane 0: 1 to 4096 deals"),
        (["--boards", "0"], "plan refused: boards", "--boards 0: 1 to 4294967295 boards"),
        (["--first-board", "0"], "plan refused: first board", "--first-board 0: 1 to 1099511627776"),
        (["--event", 'a"b'], "label refused: event", f'--event "a"b": {LABEL}\n  hint: write a\'b'),
        (["--site", "a\\bc" * 30], "label refused: site", f'--site "{SHOWN}..": {LABEL}'),
        (["--date", "2024-05-01"], "label refused: date", f'--date "2024-05-01": {DATE}\n  hint: write 2024.05.01'),
        (["--west", "A10..."], "hand refused: west", '--west "A10...": a ten is written T\n  hint: write AT...'),
        (
            ["--north", "A...", "--east", "KA..."],
            "hand refused: east",
            '--east "KA...": the ace of spades is north\'s',
        ),
    ):
        line += "\n"
        said = f"{line}  {advice}\n".encode()
        yield Case(f"{line.strip()}, {more[0]}", asked(*more, *HINTS), 2, err=said, line=line.encode())
        yield Case(f"{line.strip()} alone, {more[0]}", asked(*more), 2, err=line.encode())


def of_refused_conditions():
    at = "condition refused at byte "
    for text, line in (
        (" " * 1025, "condition refused: longer than 1024 bytes"),
        ("hcp(nord)>=15", at + "4: unknown word"),
        ("hcp(north)< =15", at + "12: unexpected byte"),
        ("00005==5", at + "0: number too long"),
        ("not (1+2==3 and 4==) ", at + "19: syntax"),
        ("(" * 1024, at + "1024: syntax"),
        ("not " * 256, at + "1024: syntax"),
        ("1" + "+1" * 500 + "==" + "501", None),
    ):
        if line is None:
            yield Case("a sum of many", asked("--where", text), out=model.games(7, 1), workers=1)
        else:
            yield Case(line, asked("--where", text, *HINTS), 3, err=None, line=line.encode() + b"\n")
            yield Case(f"{line} alone", asked("--where", text), 3, err=line.encode() + b"\n")


def of_more():
    """Long texts, over lanes that are nearly always full or hold all, and each number of workers."""
    for workers in (1, 2, 5, 16):
        for lane in ("1", "4096"):
            yield made(f"a longer text, lanes of {lane}", 12000, workers, more=["--lane", lane])
        yield made("a longer search", 12000, workers, "nested", more=["--boards", "900"], boards=900)
    for workers in range(2, 16):
        yield made("more workers", 60, workers, "shapes")


def of_find():
    text, accepts = CONDITIONS["simple"]
    for workers in (1, 3):
        words = ["find", "--seed", "7", "--candidates", "300", "--where", text, "--workers", str(workers)]
        words += ["--progress", "always"]
        yield Case(f"find, {workers} workers", words, out=model.numbers(7, 300, accepts), workers=workers)
    yield Case("conditions", ["conditions"], out=None)


# Questions, each with what four hands answer.
QUESTIONS = {"hcp(south)": lambda d: model.points(d[SOUTH]), "longest(north)": lambda d: max(model.lengths(d[NORTH]))}


def counted(style, candidates, texts):
    """What `count` writes of the simple condition's deals among the first of seed 7."""
    _, accepts = CONDITIONS["simple"]
    accepted = filter(accepts, model.dealt(7, candidates))
    answers = [tuple(QUESTIONS[text](hands) for text in texts) for hands in accepted]
    answers = [answer[0] if len(answer) == 1 else answer for answer in answers]
    return counts.written(style, texts, ["value"] * len(texts), answers, candidates)


def of_count():
    text, _ = CONDITIONS["simple"]
    texts = list(QUESTIONS)
    for workers in (1, 3):
        for style, asked_for in (("table", texts[:0]), ("csv", texts[:1]), ("table", texts[:1]), ("table", texts), ("html", texts)):
            words = ["count", "--seed", "7", "--candidates", "300", "--where", text, "--format", style]
            words += ["--workers", str(workers)]
            for name, question in zip(["--of", "--by"], asked_for):
                words += [name, question]
            out = None if style == "html" else counted(style, 300, asked_for)
            name = f"count, {style} of {len(asked_for)}, {workers} workers"
            yield Case(name, words, out=out, workers=workers)
    words = ["count", "--seed", "7", "--candidates", "300", "--of", "hcp(nord)"]
    line = b"of refused at byte 4: unknown word\n"
    yield Case("count, a refused question", [*words, *HINTS], 3, err=None, line=line)
    yield Case("count, a refused question alone", words, 3, err=line)


def every(is_all):
    chosen = [*of_texts(), *of_make(), *of_names(), *of_find(), *of_count(), *of_pick(), *of_show(), *of_tricks(), *of_refusals()]
    chosen += [*of_refused_values(), *of_refused_conditions()]
    return [*chosen, *of_more()] if is_all else chosen
