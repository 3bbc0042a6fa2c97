"""The boards that `deals-tricks` keeps by rules: compared with a second program over libdds's tables, and byte for byte
with what was read; input that is cut, binary, huge or endless; streams, memory and threads that fail; ends of pipes.
With `many` 2,000 boards are compared.
"""

import errno
import json
import os
import pathlib
import pty
import random
import re
import resource
import shlex
import signal
import subprocess
import tempfile
import time

import companion
import harness
import report
import second_solver
import tricks

PROGRAM = companion.PROGRAM
NAMES = "deals-tricks: "
# Both programs as a shell takes their paths.
DEALS_WORD, TRICKS_WORD = (shlex.quote(str(path)) for path in (harness.PROGRAM, PROGRAM))
SECONDS = 60
# A rule that each board meets, and costs nothing; and one that none meets.
EACH = ["--tricks", "S-N>=0"]
NONE = ["--tricks", "S-N=0", "--tricks", "S-N=13"]
# With the board's number, by Law 2.
VULNERABLE = ["None", "NS", "EW", "All", "NS", "EW", "All", "None", "EW", "All", "None", "NS", "All", "None", "NS", "EW"]
BATCH = 20


def kept(text: bytes, *words, **more) -> subprocess.CompletedProcess:
    return subprocess.run([PROGRAM, *words], input=text, capture_output=True, timeout=SECONDS, check=False, **more)


def said(run: subprocess.CompletedProcess) -> tuple:
    return run.returncode, run.stdout, run.stderr.decode()


def pbn(number: int, deal: str, end: str = "\n", label: str = "Lesson") -> bytes:
    tags = {"Event": label, "Board": number, "Dealer": "NESW"[(number - 1) % 4]}
    tags |= {"Vulnerable": VULNERABLE[(number - 1) % 16], "Deal": deal}
    return ("".join(f'[{name} "{value}"]{end}' for name, value in tags.items()) + end).encode()


def as_json(number: int, deal: str) -> bytes:
    told = {"board": number, "dealer": "NESW"[(number - 1) % 4], "vulnerable": VULNERABLE[(number - 1) % 16]}
    return json.dumps({**told, "deal": deal, "number": 3 * number}, separators=(",", ":")).encode() + b"\n"


HEAD = b"% PBN 2.1\n"
DEALS = list(tricks.dealt(12))
GAMES = [pbn(index + 1, deal) for index, deal in enumerate(DEALS)]
LINES = [as_json(index + 1, deal) for index, deal in enumerate(DEALS)]


def one_batch(deals: list[str], dice: random.Random, times: int):
    """Some boards under several lists of rules, in both notations: the boards, the numbers, their order."""
    strains = dice.sample(second_solver.STRAINS, dice.choice([1, 1, 1, 2]))
    tables = second_solver.tables(deals, strains)
    games = [pbn(index + 1, deal) for index, deal in enumerate(deals)]
    lines = [as_json(index + 1, deal) for index, deal in enumerate(deals)]
    for _ in range(times):
        rules = second_solver.rules(dice, strains)
        words = [word for rule in rules for word in rule.words()]
        if second_solver.are_apart(rules):
            run = said(kept(b"", *words))
            yield f"refused: {words}", run[:2] == (2, b"") and "no board meets both" in run[2]
            continue
        chosen = [index for index, table in enumerate(tables) if all(rule.is_met(table) for rule in rules)]
        boards = b"".join([HEAD, *(games[index] for index in chosen)])
        numbers = b"".join(b"%d\n" % (3 * index + 3) for index in chosen)
        yield f"the boards of {words}", said(kept(HEAD + b"".join(games), *words)) == (0, boards, "")
        yield f"the numbers of {words}", said(kept(b"".join(lines), *words, "--numbers")) == (0, numbers, "")
    told = kept(b"".join(lines)).stdout.splitlines(keepends=True)
    numbered = b"".join(b"%d %b" % (3 * index + 3, line) for index, line in enumerate(told))
    yield "the lines of numbers", said(kept(b"".join(lines), "--numbers", "--add")) == (0, numbered, "")


def compared():
    dice = random.Random(2026)
    deals = list(tricks.dealt(2000 if report.has("many") else 60))
    for at in range(0, len(deals), BATCH):
        yield from one_batch(deals[at : at + BATCH], dice, 8)


def rows_of_rules():
    """Rules over a board of the solver's examples: in spades North and South take 5 tricks, East and West 8; in clubs
    7 and 5; in hearts and notrump 6 each."""
    deal = tricks.EXAMPLES[0][0]
    for words, is_met in {
        "--makes 2S-E": True, "--makes 3S-E": False, "--makes 2S-EW": True, "--makes 1S-NS": False,
        "--beaten 3S-EW": True, "--beaten 2S-EW": False, "--beaten 1S-NS": True, "--beaten 1C-N": False,
        "--tricks S-N=5": True, "--tricks S-N=6": False, "--tricks S-N=4": False, "--tricks S-N>=5": True,
        "--tricks S-N>=6": False, "--tricks S-N<=5": True, "--tricks S-N<=4": False, "--tricks NT-EW=6": True,
        "--tricks NT-EW=7": False, "--tricks C-W>=0": True, "--tricks C-W<=13": True, "--tricks C-W=13": False,
        "--makes 1C-NS --beaten 1C-EW": True,
        "--makes 2S-W --tricks H-S=6": True, "--tricks N-EW=6": True, "--tricks N-EW=7": False,
        "--makes 1N-N": False, "--beaten 1N-NS": True,
    }.items():
        yield words, said(kept(pbn(1, deal), *words.split())) == (0, pbn(1, deal) if is_met else b"", "")


def bytes_as_read():
    """What is written is what was read."""
    boards, first = b"".join(GAMES), pbn(1, DEALS[0], "\r\n", "Zürich {1}")
    for name, text in {
        "our file": HEAD + boards,
        "no line end at the end": HEAD + boards.rstrip(b"\n"),
        "CR LF": b"% PBN 2.1\r\n\r\n" + first + pbn(2, DEALS[1], "\r\n"),
        "first lines": b"% PBN 2.1\n; what comes\n{ over\nlines }\n\n" + boards,
        "comments between": GAMES[0] + b"; the next\n% escaped\n\n" + GAMES[1],
        "no empty line": GAMES[0].rstrip(b"\n") + b"\n" + GAMES[1],
        "a comment with quotes": GAMES[0].replace(b'"]\n\n', b'"] ; the "best"\n{ "x" }\n\n') + GAMES[1],
        "several tags on a line": GAMES[0].replace(b"]\n[", b"] [") + GAMES[1],
        "brackets that aren't tags": GAMES[0][:-1] + b'["x"]\n["x"]\n[y]\n\n' + GAMES[1],
        "notes": GAMES[0][:-1] + b'[Auction "N"]\n1NT =1= AP\n[Note "1:15-17"]\n[Note "2:x"]\n\n' + GAMES[1],
        "a line of JSON without its end": LINES[0] + LINES[1].rstrip(b"\n"),
        "JSON with CR LF and more names": LINES[0].replace(b"}\n", b', "more": [1, {"a": "}"}]}\r\n') + LINES[1],
        "nothing": b"",
        "first lines alone": HEAD,
    }.items():
        yield name, said(kept(text, *EACH)) == (0, text, "")
    yield "none is kept", said(kept(HEAD + boards, *NONE)) == (0, HEAD, "")
    yield "the second alone", said(kept(HEAD + GAMES[0] + GAMES[1], *EACH, "--boards", "1")) == (0, HEAD + GAMES[0], "")
    many = HEAD + b"".join(pbn(number + 1, DEALS[number % 12]) for number in range(10_000))
    yield "10,000 boards", said(kept(many, *EACH)) == (0, many, "")
    yield "lines of tricks of JSON", said(kept(LINES[0])) == said(kept(GAMES[0]))


def in_pbn(line: str) -> bytes:
    """The four tags, by a line of tricks, as FORMATS has them."""
    digits, score, contract = re.fullmatch(r"(\S+) (\S+ \d+) (\S+) N:.*\n", line).groups()
    rows = zip([seat + strain for seat in "NSEW" for strain in (" NT", "  S", "  H", "  D", "  C")], digits)
    table = "".join(f"{name} {int(digit, 16):2}\n" for name, digit in rows)
    tags = f'[DoubleDummyTricks "{digits}"]\n[OptimumScore "{score}"]\n[ParContract "{contract}"]\n'
    return (tags + '[OptimumResultTable "Declarer;Denomination\\2R;Result\\2R"]\n' + table + "\n").encode()


def added():
    """Tricks and par with --add."""
    line = kept(GAMES[0]).stdout.decode()
    tags = in_pbn(line)
    yield "PBN", said(kept(HEAD + GAMES[0], "--add")) == (0, HEAD + GAMES[0][:-1] + tags, "")
    windows = said(kept(GAMES[0].replace(b"\n", b"\r\n"), "--add"))
    yield "CR LF", windows == (0, (GAMES[0][:-1] + tags).replace(b"\n", b"\r\n"), "")
    yield "no line end", said(kept(GAMES[0].rstrip(), "--add")) == (0, GAMES[0][:-1] + tags.rstrip(), "")
    followed = said(kept(GAMES[0][:-2] + b" { x\ny }\n\n", "--add"))
    yield "a comment after the deal", followed == (0, GAMES[0][:-1] + tags[:-1] + b" { x\ny }\n\n", "")
    told = json.loads(kept(LINES[0], "--add", *EACH).stdout)
    digits, _, par = line.partition(" N:")[0].partition(" ")
    yield "JSON", told == {**json.loads(LINES[0]), "tricks": digits, "par": par}
    had = LINES[0].replace(b"}", b',"tricks":"-"}')
    yield "JSON that has tricks", said(kept(had, "--add")) == (0, had, "")
    yield from missing(tags)


def missing(tags):
    """Tricks that can't be read are put in, with the tags that a game doesn't have; each other tag stays as it is."""
    game, (trick_tag, score_tag, contract_tag, *_) = GAMES[0], tags.splitlines(keepends=True)
    table = tags[tags.index(b"[OptimumResultTable") :]
    deal = game[game.index(b"[Deal ") :]
    for name, had, added in [
        ("par alone", game[:-1] + b'[OptimumScore "NS 0"]\n\n', game[:-1] + trick_tag + contract_tag + table[:-1] + b'[OptimumScore "NS 0"]\n\n'),
        ("a table alone", game[:-1] + table, game[:-1] + trick_tag + score_tag + contract_tag + table),
        ("no digit", game[:-1] + b'[DoubleDummyTricks ""]\n\n', game[:-1] + tags[len(trick_tag) : -1] + trick_tag + b"\n"),
        ("no tricks known", game[:-1] + b'[DoubleDummyTricks "?"]\n\n', game[:-1] + tags[len(trick_tag) : -1] + trick_tag + b"\n"),
        ("no digit before the deal", game.replace(deal, b'[DoubleDummyTricks ""]\n' + deal),
         game.replace(deal, trick_tag + deal[:-1] + tags[len(trick_tag) :])),
        ("all but its digits", game[:-1] + b'[DoubleDummyTricks ""] { x }\n' + tags[len(trick_tag) :],
         game[:-1] + trick_tag[:-1] + b" { x }\n" + tags[len(trick_tag) :]),
    ]:
        run = said(kept(HEAD + had + GAMES[1], "--add", "--boards", "1"))
        yield f"PBN that has {name}", run == (0, HEAD + added, "")
        shown = harness.deals("show", "--format=json", given=run[1]).stdout
        digits = re.search(rb'"([^"]*)"', trick_tag)[1]
        yield f"show reads it, {name}", json.loads(shown)["tricks"].encode() == digits
        yield f"again, {name}", said(kept(run[1], "--add")) == run
    yield "PBN that has tricks", said(kept(game[:-1] + trick_tag + b"\n", "--add")) == (0, game[:-1] + trick_tag + b"\n", "")


def refused_words():
    contract = "  write a level 1 to 7, C, D, H, S, N or NT, -, and N, E, S, W, NS or EW: 4S-NS\n"
    form = "  write C, D, H, S, N or NT, -, N, E, S, W, NS or EW, then =, >= or <= and 0 to 13: S-N=10\n"
    boards = "  write 1 to 1099511627776\n"
    for option, wrong, advice in [
        *(("--makes", word, contract) for word in ["", "8S-N", "0S-N", "4S", "4S-NE", "4s-N", "4TN-N", "44S-N", "4S-NS "]),
        *(("--beaten", word, contract) for word in ["4NT-SN", "S-N=10"]),
        *(("--tricks", word, form) for word in ["4S-N", "S-N", "S-N==9", "S-N=14", "S-N=", "S-N<9", "S-N=010", "S-N=-1"]),
        *(("--boards", word, boards) for word in ["0", "-1", "x", "1e3", "1099511627777", "99999999999999999999"]),
    ]:
        text = f"{NAMES}{option} {wrong}: can't be read\n{advice}"
        yield f"{option} {wrong}", said(kept(GAMES[0], f"{option}={wrong}")) == (2, b"", text)
    for words, is_refused in [
        ("--makes 1S-NS --beaten 1S-NS", True), ("--beaten 3N-EW --makes 3NT-E", True), ("--makes 4S-N --beaten 3S-NS", True),
        ("--tricks S-N>=10 --beaten 4S-NS", True), ("--makes 4S-NS --beaten 4S-N", False), ("--makes 3S-NS --beaten 4S-NS", False),
        ("--makes 4S-NS --beaten 4S-EW", False), ("--makes 4S-NS --beaten 4H-NS", False),
    ]:
        run = kept(b"", *words.split(), "--numbers")
        is_told = b"no board meets both" in run.stderr and b"leave one of them out" in run.stderr
        yield f"together: {words}", (run.returncode, is_told) == ((2, True) if is_refused else (0, False))
    for words in (["--what"], ["--makes"], ["boards.pbn"], ["--add=1"]):
        run = kept(GAMES[0], *words)
        yield f"{words}", run.returncode == 2 and run.stdout == b"" and run.stderr.startswith(NAMES.encode())
    version = (harness.TOP / "CHANGELOG.md").read_text().partition("\n## ")[2].partition("\n")[0]
    yield "the version", said(kept(b"", "--version")) == (0, f"deals-tricks {version}\n".encode(), "")


def refused_boards():
    """Input that isn't what it should be, after two boards: they are written, and the line is told."""
    first, second = GAMES[0].decode(), LINES[2].decode()
    no_deal, no_deal_of_one = "the deal can't be read", "the deal of board 1 can't be read"
    for name, text, line, why in [
        ("a NUL in a hand", re.sub(r'"N:.', '"N:\0', first), 5, no_deal_of_one),
        ("North hidden", re.sub(r'"N:\S+', '"N:-', first), 5, no_deal_of_one),
        ("a deal that is cut", first[: first.index("[Deal ") + 30], 5, no_deal_of_one),
        ("a tag that is cut", first[: first.index("[Vul") + 9], 4, "the board is cut off"),
        ("a board without its deal", first[: first.index("[Deal ")], 4, "the board is cut off"),
        ("an open comment", first[:-1] + "{ x\n\n" + first, 6, "the comment isn't closed"),
        ("a long line", "x" * 300_000, 1, "longer than 262144 bytes"),
        ("a long game", first[:-1] + "x\n" * 200_000, None, "a board of more than 262144 bytes"),
    ]:
        run = kept(HEAD + GAMES[0] + GAMES[1] + text.encode(), *EACH)
        place = rf"{line + 13}" if line else r"\d+"
        told = re.fullmatch(f"{NAMES}line {place}: {re.escape(why)}\n", run.stderr.decode())
        yield name, (run.returncode, run.stdout, bool(told)) == (1, HEAD + GAMES[0] + GAMES[1], True)
    for name, text, why in [
        ("JSON that is cut", second[:60], no_deal),
        ("JSON without a deal", '{"board":1}\n', no_deal),
        ("a deal that is a number", '{"deal":1}\n', no_deal),
        ("JSON in JSON", "[" * 100_000 + "\n", no_deal),
        ("not UTF-8", second.replace("None", "\udc80").replace("EW", "\udc80"), no_deal),
        ("PBN after JSON", first, no_deal),
        ("zeros", "\0" * 300_000, "longer than 262144 bytes"),
    ]:
        run = kept(LINES[0] + LINES[1] + text.encode(errors="surrogateescape"), *EACH)
        yield name, said(run) == (1, LINES[0] + LINES[1], f"{NAMES}line 3: {why}\n")
    no_number = LINES[1].replace(b',"number":6', b"")
    run = kept(LINES[0] + no_number, *EACH, "--numbers")
    yield "JSON without a number", said(run) == (1, b"3\n", f"{NAMES}line 2: the board has no candidate's number\n")
    yield "numbers of PBN", kept(GAMES[0], *EACH, "--numbers").returncode == 1
    alone = (HEAD + GAMES[0]).replace(b"\n", b"\r")
    for words in ([], EACH):
        run = kept(alone, *words)
        is_told = run.stderr.startswith(f"{NAMES}no deal: ".encode())
        yield f"lines that end in CR alone, {words}", (run.returncode, run.stdout, is_told) == (1, b"", True)
    for name, text in {"bytes by chance": random.Random(3).randbytes(100_000).replace(b"[", b""), "a text": b"x\ny\n"}.items():
        run = kept(text, *EACH)
        yield name, run.returncode == 1 and run.stdout == b"" and run.stderr.startswith(NAMES.encode())


def endless():
    """Input without an end: it is refused, in little memory."""
    for name, command in {"zeros": "cat /dev/zero", "lines": "yes", "comments": "yes '; x'", "empty lines": "yes ''"}.items():
        line = f'set -o pipefail; {command} 2>/dev/null | "$0" --makes 4S-NS'
        run = subprocess.run(["bash", "-c", line, PROGRAM], capture_output=True, timeout=SECONDS, check=False)
        yield f"endless {name}", run.returncode == 1 and run.stdout == b"" and b": line " in run.stderr


def streams():
    """Streams that fail."""
    folder = os.open("/", os.O_RDONLY)
    run = subprocess.run([PROGRAM, *EACH], stdin=folder, capture_output=True, check=False, timeout=SECONDS)
    os.close(folder)
    yield "a folder as input", said(run) == (1, b"", f"{NAMES}input failed: {os.strerror(errno.EISDIR)}\n")
    with open("/dev/full", "wb") as full:
        run = subprocess.run([PROGRAM, *EACH], input=GAMES[0], stdout=full, stderr=subprocess.PIPE, check=False)
    told = f"{NAMES}output failed: {os.strerror(errno.ENOSPC)}\n"
    yield "a full output", (run.returncode, run.stderr.decode()) == (4, told)
    for name, redirection, status in [("input", "<&-", 1), ("output", ">&-", 4), ("error", "2>&-", 0)]:
        line = f'"$0" --tricks "S-N>=0" {redirection}'
        run = subprocess.run(["bash", "-c", line, PROGRAM], input=GAMES[0], capture_output=True, check=False, timeout=SECONDS)
        yield f"closed {name}", run.returncode == status and run.stdout == (b"" if status else GAMES[0])


def room(kilobytes: int):
    return lambda: resource.setrlimit(resource.RLIMIT_AS, (kilobytes << 10, kilobytes << 10))


def no_room():
    """Memory and threads that are refused: by limits, and one by one. It never aborts, and writes whole boards."""
    texts = {5: f"{NAMES}out of memory\n", 6: f"{NAMES}thread not started\n", 0: ""}
    right = [HEAD + b"".join(GAMES[:count]) for count in range(len(GAMES) + 1)] + [b""]
    rows = [({}, kilobytes) for kilobytes in [14_000, 20_000, 23_000, 30_000, 60_000, 90_000, 100_000, 120_000, 150_000]]
    rows += [({"REFUSED": f"thread {at}"}, 0) for at in range(1, 7)]
    rows += [({"REFUSED": f"new {at}"}, 0) for at in (*range(1, 100, 9), *range(100, 2000, 95))]
    with tempfile.TemporaryDirectory() as folder:
        shim, source = f"{folder}/refused.so", tricks.HERE / "refused.cpp"
        subprocess.run(["g++", "-O2", "-Wall", "-Wextra", "-shared", "-fPIC", "-o", shim, source, "-ldl"], check=True)
        for more, kilobytes in rows:
            settings = {"env": {**os.environ, **more, "LD_PRELOAD": shim}} if more else {"preexec_fn": room(kilobytes)}
            run = kept(HEAD + b"".join(GAMES), *EACH, **settings)
            whole = run.stdout in right and texts.get(run.returncode) == run.stderr.decode()
            yield f"{more or kilobytes}: {run.returncode}", whole
        run = kept(HEAD + GAMES[0], *EACH, env={**os.environ, "REFUSED": "read 2", "LD_PRELOAD": shim})
        told = f"{NAMES}input failed: {os.strerror(errno.EIO)}\n"
        yield "input that fails after a board", said(run) == (1, HEAD + GAMES[0], told)


def peak():
    """Memory beside libdds's own: of 10,000 boards, and of boards as long as may be."""
    long = b"".join(game[:-1] + b"; x\n" * 60_000 + b"\n" for game in GAMES * 20)
    many = b"".join(GAMES) * 1000
    used = []
    for text in (GAMES[0], many, long):
        with tempfile.TemporaryFile() as file:
            file.write(text)
            file.seek(0)
            process = subprocess.Popen([PROGRAM, *EACH], stdin=file, stdout=subprocess.DEVNULL)
            used.append(os.wait4(process.pid, 0)[2].ru_maxrss)
    yield f"memory: {used} KiB", max(used) - used[0] < 100_000


def first_of_pipe(line: str) -> tuple:
    began = time.monotonic()
    run = subprocess.run(["bash", "-c", line, PROGRAM], capture_output=True, timeout=SECONDS, check=False)
    return run.returncode, run.stderr, time.monotonic() - began < 10, run.stdout


def pipes():
    """Pipes that end early, at either end."""
    with tempfile.NamedTemporaryFile() as file:
        file.write(b"".join(GAMES) * 2)
        file.flush()
        forever = f"while cat {file.name}; do :; done 2>/dev/null"
        run = first_of_pipe(f'( {forever} ) | "$0" --boards 12 --tricks "S-N>=0"')
        yield "twelve boards of an endless pipe", run == (0, b"", True, b"".join(GAMES))
        # No board is kept after the first, so the end of the reader has to be seen without a write.
        line = f'( cat {file.name}; sleep 30 ) | {{ "$0" --tricks "S-N>=0"; echo $? >&2; }} | head -n 5'
        began = time.monotonic()
        settings = {"stdout": subprocess.PIPE, "stderr": subprocess.PIPE, "start_new_session": True}
        with subprocess.Popen(["bash", "-c", line, PROGRAM], **settings) as process:
            status = process.stderr.readline()
            yield "a reader that leaves", status == b"4\n" and time.monotonic() - began < 10
            os.killpg(process.pid, signal.SIGKILL)


def after_find(rare):
    """The numbers of twelve boards of a thousand million candidates, what came after the twelfth board, what was said,
    and in how many seconds all of the pipe had ended."""
    find = f"{DEALS_WORD} find --seed 7 --candidates 1000000000 --where '{rare}'"
    pick = f"{DEALS_WORD} pick --seed 7 --format json"
    line = f"{find} | {pick} | {TRICKS_WORD} --tricks 'S-N>=0' --boards 12 --numbers | {pick}; echo ${{PIPESTATUS[@]}}"
    with subprocess.Popen(["bash", "-c", line], stdout=subprocess.PIPE, stderr=subprocess.PIPE, text=True) as process:
        numbers = [json.loads(process.stdout.readline())["number"] for _ in range(12)]
        began = time.monotonic()
        rest, told = process.communicate(timeout=SECONDS)
        return numbers, rest, told, time.monotonic() - began


def behind_find():
    """Twelve boards of a thousand million candidates, one of which in some five thousand is found: all of the pipe has
    ended a second after the twelfth, and nobody has said a word. A machine may stop for longer, but not each time."""
    harness.build()
    rare = "hcp(north)>=26"
    for _ in range(5):
        numbers, rest, told, seconds = after_find(rare)
        if seconds < 1:
            break
    yield f"after find: {seconds:.1f} s", (rest, told, seconds < 1) == ("4 4 0 0\n", "", True)
    words = ["find", "--seed", "7", "--candidates", str(numbers[-1] + 1), "--where", rare]
    yield "its numbers", harness.deals(*words).stdout == "".join(f"{number}\n" for number in numbers).encode()


def picked_with_tricks():
    """The numbers with tricks of boards that were found make the sheet that the boards themselves make."""
    harness.build()
    search = "--seed 7 --candidates 20000 --where 'hcp(north)>=24'"
    pick = f"{DEALS_WORD} pick --seed 7"
    numbered = f"{DEALS_WORD} find {search} | {pick} --format json | {TRICKS_WORD} --numbers --add"
    plain = f"{DEALS_WORD} make {search} | {TRICKS_WORD} --add | {DEALS_WORD} show --format sheet"
    lines = f"{numbered} | {pick} --tricks --format sheet; echo ${{PIPESTATUS[@]}}"
    sheets = [subprocess.run(["bash", "-c", line], capture_output=True, timeout=SECONDS, check=False) for line in (lines, plain)]
    text = sheets[1].stdout
    yield "a sheet of numbers with tricks", text.count(b"<section") > 0 and said(sheets[0]) == (0, text + b"0 0 0 0\n", "")


def stopped():
    """Ctrl-C leaves whole boards."""
    whole = re.compile(rb'(\[Event .*\n\[Board .*\n\[Dealer .*\n\[Vul.*\n\[Deal "[^"]*"\]\n\n)*')
    with tempfile.TemporaryDirectory() as folder:
        source, target = pathlib.Path(folder) / "boards", pathlib.Path(folder) / "kept"
        source.write_bytes(b"".join(GAMES) * 20_000)
        for number in (signal.SIGINT, signal.SIGTERM, signal.SIGHUP) * 4:
            with source.open("rb") as given, target.open("wb") as out:
                settings = {"stderr": subprocess.PIPE, "preexec_fn": harness.usual_signals}
                process = subprocess.Popen([PROGRAM, *EACH], stdin=given, stdout=out, **settings)
                while target.stat().st_size == 0 and process.poll() is None:
                    time.sleep(0.001)
                process.send_signal(number)
                _, told = process.communicate(timeout=SECONDS)
            has_whole = whole.fullmatch(target.read_bytes()) is not None
            yield f"{number.name}", (process.returncode, told, has_whole) == (-number, b"", True)


def counted():
    """The line of counts on a terminal: shown while it lasts, and wiped."""
    terminal, other = pty.openpty()
    command = f'(cat; sleep 2.2) | {TRICKS_WORD} --tricks "S-N>=0"'
    with subprocess.Popen(["bash", "-c", command], stdin=subprocess.PIPE, stdout=subprocess.PIPE, stderr=other) as process:
        os.close(other)
        out, _ = process.communicate(GAMES[0], timeout=SECONDS)
    shown = harness.all_of(terminal)
    os.close(terminal)
    has_line = re.search(rb"\r\x1b\[\?7l1 boards?  1 kept  \d+/s\x1b\[K\x1b\[\?7h", shown)
    yield "the line of counts", bool(has_line) and shown.endswith(b"\r\x1b[K") and out == GAMES[0]


def by_rules():
    """The boards that are kept by rules."""
    companion.build()
    parts = [compared, rows_of_rules, bytes_as_read, added, refused_words, refused_boards]
    parts += [endless, streams, no_room, peak, pipes, behind_find, picked_with_tricks, stopped, counted]
    yield from report.each(parts)
