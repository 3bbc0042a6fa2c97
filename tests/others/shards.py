"""Shards of a search: what they find, joined in order and picked, is what one run of `make` writes."""

import functools
import os
import pathlib
import signal
import subprocess
import tempfile
import time

import harness
import packages

SHARD = harness.TOP / "examples" / "shard"
RESUME = harness.TOP / "examples" / "resume"
SEED = ["--seed", "2024"]
WHERE = ["--where", "hcp(north)+hcp(south)>=37"]

# The first candidate and the count of each, uneven; the fifth is the longest.
SHARDS = [
    (0, 1),
    (1, 7),
    (8, 2_000_000),
    (2_000_008, 100),
    (2_000_108, 9_000_000),
    (11_000_108, 1_001),
    (11_001_109, 998_891),
]
LONGEST = SHARDS[4]
CANDIDATES = 12_000_000
SECONDS = 120
# What takes long enough to be stopped twice.
LONG = 40_000_000


@functools.cache
def made(deals):
    """What one run writes."""
    return deals("make", *SEED, *WHERE, "--candidates", str(CANDIDATES)).stdout


def picked(deals, folder):
    """What is picked by the numbers of the shards' files, in order."""
    files = sorted(pathlib.Path(folder).glob("*[0-9]"))
    return deals("pick", *SEED, given=b"".join(path.read_bytes() for path in files)).stdout


def joined(deals):
    """Shards one after another."""
    texts = [deals("find", *SEED, *WHERE, "--first", str(f), "--candidates", str(n)).stdout for f, n in SHARDS]
    whole = deals("find", *SEED, *WHERE, "--candidates", str(CANDIDATES)).stdout
    yield "shards joined", None if b"".join(texts) == whole != b"" else "aren't what one run finds"
    right = deals("pick", *SEED, given=whole).stdout == made(deals)
    yield "shards picked", None if right else "aren't what make writes"


def running(is_it, seconds=SECONDS):
    """The process of the program whose words, each after a NUL, are those, once there is one; it is looked for at least
    once."""
    end = time.monotonic() + seconds
    is_first = True
    while is_first or time.monotonic() < end:
        is_first = False
        for entry in pathlib.Path("/proc").iterdir():
            try:
                if entry.name.isdigit() and is_it((entry / "cmdline").read_bytes()):
                    if (entry / "exe").resolve() == harness.PROGRAM.resolve():
                        return int(entry.name)
            except OSError:
                continue
        time.sleep(0.005)
    return None


def search_of(first, seconds=SECONDS):
    """The process of the search from this candidate on, once there is one."""
    wanted = f"\0find\0--first\0{first}\0".encode()
    return running(lambda words: wanted in words, seconds)


def is_search(words):
    """Whether these are the words of a search, and not of a look at one candidate."""
    return b"\0find\0--first\0" in words and b"\0--candidates\x001\0" not in words


def start(folder, log, *more):
    """Starts GNU parallel over the shards, three at once."""
    words = ["parallel", "--will-cite", "--jobs", "3", "--joblog", log, "--colsep", " ", *more]
    words += [str(SHARD), str(folder), "{1}", "{2}", *SEED, WHERE[0], f"'{WHERE[1]}'"]
    process = subprocess.Popen(
        words, stdin=subprocess.PIPE, stderr=subprocess.DEVNULL, env={**os.environ, "DEALS": str(harness.PROGRAM)}
    )
    process.stdin.write("".join(f"{first} {count}\n" for first, count in SHARDS).encode())
    process.stdin.close()
    return process


def resumed(deals):
    """A search of its own that is stopped, by its script and as a whole, cut in a line, and resumed to its end."""
    where = ["--where", "hcp(north)+hcp(south)>=33"]
    with tempfile.TemporaryDirectory(prefix="resume-") as folder:
        file = pathlib.Path(folder) / "found"
        words = ["sh", str(RESUME), str(file), str(LONG), *SEED, *where]
        settings = {"env": {**os.environ, "DEALS": str(harness.PROGRAM)}, "stderr": subprocess.PIPE}
        for stop, sign in ((os.kill, signal.SIGTERM), (os.killpg, signal.SIGKILL)):
            process = subprocess.Popen(words, start_new_session=True, **settings)
            running(is_search)
            time.sleep(0.1)
            busy = subprocess.run(words, **settings)
            stop(process.pid, sign)
            process.communicate(timeout=SECONDS)
            ended = process.returncode in (143, -sign)
            refused = busy.returncode == 1 and b"is running" in busy.stderr
            yield f"stopped by {sign.name}", None if ended and refused else f"{process.returncode}, {busy}"
        with file.open("ab") as found:
            found.write(b"1")
        run = subprocess.run(words, timeout=SECONDS, **settings)
        whole = deals("find", *SEED, *where, "--candidates", str(LONG)).stdout
        right = run.returncode == 0 and b"are searched" in run.stderr and file.read_bytes() == whole != b""
        yield "a search resumed", None if right else f"{run}, {len(file.read_bytes())} of {len(whole)} bytes"


# What is wrong with a file that a search was to go on with, and what is said of it; None where it goes on.
BEGUN = [
    (b"5\n", "3", b"has candidate 5 already"),
    (b"abc\n", "20", b"is not a number"),
    (b"5\r\n", "20", b"is not a number"),
    (b"\n", "20", b"is not a number"),
    (b"", "2x", b"'2x' is not a number"),
    (b"", "99999999999999", b"at most 13 digits"),
    (b"010\n", "011", None),
    (b"7\n12", "8", None),
]


def begun(_):
    """What resume says of a file that it can't go on with, which stays as it is; numbers are read in ten."""
    with tempfile.TemporaryDirectory(prefix="resume-") as folder:
        file = pathlib.Path(folder) / "found"
        settings = {"env": {**os.environ, "DEALS": str(harness.PROGRAM)}, "capture_output": True, "check": False}
        for kept, count, said in BEGUN:
            file.write_bytes(kept)
            words = ["sh", str(RESUME), str(file), count, *SEED]
            run = subprocess.run(words, **settings)
            if said is None:
                right = (run.returncode, run.stdout) == (0, b"") and b"all %d " % int(count) in run.stderr
            else:
                right = run.returncode == 2 and said in run.stderr and file.read_bytes() == kept
            yield f"resume, {kept}, {count}", None if right else str(run)
        file.write_bytes(b"5\n7\n")
        (file.parent / "found.search").unlink()
        run = subprocess.run([*words[:3], "20", *SEED, "--where", "hcp(north)>37"], **settings)
        right = run.returncode == 2 and b"has candidate 5, which this search doesn't find" in run.stderr
        yield "resume, another search", None if right and file.read_bytes() == b"5\n7\n" else str(run)


# Options that aren't those of the search that was begun, and what is said of them; None where it goes on.
OTHERS = [
    (["--where", "hcp(north)>=0"], b"of another search, for this one name another f"),
    (["--boards", "3"], b"leave --boards out"),
    (["-n", "3"], b"leave -n out"),
    (["-n3"], b"leave -n3 out"),
    (["--first=2"], b"leave --first out"),
    (["--workers", "2", "--lane=8", "--hints", "always"], None),
]


def contents(folder):
    """The files of a folder and of those in it, with their bytes."""
    return {path: path.read_bytes() for path in pathlib.Path(folder).rglob("*") if path.is_file()}


def known(_):
    """Options of another search are refused, and what was found stays."""
    settings = {"env": {**os.environ, "DEALS": str(harness.PROGRAM)}, "capture_output": True, "check": False}
    for script, numbers in ((RESUME, ["20"]), (SHARD, ["0", "20"])):
        with tempfile.TemporaryDirectory(prefix="known-") as folder:
            words = ["sh", str(script), f"{folder}/found", *numbers, *SEED]
            begun_by = subprocess.run(words, **settings)
            found = contents(folder)
            yield f"{script.name}, begun", None if begun_by.returncode == 0 and len(found) == 2 else str(begun_by)
            for options, said in OTHERS:
                run = subprocess.run([*words, *options], **settings)
                right = run.returncode == 0 if said is None else run.returncode == 2 and said in run.stderr
                yield f"{script.name}, {options}", None if right and contents(folder) == found else str(run)
            run = subprocess.run(["sh", str(script), "-n", *numbers, *SEED], cwd=folder, **settings)
            right = run.returncode == 0 and (pathlib.Path(folder) / "-n").exists()
            yield f"{script.name}, a hyphen in front", None if right else str(run)


# Options, a count and a program with which a search is refused, its status, and what is said.
REFUSED = [
    (["--where", "hcp(nord)>3"], "20", harness.PROGRAM, 3, b"condition refused at byte 4"),
    (["--boardz", "3"], "20", harness.PROGRAM, 2, b"unexpected argument '--boardz'"),
    (["--boards", "3"], "20", harness.PROGRAM, 2, b"leave --boards out"),
    # There are 2 to the power of 40 candidates.
    ([], "1099511627777", harness.PROGRAM, 2, b"plan refused: range\n"),
    ([], "20", "no-such-program", 127, b"not found"),
]


def refused(_):
    """What is refused, or lacks deals, leaves no file and no folder; what is there stays."""
    for options, count, program, status, said in REFUSED:
        settings = {"env": {**os.environ, "DEALS": str(program)}, "capture_output": True}
        for script, numbers in ((RESUME, [count]), (SHARD, ["0", count])):
            for is_there in (False, True):
                with tempfile.TemporaryDirectory(prefix="refused-") as folder:
                    found = pathlib.Path(folder) / "found"
                    if is_there:
                        found.mkdir() if script == SHARD else found.touch()
                    before = sorted(pathlib.Path(folder).rglob("*"))
                    words = ["sh", str(script), str(found), *numbers, *SEED, *options]
                    run = subprocess.run(words, **settings)
                    left = sorted(pathlib.Path(folder).rglob("*"))
                right = (run.returncode, left) == (status, before) and said in run.stderr
                name = f"{script.name}, refused {options} {count}, {is_there}"
                yield name, None if right else f"{run}, {left}"


def stopped(deals):
    """A shard that is stopped alone, by each signal: its search has ended, and no number is left of it."""
    for sign in (signal.SIGHUP, signal.SIGINT, signal.SIGQUIT, signal.SIGTERM):
        with tempfile.TemporaryDirectory(prefix="shards-") as folder:
            words = ["sh", str(SHARD), folder, "3", "1000000000000", *SEED, "--where", "hcp(north)>=37"]
            settings = {**os.environ, "DEALS": str(harness.PROGRAM)}
            process = subprocess.Popen(words, env=settings, stderr=subprocess.DEVNULL, preexec_fn=harness.usual_signals)
            found = search_of(3)
            began = time.monotonic()
            process.send_signal(sign)
            status = process.wait(SECONDS)
            is_soon = time.monotonic() - began < 5
            right = status == 128 + sign and is_soon and os.listdir(folder) == ["search"] and search_of(3, 0) is None
            yield f"a shard, {sign.name}", None if found and right else f"{status}, {os.listdir(folder)}"


def usage(deals):
    """The script for Slurm without its words says how it is called."""
    run = subprocess.run([harness.TOP / "examples" / "search.slurm"], capture_output=True, check=False)
    yield "search.slurm, no words", None if run.returncode == 2 and run.stderr.startswith(b"usage: sbatch") else str(run)
    for count in ("1,000", "", "1e6", "-1", "99999999999999"):
        words = [harness.TOP / "examples" / "search.slurm", "no-folder", count, *SEED]
        run = subprocess.run(words, env={**os.environ, "SLURM_ARRAY_TASK_ID": "0"}, capture_output=True, check=False)
        is_told = run.stderr == f"search.slurm: '{count}' is not a number of at most 13 digits\n".encode()
        yield f"search.slurm, {count}", None if run.returncode == 2 and is_told else str(run)


def array(deals):
    """The script for Slurm: its shards, started as the jobs of an array are."""
    with tempfile.TemporaryDirectory(prefix="shards-") as folder:
        for task in range(4):
            words = [harness.TOP / "examples" / "search.slurm", folder, "3000000", *SEED, *WHERE]
            settings = {**os.environ, "DEALS": str(harness.PROGRAM), "SLURM_ARRAY_TASK_ID": str(task), "SHARD": str(SHARD)}
            subprocess.run(words, cwd=harness.TOP, env=settings, check=True)
        yield "an array of jobs", None if picked(deals, folder) == made(deals) else "isn't what make writes"


def parallel(deals):
    """GNU parallel, with the longest shard killed, and resumed."""
    packages.need("parallel", "parallel")
    with tempfile.TemporaryDirectory(prefix="shards-") as scratch:
        folder, log = pathlib.Path(scratch) / "found", str(pathlib.Path(scratch) / "log")
        process = start(folder, log)
        found = search_of(LONGEST[0])
        if found is not None:
            os.kill(found, signal.SIGKILL)
        failed = process.wait(SECONDS)
        left = sorted(path.name for path in folder.glob("*[0-9]"))
        broken = f"{LONGEST[0]:013d}" not in left and len(left) == 6
        yield "a shard killed", None if found is not None and failed == 1 and broken else f"{failed}, {left}"
        resumed = start(folder, log, "--resume-failed").wait(SECONDS)
        runs = len(pathlib.Path(log).read_text().splitlines()) - 1
        yield "resumed", None if resumed == 0 and runs in (7, 8) else f"{resumed}, {runs} runs"
        yield "GNU parallel", None if picked(deals, folder) == made(deals) else "isn't what make writes"
