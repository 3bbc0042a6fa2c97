"""Refuses the calls of the libraries their memory, one allocation at a time.

The tests in crates/test_runs/src/memory accept either outcome and check what is there after it. Here they are proved and
built, if `rt ci` hasn't built them since the last change, and each is run with its N-th allocation failing, alone and
with all that follow, N from 1 until nothing is refused.
"""

import concurrent.futures
import os
import subprocess

import harness

CRATE = harness.TOP / "crates" / "test_runs"
TESTS = CRATE / "out" / "test_runs_tests"
FAULTS = [harness.Fault("alloc", "once"), harness.Fault("alloc", "from")]


def is_built():
    """Whether the tests are there and no older than what they are made of."""
    made_of = [harness.TOP / "crates.txt", harness.TOP / "HANDLES"]
    for crate in (harness.TOP / "crates").iterdir():
        made_of += [path for part in ("src", "specs", "proofs") for path in (crate / part).rglob("*") if path.is_file()]
    return TESTS.exists() and all(path.stat().st_mtime <= TESTS.stat().st_mtime for path in made_of)


def complaint_of(end):
    if end.status is None:
        return "it did not end"
    if end.status != 0:
        return f"status {end.status}, {end.err.decode(errors='replace')[-300:]}"
    if end.live != 0:
        return f"{end.live} allocations were not freed"
    return None


def refuse_all(test, fault, shim):
    """How many runs of a test refused something, and what went wrong."""
    at, complaints = 1, []
    while True:
        end = harness.run([TESTS, test], shim, fault, at)
        complaint = complaint_of(end)
        if complaint is not None:
            complaints.append(f"FAILED: {test}, {fault.mode} {at}: {complaint}")
        if end.failed == 0:
            return at - 1, complaints
        at += 1


def tests():
    """The names of these tests, which are built before if need be."""
    if not is_built():
        subprocess.run(["rt", "test"], cwd=CRATE, check=True, stdout=subprocess.DEVNULL)
    listed = subprocess.run([TESTS, "--list"], check=True, capture_output=True, text=True).stdout
    return [line.removesuffix(": test") for line in listed.splitlines() if line.startswith("memory::")]


def libraries():
    """Each test with each of its allocations refused: a name for each of these runs."""
    with harness.scratch() as folder, concurrent.futures.ThreadPoolExecutor(len(os.sched_getaffinity(0))) as pool:
        shim = harness.compile_shim(folder)
        jobs = [(test, fault, pool.submit(refuse_all, test, fault, shim)) for test in tests() for fault in FAULTS]
        for test, fault, job in jobs:
            refused, complaints = job.result()
            name = f"{test}, {fault.mode}"
            yield from ((name, complaint) for complaint in complaints)
            yield from ((name, None) for _ in range(refused + 1 - len(complaints)))
