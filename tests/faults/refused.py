"""Refuses the built program what it asks for, one call at a time, and checks how it ends.

With `all` there are longer texts, more workers, and the address space is cut short more finely; with `slow` it is told
how the runs ended.

Each kind of call fails alone, and from its N-th on, N from 1 until nothing is refused. A run must end within seconds,
never by a signal, and leak no memory. With status 5 standard error has the line 'out of memory' and standard
output has nothing; with 6 'thread not started' and nothing; with 4 'output failed', below it the system's reason where
hints are asked for, or nothing where the reader of a pipe has gone, and a prefix of the right text; with the status of
the undisturbed run, its whole texts.
"""

import collections
import concurrent.futures
import errno
import os
import threading

import cases
import harness
import report
import streams
from harness import Fault

LINES = {4: b"output failed\n", 5: b"out of memory\n", 6: b"thread not started\n"}

MEMORY = [Fault("alloc", "once"), Fault("alloc", "from")]
THREADS = [Fault("thread", "once"), Fault("thread", "from"), Fault("attr", "once"), Fault("attr", "from")]
OUTPUT = [
    Fault("write", "once", error=errno.ENOSPC),
    Fault("write", "from", error=errno.EIO),
    Fault("zero", "once"),
    Fault("zero", "from"),
    Fault("short", "once", most=1),
    Fault("short", "from", most=1000),
    Fault("ragged", "once", error=errno.ENOSPC, most=5000),
    Fault("ragged", "from", error=errno.ENOSPC, most=5000),
    Fault("write", "from", descriptor=-1, error=errno.EIO),
    Fault("write", "once", descriptor=2, error=errno.EIO),
    Fault("write", "from", descriptor=2, error=errno.ENOSPC),
    Fault("zero", "from", descriptor=2),
    Fault("short", "from", descriptor=2, most=1),
    Fault("write", "once", error=errno.EINTR),
    Fault("write", "once", error=errno.EAGAIN),
    Fault("write", "from", error=errno.EPIPE),
    Fault("short", "from", most=1),
    Fault("zero", "once", descriptor=2),
    Fault("short", "once", descriptor=2, most=1),
]
REFUSED_WRITES = ("write", "ragged", "zero")
# How much the address space may grow, in pages: the program's own memory, and then the stacks of its threads.
SPACE = [*range(0, 128, 8), *range(128, 4096, 512), *range(4096, 40960, 4096)]
MORE_SPACE = [*range(0, 600, 5), *range(600, 40000, 331)]
PAGE = 4096


class Tally:
    """What was found wrong, or None for each run that passed, and what the runs answered."""

    def __init__(self):
        self.lock = threading.Lock()
        self.found = []
        self.answers = collections.Counter()

    def note(self, what, group, status, complaint):
        with self.lock:
            self.answers[group, status] += 1
            self.found.append((what, complaint))


def is_output_refused(case, fault):
    """Whether a failed call means that the output failed. What is interrupted by a signal is tried again, and where
    both streams are refused it may be standard error, if something is said there."""
    is_another = fault.descriptor == 2 or (fault.descriptor == -1 and case.err)
    return fault.call in REFUSED_WRITES and not is_another and fault.error != errno.EINTR


def may_give(fault, case):
    """The statuses besides the sound one that a fault can give."""
    if fault.call == "alloc":
        return {5, 6} if case.workers else {5}
    if fault.call == "space":
        return {4, 5, 6} if case.workers else {4, 5}
    if fault.call in ("thread", "attr"):
        return {6}
    if fault.call in REFUSED_WRITES and fault.descriptor != 2:
        return {4}
    return set()


def is_said(case, fault, err):
    """Whether standard error has what it should, with the status of the undisturbed run. Where memory is refused the
    explanation below a line may be missing; where standard error itself is, any beginning is right."""
    if fault.descriptor != 1 and fault.call in REFUSED_WRITES:
        return case.err.startswith(err)
    hint = case.err[case.err.rfind(b"  hint: ") :] if b"  hint: " in case.err else b""
    is_short = case.line != b"" and err in (case.line, case.line + hint, case.err.removesuffix(hint))
    return err == case.err or (fault.call in ("alloc", "space") and is_short)


def lines_of(case, status, fault):
    """What is said of it: nothing of an output whose reader has gone."""
    if status == 4 and fault.call == "write" and fault.error == errno.EPIPE:
        return b""
    return LINES[status] + reason_of(case, status, fault)


def reason_of(case, status, fault):
    """The line of why the output failed, in the system's words or, where nothing was taken, in the library's."""
    if status != 4 or cases.HINTS[0] not in case.words:
        return b""
    if fault.call == "zero":
        return b"  failed to write the buffered data\n"
    return f"  {os.strerror(fault.error)} (os error {fault.error})\n".encode()


def complaint_of(case, fault, end):
    """What is wrong with the end of a run; None where nothing is."""
    if end.status is None:
        return "it did not end"
    if end.status < 0:
        return f"ended by signal {-end.status}"
    if end.live != 0:
        return f"{end.live} allocations were not freed"
    is_heard = fault.descriptor == 1 or fault.call not in REFUSED_WRITES
    if end.status == case.status:
        if end.failed and case.status == 0 and is_output_refused(case, fault):
            return "status 0 though a write failed"
        if end.out != case.out:
            return f"status {end.status} with {len(end.out)} bytes of output for {len(case.out)}"
        if not is_said(case, fault, end.err):
            return f"status {end.status} with {end.err!r} on standard error"
        return None
    if end.status not in may_give(fault, case):
        return f"status {end.status}, {end.err!r}"
    line = lines_of(case, end.status, fault)
    if end.err != line and (is_heard or not line.startswith(end.err)):
        return f"status {end.status} with {end.err!r} on standard error"
    if end.status == 4 and not case.out.startswith(end.out):
        return f"{len(end.out)} bytes of output that do not begin the right text"
    if end.status != 4 and end.out:
        return f"status {end.status} with {len(end.out)} bytes of output"
    return None


def group_of(fault):
    where = {1: "", 2: ", standard error", -1: ", both streams"}[fault.descriptor]
    return f"{fault.call}, {fault.mode}{where}"


def tried(case, shim, fault, at, tally):
    """Runs a case with one call refused. True where something was; where nothing was, only a fault is noted."""
    end = harness.run([harness.PROGRAM, *case.words], shim, fault, at, given=case.given)
    complaint = complaint_of(case, fault, end)
    is_refused = fault.call == "space" or end.failed != 0
    if is_refused or complaint is not None:
        tally.note(f"{case.name}, {fault}, number {at}", group_of(fault), end.status, complaint)
    return is_refused


def tries(case, shim, fault, tally):
    """Refuses each call of a kind, until nothing is refused."""
    at = 1
    while tried(case, shim, fault, at, tally):
        at += 1


def undisturbed(case, shim, tally):
    """Checks a case with nothing refused, and learns the texts of the command line, which no rule gives."""
    end = harness.run([harness.PROGRAM, *case.words], shim, Fault("none"), 0, given=case.given)
    if case.out is None and end.out:
        case.out = end.out
    if case.err is None and end.err:
        case.err = end.err if end.err.startswith(case.line) else case.line
    tally.note(f"{case.name}, undisturbed", "undisturbed", end.status, complaint_of(case, Fault("none"), end))


def threads_started(case, shim, tally):
    """Checks that a run starts a thread for each worker that it is given, and else none."""
    end = harness.run([harness.PROGRAM, *case.words], shim, Fault("thread"), 0, given=case.given)
    wanted = case.workers
    complaint = None if end.calls == wanted else f"{end.calls} threads were started, and not {wanted}"
    tally.note(f"{case.name}, threads", "threads counted", end.status, complaint)


def threads_by_cores(shim, tally):
    """Checks that `--workers auto` starts a thread for each core that it may use but one, and at least one."""
    cores = sorted(os.sched_getaffinity(0))
    words = ["make", "--seed", "7", "--candidates", "40", "--workers", "auto"]
    for count in range(1, len(cores) + 1):
        os.sched_setaffinity(0, cores[:count])
        end = harness.run([harness.PROGRAM, *words], shim, Fault("thread"), 0)
        os.sched_setaffinity(0, cores)
        wanted = min(max(count - 1, 1), 16)
        complaint = None if end.calls == wanted else f"{end.calls} threads were started, and not {wanted}"
        tally.note(f"make, auto, {count} cores", "threads counted", end.status, complaint)


def work_of(chosen, is_all, shim, tally):
    """All that is tried, as calls with no arguments."""
    for case in chosen:
        for fault in MEMORY + THREADS + OUTPUT:
            yield lambda case=case, fault=fault: tries(case, shim, fault, tally)
        for pages in MORE_SPACE if is_all else SPACE:
            yield lambda case=case, pages=pages: tried(case, shim, Fault("space"), pages * PAGE, tally)


def undisturbed_and_refused():
    """Each call of the program, undisturbed and with each thing refused that it asks for."""
    is_all = report.has("all")
    tally = Tally()
    chosen = list(cases.every(is_all))
    with harness.scratch() as folder, concurrent.futures.ThreadPoolExecutor(len(os.sched_getaffinity(0))) as pool:
        shim = harness.compile_shim(folder)
        list(pool.map(lambda case: undisturbed(case, shim, tally), chosen))
        list(pool.map(lambda case: threads_started(case, shim, tally), chosen))
        threads_by_cores(shim, tally)
        list(pool.map(lambda check: streams.note(check, tally), streams.every()))
        list(pool.map(lambda work: work(), work_of(chosen, is_all, shim, tally)))
    if report.has("slow"):
        for (group, status), count in sorted(tally.answers.items(), key=str):
            print(f"{group}: status {status}: {count} runs")
    yield from tally.found
