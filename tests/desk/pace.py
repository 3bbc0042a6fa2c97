"""How long it takes to check a condition while somebody types, with the desk and all that it runs on one core."""

import json
import os
import statistics
import time

import report
import serving

CONDITION = (
    "hcp(north) in 15-17 and balanced(north) and every major (len(north,major)<5) and not any suit (len(south,suit)>=7) or "
    "hcp(south)+hcp(north)>=25 and any ew (hcp(ew)>=11 and any suit (len(ew,suit)>=5 and cards(ew,suit,akq)>=2)) "
)
LONGEST = (CONDITION + "and ") * 10
CHECKS = 300
A_SECOND = 20  # checks, as somebody types fast
LIMIT = 0.050  # seconds, at the 95th of a hundred checks
# In the gate other work may stand beside this.
LOADED = 10 * LIMIT


def asked(desk, text):
    """How many seconds an answer takes, and whether it is one."""
    began = time.monotonic()
    answer = desk.post("/check/where", {"text": text})
    return time.monotonic() - began, answer.status == 200 and isinstance(json.loads(answer.text), dict | None)


def typed(desk):
    """The beginnings of a condition, one more character each time, up to the longest text."""
    taken = []
    for number in range(CHECKS):
        began = time.monotonic()
        seconds, is_told = asked(desk, LONGEST[: 1024 - CHECKS + number + 1] if number % 2 else CONDITION[: number + 1])
        taken.append(seconds)
        if not is_told:
            yield f"check {number}", False
        time.sleep(max(0.0, 1 / A_SECOND - (time.monotonic() - began)))
    slow = statistics.quantiles(taken, n=20)[-1]
    limit = LIMIT if report.has("many") else LOADED
    yield f"95 of 100 checks within {1000 * slow:.0f} ms: more than {1000 * limit:.0f} ms", slow <= limit
    print(f"95 of 100 checks took at most {1000 * slow:.0f} ms, half of them {1000 * statistics.median(taken):.0f} ms")
    time.sleep(1)
    yield "a run is left", not desk.children()


def on_one_core():
    serving.need()
    with serving.desk(before=("taskset", "-c", str(min(os.sched_getaffinity(0))))) as desk:
        yield from report.judged(typed(desk))
