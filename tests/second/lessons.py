"""The boards of each lesson, judged by a bidder that knows nothing of its condition: at most two in a
hundred may be wrong. North deals, East and South bid after it.
"""

import pathlib
import re
import sys

import bidder
import harness
import report

sys.path.append(str(harness.TOP / "companion" / "desk"))
from deals_desk import starts  # noqa: E402

BOARDS, MANY_BOARDS = 200, 1_000
CANDIDATES, MANY_CANDIDATES = "30000000", "60000000"
# How many of many boards are others than the lesson says, which the docs tell.
SHARES = pathlib.Path(__file__).resolve().parent / "shares.txt"
# Lessons and conditions that are asked for together.
JOINED = ("strong-notrump", "five-card-major", "stayman")
OTHERS = ("hcp(south)>=10 or hcp(east)<4", "any suit (len(north,suit)==5)", "hcp(north)==16")
# Drawn by hand, apart from the seed that the conditions were tried with.
SEED = "318042"
# What North opens, what East does over it, and what South answers where East passes; one of several each. A lesson
# that isn't here claims how cards lie, and no calls.
CALLS = {
    "strong-notrump": ["1N"],
    "five-card-major": ["1S 1H"],
    "better-minor": ["1D 1C"],
    "two-notrump": ["2N"],
    "strong-two-clubs": ["2C"],
    "weak-two": ["2S 2H"],
    "weak-two-diamonds": ["2D"],
    "ogust": ["2S 2H", "P"],
    "preempt": ["3S 3H 3D 3C"],
    "four-level-preempt": ["4S 4H"],
    "gambling-3nt": ["3N"],
    "rule-of-20": ["1S 1H 1D 1C"],
    "third-seat": ["P", "P"],
    "single-raise": ["1S 1H", "P", "2S 2H"],
    "bergen-raise": ["1S 1H", "P", "2S 2H"],
    "drury": ["P", "P"],
    "limit-raise": ["1S 1H", "P", "3S 3H"],
    "preemptive-raise": ["1S 1H", "P", "4S 4H"],
    "jacoby-2nt": ["1S 1H", "P", "2N"],
    "splinter": ["1S 1H", "P", "SPL"],
    "inverted-minor": ["1D", "P", "2D"],
    "one-over-one": ["1D", "P", "1H 1S"],
    "one-notrump-response": ["1S", "P", "1N"],
    "two-way-checkback": ["1D 1C", "P", "1S"],
    "reverse-flannery": ["1D 1C", "P", "1S"],
    "two-over-one": ["1S", "P", "2C"],
    "reverse": ["1D 1C", "P", "1S"],
    "fourth-suit": ["1D", "P", "1S"],
    "strong-two-suiter": ["1S 1H"],
    "stayman": ["1N", "P", "2C"],
    "transfer-hearts": ["1N", "P", "2D"],
    "transfer-spades": ["1N", "P", "2H"],
    "weak-transfer": ["1N", "P", "2D 2H"],
    "notrump-invitation": ["1N", "P", "2N"],
    "notrump-game": ["1N", "P", "3N"],
    "quantitative-4nt": ["1N", "P", "4N"],
    "both-majors-opposite": ["1N", "P", "2D 2H"],
    "stayman-over-2nt": ["2N", "P", "3C"],
    "takeout-double": ["1D", "X"],
    "overcall": ["1H 1D 1C", "1S"],
    "notrump-overcall": ["1D", "1N"],
    "weak-jump-overcall": ["1D", "WS WH"],
    "michaels": ["1D", "M"],
    "unusual-notrump": ["1S 1H", "U"],
    "majors-against-notrump": ["1N", "M"],
    "negative-double": ["1D", "1S"],
    "support-double": ["1D", "P", "1H"],
    "lebensohl": ["1N", "2S"],
    "raise-of-overcall": ["1D", "1S"],
    "balancing": ["1H", "P", "P"],
    "responsive-double": ["1H", "X"],
    "misfit": ["1S", "P", "1N"],
}


def auction(deal, calls):
    """As many calls of a deal as a lesson tells of."""
    north, east, south, _ = map(bidder.Hand, deal.split())
    made = [bidder.opening(north)]
    if calls > 1:
        made.append(bidder.opening(east) if made[0] == "P" else bidder.action(east, made[0]))
    if calls > 2:
        made.append(bidder.answer(south, made[0]))
    return made


def judged(lesson, *asked):
    """What is wrong with a lesson's boards, which these words ask for, if anything is."""
    boards, candidates = (MANY_BOARDS, MANY_CANDIDATES) if report.has("many") else (BOARDS, CANDIDATES)
    words = ["--seed", SEED, "--boards", str(boards), "--candidates", candidates, "--workers", "auto", "--dealer", "N"]
    made = harness.deals("make", *words, *asked)
    if made.returncode:
        return made.stderr.decode()
    deals = re.findall(r'\[Deal "N:([^"]*)"\]', made.stdout.decode())
    if len(deals) < 20:
        return f"only {len(deals)} boards"
    wanted = CALLS.get(lesson.name, [])
    wrong = [deal for deal in deals if wanted and any(
        call not in calls.split() for call, calls in zip(auction(deal, len(wanted)), wanted, strict=True))]
    if 50 * len(wrong) > len(deals):
        return f"{len(wrong)} of {len(deals)} boards, as {wrong[0]}"
    row = f"{lesson.name} {len(wrong)} {len(deals)}\n"
    if report.has("many") and wanted and "--lesson" in asked and row not in SHARES.read_text():
        return f"{SHARES.name} has no row {row}"
    return None


def numbers(*asked):
    """The numbers of the deals that these words ask for, of which there are some."""
    words = ["--seed", SEED, "--candidates", "200000", "--workers", "auto"]
    found = harness.deals("find", *words, *asked)
    if found.returncode or not found.stdout:
        raise ValueError(f"{asked}: status {found.returncode}, {found.stderr.decode()}")
    return {int(line) for line in found.stdout.split()}


def made(*asked):
    """The boards that these words ask for, in a format that shows who deals."""
    return harness.deals("make", "--seed", SEED, "--boards", "20", "--format", "json", *asked).stdout


def joined(lesson):
    """Why a lesson and a condition don't accept the deals that both accept, or why the
    lesson's deals aren't turned as they are to be. None if they do and are."""
    named, where = ["--lesson", lesson.name], ["--where", lesson.where]
    for other in OTHERS:
        alone = numbers(*named), numbers("--where", other)
        if numbers(*named, "--where", other) != alone[0] & alone[1]:
            return f"with {other}"
    if numbers(*named) != numbers(*where):
        return "other deals than its condition's"
    for look in ([], ["--rotate"], ["--dealer", "S"], ["--dealer", "S", "--rotate"]):
        turned = look if look else ["--rotate"]
        if not made(*named, *look) or made(*named, *look) != made(*where, *turned):
            return f"another board with {' '.join(look)}"
    return None


def boards():
    """Each lesson of the table."""
    listed = [lesson for group in starts.groups(str(harness.PROGRAM)) for lesson in group.lessons]
    names = [lesson.name for lesson in listed]
    yield "67 lessons", None if len(names) == len(set(names)) == 67 else f"{len(names)} names"
    yield "each lesson that is judged is there", ", ".join(sorted(set(CALLS) - set(names))) or None
    other = starts.Lesson("stayman", "", "", "balanced(north) and hcp(north) in 15-17")
    judgement = judged(other, "--where", other.where)
    yield "boards that show something else", None if judgement else "aren't judged wrong"
    for lesson in listed:
        if lesson.name in JOINED:
            yield f"{lesson.name} and a condition", joined(lesson)
        wrong = len(lesson.where.encode()) > 1024 or not lesson.shows.endswith(".")
        yield lesson.name, "its table's row is wrong" if wrong else judged(lesson, "--lesson", lesson.name)
