"""How much the page may ask of a machine: at home, and of a club's server."""

import dataclasses


@dataclasses.dataclass(frozen=True)
class Limits:
    """Bounds of all that is run for a page."""

    # How many runs there are at once, and for how long the next one waits for a place.
    runs: int
    wait: float
    # Seconds for a run that a page waits for, without and with a solver.
    seconds: float
    solving: float
    # Bytes that a run may write, and boards that a form may ask for.
    output: int
    boards: int
    # Searches at once, and seconds for each.
    searches: int
    searching: float
    # A search ends when no page has asked for it so long.
    unasked: float


# So seldom, in seconds, browsers let a page ask that nobody looks at, as in a tab behind others:
# Chrome from 88 on.
UNSEEN = 60

HOME = Limits(
    runs=4, wait=5, seconds=20, solving=240, output=16 << 20, boards=1000, searches=2,
    searching=24 * 3600, unasked=2.5 * UNSEEN,
)
# For strangers: less of everything, but for a page that isn't seen.
CLUB = Limits(
    runs=4, wait=2, seconds=5, solving=60, output=4 << 20, boards=128, searches=2,
    searching=600, unasked=2.5 * UNSEEN,
)

# A form's bytes.
BODY = 65536
