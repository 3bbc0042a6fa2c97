"""The boards of tonight: what each browser's night asks for. The seed is kept here alone, in memory: in no address, no
cookie, no log and no file."""

import dataclasses
import re
import secrets
import threading
import time

from . import fields

COOKIE = "night"
# Nights are forgotten after this many seconds, the oldest also where there are too many.
LASTS = 24 * 3600.0
MOST = 1000
# So many other parts of a night are kept.
MOST_PARTS = 12
# Of so many seeds it is known when they came.
MOST_SEEDS = 100

Night = dict[str, str]


@dataclasses.dataclass(frozen=True)
class Kept:
    """What a browser has: since when, the boards on its page, the other parts of its night by their names, and when each
    seed came, by the clock of this machine."""

    since: float
    night: Night
    parts: dict[str, Night]
    came: dict[str, str]


class Nights:
    """Nights by the secret names that browsers have for them."""

    def __init__(self) -> None:
        self.all: dict[str, Kept] = {}
        self.lock = threading.Lock()

    def found(self, key: str | None) -> Kept | None:
        kept = self.all.get(key or "")
        return kept if kept and time.monotonic() - kept.since < LASTS else None

    def get(self, key: str | None) -> Night | None:
        with self.lock:
            kept = self.found(key)
            return dict(kept.night) if kept else None

    def parts(self, key: str | None) -> dict[str, Night]:
        """The other parts of a night, in the order of their boards."""
        with self.lock:
            kept = self.found(key)
            return dict(kept.parts) if kept else {}

    def called(self, key: str | None) -> dict[str, str]:
        """What the other parts are called: by boards and event, and where that is the same by when the seed came."""
        with self.lock:
            kept = self.found(key)
        if not kept:
            return {}
        names = {name: boards_of(part) for name, part in kept.parts.items()}
        alike = {name for name, boards in names.items() if list(names.values()).count(boards) > 1}
        return {
            name: f"{boards}, seed of {kept.came[kept.parts[name]['seed']]}" if name in alike else boards
            for name, boards in names.items()
        }

    def put(self, key: str | None, night: Night, left: Night | None = None) -> str:
        """Keeps a night, by a new name where there is none, and tells the name. What its page leaves is another part."""
        with self.lock:
            old = self.found(key) or Kept(0, night, {}, {})
            name = key if key and key in self.all else secrets.token_urlsafe(16)
            self.all.pop(name, None)
            self.all[name] = Kept(time.monotonic(), night, others(old, night, left), came(old, night, left))
            while len(self.all) > MOST:
                self.all.pop(next(iter(self.all)))
        return name


def others(old: Kept, night: Night, left: Night | None) -> dict[str, Night]:
    """The other parts of a night, one of each seed: those that there were, and what is left. That may be the page of
    another tab too."""
    is_part = any(part["seed"] == night["seed"] for part in old.parts.values())
    gone = [part for part in (old.night, left) if part and (left or is_part) and is_whole(part)]
    named = [*old.parts.items(), *((secrets.token_urlsafe(6), part) for part in gone)]
    once = {part["seed"]: (name, part) for name, part in named if part["seed"] != night["seed"]}
    return dict(sorted(once.values(), key=lambda pair: first_board(pair[1]))[-MOST_PARTS:])


def came(old: Kept, *parts: Night | None) -> dict[str, str]:
    """When each seed came, with those of these parts. The ones that are needed stay."""
    now = time.strftime("%H:%M:%S")
    known = {**{part["seed"]: now for part in parts if part}, **old.came}
    needed = {part["seed"]: known[part["seed"]] for part in (*old.parts.values(), old.night, *parts) if part}
    return {**dict(list(old.came.items())[-MOST_SEEDS:]), **needed}


# A number as `deals` takes it.
NUMBER = re.compile(r"\+?[0-9]+")


def is_whole(part: Night) -> bool:
    """Whether it has all numbers: what was refused may have none."""
    numbers = (part["seed"], part["boards"], part["first_board"] or "1")
    return all(NUMBER.fullmatch(number) for number in numbers)


def first_board(part: Night) -> int:
    return int(part["first_board"] or 1)


def last_board(part: Night) -> int:
    return first_board(part) + int(part["boards"]) - 1


def boards_of(part: Night) -> str:
    """The boards of a part, and their event if they have one."""
    return ", ".join(word for word in (f"{first_board(part)} to {last_board(part)}", part["event"]) if word)


def first(seed: str) -> Night:
    """A night that begins."""
    return {**{name: fields.begins_with("tonight", name) for name in fields.TONIGHT}, "seed": seed}


def more(night: Night, seed: str) -> Night:
    """The boards after those of a night, of a seed of their own: a machine can find the seed of boards that are on the
    table."""
    return {**night, "seed": seed, "first_board": str(last_board(night) + 1), "boards": "3"}
