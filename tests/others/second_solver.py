"""The tricks of boards by libdds's own tables, and rules over them, for the comparison with deals-tricks.

second_solver.py STRAIN.. < DEALS prints them as JSON: a process of its own, since libdds isn't made to be unloaded.
"""

import ctypes
import dataclasses
import json
import os
import random
import subprocess
import sys

SEATS = "NESW"
STRAINS = ["S", "H", "D", "C", "NT"]
RANKS = "23456789TJQKA"
# As in dll.h.
MOST_TABLES = 40
Cards = ctypes.c_uint * 4 * 4
Table = ctypes.c_int * 4 * 5


class Deals(ctypes.Structure):
    _fields_ = [("count", ctypes.c_int), ("deals", Cards * (MOST_TABLES * 5))]


class Tables(ctypes.Structure):
    _fields_ = [("count", ctypes.c_int), ("tables", Table * (MOST_TABLES * 5))]


def cards_of(deal: str) -> Cards:
    """The cards of a Deal value that begins with North."""
    hands = [[sum(4 << RANKS.index(rank) for rank in suit) for suit in hand.split(".")] for hand in deal[2:].split(" ")]
    return Cards(*((ctypes.c_uint * 4)(*hand) for hand in hands))


def tables(deals: list[str], strains: list[str]) -> list[dict]:
    """The tricks of each deal in these strains, by strain and declarer."""
    words = [sys.executable, __file__, *strains]
    run = subprocess.run(words, input="\n".join(deals), capture_output=True, text=True, check=True)
    return [{(strain, seat): tricks for strain, seat, tricks in table} for table in json.loads(run.stdout)]


def solved(deals: list[str], strains: list[str]) -> list[list]:
    """The same, each table as a list."""
    library = ctypes.CDLL("libdds.so.0")
    found = []
    for at in range(0, len(deals), MOST_TABLES):
        some = deals[at : at + MOST_TABLES]
        asked, answer, no_par = Deals(count=len(some)), Tables(), ctypes.create_string_buffer(1 << 16)
        for index, deal in enumerate(some):
            asked.deals[index] = cards_of(deal)
        left_out = (ctypes.c_int * 5)(*(strain not in strains for strain in STRAINS))
        if library.CalcAllTables(ctypes.byref(asked), -1, left_out, ctypes.byref(answer), no_par) != 1:
            raise RuntimeError("libdds refuses")
        for table in answer.tables[: len(some)]:
            rows = zip(STRAINS, table)
            found.append([(strain, seat, row[at]) for strain, row in rows for at, seat in enumerate(SEATS)])
    return found


@dataclasses.dataclass
class Rule:
    """A rule as its option has it, and what it says of a table."""

    option: str
    strain: str
    declarers: str
    number: int
    sign: str = ""

    def words(self) -> list[str]:
        if self.option == "--tricks":
            return [self.option, f"{self.strain}-{self.declarers}{self.sign}{self.number}"]
        return [self.option, f"{self.number}{self.strain}-{self.declarers}"]

    def is_met(self, table: dict) -> bool:
        tricks = [table[self.strain, seat] for seat in self.declarers]
        if self.option == "--makes":
            return max(tricks) >= self.number + 6
        if self.option == "--beaten":
            return max(tricks) < self.number + 6
        return {"=": self.number in tricks, ">=": max(tricks) >= self.number, "<=": min(tricks) <= self.number}[self.sign]


    def least(self) -> int:
        """The tricks that some declarer takes at the least."""
        if self.option == "--tricks":
            return 0 if self.sign == "<=" else self.number
        return self.number + 6 if self.option == "--makes" else 0


def are_apart(found: list[Rule]) -> bool:
    """Whether one of them is beaten for all declarers of another that makes as many tricks."""
    beaten = [rule for rule in found if rule.option == "--beaten"]
    return any(
        rule.strain == other.strain and set(rule.declarers) <= set(other.declarers) and rule.least() >= other.number + 6
        for rule in found
        for other in beaten
    )


def rules(dice: random.Random, strains: list[str]) -> list[Rule]:
    """One to three rules of these strains."""
    found = []
    for _ in range(dice.choice([1, 1, 2, 3])):
        option = dice.choice(["--makes", "--beaten", "--tricks"])
        strain, declarers = dice.choice(strains), dice.choice([*SEATS, "NS", "EW"])
        is_tricks = option == "--tricks"
        number = dice.choice([*range(14), 6, 7, 8, 9] if is_tricks else [1, 1, 2, 2, 3, 4, 5, 6, 7])
        found.append(Rule(option, strain, declarers, number, dice.choice(["=", ">=", "<="]) if is_tricks else ""))
    return found


if __name__ == "__main__":
    print(json.dumps(solved(sys.stdin.read().splitlines(), sys.argv[1:])), flush=True)
    os._exit(0)
