"""A bidder by tables, to judge whether the boards of a lesson show it.

Its style: five-card majors, the longer minor and 1D with four of each; 1NT 15 to 17 and 2NT 20 to 21 without a five-card
major; 2C from 22 points; weak twos with a good six-card suit and 6 to 9 points, preempts with seven; the rule of 20 for
10 and 11 points. Sound overcalls with a good five-card suit, take-out doubles with support, two-suiters from 5-5, 1NT
15 to 18. It knows hands and calls, and nothing of conditions.
"""

SUITS = "SHDC"
POINTS = {"A": 4, "K": 3, "Q": 2, "J": 1}


class Hand:
    """A hand of a deal's text, as `AQ4.KT83.52.J964`."""

    def __init__(self, text: str) -> None:
        self.suits = dict(zip(SUITS, text.split("."), strict=True))
        self.length = {suit: len(cards) for suit, cards in self.suits.items()}
        self.points = sum(POINTS.get(card, 0) for card in text)
        self.shape = sorted(self.length.values(), reverse=True)
        self.balanced = self.shape in ([4, 3, 3, 3], [4, 4, 3, 2], [5, 3, 3, 2])

    def tops(self, suit: str, ranks: str = "AKQ") -> int:
        return sum(card in ranks for card in self.suits[suit])

    def stops(self, suit: str) -> bool:
        return any(card in self.suits[suit] and self.length[suit] > under for under, card in enumerate("AKQJ"))

    def longest(self, suits: str = SUITS) -> str:
        return max(suits, key=lambda suit: self.length[suit])


def preempt(hand: Hand) -> str | None:
    """The suit and level of a hand of one long suit and little else."""
    suit = hand.longest()
    long = hand.length[suit]
    if hand.points > 9 or hand.points < 4 or hand.shape[1] > 4 or long < 6:
        return None
    if long == 6:
        good = hand.tops(suit) >= 2 and hand.points >= 6 and suit != "C"
        return f"2{suit}" if good and hand.shape[1] < 5 and hand.shape[3] > 0 else None
    if hand.tops(suit) == 0 or hand.tops(suit, "AKQJT") < 2:
        return None
    return f"{min(long - 4, 4)}{suit}"


def opening(hand: Hand) -> str:
    """What the hand opens in first or second seat; `P` if nothing."""
    if hand.points >= 22:
        return "2C"
    solid = hand.longest("DC")
    if hand.length[solid] >= 7 and hand.tops(solid) == 3 and hand.points <= 11:
        return "3N"
    if hand.balanced and 15 <= hand.points <= 17:
        return "1N"
    if hand.balanced and hand.points in (20, 21):
        return "2N"
    twenty = hand.points >= 10 and hand.points + hand.shape[0] + hand.shape[1] >= 20
    if hand.points >= 12 or twenty:
        return one_of(hand)
    return preempt(hand) or "P"


def one_of(hand: Hand) -> str:
    """The suit of an opening at the one level."""
    majors = [suit for suit in "SH" if hand.length[suit] >= 5]
    if majors:
        best = max(majors, key=lambda suit: hand.length[suit])
        minor = hand.longest("DC")
        return f"1{minor}" if hand.length[minor] > hand.length[best] else f"1{best}"
    if hand.length["D"] == hand.length["C"]:
        return "1D" if hand.length["D"] >= 4 else "1C"
    return f"1{hand.longest('DC')}"


def action(hand: Hand, opened: str) -> str:
    """What the next hand does over an opening of one in a suit or of 1NT."""
    if opened == "1N":
        return over_notrump(hand)
    if opened[0] != "1":
        return "X" if hand.points >= 15 else "P"
    suit = opened[1]
    pair = two_suits(hand, suit)
    if pair and 6 <= hand.points <= 16:
        return pair
    if hand.balanced and 15 <= hand.points <= 18 and hand.stops(suit) and all(hand.length[s] < 5 for s in "SH"):
        return "1N"
    best = max((s for s in SUITS if s != suit), key=lambda s: (hand.length[s], SUITS[::-1].index(s)))
    long = hand.length[best]
    others = [s for s in SUITS if s != suit]
    support = all(hand.length[s] >= 3 for s in others)
    if 8 <= hand.points <= 17 and long == 5 and hand.tops(best, "AKQJT") >= 2 and (
            hand.points >= 11 or SUITS.index(best) < SUITS.index(suit)):
        return call(best, suit)
    if long >= 6:
        if 10 <= hand.points <= 17:
            return call(best, suit)
        if 6 <= hand.points <= 9 and hand.tops(best) >= 2 and hand.shape[1] < 5:
            return "W" + best
    if hand.points >= 18 or (hand.points >= 12 and support and hand.length[suit] < 4):
        return "X"
    unbid = [s for s in "SH" if s != suit]
    if hand.points >= 12 and hand.length[suit] < 3 and all(hand.length[s] >= 3 for s in unbid):
        return "X"
    return "P"


def call(suit: str, over: str) -> str:
    """The lowest bid of a suit over an opening of one."""
    return f"{1 if SUITS.index(suit) < SUITS.index(over) else 2}{suit}"


def two_suits(hand: Hand, suit: str) -> str | None:
    if suit in "CD" and hand.length["S"] >= 5 and hand.length["H"] >= 5:
        return "M"
    if suit in "SH" and hand.length["D"] >= 5 and hand.length["C"] >= 5:
        return "U"
    return "M" if suit in "SH" and hand.length["SH".replace(suit, "")] >= 5 and max(
        hand.length["D"], hand.length["C"]) >= 5 else None


def over_notrump(hand: Hand) -> str:
    if hand.points >= 9 and hand.length["S"] + hand.length["H"] >= 9 and min(hand.length["S"], hand.length["H"]) >= 4:
        return "M"
    best = hand.longest()
    if hand.points >= 10 and (hand.length[best] >= 6 or hand.shape[0] == hand.shape[1] == 5):
        return f"2{best}"
    return "X" if hand.points >= 16 else "P"


def answer(hand: Hand, opened: str) -> str:
    """What partner answers where the hand between passes."""
    if opened == "1N":
        return answer_notrump(hand)
    if opened == "2N":
        return "3C" if any(hand.length[s] == 4 for s in "SH") and hand.points >= 4 and hand.shape != [4, 3, 3, 3] else "?"
    suit = opened[1]
    fit = hand.length[suit]
    if suit in "SH" and opened[0] == "1" and fit >= 3:
        return raise_of(hand, suit)
    if hand.points < 6:
        return "P"
    return new_suit(hand, suit)


def raise_of(hand: Hand, suit: str) -> str:
    fit = hand.length[suit]
    if fit >= 5 and hand.points <= 8 and hand.shape[3] < 2:
        return f"4{suit}"
    if fit >= 4 and hand.shape[3] < 2 and 10 <= hand.points <= 14:
        short = min(SUITS, key=lambda s: hand.length[s])
        return "SPL" if not hand.tops(short, "AK") else "2N"
    if fit >= 4 and hand.points >= 13:
        return "2N"
    if fit >= 4 and 10 <= hand.points <= 12:
        return f"3{suit}"
    if 6 <= hand.points <= 9:
        return f"2{suit}"
    return "P" if hand.points < 6 else new_suit(hand, suit)


def new_suit(hand: Hand, suit: str) -> str:
    majors = [s for s in "HS" if s != suit and hand.length[s] >= 4 and SUITS.index(s) < SUITS.index(suit)]
    long = hand.longest()
    if majors and not (hand.points >= 13 and hand.length[long] > max(hand.length[s] for s in majors)):
        best = max(majors, key=lambda s: (hand.length[s] if hand.length[s] > 4 else 4, s == "H" and hand.length["H"] < 5))
        return f"1{best}"
    if suit in "CD" and hand.length[suit] >= 5 and hand.points >= 10:
        return f"2{suit}"
    if hand.points >= 12:
        rest = [s for s in SUITS if s != suit and SUITS.index(s) > SUITS.index(suit)]
        best = max(rest, key=lambda s: (hand.length[s], SUITS.index(s))) if rest else None
        if best and hand.length[best] >= 4 and not (hand.balanced and hand.shape == [4, 3, 3, 3]):
            return f"2{best}"
        return "2N"
    return "1N"


def answer_notrump(hand: Hand) -> str:
    if hand.length["H"] >= 5 or hand.length["S"] >= 5:
        return "2D" if hand.length["H"] > hand.length["S"] else "2H"
    if any(hand.length[s] == 4 for s in "SH") and hand.points >= 8 and hand.shape != [4, 3, 3, 3]:
        return "2C"
    if hand.balanced:
        return {8: "2N", 9: "2N", 16: "4N", 17: "4N"}.get(hand.points, "3N" if 10 <= hand.points <= 15 else "P")
    return "?"
