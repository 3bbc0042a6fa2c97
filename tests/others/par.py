"""Par by the laws: the scores of Law 77 of the Laws of Duplicate Bridge, and bidding in which both sides see all."""

import functools

SEATS = "NSEW"
DENOMINATIONS = ["N", "S", "H", "D", "C"]
# From the lowest contract to the highest.
CONTRACTS = [(level, strain) for level in range(1, 8) for strain in reversed(DENOMINATIONS)]


def score(level, strain, tricks, is_vulnerable):
    """What a declarer's side scores, who is doubled if the contract fails."""
    over = tricks - level - 6
    if over < 0:
        first, second, later = (200, 300, 300) if is_vulnerable else (100, 200, 300)
        return -(first + sum(second if down < 4 else later for down in range(2, 1 - over)))
    each = 20 if strain in "CD" else 30
    value = each * level + (10 if strain == "N" else 0)
    bonus = (500 if is_vulnerable else 300) if value >= 100 else 50
    slam = {6: (500, 750), 7: (1000, 1500)}.get(level, (0, 0))[is_vulnerable]
    return value + each * over + bonus + slam


def par(tricks, dealer, vulnerable):
    """The score of North and South; `tricks` by declarer and denomination."""
    sides = ["NS", "EW"]

    def scored(side, contract):
        """The best that the side makes of the contract, for North and South."""
        level, strain = CONTRACTS[contract]
        is_vulnerable = vulnerable in (sides[side], "All")
        best = max(score(level, strain, tricks[seat][strain], is_vulnerable) for seat in sides[side])
        return best if side == 0 else -best

    @functools.cache
    def after(contract, side):
        """What comes of it once `side` has bid the contract and the other side is to call."""
        return better(1 - side, contract + 1, scored(side, contract))

    def better(side, first, passed):
        """What `side` reaches by the best bid from `first` on, or by passing."""
        choices = [passed] + [after(contract, side) for contract in range(first, len(CONTRACTS))]
        return (max if side == 0 else min)(choices)

    opener = 0 if dealer in "NS" else 1
    # The other side may bid if the dealer's side passes.
    return better(opener, 0, better(1 - opener, 0, 0))
