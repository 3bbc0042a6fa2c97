"""What the program writes where nothing fails, worked out from the rules alone: POSIX drand48, Knuth's Algorithm P,
Law 2 of the Laws of Duplicate Bridge, and Portable Bridge Notation 2.1. Nothing here is taken from the program.
"""

RANKS = "AKQJT98765432"
SEATS = "NESW"
VULNERABLE = ["None", "NS", "EW", "All"]


def start(seed):
    return seed * 65536 + 0x330E


def step(state):
    return (0x5DEECE66D * state + 11) % 2**48


def values(seed, count):
    """The text of `stream`."""
    state, lines = start(seed), []
    for _ in range(count):
        state = step(state)
        lines.append(f"{state >> 17}\n")
    return "".join(lines).encode()


def hands(state):
    """The four hands of one candidate, clockwise from North, as lists of card numbers; and the state after it."""
    cards = list(range(52))
    for j in range(52, 1, -1):
        state = step(state)
        place = j * state >> 48
        cards[j - 1], cards[place] = cards[place], cards[j - 1]
    return [sorted(cards[13 * q:13 * q + 13]) for q in range(4)], state


def dealt(seed, count):
    """The four hands of each of the first candidates of a seed."""
    state = start(seed)
    for _ in range(count):
        each, state = hands(state)
        yield each


def suit(hand, number):
    return [card % 13 for card in hand if card // 13 == number]


def points(hand):
    return sum(max(0, 4 - card % 13) for card in hand)


def lengths(hand):
    return [len(suit(hand, number)) for number in range(4)]


def is_balanced(hand):
    return sorted(lengths(hand)) in ([3, 3, 3, 4], [2, 3, 4, 4], [2, 3, 3, 5])


def spelled(hand):
    return ".".join("".join(RANKS[rank] for rank in suit(hand, number)) for number in range(4))


def game(board, labels, dealt):
    index = (board - 1) % 16
    lines = [f'[{name} "{value}"]' for name, value in labels]
    lines.append(f'[Board "{board}"]')
    lines.append(f'[Dealer "{SEATS[index % 4]}"]')
    lines.append(f'[Vulnerable "{VULNERABLE[(index + index // 4) % 4]}"]')
    lines.append('[Deal "N:' + " ".join(spelled(hand) for hand in dealt) + '"]')
    return "".join(line + "\n" for line in lines) + "\n"


def numbers(seed, count, accepts):
    """The text of `find`."""
    return "".join(f"{number}\n" for number, each in enumerate(dealt(seed, count)) if accepts(each)).encode()


def games(seed, count, accepts=lambda dealt: True, first=0, boards=None, first_board=1, labels=()):
    """The text of `make`."""
    text, written = ["% PBN 2.1\n"], 0
    for number, each in enumerate(dealt(seed, first + count)):
        if written == boards:
            break
        if number >= first and accepts(each):
            text.append(game(first_board + written, labels, each))
            written += 1
    return "".join(text).encode()
