"""Random conditions of the whole language, mostly true of some deals and not of all."""

import random

import language


def typical(measure, suits):
    """What a measure of a hand comes to on average, of these suits: by ten shuffled packs, rounded up."""
    dice = random.Random(1)
    packs = [dice.sample(range(52), 52) for _ in range(10)]
    hands = [sorted(pack[i : i + 13]) for pack in packs for i in range(0, 52, 13)]
    return -(-sum(measure(hand, suits) for hand in hands) // len(hands))


RELATIONS = list(language.RELATIONS)
# What each value of a hand, and of a suit, is about.
HANDS = {word: typical(measure, range(4)) for word, measure in language.MEASURES.items()}
HANDS |= {"longest": 5, "second": 4, "shortest": 2}
SUITS = {word: typical(measure, [0]) for word, measure in language.MEASURES.items()} | {"len": 3}
HONOURS = ["a", "k", "akq", "qjt", "akqjt", "aj"]
DEEPEST = 4


# What names may have in their brackets.
PARAMETERS = [[], ["seat"], ["suit"], ["seat", "suit"]]


def definitions(dice):
    """Definitions, and their names: of each its letters, what its brackets have, and whether it is a value."""
    names, given = [], []
    for letters in dice.sample(["strong", "weak", "fit", "side"], dice.randrange(1, 4)):
        parameters, is_value = dice.choice(PARAMETERS), dice.randrange(3) == 0
        body = of_hand(dice, parameters)[0] if is_value else test(dice, parameters, DEEPEST - 2, names)
        if is_value and dice.randrange(2):
            body += f"+{of_hand(dice, parameters)[0]}"
        brackets = f"({','.join(parameters)})" if parameters else ""
        given.append(f"let {letters}{brackets} is ({body})")
        names = [*names, (letters, parameters, is_value)]
    return " ".join(given), names


def named(dice):
    """Definitions, and a test in which names are used."""
    given, names = definitions(dice)
    return f"{given} {test(dice, [], 1, names)}"


def called(dice, around, name):
    """A name with what its brackets are given."""
    letters, parameters, _ = name
    members = [hand(dice, around) if parameter == "seat" else suit(dice, around) for parameter in parameters]
    return f"{letters}({','.join(members)})" if members else letters


def used(dice, around, name):
    """A use of a name: a test."""
    use = called(dice, around, name)
    if not name[-1]:
        return use
    value, about = of_hand(dice, around)
    return dice.choice([f"{use}{dice.choice(RELATIONS)}{value}", f"{use}>={dice.randrange(12)}", f"{value}+{use}<{about + 5}"])


def test(dice, around, depth=0, names=()):
    """A test; `around` are the classes that are bound around it, and `names` the given names."""
    classes = [*language.CLASSES, *language.SIDES]
    has_suit = any(name in language.CLASSES for name in around)
    free = [name for name in classes if name not in around and (name != "other" or has_suit)]
    kind = dice.randrange(10 if depth < DEEPEST else 5)
    if names and kind < 4:
        return used(dice, around, dice.choice(names))
    if kind < 5 or (kind < 7 and not free):
        return single(dice, around)
    if kind < 7:
        name = dice.choice(free)
        return f"{dice.choice(['any', 'every'])} {name} ({test(dice, [*around, name], depth + 1, names)})"
    if kind == 7:
        return f"not {test(dice, around, DEEPEST, names)}"
    joined = dice.choice([" and ", " or "]).join(test(dice, around, depth + 1, names) for _ in range(2))
    return f"({joined})"


def single(dice, around):
    seat = hand(dice, around)
    match dice.randrange(8):
        case 0:
            return f"balanced({seat})"
        case 1:
            return f"{dice.choice(['shape', 'pattern'])}({seat},{dice.choice(['4-3-x-x', '5-x-x-2', 'x-4-x-3', '4-4-3-2'])})"
        case 2:
            return f"stops({seat},{suit(dice, around)})"
        case 3:
            value, about = of_hand(dice, around)
            return f"{value} in {max(0, about - dice.randrange(3))}-{about + dice.randrange(4)}"
    value, about = of_hand(dice, around)
    if dice.randrange(3) == 0:
        other, more = of_hand(dice, around)
        return f"{value}{dice.choice(RELATIONS)}{other}" if dice.randrange(2) else f"{value}+{other}>={about + more}"
    return f"{value}{dice.choice(RELATIONS)}{about + dice.randrange(3)}"


def of_hand(dice, around):
    """A value, and what it is about: one in six has a factor."""
    value, about = count(dice, around)
    if dice.randrange(6):
        return value, about
    factor = dice.choice([0, 1, 2, 3, 6, 10, 15, 16, 40])
    return f"{factor}*{value}", factor * about


def count(dice, around):
    """What is counted in a hand, and what that is about."""
    seat = hand(dice, around)
    match dice.randrange(3):
        case 0:
            word = dice.choice(list(HANDS))
            return f"{word}({seat})", HANDS[word]
        case 1:
            word = dice.choice(list(SUITS))
            return f"{word}({seat},{suit(dice, around)})", SUITS[word]
    within = f"{suit(dice, around)}," if dice.randrange(2) else ""
    return f"cards({seat},{within}{dice.choice(HONOURS)})", 1


def suit(dice, around):
    """A suit's word, or that of a class around it."""
    return member(dice, [name for name in around if name in language.CLASSES], language.SUITS)


def hand(dice, around):
    """A seat's word, that of a class around it, or a seat beside one."""
    if dice.randrange(6) == 0:
        return f"{dice.choice(list(language.BESIDE))}({hand(dice, around)})"
    return member(dice, [name for name in around if name in language.SIDES], language.SEATS)


def member(dice, around, words):
    """One of the classes around it, or one of the words."""
    return dice.choice(around) if around and dice.randrange(4) else dice.choice(words)
