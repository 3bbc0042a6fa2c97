"""Random texts: sentences that go wrong somewhere or nowhere, lists of words and signs, and bytes."""

import grammar

# Words and signs of each kind.
SPELLED = {
    **{kind: [word for word, meant in grammar.WORDS.items() if meant == kind] for kind in grammar.WORDS.values()},
    **{kind: [sign for sign, meant in grammar.SYMBOLS.items() if meant == kind] for kind in grammar.SYMBOLS.values()},
    "number": ["0", "13", "9999"],
    "ranks": ["a", "kqt", "jtakq"],
}
# Names for the definitions of a text, in their order.
NEW = ["strong", "weak", "fit", "side", *(f"z{letter}" for letter in "bcdefghilmnopqrstuvwxyz")]
# The words and signs of the language, some ranks, numbers and comments, and whole tests, so that more than the first
# token is read.
PIECES = [
    *grammar.WORDS,
    *grammar.SYMBOLS,
    *["akq", "t", "# and\n", "\r", "0", "15", "9999", "1+2", "0==0 and", "hcp(north)>=15 or", "not ("],
    *["hcp(north)", "len(south,clubs)", "hcp(east,hearts)", "controls(east)", "losers(east,hearts)", "cards(north,ak)"],
    *["2*", "3*hcp(south)", "9999*len(east,spades)"],
    *["hcp(north) in", "balanced(west)", "shape(west,4-3-3-3)", "shape(west,x-x-3-3)", "pattern(north,5-4-3-1)"],
    *["any suit (", "every major (", "any other (", "len(north,suit)", "stops(east,minor)", "second(west)", ")"],
    *["let strong(seat) is (hcp(seat)>=15)", "let fit(suit) is (len(north,suit)+len(south,suit))", "let weak is (", "let"],
    *["strong", "strong(north)", "fit", "fit(hearts)>=8", "weak", "strong(left(seat))", "fit(suit)"],
    *["any seat (", "every ns (", "hcp(seat)", "len(partner(ew),suit)", "balanced(left(north))", "shape(right(ns),"],
]


# How two sentences in five begin, so that a third of all texts have names: whole definitions, the first of which a later
# one may use.
DEFINED = [
    *["let strong ( seat ) is ( hcp ( seat ) >= 15 )", "let strong ( suit ) is ( len ( north , suit ) )"],
    *["let strong ( seat , suit ) is ( stops ( seat , suit ) )", "let strong is ( any suit ( 8 < len ( west , suit ) ) )"],
    *["let strong is ( 6 * cards ( east , a ) + controls ( east ) ) let weak is ( strong < 9 )", "let strong ("],
]


def begun(dice, machine):
    """The words that a sentence begins with, taken by the machine: a definition or two, or none."""
    words = dice.choice(DEFINED).split() if dice.randrange(5) < 2 else []
    kinds = {word: kind for kind, spelled in SPELLED.items() for word in spelled}
    for at, word in enumerate(words):
        given = {name.letters: f"name {number}" for number, name in enumerate(machine.names)}
        is_new = at > 0 and words[at - 1] == "let"
        machine.take("new" if is_new else kinds.get(word) or given.get(word) or "number", word)
    return words


def sentence(dice):
    """Tokens that mostly may follow those before them."""
    machine = grammar.Text()
    is_sound, words = True, begun(dice, machine)
    for _ in range(dice.randrange(30)):
        spelled = {**SPELLED, "new": [NEW[len(machine.names)]]}
        spelled |= {f"name {at}": [name.letters] for at, name in enumerate(machine.names)}
        allowed = sorted(machine.kinds() & spelled.keys())
        kind = dice.choice(allowed if allowed and dice.randrange(16) else list(spelled))
        word = dice.choice(spelled[kind])
        is_sound = is_sound and kind in allowed
        if is_sound:
            machine.take(kind, word)
        words.append(word)
    return "".join(f"{word} " for word in words)


def beside(dice):
    """Definitions, and a text that may use them: a sentence that begins with some, cut in two; one in four anywhere."""
    text = next(text for text in iter(lambda: sentence(dice), None) if text.startswith("let"))
    at = dice.choice(grammar.boundaries(text)) if dice.randrange(4) else dice.randrange(len(text) + 1)
    return text[:at] + dice.choice(["", "", "# names"]), text[at:]


def pieces(dice):
    """Any words and signs, one list in a hundred a long one."""
    most = 250 if dice.randrange(100) == 0 else 12
    return "".join(f"{dice.choice(PIECES)} " for _ in range(dice.randrange(most)))


def large(dice):
    """Classes around a sum, with about as many parts as a condition may have; in one text of four it goes wrong."""
    names = dice.sample(["suit", "major", "minor", "other", "seat", "ns", "ew"], dice.choice([5, 6, 6, 7, 7]))
    most = grammar.MOST_PARTS // grammar.ways(names, 1, {}) + dice.randrange(-1, 3)
    total = "+".join(dice.choice(["0", "1", "2*hcp(west)"]) for _ in range(max(1, min(most, 90))))
    tests = dice.choice([f"{total}==0", f"{total} in 0-9", f"{total} in 1-2 or stops(east,clubs)"])
    around = "".join(f"any {name} (" for name in names)
    return around + tests + ")" * len(names) + dice.choice(["", "", " or balanced(west)", ")"])


def doubled(dice):
    """Names each of which is some uses of the one before it, with about as many parts as a condition may have."""
    most, text, before, parts = dice.choice([2**14, 2**14, 2**15]), "let strong is (0==0)", "strong", 2
    for letters in NEW[1:]:
        uses = min(dice.randrange(2, 9), most // parts)
        if uses < 2:
            break
        body = dice.choice([" or ", " and "]).join([before] * uses)
        text += f" let {letters} is ({body})"
        before, parts = letters, parts * uses
    rest = " or ".join(["0==0", *["balanced(north)"] * dice.randrange(4)])
    return f"{text} {before}" + dice.choice(["", "", f" and ({rest})", " or", " (", f" or {before}"])


def characters(dice):
    """Any characters of ASCII but the first, which no word of a command line has."""
    return "".join(chr(dice.randrange(1, 128)) for _ in range(dice.randrange(40)))
