"""What `deals` says of words that it refuses, told apart for the field that it belongs to."""

import dataclasses
import re

from . import fields

# What begins a refusal and names a field, and the field; `\1` is what is named.
BEGINNINGS = (
    (re.compile(r"plan refused: range\n  --(first|candidates)\b"), r"\1"),
    (re.compile(r"plan refused: range"), "candidates"),
    (re.compile(r"plan refused: (boards|first board)"), r"\1"),
    (re.compile(r"condition refused\b"), "where"),
    (re.compile(r"(of|by) refused\b"), r"\1"),
    (re.compile(rf"hand refused: ({'|'.join(fields.SEATS)})"), r"\1"),
    (re.compile(rf"label refused: ({'|'.join(fields.LABELS)})"), r"\1"),
    (re.compile(r"error: .*?'?--([a-z-]+)[ '=]"), r"\1"),
    (re.compile(r"deals-tricks: --(makes|beaten) "), r"\1"),
)
PLACE = re.compile(r"refused at byte (\d+): (.*)")
MARK = re.compile(r"^ *(\^+)$", re.MULTILINE)
EXPECTED = re.compile(r"^  expected (.*)$", re.MULTILINE)
NOTE = re.compile(r"^note: (.*)$", re.MULTILINE)
HINT = re.compile(r"^  hint: (.*)$", re.MULTILINE)
# What PBN takes of a label that other files take.
BY_PBN = 'PBN has ASCII letters alone there, without " and \\. Sheets, slips and pages have all letters.'
# Lines that help only who types commands.
OF_A_SHELL = ("Usage: ", "For more information, try ")
# What only a command line has, and what is said of it on a page.
IN_TURN = dict(fields.TURNS)[fields.TURNING]
ON_A_PAGE = (
    (re.compile(r"say whose, in quotes, as in '(.*)': the shell takes \( and > for itself"), r"say whose, as in \1"),
    (re.compile(r"in the shell write plain quotes, .* around the whole condition"), "leave the quotes out"),
    (re.compile(r'the text itself goes here; from a file: "\$\(cat FILE\)"'), "the text itself goes here"),
    (re.compile(r'the shell reads a file in double quotes alone: "\$\(cat FILE\)"'), "the text itself goes here"),
    (re.compile(r"gives such names: --let .*"), "has such names: copy them to the beginning"),
    (re.compile(r"; names for all texts go in --let"), ": copy its definition to the beginning"),
    (re.compile(r"of that: --lesson .*"), "of that, to start from on the page Lesson"),
    (re.compile(r"deals lessons has (.*), as .*"), r"the page Lesson has \1 to start from"),
    (re.compile(r"deals count --of"), "the page How often?"),
    (re.compile(r"deals make \.\. \| deals-tricks (?=--makes)"), ""),
    (re.compile(r"; to draw one: deals seed"), ""),
    (re.compile(r"from this --first on"), "from where it begins"),
    (re.compile(r"--format says"), "a button says"),
    (re.compile(r"--rotate"), f"«{fields.BY_NAME['turn'].label}: {IN_TURN}»"),
)
# The option of a field, by itself or with what it takes.
OPTIONS = "|".join(fields.BY_OPTION)
OPTION = re.compile(rf"(?<![\w-])(?:'({OPTIONS}) <[A-Z]+>'|({OPTIONS})(?![\w-])(?: <[A-Z]+>)?)")
# A hint that puts one word or sign in the place of the marked one. One with brackets is for more than what is marked.
WRITE_WORD = re.compile(r'^write "(\w+|[^\w\s"()\[\]{}]+)"$')
# A hint that has a whole condition.
WRITE_ALL = re.compile(r"^(?:.* )?write: (.*)$")
# What a text has that says more than its one test, of which alone a hint speaks.
MORE = re.compile(r"\b(and|or|not|any|every|let)\b|[#&|;]", re.IGNORECASE)
CALL = re.compile(r"\w\s*\(")

# What stands for the words that are told by what they are.
WORDS = {
    "a seat": fields.SEATS,
    "a suit": ("spades", "hearts", "diamonds", "clubs"),
    "a suit or ranks such as akq": ("spades", "hearts", "diamonds", "clubs", "akq"),
    "ranks such as akq": ("akq", "ak", "a"),
    "a number": ("12",),
    'a number or "x"': ("4", "x"),
    "a condition such as balanced(north)": ("balanced(north)", "hcp(north)>=15", "any suit ("),
    "a value such as hcp(north)": ("hcp(north)", "len(north,spades)"),
    "a comparison such as >= or \"in\"": (">=", "<=", "==", "in"),
}
QUOTED = re.compile(r'"([^"]*)"')


@dataclasses.dataclass(frozen=True)
class Answer:
    """A refusal. `excerpt` shows the fault, and `text` says what helps; `at` and `length` mark characters of the field's
    text; `mended` is the text as a hint has it."""

    field: str
    line: str
    excerpt: str = ""
    text: str = ""
    at: int | None = None
    length: int = 0
    could: tuple[str, ...] = ()
    hints: tuple[str, ...] = ()
    mended: str | None = None
    mend: str = ""

    def told(self) -> dict[str, object]:
        return dataclasses.asdict(self)


def field_of(said: str) -> str:
    """The field that a refusal speaks of; none if it names none."""
    for pattern, name in BEGINNINGS:
        found = pattern.match(said)
        if found:
            field = found.expand(name).replace("-", "_").replace(" ", "_")
            return field if field in fields.BY_NAME else ""
    return ""


def could_stand(said: str) -> tuple[str, ...]:
    """What could be at the place, as words to be put there."""
    found = EXPECTED.search(said)
    if not found:
        return ()
    told = found[1]
    words: list[str] = []
    for name in sorted(WORDS, key=len, reverse=True):
        if name in told:
            told = told.replace(name, "")
            words += WORDS[name]
    return tuple(dict.fromkeys([*QUOTED.findall(told), *words]))


def characters(text: str, count: int) -> int:
    """How many characters this many bytes of a text are."""
    return len(text.encode()[:count].decode("utf-8", "ignore"))


def is_one_test(text: str, whole: str) -> bool:
    """Whether a hint's whole condition has all that a text says."""
    return not MORE.search(text) and len(CALL.findall(text)) <= len(CALL.findall(whole))


def mended(text: str, at: int, length: int, hints: tuple[str, ...]) -> tuple[str | None, str]:
    """The text as the first hint says, and what the hint puts there: in the place of what is marked, or of a text
    that is one test."""
    for hint in hints:
        word = WRITE_WORD.match(hint)
        if word:
            return text[:at] + word[1] + text[at + length :], word[1]
        whole = WRITE_ALL.match(hint)
        if whole and is_one_test(text, whole[1]):
            return whole[1], whole[1]
    return None, ""


def is_sure(answer: Answer, then: Answer | None) -> bool:
    """Whether the mended text mends, by what is refused of it, if anything is: that has to come after what was put there
    and the character that follows, as another fault does. A whole text has nothing after it, so it has to be accepted."""
    return not then or (answer.at is not None and then.at is not None and then.at > answer.at + len(answer.mend))


def note(said: str) -> str:
    """What is noted of a condition that is accepted; nothing if nothing is."""
    return "\n".join(NOTE.findall(said))


def by_pbn(answer: Answer) -> Answer:
    """The answer, where a label that other files take is refused by PBN."""
    if answer.field not in fields.LABELS:
        return answer
    hints = "\n".join(f"hint: {hint}" for hint in answer.hints)
    return dataclasses.replace(answer, line=f"{answer.line}: {BY_PBN}", excerpt="", text=hints)


def on_a_page(said: str) -> str:
    """What is said, without what only a command line has; a field is called as the page does."""
    for pattern, words in ON_A_PAGE:
        said = pattern.sub(words, said)
    return OPTION.sub(lambda found: f"«{fields.BY_OPTION[found[1] or found[2]].label}»", said)


def read(said: str, form: dict[str, str]) -> Answer:
    """What is said of a form."""
    field = field_of(said)
    lines = said.rstrip().splitlines() or ["no reason was given"]
    line = on_a_page(lines[0])
    below = [told for told in lines[1:] if not told.startswith(OF_A_SHELL)]
    marks = 2 if MARK.match("".join(below[1:2])) else 0
    excerpt = "\n".join(below[:marks])
    text = on_a_page("\n".join(told.strip() for told in below[marks:]).strip("\n"))
    hints = tuple(map(on_a_page, HINT.findall(said)))
    found = PLACE.search(line)
    if not found:
        return Answer(field, line, excerpt, text, hints=hints)
    asked = form.get(field, "")
    at = characters(asked, int(found[1]))
    mark = MARK.search(said)
    length = min(len(mark[1]) if mark else 1, max(len(asked) - at, 0))
    whole, word = mended(asked, at, length, hints)
    return Answer(field, line, excerpt, text, at, length, could_stand(said), hints, whole, word)
