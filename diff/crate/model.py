"""The results of combine: its parsers in Python, with their states, and the differences of ours as switches.

With no switch on, the results are those of combine 4.6.6; with those between the versions on, those of 4.6.9; with all
on, ours. Each switch is a row of docs/DIFFERENCES.md, by its key. A difference is named by the switches that turn one
result into the other.
"""

import dataclasses
import functools
import typing

import cases

# The parsers by their names; each module of a family adds its own.
CONSTRUCTORS = {}

NOTHING = "repetition-takes-nothing"
TUPLE = "tuple-keeps-commitment"
MANY = "many-keeps-commitment"
ATTEMPT = "attempt-puts-back"
CHOICE = "choice-goes-on-after-a-cut"
REFUSAL = "refusal-clears-the-state"
EOF = "eof-asks-for-more"
COUNTS = "counts-keep-commitment"
SEPARATED = "sep-by-goes-on"
OPERATOR = "chainr1-drops-no-operator"
CHAIN = "chainr1-puts-back"
ESCAPE = "escaped-puts-back"
NOT = "not-followed-by-asks-for-more"
AND_THEN = "and-then-keeps-its-tokens"
UNTIL = "until-puts-back"
OFFSET = "searches-judge-the-whole"
TOKENS = "tokens-in-4-6-6"
COUNT_STATE = "count-in-4-6-6"
ESCAPED_STATE = "escaped-in-4-6-6"


@dataclasses.dataclass(frozen=True)
class Switch:
    """A row's key, and what it excuses besides results over a cut."""

    slug: str
    # Results on whole inputs.
    whole: bool = False
    # Which of the results `endless` and `panic`.
    failures: tuple = ()
    # The beginnings of the constructors that it concerns; none where they are many.
    calls: tuple = ()

    def concerns(self, case):
        return not self.calls or any(call in case for call in self.calls)


# In this order: of several smallest sets of switches that explain a difference, the earlier one names it.
SWITCHES = [
    Switch(NOTHING, whole=True, failures=("endless",)),
    Switch(TUPLE),
    Switch(MANY),
    Switch(ATTEMPT),
    Switch(CHOICE),
    Switch(REFUSAL, whole=True),
    Switch(EOF, calls=("eof",)),
    Switch(COUNTS, calls=("count",)),
    Switch(SEPARATED, calls=("sep_by",)),
    Switch(OPERATOR, whole=True, calls=("chainr1",)),
    Switch(CHAIN, calls=("chainr1",)),
    Switch(ESCAPE, whole=True, calls=("escaped",)),
    Switch(NOT, calls=("not_followed_by",)),
    Switch(AND_THEN, calls=("and_then",)),
    Switch(UNTIL, calls=("take_until", "skip_until", "repeat_until", "repeat_skip_until")),
    Switch(OFFSET, calls=("take_until_byte",)),
]
BETWEEN_VERSIONS = [
    Switch(TOKENS),
    Switch(COUNT_STATE, calls=("count",)),
    Switch(ESCAPED_STATE, whole=True, calls=("escaped",)),
]
# The switches that are on in 4.6.6, and in 4.6.9.
DEBIAN = frozenset()
LATEST = frozenset(switch.slug for switch in BETWEEN_VERSIONS)
# More turns than any repetition takes on a few tokens.
MOST_TURNS = 100
# The fields that a parser is made with; all others are its state.
MADE_WITH = ("switches", "parts", "alternatives", "wanted", "value", "least", "most", "escape")


class Endless(Exception):
    """A repetition never ends."""


class Panic(Exception):
    """The crate panics."""


class Result(typing.NamedTuple):
    """The result of a call of a parser. `at_end`: a refusal whose error is of the end of input."""

    accepted: bool
    committed: bool
    value: str = ""
    at_end: bool = False


def accepted(value, committed):
    return Result(True, committed, value)


def refused(committed, at_end=False):
    return Result(False, committed, at_end=at_end)


class Window:
    """The unread tokens of the earlier pieces, and the next piece; whether more may follow."""

    def __init__(self, tokens, open_):
        self.tokens = tokens
        self.open = open_
        self.at = 0

    def read(self):
        """The next token. Where there is none the refusal is committed if more may follow."""
        if self.at == len(self.tokens):
            return refused(self.open, at_end=True)
        self.at += 1
        return accepted(self.tokens[self.at - 1], True)

    def read_range(self, size):
        """That many tokens; none where there are fewer."""
        tokens = self.tokens[self.at : self.at + size]
        if len(tokens) < size:
            return None
        self.at += size
        return tokens

    def pass_over(self, distance):
        """Skips the tokens that were read before; the crate panics where there are fewer."""
        if self.read_range(distance) is None:
            raise Panic

    def is_open_end(self):
        return self.open and self.at == len(self.tokens)

    def asks(self, result):
        """Whether this result is need of more."""
        return self.open and not result.accepted and result.committed and result.at_end


def answer(case, switches):
    """The result of a case, as the programs write it."""
    text, pieces = case.split(" ")
    try:
        return feed(make(text, switches), cases.windows(pieces))
    except Endless:
        return "endless"
    except Panic:
        return "panic"


def feed(parser, pieces):
    whole = cases.is_whole(pieces)
    unread, fed = "", 0
    for asked, (piece, open_) in enumerate(pieces):
        window = Window(unread + piece, open_)
        result = parser.run(whole, window)
        unread, fed = window.tokens[window.at :], fed + len(piece)
        if not window.asks(result):
            return f"asked {asked} {shown(result, fed - len(unread))}"
    return f"asked {len(pieces)} undecided"


def shown(result, taken):
    kind = "committed" if result.committed else "peeked"
    return f"accepted {result.value} taken {taken} {kind}" if result.accepted else f"refused {kind}"


def make(text, switches):
    """A parser without a state."""
    constructor, parts = plan(text)
    return constructor(switches, parts)


@functools.cache
def plan(text):
    name, parts = cases.split(text)
    return CONSTRUCTORS[name], parts


class Parser:
    """A parser and its kept state.

    `parse` is a call: in first mode, or from the kept state; `forget` clears that.
    """

    def __init__(self, switches, parts):
        self.switches = switches
        self.parts = [make(part, switches) for part in parts]
        self.forget()

    def forget(self):
        pass

    def run(self, first, window):
        """A call. With `REFUSAL`, first mode begins from nothing, and all results but need of more clear the state."""
        if REFUSAL not in self.switches:
            return self.parse(first, window)
        if first:
            self.clear()
        result = self.parse(first, window)
        if not window.asks(result):
            self.clear()
        return result

    def clear(self):
        self.forget()
        for part in self.parts:
            part.clear()

    def lazy(self, text, window):
        """A call of a part without a state: on an open piece a committed refusal puts the tokens back.

        This doesn't apply to a part that keeps no state either.
        """
        start = window.at
        part = make(text, self.switches)
        result = part.run(True, window)
        if window.open and not result.accepted and result.committed and part.keeps_state():
            window.at = start
        return result

    def keeps_state(self):
        return True

    def adopt(self, other):
        """Goes on from the state of another parser of its type."""
        vars(self).update((name, kept) for name, kept in vars(other).items() if name not in MADE_WITH)
        for part, others in zip(self.parts, other.parts):
            part.adopt(others)
