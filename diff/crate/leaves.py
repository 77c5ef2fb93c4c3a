"""Single tokens, lists of tokens, the end, and values."""

from .model import CONSTRUCTORS, EOF, TOKENS, Parser, accepted, refused
from .maps import wrapped


class OneToken(Parser):
    """`any`, `satisfy`, `one_of`, `token`: no argument means all tokens."""

    def __init__(self, switches, parts):
        super().__init__(switches, [])
        self.wanted = parts[0] if parts else None

    def parse(self, first, window):
        result = window.read()
        fits = not result.accepted or self.wanted is None or self.fits(result.value)
        return result if fits else refused(False)

    def fits(self, token):
        return token in self.wanted


class NoneOf(OneToken):
    def fits(self, token):
        return token not in self.wanted


class SatisfyMap(OneToken):
    def parse(self, first, window):
        return wrapped(super().parse(first, window))


class Eof(Parser):
    """The end. With `EOF`, that of an open piece needs more."""

    def parse(self, first, window):
        start = window.at
        result = window.read()
        window.at = start
        if result.accepted:
            return refused(False)
        return result if EOF in self.switches and window.open else accepted("()", False)


class Value(Parser):
    def __init__(self, switches, parts):
        super().__init__(switches, [])
        self.value = parts[0]

    def parse(self, first, window):
        return accepted(self.value, False)


class Tokens(Parser):
    """A list of tokens. With `TOKENS` it keeps how many matched."""

    def __init__(self, switches, parts):
        super().__init__(switches, [])
        self.wanted = parts[0]

    def forget(self):
        self.matched = 0

    def parse(self, first, window):
        if first or TOKENS not in self.switches:
            self.matched = 0
        for wanted in self.wanted[self.matched :]:
            result = window.read()
            if not result.accepted:
                return refused(result.committed or self.matched > 0, at_end=True)
            if result.value != wanted:
                return self.ended(refused(self.matched > 0))
            self.matched += 1
        return self.ended(accepted(f'"{self.wanted}"', self.matched > 0))

    def ended(self, result):
        self.matched = 0
        return result

    def keeps_state(self):
        return TOKENS in self.switches


CONSTRUCTORS.update(
    {
        "any": OneToken,
        "satisfy": OneToken,
        "satisfy_map": SatisfyMap,
        "one_of": OneToken,
        "none_of": NoneOf,
        "eof": Eof,
        "string": Tokens,
        "token": OneToken,
        "tokens": Tokens,
        "tokens_cmp": Tokens,
        "value": Value,
    }
)
