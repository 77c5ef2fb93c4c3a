"""Ranges, and whole numbers."""

import cases

from .model import CONSTRUCTORS, OFFSET, Parser, accepted, refused


def text(tokens):
    return f'"{tokens}"'


class Range(Parser):
    def __init__(self, switches, parts):
        super().__init__(switches, [])
        self.wanted = parts[0]

    def parse(self, first, window):
        tokens = window.read_range(len(self.wanted))
        if tokens is None:
            return refused(window.open, at_end=True)
        return accepted(text(tokens), True) if tokens == self.wanted else refused(False)


class Take(Parser):
    def __init__(self, switches, parts):
        super().__init__(switches, [])
        self.least = int(parts[0])

    def parse(self, first, window):
        tokens = window.read_range(self.least)
        if tokens is None:
            return refused(window.open, at_end=True)
        return accepted(text(tokens), self.least > 0)


class TakeWhile(Parser):
    """The longest beginning of these tokens. On need of more its length is kept, and skipped."""

    least = 0

    def __init__(self, switches, parts):
        super().__init__(switches, [])
        self.wanted = parts[0]

    def forget(self):
        self.distance = 0

    def parse(self, first, window):
        start = window.at
        passed = 0 if first or not window.open else self.distance
        window.pass_over(passed)
        while window.at < len(window.tokens) and window.tokens[window.at] in self.wanted:
            window.at += 1
        length = window.at - start
        if window.is_open_end():
            self.distance, window.at = length, start
            return refused(True, at_end=True)
        if length < self.least:
            return refused(False)
        self.distance = 0 if passed else self.distance
        return accepted(text(window.tokens[start : window.at]), length > 0)


class TakeWhile1(TakeWhile):
    least = 1


class TakeUntilRange(Parser):
    """The tokens before a text. On need of more the first place that was too short for it is kept."""

    def __init__(self, switches, parts):
        super().__init__(switches, [])
        self.wanted = parts[0]

    def forget(self):
        self.distance = 0

    def parse(self, first, window):
        start = window.at
        if window.read_range(self.distance) is None:
            return refused(window.open, at_end=True)
        found = window.tokens.find(self.wanted, window.at)
        if found < 0:
            too_short = len(window.tokens) - len(self.wanted) + 1
            self.distance = max(too_short, window.at) - start
            window.at = start
            return refused(window.open, at_end=True)
        window.at = found
        if found > start:
            self.distance = 0
        return accepted(text(window.tokens[start:found]), found > start)


class RecognizeWithValue(Parser):
    """The tokens that the part took, and its value. On need of more all is put back, and the distance is kept."""

    def forget(self):
        self.distance = 0

    def parse(self, first, window):
        start = window.at
        if not first:
            window.pass_over(self.distance)
        result = self.parts[0].run(first, window)
        if not result.accepted:
            if result.committed:
                self.distance, window.at = window.at - start, start
            return result
        self.distance = 0
        tokens = window.tokens[start : window.at]
        return accepted(self.show(text(tokens), result.value), len(tokens) > 0)

    def show(self, tokens, value):
        return f"({tokens},{value})"


class RecognizeRange(RecognizeWithValue):
    def show(self, tokens, value):
        return tokens


class Search(Parser):
    """The tokens before the place that is found. On need of more all is put back, and a hint is kept.

    With `OFFSET` a refusal is peeked only if the whole input is empty.
    """

    def __init__(self, switches, parts):
        super().__init__(switches, [])
        self.wanted = parts[0]

    def forget(self):
        self.offset = 0

    def parse(self, first, window):
        start = window.at
        if first:
            self.offset = 0
        window.read_range(self.offset)
        found = self.find(window.tokens, window.at)
        if found is not None:
            self.offset, window.at = 0, found
            return accepted(text(window.tokens[start:found]), found > start)
        left = len(window.tokens) - window.at
        self.offset = max(0, left + 1 - self.length())
        judged = len(window.tokens) - start if OFFSET in self.switches else left
        window.at = start
        return refused(window.open or judged > 0, at_end=True)

    def find(self, tokens, begin):
        return next((at for at in range(begin, len(tokens)) if tokens[at] in self.wanted), None)

    def length(self):
        return 1


class BytesSearch(Search):
    def find(self, tokens, begin):
        found = tokens.find(self.wanted, begin)
        return None if found < 0 else found

    def length(self):
        return len(self.wanted)


class Number(Parser):
    """A whole number; too few bytes are put back."""

    name = ""

    def parse(self, first, window):
        tokens = window.read_range(cases.size_of(self.name))
        return refused(window.open, at_end=True) if tokens is None else accepted(cases.number(self.name, tokens), True)


CONSTRUCTORS.update(
    {
        "range": Range,
        "take": Take,
        "take_while": TakeWhile,
        "take_while1": TakeWhile1,
        "take_until_range": TakeUntilRange,
        "recognize_range": RecognizeRange,
        "recognize_with_value": RecognizeWithValue,
        "take_until_byte": Search,
        "take_until_byte2": Search,
        "take_until_byte3": Search,
        "take_until_bytes": BytesSearch,
    }
)
CONSTRUCTORS.update({name: type(name, (Number,), {"name": name}) for name in cases.NUMBERS})
