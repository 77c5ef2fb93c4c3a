"""Values changed or refused by a function, taken tokens, and changed errors."""

from .model import AND_THEN, CONSTRUCTORS, Parser, accepted, refused


class FlatMap(Parser):
    """A function that makes a capital of a token, and refuses a `b`."""

    def parse(self, first, window):
        start = window.at
        result = self.parts[0].run(first, window)
        if not result.accepted:
            return result
        if result.value == "b":
            return self.refusal(start, result, window)
        return accepted(result.value.upper(), result.committed)

    def refusal(self, start, result, window):
        return refused(result.committed)


class AndThen(FlatMap):
    """A refusal at the end of an open piece puts the tokens back, committed; with `AND_THEN` it is like any other."""

    def refusal(self, start, result, window):
        if AND_THEN not in self.switches and window.is_open_end():
            window.at = start
            return refused(True)
        return refused(result.committed)


class Recognize(Parser):
    """The tokens that the part took; those from before a cut are kept."""

    def forget(self):
        self.taken = []

    def parse(self, first, window):
        start = window.at
        result = self.parts[0].run(first, window)
        if result.accepted or result.committed:
            self.taken += window.tokens[start : window.at]
        if not result.accepted:
            return result
        value = f"[{','.join(self.taken)}]"
        self.taken = []
        return accepted(value, result.committed)


class Shaped(Parser):
    """`expected`, `message`, `silent`: only the error differs."""

    def parse(self, first, window):
        return self.parts[0].run(first, window)


CONSTRUCTORS.update(
    {
        "and_then": AndThen,
        "flat_map": FlatMap,
        "recognize": Recognize,
        "expected": Shaped,
        "message": Shaped,
        "silent": Shaped,
    }
)
