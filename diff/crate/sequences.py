"""Sequences, and parsers that a function returns."""

from .model import CONSTRUCTORS, TUPLE, Parser, accepted, make, refused


class Then(Parser):
    """The parser that a function returns is kept, with whether the first one committed."""

    def forget(self):
        self.answered = None

    def parse(self, first, window):
        if first or self.answered is None:
            result = self.parts[0].run(first, window)
            if not result.accepted:
                return result
            self.answered = result, make(self.answer(result.value), self.switches)
            first = True
        before, second = self.answered
        start = window.at
        result = second.run(first, window)
        if result.accepted:
            self.answered = None
            return accepted(self.collect(before.value, result.value), before.committed or result.committed)
        if result.committed:
            return result
        window.at = start
        self.answered = None
        return refused(before.committed, result.at_end)

    def answer(self, token):
        return f"token({token})"

    def collect(self, before, value):
        return value


class ThenRef(Then):
    def collect(self, before, value):
        return f"({before},{value})"


class Dispatch(Then):
    def answer(self, token):
        return {"a": "token(a)", "b": "satisfy(ab)"}.get(token, "any()")


class Tuple(Parser):
    """The values of parts are kept. With `TUPLE`, so is whether one of these parts committed."""

    def forget(self):
        self.kept = [None] * len(self.parts)

    def parse(self, first, window):
        committed = False
        for at, part in enumerate(self.parts):
            if not first and self.kept[at] is not None:
                committed |= TUPLE in self.switches and self.kept[at].committed
                continue
            start = window.at
            result = part.run(first, window)
            if not result.accepted:
                return self.refusal(at, start, committed, result, window)
            committed |= result.committed
            self.kept[at] = result
            first = True
        value = self.collect([result.value for result in self.kept])
        self.forget()
        return accepted(value, committed)

    def collect(self, values):
        return f"({','.join(values)})"

    def refusal(self, at, start, committed, result, window):
        """The result where a part is refused, or needs more."""
        if at == 0 or result.committed:
            return result
        window.at = start
        if committed:
            # Reads the next token for the error's message.
            window.read()
        return refused(committed)


class With(Tuple):
    def collect(self, values):
        return values[1]


class Skip(Tuple):
    def collect(self, values):
        return values[0]


class Between(With):
    """`between(open, close, parser)`."""

    def __init__(self, switches, parts):
        super().__init__(switches, [parts[0], parts[2], parts[1]])


class Pair(Tuple):
    def collect(self, values):
        return values


CONSTRUCTORS.update(
    {
        "dispatch": Dispatch,
        "tuple": Tuple,
        "with": With,
        "skip": Skip,
        "between": Between,
        "then": Then,
        "then_partial": Then,
        "then_ref": ThenRef,
        "pair": Pair,
    }
)
