"""Parsers that change the outcome of one part."""

from .model import ATTEMPT, CONSTRUCTORS, NOT, Parser, accepted, refused


def wrapped(result):
    return accepted(f"<{result.value}>", result.committed) if result.accepted else result


class Map(Parser):
    def parse(self, first, window):
        return wrapped(self.parts[0].run(first, window))


class Optional(Parser):
    def parse(self, first, window):
        start = window.at
        result = self.parts[0].run(first, window)
        if result.accepted:
            return accepted(f"some({result.value})", result.committed)
        if result.committed:
            return result
        window.at = start
        return accepted("none", False)


class Attempt(Parser):
    """A committed refusal becomes peeked, and the caller has to put the tokens back.

    With `ATTEMPT`, need of more puts all tokens back, and the distance that the part had read is kept with its state.
    """

    def forget(self):
        self.distance = 0

    def parse(self, first, window):
        start = window.at
        if not first:
            # Fewer may be left, where another parser has lost some.
            window.at = min(start + self.distance, len(window.tokens))
        result = self.parts[0].run(first, window)
        self.distance = 0
        if window.asks(result):
            if ATTEMPT in self.switches:
                self.distance = window.at - start
                window.at = start
            return result
        if result.accepted:
            return result
        if not result.committed:
            window.at = start
        return refused(False)


class LookAhead(Parser):
    def __init__(self, switches, parts):
        super().__init__(switches, [])
        self.alternatives = parts

    def parse(self, first, window):
        start = window.at
        result = self.lazy(self.alternatives[0], window)
        window.at = start
        return accepted(result.value, False) if result.accepted else result

    def keeps_state(self):
        return False


class NotFollowedBy(Parser):
    """With `NOT`, it needs more where its part does, and begins again."""

    def parse(self, first, window):
        start = window.at
        result = self.parts[0].run(first, window)
        window.at = start
        if result.accepted:
            return refused(False)
        if NOT in self.switches and window.asks(result):
            self.clear()
            return result
        return accepted("()", False)


CONSTRUCTORS.update(
    {
        "map": Map,
        "attempt": Attempt,
        "optional": Optional,
        "look_ahead": LookAhead,
        "not_followed_by": NotFollowedBy,
    }
)
