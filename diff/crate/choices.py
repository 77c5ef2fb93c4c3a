"""Choices, and parsers that are one of several."""

from .model import ATTEMPT, CHOICE, CONSTRUCTORS, Parser, accepted, make, refused


class Or(Parser):
    """A choice, which stays with an alternative that needed more. With `CHOICE` it goes on to the later ones."""

    def __init__(self, switches, parts):
        super().__init__(switches, [])
        self.alternatives = parts

    def forget(self):
        self.running = None

    def adopt(self, other):
        self.running = None
        if other.running is not None:
            at, others = other.running
            alternative = make(self.alternatives[at], self.switches)
            alternative.adopt(others)
            self.running = at, alternative

    def parse(self, first, window):
        if first or self.running is None:
            return self.choose(0, window)
        start = window.at
        at, alternative = self.running
        result = alternative.run(first, window)
        if result.accepted:
            self.running = None
        if CHOICE in self.switches and not result.accepted and not result.committed:
            self.running = None
            window.at = start
            return self.choose(at + 1, window)
        return result

    def choose(self, begin, window):
        """The alternatives from this one on, in first mode."""
        start = window.at
        for at in range(begin, len(self.alternatives)):
            alternative = make(self.alternatives[at], self.switches)
            result = alternative.run(True, window)
            if result.accepted:
                return result
            if result.committed:
                self.keep(at, alternative, window.at != start)
                return result
            window.at = start
        return refused(False)

    def keep(self, at, alternative, has_taken):
        """The crate keeps an alternative that has taken tokens; with `ATTEMPT`, one that has put them back too."""
        if has_taken or ATTEMPT in self.switches:
            self.running = at, alternative


class SliceChoice(Parser):
    """A choice over parsers of one type: the one that needed more is kept, whether it has taken tokens or not.

    They share a state. With `REFUSAL` a refusal clears it; with `CHOICE` the later ones begin afresh.
    """

    def forget(self):
        self.running = None
        self.last = 0

    def parse(self, first, window):
        if first or self.running is None:
            return self.choose(0, first, window)
        start = window.at
        at = self.running
        result = self.try_alternative(at, first, window)
        if result.accepted:
            self.running = None
        if CHOICE in self.switches and not result.accepted and not result.committed:
            self.running = None
            window.at = start
            return self.choose(at + 1, True, window)
        return result

    def choose(self, begin, first, window):
        """The alternatives from this one on."""
        start = window.at
        for at in range(begin, len(self.parts)):
            result = self.try_alternative(at, first, window)
            if result.accepted:
                self.running = None
                return result
            if result.committed:
                self.running = at
                return result
            window.at = start
        return refused(False)

    def try_alternative(self, at, first, window):
        if at != self.last:
            self.parts[at].adopt(self.parts[self.last])
            self.last = at
        return self.parts[at].run(first, window)


class Left(Parser):
    def parse(self, first, window):
        return self.parts[0].run(first, window)


class Right(Parser):
    def parse(self, first, window):
        return self.parts[1].run(first, window)


CONSTRUCTORS.update(
    {
        "or": Or,
        "choice": Or,
        "array": SliceChoice,
        "slice": SliceChoice,
        "left": Left,
        "right": Right,
    }
)
