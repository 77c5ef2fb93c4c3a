"""Repetitions up to a place, and one parser for each item of a list."""

from .model import CONSTRUCTORS, MOST_TURNS, NOTHING, UNTIL, Endless, Parser, accepted, make, refused


class RepeatUntil(Parser):
    """Turns of the first part up to where the second is accepted, which is put back.

    With `UNTIL`, need of more puts everything back, and it begins again.
    """

    def forget(self):
        self.elements = []
        self.is_turn = False

    def parse(self, first, window):
        start = window.at
        result = self.turns(first, window)
        if UNTIL in self.switches and window.asks(result):
            window.at = start
            self.clear()
        return result

    def turns(self, first, window):
        turn, end = self.parts
        committed = False
        while True:
            before = window.at
            if self.is_turn:
                result = turn.run(first, window)
                if not result.accepted:
                    return result
                if NOTHING in self.switches and window.at == before:
                    return refused(True)
                committed |= result.committed
                self.add(result.value)
                self.is_turn = False
                continue
            result = end.run(first, window)
            window.at = before
            if result.accepted:
                return self.ended(committed or result.committed)
            if result.committed:
                return result
            first, self.is_turn = self.first_behind(first), True

    def first_behind(self, first):
        return True

    def add(self, value):
        self.elements.append(value)
        if len(self.elements) > MOST_TURNS:
            raise Endless

    def ended(self, committed):
        value = self.show(self.elements)
        self.elements = []
        return accepted(value, committed)

    def show(self, elements):
        return f"[{','.join(elements)}]"


class RepeatSkipUntil(RepeatUntil):
    def show(self, elements):
        return "()"


class TakeUntil(RepeatUntil):
    """Each turn is a token; whether one was read last is no state, and `end` is resumed at each place."""

    def __init__(self, switches, parts):
        super().__init__(switches, ["any()", *parts])

    def turns(self, first, window):
        committed = False
        _, end = self.parts
        while True:
            before = window.at
            result = end.run(first, window)
            window.at = before
            if result.accepted:
                return self.ended(committed or result.committed)
            if result.committed:
                return result
            token = window.read()
            if not token.accepted:
                return token
            self.add(token.value)
            committed = True


class SkipUntil(TakeUntil):
    def show(self, elements):
        return "()"


class Iterate(Parser):
    """A number of items, for the n-th of which the part runs n times."""

    def __init__(self, switches, parts):
        super().__init__(switches, [])
        self.most, self.alternatives = int(parts[0]), parts[1:]

    def forget(self):
        self.elements = []
        self.committed = False
        self.item = None
        self.running = None

    def adopt(self, other):
        super().adopt(other)
        self.running = None
        if other.running is not None:
            self.running = make(self.part(other.item), self.switches)
            self.running.adopt(other.running)

    def part(self, item):
        return f"count_min_max({item},{item},{self.alternatives[0]})"

    def parse(self, first, window):
        if first or self.item is None:
            self.item = 0
        while self.item < self.most:
            kept, self.running = self.running, make(self.part(self.item), self.switches)
            if kept is not None:
                self.running.adopt(kept)
            start = window.at
            result = self.running.run(first, window)
            if not result.accepted:
                if result.committed:
                    return result
                window.at = start
                return refused(self.committed, result.at_end)
            first = True
            self.committed |= result.committed
            self.elements.append(result.value)
            self.item += 1
        value, committed = f"[{','.join(self.elements)}]", self.committed
        self.elements, self.committed, self.item = [], False, None
        return accepted(value, committed)


CONSTRUCTORS.update(
    {
        "repeat_until": RepeatUntil,
        "repeat_skip_until": RepeatSkipUntil,
        "take_until": TakeUntil,
        "skip_until": SkipUntil,
        "iterate": Iterate,
    }
)
