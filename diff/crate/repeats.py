"""Repetitions, counted ones, and those with a separator."""

from .model import (
    CONSTRUCTORS,
    COUNTS,
    COUNT_STATE,
    MANY,
    MOST_TURNS,
    NOTHING,
    SEPARATED,
    Endless,
    Parser,
    accepted,
    refused,
)
from .choices import Or


class Many(Parser):
    """Turns until a peeked refusal. With `MANY`, whether an earlier turn committed is kept.

    Also kept: whether the running turn took tokens before the cut, for `NOTHING`.
    """

    def forget(self):
        self.elements = []
        self.committed = False
        self.begun = False

    def parse(self, first, window):
        committed = not first and MANY in self.switches and self.committed
        return self.turns(first, committed, window)

    def turns(self, first, committed, window):
        begun = not first and self.begun
        while True:
            start = window.at
            turn = self.parts[0].run(first, window)
            has_taken = begun or window.at != start
            if not turn.accepted:
                return self.last(turn, start, has_taken, committed, window)
            committed |= turn.committed
            if self.is_last(turn.value):
                return self.ended(committed)
            if NOTHING in self.switches and not has_taken:
                return refused(True)
            self.add(turn.value)
            first, begun = True, False

    def last(self, turn, start, has_taken, committed, window):
        """The result where a turn is refused, or needs more."""
        if turn.committed:
            self.committed, self.begun = committed, has_taken
            return turn
        window.at = start
        return self.ended(committed)

    def is_last(self, value):
        """Whether this value of a turn ends the repetition, accepted."""
        return False

    def ended(self, committed):
        value = self.show(self.elements)
        self.forget()
        return accepted(value, committed)

    def add(self, value):
        self.elements.append(value)
        if len(self.elements) > MOST_TURNS:
            raise Endless

    def show(self, elements):
        return f"[{','.join(elements)}]"


class Many1(Many):
    """A first turn that has to be accepted, whose commitment the crate keeps."""

    def forget(self):
        super().forget()
        self.parsed_one = False
        self.first_committed = False

    def parse(self, first, window):
        if first or not self.parsed_one:
            turn = self.parts[0].run(first, window)
            if not turn.accepted:
                return turn
            self.add(turn.value)
            self.parsed_one = True
            self.committed = self.first_committed = turn.committed
            first = True
        committed = self.first_committed or MANY in self.switches and self.committed
        return self.turns(first, committed, window)


class Skipping:
    """A repetition that drops its values."""

    def show(self, elements):
        return "()"


class SkipMany(Skipping, Many):
    pass


class SkipMany1(Skipping, Many1):
    pass


class CountMinMax(Many):
    """At most `most` turns. With `COUNTS`, whether an earlier turn committed is kept."""

    def __init__(self, switches, parts):
        *numbers, parser = parts
        super().__init__(switches, [parser])
        self.least, self.most = [0, *map(int, numbers)][-2:]

    def parse(self, first, window):
        committed = not first and COUNTS in self.switches and self.committed
        while len(self.elements) < self.most:
            start = window.at
            turn = self.parts[0].run(first, window)
            if not turn.accepted:
                return self.last(turn, start, False, committed, window)
            self.add(turn.value)
            committed |= turn.committed
            first = True
        return self.ended(committed)

    def ended(self, committed):
        if len(self.elements) < self.least:
            return refused(committed)
        return super().ended(committed)


class Count(CountMinMax):
    """In 4.6.6 it keeps no state."""

    def parse(self, first, window):
        if COUNT_STATE not in self.switches:
            self.clear()
        return super().parse(first, window)


class SkipCountMinMax(Skipping, CountMinMax):
    pass


class SkipCount(Skipping, Count):
    pass


class SepEndBy1(Many):
    """A first element, and turns of the separator and perhaps an element: the first without one ends them."""

    def __init__(self, switches, parts):
        super().__init__(switches, [self.turn(*parts)])

    def forget(self):
        super().forget()
        self.parsed_one = False

    def parse(self, first, window):
        if not self.parsed_one:
            element = self.element().run(first, window)
            if not element.accepted:
                return element
            self.elements.append(element.value)
            self.committed = element.committed
            self.parsed_one = self.keeps_first()
        return self.turns(first, self.committed, window)

    def add(self, value):
        super().add(value.removeprefix("some(").removesuffix(")"))

    def is_last(self, value):
        return value == "none"

    def turn(self, parser, separator):
        return f"with({separator},optional({parser}))"

    def element(self):
        """The parser of the elements, which the turns have too."""
        return self.parts[0].parts[1].parts[0]

    def keeps_first(self):
        return True


class SepBy1(SepEndBy1):
    """A first element, and turns of the separator and an element. With `SEPARATED` the state keeps that there was a first."""

    def add(self, value):
        Many.add(self, value)

    def is_last(self, value):
        return False

    def turn(self, parser, separator):
        return f"with({separator},{parser})"

    def element(self):
        return self.parts[0].parts[1]

    def keeps_first(self):
        return SEPARATED in self.switches


class SepEndBy(Or):
    def __init__(self, switches, parts):
        super().__init__(switches, [f"sep_end_by1({','.join(parts)})", "value([])"])


class SepBy(Or):
    def __init__(self, switches, parts):
        super().__init__(switches, [f"sep_by1({','.join(parts)})", "value([])"])


CONSTRUCTORS.update(
    {
        "many": Many,
        "many1": Many1,
        "skip_many": SkipMany,
        "skip_many1": SkipMany1,
        "count": Count,
        "count_min_max": CountMinMax,
        "skip_count": SkipCount,
        "skip_count_min_max": SkipCountMinMax,
        "sep_by": SepBy,
        "sep_by1": SepBy1,
        "sep_end_by": SepEndBy,
        "sep_end_by1": SepEndBy1,
    }
)
