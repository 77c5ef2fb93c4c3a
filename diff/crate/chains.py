"""Chains, and texts with escapes."""

import functools

from .model import (
    CHAIN,
    CONSTRUCTORS,
    ESCAPE,
    ESCAPED_STATE,
    MOST_TURNS,
    NOTHING,
    OPERATOR,
    Endless,
    Parser,
    accepted,
    make,
    refused,
)
from .repeats import Many


def joined(left, operator, right):
    return f"({left}{operator}{right})"


class Chainl1(Many):
    """A first operand, and turns of operator and operand. In first mode too it goes on from a kept operand."""

    def __init__(self, switches, parts):
        parser, operator = parts
        super().__init__(switches, [f"pair({operator},{parser})"])

    def parse(self, first, window):
        if not self.elements:
            operand = self.parts[0].parts[1].run(False, window)
            if not operand.accepted:
                return operand
            self.add(operand.value)
            self.committed = operand.committed
            first = True
        return self.turns(first, self.committed, window)

    def show(self, elements):
        return functools.reduce(lambda left, turn: joined(left, *turn), elements)


class Chainr1(Parser):
    """An operand, and turns of operator and chain. It keeps no state.

    With `OPERATOR`, an operator without an operand is refused, committed if it was; with `CHAIN`, need of more puts back.
    """

    def __init__(self, switches, parts):
        super().__init__(switches, [])
        self.alternatives = parts

    def parse(self, first, window):
        start = window.at
        result = self.chain(None, MOST_TURNS, window)
        if CHAIN in self.switches and window.asks(result):
            window.at = start
        return result

    def chain(self, turn, room, window):
        """The operands from here on, with at most `room` more nested; `turn` is the place where their turn began, or none."""
        parser, operator = self.alternatives
        left = self.lazy(parser, window)
        if not left.accepted:
            return left
        if room == 0:
            raise Endless
        if NOTHING in self.switches and window.at == turn:
            return refused(True)
        while True:
            start = window.at
            between = self.lazy(operator, window)
            if not between.accepted:
                return between if between.committed else self.ended(left, start, window)
            behind = window.at
            right = self.chain(start, room - 1, window)
            if right.accepted:
                value = joined(left.value, between.value, right.value)
                left = accepted(value, left.committed or between.committed or right.committed)
            elif right.committed or OPERATOR in self.switches and between.committed:
                return right._replace(committed=True)
            elif OPERATOR in self.switches:
                return self.ended(left, start, window)
            else:
                return self.ended(left._replace(committed=left.committed or between.committed), behind, window)

    def ended(self, left, place, window):
        window.at = place
        return left

    def keeps_state(self):
        return False


class Escaped(Parser):
    """Turns of the one part, or of the escape and the other. In 4.6.6 it keeps no state.

    With `ESCAPE`, the tokens of the refused part are put back before the escape is looked for.
    """

    def __init__(self, switches, parts):
        parser, self.escape, behind = parts
        super().__init__(switches, [parser, behind])
        self.alternatives = [parser, behind]

    def forget(self):
        self.committed = False
        self.escaping = False
        self.begun = False

    def parse(self, first, window):
        if ESCAPED_STATE not in self.switches:
            return self.without_state(window)
        if first:
            self.forget()
        for _ in range(MOST_TURNS):
            if not self.escaping:
                result = self.unescaped(first, window)
                if result is not None:
                    return result
                first = True
            if self.escaping:
                turn = self.parts[1].run(first, window)
                if not turn.accepted:
                    return turn._replace(committed=True)
                self.escaping = False
                first = True
        raise Endless

    def unescaped(self, first, window):
        """A turn of the first part, or the escape; returns a result where there is neither."""
        start = window.at
        begun = not first and self.begun
        turn = self.parts[0].run(first, window)
        self.begun = begun or window.at != start
        if turn.accepted:
            self.committed |= turn.committed
            return refused(True) if NOTHING in self.switches and not self.begun else None
        if turn.committed:
            return turn
        if ESCAPE in self.switches:
            window.at = start
        self.begun = False
        result = self.read_escape(window)
        if window.asks(result):
            # The part has a result, and begins from nothing.
            self.parts[0].clear()
            return result
        self.escaping = result.accepted
        self.committed |= result.accepted
        return None if result.accepted else accepted("()", self.committed)

    def read_escape(self, window):
        start = window.at
        result = window.read()
        if result.accepted and result.value != self.escape:
            window.at = start
            return refused(False)
        return result

    def without_state(self, window):
        """As in 4.6.6: the escape commits nothing."""
        parser, behind = self.alternatives
        committed = False
        for _ in range(MOST_TURNS):
            turn = self.lazy(parser, window)
            if not turn.accepted:
                if turn.committed:
                    return turn
                escape = self.read_escape(window)
                if not escape.accepted:
                    return escape if escape.committed else accepted("()", committed)
                turn = make(behind, self.switches).run(True, window)
                if not turn.accepted:
                    return turn._replace(committed=True)
            committed |= turn.committed
        raise Endless

    def keeps_state(self):
        return ESCAPED_STATE in self.switches


CONSTRUCTORS.update(
    {
        "chainl1": Chainl1,
        "chainr1": Chainr1,
        "escaped": Escaped,
    }
)
