"""The meaning of parsers: their outcome on a list of tokens, ended or open, by the equations.

Our program's results are checked against it. An outcome is one of ('accepted', value, count, committed),
('refused', committed) and ('undecided',); a value is the shown text.
"""

import functools

import cases

UNDECIDED = ("undecided",)


def answer(case):
    """The result of a case: the number of windows at whose end the tokens so far, open, are undecided; then the outcome."""
    parser, pieces = case.split(" ")
    parse = meaning(parser)
    tokens = ""
    feeding = cases.windows(pieces)
    for asked, (piece, open_) in enumerate(feeding):
        tokens += piece
        outcome = parse(tokens, open_)
        if outcome != UNDECIDED:
            return f"asked {asked} {show(outcome)}"
    return f"asked {len(feeding)} undecided"


# The tokens of each class, in ranges; none for classes that depend on Unicode's tables.
CLASSES = {
    "digit": "30-39",
    "oct_digit": "30-37",
    "hex_digit": "30-39,41-46,61-66",
    "newline": "a",
    "tab": "9",
    "byte::space": "9-a,c-d,20",
    "char::space": "9-d,20,85,a0,1680,2000-200a,2028-2029,202f,205f,3000",
    "byte::upper": "41-5a",
    "byte::lower": "61-7a",
    "byte::letter": "41-5a,61-7a",
    "byte::alpha_num": "30-39,41-5a,61-7a",
}


def tokens_of(case):
    """The meant tokens of a class; none where Unicode decides."""
    name = case.removeprefix("class ")
    return CLASSES.get(name, CLASSES.get(name.split("::")[1]))


def show(outcome):
    kind = "committed" if outcome[-1] else "peeked"
    if outcome[0] == "refused":
        return f"refused {kind}"
    _, value, count, _ = outcome
    return f"accepted {value} taken {count} {kind}"


@functools.cache
def meaning(parser):
    name, parts = cases.split(parser)
    if name in LEAVES:
        return LEAVES[name](*parts)
    return CONSTRUCTORS[name](*[meaning(part) if "(" in part else part for part in parts])


def one(fits):
    def parse(tokens, open_):
        if not tokens:
            return UNDECIDED if open_ else ("refused", False)
        return ("accepted", tokens[0], 1, True) if fits(tokens[0]) else ("refused", False)

    return parse


def token_list(wanted):
    def parse(tokens, open_):
        for at, token in enumerate(wanted):
            if at == len(tokens):
                return UNDECIDED if open_ else ("refused", at > 0)
            if tokens[at] != token:
                return ("refused", at > 0)
        return ("accepted", f'"{wanted}"', len(wanted), len(wanted) > 0)

    return parse


def value(token):
    return lambda tokens, open_: ("accepted", token, 0, False)


def end_of_input(tokens, open_):
    if tokens:
        return ("refused", False)
    return UNDECIDED if open_ else ("accepted", "()", 0, False)


def with_taken(parse, collect):
    """The same outcomes, with a value made of the taken tokens and the old value."""

    def parse_taking(tokens, open_):
        outcome = parse(tokens, open_)
        if outcome[0] != "accepted":
            return outcome
        _, value, count, committed = outcome
        return ("accepted", collect(tokens[:count], value), count, committed)

    return parse_taking


def with_value(function, parse):
    """The same outcomes, with the value changed."""

    def parse_with(tokens, open_):
        outcome = parse(tokens, open_)
        if outcome[0] != "accepted":
            return outcome
        _, value, count, committed = outcome
        return ("accepted", function(value), count, committed)

    return parse_with


def but_b(parse):
    """A function that makes a capital of the value, and refuses a `b`, committed as the parser was."""

    def parse_but_b(tokens, open_):
        outcome = parse(tokens, open_)
        if outcome[0] != "accepted":
            return outcome
        _, value, count, committed = outcome
        return ("refused", committed) if value == "b" else ("accepted", value.upper(), count, committed)

    return parse_but_b


def length(size):
    def parse(tokens, open_):
        if len(tokens) < size:
            return UNDECIDED if open_ else ("refused", False)
        return ("accepted", quoted(tokens[:size]), size, size > 0)

    return parse


def one_range(wanted=""):
    """That many tokens have to be there; then equal ones are accepted, always committed."""
    first = length(len(wanted))

    def parse(tokens, open_):
        outcome = first(tokens, open_)
        if outcome[0] != "accepted":
            return outcome
        return ("accepted", quoted(wanted), len(wanted), True) if tokens.startswith(wanted) else ("refused", False)

    return parse


def longest(letters, least):
    def parse(tokens, open_):
        count = len(tokens) - len(tokens.lstrip(letters))
        if open_ and count == len(tokens):
            return UNDECIDED
        if count < least:
            return ("refused", False)
        return ("accepted", quoted(tokens[:count]), count, count > 0)

    return parse


def before(find, is_range):
    """The tokens before the first place; without one, on ended input, a search refuses committed unless it is empty."""

    def parse(tokens, open_):
        count = find(tokens)
        if count >= 0:
            return ("accepted", quoted(tokens[:count]), count, count > 0)
        return UNDECIDED if open_ else ("refused", not is_range and len(tokens) > 0)

    return parse


def first_of(letters):
    return before(lambda tokens: next((at for at, token in enumerate(tokens) if token in letters), -1), False)


def by_length(parse, collect):
    """The tokens that a parser took, committed if there are any."""
    recognized = with_taken(parse, collect)

    def parse_recognized(tokens, open_):
        outcome = recognized(tokens, open_)
        return (*outcome[:3], outcome[2] > 0) if outcome[0] == "accepted" else outcome

    return parse_recognized


def whole_number(name):
    size = cases.size_of(name)

    def parse(tokens, open_):
        if len(tokens) < size:
            return UNDECIDED if open_ else ("refused", False)
        return ("accepted", cases.number(name, tokens[:size]), size, True)

    return parse


def after(count, committed, outcome):
    """An outcome further on in a list, after `count` tokens and this commitment."""
    if outcome[0] == "accepted":
        return ("accepted", outcome[1], count + outcome[2], committed or outcome[3])
    if outcome[0] == "refused":
        return ("refused", committed or outcome[1])
    return outcome


def sequence(parsers, collect):
    """Parsers one after the other; the first that doesn't accept decides the outcome."""

    def parse(tokens, open_):
        values, count, committed = [], 0, False
        for part in parsers:
            outcome = part(tokens[count:], open_)
            if outcome[0] != "accepted":
                return after(count, committed, outcome)
            values.append(outcome[1])
            _, _, count, committed = after(count, committed, outcome)
        return ("accepted", collect(values), count, committed)

    return parse


def and_then(parse, answer, collect):
    """The first parser, and then the one that a function returns for its value."""

    def parse_both(tokens, open_):
        first = parse(tokens, open_)
        if first[0] != "accepted":
            return first
        _, value, count, committed = first
        outcome = after(count, committed, answer(value)(tokens[count:], open_))
        if outcome[0] != "accepted":
            return outcome
        return ("accepted", collect(value, outcome[1]), *outcome[2:])

    return parse_both


def same_token(letter):
    return one(lambda token: token == letter)


def dispatched(letter):
    """The parser for the cases of `dispatch`: `token(a)` after an `a`, `satisfy(ab)` after a `b`, `any()` after another token."""
    return one(lambda token: token in {"a": "a", "b": "ab"}.get(letter, "abc"))


def choice(*parsers):
    """The first alternative that is not refused peeked."""

    def parse(tokens, open_):
        for part in parsers:
            outcome = part(tokens, open_)
            if outcome != ("refused", False):
                return outcome
        return ("refused", False)

    return parse


def optional(parse):
    return choice(with_value(lambda it: f"some({it})", parse), value("none"))


def attempt(parse):
    def parse_attempt(tokens, open_):
        outcome = parse(tokens, open_)
        return ("refused", False) if outcome[0] == "refused" else outcome

    return parse_attempt


def look_ahead(parse):
    """A parser that takes nothing and returns the value."""

    def parse_ahead(tokens, open_):
        outcome = parse(tokens, open_)
        return ("accepted", outcome[1], 0, False) if outcome[0] == "accepted" else outcome

    return parse_ahead


def not_followed_by(parse):
    def parse_not(tokens, open_):
        outcome = parse(tokens, open_)
        if outcome == UNDECIDED:
            return outcome
        return ("refused", False) if outcome[0] == "accepted" else ("accepted", "()", 0, False)

    return parse_not


def turns(parse, collect, least, is_last=lambda value: False):
    """Blocks that each take tokens, until a peeked refusal; a turn that takes nothing is a committed refusal.

    A turn whose value is the last ends them, accepted, and is no block.
    """

    def parse_turns(tokens, open_):
        values, count, committed = [], 0, False
        while True:
            outcome = parse(tokens[count:], open_)
            first = len(values) < least
            if outcome[0] == "accepted" and is_last(outcome[1]):
                return after(count, committed, ("accepted", collect(values), *outcome[2:]))
            if outcome[0] == "accepted" and (outcome[2] > 0 or first):
                values.append(outcome[1])
                _, _, count, committed = after(count, committed, outcome)
            elif outcome[0] == "accepted":
                return ("refused", True)
            elif outcome == ("refused", False) and not first:
                return ("accepted", collect(values), count, committed)
            else:
                return outcome

    return parse_turns


def counted(parse, collect, least, most):
    """At most `most` blocks, empty ones too; refused where a peeked refusal comes before the minimum."""

    def parse_counted(tokens, open_):
        values, count, committed = [], 0, False
        while len(values) < int(most):
            outcome = parse(tokens[count:], open_)
            if outcome == ("refused", False):
                break
            if outcome[0] != "accepted":
                return outcome
            values.append(outcome[1])
            _, _, count, committed = after(count, committed, outcome)
        if len(values) < int(least):
            return ("refused", committed)
        return ("accepted", collect(values), count, committed)

    return parse_counted


def first_and_turns(parse, turn, collect, is_last=lambda value: False):
    """The parser, and then turns; `collect` gets the first value and the list of the others."""
    return and_then(parse, lambda value: turns(turn, list, 0, is_last), collect)


def sep_by1(parse, separator):
    return first_and_turns(parse, sequence([separator, parse], lambda values: values[1]), first_and_rest)


def sep_end_by1(parse, separator):
    element = choice(with_value(lambda it: [it], parse), value([]))
    turn = sequence([separator, element], lambda values: values[1])
    return first_and_turns(parse, turn, lambda first, rest: first_and_rest(first, sum(rest, [])), lambda it: it == [])


def first_and_rest(first, rest):
    return listed([first, *rest])


def or_none(parse):
    return choice(parse, value("[]"))


def chain(parse, operator, fold):
    return first_and_turns(parse, sequence([operator, parse], tuple), fold)


def from_the_left(first, rest):
    for operator, right in rest:
        first = f"({first}{operator}{right})"
    return first


def from_the_right(first, rest):
    if not rest:
        return first
    operator, right = rest[0]
    return f"({first}{operator}{from_the_right(right, rest[1:])})"


def escaped(parse, escape, behind):
    return turns(choice(parse, sequence([same_token(escape), behind], nothing)), nothing, 0)


def until(parse, end, collect):
    """Turns up to the first place where the end isn't refused peeked; its tokens are put back. No turn may take nothing."""

    def parse_until(tokens, open_):
        values, count, committed = [], 0, False
        while True:
            outcome = end(tokens[count:], open_)
            if outcome[0] == "accepted":
                return ("accepted", collect(values), count, committed or outcome[3])
            if outcome != ("refused", False):
                return outcome
            outcome = parse(tokens[count:], open_)
            if outcome[0] != "accepted":
                return outcome
            if outcome[2] == 0:
                return ("refused", True)
            values.append(outcome[1])
            _, _, count, committed = after(count, committed, outcome)

    return parse_until


def iterate(most, parse):
    """A number of items, for the n-th of which the parser runs n times."""
    return sequence([counted(parse, listed, item, item) for item in range(int(most))], listed)


def listed(values):
    return f"[{','.join(values)}]"


def nothing(values):
    return "()"


def quoted(tokens):
    return f'"{tokens}"'


def wrapped(value):
    return f"<{value}>"


def both(first, second):
    return f"({first},{second})"


def last(first, second):
    return second


LEAVES = {
    "satisfy": lambda letters: one(lambda token: token in letters),
    "satisfy_map": lambda letters: with_value(wrapped, one(lambda token: token in letters)),
    "one_of": lambda letters: one(lambda token: token in letters),
    "none_of": lambda letters: one(lambda token: token not in letters),
    "string": token_list,
    "token": same_token,
    "tokens": token_list,
    "tokens_cmp": token_list,
    "value": value,
    "range": one_range,
    "take": lambda size: length(int(size)),
    "take_while": lambda letters: longest(letters, 0),
    "take_while1": lambda letters: longest(letters, 1),
    "take_until_range": lambda wanted: before(lambda tokens: tokens.find(wanted), True),
    "take_until_byte": first_of,
    "take_until_byte2": first_of,
    "take_until_byte3": first_of,
    "take_until_bytes": lambda wanted: before(lambda tokens: tokens.find(wanted), False),
    **{name: functools.partial(whole_number, name) for name in cases.NUMBERS},
}

CONSTRUCTORS = {
    "any": lambda: one(lambda token: True),
    "eof": lambda: end_of_input,
    "map": lambda parse: with_value(wrapped, parse),
    "and_then": but_b,
    "flat_map": but_b,
    "recognize": lambda parse: with_taken(parse, lambda tokens, value: listed(tokens)),
    "recognize_range": lambda parse: by_length(parse, lambda tokens, value: quoted(tokens)),
    "recognize_with_value": lambda parse: by_length(parse, lambda tokens, value: both(quoted(tokens), value)),
    "expected": lambda parse: parse,
    "message": lambda parse: parse,
    "silent": lambda parse: parse,
    "take_until": lambda end: until(one(lambda token: True), end, listed),
    "skip_until": lambda end: until(one(lambda token: True), end, nothing),
    "repeat_until": lambda parse, end: until(parse, end, listed),
    "repeat_skip_until": lambda parse, end: until(parse, end, nothing),
    "iterate": iterate,
    "attempt": attempt,
    "look_ahead": look_ahead,
    "not_followed_by": not_followed_by,
    "or": choice,
    "choice": choice,
    "array": choice,
    "slice": choice,
    "left": lambda left, right: left,
    "right": lambda left, right: right,
    "dispatch": lambda parse: and_then(parse, dispatched, last),
    "optional": optional,
    "with": lambda *parsers: sequence(parsers, lambda values: values[1]),
    "skip": lambda *parsers: sequence(parsers, lambda values: values[0]),
    "between": lambda open_, close, parse: sequence([open_, parse, close], lambda values: values[1]),
    "then": lambda parse: and_then(parse, same_token, last),
    "then_partial": lambda parse: and_then(parse, same_token, last),
    "then_ref": lambda parse: and_then(parse, same_token, both),
    "tuple": lambda *parsers: sequence(parsers, lambda values: f"({','.join(values)})"),
    "many": lambda parse: turns(parse, listed, 0),
    "many1": lambda parse: turns(parse, listed, 1),
    "skip_many": lambda parse: turns(parse, nothing, 0),
    "skip_many1": lambda parse: turns(parse, nothing, 1),
    "count": lambda most, parse: counted(parse, listed, 0, most),
    "count_min_max": lambda least, most, parse: counted(parse, listed, least, most),
    "skip_count": lambda most, parse: counted(parse, nothing, 0, most),
    "skip_count_min_max": lambda least, most, parse: counted(parse, nothing, least, most),
    "sep_by": lambda *parsers: or_none(sep_by1(*parsers)),
    "sep_by1": sep_by1,
    "sep_end_by": lambda *parsers: or_none(sep_end_by1(*parsers)),
    "sep_end_by1": sep_end_by1,
    "chainl1": lambda parse, operator: chain(parse, operator, from_the_left),
    "chainr1": lambda parse, operator: chain(parse, operator, from_the_right),
    "escaped": escaped,
}
