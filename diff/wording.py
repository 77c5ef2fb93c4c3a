"""The meant errors, of whole inputs of characters; and how the crate's texts differ from ours.

A parser is a function of the tokens and a place in them, which returns `Said`. Items are pairs of `Unexpected`,
`Expected` or `Message` and a text; an item is added once.
"""

import dataclasses
import functools

import cases

END = ("Unexpected", "end of input")


@dataclasses.dataclass(frozen=True)
class Said:
    """The place after an acceptance, or none; whether it is committed; for a refusal the place of the error and its items."""

    behind: int | None
    committed: bool
    value: str = ""
    place: int = 0
    items: tuple = ()


def accepted(behind, committed, value=""):
    return Said(behind, committed, value)


def refused(committed, place, *items):
    return Said(None, committed, "", place, items)


def added(said, *items):
    kept = list(said.items)
    kept += [item for at, item in enumerate(items) if item not in kept and item not in items[:at]]
    return dataclasses.replace(said, items=tuple(kept))


def answer(case):
    """The meant text of `says PARSER INPUT.`: `accepted`, or the lines of the error."""
    _, parser, text = case.split(" ")
    tokens = text.removesuffix(".")
    said = explained(parser, tokens, 0, parse(parser)(tokens, 0))
    if said.behind is not None:
        return "accepted"
    return written(said.place, said.items)


def written(place, items):
    lines = [f"Parse error at line: 1, column: {place + 1}"]
    lines += [f"Unexpected {text}" for kind, text in items if kind == "Unexpected"]
    wanted = [text for kind, text in items if kind == "Expected"]
    if wanted:
        *first, last = wanted
        lines.append(f"Expected {', '.join(first)} or {last}" if first else f"Expected {last}")
    lines += [text for kind, text in items if kind == "Message"]
    return "".join(f"{line}; " for line in lines)


def explained(parser, tokens, at, said):
    """A peeked refusal, with the token where the parser began as unexpected, and the parser's own items."""
    if said.behind is not None or said.committed:
        return said
    stands = [("Unexpected", quoted(token)) for token in tokens[at : at + 1]]
    return adds(parser)(added(said, *stands))


def quoted(token):
    return f"`{token}`"


# ---- what a parser adds to the error of its peeked refusal


@functools.cache
def adds(parser):
    name, parts = cases.split(parser)
    if name in ITEMS:
        return lambda said: added(said, *ITEMS[name](*parts))
    if name in ("or", "choice"):
        return lambda said: functools.reduce(lambda so_far, part: adds(part)(so_far), parts, said)
    if name == "message":
        return lambda said: added(adds(parts[1])(said), ("Message", parts[0]))
    if name == "expected":
        return lambda said: added(but_expected(adds(parts[1]), said), ("Expected", parts[0]))
    return adds(next(part for part in parts if "(" in part))


def but_expected(add, said):
    """The added items without the expected ones."""
    more = add(said).items[len(said.items) :]
    return added(said, *[item for item in more if item[0] != "Expected"])


ITEMS = {
    "token": lambda token: [("Expected", quoted(token))],
    "string": lambda text: [("Expected", text)],
    "eof": lambda *_: [("Expected", "end of input")],
    "letter": lambda *_: [("Expected", "letter")],
    "digit": lambda *_: [("Expected", "digit")],
    "unexpected": lambda text: [("Unexpected", text)],
    **{name: lambda *_: [] for name in ("any", "satisfy", "value", "silent", "not_followed_by")},
}


# ---- the parsers


@functools.cache
def parse(parser):
    name, parts = cases.split(parser)
    return PARSERS[name](*parts)


def one(fits):
    def parse_one(tokens, at):
        if at == len(tokens):
            return refused(False, at, END)
        return accepted(at + 1, True, tokens[at]) if fits(tokens[at]) else refused(False, at)

    return parse_one


def string(text):
    def parse_string(tokens, at):
        for count, letter in enumerate(text):
            if at + count == len(tokens):
                return refused(count > 0, at, END)
            if tokens[at + count] != letter:
                return refused(True, at, ("Unexpected", quoted(tokens[at + count]))) if count else refused(False, at)
        return accepted(at + len(text), True)

    return parse_string


def end_of_input(tokens, at):
    return accepted(at, False) if at == len(tokens) else refused(False, at)


def sequence(*parts):
    """A part after the first that is refused peeked explains its refusal."""

    def parse_sequence(tokens, at):
        behind, committed = at, False
        for number, part in enumerate(parts):
            said = parse(part)(tokens, behind)
            if said.behind is None:
                said = explained(part, tokens, behind, said) if number else said
                return dataclasses.replace(said, committed=committed or said.committed)
            behind, committed = said.behind, committed or said.committed
        return accepted(behind, committed)

    return parse_sequence


def choice(*parts):
    """The errors of alternatives that are refused peeked are merged: the later place stays; at one place the items are added."""

    def parse_choice(tokens, at):
        merged = None
        for part in parts:
            said = parse(part)(tokens, at)
            if said.behind is not None or said.committed:
                return said
            if merged is None or said.place > merged.place:
                merged = said
            elif said.place == merged.place:
                merged = added(merged, *said.items)
        return merged

    return parse_choice


def optional(part):
    def parse_optional(tokens, at):
        said = parse(part)(tokens, at)
        return accepted(at, False) if said.behind is None and not said.committed else said

    return parse_optional


def attempt(part):
    def parse_attempt(tokens, at):
        said = parse(part)(tokens, at)
        return dataclasses.replace(said, committed=False) if said.behind is None else said

    return parse_attempt


def look_ahead(part):
    def parse_ahead(tokens, at):
        said = parse(part)(tokens, at)
        return said if said.behind is None else accepted(at, False, said.value)

    return parse_ahead


def not_followed_by(part):
    return lambda tokens, at: accepted(at, False) if parse(part)(tokens, at).behind is None else refused(False, at)


def and_then(part):
    def parse_and_then(tokens, at):
        said = parse(part)(tokens, at)
        return refused(said.committed, at, ("Message", "no b")) if said.behind is not None and said.value == "b" else said

    return parse_and_then


def turns(first, turn):
    """One part, and then turns of another until a peeked refusal; no first part means turns alone."""

    def parse_turns(tokens, at):
        behind, committed = at, False
        if first is not None:
            said = parse(first)(tokens, at)
            if said.behind is None:
                return said
            behind, committed = said.behind, said.committed
        while True:
            said = parse(turn)(tokens, behind)
            if said.behind is None:
                return said if said.committed else accepted(behind, committed)
            behind, committed = said.behind, True
            if said.value == "last":
                return accepted(behind, committed)

    return parse_turns


def count_min_max(least, most, part):
    def parse_counted(tokens, at):
        behind, committed, count = at, False, 0
        while count < int(most):
            said = parse(part)(tokens, behind)
            if said.behind is None and said.committed:
                return said
            if said.behind is None:
                break
            behind, committed, count = said.behind, committed or said.committed, count + 1
        if count < int(least):
            return refused(committed, behind, ("Message", f"expected {int(least) - count} more elements"))
        return accepted(behind, committed)

    return parse_counted


def sep_end_turn(part, separator):
    """The separator, and perhaps an element: without one it is the last turn."""

    def parse_turn(tokens, at):
        said = parse(separator)(tokens, at)
        if said.behind is None:
            return said
        element = parse(part)(tokens, said.behind)
        if element.behind is None:
            return element if element.committed else accepted(said.behind, said.committed, "last")
        return accepted(element.behind, True)

    return parse_turn


def message(text, part):
    def parse_message(tokens, at):
        said = parse(part)(tokens, at)
        return added(said, ("Message", text)) if said.behind is None and said.committed else said

    return parse_message


def silent(part):
    def parse_silent(tokens, at):
        said = parse(part)(tokens, at)
        return dataclasses.replace(said, items=tuple(item for item in said.items if item[0] != "Expected"))

    return parse_silent


PARSERS = {
    "any": lambda *_: one(lambda token: True),
    "token": lambda wanted: one(lambda token: token == wanted),
    "satisfy": lambda letters: one(lambda token: token in letters),
    "letter": lambda *_: one(str.isalpha),
    "digit": lambda *_: one(str.isdigit),
    "eof": lambda *_: end_of_input,
    "value": lambda value: lambda tokens, at: accepted(at, False, value),
    "string": string,
    "unexpected": lambda text: lambda tokens, at: refused(False, at),
    "tuple": sequence,
    "with": sequence,
    "skip": sequence,
    "between": lambda before, behind, part: sequence(before, part, behind),
    "or": choice,
    "choice": choice,
    "optional": optional,
    "attempt": attempt,
    "look_ahead": look_ahead,
    "not_followed_by": not_followed_by,
    "and_then": and_then,
    "recognize": lambda part: parse(part),
    "many": lambda part: turns(None, part),
    "many1": lambda part: turns(part, part),
    "skip_many1": lambda part: turns(part, part),
    "count_min_max": count_min_max,
    "sep_by1": lambda part, separator: turns(part, f"tuple({separator},{part})"),
    "sep_by": lambda part, separator: optional(f"sep_by1({part},{separator})"),
    "sep_end_by1": lambda part, separator: turns(part, f"sep_end_turn({part},{separator})"),
    "sep_end_turn": sep_end_turn,
    "chainl1": lambda part, operator: turns(part, f"tuple({operator},{part})"),
    "expected": lambda text, part: parse(part),
    "message": message,
    "silent": silent,
}


# ---- how the crate's texts differ

# The keys of docs/DIFFERENCES.md.
OFFSETS = "errors-carry-no-offsets"
ENDS = "ends-are-not-added"
NAMES = (OFFSETS, ENDS)


def lines_of(words):
    """The first line, the unexpected items, the expected ones, and the messages."""
    first, *lines = words.removesuffix("; ").split("; ")
    begun = {kind: [line.removeprefix(kind) for line in lines if line.startswith(kind)] for kind in ("Unexpected ", "Expected ")}
    wanted = [text for line in begun["Expected "] for text in line.replace(" or ", ", ").split(", ")]
    messages = [line for line in lines if not line.startswith(tuple(begun))]
    return first, begun["Unexpected "], wanted, messages


def causes(crate, ours):
    """The keys that explain why the texts differ; none where they don't.

    At one place, with the same messages, the expected items may differ, and one side alone may have the token where the
    parser began; the crate may name the end of input where it was not the end that was refused.
    """
    first, stood, wanted, messages = lines_of(crate)
    our_first, our_stood, our_wanted, our_messages = lines_of(ours)
    if (first, messages) != (our_first, our_messages):
        return None
    found = ()
    if END[1] in stood and END[1] not in our_stood:
        found = (ENDS,)
        stood = [text for text in stood if text != END[1]]
    if wanted != our_wanted or stood != our_stood:
        found = (OFFSETS, *found)
    if not set(stood) <= set(our_stood) or len(our_stood) > len(stood) + 1:
        return None
    return found or None
