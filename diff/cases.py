"""The cases: each parser of parsers.list on each short input over each cut; and how they are written."""

import functools
import itertools
import pathlib

HERE = pathlib.Path(__file__).resolve().parent
TOKENS = "abc"
LONGEST = 4
# Up to this length the first piece may be empty too.
LONGEST_WITH_EMPTY = 3


CLASSES = ["digit", "oct_digit", "hex_digit", "space", "newline", "tab", "upper", "lower", "letter", "alpha_num"]


def classes():
    """The classes of bytes and of characters, which are compared token by token."""
    return [f"class {module}::{name}" for module in ("byte", "char") for name in CLASSES]


def parsers(path=HERE / "parsers.list"):
    lines = path.read_text().splitlines()
    return [line for line in lines if line and not line.startswith("#")]


def inputs():
    for length in range(LONGEST + 1):
        for tokens in itertools.product(TOKENS, repeat=length):
            yield "".join(tokens)


def cuts(tokens):
    """Every way to feed the tokens: open pieces, and the last one with the end."""
    first = 0 if len(tokens) <= LONGEST_WITH_EMPTY else 1
    places = range(first, len(tokens) + 1)
    for count in range(len(places) + 1):
        for chosen in itertools.combinations(places, count):
            ends = [0, *chosen, len(tokens)]
            yield "/".join(tokens[begin:end] for begin, end in zip(ends, ends[1:])) + "."


# Tokens for bytes of whole numbers.
BYTES = {"N": 0x00, "S": 0x7F, "H": 0x80, "F": 0xFF}
NUMBERS = [f"{order}_{sign}{8 * size}" for sign in "ui" for size in (2, 4, 8) for order in ("be", "le")]
RANGES = {
    *("range", "take", "take_while", "take_while1", "take_until_range", "recognize_range", "recognize_with_value"),
    *("take_until_byte", "take_until_byte2", "take_until_byte3", "take_until_bytes"),
    *NUMBERS,
}


def reads_ranges(parser):
    """Whether a parser reads ranges, or whole numbers: it is run over windows."""
    return any(name in RANGES for name, _ in calls(parser))


def size_of(number):
    """The number of bytes of a whole number, as `be_u16`."""
    return int(number[4:]) // 8


def number(name, tokens):
    """The whole number of these tokens, as text."""
    value = int.from_bytes(bytes(BYTES.get(token, ord(token)) for token in tokens), {"b": "big", "l": "little"}[name[0]])
    limit = 256**len(tokens)
    return str(value - limit if name[3] == "i" and 2 * value >= limit else value)


def numbers(size):
    """Bytes of a whole number: each edge in each place, others before and after it, and one too few."""
    rests = [(byte,) * (size - 1) for byte in "NF"]
    edges = {(*rest[:at], byte, *rest[at:]) for byte in "NSHF" for rest in rests for at in range(size)}
    letters = "abcSHabc"[:size]
    return sorted("".join(tokens) for tokens in edges) + [letters, letters[1:]]


def number_cuts(tokens):
    """The whole input, one in two pieces at each place, and each byte alone."""
    yield f"{tokens}."
    for at in range(len(tokens) + 1):
        yield f"{tokens[:at]}/{tokens[at:]}."
    yield "/".join(tokens) + "/."


def cases_of(parser):
    """The inputs of a parser, over every cut."""
    yield from (f"{parser} {pieces}" for tokens in inputs() for pieces in cuts(tokens))
    name, _ = split(parser)
    if name in NUMBERS:
        yield from (f"{parser} {pieces}" for tokens in numbers(size_of(name)) for pieces in number_cuts(tokens))


TEXTS = HERE / "texts.list"
# The longest inputs whose errors are compared.
LONGEST_TEXT = 3


def texts():
    return [tokens for tokens in inputs() if len(tokens) <= LONGEST_TEXT]


def sayings():
    """The whole inputs whose errors are compared."""
    return [f"says {parser} {tokens}." for parser in parsers(TEXTS) for tokens in texts()]


def every_case():
    return [case for parser in parsers() for case in dict.fromkeys(cases_of(parser))]


def windows(pieces):
    """The pieces in order, each with whether more may follow it."""
    ended = pieces.endswith(".")
    parts = pieces.removesuffix(".").split("/")
    return [(part, not (ended and at == len(parts) - 1)) for at, part in enumerate(parts)]


def is_whole(feeding):
    """Whether the input is one window, with the end: not cut."""
    return len(feeding) == 1 and not feeding[0][1]


@functools.cache
def split(parser):
    """The name of a constructor and the texts of its arguments."""
    name, rest = parser.removesuffix(")").split("(", 1)
    parts, depth = [""], 0
    for letter in rest:
        if letter == "," and depth == 0:
            parts.append("")
            continue
        depth += {"(": 1, ")": -1}.get(letter, 0)
        parts[-1] += letter
    return name, [] if parts == [""] and name in {"any", "eof", "letter", "digit", *NUMBERS} else parts


def calls(parser):
    """Each call in a parser, itself first: the name of its constructor and the texts of its arguments."""
    name, parts = split(parser)
    yield name, parts
    for part in parts:
        if "(" in part:
            yield from calls(part)
