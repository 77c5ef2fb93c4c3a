"""Results of combine, in Python: `model` has the common part of its parsers, the other modules the parsers, by family."""

from . import chains, choices, functions, leaves, maps, ranges, repeats, sequences, until  # they add their parsers
from .model import BETWEEN_VERSIONS, DEBIAN, LATEST, SWITCHES, answer
