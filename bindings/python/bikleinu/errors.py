"""What is reported where there is no page, or where a page ends early."""
from __future__ import annotations

import enum
from dataclasses import dataclass
from typing import Optional


class Kind(enum.IntEnum):
    """What kind of fault it is, by the numbers of the library for C."""

    UNKNOWN_VARIABLE = 1
    INVALID_INPUT = 2
    INVALID_ARGUMENT = 3
    UNEXPECTED_VALUE = 4
    NUMBER_RANGE = 5
    DIVIDE_BY_ZERO = 6
    FLOAT = 7
    CYCLE_BOUNDS = 8
    ZERO_COLUMNS = 9
    RANGE_TOO_LONG = 10
    UNKNOWN_PARTIAL = 11
    PARTIAL_NAME = 12
    TOO_DEEP = 13
    DATE_FORMAT = 14
    TIMEZONE_RANGE = 15
    UNSUPPORTED = 16
    MEMORY = 17
    UNCLOSED = 21
    BAD_ITEM = 22
    NUMBER_LITERAL = 23
    FLOAT_LITERAL = 24
    STATE_WORD = 25
    UNKNOWN_TAG = 26
    UNKNOWN_FILTER = 27
    FILTER_ARGUMENTS = 28
    EXPECTED = 29
    MISSING_END = 30
    TOO_NESTED = 31
    NO_TEXT = 101
    OTHER_HANDLE = 102
    TOO_MANY_LEVELS = 103
    BYTES_REACHED = 104
    TURNS_REACHED = 105
    LACKING = 106
    SHARED_HANDLE = 108
    NO_WORD = 110
    RESERVED_NAME = 111
    TAKEN_NAME = 112
    NO_VALUES = 114
    OTHER_PATHS = 116


INVALID_INPUT = Kind.INVALID_INPUT.value
FLOAT = Kind.FLOAT.value
UNKNOWN_PARTIAL = Kind.UNKNOWN_PARTIAL.value
MEMORY = Kind.MEMORY.value
NO_TEXT = Kind.NO_TEXT.value
OTHER_HANDLE = Kind.OTHER_HANDLE.value
TOO_MANY_LEVELS = Kind.TOO_MANY_LEVELS.value
BYTES_REACHED = Kind.BYTES_REACHED.value
TURNS_REACHED = Kind.TURNS_REACHED.value
LACKING = Kind.LACKING.value
SHARED_HANDLE = Kind.SHARED_HANDLE.value
NO_WORD = Kind.NO_WORD.value
RESERVED_NAME = Kind.RESERVED_NAME.value
TAKEN_NAME = Kind.TAKEN_NAME.value
NO_VALUES = Kind.NO_VALUES.value
OTHER_PATHS = Kind.OTHER_PATHS.value

NAMES = {
    INVALID_INPUT: "InvalidInput",
    FLOAT: "Float",
    MEMORY: "Memory",
    NO_TEXT: "NoText",
    OTHER_HANDLE: "OtherHandle",
    TOO_MANY_LEVELS: "TooManyLevels",
    NO_WORD: "NoWord",
    RESERVED_NAME: "ReservedName",
    TAKEN_NAME: "TakenName",
    NO_VALUES: "NoValues",
    OTHER_PATHS: "OtherPaths",
}
LIMITS = {
    BYTES_REACHED: ("BytesReached", "the page takes more bytes than max_bytes"),
    TURNS_REACHED: ("TurnsReached", "the page takes more turns than max_turns"),
}
# those of calls that made nothing, which the library has no words for
MESSAGES = {
    MEMORY: "no memory was to be had",
    NO_TEXT: "the text holds half of a surrogate pair, so it can't be written as UTF-8",
    OTHER_HANDLE: "an object of another kind than the call needs, as Data where a Language is wanted",
    TOO_MANY_LEVELS: "blocks and partials could stand in one another deeper than levels= allows; allow fewer partials by depth=, "
    "or more levels on a thread with a larger stack",
    NO_WORD: "a tag's name is a word: a letter or `_`, then letters, digits, `_` and `-`",
    RESERVED_NAME: "blocks have a use of `else`, `elsif`, `when` and what begins with `end`, so no tag has such a name",
    TAKEN_NAME: "the language has a tag or a block of this name; give yours another",
    NO_VALUES: "a given value is a value as it stands in a tag, as 'page.title'",
    OTHER_PATHS: "the data were read for another template, and this one uses more of them; read them for this one",
}


_NUMBERS = frozenset(map(int, Kind))


@dataclass(frozen=True)
class Place:
    """Where a fault stands: in the "template", a "partial" or the "data", with line and column in characters, each from 1."""

    origin: str
    line: int
    column: int
    partial: Optional[str] = None

    def __str__(self) -> str:
        among = {"template": "", "partial": f"in the partial `{self.partial}`: ", "data": "in the data: "}[self.origin]
        return f"{among}line {self.line}, column {self.column}"


class LiquidError(Exception):
    """Why there is no page: the kind's number and name, a message, and the place where that is known. After a run that ended by the
    fault, text has what the page wrote up to it."""

    def __init__(
        self, number: int, name: str, message: str | None = None, place: Place | None = None, text: str | None = None
    ) -> None:
        super().__init__(number, name, message, place, text)
        self.number, self.name, self.message, self.place, self.text = number, name, message, place, text

    @property
    def kind(self) -> Kind | None:
        """Its kind, or None where this version of the package doesn't know it."""
        return Kind(self.number) if self.number in _NUMBERS else None

    def __str__(self) -> str:
        return ": ".join(str(part) for part in (self.name, self.place, self.message) if part)


class LimitError(LiquidError):
    """The page was ended by max_bytes, max_turns or max_rounds, as number and name say; text has what it wrote up to there, and nothing
    after max_rounds."""


class DataError(LiquidError):
    """A value of the data that JSON doesn't have, or that the language doesn't read: path says where it stands, as a template would name
    it, and message what to give in its place."""

    def __init__(self, number: int, name: str, message: str, path: str) -> None:
        super().__init__(number, name, message)
        self.args = (number, name, message, path)
        self.path = path

    def __str__(self) -> str:
        return f"{self.name}: {self.path or 'the data'}: {self.message}"


def refused(number: int) -> LiquidError:
    """The error of a call that made nothing."""
    return LiquidError(number, NAMES.get(number, str(number)), MESSAGES.get(number))
