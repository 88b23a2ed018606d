"""Data as a text of JSON, and where a value stands that JSON doesn't have."""
from __future__ import annotations

import dataclasses
import json
import math
import numbers
from collections.abc import Callable, Iterable, Mapping
from datetime import date, datetime, timedelta, timezone, tzinfo
from decimal import Decimal
from enum import Enum
from typing import Any, NoReturn, Optional, Tuple, Union

from .errors import FLOAT, INVALID_INPUT, NAMES, NO_TEXT, DataError

LEAST, GREATEST = -(2**63), 2**63 - 1
# how many lists and maps may stand in one another
LEVELS = 127
# how much of a value and of a path a message shows
_SHOWN = 60
# the longest number that is written out without an exponent
_DIGITS = 400

_TEXTS = {str}
_SCALARS = {str, bool, type(None)}
_PLAIN = {*_SCALARS, int, dict, list, tuple}
_ENCODER = json.JSONEncoder(ensure_ascii=False, check_circular=False, allow_nan=False, separators=(",", ":"))

# the steps that lead to a value, the last one first
_Path = Optional[Tuple[Any, Union[str, int]]]


@dataclasses.dataclass(frozen=True)
class Conversions:
    """What is made of values that JSON doesn't have: of floats and Decimals, of dates, and of any other."""

    decimals: Optional[str] = None
    dates: Union[bool, tzinfo] = False
    default: Optional[Callable[[Any], Any]] = None

    def __post_init__(self) -> None:
        if self.decimals not in (None, "text"):
            raise ValueError(f'decimals is {self.decimals!r}, and "text" or None is wanted')
        if not isinstance(self.dates, (bool, tzinfo)):
            raise TypeError(f"dates is a {type(self.dates).__name__}, and True, False or a tzinfo is wanted")


def encoded(data: Mapping[str, Any], how: Conversions) -> bytes:
    """The data as JSON. DataError says where a value stands that JSON doesn't have, and what to give."""
    if type(data) is dict and _is_plain((data,), LEVELS):
        try:
            return _ENCODER.encode(data).encode()
        except UnicodeEncodeError:
            pass  # the reader finds the text
    if not isinstance(data, Mapping):
        raise DataError(INVALID_INPUT, NAMES[INVALID_INPUT], f"{_a(data)}, and a mapping from names to values is wanted", "")
    return _ENCODER.encode(_Reader(how).value(data, None, LEVELS)).encode()


def _is_plain(values: Iterable[Any], levels: int) -> bool:
    """Whether each value is of JSON as it is, its numbers are of 64 bits, and no more levels stand in one another."""
    kinds = set(map(type, values))
    if kinds <= _SCALARS:
        return True
    if not kinds <= _PLAIN:
        return False
    for value in values:
        kind = type(value)
        if kind is int:
            if not LEAST <= value <= GREATEST:
                return False
        elif kind is dict:
            if not levels or not set(map(type, value)) <= _TEXTS or not _is_plain(value.values(), levels - 1):
                return False
        elif kind is list or kind is tuple:
            if not levels or not _is_plain(value, levels - 1):
                return False
    return True


class _Reader:
    """Makes JSON's values of Python's, step by step, so that a fault has its path."""

    def __init__(self, how: Conversions) -> None:
        self.how = how

    def value(self, value: Any, path: _Path, levels: int) -> Any:
        if value is None or isinstance(value, bool):
            return value
        if isinstance(value, str):
            return _text(value, path)
        if isinstance(value, numbers.Integral):
            return _integer(int(value), path)
        if isinstance(value, (float, Decimal)):
            return self._decimal(value, path, levels)
        if isinstance(value, date):
            return self._date(value, path, levels)
        if isinstance(value, Mapping):
            inner = _next_level(path, levels)
            return {_key(key, path): self.value(it, (path, key), inner) for key, it in value.items()}
        if isinstance(value, (list, tuple)):
            inner = _next_level(path, levels)
            return [self.value(it, (path, at), inner) for at, it in enumerate(value)]
        return self._other(value, path, levels, _advice(value))

    def _other(self, value: Any, path: _Path, levels: int, advice: str, number: int = INVALID_INPUT) -> Any:
        """What default makes of the value, where it is given."""
        if self.how.default is None:
            why = "and numbers are whole here" if number == FLOAT else "which JSON doesn't have"
            _refuse(path, f"{_a(value)}, {why}: {advice}", number)
        return self.value(self.how.default(value), path, _next_level(path, levels))

    def _decimal(self, value: Union[float, Decimal], path: _Path, levels: int) -> Any:
        if not (math.isfinite(value) if isinstance(value, float) else value.is_finite()):
            return self._other(value, path, levels, "give None or a text")
        if self.how.decimals == "text":
            return _written(value)
        advice = 'give a whole number of a smaller unit, as cents, a text, or decimals="text"'
        return self._other(value, path, levels, advice, FLOAT)

    def _date(self, value: date, path: _Path, levels: int) -> Any:
        if not self.how.dates:
            return self._other(value, path, levels, "give a text, or dates=True")
        zone = self.how.dates if isinstance(self.how.dates, tzinfo) else None
        if not isinstance(value, datetime):
            value = datetime(value.year, value.month, value.day)
            zone = zone or timezone.utc
        if value.tzinfo is None and zone is None:
            _refuse(path, f"{_a(value)} without a time zone: give it one, or to all such dates=timezone.utc")
        value = value if value.tzinfo else value.replace(tzinfo=zone)
        offset = value.utcoffset()
        if offset is None or offset % timedelta(minutes=1) or value.year > 9998:
            _refuse(path, f"{_a(value)}, which no date of the language is: its offset has whole minutes, and its year is below 9999")
        minutes = abs(offset) // timedelta(minutes=1)
        sign = "-" if offset < timedelta(0) else "+"
        return f"{value.year:04}-{value:%m-%d %H:%M:%S} {sign}{minutes // 60:02}{minutes % 60:02}"


def _text(value: str, path: _Path) -> str:
    """The text as a str of no other class. One that holds half of a surrogate pair is refused."""
    value = str.__str__(value)
    try:
        value.encode()
    except UnicodeEncodeError:
        _refuse(path, "the text holds half of a surrogate pair, so it can't be written as UTF-8", NO_TEXT)
    return value


def _integer(value: int, path: _Path) -> int:
    if not LEAST <= value <= GREATEST:
        _refuse(path, f"{_digits(value)} has more than 64 bits: give a text, as str(value)", FLOAT)
    return value


def _digits(value: int) -> str:
    """A whole number, of which much is left out where it is long: Python refuses to write the longest."""
    return str(value) if value.bit_length() < 128 else f"a number of {value.bit_length()} bits"


def _key(key: Any, path: _Path) -> str:
    if not isinstance(key, str):
        _refuse(path, f"has the key {_shown(repr(key))}, {_a(key)}, and names are texts: give str(key)")
    return _text(key, path)


def _next_level(path: _Path, levels: int) -> int:
    if not levels:
        _refuse(path, f"more than {LEVELS} lists and maps stand in one another here, or one stands in itself")
    return levels - 1


def _written(value: Union[float, Decimal]) -> str:
    """The number as a text, written out where it isn't too long for that."""
    whole = Decimal(repr(float(value))) if isinstance(value, float) else value
    return format(whole, "f") if abs(whole.adjusted()) < _DIGITS else str(whole)


def _refuse(path: _Path, message: str, number: int = INVALID_INPUT) -> NoReturn:
    raise DataError(number, NAMES[number], message, path_text(path))


def _advice(value: Any) -> str:
    """What to give for a value that JSON doesn't have."""
    if isinstance(value, (bytes, bytearray, memoryview)):
        return "decode it, as value.decode()"
    if isinstance(value, (set, frozenset)):
        return "give a list, which has an order, as sorted(value)"
    if isinstance(value, Enum):
        return "give value.value"
    if dataclasses.is_dataclass(value):
        return "give dataclasses.asdict(value)"
    if isinstance(value, Iterable):
        return "give a list, as list(value)"
    return "give a dict, a list, a text, a whole number, True, False or None, as str(value), or convert it by default="


def _a(value: Any) -> str:
    """A value by its class, and shown where that is short."""
    kind = type(value).__name__
    if isinstance(value, (float, Decimal, date)):
        return f"{_shown(str(value))} is a {kind}"
    return f"a value of the class {kind}"


def _shown(text: str) -> str:
    """The text on one line, of which no more than so many characters are shown."""
    text = "".join(it if it.isprintable() else f"\\u{{{ord(it):x}}}" for it in text[:_SHOWN])
    return text if len(text) < _SHOWN else f"{text[:_SHOWN]}.."


def path_text(path: _Path) -> str:
    """The path as a template would write it, as rows[321].price, of which the beginning is shown where it is long."""
    steps = []
    while path is not None:
        path, step = path
        steps.append(step)
    text = ""
    for step in reversed(steps):
        if len(text) >= _SHOWN:
            return f"{text[:_SHOWN]}.."
        if isinstance(step, str) and step.isidentifier():
            text += f".{_shown(step)}" if text else _shown(step)
        elif isinstance(step, str):
            text += f'["{_shown(step)}"]'
        else:
            text += f"[{step}]"
    return text
