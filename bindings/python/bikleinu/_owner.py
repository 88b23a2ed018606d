"""What a handle of the library holds, and what is read there."""
from __future__ import annotations

import ctypes
import operator
import threading
from collections.abc import Callable, Iterable
from typing import Any, NoReturn, TypeVar

from ._library import Handle, library
from .errors import LIMITS, MESSAGES, NAMES, LimitError, LiquidError, Place

TEXT, MESSAGE, NAME, PARTIAL = range(4)
_ORIGINS = {1: "template", 2: "partial", 3: "data"}
# how many characters of a text, and how many names, stand in a repr
_SHOWN, _LISTED = 60, 5


def part(handle: Any, number: int) -> str:
    """A part of what a handle holds."""
    length = library.bikleinu_length(handle, number)
    if not length:
        return ""
    room = ctypes.create_string_buffer(length)
    library.bikleinu_copy(handle, number, room, length)
    return room.raw.decode()


def new_lock() -> threading.Lock:
    """A lock. Where Python has no memory for one, it says no more than that there is none."""
    try:
        return threading.Lock()
    except RuntimeError:
        raise MemoryError("no memory for a lock") from None


class Owner:
    """What a handle holds, which is freed with this object. The lock is for a handle that several threads use."""

    def __init__(self) -> None:
        # as ctypes passes it: to pass a Handle itself takes memory, which may be refused also where it is freed
        self._handle: Any = ctypes.byref(Handle())
        self._lock = new_lock()

    def __del__(self, free: Any = library.bikleinu_free) -> None:
        if hasattr(self, "_handle"):
            free(self._handle)

    def __reduce__(self) -> Any:
        self._uncopied()

    def _uncopied(self) -> NoReturn:
        raise TypeError(f"a {type(self).__name__} can't be copied or pickled: share it, or make another")

    def _part(self, number: int) -> str:
        return part(self._handle, number)

    def _place(self, partial: str | None) -> Place | None:
        line, column = ctypes.c_size_t(), ctypes.c_size_t()
        origin = _ORIGINS.get(library.bikleinu_location(self._handle, line, column))
        if origin is None:
            return None
        if origin == "template" and partial is not None:
            return Place("partial", line.value, column.value, partial)
        return Place(origin, line.value, column.value, self._part(PARTIAL) if origin == "partial" else None)

    def _error(self, number: int, partial: str | None = None, text: str | None = None) -> LiquidError:
        """The error of a call that answered the number and put its fault here."""
        if number in LIMITS:
            return LimitError(number, *LIMITS[number], self._place(partial), text)
        name = self._part(NAME) or NAMES.get(number, str(number))
        return LiquidError(number, name, self._part(MESSAGE) or MESSAGES.get(number), self._place(partial), text)

    def _need(self, number: int, partial: str | None = None) -> None:
        if number:
            raise self._error(number, partial)


class Shared(Owner):
    """What calls in several threads use side by side, each by a handle of its own. What was lent once isn't changed any more."""

    def __init__(self) -> None:
        super().__init__()
        # handles on it that no call has now
        self._spare: list[Owner] = []

    def _lend(self) -> Owner:
        try:
            return self._spare.pop()
        except IndexError:
            made = Owner()
            with self._lock:
                made._need(library.bikleinu_share(self._handle, made._handle))
            return made


Made = TypeVar("Made", bound=Owner)


class lent:
    """Handles for a call, on what these hold: of its own on what other threads may use meanwhile."""

    def __init__(self, *owners: Owner) -> None:
        self._owners = owners
        self._taken: list[tuple[list[Owner], Owner]] = []

    def __enter__(self) -> list[Any]:
        try:
            return [self._take(owner)._handle for owner in self._owners]
        except BaseException:
            self.__exit__()
            raise

    def _take(self, owner: Owner) -> Owner:
        if not isinstance(owner, Shared):
            return owner
        spare, taken = owner._spare, owner._lend()
        self._taken.append((spare, taken))
        return taken

    def __exit__(self, *_: object) -> None:
        for spare, taken in self._taken:
            spare.append(taken)
        self._taken = []


def made_by(call: Callable[..., int], made: Made, *owners: Owner) -> Made:
    """What a call makes of what these hold. An error is raised where it makes nothing."""
    with lent(*owners) as given:
        answer = call(*given, made._handle)
    made._need(answer)
    return made


def checked(value: Any, wanted: str) -> Any:
    """The value, which is one of this package's objects."""
    if not isinstance(value, Owner):
        raise TypeError(f"{wanted} wanted, not {type(value).__name__}")
    return value


def utf8(text: str) -> bytes:
    """The text as UTF-8. Half a pair of UTF-16, which Python's texts may hold, stays as bytes that the library refuses."""
    if not isinstance(text, str):
        raise TypeError(f"a str is wanted, not {type(text).__name__}")
    return text.encode("utf-8", "surrogatepass")


def shown(text: str) -> str:
    """A text for a repr, of a long one the beginning."""
    return repr(text if len(text) <= _SHOWN else f"{text[:_SHOWN]}..")


def listed(before: str, names: Iterable[str]) -> str:
    """Names for a repr, of many the first, after a word; nothing where there are none."""
    first = [shown(name) for name, _ in zip(names, range(_LISTED + 1))]
    return f"{before} {', '.join(first[:_LISTED])}{', ..' if len(first) > _LISTED else ''}" if first else ""


def whole(name: str, value: int, least: int = 0, most: int = 2**32 - 1) -> int:
    """The value, which is a whole number in these bounds: TypeError or ValueError where it isn't."""
    number = operator.index(value)
    if not least <= number <= most:
        raise ValueError(f"{name} is {number}, and {least} to {most} is wanted")
    return number
