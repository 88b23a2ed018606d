"""The library for C: where it is found, and its calls."""
from __future__ import annotations

import ctypes
import os
from collections.abc import Callable
from types import SimpleNamespace
from typing import Any

_HERE = os.path.dirname(os.path.abspath(__file__))
_PLACES = [os.path.join(_HERE, "libbikleinu.so"), os.path.join(_HERE, "..", "..", "out", "libbikleinu.so")]


class Handle(ctypes.Structure):
    """A place that holds nothing, or owns what it points to."""

    _fields_ = [("there", ctypes.c_bool), ("at", ctypes.c_void_p)]


class Limits(ctypes.Structure):
    """What a run is allowed. A 0 stands for what is usual. A missing value is a fault by 0, and nil by 1."""

    _fields_ = [("levels", ctypes.c_uint32), ("missing", ctypes.c_uint32), ("bytes", ctypes.c_uint64), ("turns", ctypes.c_uint64)]


def _path() -> str:
    """The path of the library: what BIKLEINU_LIBRARY says, beside this file, or where bindings/build puts it."""
    named = os.environ.get("BIKLEINU_LIBRARY")
    if named:
        return named
    for place in _PLACES:
        if os.path.exists(place):
            return place
    raise ImportError(
        "the library libbikleinu.so isn't there: run bindings/build at the top of the repository, install the wheel, or "
        "let the variable BIKLEINU_LIBRARY name it"
    )


def _guarded(call: Any) -> Callable[..., int]:
    """The call, which raises MemoryError where Python has no memory to pass what it is given: ctypes raises an ArgumentError then."""

    def guarded(*arguments: Any) -> int:
        try:
            answer: int = call(*arguments)
        except ctypes.ArgumentError as error:
            if "MemoryError" in str(error):
                raise MemoryError("no memory to pass what a call is given") from None
            raise
        return answer

    return guarded


def _loaded() -> Any:
    path = _path()
    try:
        library = ctypes.CDLL(path)
    except OSError as error:
        raise ImportError(f"the library at {path} can't be loaded: {error}") from error
    handle, text, size, number = ctypes.POINTER(Handle), ctypes.c_char_p, ctypes.c_size_t, ctypes.c_uint32
    calls = {
        "language": ([handle], number),
        "jekyll_language": ([handle], number),
        "set_language": ([number, handle], number),
        "register": ([handle, text, size, size, size], number),
        "register_jekyll": ([handle], number),
        "register_tag_given": ([handle, text, size, text, size, number, text, size], number),
        "register_block_given": ([handle, text, size, text, size, number, text, size], number),
        "escape_html": ([handle], number),
        "parse": ([handle, text, size, handle], number),
        "data": ([text, size, handle], number),
        "partials": ([handle], number),
        "insert": ([handle, text, size, handle], number),
        "render_within": ([handle, handle, handle, number, ctypes.POINTER(Limits), handle], number),
        "names": ([handle, handle, handle], number),
        "partial_names": ([handle, handle], number),
        "paths": ([handle, handle, handle], number),
        "data_for": ([text, size, handle, handle], number),
        "seen_key": ([text, size, handle, handle], number),
        "share": ([handle, handle], number),
        "answers": ([handle], number),
        "answers_filter": ([handle, text, size], number),
        "answers_jekyll": ([handle, text, size, text, size], number),
        "answers_set": ([handle, number, handle], number),
        "render_with": ([handle, handle, handle, number, ctypes.POINTER(Limits), handle, handle], number),
        "answer": ([handle, handle, size, handle], number),
        "refuse": ([handle, handle, size, number, text, size], number),
        "length": ([handle, number], size),
        "copy": ([handle, number, text, size], size),
        "location": ([handle, ctypes.POINTER(size), ctypes.POINTER(size)], number),
    }
    made = SimpleNamespace(bikleinu_free=library.bikleinu_free)
    # what byref makes is passed as it is: to look at it as at other arguments takes memory, which may be refused
    made.bikleinu_free.restype = None
    for name, (takes, gives) in calls.items():
        call = getattr(library, f"bikleinu_{name}")
        call.argtypes, call.restype = takes, gives
        setattr(made, f"bikleinu_{name}", _guarded(call))
    return made


library = _loaded()
