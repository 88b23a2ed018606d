"""Bikleinu for Python: Liquid templates over data.

    >>> import bikleinu
    >>> bikleinu.render("Hello {{ name }}!", {"name": "Ada"})
    'Hello Ada!'

A Template is parsed once and renders many times, and Data is read once for many templates. An Environment holds what templates share:
partials, limits, conversions of data. What can't be done raises a LiquidError. Each object may be used in any thread, and one template,
its data and its partials in many at a time. Templates, partials and environments can be pickled; data can't.

A run takes stack of its thread: at most 2.75 KiB for each level, where a page is one and each block and each partial in it is one
more, and 136 KiB for what stands in the deepest. A run that could reach more than 400 levels isn't begun, so a stack of 1 MiB is
enough for a depth of up to 120, and one of 1.5 MiB for any; levels= asks for more on a larger stack (threading.stack_size), or for
fewer on a smaller one.

The library stands beside this package's files, as libbikleinu.so, or where bindings/build puts it, or where the variable
BIKLEINU_LIBRARY says.
"""
from .data import Data
from .environment import Environment
from .errors import (
    BYTES_REACHED,
    MEMORY,
    NO_TEXT,
    OTHER_HANDLE,
    TOO_MANY_LEVELS,
    TURNS_REACHED,
    DataError,
    Kind,
    LimitError,
    LiquidError,
    Place,
)
from .language import Language
from .partials import Partials
from .template import Page, Template, render

__version__ = "0.1.0"

__all__ = [
    "BYTES_REACHED",
    "Data",
    "DataError",
    "Environment",
    "Kind",
    "Language",
    "LimitError",
    "LiquidError",
    "MEMORY",
    "NO_TEXT",
    "OTHER_HANDLE",
    "Page",
    "Partials",
    "Place",
    "TOO_MANY_LEVELS",
    "TURNS_REACHED",
    "Template",
    "render",
]
