"""Data for templates."""
from __future__ import annotations

from collections.abc import Callable, Mapping
from datetime import tzinfo
from functools import partial
from typing import Any, Union
from typing import Mapping as AnyMapping

from ._library import library
from ._owner import Owner, Shared, made_by, utf8
from ._values import Conversions, encoded

# what stands for data in a call
DataLike = Union["Data", AnyMapping[str, Any], str, None]


class Data(Shared):
    """Data that is read once and rendered by any number of templates: a mapping that JSON can hold, or a text of JSON.

        >>> import bikleinu
        >>> shared = bikleinu.Data({"shop": "Bay"})
        >>> bikleinu.Template("{{ shop }}!").render(shared)
        'Bay!'

    A value that JSON doesn't have raises a DataError with its path. decimals="text" makes texts of floats and Decimals, dates=True the texts
    that the filter `date` reads of days and of datetimes with a time zone, and dates=ZONE also of those without one. default= is
    called with any other value, and answers one to take in its place.
    """

    def __init__(
        self,
        data: Mapping[str, Any] | str,
        *,
        decimals: str | None = None,
        dates: bool | tzinfo = False,
        default: Callable[[Any], Any] | None = None,
    ) -> None:
        super().__init__()
        _read(self, data, Conversions(decimals, dates, default))

    @classmethod
    def _of(cls, data: Mapping[str, Any] | str, how: Conversions, paths: Owner | None = None) -> Data:
        made = cls.__new__(cls)
        Shared.__init__(made)
        _read(made, data, how, paths)
        return made


def _read(made: Owner, data: Mapping[str, Any] | str, how: Conversions, paths: Owner | None = None) -> Owner:
    """Reads data, where there are paths no further than these ask."""
    text = utf8(data) if isinstance(data, str) else encoded(data, how)
    if paths is None:
        return made_by(partial(library.bikleinu_data, text, len(text)), made)
    return made_by(partial(library.bikleinu_data_for, text, len(text)), made, paths)


def data_of(data: DataLike, names: Mapping[str, Any], how: Conversions) -> Owner:
    """The data of a call, with names on top, which are the call's own unless they were read before. A handle that holds nothing stands
    for none."""
    if not names:
        if data is None:
            return Owner()
        return data if isinstance(data, Data) else _read(Owner(), data, how)
    if data is None:
        return _read(Owner(), names, how)
    if not isinstance(data, Mapping):
        raise TypeError(f"names beside a {type(data).__name__}: names go with a mapping or alone")
    return _read(Owner(), {**data, **names}, how)
