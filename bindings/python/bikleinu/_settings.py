"""What a render does where its call says nothing."""
from __future__ import annotations

from dataclasses import dataclass, field
from typing import Any, Callable, Optional, Union

from ._values import Conversions
from .partials import Partials

# what becomes of what is missing: "fault", "nil", or for a name that the data lack what a function answers
Missing = Union[str, Callable[[str], Any]]


@dataclass(frozen=True)
class Settings:
    """The partials, the limits and the conversions of an environment's templates."""

    partials: Optional[Partials] = None
    depth: int = 32
    levels: Optional[int] = None
    max_bytes: Optional[int] = None
    max_turns: Optional[int] = None
    max_rounds: int = 100
    missing: Missing = "fault"
    how: Conversions = field(default_factory=Conversions)


def missing_of(value: Any) -> Missing:
    """The value, which says what becomes of what is missing."""
    if not callable(value) and value not in ("fault", "nil"):
        raise ValueError(f"missing is {value!r}, and 'fault', 'nil' or a function is wanted")
    found: Missing = value
    return found
