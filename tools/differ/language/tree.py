"""What a template is: a list of nodes."""
from dataclasses import dataclass, field
from typing import Any, Optional


@dataclass(frozen=True)
class Literal:
    value: Any
    # as it stands in the source
    spelled: str = field(default="", compare=False)


@dataclass(frozen=True)
class Variable:
    name: str
    steps: tuple = ()
    spelled: str = field(default="", compare=False)


@dataclass(frozen=True)
class Range:
    first: Any
    last: Any


@dataclass(frozen=True)
class Symbol:
    text: str


@dataclass
class Call:
    """A filter of a chain with its arguments, and with values after them of which a missing one is nil."""

    name: str
    arguments: list
    given: list = field(default_factory=list)


@dataclass
class Chain:
    entry: Any
    calls: list


@dataclass
class Atom:
    """A value alone, or a comparison."""

    left: Any
    operator: Optional[str] = None
    right: Any = None


@dataclass
class Text:
    text: str


@dataclass
class Raw:
    """A raw or, with the empty text, a comment."""

    text: str


@dataclass
class Output:
    chain: Chain


@dataclass
class Assign:
    name: str
    chain: Chain


@dataclass
class Count:
    """An increment or a decrement."""

    name: str
    by: int


@dataclass
class Interrupt:
    word: str


@dataclass
class Cycle:
    group: str
    values: list


@dataclass
class Choice:
    """An if with its elsifs, or an unless: conditions with bodies, and what else runs. A condition is a list of lists of atoms."""

    branches: list
    wanted: bool
    otherwise: list = field(default_factory=list)


@dataclass
class Case:
    target: Any
    parts: list = field(default_factory=list)
    otherwise: list = field(default_factory=list)


@dataclass
class Loop:
    """A for or a tablerow: its amounts are those of cols, limit and offset by name."""

    tag: str
    variable: str
    source: Any
    amounts: dict
    is_reversed: bool
    body: list = field(default_factory=list)
    otherwise: list = field(default_factory=list)


@dataclass
class Capture:
    name: str
    body: list


@dataclass
class IfChanged:
    body: list


@dataclass
class Filtered:
    """The text of the body goes through the call."""

    call: Call
    body: list


@dataclass
class Include:
    name: Any
    pairs: list


@dataclass
class JekyllInclude:
    """The name is a text."""

    name: str
    pairs: list


@dataclass
class Render:
    """With each, the name of an item and what the items are of, it runs for each item."""

    name: Any
    pairs: list
    each: Optional[tuple] = None
