"""Filters, tags and blocks of the caller's: functions in Python, and the tables of their answers that the library renders with."""
from __future__ import annotations

import inspect
import json
import threading
from typing import Any, Callable, Dict, List, NamedTuple, Optional, Tuple

from ._library import library
from ._owner import TEXT, Owner, lent, utf8
from ._values import Conversions, encoded
from .errors import INVALID_INPUT, LACKING, LimitError, LiquidError, refused

Function = Callable[..., Any]
# where a site of Jekyll's is: its address and its base path
Site = Tuple[str, str]
# how many answers a table holds before another one is begun
_ANSWERS = 10_000
# how much of what an error says goes into the message of a fault
_SHOWN = 300
_ANY_NUMBER = 2**32


class Table(Owner):
    """Answers of filters, each to one input and its arguments."""

    def __init__(self, names: List[str], version: int, site: Optional[Site] = None) -> None:
        super().__init__()
        self.version = version
        self.answers = 0
        self._need(library.bikleinu_answers(self._handle))
        if site:
            self.place(site)
        for name in names:
            text = utf8(name)
            self._need(library.bikleinu_answers_filter(self._handle, text, len(text)))

    def place(self, site: Site) -> None:
        """Lets the library answer Jekyll's filters over a site."""
        address, base = map(utf8, site)
        self._need(library.bikleinu_answers_jekyll(self._handle, address, len(address), base, len(base)))

    def use(self, set_number: int, data: Optional[Owner]) -> None:
        """Lets the library answer the filters of a set, over what data say."""
        if data is None:
            data = Owner()
            data._need(library.bikleinu_data(b"{}", 2, data._handle))
        with lent(data) as (given,):
            self._need(library.bikleinu_answers_set(self._handle, set_number, given))

    def put(self, calls: Owner, number: int, answer: bytes) -> None:
        """Puts in the answer to a call, which is the member "answer" of a text of JSON."""
        data = Owner()
        data._need(library.bikleinu_data(answer, len(answer), data._handle))
        self._settle(library.bikleinu_answer(self._handle, calls._handle, number, data._handle))

    def refuse(self, calls: Owner, number: int, message: str) -> None:
        """Puts in a fault as the answer to a call."""
        text = utf8(message)
        self._settle(library.bikleinu_refuse(self._handle, calls._handle, number, INVALID_INPUT, text, len(text)))

    def _settle(self, number: int) -> None:
        if number:
            raise refused(number)
        self.answers += 1


class _Tables(threading.local):
    table: Optional[Table] = None


class Tag(NamedTuple):
    """What stands for a tag: its function, how what stands after its name is read, whether it is a block, and the values that its
    function is given by keywords, each as a template names it."""

    function: Function
    style: str
    is_block: bool
    given: Tuple[Tuple[str, str], ...] = ()

    def call(self, value: Any, arguments: List[Any]) -> Any:
        """What the function answers to the text of a block, the values of the tag and those that it is given."""
        count = len(arguments) - len(self.given)
        given = {name: argument for (name, _), argument in zip(self.given, arguments[count:])}
        values = [value, *arguments[:count]] if self.is_block else arguments[:count]
        return self.function(*values, **given)


def filter_of(tag: str) -> str:
    """The name of the filter that a tag calls. It is no word, so no template calls it otherwise, and a fault shows the tag by it."""
    return f"{{% {tag} %}}"


class Filters:
    """Functions by their names, and the site over which the library itself answers Jekyll's filters, or the number of a set that it
    answers over what the data of a page say. Each thread has a table of its own, so that no two wait for each other."""

    def __init__(self, site: Optional[Site] = None, set_number: int = 0) -> None:
        self.site, self.set_number = site, set_number
        self.functions: Dict[str, Function] = {}
        self.tags: Dict[str, Tag] = {}
        self._tag_of: Dict[str, Tag] = {}
        self._version = 0
        self._tables = _Tables()

    def __reduce__(self) -> Any:
        return _filters, (self.functions, self.tags, self.site, self.set_number)

    def __bool__(self) -> bool:
        return bool(self.functions or self.tags or self.site or self.set_number)

    def add(self, name: str, function: Function) -> None:
        """Adds a function, in place of the one of that name."""
        self.functions[name] = function
        self._version += 1

    def add_tag(self, name: str, tag: Tag) -> None:
        """Adds a tag, in place of the one of that name."""
        self.tags[name] = self._tag_of[filter_of(name)] = tag
        self._version += 1

    def answer(self, name: str, value: Any, arguments: List[Any]) -> Any:
        """What a filter answers, or what a tag writes, whose input is nil."""
        tag = self._tag_of.get(name)
        if tag is None:
            return self.functions[name](value, *arguments)
        return tag.call(value, arguments)

    def table(self, data: Optional[Owner] = None) -> Table:
        """This thread's table for a page over data. It is begun anew where it holds much, or answers of a function that was replaced."""
        table = self._tables.table
        if table is None or table.version != self._version or table.answers > _ANSWERS:
            table = self._tables.table = Table([*self.functions, *self._tag_of], self._version, self.site)
        if self.set_number:
            table.use(self.set_number, data)
            if self.site:
                table.place(self.site)
        return table

    def forget(self) -> None:
        """Begins this thread's table anew."""
        self._tables.table = None


def _filters(functions: Dict[str, Function], tags: Dict[str, Tag], site: Optional[Site], set_number: int) -> Filters:
    made = Filters(site, set_number)
    for name, function in functions.items():
        made.add(name, function)
    for name, tag in tags.items():
        made.add_tag(name, tag)
    return made


def arity(function: Function, has_input: bool = True, given: Tuple[str, ...] = ()) -> Tuple[int, int]:
    """How many arguments a function takes by their places, beside its input where it has one, and those that it is given by name: at
    least, and at most."""
    by_place = (inspect.Parameter.POSITIONAL_ONLY, inspect.Parameter.POSITIONAL_OR_KEYWORD)
    try:
        taken = inspect.signature(function).parameters.values()
    except ValueError:
        return 0, _ANY_NUMBER  # a function in C that doesn't say
    places = [it for it in taken if it.kind in by_place and it.name not in given]
    takes_any = any(it.kind is inspect.Parameter.VAR_POSITIONAL for it in taken)
    if has_input and not places and not takes_any:
        raise TypeError("the function of a filter or a block takes its input by its place, and then its arguments")
    least = sum(it.default is inspect.Parameter.empty for it in places)
    return max(least - has_input, 0), _ANY_NUMBER if takes_any else len(places) - has_input


class Run:
    """A page in the making: rounds of a run and of the calls that it lacks, with the errors that the functions raised."""

    def __init__(self, filters: Filters, how: Conversions, most: int) -> None:
        self.filters, self.how, self.most = filters, how, most
        self.errors: Dict[str, BaseException] = {}

    def page(self, render: Callable[[Owner, Table], int], data: Optional[Owner]) -> Tuple[int, Owner]:
        """The number that a run over data ended by, and its page, when each call that it lacked is answered."""
        table = self.filters.table(data)
        for asked in range(self.most + 1):
            page = Owner()
            answer = render(page, table)
            if answer != LACKING:
                return answer, page
            if asked < self.most:
                self._answer_all(table, page)
        message = f"the page still lacks answers of its filters after {self.most} rounds of calls; max_rounds= allows more"
        raise LimitError(LACKING, "RoundsReached", message, text="")

    def _answer_all(self, table: Table, calls: Owner) -> None:
        for number, (name, value, *arguments) in enumerate(json.loads(calls._part(TEXT))):
            try:
                answer = encoded({"answer": self.filters.answer(name, value, arguments)}, self.how)
            except MemoryError:
                raise
            except Exception as error:
                message = _message_of(error)
                self.errors[message] = error
                table.refuse(calls, number, message)
            else:
                table.put(calls, number, answer)

    def end(self) -> None:
        """What a function refused is asked again by the next page."""
        if self.errors:
            self.filters.forget()

    def explain(self, fault: LiquidError | None) -> None:
        """Gives a fault the error that it comes of as its cause."""
        found = [message for message in self.errors if fault and fault.message and message in fault.message]
        if fault and found:
            fault.__cause__ = self.errors[max(found, key=len)]


def _message_of(error: Exception) -> str:
    """What an error says, on one line."""
    said = " ".join(str(error).split())
    said = "".join(it if it.isprintable() else "?" for it in said[:_SHOWN])
    return f"{type(error).__name__}: {said}" if said else type(error).__name__
