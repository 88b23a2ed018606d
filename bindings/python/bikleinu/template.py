"""Templates and their pages."""
from __future__ import annotations

import json
from collections.abc import Callable, Mapping
from dataclasses import dataclass
from functools import partial
from typing import Any, Optional

from ._filters import Run, Table
from ._library import Limits, library
from ._owner import TEXT, Owner, Shared, checked, lent, made_by, part, shown, utf8, whole
from ._settings import Missing, Settings, missing_of
from ._values import encoded
from .data import Data, DataLike, data_of
from .errors import MESSAGES, LiquidError
from .language import Language, parse
from .partials import Others, Partials, partials_of

# what stands for no limit on bytes, or on turns
ANY_NUMBER = 2**64 - 1


@dataclass(frozen=True)
class Page:
    """What a template shows: the text up to the fault, and the fault that the run ended by, where there is one."""

    text: str
    fault: Optional[LiquidError] = None


class Template(Shared):
    """A template, which can be rendered any number of times, in any number of threads at a time.

        >>> import bikleinu
        >>> template = bikleinu.Template("Hello {{ name }}!")
        >>> template.render({"name": "Ada"}), template.render(name="Bob")
        ('Hello Ada!', 'Hello Bob!')

    It can be pickled and copied: its source is parsed again where it arrives.
    """

    def __init__(self, source: str, language: Language | None = None) -> None:
        super().__init__()
        self._begin(source, None if language is None else checked(language, "a Language is"), Settings(), None)

    def _begin(self, source: str, language: Language | None, settings: Settings, maker: Any) -> None:
        parse(source, language, self)
        self._source, self._language, self._settings, self._maker = source, language, settings, maker
        self._filters = language._filters if isinstance(language, Language) else None
        # what was found at last of names and of paths, for which partials, and how often these were changed until then
        self._known: dict[str, tuple[Owner | None, int, Shared]] = {}
        # of a folder of partials: the names that are looked up, and those partials that are reached from there
        self._names: Any = None
        self._reached: Any = None

    @classmethod
    def _of(cls, source: str, language: Language | None, settings: Settings, maker: Any) -> Template:
        made = cls.__new__(cls)
        Shared.__init__(made)
        made._begin(source, language, settings, maker)
        return made

    @property
    def source(self) -> str:
        """What it was parsed from."""
        return self._source

    def __repr__(self) -> str:
        return f"<bikleinu.Template {shown(self._source)}>"

    def __reduce__(self) -> Any:
        return (self._maker, (self._source,)) if self._maker else (Template, (self._source, self._language))

    def page(
        self,
        data: DataLike = None,
        partials: Others = None,
        depth: int | None = None,
        *,
        levels: int | None = None,
        max_bytes: int | None = None,
        max_turns: int | None = None,
        missing: Missing | None = None,
        **names: Any,
    ) -> Page:
        """The page, with the fault that it ended by, where there is one. Names are more data, on top of a mapping or alone; a name
        that is a parameter here, as depth, goes into the mapping.

        At most depth partials may stand in one another, up to 4,294,967,295: 32 where nothing is said. An error is raised for data
        that can't be read, for refused memory, and where the run could reach more levels than are allowed: 400, or as many as
        levels says.

        With max_bytes the page may take so many bytes of UTF-8: those of each text that it writes or captures, each answer of a
        filter, each value that is assigned or that a pair passes and each list beyond the data that a loop goes over, and 32 for
        each item and pair in these. With max_turns it may take so many turns: one each time that a text, an output or a tag runs,
        one more for each filter, comparison, value of a when and pair of a partial in it, and one for an empty body. The fault of
        a page that one of them ended is a LimitError.

        What is missing is a fault of a page that comes to it. With missing="nil" it is nil: it writes nothing, and the page goes on. A
        function as missing is called with each name that is lacking in a mapping, and answers the value to take; anything else that is
        missing is a fault. What isn't said here is as the template's Environment says, and else "fault"."""
        usual = self._settings
        depth = whole("depth", usual.depth if depth is None else depth)
        asked = usual.missing if missing is None else missing_of(missing)
        limits = _limits(usual.levels if levels is None else levels, usual.max_bytes if max_bytes is None else max_bytes,
                         usual.max_turns if max_turns is None else max_turns, asked)
        others = self._others(partials)
        data = self._with_missing(data, names, others, asked) if callable(asked) else data
        read = data_of(data, names, usual.how)

        def render(page: Owner, table: Table | None = None) -> int:
            with lent(self, read, others) as given:
                if table is None:
                    answer: int = library.bikleinu_render_within(*given, depth, limits, page._handle)
                else:
                    answer = library.bikleinu_render_with(*given, depth, limits, table._handle, page._handle)
            return answer

        if self._filters:
            page = self._asking(render, None if data is None and not names else read)
        else:
            made = Owner()
            page = _shown(render(made), made)
        return Page(page.text, others._explained(page.fault)) if page.fault and isinstance(others, Partials) else page

    def _asking(self, render: Callable[[Owner, Table], int], data: Owner | None) -> Page:
        """The page with the answers of filters in Python."""
        assert self._filters
        run = Run(self._filters, self._settings.how, self._settings.max_rounds)
        try:
            page = _shown(*run.page(render, data))
        finally:
            run.end()
        run.explain(page.fault)
        return page

    def names(self, partials: Others = None) -> list[str]:
        """The names that the template and its partials mention: a page depends on no other names of the data."""
        return self._texts_of("names", partials)

    def paths(self, partials: Others = None) -> list[str]:
        """What the template and its partials ask of their data, of which a page sees no more: "customer.name" a whole value, "customer?"
        only whether there is one, "products[].title" the title of each item that a loop goes over, "products[]?" how many there are.

            >>> import bikleinu
            >>> bikleinu.Template("{% for p in products %}{{ p.title }}{% endfor %}").paths()
            ['products[].title']
        """
        return self._texts_of("paths", partials)

    def seen_key(self, data: Mapping[str, Any] | str | None = None, partials: Others = None, **names: Any) -> str:
        """A key of what this template and its partials, as they are now, see of data: pages over data of one key are the same. So it, or
        a digest of it, is an ETag, or drops equal jobs of a queue, before anything is rendered.

            >>> import bikleinu
            >>> template = bikleinu.Template("{% for p in products %}{{ p.title }};{% endfor %}")
            >>> teas = [{"title": "Tea", "stock": 3}], [{"title": "Tea", "stock": 2}]
            >>> len({template.seen_key(products=it) for it in teas})
            1

        Data that can't be read raise the same errors as for a page. A filter in Python, and a function as missing, count as they are."""
        how = self._settings.how
        if not isinstance(data, str):
            data = encoded({**(data or {}), **names}, how).decode()
        elif names:
            raise TypeError("names beside a str: names go with a mapping or alone")
        text = utf8(data)
        asked = [self._found("paths", self._others(partials))]
        if self._filters and self._filters.set_number and self._language:
            asked += self._language._known()
        keys = [made_by(partial(library.bikleinu_seen_key, text, len(text)), Owner(), it) for it in asked]
        return "\n".join(key._part(TEXT) for key in keys)

    def data(self, data: Mapping[str, Any] | str, partials: Others = None) -> Data:
        """Data of which no more is built than this template and its partials, as they are now, can see (see paths). A page over them is
        the same as over all of the data, up to the words of a fault; another template that asks for more raises an error.

            >>> import bikleinu
            >>> template = bikleinu.Template("{% for p in products %}{{ p.title }};{% endfor %}")
            >>> template.render(template.data('{"products": [{"title": "Tea", "text": "Green"}]}'))
            'Tea;'

        It pays for a long text of JSON of which the template sees little: it takes less time and memory than Data. A page over it finds the
        template's paths again, in some 0.1 ms. What isn't seen is checked as ever, and raises the same errors. Where filters are a set of the
        library's, all is built, since they may use more."""
        if self._filters and self._filters.set_number:
            return Data._of(data, self._settings.how)
        return Data._of(data, self._settings.how, self._found("paths", self._others(partials)))

    def _others(self, partials: Others) -> Owner:
        others = partials_of(self._settings.partials if partials is None else partials)
        return others._for(self) if isinstance(others, Partials) else others

    def _texts_of(self, what: str, partials: Others) -> list[str]:
        with lent(self._found(what, self._others(partials))) as (found,):
            return _texts(found)

    def _found(self, what: str, others: Owner) -> Shared:
        """The names or the paths of the template with these partials, which are kept for the next page."""
        partials = others if isinstance(others, Partials) else None
        known, version = self._known.get(what), partials._version if partials else 0
        if known is None or known[0] is not partials or known[1] != version:
            made = made_by(getattr(library, f"bikleinu_{what}"), Shared(), self, others)
            self._known[what] = known = partials, version, made
        return known[2]

    def _with_missing(self, data: DataLike, names: Mapping[str, Any], others: Owner, missing: Callable[[str], Any]) -> DataLike:
        """A mapping with what the function answers to names that it lacks."""
        if not (data is None or isinstance(data, Mapping)):
            return data
        with lent(self._found("names", others)) as (found,):
            lacking = [name for name in _texts(found) if name not in names and name not in (data or ())]
        return {**(data or {}), **{name: missing(name) for name in lacking}}

    def render(
        self,
        data: DataLike = None,
        partials: Others = None,
        depth: int | None = None,
        *,
        levels: int | None = None,
        max_bytes: int | None = None,
        max_turns: int | None = None,
        missing: Missing | None = None,
        **names: Any,
    ) -> str:
        """The page's text, or the fault that it ended by as an error. The rest is as of page."""
        page = self.page(data, partials, depth, levels=levels, max_bytes=max_bytes, max_turns=max_turns, missing=missing, **names)
        if page.fault:
            raise page.fault
        return page.text


def _texts(found: Any) -> list[str]:
    texts: list[str] = json.loads(part(found, TEXT))
    return texts


def _shown(answer: int, page: Owner) -> Page:
    """The page that a run ended with. An error is raised where there is none."""
    if answer in MESSAGES:
        raise page._error(answer)
    text = page._part(TEXT)
    return Page(text, page._error(answer, text=text) if answer else None)


def _limits(levels: int | None, max_bytes: int | None, max_turns: int | None, missing: Missing) -> Limits:
    return Limits(
        0 if levels is None else whole("levels", levels, 1),
        1 if missing == "nil" else 0,
        ANY_NUMBER if max_bytes is None else whole("max_bytes", max_bytes, 0, ANY_NUMBER),
        ANY_NUMBER if max_turns is None else whole("max_turns", max_turns, 0, ANY_NUMBER),
    )


def render(
    source: str,
    data: DataLike = None,
    partials: Others = None,
    depth: int | None = None,
    *,
    levels: int | None = None,
    max_bytes: int | None = None,
    max_turns: int | None = None,
    missing: Missing | None = None,
    **names: Any,
) -> str:
    """The page of a source that is rendered once.

        >>> import bikleinu
        >>> bikleinu.render("Hello {{ name }}!", name="Ada")
        'Hello Ada!'
    """
    limits: dict[str, Any] = {"levels": levels, "max_bytes": max_bytes, "max_turns": max_turns}
    return Template(source).render(data, partials, depth, missing=missing, **limits, **names)
