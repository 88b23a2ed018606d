"""Environments: what many templates share."""
from __future__ import annotations

import os
from collections.abc import Callable, Mapping
from dataclasses import replace
from datetime import tzinfo
from typing import Any, Union, overload

from ._filters import Function, Site, Tag
from ._folder import FolderPartials
from ._owner import listed, new_lock, whole
from ._settings import Missing, Settings, missing_of
from ._values import Conversions
from .data import Data
from .language import Called, Functions, Given, Language
from .partials import Partials
from .template import Template


class Environment:
    """What templates share: partials, limits, and what becomes of values that JSON doesn't have.

        >>> import bikleinu
        >>> environment = bikleinu.Environment(partials={"end": " yours, {{ from }}."}, decimals="text")
        >>> environment.from_string("{{ price }},{% include 'end' %}").render(price=1.5, **{"from": "B"})
        '1.5, yours, B.'

    partials is a mapping from names to sources, Partials, or the path of a folder, of which each file is a partial (as of
    Partials.from_folder). The folder is listed with the first template, and a file is read, once, when a page, its paths, names or
    data first lead to it; where a name is computed, that is every file. A partial that is refused, for its source or as no UTF-8, is
    a fault of the pages that run it, whose __cause__ is its own fault. With auto_reload=True the folder is listed for each page, and
    a file whose time or size changed is read again.

    depth, levels, max_bytes and max_turns are as of Template.page, decimals, dates and default as of Data.

    filters are functions in Python by their names (as of Language.add_filter), or a set of the library's; a page asks functions in at most
    max_rounds rounds. jekyll, site, autoescape and sets are as of Language. missing is as of Template.page: with missing="nil" what is missing is nil. The
    partials of a mapping are parsed with the first template, so filters that are added until then are known to them; those of a folder
    when they are read.

    An environment can be pickled where its functions can, and its templates with it.
    """

    def __init__(
        self,
        *,
        partials: Union[Partials, Mapping[str, str], str, "os.PathLike[str]", None] = None,
        filters: Mapping[str, Function] | str | None = None,
        missing: Missing = "fault",
        jekyll: bool = False,
        site: Site | None = None,
        autoescape: bool = False,
        depth: int = 32,
        levels: int | None = None,
        max_bytes: int | None = None,
        max_turns: int | None = None,
        max_rounds: int = 100,
        decimals: str | None = None,
        dates: bool | tzinfo = False,
        default: Callable[[Any], Any] | None = None,
        auto_reload: bool = False,
    ) -> None:
        bounds = {"levels": levels, "max_bytes": max_bytes, "max_turns": max_turns}
        for name, value in bounds.items():
            if value is not None:
                whole(name, value, 1, 2**32 - 1 if name == "levels" else 2**64 - 1)
        self._language = Language(jekyll=jekyll, filters=filters, site=site, autoescape=autoescape)
        self._given, self._auto_reload = _checked(partials), bool(auto_reload)
        if auto_reload and not isinstance(partials, (str, os.PathLike)):
            raise ValueError("auto_reload is for the path of a folder as partials")
        how = Conversions(decimals, dates, default)
        rounds = whole("max_rounds", max_rounds, 1)
        self._usual = Settings(None, whole("depth", depth), levels, max_bytes, max_turns, rounds, missing_of(missing), how)
        self._settings: Settings | None = None
        self._templates: dict[str, Template] = {}
        self._lock = new_lock()

    def _with_partials(self) -> Settings:
        """The settings of its templates, with the partials, which are parsed at first."""
        with self._lock:
            if self._settings is None:
                given = self._given
                if isinstance(given, (str, os.PathLike)):
                    given = FolderPartials.of(given, self._language, self._auto_reload)
                elif not isinstance(given, Partials):
                    given = Partials(given, self._language)
                self._settings = replace(self._usual, partials=given)
            return self._settings

    @property
    def partials(self) -> Partials:
        """The partials, for more to be inserted."""
        made = self._with_partials().partials
        assert made is not None
        return made

    @property
    def filters(self) -> Functions:
        """The functions that are filters, to read and to add to: `environment.filters["money"] = money`."""
        return self._language.filters

    @overload
    def filter(self, name: Called) -> Called: ...

    @overload
    def filter(self, name: str | None = None) -> Callable[[Called], Called]: ...

    def filter(self, name: Any = None) -> Any:
        """Makes a filter of the function that follows, under this name or its own, for what is parsed from now on."""
        return self._language.filter(name)

    @overload
    def tag(self, name: Called) -> Called: ...

    @overload
    def tag(self, name: str | None = None, *, style: str = "items", given: Given = None) -> Callable[[Called], Called]: ...

    def tag(self, name: Any = None, *, style: str = "items", given: Given = None) -> Any:
        """Makes a tag of the function that follows, under this name or its own (as of Language.add_tag), for what is parsed from now
        on."""
        return self._language.tag(name, style=style, given=given)

    @overload
    def block(self, name: Called) -> Called: ...

    @overload
    def block(self, name: str | None = None, *, style: str = "items", given: Given = None) -> Callable[[Called], Called]: ...

    def block(self, name: Any = None, *, style: str = "items", given: Given = None) -> Any:
        """Makes a block of the function that follows, which gets the text of the body first (as of Language.add_block)."""
        return self._language.block(name, style=style, given=given)

    def from_string(self, source: str) -> Template:
        """The template of a source."""
        return Template._of(source, self._language, self._with_partials(), self.from_string)

    def get_template(self, name: str) -> Template:
        """The partial of this name, as a template. LookupError where there is none."""
        source = self.partials.source(name)
        made = self._templates.get(name)
        if made is None or made.source is not source:
            made = self._templates[name] = self.from_string(source)
        return made

    def data(self, data: Mapping[str, Any] | str) -> Data:
        """Data that is read once, by the conversions of this environment, for any number of its templates."""
        return Data._of(data, self._usual.how)

    def __repr__(self) -> str:
        return f"<bikleinu.Environment{listed(', filters', self.filters)}>"

    def __reduce__(self) -> Any:
        usual, how = self._usual, self._usual.how
        named = {"partials": self.partials, "filters": self._language._set, "jekyll": self._language._jekyll}
        named.update(site=self._language._filters.site, missing=usual.missing, depth=usual.depth, levels=usual.levels, max_bytes=usual.max_bytes)
        named.update(max_turns=usual.max_turns, max_rounds=usual.max_rounds)
        named.update(decimals=how.decimals, dates=how.dates, default=how.default, autoescape=self._language._autoescape)
        return _environment, (named, self._language._filters.functions, self._language._filters.tags)


def _environment(named: dict[str, Any], functions: Mapping[str, Function], tags: Mapping[str, Tag]) -> Environment:
    made = Environment(**named)
    for name, function in functions.items():
        made._language.add_filter(name, function)
    for name, tag in tags.items():
        made._language._add_tag(name, tag)
    return made


def _checked(partials: Any) -> Any:
    if partials is not None and not isinstance(partials, (Partials, Mapping, str, os.PathLike)):
        raise TypeError(f"partials is a {type(partials).__name__}, and a mapping, Partials or a folder's path is wanted")
    return partials
