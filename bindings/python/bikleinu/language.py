"""Languages, and what is parsed in them."""
from __future__ import annotations

import threading
from collections.abc import Callable, Iterator, Mapping
from typing import Any, Optional, TypeVar, overload
from typing import Mapping as AnyMapping

from ._filters import Filters, Function, Site, Tag, arity, filter_of
from ._library import library
from ._owner import Owner, Shared, listed, made_by, utf8
from .errors import NO_TEXT, refused

# a function that a decorator hands back as it is
Called = TypeVar("Called", bound=Function)
# values that a tag's function gets by keywords, each as a template names it
Given = Optional[AnyMapping[str, str]]
# how what stands after the name of a tag is read, by the numbers of the library for C
_STYLES = {"items": 0, "path": 1, "text": 2}
# the sets of filters that the library has itself, by its numbers, and what they know of the data of a page, as a template shows it
SETS = {"decimals": 1, "jekyll": 2, "shopify": 3}
_KNOWN = {
    2: "{{ site.url }}{{ site.baseurl }}",
    3: "{{ shop.money_format }}{{ shop.money_with_currency_format }}{{ collection.handle }}{{ current_tags }}",
}


class Functions(AnyMapping[str, Function]):
    """The functions that are filters of a language, by their names. One more is added as `filters["money"] = money`."""

    def __init__(self, language: Language) -> None:
        self._language = language

    def __getitem__(self, name: str) -> Function:
        return self._language._filters.functions[name]

    def __setitem__(self, name: str, function: Function) -> None:
        self._language.add_filter(name, function)

    def __iter__(self) -> Iterator[str]:
        return iter(self._language._filters.functions)

    def __len__(self) -> int:
        return len(self._language._filters.functions)

    def __repr__(self) -> str:
        return repr(self._language._filters.functions)


class Language(Owner):
    """The standard language: its tags, blocks and filters. With jekyll=True it has the tag include and the filter sort of Jekyll in
    place of the standard ones and its block highlight, and drops the white space of blocks that write nothing. filters are functions in
    Python by their names, which templates call as any other; or a set that the library has itself, "decimals", "jekyll" or "shopify", with
    the language of that set, whose filters know of a site or a shop what the data of each page say. site is the address and the base path of a site of Jekyll's: then the
    library has Jekyll's own filters over it, but for those that filters name. With autoescape=True what outputs and cycle write is
    escaped for HTML, but not an output that ends with `| raw`; a captured text is escaped already, and needs it.

        >>> import bikleinu
        >>> language = bikleinu.Language(jekyll=True, site=("https://example.org", "/blog"))
        >>> bikleinu.Template("{{ '/tea' | absolute_url }}", language).render()
        'https://example.org/blog/tea'
    """

    def __init__(
        self,
        *,
        jekyll: bool = False,
        filters: Mapping[str, Function] | str | None = None,
        site: Site | None = None,
        autoescape: bool = False,
    ) -> None:
        super().__init__()
        self._set, filters = _set_of(filters)
        self._jekyll, self._autoescape = bool(jekyll) or self._set == "jekyll", bool(autoescape)
        self._filters, self._asked = Filters(_checked(site), SETS.get(self._set or "", 0)), None
        if self._set:
            self._need(library.bikleinu_set_language(SETS[self._set], self._handle))
        else:
            self._need((library.bikleinu_jekyll_language if jekyll else library.bikleinu_language)(self._handle))
        if site is not None:
            self._need(library.bikleinu_register_jekyll(self._handle))
        if autoescape:
            self._need(library.bikleinu_escape_html(self._handle))
        for name, function in (filters or {}).items():
            self.add_filter(name, function)

    def _known(self) -> list[Shared]:
        """The paths of what the filters of its set know of data."""
        source = _KNOWN.get(self._filters.set_number)
        if source is None:
            return []
        if self._asked is None:
            template, made = Shared(), Shared()
            parse(source, self, template)
            self._asked = made_by(library.bikleinu_paths, made, template, Owner())
        return [self._asked]

    @property
    def filters(self) -> Functions:
        """The functions that are filters, to read and to add to."""
        return Functions(self)

    @overload
    def filter(self, name: Called) -> Called: ...

    @overload
    def filter(self, name: str | None = None) -> Callable[[Called], Called]: ...

    def filter(self, name: Any = None) -> Any:
        """Makes a filter of the function that follows, under this name or its own, which needs no parentheses:

            >>> import bikleinu
            >>> language = bikleinu.Language()
            >>> @language.filter("money")
            ... def money(cents, currency="EUR"):
            ...     return f"{cents / 100:.2f} {currency}"
            >>> bikleinu.Template("{{ 1999 | money }}", language).render()
            '19.99 EUR'
        """

        if callable(name):
            return self.filter()(name)

        def add(function: Called) -> Called:
            self.add_filter(function.__name__ if name is None else name, function)
            return function

        return add

    def add_filter(self, name: str, function: Function) -> None:
        """Adds a filter, in place of any other of that name, for what is parsed from now on.

        The function gets the input and then the arguments, as JSON has them, and answers what JSON has. It is to be a function of
        these alone: it is called before the page is rendered, possibly for a call that the page doesn't come to, and its answer is
        kept for further pages. What it raises ends a page that makes the call, by a fault whose __cause__ is the error; but a
        MemoryError is raised by render and page."""
        least, most = arity(function)
        text = utf8(name)
        with self._lock:
            answer = library.bikleinu_register(self._handle, text, len(text), least, most)
            if answer:
                raise refused(answer)
            self._filters.add(name, function)

    @overload
    def tag(self, name: Called) -> Called: ...

    @overload
    def tag(self, name: str | None = None, *, style: str = "items", given: Given = None) -> Callable[[Called], Called]: ...

    def tag(self, name: Any = None, *, style: str = "items", given: Given = None) -> Any:
        """Makes a tag of the function that follows, under this name or its own, which needs no parentheses:

            >>> import bikleinu
            >>> language = bikleinu.Language()
            >>> @language.tag
            ... def link(path, text="here"):
            ...     return f'<a href="/{path}">{text}</a>'
            >>> bikleinu.Template("{% link 'tea', 'Tea' %}", language).render()
            '<a href="/tea">Tea</a>'
        """
        return self._decorator(self.add_tag, name, style, given)

    @overload
    def block(self, name: Called) -> Called: ...

    @overload
    def block(self, name: str | None = None, *, style: str = "items", given: Given = None) -> Callable[[Called], Called]: ...

    def block(self, name: Any = None, *, style: str = "items", given: Given = None) -> Any:
        """Makes a block of the function that follows, as tag makes a tag: it gets the text of the body first."""
        return self._decorator(self.add_block, name, style, given)

    def _decorator(self, add: Callable[..., None], name: Any, style: str, given: Given) -> Any:
        if callable(name):
            return self._decorator(add, None, style, given)(name)

        def added(function: Called) -> Called:
            add(function.__name__ if name is None else name, function, style, given)
            return function

        return added

    def add_tag(self, name: str, function: Function, style: str = "items", given: Given = None) -> None:
        """Adds a tag, in place of any other of that name that was added, for what is parsed from now on: `{% name a, b %}` writes what
        the function answers to the values a and b. The rules of functions are those of add_filter.

        In the style "items" there are commas between values, or none; in the style "path" the first one is a path without quotes, and
        in the style "text" all that stands there is one text, and no value where nothing does. A name that is no word, that a block has
        a use of (as else, and what begins with end) or that is one of the language's own tags and blocks is refused.

        given is a mapping of values that the function gets too, by keywords, as {"title": "page.title"}: title is what a page's data have
        there, or None where they have nothing."""
        self._add_tag(name, Tag(function, style, False, _given(given)))

    def add_block(self, name: str, function: Function, style: str = "items", given: Given = None) -> None:
        """Adds a block, as add_tag adds a tag, which ends with `end` and its name. The function gets the text of the body, and then the
        values."""
        self._add_tag(name, Tag(function, style, True, _given(given)))

    def _add_tag(self, name: str, tag: Tag) -> None:
        if tag.style not in _STYLES:
            raise ValueError(f"style is {tag.style!r}, and 'items', 'path' or 'text' is wanted")
        least, most = arity(tag.function, tag.is_block, tuple(keyword for keyword, _ in tag.given))
        text, called, given = utf8(name), utf8(filter_of(name)), utf8(", ".join(path for _, path in tag.given))
        more = len(tag.given)
        register = library.bikleinu_register_block_given if tag.is_block else library.bikleinu_register_tag_given
        with self._lock:
            answer = library.bikleinu_register(self._handle, called, len(called), least + more, most + more)
            answer = answer or register(self._handle, text, len(text), called, len(called), _STYLES[tag.style], given, len(given))
            if answer:
                raise refused(answer)
            self._filters.add_tag(name, tag)

    def __reduce__(self) -> Any:
        filters = self._filters
        return _language, (self._jekyll, self._set, filters.functions, filters.tags, filters.site, self._autoescape)

    def __repr__(self) -> str:
        named = self._set or ("jekyll" if self._jekyll else "")
        return f"<bikleinu.Language{', ' if named else ''}{named}{listed(', filters', self.filters)}>"


def _checked(site: Any) -> Site | None:
    """The site, which is two texts."""
    if site is None:
        return None
    if not isinstance(site, tuple) or len(site) != 2 or not all(isinstance(it, str) for it in site):
        raise TypeError(f"site is {site!r}, and two texts are wanted: ('https://example.org', '/blog')")
    address, base = site
    try:
        (address + base).encode()
    except UnicodeEncodeError:
        raise refused(NO_TEXT) from None
    return address, base


def _set_of(filters: Any) -> tuple[str | None, Mapping[str, Function] | None]:
    """The set that filters name, or the functions that they are."""
    if not isinstance(filters, str):
        return None, filters
    if filters not in SETS:
        raise ValueError(f"filters is {filters!r}, and a mapping of functions, 'decimals', 'jekyll' or 'shopify' is wanted")
    return filters, None


def _given(given: Given) -> tuple[tuple[str, str], ...]:
    """The given values, one for each keyword."""
    pairs = tuple((given or {}).items())
    for keyword, path in pairs:
        if not isinstance(keyword, str) or not isinstance(path, str):
            raise TypeError(f"given has {keyword!r}: {path!r}, and texts are wanted: {{'title': 'page.title'}}")
        if not path.strip() or "," in path:
            raise ValueError(f"given has {path!r} for {keyword!r}, and one value is wanted, as 'page.title', without a comma")
    return pairs


def _language(
    jekyll: bool,
    set_name: str | None,
    functions: Mapping[str, Function],
    tags: Mapping[str, Tag],
    site: Site | None,
    autoescape: bool,
) -> Language:
    made = Language(jekyll=jekyll, filters=set_name, site=site, autoescape=autoescape)
    for name, function in functions.items():
        made.add_filter(name, function)
    for name, tag in tags.items():
        made._add_tag(name, tag)
    return made


class _Shared(threading.local):
    language: Language | None = None


_shared = _Shared()


def standard() -> Language:
    """This thread's standard language."""
    if _shared.language is None:
        _shared.language = Language()
    return _shared.language


def parse(source: str, language: Language | None, made: Owner, partial: str | None = None) -> None:
    """Puts the template of a source, which is that of a partial of this name, into a handle."""
    text = utf8(source)
    language = language or standard()
    with language._lock:
        answer = library.bikleinu_parse(language._handle, text, len(text), made._handle)
    made._need(answer, partial)
