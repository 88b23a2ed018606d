"""Which tags and filters a language has: the standard one, and those with a set of filters of a host."""
from dataclasses import dataclass, field, replace
from typing import Callable

from . import jekyll_filters, shopify_blocks, shopify_filters
from .filters import FILTERS
from .tags import TAGS, jekyll_include
from .tree import Literal, Variable


@dataclass(frozen=True)
class Language:
    """The readers of tags by their names, how many arguments each filter takes, from the data the filters of a run, and the names of tags
    that begin with a path without quotes. It drops the white space of blocks that write nothing, or doesn't. By their names it has the
    filters of blocks whose tag is one text or has items, and those of tags of a host, with the variable that is the input of one with items.
    It escapes what outputs and `cycle` write, or doesn't. What the filter of a tag is given beside its text stands by the tag's name."""

    tags: dict
    counts: dict
    filters: Callable
    path_tags: tuple = ()
    drops_blanks: bool = False
    text_blocks: dict = field(default_factory=dict)
    text_tags: dict = field(default_factory=dict)
    item_blocks: dict = field(default_factory=dict)
    item_tags: dict = field(default_factory=dict)
    escapes: bool = False
    given: dict = field(default_factory=dict)


def counts_of(filters):
    return {name: (least, most) for name, (least, most, _) in filters.items()}


def functions_of(filters):
    return {name: function for name, (_, _, function) in filters.items()}


def of_site(*names):
    return [Variable("site", [Literal(name, name)]) for name in names]


JEKYLL_TAGS = {
    "link": of_site("pages", "static_files", "documents"),
    "post_url": of_site("posts"),
    "feed_meta": of_site("feed", "title", "name"),
    "seo": [Variable("seo_tag", [])],
}


def language_with(tags, filters_over, path_tags=(), text_blocks=None, given=None):
    """The standard language with these tags and the filters that stand over the data, in place of its own of their names, and without the
    white space of blocks that write nothing."""
    counts = counts_of({**FILTERS, **filters_over({})})
    functions = lambda data: functions_of({**FILTERS, **filters_over(data)})
    text_tags = {name: name for name in given or {}}
    return Language({**TAGS, **tags}, counts, functions, path_tags, True, text_blocks or {}, text_tags, given=given or {})


JEKYLL_INCLUDES = {"include": jekyll_include, "include_relative": jekyll_include}


STANDARD = Language(TAGS, counts_of(FILTERS), lambda data: STANDARD_FUNCTIONS)
STANDARD_FUNCTIONS = functions_of(FILTERS)
LANGUAGES = {
    None: STANDARD,
    "escaped": replace(STANDARD, escapes=True),
    "jekyll": language_with(JEKYLL_INCLUDES, jekyll_filters.filters_over, tuple(JEKYLL_INCLUDES), {"highlight": "highlight"}, JEKYLL_TAGS),
    "shopify": replace(
        language_with({}, shopify_filters.filters_over),
        text_blocks=shopify_blocks.TEXT_BLOCKS,
        text_tags=shopify_blocks.TEXT_TAGS,
        item_blocks=shopify_blocks.ITEM_BLOCKS,
        item_tags=shopify_blocks.ITEM_TAGS,
    ),
}
