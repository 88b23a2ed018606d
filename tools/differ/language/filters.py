"""All filters by their names, with the least and the greatest number of their arguments (docs/language/filters.md)."""
from . import date_filters, list_filters, number_filters, text_filters, web_filters
from .faults import TooLong
from .values import weight

MOST_PARTS = 50_000

FILTERS = {
    **list_filters.FILTERS,
    **number_filters.FILTERS,
    **text_filters.FILTERS,
    **web_filters.FILTERS,
    **date_filters.FILTERS,
}
OWN_FUNCTIONS = frozenset(function for _, _, function in FILTERS.values())


def apply(function, value, arguments):
    """What a filter answers."""
    answer = function(value, *arguments)
    if weight(answer, MOST_PARTS) > MOST_PARTS:
        raise TooLong
    return answer
