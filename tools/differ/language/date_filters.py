"""Filters of dates."""
from .arguments import whole_argument
from .date_patterns import printed
from .faults import Fault
from .moments import read_date
from .values import text_of


def date(value, pattern):
    moment, pattern = read_date(value), text_of(pattern)
    return value if moment is None or not pattern else printed(moment, pattern)


def date_in_tz(value, pattern, hours):
    hours, moment = whole_argument(hours), read_date(value)
    if moment is None:
        raise Fault("InvalidInput")
    if not -23 <= hours <= 23:
        raise Fault("TimezoneRange")
    return printed(moment.at_offset(hours), text_of(pattern))


FILTERS = {
    "date": (1, 1, date),
    "date_in_tz": (2, 2, date_in_tz),
}
