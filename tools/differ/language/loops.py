"""What a loop goes over, and what it binds for each item."""
from .expressions import evaluate, sought
from .faults import Fault
from .tree import Range
from .values import GREATEST, new_map, whole


class Numbers:
    """The whole numbers from the first to the last, with both."""

    def __init__(self, first, last):
        self.first = first
        self.count = max(0, last - first + 1)

    def at(self, place):
        return self.first + place


class Listed:
    def __init__(self, items):
        self.items = items
        self.count = len(items)

    def at(self, place):
        return self.items[place]


def items_of(source, environment):
    """The items of a source, which isn't evaluated again."""
    if isinstance(source, Range):
        first = end_of_range(source.first, environment)
        found = Numbers(first, end_of_range(source.last, environment))
    else:
        found = Listed(value_items(evaluate(source, environment)))
    if found.count > GREATEST:
        raise Fault("RangeTooLong")
    return found


def end_of_range(expression, environment):
    found = amount(expression, environment)
    return found[0] if found else 0


def amount(expression, environment):
    """The whole number in a list, or the empty list where the value is missing or nil and that is no fault."""
    found = sought(expression, environment)
    if found and found[0] is None and environment.missing_is_nil:
        return []
    return [whole_or_fault(value) for value in found]


def value_items(value):
    if value is None:
        return []
    if isinstance(value, dict):
        return [[name, held] for name, held in value.items()]
    if isinstance(value, list):
        return value
    raise Fault("UnexpectedValue")


def whole_or_fault(value):
    number = whole(value)
    if number is None:
        raise Fault("UnexpectedValue")
    return number


class Window:
    """The items that a loop asks for: so many, after those that are left out."""

    def __init__(self, loop, environment):
        self.items = items_of(loop.source, environment)
        amounts = {}
        for name in ("cols", "limit", "offset"):
            if name in loop.amounts:
                for number in amount(loop.amounts[name], environment):
                    amounts[name] = number if number >= 0 else GREATEST
        count = self.items.count
        self.cols = amounts.get("cols")
        self.skipped = min(amounts.get("offset", 0), count)
        self.length = min(amounts["limit"], count) if "limit" in amounts else count - self.skipped
        self.is_reversed = loop.is_reversed

    def item(self, place):
        """The item at the place, nil where the source has none there."""
        place = self.skipped + (self.length - place - 1 if self.is_reversed else place)
        return self.items.at(place) if place < self.items.count else None


def place_map(place, length, **more):
    """What forloop and tablerow say of an item."""
    return new_map({
        "length": length,
        "index0": place,
        "index": place + 1,
        "rindex0": length - place - 1,
        "rindex": length - place,
        "first": place == 0,
        "last": place == length - 1,
        **more,
    })


def cell_map(place, length, columns):
    column = place % columns
    is_last = column + 1 == columns or place == length - 1
    return place_map(place, length, col0=column, col=column + 1, col_first=column == 0, col_last=is_last)
