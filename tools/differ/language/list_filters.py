"""Filters of lists, with those of the set of Jekyll."""
from .arguments import lower, require_list
from .faults import Fault
from .values import is_scalar, is_truthy, order_key, same, text_of


def join(value, separator=" "):
    return text_of(separator).join(map(text_of, require_list(value)))


def sequence(value):
    """A list's items, nothing for nil, and any other value alone."""
    if value is None:
        return []
    return value if isinstance(value, list) else [value]


def sorted_by(value, names, key):
    """The items by the key of each or, with a name, of its property; those without a value come last."""
    items = sequence(value)
    keys = items
    if names:
        keys = [require_map(item).get(text_of(names[0])) for item in items]
    pairs = sorted(zip(keys, items), key=lambda pair: (pair[0] is None, key(pair[0])))
    return [item for _, item in pairs]


def require_map(value):
    if not isinstance(value, dict):
        raise Fault("InvalidInput")
    return value


def sort(value, *names):
    return sorted_by(value, names, order_key)


def sort_natural(value, *names):
    return sorted_by(value, names, lambda key: lower(text_of(key)))


def where(value, name, *targets):
    items = [value] if isinstance(value, dict) else require_list(value)
    if not all(isinstance(item, dict) for item in items):
        return None
    name = text_of(name)
    if targets:
        return [item for item in items if name in item and same(item[name], targets[0])]
    return [item for item in items if is_truthy(item.get(name))]


def uniq(value):
    kept = []
    for item in require_list(value):
        if not any(same(item, other) for other in kept):
            kept.append(item)
    return kept


def reverse(value):
    return require_list(value)[::-1]


def map_by(value, name):
    name = text_of(name)
    return [item[name] for item in require_list(value) if isinstance(item, dict) and name in item]


def compact(value, *names):
    items = require_list(value)
    if not names:
        return [item for item in items if item is not None]
    return [item for item in items if require_map(item).get(text_of(names[0])) is not None]


def concat(value, other):
    return require_list(value) + require_list(other, "InvalidArgument")


def first(value):
    return end_of(value, slice(0, 1))


def last(value):
    return end_of(value, slice(-1, None))


def end_of(value, place):
    if isinstance(value, list):
        return (value[place] or [None])[0]
    if not is_scalar(value):
        raise Fault("InvalidInput")
    return text_of(value)[place]


def push(value, item):
    return require_list(value) + [item]


def unshift(value, item):
    return [item] + require_list(value)


def pop(value):
    return require_list(value)[:-1]


def shift(value):
    return require_list(value)[1:]


def array_to_sentence_string(value, connector="and"):
    texts = list(map(text_of, require_list(value)))
    if len(texts) > 1:
        texts[-1] = f"{text_of(connector)} {texts[-1]}"
    return ", ".join(texts)


FILTERS = {
    "join": (0, 1, join),
    "sort": (0, 1, sort),
    "sort_natural": (0, 1, sort_natural),
    "where": (1, 2, where),
    "uniq": (0, 0, uniq),
    "reverse": (0, 0, reverse),
    "map": (1, 1, map_by),
    "compact": (0, 1, compact),
    "concat": (1, 1, concat),
    "first": (0, 0, first),
    "last": (0, 0, last),
    "push": (1, 1, push),
    "unshift": (1, 1, unshift),
    "pop": (0, 0, pop),
    "shift": (0, 0, shift),
    "array_to_sentence_string": (0, 1, array_to_sentence_string),
}
