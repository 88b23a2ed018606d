"""Values: None, truth values, whole numbers, texts, lists, and maps, which are dicts in the byte order of their keys.

Python's order of texts is that of code points, which is also that of their bytes in UTF-8.
"""
import re

LEAST, GREATEST = -(2**63), 2**63 - 1
WHOLE = re.compile(r"[+-]?[0-9]+")
# an int of Python refuses texts of more digits, and so many zeros may stand in front
NUMBER_PARTS = re.compile(r"([+-]?)0*([0-9]*)")


def kind(value):
    """The place of a value's kind in the total order."""
    if value is None:
        return 0
    return {bool: 1, int: 2, str: 3, list: 4, dict: 5}[type(value)]


def new_map(pairs):
    """A map of the pairs, in which the later of one key counts."""
    return dict(sorted(dict(pairs).items()))


def order_key(value):
    """What puts values into the total order when it is compared."""
    if isinstance(value, list):
        return (4, [order_key(item) for item in value])
    if isinstance(value, dict):
        return (5, [(name, order_key(held)) for name, held in value.items()])
    return (kind(value), 0 if value is None else value)


def same(left, right):
    """Equality: one kind and the same content."""
    if kind(left) != kind(right):
        return False
    if isinstance(left, list):
        return len(left) == len(right) and all(map(same, left, right))
    if isinstance(left, dict):
        return list(left) == list(right) and all(map(same, left.values(), right.values()))
    return left == right


def sign_of(left, right):
    return (left > right) - (left < right)


def compare(left, right):
    """The order of conditions: a number below, at or above 0, or None where the two have no order."""
    if left is None or kind(left) != kind(right):
        return None
    if isinstance(left, list):
        return compare_places([("", item) for item in left], [("", item) for item in right])
    if isinstance(left, dict):
        return compare_places(list(left.items()), list(right.items()))
    return sign_of(left, right)


def compare_places(left, right):
    """Goes by the first place at which key or value is unequal, and then by the number of places."""
    for (left_name, left_value), (right_name, right_value) in zip(left, right):
        if left_name != right_name:
            return sign_of(left_name, right_name)
        if not same(left_value, right_value):
            return compare(left_value, right_value)
    return sign_of(len(left), len(right))


def text_of(value):
    """The text of any value."""
    if value is None:
        return ""
    if isinstance(value, bool):
        return "true" if value else "false"
    if isinstance(value, list):
        return "".join(map(text_of, value))
    if isinstance(value, dict):
        return "".join(name + text_of(held) for name, held in value.items())
    return str(value)


def is_scalar(value):
    return isinstance(value, (bool, int, str))


def is_truthy(value):
    return value is not None and value is not False


def digits_of(text):
    """The sign of a text of a whole number, and its digits without zeros in front."""
    sign, digits = NUMBER_PARTS.fullmatch(text).groups()
    return sign, digits or "0"


def whole(value):
    """The whole number of a number, or of a text of a sign and digits; None where there is none within 64 bits."""
    if isinstance(value, str) and WHOLE.fullmatch(value):
        sign, digits = digits_of(value)
        number = int(sign + digits) if len(digits) < 20 else GREATEST + 1
        return number if LEAST <= number <= GREATEST else None
    return value if isinstance(value, int) and not isinstance(value, bool) else None


def find(value, steps):
    """What the path leads to, in a list of one value, or the empty list."""
    for step in steps:
        found = find_step(value, step)
        if not found:
            return []
        value = found[0]
    return [value]


def find_step(value, step):
    """What one step leads to, likewise."""
    name = text_of(step)
    if isinstance(value, list):
        return find_item(value, step)
    if isinstance(value, dict):
        if name in value:
            return [value[name]]
        return [len(value)] if name == "size" else []
    if is_scalar(value) and name == "size":
        return [len(text_of(value).encode())]
    return []


def find_item(items, step):
    """An item by its place, from the end where it is negative; or one by the words that a list knows."""
    place = whole(step)
    if place is not None:
        place += len(items) if place < 0 else 0
        return [items[place]] if 0 <= place < len(items) else []
    if step == "size":
        return [len(items)]
    return {"first": items[:1], "last": items[-1:]}.get(step, []) if isinstance(step, str) else []


def weight(value, most):
    """How many parts and characters a value has, counted up to somewhat above the most."""
    total, open_values = 0, [value]
    while open_values and total <= most:
        value = open_values.pop()
        total += 1 + (len(value) if isinstance(value, str) else 0)
        if isinstance(value, list):
            open_values += value[: most + 1]
        elif isinstance(value, dict):
            open_values += value.values()
    return total
