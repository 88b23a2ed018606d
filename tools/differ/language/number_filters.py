"""Filters of numbers. They compute with whole numbers alone."""
import re

from .arguments import whole_argument
from .faults import Fault
from .values import GREATEST, LEAST, is_scalar, whole

DECIMAL = re.compile(r"[+-]?[0-9]+(\.[0-9]+)?")
MOST_PLACES = 2147483647


def is_decimal(value):
    return isinstance(value, str) and DECIMAL.fullmatch(value) is not None


def in_range(number):
    if not LEAST <= number <= GREATEST:
        raise Fault("NumberRange")
    return number


def of_two(compute, divides=False):
    """A filter of two operands; the first step that applies decides."""

    def answer(value, operand):
        if not is_scalar(value):
            raise Fault("InvalidInput")
        if not is_scalar(operand):
            raise Fault("InvalidArgument")
        left, right = whole(value), whole(operand)
        if divides and right == 0:
            raise Fault("DivideByZero")
        if left is not None and right is not None:
            return in_range(compute(left, right))
        both = (left is not None or is_decimal(value)) and (right is not None or is_decimal(operand))
        raise Fault("Float" if both else "InvalidArgument")

    return answer


def quotient(left, right):
    """Cut off towards 0."""
    cut = abs(left) // abs(right)
    return cut if (left < 0) == (right < 0) else -cut


def remainder(left, right):
    return left - quotient(left, right) * right


def absolute(value):
    if not is_scalar(value):
        raise Fault("InvalidInput")
    number = whole(value)
    if number is None:
        raise Fault("Float" if is_decimal(value) else "InvalidInput")
    return in_range(abs(number))


def round_to(value, places=0):
    places = whole_argument(places)
    if places > MOST_PLACES:
        raise Fault("InvalidInput")
    if places <= 0:
        return brought(value, nearest)
    number = whole(value)
    if number is None:
        raise Fault("Float" if is_decimal(value) else "InvalidInput")
    return number


def brought(value, rounded):
    """A whole number stays; a decimal text is brought to one."""
    number = whole(value)
    if number is not None:
        return number
    if not is_decimal(value):
        raise Fault("InvalidInput")
    digits, _, fraction = value.lstrip("+-").partition(".")
    digits, fraction = digits.lstrip("0"), fraction.rstrip("0")
    if len(digits) > 19:
        raise Fault("NumberRange")
    return in_range(rounded(value.startswith("-"), int(digits or "0"), fraction))


def nearest(is_negative, number, fraction):
    """From a half on away from 0."""
    number += fraction[:1] >= "5"
    return -number if is_negative else number


def ceil(is_negative, number, fraction):
    return -number if is_negative else number + (fraction != "")


def floor(is_negative, number, fraction):
    return -number - (fraction != "") if is_negative else number


FILTERS = {
    "plus": (1, 1, of_two(lambda left, right: left + right)),
    "minus": (1, 1, of_two(lambda left, right: left - right)),
    "times": (1, 1, of_two(lambda left, right: left * right)),
    "divided_by": (1, 1, of_two(quotient, divides=True)),
    "modulo": (1, 1, of_two(remainder, divides=True)),
    "at_least": (1, 1, of_two(max)),
    "at_most": (1, 1, of_two(min)),
    "abs": (0, 0, absolute),
    "round": (0, 1, round_to),
    "ceil": (0, 0, lambda value: brought(value, ceil)),
    "floor": (0, 0, lambda value: brought(value, floor)),
}
