"""What filters share: how an argument is read."""
from .faults import Fault
from .values import whole


def whole_argument(value):
    number = whole(value)
    if number is None:
        raise Fault("InvalidArgument")
    return number


def require_list(value, kind="InvalidInput"):
    if not isinstance(value, list):
        raise Fault(kind)
    return value


def lower(text):
    """A to Z in lower case; other letters stay."""
    return "".join(chr(ord(letter) + 32) if "A" <= letter <= "Z" else letter for letter in text)


def upper(text):
    return "".join(chr(ord(letter) - 32) if "a" <= letter <= "z" else letter for letter in text)
