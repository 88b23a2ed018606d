"""Filters of texts, with the slug of Jekyll and the plural of Shopify. They work on the text of any value."""
import unicodedata

from .arguments import lower, upper, whole_argument
from .clusters import clusters
from .faults import Fault
from .values import is_scalar, text_of, whole

WHITE_SPACE = "".join(map(chr, [*range(9, 14), 32, 0x85, 0xA0, 0x1680, *range(0x2000, 0x200B), 0x2028, 0x2029, 0x202F, 0x205F, 0x3000]))
PRETTY = "._~!$&'()+,;=@"


def size(value):
    if is_scalar(value):
        return len(text_of(value).encode())
    return len(value or [])


def default(value, other):
    return other if value is None or value is False or value in ("", [], {}) else value


def append(value, text):
    return text_of(value) + text_of(text)


def prepend(value, text):
    return text_of(text) + text_of(value)


def replace(value, old, new=""):
    return text_of(value).replace(text_of(old), text_of(new))


def replace_first(value, old, new=""):
    return text_of(value).replace(text_of(old), text_of(new), 1)


def split(value, separator):
    text, separator = text_of(value), text_of(separator)
    if not text:
        return []
    return text.split(separator) if separator else ["", *text, ""]


def cut(value, offset, length=1):
    offset, length = whole_argument(offset), whole_argument(length)
    if length < 1:
        raise Fault("InvalidArgument")
    parts = value if isinstance(value, list) else text_of(value)
    places = len(parts) if isinstance(value, list) else len(parts.encode())
    offset = min(offset, places)
    offset += places if offset < 0 else 0
    if offset < 0:
        return parts[:0]
    return parts[offset : offset + min(length, places - offset)]


def capitalize(value):
    text = text_of(value)
    return upper(text[:1]) + text[1:]


def truncate(value, length=50, end="..."):
    length, end, text = whole_argument(length), text_of(end), text_of(value)
    if length < 0 or length >= len(text.encode()):
        return value
    kept = max(0, length - len(end.encode()))
    return "".join(clusters(text)[:kept]) + end


def truncatewords(value, count=50, end="..."):
    count, words = whole_argument(count), text_of(value).split(" ")
    if count < 0 or count >= len(words):
        return value
    return " ".join(words[:count]) + text_of(end)


def slugify(value, mode="default"):
    mode = text_of(mode)
    if mode == "latin":
        raise Fault("Unsupported")
    slug = []
    for letter in text_of(value).strip(WHITE_SPACE):
        if keeps(mode, letter):
            slug.append(letter)
        elif slug[-1:] != [None]:
            slug.append(None)
    return lower("".join(letter or "-" for letter in slug).strip("-"))


def keeps(mode, letter):
    if mode == "none":
        return True
    if mode == "raw":
        return letter not in WHITE_SPACE
    if mode == "ascii":
        return letter.isascii() and letter.isalnum()
    return is_alphabetic(letter) or letter in "0123456789" or mode == "pretty" and letter in PRETTY


def is_alphabetic(letter):
    """Near to Unicode's Alphabetic, which has letters, letter numbers and most of the marks that take room."""
    return unicodedata.category(letter)[0] == "L" or unicodedata.category(letter) in ("Nl", "Mc")


def pluralize(value, singular, plural):
    number = whole(value)
    if number is None:
        raise Fault("InvalidInput")
    return singular if number == 1 else plural


def on_text(change):
    return lambda value: change(text_of(value))


FILTERS = {
    "size": (0, 0, size),
    "default": (1, 1, default),
    "append": (1, 1, append),
    "prepend": (1, 1, prepend),
    "replace": (1, 2, replace),
    "replace_first": (1, 2, replace_first),
    "remove": (1, 1, replace),
    "remove_first": (1, 1, replace_first),
    "split": (1, 1, split),
    "slice": (1, 2, cut),
    "strip": (0, 0, on_text(lambda text: text.strip(WHITE_SPACE))),
    "lstrip": (0, 0, on_text(lambda text: text.lstrip(WHITE_SPACE))),
    "rstrip": (0, 0, on_text(lambda text: text.rstrip(WHITE_SPACE))),
    "strip_newlines": (0, 0, on_text(lambda text: text.replace("\n", "").replace("\r", ""))),
    "downcase": (0, 0, on_text(lower)),
    "upcase": (0, 0, on_text(upper)),
    "capitalize": (0, 0, capitalize),
    "truncate": (0, 2, truncate),
    "truncatewords": (0, 2, truncatewords),
    "slugify": (0, 1, slugify),
    "pluralize": (2, 2, pluralize),
}
