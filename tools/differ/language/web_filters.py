"""Filters of HTML and URLs."""
import re
from urllib.parse import unquote_to_bytes

from .faults import Fault
from .values import text_of

ESCAPES = {"<": "&lt;", ">": "&gt;", "'": "&#39;", '"': "&quot;", "&": "&amp;"}
SPECIAL = re.compile("[<>'\"&]")
UNESCAPED = re.compile("[<>'\"]|&(?!lt;|gt;|#39;|quot;|amp;)")
PLAIN = frozenset(b"ABCDEFGHIJKLMNOPQRSTUVWXYZabcdefghijklmnopqrstuvwxyz0123456789-._")
# a long s counts as an s of a mark
S, T, Y = "[sSſ]", "[tT]", "[yY]"
SCRIPT = f"{S}[cC][rR][iI][pP]{T}"
STYLE = f"{S}{T}{Y}[lL][eE]"
PASSES = [
    re.compile(pattern, re.S)
    for pattern in (f"<{SCRIPT}.*?</{SCRIPT}>", f"<{STYLE}.*?</{STYLE}>", "<!--.*?-->", "<.*?>")
]


def keeping_nil(change):
    return lambda value: None if value is None else change(text_of(value))


def escape(text):
    return SPECIAL.sub(lambda found: ESCAPES[found[0]], text)


def escape_once(text):
    return UNESCAPED.sub(lambda found: ESCAPES[found[0]], text)


def newline_to_br(value):
    return text_of(value).replace("\n", "<br />\n")


def strip_html(value):
    text = text_of(value)
    for pattern in PASSES:
        text = pattern.sub("", text)
    return text


def url_encode(text):
    return "".join(chr(byte) if byte in PLAIN else f"%{byte:02X}" for byte in text.encode())


def url_decode(text):
    try:
        return unquote_to_bytes(text.replace("+", " ")).decode()
    except UnicodeDecodeError:
        raise Fault("InvalidInput") from None


FILTERS = {
    "escape": (0, 0, keeping_nil(escape)),
    "escape_once": (0, 0, keeping_nil(escape_once)),
    "newline_to_br": (0, 0, newline_to_br),
    "strip_html": (0, 0, strip_html),
    "url_encode": (0, 0, keeping_nil(url_encode)),
    "url_decode": (0, 0, keeping_nil(url_decode)),
}
