"""The filters of Jekyll's templates (docs/use/jekyll.md), over what the data says of the site."""
import re

from . import items, lexer
from .arguments import require_list
from .date_patterns import printed
from .environment import Environment
from .expressions import compared, try_evaluate
from .faults import Fault
from .json_text import json_of
from .moments import read_date
from .paths_of_sort import read_path
from .values import GREATEST, LEAST, is_scalar, is_truthy, order_key, text_of
from .web_filters import keeping_nil

UNRESERVED = b"ABCDEFGHIJKLMNOPQRSTUVWXYZabcdefghijklmnopqrstuvwxyz0123456789-._~"
# what may stand in a URL as it is; brackets may in uri_escape alone
IN_URL = frozenset(UNRESERVED + b":/?#@!$&'()*+,;=")
BRACKETS = frozenset(b"[]")
ESCAPE = re.compile(rb"%[0-9A-Fa-f]{2}")
SCHEME = re.compile(r"[A-Za-z][A-Za-z0-9+.-]*:")
SPACE = " \t\n\f\r"
WORDS = re.compile(f"[^{SPACE}]+")
LEADING_NUMBER = re.compile(f"[{SPACE}]*([+-]?)([0-9]+)")
# what Ruby strips at the ends of a text
STRIPPED = "\0\t\n\v\f\r "
MARKUP = re.compile(r"([A-Za-z0-9.+#_-]+)(?:[\t-\r ]+[A-Za-z0-9_]+(?:=(?:[A-Za-z0-9_]+|\"[0-9]+(?:[\t-\r ][0-9]+)*\"))?)*")
XML = {'"': "&quot;", "&": "&amp;", "'": "&apos;", "<": "&lt;", ">": "&gt;"}
HTML = {**XML, "'": "&#39;"}


def escaped(text, plain):
    """The text with each byte that isn't plain as % and two digits. An escape that is there stays."""
    data, found, at = text.encode(), [], 0
    while at < len(data):
        escape = ESCAPE.match(data, at)
        if escape or data[at] in plain:
            found.append((escape[0] if escape else data[at : at + 1]).decode())
        else:
            found.append(f"%{data[at]:02X}")
        at = escape.end() if escape else at + 1
    return "".join(found)


def cgi_escape(value):
    return "".join("+" if byte == 32 else chr(byte) if byte in UNRESERVED else f"%{byte:02X}" for byte in text_of(value).encode())


def dated(pattern):
    def answer(value):
        if value is None or value == "":
            return value
        moment = read_date(value)
        if moment is None:
            raise Fault("InvalidInput")
        return printed(moment, pattern)

    return answer


def spoken_date(month):
    """The day, the month by the pattern and the year; with ordinal the day as it is counted, and with US after it the month first."""

    def answer(value, style="", country=""):
        day, name, year = dated("%d"), dated(month), dated("%Y")
        if value is None or value == "":
            return value
        if text_of(style) != "ordinal":
            return f"{day(value)} {name(value)} {year(value)}"
        number = ordinal(int(day(value)))
        if text_of(country) == "US":
            return f"{name(value)} {number}, {year(value)}"
        return f"{number} {name(value)} {year(value)}"

    return answer


def ordinal(number):
    if number % 100 in (11, 12, 13):
        return f"{number}th"
    return f"{number}{ {1: 'st', 2: 'nd', 3: 'rd'}.get(number % 10, 'th')}"


def to_integer(value):
    if isinstance(value, bool):
        return int(value)
    if value is None:
        return 0
    if not is_scalar(value):
        raise Fault("InvalidInput")
    found = LEADING_NUMBER.match(text_of(value))
    if not found:
        return 0
    digits = found[2].lstrip("0") or "0"
    number = int(found[1] + digits) if len(digits) < 20 else GREATEST + 1
    if not LEAST <= number <= GREATEST:
        raise Fault("NumberRange")
    return number


def along(item, names):
    """What the item has along the property; nil where it leads nowhere."""
    for name in names:
        item = item.get(name) if isinstance(item, dict) else None
    return item


def members(value):
    """The items of a list or the values of a map, None of anything else."""
    return value if isinstance(value, list) else list(value.values()) if isinstance(value, dict) else None


def matching(value, name, target):
    """The items whose property is the target, None where the input stays as it is."""
    found = members(value)
    if found is None or name is None or name is False or isinstance(target, (list, dict)):
        return None
    names = text_of(name).split(".")
    return [item for item in found if fits(along(item, names), target)]


def fits(held, target):
    if target is None:
        return held is None
    found = held if isinstance(held, list) else [held]
    return any(is_scalar(item) and text_of(item) == text_of(target) for item in found)


def where(value, name, target):
    found = matching(value, name, target)
    return value if found is None else found


def find(value, name, target):
    found = matching(value, name, target)
    return value if found is None else (found or [None])[0]


def group_by(value, name):
    if isinstance(value, dict):
        raise Fault("InvalidInput")
    if not isinstance(value, list):
        return value
    groups = {}
    for item in value:
        groups.setdefault(text_of(along(item, text_of(name).split("."))), []).append(item)
    return [{"items": group, "name": text, "size": len(group)} for text, group in groups.items()]


def array_to_sentence_string(value, connector="and"):
    texts = list(map(text_of, require_list(value)))
    if len(texts) == 2:
        return f"{texts[0]} {text_of(connector)} {texts[1]}"
    if len(texts) > 2:
        texts[-1] = f"{text_of(connector)} {texts[-1]}"
    return ", ".join(texts)


def where_exp(value, name, condition):
    found = members(value)
    if found is None:
        # whatever the condition is
        return value
    name, condition = text_of(name), read_condition(text_of(condition))
    return [item for item in found if item_holds(condition, name, item)]


def read_condition(text):
    reader, found = lexer.Reader(text), []
    try:
        reader.skip_space()
        while not reader.is_over():
            found.append(reader.item())
            reader.skip_space()
        return items.Items(found, {}).condition()
    except Fault:
        raise Fault("InvalidArgument") from None


def item_holds(condition, name, item):
    environment = Environment({}, {name: item})
    return any(all(atom_holds(atom, environment) for atom in atoms) for atoms in condition)


def atom_holds(atom, environment):
    """Every other name is nil, and so is what the item hasn't; nil contains nothing."""
    left = (try_evaluate(atom.left, environment) or [None])[0]
    if atom.operator is None:
        return is_truthy(left)
    right = (try_evaluate(atom.right, environment) or [None])[0]
    return not (atom.operator == "contains" and left is None) and compared(atom.operator, left, right)


def highlight(code, markup):
    found = MARKUP.fullmatch(text_of(markup).strip(STRIPPED))
    if not found:
        raise Fault("InvalidArgument")
    language = found[1].lower()
    shown = re.sub("[\"&'<>]", lambda mark: HTML[mark[0]], text_of(code).strip(STRIPPED))
    return f'<figure class="highlight"><pre><code class="language-{language.replace("+", "-")}" data-lang="{language}">{shown}</code></pre></figure>'


# an argument that isn't written; a written nil is one like any other
NOT_GIVEN = object()


def sort(value, path=NOT_GIVEN, nils="first"):
    found = [] if value is None else value if isinstance(value, list) else [value]
    if not found:
        raise Fault("InvalidInput")
    if path is not NOT_GIVEN and not all(isinstance(item, dict) for item in found):
        raise Fault("InvalidInput")
    if text_of(nils) not in ("first", "last"):
        raise Fault("InvalidInput")
    key = (lambda item: item) if path is NOT_GIVEN else read_path(text_of(path))
    keys = list(map(key, found))
    first = text_of(nils) == "first"
    pairs = sorted(zip(keys, found), key=lambda pair: ((pair[0] is None) != first, order_key(pair[0])))
    return [item for _, item in pairs]


def relative_url(site, value):
    if value is None or SCHEME.match(text_of(value)):
        return value
    return under(site["baseurl"], text_of(value))


def under(base, path):
    """The base path without one / at its end, and the path; each begins with a / unless it is empty."""
    return escaped("".join(part if part[:1] in ("", "/") else f"/{part}" for part in (base.removesuffix("/"), path)), IN_URL)


def absolute_url(site, value):
    """Without an address as relative_url."""
    if value is None or not site["url"] or SCHEME.match(text_of(value)):
        return relative_url(site, value)
    return site["url"] + (under(site["baseurl"], text_of(value)) or "/")


def lead(site, lists, is_sought):
    """The URL of the first item whose path is sought; what is no list has no items."""
    for item in (item for held in lists if isinstance(held, list) for item in held):
        path = text_or_nothing(item, "relative_path") or text_or_nothing(item, "path")
        if path and is_sought(path):
            return relative_url(site, text_or_nothing(item, "url") or path)
    raise Fault("InvalidArgument")


def link(site, markup, lists):
    sought = text_of(markup).strip(STRIPPED)
    return lead(site, lists, lambda path: sought in (path, path.removeprefix("/")))


def post_url(site, markup, lists):
    """By the folders in `_posts` or around it, and the date with the name, before an extension."""
    folder, slash, name = map(re.escape, text_of(markup).strip(STRIPPED).removeprefix("/").rpartition("/"))
    return lead(site, lists, re.compile(f"(?:_posts/{folder}{slash}|{folder}{slash}_posts/){name}\\.[^.]", re.S).match)


def feed_meta(site, feed, title, name):
    path = feed.get("path") if isinstance(feed, dict) else None
    parts = {"href": absolute_url(site, path if is_truthy(path) else "feed.xml")}
    shown = title if is_truthy(title) else name
    if is_truthy(shown):
        parts["title"] = shown
    shown = "".join(f' {key}="{xml_escaped(text_of(value))}"' for key, value in parts.items())
    return f'<link type="application/atom+xml" rel="alternate"{shown} />'


def seo(_, *args):
    """The last of the markup and the text that the tag is given."""
    if not isinstance(args[-1], str):
        raise Fault("InvalidArgument")
    return args[-1]


def converted(data, name):
    """A filter that answers by the data's table of its name."""
    tables = data.get("conversions")
    table = tables.get(name) if isinstance(tables, dict) else None

    def answer(value):
        found = table.get(text_of(value)) if isinstance(table, dict) else None
        if not isinstance(found, str):
            raise Fault("InvalidInput")
        return found

    return answer


def xml_escaped(text):
    return re.sub("[\"&'<>]", lambda found: XML[found[0]], text)


def site_of(data):
    held = data.get("site")
    return {name: text_or_nothing(held, name) for name in ("url", "baseurl")}


def text_or_nothing(held, name):
    found = held.get(name) if isinstance(held, dict) else None
    return found if isinstance(found, str) else ""


def filters_over(data):
    site = site_of(data)
    return {
        "relative_url": (0, 0, lambda value: relative_url(site, value)),
        "absolute_url": (0, 0, lambda value: absolute_url(site, value)),
        "link": (4, 4, lambda _, markup, *lists: link(site, markup, lists)),
        "post_url": (2, 2, lambda _, markup, *lists: post_url(site, markup, lists)),
        "feed_meta": (3, 3, lambda _, *parts: feed_meta(site, *parts)),
        "seo": (1, 2, seo),
        "markdownify": (0, 0, converted(data, "markdownify")),
        "smartify": (0, 0, converted(data, "smartify")),
        **FILTERS,
    }


FILTERS = {
    "uri_escape": (0, 0, keeping_nil(lambda text: escaped(text, IN_URL | BRACKETS))),
    "cgi_escape": (0, 0, cgi_escape),
    "date_to_string": (0, 2, spoken_date("%b")),
    "date_to_long_string": (0, 2, spoken_date("%B")),
    "date_to_xmlschema": (0, 0, dated("%Y-%m-%dT%H:%M:%S%:z")),
    "date_to_rfc822": (0, 0, dated("%a, %d %b %Y %H:%M:%S %z")),
    "xml_escape": (0, 0, lambda value: xml_escaped(text_of(value))),
    "normalize_whitespace": (0, 0, lambda value: " ".join(WORDS.findall(text_of(value)))),
    "number_of_words": (0, 0, lambda value: len(WORDS.findall(text_of(value)))),
    "to_integer": (0, 0, to_integer),
    "jsonify": (0, 0, json_of),
    "array_to_sentence_string": (0, 1, array_to_sentence_string),
    "where": (2, 2, where),
    "find": (2, 2, find),
    "group_by": (1, 1, group_by),
    "where_exp": (2, 2, where_exp),
    "highlight": (1, 1, highlight),
    "sort": (0, 2, sort),
}
