"""The page of a template by the plain reading: what the program should write, and the kind of the fault that it should end by."""
import json

from language.blanks import without_blanks
from language.evaluation import Run
from language.faults import Fault
from language.languages import LANGUAGES
from language.parser import parse
from language.several_faults import faults_of
from language.uses import data_uses, paths_of
from language.values import GREATEST, LEAST, digits_of, new_map

# lists and maps of the data nest so deep at most, the whole of it among them
MOST_DEPTH = 127


class NotWhole:
    """A number of the data that isn't whole, or past 64 bits."""


def page(source, data_text, partials, filters=None, missing_is_nil=False):
    """The text and the kind, None where the page is done.

    The partials are names and sources in their order, and the filters are those of a set by its name.
    """
    language = LANGUAGES[filters]
    try:
        template = template_of(source, language)
        data = read_data(data_text)
        parsed = {name: template_of(text, language) for name, text in partials}
    except Fault as fault:
        return "", fault.kind
    run = Run(parsed, data, language.filters(data), missing_is_nil)
    try:
        run.nodes(template)
    except Fault as fault:
        return "".join(run.written), fault.kind
    return "".join(run.written), None


def template_of(source, language):
    """The nodes of a template, as the language runs it."""
    nodes = parse(source, language)
    return without_blanks(nodes) if language.drops_blanks else nodes


def paths(source, partials, filters=None):
    """What the template asks of its data, a path on each line, and the kind of the fault."""
    language = LANGUAGES[filters]
    try:
        template = parse(source, language)
        parsed = {name: parse(text, language) for name, text in partials}
    except Fault as fault:
        return "", fault.kind
    return "".join(f"{path}\n" for path in paths_of(data_uses(template, parsed))), None


def faults(source, filters=None):
    """The faults of a source: first and last place of the piece that each is in, and its kind."""
    found = faults_of(source, LANGUAGES[filters])
    ends = [len(source) if it.piece.end is None or it.kind == "MissingEnd" else it.piece.end for it in found]
    return [(place_of(source, it.piece.start), place_of(source, end), it.kind) for it, end in zip(found, ends)]


def place_of(source, at):
    """Line and column, counted from 1."""
    before = source[:at]
    return before.count("\n") + 1, at - before.rfind("\n")


def read_data(text):
    """The map that a text of JSON writes."""
    try:
        data = json.loads(text, parse_int=read_number, parse_float=read_fraction, parse_constant=refuse)
    except (ValueError, RecursionError):
        raise Fault("InvalidInput") from None
    if not isinstance(data, dict) or deeper_than(data, MOST_DEPTH):
        raise Fault("InvalidInput")
    return in_order(data)


def read_number(text):
    sign, digits = digits_of(text)
    if text == "-0" or len(digits) > 19 or not LEAST <= int(sign + digits) <= GREATEST:
        return NotWhole()
    return int(text)


def read_fraction(text):
    if abs(float(text)) == float("inf"):
        raise ValueError(text)
    return NotWhole()


def refuse(text):
    raise ValueError(text)


def deeper_than(value, most):
    """Whether lists and maps nest deeper than so many."""
    level = [value]
    while most and level:
        level = [held for item in level for held in parts(item)]
        most -= 1
    return any(isinstance(item, (list, dict)) for item in level)


def parts(value):
    return value if isinstance(value, list) else value.values() if isinstance(value, dict) else ()


def in_order(value):
    """The value with its maps in the order of their keys."""
    if isinstance(value, NotWhole):
        raise Fault("Float")
    if isinstance(value, str):
        return unicode_text(value)
    if isinstance(value, list):
        return [in_order(item) for item in value]
    if isinstance(value, dict):
        return new_map((unicode_text(name), in_order(held)) for name, held in value.items())
    return value


def unicode_text(text):
    """The text, of which no character is half a pair of UTF-16."""
    if any("\ud800" <= letter <= "\udfff" for letter in text):
        raise Fault("InvalidInput")
    return text
