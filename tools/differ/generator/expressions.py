"""Expressions, chains and conditions as lists of items, and how items are spelled."""
from . import samples
from .data import LISTS, POOLS, value_of
from .dates import date_of, pattern_of

TEXT_KINDS = ("text", "digits", "decimal", "markup", "escaped", "date")
# a filter: the kinds of its input, the kinds of its arguments (a ? may be missing), and the kind of its answer
FILTERS = {
    "join": ("list", ["text?"], "text"),
    "sort": ("list", ["property?"], "list"),
    "sort_natural": ("list", ["property?"], "list"),
    "where": ("maps", ["property", "any?"], "maps"),
    "uniq": ("list", [], "list"),
    "reverse": ("list", [], "list"),
    "map": ("maps", ["property"], "list"),
    "compact": ("list", ["property?"], "list"),
    "concat": ("list", ["list"], "list"),
    "first": ("list", [], "any"),
    "last": ("list", [], "any"),
    "push": ("list", ["any"], "list"),
    "unshift": ("list", ["any"], "list"),
    "pop": ("list", [], "list"),
    "shift": ("list", [], "list"),
    "array_to_sentence_string": ("list", ["text?"], "text"),
    "plus": ("number", ["number"], "number"),
    "minus": ("number", ["number"], "number"),
    "times": ("number", ["number"], "number"),
    "divided_by": ("number", ["number"], "number"),
    "modulo": ("number", ["number"], "number"),
    "at_least": ("number", ["number"], "number"),
    "at_most": ("number", ["number"], "number"),
    "abs": ("number", [], "number"),
    "round": ("decimal", ["small?"], "number"),
    "ceil": ("decimal", [], "number"),
    "floor": ("decimal", [], "number"),
    "size": ("any", [], "number"),
    "default": ("any", ["any"], "any"),
    "append": ("any", ["text"], "text"),
    "prepend": ("any", ["text"], "text"),
    "replace": ("text", ["text", "text?"], "text"),
    "replace_first": ("text", ["text", "text?"], "text"),
    "remove": ("text", ["text"], "text"),
    "remove_first": ("text", ["text"], "text"),
    "split": ("text", ["text"], "texts"),
    "slice": ("text", ["small", "small?"], "text"),
    "strip": ("text", [], "text"),
    "lstrip": ("text", [], "text"),
    "rstrip": ("text", [], "text"),
    "strip_newlines": ("text", [], "text"),
    "downcase": ("text", [], "text"),
    "upcase": ("text", [], "text"),
    "capitalize": ("text", [], "text"),
    "truncate": ("text", ["length?", "text?"], "text"),
    "truncatewords": ("text", ["small?", "text?"], "text"),
    "slugify": ("text", ["mode?"], "text"),
    "pluralize": ("number", ["any", "any"], "any"),
    "escape": ("markup", [], "text"),
    "escape_once": ("markup", [], "text"),
    "newline_to_br": ("text", [], "text"),
    "strip_html": ("markup", [], "text"),
    "url_encode": ("text", [], "text"),
    "url_decode": ("escaped", [], "text"),
    "date": ("date", ["pattern"], "text"),
    "date_in_tz": ("date", ["pattern", "hours"], "text"),
}
ARGUMENTS = {
    "property": samples.PROPERTIES,
    "small": samples.SMALL,
    "length": (0, 1, 2, 3, 4, 5, 10, 25, 60, -1),
    "mode": ("raw", "none", "ascii", "pretty", "default", "latin", "Raw"),
    "hours": samples.HOURS,
}
TAKEN = {
    "list": ("list", *LISTS),
    "maps": ("maps", "maps", "maps", "map"),
    "text": (*TEXT_KINDS, "number"),
    "number": ("number", "digits", "decimal"),
    "decimal": ("decimal", "number", "digits"),
}


class Filters:
    """The filters that are called, with those by which chains begin most often."""

    def __init__(self, called, favourites, is_jekyll=False, is_shopify=False):
        self.called = called
        self.is_jekyll = is_jekyll
        self.is_shopify = is_shopify
        self.favourites = favourites
        # the filters that take a kind, where all take what may be of any
        self.fitting = {
            kind: [name for name, (taken, _, _) in called.items() if "any" in (taken, kind) or kind in TAKEN.get(taken, (taken,))]
            for kind in (*POOLS, *LISTS, "map", "any")
        }


STANDARD = Filters(FILTERS, list(FILTERS))
OPERATORS = ("==", "!=", "<>", "<", ">", "<=", ">=", "contains")


def literal(rng, value):
    """How a scalar is written in a source."""
    if value is None:
        return rng.choice(("nil", "null"))
    if isinstance(value, bool):
        return "true" if value else "false"
    if isinstance(value, int):
        zeros, plus = rng.random() < 0.03, rng.random() < 0.03
        sign = "-" if value < 0 else "+" if plus else ""
        return f"{sign}{'00' if zeros else ''}{abs(value)}"
    if "'" in value and '"' in value:
        value = value.replace('"', "")
    quote = '"' if "'" in value or '"' not in value and rng.random() < 0.3 else "'"
    return f"{quote}{value}{quote}"


def spelled(rng, items):
    """Items one after another, with white space where it may or must stand."""
    text = ""
    for item in items:
        text += space(rng, text[-1:], item[:1]) + item
    return text


def space(rng, before, after):
    must = (before.isalnum() or before in ("_", "-")) and (after.isalnum() or after in ("_", "+", "-"))
    draw = rng.random()
    if before and draw < 0.8:
        return " "
    if not must and draw < 0.93:
        return ""
    return rng.choice((" ", "  ", "\n", "\t", " \r\n "))


class Expressions:
    """Makes expressions over the names that are known."""

    def __init__(self, rng, known, filters):
        self.rng = rng
        self.filters = filters
        # how often what likely ends in a fault is made: seldom in half of the templates, which then run further
        self.daring = rng.choice((0.1, 1))
        # paths by the kind that they lead to
        self.known = known

    def know(self, path, kind):
        self.known.setdefault(kind, []).append(path)

    def chance(self, rate):
        return self.rng.random() < rate

    def dares(self, rate):
        return self.chance(rate * self.daring)

    def variable(self, kinds):
        """A path that leads to one of the kinds, None where none is known."""
        found = [path for kind in kinds for path in self.known.get(kind, ())]
        return self.rng.choice(found) if found else None

    def expression(self, kind):
        """A value item, mostly of the kind."""
        if self.dares(0.008):
            return self.rng.choice(samples.MISSING)
        if kind == "any" or self.dares(0.06):
            kind = self.rng.choice(("number", "text", "truth", "nil", *LISTS, "map", *POOLS))
        if kind in ARGUMENTS or kind == "pattern":
            return self.argument(kind)
        path = self.variable(self.kinds(kind))
        if path and self.chance(0.6):
            return self.indexed() if self.dares(0.06) else path
        return self.made(kind) or path or "nil"

    def kinds(self, kind):
        if kind in ("list", "numbers", "texts"):
            return LISTS
        if kind in ("number", "text", "maps") and not self.dares(0.2):
            return (kind,)
        return TAKEN.get(kind, (kind,))

    def made(self, kind):
        if kind in POOLS:
            return literal(self.rng, value_of(self.rng, kind))
        return None

    def indexed(self):
        """A path whose step is a value."""
        name = self.variable((*LISTS, "map")) or "a"
        step = self.expression(self.rng.choice(("small", "number", "text", "property")))
        return f"{name}[{self.rng.choice(('', ' '))}{step}{self.rng.choice(('', ' '))}]"

    def argument(self, kind):
        if self.dares(0.15):
            return self.expression("number" if kind in ("small", "length", "hours") else "text")
        if kind == "pattern":
            return literal(self.rng, pattern_of(self.rng, self.dares(0.1)))
        return literal(self.rng, self.rng.choice(ARGUMENTS[kind]))

    def dated(self):
        """The items of a chain that prints a date."""
        name = self.rng.choice(("date", "date", "date_in_tz"))
        date = literal(self.rng, date_of(self.rng)) if self.chance(0.7) else self.expression("date")
        return [date, "|", name, *self.arguments(name)]

    def chain(self):
        """The items of a chain, and the kind that it likely comes to."""
        if self.chance(0.2):
            kind = self.rng.choice((*POOLS, *LISTS, "map"))
            return [self.expression(kind)], kind
        name = self.rng.choice(self.filters.favourites)
        taken, _, kind = self.filters.called[name]
        items = [self.expression(taken), "|", name, *self.arguments(name)]
        for _ in range(self.rng.choice((0, 0, 0, 0, 1, 1, 1, 2, 4))):
            name, kind = self.filter(kind)
            items += ["|", name, *self.arguments(name)]
        return items, kind

    def filter(self, kind):
        """A filter that takes the kind, mostly, and the kind of what it answers."""
        if self.dares(0.002):
            return "nosuch", "any"
        called = self.filters.called
        name = self.rng.choice(list(called) if self.dares(0.15) else self.filters.fitting[kind])
        return name, called[name][2]

    def arguments(self, name):
        """The items of a filter's arguments, rarely too many or too few."""
        kinds = self.filters.called[name][1] if name in self.filters.called else ["any?"]
        given = [kind.rstrip("?") for kind in kinds if not kind.endswith("?") or self.chance(0.5)]
        if self.dares(0.004):
            given = given[:-1] if self.chance(0.5) else [*given, "any"]
        if not given:
            return []
        return [":", *separated([self.expression(kind) for kind in given], ",")]

    def condition(self):
        """The items of a condition."""
        items = self.atom()
        while self.chance(0.3):
            items += [self.rng.choice(("and", "or")), *self.atom()]
        return items

    def atom(self):
        if self.chance(0.35):
            return [self.expression("any")]
        kind = self.rng.choice(("number", "number", "text", "list", "map", "any", "truth", "nil"))
        operator = self.rng.choice(OPERATORS)
        other = "text" if operator == "contains" else kind
        left = "nil" if operator == "contains" and self.dares(0.1) else self.rng.choice(("list", "text", "map")) if operator == "contains" else kind
        return [self.expression(left), operator, self.expression(self.rng.choice((other, other, "any")))]

    def source(self):
        """The items of what a loop goes over, and the kind of one of them."""
        draw = self.rng.random()
        if draw < 0.45:
            return [self.range()], "number"
        if draw < 0.55:
            return [self.expression("map")], "list"
        if draw < 0.6 and self.daring == 1:
            return [self.expression("any")], "any"
        kind = self.rng.choice(("numbers", "texts", "maps", "list"))
        return [self.expression(kind)], {"numbers": "number", "texts": "text", "maps": "map"}.get(kind, "any")

    def range(self):
        first, last = self.end(), self.end()
        if self.chance(0.01):
            last = str(2**63 - 1)
        gaps = [self.rng.choice(("", "", "", " ")) for _ in range(4)]
        if first in ("nil", "null", "true", "false"):
            gaps[1] = " "
        return f"({gaps[0]}{first}{gaps[1]}..{gaps[2]}{last}{gaps[3]})"

    def end(self):
        return self.expression("number") if self.chance(0.15) else str(self.rng.choice((0, 1, 1, 2, 3, 4, 5, -1)))


def separated(items, separator):
    """The items with the separator between them."""
    return [part for item in items for part in (separator, item)][1:]
