"""How the items of each tag are read, and what its node is."""
from .faults import Fault
from .items import is_identifier
from .tree import Assign, Capture, Case, Choice, Count, Cycle, IfChanged, Include, Interrupt, JekyllInclude, Literal, Loop, Render, Variable
from .values import text_of


def assign(items):
    name = items.identifier()
    items.want_symbol("=")
    return Assign(name, items.chain())


def counted(by):
    def read(items):
        return Count(only_identifier(items), by)

    return read


def only_identifier(items):
    name = items.identifier()
    items.end()
    return name


def interrupt(word):
    def read(items):
        items.end()
        return Interrupt(word)

    return read


def cycle(items):
    name = group_name(items)
    values = []
    if name is None or not items.is_over():
        values.append(items.value())
    while values and items.skip_symbol(",") and not items.is_over():
        values.append(items.value())
    items.end()
    group = name or "-".join(map(written, values))
    return Cycle(group, values)


def group_name(items):
    """The text of the name that stands before a colon, None where there is none."""
    item = items.peek()
    if not (isinstance(item, Literal) or is_identifier(item)):
        return None
    items.take()
    if not items.skip_symbol(":"):
        items.at -= 1
        return None
    return text_of(item.value) if isinstance(item, Literal) else item.name


def written(expression):
    """The written form of an expression."""
    if isinstance(expression, Variable):
        return expression.name + "".join(f"[{written(step)}]" for step in expression.steps)
    if isinstance(expression.value, str):
        return f'"{expression.value}"'
    return "nil" if expression.value is None else text_of(expression.value)


def include(items):
    name, pairs = items.value(), []
    if not items.is_over():
        pairs.append(items.pair())
    while pairs and begins_pair(items):
        items.take()
        pairs.append(items.pair())
    if pairs and not items.is_over():
        items.take()
    items.end()
    return Include(name, pairs)


def jekyll_include(items):
    """The name is the text of a text literal, or else the value as it is spelled."""
    name, pairs = items.value(), []
    while not items.is_over():
        pairs.append(items.pair("="))
    return JekyllInclude(spelling(name), pairs)


def spelling(item):
    return item.value if isinstance(item, Literal) and isinstance(item.value, str) else item.spelled


def begins_pair(items):
    """Whether a comma and more than that are left."""
    at = items.at
    found = items.skip_symbol(",") and not items.is_over()
    items.at = at
    return found


def render(items):
    name, pairs, each = items.value(), [], None
    if items.skip_word("with"):
        value = items.value()
        items.want_word("as")
        pairs.append((items.identifier(), value))
    elif items.skip_word("for"):
        source = items.source()
        items.want_word("as")
        each = (items.identifier(), source)
    while items.skip_symbol(",") and not items.is_over():
        pairs.append(items.pair())
    items.end()
    return Render(name, pairs, each)


def choice(wanted):
    def read(items):
        return Choice([(items.condition(), [])], wanted)

    return read


def case(items):
    target = items.value()
    items.end()
    return Case(target)


def when(items):
    values = [items.value()]
    while items.skip_symbol(",") or items.skip_word("or"):
        values.append(items.value())
    items.end()
    return values


def loop(tag, names, may_reverse):
    def read(items):
        variable = items.identifier()
        items.want_word("in")
        found = Loop(tag, variable, items.source(), {}, False)
        while not items.is_over():
            read_part(items, found, names, may_reverse)
        return found

    return read


def read_part(items, found, names, may_reverse):
    word = items.identifier()
    if word == "reversed" and may_reverse:
        found.is_reversed = True
        return
    if word not in names:
        raise Fault("Expected")
    items.want_symbol(":")
    found.amounts[word] = items.value()


def capture(items):
    return Capture(only_identifier(items), [])


def ifchanged(items):
    items.end()
    return IfChanged([])


TAGS = {
    "assign": assign,
    "increment": counted(1),
    "decrement": counted(-1),
    "break": interrupt("break"),
    "continue": interrupt("continue"),
    "cycle": cycle,
    "include": include,
    "render": render,
}
BLOCKS = {
    "if": choice(True),
    "unless": choice(False),
    "case": case,
    "for": loop("for", ("limit", "offset"), True),
    "tablerow": loop("tablerow", ("cols", "limit", "offset"), False),
    "capture": capture,
    "ifchanged": ifchanged,
}
VERBATIM = ("raw", "comment")
