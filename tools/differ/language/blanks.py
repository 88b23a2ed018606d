"""The white space of blocks that write nothing (docs/language/grammar.md)."""
from .tree import Assign, Capture, Case, Choice, Filtered, IfChanged, Loop, Raw, Text

WHITE = " \t\n\v\f\r"


def without_blanks(nodes, drop=False):
    """The nodes, in which the texts of such blocks are empty, and their own too where they are to be dropped."""
    for node in nodes:
        if drop and isinstance(node, Text):
            node.text = ""
        if isinstance(node, Choice) and node.wanted:
            join_elsif(node)
        drop_inside = is_dropped(node) and writes_nothing(node)
        for body in bodies_of(node):
            without_blanks(body, drop_inside)
    return nodes


def join_elsif(node):
    """An if alone in the else of an if is its elsif."""
    while len(node.otherwise) == 1 and isinstance(node.otherwise[0], Choice) and node.otherwise[0].wanted:
        inner = node.otherwise[0]
        node.branches.extend(inner.branches)
        node.otherwise = inner.otherwise


def is_dropped(node):
    """Whether it is a block that may lose its texts."""
    return isinstance(node, (Choice, Case)) or isinstance(node, Loop) and node.tag == "for"


def writes_nothing(node):
    if isinstance(node, Text):
        return not node.text.strip(WHITE)
    if isinstance(node, Raw):
        return not node.text
    if isinstance(node, (Assign, Capture)):
        return True
    is_silent = isinstance(node, (Choice, Case, Loop, IfChanged))
    return is_silent and all(writes_nothing(inner) for body in bodies_of(node) for inner in body)


def bodies_of(node):
    if isinstance(node, Choice):
        return [*(body for _, body in node.branches), node.otherwise]
    if isinstance(node, Case):
        return [*(body for _, body in node.parts), node.otherwise]
    if isinstance(node, Loop):
        return [node.body, node.otherwise]
    return [node.body] if isinstance(node, (Capture, Filtered, IfChanged)) else []
