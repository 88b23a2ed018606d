"""The path of Jekyll's sort: a word, then any of .word and [literal] (docs/language/filters.md)."""
import re

from .faults import Fault
from .values import find, whole

WORD = r"[A-Za-z_][A-Za-z0-9_-]*"
FIRST = re.compile(WORD)
STEP = re.compile(rf"\.({WORD})|\[([+-]?[0-9]+)\]|\['([^']*)'\]|\[\"([^\"]*)\"\]")


def read_path(text):
    """What an item has along the path, nil where it has nothing there."""
    first = FIRST.match(text)
    if not first:
        raise Fault("InvalidArgument")
    steps, at = [first[0]], first.end()
    while at < len(text):
        step = STEP.match(text, at)
        if not step:
            raise Fault("InvalidArgument")
        word, number, single, double = step.groups()
        if number is not None and whole(number) is None:
            raise Fault("InvalidArgument")
        steps.append(whole(number) if number is not None else next(part for part in (word, single, double) if part is not None))
        at = step.end()

    def along(item):
        return (find(item, steps) or [None])[0]

    return along
