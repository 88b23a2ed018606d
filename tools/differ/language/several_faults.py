"""Every fault of a source, and not the first alone (docs/use/check.md)."""
from .faults import Fault
from .parser import parse
from .tags import VERBATIM

MOST_FAULTS = 100
MOST_CHANGES = 2
# which blocks know a control word
CONTROLS = {"else": ("if", "unless", "case", "for"), "elsif": ("if",), "when": ("case",)}


def faults_of(source, language):
    """The faults that are reported."""
    found = []
    blanked = source
    while len(found) < MOST_FAULTS:
        fault = first_fault(blanked, language)
        if fault is None:
            break
        found.append(fault)
        blanked = without(blanked, fault)
    return reported(found)


def first_fault(source, language):
    try:
        parse(source, language)
    except Fault as fault:
        return fault
    return None


def without(source, fault):
    """The source in which the piece of the fault is text: of one that can't be read to its closer the opener alone.

    The body of a raw or a comment without its end belongs to its tag.
    """
    piece = fault.piece
    end = piece.start + 2 if piece.end is None else piece.end
    if fault.kind == "MissingEnd" and piece.name in VERBATIM:
        end = len(source)
    return source[: piece.start] + source[piece.start : end].replace("{", " ") + source[end:]


def reported(faults):
    """The faults, in the order in which they were found, without those that only follow from others."""
    follow, openers = set(), list(faults)
    for fault in filter(is_misplaced, faults):
        begun = [it for it in openers if it.piece.start < fault.piece.start and may_have_begun(it, fault.piece.name)]
        if begun:
            follow.add(id(fault))
            if fault.piece.name not in CONTROLS:
                openers.remove(max(begun, key=start_of))
    wrong_ends = [it for it in faults if it.kind == "UnknownTag" and it.piece.name not in CONTROLS and id(it) not in follow]
    for fault in (it for it in faults if it.kind == "MissingEnd"):
        after = [it for it in wrong_ends if start_of(it) > start_of(fault) and may_end(it.piece.name, fault.piece.name)]
        if after:
            follow.add(id(fault))
            wrong_ends.remove(max(after, key=start_of))
    return [fault for fault in faults if id(fault) not in follow]


def start_of(fault):
    return fault.piece.start


def is_misplaced(fault):
    """Whether it is an end or a control word that stands in no block of its own."""
    name = fault.piece.name
    return fault.kind == "UnknownTag" and (name in CONTROLS or name.startswith("end"))


def may_have_begun(fault, end):
    """Whether the tag with the fault may have begun the block of this end or control word."""
    name = fault.piece.name
    blocks = CONTROLS.get(end) or (end.removeprefix("end"),)
    if name in blocks:
        return fault.kind != "MissingEnd"
    return fault.kind == "UnknownTag" and not is_misplaced(fault) and any(is_similar(name, block) for block in blocks)


def may_end(name, block):
    """Whether the name is that of an end, or similar to that of the block's end."""
    return name.startswith("end") or is_similar(name, f"end{block}")


def is_similar(name, block):
    """Whether few changes make the one of the other, fewer than the name has letters."""
    return bool(name) and distance(name, block) <= min(MOST_CHANGES, len(name) - 1)


def distance(left, right):
    """How many letters are put in, left out, changed, or exchanged with the next one."""
    rows = [list(range(len(right) + 1))]
    for at, letter in enumerate(left):
        row = [at + 1]
        for to, other in enumerate(right):
            row.append(min(rows[-1][to + 1] + 1, row[-1] + 1, rows[-1][to] + (letter != other)))
            if at and to and letter == right[to - 1] and left[at - 1] == other:
                row[-1] = min(row[-1], rows[-2][to - 1] + 1)
        rows.append(row)
    return rows[-1][-1]
