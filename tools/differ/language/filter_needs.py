"""What filters see of their input (docs/use/paths.md), by what is asked of the answer."""
from . import tree
from .parts import NOTHING, THERE, WHOLE, Use
from .values import whole

MOST_CALLS = 32
ENDS = ("first", "last")
PICKING = ("where", "sort", "sort_natural")


def input_use(calls, use):
    """What a chain of these calls asks of its entry."""
    if len(calls) > MOST_CALLS:
        return WHOLE
    is_before_picking = False
    for call in reversed(calls):
        # an end of what is picked from, where a map counts as the list of itself, is asked for whole
        use = WHOLE if is_before_picking and call.name in ENDS else needs(call, use)
        is_before_picking = is_before_picking or call.name in PICKING
    return use


def needs(call, use):
    """What a call asks of its input for this use of its answer."""
    name, key = call.name, property_of(call)
    of_item = items_wanted(use)
    if name == "size":
        return Use(items=NOTHING)
    if name in ENDS:
        return Use(members={name: use})
    if name in ("reverse", "concat"):
        return Use(items=of_item)
    if name == "map" and key is not None:
        return Use(items=Use(members={key: of_item.joined(THERE)}))
    if name in PICKING and key is not None:
        return picked(of_item.joined(Use(members={key: WHOLE})))
    if name == "compact" and not call.arguments:
        return Use(items=of_item.joined(THERE))
    if name == "compact" and key is not None:
        return Use(items=of_item.joined(Use(members={key: THERE})))
    if name == "default":
        return use.joined(Use(items=NOTHING))
    return WHOLE


def property_of(call):
    """The property that a literal text other than size names, None where there is none."""
    if not call.arguments or not isinstance(call.arguments[0], tree.Literal):
        return None
    value = call.arguments[0].value
    return value if isinstance(value, str) and value != "size" else None


def picked(of_item):
    """A map counts as the list of itself. A list that is handed on in a list is asked for whole."""
    if of_item.is_whole or of_item.items or any(is_place(key) for key in of_item.members):
        return WHOLE
    return Use(False, of_item.members, of_item)


def items_wanted(use):
    """All that is asked of an item of a list, in a loop or by its place."""
    if use.is_whole:
        return WHOLE
    wanted = use.items or NOTHING
    for key, part in use.members.items():
        wanted = wanted.joined(part) if is_place(key) else wanted
    return wanted


def is_place(key):
    return key in ENDS or whole(key) is not None
