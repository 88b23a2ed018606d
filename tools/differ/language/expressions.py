"""Expressions, chains and conditions, and what they come to."""
from .faults import Fault
from .filters import OWN_FUNCTIONS, apply
from .tree import Literal
from .values import compare, find, is_scalar, is_truthy, same, text_of


def try_evaluate(expression, environment):
    """The value in a list, or the empty list where it is missing."""
    if isinstance(expression, Literal):
        return [expression.value]
    held = environment.look_up(expression.name)
    steps = [try_evaluate(step, environment) for step in expression.steps]
    if not held or not all(step and is_scalar(step[0]) for step in steps):
        return []
    return find(held[0], [step[0] for step in steps])


def sought(expression, environment):
    """The value in a list, or the empty list where it is missing and that is no fault."""
    found = try_evaluate(expression, environment)
    if not found and not environment.missing_is_nil:
        raise Fault("UnknownVariable")
    return found


def evaluate(expression, environment):
    found = sought(expression, environment)
    return found[0] if found else None


def evaluate_chain(chain, environment):
    """A missing entry is nil before a filter."""
    found = try_evaluate(chain.entry, environment)
    if not found and not chain.calls and not environment.missing_is_nil:
        raise Fault("UnknownVariable")
    value = found[0] if found else None
    for call in chain.calls:
        arguments = [evaluate(argument, environment) for argument in call.arguments]
        arguments += [(try_evaluate(expression, environment) or [None])[0] for expression in call.given]
        value = answered(environment.filters[call.name], value, arguments, environment)
    return value


def answered(function, value, arguments, environment):
    """What a filter answers. In a lenient run one of the language's own gets an empty list for a nil that it refuses, and then 0."""
    is_forgiven = environment.missing_is_nil and value is None and function in OWN_FUNCTIONS
    for given in (None, []) if is_forgiven else ():
        try:
            return apply(function, given, arguments)
        except Fault as fault:
            if fault.kind != "InvalidInput":
                raise
    return apply(function, 0 if is_forgiven else value, arguments)


def holds(condition, environment):
    return any(all(atom_holds(atom, environment) for atom in atoms) for atoms in condition)


def atom_holds(atom, environment):
    if atom.operator is None:
        found = try_evaluate(atom.left, environment)
        return bool(found) and is_truthy(found[0])
    left = sought(atom.left, environment)
    right = sought(atom.right, environment)
    if not left or not right:
        return beside_missing(atom.operator, left[0] if left else None, right[0] if right else None)
    if atom.operator == "contains" and left[0] is None and environment.missing_is_nil:
        return False
    return compared(atom.operator, left[0], right[0])


def beside_missing(operator, left, right):
    """Where a side is missing, `==` and `!=` compare nil in its place, and the others are false."""
    if operator in ("==", "!=", "<>"):
        return compared(operator, left, right)
    return False


def compared(operator, left, right):
    if operator == "==":
        return same(left, right)
    if operator in ("!=", "<>"):
        return not same(left, right)
    if operator == "contains":
        return contains(left, right)
    order = compare(left, right)
    if order is None:
        return False
    return {"<": order < 0, ">": order > 0, "<=": order <= 0, ">=": order >= 0}[operator]


def contains(left, right):
    if left is None:
        raise Fault("UnexpectedValue")
    if isinstance(left, list):
        return any(same(item, right) for item in left)
    if isinstance(left, dict):
        return is_scalar(right) and text_of(right) in left
    return text_of(right) in text_of(left)


