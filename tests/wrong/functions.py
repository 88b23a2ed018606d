"""Where the functions of a crate stand, by the layout of rt fmt, and what a check calls them."""
import re
from dataclasses import dataclass

FUNCTION = re.compile(r'^( *)(?:pub(?:\([^)]*\))? )?(const )?(?:unsafe )?(?:extern "C" )?fn (\w+)')
TRAIT = re.compile(r"^(?:pub )?trait (\w+)")
HEAD = re.compile(r"^(?:unsafe )?(?:pub )?(impl|trait)\b")
CYCLE = re.compile(r"^ *#\[cycle\((\w+)\)\]")
ENSURES = re.compile(r"^ *ensures\b")
ABOVE = re.compile(r" *(#\[|///|//)")


@dataclass(frozen=True)
class Function:
    """A function, by its file, the end of the name by which a check knows it, and the cycle of calls that it is proved with."""

    path: str
    name: str
    cycle: str


@dataclass(frozen=True)
class Twin(Function):
    """A function that stands after another one, which has its contract and a name of its own."""

    of: Function


@dataclass(frozen=True)
class Stated(Function):
    """A function with a contract of its own, and where it stands: whether among the methods of a type's own or of a trait, its
    first line with its attributes, the line that says its cycle of calls, and those between which its body is."""

    is_inherent: bool
    is_of_trait: bool
    starts: int
    marked: int
    opens: int
    closes: int


def function_at(before, path):
    """The function whose body is open where the text ends, or None."""
    lines = before.split("\n")
    starts = [at for at, line in enumerate(lines) if FUNCTION.match(line)]
    if not starts:
        return None
    start = starts[-1]
    indent = FUNCTION.match(lines[start])[1]
    rest = lines[start:]
    ends = any(line.startswith(indent + "}") for line in rest[1:])
    if ends or not any(opens_body(line, indent) for line in rest):
        return None
    name, _ = known_as(lines[: start + 1], path)
    cycle, _ = cycle_of(lines[: start + 1])
    return Function(path, name, cycle)


def located_functions(text, path):
    """The functions of a file, each with the place in the text at which its first line begins."""
    lines, found, at = text.split("\n"), [], 0
    for number, line in enumerate(lines):
        if FUNCTION.match(line):
            above = lines[: number + 1]
            found.append((at, Function(path, known_as(above, path)[0], cycle_of(above)[0])))
        at += len(line) + 1
    return found


def stated_functions(text, path):
    """The functions of a file that have a contract of their own and a body below it, without those that a constant may call."""
    lines, found = text.split("\n"), []
    for head, line in enumerate(lines):
        called = FUNCTION.match(line)
        if not called or called[2]:
            continue
        indent = called[1]
        opens = next((at for at in range(head + 1, len(lines)) if lines[at] == indent + "{" or FUNCTION.match(lines[at])), head)
        if lines[opens] == indent + "{" and any(ENSURES.match(it) for it in lines[head:opens]):
            closes = lines.index(indent + "}", opens)
            name, is_inherent = known_as(lines[: head + 1], path)
            cycle, marked = cycle_of(lines[: head + 1])
            is_of_trait = bool(indent) and not is_inherent
            found.append(Stated(path, name, cycle, is_inherent, is_of_trait, first_line(lines, head), marked, opens, closes))
    return found


def unstated_functions(text, path):
    """The functions of a file without a contract that aren't of a trait or in a cycle of calls, and that say the type of their answer,
    without those that a constant or a caller in C may call."""
    lines, found = text.split("\n"), []
    for head, line in enumerate(lines):
        called = FUNCTION.match(line)
        if not called or called[2] or called[3] == "main" or 'extern "C"' in line:
            continue
        indent = called[1]
        opens = next((at for at in range(head, len(lines)) if lines[at].endswith(("{", ";", "}"))), head)
        signature = lines[head : opens + 1]
        name, is_inherent = known_as(lines[: head + 1], path)
        is_plain = lines[opens].endswith(" {") and (is_inherent or not indent) and not cycle_of(lines[: head + 1])[0]
        if is_plain and not any(ENSURES.match(it) or "-> impl " in it for it in signature):
            closes = lines.index(indent + "}", opens)
            found.append(Stated(path, name, "", is_inherent, False, first_line(lines, head), len(lines), opens, closes))
    return found


def bound_functions(text, path, traits):
    """The functions of a file that have no contract of their own, but one by their trait, without those in a cycle of calls. The traits
    are given by their names, each with the functions for which it states one."""
    lines, found = text.split("\n"), []
    for head, line in enumerate(lines):
        called = FUNCTION.match(line)
        if not called or not called[1] or called[2] or called[3] not in traits.get(trait_of(lines[: head + 1]), ()):
            continue
        indent = called[1]
        opens = next(at for at in range(head, len(lines)) if lines[at].endswith(("{", ";", "}")))
        is_in_cycle = bool(cycle_of(lines[: head + 1])[0])
        if lines[opens].endswith(" {") and not is_in_cycle and not any(ENSURES.match(it) for it in lines[head : opens + 1]):
            name, _ = known_as(lines[: head + 1], path)
            found.append(Stated(path, name, "", False, True, first_line(lines, head), len(lines), opens, lines.index(indent + "}", opens)))
    return found


def trait_functions(text):
    """The names of the functions for which the traits of a file state a contract, by the name of the trait."""
    lines, found = text.split("\n"), {}
    for head, line in enumerate(lines):
        called = FUNCTION.match(line)
        named = next((TRAIT.match(it) for it in reversed(lines[:head]) if HEAD.match(it)), None)
        if called and called[1] and named:
            ends = next((at for at in range(head + 1, len(lines)) if lines[at] == "}" or FUNCTION.match(lines[at])), head)
            if any(ENSURES.match(it) for it in lines[head:ends]):
                found.setdefault(named[1], set()).add(called[3])
    return found


def trait_of(lines):
    """The name of the trait that the impl is of in which the last line stands, or an empty text."""
    head = next((it for it in reversed(lines) if HEAD.match(it)), "")
    found = re.match(r"(?:unsafe )?impl\b(?:<.*?>)? (?:\w+::)*(\w+)(?:<.*>)? for ", head)
    return found[1] if found else ""


def first_line(lines, head):
    """Where the attributes and the comments above the function's line begin."""
    return next(at for at in range(head, -1, -1) if at == 0 or not ABOVE.match(lines[at - 1]))


def opens_body(line, indent):
    is_clause = re.match(r" *(requires|ensures|ghost)\b", line)
    return line == indent + "{" or (line.rstrip().endswith(" {") and not is_clause)


def known_as(above, path):
    """The end of the name of the function whose first line is the last of these, and whether it is a method of a type's own."""
    indent, _, name = FUNCTION.match(above[-1]).groups()
    own, is_inherent = owner(above) if indent else ("", False)
    # a method of a type's own is known by the module of the type, which may be another
    known = [own, name] if is_inherent else [*modules(path), *filter(None, [own]), name]
    return "::".join(known), is_inherent


def modules(path):
    parts = path.removeprefix("src/").removesuffix(".rt").split("/")
    return [part for part in parts if part not in ("lib", "main", "mod")]


def owner(lines):
    """How a check names the impl or the trait in which the last line stands, by its type and by the trait with its arguments,
    and whether it is an impl of the type's own."""
    at = next((at for at in range(len(lines) - 1, -1, -1) if HEAD.match(lines[at])), None)
    if at is None:
        return "", False
    is_impl = HEAD.match(lines[at])[1] == "impl"
    head = " ".join(line.strip() for line in lines[at:]).partition("{")[0].partition(" where ")[0]
    head = re.sub(r"^(?:unsafe )?(?:pub )?(?:impl|trait)\b", "", head).strip()
    generics, head = leading_generics(head)
    of_trait, _, of_type = head.rpartition(" for ")
    if is_impl and not of_trait:
        return words_of(re.sub(r"<.*", "", of_type), generics), True
    return words_of(of_type, generics) + words_of(of_trait, generics), False


def leading_generics(head):
    """The names of the type parameters that the head begins with, and the rest of it."""
    if not head.startswith("<"):
        return set(), head
    depth, end = 0, 0
    for end, sign in enumerate(head):
        depth += (sign == "<") - (sign == ">")
        if depth == 0:
            break
    return set(re.findall(r"(?:^<|, ?)(\w+)", head[: end + 1])), head[end + 1 :].strip()


def words_of(head, generics):
    """The last name of the path in the head, and those of its arguments in full, without type parameters and lifetimes."""
    head = re.sub(r"'\w+", "", head).replace("&", " Ref ")
    first, *others = re.findall(r"\w+(?:::\w+)*", head) or [""]
    names = [first.split("::")[-1], *("".join(it[:1].upper() + it[1:] for it in path.split("::")) for path in others)]
    return "".join(name for name in names if name not in generics)


def cycle_of(lines):
    """The cycle of calls that the attributes above the last line name, or an empty text, and at which line."""
    for at in range(len(lines) - 2, -1, -1):
        if not ABOVE.match(lines[at]):
            break
        if CYCLE.match(lines[at]):
            return CYCLE.match(lines[at])[1], at
    return "", len(lines)
