"""Data by a seed, and which paths lead to what in it."""
from . import samples

SCALARS = ("nil", "truth", "number", "text", "digits", "decimal", "markup", "escaped", "date")
POOLS = {
    "number": samples.NUMBERS,
    "text": samples.TEXTS,
    "digits": samples.DIGITS,
    "decimal": samples.DECIMALS,
    "markup": samples.MARKUP,
    "escaped": samples.ESCAPED,
    "date": samples.DATES,
    "truth": (True, False),
    "nil": (None,),
}
# kinds of lists: of anything, of numbers, of texts, of maps
LISTS = ("list", "numbers", "texts", "maps")
WEIGHTED = ("number",) * 4 + ("text",) * 4 + ("truth", "nil", "digits", "decimal", "markup", "escaped", "date") + LISTS * 2 + ("map",) * 3


def value_of(rng, kind, depth=0):
    """A value of the kind."""
    if kind in POOLS:
        return rng.choice(POOLS[kind])
    count = rng.choice((0, 1, 2, 2, 3, 3, 4, 6))
    if kind == "map":
        return {key: value_of(rng, part(rng, depth), depth + 1) for key in rng.sample(samples.KEYS, min(count, 4))}
    if kind == "maps":
        return [like_maps(rng) for _ in range(count)]
    parts = {"numbers": "number", "texts": "text"}
    return [value_of(rng, parts.get(kind) or part(rng, depth), depth + 1) for _ in range(count)]


def part(rng, depth):
    """The kind of a part of a list or a map, which nests a few levels."""
    return rng.choice(SCALARS if depth >= 2 else WEIGHTED)


def like_maps(rng):
    """A map with some of the keys that maps in one list share."""
    keys = rng.sample(("a", "b", "k", "title", "price"), rng.choice((1, 2, 3)))
    return {key: value_of(rng, rng.choice(("number", "text", "truth", "nil", "number", "text"))) for key in keys}


def kind_of(value):
    """The kind by which expressions are chosen."""
    if isinstance(value, list):
        if value and all(isinstance(item, dict) for item in value):
            return "maps"
        return "list"
    names = {type(None): "nil", bool: "truth", int: "number", dict: "map"}
    return names.get(type(value)) or next((kind for kind in POOLS if kind != "text" and value in POOLS[kind]), "text")


def paths(name, value, depth=0):
    """Paths to a value and to its parts, each with the kind that it leads to."""
    yield name, kind_of(value)
    if depth >= 2:
        return
    if isinstance(value, list):
        yield f"{name}.size", "number"
        for step, item in list_steps(value):
            yield from paths(f"{name}{step}", item, depth + 1)
    elif isinstance(value, dict):
        for key, held in value.items():
            yield from paths(f"{name}{step_to(key)}", held, depth + 1)
    elif isinstance(value, str) and depth < 2:
        yield f"{name}.size", "number"


def list_steps(items):
    if items:
        yield ".first", items[0]
        yield "[-1]", items[-1]
        yield "['0']", items[0]
    yield from ((f"[{place}]", item) for place, item in enumerate(items[:2]))


def step_to(key):
    """A step by a key, in a dot where it is a word."""
    is_word = key.isascii() and key[:1].isalpha() and key.replace("-", "").isalnum()
    return f".{key}" if is_word else f"['{key}']"
