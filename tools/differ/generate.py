"""One case by a seed: a template, data, and partials in their order."""
import json
import random
import re
from dataclasses import dataclass, replace

from generator import samples
from generator.crowds import crowded_source
from generator.data import POOLS, WEIGHTED, paths, value_of
from generator.expressions import STANDARD
from generator.nodes import Nodes
from generator.packs import PACKS
from generator.records import Records, value_of as record_of

ITEM = re.compile(r"\s+|[A-Za-z_][\w-]*|[+-]?\d+|'[^']*'|\"[^\"]*\"|\{\{-?|\{%-?|-?\}\}|-?%\}|.", re.S)
# data is read projected where it has so many bytes for each node
BYTES_OF_A_NODE = 4096
MOST_NODES = 60
# one in so many cases of uses is about the bounds of docs/use/paths.md
CROWDED = 16
# members that nobody asks for, with which the data is refused or isn't
UNSEEN = ('"zz": 1.5', '"zz": [1e999]', '"zz": {"a": -0}', '"zz": [1,]', '"zz": "\\ud800"', '"zz": 9223372036854775808', '"zz": [[[]], {}]', '"zz": 1.5, "zz": 1')
BAD_DATA = ('{"a": 1.5}', '{"a": [1, {"b": 9223372036854775808}]}', "[]", "5", "", "{", '{"a": -0}', '{"a": 1e2}', '{"a": 1e999}', '{"a": 1,}', "{'a': 1}", '{"a": 01}')


@dataclass
class Case:
    source: str
    data: str
    partials: list


def case_of(seed, number):
    """The case of this number."""
    rng = random.Random(f"{seed}/{number}")
    return made_case(rng, make_data(rng), STANDARD)


def asking_case_of(seed, number):
    """A case in which a template asks for parts of its data: half of them over records, some for about as many parts as are kept apart."""
    rng = random.Random(f"asking/{seed}/{number}")
    if number % 2:
        return case_of(seed, number)
    if number % CROWDED == 0:
        return Case(crowded_source(rng), json.dumps({name: record_of(rng, "data") for name in "pxy"}, ensure_ascii=False), [])
    names = [f"part{at}" for at in range(rng.choice((0, 1, 2)))]
    data = record_of(rng, "data")
    partials = [(name, Records(rng, names[at + 1 :] if rng.random() < 0.9 else names, rng.choice((1, 2, 4))).source()) for at, name in enumerate(names)]
    source = Records(rng, names, rng.choice((1, 2, 4, 7, 12))).source()
    return Case(source, json.dumps(data if isinstance(data, dict) else {}, ensure_ascii=False), partials)


def pack_case_of(name):
    """What makes a case over the filters of a host."""
    filters, more_data = PACKS[name]

    def make(seed, number):
        rng = random.Random(f"{name}/{seed}/{number}")
        return made_case(rng, {**make_data(rng), **more_data(rng)}, filters)

    return make


def made_case(rng, data, filters):
    known = known_paths(data)
    partials = make_partials(rng, known, filters)
    callable_partials = [(name, is_apart) for name, is_apart, _ in partials]
    source = Nodes(rng, known, callable_partials, rng.choice((1, 2, 3, 5, 7, 10, 16, 24)), filters).source()
    if rng.random() < 0.13:
        source = broken(rng, source)
    text = json.dumps(data, ensure_ascii=rng.random() < 0.2)
    if rng.random() < 0.006:
        text = rng.choice(BAD_DATA)
    return Case(source, text, [(name, text) for name, _, text in partials])


def long_case_of(seed, number):
    """A case whose data is so long that it is read projected: with white space, and with members that nobody asks for."""
    rng = random.Random(f"long/{seed}/{number}")
    case = asking_case_of(seed, number)
    nodes = case.source.count("{") + 1 + sum(text.count("{") + 1 for _, text in case.partials)
    room = " " * (BYTES_OF_A_NODE * nodes)
    if not case.data.startswith("{") or not nodes <= MOST_NODES:
        return case
    extra = json.dumps({f"unseen {at}": value_of(rng, rng.choice(WEIGHTED)) for at in range(3)}, ensure_ascii=False)
    more = rng.choice(("", "", "," + rng.choice(UNSEEN)))
    return replace(case, data=f"{{{room}{extra[1:-1]}{more}{',' if case.data != '{}' else ''}{case.data[1:]}")


def lacking_case_of(seed, number):
    """A case whose data lacks some of what the template asks for."""
    rng = random.Random(f"lacking/{seed}/{number}")
    case = asking_case_of(seed, number)
    try:
        data = json.loads(case.data)
    except ValueError:
        return case
    return replace(case, data=json.dumps(less(rng, data), ensure_ascii=False)) if isinstance(data, dict) else case


def escaping_case_of(seed, number):
    """A case of which some outputs end with `| raw`, and some data has marks of HTML."""
    rng = random.Random(f"escaping/{seed}/{number}")
    case = case_of(seed, number)
    partials = [(name, some_raw(rng, text)) for name, text in case.partials]
    data = re.sub(r"[a-z](?=\w*\"[,}\]])", lambda found: found[0] if rng.random() < 0.7 else rng.choice("<>&'"), case.data)
    return Case(some_raw(rng, case.source), data, partials)


def some_raw(rng, source):
    return re.sub(r"-?\}\}", lambda found: (" | raw" if rng.random() < 0.3 else "") + found[0], source)


def less(rng, value):
    """The value without some members of its maps."""
    if isinstance(value, dict):
        return {name: less(rng, held) for name, held in value.items() if rng.random() < 0.75}
    return [less(rng, item) for item in value] if isinstance(value, list) else value


def broken_case_of(seed, number):
    """A source with several faults."""
    rng = random.Random(f"broken/{seed}/{number}")
    case = case_of(seed, number)
    source = case.source
    for _ in range(rng.choice((1, 2, 3, 4))):
        source = broken(rng, source)
    return Case(source, "{}", [])


def make_data(rng):
    names = rng.sample(samples.NAMES, rng.choice((2, 5, 8, 10, 12)))
    if rng.random() < 0.2:
        names.append(rng.choice(samples.ODD_NAMES))
    return {name: value_of(rng, rng.choice(WEIGHTED)) for name in names}


def known_paths(data):
    """Paths into the data by their kinds."""
    known = {}
    for name, value in data.items():
        for path, kind in paths(name, value):
            known.setdefault(kind, []).append(path)
    return known


def make_partials(rng, known, filters):
    """Names, whether they are written for render, and sources."""
    names = rng.sample(samples.PARTIAL_NAMES, rng.choice((0, 1, 2, 2, 3)))
    named = [(name, rng.random() < 0.5) for name in names]
    made = []
    for at, (name, is_apart) in enumerate(named):
        # most partials call those after them, so that few call themselves without end
        others = named[at + 1 :] if rng.random() < 0.9 else named
        made.append((name, is_apart, make_partial(rng, known, is_apart, others, filters)))
    return made


def make_partial(rng, known, is_apart, others, filters):
    """A partial for render, which knows v and w alone, or for include."""
    known = {} if is_apart else {kind: list(paths) for kind, paths in known.items()}
    for kind in rng.sample(list(POOLS), 3):
        known.setdefault(kind, []).append(rng.choice(("v", "w") if is_apart or not filters.is_jekyll else ("include.v", "include.w")))
    source = Nodes(rng, known, others, rng.choice((0, 1, 2, 3, 5)), filters).source()
    return broken(rng, source) if rng.random() < 0.01 else source


def broken(rng, source):
    """The source with a few of its items taken out, put elsewhere or replaced by others."""
    parts = ITEM.findall(source)
    for _ in range(rng.choice((1, 1, 1, 2, 3))):
        place = rng.randrange(len(parts) + 1)
        draw = rng.random()
        if draw < 0.4:
            parts.insert(place, rng.choice(samples.JUNK))
        elif draw < 0.7:
            del parts[place : place + 1]
        elif draw < 0.8:
            parts[place : place + 1] = [rng.choice(samples.JUNK)]
        elif draw < 0.9 and parts:
            parts.insert(place, rng.choice(parts))
        else:
            del parts[place:]
    return "".join(parts)
