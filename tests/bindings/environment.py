"""Calls the package for Python as its users do: values that JSON doesn't have, environments, partials of a folder, pickles."""
import collections
import dataclasses
import decimal
import doctest
import enum
import importlib
import os
import pickle
import sys
import tempfile
import threading
import types
import uuid
import warnings
from datetime import date, datetime, time, timedelta, timezone

sys.dont_write_bytecode = True

from checks import TOP, first, raises, report, same

sys.path.insert(0, f"{TOP}/tests/bikleinu")

import bikleinu
from folders import random_folders
from bikleinu import Data, DataError, Environment, LiquidError, Partials, Template

Decimal = decimal.Decimal
PLUS_TWO = timezone(timedelta(hours=2))


class Colour(enum.Enum):
    RED = "red"


class Size(str, enum.Enum):
    LARGE = "large"


class Count(enum.IntEnum):
    TWO = 2


@dataclasses.dataclass
class Person:
    name: str


def nested(levels):
    """A map in which lists stand in one another, so many levels with the map."""
    value = 1
    for _ in range(levels - 1):
        value = [value]
    return {"a": value}


def itself():
    value = {}
    value["me"] = value
    return value


SMALLER = 'give a whole number of a smaller unit, as cents, a text, or decimals="text"'
OTHER = "give a dict, a list, a text, a whole number, True, False or None, as str(value), or convert it by default="
DEEP = "more than 127 lists and maps stand in one another here, or one stands in itself"
# Data that are refused: what str of the error says, and its number.
REFUSED = [
    ({"rows": [{"price": 1}, {"price": 19.99}]}, f"Float: rows[1].price: 19.99 is a float, and numbers are whole here: {SMALLER}", 7),
    ({"a": 2.0}, f"Float: a: 2.0 is a float, and numbers are whole here: {SMALLER}", 7),
    ({"a": Decimal("1.50")}, f"Float: a: 1.50 is a Decimal, and numbers are whole here: {SMALLER}", 7),
    ({"a": float("nan")}, "InvalidInput: a: nan is a float, which JSON doesn't have: give None or a text", 2),
    ({"a": Decimal("-Infinity")}, "InvalidInput: a: -Infinity is a Decimal, which JSON doesn't have: give None or a text", 2),
    ({"a": 2**63}, "Float: a: 9223372036854775808 has more than 64 bits: give a text, as str(value)", 7),
    ({"a": 10**5000}, "Float: a: a number of 16610 bits has more than 64 bits: give a text, as str(value)", 7),
    ({"a": date(2024, 5, 3)}, "InvalidInput: a: 2024-05-03 is a date, which JSON doesn't have: give a text, or dates=True", 2),
    ({"a": {"b": b"x"}}, "InvalidInput: a.b: a value of the class bytes, which JSON doesn't have: decode it, as value.decode()", 2),
    ({"a": {1, 2}}, "InvalidInput: a: a value of the class set, which JSON doesn't have: give a list, which has an order, as sorted(value)", 2),
    ({"a": (it for it in "ab")}, "InvalidInput: a: a value of the class generator, which JSON doesn't have: give a list, as list(value)", 2),
    ({"a": Colour.RED}, "InvalidInput: a: a value of the class Colour, which JSON doesn't have: give value.value", 2),
    ({"a": Person("Ada")}, "InvalidInput: a: a value of the class Person, which JSON doesn't have: give dataclasses.asdict(value)", 2),
    ({"a": time(1, 2)}, f"InvalidInput: a: a value of the class time, which JSON doesn't have: {OTHER}", 2),
    ({"a": uuid.UUID(int=1)}, f"InvalidInput: a: a value of the class UUID, which JSON doesn't have: {OTHER}", 2),
    ({"a": [{2: 3}]}, "InvalidInput: a[0]: has the key 2, a value of the class int, and names are texts: give str(key)", 2),
    ({None: 3}, "InvalidInput: the data: has the key None, a value of the class NoneType, and names are texts: give str(key)", 2),
    ({"unit price": [1.5]}, f'Float: ["unit price"][0]: 1.5 is a float, and numbers are whole here: {SMALLER}', 7),
    ({"a\n": 1.5}, f'Float: ["a\\u{{a}}"]: 1.5 is a float, and numbers are whole here: {SMALLER}', 7),
    ({"a": ["\ud800"]}, "NoText: a[0]: the text holds half of a surrogate pair, so it can't be written as UTF-8", 101),
    ([1], "InvalidInput: the data: a value of the class list, and a mapping from names to values is wanted", 2),
    (nested(128), f"InvalidInput: a{'[0]' * 20}: {DEEP}".replace("[0]: more", "..: more"), 2),
]


def refused():
    for data, message, number in REFUSED:
        try:
            Data(data)
            return f"no error, and {message} is wanted"
        except DataError as error:
            shown = str(error)
            if (shown, error.number) != (message, number) and not (DEEP in message and DEEP in shown):
                return f"{shown!r}, {error.number}, and {message!r}, {number} is wanted"
            if str(pickle.loads(pickle.dumps(error))) != shown:
                return "another error when it was pickled"
    return None


# Values, what `{{ a }}` shows of them, and the options.
SHOWN = [
    (19.99, "19.99", {"decimals": "text"}),
    (2.0, "2.0", {"decimals": "text"}),
    (1e22, "1" + "0" * 22, {"decimals": "text"}),
    (1e-7, "0.0000001", {"decimals": "text"}),
    (Decimal("19.90"), "19.90", {"decimals": "text"}),
    (Decimal("1E+1000000000"), "1E+1000000000", {"decimals": "text"}),
    (date(2024, 5, 3), "2024-05-03 00:00:00 +0000", {"dates": True}),
    (date(2024, 5, 3), "2024-05-03 00:00:00 +0200", {"dates": PLUS_TWO}),
    (datetime(24, 5, 3, 14, 30, 1, 5, PLUS_TWO), "0024-05-03 14:30:01 +0200", {"dates": True}),
    (datetime(2024, 5, 3, 14, 30, tzinfo=timezone(timedelta(minutes=-90))), "2024-05-03 14:30:00 -0130", {"dates": True}),
    (datetime(2024, 5, 3, 14, 30), "2024-05-03 14:30:00 +0200", {"dates": PLUS_TWO}),
    (Colour.RED, "red", {"default": lambda value: value.value}),
    (1.5, "3", {"default": lambda value: int(value * 2)}),
    (Size.LARGE, "large", {}),
    (Count.TWO, "2", {}),
    (-(2**63), "-9223372036854775808", {}),
    (types.MappingProxyType({"b": 1}), "b1", {}),
    (collections.ChainMap({"b": 1}), "b1", {}),
    ((1, 2), "12", {}),
    ("\u00e9\U0001f600", "\u00e9\U0001f600", {}),
]
UNDATED = "2024-05-03 00:00:00 is a datetime without a time zone: give it one, or to all such dates=timezone.utc"
NO_DATE = "which no date of the language is: its offset has whole minutes, and its year is below 9999"


def shown():
    template = Template("{{ a }}")
    return first(
        [
            *(same(lambda: template.render(Data({"a": value}, **how)), text) for value, text, how in SHOWN),
            same(lambda: Data({"a": datetime(2024, 5, 3)}, dates=True), f"DataError: InvalidInput: a: {UNDATED}"),
            same(
                lambda: Data({"a": datetime(9999, 1, 1, tzinfo=PLUS_TWO)}, dates=True),
                f"DataError: InvalidInput: a: 9999-01-01 00:00:00+02:00 is a datetime, {NO_DATE}",
            ),
            same(
                lambda: Data({"a": datetime(2024, 1, 1, tzinfo=timezone(timedelta(hours=1, seconds=1)))}, dates=True),
                f"DataError: InvalidInput: a: 2024-01-01 00:00:00+01:00:01 is a datetime, {NO_DATE}",
            ),
            same(lambda: Data(itself()).__class__, f"DataError: InvalidInput: {'me.' * 20}..: {DEEP}"),
            same(lambda: Data({"a": 1.5}, default=lambda value: value), f"DataError: InvalidInput: a: {DEEP}"),
            same(lambda: template.render(Data(nested(127))), "1"),
            same(lambda: Template("{{ a | date: '%-d %B %Y %z' }}").render(Data({"a": date(2024, 5, 3)}, dates=True)), "3 May 2024 +0000"),
            raises(lambda: Data({}, decimals="float"), ValueError),
            raises(lambda: Data({}, dates="utc"), TypeError),
        ]
    )


def names():
    template = Template("{{ a }}{{ b }}")
    return first(
        [
            same(lambda: template.render(a=1, b=2), "12"),
            same(lambda: template.render({"a": 1, "b": 1}, b=2), "12"),
            same(lambda: bikleinu.render("{{ data }}", {"data": 3}), "3"),
            raises(lambda: template.render('{"a": 1}', b=2), TypeError),
            raises(lambda: template.render(Data({"a": 1}), b=2), TypeError),
            same(lambda: template.render(a=1, b=1.5), f"DataError: Float: b: 1.5 is a float, and numbers are whole here: {SMALLER}"),
        ]
    )


def one_data():
    """Data that are read once and rendered by many templates."""
    data = Data({"n": [1, 2, 3]})
    pages = [Template(source).render(data) for source in ("{{ n[0] }}", "{{ n.last }}", "{{ n | join: '-' }}", "{{ n }}")]
    return None if pages == ["1", "3", "1-2-3", "123"] else f"{pages}"


def refusal(call):
    try:
        return f"{call()} isn't refused"
    except LiquidError as error:
        return str(error)


def for_one_template():
    """Data of which no more is read than a template sees show its page as all of them do, and are refused alike."""
    made = Environment(partials={"line": "{{ line.count }} {{ line.tea }};"}, decimals="text")
    template, other = made.from_string("{% for line in lines %}{% render 'line', line: line %}{% endfor %}"), made.from_string("{{ n }}")
    text = '{"lines": [{"count": 2, "tea": "green", "of": "Assam"}, {"count": 1, "tea": "black", "of": "Ceylon"}], "n": 7}'
    read, others = template.data(text), Partials({"line": "{{ line.of }}."})
    return first(
        [
            same(lambda: template.render(read), "2 green;1 black;"),
            same(lambda: template.render(template.data({"lines": [{"count": 0.5, "tea": [1]}]})), "0.5 1;"),
            same(lambda: template.render(template.data(text, others), others), "Assam.Ceylon."),
            same(lambda: refusal(lambda: template.page(read, others))[:11], "OtherPaths:"),
            same(lambda: refusal(lambda: other.render(read))[:11], "OtherPaths:"),
            same(lambda: made.from_string("{{ lines.size }}").render(made.from_string("{{ lines }}").data(text)), "2"),
            same(lambda: other.render(other.data(text)), "7"),
            same(lambda: template.render(template.data('{"lines": [{"of": 1}]}'), missing="nil"), " ;"),
            *(same(lambda: refusal(lambda: other.data(bad)), refusal(lambda: Data(bad))) for bad in ('{"n": 1,\n"m": 1.5}', '{"m": [}', "[]")),
            raises(lambda: other.data('{"n": 1, "m": 1.5}'), LiquidError),
            raises(lambda: other.data({"m": {1, 2}}), DataError),
        ]
    )


def environment():
    made = Environment(partials={"end": "{{ n }}{% render 'deep' %}", "deep": "!"}, decimals="text", depth=1, max_bytes=5)
    template = made.from_string("{{ n }}:{% include 'end' %}")
    return first(
        [
            same(lambda: made.from_string("{{ n }}{% render 'deep' %}").render(n=1.5), "1.5!"),
            same(lambda: template.page(n=1).fault.name, "TooDeep"),
            same(lambda: template.render(n=1, depth=2), "1:1!"),
            same(lambda: template.page(n=100, depth=2).fault.name, "BytesReached"),
            same(lambda: template.render({"n": 100}, {"end": ""}, max_bytes=9), "100:"),
            same(lambda: made.get_template("deep").render(), "!"),
            same(lambda: made.get_template("deep") is made.get_template("deep"), True),
            same(lambda: made.get_template("dep"), "LookupError: no partial is named 'dep'; did you mean 'deep'?"),
            same(lambda: made.from_string("{{ n }}").render(made.data({"n": 0.5})), "0.5"),
            same(
                lambda: made.from_string("{{ x | pope }}"),
                "LiquidError: UnknownFilter: line 1, column 8: no filter is named `pope`; did you mean `pop`?",
            ),
            raises(lambda: Environment(depth=-1), ValueError),
            raises(lambda: Environment(max_turns=-1), ValueError),
            raises(lambda: Environment(partials=["p"]), TypeError),
            same(lambda: made.partials.insert("deep", "?") or made.get_template("deep").render(), "?"),
        ]
    )


def missing():
    """What is missing, which is a fault or nil."""
    source = "{{ a.b }}|{% for r in rows %}{{ r.x }};{% endfor %}{% render 'end', who: who %}"
    made = Environment(partials={"end": "{{ who.name }}."}, missing="nil")
    template = made.from_string(source)
    rows, shared = {"rows": [{"x": 1}, {}]}, made.data({"rows": [{}], "a": {"c": 2}})
    again = pickle.loads(pickle.dumps(template))
    return first(
        [
            same(lambda: template.paths(), ["a.b", "rows[].x", "who.name"]),
            same(lambda: Template("{{ a.b }}{% if c %}{% endif %}").paths(), ["a.b", "c?"]),
            same(lambda: template.render(rows), "|1;;."),
            same(lambda: template.render(rows, a={"b": 2}, who={"name": "Ada"}), "2|1;;Ada."),
            same(lambda: template.render(shared), "|;."),
            same(lambda: again.render(shared), "|;."),
            same(lambda: template.page(shared, missing="fault").fault.name, "UnknownVariable"),
            same(lambda: template.render(a=None, rows=[]), "|."),
            same(lambda: made.from_string("{% if who %}{{ who.name }}{% else %}{{ who.name }}-{% endif %}").render(), "-"),
            same(lambda: Template("[{{ a.b.c }}]").render(missing="nil"), "[]"),
            same(lambda: Template("[{{ a.b.c }}]").render('{"a": {}}', missing="nil"), "[]"),
            same(lambda: bikleinu.render("[{{ a }}]", missing=lambda name: name * 2), "[aa]"),
            same(lambda: made.partials.insert("end", "{{ who.age }}") or template.render(rows), "|1;;"),
            same(lambda: template.paths(), ["a.b", "rows[].x", "who.age"]),
            raises(lambda: template.render(missing="null"), ValueError),
            raises(lambda: Environment(missing=None), ValueError),
        ]
    )


def pickled():
    """Templates with their environment, as worker processes get them."""
    made = Environment(partials={"end": "!"}, dates=PLUS_TWO, decimals="text", max_turns=50, default=str)
    template = made.from_string("{{ a }} {{ b }} {{ c }}{% include 'end' %}")
    first_one, second = pickle.loads(pickle.dumps([template, made.get_template("end")]))
    page = first_one.render(a=date(2024, 5, 3), b=0.5, c=uuid.UUID(int=1))
    wanted = "2024-05-03 00:00:00 +0200 0.5 00000000-0000-0000-0000-000000000001!"
    return first(
        [
            None if page == wanted else f"{page!r}",
            None if second.render() == "!" and first_one.source == template.source else "another template",
            None if first_one.page(c="x" * 9, a=1).fault.name == "UnknownVariable" else "another fault",
            raises(lambda: pickle.dumps(Data({})), TypeError),
            raises(lambda: pickle.dumps(Environment(default=lambda value: value)), (pickle.PicklingError, AttributeError)),
        ]
    )


FILES = {"a.liquid": "1", "a": "2", "b.html.liquid": "3", "parts/line.liquid": "{{ x }}\r\n", "parts/.hidden": "{% nope %}", ".git/x": "{%"}


def folder():
    """The files of a folder as partials."""
    with tempfile.TemporaryDirectory() as room:
        for path, text in FILES.items():
            os.makedirs(os.path.dirname(f"{room}/{path}"), exist_ok=True)
            with open(f"{room}/{path}", "w", encoding="utf-8", newline="") as file:
                file.write(text)
        os.symlink(f"{room}/parts", f"{room}/link")
        os.symlink(f"{room}/a", f"{room}/c")
        found = Partials.from_folder(room)
        page = Template("{% include 'a' %}{% include 'a.liquid' %}{% include 'b.html' %}{% render 'parts/line', x: 7 %}{% render 'c' %}")
        wrong = first(
            [
                same(lambda: sorted(found.sources), ["a", "a.liquid", "b.html", "b.html.liquid", "c", "parts/line", "parts/line.liquid"]),
                same(lambda: page.render(None, found), "2137\r\n2"),
                same(lambda: Environment(partials=room).get_template("parts/line").render(x=5), "5\r\n"),
                raises(lambda: Partials.from_folder(f"{room}/nothing"), FileNotFoundError),
                raises(lambda: Partials.from_folder(f"{room}/a"), NotADirectoryError),
            ]
        )
        with open(f"{room}/b.html.liquid", "wb") as file:
            file.write(b"one\ntwo\xff")
        message = f"LiquidError: NoText: the file '{room}/b.html.liquid' is no UTF-8 in line 2"
        return wrong or same(lambda: Partials.from_folder(room), message)


def names_found(call):
    """The names of the partials that a call answers, or None where a file is refused, and what the warnings say."""
    with warnings.catch_warnings(record=True) as seen:
        warnings.simplefilter("always")
        try:
            found = sorted(call().sources)
        except LiquidError:
            found = None
    return found, sorted(str(it.message) for it in seen)


def read_as_by_the_program(made):
    """A folder's texts are partials, what is no text is left out with a warning for each, and what isn't UTF-8 is an error: of the
    folder as a whole, and in an environment of that file alone."""
    names = sorted({*made.texts, *(inner.rpartition(".")[0] for inner in made.texts if "." in inner)})
    whole, own = names_found(lambda: Partials.from_folder(made.path)), names_found(lambda: Environment(partials=made.path).partials)
    wanted = names, made.lines(made.path)
    return own == wanted and (whole[0] is None if made.refused else whole == wanted)


def written(room, **files):
    """Puts these files into a folder. One that was there has another time than before."""
    for name, content in files.items():
        path = f"{room}/{name}.html"
        last = os.stat(path).st_mtime_ns if os.path.exists(path) else 0
        with open(path, "wb") as file:
            file.write(content if isinstance(content, bytes) else content.encode())
        if last:
            os.utime(path, ns=(last + 10**9, last + 10**9))


def cause(page):
    """The text of a page, its fault, and the cause of that."""
    return page.text, str(page.fault), str(page.fault.__cause__)


def only_what_runs():
    """Of a folder only what a page leads to is read, once, and what is refused there is a fault of the pages that run it."""
    with tempfile.TemporaryDirectory() as room:
        written(room, a="a{% render 'b', y: 1 %}", b="{{ y }}", bad="1\n{{ x | pope }}", tail="ab\n\u00e9c\xff".encode("latin-1"), image=b"\0", me="{% if n %}{% include 'me' %}{% endif %}{{ z }}")
        made = Environment(partials=room)
        template, runs = made.from_string("{% if x %}{% include 'bad' %}{% endif %}{% render 'a' %}"), made.from_string("<{% include 'bad' %}")
        own = "UnknownFilter: in the partial `bad`: line 2, column 8: no filter is named `pope`; did you mean `pop`?"
        text = "NoText: in the partial `tail`: line 2, column 1: the file '{}/tail.html' is no UTF-8 in line 2".format(room)
        computed, shout = made.from_string("{% include n %}"), Environment(partials=room, filters={"shout": str.upper})
        with warnings.catch_warnings(record=True) as seen:
            warnings.simplefilter("always")
            wrong = first(
                [
                    same(lambda: template.render(x=None), "a1"),
                    same(lambda: cause(runs.page()), ("<", f"UnknownPartial: line 1, column 13: the partial `bad` is refused: {own}", own)),
                    same(lambda: (runs.page().fault.__cause__.kind.name, runs.page().fault.__cause__.place.partial), ("UNKNOWN_FILTER", "bad")),
                    raises(lambda: runs.render(), LiquidError),
                    same(lambda: template.render(x=None), "a1"),
                    same(lambda: made.from_string("{% render 'tail' %}").page().fault.__cause__.__str__(), text),
                    same(lambda: shout.from_string("{{ 'a' | shout }}{% include 'bad' %}").page().fault.__cause__.number, 27),
                    same(lambda: (made.from_string("{% include 'a' %}").paths(), made.from_string("{% include 'me' %}").paths()), ([], ["n?", "z"])),
                    same(lambda: made.from_string("{% include 'me' %}").page(n=1, z=1).fault.name, "TooDeep"),
                    same(lambda: [str(it.message) for it in seen], []),
                    same(lambda: made.from_string("{% include 'image' %}").page().fault.__cause__.name, "NoText"),
                    same(lambda: [str(it.message) for it in seen], [f"left out: {room}/image.html is no text: it has a byte 0"]),
                    same(lambda: computed.render(n="b", y=2), "2"),
                    same(lambda: cause(computed.page(n="bad"))[2], own),
                    same(lambda: cause(computed.page(n="bat"))[1:], ("UnknownPartial: line 1, column 12: no partial is named `bat`; did you mean `bad`?", "None")),
                    same(lambda: cause(made.from_string("{% include 'tale' %}").page())[1], "UnknownPartial: line 1, column 12: no partial is named `tale`; did you mean `tail`?"),
                    same(lambda: made.get_template("bad"), f"LiquidError: {own}"),
                    same(lambda: made.get_template("b").render(y=3), "3"),
                    same(lambda: pickle.loads(pickle.dumps(template)).render(x=None), "a1"),
                    same(lambda: cause(pickle.loads(pickle.dumps(runs)).page())[2], own),
                    same(lambda: made.partials.insert("bad", "good{% include 'b' %}") or runs.render(y=4), "<good4"),
                    raises(lambda: made.partials.insert("bad", "{%"), LiquidError),
                    same(lambda: bikleinu.render("{% include 'b' %}", {"y": 5}, made.partials), "5"),
                ]
            )
        return wrong


def reloaded():
    """A file that changes is read again where that is asked for, and else it stays as it was read."""
    with tempfile.TemporaryDirectory() as room:
        written(room, a="1")
        once, again = Environment(partials=room), Environment(partials=room, auto_reload=True)
        pages = [made.from_string("{% include 'a' %}") for made in (once, again)]

        def shown(**files):
            written(room, **files)
            return [page.page().text for page in pages]

        return first(
            [
                same(lambda: shown(), ["1", "1"]),
                same(lambda: shown(a="2"), ["1", "2"]),
                same(lambda: again.get_template("a").render(), "2"),
                same(lambda: shown(a="<{% render 'b' %}>"), ["1", "<"]),
                same(lambda: shown(b="new"), ["1", "<new>"]),
                same(lambda: shown(b="{{"), ["1", "<"]),
                same(lambda: pages[1].page().fault.__cause__.name, "Unclosed"),
                same(lambda: shown(b="{{ z }}"), ["1", "<"]),
                same(lambda: pages[1].paths(), []),
                same(lambda: os.remove(f"{room}/b.html") or cause(pages[1].page())[2], "None"),
                same(lambda: shown(b="third", a=b"\xff"), ["1", ""]),
                same(lambda: shown(a="4"), ["1", "4"]),
                same(lambda: gone(room), "FileNotFoundError"),
                same(lambda: in_threads(room, pages), None),
                raises(lambda: Environment(partials={}, auto_reload=True), ValueError),
            ]
        )


def gone(room):
    """Why a page lacks a file that was there when its folder was listed."""
    written(room, short="1")
    made = Environment(partials=room)
    page = made.from_string("{% include 'short' %}")
    os.remove(f"{room}/short.html")
    return type(page.page().fault.__cause__).__name__


def in_threads(room, pages):
    """Pages in eight threads while a file changes: each is of the file as it was or is."""
    found, texts = set(), [str(10**number) for number in range(20)]

    def render():
        for _ in range(50):
            found.update(page.page().text for page in pages)

    threads = [threading.Thread(target=render) for _ in range(8)]
    for thread in threads:
        thread.start()
    for text in texts:
        with open(f"{room}/next", "w", encoding="utf-8") as file:
            file.write(text)
        os.replace(f"{room}/next", f"{room}/a.html")
    for thread in threads:
        thread.join()
    last = pages[1].render()
    return None if found <= {"1", "4", *texts} and last == texts[-1] else f"{found}, {last}"


def odd_folders():
    """Folders that are made at random are read as the program reads them (tests/bikleinu/folders.py)."""
    wrong = [number for number, _, made in random_folders() if not read_as_by_the_program(made)]
    return f"the folders {wrong}" if wrong else None


def examples():
    """The examples of the docstrings."""
    names = [it[: -len(".py")] for it in os.listdir(bikleinu.__path__[0]) if it.endswith(".py") and not it.startswith("__")]
    modules = [bikleinu, *(importlib.import_module(f"bikleinu.{name}") for name in names)]
    results = [(module.__name__, doctest.testmod(module, report=False)) for module in modules]
    wrong = [name for name, result in results if result.failed]
    return f"{wrong}" if wrong or sum(result.attempted for _, result in results) < 10 else None


def keys():
    """Keys of what templates see: they differ where a page could."""
    made = Environment(partials={"line": "{{ line.title }}"}, decimals="text")
    template = made.from_string("{% for line in lines %}{% render 'line', line: line %};{% endfor %}")
    one, other = ({"lines": [{"title": "Tea", "price": price}], "n": price} for price in (1.5, 2))
    key = template.seen_key(one)
    return first(
        [
            same(lambda: template.seen_key(other), key),
            same(lambda: template.seen_key(**other), key),
            same(lambda: template.seen_key('{"lines": [{"title": "Tea"}]}'), key),
            same(lambda: template.render(key), template.render(one)),
            same(lambda: template.seen_key(lines=[{"title": "Teas"}]) == key, False),
            same(lambda: template.seen_key(one, {"line": "{{ line.price }}"}) == key, False),
            same(lambda: template.seen_key() == template.seen_key(lines=[]), False),
            raises(lambda: template.seen_key('{"lines": 1.5}'), LiquidError),
            raises(lambda: template.seen_key("{}", n=1), TypeError),
            raises(lambda: template.seen_key(lines=object()), LiquidError),
        ]
    )


CHECKS = {
    "keys of what is seen": keys,
    "data that are refused": refused,
    "what is made of values": shown,
    "names beside data": names,
    "data that are read once": one_data,
    "data for one template": for_one_template,
    "an environment": environment,
    "what the data lack": missing,
    "pickles": pickled,
    "partials of a folder": folder,
    "partials that a page leads to": only_what_runs,
    "partials that change": reloaded,
    "folders of odd things": odd_folders,
    "examples of the docstrings": examples,
}

if __name__ == "__main__":
    report(CHECKS.items())
