"""Calls the library from Python: the worked rows, calls that can't be, how deep a run may go, and eight threads."""
import copy
import pickle
import re
import sys
import threading

sys.dont_write_bytecode = True

from checks import TOP, fails, first, raises, report, same

import bikleinu
from bikleinu import Data, Kind, Language, LimitError, LiquidError, Partials, Template
from texts import rows, whole

LANGUAGE = Language()


def read(row):
    """What the texts of a row are read as, in the order of the program: the template, the data and the partials; and the data as far as
    the template sees them."""
    template = Template(whole(row["source"]), LANGUAGE)
    given = whole(row["data_text"]) if "data_text" in row else row.get("data", {})
    data = Data(given)
    partials = Partials(language=LANGUAGE)
    sources = row.get("partials", {})
    for name, source in sources.items() if isinstance(sources, dict) else sources:
        partials.insert(name, whole(source))
    return template, data, partials, template.data(given, partials)


def shown(row):
    """The text of a row's page, and the fault that it ends by. A template that renders again shows the same, and over what it sees of the
    data the same up to the fault's message."""
    try:
        template, data, partials, seen = read(row)
    except LiquidError as fault:
        return "", fault
    first, second = template.page(data, partials), template.page(data, partials)
    report = [(page.text, page.fault and (page.fault.number, page.fault.message, page.fault.place)) for page in (first, second)]
    if report[0] != report[1]:
        raise AssertionError(f"{report[1]} where it was {report[0]} at first")
    for limits in ({}, {"max_turns": 3}, {"missing": "nil"}):
        pages = [template.page(it, partials, **limits) for it in (data, seen)]
        ends = [(page.text, page.fault and (page.fault.number, page.fault.place)) for page in pages]
        if ends[0] != ends[1]:
            raise AssertionError(f"{limits}: {ends[1]} over what is seen of the data, and {ends[0]} over all of it")
    return first.text, first.fault


def wrong_in(row):
    text, fault = shown(row)
    kind = row["parse_fault"] if "parse_fault" in row else row["kind"]
    if text != whole(row.get("text", "")):
        return f"{text[:200]!r}"
    if (fault.name if fault else None) != kind:
        return f"{fault}, and {kind} is wanted"
    return None


def places():
    """Where faults stand."""
    for call, wanted in (
        (lambda: Template("a\n {{ b | nope }}"), ("template", 2, None)),
        (lambda: Partials({"p": "\n\n{% nope %}"}), ("partial", 3, "p")),
        (lambda: Data('{"a":\n 1.5}'), ("data", 2, None)),
    ):
        try:
            call()
            return f"no fault, and one at {wanted} is wanted"
        except LiquidError as fault:
            report = fault.place and (fault.place.origin, fault.place.line, fault.place.partial)
            if report != wanted or not fault.message:
                return f"{fault!r}, and one at {wanted} is wanted"
    return None


def eight_threads():
    """Eight threads over one template, its data and its partials, into which one more is inserted meanwhile."""
    partials = Partials({"end": "{{ n | plus: 1 }}!"})
    template, data, well = Template("{{ n }}{% render 'end', n: n %}{{ who }}"), Data({"n": 3, "who": "Ada"}), []

    def run(number):
        mine = {"n": number, "who": "Bob"}
        pages = "34!Ada", f"{number}{number + 1}!Bob"
        if all((template.render(data, partials), template.render(mine, partials)) == pages for _ in range(500)):
            well.append(number)

    threads = [threading.Thread(target=run, args=(number,)) for number in range(8)]
    for thread in threads:
        thread.start()
    for at in range(20):
        partials.insert(f"more{at}", "{{ n }}")
    for thread in threads:
        thread.join()
    if sorted(well) != list(range(8)):
        return f"all pages right in the threads {sorted(well)} alone"
    return same(lambda: Template("{% render 'more19', n: 7 %}").render(None, partials), "7")


def as_data(template):
    """The handle of a template, handed in as data."""
    data = Data({})
    data._handle, template._handle = template._handle, data._handle
    return data


def nested(count, inside=""):
    return "{% if true %}" * count + inside + "{% endif %}" * count


# A template, its partials, the depth, and how many levels a run could reach.
LEVELS = [
    ("", {}, 32, 1),
    ("{{ 1 }}{% raw %}{% if %}{% endraw %}{% comment %}{% if %}{% endcomment %}", {}, 32, 1),
    (nested(1), {}, 32, 2),
    (nested(199), {}, 32, 200),
    (nested(3) + nested(5) + nested(4), {}, 32, 6),
    ("{% if a %}{% elsif b %}{% elsif c %}{% else %}{% endif %}", {}, 32, 2),
    ("{% if false %}" + "{% elsif false %}" * 3000 + "{% else %}x{% endif %}", {}, 32, 2),
    ("{% if false %}{% else %}{% if true %}{% endif %}{% endif %}", {}, 32, 2),
    ("{% if false %}{% else %}{% if true %}{% endif %}x{% endif %}", {}, 32, 3),
    ("{% if false %}{% else %}x{% if true %}{% endif %}{% endif %}", {}, 32, 3),
    ("{% if false %}{% if true %}{% endif %}{% else %}x{% endif %}", {}, 32, 3),
    ("{% unless true %}{% else %}{% if true %}{% endif %}{% endunless %}", {}, 32, 3),
    ("{% case 1 %}{% when 1 %}{% for i in (1..2) %}{% endfor %}{% when 2 %}{% endcase %}{% capture x %}{% endcapture %}", {}, 32, 3),
    ("{% for i in (1..2) %}{% else %}{% tablerow i in (1..2) %}{% ifchanged %}{% endifchanged %}{% endtablerow %}{% endfor %}", {}, 32, 4),
    ("x", {"p": nested(9, "{% render 'p' %}")}, 32, 1),
    (nested(1, "{% render 'p' %}"), {}, 32, 2),
    ("{% render 'p' %}", {"p": ""}, 32, 2),
    ("{% render 'p' %}", {"p": nested(1)}, 32, 3),
    ("{% render 'p' %}", {"p": nested(1)}, 0, 1),
    (nested(1, "{% include 'p' %}"), {"p": nested(1)}, 2**32 - 1, 4),
    ("{% render 'p' for (1..2) as i %}" + nested(3), {"p": nested(1)}, 32, 4),
    ("{% render 'p' %}", {"p": nested(1, "{% render 'p' %}")}, 5, 11),
    ("{% render 'p' %}", {"p": nested(1, "{% render 'p' %}") + nested(4)}, 5, 14),
    ("{% render 'q' %}", {"p": nested(1), "q": "{% include 'p' %}"}, 32, 34),
]


def levels():
    """A run isn't begun just where it could reach more levels than the bound."""
    for source, partials, depth, reached in LEVELS:
        template, partials = Template(source), Partials(partials)
        if template.page({}, partials, depth, levels=reached).text is None:
            return "no page"
        wrong = reached > 1 and fails(lambda: template.page({}, partials, depth, levels=reached - 1), bikleinu.TOO_MANY_LEVELS)
        if wrong:
            return f"{source[:60]!r} of {reached} levels: {wrong}"
    return None


def deep_threads():
    """Partials that run themselves, in threads of a small stack."""
    report = []

    def run():
        for source, depth in ((nested(100, "{% render 'a' %}"), 32), ("{% render 'a' %}", 2**32 - 1), ("{% include 'a' %}", 5000)):
            template, partials = Template(source), Partials({"a": source})
            report.append(fails(lambda: template.page({}, partials, depth), bikleinu.TOO_MANY_LEVELS))

    before = threading.stack_size(1 << 20)
    thread = threading.Thread(target=run)
    thread.start()
    thread.join()
    threading.stack_size(before)
    return first(report) if len(report) == 3 else f"{len(report)} calls, and 3 are wanted"


# A template, its limits, the text up to where it ends, and the number that it ends by, 0 where it is whole. A text, an output and a loop
# take a turn each, an `if` two, and an empty body one.
FOREVER = "(1..9223372036854775807)"
LIMITS = [
    ("{{ 'abc' }}{{ 'def' }}", {"max_bytes": 6}, "abcdef", 0),
    ("{{ 'abc' }}{{ 'def' }}", {"max_bytes": 5}, "abc", bikleinu.BYTES_REACHED),
    ("{% for i in " + FOREVER + " %}x{% endfor %}", {"max_bytes": 4}, "xxxx", bikleinu.BYTES_REACHED),
    ("{% capture c %}abcd{% endcapture %}x", {"max_bytes": 4}, "", bikleinu.BYTES_REACHED),
    ("{{ 'abc' | upcase }}", {"max_bytes": 6}, "ABC", 0),
    ("{{ 'abc' | upcase }}", {"max_bytes": 5}, "", bikleinu.BYTES_REACHED),
    ("x{% assign a = 'ab' %}" + "{% assign a = a | append: a %}" * 60 + "y", {"max_bytes": 1 << 20}, "x", bikleinu.BYTES_REACHED),
    ("x", {"max_bytes": 0}, "", bikleinu.BYTES_REACHED),
    ("", {"max_bytes": 0}, "", 0),
    ("x", {"max_turns": 0}, "", bikleinu.TURNS_REACHED),
    ("x", {"max_turns": 1}, "x", 0),
    ("a{% if true %}b{% endif %}", {"max_turns": 2}, "a", bikleinu.TURNS_REACHED),
    ("a{% if true %}b{% endif %}", {"max_turns": 3}, "a", bikleinu.TURNS_REACHED),
    ("a{% if true %}b{% endif %}", {"max_turns": 4}, "ab", 0),
    ("{% for i in " + FOREVER + " %}{{ i }}{% endfor %}", {"max_turns": 4}, "123", bikleinu.TURNS_REACHED),
    ("{% for i in " + FOREVER + " %}{% endfor %}", {"max_turns": 100000}, "", bikleinu.TURNS_REACHED),
    ("{{ nothing }}", {"max_turns": 100, "max_bytes": 100}, "", 1),
]


def limits():
    """What ends a page, and its text up to there; a page within its limits is whole."""
    for source, given, text, number in LIMITS:
        page = Template(source).page(None, **given)
        report = page.text, page.fault.number if page.fault else 0
        if report != (text, number) or isinstance(page.fault, LimitError) != (number > 100):
            return f"{source[:60]!r}, {given}: {report}, and {(text, number)} is wanted"
    return None


def kinds():
    """Each kind has its number in the header, and an error has its kind."""
    with open(f"{TOP}/include/bikleinu.h", encoding="utf-8") as file:
        report = dict(re.findall(r"^    BIKLEINU_(\w+) = (\d+),?(?: |$)", file.read().partition("/* Makes the standard")[0], re.M))
    named = {kind.name: str(kind.value) for kind in Kind}
    fault = Template("{{ a }}").page().fault
    if fault.kind is not Kind.UNKNOWN_VARIABLE or LiquidError(999, "New").kind is not None:
        return f"{fault.kind!r}"
    return None if named.items() <= report.items() else f"{set(named.items()) - set(report.items())}"


def copies():
    """What can be copied and pickled shows the same pages; data can't, and stay as they were."""
    data, partials, template = Data({"n": 1}), Partials({"p": "{{ n }}"}), Template("{% include 'p' %}")
    for copied in (copy.copy, copy.deepcopy, lambda it: pickle.loads(pickle.dumps(it))):
        wrong = raises(lambda: copied(data), TypeError)
        if wrong or copied(template).render(data, copied(partials)) != "1" or Template("x", copied(LANGUAGE)).render() != "x":
            return wrong or "another page"
    return None if template.render(data, partials) == "1" else "another page at the end"


def numbers():
    template = Template("")
    return first(
        [
            *(raises(lambda: template.page({}, None, depth), ValueError) for depth in (-1, 2**32, 2**70)),
            *(raises(lambda: template.page({}, None, depth), TypeError) for depth in (1.5, "3")),
            *(raises(lambda: template.page(levels=levels), ValueError) for levels in (0, -1, 2**32)),
            *(raises(lambda: template.page(max_turns=turns), ValueError) for turns in (-1, 2**64)),
            *(raises(lambda: template.page(max_bytes=count), ValueError) for count in (-1, 2**64)),
            raises(lambda: template.page(levels="4"), TypeError),
        ]
    )


CHECKS = {
    "how many levels a run could reach": levels,
    "partials that run themselves": deep_threads,
    "limits on bytes and turns": limits,
    "kinds": kinds,
    "copies": copies,
    "numbers out of their bounds": numbers,
    "partials as a mapping": lambda: None if Template("{% render 'p' %}").render({}, {"p": "2"}) == "2" else "another page",
    "partials of another kind": lambda: raises(lambda: Template("").page({}, ["p"]), TypeError),
    "a language of another kind": lambda: raises(lambda: Template("", "liquid"), TypeError),
    "a source that is no text": lambda: raises(lambda: Template(b"x"), TypeError),
    "bytes that are no UTF-8": lambda: fails(lambda: Template("\ud800"), bikleinu.NO_TEXT),
    "data that are no UTF-8": lambda: fails(lambda: Data('{"a":"\ud800"}'), bikleinu.NO_TEXT),
    "a name that is no UTF-8": lambda: fails(lambda: Partials({"\ud800": ""}), bikleinu.NO_TEXT),
    "a handle of another kind": lambda: fails(lambda: Template("", Data({})), bikleinu.OTHER_HANDLE),
    "a template as data": lambda: fails(lambda: Template("").page(as_data(Template(""))), bikleinu.OTHER_HANDLE),
    "where faults stand": places,
    "one template in eight threads": eight_threads,
    "one call": lambda: None if bikleinu.render("{{ a }}{% render 'p' %}", {"a": 1}, {"p": "2"}) == "12" else "another page",
}


if __name__ == "__main__":
    report([*((row["name"], lambda row=row: wrong_in(row)) for row in rows()), *CHECKS.items()])
