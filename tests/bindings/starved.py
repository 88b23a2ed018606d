"""Calls the package for Python where memory is refused: each request that a call makes, in turn, be it the library's or Python's own.

Such a call has to raise MemoryError or a LiquidError of the kind Memory, or to answer what it answers else, where Python makes do; and
called again it answers that, and no memory is left behind. A page whose values double raises such an error in a process that may hold
little, and the next page is whole. The script starts itself anew with the library of tests/refusals/refuse.c.

Of Python's own requests those above 512 bytes are refused, which it hands on to the system. Where smaller ones were (PYTHONMALLOC=malloc),
Python 3.11 itself crashes in places, as in an iteration over a dict's items."""
import ctypes
import gc
import os
import resource
import subprocess
import sys
import tempfile

sys.dont_write_bytecode = True

from checks import TOP, raises, report

# of a call that makes more requests, so many are refused, spread over all
MOST = 200
SOURCE = "{% for p in products %}{{ p.title | upcase }}{% render 'foot', p: p %}{% endfor %}{{ shop | size }}{{ nobody }}"
DATA = {"products": [{"title": f"Tea {n}", "price": n} for n in range(20)], "shop": "Leaf", "nobody": None}
DOUBLING = "x{% for i in (1..100) %}{% assign s = s | append: s %}{% endfor %}y"
ROOM = 64 << 20
FOOT = {"foot": "[{{ p.price }}]"}


def calls(folder):
    """Calls by their names, and what each makes as a value that can be compared. A folder is for partials."""
    import bikleinu
    from bikleinu import Data, Environment, Language, Partials, Template

    for name, source in {**FOOT, "bad": "{{ a | b }}"}.items():
        with open(f"{folder}/{name}", "w", encoding="utf-8") as file:
            file.write(source)
    partials, again = Partials(FOOT), Environment(partials=folder, auto_reload=True).from_string(SOURCE)
    template, data = Template(SOURCE), Data(DATA)
    shout = Environment(filters={"shout": upper})
    mail = shout.from_string("{{ shop | shout }}{{ 'a' | shout }}")
    return {
        "a language": lambda: type(Language()).__name__,
        "jekyll's language": lambda: type(Language(jekyll=True)).__name__,
        "a template": lambda: Template(SOURCE).source,
        "data": lambda: type(Data(DATA)).__name__,
        "data of other values": lambda: type(Data({"a": 1.5, "b": [{"c": b""}]}, decimals="text", default=repr)).__name__,
        "partials": lambda: sorted(Partials(FOOT).sources),
        "partials that were used": lambda: inserted(template, data),
        "an environment": lambda: Environment(partials=FOOT).from_string(SOURCE).render(DATA),
        "a page": lambda: template.render(data, partials),
        "a page of a mapping": lambda: template.render(DATA, partials),
        "a page of a source": lambda: bikleinu.render("{{ a }}", a="b"),
        "a page within limits": lambda: template.page(data, partials, max_turns=3).text,
        "a page with nil": lambda: template.render({"shop": "Leaf"}, partials, missing="nil"),
        "data for a template": lambda: template.render(template.data(DATA, partials), partials),
        "paths": lambda: Template(SOURCE).paths(partials),
        "names": lambda: Template(SOURCE).names(partials),
        "what a function answers": lambda: template.render({}, partials, missing=DATA.get),
        "a page with filters": lambda: mail.render(shop="Leaf"),
        "new filters": lambda: Environment(filters={"shout": upper}).from_string("{{ 'a' | shout }}").render(),
        "jekyll's filters": lambda: Environment(site=("http://x.org", "/b")).from_string("{{ 'a' | absolute_url }}").render(),
        "new tags": lambda: tagged().from_string("{% loud %}a{% up 'b' %}{% endloud %}").render(),
        "given values": lambda: about().from_string("{% about %}").render(page={"title": "T"}),
        "a set of filters": lambda: Environment(filters="shopify").from_string("{{ 1999 | money }}").render({"shop": {"money_format": "{{amount}}"}}),
        "a key": lambda: template.seen_key(DATA, partials),
        "a fault": lambda: Template("{{ a | plus: 'x' }}").page({"a": 1}).fault.name,
        "a folder": lambda: Environment(partials=folder).from_string(SOURCE).render(DATA),
        "a folder that is read again": lambda: changed(again, folder, data),
        "a refused partial": lambda: str(Environment(partials=folder).from_string("{% include 'bad' %}").page().fault),
    }


def upper(text):
    return text.upper()


def about():
    """An environment with a tag that is given a value."""
    from bikleinu import Environment

    made = Environment()
    made.tag("about", given={"title": "page.title"})(titled)
    return made


def titled(title):
    return f"<{title}>"


def tagged():
    """An environment with a tag and a block."""
    from bikleinu import Environment

    made = Environment()
    made.tag("up")(upper)
    made.block("loud")(upper)
    return made


def changed(template, folder, data):
    """A page after a file changed in size."""
    file = os.open(f"{folder}/foot", os.O_WRONLY | os.O_APPEND)
    os.write(file, b" ")
    os.close(file)
    return template.render(data).replace(" ", "")


def inserted(template, data):
    """A page with partials to which one is added after a page."""
    from bikleinu import Partials

    partials = Partials(FOOT)
    template.render(data, partials)
    partials.insert("foot", "[]")
    return template.render(data, partials)


def places(count):
    return range(1, count + 1) if count <= MOST else sorted({1 + at * (count - 1) // (MOST - 1) for at in range(MOST)})


class Starving:
    """The library that refuses memory."""

    def __init__(self):
        self.library = ctypes.CDLL(None)
        self.library.refuse_begin.argtypes, self.library.refuse_begin.restype = [ctypes.c_ulong], None
        self.library.refuse_end.restype, self.library.refuse_blocks.restype = ctypes.c_ulong, ctypes.c_long

    def requests(self, call):
        """How many requests a call makes."""
        self.library.refuse_begin(0)
        call()
        return self.library.refuse_end()

    def call(self, call, at):
        """What a call answers with this request refused, and the error that it raises."""
        self.library.refuse_begin(at)
        try:
            return call(), None
        except Exception as error:
            return None, error
        finally:
            self.library.refuse_end()

    def blocks(self):
        gc.collect()
        return self.library.refuse_blocks()


def is_of_memory(error):
    from bikleinu import Kind, LiquidError

    return isinstance(error, MemoryError) or (isinstance(error, LiquidError) and error.kind is Kind.MEMORY)


def starved(starving, call):
    """What isn't well where the requests of the call are refused in turn, or None."""
    wanted = call()
    met = 0
    count = starving.requests(call)
    for at in places(count):
        made, error = starving.call(call, at)
        met += error is not None
        if not (is_of_memory(error) if error else made == wanted):
            return f"request {at} of {count}: {error or made!r}, and {wanted!r} is wanted"
        after = call()
        if after != wanted:
            return f"after request {at} of {count}: {after!r}, and {wanted!r} is wanted"
    return left(starving, call, count) if met else f"none of {count} requests was refused"


def left(starving, call, count):
    """What isn't well of the memory that is held, where the same is done twice."""
    held = []
    for _ in range(2):
        for at in places(count):
            starving.call(call, at)
        held.append(starving.blocks())
    return f"{held[1] - held[0]} pieces of memory are left behind" if held[1] > held[0] else None


def unpassed():
    """What isn't well where ctypes has no memory to pass what a call is given, of which it says so in words alone."""
    from bikleinu import _library

    def fails():
        raise ctypes.ArgumentError("argument 1: MemoryError: ")

    return raises(_library._guarded(fails), MemoryError)


def doubled():
    """What isn't well of a page whose values double, where the process may hold little more than it does."""
    from bikleinu import Template

    with open("/proc/self/statm", encoding="ascii") as file:
        held = int(file.read().split()[0]) * resource.getpagesize()
    resource.setrlimit(resource.RLIMIT_AS, (held + ROOM, resource.RLIM_INFINITY))
    for _ in range(3):
        try:
            return f"it has a page: {Template(DOUBLING).page({'s': 'ab'})}"
        except Exception as error:
            if not is_of_memory(error):
                raise
        after = Template("Hello {{ name }}!").render(name="Ada")
        if after != "Hello Ada!":
            return after
    return None


def main():
    if "REFUSE_AT" in os.environ:
        starving = Starving()
        with tempfile.TemporaryDirectory() as folder:
            checks = [(name, lambda call=call: starved(starving, call)) for name, call in calls(folder).items()]
            return report([*checks, ("what can't be passed", unpassed), ("values that double", doubled)])
    sys.path.insert(0, f"{TOP}/tests/refusals")
    from library import built

    with tempfile.TemporaryDirectory() as room:
        env = {**os.environ, "LD_PRELOAD": built(room), "REFUSE_AT": "0"}
        return subprocess.run([sys.executable, os.path.abspath(__file__), *sys.argv[1:]], env=env, check=False).returncode


sys.exit(main())
