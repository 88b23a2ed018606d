"""Filters, tags and blocks in Python, Jekyll's language, names, and what stands for names that the data lack."""
import pickle
import sys
import threading

sys.dont_write_bytecode = True

from checks import first, raises, report, same

from bikleinu import Environment, Language, LimitError, LiquidError, Partials, Template


def money(cents, currency="EUR"):
    return f"{cents // 100}.{cents % 100:02} {currency}"


def pages():
    """A filter gets its input and arguments, and its answer stands in the page as any other value."""
    made = Environment(filters={"money": money, "same": lambda value: value, "all": lambda *values: list(values)})

    @made.filter()
    def shout(text):
        return text.upper() + "!"

    @made.filter("size")
    def own_size(value):
        return "own"

    @made.filter
    def whisper(text):
        return text.lower()

    made.filters["half"] = lambda number: number // 2

    data = {"a": {"b": ["x", None, True, -3], 'c"': "\u00e9\n"}, "n": 1999}
    return first(
        [
            same(lambda: made.from_string("{{ n | money }}, {{ 5 | money: 'USD' }}").render(data), "19.99 EUR, 0.05 USD"),
            same(lambda: made.from_string("{{ 'a' | shout | append: '?' | shout }}").render(), "A!?!"),
            same(lambda: made.from_string("{{ 'abc' | size }}").render(), "own"),
            same(lambda: made.from_string("{{ a.b | same | last }}{% assign s = a | same %}{{ s.b[0] }}").render(data), "-3x"),
            same(lambda: made.from_string("{{ 1 | all: 'b', true | join: '-' }}").render(), "1-b-true"),
            same(lambda: made.from_string("{% if n > 1 %}{{ n | money }}{% else %}{{ 'x' | money }}{% endif %}").render(data), "19.99 EUR"),
            same(lambda: Template("{{ 1 | money }}", Language(filters={"money": money})).render(), "0.01 EUR"),
            same(lambda: own_size(3), "own"),
            same(lambda: made.from_string("{{ 'AB' | whisper }}{{ 9 | half }}").render(), "ab4"),
            same(lambda: (whisper("C"), made.filters["whisper"], len(made.filters)), ("c", whisper, 7)),
            raises(lambda: made.filters["none"], KeyError),
            raises(lambda: made.filters.__setitem__("none", 3), TypeError),
        ]
    )


def asked_once():
    """Each call is made once, also for further pages, and by each thread for itself."""
    asked = []
    made = Environment(filters={"twice": lambda number: asked.append(number) or number * 2})
    template = made.from_string("{% for i in (1..3) %}{{ i | twice }},{{ 2 | twice }};{% endfor %}{{ n | twice }}")
    report = [template.render(n=4), template.render(n=5), sorted(asked)]
    thread = threading.Thread(target=lambda: report.append(template.render(n=4)))
    thread.start()
    thread.join()
    wanted = ["2,4;4,4;6,4;8", "2,4;4,4;6,4;10", [1, 2, 3, 4, 5], "2,4;4,4;6,4;8"]
    return None if report == wanted and len(asked) == 9 else f"{report}, {asked}"


class Lost(Exception):
    pass


def errors():
    """An error of a function ends a page that makes the call, and isn't kept."""
    fails = [True]

    def looked_up(key):
        if fails[0]:
            raise Lost(f"no {key}\nin the shelf")
        return "found"

    made = Environment(filters={"look_up": looked_up, "half": lambda number: number / 2}, decimals=None)
    template = made.from_string("a{{ 'b' | look_up }}c")
    try:
        template.render()
        return "no fault"
    except LiquidError as fault:
        wrong = first(
            [
                None if (fault.name, fault.text, fault.place.column) == ("InvalidInput", "a", 11) else f"{fault!r}",
                None if "look_up" in fault.message and "Lost: no b in the shelf" in fault.message else fault.message,
                None if isinstance(fault.__cause__, Lost) else f"the cause {fault.__cause__!r}",
            ]
        )
    fails[0] = False
    half = made.from_string("{{ 3 | half }}").page().fault
    return wrong or first(
        [
            same(lambda: template.render(), "afoundc"),
            same(lambda: made.from_string("{% if false %}{{ 'x' | look_up }}{% endif %}ok").render(), "ok"),
            None if half and "1.5 is a float" in half.message and half.__cause__.path == "answer" else f"{half!r}",
            raises(lambda: made.from_string("{{ 1 | half: 2 }}"), LiquidError),
            raises(lambda: Language(filters={"f": lambda: 1}), TypeError),
            raises(lambda: Environment(filters={"f": 3}), TypeError),
        ]
    )


def rounds():
    source = "{% assign x = 0 %}{% for i in (1..n) %}{% assign x = x | next %}{% endfor %}{{ x }}"
    template = Environment(filters={"next": lambda number: (number or 0) + 1}).from_string(source)
    few = Environment(filters={"next": lambda number: (number or 0) + 1}, max_rounds=3).from_string(source)
    return first(
        [
            same(lambda: template.render(n=40), "40"),
            raises(lambda: template.render(n=400), LimitError),
            same(lambda: few.render(n=3), "3"),
            raises(lambda: few.render(n=7), LimitError),
            same(lambda: few.render(n=1), "1"),
            raises(lambda: Environment(max_rounds=0), ValueError),
        ]
    )


def link(path, text="here"):
    return f"[{text}]({path})"


def box(body, *values):
    return f"<{','.join(map(str, values))}|{body}>"


def now(markup=""):
    return f"now {markup!r}"


def inc(path, *values):
    return f"{path}{values}"


def with_tags(**named):
    made = Environment(**named)
    made.tag(link)
    made.block("box")(box)
    made.tag("now", style="text")(now)
    made.tag(style="path")(inc)
    return made


def tags():
    """A tag gets its values, and a block the text of its body first. They go with a pickle, and a function that is added later counts."""
    made = with_tags(partials={"p": "{% box 1 %}{{ x }}{% endbox %}"})
    copied = pickle.loads(pickle.dumps(made))
    source = "{% link 'a' %}{% link b.c 'B' %}{% box 1, b.c %}{% link 'x', 'y' %}{% box %}{{ b.c }}{% endbox what ever %}{% endbox %}"
    page = "[here](a)[B](7)<1,7|[y](x)<|7>>"
    again = pickle.loads(pickle.dumps(made.from_string(source)))

    @made.block
    def twice(body):
        return body * 2

    return first(
        [
            same(lambda: made.from_string(source).render(b={"c": 7}), page),
            same(lambda: copied.from_string(source).render(b={"c": 7}), page),
            same(lambda: again.render(b={"c": 7}), page),
            same(lambda: made.from_string("{% twice %}{% include 'p' %}{% endtwice %}").render(x=3), "<1|3><1|3>"),
            same(lambda: made.from_string("{%- now -%} | {% now in 'Paris', 5%} | {%now%}").render(), "now ''| now \"in 'Paris', 5\" | now ''"),
            same(lambda: made.from_string("{% inc a/b.html 1, 'c' %}").render(), "a/b.html(1, 'c')"),
            same(lambda: (twice("a"), len(made.filters), repr(made)), ("aa", 0, "<bikleinu.Environment>")),
            same(lambda: Template("{% hi %}", tagged("hi", lambda: "Hi!")).render(), "Hi!"),
        ]
    )


def tagged(name, function, style="items"):
    language = Language()
    language.add_tag(name, function, style)
    return language


def refusal(made, source):
    """The name, the column and the message of the fault by which a source is refused."""
    try:
        made.from_string(source)
    except LiquidError as fault:
        return fault.name, fault.place and fault.place.column, fault.message
    return None


def refused_tags():
    """What a source gets wrong of a tag is said at its place, what a function raises ends the page, and some names are no tag's."""
    made = with_tags()
    made.tag("fails")(lambda: 1 // 0)
    fault = made.from_string("a{% fails %}b").page().fault
    end, count, many, none = (refusal(made, it) for it in ("a{% box %}b", "{% link %}", "{% link 1 2 3 %}", "{{ 'a' | link }}"))
    named = [(name, kind) for name, kind in (("a b", "NoWord"), ("endless", "ReservedName"), ("if", "TakenName"), ("\ud800", "NoText"))]
    return first(
        [
            None if end and end[:2] == ("MissingEnd", 2) and "endbox" in end[2] else f"{end}",
            None if count and count[:2] == ("FilterArguments", 1) and "at least 1 argument" in count[2] else f"{count}",
            None if many and many[:2] == ("FilterArguments", 1) and "at most 2" in many[2] else f"{many}",
            None if none and none[0] == "UnknownFilter" else f"{none}",
            None if (refusal(made, "{% now a") or [None])[0] == "Unclosed" else "an open tag",
            None if fault and (fault.name, fault.text, fault.place.column) == ("InvalidInput", "a", 2) else f"{fault!r}",
            None if fault and fault.message.startswith("`{% fails %}`: ZeroDivisionError") else f"{fault}",
            None if isinstance(fault.__cause__, ZeroDivisionError) else f"{fault.__cause__!r}",
            *(None if name_of_refusal(name) == kind else f"{name}: {name_of_refusal(name)}" for name, kind in named),
            raises(lambda: made.tag("x", style="words")(link), ValueError),
            raises(lambda: made.block("x")(lambda: 1), TypeError),
            raises(lambda: made.tag(3)(link), TypeError),
        ]
    )


def name_of_refusal(name):
    try:
        tagged(name, link)
    except LiquidError as error:
        return error.name if error.message else "no message"
    return None


def shown():
    """What a repr shows: the beginning of a source, and the first names."""
    made = Environment(filters={f"f{number}": money for number in range(7)})
    return first(
        [
            same(lambda: repr(Template("Hi {{ name }}!")), "<bikleinu.Template 'Hi {{ name }}!'>"),
            same(lambda: repr(Template("a" * 70)), f"<bikleinu.Template '{'a' * 60}..'>"),
            same(lambda: repr(Environment(filters={"money": money})), "<bikleinu.Environment, filters 'money'>"),
            same(lambda: repr(made), "<bikleinu.Environment, filters 'f0', 'f1', 'f2', 'f3', 'f4', ..>"),
            same(lambda: repr(Language(jekyll=True)), "<bikleinu.Language, jekyll>"),
        ]
    )


def partials():
    """Partials that are parsed with the first template know the filters that were added until then."""
    made = Environment(partials={"price": "{{ cents | money }}"})
    made.filter("money")(money)
    template = made.from_string("{% render 'price', cents: 250 %}")
    again = pickle.loads(pickle.dumps(template))
    return first([same(lambda: template.render(), "2.50 EUR"), same(lambda: again.render(), "2.50 EUR")])


def names():
    made = Environment(partials={"end": "{{ inner }}"}, missing=lambda name: f"<{name}>")
    template = made.from_string("{{ outer }}{{ given }}{% for i in (1..2) %}{{ i }}{% endfor %}{% include 'end' %}")
    nil = Environment(missing=lambda name: None).from_string("[{{ a }}{% if b %}b{% endif %}]")
    found = template.names()
    return first(
        [
            None if {"given", "inner", "outer"} <= set(found) and found == sorted(set(found)) else f"{found}",
            same(lambda: "inner" in template.names({}), False),
            same(lambda: template.render(given=1), "<outer>112<inner>"),
            same(lambda: template.render({"outer": None, "inner": 3}, given=1), "1123"),
            same(lambda: nil.render(), "[]"),
            same(lambda: nil.render(b=1), "[b]"),
        ]
    )


def own(value):
    return value


def jekyll():
    made = Environment(jekyll=True, partials={"card.html": "[{{ include.a }}]"}, filters={"own": own})
    copied = pickle.loads(pickle.dumps(made))
    page = same(lambda: made.from_string("{% include card.html a='b' %}").render(), "[b]")
    copy = same(lambda: copied.from_string("{% include card.html a='b' %}").render(), "[b]")
    code = made.from_string("{% highlight c++ %}\na&{{ b }}\n{% endhighlight %}{{ b | own }}")
    figure = '<figure class="highlight"><pre><code class="language-c--" data-lang="c++">a&amp;1</code></pre></figure>'
    code = same(lambda: code.render(b=1), f"{figure}1")
    made.block("highlight", style="text")(lambda body, markup: f"{markup}:{body}")
    code = code or same(lambda: made.from_string("{% highlight c++ %}a{% endhighlight %}").render(), "c++:a")
    return page or copy or code or raises(lambda: Template("{% include card.html a='b' %}"), LiquidError)


def escaped():
    made = Environment(autoescape=True, partials={"p": "{{ a }}"}, filters={"own": own})
    copied = pickle.loads(pickle.dumps(made))
    source = "{{ a }}{{ a | raw }}{{ a | own }}{% include 'p' %}{% cycle a %}"
    page, copy = (same(lambda: it.from_string(source).render(a="<"), "&lt;<&lt;&lt;&lt;") for it in (made, copied))
    return page or copy or raises(lambda: Template("{{ a | raw }}"), LiquidError)


def mails():
    """Ten thousand mails on four threads, with a filter; each thousandth has a fault, which is reported with its place."""
    made = Environment(filters={"money": money}, partials={"end": "\n{{ from }}"})
    template = made.from_string("Dear {{ name }}: {{ cents | money }}{% include 'end' %}")
    faults, wrong = [], []

    def run(first_number):
        for number in range(first_number, 10_001, 4):
            data = {"name": f"R{number}", "cents": number % 500, "from": "B."}
            if number % 1000 == 0:
                del data["from"]
            page = template.page(data)
            text = f"Dear R{number}: {number % 500 // 100}.{number % 100:02} EUR\n"
            if page.fault:
                faults.append((number, page.fault.name, str(page.fault.place), page.text))
            if page.text != (text if page.fault else f"{text}B."):
                wrong.append(page.text)

    threads = [threading.Thread(target=run, args=(number,)) for number in (1, 2, 3, 4)]
    for thread in threads:
        thread.start()
    for thread in threads:
        thread.join()
    place = "in the partial `end`: line 2, column 4"
    wanted = [(number, "UnknownVariable", place, f"Dear R{number}: 0.00 EUR\n") for number in range(1000, 10_001, 1000)]
    return wrong[0] if wrong else None if sorted(faults) == wanted else f"{sorted(faults)}"


def sites():
    """Jekyll's filters over a site, which the library answers, but for those of the caller's."""
    source = "{{ '/a b' | absolute_url }} {{ '/t' | relative_url }} {{ xs | where: 'a', 1 | jsonify }}"
    data = {"xs": [{"a": 1}, {"a": 2}]}
    place = ("https://example.org", "/blog")
    made = Environment(jekyll=True, site=place)
    own = Environment(site=("", "/b"), filters={"relative_url": lambda url: f"own {url}"})
    wanted = 'https://example.org/blog/a%20b /blog/t [{"a":1}]'
    again = Template(source, pickle.loads(pickle.dumps(Language(site=place))))
    return first(
        [
            same(lambda: made.from_string(source).render(data), wanted),
            same(lambda: pickle.loads(pickle.dumps(made)).from_string(source).render(data), wanted),
            same(lambda: again.render(data), wanted),
            same(lambda: own.from_string(source).render(data), '/b/a%20b own /t [{"a":1}]'),
            same(lambda: made.from_string("{% highlight c %}1{% endhighlight %}{{ 'x' | xml_escape }}").render()[-1], "x"),
            same(lambda: made.from_string("{{ 1 | date_to_string }}").page().fault.name, "InvalidInput"),
            raises(lambda: made.from_string("{{ 1 | where: 2 }}"), LiquidError),
            raises(lambda: Environment(jekyll=True).from_string("{{ 1 | jsonify }}"), LiquidError),
            raises(lambda: Environment(site="https://example.org"), TypeError),
            raises(lambda: Environment(site=("https://example.org", None)), TypeError),
            raises(lambda: Environment(site=("\ud800", "")), LiquidError),
        ]
    )


def about(*values, title, name=None):
    return f"{values} {title} {name}"


def framed(body, *, name):
    return f"{name}[{body}]"


def given():
    """Values that tags and blocks are given by keywords: None where a page's data have nothing there, which is no fault."""
    made = Environment()
    made.tag("about", given={"title": "page.title", "name": "site.author"})(about)
    made.block("frame", given={"name": "site.name"})(framed)
    copied = pickle.loads(pickle.dumps(made))
    source = "{% about %}|{% about 'x' 2 %}|{% frame %}b{% endframe %}"
    data = {"page": {"title": "T"}, "site": {"author": 3}}
    wanted = "() T 3|('x', 2) T 3|None[b]"
    one = Environment()
    one.tag("one", given={"title": "t"})(lambda title: title)
    return first(
        [
            same(lambda: made.from_string(source).render(data), wanted),
            same(lambda: copied.from_string(source).render(data), wanted),
            same(lambda: made.from_string(source).paths(), ["page.title", "site.author", "site.name"]),
            same(lambda: one.from_string("{% one %}").render(t=5), "5"),
            raises(lambda: one.from_string("{% one 1 %}"), LiquidError),
            same(lambda: name_of_given({"title": "a b"}), "NoValues"),
            raises(lambda: made.tag("x", given={"title": "a, b"})(about), ValueError),
            raises(lambda: made.tag("x", given={"title": 3})(about), TypeError),
        ]
    )


def name_of_given(values):
    try:
        Language().add_tag("x", about, given=values)
    except LiquidError as error:
        return error.name if error.message else "no message"
    return None


def sets():
    """The sets of filters that the library has itself, over what the data of each page say."""
    shop = Environment(filters="shopify")
    shop.filters["own"] = own
    money = shop.from_string("{{ 1999 | money | own }} {% style %}a{% endstyle %}")
    site = Environment(filters="jekyll")
    urls = site.from_string("{{ '/t' | absolute_url }} {{ xs | where_exp: 'x', 'x.a > 1' | size }}")
    decimals = Environment(filters="decimals", autoescape=True).from_string("{{ p | decimal_times: 3 }}{{ '<' }}")
    placed = Environment(jekyll=True, site=("https://example.org", ""))
    place = {"site": {"url": "https://example.org", "baseurl": "/b"}, "xs": [{"a": 1}, {"a": 2}]}
    return first(
        [
            same(lambda: money.render(shop={"money_format": "EUR {{amount}}"})[:9], "EUR 19.99"),
            same(lambda: money.render()[:7], "$ 19.99"),
            same(lambda: pickle.loads(pickle.dumps(money)).render(shop={"money_format": "{{amount}} EUR"})[:9], "19.99 EUR"),
            same(lambda: urls.render(place), "https://example.org/b/t 1"),
            same(lambda: urls.render(xs=[]), "/t 0"),
            same(lambda: urls.render(urls.data('{"xs": [], "site": {"url": "https://a.org"}}')), "https://a.org/t 0"),
            same(lambda: decimals.render(p="19.99"), "59.97&lt;"),
            same(lambda: placed.from_string("{{ xs | where_exp: 'x', 'x.a > 1' | jsonify }}").render(place), '[{"a":2}]'),
            same(lambda: money.seen_key(shop={"money_format": "a"}) == money.seen_key(shop={"money_format": "b"}), False),
            same(lambda: repr(Language(filters="shopify")), "<bikleinu.Language, shopify>"),
            raises(lambda: Environment(filters="Shopify"), ValueError),
        ]
    )


CHECKS = {
    "pages of filters in Python": pages,
    "each call once": asked_once,
    "errors of functions": errors,
    "rounds": rounds,
    "filters in partials": partials,
    "ten thousand mails on four threads": mails,
    "names": names,
    "Jekyll's language": jekyll,
    "escaped pages": escaped,
    "Jekyll's filters over a site": sites,
    "tags and blocks": tags,
    "refused tags": refused_tags,
    "given values": given,
    "sets of filters": sets,
    "what a repr shows": shown,
}

if __name__ == "__main__":
    report(CHECKS.items())
