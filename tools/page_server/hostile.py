"""Templates as a stranger would write them who wants to stop a server, by a seed."""
import random

FOREVER = "(1..9223372036854775807)"
BLOCKS = [
    ("{% if true %}", "{% endif %}"),
    ("{% for i in (1..2) %}", "{% endfor %}"),
    ("{% unless false %}", "{% endunless %}"),
    ("{% case 1 %}{% when 1 %}", "{% endcase %}"),
    ("{% tablerow i in (1..2) %}", "{% endtablerow %}"),
    ("{% capture c %}", "{% endcapture %}{{ c }}"),
    ("{% ifchanged %}", "{% endifchanged %}"),
]
FILTERS = ["upcase", "reverse", "sort", "split: ''", "join: ','", "url_encode", "escape", "strip_html", "append: s", "replace: 'a', 'bb'", "date: '%c'", "truncate: 5"]


def nested(pick):
    """Blocks in one another."""
    blocks = [pick.choice(BLOCKS) for _ in range(pick.choice((10, 30, 150, 199, 200, 201, 5000)))]
    return {"template": "".join(a for a, _ in blocks) + "x" + "".join(b for _, b in reversed(blocks))}


def brackets(pick):
    count = pick.choice((10, 150, 200, 201, 20000))
    return {"template": "{{ " + "a[" * count + "1" + "]" * count + " }}"}


def unclosed(pick):
    return {"template": pick.choice(("{{", "{%", "{% if a %}", "{% raw %}", "{{ 'x", "{% comment %}", "}}")) * pick.choice((1, 100, 20000))}


def doubling(pick):
    """A text that doubles."""
    step = pick.choice(("{% assign s = s | append: s %}", "{% capture s %}{{ s }}{{ s }}{% endcapture %}", "{% assign s = s | replace: 'x', 'xx' %}"))
    loop = pick.choice(("{}", "{{% for i in (1..100) %}}{}{{% endfor %}}"))
    return {"template": "{% assign s = 'x' %}" + loop.format(step) * pick.choice((1, 20, 100)) + "{{ s | size }}"}


def endless(pick):
    """A loop without an end, with a body or none."""
    body = pick.choice(("", "x", "{{ i }}", "{% assign a = i %}", "{% capture c %}{{ i }}{% endcapture %}", "{% cycle 1, 2 %}", "{% increment n %}"))
    inner = pick.choice((body, f"{{% for j in {FOREVER} %}}{body}{{% endfor %}}"))
    kind = pick.choice(("for", "tablerow"))
    return {"template": f"{{% {kind} i in {FOREVER} %}}{inner}{{% end{kind} %}}"}


def loops(pick):
    """Loops in one another, each of a few turns."""
    count = pick.choice((3, 8, 30))
    return {"template": "{% for i in (1..10) %}" * count + pick.choice(("", "{{ i }}")) + "{% endfor %}" * count}


def names(pick):
    """Huge names of values, tags, filters and partials."""
    name = "n" * pick.choice((1000, 100000, 4 << 20))
    return {"template": pick.choice(("{{{{ {} }}}}", "{{% {} %}}", "{{{{ 1 | {} }}}}", "{{% render '{}' %}}", "{{{{ a.{} }}}}", "{{% assign {} = 1 %}}")).format(name), "data": {"a": {}}}


def large(pick):
    """A piece of some megabytes."""
    text = pick.choice(("x", "<", "\n", "é", "{ ")) * (pick.choice((1 << 20, 4 << 20)) // 2)
    return {"template": pick.choice(("{}", "{{% raw %}}{}{{% endraw %}}", "{{% comment %}}{}{{% endcomment %}}", "{{{{ '{}' | escape }}}}", "{{{{ '{}' | split: '' | sort | size }}}}")).format(text)}


def chains(pick):
    """A long chain of filters over a long text."""
    chain = " | ".join(pick.choice(FILTERS) for _ in range(pick.choice((10, 1000))))
    return {"template": f"{{% assign s = t %}}{{{{ t | {chain} }}}}", "data": {"t": "ab<" * pick.choice((10, 100000))}}


def partials(pick):
    """Partials that run one another, or themselves, or are many."""
    blocks = pick.choice((0, 5, 100))
    call = pick.choice(("{{% render 'p{}' %}}", "{{% include 'p{}' %}}", "{{% render 'p{}' for (1..3) as i %}}"))
    count = pick.choice((1, 2, 1000))

    def source(name):
        return "{% if true %}" * blocks + call.format(name % count) * pick.choice((1, 2)) + "{% endif %}" * blocks

    return {"template": source(0), "partials": {f"p{name}": source(name + 1) for name in range(count)}}


def data(pick):
    """Data that is large or deep."""
    shape = pick.choice(("deep", "wide", "text"))
    if shape == "deep":
        value = []
        for _ in range(pick.choice((100, 126, 500))):
            value = [value]
    else:
        value = {str(key): key for key in range(20000)} if shape == "wide" else "y" * (1 << 20)
    return {"template": "{{ v }}{{ v }}{% for i in v %}{{ i }}{% endfor %}", "data": {"v": value}}


KINDS = [nested, brackets, unclosed, doubling, endless, loops, names, large, chains, partials, data]


def hostile(count, seed=1):
    """So many templates: the name of their kind, and what is asked of the server. Each one writes a mark of its own first."""
    pick = random.Random(seed)
    for number in range(count):
        kind = KINDS[number % len(KINDS)]
        asked = kind(pick)
        mark = f"[mark {number}]"
        yield kind.__name__, mark, {**asked, "template": mark + asked["template"]}
