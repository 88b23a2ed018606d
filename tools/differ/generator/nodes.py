"""Nodes of a template, by a seed: texts, outputs, and every tag and block."""
from . import samples
from .expressions import ARGUMENTS, STANDARD, Expressions, literal, separated, spelled

SCALAR_KINDS = ("number", "text", "truth", "nil")


class Nodes:
    """Makes the source of one template or partial."""

    def __init__(self, rng, known, partials, size, filters=STANDARD):
        self.rng = rng
        self.made = Expressions(rng, known, filters)
        self.is_jekyll = filters.is_jekyll
        self.is_shopify = filters.is_shopify
        # names of partials, each with whether it is written for render
        self.partials = partials
        # how many nodes there may still be
        self.left = size

    def chance(self, rate):
        return self.rng.random() < rate

    def source(self):
        text = ""
        while self.left > 0:
            text += self.node(0)
        return text

    def name(self):
        return self.rng.choice(samples.ODD_NAMES if self.chance(0.06) else samples.NAMES)

    def tag(self, *items):
        opener, closer = self.rng.choice(("{%",) * 6 + ("{%-",)), self.rng.choice(("%}",) * 6 + ("-%}",))
        front, back = (" ", " ") if self.chance(0.85) else (self.rng.choice(("", "\n")), self.rng.choice(("", "  ")))
        text = spelled(self.rng, items)
        return f"{opener}{front}{text}{back}{closer}"

    def output(self, items):
        opener, closer = self.rng.choice(("{{",) * 6 + ("{{-",)), self.rng.choice(("}}",) * 6 + ("-}}",))
        front, back = (" ", " ") if self.chance(0.85) else ("", "")
        return f"{opener}{front}{spelled(self.rng, items)}{back}{closer}"

    def body(self, depth):
        return "".join(self.node(depth + 1) for _ in range(self.rng.choice((0, 1, 1, 2, 2, 3))) if self.left > 0)

    def node(self, depth):
        self.left -= 1
        makers = LEAVES if depth >= 4 or self.left <= 0 else LEAVES + BLOCKS
        return self.rng.choice(makers)(self, depth)

    def text(self, _depth):
        return "".join(self.rng.choice(samples.PIECES) for _ in range(self.rng.choice((1, 1, 2, 3))))

    def value(self, _depth):
        items, _ = self.made.chain()
        return self.output(items)

    def shown(self, _depth):
        """An output that hardly ever is a fault."""
        path = self.made.variable((*SCALAR_KINDS, "list", "map")) or "nope"
        return self.output([path, "|", "default", ":", "'-'"] if self.chance(0.5) else [path])

    def dated(self, _depth):
        return self.output(self.made.dated())

    def assign(self, _depth):
        items, kind = self.made.chain()
        name = self.name()
        self.made.know(name, kind)
        return self.tag("assign", name, "=", *items)

    def counter(self, _depth):
        name = self.name()
        self.made.know(name, "number")
        return self.tag(self.rng.choice(("increment", "decrement")), name)

    def interrupt(self, depth):
        if depth == 0 and not self.chance(0.1):
            return self.text(depth)
        return self.tag(self.rng.choice(("break", "continue")))

    def cycle(self, _depth):
        items = []
        if self.chance(0.4):
            group = literal(self.rng, self.rng.choice(("g", "h", "", 1, None, True))) if self.chance(0.6) else self.rng.choice(("g", "h", "a"))
            items = [group, ":"]
        values = [self.made.expression(self.rng.choice(SCALAR_KINDS)) for _ in range(self.rng.choice((1, 2, 2, 3)))]
        items += [] if items and self.chance(0.03) else separated(values, ",")
        return self.tag("cycle", *items, *([","] if items[-1:] != [":"] and self.chance(0.06) else []))

    def pair_items(self, symbol=":"):
        names = self.rng.sample(("v", "w", "x", "forloop", "a"), self.rng.choice((1, 1, 2, 3)))
        names = ["v", "w"] if self.chance(0.6) else names
        return [[name, symbol, self.made.expression(self.rng.choice(("any", "number", "text")))] for name in names]

    def partial_name(self, apart):
        """An expression for the name of a partial, mostly one that is there and written for the tag."""
        names = [name for name, is_apart in self.partials if is_apart == apart or self.chance(0.15)]
        if not names or self.chance(0.04):
            return self.made.expression("any") if self.chance(0.5) else literal(self.rng, self.rng.choice(samples.PARTIAL_NAMES))
        name = self.rng.choice(names)
        if apart and self.chance(0.5):
            name = name.removesuffix(".liquid")
        if name in ("7", "true") and self.chance(0.5):
            return name
        return literal(self.rng, name)

    def include(self, depth):
        if not self.partials and self.chance(0.9):
            return self.value(depth)
        items = [self.partial_name(False)]
        if self.is_jekyll:
            return self.jekyll_include(items[0])
        if self.chance(0.5):
            items += [item for pair in separated(self.pair_items(), [","]) for item in pair]
            if self.chance(0.08):
                items.append(self.rng.choice((",", "junk", "5", "==", "(1..2)", "'x'")))
        return self.tag("include", *items)

    def jekyll_include(self, name):
        """The name mostly without quotes, where it could be a variable."""
        bare = name.strip("'\"")
        name = bare if bare.replace(".", "").replace("/", "").isalnum() and self.chance(0.7) else name
        pairs = self.pair_items("=") if self.chance(0.6) else []
        return self.tag("include", name, *(item for pair in pairs for item in pair))

    def render(self, depth):
        if not self.partials and self.chance(0.9):
            return self.value(depth)
        items = [self.partial_name(True)]
        draw = self.rng.random()
        if draw < 0.2:
            items += ["with", self.made.expression("any"), "as", self.rng.choice(("v", "w", "x"))]
        elif draw < 0.45:
            items += ["for", *self.made.source()[0], "as", self.rng.choice(("v", "w", "forloop", "x"))]
        if self.chance(0.8):
            items += [item for pair in self.pair_items() for item in (",", *pair)]
        return self.tag("render", *items, *([","] if self.chance(0.05) else []))

    def comment(self, depth):
        inner = "{% comment %}y{% endcomment %}" if self.chance(0.2) else "{%raw%}{% endcomment %}{%- endraw -%}" if self.chance(0.2) else ""
        junk = self.rng.choice(("", "x", "{{ a", "{% if %}", "{% endif %}", "'", "{% endcomment x %}"))
        return f"{self.tag('comment')}{self.text(depth)}{inner}{junk}{self.tag('endcomment')}"

    def raw(self, depth):
        junk = self.rng.choice(("", "{{ a }}", "{% if %}", "{{", "{% endraw x %}", " {% comment %} ", "{%raw%}"))
        return f"{self.tag('raw')}{self.rng.choice(('', self.text(depth)))}{junk}{self.rng.choice(('', ' '))}{self.tag('endraw')}"

    def choice(self, depth):
        text = self.tag("if", *self.made.condition()) + self.body(depth)
        while self.chance(0.3):
            text += self.tag("elsif", *self.made.condition()) + self.body(depth)
        if self.chance(0.4):
            text += self.tag("else", *(["junk", ","] if self.chance(0.05) else [])) + self.body(depth)
        return text + self.tag("endif")

    def unless(self, depth):
        text = self.tag("unless", *self.made.condition()) + self.body(depth)
        if self.chance(0.4):
            text += self.tag("else") + self.body(depth)
        return text + self.tag("endunless")

    def case(self, depth):
        kind = self.rng.choice(("number", "text", "truth", "any"))
        text = self.tag("case", self.made.expression(kind)) + self.rng.choice(("", "\n", self.body(depth)))
        for _ in range(self.rng.choice((0, 1, 2, 3))):
            values = [self.made.expression(self.rng.choice((kind, "any"))) for _ in range(self.rng.choice((1, 1, 2, 3)))]
            text += self.tag("when", *separated(values, self.rng.choice((",", "or")))) + self.body(depth)
        if self.chance(0.5):
            text += self.tag("else") + self.body(depth)
        return text + self.tag("endcase")

    def amounts(self, names):
        parts = []
        for name in names:
            for _ in range(self.rng.choice((0, 0, 1, 1, 1, 2) if self.chance(0.5) else (0,))):
                parts.append([name, ":", self.made.expression("small" if self.chance(0.95) else "any")])
        return parts

    def loop(self, depth):
        items, kind = self.made.source()
        variable = self.rng.choice(("i", "j", "item", "a", "forloop") if self.chance(0.2) else ("i", "j", "item"))
        parts = self.amounts(("limit", "offset")) + ([["reversed"]] if self.chance(0.2) else [])
        self.rng.shuffle(parts)
        text = self.tag("for", variable, "in", *items, *(item for part in parts for item in part))
        text += self.inside(variable, kind, "forloop", depth)
        if self.chance(0.25):
            text += self.tag("else") + self.body(depth)
        return text + self.tag("endfor")

    def tablerow(self, depth):
        items, kind = self.made.source()
        variable = self.rng.choice(("i", "j", "item", "tablerow"))
        parts = self.amounts(("cols", "cols", "limit", "offset"))
        self.rng.shuffle(parts)
        text = self.tag("tablerow", variable, "in", *items, *(item for part in parts for item in part))
        return text + self.inside(variable, kind, "tablerow", depth) + self.tag("endtablerow")

    def inside(self, variable, kind, about, depth):
        """The body of a loop, in which its names are known."""
        outer = {name: list(paths) for name, paths in self.made.known.items()}
        self.made.know(variable, kind)
        if kind == "map" and self.chance(0.4):
            # members that not every item has
            for key, held in self.rng.sample((("a", "number"), ("b", "text"), ("k", "text"), ("title", "text"), ("price", "number")), 2):
                self.made.know(f"{variable}.{key}", held)
        words = ("index", "index0", "rindex", "rindex0", "length", "col", "col0") if about == "tablerow" else ("index", "index0", "rindex", "rindex0", "length")
        for word in words:
            self.made.know(f"{about}.{word}", "number")
        for word in ("first", "last"):
            self.made.know(f"{about}.{word}", "truth")
        self.made.know(f"{about}.parentloop" if about == "forloop" else f"{about}.col_last", "any")
        self.made.know(about, "map")
        text = self.output([variable]) if self.chance(0.5) else ""
        text += self.body(depth)
        if self.chance(0.15):
            text += self.tag("if", *self.made.condition()) + self.tag(self.rng.choice(("break", "continue"))) + self.tag("endif") + self.body(depth)
        self.made.known.clear()
        self.made.known.update(outer)
        return text

    def capture(self, depth):
        name = self.name()
        text = self.tag("capture", name) + self.body(depth) + self.tag("endcapture")
        self.made.know(name, "text")
        return text

    def ifchanged(self, depth):
        return self.tag("ifchanged") + self.body(depth) + self.tag("endifchanged")

    def filtered(self, depth):
        """A block of a host, where there are such."""
        if self.is_shopify:
            return self.shop_block(depth)
        if not self.is_jekyll:
            return self.ifchanged(depth)
        markup = self.rng.choice((*ARGUMENTS["code"], "ruby a='%'", "-", "'ruby'", "a %"))
        end = self.tag("endhighlight", *(["ruby", "5"] if self.chance(0.1) else []))
        return self.tag("highlight", markup) + self.body(depth) + end

    def shop_block(self, depth):
        """One of Shopify's blocks."""
        name = self.rng.choice(("form", "form", "paginate", "style", "schema", "javascript", "stylesheet"))
        items = []
        if name == "form":
            items = [self.rng.choice(ARGUMENTS["form"] + ("",))] if self.chance(0.1) else [f"'{self.rng.choice(ARGUMENTS['form'])}'"]
            items += [self.rng.choice((", product", "product", ", sections", ", 'x'", ", product, product"))] if self.chance(0.6) else []
        elif name == "paginate":
            items = [self.rng.choice(("collection.products by 5", "x by 2, window_size: 1", "x", "%", "'a'"))] if self.chance(0.9) else []
        elif self.chance(0.05):
            items = ["'scss'"]
        return self.tag(name, *items) + self.body(depth) + self.tag(f"end{name}", *(["x"] if self.chance(0.1) else []))

    def shop_tag(self, depth):
        """One of Shopify's tags, where there are such."""
        if not self.is_shopify:
            return self.value(depth)
        if self.chance(0.3):
            return self.tag("layout", *([self.rng.choice(("none", "'theme'", "a b"))] if self.chance(0.8) else []))
        name = self.rng.choice(("'header'", "'footer'", '"header"', "'nope'", "5", "header", "", "'header', 'footer'"))
        return self.tag(self.rng.choice(("section", "sections")), name)


    def led(self, depth):
        """A tag of a host, where there are such."""
        if not self.is_jekyll:
            return self.value(depth)
        markup = self.rng.choice(("about.md", "/about.md", "a.md", "_posts/2020-01-31-tea.md", "2020-01-31-tea", "a/2020-01-31-tea", "/a/2020-01-31-tea", "2020-01-31", "{{ x }}", ""))
        if self.chance(0.7):
            return self.tag(self.rng.choice(("link", "post_url")), markup)
        if self.chance(0.3):
            return self.tag("seo", *(["title=false"] if self.chance(0.2) else []))
        return self.tag("feed_meta", *([markup] if self.chance(0.1) else []))


LEAVES = (
    [Nodes.text] * 6
    + [Nodes.value] * 9
    + [Nodes.shown] * 4
    + [Nodes.assign] * 4
    + [Nodes.dated] * 2
    + [Nodes.led, Nodes.shop_tag, Nodes.counter, Nodes.counter, Nodes.cycle, Nodes.cycle, Nodes.interrupt, Nodes.include, Nodes.include, Nodes.render, Nodes.render, Nodes.comment, Nodes.raw]
)
BLOCKS = [Nodes.choice] * 4 + [Nodes.unless, Nodes.case, Nodes.case] + [Nodes.loop] * 5 + [Nodes.tablerow] * 2 + [Nodes.capture] * 2 + [Nodes.ifchanged] * 2 + [Nodes.filtered]
