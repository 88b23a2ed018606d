"""Cases over records, by a seed: lists of maps that lack some members, and templates that go through them."""
from .expressions import separated

# what a value has: members of a map, or what the items of a list are
SHAPES = {
    "data": {"products": ["product"], "user": "user", "shop": "shop", "groups": [["product"]], "picked": "product", "note": "text"},
    "product": {"title": "text", "price": "number", "sold": "truth", "maker": "user", "tags": ["text"], "parts": ["product"], "first": "text"},
    "user": {"name": "text", "age": "number", "shop": "shop", "friends": ["user"]},
    "shop": {"city": "text", "open": "truth", "size": "number"},
}
SCALARS = {"text": ("a", "b", "", "Tea & more", "é"), "number": (0, 1, 2, 250), "truth": (True, False)}
FILTERS = ("upcase", "size", "first", "last", "default: 'none'", "append: '!'", "escape")
LIST_FILTERS = ("reverse", "compact", "concat: products", "uniq", "sort", "where: '{key}'", "where: '{key}', 1", "sort: '{key}'", "sort_natural: '{key}'", "map: '{key}'", "compact: '{key}'", "default: products")
ENDS = ("size", "first", "last", "join: ','", "map: '{key}' | join", "first | map: '{key}'", "where: '{key}' | first | size", "map: '{key}' | first")
NAMES = ("p", "q", "x", "item", "user", "p", "q", "x", "item")


def value_of(rng, shape, depth=0):
    """A value of the shape, which may be something else, or lack members."""
    if rng.random() < 0.05:
        return rng.choice((None, "", 5, [], {}, "text", [None]))
    if isinstance(shape, list):
        return [value_of(rng, shape[0], depth + 1) for _ in range(rng.choice((0, 1, 2, 3) if depth < 3 else (0, 1)))]
    if shape in SCALARS:
        return rng.choice(SCALARS[shape])
    kept = 0.7 if depth < 3 else 0.3
    return {key: value_of(rng, held, depth + 1) for key, held in SHAPES[shape].items() if rng.random() < kept}


class Records:
    """Makes the source of a template or a partial over names with shapes."""

    def __init__(self, rng, partials, size):
        self.rng = rng
        self.partials = partials
        self.left = size
        self.names = dict(SHAPES["data"])
        # the variables of the loops around, the innermost one last
        self.within = []

    def path(self, wanted=None):
        """A path with its shape, one that is wanted if there is any."""
        for _ in range(12):
            name = self.within[-1] if self.within and self.rng.random() < 0.5 else self.rng.choice(list(self.names))
            path, shape = name, self.names[name]
            while isinstance(shape, str) and shape in SHAPES and self.rng.random() < 0.75:
                key = self.rng.choice(list(SHAPES[shape]))
                path, shape = f"{path}.{key}" if self.rng.random() < 0.9 else f"{path}['{key}']", SHAPES[shape][key]
            if wanted is None or isinstance(shape, list) == (wanted == "list"):
                break
        return path, shape

    def key(self, shape):
        inner = shape[0] if isinstance(shape, list) else shape
        return self.rng.choice(list(SHAPES.get(inner, {"title": 0}))) if isinstance(inner, str) else "title"

    def listed(self):
        """A list through filters, and the shape of what comes of it."""
        path, shape = self.path("list")
        for _ in range(self.rng.choice((0, 1, 1, 2, 3))):
            path += " | " + self.rng.choice(LIST_FILTERS).format(key=self.key(shape))
        return path, shape

    def source(self):
        text = ""
        while self.left > 0:
            text += self.node(0)
        return text

    def body(self, depth):
        return "".join(self.node(depth + 1) for _ in range(self.rng.choice((1, 1, 2, 3))) if self.left > 0) or "."

    def node(self, depth):
        self.left -= 1
        makers = (self.output, self.output, self.counted, self.assign, self.called, self.called, self.loop, self.loop, self.condition, self.condition, self.other)
        return self.rng.choice(makers[:6] if depth > 3 else makers)(depth)

    def output(self, _depth):
        path, _ = self.path()
        return f"{{{{ {path} | {self.rng.choice(FILTERS)} }}}}" if self.rng.random() < 0.4 else f"{{{{ {path} }}}},"

    def counted(self, _depth):
        path, shape = self.listed()
        return f"{{{{ {path} | {self.rng.choice(ENDS).format(key=self.key(shape))} }}}}"

    def assign(self, _depth):
        name = self.rng.choice(NAMES)
        path, shape = self.listed() if self.rng.random() < 0.6 else self.path()
        if isinstance(shape, list) and self.rng.random() < 0.4:
            path, shape = f"{path} | {self.rng.choice(('first', 'last'))}", shape[0]
        self.names[name] = shape
        return f"{{% assign {name} = {path} %}}"

    def loop(self, depth):
        tag = self.rng.choice(("for", "for", "for", "tablerow"))
        name, (path, shape) = self.rng.choice(NAMES), self.path("list" if self.rng.random() < 0.9 else None)
        outer, self.names = self.names, {**self.names, name: shape[0] if isinstance(shape, list) else "text"}
        window = self.rng.choice(("", "", "", " limit: 2", " offset: 1", " limit: user.age"))
        self.within.append(name)
        text = f"{{% {tag} {name} in {path}{window} %}}{self.body(depth)}{{% end{tag} %}}"
        self.within.pop()
        self.names = outer
        return text

    def condition(self, depth):
        path, other = self.path()[0], self.path()[0]
        test = self.rng.choice(("{path}", "{path}", "{path} == {other}", "{path} contains 'a'", "{path}.size > 1", "{path} and {other}", "{path} != nil"))
        text = f"{{% if {test.format(path=path, other=other)} %}}{self.body(depth)}"
        return text + (f"{{% else %}}{self.body(depth)}" if self.rng.random() < 0.3 else "") + "{% endif %}"

    def called(self, depth):
        if not self.partials:
            return self.output(depth)
        tag, name = self.rng.choice(("include", "render", "render")), self.rng.choice(self.partials)
        pairs = separated([f"{at}: {self.path()[0]}" for at in self.rng.sample(NAMES, self.rng.choice((0, 1, 2)))], ",")
        if tag == "include":
            return f"{{% include '{name}' {' '.join(pairs)} %}}"
        each = f" for {self.path('list')[0]} as {self.rng.choice(NAMES)}" if self.rng.random() < 0.3 else ""
        return f"{{% render '{name}'{each}{''.join(f', {pair}' for pair in pairs if pair != ',')} %}}"

    def other(self, depth):
        path, _ = self.path()
        return self.rng.choice((
            f"{{% case {path} %}}{{% when 'a', {self.path()[0]} %}}{self.body(depth)}{{% endcase %}}",
            f"{{% cycle {path}, 'b' %}}", f"{{% increment {self.rng.choice(NAMES)} %}}", f"{{% capture {self.rng.choice(NAMES)} %}}{self.body(depth)}{{% endcapture %}}",
            f"{{% for i in (1..{path}) limit: 2 %}}{self.body(depth)}{{% endfor %}}", f"{{{{ products[{path}].title }}}}", "{{ products[0].title }}", "{{ forloop.index }}",
        ))
