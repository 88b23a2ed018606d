"""What a template asks of its data (docs/use/paths.md): for each name that it mentions, which parts of the value."""
import re

from . import tree
from .filter_needs import input_use
from .parts import NOTHING, THERE, WHOLE, Use

# so many rounds are made from each side
MOST_ROUNDS = 8
MOST_STEPS = 32
# a name has so many parts at most, of which each counts as one more for so many bytes of the names on its path
MOST_PARTS, PART_BYTES = 200, 32
# a key of which a path can be made
PLAIN_KEY = re.compile(r"(?:[A-Za-z0-9_-]|[^\x00-\x7f])+")


class Finder:
    """One round: what the nodes ask for, where the names that they set are asked for what they were before."""

    def __init__(self, before):
        # what was asked of a name in the round before
        self.before = before
        self.found = {}
        # the names that are asked for, set or bound (docs/language/meaning.md, Mentioned names)
        self.mentioned = set()

    def ask(self, name, use):
        if name == "forloop":
            # it is asked for whole or not at all
            use = WHOLE
        self.mentioned.add(name)
        self.found[name] = self.found[name].joined(use) if name in self.found else use

    def of_name(self, name):
        """What is asked of a value that is handed to the name."""
        return self.of_item(name).joined(THERE)

    def of_item(self, name):
        """What is asked of each item that is handed to the name."""
        self.mentioned.add(name)
        return self.before(name)

    def expression(self, expression, use=WHOLE):
        if isinstance(expression, tree.Range):
            self.expression(expression.first)
            self.expression(expression.last)
        elif isinstance(expression, tree.Variable):
            self.variable(expression, use)

    def variable(self, variable, use):
        literal_steps = []
        for step in variable.steps:
            if not isinstance(step, tree.Literal) or not isinstance(step.value, str) or len(literal_steps) == MOST_STEPS:
                use = WHOLE
                break
            literal_steps.append(step.value)
        for key in reversed(literal_steps):
            use = Use(False, {key: use})
        self.ask(variable.name, use)
        for step in variable.steps:
            self.expression(step)

    def chain(self, chain, use=WHOLE):
        self.expression(chain.entry, input_use(chain.calls, use))
        for call in chain.calls:
            self.expressions([*call.arguments, *call.given])

    def expressions(self, expressions):
        for expression in expressions:
            self.expression(expression)

    def pairs(self, pairs):
        for name, value in pairs:
            self.expression(value, self.of_name(name))

    def source(self, source, variable):
        """What a loop goes over: how many items, and of each what is asked of the variable."""
        of_item = self.of_item(variable)
        self.expression(source, WHOLE if isinstance(source, tree.Range) else Use(items=of_item))

    def comparison(self, left, operator, right):
        self.expression(left, seen_beside(operator, right))
        self.expression(right, seen_beside(operator, left))

    def condition(self, condition):
        for atom in (atom for atoms in condition for atom in atoms):
            if atom.operator is None:
                self.expression(atom.left, THERE)
            else:
                self.comparison(atom.left, atom.operator, atom.right)

    def nodes(self, nodes):
        for node in nodes:
            getattr(self, RULES[type(node)])(node)

    def nothing(self, _node):
        pass

    def output(self, node):
        self.chain(node.chain)

    def assign(self, node):
        self.chain(node.chain, self.of_name(node.name))

    def count(self, node):
        self.ask(node.name, THERE)

    def cycle(self, node):
        self.expressions(node.values)

    def choice(self, node):
        for condition, body in node.branches:
            self.condition(condition)
            self.nodes(body)
        self.nodes(node.otherwise)

    def case(self, node):
        self.expression(node.target, THERE)
        for values, body in node.parts:
            for value in values:
                self.comparison(node.target, "==", value)
            self.nodes(body)
        self.nodes(node.otherwise)

    def loop(self, node):
        self.mentioned.add("forloop" if node.tag == "for" else "tablerow")
        self.source(node.source, node.variable)
        self.expressions(node.amounts.values())
        self.nodes(node.body)
        self.nodes(node.otherwise)

    def capture(self, node):
        self.mentioned.add(node.name)
        self.nodes(node.body)

    def body(self, node):
        self.nodes(node.body)

    def filtered(self, node):
        self.body(node)
        self.expressions([*node.call.arguments, *node.call.given])

    def include(self, node):
        self.expression(node.name)
        self.pairs(node.pairs)

    def jekyll_include(self, node):
        if node.pairs:
            self.mentioned.add("include")
        self.expressions(value for _, value in node.pairs)

    def render(self, node):
        self.expression(node.name)
        self.pairs(node.pairs)
        if node.each:
            self.mentioned.add("forloop")
            self.source(node.each[1], node.each[0])


class Reader(Finder):
    """The names that are read where the template hasn't bound them."""

    def __init__(self):
        super().__init__(lambda name: NOTHING)
        self.free = set()
        self.has_include = False
        # the names that are bound in each body that the node stands in
        self.bound = [set()]

    def ask(self, name, _use):
        if not any(name in names for names in self.bound):
            self.free.add(name)

    def bind(self, name):
        self.bound[-1].add(name)

    def within(self, nodes, *names):
        self.bound.append(set(names))
        self.nodes(nodes)
        self.bound.pop()

    def assign(self, node):
        super().assign(node)
        self.bind(node.name)

    def count(self, node):
        self.bind(node.name)

    def choice(self, node):
        for condition, body in node.branches:
            self.condition(condition)
        for _, body in node.branches:
            self.within(body)
        self.within(node.otherwise)

    def case(self, node):
        self.expression(node.target)
        for values, body in node.parts:
            self.expressions(values)
            self.within(body)
        self.within(node.otherwise)

    def loop(self, node):
        self.source(node.source, node.variable)
        self.expressions(node.amounts.values())
        if node.tag == "for":
            # what it is before the loop is seen as `parentloop`
            self.ask("forloop", WHOLE)
        self.within(node.body, "forloop" if node.tag == "for" else "tablerow", node.variable)
        self.within(node.otherwise)

    def capture(self, node):
        self.within(node.body)
        self.bind(node.name)

    def body(self, node):
        self.within(node.body)

    def include(self, node):
        super().include(node)
        self.has_include = True

    def jekyll_include(self, node):
        super().jekyll_include(node)
        self.has_include = True


def seen_beside(operator, other):
    """What a comparison with the other value sees: a list or a map differs from a literal by its kind, but is looked into by `contains`."""
    return THERE if operator != "contains" and isinstance(other, tree.Literal) else WHOLE


RULES = {
    tree.Text: "nothing",
    tree.Raw: "nothing",
    tree.Interrupt: "nothing",
    tree.Output: "output",
    tree.Assign: "assign",
    tree.Count: "count",
    tree.Cycle: "cycle",
    tree.Choice: "choice",
    tree.Case: "case",
    tree.Loop: "loop",
    tree.Capture: "capture",
    tree.IfChanged: "body",
    tree.Filtered: "filtered",
    tree.Include: "include",
    tree.JekyllInclude: "jekyll_include",
    tree.Render: "render",
}


def uses_of(template, partials):
    """What the template with its partials asks for."""
    nodes = (template, *partials.values())
    uses = grown(nodes)
    if uses is None:
        uses = narrowed(nodes)
    if includes(uses, asked(nodes, before_of(uses)).found):
        return uses
    return {name: WHOLE for name in asked(nodes, before_of(uses)).mentioned}


def data_uses(template, partials):
    """The same of the data alone: a name that the template binds before it reads it is none of them."""
    uses = uses_of(template, partials)
    reader = Reader()
    reader.nodes(template)
    return uses if reader.has_include else {name: use for name, use in uses.items() if name in reader.free}


def grown(nodes):
    """The parts that grow from nothing, until a round asks for nothing more. None where they don't stop growing."""
    uses = {}
    for _ in range(MOST_ROUNDS):
        more = one_round(nodes, before_of(uses))
        if includes(uses, more):
            return uses
        uses = more
    return None


def narrowed(nodes):
    """The parts that get smaller from where each name is asked for whole, until a round asks for nothing less."""
    uses = one_round(nodes, lambda name: WHOLE)
    for _ in range(MOST_ROUNDS - 1):
        less = one_round(nodes, before_of(uses))
        if includes(less, uses):
            return less
        uses = less
    return uses


def before_of(uses):
    return lambda name: uses.get(name, NOTHING)


def one_round(nodes, before):
    """What the nodes ask for, a name of many parts whole."""
    return {name: bounded(name, use) for name, use in asked(nodes, before).found.items()}


def asked(nodes, before):
    """What the nodes ask for, where that is asked of the names that they set."""
    finder = Finder(before)
    for of_one in nodes:
        finder.nodes(of_one)
    return finder


def includes(uses, others):
    """Whether these ask for all that the others ask for."""
    return all(uses.get(name, NOTHING).includes(use) for name, use in others.items())


def bounded(name, use):
    return WHOLE if parts(use, len(name.encode())) > MOST_PARTS else use


def parts(use, length):
    """How many parts are asked for: the value, and each member and item in it, with so many bytes of names before them."""
    below = sum(parts(part, length + len(key.encode())) for key, part in use.members.items())
    return below + (parts(use.items, length) if use.items else 0) + 1 + length // PART_BYTES


def paths_of(uses):
    """The paths, sorted by their bytes."""
    lines = {line for name, use in uses.items() for line in lines_of(name, use)}
    return sorted(lines, key=lambda line: line.encode())


def lines_of(path, use):
    if use.is_whole or not all(PLAIN_KEY.fullmatch(key) for key in use.members):
        return [path]
    lines = [line for key, part in use.members.items() for line in lines_of(f"{path}.{key}", part)]
    if use.items:
        lines += lines_of(f"{path}[]", use.items)
    return lines or [f"{path}?"]
