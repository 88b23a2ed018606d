"""The run of a template: what each node writes, stores and ends by (docs/language/meaning.md)."""
from . import tree
from .environment import Environment
from .expressions import evaluate, evaluate_chain, holds
from .faults import Fault, TooLong
from .loops import Window, cell_map, items_of, place_map
from .values import GREATEST, LEAST, is_scalar, new_map, same, text_of

DEPTH = 32
MOST_STEPS = 20_000
MOST_TEXT = 200_000


class Run:
    """A run over the partials, each a list of nodes by its name."""

    def __init__(self, partials, data, filters, missing_is_nil=False):
        self.partials = partials
        self.environment = Environment(filters, data=data, missing_is_nil=missing_is_nil)
        self.depth = DEPTH
        self.written = []
        self.steps = 0
        self.length = 0

    def write(self, text):
        self.length += len(text)
        if self.length > MOST_TEXT:
            raise TooLong
        self.written.append(text)

    def step(self):
        self.steps += 1
        if self.steps > MOST_STEPS:
            raise TooLong

    def nodes(self, nodes):
        """Runs the nodes in order, up to one that leaves an interrupt set."""
        for node in nodes:
            self.step()
            RULES[type(node)](self, node)
            if self.environment.interrupt:
                return

    def buffered(self, nodes):
        """The text of the nodes, of which nothing is written."""
        outer, self.written = self.written, []
        try:
            self.nodes(nodes)
            return "".join(self.written)
        finally:
            self.written = outer

    def with_scope(self, scope, nodes):
        self.step()
        self.environment.scopes.append(scope)
        try:
            self.nodes(nodes)
        finally:
            self.environment.scopes.pop()

    def evaluate(self, expression):
        return evaluate(expression, self.environment)

    def text(self, node):
        self.write(node.text)

    def output(self, node):
        self.write(text_of(evaluate_chain(node.chain, self.environment)))

    def assign(self, node):
        self.environment.assigned[node.name] = evaluate_chain(node.chain, self.environment)

    def count(self, node):
        held = self.environment.counters.get(node.name, 0)
        after = held + node.by
        if not LEAST <= after <= GREATEST:
            raise Fault("NumberRange")
        self.write(str(held if node.by > 0 else after))
        self.environment.counters[node.name] = after

    def interrupt(self, node):
        self.environment.interrupt = node.word

    def cycle(self, node):
        if not node.values:
            raise Fault("CycleBounds")
        index = self.environment.cycles.get(node.group, 0)
        self.environment.cycles[node.group] = (index + 1) % len(node.values)
        if index >= len(node.values):
            raise Fault("CycleBounds")
        self.write(text_of(self.evaluate(node.values[index])))

    def choice(self, node):
        for condition, body in node.branches:
            if holds(condition, self.environment) == node.wanted:
                return self.nodes(body)
        return self.nodes(node.otherwise)

    def case(self, node):
        target = self.evaluate(node.target)
        for values, body in node.parts:
            if any(same(self.evaluate(value), target) for value in values):
                return self.nodes(body)
        return self.nodes(node.otherwise)

    def capture(self, node):
        self.environment.assigned[node.name] = self.buffered(node.body)

    def ifchanged(self, node):
        text = self.buffered(node.body)
        if text != self.environment.changed:
            self.write(text)
        self.environment.changed = text

    def filtered(self, node):
        text = self.buffered(node.body)
        self.write(text_of(evaluate_chain(tree.Chain(tree.Literal(text), [node.call]), self.environment)))

    def loop(self, node):
        window = Window(node, self.environment)
        if node.tag == "tablerow":
            self.rows(node, window)
        elif window.length:
            self.turns(node, window)
        else:
            self.nodes(node.otherwise)

    def turns(self, node, window):
        outer = self.environment.look_up("forloop")
        for place in range(window.length):
            about = place_map(place, window.length, parentloop=outer[0] if outer else None)
            self.with_scope({"forloop": about, node.variable: window.item(place)}, node.body)
            if self.ends_loop():
                return

    def ends_loop(self):
        """Clears the interrupt; whether it was a break."""
        word, self.environment.interrupt = self.environment.interrupt, None
        return word == "break"

    def rows(self, node, window):
        if window.length and window.cols == 0:
            raise Fault("ZeroColumns")
        columns = window.length if window.cols is None else window.cols
        for place in range(window.length):
            about = cell_map(place, window.length, columns)
            self.cell(node, about, place // columns + 1, window.item(place))

    def cell(self, node, about, row, item):
        if about["col_first"]:
            self.write(f'<tr class="row{row}">')
        self.write(f'<td class="col{about["col"]}">')
        self.with_scope({"tablerow": about, node.variable: item}, node.body)
        self.write("</td>")
        if about["col_last"]:
            self.write("</tr>")

    def name(self, node):
        value = self.evaluate(node.name)
        if not is_scalar(value):
            raise Fault("PartialName")
        return text_of(value)

    def pairs(self, node):
        return {name: self.evaluate(value) for name, value in node.pairs}

    def enter(self, *names):
        """The nodes of the first partial of these names that there is; one of the depth is taken."""
        for name in names:
            if name in self.partials:
                if not self.depth:
                    raise Fault("TooDeep")
                self.depth -= 1
                return self.partials[name]
        raise Fault("UnknownPartial")

    def include(self, node):
        name = self.name(node)
        scope = self.pairs(node)
        self.with_scope(scope, self.enter(name))
        self.depth += 1

    def jekyll_include(self, node):
        scope = {"include": new_map(self.pairs(node).items())} if node.pairs else {}
        self.with_scope(scope, self.enter(node.name))
        self.depth += 1

    def render(self, node):
        name = self.name(node)
        if not node.each:
            self.apart(node, name, {})
            return
        variable, source = node.each
        items = items_of(source, self.environment)
        for place in range(items.count):
            about = place_map(place, items.count, parentloop=None)
            if self.apart(node, name, {"forloop": about, variable: items.at(place)}) == "break":
                return

    def apart(self, node, name, more):
        """Runs the partial in an environment of its own; the interrupt that it leaves."""
        self.step()
        pairs = self.pairs(node)
        body = self.enter(name, f"{name}.liquid")
        outer, self.environment = self.environment, Environment(self.environment.filters, {**pairs, **more}, missing_is_nil=self.environment.missing_is_nil)
        try:
            self.nodes(body)
            return self.environment.interrupt
        finally:
            self.environment = outer
            self.depth += 1


RULES = {
    tree.Text: Run.text,
    tree.Raw: Run.text,
    tree.Output: Run.output,
    tree.Assign: Run.assign,
    tree.Count: Run.count,
    tree.Interrupt: Run.interrupt,
    tree.Cycle: Run.cycle,
    tree.Choice: Run.choice,
    tree.Case: Run.case,
    tree.Loop: Run.loop,
    tree.Capture: Run.capture,
    tree.IfChanged: Run.ifchanged,
    tree.Filtered: Run.filtered,
    tree.Include: Run.include,
    tree.JekyllInclude: Run.jekyll_include,
    tree.Render: Run.render,
}
