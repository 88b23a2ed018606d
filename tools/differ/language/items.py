"""The items of a piece, taken one after another: values, chains, conditions, pairs."""
from .faults import Fault
from .tree import Atom, Call, Chain, Literal, Range, Symbol, Variable

OPERATORS = ("==", "!=", "<>", "<", ">", "<=", ">=")


class Items:
    """The items that are left of a piece, in a language with these counts of arguments."""

    def __init__(self, items, counts):
        self.items = items
        self.counts = counts
        self.at = 0

    def is_over(self):
        return self.at == len(self.items)

    def peek(self):
        return None if self.is_over() else self.items[self.at]

    def take(self):
        if self.is_over():
            raise Fault("Expected")
        self.at += 1
        return self.items[self.at - 1]

    def end(self):
        if not self.is_over():
            raise Fault("Expected")

    def skip_symbol(self, text):
        return self.skip_item(Symbol(text))

    def skip_word(self, word):
        return self.skip_item(Variable(word))

    def skip_item(self, item):
        """Whether this item is next, which is then taken. A 1 and a true are unlike items."""
        found = type(self.peek()) is type(item) and self.peek() == item
        self.at += found
        return found

    def want_symbol(self, text):
        if not self.skip_symbol(text):
            raise Fault("Expected")

    def want_word(self, word):
        if not self.skip_word(word):
            raise Fault("Expected")

    def value(self):
        item = self.take()
        if not isinstance(item, (Literal, Variable)):
            raise Fault("Expected")
        return item

    def source(self):
        """What a loop goes over: a value or a range."""
        return self.take() if isinstance(self.peek(), Range) else self.value()

    def identifier(self):
        item = self.take()
        if not is_identifier(item):
            raise Fault("Expected")
        return item.name

    def chain(self):
        """A value and filters, up to the end of the items."""
        entry, calls = self.value(), []
        while not self.is_over():
            self.want_symbol("|")
            calls.append(self.call())
        return Chain(entry, calls)

    def call(self):
        name = self.identifier()
        arguments = self.values(",") if self.skip_symbol(":") else []
        return self.counted(name, arguments)

    def host_call(self, name, given=()):
        """The call of a filter with all values, between which a comma may stand, and with those that are given."""
        arguments = [] if self.is_over() else [self.value()]
        while not self.is_over():
            self.skip_symbol(",")
            arguments.append(self.value())
        return self.counted(name, arguments, given)

    def counted(self, name, arguments, given=()):
        if name not in self.counts:
            raise Fault("UnknownFilter")
        least, most = self.counts[name]
        if not least <= len(arguments) + len(given) <= most:
            raise Fault("FilterArguments")
        return Call(name, arguments, list(given))

    def values(self, separator):
        found = [self.value()]
        while self.skip_symbol(separator):
            found.append(self.value())
        return found

    def condition(self):
        """Conjunctions joined by or, up to the end of the items."""
        found = [self.conjunction()]
        while self.skip_word("or"):
            found.append(self.conjunction())
        self.end()
        return found

    def conjunction(self):
        atoms = [self.atom()]
        while self.skip_word("and"):
            atoms.append(self.atom())
        return atoms

    def atom(self):
        left = self.value()
        operator = self.operator()
        return Atom(left, operator, self.value()) if operator else Atom(left)

    def operator(self):
        if self.skip_word("contains"):
            return "contains"
        item = self.peek()
        if isinstance(item, Symbol) and item.text in OPERATORS:
            return self.take().text
        return None

    def pair(self, symbol=":"):
        name = self.identifier()
        self.want_symbol(symbol)
        return name, self.value()


def is_identifier(item):
    return isinstance(item, Variable) and not item.steps
