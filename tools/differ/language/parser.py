"""From a source to its nodes; the first fault from left to right is the answer."""
from .faults import Fault
from .items import Items
from .lexer import Reader
from .tags import BLOCKS, VERBATIM, when
from .tree import Call, Chain, Cycle, Filtered, Literal, Output, Raw, Symbol, Text, Variable

MOST_BLOCKS = 200
# what ends an output that isn't escaped
RAW = [Symbol("|"), Variable("raw")]


def parse(source, language):
    """The nodes of a template."""
    return Parser(source, language).nodes(0)


class Parser:
    def __init__(self, source, language):
        self.reader = Reader(source, language.path_tags, {*language.text_blocks, *language.text_tags})
        self.language = language
        self.host_blocks = {**language.text_blocks, **language.item_blocks}
        # the name of the tag that ended the last list of nodes, with its items
        self.ended_by = None

    def nodes(self, depth, *ends):
        """The nodes up to a tag of one of these names, in so many blocks."""
        found = []
        while True:
            text = self.reader.text()
            if text:
                found.append(Text(text))
            piece = self.reader.piece()
            if piece is None and ends:
                raise Fault("MissingEnd")
            if piece is None or piece.opener == "{%" and piece.name in ends:
                self.ended_by = piece
                return found
            try:
                found.append(self.node(piece, depth))
            except Fault as fault:
                raise fault.within(piece)

    def items(self, piece):
        return Items(piece.items, self.language.counts)

    def node(self, piece, depth):
        items = self.items(piece)
        if piece.opener == "{{":
            return self.output(piece)
        if piece.name in self.language.tags:
            node = self.language.tags[piece.name](items)
            return self.shown(node) if isinstance(node, Cycle) else node
        if piece.name in self.language.text_tags:
            return Output(Chain(Literal(None, "nil"), [items.host_call(piece.name, self.language.given.get(piece.name, ()))]))
        if piece.name in self.language.item_tags:
            name, source = self.language.item_tags[piece.name]
            return Output(Chain(Variable(source), [items.host_call(name)]))
        if piece.name in VERBATIM:
            return self.verbatim(piece.name, items, depth)
        if piece.name not in BLOCKS and piece.name not in self.host_blocks:
            raise Fault("UnknownTag")
        require_room(depth)
        if piece.name in self.host_blocks:
            return self.filtered(piece.name, items, depth + 1)
        node = BLOCKS[piece.name](items)
        getattr(self, f"fill_{piece.name}")(node, depth + 1)
        return node

    def output(self, piece):
        """A chain, and where the language escapes perhaps `| raw` after it."""
        if self.language.escapes and piece.items[-2:] == RAW:
            return Output(Items(piece.items[:-2], self.language.counts).chain())
        return self.shown(Output(self.items(piece).chain()))

    def shown(self, node):
        """The node, whose text goes through `escape` where the language escapes."""
        return Filtered(Call("escape", []), [node]) if self.language.escapes else node

    def verbatim(self, name, items, depth):
        """A raw or a comment: its body is read first, where its tag has no items."""
        text = ""
        if items.is_over():
            text = self.reader.raw() if name == "raw" else self.reader.skip_comment() or ""
        require_room(depth)
        items.end()
        return Raw(text)

    def filtered(self, name, items, depth):
        """A block of a host: its end may have items."""
        call = items.host_call(self.host_blocks[name])
        return Filtered(call, self.nodes(depth, f"end{name}"))

    def of_end(self, read):
        """What is read of the tag that ended the last list of nodes."""
        try:
            return read(self.items(self.ended_by))
        except Fault as fault:
            raise fault.within(self.ended_by)

    def end(self):
        """The block ends here, by a tag without items."""
        self.of_end(Items.end)

    def fill_if(self, node, depth):
        ends = ("endif", "elsif", "else")
        node.branches[0][1].extend(self.nodes(depth, *ends))
        while self.ended_by.name == "elsif":
            condition = self.of_end(Items.condition)
            node.branches.append((condition, self.nodes(depth, *ends)))
        self.fill_else(node, depth, "endif")

    def fill_unless(self, node, depth):
        node.branches[0][1].extend(self.nodes(depth, "endunless", "else"))
        self.fill_else(node, depth, "endunless")

    def fill_else(self, node, depth, end):
        if self.ended_by.name == "else":
            node.otherwise = self.nodes(depth, end)
        self.end()

    def fill_case(self, node, depth):
        ends = ("endcase", "when", "else")
        self.nodes(depth, *ends)
        while self.ended_by.name == "when":
            values = self.of_end(when)
            node.parts.append((values, self.nodes(depth, *ends)))
        self.fill_bare_else(node, depth, "endcase")

    def fill_for(self, node, depth):
        node.body = self.nodes(depth, "endfor", "else")
        self.fill_bare_else(node, depth, "endfor")

    def fill_bare_else(self, node, depth, end):
        """An else that takes no items."""
        if self.ended_by.name == "else":
            self.end()
        self.fill_else(node, depth, end)

    def fill_tablerow(self, node, depth):
        node.body = self.nodes(depth, "endtablerow")
        self.end()

    def fill_capture(self, node, depth):
        node.body = self.nodes(depth, "endcapture")
        self.end()

    def fill_ifchanged(self, node, depth):
        node.body = self.nodes(depth, "endifchanged")
        self.end()


def require_room(depth):
    if depth >= MOST_BLOCKS:
        raise Fault("TooNested")
