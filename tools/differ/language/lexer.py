"""A source, cut into texts and pieces, and a piece into its items (docs/language/grammar.md)."""
import re
from dataclasses import dataclass, field, replace
from typing import Optional

from .faults import Fault
from .tree import Literal, Range, Symbol, Variable
from .values import GREATEST, LEAST, digits_of

SPACE = " \t\r\n"
LITERALS = {"nil": None, "null": None, "true": True, "false": False}
STATES = ("empty", "blank")
CLOSERS = {"{{": "}}", "{%": "%}"}
MOST_BRACKETS = 200
WORD = re.compile(r"[A-Za-z_](?:[A-Za-z0-9_]|-(?!%\}|\}\}))*")
DIGITS = re.compile(r"[+-]?[0-9]+")
SPACES = re.compile(f"[{SPACE}]*")
SYMBOL = re.compile(r"[=!<>]=|<>|[<>=:,|]")
FRACTION = re.compile(r"\.[0-9]")
CLOSER_OF_TAG = re.compile(r"-?%\}")
LETTER = re.compile(r"[A-Za-z_]")
# of `.` and `/` no two stand in a row, and a `-` directly before a closer isn't taken
PATH = re.compile(r"(?:[A-Za-z0-9_()+~#@]|-(?!%\}|\}\})|[./](?![./]))+")


@dataclass
class Piece:
    """An output, or a tag with its name; its items are read whole. It ends nowhere where it can't be read to its closer."""

    opener: str
    start: int
    name: str = ""
    items: list = field(default_factory=list)
    end: Optional[int] = None


def mark(*names):
    """The pattern of the mark of one of these names."""
    return re.compile(r"\{%(-?)[ \t\r\n]*(" + "|".join(names) + r")[ \t\r\n]*(-?)%\}")


END_OF_RAW = mark("endraw")
COMMENT_MARKS = mark("comment", "raw", "endcomment")


class Reader:
    """Reads a source from its beginning to its end."""

    def __init__(self, source, path_tags=(), text_tags=()):
        """The tags of these names begin with a path without quotes, or are one text."""
        self.source = source
        self.path_tags = path_tags
        self.text_tags = text_tags
        self.at = 0
        # whether the closer just before asks to strip the text after it
        self.strips = False

    def text(self):
        """The text up to the next opener or the end, stripped beside marks."""
        places = [place for place in (self.source.find(opener, self.at) for opener in CLOSERS) if place >= 0]
        end = min(places, default=len(self.source))
        text = self.source[self.at : end]
        if self.strips:
            text = text.lstrip(SPACE)
        if self.source.startswith("-", end + 2):
            text = text.rstrip(SPACE)
        self.at, self.strips = end, False
        return text

    def piece(self):
        """The piece that an opener begins here, None at the end of the source."""
        opener = self.source[self.at : self.at + 2]
        if not opener:
            return None
        piece = Piece(opener, self.at)
        self.at += 2
        if self.source.startswith("-", self.at):
            self.at += 1
        try:
            piece.name = self.tag_name() if opener == "{%" else ""
            piece.items = self.whole() if piece.name in self.text_tags else [*self.path(piece.name), *self.items(CLOSERS[opener])]
        except Fault as fault:
            raise fault.within(piece)
        piece.end = self.at
        return piece

    def tag_name(self):
        self.skip_space()
        name = WORD.match(self.source, self.at)
        if not name:
            raise Fault("Expected" if self.at < len(self.source) else "Unclosed")
        self.at = name.end()
        return name[0]

    def whole(self):
        """All up to the first closer as one text, nothing where it is only whitespace."""
        closer = CLOSER_OF_TAG.search(self.source, self.at)
        if not closer:
            self.at = len(self.source)
            raise Fault("Unclosed")
        text = self.source[self.at : closer.start()].strip(SPACE)
        self.at, self.strips = closer.end(), closer[0].startswith("-")
        return [Literal(text, text)] if text else []

    def path(self, name):
        """The path with which a tag of the name begins, where its tags have one and one stands here."""
        if name not in self.path_tags:
            return []
        self.skip_space()
        path = PATH.match(self.source, self.at)
        if not path:
            return []
        self.at = path.end()
        return [Literal(path[0], path[0])]

    def skip_space(self):
        self.at = SPACES.match(self.source, self.at).end()

    def skip(self, text):
        """Whether the text stands here, which is then skipped."""
        found = self.source.startswith(text, self.at)
        self.at += len(text) if found else 0
        return found

    def is_over(self):
        return self.at >= len(self.source)

    def items(self, closer):
        """The items up to the closer, which is skipped."""
        found = []
        while True:
            self.skip_space()
            if self.skip("-" + closer):
                self.strips = True
                return found
            if self.skip(closer):
                return found
            found.append(self.item())

    def item(self):
        if self.skip("("):
            return self.range()
        symbol = SYMBOL.match(self.source, self.at)
        if not symbol:
            start, value = self.at, self.value(0)
            return replace(value, spelled=self.source[start : self.at])
        self.at = symbol.end()
        return Symbol(symbol[0])

    def range(self):
        self.skip_space()
        first = self.value(0)
        self.skip_space()
        self.want("..")
        self.skip_space()
        last = self.value(0)
        self.skip_space()
        self.want(")")
        return Range(first, last)

    def want(self, text):
        """The text stands here, whole."""
        if not self.skip(text):
            raise Fault("Unclosed" if self.is_over() else "BadItem")

    def value(self, depth):
        """A literal or a variable, inside of so many brackets."""
        if self.is_over():
            raise Fault("Unclosed")
        if self.source[self.at] in "'\"":
            return self.quoted()
        digits = DIGITS.match(self.source, self.at)
        if digits:
            return self.number(digits)
        word = WORD.match(self.source, self.at)
        if not word:
            raise Fault("BadItem")
        self.at = word.end()
        return self.worded(word[0], depth)

    def quoted(self):
        end = self.source.find(self.source[self.at], self.at + 1)
        if end < 0:
            raise Fault("Unclosed")
        text = self.source[self.at + 1 : end]
        self.at = end + 1
        return Literal(text)

    def number(self, digits):
        sign, bare = digits_of(digits[0])
        number = int(sign + bare) if len(bare) < 20 else GREATEST + 1
        if not LEAST <= number <= GREATEST:
            raise Fault("NumberLiteral")
        self.at = digits.end()
        if FRACTION.match(self.source, self.at):
            raise Fault("FloatLiteral")
        if LETTER.match(self.source, self.at) or self.is_lone_dot():
            raise Fault("BadItem")
        return Literal(number)

    def is_lone_dot(self):
        return self.source.startswith(".", self.at) and not self.source.startswith("..", self.at)

    def worded(self, word, depth):
        if word in STATES:
            raise Fault("StateWord")
        if word in LITERALS:
            if self.source[self.at : self.at + 1] in (".", "["):
                raise Fault("BadItem")
            return Literal(LITERALS[word])
        return Variable(word, tuple(self.steps(depth)))

    def steps(self, depth):
        while True:
            word = WORD.match(self.source, self.at + 1) if self.source.startswith(".", self.at) else None
            if word:
                self.at = word.end()
                yield Literal(word[0] + ("?" if self.skip("?") else ""))
            elif self.skip("["):
                yield self.bracketed(depth + 1)
            else:
                return

    def bracketed(self, depth):
        if depth > MOST_BRACKETS:
            raise Fault("TooNested")
        self.skip_space()
        value = self.value(depth)
        self.skip_space()
        self.want("]")
        return value

    def raw(self):
        """The body of a raw, after its tag, stripped beside marks."""
        end = END_OF_RAW.search(self.source, self.at)
        if not end:
            raise Fault("MissingEnd")
        body = self.source[self.at : end.start()]
        if self.strips:
            body = body.lstrip(SPACE)
        if end[1]:
            body = body.rstrip(SPACE)
        self.at, self.strips = end.end(), bool(end[3])
        return body

    def skip_comment(self):
        """Skips the body of a comment, in which comments nest."""
        depth = 1
        while depth:
            found = COMMENT_MARKS.search(self.source, self.at)
            if found and found[2] == "raw":
                found = END_OF_RAW.search(self.source, found.end())
            if not found:
                raise Fault("MissingEnd")
            depth += {"comment": 1, "endcomment": -1}.get(found[2], 0)
            self.at, self.strips = found.end(), bool(found[3])
