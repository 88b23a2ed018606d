"""How a page ends other than well."""


class Fault(Exception):
    """A fault of a source, of data or of a run: its kind, and of a source the piece that it is in."""

    def __init__(self, kind):
        super().__init__(kind)
        self.kind = kind
        self.piece = None

    def within(self, piece):
        """The same fault, in this piece where it is in none yet."""
        self.piece = self.piece or piece
        return self


class TooLong(Exception):
    """The page is too much work for a comparison, so that no end is reported of it."""
