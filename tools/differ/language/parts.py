"""Which parts of a value are asked for."""
from dataclasses import dataclass, field
from typing import Optional


@dataclass
class Use:
    """What is asked of a value: all of it, or whether it is there, and parts of it: members by their keys, and the items of a loop."""

    is_whole: bool = False
    members: dict = field(default_factory=dict)
    # what is asked of each item, None where no loop goes over the items
    items: Optional["Use"] = None
    # not even whether it is there, as of an item that a loop only counts
    is_unasked: bool = False

    def joined(self, other):
        """What both ask."""
        if self.is_unasked or other.is_unasked:
            return other if self.is_unasked else self
        if self.is_whole or other.is_whole:
            return WHOLE
        members = dict(self.members)
        for key, use in other.members.items():
            members[key] = members[key].joined(use) if key in members else use
        items = self.items.joined(other.items) if self.items and other.items else self.items or other.items
        return Use(False, members, items)

    def includes(self, other):
        """Whether this asks for all that the other asks for."""
        if self.is_unasked or other.is_unasked:
            return other.is_unasked
        if self.is_whole or other.is_whole:
            return self.is_whole
        there = all(self.members.get(key, NOTHING).includes(use) for key, use in other.members.items())
        return there and (other.items is None or self.items is not None and self.items.includes(other.items))


WHOLE = Use(is_whole=True)
# whether there is a value, and of which kind
THERE = Use()
NOTHING = Use(is_unasked=True)
