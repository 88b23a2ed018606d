"""What a run reads and changes: names in four layers, and registers."""


class Environment:
    def __init__(self, filters, scope=None, data=None, missing_is_nil=False):
        # the function of each filter by its name
        self.filters = filters
        # the innermost scope is the last one
        self.scopes = [scope] if scope else []
        self.assigned = {}
        self.counters = {}
        self.data = data or {}
        self.interrupt = None
        self.cycles = {}
        # the last text of ifchanged
        self.changed = None
        # whether a missing value is nil in place of a fault
        self.missing_is_nil = missing_is_nil

    def look_up(self, name):
        """The value of the first layer that holds the name, in a list, or the empty list."""
        for layer in (*reversed(self.scopes), self.assigned, self.counters, self.data):
            if name in layer:
                return [layer[name]]
        return []
