"""Makes a case in which reading and program differ smaller, as long as they differ in the same way."""
import json
import re
from dataclasses import replace

from generate import ITEM

MOST_TRIES = 2500
PIECE = re.compile(r"\{\{.*?\}\}|\{%.*?%\}|(?:(?!\{\{|\{%).)+|.", re.S)


class Shrinker:
    def __init__(self, differs):
        # whether a case still differs in the same way
        self.differs = differs
        self.tries = 0

    def accepts(self, case):
        self.tries += 1
        return self.tries <= MOST_TRIES and self.differs(case)

    def shrunk(self, case):
        """The smaller case: partials, template and data in turn, until nothing more goes."""
        before = None
        while before != case and self.tries <= MOST_TRIES:
            before = case
            case = self.fewer_partials(case)
            case = replace(case, source=self.shorter(case.source, lambda source: replace(case, source=source)))
            case = self.shorter_partials(case)
            case = self.less_data(case)
        return case

    def shorter(self, text, with_text):
        """The text without the runs of items that aren't needed, long runs first."""
        text = "".join(self.fewer(PIECE.findall(text), with_text))
        text = "".join(self.fewer_pairs(PIECE.findall(text), with_text))
        return "".join(self.fewer(ITEM.findall(text), with_text))

    def fewer(self, parts, with_text):
        """Without runs of parts: of half of them, a quarter, and so on; short runs at every place."""
        size = len(parts)
        while size:
            at = 0
            while at < len(parts):
                fewer = parts[:at] + parts[at + size :]
                if self.accepts(with_text("".join(fewer))):
                    parts = fewer
                else:
                    at += max(1, size // 4)
            size = size // 2 if size > 6 else size - 1
        return parts

    def fewer_pairs(self, parts, with_text):
        """Without two parts that stand apart, as the tags round a body."""
        at = 0
        while at < len(parts) - 1:
            for end in range(at + 1, len(parts)):
                fewer = parts[:at] + parts[at + 1 : end] + parts[end + 1 :]
                if self.accepts(with_text("".join(fewer))):
                    parts = fewer
                    break
            else:
                at += 1
        return parts

    def fewer_partials(self, case):
        for pair in case.partials:
            fewer = replace(case, partials=[other for other in case.partials if other != pair])
            case = fewer if self.accepts(fewer) else case
        return case

    def shorter_partials(self, case):
        for at, (name, source) in enumerate(case.partials):
            def with_source(text, at=at, name=name, case=case):
                return replace(case, partials=[*case.partials[:at], (name, text), *case.partials[at + 1 :]])

            case = with_source(self.shorter(source, with_source))
        return case

    def less_data(self, case):
        try:
            data = json.loads(case.data)
        except ValueError:
            return case
        smaller = self.less(data, lambda value: replace(case, data=json.dumps(value, ensure_ascii=False)))
        return replace(case, data=json.dumps(smaller, ensure_ascii=False)) if smaller != data else case

    def less(self, value, with_value):
        """The value without the parts that aren't needed."""
        if isinstance(value, dict):
            for key in list(value):
                fewer = {other: held for other, held in value.items() if other != key}
                value = fewer if self.accepts(with_value(fewer)) else value
            for key in value:
                value = {**value, key: self.less(value[key], lambda part: with_value({**value, key: part}))}
        elif isinstance(value, list):
            at = 0
            while at < len(value):
                fewer = value[:at] + value[at + 1 :]
                value, at = (fewer, at) if self.accepts(with_value(fewer)) else (value, at + 1)
        return value
