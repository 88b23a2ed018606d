"""The folder of a call: its files before the call, what the call leaves, and what isn't as it has to be then."""
import os
from dataclasses import dataclass

from faulty import PART

# the status of bikleinu where standard output has no reader, and the line that it doesn't print then
CLOSED, CLOSED_LINE = 141, "error: standard output: Broken pipe"


@dataclass
class Plain:
    """What a call comes to where nothing is refused."""

    page: bytes
    printed: list
    status: int
    left: dict


def put(room, files):
    for path, text in files.items():
        os.makedirs(os.path.dirname(f"{room}/{path}"), exist_ok=True)
        with open(f"{room}/{path}", "w", encoding="utf-8") as file:
            file.write(text)


def files_in(room):
    found = {}
    for at, _, names in os.walk(room):
        for path in (f"{at}/{name}" for name in names):
            with open(path, encoding="utf-8") as file:
                found[os.path.relpath(path, room)] = file.read()
    return found


class Room:
    """The folder of a call, and the file beside it that is its standard input."""

    def __init__(self, call, at):
        self.call, self.at = call, f"{at}/room"
        os.mkdir(self.at)
        with open(f"{at}/given", "w", encoding="utf-8") as file:
            file.write(call.given)
        self.given = open(f"{at}/given", "rb")
        put(self.at, call.files)

    def reset(self):
        """Everything is as it was before the call."""
        self.given.seek(0)
        for path, text in files_in(self.at).items():
            if self.call.files.get(path) != text:
                os.remove(f"{self.at}/{path}")
        put(self.at, {path: text for path, text in self.call.files.items() if not os.path.exists(f"{self.at}/{path}")})
        for at, _, _ in os.walk(self.at, topdown=False):
            if not os.listdir(at):
                os.rmdir(at)

    def strange_files(self, plain, parts=0):
        """The files that are neither as they were before the call nor as it makes them, but for so many parts."""
        left, before = files_in(self.at), self.call.files
        strange = [path for path in {*left, *before} if left.get(path) not in (before.get(path), plain.left.get(path))]
        of_parts = [path for path in strange if PART.fullmatch(os.path.basename(path))]
        return strange if len(of_parts) > parts else [path for path in strange if path not in of_parts]

    def unlike_files(self, plain):
        """The files that aren't as the call makes them."""
        left = files_in(self.at)
        return [path for path in {*left, *plain.left} if left.get(path) != plain.left.get(path)]

    def wrong_end(self, plain, page, printed, status, wanted):
        """What is wrong where something was refused, of which a line has to tell in these words, or None."""
        if status == CLOSED and wanted.fullmatch(CLOSED_LINE):
            printed = [*printed, CLOSED_LINE]
        elif status != 1:
            return f"status {status}: {printed[-2:]}"
        if not self.is_part(plain.page, page) and not self.call.passes_over:
            return f"it writes {page[-80:]!r}"
        if not any(wanted.fullmatch(line) for line in printed if line not in plain.printed):
            return f"it prints {printed[-3:]}"
        strange = self.strange_files(plain)
        return f"it leaves {strange}" if strange else None

    def is_part(self, whole, page):
        """Whether the page is a beginning of the whole one, or, of a merge, lacks one record's."""
        front = len(os.path.commonprefix([whole, page]))
        back = len(os.path.commonprefix([whole[::-1], page[::-1]])) if self.call.merges else 0
        return front + back >= len(page)
