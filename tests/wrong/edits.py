"""What an edit says, which function of the crate it changes, and what it makes of the crate's files.

An edit is a file with a line "file: src/lib.rt", and after it pairs of lines "old: TEXT" and "new: TEXT". Each TEXT is one
line, and stands once in the file. A further pair applies to what the earlier ones made, and a further "file:" line names
another file. A line "goal: TEXT" says what stands in the name of a goal that must be refused: edits of one function whose goals
have different names are tried together. A line "by: NAME" in an edit of a constant or a definition says which function must be
refused, by the end of its name: no other is proved then.
"""
import os
import re
from dataclasses import dataclass

from functions import Twin, function_at, located_functions, stated_functions


class Unfit(Exception):
    """The edit can't be applied, and why."""


@dataclass(frozen=True)
class Edit:
    """An edit: its file, its pairs, each as the path of a file of the crate, the text there, and what takes its place, and what it
    tells of a goal's name, and of the function that refuses it. Answers by hand that are tried under other names: each by its proof file,
    its name, and the goal that is given it, or none where it goes."""

    file: str
    pairs: tuple
    goal: str = ""
    by: str = ""
    answers: tuple = ()

    @property
    def name(self):
        return os.path.basename(self.file)


def text_of(path):
    with open(path, encoding="utf-8") as file:
        return file.read()


def read_edit(file):
    """The edit that the file holds."""
    named, old, pairs = {"file": "", "goal": "", "by": ""}, None, []
    for line in text_of(file).split("\n"):
        word, _, rest = line.partition(": ")
        if word in named:
            named[word] = rest.strip()
        elif line.startswith("old: "):
            old = line.removeprefix("old: ")
        elif line.startswith("new:"):
            if not named["file"] or not old:
                raise Unfit("a line new: before its lines file: and old:")
            pairs.append((named["file"], old, line.removeprefix("new:").removeprefix(" ")))
            old = None
        elif line:
            raise Unfit(f"a line that begins with none of file:, goal:, by:, old: and new:: {line[:60]}")
    if not pairs:
        raise Unfit("it has no pair of lines old: and new:")
    if all(old == new for _, old, new in pairs):
        raise Unfit("its lines old: and new: say the same")
    return Edit(file, tuple(pairs), named["goal"], named["by"])


def applied(edit, folder, texts, function=None):
    """The texts of the crate's files by their path, with those that the edit changes. What isn't in texts is read. Where earlier
    edits wrote what this one changes, the place in its function is meant."""
    texts = dict(texts)
    for path, old, new in edit.pairs:
        if path not in texts:
            try:
                texts[path] = text_of(f"{folder}/{path}")
            except (OSError, UnicodeDecodeError):
                raise Unfit(f"there is no file {path}") from None
        start, end = 0, len(texts[path])
        if function and texts[path].count(old) > 1:
            start, end = span_of(texts[path], path, function.name)
        found = texts[path].count(old, start, end)
        if found != 1:
            raise Unfit(f"an old: text stands {found} times in {path}, and not once: {old[:60]}")
        texts[path] = texts[path][:start] + texts[path][start:end].replace(old, new) + texts[path][end:]
    for path, answer, goal in edit.answers:
        own = texts.setdefault(path, text_of(f"{folder}/{path}"))
        lines = answer_lines(text_of(f"{folder}/{path}"), answer)
        texts[path] = own + "\n" + renamed(lines, answer, goal) if goal else own.replace(lines, "")
    return texts


def answer_lines(text, answer):
    """The lines of an answer by hand: from its type to the next definition or comment."""
    lines = text[text.index(f"pub {answer} : ") :].split("\n")
    ends = (at for at, line in enumerate(lines) if at and re.match(r"\S", line) and not line.startswith((f"{answer} ", "unfolding ")))
    return "\n".join(lines[: next(ends, len(lines))])


def renamed(lines, answer, goal):
    return re.sub(rf"(?<![\w-]){re.escape(answer)}(?![\w-])", lambda _: goal, lines)


def span_of(text, path, name):
    """Where the function of this name begins in the text, and where the next one does."""
    starts = [(at, function.name) for at, function in located_functions(text, path)]
    ends = [at for at, _ in starts[1:]] + [len(text)]
    return next(((at, end) for (at, own), end in zip(starts, ends) if own == name), (0, 0))


def named_function(edit, folder):
    """The function that must refuse the edit by what the edit tells."""
    for path in sources(folder):
        for _, function in located_functions(text_of(f"{folder}/{path}"), path):
            if function.name == edit.by:
                return function
    raise Unfit(f"there is no function {edit.by}")


def sources(folder):
    for at, _, names in os.walk(f"{folder}/src"):
        yield from (os.path.relpath(f"{at}/{name}", folder) for name in names if name.endswith(".rt"))


def function_of(edit, folder):
    """The one function whose body alone the edit changes, or None. Spaces and lines that import names count as no change."""
    texts, found = {}, set()
    for path, old, new in edit.pairs:
        text = texts.get(path) or text_of(f"{folder}/{path}")
        if old.split() != new.split() and not old.startswith("use "):
            same = len(os.path.commonprefix([old, new]))
            found.add(function_at(text[: text.index(old) + same], path) if path.startswith("src/") else None)
        texts[path] = text.replace(old, new)
    return found.pop() if len(found) == 1 else None


def twin_for(edit, function, folder, taken):
    """A function beside the one that the edit changes, in which the edit can be tried too, where that one may have such."""
    stated = stated_in(text_of(f"{folder}/{function.path}"), function)
    if not stated or stated.is_of_trait or stated.cycle or block(edit, function, folder) is None:
        raise Unfit("another edit of the function is tried before it")
    number = next(number for number in range(2, len(taken) + 3) if f"{function.name}__{number}" not in taken)
    return Twin(function.path, f"{function.name}__{number}", "", function)


def stated_in(text, function):
    return next((it for it in stated_functions(text, function.path) if it.name == function.name), None)


def block(edit, function, folder):
    """The lines of the function as the edit leaves it, or None where it changes more than them."""
    before, after = text_of(f"{folder}/{function.path}"), applied(edit, folder, {}).get(function.path, "")
    old, new = stated_in(before, function), stated_in(after, function)
    if not old or not new:
        return None
    before, after = before.split("\n"), after.split("\n")
    is_whole = before[: old.starts] == after[: new.starts] and before[old.closes :] == after[new.closes :]
    return after[new.starts : new.closes + 1] if is_whole else None


def changed(pairs, folder):
    """The texts of the crate's files with all of the edits, each in its function, or in that one's twin after it."""
    texts = {}
    for edit, function in pairs:
        if not isinstance(function, Twin):
            texts = applied(edit, folder, texts, function)
    for edit, twin in pairs:
        if isinstance(twin, Twin):
            name, own = twin.of.name.split("::")[-1], twin.name.split("::")[-1]
            lines = texts[twin.path].split("\n")
            after = stated_in(texts[twin.path], twin.of).closes + 1
            lines[after:after] = ["", *(re.sub(rf"\bfn {name}\b", f"fn {own}", line) for line in block(edit, twin.of, folder))]
            texts[twin.path] = "\n".join(lines)
    return texts


def plain(pair):
    """The edit with the function that it changes, in place of a twin."""
    edit, function = pair
    return edit, function.of if isinstance(function, Twin) else function
