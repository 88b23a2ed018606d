#!/usr/bin/env python3
"""Starts a program of this repository where start.sh beside this doesn't: launch.py NAME [WORD ..]

The proved program runs where it is made of the sources as they are. Else the unproved one does, which is built first, once, where
it isn't there or is older than the sources. Words that make no call, and files that aren't there, build nothing."""
import os
import re
import sys

from programs import TOP, Program, Stopped, kit
from prove import prove
from running import started_by
from unproved import Refused, build, page_by_try, say

HELP = """usage: {usage}

{what}

The proved program runs where ./prove (or .ci/run) has made it. Until then a program without proofs runs, which the first call builds
in one to four minutes. {name} --unproved .. takes that one in any case.
"""


TAKES = "which takes one to four minutes; later calls start at once"


HELP_WORDS, VERSION_WORDS = ("--help", "-h"), ("--version", "-V")


class Invalid(Exception):
    """Why there is nothing to start: what is said, and the status."""


def files_of_page(words):
    """The files that a call of liquid_page names, or none where the words make no call."""
    pairs = [word.partition("=") for word in words[2:]]
    if len(words) < 2 or not all(name and equals for name, equals, _ in pairs):
        return None
    return [*words[:2], *(file for _, _, file in pairs)]


def files_of_folder(words):
    if words[:1] == ["--missing"] and words[1:2] in (["fault"], ["nil"]):
        words = words[2:]
    return words[:2] if len(words) == 3 and all(words) else None


# how each program is called, what it does, and the files that it has to find; one that isn't here says all of that itself
CALLS = {
    "liquid_page": (
        "liquid_page TEMPLATE DATA [NAME=FILE ..]",
        "Writes the page of a template and of data in JSON; NAME=FILE is a partial.",
        files_of_page,
    ),
    "liquid_folder": (
        "liquid_folder [--missing fault|nil] FOLDER DATA OUT",
        "Writes the pages of a folder, and again those that a change shows in.",
        files_of_folder,
    ),
}


def kept_answer(name, words):
    """What bikleinu prints for its help and its version, which tools/manual keeps, so that neither wants a build; None for other words."""
    if name != "bikleinu" or len(words) not in (1, 2):
        return None
    if len(words) == 1 and words[0] in VERSION_WORDS:
        with open(f"{TOP}/VERSION", encoding="utf-8") as file:
            return f"{name} {file.read()}"
    command, asks = ("", words[0]) if len(words) == 1 else words
    if command == "help":
        command, asks = asks, HELP_WORDS[0]
    path = f"{TOP}/tools/launch/help/{command or name}"
    if asks not in (*HELP_WORDS, *([] if command else ["help"])) or not re.fullmatch(r"[a-z]*", command) or not os.path.exists(path):
        return None
    with open(path, encoding="utf-8") as file:
        return file.read()


def quoted(text):
    """A text on one line: at most 60 characters of it, and none that a terminal would obey."""
    return "".join(c if c.isprintable() else f"\\u{{{ord(c):x}}}" for c in text[:60]) + ("..." if len(text) > 60 else "")


def need_files(name, words):
    """Ends as the program would, where it has nothing to do."""
    usage, _, files_of = CALLS[name]
    files = files_of(words)
    if files is None:
        raise Invalid(f"usage: {usage}", 2)
    for file in files:
        if not os.access(file, os.R_OK):
            raise Invalid(f"error: Read: {quoted(file)}", 1)


def start(made, words):
    sys.stdout.flush()
    os.execv(made.path, [made.path, *words])


def start_unproved(program, words, why):
    """Builds the unproved program where that is to be done, says that nothing is proved, and starts it."""
    name, made = program.name, program.unproved
    if not made.is_current:
        kit()
        older = f"the unproved program is {made.older_than()}; " if made.is_there else ""
        say(name, f"{why}; {older}building the program without its proofs, once, {TAKES}")
        if not build(program):
            return without_kept(program, words)
    sys.stdout.flush()
    os.execvp("bash", ["bash", "-c", '. "$0" && start_unproved "$@"', f"{TOP}/tools/launch/start.sh", made.path, *words])


def without_kept(program, words):
    """What is left where the kit gives no unproved program that can be kept: rt try for a page, and else the proofs."""
    if program.name == "liquid_page":
        return page_by_try(program, words)
    say(program.name, "this kit keeps no unproved program, so the program is proved first")
    return prove(program) or start(program.proved, words)


def launched(name, words):
    if words[:1] == ["--help"] and name in CALLS:
        usage, what, _ = CALLS[name]
        print(HELP.format(usage=usage, what=what, name=name), end="")
        return 0
    program, is_asked = Program(name), words[:1] == ["--unproved"]
    words = words[is_asked:]
    proved = program.proved
    if not is_asked and proved.is_current:
        start(proved, words)
    if name in CALLS:
        need_files(name, words)
    elif not is_asked and (answer := kept_answer(name, words)):
        print(answer, end="")
        return 0
    why = "no proved program stands yet"
    if is_asked:
        why = "an unproved program is asked for"
    elif proved.is_there:
        why = f"the proved program is {proved.older_than()}"
    return start_unproved(program, words, why)


def main():
    name, *words = sys.argv[1:]
    try:
        return launched(name, words)
    except Invalid as ended:
        message, status = ended.args
    except Refused as ended:
        message, status = f"{ended}\n{name}: the compiler refuses the sources", 1
    except (Stopped, OSError) as ended:
        message, status = f"{name}: {ended}", 1
    print(message, file=sys.stderr)
    return status


if __name__ == "__main__":
    started_by(main)
