"""One case, given to the reading and to a built program."""
import json
import os
import re
import signal
from dataclasses import dataclass
from typing import Any, Callable

from language.faults import TooLong

# how liquid_page reports a fault, and how bikleinu does: after the name of the file
PRINTED = re.compile(r"error: (\w+): .+\n", re.S)
PRINTED_OF_FILE = re.compile(r"error: [^:\n]+: (\w+): .+\n", re.S)
# a program that takes longer is killed
MOST_SECONDS = 30


@dataclass
class Kind:
    """A kind of cases: the program, what makes a case, what the reading says of it, and what the program does."""

    program: str
    make: Callable
    read: Callable
    run: Callable
    # whether both agree, where that is more than equality
    agree: Callable = lambda read, ran: read == ran


@dataclass
class Difference:
    """What each of both wrote and how it ended: a kind, or None where the page is done."""

    read: tuple
    ran: tuple

    def like(self):
        """What stays the same while a case is shrunk: how both end, and whether their texts differ."""
        return self.read[1], self.ran[1], self.read[0] == self.ran[0]


class Program:
    """A built program, with a folder for the files of a case."""

    def __init__(self, path, folder):
        self.path = path
        self.folder = folder
        # files in the place of pipes: a case costs a third less
        flags = os.O_WRONLY | os.O_CREAT | os.O_TRUNC
        self.actions = [(os.POSIX_SPAWN_OPEN, number, f"{folder}/{name}", flags, 0o600) for number, name in ((1, "out"), (2, "printed"))]

    def put(self, name, text):
        with open(f"{self.folder}/{name}", "w", encoding="utf-8", newline="") as file:
            file.write(text)
        return name

    def partials(self, case):
        return [f"{name}={self.put(f'partial-{at}', source)}" for at, (name, source) in enumerate(case.partials)]

    def call(self, words):
        """The status, and what it wrote to standard output and to standard error. Its files are those of the folder."""
        os.chdir(self.folder)
        process = os.posix_spawn(self.path, [self.path, *words], os.environ, file_actions=self.actions)
        signal.signal(signal.SIGALRM, lambda *_: os.kill(process, signal.SIGKILL))
        signal.alarm(MOST_SECONDS)
        status = os.waitstatus_to_exitcode(os.waitpid(process, 0)[1])
        signal.alarm(0)
        return status, self.written("out"), self.written("printed")

    def written(self, name):
        with open(f"{self.folder}/{name}", encoding="utf-8", errors="replace", newline="") as file:
            return file.read()


def run_page(program, case):
    """What liquid_page writes, and how it ends."""
    status, page, printed = program.call([program.put("page", case.source), program.put("data", case.data), *program.partials(case)])
    return page, kind_of(PRINTED, status, printed)


def run_render(*options):
    """What bikleinu writes with these options, and how it ends."""

    def run(program, case):
        words = ["render", program.put("page", case.source), program.put("data", case.data)]
        words += [word for partial in program.partials(case) for word in ("-p", partial)]
        status, page, printed = program.call([*words, *options])
        return page, kind_of(PRINTED_OF_FILE, status, printed)

    return run


def run_paths(program, case):
    words = ["paths", program.put("page", case.source), *(word for partial in program.partials(case) for word in ("-p", partial))]
    status, page, printed = program.call(words)
    return page, kind_of(PRINTED_OF_FILE, status, printed)


def run_check(program, case):
    """The faults of the source: line, column and kind of each."""
    status, lines, printed = program.call(["check", program.put("page", case.source), "--format", "json"])
    found = [json.loads(line) for line in lines.splitlines()]
    faults = [(fault["line"], fault["column"], fault["kind"]) for fault in found if fault["severity"] == "error"]
    return faults, None if status == bool(faults) else f"status {status} and {printed[:80]!r}"


def kind_of(pattern, status, printed):
    """The kind that the program printed, None where the page is done, or what is wrong with how it ended."""
    if status == 0 and not printed:
        return None
    fault = pattern.fullmatch(printed)
    return fault[1] if status == 1 and fault else f"status {status} and {printed[:80]!r}"


def difference(kind, program, case):
    """How both differ in the case, None where they don't. TooLong is raised where the reading tells no end."""
    read = kind.read(case)
    ran = kind.run(program, case)
    return None if kind.agree(read, ran) else Difference(read, ran)


def differs_like(kind, program, case, like):
    """Whether both differ in the case in this way."""
    try:
        found = difference(kind, program, case)
    except TooLong:
        return False
    return found is not None and found.like() == like


def built(top, name):
    path = os.environ.get(name.upper()) or f"{top}/crates/{name}/out/{name}"
    path = os.environ.get("LIQUID_PAGE", path) if name == "liquid_page" else path
    if not os.access(path, os.X_OK):
        raise SystemExit(f"differ: {name} isn't built: run rt ci, or ./{name} once")
    return path
