"""Calls of a program in files that fail, do less than was asked or wait (faults.c), and what was noted of them."""
import os
import re
import subprocess
from dataclasses import dataclass

# how many seconds a call may take, and the file beside a page's in which it is written before it takes its place, which a killed program
# may leave
LONGEST, PART = 20, re.compile(r"\.\d+-\d+\.bikleinu-part")


@dataclass
class Noted:
    """A call that a program made: its function, what it answered, its flags or mode, its path, and the second one of a rename."""

    name: str
    answer: int
    flags: int
    path: str
    second: str

    @property
    def file(self):
        return os.path.basename(self.path)

    @property
    def of_part(self):
        """Whether it is of the part of a page."""
        return bool(PART.fullmatch(self.file))


@dataclass
class Ended:
    """What a call came to: what it wrote, the lines that it printed, its status, and its calls where these are noted."""

    page: bytes
    printed: list
    status: int
    noted: list


def asked_of(library, faults):
    """The environment of a program whose calls are as these say: call, at, error, stays, most, pause, path, pid, notes."""
    return {"LD_PRELOAD": library, **{f"FAULT_{name.upper()}": str(value) for name, value in faults.items()}}


def faulty(library, words, room, given=subprocess.DEVNULL, **faults):
    """Makes a call in the folder. One that waits for a pipe, or a lock, has no status."""
    try:
        done = subprocess.run(words, cwd=room, stdin=given, capture_output=True, timeout=LONGEST, env=asked_of(library, faults))
    except subprocess.TimeoutExpired:
        return Ended(b"", ["it doesn't end"], None, [])
    return Ended(done.stdout, lines_of(done.stderr), done.returncode, noted_in(faults["notes"]) if "notes" in faults else [])


def lines_of(printed):
    return [line for line in printed.decode(errors="replace").split("\n") if line]


def noted_in(file):
    """The calls that are noted in a file, which is empty then."""
    with open(file, encoding="utf-8") as notes:
        fields = [line.rstrip("\n").split("\t") for line in notes]
    os.truncate(file, 0)
    return [Noted(name, int(answer), int(flags), path, second) for name, answer, flags, path, second in fields]
