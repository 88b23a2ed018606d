"""Proves a program and builds it, and says how far the proofs are."""
import os
import re
import tempfile
import time

from programs import Program, at_the_top
from running import Interrupted, run
from unproved import say

CHOSE = re.compile(r"^rt: chose --jobs .* (\S+)$")
SO_FAR = re.compile(r"^so far: (\d+) of (\d+) ")
CHECKED = re.compile(r"^checked (\w+)\S* .*?(\d+) of (\d+)$")


TAKES = "which takes half an hour or so the first time; ^C stops, and what is proved is kept"


class Progress:
    """How far the proofs are, by the file that rt writes what it says to. It is said each time it has changed."""

    def __init__(self, program, log):
        self.name, self.log = program.name, log
        self.crates = [it.name for it in program.crates]
        self.began, self.next, self.last_shown = time.monotonic(), 0, None
        self.crate = self.count = None

    def take(self, line):
        if found := CHOSE.match(line):
            self.crate, self.count = found[1], None
        elif found := SO_FAR.match(line):
            self.count = f"{found[1]} of {found[2]}"
        elif found := CHECKED.match(line):
            self.crate, self.count = found[1], f"{found[2]} of {found[3]}"

    def tell(self):
        now = time.monotonic()
        if now < self.next:
            return
        self.next = now + 5
        for line in self.log:
            self.take(line.rstrip("\n"))
        if self.crate in self.crates and self.count and self.last_shown != (self.crate, self.count):
            self.last_shown = (self.crate, self.count)
            at, minutes = self.crates.index(self.crate) + 1, int(now - self.began) // 60
            say(self.name, f"{minutes} min, {self.crate}, crate {at} of {len(self.crates)}, function {self.count}")


def prove(program):
    """Proves the program and builds it, where it isn't proved as its sources are. The answer is 0 where it stands then."""
    made = program.proved
    if made.is_current:
        say(program.name, "it is proved already")
        return 0
    older = f"the proved program is {made.older_than()}; " if made.is_there else ""
    say(program.name, f"{older}proving and building it, {TAKES}")
    summed = made.sum()
    if made.is_there:
        os.remove(made.path)
    with tempfile.NamedTemporaryFile() as said, open(said.name, errors="replace", encoding="utf-8") as log:
        progress = Progress(program, log)
        try:
            status = run(["rt", "run"], program.crate.folder, said, progress.tell)
        except Interrupted:
            say(program.name, "stopped; what is proved is kept, and ./prove goes on from there")
            raise
        if not made.is_there:
            log.seek(0)
            say(program.name, f"{log.read()}\n{program.name} isn't proved")
            return status or 1
    made.write_stamp(summed)
    say(program.name, "proved")
    return 0


def prove_all(names):
    """Proves the programs, or all that have a script at the top, and answers the first status that isn't 0."""
    for name in names or at_the_top():
        if status := prove(Program(name)):
            return status
    return 0
