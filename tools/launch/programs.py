"""The programs of this repository that the scripts at its top start: what they are made of, and which of them stand."""
import hashlib
import os
import subprocess
import sys
from dataclasses import dataclass
from functools import cached_property

TOP = os.path.dirname(os.path.dirname(os.path.dirname(os.path.abspath(__file__))))
sys.dont_write_bytecode = True
sys.path.insert(0, f"{TOP}/tests/wrong")

from crates import PARTS, Stopped, all_crates, kit

CRATES = "crates.txt"


@dataclass(frozen=True)
class Made:
    """A program in a file, with a stamp beside it: a sum of the sources that it is made of, and where they stand."""

    path: str
    folders: tuple
    ends: tuple

    @property
    def stamp(self):
        return f"{self.path}.of"

    def sources(self):
        """Each file that the program is made of, by its path in the repository."""
        yield CRATES
        for folder in self.folders:
            for at, _, names in os.walk(f"{TOP}/{folder}"):
                inside = os.path.relpath(at, TOP)
                yield from (f"{inside}/{name}" for name in names if name.endswith(self.ends))

    def sum(self):
        """A sum of the sources as they are."""
        summed = hashlib.sha256()
        for path in sorted(self.sources()):
            with open(f"{TOP}/{path}", "rb") as file:
                summed.update(b"%s\0%s\0" % (path.encode(), hashlib.sha256(file.read()).digest()))
        return summed.hexdigest()

    @property
    def is_there(self):
        return os.access(self.path, os.X_OK)

    @property
    def is_current(self):
        """Whether the program stands, and is made of the sources as they are. What was only touched is no change."""
        if not self.is_there:
            return False
        made, summed = self.stamped()
        if summed is None or made < os.stat(self.path).st_mtime_ns:
            # built by rt, and not seen here since
            well = not self.newer_source()
        else:
            well = summed == self.sum()
        if well:
            self.write_stamp(self.sum())
        return well

    def stamped(self):
        """When the stamp was written, and its sum."""
        try:
            with open(self.stamp, encoding="utf-8") as file:
                return os.fstat(file.fileno()).st_mtime_ns, file.readline().strip()
        except OSError:
            return 0, None

    def newer_source(self):
        """A source that is newer than the program."""
        made = os.stat(self.path).st_mtime_ns
        newer = (path for path in self.sources() if os.stat(f"{TOP}/{path}").st_mtime_ns > made)
        return next(newer, None)

    def older_than(self):
        """What is said of a program that isn't made of the sources as they are."""
        return f"older than {self.newer_source() or 'its sources'}"

    def write_stamp(self, summed):
        """Tells start.sh that the program is made of sources with this sum. Where nobody may write, it asks again each time."""
        try:
            with open(f"{self.stamp}.new", "w", encoding="utf-8") as file:
                file.write(f"{summed}\n{' '.join([*self.folders, CRATES])}\n")
            os.replace(f"{self.stamp}.new", self.stamp)
        except OSError:
            pass


@dataclass(frozen=True)
class Program:
    """A program by its crate."""

    name: str

    @cached_property
    def crate(self):
        crates = all_crates()
        if self.name not in crates or not os.path.isfile(f"{crates[self.name].folder}/src/main.rt"):
            raise Stopped(f"there is no program {self.name} in this repository")
        return crates[self.name]

    @property
    def crates(self):
        """What it is made of, lowest first."""
        return [*self.crate.below, self.crate]

    def made(self, path, parts, ends):
        folders = (f"crates/{it.name}/{part}" for it in self.crates for part in parts)
        there = tuple(it for it in folders if os.path.isdir(f"{TOP}/{it}"))
        return Made(f"{self.crate.folder}/out/{path}", there, ends)

    @property
    def proved(self):
        return self.made(self.name, PARTS, (".rt", ".antt"))

    @property
    def unproved(self):
        return self.made(f"unproved/{self.name}", ("src",), (".rt",))


def at_the_top():
    """The programs that have a script at the top of the repository."""
    programs = (name for name in all_crates() if os.path.isfile(f"{TOP}/crates/{name}/src/main.rt"))
    return [name for name in programs if os.access(f"{TOP}/{name}", os.X_OK)]


def kit_version():
    how = {"stdin": subprocess.DEVNULL, "capture_output": True, "text": True, "errors": "replace"}
    ran = subprocess.run(["rt", "version"], **how)
    return ran.stdout.strip() or "of no known version"
