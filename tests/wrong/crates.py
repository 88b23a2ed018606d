"""The repository's crates, and checks of a copy of one by the kit's prover."""
import contextlib
import glob
import os
import re
import shutil
import signal
import subprocess
import tempfile
import threading
from dataclasses import dataclass, field

from edits import text_of
from stubs import stub

TOP = os.path.dirname(os.path.dirname(os.path.dirname(os.path.abspath(__file__))))
PARTS = ("src", "specs", "proofs")
# what a check says where the kept work of a library doesn't fit the libraries below it
STALE = re.compile(r"Run the lower steps again")
SAID = re.compile(r"^fn (\S+): (proved|not proved|no proof|could not tell|no holes|depends on a hole)(.*)$", re.M)
LOGIC = re.compile(r"^logic=(proved|not-proved)", re.M)
ONLY = re.compile(r"^only=\d+ (?:proved|holes)=\d+", re.M)


class Stopped(Exception):
    """No verdict can be reached, and why."""


class GaveWay(Exception):
    """A check was ended, since whatever runs beside it wants the memory."""


class Yielding:
    """What checks give way to: it has ended once that is said, and until then they end themselves where little memory is left."""

    # how much is to be left, in bytes, and how often a check looks, in seconds
    SPARE, PAUSE = 1_500_000_000, 2

    def __init__(self):
        self.ended, self.turn = threading.Event(), threading.Lock()

    def wait_for(self, process):
        """The status of a process when it ends, and what it used. One process at a time gives way, so that the others may stay."""
        while True:
            pid, status, used = os.wait4(process.pid, os.WNOHANG)
            if pid:
                return status, used
            if not self.ended.wait(self.PAUSE) and free_memory() < self.SPARE and self.turn.acquire(blocking=False):
                killed(process)
                self.ended.wait(self.PAUSE)
                self.turn.release()
                raise GaveWay


def killed(process):
    """Ends a check with the processes that it has made."""
    for pid in [process.pid, *made_by(process.pid)]:
        with contextlib.suppress(ProcessLookupError):
            os.kill(pid, signal.SIGKILL)
    with contextlib.suppress(ChildProcessError):
        os.wait4(process.pid, 0)


def made_by(parent):
    """The processes that this one has made."""
    for folder in glob.glob("/proc/[0-9]*"):
        # one may have ended meanwhile; after its name, which may hold any character, come its state and its parent
        with contextlib.suppress(OSError):
            if text_of(f"{folder}/stat").rpartition(")")[2].split()[1] == str(parent):
                yield int(os.path.basename(folder))


def free_memory():
    """How much memory is left, in bytes."""
    with open("/proc/meminfo", encoding="utf-8") as file:
        return next(int(line.split()[1]) * 1024 for line in file if line.startswith("MemAvailable"))


@dataclass
class Said:
    """What a check of a folder said: all of it, its verdict of each function, and the seconds of a core that it took."""

    folder: str
    text: str
    status: int
    seconds: float
    verdicts: dict = field(default_factory=dict)

    @property
    def judged(self):
        """Whether the prover was reached, and ended."""
        return self.status in (0, 1) and bool(LOGIC.search(self.text) or ONLY.search(self.text))

    @property
    def proved(self):
        return self.status == 0 and self.judged


@dataclass
class Crate:
    """A crate, by its name, the libraries of the kit that it names, the crates below it, lowest first, and whether it is a static library."""

    name: str
    of_kit: list
    named: list
    below: list = field(default_factory=list)
    is_static: bool = False

    @property
    def folder(self):
        return f"{TOP}/crates/{self.name}"

    @property
    def library(self):
        return f"{self.folder}/out/rlib/{self.name}.rlib"

    @property
    def root(self):
        return "src/main.rt" if os.path.isfile(f"{self.folder}/src/main.rt") else "src/lib.rt"

    @property
    def lines(self):
        return sum(text_of(path).count("\n") for path in self.files() if path.endswith(".rt"))

    def files(self):
        for part in PARTS:
            for at, _, names in os.walk(f"{self.folder}/{part}"):
                yield from (f"{at}/{name}" for name in names)


def kit():
    """The folder of the kit."""
    try:
        page = subprocess.run(["rt", "doc"], capture_output=True, text=True, check=True).stdout.strip()
    except FileNotFoundError:
        raise Stopped("Rattle's kit isn't here: there is no command `rt`, and without it you need a package (README.md, Get it)") from None
    except (OSError, subprocess.CalledProcessError) as error:
        raise Stopped(f"rt doc doesn't tell where the kit is: {error}") from None
    return os.path.dirname(page)


def all_crates():
    """The crates that crates.txt names, by their names."""
    rows = [line.partition("#")[0].partition(":") for line in text_of(f"{TOP}/crates.txt").splitlines()]
    named = {name.split()[0]: words.split() for name, _, words in rows if name.strip()}
    static = {name.split()[0] for name, _, _ in rows if "staticlib" in name.split()}
    made = {}

    def make(name):
        if name not in made:
            ours = [make(word) for word in named[name] if word in named]
            made[name] = Crate(name, [word for word in named[name] if word not in named], [it.name for it in ours], is_static=name in static)
            for it in ours:
                made[name].below += [low for low in [*it.below, it] if low not in made[name].below]
        return made[name]

    return {name: make(name) for name in named}


def need_libraries(crates):
    """Builds the libraries below the crates, unless each is newer than what it is made of, and all were built in one way."""
    below = []
    for crate in crates:
        below += [low for low in crate.below if low not in below]
    ways = {os.path.exists(f"{low.folder}/out/rlib/stamp") for low in below}
    if len(ways) < 2 and all(is_new(low) for low in below):
        return
    print("the libraries are looked at by rt lib first, since a file is newer than one of them", flush=True)
    for low in sorted(below, key=lambda low: len(low.below)):
        build(low)


def build(crate):
    ran = subprocess.run(["rt", "lib"], cwd=crate.folder, stdin=subprocess.DEVNULL, stdout=subprocess.PIPE, stderr=subprocess.STDOUT, errors="replace")
    if ran.returncode:
        raise Stopped(f"{crate.name} isn't proved:\n{ran.stdout[-2000:]}")


def is_new(crate):
    """Whether the crate's library is newer than the files of the crate and than the libraries below it."""
    if not os.path.isdir(crate.library):
        return False
    made = os.stat(crate.library).st_mtime
    below = [low.library for low in crate.below]
    return all(os.path.exists(path) and os.stat(path).st_mtime <= made for path in [*crate.files(), *below])


def words(crate, at):
    """The words that check the crate in its own folder, with the kit at a folder."""
    made = ["--crate-name", crate.name, crate.root]
    for name in ["std", *crate.of_kit]:
        made += ["--extern", f"{name}={at}/rlibs/{name}.rlib"]
    made += ["-L", f"dependency={at}/rlibs"]
    for low in crate.below:
        made += ["--extern", f"{low.name}={low.library}"] if low.name in crate.named else []
        made += ["-L", f"dependency={os.path.dirname(low.library)}"]
    made += ["--antt-project", f"{at}/rattle/logic/antt-project.json", "--logic-built", f"{at}/logic_built"]
    made += ["--crate-type", "staticlib"] if crate.is_static else []
    return [*made, "--jobs", "1", "--links", f"{crate.name}="]


def copied(crate, copy, texts):
    """The folder of a copy of the crate, with these texts in place of its own."""
    shutil.rmtree(copy, ignore_errors=True)
    for part in PARTS:
        if os.path.isdir(f"{crate.folder}/{part}"):
            shutil.copytree(f"{crate.folder}/{part}", f"{copy}/{part}")
    for path, text in texts.items():
        with open(f"{copy}/{path}", "w", encoding="utf-8") as file:
            file.write(text)
    return copy


class Prover:
    """Checks copies of one crate, each over what the checks before it proved, in a folder of its own."""

    def __init__(self, crate, at, room):
        self.crate, self.at, self.room, self.seconds = crate, at, room, 0.0
        self.lock = threading.Lock()
        os.makedirs(room, exist_ok=True)

    def check_beside(self, texts, only=(), proved=()):
        """The same, over a copy of what is kept, which others may read meanwhile. The checked copy of the crate stays."""
        room = tempfile.mkdtemp(dir=self.room)
        if os.path.isdir(f"{self.room}/kept"):
            shutil.copytree(f"{self.room}/kept", f"{room}/kept")
        beside = Prover(self.crate, self.at, room)
        said = beside.check(texts, only, proved)
        shutil.rmtree(f"{room}/kept", ignore_errors=True)
        with self.lock:
            self.seconds += said.seconds
        return said

    def check(self, texts, only=(), proved=()):
        """What a check says of the crate with these texts in place of its own: of these modules alone, or of these functions, with
        each other one taken at its word."""
        copy = copied(self.crate, f"{self.room}/copy", texts)
        asked = [word for name in [*only, *(it.name for it in proved)] for word in ("--only", name)]
        if proved:
            stub(self.crate.name, copy, proved)
            asked.append("--allow-holes")
        command = [f"{self.at}/bin/rattle", "check", *words(self.crate, self.at), "--incremental", f"{self.room}/kept", *asked]
        said = ran(command, copy)
        self.seconds += said.seconds
        if STALE.search(said.text):
            raise Stopped(f"the libraries below {self.crate.name} don't fit one another: remove their out/ folders, and check them again")
        if said.status < 0:
            raise Stopped(f"a check of {self.crate.name} was ended by signal {-said.status}, most likely for want of memory: fewer --jobs")
        return said


def ran(command, folder, beside=None):
    """Runs a check, and ends it where this script is ended, or gives way to what runs beside."""
    with tempfile.TemporaryFile("w+", errors="replace") as out:
        started = subprocess.Popen(command, cwd=folder, stdin=subprocess.DEVNULL, stdout=out, stderr=subprocess.STDOUT)
        try:
            status, used = beside.wait_for(started) if beside else os.wait4(started.pid, 0)[1:]
        except GaveWay:
            raise
        except BaseException:
            killed(started)
            raise
        out.seek(0)
        text = out.read()
    verdicts = {name: (verdict, why) for name, verdict, why in SAID.findall(text)}
    return Said(folder, text, os.waitstatus_to_exitcode(status), used.ru_utime + used.ru_stime, verdicts)
