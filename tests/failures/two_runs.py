"""Two calls that write the same files at one time: each ends by status 0, and each file is whole, as one of them makes it."""
import os
import random
import signal
import subprocess
import time
from collections import Counter

from faulty import LONGEST, asked_of, faulty, lines_of
from room import files_in

# how often both run at one time, and the calls that wait there
ROUNDS, WAITING = 50, ("open", "fchmod", "flock", "write", "fsync", "close", "rename", "getdents64", "unlink", "statx")


class Two:
    """A call and the one beside it, and what each makes of the files alone."""

    def __init__(self, library, path, call, room):
        self.library, self.room = library, room
        self.words = [[path, *call.arguments], [path, *call.others]]
        self.ended, self.alone = zip(*map(self.made_alone, self.words))

    def made_alone(self, words):
        """What a call comes to alone, with its calls, and the files after it."""
        self.room.reset()
        ended = faulty(self.library, words, self.room.at, notes=f"{os.path.dirname(self.room.at)}/notes")
        return ended, files_in(self.room.at)

    def start(self, words, fault):
        """Starts a call of which a call in files is as is said."""
        how = {"stdin": subprocess.DEVNULL, "stdout": subprocess.DEVNULL, "stderr": subprocess.PIPE, "env": asked_of(self.library, fault)}
        return subprocess.Popen(words, cwd=self.room.at, **how)

    def printed(self, running):
        running.send_signal(signal.SIGCONT)
        return running.communicate(timeout=LONGEST)[1]

    def wrong_end(self, running):
        """What is wrong once both have ended, one after another, where the latter may stand until then."""
        try:
            printed = [self.printed(it) for it in running]
        except subprocess.TimeoutExpired:
            return "they don't end"
        finally:
            for it in running:
                it.kill()
        left, names = files_in(self.room.at), {*self.alone[0], *self.alone[1]}
        strange = [name for name in {*left, *names} if left.get(name) not in [files.get(name) for files in self.alone]]
        if strange or any(it.returncode for it in running):
            return f"they end by {[(it.returncode, lines_of(text)) for it, text in zip(running, printed)]}, and leave {strange}"
        return None


def together(given, path, call, room):
    """What is wrong where both run at one time, whose calls wait."""
    two, chance = Two(given.faults, path, call, room), random.Random(69)
    yield from wrong_alone(two)
    for _ in range(ROUNDS):
        room.reset()
        faults = [{"call": chance.choice(WAITING), "at": chance.randrange(3), "pause": chance.randrange(1, 25)} for _ in two.words]
        running = []
        for words, fault in zip(two.words, faults):
            running.append(two.start(words, fault))
            time.sleep(chance.random() / 100)
        if wrong := two.wrong_end(running):
            yield f"{faults}: {wrong}"


def within(given, path, call, room):
    """What is wrong where the second runs from its beginning to its end while the first one stands at one of its calls in files, each in turn."""
    two = Two(given.faults, path, call, room)
    yield from wrong_alone(two)
    for name, count in Counter(it.name for it in two.ended[0].noted).items():
        for at in range(1, count + 1):
            room.reset()
            first = two.start(two.words[0], {"call": name, "at": at, "signal": int(signal.SIGSTOP)})
            stopped = os.WIFSTOPPED(os.waitpid(first.pid, os.WUNTRACED)[1])
            if not stopped:
                yield f"{name} {at}: it doesn't come so far"
                continue
            second = two.start(two.words[1], {})
            if wrong := two.wrong_end([second, first]):
                yield f"the first stands at {name} {at}: {wrong}"


def wrong_alone(two):
    if any(it.status for it in two.ended) or two.alone[0] == two.alone[1]:
        yield f"alone they end by {[it.status for it in two.ended]}, or write the same"
