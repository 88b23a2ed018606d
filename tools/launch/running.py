"""Commands that end with the script that started them, and none of whose processes stays behind."""
import os
import signal
import subprocess
import sys
import time

ENDING = (signal.SIGINT, signal.SIGTERM, signal.SIGHUP)
PATIENCE = 5


class Interrupted(Exception):
    """Somebody asks this script to end, by a signal of this number."""

    def __init__(self, number):
        super().__init__(number)
        self.number = number


def listen():
    """Has each signal that asks this script to end raise Interrupted, once. One that the caller has it ignore stays ignored."""
    heard = [it for it in ENDING if signal.getsignal(it) is not signal.SIG_IGN]

    def interrupt(number, _):
        for it in ENDING:
            signal.signal(it, signal.SIG_IGN)
        raise Interrupted(number)

    for it in heard:
        signal.signal(it, interrupt)


def end_by(number):
    """Ends this script as the signal does, so that whoever started it knows."""
    signal.signal(number, signal.SIG_DFL)
    os.kill(os.getpid(), number)


def started_by(main):
    """Runs what a script does, and ends by its status."""
    listen()
    try:
        sys.exit(main())
    except Interrupted as ended:
        sys.stdout.flush()
        end_by(ended.number)


def run(words, cwd, said, tell=lambda: None, env=None, out=None):
    """Runs a command, with what it says in a file (and its standard output in another, where one is given), and calls tell
    five times a second. The answer is its status."""
    how = {"stdin": subprocess.DEVNULL, "stdout": out or said, "stderr": said}
    started = subprocess.Popen(words, cwd=cwd, env=env, start_new_session=True, **how)
    try:
        while True:
            try:
                return started.wait(0.2)
            except subprocess.TimeoutExpired:
                tell()
    finally:
        end(started)


def end(started):
    """Ends what a command started: it is asked first, as by ^C, and stopped a little later."""
    left = family(started.pid)
    if left:
        send(left, signal.SIGINT)
        until = time.monotonic() + PATIENCE
        while left and time.monotonic() < until:
            time.sleep(0.05)
            started.poll()
            left = {*family(started.pid)} | {it for it in left if is_running(it)}
        send(left, signal.SIGKILL)
    started.wait()


def send(processes, number):
    for it in processes:
        try:
            os.kill(it, number)
        except (ProcessLookupError, PermissionError):
            pass


def is_running(process):
    return (it := stat_of(process)) is not None and it[0] not in "ZX"


def stat_of(process):
    """State, parent and session of a process."""
    try:
        with open(f"/proc/{process}/stat", encoding="utf-8", errors="replace") as file:
            state, parent, _, session = file.read().rpartition(")")[2].split()[:4]
    except (OSError, ValueError):
        return None
    return state, int(parent), int(session)


def family(first):
    """The processes that run in the session of a command, and those that any of these started."""
    stats = {int(name): stat_of(name) for name in os.listdir("/proc") if name.isdigit()}
    found = {it for it, stat in stats.items() if stat and stat[2] == first}
    grows = True
    while grows:
        more = {it for it, stat in stats.items() if stat and stat[1] in found and it not in found}
        grows = bool(more)
        found |= more
    return {it for it in found if stats[it][0] not in "ZX"}
