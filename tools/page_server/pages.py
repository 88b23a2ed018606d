"""Pages of strangers' templates, each in a worker process that has little memory, little stack and little time.

The worker renders one page after another and keeps nothing of a page. It refuses itself memory beyond its share (the engine then ends the
page by `Memory`), and a page that takes too long ends with its worker: another one, made ahead, takes its place.
"""
import contextlib
import json
import os
import resource
import select
import signal
import socket
import sys
import time

HERE = os.path.dirname(os.path.abspath(__file__))
TOP = os.path.dirname(os.path.dirname(HERE))
sys.path.insert(0, f"{TOP}/bindings/python")

import bikleinu

# What one page may take. Bytes and turns end it in the engine, by a beginning of its text; time ends its worker. MEMORY is what a
# worker may take beyond what it has when it begins, which is some 15 MiB.
SECONDS = 0.035
MEMORY = 36 << 20
SOURCE = 8 << 20
DEPTH = 32
WORKERS = 2
BYTES = 256 << 10
TURNS = 20_000
# how a worker exits that has no room for what it is asked
NO_ROOM = 1


def kept_small():
    """This process gets no more memory than its share, and leaves no file where it is ended."""
    with open("/proc/self/statm", encoding="ascii") as file:
        now = int(file.read().split()[0]) * resource.getpagesize()
    resource.setrlimit(resource.RLIMIT_AS, (now + MEMORY, now + MEMORY))
    resource.setrlimit(resource.RLIMIT_CORE, (0, 0))


def kept_apart(channel):
    """This process keeps no connection of its server but the channel, and the server ends it."""
    signal.signal(signal.SIGINT, signal.SIG_IGN)
    for held in map(int, os.listdir("/proc/self/fd")):
        if held > 2 and held != channel.fileno():
            # the list's own is closed by now
            with contextlib.suppress(OSError):
                os.close(held)


def rendered(asked):
    """What a page comes to: its text, and the name and message of its fault."""
    try:
        asked = json.loads(asked)
        partials = bikleinu.Partials(asked.get("partials") or {})
        page = bikleinu.Template(asked["template"]).page(asked.get("data") or {}, partials, DEPTH, max_bytes=BYTES, max_turns=TURNS)
        text, fault = page.text, page.fault
    except bikleinu.LiquidError as error:
        text, fault = "", error
    except MemoryError:
        return {"text": "", "fault": "Memory", "message": "no memory was to be had"}
    except (ValueError, KeyError, TypeError, AttributeError, RecursionError) as error:
        return {"text": "", "fault": "Request", "message": str(error)[:200]}
    return {"text": text, "fault": fault and fault.name, "message": fault and str(fault)}


def take(channel, length):
    parts = bytearray()
    while len(parts) < length:
        more = channel.recv(min(length - len(parts), 1 << 16))
        if not more:
            raise EOFError
        parts += more
    return bytes(parts)


def taken(channel):
    return take(channel, int.from_bytes(take(channel, 8), "big"))


def given(channel, what):
    channel.sendall(len(what).to_bytes(8, "big") + what)


def work(channel):
    """What a worker does, until its server is gone."""
    kept_apart(channel)
    kept_small()
    while True:
        try:
            asked = taken(channel)
        except EOFError:
            return
        try:
            answer = json.dumps(rendered(asked)).encode()
        except MemoryError:
            answer = b'{"text": "", "fault": "Memory", "message": "no memory was to be had"}'
        del asked
        given(channel, answer)


class Worker:
    """A process that renders pages, and the channel to it."""

    def __init__(self):
        self.channel, theirs = socket.socketpair()
        self.process = os.fork()
        if not self.process:
            try:
                work(theirs)
            except MemoryError:
                os._exit(NO_ROOM)
            finally:
                os._exit(0)
        theirs.close()

    def end(self):
        """Ends it, and answers whether it had ended for want of room."""
        os.kill(self.process, signal.SIGKILL)
        _, status = os.waitpid(self.process, 0)
        self.channel.close()
        return os.WIFEXITED(status) and os.WEXITSTATUS(status) == NO_ROOM

    def memory(self):
        """The most memory that it ever had, in bytes."""
        with open(f"/proc/{self.process}/status", encoding="ascii") as file:
            return next(int(line.split()[1]) << 10 for line in file if line.startswith("VmHWM"))


class Pages:
    """Renders pages, one at a time, each in so many seconds, by a worker, with a second one that waits. After each page `refill` is due."""

    def __init__(self, seconds=SECONDS):
        self.seconds = seconds
        self.ready, self.ended = [], 0
        self.refill()

    def page(self, asked):
        """The answer to a request, both of them as bytes of JSON."""
        if len(asked) > SOURCE:
            return self.refusal("Request", f"at most {SOURCE} bytes are taken")
        if not self.ready:
            self.refill()
        if not self.ready:
            return self.refusal("Ended", "no worker could be started")
        worker = self.ready[0]
        until = time.monotonic() + self.seconds
        why = "Time", f"the page took more than {self.seconds} seconds"
        try:
            worker.channel.settimeout(self.seconds)
            given(worker.channel, asked)
            worker.channel.settimeout(max(0.001, until - time.monotonic()))
            if select.select([worker.channel], [], [], max(0, until - time.monotonic()))[0]:
                worker.channel.settimeout(self.seconds)
                return taken(worker.channel)
        except socket.timeout:
            pass
        except (OSError, EOFError):
            why = "Ended", "the worker of this page ended"
        if self.ready.pop(0).end():
            why = "Memory", "no memory was to be had"
        self.ended += 1
        return self.refusal(*why)

    def refill(self):
        """Makes workers in the place of those that ended, for a server to call once it has answered: a fork takes milliseconds. If the
        system starts none, the next page tries again."""
        with contextlib.suppress(OSError):
            while len(self.ready) < WORKERS:
                self.ready.append(Worker())

    @staticmethod
    def refusal(fault, message):
        return json.dumps({"text": "", "fault": fault, "message": message}).encode()

    def close(self):
        for worker in self.ready:
            worker.end()
        self.ready = []
