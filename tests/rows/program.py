"""The built program, started once for a row, whose calls are forks of it (tests/refusals/refuse.c): a start costs more than a call."""
import os
import re
import socket
import struct
import subprocess
from dataclasses import dataclass

TOP = os.path.dirname(os.path.dirname(os.path.dirname(os.path.abspath(__file__))))
PROGRAM = f"{TOP}/crates/liquid_page/out/liquid_page"
# the lines after a fault: the one in which it stands, with its mark, or why a file has no text
SHOWN = re.compile(r" +\|\n\d+ \| [^\n]*\n +\| *\^\n\Z|(?<=\n)  [a-z][^\n]*\n\Z")
# what a call is refused, and what is answered, as refuse.c reads and writes them
ASKED, ANSWERED = struct.Struct("5L"), struct.Struct("4l")
NO_END = 2**64 - 1


@dataclass
class Ended:
    """What a call of the program came to."""

    page: bytes
    # the line that is printed, and the lines that are shown after it
    printed: str
    shown: str
    status: int
    # -1 where it didn't come to its end
    requests: int
    writes: int
    # writes to files, and their new names
    steps: int = 0


class Program:
    """The program in the folder of a row, with the words of its calls. What it writes goes to files in memory, which no one has to read
    while it runs."""

    def __init__(self, library, words, folder, path=PROGRAM, given=subprocess.DEVNULL):
        self.page, self.printed = (open(os.memfd_create(name), "w+b", buffering=0) for name in ("page", "printed"))
        self.socket, served = socket.socketpair()
        with served:
            # all names are bound before the first call: each fork would bind them again
            env = {"LD_PRELOAD": library, "LD_BIND_NOW": "1", "REFUSE_SERVE": str(served.fileno())}
            streams = {"stdin": given, "stdout": self.page, "stderr": self.printed}
            self.process = subprocess.Popen([path, *words], cwd=folder, env=env, **streams, pass_fds=[served.fileno()])

    def __enter__(self):
        return self

    def __exit__(self, *_):
        self.socket.close()
        self.process.wait()
        self.page.close()
        self.printed.close()

    def call(self, refuse_at=0, refuse_write=0, write_bytes=0, write_room=NO_END, refuse_step=0):
        """What a call comes to that is refused what is said."""
        requests, writes, steps, status = self.answer(ASKED.pack(refuse_at, refuse_write, write_bytes, write_room, refuse_step))
        page, printed = written(self.page), written(self.printed).decode(errors="replace")
        after = SHOWN.search(printed)
        at = after.start() if after else len(printed)
        return Ended(page, printed[:at], printed[at:], status, requests, writes, steps)

    def answer(self, asked):
        """The requests, the writes, the steps in files and the status of a call, or -1 three times and the status of the program where it
        ended and serves no more."""
        try:
            self.socket.sendall(asked)
            answered = self.socket.recv(ANSWERED.size, socket.MSG_WAITALL)
        except (BrokenPipeError, ConnectionResetError):
            answered = b""
        if not answered:
            return -1, -1, -1, self.process.wait()
        *counts, status = ANSWERED.unpack(answered)
        return *counts, os.waitstatus_to_exitcode(status)


def written(file):
    """What a call wrote to the file. The next one writes from its beginning again, since they share the place in it."""
    length = file.tell()
    if not length:
        return b""
    file.seek(0)
    text = file.read(length)
    file.seek(0)
    return text
