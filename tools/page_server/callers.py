"""Callers that could keep a server of pages from others: each row opens some, and an honest caller must be answered beside them."""
import contextlib
import http.client
import json
import socket
import struct
import time
from dataclasses import dataclass

from connections import CONNECTIONS, LEAVING

HONEST = {"template": "Dear {{ name }},{% render 'end' %}", "partials": {"end": " yours"}, "data": {"name": "Ada"}}
ANSWER = {"text": "Dear Ada, yours", "fault": None, "message": None}
BODY = json.dumps(HONEST).encode()


def head_of(length):
    return f"POST /page HTTP/1.1\r\nHost: localhost\r\nContent-Length: {length}\r\n\r\n".encode()


HEAD = head_of(len(BODY))
# how many of a kind there are at once
SEVERAL = 5


@dataclass
class Kind:
    """A kind of caller: what it sends at first, a byte of what it sends at each step, and the status by which it is let go."""

    name: str
    first: bytes = b""
    later: bytes = b""
    status: int = 408


KINDS = [
    Kind("says nothing"),
    Kind("never ends its head", HEAD[:40]),
    Kind("never sends its body", HEAD),
    Kind("sends its head byte by byte", HEAD[:1], HEAD[1:]),
    Kind("sends its body byte by byte", HEAD, BODY),
    Kind("keeps its connection", HEAD + BODY, status=200),
    Kind("asks twice", 2 * (HEAD + BODY), status=200),
    Kind("sends too much", head_of(9999999) + bytes(9999999), status=413),
    Kind("tells of far too much", head_of("9" * 5000), status=413),
]


class Caller:
    """A connection of a kind, which leaves it to the server to close it."""

    def __init__(self, port, kind):
        self.kind, self.later = kind, kind.later
        self.socket = socket.create_connection(("127.0.0.1", port), timeout=10)
        self.socket.sendall(kind.first)

    def step(self):
        """Sends the next byte, if there is one and the server still takes it."""
        with contextlib.suppress(OSError):
            self.socket.sendall(self.later[:1])
        self.later = self.later[1:]

    def wrong(self, until):
        """What isn't well in how the server lets it go, by this time, with an answer."""
        answer = b""
        try:
            while True:
                self.socket.settimeout(max(0.01, until - time.monotonic()))
                more = self.socket.recv(1 << 16)
                if not more:
                    break
                answer += more
        except OSError as error:
            return f"{self.kind.name}: {error!r} after {answer[:100]!r}"
        said = answer.startswith(f"HTTP/1.1 {self.kind.status} ".encode())
        return None if said else f"{self.kind.name}: let go by {answer[:100]!r}"


class Asked:
    """A request on a connection of its own, sent at once and answered later."""

    def __init__(self, port, body=BODY):
        self.connection = http.client.HTTPConnection("127.0.0.1", port, timeout=10)
        self.start = time.monotonic()
        with contextlib.suppress(OSError):
            self.connection.request("POST", "/page", body)

    def answered(self):
        """The status and the answer, and how long both took; the status 0 where there is no answer."""
        try:
            with contextlib.closing(self.connection):
                answered = self.connection.getresponse()
                status, answer = answered.status, json.loads(answered.read())
        except (OSError, ValueError, http.client.HTTPException) as error:
            status, answer = 0, {"text": "", "fault": repr(error)}
        return status, answer, time.monotonic() - self.start


def wrong_in_honest(answered, allowed):
    """What isn't well in the answer to an honest request."""
    status, answer, seconds = answered
    if (status, answer) != (200, ANSWER):
        return f"an honest page beside it is {status}, {answer}"
    return f"an honest page beside it took {seconds * 1000:.0f} ms" if seconds > allowed else None


def wrong_beside(port, what, allowed):
    """What isn't well in an honest page that is asked for now."""
    wrong = wrong_in_honest(Asked(port).answered(), allowed)
    return wrong and f"{what}: {wrong}"


def resetting(port):
    """Resets a connection in the middle of a body, and one before its answer."""
    for sent in (HEAD + BODY[:9], HEAD + BODY):
        with contextlib.closing(socket.create_connection(("127.0.0.1", port))) as connection:
            connection.sendall(sent)
            connection.setsockopt(socket.SOL_SOCKET, socket.SO_LINGER, struct.pack("ii", 1, 0))


def crowd(port, allowed):
    """What isn't well where as many connections are open as are served: one more gets 503, and is served once these have gone. Each
    step comes when the server must have let go of whoever has gone."""
    with contextlib.ExitStack() as opened:

        def opening(count):
            time.sleep(LEAVING)
            for _ in range(count):
                opened.enter_context(socket.create_connection(("127.0.0.1", port)))

        opening(CONNECTIONS - 1)
        yield wrong_beside(port, "a place is left", allowed)
        opening(1)
        status, answer, seconds = Asked(port).answered()
        is_told = status == 503 and answer["fault"] == "Busy" and seconds <= allowed
        yield None if is_told else f"no place is left: {status}, {answer}, after {seconds * 1000:.0f} ms"
    time.sleep(LEAVING)
    yield wrong_beside(port, "a crowd that went", allowed)


def wrong_until(port, callers, until, allowed):
    """What isn't well in an honest page while these callers send what they have, a byte now and then."""
    wrong = None
    while not wrong and time.monotonic() < until:
        for caller in callers:
            caller.step()
        wrong = wrong_beside(port, "all of them", allowed)
        time.sleep(allowed / 5)
    return wrong


def wrong_of(port, allowed, asking):
    """What isn't well, or None, of each row. An honest caller may wait so long, and each caller has `asking` seconds."""
    rows = []
    for kind in KINDS:
        rows.append([Caller(port, kind) for _ in range(SEVERAL)])
        yield wrong_beside(port, kind.name, allowed)
    callers = sum(rows, [])
    until = time.monotonic() + asking
    yield wrong_until(port, callers, until, allowed)
    for row in rows:
        yield next(filter(None, (caller.wrong(until + LEAVING + allowed) for caller in row)), None)
    resetting(port)
    yield wrong_beside(port, "resets its connection", allowed)
    yield from crowd(port, allowed)
    for caller in callers:
        caller.socket.close()
