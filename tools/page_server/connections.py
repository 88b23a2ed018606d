"""Requests read side by side, each in its own time, on one thread, since this process forks.

A connection asks once, and is closed after its answer. So whoever says nothing, stops in the middle, sends a byte now and then or keeps
its connection takes a place among CONNECTIONS until its time is over, and nobody else's time.
"""
import asyncio
import http
import http.client
import io
import re
import socket

# How many connections are served at once. As many more get 503 at a time, and others wait in the system's queue. Whoever opens all
# of them shuts others out for ASKING seconds: let a proxy in front bound what one address may open.
CONNECTIONS = 64
# seconds that a caller has for head and body together, and again to take its answer
ASKING = 10.0
# seconds that an answered caller has to close its connection
LEAVING = 1.0
HEAD = 16 << 10


class Refused(Exception):
    """What isn't taken: the status of the answer, and why."""


def asked_length(head, most):
    """How many bytes the body has by the head, and whether the caller waits for leave to send it."""
    line, _, fields = head.partition(b"\r\n")
    try:
        method, path, _ = line.decode("ascii").split(" ")
        headers = http.client.parse_headers(io.BytesIO(fields + b"\r\n\r\n"))
    except (ValueError, http.client.HTTPException):
        raise Refused(400, "the head isn't one of HTTP") from None
    if path != "/page":
        raise Refused(404, "the path isn't /page")
    if method != "POST":
        raise Refused(405, "the method isn't POST")
    length = headers.get("Content-Length", "")
    if not re.fullmatch("[0-9]+", length):
        raise Refused(411, "the head has no Content-Length")
    if len(length) > len(str(most)) or int(length) > most:
        raise Refused(413, f"at most {most} bytes are taken")
    return int(length), headers.get("Expect", "").lower() == "100-continue"


async def received(connection):
    read = await asyncio.get_running_loop().sock_recv(connection, 1 << 18)
    if not read:
        raise EOFError
    return read


async def asked(connection, most):
    """The body of a request, once all of it is there."""
    read = bytearray()
    while b"\r\n\r\n" not in read:
        if len(read) > HEAD:
            raise Refused(431, f"a head has at most {HEAD} bytes")
        read += await received(connection)
    head, _, body = read.partition(b"\r\n\r\n")
    length, is_waiting = asked_length(head, most)
    if is_waiting:
        connection.send(b"HTTP/1.1 100 Continue\r\n\r\n")
    while len(body) < length:
        body += await received(connection)
    del body[length:]
    return body


def response(status, body):
    lines = [
        f"HTTP/1.1 {status} {http.HTTPStatus(status).phrase}",
        "Content-Type: application/json",
        f"Content-Length: {len(body)}",
        "Connection: close",
    ]
    return "\r\n".join([*lines, "", ""]).encode() + body


async def gone(connection):
    """Waits until the caller closes. Closing first would reset a connection on which it still sends, and its answer would be lost."""
    connection.shutdown(socket.SHUT_WR)
    while await asyncio.get_running_loop().sock_recv(connection, 1 << 16):
        pass


class Server:
    """Serves connections side by side, and renders their pages one at a time. A body has `most` bytes, and `asking` seconds to arrive."""

    def __init__(self, pages, most, asking=ASKING):
        self.pages, self.most, self.asking = pages, most, asking
        self.open, self.served = set(), 0

    async def serve(self, listener):
        """Takes connections from a listening socket, for ever."""
        listener.setblocking(False)
        loop = asyncio.get_running_loop()
        while True:
            while len(self.open) >= 2 * CONNECTIONS:
                await asyncio.wait(self.open, return_when=asyncio.FIRST_COMPLETED)
            try:
                connection, _ = await loop.sock_accept(listener)
            except OSError:
                # the caller went, or this process has no descriptor left
                await asyncio.sleep(0.1)
                continue
            task = loop.create_task(self.closed(connection))
            self.open.add(task)
            task.add_done_callback(self.open.discard)

    async def closed(self, connection):
        """Answers a connection and closes it. A caller that goes early or doesn't take its answer gets none."""
        is_served = self.served < CONNECTIONS
        self.served += is_served
        try:
            await self.answer(connection, is_served)
            await asyncio.wait_for(gone(connection), LEAVING)
        except (OSError, EOFError, asyncio.TimeoutError):
            pass
        finally:
            connection.close()
            self.served -= is_served

    async def answer(self, connection, is_served):
        if is_served:
            answer = response(*await self.answered(connection))
        else:
            answer = response(503, self.pages.refusal("Busy", f"{CONNECTIONS} connections are open"))
        # What the system takes at once goes before the next page is rendered.
        left = answer[connection.send(answer):]
        self.pages.refill()
        await asyncio.wait_for(asyncio.get_running_loop().sock_sendall(connection, left), self.asking)

    async def answered(self, connection):
        """The status and the body of the answer."""
        try:
            body = await asyncio.wait_for(asked(connection, self.most), self.asking)
        except Refused as refused:
            status, why = refused.args
            return status, self.pages.refusal("Request", why)
        except asyncio.TimeoutError:
            return 408, self.pages.refusal("Request", f"the request wasn't complete after {self.asking:g} seconds")
        return 200, self.pages.page(body)
