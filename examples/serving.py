"""HTTP for the example servers. h11 reads and writes it; what stands here are bounds on time and size."""
from __future__ import annotations

import asyncio
import email.utils
import errno
import itertools
import re
import socket
from collections.abc import Awaitable, Callable, Iterable
from http import HTTPStatus
from typing import BinaryIO, TypeVar

import h11
from loopback import listen
from places import Place, places_for, serve

# The status if the system has no more of something.
SHORT = dict.fromkeys((errno.EMFILE, errno.ENFILE, errno.ENOBUFS, errno.ENOMEM, errno.EAGAIN), 503)
# And of a head that does not come, ends early, is too long, or has a length of more digits than Python reads.
BAD_HEAD = {asyncio.TimeoutError: 408, asyncio.IncompleteReadError: 400, asyncio.LimitOverrunError: 431, ValueError: 413}
PIECE, HEAD, PLACES, LINGER = 65536, 8192, 200, 2
# Heads of any other form, or with one of these headers twice or of two values, two servers could read in two ways.
PLAIN = re.compile(rb"[A-Za-z]+ [!-~]+ HTTP/1\.[01]\r\n(?:[-0-9A-Za-z]+:[\t -~\x80-\xff]*\r\n)*\r\n")
DOUBLE = re.compile(rb"\n(content-length|content-type|host):(?s:.*)\n\1:|\ncontent-(?:length|type):.*,", re.IGNORECASE)
# A page of a site whose name leads here is of that site, and is to read and put nothing.
OWN_HOST = re.compile(r"(?:127\.0\.0\.1|localhost|\[::1\])(?::[0-9]+)?", re.IGNORECASE)
# Where a browser says so, a page of another site, or of another port, may lead here and use nothing from here.
FOREIGN = {"cross-site", "same-site"}
GUARDS = [("X-Content-Type-Options", "nosniff"), ("Cross-Origin-Resource-Policy", "same-origin")]
T = TypeVar("T")


class Refusal(Exception):
    """Ends a request and its connection: the status, and the headers that go with it."""


class Client:
    """A connection, with the request that is to be answered. Of headers with one name it has a list."""

    def __init__(self, server: Server, place: Place, reader: asyncio.StreamReader, writer: asyncio.StreamWriter) -> None:
        self.server, self.place, self.reader, self.writer, self.http = server, place, reader, writer, h11.Connection(h11.SERVER)
        writer.transport.set_write_buffer_limits(0)  # so that what was drained is with the system

    async def in_time(self, work: Awaitable[T], status: int) -> T:
        """What the work gives, or the status if it takes too long."""
        try:
            return await asyncio.wait_for(work, self.server.seconds)
        except asyncio.TimeoutError:
            raise Refusal(status) from None

    async def next_request(self) -> bool:
        """Whether a request has come. Who is silent before one is let go, and within one is told so."""
        self.method, self.target, self.headers = "", "", dict[str, str]()
        head = await asyncio.wait_for(self.reader.read(1), self.server.seconds)
        if not head:
            return False
        try:
            head += await asyncio.wait_for(self.reader.readuntil(b"\r\n\r\n"), self.server.seconds)
            if not PLAIN.fullmatch(head) or DOUBLE.search(head):
                raise Refusal(400)
            self.http.receive_data(head)
            request = self.http.next_event()
        except tuple(BAD_HEAD) as fault:
            raise Refusal(BAD_HEAD[type(fault)]) from None
        self.method, self.target = request.method.decode(), request.target.decode()
        for name, value in ((name.decode(), value.decode("latin-1")) for name, value in request.headers):
            self.headers[name] = f"{self.headers[name]}, {value}" if name in self.headers else value
        if "transfer-encoding" in self.headers:
            raise Refusal(501)
        if not OWN_HOST.fullmatch(self.headers.get("host", "localhost")):
            raise Refusal(421)
        if self.headers.get("sec-fetch-site") in FOREIGN and self.headers.get("sec-fetch-mode") != "navigate":
            raise Refusal(403)
        self.place.moved(len(head))
        return True

    async def receive(self, file: BinaryIO) -> None:
        """Writes the request's body to the file. A sender that waits for leave to send it is given leave."""
        if self.http.they_are_waiting_for_100_continue:
            self.writer.write(self.http.send(h11.InformationalResponse(status_code=100, headers=[], reason="Continue")))
        while not isinstance(event := self.http.next_event(), h11.EndOfMessage):
            if event is h11.NEED_DATA:
                self.http.receive_data(await self.reader.read(PIECE))
            else:
                file.write(event.data)
                self.place.moved(len(event.data))
        file.flush()

    async def send(self, status: int, fields: Iterable[tuple[str, str]], body: Iterable[bytes] = ()) -> None:
        fields = [*fields, ("Date", email.utils.formatdate(usegmt=True)), *GUARDS]
        head = h11.Response(status_code=status, headers=fields, reason=HTTPStatus(status).phrase)
        for event in itertools.chain([head], (h11.Data(data=piece) for piece in body), [h11.EndOfMessage()]):
            self.writer.write(piece := self.http.send(event))
            await asyncio.wait_for(self.writer.drain(), self.server.seconds)
            self.place.moved(len(piece))

    async def end(self, status: int, why: str = "", *fields: tuple[str, str], beside: str = "") -> None:
        """Answers a line, and ends the connection. The server's own line has something beside."""
        line = f"{status} {why or HTTPStatus(status).phrase}"
        self.server.tell(line + beside)
        size = str(len(line) + 1)
        fields = (("Content-Type", "text/plain"), ("Content-Length", size), ("Connection", "close"), *fields)
        await self.send(status, fields, [] if self.method == "HEAD" else [line.encode() + b"\n"])
        # If a socket is closed with bytes unread, its sender can see a reset and never the answer.
        self.writer.write_eof()
        self.place.leave()
        await asyncio.wait_for(self.drop(), LINGER)

    async def drop(self) -> None:
        while await self.reader.read(PIECE):
            pass

    async def answer_all(self) -> None:
        try:
            while await self.next_request():
                await self.server.answer(self)
                if self.http.our_state is not h11.DONE:
                    return
                self.http.next_event()  # the end of a request without a body
                self.http.start_next_cycle()
        except Refusal as it:
            status, *fields = it.args
            await self.end(status, "", *fields)
        except h11.RemoteProtocolError as fault:
            await self.end(fault.error_status_hint)


class Server:
    """Answers so many clients at once."""

    def __init__(self, answer: Callable[[Client], Awaitable[None]], seconds: int, tell: Callable[[str], None]) -> None:
        # Each client takes two descriptors, its own and that of a file.
        self.answer, self.seconds, self.tell, self.places = answer, seconds, tell, places_for(PLACES, 2)

    async def attend(self, connection: socket.socket, port: int, place: Place) -> None:
        reader, writer = await asyncio.open_connection(sock=connection, limit=HEAD)
        try:
            await Client(self, place, reader, writer).answer_all()
        except (OSError, asyncio.TimeoutError, h11.LocalProtocolError):
            pass  # a client that leaves or takes nothing, or a file that became shorter
        finally:
            writer.transport.abort()

    async def run(self, port: int) -> None:
        await serve(listen(port), self.places, self.attend)
