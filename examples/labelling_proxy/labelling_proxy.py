#!/usr/bin/env python3
"""A proxy on the loopback that prints the type of what each client sends. README.md says what it writes.

usage: labelling_proxy.py [--browser] PORT TO_PORT [SECONDS]"""
import asyncio
import socket
import struct
import sys
import time

import infer
from infer import mimesniff
from loopback import Lines, fail, listen, number_of
from places import Place, places_for, serve

ROOM, STREAMS, TURN = 65536, 256, 1
AT_ONCE, IN_ORDER = struct.pack("ii", 1, 0), struct.pack("ii", 0, 0)


class Stream:
    """A client and its server, and what is known of what the client sends."""

    def __init__(self, client: socket.socket, place: Place, port: int, lines: Lines, by_browser: bool) -> None:
        self.client, self.server, self.place, self.port, self.lines = client, socket.socket(), place, port, lines
        self.sniffer, self.count, self.is_told, self.is_broken = mimesniff.Sniffer() if by_browser else infer.Sniffer(), 0, False, False
        self.ended = set[socket.socket]()
        self.server.setsockopt(socket.IPPROTO_TCP, socket.TCP_NODELAY, 1)
        for side in (client, self.server):
            side.setblocking(False)
            side.setsockopt(socket.SOL_SOCKET, socket.SO_OOBINLINE, 1)
            # What is closed is reset, or an end of this program would tell a server that an upload is whole.
            side.setsockopt(socket.SOL_SOCKET, socket.SO_LINGER, AT_ONCE)

    def guess(self) -> str:
        """The type, or what a browser would make of the bytes if it was told none."""
        found = self.sniffer.compute() if isinstance(self.sniffer, mimesniff.Sniffer) else self.sniffer.guess_mime()
        return found or "unknown"

    def tell(self, when: str) -> None:
        """Prints the label once."""
        if not self.is_told:
            self.lines.tell(f"127.0.0.1:{self.port} {self.guess()} {when} {self.count}")
        self.is_told = True

    def label(self, piece: bytes) -> None:
        """Prints the label if no byte can change it, or if no more are kept."""
        self.count += len(piece)
        self.sniffer.push(piece)
        if not self.is_told and self.sniffer.is_decided():
            self.tell("final")
        elif self.sniffer.is_full():
            self.tell("front")

    async def pass_on(self, source: socket.socket, target: socket.socket) -> None:
        loop = asyncio.get_running_loop()
        while piece := await loop.sock_recv(source, ROOM):
            try:
                await loop.sock_sendall(target, piece)
            except OSError:
                self.is_broken = True  # the other side may still have bytes that came before
                return
            finally:
                self.place.moved(len(piece))
                if source is self.client:
                    self.label(piece)
        self.ended.add(source)
        if not self.is_broken:
            target.shutdown(socket.SHUT_WR)
            if source is self.client:
                self.tell("end")

    async def watch(self, seconds: int) -> None:
        """Fails once nothing has moved for so long, or a side is reset that has sent all and so is no longer read."""
        while not any(it.getsockopt(socket.SOL_SOCKET, socket.SO_ERROR) for it in self.ended):
            if time.monotonic() - self.place.at > seconds:
                raise TimeoutError
            await asyncio.sleep(TURN)
        raise ConnectionResetError

    async def run(self, to_port: int, seconds: int) -> None:
        try:
            async with asyncio.TaskGroup() as tasks:
                watching = tasks.create_task(self.watch(seconds))
                await asyncio.get_running_loop().sock_connect(self.server, ("127.0.0.1", to_port))
                async with asyncio.TaskGroup() as ways:
                    ways.create_task(self.pass_on(self.client, self.server))
                    ways.create_task(self.pass_on(self.server, self.client))
                watching.cancel()
        except* (OSError, asyncio.CancelledError):  # or its place was another's
            self.is_broken = True
        self.tell("cut")
        # What is broken is reset at both sides, so that neither takes what it got for all.
        for side in (self.client, self.server):
            side.setsockopt(socket.SOL_SOCKET, socket.SO_LINGER, AT_ONCE if self.is_broken else IN_ORDER)
            side.close()


async def run(port: int, to_port: int, seconds: int, by_browser: bool) -> None:
    lines, count = Lines(), places_for(STREAMS, 2)

    async def attend(client: socket.socket, client_port: int, place: Place) -> None:
        try:
            stream = Stream(client, place, client_port, lines, by_browser)
        except OSError:  # there is no descriptor
            return client.close()
        await stream.run(to_port, seconds)

    await serve(listen(port), count, attend)


def main() -> None:
    by_browser = sys.argv[1:2] == ["--browser"]
    words = sys.argv[2:] if by_browser else sys.argv[1:]
    port, to_port, seconds = (*words, "60")[:3] if 2 <= len(words) <= 3 else ("", "", "")
    if number_of(port, 65535) < 0 or number_of(to_port, 65535) < 0 or number_of(seconds, 86400) < 1:
        fail("usage: labelling_proxy.py [--browser] PORT TO_PORT [SECONDS]")
    asyncio.run(run(int(port), int(to_port), int(seconds), by_browser))


if __name__ == "__main__":
    main()
