"""Who has a place at an example server, by one rule: the slowest loses its place to a new client, whatever it sends."""
from __future__ import annotations

import asyncio
import contextlib
import resource
import socket
import time
from collections.abc import Callable, Coroutine, Iterator
from typing import Any

# A new client counts as one that has just moved so many bytes, and each second what was moved counts half.
FIRST, REST = 8192, 0.1


class Place:
    """What a client has brought and taken of late."""

    def __init__(self) -> None:
        self.count, self.at, self.waits = float(FIRST), time.monotonic(), False

    def recent(self) -> float:
        return self.count * 0.5 ** (time.monotonic() - self.at)

    def moved(self, count: int) -> None:
        self.count, self.at = self.recent() + count, time.monotonic()

    def leave(self) -> None:
        """The client has its answer, and goes before all others."""
        self.count = 0

    @contextlib.contextmanager
    def waiting(self) -> Iterator[None]:
        """Meanwhile the client waits for the server, and so is not slow."""
        self.waits = True
        try:
            yield
        finally:
            self.waits = False
            self.moved(FIRST)


def places_for(most: int, descriptors: int) -> int:
    """So many places, or fewer if the system has not so many descriptors for each."""
    return max(1, min(most, (resource.getrlimit(resource.RLIMIT_NOFILE)[0] - 32) // descriptors))


async def serve(listening: socket.socket, most: int, attend: Callable[[socket.socket, int, Place], Coroutine[Any, Any, None]]) -> None:
    """Lets each client in, and attends to so many at once: to its connection, its port and its place."""
    places: dict[asyncio.Task[None], Place] = {}
    while True:
        try:
            client, (_, port) = await asyncio.get_running_loop().sock_accept(listening)
        except OSError:  # there is no descriptor
            await asyncio.sleep(REST)
            continue
        while len(places) >= most:
            ending = list(places)
            if slow := [task for task, place in places.items() if not place.waits]:
                ending = [min(slow, key=lambda task: places[task].recent())]
                ending[0].cancel()
            await asyncio.wait(ending, timeout=REST, return_when=asyncio.FIRST_COMPLETED)
        task = asyncio.create_task(attend(client, port, place := Place()))
        places[task] = place
        task.add_done_callback(places.pop)
        # Those that are in have their turn before the next one comes.
        await asyncio.sleep(0)
