"""What the example servers share: the words that start them, where they listen, and what they print."""
import contextlib
import os
import re
import select
import socket
import sys
from typing import NoReturn


def fail(why: str) -> NoReturn:
    """Ends a program that cannot begin."""
    print(why, file=sys.stderr)
    sys.exit(2)


def number_of(word: str, most: int) -> int:
    """The number that a word of digits says, or -1."""
    return int(word) if re.fullmatch("[0-9]{1,9}", word) and int(word) <= most else -1


def listen(port: int) -> socket.socket:
    """A socket that listens on the loopback, and says so."""
    # No connection gets the number of a standard descriptor that is closed, or lines would be sent over it.
    while os.open("/dev/null", os.O_RDWR) <= 2:
        pass
    it = socket.create_server(("127.0.0.1", port), backlog=256)
    # Or the end of an answer would wait until its client tells that it has the beginning.
    it.setsockopt(socket.IPPROTO_TCP, socket.TCP_NODELAY, 1)
    it.setblocking(False)
    print(f"listening on 127.0.0.1:{it.getsockname()[1]}", flush=True)
    return it


class Lines:
    """Lines on standard output. For one without room nobody waits: it is dropped and counted."""

    lost = 0

    def tell(self, line: str) -> None:
        text = (f"{self.lost} lines dropped\n" if self.lost else "") + line + "\n"
        self.lost += 1
        with contextlib.suppress(OSError):
            if select.select([], [1], [], 0)[1] and os.write(1, text.encode()) == len(text):
                self.lost = 0
