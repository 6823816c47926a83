"""The page as examples/static_server serves it, and what every browser can do with it."""
from __future__ import annotations

import contextlib
import os
import socket
import subprocess
import sys
from collections.abc import Iterator
from typing import Any

HERE = os.path.dirname(os.path.abspath(__file__))
sys.path.insert(0, os.path.dirname(HERE))
import support

# The modules of which the page takes the first that is there.
MODULES = [f"{support.ROOT}/{it}/infer.wasm" for it in ("c/out/wasm64-unknown-unknown", "dist")]


def missing() -> str:
    """Why there is no page, or nothing."""
    return "" if any(map(os.path.exists, MODULES)) else "no module of c/build --target wasm64-unknown-unknown"


def free_port() -> int:
    with socket.socket() as it:
        it.bind(("127.0.0.1", 0))
        return it.getsockname()[1]


@contextlib.contextmanager
def served() -> Iterator[str]:
    """The address of the page."""
    folder = support.folder()
    subprocess.run([f"{HERE}/fill", folder], check=True)
    env = support.environment(support.h11())
    with support.running([sys.executable, f"{support.ROOT}/examples/static_server/static_server.py", "0", folder], env=env) as server:
        yield f"http://127.0.0.1:{support.port_of(server)}/"


class Window:
    """A browser's window."""

    def go_to(self, address: str) -> None:
        raise NotImplementedError

    def run(self, script: str, *words: Any) -> Any:
        """What a script returns, of which `arguments` are the words. A promise is waited for."""
        raise NotImplementedError

    def open(self, address: str) -> None:
        self.go_to(address)
        support.wait_until(lambda: self.status() != "The page is being made ready.")

    def status(self) -> str:
        return self.run('return document.getElementById("status").textContent')

    def wait_for_rows(self, before: str) -> None:
        """Waits until all files were looked at that were given to the page when its status was that."""
        support.wait_until(lambda: self.status() != before and "Nothing was sent." in self.status())
