"""A headless Firefox, driven by its own protocol Marionette, for which Debian has no driver."""
from __future__ import annotations

import contextlib
import json
import shutil
import socket
import subprocess
import unittest
from collections.abc import Iterator
from typing import Any

from window import Window, free_port, support

NAMES = ("firefox", "firefox-esr")
SETTINGS = {"browser.shell.checkDefaultBrowser": False, "datareporting.policy.dataSubmissionEnabled": False, "app.normandy.enabled": False,
            "network.captive-portal-service.enabled": False, "network.connectivity-service.enabled": False}


def missing() -> str:
    """Which program is not here, or nothing."""
    return "" if any(map(shutil.which, NAMES)) else "no firefox"


class Firefox(Window):
    """A session of Marionette: each message is its length, a colon and JSON."""

    def __init__(self, connection: socket.socket) -> None:
        self.stream, self.count = connection.makefile("rwb"), 0
        self.receive()
        self.ask("WebDriver:NewSession")

    def receive(self) -> Any:
        digits = b""
        while (byte := self.stream.read(1)) != b":":
            if not byte:
                raise AssertionError("Firefox ended")
            digits += byte
        return json.loads(self.stream.read(int(digits)))

    def ask(self, command: str, **words: Any) -> Any:
        self.count += 1
        message = json.dumps([0, self.count, command, words]).encode()
        self.stream.write(b"%d:%s" % (len(message), message))
        self.stream.flush()
        _, _, fault, answer = self.receive()
        if fault:
            raise AssertionError(fault["message"])
        return answer

    def go_to(self, address: str) -> None:
        self.ask("WebDriver:Navigate", url=address)

    def run(self, script: str, *words: Any) -> Any:
        return self.ask("WebDriver:ExecuteScript", script=script, args=words)["value"]

    def choose(self, *paths: str) -> None:
        """Chooses files, as a user does, and waits until they were looked at."""
        before = self.status()
        (found,) = self.ask("WebDriver:FindElement", using="css selector", value="#files")["value"].values()
        self.ask("WebDriver:ElementSendKeys", id=found, text="\n".join(paths))
        self.wait_for_rows(before)


@contextlib.contextmanager
def browser() -> Iterator[Firefox]:
    """A Firefox with a profile of its own. One that cannot start here leaves the tests out."""
    profile, port = support.folder(), free_port()
    with open(f"{profile}/user.js", "w", encoding="ascii") as file:
        file.writelines(f"user_pref({json.dumps(name)}, {json.dumps(value)});\n" for name, value in (SETTINGS | {"marionette.port": port}).items())
    words = [next(filter(None, map(shutil.which, NAMES))), "--headless", "--no-remote", "--marionette", "--profile", profile]
    with support.running(words, stderr=subprocess.DEVNULL) as process:
        support.wait_until(lambda: support.is_open(port) or process.poll() is not None)
        if process.poll() is not None:
            raise unittest.SkipTest(f"the firefox that is here cannot start: status {process.returncode}")
        with socket.create_connection(("127.0.0.1", port), timeout=support.PATIENCE) as connection:
            yield Firefox(connection)
