"""A headless Chromium, driven by chromedriver over HTTP."""
from __future__ import annotations

import base64
import contextlib
import json
import os
import shutil
import subprocess
import unittest
import urllib.error
import urllib.request
from collections.abc import Iterator
from typing import Any

from window import Window, free_port, support


def missing() -> str:
    """Which program is not here, or nothing."""
    return next((f"no {name}" for name in ("chromium", "chromedriver") if not shutil.which(name)), "")


class Chromium(Window):
    """A session of chromedriver. One that this machine cannot begin leaves the tests out."""

    def __init__(self, address: str) -> None:
        self.address = address
        words = ["--headless=new", "--disable-gpu", "--disable-dev-shm-usage", "--no-first-run", f"--user-data-dir={support.folder()}"]
        # Chromium refuses its own sandbox to the superuser.
        words += ["--no-sandbox"] if os.geteuid() == 0 else []
        options = {"args": words, "binary": shutil.which("chromium")}
        wanted = {"browserName": "chrome", "goog:chromeOptions": options, "goog:loggingPrefs": {"browser": "ALL"}}
        self.session = ""
        try:
            self.session = "/session/" + self.ask("/session", {"capabilities": {"alwaysMatch": wanted}})["sessionId"]
        except AssertionError as fault:
            why = json.loads(str(fault))["value"]["message"]
            raise unittest.SkipTest(f"no chromium that can start ({why.splitlines()[0]})") from None

    def ask(self, command: str, body: dict[str, Any] | None = None, method: str = "POST") -> Any:
        data = None if method == "DELETE" else json.dumps(body or {}).encode()
        request = urllib.request.Request(f"{self.address}{self.session}{command}", data, {"Content-Type": "application/json"}, method=method)
        try:
            with urllib.request.urlopen(request, timeout=support.PATIENCE) as answer:
                return json.load(answer)["value"]
        except urllib.error.HTTPError as fault:
            raise AssertionError(fault.read().decode()) from None

    def devtools(self, name: str, **words: Any) -> Any:
        return self.ask("/goog/cdp/execute", {"cmd": name, "params": words})

    def go_to(self, address: str) -> None:
        self.ask("/url", {"url": address})

    def run(self, script: str, *words: Any) -> Any:
        return self.ask("/execute/sync", {"script": script, "args": list(words)})

    def drop(self, *paths: str) -> None:
        """Drops files and folders on the page, as a user does, and waits until they were looked at."""
        before = self.status()
        data = {"items": [], "files": list(paths), "dragOperationsMask": 1}
        for kind in ("dragEnter", "dragOver", "drop"):
            self.devtools("Input.dispatchDragEvent", type=kind, x=200, y=200, data=data)
        self.wait_for_rows(before)

    def resize(self, width: int, height: int) -> None:
        self.devtools("Emulation.setDeviceMetricsOverride", width=width, height=height, deviceScaleFactor=1, mobile=False)

    def press(self, key: str) -> None:
        actions = [{"type": kind, "value": key} for kind in ("keyDown", "keyUp")]
        self.ask("/actions", {"actions": [{"type": "key", "id": "keys", "actions": actions}]})

    def picture(self) -> bytes:
        return base64.b64decode(self.devtools("Page.captureScreenshot", format="png")["data"])


@contextlib.contextmanager
def browser() -> Iterator[Chromium]:
    port = free_port()
    with support.running(["chromedriver", f"--port={port}"], stderr=subprocess.DEVNULL) as driver:
        support.wait_until(lambda: support.is_open(port) or driver.poll() is not None)
        if driver.poll() is not None:
            raise unittest.SkipTest(f"the chromedriver that is here cannot start: status {driver.returncode}")
        it = Chromium(f"http://127.0.0.1:{port}")
        try:
            yield it
        finally:
            it.ask("", method="DELETE")
