"""A scheduler of Dask with workers on 127.0.0.1, for the test and the timing of cluster.py."""
from __future__ import annotations

import contextlib
import json
import os
import subprocess
import sys
from collections.abc import Iterator
from typing import NamedTuple

HERE = os.path.dirname(os.path.abspath(__file__))
sys.path[:0] = [os.path.dirname(HERE), HERE]
import support

PYTHON = "/usr/bin/python3"  # Debian's, which has Debian's modules


class Cluster(NamedTuple):
    address: str
    scheduler: subprocess.Popen[bytes]
    workers: list[subprocess.Popen[bytes]]


def has(module: str) -> bool:
    """Whether Debian's Python has that module."""
    with contextlib.suppress(OSError):
        return subprocess.run([PYTHON, "-c", f"import {module}"], capture_output=True).returncode == 0
    return False


def environment() -> dict[str, str]:
    """What a process needs to find the binding and the library."""
    return os.environ | {"PYTHONPATH": f"{support.ROOT}/bindings/python/src", "PYTHONDONTWRITEBYTECODE": "1", "INFER_LIBRARY": support.shared_library()}


@contextlib.contextmanager
def running(count: int) -> Iterator[Cluster]:
    """A cluster with so many workers of one thread, once all of them are there."""
    place = os.path.join(support.folder(), "scheduler")
    start = {"env": environment(), "stderr": subprocess.DEVNULL, "cwd": support.folder()}
    common = ["--scheduler-file", place, "--host", "127.0.0.1", "--dashboard-address", "127.0.0.1:0"]
    with contextlib.ExitStack() as stack:
        words = [PYTHON, "-m", "distributed.cli.dask_scheduler", *common, "--port", "0"]
        scheduler = stack.enter_context(support.running(words, **start))
        support.wait_until(lambda: os.path.exists(place) and os.path.getsize(place) > 0)
        with open(place, encoding="utf-8") as file:
            address = json.load(file)["address"]
        words = [PYTHON, "-m", "distributed.cli.dask_worker", *common, "--no-nanny", "--nthreads", "1", "--local-directory", support.folder()]
        workers = [stack.enter_context(support.running(words, **start)) for _ in range(count)]
        wait = "import sys, distributed; distributed.Client(sys.argv[1]).wait_for_workers(int(sys.argv[2]), timeout=60)"
        subprocess.run([PYTHON, "-c", wait, address, str(count)], check=True, **start)
        yield Cluster(address, scheduler, workers)
