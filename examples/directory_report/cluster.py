#!/usr/bin/python3
"""Tells the types of all files in folders by processes of this machine, or on many machines by Dask. README.md says how.

With --scheduler it needs Debian's packages python3-dask and python3-distributed, and python3-matplotlib for the picture."""
from __future__ import annotations

import argparse
import contextlib
import errno
import hashlib
import io
import json
import logging
import multiprocessing
import multiprocessing.connection
import os
import re
import signal
import stat
import sys
import tempfile
import threading
import zlib
from collections import Counter
from collections.abc import Iterable, Iterator
from concurrent.futures import FIRST_COMPLETED, CancelledError, Executor, Future, ProcessPoolExecutor, wait
from concurrent.futures.process import BrokenProcessPool
from dataclasses import dataclass
from typing import TYPE_CHECKING

if TYPE_CHECKING:
    import infer

sys.path.append(os.path.join(os.path.dirname(os.path.abspath(__file__)), "..", "..", "bindings", "python", "src"))

OPEN = os.O_RDONLY | os.O_NONBLOCK | os.O_NOFOLLOW | os.O_NOCTTY | os.O_CLOEXEC
FRONT, MOST, USUAL, AHEAD = 8192, 4000, 1000, 64  # bytes of a file; names of a partition; partitions under way
CLEAR = "\r\033[K"  # takes a bar from a terminal
# Controls beyond those that JSON escapes, further line ends, and marks of direction.
OBEYED = re.compile("[\x7f-\x9f\u061c\u200e\u200f\u2028-\u202e\u2066-\u2069]")
# The names that the report's folder has from here: whole files, and those that are being written.
WHOLE = re.compile(r"(?P<part>part-[0-9a-f]{64})\.(jsonl|sums)")
UNFINISHED = re.compile(r"\.(part-[0-9a-f]{64}\.(jsonl|sums)|summary\.(json|png))\.[a-z0-9_]{8}")


@dataclass(frozen=True)
class Entry:
    """A file by the folder that was asked for and the path below it, and why there is no answer if that is known."""
    root: bytes
    below: bytes
    fault: str = ""

    def name(self) -> bytes:
        return self.root + (b"" if self.root.endswith(b"/") else b"/") + self.below


def reason(fault: OSError) -> str:
    return "Not a regular file" if fault.errno == errno.ENOTSUP else os.strerror(fault.errno or 0)


def open_folder(root: bytes, below: bytes) -> int:
    """Opens a folder step by step, so that no link is followed also if one is put in the place of a folder."""
    fd = os.open(root, OPEN | os.O_DIRECTORY)
    for step in filter(None, below.split(b"/")):
        try:
            deeper = os.open(step, OPEN | os.O_DIRECTORY, dir_fd=fd)
        finally:
            os.close(fd)
        fd = deeper
    return fd


def entries_of(root: bytes, below: bytes) -> tuple[list[bytes], list[bytes]]:
    """The paths of the folders and of the regular files in a folder, each sorted."""
    fd = open_folder(root, below)
    try:
        with os.scandir(fd) as it:
            entries = [(below + os.fsencode(entry.name), entry.is_dir(follow_symlinks=False), entry.is_file(follow_symlinks=False)) for entry in it]
    finally:
        os.close(fd)
    folders, files = ([path for path, *kinds in entries if kinds[kind]] for kind in (0, 1))
    return sorted(folders), sorted(files)


def walk(root: bytes) -> Iterator[Entry]:
    """The files under a folder. A folder that cannot be read is an entry with the reason."""
    waiting = [b""]
    while waiting:
        below = waiting.pop()
        try:
            folders, files = entries_of(root, below)
        except OSError as fault:
            yield Entry(root, below.rstrip(b"/"), reason(fault))
            continue
        waiting += [folder + b"/" for folder in reversed(folders)]
        yield from (Entry(root, file) for file in files)


def partitions(entries: Iterable[Entry]) -> Iterator[list[Entry]]:
    """Cuts the walk after names that their own bytes choose, so that a new file changes no partition but its own."""
    part: list[Entry] = []
    for entry in entries:
        part.append(entry)
        if len(part) == MOST or zlib.crc32(entry.name()) % USUAL == 0:
            yield part
            part = []
    if part:
        yield part


def read_front(folder: int, path: bytes) -> tuple[bytes, int]:
    """The first bytes of a regular file, and its size. A device can act as soon as it is opened, so none is."""
    def check(about: os.stat_result) -> None:
        if not stat.S_ISREG(about.st_mode):
            raise OSError(errno.EISDIR if stat.S_ISDIR(about.st_mode) else errno.ENOTSUP, "")

    check(os.stat(path, dir_fd=folder, follow_symlinks=False))
    with open(os.open(path, OPEN, dir_fd=folder), "rb", buffering=0) as file:
        about = os.fstat(file.fileno())
        check(about)
        front = b""
        while len(front) < FRONT and (piece := file.read(FRONT - len(front))):
            front += piece
        return front, about.st_size


def claim(found: infer.Named, front: bytes, size: int) -> infer.NamedType | None:
    """The type that the name says, if that is a lie. An old document can need more bytes than these to be told."""
    import infer
    said = found.type_of_name
    if not front or not said or found.standing is not infer.Standing.CONTRADICTS:
        return None
    return None if size > len(front) and said.extension and infer.may_become(front, said.extension, more=True) else said


def named(name: bytes) -> dict[str, str]:
    try:
        return {"name": name.decode()}
    except UnicodeDecodeError:
        return {"name_hex": name.hex()}


def answer(entry: Entry, folder: int, sums: Counter[str]) -> dict[str, object]:
    """The line of a file, which is counted in the sums. An empty file has no type."""
    import infer
    try:
        if entry.fault:
            return named(entry.name()) | {"fault": entry.fault}
        front, size = read_front(folder, os.path.basename(entry.below))
    except OSError as fault:
        return named(entry.name()) | {"fault": reason(fault)}
    found = infer.named(entry.name(), front)
    kind, group = (found.type, found.type_of_bytes and found.type_of_bytes.group) if front else (None, None)
    told = {"extension": kind and kind.extension, "class": group, "empty": not front, "encoding": infer.encoding(front)}
    line = named(entry.name()) | {"mime_type": kind and kind.mime} | {word: it for word, it in told.items() if it}
    key = f"{kind.mime}\t{kind.extension or ''}\t{group or ''}" if kind else "unknown" if front else "empty"
    sums.update({f"files\t{key}": 1, f"bytes\t{key}": size})
    line |= {"standing": found.standing.value, "bytes": size}
    if said := claim(found, front, size):
        sums[f"disagree\t{said.extension or said.mime}\t{kind.extension or kind.mime if kind else 'unknown'}"] += 1
        line |= {"name_mime_type": said.mime} | ({"name_extension": said.extension} if said.extension else {})
    return line


def lines_of(part: list[Entry], sums: Counter[str]) -> Iterator[dict[str, object]]:
    """The lines of a partition. The folder of the last file stays open for the next."""
    last, folder = None, -1
    for entry in part:
        place = (entry.root, os.path.dirname(entry.below))
        if place != last and not entry.fault:
            if folder >= 0:
                os.close(folder)
            last, folder = None, -1
            try:
                folder, last = open_folder(*place), place
            except OSError as fault:
                entry = Entry(entry.root, entry.below, reason(fault))
        line = answer(entry, folder, sums)
        sums["faults"] += "fault" in line
        sums["names"] += 1
        yield line
    if folder >= 0:
        os.close(folder)


def path_of(out: str, part: list[Entry]) -> str:
    """The path of a partition, which follows from what it holds."""
    return os.path.join(out, "part-" + hashlib.sha256(repr([(entry.root, entry.below, entry.fault) for entry in part]).encode()).hexdigest())


def put(path: str, content: bytes) -> None:
    """Writes a file under another name, and renames it once it is whole. Nobody else reads it: it may have names."""
    folder, name = os.path.split(path)
    with tempfile.NamedTemporaryFile(dir=folder, prefix=f".{name}.", delete=False) as file:
        file.write(content)
        file.flush()
        os.fsync(file.fileno())
    os.rename(file.name, path)


def line_of(told: dict[str, object]) -> str:
    """The line of a file, in which no name has what a terminal or a reader of lines obeys."""
    return OBEYED.sub(lambda it: f"\\u{ord(it[0]):04x}", json.dumps(told, ensure_ascii=False, separators=(",", ":"))) + "\n"


def write(path: str, part: list[Entry]) -> dict[str, int]:
    """Writes the sums and then the lines of a partition, on a worker: who sees the lines finds the sums too."""
    sums: Counter[str] = Counter()
    text = "".join(map(line_of, lines_of(part, sums)))
    put(path + ".sums", json.dumps(sums).encode())
    put(path + ".jsonl", text.encode())
    return dict(sums)


def sums_of(path: str) -> dict[str, int]:
    """The counts of a partition that was there before."""
    with open(path + ".sums", encoding="utf-8") as file:
        return json.load(file)


def add(total: Counter[str], sums: dict[str, int], known: int) -> None:
    """Counts a partition. A bar on a terminal tells how many are counted of those that the walk has come to."""
    total.update(sums)
    total["partitions"] += 1
    if sys.stderr.isatty():
        bar = "#" * (30 * total["partitions"] // known)
        says = f"{total['partitions']} of {known} partitions, {total['names']} names, {total['faults']} faults"
        print(f"\r[{bar:30}] {says}\033[K", end="", file=sys.stderr, flush=True)


def counts(workers: Executor, parts: Iterable[tuple[str, list[Entry]]]) -> Iterator[dict[str, int]]:
    """Has the workers write what is not there yet. At most some partitions are under way, so memory does not grow."""
    waiting: set[Future[dict[str, int]]] = set()
    try:
        for path, part in parts:
            if os.path.exists(path + ".jsonl"):
                yield sums_of(path)
                continue
            waiting.add(workers.submit(write, path, part))
            if len(waiting) >= AHEAD:
                done, waiting = wait(waiting, return_when=FIRST_COMPLETED)
                yield from map(result_of, done)
        yield from map(result_of, waiting)
    finally:
        # What is not begun is not waited for, if it ends by a fault.
        for future in waiting:
            future.cancel()


def named_parts(out: str, roots: list[bytes], paths: set[str]) -> Iterator[tuple[str, list[Entry]]]:
    """The partitions of the folders with their paths, which are added to the set."""
    for part in partitions(entry for root in roots for entry in walk(root)):
        path = path_of(out, part)
        paths.add(path)
        yield path, part


def run(workers: Executor, out: str, roots: list[bytes]) -> Counter[str]:
    """Writes all partitions, takes away what is none of them, and counts."""
    total: Counter[str] = Counter()
    paths: set[str] = set()
    for sums in counts(workers, named_parts(out, roots, paths)):
        add(total, sums, len(paths))
    clear(out, paths)
    return total


def clear(out: str, paths: set[str]) -> None:
    """Takes away partitions of an earlier walk, whose files would be counted twice, and what dead workers left. A name
    that is not made here stays, whatever it begins with."""
    for name in os.listdir(out):
        whole = WHOLE.fullmatch(name)
        if UNFINISHED.fullmatch(name) or (whole and os.path.join(out, whole["part"]) not in paths):
            with contextlib.suppress(FileNotFoundError):
                os.unlink(os.path.join(out, name))


def summary(total: Counter[str]) -> dict[str, object]:
    keys = sorted((key[6:] for key in total if key.startswith("files\t")), key=lambda key: (-total[f"files\t{key}"], key))
    counts = {key: {"files": total[f"files\t{key}"], "bytes": total[f"bytes\t{key}"]} for key in keys}
    unknown, empty = (counts.pop(key, {"files": 0, "bytes": 0}) for key in ("unknown", "empty"))
    types = [dict(zip(["mime_type", "extension", "class"], key.split("\t"))) | count for key, count in counts.items()]
    wrong = [(*key.split("\t")[1:], files) for key, files in sorted(total.items()) if key.startswith("disagree\t")]
    return {
        "files": total["names"] - total["faults"], "bytes": sum(it["bytes"] for it in [*counts.values(), unknown]), "faults": total["faults"],
        "unknown": unknown, "empty": empty, "types": types, "disagree": [dict(zip(["name_extension", "extension", "files"], it)) for it in wrong],
    }


def draw(told: dict, path: str) -> None:
    """A picture of the most frequent types and of what names say, if matplotlib is there."""
    try:
        import matplotlib
    except ImportError:
        return
    matplotlib.use("Agg")
    from matplotlib import pyplot
    types = [(it["extension"] or it["mime_type"], it) for it in told["types"][:15]] + [("unknown", told["unknown"])]
    wrong = sorted(((f"{it['name_extension']} is {it['extension']}", it["files"]) for it in told["disagree"]), key=lambda bar: -bar[1])
    panels = {
        "files": [(name, it["files"]) for name, it in types] + [("faults", told["faults"])],
        "bytes": [(name, it["bytes"]) for name, it in types],
        "files whose name says another type": wrong[:17],
    }
    figure, places = pyplot.subplots(1, 3, figsize=(12, 4))
    for axes, (title, bars) in zip(places, panels.items()):
        # Two types can have the same extension, so a bar has its place by its number.
        axes.barh(range(len(bars)), [count for _, count in bars], color="#36648b", tick_label=[name for name, _ in bars])
        axes.invert_yaxis()
        axes.set_xlabel(title)
    figure.tight_layout()
    picture = io.BytesIO()
    figure.savefig(picture, dpi=80, format="png")
    put(path, picture.getvalue())


def refuse(why: str) -> None:
    print(f"{CLEAR if sys.stderr.isatty() else ''}cluster.py: {why}", file=sys.stderr)
    sys.exit(2)


class Words(argparse.ArgumentParser):
    def error(self, message: str) -> None:
        refuse(f"{message}; cluster.py --help says more")


def check_folders(out: str, folders: list[str]) -> None:
    """Refuses what is no folder, and folders in each other, whose files would be counted twice."""
    for folder in folders:
        if not os.path.isdir(folder) or os.path.islink(folder):
            refuse(f"{folder!a} is no folder")
        real = os.path.realpath(folder)
        others = [os.path.realpath(it) for it in folders if it is not folder]
        if any(os.path.commonpath([real, it]) == it for it in others):
            refuse(f"{folder!a} stands in another of the folders")
        if os.path.commonpath([real, os.path.realpath(out)]) == real:
            refuse(f"{out!a}, for the report, stands in {folder!a}")


def check_report(out: str) -> None:
    """Refuses a folder that has something else in it than a report, or than what an interrupted run left of one."""
    names = set(os.listdir(out))
    if "summary.json" in names:
        with contextlib.suppress(OSError, ValueError), open(os.path.join(out, "summary.json"), encoding="utf-8") as file:
            told = json.load(file)
            if isinstance(told, dict) and told.keys() == summary(Counter()).keys():
                return
    others = sorted(it for it in names if not WHOLE.fullmatch(it) and not UNFINISHED.fullmatch(it))
    if others:
        refuse(f"{out!a} has {others[0]!a} and no summary of a report: take a folder of its own")


def begin() -> None:
    """Readies a process of this machine: an interrupt is for the one that walks, and none outlives that one."""
    signal.signal(signal.SIGINT, signal.SIG_IGN)
    parent = multiprocessing.parent_process()
    assert parent

    def end() -> None:
        multiprocessing.connection.wait([parent.sentinel])
        os._exit(1)

    threading.Thread(target=end, daemon=True).start()


def workers_of(scheduler: str | None, stack: contextlib.ExitStack) -> Executor:
    """The workers of that scheduler; or processes of this machine, which hear by pipes alone, so that nobody else does."""
    if scheduler:
        from distributed import Client
        return stack.enter_context(Client(scheduler, timeout=10)).get_executor(pure=False)
    processes = len(os.sched_getaffinity(0))
    return stack.enter_context(ProcessPoolExecutor(processes, multiprocessing.get_context("fork"), begin))


def result_of(future: Future[dict[str, int]]) -> dict[str, int]:
    """The counts of a partition that was written. One on which worker after worker of a cluster dies is a failure."""
    try:
        return future.result()
    except CancelledError:
        raise OSError("the scheduler has gone; the same words go on from what is written") from None
    except Exception as fault:
        # KilledWorker is known only where Dask is, and BrokenProcessPool is for who made the pool.
        if type(fault).__name__ != "KilledWorker":
            raise
        raise OSError(f"the workers died again and again: {fault}") from None


def main() -> int:
    words = Words(description="Tells the types of all files in the folders, on many workers.", allow_abbrev=False)
    words.add_argument("--scheduler", metavar="ADDRESS", help="of a cluster of Dask that runs; without it processes of this machine are the workers")
    words.add_argument("--out", metavar="FOLDER", required=True, help="where the report is written, and goes on: a folder of its own")
    words.add_argument("folders", metavar="FOLDER", nargs="+")
    given = words.parse_args()
    check_folders(given.out, given.folders)
    out = os.path.abspath(given.out)
    # What goes wrong is told in one line, and not in the logs of Dask.
    logging.disable()
    try:
        import infer  # noqa: F401
        os.makedirs(out, exist_ok=True)
        check_report(out)
        with contextlib.ExitStack() as stack:
            workers = workers_of(given.scheduler, stack)
            total = run(workers, out, [os.fsencode(os.path.abspath(it) if given.scheduler else it) for it in given.folders])
        told = summary(total)
        put(os.path.join(out, "summary.json"), (json.dumps(told, indent=1) + "\n").encode())
        draw(told, os.path.join(out, "summary.png"))
    except BrokenProcessPool:
        refuse("a process died; the same words go on from what is written")
    except (ImportError, OSError, ValueError) as fault:
        refuse((str(fault) or type(fault).__name__).splitlines()[0])
    if sys.stderr.isatty():
        print(CLEAR, end="", file=sys.stderr)
    return 1 if total["names"] and total["faults"] == total["names"] else 0


if __name__ == "__main__":
    sys.exit(main())
