"""What the tests of the examples and bindings share: builds, processes that are ended, test data, and the last line."""
from __future__ import annotations

import atexit
import contextlib
import functools
import glob
import os
import re
import shlex
import shutil
import signal
import socket
import subprocess
import sys
import tempfile
import textwrap
import time
import unittest
from collections.abc import Callable, Iterator
from typing import NamedTuple

ROOT = os.path.dirname(os.path.dirname(os.path.abspath(__file__)))
PATIENCE = 120  # seconds for anything that is not meant to take long
SANITIZERS = ["-g", "-fsanitize=address,undefined", "-fno-sanitize-recover=all"]

_folder = tempfile.mkdtemp(prefix="infer-test-")
atexit.register(shutil.rmtree, _folder, True)


def folder() -> str:
    """A new folder that goes with the test."""
    return tempfile.mkdtemp(dir=_folder)


def compiler() -> str:
    return os.environ.get("CC", "cc")


@functools.cache
def quick(by: str = "") -> str:
    """A program that compiles as that compiler does, and never optimizes: of the library's one C file that takes long. Whoever
    compiles this file alone has its words looked at, and an object that is made once."""
    program = os.path.join(folder(), "cc")
    with open(program, "w") as file:
        file.write(f"""#!/bin/bash
cc={shutil.which(by or compiler())}
if [[ " $* " =~ \\ -c\\  && " $* " =~ \\ ([^\\ ]*dist/infer\\.c)\\  ]]; then
    file="${{BASH_REMATCH[1]}}"
    [[ " $* " =~ \\ -o\\ ([^\\ ]*)\\  ]] && "$cc" "$@" -O0 -fsyntax-only || exit
    [ -f "$0.o" ] || "$cc" -w -O0 -fPIC -c "$file" -o "$0.o" && exec cp "$0.o" "${{BASH_REMATCH[1]}}"
fi
exec "$cc" "$@" -O0
""")
    os.chmod(program, 0o755)
    return program


def has_sanitizers(by: str = "") -> bool:
    """Whether the compiler links and runs a program with its sanitizers."""
    source, program = os.path.join(_folder, "empty.c"), os.path.join(_folder, "empty")
    with open(source, "w") as file:
        file.write("int main(void) { return 0; }\n")
    built = shutil.which(by or compiler()) and subprocess.run([by or compiler(), *SANITIZERS, source, "-o", program], capture_output=True)
    return bool(built) and built.returncode == 0 and subprocess.run([program], capture_output=True).returncode == 0


def sanitized(source: str, by: str) -> str:
    """The program as that compiler makes it with its sanitizers. Without them the tests that ask are left out."""
    if not has_sanitizers(by):
        raise unittest.SkipTest(f"no {by} with its sanitizers")
    return build(source, *SANITIZERS, by=by)


def build(source: str, *flags: str, by: str = "") -> str:
    """Compiles an example as its README does, and gives the program's path."""
    program = os.path.join(folder(), os.path.splitext(os.path.basename(source))[0])
    words = [by or compiler(), "-std=c11", "-O2", "-Wall", "-Wextra", "-Werror", *flags, f"-I{ROOT}/c/out", f"-I{ROOT}/aliases"]
    subprocess.run([*words, f"{ROOT}/{source}", f"{ROOT}/c/out/libinfer.a", "-o", program], check=True)
    return program


def of_debian(package: str, path: str) -> str:
    """Where that path of a package of Debian is: on this machine, or unpacked into a folder of the test, which installs
    nothing. If apt-get brings none, the tests that ask are left out."""
    if os.path.exists(path):
        return path
    place, quiet = folder(), {"stdout": subprocess.DEVNULL, "stderr": subprocess.DEVNULL}
    for words in (["download", package], ["update"], ["download", package]):
        with contextlib.suppress(OSError):
            subprocess.run(["apt-get", "-o", "APT::Sandbox::User=root", *words], cwd=place, **quiet)
        for archive in glob.glob(f"{place}/{package}_*.deb"):
            subprocess.run(["dpkg-deb", "-x", archive, place], check=True)
            return place + path
    raise unittest.SkipTest(f"no {path} of Debian's package {package}")


@functools.cache
def h11() -> str:
    """A folder of the test in which the module is that reads HTTP for the example servers."""
    place = folder()
    os.symlink(of_debian("python3-h11", "/usr/lib/python3/dist-packages/h11"), f"{place}/h11")
    return place


def old_rust() -> str:
    """Why the compiler of Rust that is here cannot compile the binding, or nothing."""
    with open(f"{ROOT}/bindings/rust/infer/Cargo.toml", encoding="utf-8") as manifest:
        wanted = re.findall(r'^rust-version = "(\d+)\.(\d+)"', manifest.read(), re.MULTILINE)[0]
    says = subprocess.run(["rustc", "--version"], text=True, capture_output=True, check=True).stdout.strip()
    has = re.findall(r"(\d+)\.(\d+)", says)[0]
    return f"no rustc {'.'.join(wanted)} or later (it is {says})" if tuple(map(int, has)) < tuple(map(int, wanted)) else ""


def shared_library() -> str:
    """The path of the shared library: INFER_LIBRARY, or one that is installed into a folder of the test."""
    if "INFER_LIBRARY" not in os.environ:
        prefix = folder()
        subprocess.run([f"{ROOT}/c/install", prefix], check=True, stdout=subprocess.DEVNULL)
        os.environ["INFER_LIBRARY"] = f"{prefix}/lib/libinfer.so"
    return os.environ["INFER_LIBRARY"]


def environment(*modules: str) -> dict[str, str]:
    """What an example in Python needs: the library, its binding, and modules beside those that examples share."""
    return os.environ | {"INFER_LIBRARY": shared_library(), "PYTHONPATH": ":".join([f"{ROOT}/bindings/python/src", f"{ROOT}/examples", *modules])}


def started(readme: str, *modules: str) -> tuple[list[str], dict[str, str]]:
    """The words of the command that starts an example in Python by its README, from python3 on, and its environment, to be
    run at the top of the repository."""
    words = shlex.split(command_in(readme, "PYTHONPATH="))
    place = words.index("python3")
    named = dict(word.split("=", 1) for word in words[:place])
    assert {"PYTHONPATH"} <= {*named} <= {"PYTHONPATH", "INFER_LIBRARY"}, named
    return [sys.executable, *words[place + 1 :]], environment() | {"PYTHONPATH": ":".join([named["PYTHONPATH"], *modules])}


@contextlib.contextmanager
def running(words: list[str], **options) -> Iterator[subprocess.Popen[bytes]]:
    """A server in a process group of its own, which is ended whatever the test does."""
    process = subprocess.Popen(words, stdout=subprocess.PIPE, start_new_session=True, **options)
    try:
        yield process
    finally:
        with contextlib.suppress(ProcessLookupError):
            os.killpg(process.pid, signal.SIGKILL)
        process.wait()
        if process.stdout:
            process.stdout.close()


def port_of(process: subprocess.Popen[bytes]) -> int:
    """The port in a server's first line."""
    assert process.stdout
    line = process.stdout.readline().decode()
    found = re.fullmatch(r"listening on 127\.0\.0\.1:(\d+)\n", line)
    if not found:
        raise AssertionError(f"no port in the first line {line!r}")
    return int(found[1])


def wait_until(is_so: Callable[[], bool]) -> None:
    """Waits for what is to come soon, however slow the machine is."""
    ends = time.monotonic() + PATIENCE
    while not is_so():
        if time.monotonic() > ends:
            raise AssertionError("it did not come")
        time.sleep(0.01)


def cpu_seconds(process: subprocess.Popen[bytes]) -> float:
    """The processor time of a process so far."""
    with open(f"/proc/{process.pid}/stat", encoding="ascii") as file:
        words = file.read().rpartition(")")[2].split()
    return (int(words[11]) + int(words[12])) / os.sysconf("SC_CLK_TCK")


def largest(process: subprocess.Popen[bytes]) -> int:
    """The most memory that a process has had, in bytes."""
    with open(f"/proc/{process.pid}/status", encoding="ascii") as file:
        return 1024 * int(re.findall(r"^VmHWM:\s+([0-9]+) kB$", file.read(), re.MULTILINE)[0])


def descriptors(process: subprocess.Popen[bytes]) -> int:
    """How many descriptors a process has open."""
    return len(os.listdir(f"/proc/{process.pid}/fd"))


def is_open(port: int) -> bool:
    """Whether somebody listens there."""
    with socket.socket() as it:
        return it.connect_ex(("127.0.0.1", port)) == 0


def is_alive(process_id: int) -> bool:
    """Whether a process has not ended; one that nobody waited for yet has."""
    with contextlib.suppress(OSError), open(f"/proc/{process_id}/stat", encoding="ascii") as file:
        return file.read().rpartition(")")[2].split()[0] != "Z"
    return False


def written(process_id: int) -> int:
    """How many bytes a process has written to files."""
    with open(f"/proc/{process_id}/io", encoding="ascii") as file:
        return int(re.findall(r"^wchar: ([0-9]+)$", file.read(), re.MULTILINE)[0])


def received(it: socket.socket, count: int) -> bytes:
    """The next bytes that come, so many, or fewer if no more do. (A socket with a timeout does not wait for all of them.)"""
    data = b""
    while len(data) < count and (more := it.recv(count - len(data))):
        data += more
    return data


def all_of(it: socket.socket) -> bytes:
    """What comes until the other side ends."""
    got = b""
    while piece := it.recv(1 << 20):
        got += piece
    return got


def decode(tokens: str) -> bytes:
    """The bytes of hexadecimal tokens, each with a count of repetitions after `*` if it has one."""
    if tokens == "-":
        return b""
    parts = (token.partition("*") for token in tokens.split())
    return b"".join(bytes.fromhex(digits) * int(count or 1) for digits, _, count in parts)


class Row(NamedTuple):
    group: str
    mime: str
    extension: str


class Vector(NamedTuple):
    name: str
    row: Row | None
    data: bytes


def _lines_of(name: str) -> list[list[str]]:
    with open(f"{ROOT}/vectors/{name}", encoding="utf-8") as lines:
        return [line.rstrip("\n").split("\t") for line in lines]


def rows() -> list[Row]:
    """The rows by the test data, which were written by hand."""
    return [Row(*words[:3]) for words in _lines_of("rows.tsv")]


def samples() -> list[tuple[Row, bytes]]:
    """The rows that have a sample, and it."""
    return [(Row(*words[:3]), decode(words[3])) for words in _lines_of("rows.tsv") if words[3] != "none"]


def vectors() -> list[Vector]:
    """Buffers, and the row of each answer or None, by the test data."""
    named = {f"{row.group}/{row.extension}": row for row in rows()}
    return [Vector(name, None if row == "-" else named[row], decode(data)) for name, _, row, data in _lines_of("vectors.tsv")]


def further_rows() -> list[Row]:
    """The further rows by the test data."""
    return [Row(*words[:3]) for words in _lines_of("further/rows.tsv")]


def further_vectors() -> list[tuple[str, bytes, Row | None, str]]:
    """Buffers: the name, the bytes, the further row that is the wider answer or None, and what the wider answer shows,
    its MIME type and its extension or "unknown"."""
    below = {parent: "" if parent == "none" else f" below {parent}" for *_, parent, _ in _lines_of("further/rows.tsv")}
    named = {f"{words[0]}/{words[2]}{below[words[3]]}": Row(*words[:3]) for words in _lines_of("further/rows.tsv")}
    return [(name, decode(data), None if row == "-" else named[row], shown) for name, data, row, shown in _lines_of("further/vectors.tsv")]


def named_vectors() -> list[tuple[bytes, bytes, str, str]]:
    """Each name and bytes, with the standing and the MIME type that they have."""
    found = []
    for name, digits, standing, mime in _lines_of("named.tsv"):
        text = re.sub(rb"\\x([0-9A-Fa-f]{2})", lambda it: bytes([int(it[1], 16)]), name.encode())
        found.append((text, decode("" if digits == "-" else digits), standing, mime))
    return found


def command_in(readme: str, begins: str) -> str:
    """The first command of a README that begins so."""
    return next(line for line in commands_in(readme) if line.startswith(begins))


def commands_in(readme: str) -> list[str]:
    with open(readme, encoding="utf-8") as lines:
        return [line.strip() for line in lines if line.startswith("    ")]


def block_in(readme: str, first: str) -> list[str]:
    """The lines of the block of a README that begins with this one."""
    with open(readme, encoding="utf-8") as file:
        [block] = re.findall(rf"^    {re.escape(first)}\n(?:    .*\n)*", file.read(), re.MULTILINE)
    return textwrap.dedent(block).splitlines()


def left_out(lacks: str, what: str) -> None:
    """Says what was not tested, and for want of what."""
    print(f"left out, since there is no {lacks}: {what}")


def tell_skipped(result: unittest.TestResult) -> None:
    """The same of tests that were skipped, whose reasons begin with "no"."""
    for test, why in result.skipped:
        print(f"left out, since there is {why}: {test.id()}")


def _refuse_to_wait(number: int, frame: object) -> None:
    raise AssertionError("a test waits for what does not come")


class _Result(unittest.TextTestResult):
    def startTest(self, test: unittest.TestCase) -> None:
        signal.setitimer(signal.ITIMER_REAL, 8 * PATIENCE, 8 * PATIENCE)
        super().startTest(test)


class _Runner(unittest.TextTestRunner):
    resultclass = _Result


def main() -> None:
    """Runs the tests of the program, with their counts in the last line. One that waits for ever has failed."""
    signal.signal(signal.SIGALRM, _refuse_to_wait)
    program = unittest.main(module="__main__", exit=False, testRunner=_Runner)
    result = program.result
    failed = len(result.failures) + len(result.errors)
    tell_skipped(result)
    # Of a class that is left out as a whole no test is run.
    passed = max(0, result.testsRun - failed - sum(isinstance(test, unittest.TestCase) for test, _ in result.skipped))
    print(f"{passed} passed, {failed} failed", flush=True)
    sys.exit(failed != 0)
