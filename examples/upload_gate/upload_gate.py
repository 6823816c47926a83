#!/usr/bin/env python3
"""An upload gate on the loopback: takes PUT /NAME, and keeps what its judge lets through.

usage: upload_gate.py PORT FOLDER SECONDS [--types FILE] CLASS|MIME_TYPE,.."""
import asyncio
import errno
import os
import re
import sys
from typing import BinaryIO

from judge_upload import Judge, reasons
from loopback import Lines, fail, number_of
from serving import SHORT, Client, Refusal, Server

LARGEST = 8 << 20
STATUS_OF = SHORT | {errno.ECONNRESET: 400, errno.EEXIST: 409}
# Letters, digits, "-", "_" and at most one dot between others, and no option of a program.
NAME = re.compile(r"/(?!-)(?=.{1,100}$)([-_0-9A-Za-z]+(?:\.[-_0-9A-Za-z]+)?)")
# As in "image/jpeg; q=1".
CLAIM = re.compile(r"([-!#$&^_.+/0-9A-Za-z]{0,127})(?:[; \t].*)?")


def upload_of(method: str, target: str, headers: dict[str, str]) -> tuple[str, str]:
    """The name, and the MIME type that is claimed or nothing, of a request whose body is to be taken."""
    name, claim = NAME.fullmatch(target), CLAIM.fullmatch(headers.get("content-type", ""))
    if method != "PUT":
        raise Refusal(405)
    if not name or not claim:
        raise Refusal(400)
    if headers.get("expect", "100-continue").lower() != "100-continue":
        raise Refusal(417)
    if "content-encoding" in headers or "content-range" in headers:
        raise Refusal(501)
    if "content-length" not in headers:
        raise Refusal(411)
    if int(headers["content-length"]) > LARGEST:
        raise Refusal(413)
    return name[1], claim[1].lower()


class Gate:
    def __init__(self, folder: str, judge: Judge) -> None:
        self.folder, self.judge = os.open(folder, os.O_RDONLY | os.O_DIRECTORY), judge

    def unnamed(self) -> BinaryIO:
        """A file without a name: whatever ends this program, no part of it is left."""
        return open(os.open(".", os.O_TMPFILE | os.O_RDWR, 0o644, dir_fd=self.folder), "w+b")

    async def answer(self, client: Client) -> None:
        name, claim = upload_of(client.method, client.target, client.headers)
        try:
            with self.unnamed() as file:
                await client.in_time(client.receive(file), 408)
                path = f"/proc/self/fd/{file.fileno()}"
                with client.place.waiting():
                    status, why, beside = await client.in_time(asyncio.to_thread(self.judged, path, name, claim), 503)
                    if status == 201:
                        await asyncio.to_thread(self.keep, file, path, name)
        except OSError as fault:
            raise Refusal(STATUS_OF.get(fault.errno, 500)) from None
        except RuntimeError:  # there is no thread
            raise Refusal(503) from None
        await client.end(status, why, beside=beside)

    def judged(self, path: str, name: str, claim: str) -> tuple[int, str, str]:
        """The status and the reason. If the file is refused, the log has its name too, and which bytes made it what it is."""
        status, why = self.judge.judge(path, name, claim)
        return status, why, "" if status == 201 else f", {name}: {reasons(path)}"

    def keep(self, file: BinaryIO, path: str, name: str) -> None:
        """The file is on the disk before it gets its name, and that before the sender is told. Nothing is replaced."""
        os.fsync(file)
        os.link(path, name, dst_dir_fd=self.folder, follow_symlinks=True)
        try:
            os.fsync(self.folder)
        except OSError:
            os.unlink(name, dir_fd=self.folder)
            raise


def main() -> None:
    port, folder, seconds, *types, allowed = sys.argv[1:] if len(sys.argv) in (5, 7) else ("", "", "", "")
    if number_of(port, 65535) < 0 or number_of(seconds, 86400) < 1 or types[:1] not in ([], ["--types"]):
        fail("usage: upload_gate.py PORT FOLDER SECONDS [--types FILE] CLASS|MIME_TYPE,..")
    try:
        gate = Gate(folder, Judge(allowed, *types[1:]))
        gate.unnamed().close()
        asyncio.run(Server(gate.answer, int(seconds), Lines().tell).run(int(port)))
    except (OSError, ValueError) as fault:
        fail(f"upload_gate.py: {fault}")


if __name__ == "__main__":
    main()
