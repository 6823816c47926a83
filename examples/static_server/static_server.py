#!/usr/bin/env python3
"""A static file server on the loopback, which takes the type of a file from its name and its bytes together.

usage: static_server.py [--sandbox] PORT FOLDER [SECONDS]"""
import asyncio
import contextlib
import email.utils
import errno
import os
import re
import stat
import sys
import time
import urllib.parse
from collections.abc import Iterator
from typing import BinaryIO

import infer
from infer import mimesniff
from infer.aliases import BROWSER_OF
from loopback import number_of
from serving import PIECE, SHORT, Client, Refusal, Server

WHOLE = 1 << 20
STATUS_OF = SHORT | {errno.EIO: 500}
TARGET = re.compile(r"/(?:[!$&-\[\]-~]|%[0-9A-Fa-f]{2})*")
UNKNOWN = "application/octet-stream"
# What may run scripts in the server's name, unless strangers fill the folder.
OWN = {"text/html", "application/xhtml+xml", "application/pdf"}
# What no browser runs, but for what is a text too, as an image in SVG is.
SHOWN = {"image", "audio", "video", "font"}
BELIEVED = {infer.Standing.AGREE, infer.Standing.NAME_REFINES, infer.Standing.BYTES_REFINE}


def is_textual(mime_type: str) -> bool:
    return mime_type.startswith("text/") or mime_type.endswith(("xml", "json", "javascript"))


def content_type(name: str, front: bytes) -> str:
    """The Content-Type, without a charset, for a name and the first bytes."""
    found = infer.named(name, front)
    # Where the bytes are finer than the name, a page say that is named as a text, a browser is to see what the name has.
    kind = found.type_of_name if found.standing is infer.Standing.BYTES_REFINE else found.type
    if found.standing is infer.Standing.BYTES_ALONE:
        # What a browser runs is sent as such only if the name says so.
        is_sent = found.type_of_bytes.group in SHOWN and not is_textual(kind.mime)
    else:
        is_sent = found.standing in BELIEVED and not kind.is_own_name
    return BROWSER_OF.get(kind.extension, kind.mime) if is_sent else UNKNOWN


def names_of(target: str) -> list[bytes]:
    """The names from the folder down to what is asked for. The last is empty if that is a folder."""
    if not TARGET.fullmatch(target):
        raise Refusal(400)
    *names, last = [urllib.parse.unquote_to_bytes(part) for part in target.partition("?")[0].split("/")[1:]]
    if not all(names) or any(name.startswith(b".") or set(name) & set(b"/\\\0") for name in [*names, last]):
        raise Refusal(404)
    return [*names, last]


def open_below(folder: int, names: list[bytes]) -> int:
    """Opens each name from the one before and follows no link, so that what is swapped meanwhile leads nowhere else."""
    at = os.dup(folder)
    try:
        for name in names[:-1]:
            before, at = at, os.open(name, os.O_PATH | os.O_DIRECTORY | os.O_NOFOLLOW, dir_fd=at)
            os.close(before)
        # Of a FIFO this waits for no writer, and a terminal does not become this program's.
        return os.open(names[-1], os.O_RDONLY | os.O_NOFOLLOW | os.O_NONBLOCK | os.O_NOCTTY, dir_fd=at)
    finally:
        os.close(at)


def open_file(folder: int, target: str) -> tuple[int, os.stat_result, str]:
    """The regular file to which a target leads, what the system says of it, and its name."""
    names = names_of(target)
    is_folder, names[-1] = not names[-1], names[-1] or b"index.html"
    try:
        file = open_below(folder, names)
    except OSError as fault:
        raise Refusal(STATUS_OF.get(fault.errno, 404)) from None
    state = os.fstat(file)
    if stat.S_ISREG(state.st_mode):
        return file, state, os.fsdecode(names[-1])
    os.close(file)
    if is_folder or not stat.S_ISDIR(state.st_mode):
        raise Refusal(404)
    path, mark, query = target.partition("?")
    raise Refusal(301, ("Location", path + "/" + mark + query))


def is_listed(tag: str, listed: str) -> bool:
    return listed == "*" or tag in (it.strip(" \t") for it in listed.split(","))


def is_known(headers: dict[str, str], tag: str, modified: str) -> bool:
    """Whether the client has the file as it is. A file that it wants only as it was is refused if it is another one."""
    if not is_listed(tag, headers.get("if-match", tag)):
        raise Refusal(412)
    date = email.utils.parsedate(headers.get("if-unmodified-since"))
    if date and "if-match" not in headers and email.utils.parsedate(modified) > date:
        raise Refusal(412)
    if "if-none-match" in headers:
        return is_listed(tag, headers["if-none-match"].replace("W/", ""))
    return headers.get("if-modified-since") == modified


def type_fields(file: BinaryIO, name: str, size: int, own: set[str]) -> list[tuple[str, str]]:
    """The headers that say what a file is. A charset is said of a text that was looked at as a whole."""
    front = file.read(infer.FRONT)
    mime_type, charset = content_type(name, front), ""
    if is_textual(mime_type) and size <= WHOLE:
        with contextlib.suppress(UnicodeDecodeError):
            (front + file.read(WHOLE)).decode()
            charset = "; charset=utf-8"
    # An image in SVG that is opened by itself is a page, whose scripts this stops.
    kind = mimesniff.MimeType.parse(mime_type)
    is_foreign = mime_type not in own and kind is not None and mimesniff.Group.SCRIPTABLE in kind.groups
    return [("Content-Type", mime_type + charset)] + [("Content-Security-Policy", "sandbox")] * is_foreign


def span_of(value: str, size: int) -> tuple[int, int]:
    """The places at which the answer to a Range begins and ends: all of it, unless one span is asked for."""
    found = re.fullmatch(r"bytes=([0-9]{0,18})-([0-9]{0,18})", value)
    first, last = found.groups() if found else ("", "")
    if not first and not last or first and last and int(last) < int(first):
        return 0, size
    begin = int(first) if first else max(0, size - int(last))
    end = min(size, int(last) + 1) if first and last else size
    if begin >= end:
        raise Refusal(416, ("Content-Range", f"bytes */{size}"))
    return begin, end


def pieces(file: BinaryIO, begin: int, end: int) -> Iterator[bytes]:
    """The bytes between two places, or fewer if the file has become shorter."""
    file.seek(begin)
    while begin < end and (piece := file.read(min(PIECE, end - begin))):
        yield piece
        begin += len(piece)


async def answer(folder: int, own: set[str], client: Client) -> None:
    headers, is_get = client.headers, client.method == "GET"
    if "expect" in headers:
        raise Refusal(417)
    if not is_get and client.method != "HEAD":
        raise Refusal(501)
    # What a body holds could be taken for a second request.
    if headers.get("content-length", "0") != "0":
        raise Refusal(400)
    fd, state, name = open_file(folder, client.target)
    with open(fd, "rb", buffering=0) as file:
        size, tag = state.st_size, f'"{state.st_ino:x}-{state.st_mtime_ns:x}-{state.st_size:x}"'
        modified = email.utils.formatdate(min(max(state.st_mtime, 0), time.time()), usegmt=True)
        if is_known(headers, tag, modified):
            return await client.send(304, [("ETag", tag)])
        # A part is sent of the file that the client has another part of.
        is_part = is_get and headers.get("if-range", tag) == tag
        begin, end = span_of(headers.get("range", ""), size) if is_part else (0, size)
        fields = [*type_fields(file, name, size, own), ("Content-Length", str(end - begin)), ("Accept-Ranges", "bytes")]
        fields += [("ETag", tag), ("Last-Modified", modified)]
        if end - begin < size:
            fields.append(("Content-Range", f"bytes {begin}-{end - 1}/{size}"))
        await client.send(206 if end - begin < size else 200, fields, pieces(file, begin, end) if is_get else ())


def main() -> None:
    own, words = (set(), sys.argv[2:]) if sys.argv[1:2] == ["--sandbox"] else (OWN, sys.argv[1:])
    port, folder, seconds = (*words, "30")[:3] if 2 <= len(words) <= 3 else ("", "", "")
    if number_of(port, 65535) < 0 or number_of(seconds, 86400) < 1 or not os.path.isdir(folder):
        sys.exit("usage: static_server.py [--sandbox] PORT FOLDER [SECONDS]")
    top = os.open(folder, os.O_PATH | os.O_DIRECTORY)
    asyncio.run(Server(lambda client: answer(top, own, client), int(seconds), lambda line: None).run(int(port)))


if __name__ == "__main__":
    main()
