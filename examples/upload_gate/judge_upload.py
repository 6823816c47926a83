#!/usr/bin/env python3
"""Says whether a file may be kept: its bytes are of an allowed type, and its name and what is claimed of it agree with
them. README.md says what it refuses.

usage: judge_upload.py [--types FILE] CLASS|MIME_TYPE,.. FILE NAME [CONTENT_TYPE]"""
import mmap
import os
import re
import struct
import sys
from typing import BinaryIO

import infer
from infer.aliases import BROWSER, MIME_TYPE
from loopback import fail

# The classes and extensions of files that honestly fit a type too: they are built on it, or hold files of it.
FITTING = {"zip": {"doc", "book", "ora"}, "pdf": {"archive"}, "epub": {"epub"}, "sh": {"amr", "deb"}}
FITTING |= {"msi": FITTING["zip"], "ar": FITTING["sh"]}
# Files of these hold no archives as they are, so that one in them is hidden.
CLOSED = {"audio", "font", "image", "text", "video", "pdf", "rtf"}
# What archives have that their programs find wherever they begin. The end of ZIP's directory need not come after it.
ARCHIVES = [{b"PK\1\2", b"PK\5\6"}, {b"Rar!\x1a\7"}, {b"7z\xbc\xaf\x27\x1c"}]
PIECE = 65536
# What a type of a class is called in a reason, and how many bytes are written out.
WORDS = {"app": "file", "audio": "audio file", "doc": "document"}
LONGEST_SHOWN = 16
# An entry of ZIP's directory, and the end record, as far as they are asked for; and the same end once more in 64 bits.
ENTRY, END, WIDE_END = struct.Struct("<4s24xHHH8xL"), struct.Struct("<4s6xHLLH"), struct.Struct("<4Q4sLQL")
# Names that lead out of the folder into which they are unpacked, by any system.
OUTSIDE = re.compile(rb"[/\\]|[A-Za-z]:|(?:.*[/\\])?\.\.(?:[/\\]|\Z)", re.DOTALL)
# Names that are hidden, a path, an option of a program, or a device of Windows. There a file ends before ":" too, and a server
# has taken ";" so.
UNSAFE = re.compile(r"[-.]|.*[/\\:;]|(?:con|prn|aux|nul|conin\$|conout\$|(?:com|lpt)[0-9\xb9\xb2\xb3]) *(?:\.|\Z)", re.IGNORECASE | re.DOTALL)


def is_kin(kind: infer.Type, other: infer.Type) -> bool:
    """Whether honest files that are told as `kind` fit `other` too."""
    if other.extension in FITTING:
        return bool({kind.group, kind.extension} & FITTING[other.extension])
    return kind.group == other.group != "archive"


def hides_archive(path: str) -> bool:
    """Whether there is an archive in the file, of which two pieces are in memory at a time."""
    found, before = set[bytes](), b""
    with open(path, "rb") as file:
        while piece := file.read(PIECE):
            found |= {mark for mark in set().union(*ARCHIVES) if mark in before + piece}
            before = piece
    return any(marks <= found for marks in ARCHIVES)


def names_in(data: mmap.mmap) -> list[bytes]:
    """The names in a ZIP archive in which all programs find the same directory: it ends the file, and an entry of it begins
    the file. There are none in any other."""
    end = len(data) - END.size
    mark, count, size, at, remark = END.unpack_from(data, end) if end >= 0 else (b"", 0, 0, 0, 0)
    is_wide = data[end - 20 : end - 16] == b"PK\6\7"
    if is_wide and data[end - WIDE_END.size : end] != WIDE_END.pack(count, count, size, at, b"PK\6\7", 0, end - 76, 1):
        return []
    end -= 76 * is_wide
    is_one, names, begins = mark == b"PK\5\6" and not remark and at + size == end, list[bytes](), set[int]()
    while is_one and at + ENTRY.size <= end:
        mark, name, extra, remark, begin = ENTRY.unpack_from(data, at)
        is_one = mark == b"PK\1\2"
        names.append(data[at + ENTRY.size : at + ENTRY.size + name])
        begins.add(begin)
        at += ENTRY.size + name + extra + remark
    return names if is_one and at == end and 0 in begins and len(names) == count else []


def is_plain(path: str) -> bool:
    """Whether what is judged of a ZIP archive is what is opened, no name leads out of a folder, and Java runs none of it."""
    with open(path, "rb") as file, mmap.mmap(file.fileno(), 0, access=mmap.ACCESS_READ) as data:
        names = names_in(data)
    return bool(names) and not any(OUTSIDE.match(name) or name.upper() == b"META-INF/MANIFEST.MF" for name in names)


def fault_of_name(name: str) -> str:
    """Why a file may not have the name, or nothing."""
    if infer.oddities(name):
        return "has a control character, a mark of direction, two extensions, or a dot or blank at its end"
    return "is empty, hidden, a path, an option or a device" if not name or UNSAFE.match(name) else ""


def fault_of_bytes(path: str, data: infer.Whole, kind: infer.Type) -> str:
    """What such a file is in addition to its type, or nothing."""
    words = {kind.group, kind.extension}
    if infer.match(data, [it for it in infer.types if it != kind and not is_kin(kind, it)]):
        return "that fits another type too"
    if kind.extension == "pdf" and not data.front.startswith(b"%PDF"):
        return "behind something else"
    if words & CLOSED and kind.extension != "ora" and hides_archive(path):
        return "that holds an archive"
    if words & FITTING["zip"] and data.front.startswith(b"PK") and not is_plain(path):
        return "whose ZIP archive has another directory, a name that leads out of a folder, or a manifest of Java"
    return ""


def told(file: BinaryIO, it: infer.Range) -> str:
    """A range in words: "89 50 4E 47 at 0", or "no pdf archive: 256 bytes at 3, one in 4" if it rules a type out."""
    file.seek(it.place)
    is_shown = it.step == 1 and it.length <= LONGEST_SHOWN
    data = file.read(it.length).hex(" ").upper() if is_shown else f"{it.length} bytes"
    words = f"{data} at {it.place}" + (f", one in {it.step}" if it.step > 1 else "")
    if it.type is None:
        return f"nothing that begins otherwise: {words}"
    return words if it.accepts else f"no {it.type.extension} {WORDS.get(it.type.group, it.type.group)}: {words}"


def reasons(path: str) -> str:
    """The bytes by which the file has its type, in words: those of the type first. Every file with these has that type. Of a
    long file only the first are asked: about all of them the question can cost seconds."""
    with open(path, "rb") as file:
        front = file.read(infer.FRONT)
        found = infer.evidence(front, more=True)
        # The first byte is told where no type's range has it.
        of_types = [it for it in found.ranges if it.type]
        shown = of_types if any(it.place == 0 for it in of_types) else found.ranges
        words = [told(file, it) for it in sorted(shown, key=lambda it: not it.accepts)]
    # A range that reaches so far says so already.
    if found.is_exact:
        words.append(f"just {len(front)} bytes" if len(front) < infer.FRONT else f"of the first {infer.FRONT} bytes")
    elif found.least > max((it.place + (it.length - 1) * it.step + 1 for it in found.ranges), default=0):
        words.append(f"at least {found.least} bytes")
    return "; ".join(words + ["and more than there is room for"] * (found.wanted > len(found.ranges)))


class Judge:
    """Lets through what is of these classes and MIME types, with a comma between two. A file can describe others."""

    def __init__(self, allowed: str, types: str = os.devnull) -> None:
        self.allowed, self.own = set(allowed.lower().split(",")), infer.Types.load(types)
        known = {word.lower() for kind in (*infer.types, *infer.further_types) for word in (kind.group, kind.mime)}
        if unknown := self.allowed - known - set(self.own.text.decode("ascii", "replace").lower().split()):
            raise ValueError(f"no class and no MIME type: {','.join(sorted(unknown))}")

    def judge(self, path: str, name: str, claim: str) -> tuple[int, str]:
        """The status for the sender, and the MIME type or the reason."""
        if fault := fault_of_name(name):
            return 400, f"the name {fault}"
        data, extension = infer.Whole(path), name.rpartition(".")[2].lower() if "." in name else ""
        claim = "" if claim.lower() == "application/octet-stream" else claim.lower()
        # Of the library's further types none is asked, so what a line refuses is not taken for one that shows the same.
        built_in, own = infer.guess(data), self.own.guess(data) if self.own.line(data) else None
        kind = own or built_in
        if kind is None:
            return 415, "these bytes are of no known type"
        named = infer.named(name, data)
        # By the wider answer too it is to be allowed: an SVG image is text/xml by the built-in types alone.
        told = kind if own else named.type_of_bytes
        for it in (kind, told):
            if not self.allowed & {it.group, it.mime.lower()}:
                return 415, f"{it.mime} is not allowed"
        if not extension and not claim:
            return 422, f"no extension and no Content-Type, but {kind.mime}"
        # A name can only refuse. One of an own type has its extension, and the library knows no other.
        agrees = not own and named.standing is infer.Standing.AGREE
        is_lie = not own and named.standing is infer.Standing.CONTRADICTS
        if is_lie or extension not in ("", kind.extension.lower()) and not agrees:
            return 422, f"named {'.' + extension if extension else named.type_of_name.mime}, but {told.mime}"
        fitting = {kind.mime.lower(), told.mime.lower()}
        if claim not in fitting | {""} and (own or (MIME_TYPE | BROWSER).get(claim) not in (kind.extension, told.extension)):
            return 422, f"claimed {claim}, but {told.mime}"
        # An own type is judged as the built-in one is that it stands below.
        fault = fault_of_bytes(path, data, built_in or kind)
        return (422, f"{told.mime} {fault}") if fault else (201, told.mime)


def main() -> None:
    words = sys.argv[1:]
    begin = 2 if words[:1] == ["--types"] else 0
    if len(words) - begin not in (3, 4):
        fail("usage: judge_upload.py [--types FILE] CLASS|MIME_TYPE,.. FILE NAME [CONTENT_TYPE]")
    allowed, path, name, claim = (*words[begin:], "")[:4]
    try:
        status, why = Judge(allowed, *words[1:begin]).judge(path, name, claim)
    except (OSError, ValueError) as fault:
        fail(f"judge_upload.py: {fault}")
    print(status, why)
    sys.exit(status != 201)


if __name__ == "__main__":
    main()
