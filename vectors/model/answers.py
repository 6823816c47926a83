"""The built-in answer and the wider one, by the models of this folder: `decided.py` has the built-in rows, `notation.py` how
`further/types.txt` writes the further ones, `texts.py` JSON. The other relations are here, by their definitions."""
from __future__ import annotations

import functools
import os
import re
import sys
from collections.abc import Callable, Container
from typing import NamedTuple

import notation
import texts
from decided import (
    ALTERNATIVES, COMPOUND, DATA, EXTENSIONS, VERSIONS, ZIP, accepts as accepts_built_in, little, may_become, stands,
)
from wider import BINARY, Further as Ruled

PART = re.compile(rb"(?s)PK\x03\x04.{26}(?:\[Content_Types\]\.xml|_rels/)")
FOLDER = re.compile(rb"(?s)PK\x03\x04.{26}(word/|xl/|ppt/|visio/|3D/)")
TIME = rb"[0-9]{2}:[0-9]{2}:[0-9]{2}[,.][0-9]{3}"
CUE = re.compile(rb"(?:\xef\xbb\xbf)?[0-9]{1,9}\r?\n" + TIME + rb" --> " + TIME)
CHECKSUM = re.compile(rb" *([0-7]+)(?=[\0 ]|\Z)")
DBASE_VERSIONS = b"\x02\x03\x30\x31\x32\x43\x63\x83\x8B\xCB\xF5"
FIELD_KINDS = b"+@BCDFGILMNOPTVXY"
DEEPEST = 128
"""So deep a JSON text is nested at most."""


def is_shared(buf: bytes, _: list[bytes]) -> bool:
    """It is of that kind, and none of its program headers asks for an interpreter."""
    if len(buf) < 46 or buf[4] not in (1, 2) or buf[5] not in (1, 2):
        return False
    order = "little" if buf[5] == 1 else "big"
    number = lambda place, size: int.from_bytes(buf[place : place + size], order)
    table, size_at, size = (number(28, 4), 42, 32) if buf[4] == 1 else (number(32, 8), 54, 56)
    count = number(size_at + 2, 2)
    if len(buf) < size_at + 4 or number(16, 2) != 3 or number(size_at, 2) != size or not 0 < count * size <= len(buf) - table:
        return False
    return all(number(table + at * size, 4) != 3 for at in range(count))


def is_animated(buf: bytes, _: list[bytes]) -> bool:
    place = 8
    while buf[place + 4 : place + 8] != b"acTL":
        if len(buf) < place + 8 or buf[place + 4 : place + 8] == b"IDAT":
            return False
        place += 12 + int.from_bytes(buf[place : place + 4], "big")
    return True


def is_subtitles(buf: bytes, _: list[bytes]) -> bool:
    return CUE.match(buf) is not None


def is_dbase(buf: bytes, _: list[bytes]) -> bool:
    """A version, a month, a day, a first field, and where the fields end."""
    if len(buf) < 65 or buf[0] not in DBASE_VERSIONS or not (1 <= buf[2] <= 12 and 1 <= buf[3] <= 31) or buf[12:14] != b"\0\0":
        return False
    end = little(buf[8:10]) - (264 if 0x30 <= buf[0] <= 0x32 else 1)
    has_field = re.match(rb"[A-Za-z_]", buf[32:33]) is not None and buf[43] in FIELD_KINDS
    return has_field and little(buf[10:12]) >= 2 and end >= 64 and end % 32 == 0 and buf[end : end + 1] == b"\x0d"


def is_summed(buf: bytes, _: list[bytes]) -> bool:
    if len(buf) < 512 or buf[0] == 0:
        return False
    found = CHECKSUM.match(buf[148:156])
    return found is not None and int(found[1], 8) == sum(buf[:148]) + 8 * 0x20 + sum(buf[156:512])


def has_tag(buf: bytes, words: list[bytes]) -> bool:
    order = {b"II*\0": "little", b"MM\0*": "big"}.get(buf[:4])
    if order is None:
        return False
    start = int.from_bytes(buf[4:8], order)
    count = int.from_bytes(buf[start : start + 2], order)
    places = range(start + 2, min(start + 2 + 12 * count, len(buf) - 11), 12)
    tagged = lambda tag: [at for at in places if buf[at : at + 2] == tag.to_bytes(2, order)]
    # Behind the tag perhaps `and make "MAKE"`.
    made = lambda at: buf[int.from_bytes(buf[at + 8 : at + 12], order) :].startswith(notation.texts(words[3:])[0])
    return tagged(int(words[0], 16)) != [] and (len(words) == 1 or any(map(made, tagged(0x010F))))


def is_package(buf: bytes, words: list[bytes]) -> bool:
    folder = words[0][1:-1]
    first = (b"[Content_Types].xml", b"_rels/", b"docProps/", folder)
    if not stands(buf, ZIP, 0) or not any(stands(buf, it, 30) for it in first) or not PART.search(buf):
        return False
    found = FOLDER.search(buf)
    return found is not None and found[1] == folder


def has_class_id(buf: bytes, words: list[bytes]) -> bool:
    if len(buf) < 52 or not stands(buf, COMPOUND, 0) or not stands(buf, b"\xfe\xff", 28):
        return False
    class_id = bytes.fromhex(b"".join(words).decode())
    for version, shift, size in VERSIONS:
        if stands(buf, version, 26) and stands(buf, shift, 30):
            root = (little(buf[48:52]) + 1) * size
            return root + 128 <= len(buf) and buf[root + 66] == 5 and stands(buf, class_id, root + 80)
    return False


def is_opened(buf: bytes) -> bool:
    """A bracket stands first, and so many are open at once at most."""
    if buf.removeprefix(texts.MARK).lstrip(texts.BLANK)[:1] not in (b"[", b"{"):
        return False
    depth = deepest = 0
    for byte in texts.FIRST_STRING.sub(b"", buf):
        depth += (byte in b"[{") - (byte in b"]}")
        deepest = max(depth, deepest)
    return deepest <= DEEPEST


# The relations of which `notation.py` has no test.
RELATIONS: dict[str, Callable[[bytes, list[bytes]], bool]] = {
    "shared object": is_shared, 'chunk "acTL" before "IDAT"': is_animated, "first cue of SubRip": is_subtitles,
    "dBASE header": is_dbase, "tar checksum": is_summed, "first directory has tag": has_tag, "package with :": is_package,
    "class id :": has_class_id, "JSON lines": lambda buf, _: is_opened(buf) and texts.is_lines(buf),
    "JSON": lambda buf, _: is_opened(buf) and texts.is_json(buf),
}


class Fixed(NamedTuple):
    """An alternative of bytes at fixed places."""

    least: int
    asked: tuple[tuple[int, Container[int]], ...]
    """The bytes that are allowed at each place that is asked."""
    binary: bool = False
    """Whether it wants a byte that no text has too."""

    def may_begin(self, begun: bytes) -> bool:
        """Whether it allows these first bytes."""
        return all(begun[place] in allowed for place, allowed in self.asked if place < len(begun))


def fits(alternatives: list[Fixed], buf: bytes) -> bool:
    """Whether the buffer has what one of them asks."""
    length = len(buf)
    for least, asked, binary in alternatives:
        if least <= length:
            for place, allowed in asked:
                if buf[place] not in allowed:
                    break
            else:
                if not binary or BINARY.search(buf):
                    return True
    return False


class Further:
    """A further row: its line of `further/types.txt`, and its number among all rows."""

    def __init__(self, line: str, number: int) -> None:
        self.number, self.ruled = number, Ruled(line)
        row = notation.row(line.encode())
        self.parent = None if row.parent == "-" else EXTENSIONS.index(row.parent)
        signature = line.split(maxsplit=4)[4]
        self.fixed = [self.fixed_of(*it) for it in row.alternatives if len(it) == 3]
        self.related = [(it[0] or self.relation_of(signature), it[1]) for it in row.alternatives if len(it) == 2]

    @staticmethod
    def fixed_of(least: int, parts: list, binary: bool) -> Fixed:
        return Fixed(least, tuple((place + at, allowed) for place, sets in parts for at, allowed in enumerate(sets)), binary)

    @staticmethod
    def relation_of(signature: str) -> Callable[[bytes, list[bytes]], bool]:
        for name, test in RELATIONS.items():
            if signature.startswith(name.removesuffix(" :")):
                return test
        sys.exit(f"no test of the relation: {signature.strip()}")

    def accepts(self, buf: bytes) -> bool:
        if fits(self.fixed, buf):
            return True
        for test, words in self.related:
            if test(buf, words):
                return True
        return False


with open(os.path.join(DATA, "further/types.txt"), encoding="utf-8") as _file:
    _lines = [it for it in _file.read().splitlines() if it and not it.startswith("#")]
FURTHER = [Further(line, len(EXTENSIONS) + at) for at, line in enumerate(_lines)]
BUILT_IN = {row: [Fixed(least, tuple(asked.items())) for least, asked in ALTERNATIVES[it]] for row, it in enumerate(EXTENSIONS) if it in ALTERNATIVES}


@functools.cache
def built_in_tests(begun: bytes) -> list[tuple[int, list[Fixed] | None]]:
    """The built-in rows that a buffer which begins so can still become, each with its alternatives if it is of fixed bytes."""
    rows = [row for row in range(len(EXTENSIONS)) if may_become(row, begun)]
    return [(row, [it for it in BUILT_IN[row] if it.may_begin(begun)] if row in BUILT_IN else None) for row in rows]


@functools.cache
def further_rows(parent: int | None, begun: bytes) -> list[Further]:
    """The further rows that are asked below that answer, but those that no buffer can be which begins so."""
    return [it for it in FURTHER if it.parent == parent and not it.ruled.never(begun)]


def position(buf: bytes) -> int | None:
    """The first built-in row that accepts."""
    for row, alternatives in built_in_tests(buf[:2]):
        if accepts_built_in(row, buf) if alternatives is None else fits(alternatives, buf):
            return row
    return None


def more_position(buf: bytes, parent: int | None) -> int | None:
    """The wider answer, if the built-in one is the parent."""
    for row in further_rows(parent, buf[:2]):
        if row.accepts(buf):
            return row.number
    return parent


def fixed_of(row: int) -> list[Fixed] | None:
    """The alternatives of a row that asks for bytes at fixed places alone."""
    if row < len(EXTENSIONS):
        return BUILT_IN.get(row)
    found = FURTHER[row - len(EXTENSIONS)]
    return None if found.related or any(it.binary for it in found.fixed) else found.fixed
