#!/usr/bin/env python3
"""Tells how often the library knows that a wider answer is decided, and that it is never wrong there.

usage: wider.py PROGRAM. PROGRAM is c/vectors/asked.c over the library.

The buffers are those of `further/vectors.tsv`, whole and cut. The model is sure that a wider answer is decided where that
of the built-in rows is, and where each further row below it accepts or is ruled out by a rule that was written from the
definitions. The library has to say so of 99 cuts in a hundred. Where it says so of a cut, the whole buffer has to have
the same answer."""
from __future__ import annotations

import functools
import os
import re
import subprocess
import sys
from collections.abc import Callable, Container
from operator import itemgetter

import decided
import notation
from decided import DATA, EXTENSIONS, decode, fields_of

LEAST_SHARE = 99
BINARY = re.compile(rb"[\0-\x08\x0B\x0E-\x1A\x1C-\x1F]")
MARKS = (b"\xEF\xBB\xBF", b"\xFE\xFF", b"\xFF\xFE")
FOLDERS = (b"word/", b"xl/", b"ppt/", b"visio/", b"3D/")
DBASE_VERSIONS = b"\x02\x03\x30\x31\x32\x43\x63\x83\x8B\xCB\xF5"


def agrees(buf: bytes, text: bytes, place: int) -> bool:
    """Whether the text stands there as far as the buffer goes."""
    return text.startswith(buf[place : place + len(text)])


def little(buf: bytes, place: int, size: int) -> int:
    return int.from_bytes(buf[place : place + size], "little")


def never_fixed(buf: bytes, asked: list[tuple[int, Container[int]]]) -> bool:
    """Whether it has another byte at one of the places, which are in order."""
    for place, allowed in asked:
        if place >= len(buf):
            return False
        if buf[place] not in allowed:
            return True
    return False


def never_shared(buf: bytes, _: str) -> bool:
    """The type of the file is another, or the size of a program header, or there is none."""
    if len(buf) < 6:
        return False
    if buf[4] not in (1, 2) or buf[5] not in (1, 2):
        return True
    order, size_at, size = "little" if buf[5] == 1 else "big", *((42, 32) if buf[4] == 1 else (54, 56))
    wanted = [(16, (3).to_bytes(2, order)), (size_at, size.to_bytes(2, order))]
    return any(not agrees(buf, text, place) for place, text in wanted) or buf[size_at + 2 : size_at + 4] == b"\0\0"


def never_named(buf: bytes, said: str) -> bool:
    """The first entry of a ZIP archive has another name, or another extra field."""
    if not agrees(buf, b"PK\3\4", 0):
        return True
    if said.startswith("is "):
        name = said[4:-1].encode()
        return not agrees(buf, len(name).to_bytes(2, "little"), 26) or not agrees(buf, name, 30)
    if len(buf) < 30:
        return False
    end = 30 + little(buf, 26, 2)
    if said.startswith("ends in "):
        text = said[9:-1].encode()
        return end - 30 < len(text) or not agrees(buf, text, end - len(text))
    return little(buf, 28, 2) < 2 or not agrees(buf, bytes.fromhex(said.removeprefix("has extra ")), end)


def never_packed(buf: bytes, said: str) -> bool:
    """Another entry comes first, or the folder of another application."""
    folder = said[1:-1].encode()
    if not agrees(buf, b"PK\3\4", 0) or not any(agrees(buf, it, 30) for it in (b"[Content_Types].xml", b"_rels/", b"docProps/", folder)):
        return True
    found = re.search(rb"PK\x03\x04(?s:.{26})(word/|xl/|ppt/|visio/|3D/)", buf)
    return found is not None and found[1] != folder


def never_java(buf: bytes, _: str) -> bool:
    """The first entry of a ZIP archive has a name that begins otherwise."""
    return not agrees(buf, b"PK\3\4", 0) or not agrees(buf, b"META-INF/", 30)


def never_tagged(buf: bytes, said: str) -> bool:
    """The first directory is whole, and no entry has the tag. Of a make nothing is said."""
    if not agrees(buf, b"II*\0", 0) and not agrees(buf, b"MM\0*", 0):
        return True
    order = "little" if buf[:1] == b"I" else "big"
    start = int.from_bytes(buf[4:8], order)
    if len(buf) < 8 or len(buf) < start + 2:
        return False
    count = int.from_bytes(buf[start : start + 2], order)
    tags = [buf[at : at + 2] for at in range(start + 2, start + 2 + 12 * count, 12)]
    return len(buf) >= start + 2 + 12 * count and int(said.split()[0], 16).to_bytes(2, order) not in tags


def never_behind_tag(buf: bytes, said: str) -> bool:
    """No tag stands first, or behind it something else."""
    if not agrees(buf, b"ID3", 0):
        return True
    sizes = buf[6:10]
    return len(sizes) == 4 and not agrees(buf, said[1:-1].encode(), 10 + sum(byte << 7 * place for place, byte in enumerate(reversed(sizes))))


@functools.cache
def words_of(said: str) -> list[bytes]:
    """The words of an alternative."""
    return notation.group(notation.Reader(said.encode(), 0))[0]


@functools.cache
def begin_of(said: str) -> bytes:
    return notation.texts(words_of(said))[0]


def never_begun(buf: bytes, said: str) -> bool:
    """It begins otherwise. What it has to have beside may always follow."""
    text = begin_of(said)
    return not agrees(buf, text, 0) and not (agrees(buf, MARKS[0], 0) and agrees(buf, text, 3))


def never_headed(buf: bytes, said: str) -> bool:
    """No header of DOS stands first, or another one later, or another number in that."""
    if not agrees(buf, b"MZ", 0):
        return True
    if len(buf) < 64:
        return False
    (text,), (far, low, high) = notation.texts(words_of(said)[:-6]), notation.numbers(words_of(said))
    place = little(buf, 60, 4)
    return not agrees(buf, text, place) or len(buf) >= place + far + 2 and not low <= little(buf, place + far, 2) <= high


def never_keyed(buf: bytes, _: str) -> bool:
    """What stands first is no object."""
    return not agrees(buf, b"\xEF\xBB\xBF", 0) and re.match(rb"[ \t\r\n]*[^ \t\r\n\[{]", buf) is not None


def never_animated(buf: bytes, _: str) -> bool:
    """A chunk of the image comes before any of its animation."""
    place = 8
    while place + 8 <= len(buf) and buf[place + 4 : place + 8] != b"acTL":
        if buf[place + 4 : place + 8] == b"IDAT":
            return True
        place += 12 + int.from_bytes(buf[place : place + 4], "big")
    return not agrees(buf, b"\x89PNG", 0)


def never_class(buf: bytes, said: str) -> bool:
    """The root entry is there, and has another class id."""
    root = ((little(buf, 48, 4) + 1) << little(buf, 30, 2)) + 80 if len(buf) >= 52 else len(buf)
    return len(buf) >= root + 16 and buf[root : root + 16] != bytes.fromhex(said)


def past_mark(buf: bytes) -> bytes:
    return buf.removeprefix(b"\xEF\xBB\xBF")


def never_json(buf: bytes, _: str) -> bool:
    return not agrees(buf, b"\xEF\xBB\xBF", 0) and re.match(rb"[ \t\r\n]*[^ \t\r\n\[{]", buf) is not None or BINARY.search(buf) is not None


def never_rooted(buf: bytes, said: str) -> bool:
    """What stands first is no markup, or the root is another."""
    if not agrees(buf, b"\xEF\xBB\xBF", 0) and re.match(rb"[ \t\r\n]*[^ \t\r\n<]", buf):
        return True
    name = notation.root(buf)[0]
    return name is not None and name != said.split(" ")[0].encode()


def never_run(buf: bytes, said: str) -> bool:
    name = notation.program(buf)
    return not agrees(buf, b"#!", 0) or name is not None and name not in said.encode().split(b" ")


def never_text(buf: bytes, _: str) -> bool:
    return BINARY.search(buf) is not None and not any(agrees(buf, it, 0) for it in MARKS)


def never_subtitles(buf: bytes, _: str) -> bool:
    return re.match(rb"(?:\xEF\xBB\xBF)?[0-9]*\r?\n?[0-9:,. >-]*\Z", buf) is None and re.match(rb"(?:\xEF\xBB\xBF)?[0-9]{1,9}\r?\n[0-9]", buf) is None and not agrees(buf, b"\xEF\xBB\xBF", 0)


def never_dbase(buf: bytes, _: str) -> bool:
    months = [not 1 <= it <= most for it, most in zip(buf[2:4], (12, 31))]
    return buf[:1] != b"" and buf[0] not in DBASE_VERSIONS or any(months) or not agrees(buf, b"\0\0", 12)


def never_summed(buf: bytes, _: str) -> bool:
    if buf[:1] == b"\0":
        return True
    found = re.match(rb" *([0-7]+)", buf[148:156])
    total = sum(buf[:148]) + 256 + sum(buf[156:512])
    return len(buf) >= 156 and found is None or len(buf) >= 512 and int(found[1], 8) != total


# What each relation is called in the notation, and what rules an alternative of it out.
NEVER: dict[str, Callable[[bytes, str], bool]] = {
    "shared object": never_shared, "first entry:": never_named, "package with:": never_packed, "Java archive": never_java, "first directory has tag": never_tagged,
    'chunk "acTL" before "IDAT"': never_animated, "behind an ID3 tag:": never_behind_tag, "class id:": never_class, "entry:": lambda buf, said: False, "begins:": never_begun, "later header:": never_headed, "first key:": never_keyed, "JSON lines": never_json,
    "JSON": never_json, "root:": never_rooted, "program:": never_run, "text": never_text, "first cue of SubRip": never_subtitles, "dBASE header": never_dbase, "tar checksum": never_summed,
}


class Further:
    """A further row, by its line of `further/types.txt`."""

    def __init__(self, line: str):
        self.extension, _, _, self.parent, self.signature = line.split(maxsplit=4)
        self.relation = next((it for it in NEVER if self.signature.startswith(it)), None)
        self.alternatives = notation.row(line.encode()).alternatives
        if self.relation is None:
            self.asked = [sorted(((place + at, allowed) for place, sets in it[1] for at, allowed in enumerate(sets)), key=itemgetter(0)) for it in self.alternatives]
        else:
            self.told = self.signature.removeprefix(self.relation).strip().split(" or ")

    def never(self, buf: bytes) -> bool:
        """Whether a rule says that no bytes after the buffer make this row accept."""
        if self.relation is None:
            return all(never_fixed(buf, it) for it in self.asked)
        return all(NEVER[self.relation](buf, it) for it in self.told)

    def accepts(self, buf: bytes) -> bool:
        """Whether the row accepts the buffer, by the model of the notation, which does not know all relations."""
        return any(notation.is_fixed(it, buf) if len(it) == 3 else it[0] is not None and it[0](buf, it[1]) for it in self.alternatives)

    def lasts(self, buf: bytes) -> bool:
        return self.relation not in ("JSON", "JSON lines", "text") or self.relation == "text" and buf.startswith(MARKS)


def is_decided(rows: list[Further], buf: bytes) -> bool:
    """Whether the model is sure that no bytes after the buffer change its wider answer."""
    if not decided.is_decided(buf):
        return False
    found = decided.position(buf)
    for row in rows:
        if row.parent != ("-" if found is None else EXTENSIONS[found]) or row.never(buf):
            continue
        return row.accepts(buf) and row.lasts(buf)
    return True


def cuts_of(buf: bytes) -> list[bytes]:
    lengths = {*range(0, min(len(buf), 160), 7), *range(max(0, len(buf) - 4), len(buf) + 1)}
    return [buf[:length] for length in sorted(lengths)]


def asked(program: str, bufs: list[bytes]) -> list[tuple[bool, int]]:
    """What the library says of each: whether its wider answer is decided, and which that is."""
    pack = b"".join(len(it).to_bytes(2, "little") + it for it in bufs)
    lines = subprocess.run([program], input=pack, stdout=subprocess.PIPE, check=True).stdout.decode().splitlines()
    return [(it.split(" ")[1] == "1", int(it.split(" ")[2])) for it in lines]


def main(program: str) -> int:
    with open(os.path.join(DATA, "further/types.txt"), encoding="utf-8") as file:
        rows = [Further(line) for line in file.read().splitlines() if line and not line.startswith("#")]
    wholes = [decode(tokens) for _, tokens, _, _ in fields_of("further/vectors.tsv")]
    cuts = [(cut, whole) for whole in wholes for cut in cuts_of(whole)]
    told, answers = asked(program, [cut for cut, _ in cuts]), dict(zip(wholes, asked(program, wholes)))
    wrong = [cut for (cut, whole), (is_told, row) in zip(cuts, told) if is_told and answers[whole][1] != row]
    sure = [(cut, is_told) for (cut, _), (is_told, _) in zip(cuts, told) if is_decided(rows, cut)]
    missed = [cut for cut, is_told in sure if not is_told]
    share = 100 * (len(sure) - len(missed)) / len(sure)
    print(f"wider answers that stay: {len(cuts)} cuts, {len(wrong)} change" + "".join(f", as of {it!r}" for it in wrong[:3]))
    print(f"cuts that are decided: {len(sure)} by the model, {share:.2f} % of them by the library" + "".join(f", not {it!r}" for it in missed[:3]))
    return 1 if wrong or share < LEAST_SHARE else 0


if __name__ == "__main__":
    sys.exit(main(sys.argv[1]))
