#!/usr/bin/env python3
"""Which built-in rows more bytes can still bring, by a model that was written from the definitions, not from the code.

usage: decided.py [TOKENS]

The buffer is in the notation of `vectors.tsv`. Its answer is printed, whether that is decided, and each row that
accepts it with some more bytes, with such bytes.

`accepts` is the definitions. `needs` says what more bytes have to hold, if any can do it, so a yes comes with its
proof. A no has none: `attack.py` attacks it."""
from __future__ import annotations

import functools
import os
import re
import sys
from collections.abc import Callable, Iterable, Iterator
from typing import NamedTuple

DATA = os.path.join(os.path.dirname(os.path.abspath(__file__)), "..")
LONGEST = 1_000_000
"""As many bytes after a buffer are held in memory."""

# Signatures of bytes at fixed places, by their rows' extensions. Each has alternatives, each with a least length, and
# with bytes from some places on: digits, a text, one of several in braces, one of a range, or any but one.
FIXED = r"""
wasm    8: @0 00 61 73 6D 01 00 00 00
elf     53: @0 7F 45 4C 46
exe     2: @0 4D 5A
dll     2: @0 4D 5A
class   8: @0 CA FE BA BE, @7 2D..FF or 8: @0 CA FE BA BE, @6 01..FF
bc      2: @0 42 43
mach    4: @0 {CF CE} FA ED FE or 4: @0 FE ED FA {CF CE} or 8: @0 CA FE BA BE 00 00 00, @7 00..2C
dex     37: @0 "dex" 0A, @36 70
dey     101: @0 "dey" 0A, @40 "dex" 0A, @76 70
der     3: @0 30 82
obj     3: @0 64 86 or 3: @0 4C 01 or 3: @0 00 02
pem     12: @0 "-----BEGIN "
qcow2   5: @0 "QFI" FB
epub    58: @0 50 4B 03 04, @30 "mimetypeapplication/epub+zip"
mobi    68: @60 "BOOKMOBI"
jpg     3: @0 FF D8 FF
jp2     13: @0 00 00 00 0C 6A 50 20 20 0D 0A 87 0A 00
png     4: @0 89 50 4E 47
gif     3: @0 "GIF"
webp    12: @8 "WEBP"
cr2     11: @0 49 49 2A 00, @8 43 52 02 or 11: @0 4D 4D 00 2A, @8 43 52 02
tif     10: @0 49 49 2A 00, @8 not 43, @9 not 52 or 10: @0 4D 4D 00 2A, @8 not 43, @9 not 52
bmp     2: @0 42 4D
jxr     3: @0 49 49 BC
psd     4: @0 "8BPS"
ico     4: @0 00 00 01 00
jxl     3: @0 FF 0A or 13: @0 00 00 00 0C 4A 58 4C 20 0D 0A 87 0A
ora     58: @0 50 4B 03 04, @30 "mimetypeimage/openraster"
djvu    15: @0 "AT&TFORM", @12 "DJV"
dwg     6: @0 VERSION
mp4     12: @4 "ftyp", @8 BRAND
m4v     11: @4 "ftypM4V"
mov     16: @4 "ftypqt  " or 16: @4 "moov" or 16: @4 "mdat" or 16: @12 "mdat"
avi     11: @0 "RIFF", @8 "AVI"
wmv     10: @0 30 26 B2 75 8E 66 CF 11 A6 D9
mpg     4: @0 00 00 01 B0..BF
flv     4: @0 "FLV" 01
midi    4: @0 "MThd"
mp3     3: @0 "ID3" or 3: @0 FF {FB F3 F2}
m4a     11: @4 "ftypM4A" or 11: @0 "M4A "
opus    36: @0 "OggS", @28 "OpusHead"
ogg     4: @0 "OggS"
flac    4: @0 66 4C 61 43
wav     12: @0 "RIFF", @8 "WAVE"
amr     12: @0 "#!AMR" 0A
aac     2: @0 FF {F1 F9}
aiff    12: @0 "FORM", @8 "AIFF"
dsf     5: @0 "DSD "
ape     5: @0 "MAC "
woff    8: @0 "wOFF" 00 01 00 00
woff2   8: @0 "wOF2" 00 01 00 00
ttf     5: @0 00 01 00 00 00
otf     5: @0 "OTTO" 00
odt     77: @0 50 4B 03 04, @30 "mimetype", @50 "vnd.oasis.opendocument.text"
ods     84: @0 50 4B 03 04, @30 "mimetype", @50 "vnd.oasis.opendocument.spreadsheet"
odp     85: @0 50 4B 03 04, @30 "mimetype", @50 "vnd.oasis.opendocument.presentation"
zip     4: @0 50 4B 03 04 or 4: @0 50 4B 05 06 or 4: @0 50 4B 07 08 or 8: @0 50 4B 30 30 50 4B 03 04
tar     262: @257 "ustar"
par2    9: @0 50 41 52 32 00 50 4B 54
rar     7: @0 52 61 72 21 1A 07 {00 01}
gz      3: @0 1F 8B 08
bz2     3: @0 "BZh"
bz3     5: @0 "BZ3v1"
7z      6: @0 37 7A BC AF 27 1C
xz      6: @0 FD 37 7A 58 5A 00
swf     3: @0 {43 46} 57 53
rtf     5: @0 7B 5C 72 74 66
eot     36: @8 02 00 01, @34 4C 50 or 36: @8 01 00 00, @34 4C 50 or 36: @8 02 00 02, @34 4C 50
ps      2: @0 25 21
sqlite  4: @0 "SQLi"
nes     4: @0 "NES" 1A
crx     4: @0 "Cr24"
cab     4: @0 "MSCF" or 4: @0 "ISc("
deb     21: @0 "!<arch>" 0A "debian-binary"
ar      7: @0 "!<arch>"
Z       2: @0 1F {A0 9D}
lz      4: @0 "LZIP"
rpm     97: @0 ED AB EE DB
dcm     132: @128 "DICM"
msi     8: @0 D0 CF 11 E0 A1 B1 1A E1
cpio    2: @0 C7 71 or 2: @0 71 C7 or 7: @0 "070701"
sh      3: @0 "#!"
"""
LISTED = {
    "VERSION": [
        b"MC0.0\0", b"AC1.2\0", b"AC1.3\0", b"AC1.40", b"AC1.50", b"AC2.10", b"AC2.21", b"AC2.22", b"AC1001", b"AC1002",
        b"AC1003", b"AC1004", b"AC1006", b"AC1009", b"AC1012", b"AC1013", b"AC1014", b"AC1015", b"AC1018", b"AC1021",
        b"AC1024", b"AC1027", b"AC1032", b"AC1035",
    ],
    "BRAND": [
        b"avc1", b"dash", b"iso2", b"iso3", b"iso4", b"iso5", b"iso6", b"isom", b"mmp4", b"mp41", b"mp42", b"mp4v",
        b"mp71", b"MSNV", b"NDAS", b"NDSC", b"NSDC", b"NDSH", b"NDSM", b"NDSP", b"NDSS", b"NDXC", b"NDXH", b"NDXM",
        b"NDXP", b"NDXS", b"F4V ", b"F4P ",
    ],
}
EBML = bytes.fromhex("1A45DFA3")
MATROSKA = {"mkv": b"\x42\x82\x88matroska", "webm": b"\x42\x82\x84webm"}
FRAMED = {"zst": bytes.fromhex("28B52FFD"), "lz4": bytes.fromhex("04224D18")}
SKIPPABLE = [bytes([first]) + b"\x2a\x4d\x18" for first in range(0x50, 0x60)]
EMPTY_FRAMES = re.compile(rb"(?:[\x50-\x5f]\x2a\x4d\x18\0\0\0\0)*+")
# Brands that decide as the major one, brands that ask for a compatible one, and the compatible ones.
BRANDS = {
    "heif": ([b"heic", b"heix"], [b"mif1", b"msf1"], [b"heic"]),
    "avif": ([b"avif", b"avis"], [b""], [b"avif", b"avis"]),
}
ZIP = b"PK\x03\x04"
FOLDERS = {"docx": b"word/", "xlsx": b"xl/", "pptx": b"ppt/"}
NAMES = [b"[Content_Types].xml", b"_rels/.rels", b"docProps"]
COMPOUND = bytes.fromhex("D0CF11E0A1B11AE1")
# The major version, the sector shift and the size of a sector.
VERSIONS = [(b"\3\0", b"\x09\0", 512), (b"\4\0", b"\x0c\0", 4096)]
CLASS_IDS = {
    "doc": [bytes.fromhex("0609020000000000C000000000000046")],
    "xls": [bytes.fromhex("1008020000000000C000000000000046"), bytes.fromhex("2008020000000000C000000000000046")],
    "ppt": [bytes.fromhex("108D81649B4FCF1186EA00AA00B929E8")],
}
WHITE = b"\x09\x0a\x0c\x0d\x20"
MARKS = [b"\xef\xbb\xbf", b"\xfe\xff", b"\xff\xfe"]
ALL_MARKS = re.compile(b"(?:" + b"|".join(MARKS) + b")*+")
TAGS = [
    b"<!DOCTYPE HTML", b"<HTML", b"<HEAD", b"<SCRIPT", b"<IFRAME", b"<H1", b"<DIV", b"<FONT", b"<TABLE", b"<A",
    b"<STYLE", b"<TITLE", b"<B", b"<BODY", b"<BR", b"<P", b"<!--",
]


class Alternative(NamedTuple):
    least: int
    asked: dict[int, bytes]
    """The bytes that are allowed at each place that is asked."""


# What a signature is made of, as it is written above.
TOKEN = r'(?:"[^"]+"|\{[0-9A-F]{2}(?: [0-9A-F]{2})*\}|not [0-9A-F]{2}|[0-9A-F]{2}\.\.[0-9A-F]{2}|[A-Z]{4,}|[0-9A-F]{2})'
PART = rf"@\d+(?: {TOKEN})+"
SIGNATURE = re.compile(rf"\d+: {PART}(?:, {PART})*(?: or \d+: {PART}(?:, {PART})*)*")


def signature_of(line: str) -> tuple[str, list[Alternative]]:
    """A line as it is written above: the extension of a row, and the alternatives of its signature."""
    extension, _, text = line.partition(" ")
    if not SIGNATURE.fullmatch(text.strip()):
        sys.exit(f"vectors/model/decided.py: this is no signature: {line}")
    found = list(alternatives_of(text.strip()))
    if any(place >= least for least, asked in found for place in asked):
        sys.exit(f"vectors/model/decided.py: a part ends past the least length: {line}")
    return extension, found


def alternatives_of(text: str) -> Iterator[Alternative]:
    """Those of a signature as it is written above; each of several texts makes one."""
    for alternative in text.split(" or "):
        least, parts = alternative.split(":")
        named = re.search(r"[A-Z]{4,}$", parts)
        for written in LISTED[named[0]] if named else [b""]:
            asked: dict[int, bytes] = {}
            for start, part in re.findall(r'@(\d+) ((?:"[^"]*"|[^",])+)', parts):
                place = int(start)
                for token in re.findall(r'"[^"]*"|\{.*?\}|not ..|..\.\...|[A-Z]{4,}|[0-9A-F]{2}', part):
                    for allowed in sets_of(token, written):
                        asked[place] = allowed
                        place += 1
            yield Alternative(int(least), asked)


def sets_of(token: str, written: bytes) -> Iterable[bytes]:
    """The sets of bytes that a token allows, one for each place."""
    if token[0] == '"':
        return [bytes([byte]) for byte in token[1:-1].encode()]
    if token[0] == "{":
        return [bytes.fromhex(token[1:-1])]
    if token.startswith("not "):
        return [bytes(byte for byte in range(256) if byte != int(token[4:], 16))]
    if ".." in token:
        low, high = token.split("..")
        return [bytes(range(int(low, 16), int(high, 16) + 1))]
    if token in LISTED:
        return [bytes([byte]) for byte in written]
    return [bytes.fromhex(token)]


class Runs:
    """A buffer that may be too long for the memory, as pieces with counts of repetitions. Short slices are read."""

    def __init__(self, runs: Iterable[tuple[bytes, int]]) -> None:
        self.runs = [(piece, count) for piece, count in runs if piece and count]

    def __len__(self) -> int:
        return sum(len(piece) * count for piece, count in self.runs)

    def __getitem__(self, key):
        if isinstance(key, int):
            return self[key:key + 1][0]
        start, stop, _ = key.indices(len(self))
        found, place = b"", 0
        for piece, count in self.runs:
            low, high = max(start - place, 0), min(stop - place, len(piece) * count)
            if low < high:
                skipped = low // len(piece) * len(piece)
                found += (piece * (high - skipped))[low - skipped:high - skipped]
            place += len(piece) * count
        return found


# What the signatures accept.


def stands(buf, text: bytes, place: int) -> bool:
    return buf[place:place + len(text)] == text


def little(digits: bytes) -> int:
    return int.from_bytes(digits, "little")


def big(digits: bytes) -> int:
    return int.from_bytes(digits, "big")


@functools.cache
def led_by(extension: str, first: bytes) -> list[Alternative]:
    """The alternatives that allow this first byte, and all if there is none: most rows end here."""
    return [alternative for alternative in ALTERNATIVES[extension] if first in alternative.asked.get(0, first)]


def is_fixed(extension: str, buf) -> bool:
    return any(
        alternative.least <= len(buf)
        and all(place < len(buf) and buf[place] in allowed for place, allowed in alternative.asked.items())
        for alternative in led_by(extension, buf[:1])
    )


def is_pdf(_: str, buf) -> bool:
    return b"%PDF" in buf[:1024]


def is_matroska(extension: str, buf) -> bool:
    return len(buf) >= 257 and stands(buf, EBML, 0) and MATROSKA[extension] in buf[:256]


def after_frames(buf) -> int:
    """The place after all whole frames that the buffer begins with."""
    # A million bytes of empty frames would take seconds one at a time.
    place = EMPTY_FRAMES.match(buf).end() if isinstance(buf, bytes) else 0
    while buf[place:place + 4] in SKIPPABLE and len(buf) >= place + 8:
        end = place + 8 + little(buf[place + 4:place + 8])
        if end > len(buf):
            break
        place = end
    return place


def is_framed(extension: str, buf) -> bool:
    return stands(buf, FRAMED[extension], after_frames(buf))


def brand_places(size: int) -> range:
    """The places of the compatible brands in a box of that size."""
    return range(16, 16 + 4 * (size // 4 - 4), 4)


def is_brand(extension: str, buf) -> bool:
    majors, bases, compatible = BRANDS[extension]
    if len(buf) < 16 or not stands(buf, b"ftyp", 4) or big(buf[:4]) > len(buf):
        return False
    return any(stands(buf, major, 8) for major in majors) or (
        any(stands(buf, base, 8) for base in bases)
        and any(buf[place:place + 4] in compatible for place in brand_places(big(buf[:4])))
    )


def header_from(buf, start: int) -> int | None:
    """The least place from `start` on at which a header stands that ends by 6000 bytes after it."""
    found = buf[start:start + 6000].find(ZIP)
    return None if found < 0 else start + found


def has_folder(buf, place: int) -> bool:
    return any(stands(buf, folder, place) for folder in FOLDERS.values())


def deciding_place(buf) -> int | None:
    """The place of the folder that decides."""
    if not stands(buf, ZIP, 0):
        return None
    if has_folder(buf, 30):
        return 30
    if not any(stands(buf, name, 30) for name in NAMES) or little(buf[18:22]) + 49 > 0xFFFFFFFF:
        return None
    second = header_from(buf, little(buf[18:22]) + 49)
    third = None if second is None else header_from(buf, second + 30)
    if third is None or has_folder(buf, third + 30):
        return None if third is None else third + 30
    fourth = header_from(buf, third + 56)
    return None if fourth is None else fourth + 30


def is_office(extension: str, buf) -> bool:
    place = deciding_place(buf)
    return place is not None and stands(buf, FOLDERS[extension], place)


def is_compound(extension: str, buf) -> bool:
    if len(buf) < 52 or not stands(buf, COMPOUND, 0) or not stands(buf, b"\xfe\xff", 28):
        return False
    for version, shift, size in VERSIONS:
        if stands(buf, version, 26) and stands(buf, shift, 30):
            root = (little(buf[48:52]) + 1) * size
            return root + 128 <= len(buf) and buf[root + 66] == 5 and buf[root + 80:root + 96] in CLASS_IDS[extension]
    return False


def stands_in_any_case(buf, text: bytes, place: int) -> bool:
    return buf[place:place + len(text)].lower() == text.lower()


def after_white(buf: bytes) -> int:
    """The place after all white space that the buffer begins with."""
    return len(buf) - len(buf.lstrip(WHITE))


def after_marks(buf: bytes) -> int:
    """The place after all white space, and all marks after that."""
    return ALL_MARKS.match(buf, after_white(buf)).end()


def is_html(_: str, buf) -> bool:
    place = after_white(buf)
    return any(
        stands_in_any_case(buf, tag, place) and buf[place + len(tag):place + len(tag) + 1] in (b" ", b">")
        for tag in TAGS
    )


def is_xml(_: str, buf) -> bool:
    return stands_in_any_case(buf, b"<?xml", after_marks(buf))


# What more bytes have to hold.


class Needs(NamedTuple):
    """A least length of the whole, and texts at places, which agree with the buffer as far as it goes.

    All else that follows the buffer may be 00."""

    least: int
    texts: list[tuple[int, bytes]]


def agrees(buf: bytes, text: bytes, place: int) -> bool:
    """Whether the text stands at the place as far as the buffer goes."""
    return text.startswith(buf[place:place + len(text)])


def all_agree(buf: bytes, texts: list[tuple[int, bytes]]) -> bool:
    return all(agrees(buf, text, place) for place, text in texts)


def needs_texts(buf: bytes, texts: list[tuple[int, bytes]], least: int = 0) -> Needs | None:
    """The texts and no more than the least length, if all agree."""
    if not all_agree(buf, texts):
        return None
    return Needs(max([least, *(place + len(text) for place, text in texts)]), texts)


def first_of(found: Iterable[Needs | None]) -> Needs | None:
    """The one of the least length."""
    return min((needs for needs in found if needs), key=lambda needs: needs.least, default=None)


def needs_fixed(extension: str, buf: bytes) -> Needs | None:
    length = len(buf)
    for least, asked in led_by(extension, buf[:1]):
        if all(place >= length or buf[place] in allowed for place, allowed in asked.items()):
            return Needs(least, [(place, allowed[:1]) for place, allowed in asked.items() if place >= length])
    return None


def place_to_come(buf: bytes, text: bytes, start: int, end: int) -> int | None:
    """The least place from `start` on at which the text stands and ends by `end`; if there is none, may still come."""
    known = buf[start:end].find(text)
    if known >= 0:
        return start + known
    free = range(max(start, len(buf) - len(text) + 1), end - len(text) + 1)
    return next((place for place in free if agrees(buf, text, place)), None)


def needs_pdf(_: str, buf: bytes) -> Needs | None:
    place = place_to_come(buf, b"%PDF", 0, 1024)
    return None if place is None else needs_texts(buf, [(place, b"%PDF")])


def needs_matroska(extension: str, buf: bytes) -> Needs | None:
    # The kind cannot share a place with the first four bytes: it has 42 first, and they have none.
    kind = MATROSKA[extension]
    place = place_to_come(buf, kind, 4, 256)
    return None if place is None else needs_texts(buf, [(0, EBML), (place, kind)], 257)


def needs_framed(extension: str, buf: bytes) -> Needs | None:
    magic, place = FRAMED[extension], after_frames(buf)
    if agrees(buf, magic, place):
        return Needs(place + 4, [(place, magic)])
    # The buffer ends in a frame: the bytes of its length that are not there may be 00.
    for first in SKIPPABLE:
        if agrees(buf, first, place):
            end = place + 8 + little(buf[place + 4:place + 8])
            return Needs(end + 4, [(place, first), (end, magic)])
    return None


def needs_brand(extension: str, buf: bytes) -> Needs | None:
    majors, bases, compatible = BRANDS[extension]
    stated = buf[:4].ljust(4, b"\0")
    box = [(0, stated), (4, b"ftyp")]
    if not all_agree(buf, box):
        return None
    for major in majors:
        if agrees(buf, major, 8):
            return Needs(max(16, big(stated)), [*box, (8, major)])
    for place in brand_places(big(stated)):
        for base in bases:
            for brand in compatible:
                if all_agree(buf, [(8, base), (place, brand)]):
                    return Needs(max(16, big(stated)), [*box, (8, base), (place, brand)])
        # All later places are as free as this one.
        if place >= len(buf):
            return None
    return None


def header_to_come(buf: bytes, start: int) -> int | None:
    """The place of the header that a search from `start` on finds, or the least at which it may still come."""
    return place_to_come(buf, ZIP, start, start + 6000)


def needs_office(extension: str, buf: bytes) -> Needs | None:
    folder = FOLDERS[extension]
    if not agrees(buf, ZIP, 0):
        return None
    if agrees(buf, folder, 30):
        return needs_texts(buf, [(0, ZIP), (30, folder)])
    # The folder disagrees at 30, so the buffer goes beyond, and what the first header states is known.
    name = next((name for name in NAMES if agrees(buf, name, 30)), None)
    if name is None or little(buf[18:22]) + 49 > 0xFFFFFFFF:
        return None
    second = header_to_come(buf, little(buf[18:22]) + 49)
    third = None if second is None else header_to_come(buf, second + 30)
    if second is None or third is None:
        return None
    texts = [(0, ZIP), (30, name), (second, ZIP), (third, ZIP)]
    if agrees(buf, folder, third + 30):
        return needs_texts(buf, [*texts, (third + 30, folder)])
    if has_folder(buf, third + 30):
        return None
    # Another folder may have begun there: 00 ends it.
    fourth = header_to_come(buf, third + 56)
    if fourth is None:
        return None
    return needs_texts(buf, [*texts, (fourth, ZIP), (fourth + 30, folder)])


def needs_compound(extension: str, buf: bytes) -> Needs | None:
    number = buf[48:52].ljust(4, b"\0")
    found = []
    for version, shift, size in VERSIONS:
        root = (little(number) + 1) * size
        header = [(0, COMPOUND), (26, version), (28, b"\xfe\xff"), (30, shift), (48, number), (root + 66, b"\5")]
        found += [needs_texts(buf, [*header, (root + 80, kind)], root + 128) for kind in CLASS_IDS[extension]]
    return first_of(found)


def in_case_of(buf: bytes, text: bytes, place: int) -> bytes:
    """The text in the case that the buffer has it in, as far as the buffer goes."""
    known = buf[place:place + len(text)]
    return known + text[len(known):] if text.lower().startswith(known.lower()) else text


def needs_html(_: str, buf: bytes) -> Needs | None:
    place = after_white(buf)
    return first_of(
        needs_texts(buf, [(place, in_case_of(buf, tag, place)), (place + len(tag), end)])
        for tag in TAGS
        for end in (b">", b" ")
    )


def needs_xml(_: str, buf: bytes) -> Needs | None:
    place = after_marks(buf)
    found = needs_texts(buf, [(place, in_case_of(buf, b"<?xml", place))])
    # The buffer ends in a mark that has begun.
    marked = (needs_texts(buf, [(place, mark), (place + len(mark), b"<?xml")]) for mark in MARKS)
    return found or first_of(marked)


# The rows.

Accepts = Callable[[str, bytes], bool]
WhatNeeds = Callable[[str, bytes], "Needs | None"]

ALTERNATIVES = dict(map(signature_of, FIXED.strip().splitlines()))
KINDS: dict[str, tuple[Accepts, WhatNeeds]] = {
    **dict.fromkeys(ALTERNATIVES, (is_fixed, needs_fixed)),
    **dict.fromkeys(MATROSKA, (is_matroska, needs_matroska)),
    **dict.fromkeys(FRAMED, (is_framed, needs_framed)),
    **dict.fromkeys(BRANDS, (is_brand, needs_brand)),
    **dict.fromkeys(FOLDERS, (is_office, needs_office)),
    **dict.fromkeys(CLASS_IDS, (is_compound, needs_compound)),
    "pdf": (is_pdf, needs_pdf),
    "html": (is_html, needs_html),
    "xml": (is_xml, needs_xml),
}


def decode(tokens: str) -> bytes:
    """The bytes of hexadecimal tokens, each with a count of repetitions after `*` if it has one."""
    if tokens == "-":
        return b""
    parts = (token.partition("*") for token in tokens.split())
    return b"".join(bytes.fromhex(digits) * int(count or 1) for digits, _, count in parts)


def fields_of(name: str) -> list[list[str]]:
    with open(f"{DATA}/{name}", encoding="ascii") as lines:
        return [line.rstrip("\n").split("\t") for line in lines]


ROW_NAMES = [f"{group}/{extension}" for group, _, extension, _ in fields_of("rows.tsv")]
EXTENSIONS = [extension for _, _, extension, _ in fields_of("rows.tsv")]
SAMPLES = [None if sample == "none" else decode(sample) for _, _, _, sample in fields_of("rows.tsv")]
if without := [name for name, extension in zip(ROW_NAMES, EXTENSIONS) if extension not in KINDS]:
    sys.exit(f"vectors/model/decided.py: no signature for {', '.join(without)} of vectors/rows.tsv")
if unknown := [extension for extension in KINDS if extension not in EXTENSIONS]:
    sys.exit(f"vectors/model/decided.py: no row of vectors/rows.tsv for the signature of {', '.join(unknown)}")


def accepts(row: int, buf) -> bool:
    return KINDS[EXTENSIONS[row]][0](EXTENSIONS[row], buf)


def needs(row: int, buf: bytes) -> Needs | None:
    """What more bytes have to hold so that the row accepts, or none if no bytes can make it."""
    return KINDS[EXTENSIONS[row]][1](EXTENSIONS[row], buf)


def may_become(row: int, buf: bytes) -> bool:
    """Whether the row accepts the buffer with some bytes after it, perhaps none."""
    return needs(row, buf) is not None


@functools.cache
def led_rows(first: bytes) -> list[int]:
    """The rows but those whose signature asks for another first byte."""
    return [row for row, extension in enumerate(EXTENSIONS) if extension not in ALTERNATIVES or led_by(extension, first)]


def position(buf) -> int | None:
    """The first row that accepts."""
    return next((row for row in led_rows(buf[:1]) if accepts(row, buf)), None)


def earlier_rows(buf: bytes) -> range:
    """The rows that come before the answer, all if there is none."""
    found = position(buf)
    return range(len(EXTENSIONS) if found is None else found)


def is_decided(buf: bytes) -> bool:
    """Whether no bytes after the buffer change its answer. Signatures last, so that only an earlier row could."""
    return not any(may_become(row, buf) for row in earlier_rows(buf))


def witness(row: int, buf: bytes) -> list[tuple[bytes, int]] | None:
    """Bytes that make the row accept if they stand after the buffer, as pieces with counts: some fit no memory."""
    wanted = needs(row, buf)
    if wanted is None:
        return None
    runs, length = [], len(buf)
    for place, text in [*sorted(wanted.texts), (wanted.least, b"")]:
        runs += [(b"\0", max(place - length, 0)), (text[max(length - place, 0):], 1)]
        length = max(place + len(text), length)
    return Runs(runs).runs


def grown(buf: bytes, more: list[tuple[bytes, int]]):
    """The buffer with these bytes after it, in memory if they are at most a million."""
    if len(Runs(more)) > LONGEST:
        return Runs([(buf, 1), *more])
    return buf + b"".join(piece * count for piece, count in more)


# The notation of the data.


def encode_bytes(buf: bytes) -> list[str]:
    """Tokens, of which eight or more times the same byte are one."""
    parts = re.finditer(rb"(.)\1{7,}|(?:(?!(.)\2{7}).)+", buf, re.DOTALL)
    return [f"{part[1].hex()}*{len(part[0])}".upper() if part[1] else part[0].hex().upper() for part in parts]


def encode(runs: Iterable[tuple[bytes, int]]) -> str:
    tokens, joined = [], b""
    for piece, count in runs:
        if count <= LONGEST:
            joined += piece * count
        else:
            tokens += [*encode_bytes(joined), f"{piece.hex().upper()}*{count}"]
            joined = b""
    return " ".join([*tokens, *encode_bytes(joined)]) or "-"


def main(tokens: str) -> None:
    buf = decode(tokens)
    found = position(buf)
    print(f"{'-' if found is None else ROW_NAMES[found]}, {'decided' if is_decided(buf) else 'not decided'}")
    for row, name in enumerate(ROW_NAMES):
        more = witness(row, buf)
        if more is not None:
            print(f"{name}: {encode(more)}")


if __name__ == "__main__":
    main(" ".join(sys.argv[1:]) or "-")
