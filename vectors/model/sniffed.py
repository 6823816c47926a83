#!/usr/bin/env python3
"""Compares what mime_types and mime_sniff say of generated texts and buffers with a model of the MIME Sniffing Standard, which
was written from its rules and shares no code with them.

usage: sniffed.py [COUNT] [SEED]. It asks the library for C by its binding for Python. COUNT texts and COUNT buffers for each
type that is told, 20,000 if left out, are made from a seed: near the rows, in boxes, elements and frames, or of any
bytes."""
import collections
import os
import random
import struct
import sys

TOP = os.path.dirname(os.path.dirname(os.path.dirname(os.path.abspath(__file__))))
sys.path[:0] = [f"{TOP}/examples", f"{TOP}/bindings/python/src"]
import support

support.shared_library()
from infer.mimesniff import MimeType, compute

SEED = 20261128
WHITE, ENDS = b"\t\n\x0c\r ", b" >"
TOKENS = b"!#$%&'*+-.^_`|~0123456789ABCDEFGHIJKLMNOPQRSTUVWXYZabcdefghijklmnopqrstuvwxyz"
BLANKS = b"\t\n\r "
OCTETS, PLAIN = "application/octet-stream", "text/plain"
TAGS = b"<!DOCTYPE HTML|<HTML|<HEAD|<SCRIPT|<IFRAME|<H1|<DIV|<FONT|<TABLE|<A|<STYLE|<TITLE|<B|<BODY|<BR|<P|<!--".split(b"|")
# What stands in a buffer, where a dot may be any byte, and the type.
TEXTS = [(b"%!PS-Adobe-", "application/postscript"), (b"\xfe\xff..", PLAIN), (b"\xff\xfe..", PLAIN), (b"\xef\xbb\xbf.", PLAIN)]
IMAGES = [
    (b"\0\0\1\0", "image/x-icon"), (b"\0\0\2\0", "image/x-icon"), (b"BM", "image/bmp"), (b"GIF87a", "image/gif"), (b"GIF89a", "image/gif"),
    (b"RIFF....WEBPVP", "image/webp"), (b"\x89PNG\r\n\x1a\n", "image/png"), (b"\xff\xd8\xff", "image/jpeg"),
]
SOUNDS = [
    (b"FORM....AIFF", "audio/aiff"), (b"ID3", "audio/mpeg"), (b"OggS\0", "application/ogg"), (b"MThd\0\0\0\6", "audio/midi"),
    (b"RIFF....AVI ", "video/avi"), (b"RIFF....WAVE", "audio/wave"),
]
ARCHIVES = [(b"\x1f\x8b\x08", "application/x-gzip"), (b"PK\3\4", "application/zip"), (b"Rar \x1a\7\0", "application/x-rar-compressed")]
RATES = {True: [0, 32, 40, 48, 56, 64, 80, 96, 112, 128, 160, 192, 224, 256, 320], False: [0, 8, 16, 24, 32, 40, 48, 56, 64, 80, 96, 112, 128, 144, 160]}
TOLD = ["*/*", "image/png", "image/svg+xml", "video/mp4", "text/plain", "text/html", "application/pdf"]


def is_token(text):
    return bool(text) and all(byte in TOKENS for byte in text)


def quoted(text, at):
    """What a text in quotes says, of which the first stands there, and the place behind it."""
    value, at = bytearray(), at + 1
    while at < len(text) and text[at] != ord('"'):
        if text[at] == ord("\\") and at + 1 < len(text):
            at += 1
        value.append(text[at])
        at += 1
    return bytes(value), at + 1


def written(tail):
    """The names and values that the segments write."""
    at = 0
    while at < len(tail):
        while at < len(tail) and tail[at] in BLANKS:
            at += 1
        end = at
        while end < len(tail) and tail[end] not in b";=":
            end += 1
        name, at = tail[at:end].lower(), end + 1
        if end >= len(tail) or tail[end] == ord(";"):
            continue
        if at < len(tail) and tail[at] == ord('"'):
            value, at = quoted(tail, at)
            yield name, value
            at = (tail + b";").find(b";", min(at, len(tail))) + 1
            continue
        value, _, _ = tail[at:].partition(b";")
        at += len(value) + 1
        if value.rstrip(BLANKS):
            yield name, value.rstrip(BLANKS)


def serialized(text):
    """The text of the MIME type that a text says, which is empty if it says none."""
    kind, slash, rest = text.strip(BLANKS).partition(b"/")
    subtype, _, tail = rest.partition(b";")
    if not (slash and is_token(kind) and is_token(subtype.rstrip(BLANKS))):
        return b""
    kept = {}
    for name, value in written(tail):
        if is_token(name) and all(byte == 9 or (byte >= 0x20 and byte != 0x7F) for byte in value):
            kept.setdefault(name, value)
    out = kind.lower() + b"/" + subtype.rstrip(BLANKS).lower()
    for name, value in kept.items():
        shown = value if is_token(value) else b'"' + value.replace(b"\\", b"\\\\").replace(b'"', b'\\"') + b'"'
        out += b";" + name + b"=" + shown
    return out


def first(rows, buf):
    fits = lambda row: len(buf) >= len(row) and all(a in (b, ord(".")) for a, b in zip(row, buf))
    return next((mime_type for row, mime_type in rows if fits(row)), None)


def scriptable(buf):
    text = buf.lstrip(WHITE)
    for tag in TAGS:
        if text[: len(tag)].upper() == tag and text[len(tag) : len(tag) + 1] and text[len(tag)] in ENDS:
            return "text/html"
    return "text/xml" if text.startswith(b"<?xml") else "application/pdf" if buf.startswith(b"%PDF-") else None


def is_mp4(buf):
    if len(buf) < 12 or buf[4:8] != b"ftyp":
        return False
    size = int.from_bytes(buf[:4], "big")
    if size > len(buf) or size % 4:
        return False
    return any(buf[at : at + 3] == b"mp4" for at in [8, *range(16, size, 4)])


def is_webm(buf):
    if not buf.startswith(b"\x1aE\xdf\xa3"):
        return False
    at = 4
    while at < 38:
        if buf[at : at + 2] != b"\x42\x82" or at + 2 >= len(buf):
            at += 1
            continue
        begin = at + 2 + min(8, 9 - buf[at + 2].bit_length())
        name = buf[begin:].lstrip(b"\0")
        if name.startswith(b"webm") and len(name) > 4:
            return True
        at = begin + 1
    return False


def is_header(buf, at):
    it = buf[at : at + 4]
    return len(it) == 4 and it[0] == 0xFF and it[1] & 0xE6 == 0xE2 and it[2] >> 4 != 15 and it[2] >> 2 & 3 != 3


def is_mp3(buf):
    if not is_header(buf, 0):
        return False
    version, is_first = buf[1] >> 3 & 3, bool(buf[1] & 8)
    rate = [44100, 48000, 32000][buf[2] >> 2 & 3] // (4 if version == 0 else 2 if version == 2 else 1)
    size = RATES[is_first][buf[2] >> 4] * 1000 * (144 if is_first else 72) // rate + (buf[2] >> 1 & 1)
    return size >= 4 and is_header(buf, size)


def media(buf):
    others = ((is_mp4, "video/mp4"), (is_webm, "video/webm"), (is_mp3, "audio/mpeg"))
    return first(SOUNDS, buf) or next((mime_type for holds, mime_type in others if holds(buf)), None)


def is_binary(buf):
    return any(byte < 9 or byte == 0x0B or 0x0E <= byte < 0x1B or 0x1C <= byte < 0x20 for byte in buf)


def computed(told, no_sniff, is_old, buf):
    """The type that is computed, or none if the one that was told stays."""
    buf = buf[:1445]
    if told == "*/*":
        found = (None if no_sniff else scriptable(buf)) or first(TEXTS, buf) or first(IMAGES, buf) or media(buf) or first(ARCHIVES, buf)
        return found or (OCTETS if is_binary(buf) else PLAIN)
    if no_sniff or told.endswith("+xml") or told == "text/html":
        return None
    if told == PLAIN and is_old:
        return PLAIN if buf.startswith((b"\xfe\xff", b"\xff\xfe", b"\xef\xbb\xbf")) or not is_binary(buf) else OCTETS
    return first(IMAGES, buf) if told.startswith("image/") else media(buf) if told.startswith("video/") else None


def frame(rng):
    head = bytes([0xFF, rng.choice([0xFB, 0xFA, 0xF3, 0xE3, 0xF9, 0xFF]), rng.randrange(256), 0])
    length = rng.choice([417, 418, 261, 104, 1044, 1441, 24, rng.randrange(1500)])
    return head + bytes(max(0, length - 4)) + head[: rng.choice([2, 3, 4, 4, 4])]


def element(rng):
    size = rng.choice([b"\x84", b"\x40\x07", b"\x01" + bytes(7), b"\x00" * 8, b""])
    front = bytes(rng.choices(b"\x42\x82\x00\x86", k=rng.randrange(34)))
    return b"\x1aE\xdf\xa3" + front + b"\x42\x82" + size + bytes(rng.randrange(3)) + rng.choice([b"webm", b"matroska", b"web"]) + rng.choice([b"", b"\0"])


def box(rng):
    brands = b"".join(rng.choice([b"mp41", b"isom", b"mp4", b"Mp42"]).ljust(4, b"\0") for _ in range(rng.randrange(1, 8)))
    size = rng.choice([len(brands) + 8] * 4 + [*range(9), 0xFFFFFFFF, 1444, 1448])
    return struct.pack(">I", size) + b"ftyp" + brands + bytes(rng.choice([0, 0, 1, 1436]))


def buffer(rng):
    kind = rng.random()
    if kind < 0.3:
        return rng.choice([box, element, frame])(rng)
    if kind < 0.4:
        return rng.randbytes(rng.randrange(30))
    row = rng.choice([*((tag + b">", "") for tag in TAGS), (b"<?xml", ""), (b"%PDF-", ""), *TEXTS, *IMAGES, *SOUNDS, *ARCHIVES])[0]
    buf = bytearray(row.replace(b".", bytes([rng.randrange(256)])))
    if kind < 0.6:
        buf = buf.lower()
    if kind > 0.8:
        buf[rng.randrange(len(buf))] = rng.choice([0, 9, 0x1B, 0x20, 0x3C, 0x7F, 0xFF, rng.randrange(256)])
    del buf[rng.choice([len(buf)] * 4 + [len(buf) - 1, rng.randrange(len(buf) + 1)]) :]
    front = rng.choice([b"", b"", bytes(rng.choices(WHITE, k=rng.randrange(4))), b" " * (1446 - len(buf) - rng.randrange(3))])
    return front + buf + bytes(rng.choices(b"\0\1\t >ab\x7f\xff", k=rng.randrange(3)))


def text(rng):
    parts = [b"a/b", b"Text/HTML", b";", b"; ", b"charset=", b"a=", b"=", b'"', b"\\", b"x", b" ", b"\n", b"\x0c", b"\0", b"\x7f", b"\xe9", b"/", b'"q"', b","]
    return rng.choice([b"", b"a/b;", b"text/html;charset=", b' a/b ;c="']) + b"".join(rng.choices(parts, k=rng.randrange(10)))


def main(count="20000", seed=SEED):
    rng, counted, wrong = random.Random(int(seed)), collections.Counter(), []

    def compare(asked, given, answer, wanted):
        counted[answer] += 1
        if answer != wanted:
            wrong.append((asked, given, answer, wanted))

    for _ in range(int(count)):
        given = text(rng)
        compare("parse", given, str(MimeType.parse(given) or ""), serialized(given).decode("latin-1"))
    for told in TOLD:
        for nosniff, old in ((False, False), (True, False), (False, True)):
            for _ in range(int(count) // 3):
                given = buffer(rng)
                compare((told, nosniff, old), given, compute(given, told, nosniff, old), computed(told, nosniff, old, given) or told)
    for asked, given, answer, wanted in wrong[:20]:
        print(f"sniffed.py: {asked}: {given[:60]!r}: {answer!r}, and not {wanted!r}")
    print(f"{sum(counted.values()) - len(wrong)} passed, {len(wrong)} failed")
    return 1 if wrong else 0


if __name__ == "__main__":
    sys.exit(main(*sys.argv[1:]))
