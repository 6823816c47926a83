"""The buffers that are counted: samples of each type, long ones, ones that grow, and ones of words that loops pass over."""
import itertools
import json
import struct

SEED = 0x2545F4914F6CDD1D
TEXT = b"The quick brown fox jumps over the lazy dog, and nobody asks what kind of file this is. "
OFFICE = b"PK\x03\x04" + bytes(26) + b"[Content_Types].xml"
HEADER = b"PK\x03\x04"
# Of each six bytes the first and the fourth are those of a header, as near to each other as can be.
NEAR_MISSES = HEADER[:1] * 3 + HEADER[3:] * 3
# After one of these a search has learned nothing, and looks at each near miss.
MISSED_BY_ONE = HEADER[:2] + b"x" + HEADER[3:]
UNITS = [
    ("empty skippable frames, the densest there are", b"\x50\x2A\x4D\x18\x00\x00\x00\x00"),
    ("spaces", b" "),
    ("white space of five kinds in turn", b" \t\n\r\x0C"),
    ("byte order marks FE FF", b"\xFE\xFF"),
    ("byte order marks FE FF and FF FE in turn", b"\xFE\xFF\xFF\xFE"),
    ("marks FF FE, each sixteenth FE FF", b"\xFF\xFE" * 15 + b"\xFE\xFF"),
    ("\"PKPKPK\"", b"PK"),
    ("\"%P%P%P\"", b"%P"),
    ("boxes \"ftyp\" that state a length of FF FF FF FF", b"\xFF\xFF\xFF\xFFftyp"),
]
STREAMS = [
    ("zeros", b"\x00", b"\x00"),
    ("a JPEG image", b"\xFF\xD8\xFF", b"\x00"),
    ("spaces", b" ", b" "),
    ("a ZIP archive that begins like an Office document", OFFICE, b"ab"),
]
PIECES = [("1 byte", 1), ("64 bytes", 64), ("4096 bytes", 4096), ("one piece", 1 << 20)]
LENGTHS = [("1 KB", 1 << 10), ("8 KB", 1 << 13), ("64 KB", 1 << 16), ("1 MB", 1 << 20)]


def random_bytes(count):
    """Bytes of the generator xorshift64, the lowest of each state, from the seed above."""
    state, out = SEED, bytearray()
    for _ in range(count):
        state ^= (state << 13) & (2**64 - 1)
        state ^= state >> 7
        state ^= (state << 17) & (2**64 - 1)
        out.append(state & 0xFF)
    return bytes(out)


def office(size, folder):
    """A document with the folder at its third header and "word/" at its fourth, behind the longest searches."""
    buf = bytearray(size)
    second = 49 + 5990
    third = second + 30 + 5990
    fourth = third + 56 + 5990
    for place, text in [(0, OFFICE), (second, HEADER), (third, HEADER), (third + 30, folder), (fourth, HEADER), (fourth + 30, b"word/")]:
        buf[place : place + len(text)] = text
    return bytes(buf)


def missed_headers(length):
    """An archive that begins like an Office document, whose headers stand after near misses as late as a search goes."""
    buf = OFFICE
    for least in (30, 56, 56):
        buf += (MISSED_BY_ONE + NEAR_MISSES * 1000)[: 6000 - len(HEADER)] + HEADER + bytes(least - len(HEADER))
    return (buf + NEAR_MISSES * (length // 6))[:length]


def long():
    return [
        ("8192 random bytes", random_bytes(8192)),
        ("8192 spaces", b" " * 8192),
        ("8192 zeros", bytes(8192)),
        ("8192 bytes of English-like text", (TEXT * 100)[:8192]),
        ("Office document of 40 KB, the third header decides", office(40960, b"xl/")),
        ("Office document of 40 KB, the fourth header decides", office(40960, b"")),
    ]


def asked_by_many():
    """What the evidence of the wider answer takes most for: many rows ask for a program, or for a root element."""
    return [
        ('8192 bytes of a first line "#!" that has no end', (b"#! /bin/" + b"a/" * 4096)[:8192]),
        ("8192 bytes of an XML prolog and comments", (b'<?xml version="1.0"?>' + b"<!-- -->" * 1100)[:8192]),
    ]


def headers():
    """Buffers of 512 bytes, of which a content type is told."""
    begun = lambda front, rest=TEXT * 100: (front + rest)[:512]
    return [
        ("512 bytes of English-like text", begun(b"")),
        ("512 bytes of such text after \"R\", with which RIFF and RAR begin", begun(b"R")),
        ("512 bytes of such text after spaces", begun(b" " * 64)),
        ("512 bytes of HTML that begins with \"<p>\"", begun(b"<p>")),
        ("512 bytes of markup that begins with no known tag", begun(b"<x>")),
        ("512 spaces", b" " * 512),
        ("512 zeros", bytes(512)),
        ("a PNG image", begun(b"\x89PNG\r\n\x1a\n", bytes(512))),
    ]


def told():
    """Buffers of 512 bytes, and the type that a browser was told."""
    named = dict(headers())
    png, text = named["a PNG image"], named["512 bytes of English-like text"]
    return [
        ("a PNG image, told as one", "image/png", png),
        ("a PNG image, told as a JPEG image", "image/jpeg", png),
        ("a PNG image, told so in capitals", "IMAGE/JPEG", png),
        ("a WebP image, told as a PNG image", "image/png", (b"RIFF\0\0\0\0WEBPVP8 " + bytes(512))[:512]),
        ("a text, told as an image", "image/png", text),
        ("a text, told as HTML", "text/html", text),
        ("a text, told as PDF", "application/pdf", text),
        ("a text, told as nothing that says more", "*/*", text),
    ]


def mime_types():
    """Texts of MIME types."""
    long = b"x" * 1000
    return [
        ("`text/html`", b"text/html"), ("`text/html; charset=utf-8`", b"text/html; charset=utf-8"),
        ("that of a document of Word", b"application/vnd.openxmlformats-officedocument.wordprocessingml.document"),
        ("2001 small letters", long + b"/" + long), ("2001 capital letters", (long + b"/" + long).upper()),
        ("1000 parameters", b"a/b" + b";c=d" * 1000),
    ]


def growing():
    """The kinds of buffers that grow, each with its buffers of every length."""
    kinds = [(name, [unit * (length // len(unit)) for _, length in LENGTHS]) for name, unit in UNITS]
    return [*kinds, ("a whole box \"ftyp\" of brand mif1, with non-matching brands", [box(b"mif1", b"iso9", length) for _, length in LENGTHS])]


def box(major, brand, length):
    """A box "ftyp" of that length and brand, with these compatible brands."""
    return struct.pack(">I", length) + b"ftyp" + major + bytes(4) + brand * (length // 4 - 4)


def single(sample_of):
    """Buffers that each take one path of the code, with the call that is counted."""
    padded = lambda begin: begin.ljust(8192, b" ")
    return [
        ("`position`, PNG sample", "position", sample_of("png")),
        ("`position`, JPEG sample", "position", sample_of("jpg")),
        ("`position`, a ZIP archive of 8192 bytes", "position", padded(HEADER + bytes(26) + b"notes.txt")),
        ("`position`, a PDF that begins with \"%PDF\"", "position", padded(b"%PDF-1.7\n")),
        ("`position`, Matroska sample", "position", sample_of("mkv")),
        ("`position`, WebM sample", "position", sample_of("webm")),
        ("`is_video`, Matroska sample", "is_video", sample_of("mkv")),
        ("`is_video`, WebM sample", "is_video", sample_of("webm")),
        ("`position`, an MP4 whose brand is the last of the list", "position", b"\x00\x00\x00\x18ftypF4P \x00\x00\x00\x00isomF4P "),
        ("`position`, an M4A", "position", b"\x00\x00\x00\x18ftypM4A \x00\x00\x00\x00M4A isom"),
        ("`position`, a page of HTML that begins with \"<p>\"", "position", padded(b"<p>A page.</p>")),
        ("`is_supported` with \"jpg\"", "is_supported", b"jpg"),
        ("`is_supported` with \"txt\", which no row has", "is_supported", b"txt"),
        ("`is_supported` with \"wasm\"", "is_supported", b"wasm"),
        ("`is_mime_supported` with \"image/jpeg\"", "is_mime_supported", b"image/jpeg"),
        ("`is_mime_supported` with \"text/plain\", which no row has", "is_mime_supported", b"text/plain"),
    ]


def looked_into():
    """Buffers that a further row looks into."""
    items = [{"id": k, "name": f"item number {k}", "tags": ["a", "bc", "def"], "price": k * 1.25, "ok": k % 2 == 0} for k in range(200)]
    return [
        ("8192 bytes of JSON", json.dumps(items)[:8192].encode()),
        ("8192 bytes of UTF-8 with characters above 7F", ("Grüße aus München, schöne Straße. " * 400).encode()[:8192]),
        ("SVG of 8 KB", b'<?xml version="1.0"?>\n<!-- drawn by hand -->\n<svg width="10" height="10">' + b"<g/>" * 2022),
        ('8192 bytes of settings after "# "', b"# These are the settings.\n" + b"name = value\n" * 628),
        ("a script of Python, 34 bytes", b"#!/usr/bin/env python3\nimport sys\n"),
        ("a script of `sh`, 17 bytes", b"#!/bin/sh\nset -e\n"),
    ]


def pushed_bytewise():
    """Buffers of 8192 bytes that cost a sniffer most if they come a byte at a time."""
    names = ["spaces", "empty skippable frames, the densest there are", "byte order marks FE FF", "byte order marks FE FF and FF FE in turn", "marks FF FE, each sixteenth FE FF"]
    buffers = [(name, dict(UNITS)[name] * (8192 // len(dict(UNITS)[name]))) for name in names]
    return [*buffers, ("an archive of Office, with near misses of its headers", (OFFICE + MISSED_BY_ONE + NEAR_MISSES * 1400)[:8192])]


def frame(first, size):
    return bytes([first]) + b"\x2A\x4D\x18" + struct.pack("<I", size) + bytes(size)


# Words that a loop passes over.
LOOPED = {
    "white space": [b" ", b"\t", b"\n", b"\x0C", b"\r"],
    "byte order marks": [b"\xFE\xFF", b"\xFF\xFE", b"\xEF\xBB\xBF"],
    "skippable frames": [frame(first, size) for first in (0x50, 0x51, 0x5F) for size in (0, 1, 2, 8)],
    "pairs of letters": [b"%P", b"PK", b"%PD", b"PK\x03", b"B\x82"],
}
MISSED = {
    "near misses of a header of Office": [(OFFICE, HEADER)],
    "near misses of \"%PDF\"": [(b"x", b"%PDF"), (b" ", b"%PDF")],
    "near misses of Matroska's kinds": [(b"\x1aE\xdf\xa3", b"webm"), (b"\x1aE\xdf\xa3", b"matr")],
}
MAJORS = (b"mif1", b"msf1", b"heic", b"avif", b"isom")
BRANDS = (b"iso9", b"heic", b"avif", b"ifav", b"xavi", b"ihei", b"avia", b"avis", b"heac", b"hevc", b"avxf", b"avi ")


def looped(length):
    """Buffers of such words, each with its kind and what it is: each word alone, each two in turn, and one among many; texts
    that a search takes for its own at first; and boxes."""
    for kind, words in LOOPED.items():
        for one, other in itertools.product(words, words):
            for begin in (b"", b" ") if kind == "byte order marks" else (b"",):
                for many in (1, 3, 15):
                    unit = one * many + other
                    yield kind, f"{begin.hex()} {many} of {one[:9].hex()}, 1 of {other[:9].hex()}", begin + unit * (length // len(unit))
    for kind, texts in MISSED.items():
        for begin, text in texts:
            # The text with some of its bytes changed.
            for kept in itertools.product((0, 1), repeat=4):
                unit = bytes(byte if is_kept else 0x78 for byte, is_kept in zip(text, kept))
                if unit != text:
                    yield kind, f"{unit.hex()} after {begin[:4].hex()}", begin + unit * (length // 4)
            dense = text[:1] * 3 + text[3:] * 3
            yield kind, f"{dense.hex()} after {begin[:4].hex()}", begin + text[:2] + b"x" + text[3:] + dense * (length // 6)
    yield "near misses of a header of Office", "each header late", missed_headers(length)
    for major, brand in itertools.product(MAJORS, BRANDS):
        yield "a whole box \"ftyp\"", f"major brand {major.decode()} and brands {brand.decode()}", box(major, brand, length)


# What the looks inside pass over, each with how the buffer begins and the words that follow.
INSIDE = {
    "JSON": (b"[", [b"[", b"[],", b"{", b'{"":', b'"', b'"",', b"\\u0000", b'"\\n",', b"1", b"1,", b"1.5e+3,", b"-0,", b"true,", b"null,", b" ", b"\n", "é".encode()]),
    "JSON lines": (b"[]\n", [b"[]\n", b"{}\n", b"[[]]\n", b'{"a":1}\n', b" \n", b"[] \n"]),
    "markup": (b"<?xml ?>", [b"<?", b"<??>", b"<!---->", b"<!--", b"-->", b"--", b"?>", b"?", b" ", b"\n", b"<!DOCTYPE a>", b"<a", b"<a:", b">", b"<"]),
    "a tag in which a text is searched": (b"<?xml ?><html ", [b"http://www.w3.org/1999/xhtm", b"h", b"hl", b"http", b"x", b" "]),
    "a script's first line": (b"#!", [b"/", b" ", b"\t", b"a", b"a/", b"env ", b"-a ", b"a=1 ", b"=", b"1", b"."]),
    "ZIP archives": (HEADER, [b"P", b"PK", b"PK\x03", HEADER, HEADER + bytes(26) + b"xl", HEADER + bytes(26) + b"word/", HEADER + bytes(26) + b"_rels/", b"\xff\xff"]),
    "TIFF images": (b"II*\0\x08\0\0\0\xff\xff", [b"\0", b"\x12\xc6", b"\x12", bytes(12)]),
    "PNG images": (b"\x89PNG\r\n\x1a\n", [bytes(12), b"\0\0\0\0IHDR" + bytes(4), b"\0\0\0\1tEXt" + bytes(5)]),
    "texts": (b"", [b"a", b"\x1b", b"\x7f", "é".encode(), b"\r\n"]),
    'texts after "#"': (b"#", [b"\n", b"\n[", b"\nv", b"\nmsgid", b"#", b"a"]),
    "an object before its first key": (b"{", [b" ", b"\n", b"\t", b'"']),
    "subtitles": (b"1\n", [b"1", b"00:00:01,000 --> ", b"\n", b":", b" "]),
}


def inside(length):
    """Buffers of such words, each with its kind and what it is: each word alone, and each among some of another."""
    for kind, (begin, words) in INSIDE.items():
        for one, other in itertools.product(words, words):
            for many in (1, 15):
                unit = one * many + other
                yield kind, f"{many} of {one[:9].hex()}, 1 of {other[:9].hex()}", begin + unit * (length // len(unit))
