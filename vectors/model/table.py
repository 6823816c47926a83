#!/usr/bin/env python3
"""Prints what more bytes can change of some thousand buffers, by the model of `decided.py`.

usage: table.py [samples | count | first | far]..

With `samples` it prints the lines of the rows' samples alone, which are the first, and with `count` how many lines
there are. With `first` it prints for each first byte the numbers of the rows that allow it, and with `far` those of the
rows that more than 1024 bytes can decide. A blank line stands between what several words print."""
from __future__ import annotations

import functools
import itertools
import sys
from collections.abc import Callable, Iterator

from attack import IDS, PADDED, Attack, texts_of
from decided import (
    ALTERNATIVES, COMPOUND, EBML, EXTENSIONS, FOLDERS, FRAMED, KINDS, LONGEST, MARKS, MATROSKA, NAMES, ROW_NAMES,
    SAMPLES, SKIPPABLE, TAGS, VERSIONS, ZIP, Runs, decode, earlier_rows, encode, fields_of, is_fixed, is_matroska,
    is_pdf, may_become, position, witness,
)

ROWS = range(len(EXTENSIONS))
RANDOM_BUFFERS = 300


def least_that(holds: Callable[[int], bool], length: int) -> int | None:
    """The least number up to `length` for which it holds, if for every greater one it holds too."""
    if not holds(length):
        return None
    low, high = -1, length
    while high - low > 1:
        middle = (low + high) // 2
        low, high = (low, middle) if holds(middle) else (middle, high)
    return high


@functools.cache
def allowed_by(begun: bytes) -> set[int]:
    """The rows that a buffer which begins so can still become."""
    return {row for row in ROWS if may_become(row, begun)}


def outs_of_reach(buf: bytes) -> Iterator[int | None]:
    """For each row the least number of the buffer's bytes after which no bytes bring it."""
    for row in ROWS:
        # Most rows end at the first byte or the second.
        begun = next((length for length in range(min(3, len(buf) + 1)) if row not in allowed_by(buf[:length])), None)
        yield begun if begun is not None else least_that(lambda length: not may_become(row, buf[:length]), len(buf))


def change_of(buf: bytes) -> str:
    """Bytes that change the answer, of those that the model knows the fewest, or `far` if they are too many."""
    found = [Runs(more) for row in earlier_rows(buf) if (more := witness(row, buf))]
    fewest = min(found, key=len)
    return encode(fewest.runs) if len(fewest) <= LONGEST else "far"


def joined(numbers: list[str]) -> str:
    groups = ((number, len(list(same))) for number, same in itertools.groupby(numbers))
    return " ".join(f"{number}*{count}" if count > 1 else number for number, count in groups)


def line_of(name: str, tokens: str) -> str:
    buf = decode(tokens)
    outs = [*outs_of_reach(buf)]

    def is_decided_after(length: int) -> bool:
        found = position(buf[:length])
        before = outs[:len(outs) if found is None else found]
        return all(out is not None and out <= length for out in before)

    decided, found = least_that(is_decided_after, len(buf)), position(buf)
    undecided = buf if decided is None else buf[:decided - 1]
    return "\t".join([
        name,
        "-" if found is None else ROW_NAMES[found],
        "-" if decided is None else str(decided),
        joined(["-" if out is None else str(out) for out in outs]),
        tokens,
        change_of(undecided),
    ])


# Buffers at the edges.


def near_misses() -> Iterator[tuple[str, bytes]]:
    """What an alternative asks, with the first or the last byte of one of its texts changed."""
    for extension, alternatives in ALTERNATIVES.items():
        for least, asked in alternatives[:4]:
            whole = bytearray(least)
            for place, text in texts_of(asked):
                whole[place:place + len(text)] = text
            for place in sorted({place for start, text in texts_of(asked) for place in (start, start + len(text) - 1)}):
                if len(asked[place]) < 128:
                    missed = whole[:place] + bytes([whole[place] ^ 0x20]) + whole[place + 1:]
                    yield extension, bytes(missed)
                    yield extension, bytes(missed[:place])


def windows() -> Iterator[tuple[str, bytes]]:
    for place, known in itertools.product((0, 1, 1015, 1018, 1019, 1020, 1021, 1022, 1023), (1, 2, 3, 4)):
        yield "pdf", b"x" * place + b"%PDF"[:known] + b"x" * 6
    for extension, kind in MATROSKA.items():
        last = 256 - len(kind)
        places, counts = (0, 4, 5, last - 1, last, last + 1, 255), (1, 3, len(kind) - 1, len(kind))
        for place, known in itertools.product(places, counts):
            yield extension, EBML[:place] + b"x" * (place - 4) + kind[:known] + b"x"
            yield extension, (EBML[:place] + b"x" * (place - 4) + kind[:known]).ljust(260, b"x")


def frames() -> Iterator[tuple[str, bytes]]:
    endings = [
        *FRAMED.values(), b"\x28\xb5\x2e", b"\x04\x22\x4d\x19", b"\x50\x2a\x4d\x19", b"\x60\x2a\x4d\x18",
        b"\x5f\x2a\x4c", b"",
    ]
    for lengths in [(), (0,), (1,), (0, 3), (300, 0), (70_000,), (0xFFFFFFFF,)]:
        begun = b""
        for first, length in zip(itertools.cycle(SKIPPABLE[::-5]), lengths):
            begun += first + length.to_bytes(4, "little") + bytes(length if length < 0xFFFFFFFF else 40)
        for ending in endings:
            yield "framed", begun + ending
    for cut in range(1, 9):
        yield "framed", (SKIPPABLE[7] + b"\x02\x01\x00\x00")[:cut]


def boxes() -> Iterator[tuple[str, bytes]]:
    majors = [b"heic", b"heix", b"mif1", b"msf1", b"avif", b"avis", b"isom", b"heiz", b"m", b"av"]
    others = [
        b"isom" * 12, b"isom" * 2 + b"heic" + b"isom" * 5, b"isom" * 3 + b"avis", b"isomheavif", b"iavifheic",
        b"he", b"",
    ]
    combined = itertools.product((0, 15, 19, 20, 24, 31, 32, 64, 65, 0xFFFFFFFF), majors, others)
    # A third of them: three has no factor in common with the numbers of sizes, brands and others.
    for number, major, other in itertools.islice(combined, 0, None, 3):
        yield "box", number.to_bytes(4, "big") + b"ftyp" + major + (b"\0\0\0\0" + other if len(major) == 4 else b"")
    for cut in range(1, 12):
        yield "box", (b"\0\0\0\x20ftypmif1")[:cut]
        yield "box", (b"\0\x10\0\0ftypavis")[:cut]


def archive(number: int, name: bytes, *parts: tuple[int, bytes]) -> bytes:
    """A first entry, and headers so far from the beginning of their search, each with a name."""
    buf = ZIP + bytes(14) + number.to_bytes(4, "little") + bytes(8) + name
    buf = buf.ljust(49 + (number if number < 10_000 else 0), b"\0")
    header = len(buf)
    for (gap, name), least in zip(parts, (0, 30, 56)):
        header += least + gap
        buf = buf.ljust(header, b"\0") + ZIP + bytes(26) + name
    return buf


def archives() -> Iterator[tuple[str, bytes]]:
    folders = list(FOLDERS.values())
    for text in [*folders, *NAMES]:
        for known in sorted({1, 2, len(text) - 1, len(text)}):
            yield "office", archive(0, b"")[:30] + text[:known]
            yield "office", archive(0, b"")[:30] + text[:known - 1] + b"?"
    for late, gap, last in itertools.product(range(3), (0, 5995, 5996, 5997), (b"xl/", b"word?", b"x")):
        gaps = [gap if header == late else 0 for header in range(3)]
        yield "office", archive(0, NAMES[2], *zip(gaps, (b"", b"", last))) + b"z"
    begun = [*folders, b"", b"w", b"wor", b"xl", b"pp", b"word\\", b"x/"]
    for third, fourth in itertools.product(begun, [*folders, b"x", b"docProps"]):
        yield "office", archive(7, NAMES[0], (0, b""), (3, third), (0, fourth))
    whole = archive(100, NAMES[1], (2, b"word/"), (0, b"x"), (1, b"ppt/"))
    for cut in [*range(1, 36), *range(147, 156), *range(181, 190), *range(211, 218), *range(236, len(whole))]:
        yield "office", whole[:cut]
    for number in (0xFFFFFFCE, 0xFFFFFFCF, 0xFFFFFFFF, 20_000_000):
        yield "office", archive(number, NAMES[1])
        yield "office", archive(number, NAMES[1][:4])
        yield "office", archive(number, b"xl")


def compounds() -> Iterator[tuple[str, bytes]]:
    kinds = [*itertools.product((b"\5", b"\0"), [*IDS, IDS[1][:4] + bytes(12), IDS[3][:15] + b"\xe9"])]
    numbers = (0, 1, 5, 2_000, 0xFFFFFFFF)
    for (version, _, _), (_, shift, size), number in itertools.product(VERSIONS, VERSIONS, numbers):
        header = COMPOUND + bytes(18) + version + b"\xfe\xff" + shift + bytes(16) + number.to_bytes(4, "little")
        yield "compound", header
        for kind, class_id in kinds if number < 2 else []:
            yield "compound", header.ljust((number + 1) * size + 66, b"\0") + kind + bytes(13) + class_id + bytes(31)
    header = COMPOUND + bytes(18) + b"\3\0\xfe\xff\x09\0" + bytes(16) + b"\1\0\2\0"
    for cut in [*range(1, 9), *range(26, 33), *range(48, 53)]:
        yield "compound", header[:cut]
        yield "compound", header[:cut - 1] + bytes([header[cut - 1] ^ 1])


def texts() -> Iterator[tuple[str, bytes]]:
    marks = [b"", *MARKS, b"".join(MARKS), MARKS[2] + MARKS[1]]
    begun = [b"<?xmL", b"<?x", b"<", b"<html>", b"<br", b" <p>", b"\xef\xbb", b"\xfe", b"\xff", b"\xef\xbf", b"x"]
    for parts in itertools.product((b"", b"\t", b"\r\n \x0c", b"\x0b"), marks, begun):
        yield "text", b"".join(parts)
    for tag in TAGS:
        for text in (tag, tag.lower() + b" ", tag + b"\t", tag + b"/", tag[:-1] + b">", tag[:3].lower(), tag[:-1]):
            yield "text", b"\n" + text
    yield "text", b" " * 9000
    yield "text", b" " * 8999 + b"<"
    yield "text", MARKS[0] * 300


def randoms() -> Iterator[tuple[str, bytes]]:
    attack = Attack(20)
    for _ in range(RANDOM_BUFFERS):
        yield "random", attack.buffer()


def edges() -> Iterator[tuple[str, bytes]]:
    """Each with bytes after it that belong to no text, so that the line says when they close what was open."""
    for kind in (near_misses, windows, frames, boxes, archives, compounds, texts):
        for name, buf in kind():
            yield f"{name}-edge", buf.ljust(PADDED, b"x")


def samples() -> Iterator[tuple[str, str]]:
    """Names and tokens."""
    for row, sample in enumerate(SAMPLES):
        if sample:
            yield f"{EXTENSIONS[row]}-sample", encode([(sample.ljust(PADDED, b"\0"), 1)])


def buffers() -> Iterator[tuple[str, str]]:
    yield from samples()
    for name, _, _, tokens in fields_of("vectors.tsv"):
        yield name, tokens
    for byte in range(256):
        yield f"byte-{byte:02X}", f"{byte:02X}"
    seen, counts = set(), dict[str, int]()
    for name, buf in itertools.chain(edges(), randoms()):
        if buf not in seen:
            seen.add(buf)
            counts[name] = counts.get(name, 0) + 1
            yield f"{name}-{counts[name]:03}", encode([(buf, 1)])


def is_near(extension: str) -> bool:
    """Whether the first 1024 bytes decide the row: it is a window, or asks for no later byte."""
    accepts = KINDS[extension][0]
    if accepts != is_fixed:
        return accepts in (is_matroska, is_pdf)
    return all(max(least, *(place + 1 for place in asked)) <= 1024 for least, asked in ALTERNATIVES[extension])


def lines(word: str) -> Iterator[str]:
    if word == "count":
        yield str(sum(1 for _ in buffers()))
    elif word == "first":
        for byte in range(256):
            yield " ".join(map(str, sorted(allowed_by(bytes([byte])))))
    elif word == "far":
        yield " ".join(str(row) for row in ROWS if not is_near(EXTENSIONS[row]))
    else:
        yield from (line_of(*it) for it in (samples() if word == "samples" else buffers()))


if __name__ == "__main__":
    print("\n\n".join("\n".join(lines(word)) for word in sys.argv[1:] or [""]))
