#!/usr/bin/env python3
"""Attacks the model of `decided.py` from both sides, and prints what was tried.

usage: attack.py [SECONDS [SEED]]

For each yes of `may_become` the bytes that it names are put after the buffer, and the row has to accept. For each no
the row has to refuse every one of some hundreds of hostile continuations, and the no has to stay whatever byte comes
next: since a buffer that has a no is not accepted either, a no that always stays is right."""
from __future__ import annotations

import collections
import itertools
import random
import sys
import time
from collections.abc import Iterator

from decided import (
    ALTERNATIVES, BRANDS, CLASS_IDS, COMPOUND, EBML, EXTENSIONS, FOLDERS, FRAMED, MARKS, MATROSKA, NAMES, SAMPLES,
    SKIPPABLE, TAGS, VERSIONS, WHITE, ZIP, Runs, accepts, after_frames, big, decode, fields_of, grown, is_decided,
    little, may_become, witness,
)

ROWS = range(len(EXTENSIONS))
VECTORS = [buf for _, _, _, tokens in fields_of("vectors.tsv") if len(buf := decode(tokens)) < 20_000]
IDS = [class_id for ids in CLASS_IDS.values() for class_id in ids]
# So far samples have zeros after them, past all that decides one.
PADDED = max(1100, *(len(sample) + 4 for sample in SAMPLES if sample))
RELATIONS = [*MATROSKA, *FRAMED, *BRANDS, *FOLDERS, *CLASS_IDS, "pdf", "html", "xml"]


def texts_of(asked: dict[int, bytes]) -> Iterator[tuple[int, bytes]]:
    """The texts that an alternative asks, each with its place; of a set of bytes one."""
    places = sorted(asked)
    for start in (place for place in places if place - 1 not in asked):
        end = next(place for place in itertools.count(start) if place not in asked)
        yield start, b"".join(asked[place][:1] for place in range(start, end))


FIXED_TEXTS = sorted({text for found in ALTERNATIVES.values() for _, asked in found for text in texts_of(asked)})
DEEP_TEXTS = [
    (0, EBML), *((place, kind) for kind in MATROSKA.values() for place in (4, 20, 245, 246, 249, 250)),
    *((0, magic) for magic in [*FRAMED.values(), *SKIPPABLE]), (4, b"ftyp"),
    *((place, brand) for kinds in BRANDS.values() for brands in kinds for brand in brands for place in (8, 16, 20)),
    (0, ZIP), (49, ZIP), *((30, text) for text in [*FOLDERS.values(), *NAMES]),
    (0, COMPOUND), (28, b"\xfe\xff"), *((26, version) for version, _, _ in VERSIONS),
    *((30, shift) for _, shift, _ in VERSIONS),
    *((592, class_id) for class_id in IDS),
    *((place, b"%PDF") for place in (0, 5, 1019, 1020, 1021)),
    *((0, mark) for mark in MARKS), *((0, tag + end) for tag in TAGS for end in (b">", b" ")),
    (0, b"<?xml"), (0, b"<?XmL"),
]
TEXTS = FIXED_TEXTS + [text for text in DEEP_TEXTS if text[1]]
HEADER_TEXTS = [(0, ZIP), (0, ZIP), *((30, text) for text in [*FOLDERS.values(), *NAMES])]
LIKELY = bytes(sorted({byte for _, text in TEXTS for byte in text}))


class Attack:
    def __init__(self, seed: int) -> None:
        self.random = random.Random(seed)
        self.counts: collections.Counter[str] = collections.Counter()
        self.faults = 0

    # Buffers.

    def noise(self, length: int) -> bytes:
        alphabet = self.random.choice([b"\0", b"\0\0\0 <PK\x03\x04", LIKELY, bytes(range(256))])
        return bytes(self.random.choices(alphabet, k=length))

    def gap(self) -> int:
        """How far a header of Office stands from the beginning of its search."""
        return self.random.choice([0, 0, 0, 1, 3, 26, 60, 5990, 5994, 5995, 5996, 5997, 6001])

    def office(self, stated: int | None = None) -> bytes:
        numbers = [0, 0, 0, 5, 40, 700, 0xFFFFFFCE, 0xFFFFFFCF, 0xFFFFFFFF]
        number = self.random.choice(numbers) if stated is None else stated
        buf = bytearray(ZIP + bytes(14) + number.to_bytes(4, "little") + bytes(8))
        buf += self.random.choice([*NAMES, *NAMES, *FOLDERS.values(), b"mimetype"])
        buf += bytes(max(49 + (number if number < 9000 else 0) - len(buf), 0))
        for least in (0, 0, 23, 0):
            buf += bytes(least + self.gap()) + ZIP + bytes(26)
            if self.random.random() < 0.5:
                buf += self.random.choice([*FOLDERS.values(), b"wor", b"x", b"pp", b"w", b"word?"])
        return bytes(buf)

    def brand(self, stated: int | None = None) -> bytes:
        number = self.random.choice([0, 8, 15, 16, 19, 20, 23, 24, 32, 33, 47, 300]) if stated is None else stated
        majors = [b"heic", b"heix", b"mif1", b"msf1", b"avif", b"avis", b"isom", b"qt  ", b"M4V ", b"M4A ", b"crx "]
        buf = number.to_bytes(4, "big") + b"ftyp" + self.random.choice(majors) + bytes(4)
        for _ in range(self.random.randrange(8)):
            buf += self.random.choice([*majors, b"mdat", b"\0", b"he\0\0", b"avi"])
        return buf + self.noise(self.random.choice([0, 1, 3, max(min(number, 400) - len(buf), 0)]))

    def compound(self, stated: int | None = None) -> bytes:
        version, shift, size = self.random.choice([*VERSIONS, (b"\3\0", b"\x0c\0", 512), (b"\3\1", b"\x09\0", 512)])
        number = self.random.choice([0, 0, 0, 1, 2, 0xFFFFFFFF]) if stated is None else stated
        buf = bytearray(COMPOUND + bytes(18) + version + b"\xfe\xff" + shift + bytes(16) + number.to_bytes(4, "little"))
        root = (number + 1) * size
        if root < 20000:
            class_id = self.random.choice(IDS)
            buf += bytes(root + 66 - len(buf)) + b"\5" + bytes(13) + class_id + bytes(self.random.choice([31, 32, 40]))
        return bytes(buf)

    def framed(self, _: int | None = None) -> bytes:
        buf = b""
        for _ in range(self.random.randrange(4)):
            length = self.random.choice([0, 1, 4, 8, 300])
            buf += self.random.choice(SKIPPABLE) + length.to_bytes(4, "little") + self.noise(length)
        others = [b"\x60\x2a\x4d\x18", b"\x55\x2a\x4d\x18\xff\xff\xff\x7f", b"\x55\x2a\x4d\x18\x00\x00\x00\x01"]
        return buf + self.random.choice([*FRAMED.values(), *others])

    def marked(self, _: int | None = None) -> bytes:
        buf = bytes(self.random.choices(WHITE, k=self.random.choice([0, 0, 1, 3, 1100])))
        buf += b"".join(self.random.choices(MARKS, k=self.random.choice([0, 0, 1, 2, 5])))
        text = self.random.choice([b"<?xml", b"<?xml", self.random.choice(TAGS), b"", b" "])
        text = bytes(self.random.choice([byte, ord(chr(byte).lower())]) for byte in text)
        return buf + text + self.random.choice([b"", b">", b" ", b"\t", b"x"])

    def window(self, _: int | None = None) -> bytes:
        if self.random.random() < 0.5:
            return self.noise(self.random.choice([0, 5, 1000, 1018, 1019, 1020, 1021])) + b"%PDF"
        buf = EBML + self.noise(self.random.choice([0, 3, 240, 241, 242, 245, 246, 247]))
        return buf + self.random.choice([*MATROSKA.values()]) + self.noise(self.random.choice([0, 1, 20, 253]))

    def sampled(self, _: int | None = None) -> bytes:
        sample = self.random.choice([sample for sample in SAMPLES if sample])
        return sample + self.noise(self.random.choice([0, 0, 1, 50, 300]))

    def vector(self, _: int | None = None) -> bytes:
        return self.random.choice(VECTORS)

    def mixed(self, _: int | None = None) -> bytes:
        """Texts of any signatures, where these ask them."""
        buf = b""
        for place, text in sorted(self.random.choices(TEXTS, k=self.random.randrange(1, 6))):
            buf = buf.ljust(place, self.random.choice([b"\0", b" ", b"P"])) if len(buf) < place else buf[:place]
            buf += text
        return buf

    def target(self, stated: int | None = None) -> bytes:
        """A buffer that some row is likely to accept."""
        shares = {
            self.office: 4, self.brand: 2, self.compound: 2, self.framed: 2, self.marked: 2, self.window: 1,
            self.sampled: 1, self.vector: 2, self.mixed: 2,
        }
        return self.random.choices(list(shares), list(shares.values()))[0](stated)

    def changed(self, buf: bytes) -> bytes:
        """The buffer with a byte or a stated size changed, or with the beginning of another."""
        if not buf:
            return buf
        kind = self.random.randrange(4)
        if kind == 0:
            place = self.random.choice([self.random.randrange(len(buf)), self.random.randrange(min(len(buf), 64))])
            return buf[:place] + bytes([self.random.choice([buf[place] ^ 0x20, 0, *self.noise(1)])]) + buf[place + 1:]
        if kind == 1:
            place, order = self.random.choice([(0, "big"), (4, "little"), (18, "little"), (48, "little")])
            number = self.random.choice([0, 1, 15, 16, 20, 24, 100, 6000, len(buf), len(buf) + 1, 0xFFFFFF, 0xFFFFFFFF])
            return (buf[:place] + number.to_bytes(4, order) + buf[place + 4:])[:max(len(buf), place)]
        if kind == 2:
            place = self.random.randrange(len(buf))
            return self.target()[:place] + buf[place:]
        return buf

    def buffer(self) -> bytes:
        buf = self.target()
        for _ in range(self.random.choice([0, 0, 1, 2])):
            buf = self.changed(buf)
        anywhere, early = self.random.randrange(len(buf) + 1), self.random.randrange(min(len(buf), 70) + 1)
        return buf[:self.random.choice([len(buf), anywhere, early, *[self.text_end(buf)] * 3])]

    def text_end(self, buf: bytes) -> int:
        """A place in one of the texts that stand in the buffer, or soon after it."""
        start = self.random.choice([0, 4, 8, 28, 49, 80, 1000])
        texts = HEADER_TEXTS if buf[:4] == ZIP else TEXTS
        found = [(buf.find(text, start), text) for _, text in texts if text in buf[start:]] or [(0, buf[:1])]
        place, text = self.random.choice(found)
        return place + self.random.choice([*range(len(text) + 1)] * 2 + [26, 30, 31, 34, 56, 59, 60])

    # Continuations.

    def fitting(self, buf: bytes) -> bytes:
        """What a target of the buffer's own kind and numbers has after so many bytes."""
        if buf[:2] == ZIP[:2]:
            target = self.office(little(buf[18:22]) if len(buf) >= 22 else None)
        elif buf[4:6] == b"ft":
            target = self.brand(big(buf[:4]))
        elif buf[:2] == COMPOUND[:2]:
            target = self.compound(little(buf[48:52]) if len(buf) >= 52 else None)
        elif 0x50 <= buf[0] <= 0x5F:
            target = self.rest_of_frames(buf)
        elif buf[0] in WHITE or buf[0] >= 0xEF:
            target = buf + self.marked()
        else:
            target = self.window()
        return target[len(buf):]

    def rest_of_frames(self, buf: bytes) -> bytes:
        place = after_frames(buf)
        end = place + 8 + little(buf[place + 4:place + 8].ljust(4, b"\0"))
        if end > len(buf) + 100_000:
            return buf
        return buf + bytes(max(end - len(buf), 0)) + self.framed()

    def next_headers(self, buf: bytes) -> bytes:
        """Headers of Office with folders, the first of which the buffer may have begun."""
        more = ZIP[self.random.randrange(4):] if self.random.random() < 0.5 else bytes(self.gap()) + ZIP
        for _ in range(self.random.randrange(4)):
            more += bytes(26) + self.random.choice([b"", *FOLDERS.values()]) + bytes(self.gap()) + ZIP
        return more + bytes(26) + self.random.choice([*FOLDERS.values()])

    def next_root(self, buf: bytes) -> bytes:
        """A root entry where the buffer's header says, as far as it is not there yet."""
        for _, _, size in VERSIONS:
            root = (little(buf[48:52]) + 1) * size
            if root + 128 > len(buf) and root < len(buf) + 30_000:
                class_id = self.random.choice(IDS)
                entry = bytes(66) + b"\5" + bytes(13) + class_id + bytes(32)
                return (bytes(max(root - len(buf), 0)) + entry)[-(root + 128 - len(buf)):]
        return b""

    def far(self, buf: bytes) -> list[tuple[bytes, int]]:
        """Zeros up to where a stated number says that something stands, and then that, at any distance."""
        if buf[:1] == ZIP[:1]:
            target, number, after = self.office(0xFFFFFFFF), little(buf[18:22]) + 49, self.next_headers(buf)
        elif buf[:1] == COMPOUND[:1]:
            version, shift, size = self.random.choice(VERSIONS)
            class_id = self.random.choice(IDS)
            target = COMPOUND + bytes(18) + version + b"\xfe\xff" + shift + bytes(16) + buf[48:52].ljust(4, b"\0")
            number, after = (little(target[48:52]) + 1) * size, bytes(66) + b"\5" + bytes(13) + class_id + bytes(32)
        else:
            place = after_frames(buf)
            target = buf[:place] + self.random.choice(SKIPPABLE) + buf[place + 4:place + 8].ljust(4, b"\0")
            number, after = place + 8 + little(target[place + 4:place + 8]), self.framed()
        near = target[:49 if buf[:1] == ZIP[:1] else len(target)][len(buf):]
        return [(near, 1), (b"\0", max(number - len(buf) - len(near), 0)), (after, 1)]

    def continuation(self, buf: bytes) -> bytes:
        kind, length = self.random.randrange(10), len(buf)
        if kind == 0:
            return self.target()[length:]
        if kind == 1 and buf:
            return self.fitting(buf)
        if kind == 2:
            return self.random.choice(SAMPLES) or b""
        if kind == 3:
            return self.noise(self.random.randrange(1, 80))
        if kind == 4:
            return self.next_headers(buf)
        if kind == 5:
            return self.next_root(buf)
        place, text = self.random.choice(TEXTS)
        if kind == 6 and place >= length:
            return bytes(place - length) + text + self.noise(self.random.choice([0, 4, 100, 260]))
        if kind == 7:
            return self.mixed()[length:] or self.mixed()
        begun = self.random.randrange(len(text) + 1)
        return text[begun:] + self.noise(self.random.choice([0, 1, 8, 257])) + self.target()

    # Both sides.

    def fail(self, words: str, row: int, buf: bytes, more: bytes = b"") -> None:
        self.faults += 1
        ends = f"{buf[:100].hex()} .. {buf[-30:].hex()} and then {len(more)} {more[:60].hex()}"
        print(f"{words}: {EXTENSIONS[row]} {len(buf)} {ends}")

    def try_yes(self, row: int, buf: bytes) -> None:
        more = witness(row, buf)
        assert more is not None
        self.counts["yes"] += 1
        whole = grown(buf, more)
        self.counts["yes, by more than a million bytes"] += not isinstance(whole, bytes)
        if whole[:len(buf)] != buf or not accepts(row, whole):
            self.fail("yes, but not accepted", row, buf)

    def try_no(self, refused: list[int], buf: bytes, count: int) -> None:
        """None of the rows may accept the buffer with any continuation, nor become it later."""
        for turn in range(count):
            more = self.continuation(buf) if turn else b""
            whole = buf + more
            self.counts["continuations"] += 1
            for row in refused:
                if accepts(row, whole):
                    self.fail("no, but accepted", row, buf, more)
                if turn % 10 == 0 and may_become(row, whole):
                    self.fail("no, and then yes", row, buf, more)

    def try_far(self, refused: list[int], buf: bytes, count: int) -> None:
        rows = [row for row in refused if EXTENSIONS[row] in [*FRAMED, *FOLDERS, *CLASS_IDS]]
        for more in (self.far(buf) for _ in range(count)):
            self.counts["continuations of any length"] += 1
            for row in rows:
                if accepts(row, Runs([(buf, 1), *more])):
                    self.fail("no, but accepted far away", row, buf)

    def try_next_bytes(self, refused: list[int], buf: bytes) -> None:
        self.counts["buffers with each next byte"] += 1
        for byte in (bytes([number]) for number in range(256)):
            whole = buf + byte
            for row in filter(lambda row: may_become(row, whole), refused):
                self.fail("no, but yes by the next byte", row, buf, byte)

    def try_buffer(self, buf: bytes, count: int, with_bytes: bool) -> list[int]:
        """Tries each row, with so many continuations, and gives the rows within reach."""
        self.counts["buffers"] += 1
        reached = [row for row in ROWS if may_become(row, buf)]
        for row in reached:
            self.try_yes(row, buf)
        # A fixed signature that refuses the first byte refuses whatever follows.
        refused = [row for row in ROWS if row not in reached and is_asked(row, buf)]
        self.counts["no"] += len(ROWS) - len(reached)
        self.try_no(refused, buf, count)
        self.try_far(refused, buf, count // 10)
        if with_bytes:
            self.try_next_bytes(refused, buf)
        return reached

    def try_cuts(self, buf: bytes) -> None:
        """Rows within reach only go, and what is decided stays decided."""
        before, was_decided = list(ROWS), False
        for length in range(len(buf) + 1):
            cut = buf[:length]
            reached = self.try_buffer(cut, 3, False)
            self.counts["cuts"] += 1
            for row in set(reached) - set(before):
                self.fail("no, and then yes by more of the buffer", row, cut)
            if was_decided and not is_decided(cut):
                self.fail("decided, and then not", reached[0], cut)
            before, was_decided = reached, was_decided or length % 16 == 0 and is_decided(cut)


def is_asked(row: int, buf: bytes) -> bool:
    """Whether the signature is a relation, or allows the buffer's first byte."""
    if EXTENSIONS[row] in RELATIONS or not buf:
        return True
    return any(buf[0] in asked.get(0, buf[:1]) for _, asked in ALTERNATIVES[EXTENSIONS[row]])


def main(seconds: float, seed: int) -> int:
    attack = Attack(seed)
    for sample in filter(None, SAMPLES):
        attack.try_cuts(sample.ljust(PADDED, b"\0"))
    for short in [b"", *(bytes([byte]) for byte in range(256))]:
        attack.try_buffer(short, 200, True)
    for buf in VECTORS:
        attack.try_buffer(buf, 200, len(buf) < 3000)
        if len(buf) <= PADDED:
            attack.try_cuts(buf)
    end = time.monotonic() + seconds
    while time.monotonic() < end and attack.faults < 20:
        for turn in range(100):
            attack.try_buffer(attack.buffer(), 200, turn % 4 == 0)
    for words, count in attack.counts.items():
        print(f"{words}: {count}")
    print(f"faults: {attack.faults}")
    return attack.faults > 0


if __name__ == "__main__":
    words = sys.argv[1:]
    sys.exit(main(float(words[0]) if words else 600, int(words[1]) if words[1:] else 1))
