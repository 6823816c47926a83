#!/usr/bin/env python3
"""Changes all that an evidence leaves free, and asks whether the answer stays: by the library, and by the models of this
folder, which share nothing with its code.

usage: evidence.py PROGRAM [COUNT [SEED]]. PROGRAM is c/vectors/why.c over the library. COUNT buffers, 1,000,000 if left out,
are made from a seed.

The evidence is that of the library, of samples, each also short and with bytes behind it, of the vectors, and of buffers
that are made. Of each changed buffer the bytes outside the ranges are any, or what some row asks at its places; where the
length is free it is cut down to the least, or grown. Where a row of bytes at fixed places is the answer, each range of it has
to matter: some bytes in its place make the row refuse, with all other ranges as they are."""
from __future__ import annotations

import collections
import itertools
import random
import subprocess
import sys
from collections.abc import Iterator
from typing import NamedTuple

import answers
from attack import Attack
from decided import EBML, FOLDERS, MATROSKA, SAMPLES, ZIP, decode, fields_of

SEED = 20261128
# Past what most rows ask.
BEHIND = 1100
LONGEST = 6000
AT_ONCE = 20_000
# How often each byte of a range is tried, since other bytes may have to change with it.
ROUNDS = 20
NO_ROW = -1


class Range(NamedTuple):
    place: int
    length: int
    step: int
    row: int

    @property
    def places(self) -> range:
        """The places of its bytes."""
        return range(self.place, self.place + self.length * self.step, self.step)


class Evidence(NamedTuple):
    """What the library says of a buffer."""

    buf: bytes
    row: int
    ranges: list[Range]
    least: int
    exact: bool

    @property
    def needed(self) -> int:
        """The least length that has all that is asked for."""
        return max([self.least, *(it.places[-1] + 1 for it in self.ranges)])


def read(buf: bytes, line: str) -> Evidence | None:
    """The evidence that a line tells, unless it wants more ranges than there is room for."""
    row, wanted, least, exact, *ranges = line.split(" ")
    told = [Range(*map(int, it.split(":"))) for it in ranges]
    return Evidence(buf, int(row), told, int(least), exact == "1") if int(wanted) == len(told) else None


def asked(program: str, word: str, bufs: list[bytes]) -> list[str]:
    """The lines that the program says of the buffers."""
    pack = b"".join(len(it).to_bytes(4, "little") + it for it in bufs)
    return subprocess.run([program, word], input=pack, stdout=subprocess.PIPE, check=True).stdout.decode().splitlines()


def numbered(row: int | None) -> int:
    return NO_ROW if row is None else row


def model(buf: bytes) -> tuple[int, int]:
    """The built-in answer and the wider one."""
    found = answers.position(buf)
    return numbered(found), numbered(answers.more_position(buf, found))


# The buffers.


def further_vectors() -> list[tuple[str, bytes]]:
    """The buffers of the further rows, each with the row that it was made for."""
    return [(made_for.partition(",")[0], decode(tokens)) for made_for, tokens, _, _ in fields_of("further/vectors.tsv")]


def samples() -> list[bytes]:
    """A buffer of each row."""
    first: dict[str, bytes] = {}
    for row, buf in further_vectors():
        first.setdefault(row, buf)
    return [it for it in SAMPLES if it] + [*first.values()]


def buffers(rng: random.Random, attack: Attack) -> list[bytes]:
    found = []
    for sample in samples():
        found += [sample, sample[: rng.randrange(len(sample))], sample + bytes(BEHIND), sample + rng.randbytes(BEHIND)]
    found += [decode(tokens) for _, _, _, tokens in fields_of("vectors.tsv")]
    found += [buf for _, buf in further_vectors()]
    found += [attack.buffer() for _ in range(1000)]
    return [it for it in dict.fromkeys(found) if len(it) <= LONGEST]


# What rows ask, as texts at places.

Texts = list[tuple[int, bytes]]


def asked_by(fixed: answers.Fixed, rng: random.Random) -> Texts:
    return [(place, bytes([rng.choice([*allowed])])) for place, allowed in fixed.asked]


class Changer:
    def __init__(self, seed: int) -> None:
        self.rng = random.Random(seed)
        attack = Attack(seed)
        self.buffers = buffers(self.rng, attack)
        alternatives = [it for row in answers.BUILT_IN.values() for it in row]
        alternatives += [it for row in answers.FURTHER for it in row.fixed]
        self.texts = [(it.least, asked_by(it, self.rng)) for it in alternatives for _ in range(2)]
        self.wholes = [it for it in self.buffers if len(it) < 2 * BEHIND] + [attack.target()[:LONGEST] for _ in range(1000)]

    def searched(self) -> Texts:
        """A text where a search may find it."""
        place, entry = self.rng.randrange(1021), self.rng.choice([*FOLDERS.values(), b"mimetype", b"_rels/", b"[Content_Types].xml"])
        return self.rng.choice([
            [(place, b"%PDF")], [(0, EBML), (place % 250, self.rng.choice([*MATROSKA.values()]))],
            [(place, ZIP), (place + 30, entry)], [(4, b"ftyp"), (8 + place % 6 * 4, self.rng.choice([b"heic", b"avif", b"mif1"]))],
        ])

    def laid(self) -> tuple[int, Texts]:
        """What some row asks, and a length for it."""
        kind = self.rng.random()
        if kind < 0.6:
            return self.rng.choice(self.texts)
        if kind < 0.8:
            return 0, self.searched()
        whole = self.rng.choice(self.wholes)
        return len(whole), [(0, whole)]

    def length(self, evidence: Evidence, wanted: int) -> int:
        if evidence.exact:
            return len(evidence.buf)
        needed, length = evidence.needed, len(evidence.buf)
        kind = self.rng.random()
        return max(needed, length if kind < 0.3 else needed if kind < 0.5 else wanted if kind < 0.8 else self.rng.randrange(length + 80))

    def filled(self, buf: bytes, length: int) -> bytearray:
        """The buffer at that length, or any bytes."""
        kind = self.rng.random()
        if kind < 0.4:
            return bytearray(buf[:length].ljust(length, self.rng.choice([b"\0", b" ", b"P"])))
        if kind < 0.8:
            return bytearray(self.rng.randbytes(length))
        return bytearray(bytes([self.rng.choice([0, 0x20, 0x50, 0xFF, self.rng.randrange(256)])]) * length)

    def changed(self, evidence: Evidence) -> bytes:
        """A buffer with the same bytes in the ranges, and such a length."""
        wanted, texts = self.laid() if self.rng.random() < 0.7 else (0, [])
        length = self.length(evidence, wanted)
        made = self.filled(evidence.buf, length)
        for place, text in texts:
            made[place : place + len(text)] = text[: max(length - place, 0)]
        for it in evidence.ranges:
            held = slice(it.place, it.places[-1] + 1, it.step)
            made[held] = evidence.buf[held]
        return bytes(made)

    def without(self, evidence: Evidence, lacking: Range, place: int, byte: int) -> bytes:
        """One with that byte there, and any in the range and all that it shares bytes with."""
        others = [it for it in evidence.ranges if not set(it.places) & set(lacking.places)]
        made = bytearray(self.changed(evidence._replace(ranges=others, least=evidence.needed)))
        made[place] = byte
        return bytes(made)


def matters(changer: Changer, evidence: Evidence, lacking: Range) -> bool:
    """Whether the row refuses some buffer that has other bytes in the range."""
    alternatives = answers.fixed_of(evidence.row)
    trials = itertools.product(range(ROUNDS), lacking.places, range(256))
    return any(not answers.fits(alternatives, changer.without(evidence, lacking, place, byte)) for _, place, byte in trials)


def shown(buf: bytes) -> str:
    return f"{buf[:80].hex()} ({len(buf)} bytes)"


class Tried:
    """What was tried, and what failed."""

    def __init__(self, program: str, seed: int) -> None:
        self.program, self.changer = program, Changer(seed)
        self.counts: collections.Counter[str] = collections.Counter()
        self.failed = 0

    def fail(self, words: str, evidence: Evidence, buf: bytes) -> None:
        self.failed += 1
        if self.failed <= 10:
            ranges = " ".join(":".join(map(str, it)) for it in evidence.ranges[:20])
            print(f"evidence.py: {words}: row {evidence.row} of {shown(evidence.buf)} by {ranges}, and {shown(buf)}")

    def evidences(self) -> Iterator[tuple[int, Evidence]]:
        """What the library says of each buffer: of the built-in answer, and of the wider one."""
        lines = asked(self.program, "evidence", self.changer.buffers)
        for at, buf in enumerate(self.changer.buffers):
            found = [read(buf, it) for it in lines[2 * at : 2 * at + 2]]
            for kind, evidence, row in zip((0, 1), found, model(buf)):
                if evidence is None:
                    self.counts["more ranges than there is room for"] += 1
                    continue
                self.counts["evidences"] += 1
                if evidence.row != row or evidence.needed > len(buf):
                    self.fail("another answer than the model's, or a range outside", evidence, buf)
                yield kind, evidence

    def try_changed(self, some: list[tuple[int, Evidence, bytes]]) -> None:
        """The answer of each is that of the evidence, by the library and by the model."""
        lines = asked(self.program, "answers", [buf for _, _, buf in some])
        for (kind, evidence, buf), line in zip(some, lines, strict=True):
            self.counts["changed buffers"] += 1
            if int(line.split(" ")[kind]) != evidence.row:
                self.fail("the library has another answer", evidence, buf)
            if model(buf)[kind] != evidence.row:
                self.fail("the model has another answer", evidence, buf)

    def try_ranges(self, evidence: Evidence) -> None:
        """Each range by which a row of fixed bytes accepts does matter."""
        if evidence.row == NO_ROW or answers.fixed_of(evidence.row) is None:
            return
        for it in evidence.ranges:
            if it.row == evidence.row:
                self.counts["ranges by which a row accepts"] += 1
                if not matters(self.changer, evidence, it):
                    self.fail("the row accepts whatever the range has", evidence, evidence.buf[it.place : it.places[-1] + 1])

    def try_all(self, count: int) -> None:
        evidences = [*self.evidences()]
        some = []
        for at in range(count):
            kind, evidence = evidences[at % len(evidences)]
            some.append((kind, evidence, self.changer.changed(evidence)))
            if len(some) == AT_ONCE or at == count - 1:
                self.try_changed(some)
                some = []
        for _, evidence in evidences:
            self.try_ranges(evidence)


def main(program: str, count: int, seed: int) -> int:
    tried = Tried(program, seed)
    tried.try_all(count)
    counted = ", ".join(f"{number} {name}" for name, number in tried.counts.items())
    print(f"what an evidence leaves free, of {len(tried.changer.buffers)} buffers: {counted}; {tried.failed} wrong")
    return 1 if tried.failed else 0


if __name__ == "__main__":
    words = sys.argv[1:]
    sys.exit(main(words[0], int(words[1]) if words[1:] else 1_000_000, int(words[2]) if words[2:] else SEED))
