#!/usr/bin/env python3
"""Compares what the library says of generated names and buffers with a model that reads nothing of names but names.txt, and
was written from docs/NAMES.md. The wider answer of a buffer is the library's.

usage: named.py PROGRAM [COUNT] [SEED]. PROGRAM is c/vectors/joined.c over the library. COUNT pairs, 50,000 if left out, are
made from a seed: names of the table, whole or changed, each with a buffer that begins as some type does or as any."""
import ast
import collections
import os
import random
import re
import struct
import subprocess
import sys

TOP = os.path.join(os.path.dirname(os.path.abspath(__file__)), "../..")
SEED = 20261127
STANDINGS = ["agree", "name refines", "bytes refine", "bytes alone", "name alone", "contradicts", "nothing"]
COPIES = [b"~", b".bak", b".orig", b".old"]
MAKERS = [b"makefile", b"gnumakefile", b"dockerfile", b"containerfile"]
WHITE = b"\t\n\x0c\r "


def lines_of(path):
    with open(os.path.join(TOP, path), encoding="utf-8") as it:
        return [line.rstrip("\n") for line in it if not line.startswith("#")]


def sets_named():
    """The rows that are named together: texts, the tame ones among them, and those of files that people name as they like."""
    found = {}
    for line in lines_of("crates/infer_named/names.txt"):
        name, _, rest = line.partition(": ")
        if name in ("texts", "tame", "free"):
            found[name] = {row for it in rest.split() for row in found.get(it, [it])}
    return found


TOGETHER = sets_named()


def reading(text):
    """A reading: its MIME type, what it asks, its sets of rows, and its leads."""
    head, *parts = text.split("; ")
    mime_type, asks = re.fullmatch(r"(\S+) \(.*\), (\w+)", head).groups()
    sets = {"agrees": set(), "begins": set(), "finer": set()}
    leads = []
    for part in parts:
        word, _, rest = part.partition(" ")
        if word == "leads":
            leads = [ast.literal_eval(f"b{it}") for it in re.findall(r'"(?:[^"\\]|\\.)+"', rest)]
        else:
            sets[word] = {row for it in rest.split() for row in (TOGETHER["texts"] if it == "texts" else [it])}
    return mime_type, asks, sets, leads


def table():
    """For what each key is in use, and its readings."""
    keys = {}
    for line in lines_of("crates/infer_named/names.txt"):
        head, _, rest = line.partition(": ")
        *usage, part, text = head.split(" ") if " " in head else ["", ""]
        if part not in ("whole", "extension"):
            continue
        readings = [reading(it) for it in rest.split(" | ")]
        is_of_text = any(asks == "text" or "txt" in set().union(*sets.values()) for _, asks, sets, _ in readings)
        keys[part, text.encode()] = usage[0] if usage else "strict" if part == "whole" or is_of_text else "plain", readings
    return keys


def key_of(keys, name):
    """The key of a name, by the steps of the page."""
    if b"\0" in name:
        return None
    base = re.split(rb"[/\\]", name)[-1].lower()
    for ending in COPIES:
        if base.endswith(ending) and len(base) > len(ending):
            base = base[: -len(ending)]
            break
    tries = [("whole", base)]
    dots = [at for at in range(1, len(base)) if base[at] == 0x2E]
    if re.fullmatch(rb"(?s).+\.so(\.[0-9]+)+", base):
        tries.append(("extension", b"so"))
    else:
        tries += [("extension", base[at + 1 :]) for at in dots[-2:]]
    first = base.partition(b".")
    if first[1] and first[0] in MAKERS:
        tries.append(("whole", first[0]))
    return next((it for it in tries if it in keys), None)


def lead_of(buf):
    if buf.startswith(b"\xef\xbb\xbf"):
        buf = buf[3:]
    elif buf[:2] in (b"\xff\xfe", b"\xfe\xff"):
        buf = buf[2:].replace(b"\0", b"")
    return buf.lstrip(WHITE)[:2]


def is_any_text(reading):
    """Whether any plain text is of the reading's type."""
    _, asks, sets, leads = reading
    return asks == "text" and not leads and "txt" in sets["agrees"] | sets["begins"]


def join(keys, name, buf, wider):
    """The standing and the MIME type that is told, by the wider answer's extension and MIME type, or none."""
    key, theirs = key_of(keys, name), wider[1] if wider else ""
    if key is None:
        return ("bytes alone", theirs) if wider else ("nothing", "")
    usage, readings = keys[key]
    fitting = [it for it in readings if not it[3] or any(lead_of(buf).startswith(lead) for lead in it[3])]
    if wider:
        for mime_type, _, sets, _ in fitting:
            for word, standing, told in (("agrees", "agree", theirs), ("begins", "name refines", mime_type), ("finer", "bytes refine", theirs)):
                if sets[word] & {*wider}:
                    return standing, told
        if TOGETHER["tame"] & {*wider} and any(map(is_any_text, readings)):
            return "bytes refine", theirs
        is_free = usage == "loose" or usage == "plain" and TOGETHER["free"] & {*wider}
        return ("bytes alone" if is_free else "contradicts"), theirs
    if usage == "loose":
        return "nothing", ""
    # Without a row the bytes are no text.
    admitted = {"signature": False, "text": not buf or 0 not in buf, "bytes": bool(buf), "nothing": True}
    return next((("name alone", it[0]) for it in fitting if admitted[it[1]]), ("contradicts" if buf else "nothing", ""))


def samples():
    """Buffers with which the types begin, and some that are of none."""
    found = [b"", b"\0\1\2", b"\x07x", bytes(16), b"import os\n", b"% a\n", b"\xff\xfe<\0", b"\xef\xbb\xbf#!"]
    for path in ("vectors/further/vectors.tsv", "vectors/vectors.tsv"):
        for line in lines_of(path):
            words = line.split("\t")[1].replace("-", "").split()
            try:
                found.append(b"".join(bytes.fromhex(digits) * int(count or 1) for digits, _, count in (it.partition("*") for it in words)))
            except ValueError:
                continue
    return [it for it in found if len(it) <= 600]


def leads(keys):
    return sorted({lead for _, readings in keys.values() for it in readings for lead in it[3]})


def cased(rng, text):
    return bytes(it - 32 if 97 <= it <= 122 and rng.random() < 0.5 else it for it in text) if rng.random() < 0.2 else text


def name_of(rng, listed):
    """A name: of a key, whole or changed."""
    part, text = rng.choice(listed)
    stem = rng.choice([b"", b"a", b"lib", b".", b"..", b"x.y", b"tar", b"a.tar", b"makefile", b"Dockerfile", b"a" * rng.randrange(1, 40), bytes([rng.randrange(1, 256)])])
    name = text if part == "whole" and rng.random() < 0.7 else stem + b"." + text
    kind = rng.randrange(14)
    if kind == 0:
        name += rng.choice(COPIES) * rng.randrange(1, 3)
    elif kind == 1:
        name += b"." + rng.choice(listed)[1]
    elif kind == 2:
        name = name.rpartition(b".")[0] + rng.choice([b".so.6", b".so.1.10", b".so.", b".so.1x", b".SO.3", b".so", b".so" + b".10" * rng.randrange(1, 16)])
    elif kind == 3:
        name = bytes(rng.randrange(256) for _ in range(rng.randrange(1, 9))) + name
    elif kind == 4 and name:
        at = rng.randrange(len(name))
        name = name[:at] + bytes([rng.randrange(256)]) + name[at + rng.randrange(2) :]
    elif kind == 5:
        name = rng.choice(MAKERS) + b"." + name
    elif kind == 6:
        name = name + rng.choice([b".", b" ", b"/", b"\\", b"\0", b"\0.txt", b"..", b"~.bak"])
    elif kind == 7:
        name = b"a" * rng.choice([*range(16, 36), 63, 64, 65, 300]) + b"." * rng.randrange(2) + name
    folder = rng.choice([b"", b"", b"a/", b"C:\\x.y\\", b"/usr/a.b/", b"f/" * rng.randrange(1, 60)])
    return cased(rng, folder + name)


def pair(rng, listed, wide, some, starts):
    """A name and a buffer. One name in eight is of a type that has finer kinds."""
    buf = rng.choice(some)
    kind = rng.randrange(6)
    if kind == 0:
        buf = rng.choice(starts) + rng.choice([b"", b" x\n", b"\0", b"plain words\n"])
    elif kind == 1:
        buf = rng.choice([b"", b"\n ", b"\xef\xbb\xbf", b"\xff\xfe"]) + buf
    elif kind == 2 and buf:
        buf = buf[: rng.randrange(len(buf) + 1)]
    return name_of(rng, rng.choice([wide, *[listed] * 7])), buf


def asked(program, pairs):
    packed = b"".join(struct.pack("<I", len(it)) + it for both in pairs for it in both)
    run = subprocess.run([program], input=packed, stdout=subprocess.PIPE, check=True)
    return [line.split("\t") for line in run.stdout.decode().splitlines()]


def main():
    count = int(sys.argv[2]) if len(sys.argv) > 2 else 50_000
    rng = random.Random(int(sys.argv[3]) if len(sys.argv) > 3 else SEED)
    keys, counted, wrong = table(), collections.Counter(), 0
    listed, some, starts = sorted(keys), samples(), leads(keys)
    wide = [it for it in listed if any(sets["finer"] for _, _, sets, _ in keys[it][1])]
    for at in range(0, count, 10_000):
        pairs = [pair(rng, listed, wide, some, starts) for _ in range(min(10_000, count - at))]
        answers = asked(sys.argv[1], pairs)
        if len(answers) != len(pairs):
            sys.exit(f"named.py: {len(answers)} answers of {len(pairs)} pairs")
        for (name, buf), (standing, mime_type, *wider) in zip(pairs, answers):
            told = STANDINGS[int(standing)], mime_type
            wanted = join(keys, name, buf, wider if any(wider) else None)
            counted[told[0]] += 1
            if told != wanted:
                wrong += 1
                if wrong <= 5:
                    print(f"named.py: {name!r} with {buf[:40]!r}: {told}, and not {wanted}")
    # Each standing is met often enough to mean something.
    few = [it for it in STANDINGS if counted[it] < count // 200]
    if few:
        print(f"named.py: too few pairs with: {', '.join(few)}")
    print(f"{count} names and buffers compared with the model, {wrong} differ")
    sys.exit(wrong + len(few) != 0)


if __name__ == "__main__":
    main()
