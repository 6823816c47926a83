#!/usr/bin/env python3
"""Compares what the library says of texts of types with what the model notation.py says, and tries the examples of
docs/NOTATION.md.

usage: typed.py PROGRAM [COUNT] [SEED]. PROGRAM is c/vectors/typed.c over the library. COUNT texts, 5,000 if left out, are
made from a seed: lines of each kind, whole or changed, each with a buffer that is made for it or is any."""
import collections
import glob
import os
import random
import re
import subprocess
import sys

import notation

HERE = os.path.dirname(os.path.abspath(__file__))
PAGE = os.path.join(HERE, "../../docs/NOTATION.md")
SEED = 20261126
HEX = "0123456789abcdefABCDEF"
BLANKS = [" ", " ", " ", "  ", "\t", "\r", " \t "]
ODD = [b"\0", b'""', b" 05..04", b" not", b"\r\n", b"\n", b'"', b"{", b"}", b",", b":", b"@", b"or", b"not", b" and ", b" binary", b"root", b"..", b" ", b"0", b"9999999999", b"\xff", b"\xef\xbb\xbf", b"\x7f", b"#", b"-", b"/"]
# What the built-in rows answer of these is below what a row can stand.
STARTS = [(b"", "-"), (b"PK\x03\x04", "zip"), (b"GIF89a", "gif"), (b"%PDF", "pdf"), (b"#!", "sh"), (b"MZ", "exe"), (b"{", "-"), (b"\0", "-")]


def blank(rng):
    return rng.choice(BLANKS)


def perhaps(rng):
    return blank(rng) if rng.random() < 0.3 else ""


def pair(rng, value):
    return f"{value:02x}" if rng.random() < 0.5 else f"{value:02X}"


def piece(rng):
    """The text of a piece, and the bytes that it allows, a list for each place."""
    kind = rng.randrange(5)
    if kind == 0:
        said = bytes(rng.choice([*range(0x20, 0x22), *range(0x23, 0x7F)]) for _ in range(rng.randrange(1, 6)))
        return f'"{said.decode()}"', [[it] for it in said]
    if kind == 1:
        values = [rng.randrange(256) for _ in range(rng.randrange(1, 5))]
        return "{" + perhaps(rng) + "".join(pair(rng, it) + perhaps(rng) for it in values) + "}", [values]
    if kind == 2:
        low = rng.randrange(256)
        high = rng.randrange(low, 256)
        ends = [pair(rng, low), pair(rng, high)]
        # Hardly a change of a text makes a range end before it begins.
        return "..".join(ends if rng.random() < 0.97 else ends[::-1]), [[*range(low, high + 1)]]
    if kind == 3:
        value = rng.randrange(256)
        return f"not{blank(rng)}{pair(rng, value)}", [[it for it in range(256) if it != value]]
    values = [rng.randrange(256) for _ in range(rng.randrange(1, 5))]
    return "".join(pair(rng, it) for it in values), [[it] for it in values]


def alternative(rng):
    """The text of an alternative, and a buffer that fits it."""
    fits, parts, place = {}, [], 0
    for _ in range(rng.randrange(1, 4)):
        place += rng.choice([0, 0, 1, 2, 7])
        said = [f"@{perhaps(rng)}{rng.choice(['', '', '0', '000'])}{place}"]
        for _ in range(rng.choice([1, 1, 1, 2, 3])):
            text, allowed = piece(rng)
            said.append(text)
            for values in allowed:
                fits[place] = rng.choice(values)
                place += 1
        parts.append(blank(rng).join(said))
    least = place + rng.choice([0, 0, 1, 5])
    buf = bytes(fits.get(at, rng.randrange(256)) for at in range(least))
    binary = f"{blank(rng)}and{blank(rng)}binary" if rng.random() < 0.2 else ""
    return f"{least}{perhaps(rng)}:{perhaps(rng)}" + f"{perhaps(rng)},{perhaps(rng)}".join(parts) + binary, buf


def name(rng):
    first, rest = "Ab9", "aZ0!#$&-^_.+"
    return rng.choice(first) + "".join(rng.choice(rest) for _ in range(rng.choice([0, 1, 3, 8, 125, 126, 127]) if rng.random() < 0.05 else rng.randrange(6)))


def relation(rng):
    """The words of a relation, a buffer that fits it, and the parent below which that is asked. Of what the model does not
    decide the buffer is none that is asked."""
    names, kind = [rng.choice(["flow", "flows", "svg", "or", "with", "x.y", "with3"]) for _ in range(rng.choice([1, 1, 2, 3]))], rng.randrange(9)
    one = rng.choice(names).encode()
    if kind == 0:
        texts = [rng.choice([[], [], ["with", '"urn:a"'], ["with", '"b"']]) for _ in names]
        said = [[name, *text] for name, text in zip(names, texts)]
        mark = rng.choice([b"", b"", b"<!-- c -->", b"<!DOCTYPE %s>" % one, b"<!DOCTYPE other>"])
        buf = rng.choice([b"", b"\xef\xbb\xbf"]) + b"<?xml version='1.0'?>" + mark + b"<" + rng.choice([b"", b"", b"p:"]) + one + rng.choice([b" x='urn:a'>", b">b", b"/>", b" b", b""])
        return ["root", ":", *joined(said)], buf, "xml"
    if kind == 1:
        first = rng.choice([b"", b"/usr/bin/", b"/usr/bin/env ", b"/usr/bin/env -S A=b "]) + one + rng.choice([b"", b"3", b"3.11"])
        return ["program", ":", *names], b"#!" + rng.choice([b"", b" "]) + first + rng.choice([b"\n", b"\r", b" -x\n", b""]), "sh"
    if kind == 2:
        said = [rng.choice([["is", f'"{name}"'], ["ends", "in", f'"{name}"'], ["has", "extra", "FE", "ca"]]) for name in names]
        name = rng.choice([b"", b"", b"a/"]) + one
        head = b"PK\3\4" + bytes(22) + len(name).to_bytes(2, "little") + rng.choice([b"\0\0", b"\2\0", b"\4\0"])
        return ["first", "entry", ":", *joined(said)], head + name + rng.choice([b"", b"\xfe\xca", b"\xfe\xca\0\0"]), "zip"
    if kind == 3:
        head = b"PK\3\4" + bytes(22) + len(one).to_bytes(2, "little") + b"\0\0"
        buf = b"PK\3\4" + bytes(rng.choice([0, 3, 30])) + rng.choice([b"", b"PK", b"PK\3\4"]) + head + one
        return ["entry", ":", *joined([[f'"{name}"'] for name in names])], buf[: len(buf) - rng.choice([0, 0, 0, 1])], "zip"
    if kind == 4:
        said = [pieces(rng, name.encode()) for name in names]
        for words in said:
            for other in rng.choice([[], [b"urn:a"], [b"urn:", b"a"], [b"\n", b"urn", b"a"], [b"\n"], [b"\n", b"u", b"r", b"a"]]):
                words += ["has", *pieces(rng, other)]
        return ["begins", ":", *joined(said)], rng.choice([b"", b"\xef\xbb\xbf", b"\xef\xbb"]) + one + rng.choice([b"", b" urn:a", b" urn:", b"\nurn:a"]), "-"
    if kind == 5:
        return ["text"], rng.choice([b"abc", b"a\0", b"\xff\xfe\0", b"a\x0b", b"a\x1b"]), "-"
    if kind == 6:
        said = [rng.choice([[f'"{name}"'], [f'"{name}"', "is", '"urn:a"']]) for name in names]
        parts = [rng.choice([b"{", b"{", b"{", b"["]), b'"%s"' % one, b":", rng.choice([b'"urn:a"', b'"urn:a', b"1", b""])]
        blanks = [rng.choice([b"", b"", b" ", b"\n\t", b"\r\n", b"\x0b"]) for _ in parts]
        return ["first", "key", ":", *joined(said)], rng.choice([b"", b"\xef\xbb\xbf"]) + b"".join(map(bytes.__add__, blanks, parts)), "-"
    if kind == 7:
        low, far = rng.choice([0, 10, 300, 65535]), rng.choice([0, 1, 92])
        number = rng.choice([low, low, low + 1, low - 1, 13])
        said = [[*pieces(rng, rng.choice([b"PE\0\0", b"NE"])), "with", str(low), "to", str(max(low, 13)), "at", str(far)] for _ in names]
        head = b"MZ" + bytes(58) + rng.choice([b"\x40\0\0\0", b"\x42\0\0\0"]) + rng.choice([b"", b"ab"]) + rng.choice([b"PE\0\0", b"NE"]).ljust(far, b"\0")
        return ["later", "header", ":", *joined(said)], head + (number % 65536).to_bytes(2, "little"), "exe"
    ids = [[pair(rng, rng.randrange(256)) for _ in range(16)] for _ in names]
    said = [
        "shared object", 'chunk "acTL" before "IDAT"', "first cue of SubRip", "dBASE header", "Java archive", "tar checksum", "JSON lines", "JSON",
        "first directory has tag C612", 'first directory has tag 014A and make "NIKON"', 'package with : "word/"', 'behind an ID3 tag : "fLaC"', "class id : " + " or ".join(" ".join(it) for it in ids),
    ]
    return rng.choice(said).split(), b"", "mp4"


def pieces(rng, text):
    """Words that write the text, in one piece or in several. Now and then these are more than a text may have."""
    cuts = sorted(rng.sample(range(1, len(text)), rng.randrange(min(3, len(text)))))
    found = [text[at:end] for at, end in zip([0, *cuts], [*cuts, len(text)])]
    if rng.random() < 0.05:
        found.append(b"x" * rng.choice([58, 60, 61, 62, 63, 64, 65]))
    return [f'"{it.decode()}"' if it.isalnum() and rng.random() < 0.7 else "".join(pair(rng, byte) for byte in it) for it in found]


def joined(said):
    """The words of alternatives, with "or" between them."""
    return [word for at, words in enumerate(said) for word in ([*["or"] * (at > 0), *words])]


def asking(rng, words):
    """The text of the words, with as many blanks as it may have."""
    text = words[0]
    for before, word in zip(words, words[1:]):
        text += (perhaps(rng) if ":" in (before, word) else blank(rng)) + word
    return text


def line(rng):
    """A line, and a buffer that its type accepts if there is one."""
    if rng.random() < 0.15:
        return rng.choice(["", " \t\r", "# a remark", "  #\tremark \xff\0", "\r"]), b""
    if rng.random() < 0.3:
        words, buf, parent = relation(rng)
        return asking(rng, [name(rng), f"{name(rng)}/{name(rng)}", rng.choice(notation.CLASSES), parent, *words]) + perhaps(rng), buf
    told = [alternative(rng) for _ in range(rng.choice([1, 1, 1, 2, 3]))]
    start, parent = rng.choice(STARTS)
    said = f"{blank(rng)}or{blank(rng)}".join(text for text, _ in told)
    words = [name(rng), f"{name(rng)}/{name(rng)}", rng.choice(notation.CLASSES), parent, said]
    buf = rng.choice(told)[1]
    if rng.random() < 0.6:
        # The built-in row accepts it too, if the signature leaves its bytes alone.
        buf = start + buf[len(start) :]
    return perhaps(rng) + "".join(word + blank(rng) for word in words[:-1]) + said + perhaps(rng), buf


def changed(rng, text):
    """The text with one to three changes."""
    for _ in range(rng.choice([1, 1, 1, 2, 3])):
        at = rng.randrange(len(text) + 1)
        kind = rng.randrange(5)
        if kind == 0:
            text = text[:at] + text[at + rng.randrange(1, 4) :]
        elif kind == 1:
            text = text[:at] + rng.choice(ODD) + text[at:]
        elif kind == 2:
            text = text[:at] + bytes([rng.randrange(256)]) + text[at + 1 :]
        elif kind == 3:
            text = text[:at]
        else:
            other = rng.randrange(len(text) + 1)
            text = text[:at] + text[other : other + rng.randrange(1, 20)] + text[at:]
    return text


def question(rng):
    """A text, and a buffer."""
    lines = [line(rng) for _ in range(rng.choice([0, 1, 1, 1, 2, 3, 8]))]
    text = rng.choice(["\n", "\n", "\r\n"]).join(it for it, _ in lines).encode("latin-1")
    if rng.random() < 0.6:
        text = changed(rng, text)
    buf = rng.choice(lines)[1] if lines and rng.random() < 0.9 else rng.choice(STARTS)[0]
    if buf and rng.random() < 0.3:
        at = rng.randrange(len(buf))
        buf = rng.choice([buf[:at], buf[:at] + bytes([rng.randrange(256)]) + buf[at + 1 :], buf + b"more"])
    return text, buf


def large():
    """Texts of a size that no hand writes."""
    good, digits = b'a b/c app - 4: @0 "abcd"', b"9" * 20
    yield good + b" " * 1_000_000 + b"or 1: @0 61", b"a"
    yield b"# " + b"x" * 1_000_000 + b"\n" + good, b"abcd"
    yield b"x" * 1_000_000, b""
    yield b'a b/c app - 1000000: @0 "' + b"x" * 1_000_000 + b'"', b"x" * 1_000_000
    yield b'a b/c app - 1000000: @0 "' + b"x" * 1_000_000, b""
    yield b"a b/c app - 1: @0 {" + b"00 " * 300_000 + b"}", b"\0"
    yield b"a b/c app - 1: @0 {" + b"00 " * 300_000, b"\0"
    yield b"a b/c app - 1: @0 00" + b" or 1: @0 01" * 10_000, b"\x01"
    yield b"\n" * 1_000_000 + b"x", b""
    yield (good + b"\n") * 4_000, b"abcd"
    yield (good + b"\r\n") * 4_000 + b"a b/c imago", b"abcd"
    for place in (digits, b"0" * 20, b"0" * 20 + b"7", b"18446744073709551616", b"4294967296", b"999999999", b"1000000000", b"-1", b"+1", b"1e3"):
        yield b"a b/c app - " + place + b": @0 61", b"abc"
        yield b"a b/c app - 999999999: @" + place + b" 61", b"abc"
    for mark in (b"\xef\xbb\xbf", b"\xff\xfe", b"\xfe\xff", b"\0", b"\x1a"):
        yield mark + good, b"abcd"
        yield good + mark, b"abcd"
        yield good + b"\n" + mark, b"abcd"
        yield b"#" + mark + b"\n" + good, b"abcd"


def wanted(text, buf, said):
    """What the library is to say of this pair. `said` has the built-in answer and the wider one, which are its own."""
    try:
        rows = notation.rows(text)
    except notation.Mistake as mistake:
        return [str(it) for it in mistake.args]
    found = notation.answer(rows, said[3] or "-", buf)
    return [*(found[:3] if found else said[4:]), *said[3:]]


def asked(program, pairs):
    """What the library says of each pair, as the fields of its line."""
    pack = b"".join(len(part).to_bytes(4, "little") + part for pair in pairs for part in pair)
    said = subprocess.run([program], input=pack, stdout=subprocess.PIPE, check=True).stdout.decode("ascii").split("\n")
    if len(said) != len(pairs) + 1:
        sys.exit(f"typed.py: {len(pairs)} questions, and {len(said) - 1} answers")
    return [it.split("\t") for it in said[:-1]]


def differing(program, pairs, told, counted):
    """How many pairs the library answers otherwise. The first few are shown."""
    count = 0
    for (text, buf), said in zip(pairs, asked(program, pairs)):
        right = wanted(text, buf, said)
        counted[said[2] if len(said) == 3 else "own" if said[:3] != said[4:] else "wider"] += 1
        if right != said:
            count += 1
            if count <= told:
                print(f"typed.py: of {text[:400]!r} ({len(text)} bytes) and {buf[:80]!r}\n  the library says {said}\n  the model says   {right}")
    return count


def reasons_of_the_code():
    """The reasons as the code has them."""
    (path,) = glob.glob(os.path.join(HERE, "../../crates/*/src/**/reason.rt"), recursive=True)
    with open(path, encoding="utf-8") as file:
        return {*re.findall(r'Reason::\w+ =>\s*(?:\{\s*)?"(.*)"', file.read())}


def wrong_examples(program):
    """How many examples of the page are not what it says."""
    with open(PAGE, encoding="utf-8") as file:
        page = file.read()
    lines = "".join(it + "\n" for it in re.findall(r"^    (.*)$", page, re.MULTILINE))
    told = re.findall(r"^\| (.*) \| `(.*)` \| (\d+) \|$", page, re.MULTILINE)
    wrong = [f"the page and the code differ: {it}" for it in reasons_of_the_code() ^ {reason for reason, _, _ in told}]
    said = asked(program, [(lines.encode(), b""), *((text.encode(), b"") for _, text, _ in told)])
    wrong += [f"the lines of the page: {said[0]}"] * (said[0][0] != "")
    wrong += [f"{text}: {it}" for (reason, text, column), it in zip(told, said[1:]) if it != ["1", column, reason]]
    for it in wrong:
        print(f"docs/NOTATION.md: {it}")
    return len(wrong)


def lines_of(name):
    with open(os.path.join(HERE, "../further", name), encoding="utf-8") as file:
        return file.read().splitlines()


def decoded(tokens):
    """The bytes of a buffer of the data: digits, and how often they stand."""
    parts = (it.partition("*") for it in tokens.split() if it != "-")
    return b"".join(bytes.fromhex(digits) * int(times or 1) for digits, _, times in parts)


def wrong_further(program, apart):
    """How many buffers, of those that stand so far apart, the text of the further rows answers otherwise than the rows do. Each
    type of the text has another extension here, which tells its answers from those of the library's own rows."""
    names, text = [], b""
    for it in lines_of("types.txt"):
        if not it.startswith("#"):
            extension, _, class_name, parent = it.split()[:4]
            names.append(f"{class_name.capitalize()}/{extension}{'' if parent == '-' else f' below {parent}'}")
            text += b"own-" + it.encode() + b"\n"
    rows = ["{0}/{2}{3}".format(*it[:3], "" if it[3] == "none" else f" below {it[3]}") for it in (line.split("\t") for line in lines_of("rows.tsv"))]
    wrong = [f"its rows are others than those of rows.tsv: {[*{*rows} ^ {*names}][:3]}"] * (names != rows)
    vectors = [line.split("\t") for line in lines_of("vectors.tsv")][::apart]
    for (how, _, row, shown), said in zip(vectors, asked(program, [(text, decoded(it[1])) for it in vectors])):
        is_own = said[2:3] != said[6:7]
        if len(said) == 3 or is_own != (row != "-") or f"{said[1]} {said[2].removeprefix('own-')}".strip() != shown.replace("unknown", ""):
            wrong.append(f"{how}: {said}, and not {shown}")
    for it in wrong:
        print(f"vectors/further/types.txt: {it}")
    return len(wrong), len(vectors)


def main():
    count = int(sys.argv[2]) if len(sys.argv) > 2 else 5_000
    rng, counted, wrong, asks = random.Random(int(sys.argv[3]) if len(sys.argv) > 3 else SEED), collections.Counter(), 0, 0
    wrong += wrong_examples(sys.argv[1])
    wrong_buffers, buffers = wrong_further(sys.argv[1], max(1, 500 // count))
    wrong += wrong_buffers
    for pairs in [[*large()], *([question(rng) for _ in range(min(10_000, count - at))] for at in range(0, count, 10_000))]:
        wrong += differing(sys.argv[1], pairs, 5, counted)
        asks += len(pairs)
    # Each reason is met often enough to mean something, and so is each kind of answer.
    few = [it for it in [*reasons_of_the_code(), "own", "wider"] if counted[it] < asks // 2500]
    if few:
        print(f"typed.py: too few texts with: {few}")
    print(f"{buffers} buffers asked of the further rows as a text")
    print(f"{asks} texts of types compared with the model, {wrong} differ")
    sys.exit(wrong + len(few) != 0)


if __name__ == "__main__":
    main()
