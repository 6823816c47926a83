#!/usr/bin/env python3
"""Compares what the library says of JSON, of encodings and of roots with Python's own json, decoder and expat.

usage: texts.py PROGRAM [COUNT]. PROGRAM is c/vectors/asked.c over the library. COUNT buffers of each kind, 100,000 if
left out, are made from a seed: texts that are whole, cut anywhere, or changed at a byte or two."""
import json
import os
import random
import re
import subprocess
import sys
from xml.parsers import expat

ROWS = os.path.join(os.path.dirname(os.path.abspath(__file__)), "../further/rows.tsv")
BUILT_IN = os.path.join(os.path.dirname(os.path.abspath(__file__)), "../rows.tsv")
SEED = 20261125
MARK = b"\xEF\xBB\xBF"
BLANK = b" \t\n\r"


def changed(rng, buf, alphabet):
    """The buffer with a byte or two replaced, put in or left out, or as it is."""
    for _ in range(rng.choice([0, 0, 0, 1, 1, 2])):
        if not buf:
            break
        at = rng.randrange(len(buf))
        put = rng.choice([bytes([rng.choice(alphabet)]), b""])
        buf = buf[:at] + put + buf[at + rng.randrange(2) :]
    return buf


def cut(rng, buf):
    return buf[: rng.randrange(len(buf) + 1)] if rng.random() < 0.7 else buf


# What can follow so that a character which is cut at the end is whole.
CHARACTERS = [b"", b"\x80", b"\x80\x80", b"\x80\x80\x80", b"\xa0\x80", b"\x90\x80\x80"]

# ---- JSON. Python's json decides whole texts, and a cut one is completed in all ways that matter.

STRINGS = ["a", "b", "é", "€", "\U0001F600", "\\n", "\\u00e9", "\\ud83d", '\\"', "\\\\", "\x7f", " ", "/", "\\/"]
NUMBERS = ["0", "-0", "12", "-3.5", "1e9", "1E+5", "2.5e-3", "10", "7"]
JSON_BYTES = list(b'[]{}:,"\\ \n0123456789.eE+-tfnrualse/bx') + [0, 0x1F, 0x7F, 0x80, 0x9F, 0xA0, 0xBF, 0xC0, 0xC2, 0xE0, 0xED, 0xEF, 0xF0, 0xF4, 0xFF]
FIRST_STRING = re.compile(rb'"(?:[^"\\\x00-\x1f]|\\["\\/bfnrt]|\\u[0-9a-fA-F]{4})*"')
ESCAPES = [b"", b"n", b"u0000", b"0", b"00", b"000", b"0000"]
STRING_ENDS = [it + b'"' for it in ESCAPES]
WORD_ENDS = [b"", b"0", b"+0", b"rue", b"ue", b"e", b"alse", b"lse", b"se", b"ull", b"ll", b"l"]
VALUES = [b"", b":0", b"0", b'"":0']


def spaces(rng):
    return "".join(rng.choice(" \t\n\r") for _ in range(rng.choice([0, 0, 0, 1, 2])))


def string(rng):
    return '"' + "".join(rng.choice(STRINGS) for _ in range(rng.randrange(4))) + '"'


def value(rng, depth):
    kind = rng.random()
    if depth == 0 or kind < 0.45:
        return rng.choice([string(rng), rng.choice(NUMBERS), rng.choice(["true", "false", "null"])])
    if kind < 0.72:
        return "[" + spaces(rng) + ",".join(value(rng, depth - 1) + spaces(rng) for _ in range(rng.randrange(4))) + "]"
    member = (string(rng) + spaces(rng) + ":" + value(rng, depth - 1) + spaces(rng) for _ in range(rng.randrange(4)))
    return "{" + spaces(rng) + ",".join(member) + "}"


def text(rng):
    """An array or an object."""
    return "[" + value(rng, 3) + "]" if rng.random() < 0.5 else '{"k":' + value(rng, 3) + "}"


def json_buffer(rng):
    made = spaces(rng) + text(rng)
    while rng.random() < 0.25:
        made += rng.choice(["\n", "\n", " \n", "\r\n\n", "", " "]) + text(rng)
    buf = (MARK if rng.random() < 0.1 else b"") + (made + spaces(rng)).encode()
    return changed(rng, cut(rng, buf), JSON_BYTES)


def refuse(word):
    raise ValueError(word)


def is_whole(buf):
    """One text that begins with a bracket. None here is nested deep."""
    if buf.lstrip(BLANK)[:1] not in (b"[", b"{"):
        return False
    try:
        json.loads(buf.decode(), parse_constant=refuse)
    except ValueError:
        return False
    return True


# Python's json looks no further than this beyond the place that it names, but for the end of a string.
LOOKED_AT = 12


def is_lost(buf):
    """A fault stands before its end, so that no bytes behind it mend it."""
    try:
        json.loads(buf.decode(), parse_constant=refuse)
    except UnicodeDecodeError as fault:
        return fault.start + 4 <= len(buf)
    except json.JSONDecodeError as fault:
        return fault.pos + LOOKED_AT < len(fault.doc) and not fault.msg.startswith("Unterminated string")
    except ValueError:
        pass
    return False


def closing(buf):
    """The brackets that are open at its end, closed, and whether it ends in a string."""
    opened, in_string, escaped = [], False, False
    for byte in buf:
        if in_string:
            in_string = escaped or byte != 0x22
            escaped = byte == 0x5C and not escaped
        elif byte == 0x22:
            in_string = True
        elif byte in b"[{":
            opened.append(byte)
        elif byte in b"]}" and opened:
            opened.pop()
    return bytes(byte + 2 for byte in reversed(opened)), in_string


def can_be(buf):
    """Some bytes can follow so that the whole is one text."""
    if is_lost(buf):
        return False
    closed, in_string = closing(buf)
    ends = [it + end for it in CHARACTERS if is_utf8(buf + it) for end in STRING_ENDS] if in_string else WORD_ENDS
    return any(is_whole(buf + end + rest + closed) for end in ends for rest in VALUES)


def has_token(buf):
    """A whole token stands first, behind white space."""
    buf = buf.lstrip(BLANK)
    if buf[:1] and buf[:1] in b"[]{}:," or buf.startswith((b"true", b"false", b"null")) or FIRST_STRING.match(buf):
        return True
    number = re.match(rb"[-+.0-9eE]+", buf)
    return bool(number) and number.end() < len(buf)


def is_json(buf):
    buf = buf.removeprefix(MARK)
    opened = buf.lstrip(BLANK)
    return opened[:1] in (b"[", b"{") and has_token(opened[1:]) and can_be(buf)


def text_end(buf):
    """Where the first text ends, as its brackets say, or None."""
    for end in (it.end() for it in re.finditer(rb"[]}]", buf)):
        if not closing(buf[:end])[0] and FIRST_STRING.sub(b"", buf[:end]).count(b'"') == 0:
            return end
    return None


def is_lines(buf):
    left, count = buf.removeprefix(MARK).lstrip(BLANK), 0
    while left:
        count += 1
        end = text_end(left)
        if end is None:
            return count >= 2 and left[:1] in (b"[", b"{") and can_be(left)
        if not is_whole(left[:end]):
            return False
        behind = left[end:].lstrip(BLANK)
        if behind and b"\n" not in left[end : len(left) - len(behind)]:
            return False
        left = behind
    return count >= 2


# ---- encodings


def encoded_buffer(rng):
    made = "".join(rng.choice("ab \nÄß€\U0001F600\x7f") for _ in range(rng.randrange(24)))
    buf = rng.choice([b"", b"", b"", MARK, b"\xFF\xFE", b"\xFE\xFF"]) + made.encode()
    return changed(rng, cut(rng, buf), [0, 0x0B, 0x1B, 0x1F, 0x41, 0x80, 0x9F, 0xA0, 0xBF, 0xC0, 0xC1, 0xC2, 0xE0, 0xED, 0xEF, 0xF0, 0xF4, 0xF5, 0xFE, 0xFF])


def is_utf8(buf):
    try:
        buf.decode()
    except UnicodeDecodeError:
        return False
    return True


def encoding(buf):
    for mark, name in [(b"\xFF\xFE", "utf-16le"), (b"\xFE\xFF", "utf-16be")]:
        if buf.startswith(mark):
            return name
    if not buf.startswith(MARK) and (not buf or re.search(rb"[\x00-\x08\x0b\x0e-\x1a\x1c-\x1f]", buf)):
        return ""
    if buf.isascii():
        return "us-ascii"
    return "utf-8" if any(is_utf8(buf + end) for end in CHARACTERS) else ""


# ---- roots. Of a prolog that XML allows expat tells the root; a tag that is cut behind its name is completed.

NAMES = ["svg", "svg", "s:svg", "svgs", "SVG", "kml", "xsvg", "a:kml"]
SUBSETS = ["", "", "[]", " [ ] ", "[<!ELEMENT g (#PCDATA)>]", " [<!ENTITY a ']>'>]\n", "[<!ENTITY a \"'\">]", "[<!-- don't ]> --><?pi \"]> ?>]"]
TAG_ENDS = [b">", b'">', b"'>", b'="">', b'"">']


def markup_buffer(rng):
    name = rng.choice(NAMES)
    parts = [rng.choice([" ", "\n", "\t\r\n", "<!-- a > b -->", "<!---->", "<?pi a > b?>", "<?pi?>"]) for _ in range(rng.randrange(5))]
    if rng.random() < 0.3:
        parts.insert(rng.randrange(len(parts) + 1), f"<!DOCTYPE {name}" + rng.choice(["", " ", ' SYSTEM "x.dtd"']) + rng.choice(SUBSETS) + ">")
    if rng.random() < 0.4:
        parts.insert(0, '<?xml version="1.0"?>')
    attributes = rng.choice(["", " ", ' a="1"', "\n b='>'", ' a="1" b="2"'])
    buf = (MARK if rng.random() < 0.2 else b"") + ("".join(parts) + f"<{name}{attributes}" + rng.choice([">", "/>", "><g/>"])).encode()
    return cut(rng, buf)


def first_element(buf):
    found = []
    parser = expat.ParserCreate()
    parser.StartElementHandler = lambda name, attributes: found.append(name)
    try:
        parser.Parse(buf, True)
    except expat.ExpatError:
        pass
    return found[0] if found else None


def has_svg(buf):
    name = first_element(buf)
    if name is None and not re.search(rb"<[^\s/>]*\Z", buf):
        name = next(filter(None, (first_element(buf + end) for end in TAG_ENDS)), None)
    return name is not None and name.rpartition(":")[2] == "svg"


def row_number(name):
    """The number of the row of that extension without a parent, counted from the built-in ones on."""
    with open(BUILT_IN, encoding="utf-8") as built_in, open(ROWS, encoding="utf-8") as rows:
        count = sum(1 for _ in built_in)
        return next(count + i for i, row in enumerate(rows) if row.split("\t")[2:4] == [name, "none"])


def fields(line):
    """Which rows accept a buffer, and how it is encoded."""
    rows, _, _, name = line.split(" ", 3)
    return rows, name


def main():
    program, count = sys.argv[1], int(sys.argv[2]) if len(sys.argv) > 2 else 100_000
    rng = random.Random(SEED)
    kinds = [("JSON", json_buffer), ("encodings", encoded_buffer), ("roots", markup_buffer)]
    buffers = [[make(rng) for _ in range(count)] for _, make in kinds]
    pack = b"".join(len(it).to_bytes(2, "little") + it for its in buffers for it in its)
    rows = [str(row_number(it)) for it in ("json", "ndjson", "svg")]
    said = iter(subprocess.run([program, *rows], input=pack, stdout=subprocess.PIPE, check=True).stdout.decode().split("\n"))
    answers = [
        lambda buf, rows, name: ((is_json(buf), is_lines(buf)), (rows[0] == "1", rows[1] == "1")),
        lambda buf, rows, name: (encoding(buf), name),
        lambda buf, rows, name: (has_svg(buf), rows[2] == "1"),
    ]
    differing = 0
    for (kind, _), its, pair in zip(kinds, buffers, answers):
        wrong = [buf for buf in its for wanted, told in [pair(buf, *fields(next(said)))] if wanted != told]
        print(f"{kind}: {count} buffers by Python, {len(wrong)} differ" + "".join(f", as {it!r}" for it in wrong[:3]))
        differing += len(wrong)
    return 1 if differing else 0


if __name__ == "__main__":
    sys.exit(main())
