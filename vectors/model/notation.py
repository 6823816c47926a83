"""What a text describes of types, and what these say of a buffer: a model that was written from docs/NOTATION.md."""
import os
import re
from typing import NamedTuple

CLASSES = "app archive audio book doc font image text video".split()
with open(os.path.join(os.path.dirname(os.path.abspath(__file__)), "../rows.tsv"), encoding="utf-8") as _file:
    PARENTS = {it for line in _file for it in line.split("\t")[2:3]}
PARENT = b"|".join(re.escape(it.encode()) for it in [*PARENTS, "-"])
NAME = rb"[0-9A-Za-z][0-9A-Za-z!#$&^_.+-]{0,126}"
HEX = rb"[0-9A-Fa-f]{2}"
# What a signature is made of. A fault of a token is told where the token begins.
TOKENS = [
    (re.compile(rb'"([ !#-~]+)"'), "text"),
    (re.compile(rb"\{([^}]*)\}", re.DOTALL), "set"),
    (re.compile(rb"([,:@])"), "mark"),
    (re.compile(rb"([!#-+\--9;-?A-z|~]+)"), "word"),
]
# What a fault of each token is called.
FAULTS = [
    (re.compile(rb'"[ !#-~]*\Z'), "quotes do not close"),
    (re.compile(rb'""'), "a quoted text is empty"),
    (re.compile(rb"\{[^}]*\Z", re.DOTALL), "a set does not close"),
]
NO_BYTE = "a byte that is no printable ASCII, or stands where it cannot"


class Mistake(Exception):
    """What is wrong, at that line and column, both from 1."""

    def __init__(self, reason, column, line=0):
        super().__init__(line, column, reason)


class Row(NamedTuple):
    class_name: str
    mime_type: str
    extension: str
    parent: str
    alternatives: list


class Reader:
    """The tokens of a signature, from a place of its line on."""

    def __init__(self, line, place):
        self.line, self.place = line, place
        self.skip()

    def skip(self):
        while self.line[self.place : self.place + 1] in (b" ", b"\t", b"\r"):
            self.place += 1

    def mistake(self, reason):
        return Mistake(reason, self.place + 1)

    def peek(self):
        """The kind of the next token, what it says, and where it ends. The kind is `end` if there is none."""
        if self.place == len(self.line):
            return "end", b"", self.place
        for pattern, kind in TOKENS:
            if found := pattern.match(self.line, self.place):
                return kind, found[1], found.end()
        raise self.mistake(next((reason for pattern, reason in FAULTS if pattern.match(self.line, self.place)), NO_BYTE))

    def take(self):
        self.place = self.peek()[2]
        self.skip()

    def number(self, reason):
        kind, said, _ = self.peek()
        if kind == "end":
            raise self.mistake("the signature ends too early")
        if kind != "word" or not re.fullmatch(rb"0*[0-9]{1,9}", said):
            raise self.mistake(reason)
        return int(said)

    def mark(self, which, reason):
        kind, said, _ = self.peek()
        if kind == "end":
            raise self.mistake("the signature ends too early")
        if (kind, said) != ("mark", which):
            raise self.mistake(reason)
        self.take()


def octets(reader, digits):
    """The bytes that hexadecimal digits write."""
    if not re.fullmatch(rb"(?:[ \t\r]*%s)*[ \t\r]*" % HEX, digits):
        raise reader.mistake("bytes are two hexadecimal digits each")
    return bytes.fromhex(re.sub(rb"[ \t\r]", b"", digits).decode())


def piece(reader):
    """The sets of bytes that one piece allows, a set for each byte. The reader stands before the piece's last token then."""
    kind, said, _ = reader.peek()
    if kind == "end":
        raise reader.mistake("the signature ends too early")
    if kind == "mark":
        raise reader.mistake("bytes are wanted")
    if kind == "text":
        return [{it} for it in said]
    if kind == "set":
        found = octets(reader, said)
        if not found:
            raise reader.mistake("bytes are wanted")
        return [set(found)]
    if said == b"not":
        reader.take()
        kind, said, _ = reader.peek()
        if kind == "end":
            raise reader.mistake("the signature ends too early")
        if kind != "word":
            raise reader.mistake("bytes are wanted")
        if not re.fullmatch(HEX, said):
            raise reader.mistake("bytes are two hexadecimal digits each")
        return [set(range(256)) - {int(said, 16)}]
    if found := re.fullmatch(rb"(%s)\.\.(%s)" % (HEX, HEX), said):
        low, high = int(found[1], 16), int(found[2], 16)
        if high < low:
            raise reader.mistake("a range ends before it begins")
        return [set(range(low, high + 1))]
    return [{it} for it in octets(reader, said)]


def part(reader, least, end):
    """A part that begins at the end of the one before it or behind that: its place, and the sets of its bytes."""
    reader.mark(b"@", "a place is wanted, as in @0")
    place = reader.number("a place is wanted, as in @0")
    if place < end:
        raise reader.mistake("parts overlap")
    reader.take()
    allowed = []
    while True:
        more = piece(reader)
        if place + len(allowed) + len(more) > least:
            raise reader.mistake("place past the length")
        allowed += more
        reader.take()
        kind, said, _ = reader.peek()
        if kind == "end" or (kind, said) == ("mark", b",") or (kind, said) in (("word", b"or"), ("word", b"and")):
            return place, allowed


def alternative(reader):
    """The least length, the parts, and whether binary data is asked for."""
    least = reader.number("a length is wanted, as in 14:")
    reader.take()
    reader.mark(b":", "a length is wanted, as in 14:")
    parts, end = [], 0
    while True:
        parts.append(part(reader, least, end))
        end = parts[-1][0] + len(parts[-1][1])
        if reader.peek()[:2] == ("word", b"and"):
            reader.take()
            wanted(reader, b"binary")
            reader.take()
            if reader.peek()[0] != "end":
                wanted(reader, b"or")
            return least, parts, True
        if reader.peek()[:2] != ("mark", b","):
            return least, parts, False
        reader.take()


def wanted(reader, word):
    if reader.peek()[0] == "end":
        raise reader.mistake("the signature ends too early")
    if reader.peek()[:2] != ("word", word):
        raise reader.mistake("`and binary` is wanted, and `or` or the end behind it")


def is_fixed(one, buf):
    least, parts, binary = one
    has_bytes = len(buf) >= least and all(buf[place + at] in allowed for place, sets in parts for at, allowed in enumerate(sets))
    return has_bytes and (not binary or re.search(rb"[\0-\x08\x0B\x0E-\x1A\x1C-\x1F]", buf) is not None)


def first_name(buf):
    """Where the name of the first entry of a ZIP archive ends, and the name."""
    end = 30 + int.from_bytes(buf[26:28], "little")
    return (end, buf[30:end]) if len(buf) >= 30 and buf[:4] == b"PK\3\4" and end <= len(buf) else (0, None)


def has_extra(buf, two):
    end, name = first_name(buf)
    return name is not None and int.from_bytes(buf[28:30], "little") >= 2 and buf[end : end + 2] == two


def program(buf):
    """The name of the program of a script, without what tells its version."""
    if buf[:2] != b"#!":
        return None
    line = re.match(rb"[^\n\r]*", buf[2:])[0]
    # A word that reaches the end of the buffer may go on.
    words = re.findall(rb"[^ \t]+", line if len(line) < len(buf) - 2 else line[: len(line) - len(re.search(rb"[^ \t]*\Z", line)[0])])
    names = [it.rpartition(b"/")[2] for it in words]
    if names[:1] == [b"env"]:
        names = [name for word, name in zip(words[1:], names[1:]) if b"=" not in word and not word.startswith(b"-")]
    return names[0].rstrip(b"0123456789.") if names else None


def past_subset(buf, at):
    """Where the bracket of an internal subset closes that opens there, in neither quotes nor a comment nor an instruction."""
    sealed = re.compile(rb"\"[^\"]*\"|'[^']*'|<\?(?s:.*?)\?>|<!--(?s:.*?)-->")
    at += 1
    while at < len(buf) and buf[at] != ord("]"):
        if found := sealed.match(buf, at):
            at = found.end()
        elif re.compile(rb"[\"']|<\?|<!--").match(buf, at):
            return None
        else:
            at += 1
    return at + 1 if at < len(buf) else None


def past_declaration(buf, at):
    """Where the name of a document type begins that is declared there, and where its declaration ends."""
    if not (found := re.compile(rb"<!DOCTYPE[\t\n\r ]+(?=([^\t\n\r ]))[^>\[]*").match(buf, at)):
        return None
    name, at = found.start(1), found.end()
    if buf[at : at + 1] == b"[":
        if (at := past_subset(buf, at)) is None:
            return None
        at += len(buf[at:]) - len(buf[at:].lstrip(b"\t\n\r "))
    return (name, at + 1) if buf[at : at + 1] == b">" else None


def root(buf):
    """The local name of the root element, and what its tag has behind that."""
    at, declared = (3 if buf.startswith(b"\xef\xbb\xbf") else 0), None
    while True:
        if found := re.compile(rb"[\t\n\r ]+|<\?(?s:.*?)\?>|<!--(?s:.*?)-->").match(buf, at):
            at = found.end()
        elif declared is None and (found := past_declaration(buf, at)):
            declared, at = found
        else:
            break
    found = re.compile(rb"<([^\t\n\r />]+)(?=[\t\n\r />])").match(buf, at)
    if not found or found[1][:1] in b"!?":
        return None, b""
    if declared is not None and not re.compile(re.escape(found[1]) + rb"[\t\n\r >\[]").match(buf, declared):
        return None, b""
    local = found[1].rpartition(b":")[2]
    return (local or None), buf[found.end() :].partition(b">")[0]


def behind_tag(buf):
    """What stands behind an ID3 tag, and nothing if no whole tag stands first."""
    if buf[:3] != b"ID3" or len(buf) < 10 or any(byte >= 0x80 for byte in buf[6:10]):
        return b""
    size = 0
    for byte in buf[6:10]:
        size = size << 7 | byte
    return buf[10 + size :]


def has_entry(buf, name):
    """Whether an entry of that name stands somewhere."""
    headers = (it.start() for it in re.finditer(rb"(?=PK\x03\x04)", buf))
    return any(int.from_bytes(buf[at + 26 : at + 28], "little") == len(name) and buf[at + 30 :].startswith(name) for at in headers if at + 30 <= len(buf))


def begins(buf, text):
    return buf.startswith(text) or buf.startswith(b"\xef\xbb\xbf" + text)


def is_behind(buf, *texts):
    """Whether the texts stand first, one behind the other, with white space before each."""
    blank = rb"[ \t\n\r]*"
    return re.match(rb"(?:\xEF\xBB\xBF)?" + b"".join(blank + re.escape(it) for it in texts), buf) is not None


def has_header(buf, text, far, low, high):
    """Whether that stands at the place that the header of DOS names, and so far from there a number between these two."""
    place = int.from_bytes(buf[60:64], "little")
    number = buf[place + far : place + far + 2]
    return len(buf) >= 64 and buf[:2] == b"MZ" and buf[place:].startswith(text) and len(number) == 2 and low <= int.from_bytes(number, "little") <= high


def is_java(buf):
    """The first entry is in META-INF/: the manifest, or the folder and the manifest somewhere, or it has the extra field."""
    name = first_name(buf)[1]
    if name is None or not name.startswith(b"META-INF/"):
        return False
    manifest = b"META-INF/MANIFEST.MF"
    return name == manifest or name == b"META-INF/" and has_entry(buf, manifest) or has_extra(buf, b"\xfe\xca")


def is_text(buf):
    return buf[:2] in (b"\xfe\xff", b"\xff\xfe") or buf[:3] == b"\xef\xbb\xbf" or (buf != b"" and not re.search(rb"[\0-\x08\x0B\x0E-\x1A\x1C-\x1F]", buf))


# What each relation is called, what an alternative of it is, and whether a buffer fits one: by its words, of which quotes
# are left, and None where this model does not say so.
WORD, QUOTED = rb'[^\0"{},:@]+', rb'"[^"]*"'
PIECES = rb"(?:%s|(?:%s)+)(?:\0(?:%s|(?:%s)+))*" % (QUOTED, HEX, QUOTED, HEX)
NUMBER = rb"0*[0-9]{1,9}"
MOST_JOINED, MOST_NUMBER = 64, 65535
RELATIONS = [
    ('shared object', rb"", None),
    ('chunk "acTL" before "IDAT"', rb"", None),
    ('first cue of SubRip', rb"", None),
    ('dBASE header', rb"", None),
    ('Java archive', rb"", lambda buf, words: is_java(buf)),
    ('tar checksum', rb"", None),
    ('JSON lines', rb"", None),
    ('JSON', rb"", None),
    ('text', rb"", lambda buf, words: is_text(buf)),
    ('first directory has tag', HEX + HEX, None),
    ('first directory has tag', HEX + HEX + rb"\0and\0make\0" + PIECES, None),
    ('package with :', QUOTED, None),
    ('behind an ID3 tag :', QUOTED, lambda buf, words: behind_tag(buf).startswith(words[0][1:-1])),
    ('entry :', QUOTED, lambda buf, words: has_entry(buf, words[0][1:-1])),
    ('begins :', PIECES + rb"(?:\0has\0" + PIECES + rb"){0,3}", lambda buf, words: begins(buf, texts(words)[0]) and all(it in buf for it in texts(words)[1:])),
    ('later header :', PIECES + rb"\0with\0%s\0to\0%s\0at\0%s" % (NUMBER, NUMBER, NUMBER), lambda buf, words: has_header(buf, *texts(words[:-6]), *numbers(words))),
    ('first key :', QUOTED, lambda buf, words: is_behind(buf, b"{", words[0], b":")),
    ('first key :', QUOTED + rb"\0is\0" + QUOTED, lambda buf, words: is_behind(buf, b"{", words[0], b":", words[2])),
    ('program :', rb"%s(?:\0%s)*" % (WORD, WORD), lambda buf, words: program(buf) in words),
    ('first entry :', rb"is\0" + QUOTED, lambda buf, words: first_name(buf)[1] == words[1][1:-1]),
    ('first entry :', rb"ends\0in\0" + QUOTED, lambda buf, words: first_name(buf)[1] is not None and first_name(buf)[1].endswith(words[2][1:-1])),
    ('first entry :', rb"has\0extra\0%s\0%s" % (HEX, HEX), lambda buf, words: has_extra(buf, bytes.fromhex((words[2] + words[3]).decode()))),
    ('class id :', rb"(?:%s\0){15}%s" % (HEX, HEX), None),
    ('root :', WORD, lambda buf, words: root(buf)[0] == words[0]),
    ('root :', WORD + rb"\0with\0" + QUOTED, lambda buf, words: root(buf)[0] == words[0] and words[2][1:-1] in root(buf)[1]),
]


def texts(words):
    """The texts of pieces, with words "has" between them, or None if one has more than 64 bytes in several pieces or in digits."""
    found, whole = [b""], [True]
    for it in words:
        if it == b"has":
            found, whole = [*found, b""], [*whole, True]
        else:
            whole[-1] = found[-1] == b"" and it[:1] == b'"'
            found[-1] += it[1:-1] if it[:1] == b'"' else bytes.fromhex(it.decode())
    return found if all(is_whole or len(it) <= MOST_JOINED for it, is_whole in zip(found, whole)) else None


def numbers(words):
    """How far the number of a later header stands, and the least and the greatest that it may be."""
    low, high, far = (int(words[at]) for at in (-5, -3, -1))
    return far, low, high


def is_taken(name, words):
    """Whether texts and numbers are no longer and no greater than they may be."""
    if name == "begins :":
        return texts(words) is not None
    if name == "first directory has tag":
        return texts(words[3:]) is not None
    return name != "later header :" or texts(words[:-6]) is not None and max(numbers(words)) <= MOST_NUMBER


def group(reader):
    """The tokens up to the next "or" or the end, where they begin, and whether "or" follows."""
    begin, said = reader.mistake("the relation does not take this"), []
    while True:
        kind, text, _ = reader.peek()
        if kind == "end" and not said:
            raise reader.mistake("the signature ends too early")
        if kind == "end" or (kind, text) == ("word", b"or"):
            if kind != "end":
                reader.take()
            if not said:
                raise begin
            return said, begin, kind != "end"
        if len(said) == 24:
            raise reader.mistake("the relation does not take this")
        said.append({"text": b'"%s"', "set": b"{%s}"}.get(kind, b"%s") % text)
        reader.take()


def related(line, place):
    """The alternatives of a relation: each a test, if this model has one, and its words."""
    reader = Reader(line, place)
    first = reader.mistake("unknown relation")
    said, begin, goes_on = group(reader)
    name = next((it for it, _, _ in RELATIONS if said[: len(it.split())] == it.encode().split()), None)
    if name is None:
        raise first
    said = said[len(name.split()) :]
    found = []
    while True:
        for other, pattern, test in RELATIONS:
            if other == name and re.fullmatch(pattern, b"\0".join(said)) and is_taken(name, said):
                found.append((test, said))
                break
        else:
            raise begin
        if not goes_on:
            return found
        said, begin, goes_on = group(reader)


def signature(line, place):
    reader = Reader(line, place)
    if re.compile(rb"[A-Za-z]").match(line, reader.place):
        return related(line, place)
    alternatives = []
    while True:
        alternatives.append(alternative(reader))
        if reader.peek()[0] == "end":
            return alternatives
        # What ends an alternative and is no end is "or".
        reader.take()


def row(line):
    """The row of a line, or None."""
    if re.fullmatch(rb"[ \t\r]*(?:#.*)?", line, re.DOTALL):
        return None
    words = [*re.finditer(rb"[^ \t\r]+", line)]

    def word(number, pattern, reason):
        if number >= len(words):
            raise Mistake("a type has an extension, a MIME type, a class, a parent and a signature", len(line) + 1)
        if not re.fullmatch(pattern, words[number][0], re.DOTALL):
            raise Mistake(reason, words[number].start() + 1)
        return words[number][0].decode()

    extension = word(0, NAME, "no extension")
    mime_type = word(1, NAME + b"/" + NAME, "no MIME type")
    class_name = word(2, "|".join(CLASSES).encode(), "unknown class")
    parent = word(3, PARENT, "no such parent")
    return Row(class_name, mime_type, extension, parent, signature(line, words[3].end()))


def rows(text):
    """The rows that the text describes. Raises the first mistake."""
    found = []
    for number, line in enumerate(text.split(b"\n"), 1):
        try:
            found.append(row(line))
        except Mistake as mistake:
            _, column, reason = mistake.args
            raise Mistake(reason, column, number) from None
    return [it for it in found if it]


def accepts(one, buf):
    return any(is_fixed(it, buf) if len(it) == 3 else it[0] is not None and it[0](buf, it[1]) for it in one.alternatives)


def answer(of, parent, buf):
    """The first row that accepts the buffer, whose built-in answer has the extension `parent`, or is none for "-"."""
    return next((it for it in of if it.parent == parent and accepts(it, buf)), None)
