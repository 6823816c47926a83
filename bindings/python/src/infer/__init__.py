"""The type of a file from its first bytes, by the library libinfer.

>>> import infer
>>> infer.guess_mime(b"\\xff\\xd8\\xff")
'image/jpeg'

The names are those of filetype.py: `guess` takes a path, bytes or a file that is open for reading bytes, and answers a
`Type` or None. `infer.magic` has the names of python-magic, and `infer.aliases` other names of the types."""
from __future__ import annotations

import enum
import errno
import importlib
import os
from collections.abc import Iterable, Iterator, Sized
from itertools import takewhile
from typing import NamedTuple, Union

from . import _library
from ._source import FRONT, Buffer, Contents, Readable, Source, Whole, get_bytes, get_contents, get_front, get_piece

__all__ = [
    "Evidence", "FRONT", "Named", "NamedType", "Oddity", "Range", "Readable", "Sniffer", "Source", "Standing", "TYPES", "Type", "Types", "TypesError", "Verdict", "Whole", "add_type", "application_match", "application_matchers",
    "archive_match", "archive_matchers", "audio_match", "audio_matchers", "document_match", "document_matchers", "encoding", "evidence", "font_match", "font_matchers",
    "further_types", "get_bytes", "get_signature_bytes", "get_type", "guess", "guess_extension", "guess_mime", "image_match", "image_matchers",
    "is_app", "is_archive", "is_audio", "is_book", "is_decided", "is_document", "is_extension", "is_extension_supported", "is_font",
    "is_image", "is_mime", "is_mime_supported", "is_video", "line", "match", "may_become", "named", "oddities", "sample", "signature", "types", "verdict", "version", "video_match",
    "video_matchers",
]


class Type:
    """A type: its MIME type, its usual extension without a dot, and its class, such as "image".

    A type of your own is a subclass with a `match`, and `add_type` takes an instance of it."""

    def __init__(self, mime: str, extension: str, group: str = "custom") -> None:
        self._values = (mime, extension, group)

    @property
    def mime(self) -> str:
        """The MIME type."""
        return self._values[0]

    @property
    def extension(self) -> str:
        """The usual extension, without a dot."""
        return self._values[1]

    @property
    def group(self) -> str:
        """The class."""
        return self._values[2]

    # As filetype.py's classes have them.
    MIME, EXTENSION = mime, extension

    def is_mime(self, mime: str) -> bool:
        """Whether this is its MIME type."""
        return self.mime == mime

    def is_extension(self, extension: str) -> bool:
        """Whether this is its usual extension."""
        return self.extension == extension

    def match(self, buf: Buffer) -> bool:
        """Whether the type accepts the first bytes. It need not be the answer of `guess`."""
        if self._values not in _rows_of:
            raise NotImplementedError(f"{self!r} is no type of the library, so its class has to say what `match` answers")
        return _accepts(_rows_of[self._values], get_piece(buf))

    def __iter__(self) -> Iterator[str]:
        return iter(self._values)

    def __eq__(self, other: object) -> bool:
        return isinstance(other, Type) and self._values == other._values

    def __hash__(self) -> int:
        return hash(self._values)

    def __repr__(self) -> str:
        return f"{type(self).__name__}(mime={self.mime!r}, extension={self.extension!r}, group={self.group!r})"


version: str
"""The version of the library."""
_texts, _built_in, version = _library.texts()
__version__ = version
_all_rows = tuple(Type(*texts) for texts in _texts)
_rows = _all_rows[:_built_in]
_rows_of = {tuple(kind): [row] for row, kind in enumerate(_rows)}
# Several further rows can show the same. One that shows what a built-in row does is not asked by `match`.
for _row, _kind in enumerate(_all_rows[_built_in:], _built_in):
    if _kind not in _rows:
        _rows_of.setdefault(tuple(_kind), []).append(_row)
_rows_by_extension: dict[str, list[int]] = {}
# The first row with each MIME type and with each extension.
_first_rows: dict[tuple[str, str | None], int] = {}
for _row, _kind in enumerate(_all_rows):
    _rows_by_extension.setdefault(_kind.extension, []).append(_row)
    _first_rows.setdefault(("mime", _kind.mime), _row)
    _first_rows.setdefault(("extension", _kind.extension), _row)
types: list[Type] = list(_rows)
"""All types, in the order in which they are asked. `guess` asks those that stand before the library's own too."""
TYPES = types
further_types: tuple[Type, ...] = tuple(dict.fromkeys(_all_rows[_built_in:]))
"""The types that only the wider answer knows. One of them can show what one of `types` does."""


def _accepts(rows: Iterable[int], front: Union[bytes, Whole]) -> bool:
    return any(_library.accepts(front, len(front), row) for row in rows)


def _fits(kind: Type, front: Union[bytes, Whole]) -> bool:
    """Whether the type accepts these bytes. One of your own is handed the first of them."""
    rows = _rows_of.get(tuple(kind)) if type(kind) is Type else None
    return _accepts(rows, front) if rows else kind.match(get_bytes(front))


def _of_group(group: str) -> tuple[Type, ...]:
    return tuple(kind for kind in _rows if kind.group == group)


application_matchers = _of_group("app")
archive_matchers = _of_group("archive")
audio_matchers = _of_group("audio")
document_matchers = _of_group("doc")
font_matchers = _of_group("font")
image_matchers = _of_group("image")
video_matchers = _of_group("video")


def _added() -> Iterator[Type]:
    """The types that stand before the library's."""
    return takewhile(lambda kind: kind is not _rows[0], types)


def _accepting(obj: Source) -> Iterator[Type]:
    """Those of them that accept the first bytes. As in filetype.py none is asked about nothing, so `match` may look at a byte."""
    front = get_bytes(obj)
    return (kind for kind in _added() if front and kind.match(front))


def add_type(instance: Type) -> None:
    """Puts a type of your own before all others."""
    if not isinstance(instance, Type):
        raise TypeError(f"hand over an instance of a subclass of infer.Type, and not {type(instance).__name__}")
    types.insert(0, instance)


def get_signature_bytes(path: Union[str, os.PathLike[str], os.PathLike[bytes]]) -> bytes:
    """The first 8192 bytes of the file at that path."""
    return get_bytes(path)


def signature(array: Buffer) -> bytes:
    """The first 8192 bytes of these."""
    return get_piece(array)


def guess(obj: Source, more: bool = False) -> Type | None:
    """The type of the first bytes, or None. With `more` it is the wider answer, which can be a type beyond `types`."""
    front = get_front(obj)
    if types[0] is not _rows[0] and (kind := next(_accepting(front), None)):
        return kind
    row = _library.more_position(front, len(front)) if more else _library.position(front, len(front))
    return _all_rows[row] if row >= 0 else None


def guess_mime(obj: Source, more: bool = False) -> str | None:
    """The MIME type of what `guess` answers, or None."""
    kind = guess(obj, more)
    return kind.mime if kind else None


def guess_extension(obj: Source, more: bool = False) -> str | None:
    """The usual extension of what `guess` answers, or None."""
    kind = guess(obj, more)
    return kind.extension if kind else None


def encoding(obj: Source) -> str | None:
    """How the text is encoded, by its IANA name: us-ascii, utf-8, utf-16le or utf-16be. It is None if the first bytes are
    no text, or text of another encoding. A character that is cut at the end makes no difference."""
    return _library.encoding(get_front(obj)) or None


class Verdict(NamedTuple):
    """An answer, and whether it stays."""

    type: Type | None
    """What `guess` answers."""
    is_final: bool
    """Whether no bytes that may follow can change it."""


def verdict(obj: Source) -> Verdict:
    """What `guess` answers, and whether no bytes that may follow can change it. With added types that is never said."""
    front = get_front(obj)
    if types[0] is not _rows[0]:
        return Verdict(guess(front), False)
    row, is_final = _library.verdict(front)
    return Verdict(_rows[row] if row >= 0 else None, is_final)


def is_decided(obj: Source, more: bool = False) -> bool:
    """Whether no bytes that may follow can change what `guess` answers. It is told exactly, and with `more`, of the wider
    answer, it can be false although none can. With added types it is never said."""
    front = get_front(obj)
    ask = _library.more_is_decided if more else _library.is_decided
    return types[0] is _rows[0] and ask(front, len(front))


def may_become(obj: Source, ext: str, more: bool = False) -> bool:
    """Whether some bytes that may follow make some type with this extension accept. It need not be the answer of `guess`
    then. With `more` the types beyond `types` are asked too: of these, as of added ones, it can be true although none do."""
    front = get_front(obj)
    ask = _library.more_may_become if more else _library.may_become
    rows = _rows_by_extension.get(ext, ())
    return any(kind.extension == ext for kind in _added()) or any(ask(front, len(front), row) for row in rows)


class Range(NamedTuple):
    """Bytes that decide an answer."""

    place: int
    """Where the first of them stands."""
    length: int
    """How many they are."""
    step: int
    """How far each other is behind the one before: 1 but for a search."""
    type: Type | None
    """The type of which they tell. None is that of the first byte, which rules out all types that begin with another."""
    accepts: bool
    """Whether it accepts by these bytes: this is the answer, or the built-in one that it makes more exact. Otherwise they rule it
    out."""


class Evidence(NamedTuple):
    """What decides an answer: bytes, and what is needed of their length."""

    type: Type | None
    """The answer, as `guess` tells it."""
    ranges: tuple[Range, ...]
    """Which bytes."""
    wanted: int
    """How many ranges are wanted. If there are fewer, they are not enough."""
    least: int
    """The least length that is needed."""
    is_exact: bool
    """Whether just the length that there is is needed."""


def evidence(obj: Source, more: bool = False) -> Evidence:
    """What decides the answer of `guess`: all bytes that have these in the same places, and such a length, have it too. Types
    that `add_type` took are not asked.

    >>> [(it.place, it.length, it.type and it.type.extension) for it in infer.evidence(b"GIF89a").ranges]
    [(0, 3, 'gif')]"""
    front = get_front(obj)
    row, ranges, wanted, least, is_exact = _library.evidence(front, more)
    accepting = {row, _library.position(front, len(front))} - {-1}
    told = tuple(Range(place, length, step, _all_rows[of] if of >= 0 else None, of in accepting) for place, length, step, of in ranges)
    return Evidence(_all_rows[row] if row >= 0 else None, told, wanted, least, is_exact)


def sample(kind: Type) -> bytes | None:
    """A short buffer whose answer is this type, or whose wider answer is. It is None if no buffer has it, and of a type
    that is not the library's."""
    return next(filter(None, map(_library.sample, _rows_of.get(tuple(kind), []))), None)


class Standing(str, enum.Enum):
    """What a name did beside the bytes of its file. The value is its name as a text."""

    AGREE = "agree"
    """The bytes are of the type that the name has."""
    NAME_REFINES = "name refines"
    """They may begin a file of the type that the name has, which is told."""
    BYTES_REFINE = "bytes refine"
    """They are of a finer kind of the type that the name has. Theirs is told."""
    BYTES_ALONE = "bytes alone"
    """The name says nothing, and the bytes have a type."""
    NAME_ALONE = "name alone"
    """No type accepts the bytes, and they may be of the type that the name has."""
    CONTRADICTS = "contradicts"
    """The bytes are not of a type that the name has."""
    NOTHING = "nothing"
    """Neither says anything."""

    def __str__(self) -> str:
        return self.value


class NamedType(NamedTuple):
    """A type that `named` tells."""

    mime: str
    """The MIME type."""
    extension: str | None
    """The usual extension, without a dot, or None if only names tell of the type."""
    is_own_name: bool
    """Whether nobody else names it, so that it tells files apart and is not to be sent."""


class _Named(NamedTuple):

    standing: Standing
    """What the name did."""
    type: NamedType | None
    """The type, or None if none is told."""
    type_of_name: NamedType | None
    """The type that the name has first, whatever the bytes are, or None."""
    type_of_bytes: Type | None
    """The wider answer, which the bytes have whatever the name is, or None."""


class Named(_Named):
    """What a name and bytes tell. As a text it is the line that `infer_label` prints."""

    _asked: tuple[bytes, Sized] | None = None

    def __str__(self) -> str:
        return _library.line(*self._asked, 0, False) if self._asked else repr(self)

    def to_dict(self) -> dict[str, object]:
        """The same as JSON has it: dictionaries of texts, as the bindings for Go and Rust write them.

        >>> infer.named("main.py", b"import os").to_dict()["type"]
        {'mime': 'text/x-python', 'extension': 'py', 'own': False}"""
        of_name, of_bytes = ("mime", "extension", "own"), ("mime", "extension", "class")
        parts = zip(self._fields[1:], (of_name, of_name, of_bytes), self[1:])
        return {"standing": self.standing.value} | {name: dict(zip(keys, it)) if it else None for name, keys, it in parts}


_standings = tuple(Standing)
Name = Union[str, bytes, "os.PathLike[str]", "os.PathLike[bytes]"]


def _bytes_of_name(name: Name) -> bytes:
    text = os.fspath(name)
    if isinstance(text, str):
        try:
            return str.encode(text, "utf-8", "surrogateescape")
        except UnicodeEncodeError:
            # A name that no system gives still has bytes.
            return _encoded(text)
    return memoryview(text).tobytes()


def _named_front(name: Name, obj: Contents | None) -> Union[bytes, Whole]:
    return get_front(os.fsdecode(name)) if obj is None else get_contents(obj)


def named(name: Name, obj: Contents | None = None) -> Named:
    """What a file's name and its first bytes tell. Without bytes the name is a path, whose file is read. The bytes win: a
    name only chooses among what they leave open. Types that `add_type` took are not asked.

    >>> infer.named("main.py", b"import os").type.mime
    'text/x-python'"""
    text = _bytes_of_name(name)
    front = _named_front(name, obj)
    standing, row, told, of_name = _library.named(text, front)
    found = Named(_standings[standing], NamedType(*told) if told else None, NamedType(*of_name) if of_name else None, _all_rows[row] if row >= 0 else None)
    found._asked = text, front
    return found


_forms = ("text", "mime", "json", "csv")


def line(name: Name, obj: Contents | None = None, *, form: str = "text", why: bool = False) -> str:
    """The line that `infer_label` prints of a file's name and its first bytes, as "text", "mime", "json" or "csv", and with
    the bytes that decide if `why` is true. Without bytes the name is a path, whose file is read. Nothing of a name moves a
    cursor or is hidden.

    >>> infer.line("main.py", b"import os")
    'main.py: text/x-python py, us-ascii'"""
    return _library.line(_bytes_of_name(name), _named_front(name, obj), _forms.index(form), why)


class Oddity(enum.Flag):
    """What can be odd about a name. Who sees a name with one of the first two is misled."""

    CONTROL = 1
    """A control character of ASCII."""
    DIRECTION = 2
    """A mark of the direction of writing, by which gnp.exe can be shown as exe.png."""
    END = 4
    """The base ends in a dot or a blank, which Windows leaves out."""
    TWO_EXTENSIONS = 8
    """The last part and an earlier one are extensions, as in shell.php.jpg. Honest names have that too."""


def oddities(name: Name) -> Oddity:
    """What is odd about a name. It changes nothing of what `named` tells.

    >>> infer.Oddity.TWO_EXTENSIONS in infer.oddities("shell.php.jpg")
    True"""
    text = _bytes_of_name(name)
    return Oddity(_library.oddities(text, len(text)))


class Sniffer:
    """The type of bytes that come in pieces, of which the first 8192 are kept.

    >>> sniffer = infer.Sniffer()
    >>> sniffer.push(b"GIF89a")
    >>> sniffer.guess_mime(), sniffer.is_decided()
    ('image/gif', False)"""

    def __init__(self) -> None:
        self.kept = b""
        """The first bytes of what was pushed, at most 8192."""

    def push(self, piece: Buffer) -> None:
        """Takes the next bytes."""
        front = get_piece(piece)
        if not self.is_full():
            self.kept = (self.kept + front)[:FRONT]

    def is_full(self) -> bool:
        """Whether 8192 bytes are kept, so that no more are looked at."""
        return len(self.kept) == FRONT

    def is_decided(self, more: bool = False) -> bool:
        """Whether no bytes that may follow can change the answer, as the function `is_decided` says."""
        return is_decided(self.kept, more)

    def guess(self, more: bool = False) -> Type | None:
        """The type of what is kept, or None."""
        return guess(self.kept, more)

    def guess_mime(self, more: bool = False) -> str | None:
        """Its MIME type, or None."""
        return guess_mime(self.kept, more)

    def guess_extension(self, more: bool = False) -> str | None:
        """Its extension, or None."""
        return guess_extension(self.kept, more)

    def named(self, name: Name) -> Named:
        """What a name and what is kept tell, as the function `named` says."""
        return named(name, self.kept)

    def encoding(self) -> str | None:
        """How the text is encoded, as the function `encoding` says."""
        return encoding(self.kept)


def get_type(mime: str | None = None, ext: str | None = None, more: bool = False) -> Type | None:
    """The first type with this MIME type or this extension, or None. With `more` it can be a type beyond `types`."""
    if own := next((kind for kind in _added() if kind.mime == mime or kind.extension == ext), None):
        return own
    row = min(_first_rows.get(("mime", mime), len(_all_rows)), _first_rows.get(("extension", ext), len(_all_rows)))
    return _all_rows[row] if row < (len(_all_rows) if more else _built_in) else None


def _text(text: str) -> str:
    if not isinstance(text, str):
        raise TypeError(f"hand over a str, and not {type(text).__name__}")
    # As it is, and not as a subclass says.
    return str.__str__(text)


def _encoded(text: str) -> bytes:
    # A text that is not Unicode is nobody's. Not what a subclass of str calls encoding.
    return str.encode(_text(text), "utf-8", "surrogatepass")


def is_extension(obj: Source, ext: str) -> bool:
    """Whether some type with this extension accepts the first bytes. It need not be the answer of `guess`."""
    front, text = get_front(obj), _encoded(ext)
    return any(kind.extension == ext for kind in _accepting(front)) or _library.is_(front, len(front), text, len(text))


def is_mime(obj: Source, mime: str) -> bool:
    """Whether some type with this MIME type accepts the first bytes. It need not be the answer of `guess`."""
    front, text = get_front(obj), _encoded(mime)
    return any(kind.mime == mime for kind in _accepting(front)) or _library.is_mime(front, len(front), text, len(text))


def is_extension_supported(ext: str) -> bool:
    """Whether some type has this extension."""
    return get_type(ext=_text(ext)) is not None


def is_mime_supported(mime: str) -> bool:
    """Whether some type has this MIME type."""
    return get_type(mime=_text(mime)) is not None


def match(obj: Source, matchers: Iterable[Type] | None = None) -> Type | None:
    """The first of these types that accepts the first bytes, or None. Without a list it is what `guess` answers."""
    if matchers is None or matchers is types:
        return guess(obj)
    front = get_front(obj)
    return next((kind for kind in matchers if _fits(kind, front)), None)


def application_match(obj: Source) -> Type | None:
    """The first program's type that accepts the first bytes. As of the six below, it need not be the answer of `guess`."""
    return match(obj, application_matchers)


def archive_match(obj: Source) -> Type | None:
    """The first archive's type that accepts the first bytes."""
    return match(obj, archive_matchers)


def audio_match(obj: Source) -> Type | None:
    """The first sound's type that accepts the first bytes."""
    return match(obj, audio_matchers)


def document_match(obj: Source) -> Type | None:
    """The first document's type that accepts the first bytes."""
    return match(obj, document_matchers)


def font_match(obj: Source) -> Type | None:
    """The first font's type that accepts the first bytes."""
    return match(obj, font_matchers)


def image_match(obj: Source) -> Type | None:
    """The first image's type that accepts the first bytes."""
    return match(obj, image_matchers)


def video_match(obj: Source) -> Type | None:
    """The first film's type that accepts the first bytes."""
    return match(obj, video_matchers)


def _is_of_class(name: str, obj: Source) -> bool:
    front = get_front(obj)
    return _library.of_class[name](front, len(front))


def is_app(obj: Source) -> bool:
    """Whether some program's type accepts the first bytes. As of the seven below, it need not be the answer of `guess`."""
    return _is_of_class("app", obj)


def is_archive(obj: Source) -> bool:
    """Whether some archive's type accepts the first bytes."""
    return _is_of_class("archive", obj)


def is_audio(obj: Source) -> bool:
    """Whether some sound's type accepts the first bytes."""
    return _is_of_class("audio", obj)


def is_book(obj: Source) -> bool:
    """Whether some book's type accepts the first bytes."""
    return _is_of_class("book", obj)


def is_document(obj: Source) -> bool:
    """Whether some document's type accepts the first bytes."""
    return _is_of_class("document", obj)


def is_font(obj: Source) -> bool:
    """Whether some font's type accepts the first bytes."""
    return _is_of_class("font", obj)


def is_image(obj: Source) -> bool:
    """Whether some image's type accepts the first bytes."""
    return _is_of_class("image", obj)


def is_video(obj: Source) -> bool:
    """Whether some film's type accepts the first bytes."""
    return _is_of_class("video", obj)


class TypesError(ValueError):
    """A text that describes no types: `line` and `column`, both from 1, say where its first mistake is, `reason` says what
    it is, and `path` of which file, if it was loaded."""

    def __init__(self, line: int, column: int, reason: str, path: str | None = None) -> None:
        super().__init__(line, column, reason, path)
        self.line, self.column, self.reason, self.path = line, column, reason, path

    def __str__(self) -> str:
        place = f"line {self.line}, column {self.column}" if self.path is None else f"{self.path}:{self.line}:{self.column}"
        return f"{place}: {self.reason}"


# A text of types in a file is read up to this, as a device has no end.
_LONGEST_TEXT = 1 << 20


class Types:
    """Types that a text describes, one a line, in the notation of docs/NOTATION.md:

    >>> types = Types('qoi image/qoi image - 14: @0 "qoif"')

    They are asked before the further types of the library, and those that `add_type` took are not asked."""

    def __init__(self, text: Union[str, bytes]) -> None:
        if not isinstance(text, (str, bytes)):
            raise TypeError(f"hand over the text as str or bytes, and not {type(text).__name__}")
        # A text that is not Unicode can be a remark.
        self.text = _encoded(text) if isinstance(text, str) else bytes(memoryview(text))
        """The text, as bytes."""
        if mistake := _library.types_mistake(self.text):
            raise TypesError(*mistake)

    @classmethod
    def load(cls, path: Union[str, os.PathLike[str]]) -> Types:
        """Those of the text in that file, which has at most 1 MiB."""
        with open(path, "rb") as file:
            text = file.read(_LONGEST_TEXT + 1)
        if len(text) > _LONGEST_TEXT:
            raise OSError(errno.EFBIG, os.strerror(errno.EFBIG), os.fspath(path))
        try:
            return cls(text)
        except TypesError as mistake:
            raise TypesError(mistake.line, mistake.column, mistake.reason, os.fspath(path)) from None

    def guess(self, obj: Source) -> Type | None:
        """The first of these types that stands below the built-in answer and accepts the first bytes, the wider answer if
        there is none, or None."""
        found = _library.types_get(self.text, get_front(obj))
        return Type(*found) if found else None

    def line(self, obj: Source) -> int | None:
        """The number of the line, from 1, whose type `guess` answers, or None if that is the wider answer. So a type of
        your own is told from one of the library that shows the same."""
        return _library.types_line(self.text, get_front(obj)) or None

    def guess_mime(self, obj: Source) -> str | None:
        """The MIME type of what `guess` answers, or None."""
        kind = self.guess(obj)
        return kind.mime if kind else None

    def guess_extension(self, obj: Source) -> str | None:
        """The extension of what `guess` answers, or None."""
        kind = self.guess(obj)
        return kind.extension if kind else None


# As in filetype.py `infer.types` is a list, and `from infer.types import image` a module. What is imported takes the name.
_list = types
importlib.import_module(f"{__name__}.types")
types = _list
