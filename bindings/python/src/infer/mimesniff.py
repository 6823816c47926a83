"""MIME types, and what a browser makes of a header and of first bytes, by the MIME Sniffing Standard.

>>> from infer import mimesniff
>>> mimesniff.compute(b"GIF89a", content_type="image/png")
'image/gif'
>>> mimesniff.compute(b"<p>", content_type="image/png")
'image/png'
>>> mimesniff.compute(b"<p>")
'text/html'
>>> mimesniff.compute(b"<p>", nosniff=True)
'text/plain'
>>> str(mimesniff.MimeType.parse("Text/HTML; Charset=utf-8"))
'text/html;charset=utf-8'

A text is a `str` of code points, or `bytes`, each of which counts as the code point with its number: "é" is one code point,
and two bytes of UTF-8."""
from __future__ import annotations

import enum
import re
from typing import Union

from . import _library
from ._source import Buffer, Contents, get_contents, get_piece

__all__ = ["Context", "Destination", "Group", "HEADER", "MimeType", "Sniffer", "compute", "extract", "is_blocked", "is_decided", "is_nosniff", "is_old_server", "may_be_scriptable"]

HEADER = 1445
"""How many bytes are looked at."""

Text = Union[str, bytes]

# A code point beyond a byte is in no MIME type, and neither is DEL.
_BEYOND = re.compile("[^\0-\xff]")
_PARAMETER = re.compile(r';([^=]*)=(?:"((?:[^"\\]|\\.)*)"|([^;]*))', re.DOTALL)


def _bytes_of(text: Text) -> bytes:
    if isinstance(text, str):
        return _BEYOND.sub("\x7f", text).encode("latin-1")
    if isinstance(text, bytes):
        return text
    raise TypeError(f"hand over a text as str or bytes, and not {type(text).__name__}")


class Context(enum.IntEnum):
    """What the bytes are loaded for."""

    PAGE = 0
    IMAGE = 1
    AUDIO_OR_VIDEO = 2
    FONT = 3
    PLUGIN = 4
    STYLE = 5
    SCRIPT = 6
    TEXT_TRACK = 7
    CACHE_MANIFEST = 8


class Destination(enum.IntEnum):
    """What a response is fetched for."""

    SCRIPT = 0
    """Scripts, workers and worklets."""
    STYLE = 1
    OTHER = 2


class Group(enum.Flag):
    """The standard's groups of MIME types. Parameters count for none."""

    IMAGE = 1
    AUDIO_OR_VIDEO = 2
    FONT = 4
    ZIP_BASED = 8
    ARCHIVE = 16
    XML = 32
    HTML = 64
    SCRIPTABLE = 128
    """A document of it may run scripts: XML, HTML and PDF. JavaScript by itself is no document."""
    JAVASCRIPT = 256
    JSON = 512


class MimeType:
    """A MIME type. `str` of it is its text as the standard writes it, and two are equal if their texts are."""

    def __init__(self, text: Text) -> None:
        """Raises a ValueError if the text says none, has more than 256 parameters, or would take more than 4095 bytes."""
        self._text = _library.mime_parse(_bytes_of(text)).decode("latin-1")
        if not self._text:
            raise ValueError(f"no MIME type: {text!r}")

    @classmethod
    def parse(cls, text: Text) -> MimeType | None:
        """The MIME type that the text says, or None."""
        try:
            return cls(text)
        except ValueError:
            return None

    @property
    def essence(self) -> str:
        """The type and the subtype, such as "text/html"."""
        return self._text.partition(";")[0]

    @property
    def type(self) -> str:
        """The type, such as "text"."""
        return self._text.partition("/")[0]

    @property
    def subtype(self) -> str:
        """The subtype, such as "html"."""
        return self.essence.partition("/")[2]

    @property
    def parameters(self) -> dict[str, str]:
        """The parameters, in their order. Names are in lower case."""
        found = _PARAMETER.findall(self._text[len(self.essence) :])
        return {name: re.sub(r"\\(.)", r"\1", quoted, flags=re.DOTALL) or bare for name, quoted, bare in found}

    @property
    def groups(self) -> Group:
        """The groups that it is in."""
        text = self._text.encode("latin-1")
        return Group(_library.mime_groups(text, len(text)))

    def minimize(self, is_supported: bool = False) -> str | None:
        """What a browser takes it for that supports it or not, such as "application/json" of "text/json", or None."""
        return _library.mime_minimize(self._text.encode("latin-1"), is_supported).decode("latin-1") or None

    def __str__(self) -> str:
        return self._text

    def __repr__(self) -> str:
        return f"{type(self).__name__}({self._text!r})"

    def __eq__(self, other: object) -> bool:
        return isinstance(other, MimeType) and self._text == other._text

    def __hash__(self) -> int:
        return hash(self._text)


def _flags(nosniff: bool, old_server: bool) -> int:
    return bool(nosniff) + 2 * bool(old_server)


def compute(
    obj: Contents, content_type: Text | None = None, nosniff: bool = False, old_server: bool = False, context: Context = Context.PAGE
) -> str | None:
    """The type that a browser computes of the first 1445 bytes, of the MIME type that was told, of whether sniffing is
    forbidden, of whether the header is one of old servers (`is_old_server`), and of what they are loaded for. It is None if
    nothing is told and nothing is found, which is never so of a page."""
    text = _bytes_of(content_type or b"")
    return _library.mime_compute(text, _flags(nosniff, old_server), Context(context), get_contents(obj)).decode("latin-1") or None


def is_decided(obj: Contents, content_type: Text | None = None, nosniff: bool = False, old_server: bool = False) -> bool:
    """Whether no bytes that may follow change what `compute` says of a page. A yes is certain, a no may be too careful."""
    front, text = get_contents(obj), _bytes_of(content_type or b"")
    return _library.mime_is_decided(text, len(text), _flags(nosniff, old_server), front, len(front))


def may_be_scriptable(obj: Contents) -> bool:
    """Whether some bytes that may follow make a browser that was told no type run scripts. A no is certain."""
    front = get_contents(obj)
    return _library.mime_may_be_scriptable(front, len(front))


class Sniffer:
    """What a browser makes of bytes that come in pieces, of which the first 1445 are kept.

    >>> sniffer = mimesniff.Sniffer(content_type="image/png")
    >>> sniffer.push(b"GIF")
    >>> sniffer.push(b"89a")
    >>> sniffer.compute(), sniffer.is_decided()
    ('image/gif', True)"""

    def __init__(self, content_type: Text | None = None, nosniff: bool = False, old_server: bool = False) -> None:
        self.kept = b""
        """The first bytes of what was pushed, at most 1445."""
        self._supplied = (content_type, nosniff, old_server)

    def push(self, piece: Buffer) -> None:
        """Takes the next bytes."""
        front = get_piece(piece)
        if not self.is_full():
            self.kept = (self.kept + front)[:HEADER]

    def is_full(self) -> bool:
        """Whether 1445 bytes are kept, so that no more are looked at."""
        return len(self.kept) == HEADER

    def is_decided(self) -> bool:
        """Whether no bytes that may follow change what a browser computes of a page, as the function `is_decided` says."""
        return is_decided(self.kept, *self._supplied)

    def compute(self, context: Context = Context.PAGE) -> str | None:
        """What it computes of what is kept."""
        return compute(self.kept, *self._supplied, context)


def extract(content_type: Text) -> MimeType | None:
    """The MIME type that the values of Content-Type say together, as Fetch extracts it, or None. If the last of them has no
    charset, it has that of the first of the values in a row with its type and subtype. Several values are given as one, with
    ", " between.

    >>> str(mimesniff.extract("text/html;charset=gbk, text/html"))
    'text/html;charset=gbk'"""
    return MimeType.parse(_library.mime_extract(_bytes_of(content_type)))


def is_nosniff(value: Text) -> bool:
    """Whether the value of X-Content-Type-Options forbids to sniff. Several values are given as one, with ", " between."""
    text = _bytes_of(value)
    return _library.mime_is_nosniff(text, len(text))


def is_blocked(content_type: Text, destination: Destination) -> bool:
    """Whether a response that forbids to sniff is blocked, by the value of Content-Type and what it is fetched for."""
    text = _bytes_of(content_type)
    return _library.mime_is_blocked(text, len(text), Destination(destination))


def is_old_server(content_type: Text) -> bool:
    """Whether the value of the last Content-Type is one that old servers sent of every file."""
    text = _bytes_of(content_type)
    return _library.mime_is_old_server(text, len(text))
