"""The names of python-magic, for MIME types, encodings and extensions, by the wider answer. The library has no descriptions,
so without `mime=True`, `mime_encoding=True` or `extension=True` there is a MagicException."""
from __future__ import annotations

import os
from typing import NoReturn, Union

from . import encoding, get_bytes, guess

__all__ = ["Magic", "MagicException", "from_buffer", "from_file", "from_descriptor", "version"]

Path = Union[str, bytes, "os.PathLike[str]", "os.PathLike[bytes]"]
Buffer = Union[str, bytes, bytearray, memoryview]


class MagicException(Exception):
    """What is asked for is not told. The attribute `message` has the text."""

    def __init__(self, message: str) -> None:
        super().__init__(message)
        self.message = message


class Magic:
    """As python-magic's class, which is made once and asked often."""

    def __init__(
        self,
        mime: bool = False,
        magic_file: Path | None = None,
        mime_encoding: bool = False,
        keep_going: bool = False,
        uncompress: bool = False,
        raw: bool = False,
        extension: bool = False,
    ) -> None:
        # `raw` is taken: all answers are ASCII, so nothing of them is escaped.
        refused = {
            "magic_file": (magic_file is not None, "the signatures are part of the library"),
            "keep_going": (keep_going, "there is one answer; infer.match takes a list of the types to ask"),
            "uncompress": (uncompress, "nothing is unpacked: unpack it first, and ask about what comes out"),
        }
        for name, (is_wanted, why) in refused.items():
            if is_wanted:
                raise MagicException(f"{name} is not taken: {why}")
        if bool(mime or mime_encoding) == bool(extension):
            raise MagicException("ask with mime=True, mime_encoding=True or extension=True: there are no descriptions")
        self._is_mime, self._is_encoding = bool(mime), bool(mime_encoding)

    def _text(self, front: bytes) -> str:
        kind = guess(front, more=True)
        mime = kind.mime if kind else "application/octet-stream" if front else "application/x-empty"
        # As libmagic says it of what is no text, and of a text whose encoding is not told.
        charset = encoding(front) or ("unknown-8bit" if mime.startswith("text/") else "binary")
        if self._is_encoding:
            return f"{mime}; charset={charset}" if self._is_mime else charset
        return mime if self._is_mime else kind.extension if kind else "???"

    def from_buffer(self, buf: Buffer) -> str:
        """What the first bytes are. A text stands for its bytes in UTF-8."""
        return self._text(get_bytes(buf.encode("utf-8", "replace") if isinstance(buf, str) else buf))

    def from_file(self, filename: Path) -> str:
        """What the file is by its first bytes."""
        return self._text(get_bytes(os.fsdecode(filename)))

    def from_descriptor(self, fd: int) -> str:
        """What the open file is by its first bytes. Its place stays, if it can seek."""
        with open(fd, "rb", buffering=0, closefd=False) as file:
            return self._text(get_bytes(file))

    def setparam(self, param: int, val: int) -> NoReturn:
        """Raises NotImplementedError, as python-magic does if libmagic has no limits to set."""
        raise NotImplementedError("there are no limits to set: at most 8192 bytes are read")

    def getparam(self, param: int) -> NoReturn:
        """Raises NotImplementedError, as python-magic does if libmagic has no limits to set."""
        raise NotImplementedError("there are no limits to set: at most 8192 bytes are read")


def from_buffer(buffer: Buffer, mime: bool = False) -> str:
    """What the first bytes are. A text stands for its bytes in UTF-8."""
    return Magic(mime).from_buffer(buffer)


def from_file(filename: Path, mime: bool = False) -> str:
    """What the file is by its first bytes."""
    return Magic(mime).from_file(filename)


def from_descriptor(fd: int, mime: bool = False) -> str:
    """What the open file is by its first bytes. Its place stays, if it can seek."""
    return Magic(mime).from_descriptor(fd)


def version() -> NoReturn:
    """Raises NotImplementedError, as python-magic does if libmagic tells no version: `infer.version` is the library's."""
    raise NotImplementedError("libmagic is not used; infer.version is the version of the library")
