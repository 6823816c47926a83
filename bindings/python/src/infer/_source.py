"""The first bytes of a path, of bytes or of a file."""
from __future__ import annotations

import contextlib
import ctypes
import errno
import io
import mmap
import os
import stat
import sys
from collections.abc import Awaitable
from typing import Any, Protocol, Union

FRONT = 8192
"""How many bytes are looked at."""


class Readable(Protocol):
    """A file that is open for reading bytes. None says that there are none yet, as in `io.RawIOBase`."""

    def read(self, size: int, /) -> bytes | None:
        """At most so many bytes, and none at the end."""


class HasDescriptor(Protocol):
    """An open file of the system."""

    def fileno(self) -> int:
        """Its descriptor."""


# ctypes takes the place of what can be written to alone. What would be written stays here, and no memory is set apart for it.
_OWN = {"access": mmap.ACCESS_COPY}
if sys.platform == "linux":
    _OWN = {"flags": mmap.MAP_PRIVATE | getattr(mmap, "MAP_NORESERVE", 0x4000)}


class Whole:
    """A regular file of which every call looks at all bytes: the path, or the file that is open. It is mapped, so only the
    pages that decide are read. Nobody may shorten it meanwhile, or the program ends by SIGBUS.

    >>> with open("photo.jpg", "rb") as file:
    ...     infer.guess_mime(infer.Whole(file))
    'image/jpeg'"""

    def __init__(self, file: Union[str, os.PathLike[str], os.PathLike[bytes], HasDescriptor]) -> None:
        fd = _open_regular(file) if isinstance(file, (str, os.PathLike)) else os.dup(file.fileno())
        try:
            about = os.fstat(fd)
            _refuse_unless_regular(about, file)
            mapped: Union[mmap.mmap, bytearray] = mmap.mmap(fd, about.st_size, **_OWN) if about.st_size else bytearray(1)
        finally:
            os.close(fd)
        self._size = about.st_size
        self.front = bytes(mapped[: min(FRONT, self._size)])
        """The first 8192 bytes."""
        # What ctypes hands over for this object.
        self._as_parameter_ = ctypes.byref(ctypes.c_char.from_buffer(mapped))

    def __len__(self) -> int:
        return self._size


Buffer = Union[bytes, bytearray, memoryview]
Contents = Union["os.PathLike[str]", "os.PathLike[bytes]", Buffer, Readable, Whole]
Source = Union[str, Contents]


def get_front(obj: Source) -> Union[bytes, Whole]:
    """What the library is asked about: a whole file, or the first 8192 bytes of anything else."""
    return obj if isinstance(obj, Whole) else get_bytes(obj)


def get_contents(obj: Contents) -> Union[bytes, Whole]:
    """The same where a text would be the contents: it is no path, or whoever sent it would choose the file that is opened."""
    if isinstance(obj, str):
        raise TypeError("a str is not bytes: encode the text, or hand over a pathlib.Path if it is the path of a file")
    return get_front(obj)


def get_piece(piece: Buffer) -> bytes:
    """The first 8192 bytes of what has a buffer, and of nothing else."""
    return get_bytes(piece if isinstance(piece, bytes) else memoryview(piece))


def get_bytes(obj: Source) -> bytes:
    """The first 8192 bytes. The place of a file is put back if its `tell` and `seek` work."""
    if type(obj) is bytes:
        return obj[:FRONT]
    if isinstance(obj, Whole):
        return obj.front
    # A subclass can state another length and other bytes than it has, and a view asks it for neither.
    if isinstance(obj, (bytes, bytearray, memoryview)):
        return _of_view(memoryview(obj))
    if isinstance(obj, (str, os.PathLike)):
        return _of_path(obj)
    if not hasattr(obj, "read"):
        raise TypeError(f"hand over a path, bytes, or a file that is open for reading bytes, and not {type(obj).__name__}")
    # To read it would decode what is no text.
    if isinstance(obj, io.TextIOBase):
        raise TypeError(f"a {type(obj).__name__} gives text: open the file for reading bytes, as in mode 'rb'")
    place = _place(obj)
    if place is None:
        return _read(obj)
    try:
        return _read(obj)
    finally:
        obj.seek(place)  # type: ignore[attr-defined]


# Opening a FIFO waits unless it is told not to. Windows has its own words.
_AT_ONCE = os.O_RDONLY | sum(getattr(os, name, 0) for name in ("O_NONBLOCK", "O_NOCTTY", "O_BINARY"))


def _open_regular(path: Union[str, os.PathLike[str], os.PathLike[bytes]]) -> int:
    """The descriptor of what was a regular file before it was opened, since a device can act as soon as it is."""
    _refuse_unless_regular(os.stat(path), path)
    return os.open(path, _AT_ONCE)


def _of_path(path: Union[str, os.PathLike[str], os.PathLike[bytes]]) -> bytes:
    """The first bytes of a regular file."""
    fd = _open_regular(path)
    try:
        _refuse_unless_regular(os.fstat(fd), path)
        front = b""
        while len(front) < FRONT and (part := os.read(fd, FRONT - len(front))):
            front += part
        return front
    finally:
        os.close(fd)


def _refuse_unless_regular(about: os.stat_result, path: object) -> None:
    if not stat.S_ISREG(about.st_mode):
        number = errno.EISDIR if stat.S_ISDIR(about.st_mode) else errno.ENOTSUP
        raise OSError(number, os.strerror(number), path)


def _of_view(view: memoryview) -> bytes:
    """The first bytes of a view of any format, shape and step. No more is copied than the entries that hold them."""
    if view.nbytes == 0:
        return b""
    if view.c_contiguous:
        # Some formats are not taken, as "<I" of ctypes.
        with contextlib.suppress(TypeError, ValueError):
            return view.cast("B")[:FRONT].tobytes()
    entries = view[: FRONT * view.shape[0] // view.nbytes + 1] if view.shape else view
    return entries.tobytes()[:FRONT]


def _place(file: Any) -> int | None:
    """Where the file stood before it went to its front, or None if it cannot go back and so stays where it is.

    What `seekable` says is not asked: `tempfile.SpooledTemporaryFile` has none before Python 3.11."""
    try:
        place = file.tell()
        _refuse_if_asynchronous(place)
        if not isinstance(place, int):
            return None
        _refuse_if_asynchronous(file.seek(0))
    except (AttributeError, NotImplementedError, OSError):
        return None
    return place


def _read(file: Readable) -> bytes:
    parts: list[bytes] = []
    left = FRONT
    while left > 0:
        part = file.read(left)
        if part is None and not parts:
            raise BlockingIOError("the file does not block and has no bytes yet: hand it over again when it has some")
        if part is None or not _is_bytes(part):
            break
        # As it is, and not as a subclass of bytes says.
        parts.append(memoryview(part).tobytes()[:left])
        left -= len(parts[-1])
    return b"".join(parts)[:FRONT]


def _is_bytes(part: object) -> bool:
    """Whether `read` gave bytes: some, and not the end."""
    _refuse_if_asynchronous(part)
    if not isinstance(part, (bytes, bytearray, memoryview)):
        raise TypeError(f"`read` gives {type(part).__name__} and not bytes: open the file for reading bytes, as in mode 'rb'")
    return memoryview(part).nbytes > 0


def _refuse_if_asynchronous(answer: object) -> None:
    if isinstance(answer, Awaitable):
        # Without this Python warns of a coroutine that nobody awaited.
        if hasattr(answer, "close"):
            answer.close()
        raise TypeError("the file is asynchronous: await its first 8192 bytes, and hand over these")
