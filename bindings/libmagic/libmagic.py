"""libmagic's functions by ctypes, for the scripts of this folder: of the system's library, or of any other."""
from __future__ import annotations

import contextlib
import ctypes
import re
from typing import NamedTuple

NONE, SYMLINK, DEVICES, MIME_TYPE, PRESERVE_ATIME, RAW, ERROR, MIME_ENCODING = 0, 0x2, 0x8, 0x10, 0x80, 0x100, 0x200, 0x400
MIME, APPLE, EXTENSION = MIME_TYPE | MIME_ENCODING, 0x800, 0x1000000
BYTES_MAX, ENCODING_MAX = 6, 7
HANDLE, TEXT = ctypes.c_void_p, ctypes.c_char_p
# What each function takes and answers.
FUNCTIONS = {
    "open": ([ctypes.c_int], HANDLE), "close": ([HANDLE], None), "getpath": ([TEXT, ctypes.c_int], TEXT), "file": ([HANDLE, TEXT], TEXT),
    "descriptor": ([HANDLE, ctypes.c_int], TEXT), "buffer": ([HANDLE, TEXT, ctypes.c_size_t], TEXT), "error": ([HANDLE], TEXT),
    "errno": ([HANDLE], ctypes.c_int), "getflags": ([HANDLE], ctypes.c_int), "setflags": ([HANDLE, ctypes.c_int], ctypes.c_int),
    "version": ([], ctypes.c_int), "load": ([HANDLE, TEXT], ctypes.c_int), "compile": ([HANDLE, TEXT], ctypes.c_int),
    "load_buffers": ([HANDLE, ctypes.POINTER(ctypes.c_void_p), ctypes.POINTER(ctypes.c_size_t), ctypes.c_size_t], ctypes.c_int),
    "check": ([HANDLE, TEXT], ctypes.c_int), "list": ([HANDLE, TEXT], ctypes.c_int),
    "setparam": ([HANDLE, ctypes.c_int, ctypes.c_void_p], ctypes.c_int), "getparam": ([HANDLE, ctypes.c_int, ctypes.c_void_p], ctypes.c_int),
}


class Told(NamedTuple):
    """What a call answers, and why there is none."""
    answer: str | None
    reason: str | None
    errno: int


def text_of(data: bytes | None) -> str | None:
    return None if data is None else data.decode("utf-8", "backslashreplace")


class Library:
    """A libmagic.so.1, whose functions are its attributes."""

    def __init__(self, path: str) -> None:
        library = ctypes.CDLL(path)
        for name, (takes, answers) in FUNCTIONS.items():
            function = getattr(library, f"magic_{name}")
            function.argtypes, function.restype = takes, answers
            setattr(self, name, function)


class Magic:
    """A handle of a library."""

    def __init__(self, library: Library, flags: int = NONE, load: bytes | None = None) -> None:
        self.library, self.handle = library, library.open(flags)
        self.loaded = library.load(self.handle, load)

    def __del__(self) -> None:
        self.library.close(self.handle)

    def _told(self, answer: bytes | None) -> Told:
        return Told(text_of(answer), text_of(self.library.error(self.handle)), self.library.errno(self.handle))

    def file(self, path: str | bytes | None) -> Told:
        return self._told(self.library.file(self.handle, path.encode() if isinstance(path, str) else path))

    def buffer(self, data: bytes) -> Told:
        return self._told(self.library.buffer(self.handle, data, len(data)))

    def descriptor(self, fd: int) -> Told:
        return self._told(self.library.descriptor(self.handle, fd))

    def flags(self, flags: int) -> Magic:
        assert self.library.setflags(self.handle, flags) == 0
        return self

    def set(self, param: int, value: int) -> int:
        return self.library.setparam(self.handle, param, ctypes.byref(ctypes.c_size_t(value)))

    def get(self, param: int) -> int | None:
        value = ctypes.c_size_t(0)
        return value.value if self.library.getparam(self.handle, param, ctypes.byref(value)) == 0 else None

    def why(self) -> str:
        return self._told(None).reason or ""


def path_of_system() -> str | None:
    """Where the system's own libmagic.so.1 stands, whatever LD_LIBRARY_PATH says; None if there is none."""
    with contextlib.suppress(OSError), open("/proc/self/maps", encoding="ascii", errors="replace") as maps:
        ctypes.CDLL("libmagic.so.1")
        found = re.findall(r"(/\S*/libmagic\.so\.1\S*)$", maps.read(), re.MULTILINE)
        return next((it for it in found if "infer-libmagic" not in it), None)
    return None
