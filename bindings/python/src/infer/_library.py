"""The functions of the shared library, with their types."""
from __future__ import annotations

import ctypes
import os
import sys
from collections.abc import Callable, Sized
from typing import Any, Optional

_SYSTEM_LIBRARY = "libinfer.so.0.1"


def _load() -> ctypes.CDLL:
    name = {"win32": "infer.dll", "darwin": "libinfer.dylib"}.get(sys.platform, "libinfer.so")
    beside = os.path.join(os.path.dirname(os.path.abspath(__file__)), name)
    path = os.environ.get("INFER_LIBRARY") or (beside if os.path.exists(beside) else _SYSTEM_LIBRARY)
    try:
        return ctypes.CDLL(path)
    except OSError as fault:
        raise ImportError(f"no {path}: c/install makes it, and INFER_LIBRARY can name it ({fault})") from None


_library = _load()
_BUFFER, _SIZE, _ROW = ctypes.c_char_p, ctypes.c_size_t, ctypes.c_int32


def _declare(name: str, result: object, *arguments: object) -> Any:
    function = getattr(_library, name)
    function.restype, function.argtypes = result, arguments
    return function


# What is asked about is bytes, or a `_source.Whole`, which ctypes takes for its `_as_parameter_`.
_Ask = Callable[[Sized, int], bool]
_AskByText = Callable[[Sized, int, bytes, int], bool]

position: Callable[[Sized, int], int] = _declare("infer_position", _ROW, _BUFFER, _SIZE)
more_position: Callable[[Sized, int], int] = _declare("infer_more_position", _ROW, _BUFFER, _SIZE)
accepts: Callable[[Sized, int, int], bool] = _declare("infer_accepts", ctypes.c_bool, _BUFFER, _SIZE, _ROW)
may_become: Callable[[Sized, int, int], bool] = _declare("infer_may_become", ctypes.c_bool, _BUFFER, _SIZE, _ROW)
more_may_become: Callable[[Sized, int, int], bool] = _declare("infer_more_may_become", ctypes.c_bool, _BUFFER, _SIZE, _ROW)
is_decided: _Ask = _declare("infer_is_decided", ctypes.c_bool, _BUFFER, _SIZE)
more_is_decided: _Ask = _declare("infer_more_is_decided", ctypes.c_bool, _BUFFER, _SIZE)
is_: _AskByText = _declare("infer_is", ctypes.c_bool, _BUFFER, _SIZE, _BUFFER, _SIZE)
is_mime: _AskByText = _declare("infer_is_mime", ctypes.c_bool, _BUFFER, _SIZE, _BUFFER, _SIZE)
of_class: dict[str, _Ask] = {
    name: _declare(f"infer_is_{name}", ctypes.c_bool, _BUFFER, _SIZE)
    for name in ["app", "archive", "audio", "book", "document", "font", "image", "video"]
}
_verdict: Callable[..., int] = _declare("infer_verdict", _ROW, _BUFFER, _SIZE, ctypes.POINTER(ctypes.c_bool))


_encoding: Callable[..., int] = _declare("infer_encoding", _SIZE, _BUFFER, _SIZE, ctypes.c_char_p, _SIZE)


def encoding(front: Sized) -> str:
    """The IANA name of the text's encoding, or the empty text."""
    out = ctypes.create_string_buffer(16)
    size = _encoding(front, len(front), out, len(out))
    return out.raw[:size].decode("ascii")


_sample: Callable[..., int] = _declare("infer_sample", _SIZE, _ROW, ctypes.c_char_p, _SIZE)


def sample(row: int) -> bytes:
    """The row's sample, or nothing if it is never the answer."""
    out = ctypes.create_string_buffer(_sample(row, None, 0))
    _sample(row, out, len(out))
    return out.raw


def verdict(front: Sized) -> tuple[int, bool]:
    """The number of the answer's row or -1, and whether it is final."""
    is_final = ctypes.c_bool()
    return _verdict(front, len(front), ctypes.byref(is_final)), is_final.value


_types_check: Callable[..., int] = _declare("infer_types_check", _SIZE, _BUFFER, _SIZE, *[ctypes.POINTER(_SIZE)] * 2, ctypes.c_char_p, _SIZE)
_types_get: Callable[..., int] = _declare("infer_types_get", _ROW, _BUFFER, _SIZE, _BUFFER, _SIZE, ctypes.c_char_p, _SIZE, ctypes.c_char_p, _SIZE)
_types_line: Callable[..., int] = _declare("infer_types_line", _SIZE, _BUFFER, _SIZE, _BUFFER, _SIZE)
_class_name: Callable[..., int] = _declare("infer_class_name", _SIZE, ctypes.c_int32, ctypes.c_char_p, _SIZE)


def types_mistake(text: bytes) -> tuple[int, int, str] | None:
    """The line and the column of the first mistake, and what it is, or None if the text describes types."""
    line, column, reason = _SIZE(), _SIZE(), ctypes.create_string_buffer(256)
    if not _types_check(text, len(text), ctypes.byref(line), ctypes.byref(column), reason, len(reason)):
        return None
    return line.value, column.value, reason.value.decode("ascii")


def types_get(text: bytes, front: Sized) -> tuple[str, str, str] | None:
    """The MIME type, the extension and the class of what the types of the text say, or None."""
    mime_type, extension, name = (ctypes.create_string_buffer(256) for _ in range(3))
    class_code = _types_get(text, len(text), front, len(front), mime_type, len(mime_type), extension, len(extension))
    if class_code < 0:
        return None
    _class_name(class_code, name, len(name))
    return mime_type.value.decode("ascii"), extension.value.decode("ascii"), name.value.decode("ascii")


def types_line(text: bytes, front: Sized) -> int:
    """The number of the line, from 1, whose type `types_get` gives, or 0."""
    return _types_line(text, len(text), front, len(front))


_TEXT = ctypes.c_char * 74


class _NamedType(ctypes.Structure):
    _fields_ = [("mime_type", _TEXT), ("extension", _TEXT), ("is_own_name", ctypes.c_bool)]


class _NamedAnswer(ctypes.Structure):
    _fields_ = [("standing", ctypes.c_int32), ("row", _ROW), ("told", _NamedType), ("name", _NamedType)]


_named: Callable[..., None] = _declare("infer_named", None, _BUFFER, _SIZE, _BUFFER, _SIZE, ctypes.POINTER(_NamedAnswer))
NamedTexts = tuple[str, Optional[str], bool]


def _texts_of(found: _NamedType) -> NamedTexts | None:
    """The MIME type, the extension of the row that has it, and whether nobody else names it, or None if it has no MIME type."""
    mime_type, extension = found.mime_type.decode("ascii"), found.extension.decode("ascii")
    return (mime_type, extension or None, found.is_own_name) if mime_type else None


def named(name: bytes, front: Sized) -> tuple[int, int, NamedTexts | None, NamedTexts | None]:
    """The standing, the number of the wider answer's row or -1, the type that is told, and the first that the name has."""
    found = _NamedAnswer()
    _named(name, len(name), front, len(front), ctypes.byref(found))
    return found.standing, found.row, _texts_of(found.told), _texts_of(found.name)


_write_line: Callable[..., int] = _declare(
    "infer_label_write", _SIZE, _BUFFER, _SIZE, _BUFFER, _SIZE, *[ctypes.c_uint32] * 3, _BUFFER, _SIZE, _BUFFER, _SIZE, _SIZE,
    ctypes.POINTER(ctypes.c_int32), ctypes.POINTER(ctypes.c_bool), ctypes.c_char_p, _SIZE,
)


def line(name: bytes, front: Sized, form: int, is_why: bool) -> str:
    """The line of a file with this name and these first bytes, without its end."""
    standing, is_known, size = ctypes.c_int32(), ctypes.c_bool(), 256
    while True:
        room = ctypes.create_string_buffer(size)
        size = 1 + _write_line(name, len(name), front, len(front), 0, form, int(is_why), b"", 0, b"", 0, 0, ctypes.byref(standing), ctypes.byref(is_known), room, size)
        if size <= len(room):
            return room.value.decode("utf-8").rstrip("\n")


_MOST_RANGES = 80


class _Range(ctypes.Structure):
    _fields_ = [("place", _SIZE), ("len", _SIZE), ("step", _SIZE), ("row", _ROW)]


class _Needs(ctypes.Structure):
    _fields_ = [("wanted", _SIZE), ("least", _SIZE), ("is_exact", ctypes.c_bool)]


_evidence, _more_evidence = (
    _declare(name, _ROW, _BUFFER, _SIZE, ctypes.POINTER(_Range), _SIZE, ctypes.POINTER(_Needs)) for name in ["infer_evidence", "infer_more_evidence"]
)


def evidence(front: Sized, more: bool) -> tuple[int, list[tuple[int, int, int, int]], int, int, bool]:
    """The number of the answer's row or -1, the place, the length, the step and the row of each range, how many are wanted, and the
    least length that is needed and whether just that of these bytes is."""
    ranges, needs = (_Range * _MOST_RANGES)(), _Needs()
    row = (_more_evidence if more else _evidence)(front, len(front), ranges, _MOST_RANGES, ctypes.byref(needs))
    return row, [(it.place, it.len, it.step, it.row) for it in ranges[: needs.wanted]], needs.wanted, needs.least, needs.is_exact


oddities: Callable[[bytes, int], int] = _declare("infer_oddities", ctypes.c_uint32, _BUFFER, _SIZE)


_MIME_SIZE = 4096
_mime_parse: Callable[..., int] = _declare("infer_mime_parse", _SIZE, _BUFFER, _SIZE, ctypes.c_char_p, _SIZE)
_mime_extract: Callable[..., int] = _declare("infer_mime_extract", _SIZE, _BUFFER, _SIZE, ctypes.c_char_p, _SIZE)
_mime_minimize: Callable[..., int] = _declare("infer_mime_minimize", _SIZE, _BUFFER, _SIZE, ctypes.c_bool, ctypes.c_char_p, _SIZE)
_mime_compute: Callable[..., int] = _declare(
    "infer_mime_compute", _SIZE, _BUFFER, _SIZE, ctypes.c_uint32, ctypes.c_int32, _BUFFER, _SIZE, ctypes.c_char_p, _SIZE
)
mime_groups: Callable[[bytes, int], int] = _declare("infer_mime_groups", ctypes.c_uint32, _BUFFER, _SIZE)
mime_is_nosniff: _Ask = _declare("infer_mime_is_nosniff", ctypes.c_bool, _BUFFER, _SIZE)
mime_is_old_server: _Ask = _declare("infer_mime_is_old_server", ctypes.c_bool, _BUFFER, _SIZE)
mime_is_blocked: Callable[[bytes, int, int], bool] = _declare("infer_mime_is_blocked", ctypes.c_bool, _BUFFER, _SIZE, ctypes.c_int32)
mime_is_decided: Callable[..., bool] = _declare("infer_mime_is_decided", ctypes.c_bool, _BUFFER, _SIZE, ctypes.c_uint32, _BUFFER, _SIZE)
mime_may_be_scriptable: _Ask = _declare("infer_mime_may_be_scriptable", ctypes.c_bool, _BUFFER, _SIZE)


def _mime_text(ask: Callable[..., int], *words: object) -> bytes:
    out = ctypes.create_string_buffer(_MIME_SIZE)
    size = ask(*words, out, len(out))
    return out.raw[:size]


def mime_parse(text: bytes) -> bytes:
    """The text of the MIME type that a text says, or nothing."""
    return _mime_text(_mime_parse, text, len(text))


def mime_extract(value: bytes) -> bytes:
    """The text of the MIME type that values say together, or nothing."""
    return _mime_text(_mime_extract, value, len(value))


def mime_minimize(text: bytes, is_supported: bool) -> bytes:
    """What it is taken for, or nothing."""
    return _mime_text(_mime_minimize, text, len(text), is_supported)


def mime_compute(content_type: bytes, flags: int, context: int, front: Sized) -> bytes:
    """What a browser computes, or nothing."""
    return _mime_text(_mime_compute, content_type, len(content_type), flags, context, front, len(front))


def texts() -> tuple[list[tuple[str, str, str]], int, str]:
    """The MIME type, the extension and the class of each row, how many of the rows are built-in, and the version."""
    out = ctypes.create_string_buffer(256)
    mime_type, extension = (_declare(name, _SIZE, _ROW, ctypes.c_char_p, _SIZE) for name in ["infer_mime_type", "infer_extension"])
    class_code = _declare("infer_class", ctypes.c_int32, _ROW)
    built_in, count = _declare("infer_row_count", _SIZE)(), _declare("infer_more_row_count", _SIZE)()

    def text(function: Callable[..., int], *words: int) -> str:
        size = function(*words, out, len(out))
        assert size < len(out)
        return out.raw[:size].decode("ascii")

    rows = [(text(mime_type, row), text(extension, row), text(_class_name, class_code(row))) for row in range(count)]
    return rows, built_in, text(_declare("infer_version", _SIZE, ctypes.c_char_p, _SIZE))
