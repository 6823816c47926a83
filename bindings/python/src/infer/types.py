"""The names of filetype.py's package `types`: a module for each class of types, with a class for each type.

>>> from infer.types import image
>>> image.Jpeg().mime
'image/jpeg'"""
from __future__ import annotations

import sys
from types import ModuleType
from typing import Any

from . import TYPES, Type, _rows

__all__ = ["TYPES", "Type", "application", "archive", "audio", "document", "font", "image", "video"]

# The classes that have another name than their extension.
_NAMES = {"jpg": "Jpeg", "tif": "Tiff", "7z": "SevenZ", "mid": "Midi", "mpg": "Mpeg", "3gp": "M3gp", "aif": "Aiff"}
# What each module has. There archives are all that is no other class.
_MODULES = {
    "application": ("app",), "archive": ("archive", "app", "book"), "audio": ("audio",), "document": ("doc",), "font": ("font",), "image": ("image",),
    "video": ("video",),
}


def _class_of(kind: Type) -> type[Type]:
    def begin(self: Type) -> None:
        Type.__init__(self, *kind)

    name = _NAMES.get(kind.extension, kind.extension.capitalize())
    return type(name, (Type,), {"__init__": begin, "__module__": __name__, "MIME": kind.mime, "EXTENSION": kind.extension})


def __getattr__(name: str) -> Any:
    if name not in _MODULES:
        raise AttributeError(f"module {__name__!r} has no attribute {name!r}")
    return sys.modules[f"{__name__}.{name}"]


_classes = {tuple(kind): _class_of(kind) for kind in reversed(_rows)}
for _name, _groups in _MODULES.items():
    _module = ModuleType(f"{__name__}.{_name}", "The classes of filetype.py's module of this name.")
    _found = [it for kind, it in _classes.items() if kind[2] in _groups]
    _module.__dict__.update({it.__name__: it for it in _found})
    sys.modules[_module.__name__] = _module
