"""The names of filetype.py's module `filetype`."""
from __future__ import annotations

from . import TYPES, Type, add_type, get_type, guess, guess_extension, guess_mime, match, types

__all__ = ["TYPES", "Type", "add_type", "get_type", "guess", "guess_extension", "guess_mime", "match", "types"]
