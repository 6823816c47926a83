"""The names of filetype.py's module `utils`."""
from __future__ import annotations

from . import get_bytes, get_signature_bytes, signature

__all__ = ["get_bytes", "get_signature_bytes", "signature"]
