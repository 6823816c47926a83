"""The names of filetype.py's module `helpers`."""
from __future__ import annotations

from . import (
    TYPES, archive_match, audio_match, document_match, font_match, image_match, is_archive, is_audio, is_document, is_extension_supported,
    is_font, is_image, is_mime_supported, is_video, video_match,
)

__all__ = [
    "TYPES", "archive_match", "audio_match", "document_match", "font_match", "image_match", "is_archive", "is_audio", "is_document",
    "is_extension_supported", "is_font", "is_image", "is_mime_supported", "is_video", "video_match",
]
