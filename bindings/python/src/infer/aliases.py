"""Other names of the types, from the data file aliases.def. Each table leads from an alias to the extension of a type."""
from __future__ import annotations

import os
import re

_HERE = os.path.dirname(os.path.abspath(__file__))
_PLACES = [os.path.join(_HERE, "aliases.def"), os.path.join(_HERE, "..", "..", "..", "..", "aliases", "aliases.def")]


def _read() -> dict[str, dict[str, str]]:
    tables: dict[str, dict[str, str]] = {"EXTENSION": {}, "MIME_TYPE": {}, "BROWSER": {}, "BUILT_ON": {}}
    with open(next(filter(os.path.exists, _PLACES)), encoding="ascii") as file:
        for kind, alias, target in re.findall(r'^([A-Z_]+)\("([^"]+)", "([^"]+)"\)$', file.read(), re.MULTILINE):
            tables[kind][alias] = target
    return tables


_tables = _read()
EXTENSION: dict[str, str] = _tables["EXTENSION"]
"""Other extensions of a type, as "jpeg"."""
MIME_TYPE: dict[str, str] = _tables["MIME_TYPE"]
"""Other MIME types of a type, as "image/jpg"."""
BROWSER: dict[str, str] = _tables["BROWSER"]
"""The MIME types that browsers want, as "font/woff2"."""
BUILT_ON: dict[str, str] = _tables["BUILT_ON"]
"""Extensions of formats whose bytes are told as those of a wider one, as "svg", whose bytes are told as "xml"."""
BROWSER_OF: dict[str, str] = {target: alias for alias, target in BROWSER.items()}
"""The MIME type that browsers want, by the extension of the type."""
