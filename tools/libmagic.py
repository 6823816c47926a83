"""The names that libmagic has for the types, by bindings/libmagic/src/names.h, in which "" stands for what our row says."""
import re

from texts import refuse, text_of

NAMES = "bindings/libmagic/src/names.h"
CALLERS = "bindings/libmagic/callers.tsv"
LINE = re.compile(r'NAME\("([^"]+)", "([^"]+)", "[^"]*", "[^"]*", OF_(?:DATA|TEXT|SCRIPT|PLAIN_TEXT|ELF), "[^"\\]+", "[^"\\]+"\)')


def named():
    """The MIME type and the extension of each line behind the comment, with its number."""
    found = []
    comment, _, lines = text_of(NAMES).partition("*/\n")
    for number, line in enumerate(lines.splitlines(), comment.count("\n") + 2):
        if not (name := LINE.fullmatch(line)):
            refuse(NAMES, number, "this is no NAME of an extension, a MIME type, libmagic's MIME type and extensions, OF_DATA or its like, a description and a source")
        found.append((number, (name[2], name[1])))
    return found


def callers():
    """The table of what each kind of caller gets."""
    yield from ["| A program that | gets | and not |", "|---|---|---|"]
    yield from (f"| {' | '.join(line.split(chr(9)))} |" for line in text_of(CALLERS).splitlines())
