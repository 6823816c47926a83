#!/usr/bin/env python3
"""Compares the MIME types of names.txt with those that other programs have for such a name: the system's shared-mime-info,
and Python's `mimetypes`. Where neither has one of ours, vectors/names_differ.tsv says why.

usage: others.py"""
import collections
import mimetypes
import sys

from named import lines_of, table

SYSTEM = "/usr/share/mime"
LISTED = "vectors/names_differ.tsv"


def fields(path, mark):
    return [line.split(mark) for line in lines_of(path)]


def of_others():
    """The types of each name: a whole one, or `*.` and an extension. A pattern that asks for a capital letter is none."""
    found = collections.defaultdict(set)
    for _, mime_type, pattern, *flags in fields(f"{SYSTEM}/globs2", ":"):
        if "cs" not in flags or pattern.islower():
            found[pattern.lower()].add(mime_type)
    python = mimetypes.MimeTypes(filenames=())
    for extension, mime_type in [it for kind in python.types_map for it in kind.items()]:
        found[f"*{extension}"].add(mime_type)
    return found


def main():
    aliases = {alias.lower(): mime_type.lower() for alias, mime_type in fields(f"{SYSTEM}/aliases", " ")}
    known = lambda types: {aliases.get(it.lower(), it.lower()) for it in types}
    listed = {(name, *types) for _, *types, names in fields(LISTED, "\t") for name in names.split()}
    others, compared, new = of_others(), 0, 0
    for (part, text), (_, readings) in table().items():
        name = text.decode() if part == "whole" else f"*.{text.decode()}"
        ours, theirs = [it[0] for it in readings], sorted(others.get(name, []))
        compared += bool(theirs)
        if theirs and known(theirs).isdisjoint(known(ours)) and (name, ", ".join(ours), ", ".join(theirs)) not in listed:
            new += 1
            print(f"others.py: {name} is {', '.join(ours)} in names.txt, and {', '.join(theirs)} elsewhere: mend names.txt, or give the reason in {LISTED}")
    print(f"{compared} names compared with shared-mime-info and Python, {new} differ without a reason")
    sys.exit(new != 0)


if __name__ == "__main__":
    main()
