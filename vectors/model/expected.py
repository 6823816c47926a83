#!/usr/bin/env python3
"""Tells which lines of `vectors.tsv` and of `further/vectors.tsv` are not what the rows say, by the model of `answers.py`.

usage: expected.py [TYPES VECTORS], the files of `further` if none are named. TYPES has the further rows in the notation of
docs/NOTATION.md. Each wrong line is printed with its file and number, and what is wrong with it."""
from __future__ import annotations

import sys
from collections.abc import Iterator

import answers
from decided import DATA, EXTENSIONS, ROW_NAMES, SAMPLES, decode, fields_of

MIME_TYPES = [mime_type for _, mime_type, _, _ in fields_of("rows.tsv")]


def name_of(found: int | None) -> str:
    return "-" if found is None else ROW_NAMES[found]


def built_in_faults() -> Iterator[str]:
    """What is wrong with the samples and the buffers of the built-in rows."""
    lines = [(f"rows.tsv:{at}", f"the sample of {name}", sample, name) for at, (name, sample) in enumerate(zip(ROW_NAMES, SAMPLES), 1) if sample is not None]
    lines += [(f"vectors.tsv:{at}", name, decode(tokens), ours) for at, (name, _, ours, tokens) in enumerate(fields_of("vectors.tsv"), 1)]
    for place, of, buf, wanted in lines:
        if name_of(answers.position(buf)) != wanted:
            yield f"vectors/{place}: {of}: the model answers {name_of(answers.position(buf))}, and not {wanted}"


def shown(line: str) -> tuple[str, str]:
    """How the data names the further row of a line in the notation, and what its answer shows."""
    extension, mime_type, group, parent, _ = line.split(maxsplit=4)
    return f"{group.title()}/{extension}" + (f" below {parent}" if parent != "-" else ""), f"{mime_type} {extension}"


def answer(buf: bytes, rows: list[tuple[str, str]]) -> tuple[str, str]:
    """The further row that gives the wider answer, or "-", and what that shows."""
    built_in = answers.position(buf)
    found = answers.more_position(buf, built_in)
    if found is None:
        return "-", "unknown"
    return rows[found - len(EXTENSIONS)] if found != built_in else ("-", f"{MIME_TYPES[found]} {EXTENSIONS[found]}")


def further_faults(rows: list[tuple[str, str]], lines: list[str]) -> Iterator[str]:
    """What is wrong with the buffers of the further rows, and last the rows that no buffer has as its answer."""
    names, left = {name for name, _ in rows}, dict.fromkeys(rows)
    for at, line in enumerate(lines, 1):
        how, tokens, *wanted = line.split("\t")
        told = answer(decode(tokens), rows)
        left.pop(told, None)
        if how.partition(",")[0] not in names:
            yield f"vectors/further/vectors.tsv:{at}: no further row is named {how.partition(',')[0]}"
        elif wanted != [*told]:
            yield f"vectors/further/vectors.tsv:{at}: {how}: the model answers {', '.join(told)}, and not {', '.join(wanted)}"
    yield from (f"vectors/further/vectors.tsv:{len(lines)}: no line has the answer {', '.join(it)}" for it in left)


def main(*paths: str) -> int:
    texts = []
    for path in paths or (f"{DATA}/further/types.txt", f"{DATA}/further/vectors.tsv"):
        with open(path, encoding="utf-8") as file:
            texts.append(file.read().splitlines())
    lines = [it for it in texts[0] if not it.startswith("#")]
    answers.FURTHER[:] = [answers.Further(it, at) for at, it in enumerate(lines, len(EXTENSIONS))]
    found = [*built_in_faults(), *further_faults([*map(shown, lines)], texts[1])]
    print("".join(f"{it}\n" for it in found), end="")
    return 1 if found else 0


if __name__ == "__main__":
    sys.exit(main(*sys.argv[1:]))
