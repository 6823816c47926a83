"""The further rows, as the definitions and the data have them, and as the code gets them from the definitions. Each is read
whole and compared: what cannot be read, or is not alike, ends the run with a sentence that names the row and the file."""
import itertools
import re
import sys
from typing import NamedTuple

import further_code
import further_index
import types_text
from terms import Call, Unread, term_of
from texts import TOP, kept, line_of, refuse, text_of

sys.path.append(f"{TOP}/vectors/model")
import notation

SPECS = "crates/infer_more/specs/Table.antt"
DATA = "vectors/further/rows.tsv"

class Row(NamedTuple):
    """A row of the code, as it is written there: the constant of its parent or "", and its alternatives."""

    group: str
    mime_type: str
    extension: str
    parent: str
    alternatives: list[str]


def lists():
    """The lists of rows, in their order."""
    [whole] = re.findall(r"^further =(.*(?:\n {4}.*)*)", text_of(SPECS), re.M) or [""]
    return re.findall(r"(\w+) \+\+", whole)


def unread(text):
    """In which line of a list, counted from 0, the first row begins that is no term by itself."""
    for row in re.finditer(r"^ {4}(?:∷ )?(\w.*(?:\n {5,}.*)*)", text, re.M):
        try:
            term_of(row[1])
        except Unread:
            return text.count("\n", 0, row.start())
    return text.count("\n")


@kept
def in_specs():
    """The rows of each list of the definitions."""
    found = {}
    for it in re.finditer(r"^unfoldable pub (\w+) : List Further\n\1 =((?:\n {4}.*)+)", text_of(SPECS), re.M):
        try:
            found[it[1]] = term_of(it[2])
        except Unread as fault:
            line = text_of(SPECS).count("\n", 0, it.start(2)) + 1 + min(unread(it[2]), fault.args[1])
            refuse(SPECS, line, f"in {it[1]}, this is no list of rows as those beside it: {fault.args[0]}")
    return found


@kept
def in_data():
    return [line.split("\t") for line in text_of(DATA).splitlines()]


def shown_in_specs(row, line):
    """What a row of the definitions shows, with the name of its parent or "", and its signature."""
    try:
        _, (group, mime_type, extension, parent, signature) = row
        if row.name != "row" or parent.name != ("Some" if parent.takes else "None"):
            raise ValueError
        return group.name, bytes(mime_type).decode(), bytes(extension).decode(), parent.takes[0].name if parent.takes else "", signature
    except (AttributeError, TypeError, ValueError):
        return refuse(SPECS, line, "this is no `row CLASS (codes MIME) (codes EXTENSION) PARENT SIGNATURE`")


@kept
def places():
    """The line in which each row of the definitions begins."""
    found = []
    for name in lists():
        its = re.search(rf"^{name} =((?:\n {{4}}.*)+)", text_of(SPECS), re.M)
        first = text_of(SPECS).count("\n", 0, its.start(1)) + 1
        found += [number for number, line in enumerate(its[1].split("\n"), first) if re.match(r" {4}(?:∷ )?\w", line)]
    return found


@kept
def shown():
    """What each row of the definitions shows, with the name of its parent or "", and its signature."""
    rows = [row for name in lists() for row in in_specs()[name]]
    return list(map(shown_in_specs, rows, places()))


@kept
def in_code():
    """The rows of the code."""
    return list(map(written, shown(), places()))


def written(row, line):
    """A row as the code writes it."""
    try:
        return Row(*row[:4], list(map(further_code.alternative, row[4])))
    except (AttributeError, IndexError, KeyError, TypeError, ValueError):
        return refuse(SPECS, line, f"{row[2]} has an alternative that the code cannot have")


def check_written(row, number, parents):
    """Ends with what the scripts can make nothing of in a row of the code: its parent, a name, a mistake of its signature."""
    label, line = f"further row {number} ({row.extension})", places()[number]
    if row.parent and row.parent not in parents:
        refuse(SPECS, line, f"{label} has the parent {row.parent}, and no built-in row is called that in crates/infer/src/table/rows.rt")
    for name in (it.partition("(")[0] for it in row.alternatives if not it[0].isdigit()):
        if name not in types_text.names():
            refuse(SPECS, line, f"{label} asks for {name}, which tools/types_text.py cannot write in the notation: add it to NAMES there")
        if name not in further_index.NAMED and name not in further_index.OUTLINES and not further_index.outlines_of(name):
            refuse(SPECS, line, f"{label} asks for {name}, of which tools/further_index.py knows no bytes: add it to NAMED or OUTLINES there")
    try:
        told = types_text.line(row, parents).strip()
    except (AttributeError, IndexError, SyntaxError, TypeError, ValueError):
        refuse(SPECS, line, f"{label} takes what the notation cannot write: {' or '.join(row.alternatives)}")
    try:
        notation.row(told.encode())
    except notation.Mistake as mistake:
        refuse(SPECS, line, f"{label} is wrong in the notation: {mistake.args[2]}, at column {mistake.args[1]} of: {told}")


def check_told(row, number):
    """Ends with a row below a parent that the index cannot tell by few bytes."""
    if row.parent and not all(further_index.is_found_by_name(further_index.alternative(it)) for it in row.alternatives):
        what = f"allows more than {further_index.MOST_BYTES} bytes wherever it asks, and the index finds no such row below a parent"
        refuse(SPECS, places()[number], f"further row {number} ({row.extension}) {what}: give it a place with fewer bytes")


def check_few(rows):
    """Ends with a row that asks for one more of what the index has few."""
    asked = [(number, further_index.alternative(it)) for number, row in enumerate(rows) for it in row.alternatives]
    known = {}
    for number, it in sorted(asked, key=lambda it: -it[0]):
        kind, key, most = further_index.few(it)
        known.setdefault(kind, set()).add(number if key is None else key)
        if len(known[kind]) > most:
            refuse(SPECS, places()[number], f"further row {number} ({rows[number].extension}) asks for one more than the index can have: {most} {kind}")


def check_lists():
    """Ends if the definitions have a list that they do not join to the others."""
    apart = {*lists()} ^ {*in_specs()} - {"further"}
    if apart:
        refuse(SPECS, line_of(SPECS, "\nfurther =") + 1, f"the definitions have a list that they do not join, or join one that they have not: {', '.join(sorted(apart))}")


def compare(parents):
    """Ends with the first row that the definitions and the data do not show alike. The parents are the extensions of the
    built-in rows by the names of their constants."""
    check_lists()
    for number, row in enumerate(in_code()):
        check_written(row, number, parents)
        check_told(row, number)
    check_few(in_code())
    known = {**parents, "": "none"}
    specs = [(*it[:3], known.get(it[3], it[3])) for it in shown()]
    for number, places in enumerate(itertools.zip_longest(specs, (tuple(it[:4]) for it in in_data()))):
        if places[0] != places[1]:
            each = (f"{'/'.join(it[:3])} below {it[3]} in {path}" if it else f"none in {path}" for it, path in zip(places, (SPECS, DATA)))
            path, line = (DATA, number + 1) if places[1] else (SPECS, places()[number])
            refuse(path, line, f"further row {number} is {', '.join(each)}")
