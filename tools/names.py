"""Makes the lists of crates/infer_named from names.txt: the keys in the order of their slots, so that a name is found by one look.
Code has them as numbers and as one text, since the prover reads those at once; the definition has a key a line."""
import ast
import bisect
import collections
import re
from typing import NamedTuple

from texts import kept, line_of, refuse, text_of

CRATE = "crates/infer_named"
NAMES = f"{CRATE}/names.txt"
FURTHER = "vectors/further/rows.tsv"
# How many slots there are, and of how many the keys are one list of the definition.
SLOTS, GROUP = 512, 64
LONGEST = 27
COPIES = ("~", ".bak", ".orig", ".old")
# Bytes without a row of which kinds a type admits, by what it asks.
KINDS = {"Signature": set(), "Text": {"empty", "marked"}, "Bytes": {"marked", "binary"}, "Nothing": {"empty", "marked", "binary"}}
# Who names a type, from those whose types more files have.
ORIGINS = ("Row", "Known", "Own")
LINE = re.compile(r"(?P<usage>strict |loose )?(?P<part>extension|whole) (?P<text>\S+): (?P<readings>.*)")
READING = re.compile(r"(?P<mime_type>\S+) \((?:row (?P<row>\S+)|(?P<known>known)|own)\), (?P<asks>signature|text|bytes|nothing)(?P<sets>(?:; .*)?)")
# Rows that are named together.
SETS = re.compile(r"(?P<name>texts|tame|free): (?P<rows>.+)")
# A row whose files have no name of their own, and why.
NAMELESS = re.compile(r"nameless (?P<row>\S+): .+")
LEAD = re.compile(r'"(?:[ !#-\[\]-~]|\\(?:x[0-9A-Fa-f]{2}|0(?![0-9])|[nrt"\\]))+"')
ROW = re.compile(r'Row\("(.*)"\)')
WIDTH = 99
# How many rows are looked for at once.
ROWS = 128
# How many rows a range has at most.
MOST_OF_RUN = 255
KEYS_CODE = """//! Made by `tools/tables` from names.txt: the keys in the order of their slots, where the slots begin, and the readings.
use crate::table::Origin::{{Known, Own, Row}};
use crate::table::{{Asks, Key, NamedType, Part, Reading, Usage, keys, origin, readings, span}};

/// Where the keys of each slot begin, and where those of the last end.
pub(crate) static STARTS: [u16; {starts_count}] = [
{starts}
];

/// For what a key is in use, what it is of a name, where its text stands and how long it is, and where its readings stand and how many
/// they are.
pub(crate) static KEYS: [Key; {count}] = keys![
{keys}
];

/// Where the MIME type of a reading's type stands and how long it is, who names it, what it asks, where the ranges of its sets of
/// rows stand and how many they are, and the number of its leads. A row names a type by the place and length of its extension.
pub(crate) static READINGS: [Reading; {readings_count}] = readings![
{readings}
];
"""
TEXTS_CODE = """//! Made by `tools/tables` from names.txt: the texts of the keys, of the types and of the rows, each text behind the other.

pub(crate) static KEY_TEXTS: &[u8] =
    b"{keys}";

pub(crate) static MIME_TYPES: &str =
    "{types}";

pub(crate) static ROW_TEXTS: &str =
    "{rows}";
"""
SETS_CODE = """//! Made by `tools/tables` from names.txt: the sets of rows that readings have, and their leads.
ghost use Rattle.std.specs.Prelude.{{◌≡◌}};
ghost use Rattle.infer_named.specs.Listed.{{lists_of_texts}};
ghost use Rattle.infer_named.specs.Texts.{{lead_lists}};

use crate::table::{{lists, span, spans}};
use infer_evidence::Span;

/// Where the text of a row stands and how long it is.
pub(crate) static ROWS: [Span; {rows_count}] = spans![
{rows}
];

/// The rows of the sets, by the number of the first and how many follow each other, one set behind the other.
pub(crate) static RANGES: [Span; {ranges_count}] = spans![
{ranges}
];

/// The rows of texts that no program runs and no browser renders.
pub(crate) static TAME: Span = span!({tame});

/// The rows of files that people name as they like: texts and programs.
pub(crate) static FREE: Span = span!({free});

static LEADS: &[&[&[u8]]] = lists![
{leads}
];

/// The lists of leads.
#[tactic(auto, unfolding(crate::specs::Texts::lead_lists))]
pub(crate) fn leads() -> &'static [&'static [&'static [u8]]]
    ensures {{ lists_of_texts result.now ≡ lead_lists }}
{{
    LEADS
}}
"""
TEXTS_TERM = """-- Made by `tools/tables` from names.txt: sets of rows that many readings have, and the lists of leads.
use Rattle.std.specs.Prelude.{{ℕ, List, [], ◌∷◌, codes}}

-- no rows
abbrev pub none : List (List ℕ)
none = []

-- any beginning
abbrev pub any : List (List ℕ)
any = []

-- the rows of texts
abbrev pub texts : List (List ℕ)
texts =
    {texts} ∷ []

-- those that no program runs and no browser renders
unfoldable pub tame : List (List ℕ)
tame =
    {tame} ∷ []

-- the rows of files that people name as they like: texts and programs
unfoldable pub free : List (List ℕ)
free = {free}

-- with what the files of a type begin, as lists that readings have
unfoldable pub lead_lists : List (List (List ℕ))
lead_lists =
{leads}
    ∷ []
"""
TABLE = """-- Made by `tools/tables` from names.txt: all keys, in the order of their slots.
use Rattle.std.specs.Prelude.{{List, ◌++◌}}
use Rattle.infer_named.specs.Key.{{Key}}
{uses}

-- the table of keys
unfoldable pub keys : List Key
keys = {keys}
"""
# The proofs of one part of the keys, which begins behind so many.
KEYS_PROOF = """-- Made by `tools/tables` from names.txt: each key of slots {first} to {last} stands in its slot, and none is wrong: if one is, its
-- text stands in the error.
use Rattle.std.proofs.Common.{{◌≡◌, [], length, refl}}
use Rattle.infer.specs.Table.{{table}}
use Rattle.infer_more.specs.Table.{{{lists}, further}}
use Rattle.infer_more.specs.Wider.{{shown}}
use Rattle.infer_named.proofs.FindLemmas.{{wrong_from}}
use Rattle.infer_named.specs.Keys.{name}.{{keys}}
use Rattle.infer_named.specs.Slots.{{starts}}

pub many : length keys ≡ {count}
unfolding keys
many = refl

pub right : wrong_from starts {end} {start} keys ≡ []
unfolding keys starts shown table further {rows_names}
right = refl
"""
ALL_PROOF = """-- Made by `tools/tables` from names.txt: code and definition have the same keys, and no key is wrong.
use Rattle.std.proofs.Common.{{◌≡◌, [], map, refl, subst}}
use Rattle.infer_named.proofs.FindLemmas.{{right_append, wrong_from}}
use Rattle.infer_named.proofs.ListedLemmas.{{key_is, key_near}}
use Rattle.infer_named.specs.Listed.{{key_listed, key_texts, mime_types, ranges, readings, row_spans, row_texts}}
use Rattle.infer_named.specs.Slots.{{starts}}
use Rattle.infer_named.specs.Table.{{keys}}
use Rattle.infer_named.specs.Texts.{{lead_lists}}
use Rattle.infer_named.specs.declared.table.generated.keys.TheConstants.{{KEYS}}
{uses}

pub right : wrong_from starts {count} 0 keys ≡ []
unfolding keys
right ={right}

keys_alike : map key_near KEYS ≡ keys
unfolding keys {lists} key_texts readings mime_types ranges row_spans row_texts lead_lists
keys_alike = refl

pub keys_listed : map key_listed KEYS ≡ keys
keys_listed = subst (λ listed. map listed KEYS ≡ keys) key_is keys_alike
"""
NAMELESS_TERM = """-- Made by `tools/tables` from names.txt: the rows whose files have no name of their own.
use Rattle.std.specs.Prelude.{{ℕ, List, [], ◌∷◌, codes}}

unfoldable pub nameless : List (List ℕ)
nameless =
{rows}
    ∷ []
"""
NAMED_PROOF = """-- Made by `tools/tables` from names.txt and the rows: a key that takes each row, by its number. A row that the key does not take
-- stands in the error.
use Rattle.std.proofs.Common.{{◌≡◌, ℕ, [], List, ◌∷◌, drop, refl, take}}
use Rattle.infer.specs.Table.{{table}}
use Rattle.infer_more.specs.Table.{{{lists}, further}}
use Rattle.infer_more.specs.Wider.{{shown}}
use Rattle.infer_named.proofs.NamedLemmas.{{named_last, named_part, unnamed}}
use Rattle.infer_named.specs.Laws.{{EachRowIsNamed}}
use Rattle.infer_named.specs.Nameless.{{nameless}}
use Rattle.infer_named.specs.Table.{{keys}}
{uses}

{parts}
pub each_named : EachRowIsNamed
unfolding shown table further {names}
each_named ={each_named}
"""
NAMED_PART_PROOF = """takers_{number} : List ℕ
takers_{number} = {takers}

named_{number} : unnamed (take {count} (drop {start} shown)) takers_{number} ≡ []
unfolding shown table further {lists} nameless keys {keys} takers_{number}
named_{number} = refl
"""
KEYS_HEAD = "-- Made by `tools/tables` from names.txt: the keys of all slots, {} a file.\n"
KEYS_TERM = """-- Made by `tools/tables` from names.txt: the keys of slots {} to {}.
use Rattle.std.specs.Prelude.{{List, [], ◌∷◌, codes}}
use Rattle.infer_named.specs.Key.{{Key, key, named, reading, {}}}
use Rattle.infer_named.specs.Texts.{{any, none, texts}}
use Rattle.infer_named.specs.declared.table.Asks.TheVariants.{{{}}}
use Rattle.infer_named.specs.declared.table.Part.TheVariants.{{{}}}
use Rattle.infer_named.specs.declared.table.Usage.TheVariants.{{{}}}

unfoldable pub keys : List Key
keys =
{}
    ∷ []
"""


class Reading(NamedTuple):
    mime_type: str
    origin: str
    asks: str
    agrees: tuple
    begins: tuple
    finer: tuple
    leads: tuple


class Name(NamedTuple):
    text: str
    part: str
    usage: str
    readings: tuple


class Wrong(Exception):
    """A line of names.txt that is none, with what is wrong."""


@kept
def sets_named():
    """The rows that are named together, by the name of each set."""
    found = {line["name"]: line["rows"].split() for line in map(SETS.fullmatch, text_of(NAMES).splitlines()) if line}
    return {name: tuple(it for word in rows for it in (found["texts"] if word == "texts" else [word])) for name, rows in found.items()}


def rows_of(words):
    return tuple(it for word in words.split() for it in (sets_named()["texts"] if word == "texts" else [word]))


def usage_of(word, part, readings):
    """For what a name is in use: a whole name and that of a text for files of its types alone, as one that the line says."""
    has_text = any(it.asks == "Text" or "txt" in (*it.agrees, *it.begins, *it.finer) for it in readings)
    return word.title() if word else "Strict" if part == "whole" or has_text else "Plain"


def reading(text):
    found = READING.fullmatch(text)
    if not found:
        raise Wrong(f"no reading: {text}")
    told = [it.partition(" ")[::2] for it in found["sets"].split("; ")[1:]]
    sets = dict(told)
    if len(sets) < len(told) or not all(sets.values()):
        raise Wrong(f"a word stands twice, or has nothing behind it: {found['sets'][2:]}")
    if not re.fullmatch(f"(?:{LEAD.pattern}(?: (?!$)|$))*", sets.get("leads", "")):
        raise Wrong(f"these are no texts in quotes, with the escapes of code: {sets['leads']}")
    leads = tuple(LEAD.findall(sets.pop("leads", "")))
    kinds = [rows_of(sets.pop(it, "")) for it in ("agrees", "begins", "finer")]
    if sets:
        raise Wrong(f"unknown words: {', '.join(sets)}")
    if len({*kinds[0], *kinds[1], *kinds[2]}) < sum(map(len, kinds)):
        raise Wrong("a row stands twice")
    for row in (*kinds[0], *kinds[1], *kinds[2], *filter(None, [found["row"]])):
        if row not in known_rows():
            raise Wrong(f"no row has the extension or the MIME type {row}")
    if found["row"] and found["mime_type"] not in known_rows()[found["row"]]:
        raise Wrong(f"the row {found['row']} has the MIME type {' or '.join(sorted(known_rows()[found['row']]))}, and not {found['mime_type']}")
    if not re.fullmatch(r"[!#-\[\]-~]+/[!#-\[\]-~]+", found["mime_type"]):
        raise Wrong(f"no MIME type: {found['mime_type']}")
    origin = f'Row("{found["row"]}")' if found["row"] else "Known" if found["known"] else "Own"
    return Reading(found["mime_type"], origin, found["asks"].title(), *kinds, leads)


def is_hidden(it, before, is_loose):
    """Whether those before that fit all bytes take its rows, and admit each kind of bytes without a row that it admits, of
    which a loose name tells nothing."""
    all_fit = [other for other in before if not other.leads]
    rows = {row for other in all_fit for row in (*other.agrees, *other.begins, *other.finer)}
    kinds = {kind for other in all_fit for kind in KINDS[other.asks]}
    return rows.issuperset({*it.agrees, *it.begins, *it.finer}) and (is_loose or kinds.issuperset(KINDS[it.asks]))


def name(line):
    found = LINE.fullmatch(line)
    if not found:
        raise Wrong("no name")
    text = found["text"]
    if not re.fullmatch(f"[!#-.0-@\\[\\]-~]{{1,{LONGEST}}}", text):
        raise Wrong(f"a key has 1 to {LONGEST} small letters, digits and marks")
    if any(text.endswith(it) and text != it for it in COPIES):
        raise Wrong("a name loses the ending of a copy")
    if found["part"] == "extension" and (text.count(".") > 1 or text.startswith("so.") or f".{text}" in COPIES):
        raise Wrong("no name has this extension")
    readings = tuple(map(reading, found["readings"].split(" | ")))
    usage = usage_of((found["usage"] or "").strip(), found["part"], readings)
    for number, it in enumerate(readings):
        # The only reading of a loose name may say no more than what type the name has.
        if is_hidden(it, readings[:number], usage == "Loose") and (len(readings) > 1 or usage != "Loose"):
            raise Wrong(f"no bytes are left to {it.mime_type}")
    return Name(text, found["part"].title(), usage, readings)


def head_of(line):
    """What a line names, without for what it is in use."""
    found = LINE.fullmatch(line)
    return f"{found['part']} {found['text']}" if found else ""


def text_named(line):
    found = LINE.fullmatch(line)
    return found["text"] if found else ""


def lines_of_rows(named):
    """A line for each further row that is not named: its extension, which says nothing of bytes that the row refuses."""
    with_extension = collections.Counter(extension for extension, _ in all_rows())
    for line in text_of(FURTHER).splitlines():
        _, mime_type, extension, parent, *_ = line.split("\t")
        if named.isdisjoint((extension, mime_type)):
            row = extension if with_extension[extension] == 1 else mime_type
            yield f"extension {extension}: {mime_type} (row {row}), signature; agrees {row}" + (f"; begins {parent}" if parent != "none" else "")


@kept
def names_lines():
    """The lines of names.txt, and at their places those of rows that no line names: of an extension that has a line the first
    reading of this."""
    lines = text_of(NAMES).splitlines()
    sets = [it for line in lines for it in re.findall("; (?:agrees|begins|finer) ([^;|]*)", line)]
    for line in lines_of_rows({row for it in sets for row in rows_of(it)} | set(nameless())):
        head, _, its = line.partition(": ")
        place = next((at for at, it in enumerate(lines) if head_of(it) == head), None)
        if place is None:
            lines.insert(bisect.bisect(lines, text_named(line), key=text_named), line)
        else:
            # The extension has another type already, which it may still mean where the row refuses the bytes.
            head, _, readings = lines[place].partition(": ")
            lines[place] = f"{head}: {its} | {readings}"
    return lines


def place_of(line):
    """Where the last line of a name stands: one that is added, where its row does."""
    numbers = [number for number, it in enumerate(text_of(NAMES).splitlines(), 1) if head_of(it) == head_of(line) or it == line]
    if numbers:
        return NAMES, numbers[-1]
    extensions = [it.split("\t")[2] for it in text_of(FURTHER).splitlines()]
    return FURTHER, len(extensions) - extensions[::-1].index(text_named(line))


@kept
def listed():
    """The names in order. It ends with the first line that is wrong."""
    names, known = [], {}
    for line in names_lines():
        if line.startswith("#") or NAMELESS.fullmatch(line) or SETS.fullmatch(line):
            continue
        try:
            names.append(name(line))
            if known.setdefault(names[-1][:2], line) is not line:
                raise Wrong("the name stands above too")
        except Wrong as it:
            refuse(*place_of(line), f"{line.partition(':')[0]}: {it}")
    return names


@kept
def known_rows():
    """The MIME types of the rows that a text names: their extension, or their MIME type."""
    found = collections.defaultdict(set)
    for row in all_rows():
        for it in row:
            found[it].add(row[1])
    return found


def place_of_row(number):
    """Where the data has the row of a number."""
    built_in = len(text_of("vectors/rows.tsv").splitlines())
    return ("vectors/rows.tsv", number + 1) if number < built_in else (FURTHER, number - built_in + 1)


def check():
    """Ends with the first line of names.txt that is wrong, and with a row that has no name."""
    listed()
    for name, rows in sets_named().items():
        for it in rows:
            if it not in known_rows():
                refuse(NAMES, line_of(NAMES, f"{name}: "), f"{name} has {it}, and no row has the extension or the MIME type")
    takers()


@kept
def nameless():
    """The rows whose files have no name of their own."""
    return [found["row"] for line in text_of(NAMES).splitlines() if (found := NAMELESS.fullmatch(line))]


@kept
def all_rows():
    """The texts of each row: its extension and its MIME type, the built-in ones first."""
    return [(line[2], line[1]) for path in ("vectors/rows.tsv", FURTHER) for line in (it.split("\t") for it in text_of(path).splitlines())]


@kept
def takers():
    """For each row the number of a key that has it in a set, and 0 of one without a name."""
    found, known = {}, {row for rows in all_rows() for row in rows}
    for number, it in enumerate(in_slots()):
        for row in (row for reading in it.readings for row in (*reading.agrees, *reading.begins, *reading.finer)):
            found.setdefault(row, number)
    for number, rows in enumerate(all_rows()):
        if found.keys().isdisjoint(rows) and set(nameless()).isdisjoint(rows):
            refuse(*place_of_row(number), f"the row {rows[0]} has no name: add a line for it to {NAMES}")
        if not found.keys().isdisjoint(rows) and not set(nameless()).isdisjoint(rows):
            refuse(NAMES, line_of(NAMES, f"nameless {rows[0]}"), f"the row {rows[0]} is nameless, and another line names it")
    for it in nameless():
        if it not in known:
            refuse(NAMES, line_of(NAMES, f"nameless {it}:"), f"no row is {it}, which is said to be nameless")
    return [next((found[row] for row in rows if row in found), 0) for rows in all_rows()]


def other_extensions(known):
    """The extensions of the types of some rows that are not the rows' own, each with the extension of its row. A name that may
    mean several types is none of them."""
    for it in sorted(listed()):
        own = it.readings[0].origin
        if it.part == "Extension" and it.usage != "Loose" and len(it.readings) == 1 and "." not in it.text and it.text not in known:
            found = ROW.fullmatch(own)
            if found and found[1] in known and found[1] in it.readings[0].agrees:
                yield it.text, found[1]


def slot_of(text):
    """The slot of a key, as crates/infer_named/specs/Names.antt defines it."""
    first, middle, last = text[0], text[len(text) // 2], text[-1]
    return (len(text) + 118 * ord(first) + 203 * ord(middle) + 36 * ord(last)) % SLOTS


def in_order(of):
    """What the readings have, each once and in order, with its number."""
    return {it: number for number, it in enumerate(sorted({found for it in listed() for reading in it.readings for found in of(reading)}))}


@kept
def types():
    return in_order(lambda it: [(it.mime_type, it.origin)])


@kept
def sets():
    of_readings = in_order(lambda it: (it.agrees, it.begins, it.finer))
    return of_readings | {it: number for number, it in enumerate((sets_named()["tame"], sets_named()["free"]), len(of_readings))}


@kept
def leads():
    return in_order(lambda it: [it.leads])


def parts(lines, size):
    return [lines[at : at + size] for at in range(0, len(lines), size)]


def numbers_text(numbers):
    """Numbers as `rt fmt` lays them out."""
    lines, line = [], ""
    for it in numbers:
        if line and len(line) + len(f" {it},") > WIDTH:
            lines.append(line)
            line = ""
        line += f"{' ' if line else '    '}{it},"
    return "\n".join([*lines, line])


class Texts:
    """Texts, one behind the other, each once."""

    def __init__(self, texts):
        self.places, self.text = {}, ""
        for it in texts:
            if it not in self.places:
                self.places[it] = len(self.text)
                self.text += it

    def span(self, text):
        return f"{self.places[text]} {len(text)}"


@kept
def in_slots():
    """The keys in the order of their slots. In a slot those come first that more files have: extensions, those of a row's type
    before others, and short ones before long ones."""
    return sorted(listed(), key=lambda it: (slot_of(it.text), it.part != "Extension", ORIGINS.index(it.readings[0].origin.partition("(")[0]), len(it.text)))


def starts():
    """How many keys stand before each slot, and how many there are."""
    slots = [slot_of(it.text) for it in in_slots()]
    return [bisect.bisect_left(slots, number) for number in range(SLOTS + 1)]


@kept
def rows():
    """The texts of the rows that sets and types have, each with its number: those of texts first, which sets have together."""
    named = {it for rows in sets() for it in rows} | {found[1] for _, origin in types() if (found := ROW.fullmatch(origin))}
    texts = sets_named()["texts"]
    return {it: number for number, it in enumerate([*texts, *sorted(named.difference(texts))])}


def ranges(numbers):
    """Where runs of numbers that follow each other begin, and how long they are, at most as a byte can say."""
    found = []
    for it in numbers:
        if found and it == sum(found[-1]) and found[-1][1] < MOST_OF_RUN:
            found[-1] = (found[-1][0], found[-1][1] + 1)
        else:
            found.append((it, 1))
    return found


@kept
def key_texts():
    return Texts(it.text for it in in_slots())


@kept
def mime_types():
    return Texts(it for it, _ in types())


@kept
def row_texts():
    return Texts(sorted(rows()))


def rust_text(text):
    return re.sub(r'(["\\])', r"\\\1", text)


def keys_code():
    keys, readings = [], []
    for it in in_slots():
        spans = f"{key_texts().span(it.text)} {len(readings)} {len(it.readings)}"
        keys.append(f"    {it.usage} {it.part} {spans};")
        readings += map(reading_text, it.readings)
    return KEYS_CODE.format(
        starts=numbers_text(starts()), starts_count=SLOTS + 1, keys="\n".join(keys), count=len(keys),
        readings="\n".join(readings), readings_count=len(readings),
    )


def texts_code():
    return TEXTS_CODE.format(keys=rust_text(key_texts().text), types=rust_text(mime_types().text), rows=rust_text(row_texts().text))


def reading_text(it):
    """A reading as numbers: of its type, of its sets and of its leads."""
    row = ROW.fullmatch(it.origin)
    origin = f"Row {row_texts().span(row[1])}" if row else it.origin
    rows = " ".join(set_spans()[rows] for rows in (it.agrees, it.begins, it.finer))
    return f"    {mime_types().span(it.mime_type)} {origin} {it.asks} {rows} {leads()[it.leads]};"


def leads_text(found):
    return f"[{' '.join(f'b{lead}' for lead in found)}]"


@kept
def ranges_of_sets():
    """The ranges of rows of the sets, one set behind the other."""
    return [ranges(rows()[row] for row in it) for it in sets()]


@kept
def set_spans():
    """Where the ranges of each set stand among those of all, and how many they are."""
    counts = [len(it) for it in ranges_of_sets()]
    return {it: f"{sum(counts[:number])} {counts[number]}" for number, it in enumerate(sets())}


def sets_code():
    found = [it for of_set in ranges_of_sets() for it in of_set]
    return SETS_CODE.format(
        rows="\n".join(f"    {row_texts().span(it)};" for it in rows()), rows_count=len(rows()),
        ranges="\n".join(f"    {start} {count};" for start, count in found), ranges_count=len(found),
        leads="\n".join(f"    {leads_text(found)}" for found in leads()), **{it: set_spans()[sets_named()[it]] for it in ("tame", "free")},
    )


def codes(texts):
    return f"({' ∷ '.join([*(f'codes {it}' for it in texts), '[]'])})"


def rows_term(rows):
    if rows == sets_named()["texts"]:
        return "texts"
    return codes(f'"{it}"' for it in rows) if rows else "none"


def lead_term(lead):
    """A lead as a term: a text if all of its bytes are marks or letters."""
    found = ast.literal_eval(f"b{lead}")
    if all(0x20 < it < 0x7F and it not in b'"\\\\' for it in found):
        return f'codes "{found.decode()}"'
    return f"({' ∷ '.join([*(f'0x{it:02X}' for it in found), '[]'])})"


def leads_term(found):
    return f"({' ∷ '.join([*map(lead_term, found), '[]'])})" if found else "any"


def origin_term(origin):
    return re.sub(r"Row\((.*)\)", r"(row (codes \1))", origin).replace("Known", "known").replace("Own", "own")


def reading_term(it):
    rows = " ".join(map(rows_term, (it.agrees, it.begins, it.finer)))
    return f'reading (named (codes "{it.mime_type}") {origin_term(it.origin)}) {it.asks} {rows} {leads_term(it.leads)}'


def key_term(it):
    readings = " ∷ ".join([*map(reading_term, it.readings), "[]"])
    return f'key {it.part} (codes "{it.text}") {it.usage} ({readings})'


def listed_terms(terms):
    return "\n".join(f"    {'∷ ' if number else ''}{it}" for number, it in enumerate(terms))


def of_group(number):
    """The keys of the slots of a group."""
    return in_slots()[starts()[number * GROUP] : starts()[(number + 1) * GROUP]]


def group_term(number):
    first, keys = number * GROUP, of_group(number)
    readings = [reading for it in keys for reading in it.readings]
    used = ({origin_term(it.origin).strip("(").split()[0] for it in readings}, {it.asks for it in readings}, {it.part for it in keys}, {it.usage for it in keys})
    return KEYS_TERM.format(first, first + GROUP - 1, *(", ".join(sorted(it)) for it in used), listed_terms(map(key_term, keys)))


def joined(names):
    """The lists of these names, one behind the other."""
    return " ++ (".join(names) + ")" * (len(names) - 1)


def group_proof(number):
    start, end = starts()[number * GROUP], starts()[(number + 1) * GROUP]
    return KEYS_PROOF.format(
        first=number * GROUP, last=(number + 1) * GROUP - 1, name=f"K{number}", count=end - start, start=start, end=end,
        lists=", ".join(further_lists()), rows_names=" ".join(further_lists()),
    )


def all_proof():
    count = SLOTS // GROUP
    uses = [f"use Rattle.infer_named.{of}{it} as {name}{it}" for of, name in (("proofs.Placed.K", "k"), ("specs.Keys.K", "of_k")) for it in range(count)]
    right = f"k{count - 1}.right"
    for it in reversed(range(count - 1)):
        right = f"right_append starts {len(in_slots())} {starts()[it * GROUP]} {len(of_group(it))} _ _ refl k{it}.many k{it}.right\n    ({right})"
    return ALL_PROOF.format(
        uses="\n".join(uses), right=f"\n    {right}", count=len(in_slots()), lists=" ".join(f"of_k{it}.keys" for it in range(count)),
    )


def nameless_term():
    return NAMELESS_TERM.format(rows=listed_terms(f'codes "{it}"' for it in nameless()))


def further_lists():
    """The lists of the further rows, by their names in the definition."""
    found = re.search(r"^further =\n(.*?)\n$", text_of("crates/infer_more/specs/Table.antt") + "\n", re.M | re.S)
    return re.findall(r"\w+", found[1])


def named_proof():
    """That each row has a name, so many rows at once."""
    lists = further_lists()
    numbered = parts(list(enumerate(takers())), ROWS)
    each = "\n".join(
        NAMED_PART_PROOF.format(
            number=number, takers=" ∷ ".join([*(str(it) for _, it in part), "[]"]), count=len(part), start=number * ROWS, lists=" ".join(lists),
            keys=" ".join(f"k{it}.keys" for it in range(SLOTS // GROUP)),
        )
        for number, part in enumerate(numbered)
    )
    last = len(numbered) - 1
    term = f"named_last shown {last * ROWS} {len(numbered[-1])} takers_{last} refl named_{last}"
    for number in reversed(range(last)):
        term = f"named_part shown {number * ROWS} {ROWS} takers_{number} named_{number}\n    ({term})"
    return NAMED_PROOF.format(
        lists=", ".join(lists), names=" ".join(lists), parts=each, each_named=f"\n    {term}",
        uses="\n".join(f"use Rattle.infer_named.specs.Keys.K{it} as k{it}" for it in range(SLOTS // GROUP)),
    )


def texts_term():
    """The definition of sets with rows of texts, eight a line, and of the leads."""
    free = sets_named()["free"][: -len(sets_named()["texts"])]
    eight = lambda rows: "\n    ∷ ".join(" ∷ ".join(f'codes "{it}"' for it in part) for part in parts(rows, 8))
    return TEXTS_TERM.format(
        texts=eight(sets_named()["texts"]), tame=eight(sets_named()["tame"]), free=" ∷ ".join([*(f'codes "{it}"' for it in free), "texts"]), leads=listed_terms(map(leads_term, leads())),
    )


def made():
    for name, code in (("keys", keys_code), ("texts", texts_code), ("sets", sets_code)):
        yield f"{CRATE}/src/table/generated/{name}.rt", code()
    yield f"{CRATE}/specs/Texts.antt", texts_term()
    yield f"{CRATE}/specs/Nameless.antt", nameless_term()
    yield f"{CRATE}/proofs/NamedRows.antt", named_proof()
    lists = range(SLOTS // GROUP)
    for number in lists:
        yield f"{CRATE}/specs/Keys/K{number}.antt", group_term(number)
        yield f"{CRATE}/proofs/Placed/K{number}.antt", group_proof(number)
    mods = KEYS_HEAD.format(GROUP) + "".join(f"pub mod K{it}\n" for it in lists)
    yield f"{CRATE}/specs/Keys.antt", mods
    yield f"{CRATE}/proofs/Placed.antt", mods
    yield f"{CRATE}/proofs/PlacedLemmas.antt", all_proof()
    uses = "\n".join(f"use Rattle.infer_named.specs.Keys.K{it} as k{it}" for it in lists)
    yield f"{CRATE}/specs/Table.antt", TABLE.format(uses=uses, keys=joined([f"k{it}.keys" for it in lists]))
