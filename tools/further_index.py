"""Makes the index of the further rows from their signatures: which rows are tried below each built-in row, and which a byte at
one of few places picks where there is no built-in answer. An entry names a row and one more byte that it asks, so that few rows
are tried whole. Rows that ask for a program, a root, the first key of an object or a package are found by a name, and the texts
last. The check refuses an index that leaves a row out; here only what is cheap is chosen."""
import ast
import collections
import itertools
import re
import textwrap
from typing import NamedTuple

from further_code import Texts
from signatures import literal
from terms import Unread, term_of
from texts import kept, text_of

# A set of more bytes is no entry, but is left to the signature.
MOST_BYTES = 5
# What an entry costs, and what a row that is tried in vain.
ENTRY, TRIED = 8, 40
HEAD = """//! Made by `tools/tables` from the further rows, the lists of the index: a place, a byte there, and a row, or a name and a
//! row. Those below each built-in row stand in its order, but for those that are found by names, which have lists of their
//! own.
ghost use Rattle.std.specs.Prelude.{{◌≡◌, [], ◌∷◌}};
ghost use Rattle.infer_more.specs.Index.{{AreWaysBelow, IsWayBelow, name_texts}};

use crate::index::Below::{{ClassIds, Entries, Nothing, Packages, Programs, Roots, Tagged}};
use crate::index::search::below_at;
use crate::index::{{Below, ByName, Entry, Named, Spot, Texts}};
use crate::row_data::span;

/// How many further rows there are.
pub const FURTHER_COUNT: usize = {};

/// The texts by which rows are found.
static NAME_TEXTS: &[u8] =
    {};

#[tactic(auto, unfolding(crate::specs::Index::name_texts))]
#[inline(always)]
pub(super) fn name_texts() -> &'static [u8]
    ensures {{ result.now ≡ name_texts }}
{{
    NAME_TEXTS
}}

"""
BELOW_APART = """
/// How the rows below built-in row {0} are found.
#[inline(always)]
fn below_{0}() -> &'static Below
    ensures {{ IsWayBelow {0} result.now }}
{{
    &BELOW_{0}
}}
"""
BELOW_OTHERS = """
/// How the rows below each built-in row are found, but for these.
#[inline(always)]
fn below_others() -> &'static [Below]
    ensures {{ AreWaysBelow ({}) result.now }}
{{
    BELOW
}}

/// How the rows below this built-in row are found.
#[inline(always)]
pub(super) fn way_listed(parent: usize) -> &'static Below
    ensures {{ IsWayBelow parent result.now }}
{{
    match parent {{
{}
        _ => below_at(below_others(), parent),
    }}
}}
"""
# The answers of the functions of lists, which compute that each row is found: a refusal shows the numbers of those that are not.
COMPUTED = """-- Made by `tools/tables` from the further rows: computed of each.
use Rattle.infer_more.proofs.Common.{{{words}refl}}
use Rattle.infer_more.proofs.Common.{{{names}}}
use Rattle.infer_more.proofs.FoundLemmas.{{{lemma}}}
use Rattle.infer_more.specs.Index.{{name_texts}}
use Rattle.infer_more.proofs.index.generated.{function}.Goals as goal

pub returns : goal.returns
unfolding name_texts {unfolded}
returns c = {lemma} {parent}_ refl refl
"""
WAYS_BELOW = """-- Made by `tools/tables` from the further rows: the other ways stand in one list.
use Rattle.infer_more.proofs.Common.{{◌∷◌, [], arith, subst, sym}}
use Rattle.infer_more.specs.Index.{{IsWayBelow}}
use Rattle.infer_more.proofs.BelowLemmas.{{not_among}}
use Rattle.infer_more.proofs.FoundLemmas.{{way_of_list}}
use Rattle.infer_more.proofs.index.generated.way_listed.Goals as goal

pub returns-in_default : goal.returns-in_default
returns-in_default c =
    subst (IsWayBelow c.args.parent) (sym c.below_at.ensures)
    (way_of_list ({parents}) _ c.below_others.ensures c.args.parent (not_among ({parents}) c.args.parent {differ}))
"""
# A text or a character in the code.
TEXT = r"""(?:"(?:[^"\\]|\\.)*"|'(?:[^'\\]|\\.)*')"""
TEXT_OF_BYTES = rf"b{TEXT}"
# The longest line of code.
WIDTH = 100
# How many buckets of names there are.
BUCKETS = 32
# Zeros stand near the front of many buffers.
FRONT = 32
# What an entry costs a buffer that picks it, the first one of a byte beside that, and a byte that is common in texts.
EACH, FIRST, TEXT_BYTE = 9, 45, 100
# More than each number of a row.
LAST = 1 << 16
# The kinds of ways below a parent that stand in one list: they have no list inside a list.
LISTED = {"Nothing", "Entries"}
# What is found last, without being tried.
TEXTS = {"JsonLines", "JsonText", "PlainText"}
# What asks for a tag of the first directory.
TAGGED = {"DirectoryTag", "DirectoryTagAndMake"}
# What is found without a parent and not tried.
BY_NAME = TEXTS | {"Root", "RootWith", "FirstKey", "FirstKeyWith"}
# What is found with a parent or without one.
NOT_TRIED = BY_NAME | {"ClassId", "PackageWith", "Program"}
COMMON = set(b" etaoinshrdlu\n\x00\x01\xFF")
RELATIONS = "crates/infer_formats/specs/Relation.antt"
# What every buffer has that fits an alternative which looks inside, where RELATIONS names other definitions, or asks for more
# bytes than tell it.
ZIP = {0: {0x50}, 1: {0x4B}, 2: {0x03}, 3: {0x04}}
ALL = set(range(0x100))


def named(name):
    """A ZIP archive whose first entry has a name that begins so."""
    return ZIP | {30 + k: {byte} for k, byte in enumerate(name)}


def begun(text):
    """A text that stands first, or behind a byte order mark."""
    return [dict(enumerate({byte} for byte in text)), {0: {0xEF}, 1: {0xBB}, 2: {0xBF}}]


# What it takes, by its first text.
NAMED = {
    "FirstEntryIs": lambda name: [named(name)],
    "FirstEntryEndsIn": lambda name: [ZIP],
    "FirstEntryHasExtra": lambda extra: [ZIP],
    "TextFirst": begun,
    "TextFirstWith": begun,
    "TextFirstWithAll": begun,
    "PackageWith": lambda folder: [named(it) for it in (b"[Content_Types].xml", b"_rels/", b"docProps/", folder)],
}
MARKUP = [{0: set(b"\t\n\r <")}, {0: {0xEF}, 1: {0xBB}, 2: {0xBF}}]
JSON = [{0: set(b"\t\n\r [{")}, {0: {0xEF}, 1: {0xBB}, 2: {0xBF}}]
OBJECT = [{0: set(b"\t\n\r {")}, {0: {0xEF}, 1: {0xBB}, 2: {0xBF}}]
OUTLINES = {
    "HasEntry": [ZIP],
    "JavaArchive": [named(b"META-INF/")],
    # (its own pieces tell them)
    "BinaryBytes": None,
    "ClassId": [{0: {0xD0}, 1: {0xCF}, 2: {0x11}, 3: {0xE0}}],
    "DirectoryTag": [{0: {0x49}, 1: {0x49}}, {0: {0x4D}, 1: {0x4D}}],
    "DirectoryTagAndMake": [{0: {0x49}, 1: {0x49}}, {0: {0x4D}, 1: {0x4D}}],
    "Animated": [{0: {0x89}, 1: {0x50}, 2: {0x4E}, 3: {0x47}}],
    "Dbase": [{0: {0x02, 0x03, 0x30, 0x31, 0x32, 0x43, 0x63, 0x83, 0x8B, 0xCB, 0xF5}, 12: {0}, 13: {0}}],
    "TarChecksum": [{148: {0x20, *range(0x30, 0x38)}}],
    "Program": [{0: {0x23}, 1: {0x21}}],
    "Root": MARKUP,
    "RootWith": MARKUP,
    "JsonLines": JSON,
    "JsonText": JSON,
    "FirstKey": OBJECT,
    "FirstKeyWith": OBJECT,
}


class Alternative(NamedTuple):
    """One of a signature: what it is called, or "", what it takes, and the bytes that each of its outlines allows by place."""

    name: str
    takes: str
    outlines: list[dict[int, set[int]]]


class Further(NamedTuple):
    """A further row: the constant of its parent or "", and its alternatives."""

    parent: str
    signature: list[Alternative]

    def outlines(self, told=()):
        """What all of them ask at fixed places, but those that are found in another way."""
        return [asked for it in self.signature if it.name not in told for asked in it.outlines]


def bytes_of(text):
    """The bytes of a literal of Rust, in which \\0 ends before a digit."""
    return ast.literal_eval(re.sub(r"\\(.)", lambda it: r"\x00" if it[1] == "0" else it[0], text.removeprefix("*")))


def byte_of(text):
    """The byte of a literal of Rust, a number or a character."""
    return bytes_of(text)[0] if text.startswith("b") else int(text, 0)


def asked(pieces):
    """The bytes that these pieces allow, by place."""
    allowed = {}
    for kind, place, rest in re.findall(rf"(At|OneOf|Between|is!)\((\d+), ((?:{TEXT}|[^()\"'])*)\)", pieces):
        if kind == "is!":
            allowed[int(place)] = {byte_of(rest)}
        elif kind == "At":
            allowed.update((int(place) + k, {byte}) for k, byte in enumerate(bytes_of(rest)))
        elif kind == "OneOf":
            allowed[int(place)] = set(bytes_of(rest))
        else:
            low, high = (byte_of(it) for it in rest.split(", "))
            allowed[int(place)] = set(range(low, high + 1))
    return allowed


@kept
def outlines_of(name):
    """What the definitions say that every buffer has which fits the relation, by place, if they name no other definition."""
    lines = re.findall(r"^lines \(?(\w+)[^=\n]*=((?: [^\n]*)?(?:\n {4}[^\n]*)*)", text_of(RELATIONS), re.M)
    [said] = [text for it, text in lines if it.replace("_", "") == name.lower()] or [""]
    try:
        return [allowed(it) for it in term_of(said)]
    except (AttributeError, IndexError, TypeError, Unread, ValueError):
        return []


def allowed(outline):
    """The bytes that a list of parts allows, by place."""
    by_place = {}
    for part in outline.takes[1]:
        place, said = part.takes
        if part.name == "text":
            by_place.update((place + k, {byte}) for k, byte in enumerate(bytes(said)))
        elif said.name == "between":
            by_place[place] = set(range(said.takes[0], said.takes[1] + 1))
        elif said.name == "anyof":
            by_place[place] = set(bytes(said.takes[0]))
        else:
            by_place[place] = ALL - {*bytes(said.takes)}
    return by_place


def alternative(code):
    """An alternative as the code writes it: pieces, or what a name stands for."""
    name, _, takes = code.removesuffix(")").partition("(")
    if code[0].isdigit():
        return Alternative("", "", [asked(code)])
    if name in NAMED:
        return Alternative(name, takes, NAMED[name](bytes_of(re.match(TEXT_OF_BYTES, takes.removeprefix("*"))[0])))
    return Alternative(name, takes, OUTLINES.get(name) or outlines_of(name) or [asked(code)])


def is_found_by_name(alternative):
    """Whether it is found below a parent: by a name, or by few bytes at a place."""
    return alternative.name in NOT_TRIED - TEXTS or all(min(map(len, it.values()), default=256) <= MOST_BYTES for it in alternative.outlines)


def few(alternative):
    """What the index has few of that an alternative asks for, or nothing, which of them if rows can share one, and how many
    there may be."""
    if alternative.name in TAGGED:
        return "tags of the first directory of a TIFF file", alternative.takes.partition(",")[0], 2
    return (f"row with {alternative.name}", None, 1) if alternative.name in TEXTS else ("", "", 1)


def hits(alternative, place, byte):
    """How likely a buffer of that alternative has the byte at the place, in hundredths."""
    return (100 if byte in alternative[place] else 0) if place in alternative else 10


def covers(pairs, alternative, known):
    """Whether every buffer of the alternative has one of the pairs."""
    places = {place for place, _ in pairs if place in alternative}
    return known in pairs or any(all((place, byte) in pairs for byte in alternative[place]) for place in places)


def rank(pairs, chosen, left, later, known):
    """What it costs to list a row so, for each alternative that it lists: each entry, and each later row that is found
    only after this one was tried in vain, as often. Zeros stand near the front of many buffers. At one price what stands later
    tells more: the bytes of the parent come first."""
    new = pairs - chosen
    vain = TRIED * sum(hits(it, *pair) for it in later for pair in new) / 100
    price = ENTRY * len(new) + vain + sum(4 for _, byte in new if byte in COMMON)
    price += sum(max(0, FRONT - place) for place, byte in new if byte == 0x00)
    count = sum(covers(pairs, it, known) for it in left)
    return (price + 30 * (known in pairs)) / count, sorted((-place, byte) for place, byte in pairs)


def entries(rows, known=None, beside=()):
    """The entries of these rows, pairs of a number and its alternatives: for each alternative a place, and an entry for
    each byte that it allows there, or one with the pair that every such buffer has. Rows beside them are listed elsewhere."""
    for number, alternatives in rows:
        later = [it for other, its in [*rows, *beside] if other > number for it in its]
        chosen, left = set(), alternatives
        while left:
            ways = {frozenset((place, byte) for byte in allowed) for it in left for place, allowed in it.items() if len(allowed) <= MOST_BYTES}
            ways = {it for it in ways if known not in it} | ({frozenset([known])} if known else set())
            chosen |= min(ways, key=lambda it: rank(it, chosen, left, later, known))
            left = [it for it in left if not covers(chosen, it, known)]
        yield from ((place, byte, number) for place, byte in sorted(chosen))


def is_picked(place, alternative):
    """Whether few bytes are allowed at the place, and not the zero of many files."""
    return place in alternative and len(alternative[place]) <= MOST_BYTES and 0 not in alternative[place]


def fewest(alternative):
    """The place at which it allows the fewest bytes, but for the zero of many files."""
    return min(alternative, key=lambda place: (0 in alternative[place], len(alternative[place])))


def places_of(alternatives):
    """Few places at which each is picked: that comes next which picks the most that are left, and of two the nearer. Each that
    many bytes pick wherever it is has the place of the fewest."""
    left = [it for it in alternatives if any(is_picked(place, it) for place in it)]
    places = {fewest(it) for it in alternatives if it not in left}
    while left:
        count = collections.Counter(place for it in left for place in it if is_picked(place, it))
        places.add(min(count, key=lambda place: (-count[place], place)))
        left = [it for it in left if not any(is_picked(place, it) for place in places)]
    return sorted(places)


def picks(places, alternatives):
    """The place at which each is picked, so that few buffers of the others pick it there. Each is placed anew when the others
    are."""
    common = collections.Counter((place, byte) for it in alternatives for place in places if is_picked(place, it) for byte in it[place])
    loads, chosen = collections.Counter(), [None] * len(alternatives)
    ways = [[place for place in places if is_picked(place, it)] or [fewest(it)] for it in alternatives]
    price = lambda place, allowed: sum((common[place, byte] + 1) * (EACH + FIRST * (not loads[place, byte])) + TEXT_BYTE * (byte in COMMON) for byte in allowed)
    for _ in range(8):
        for k, it in enumerate(alternatives):
            if chosen[k] is not None:
                loads.subtract((chosen[k], byte) for byte in it[chosen[k]])
            chosen[k] = min(ways[k], key=lambda place: price(place, it[place]))
            loads.update((chosen[k], byte) for byte in it[chosen[k]])
    return chosen


def spots(rows):
    """The places of the spots, and of each of its bytes the entries: for the rows of no parent that are tried."""
    numbered = [(number, it) for number, row in enumerate(rows) if not row.parent for it in row.outlines(BY_NAME)]
    places = places_of([it for _, it in numbered])
    at = picks(places, [it for _, it in numbered])
    for place in places:
        asked = [(number, it, chosen == place) for (number, it), chosen in zip(numbered, at) if place in it]
        yield place, [picked(place, byte, asked) for byte in range(256)]


def picked(place, byte, asked):
    """The entries that the byte picks at the place, of the alternatives that ask there, some of which are picked by it."""
    both = [it for it in asked if byte in it[1][place]]
    own = [(number, it | {place: {byte}}) for number, it, is_own in both if is_own]
    # Each of the others may come after these.
    others = [(LAST, [it]) for _, it, is_own in both if not is_own]
    return list(entries(of_each_row(own), (place, byte), others))


def nearest(outline, beside=()):
    """The entries of an outline at its nearest place that allows few bytes, but for those beside it, or at that with the fewest."""
    few = [place for place, allowed in outline.items() if len(allowed) <= MOST_BYTES and place not in beside]
    place = min(few) if few else fewest(outline)
    return {(place, byte) for byte in outline[place]}


def by_lead(rows):
    """What rules out the rows of no parent but those of texts, in their order: of each first byte the entries of those that allow
    it, and the entries of those that ask nothing of it. The nearest bytes rule out most."""
    first, beside = [[] for _ in range(256)], []
    for number, row in enumerate(rows):
        asked = row.outlines(TEXTS) if not row.parent else []
        for byte, entries in enumerate(first):
            own = [nearest(it | {0: {byte}}, {0}) for it in asked if byte in it.get(0, ())]
            entries += [(*it, number) for it in sorted(set().union(*own))]
        others = [nearest(it) for it in asked if 0 not in it]
        beside += [(*it, number) for it in sorted(set().union(*others))]
    return first, beside


def listed(some):
    return "(" + ", ".join(" ".join(in_words(it)) for it in some) + ")"


def of_each_row(alternatives):
    """The alternatives by their rows."""
    return [(number, [it for _, it in some]) for number, some in itertools.groupby(alternatives, key=lambda it: it[0])]


def names(rows, name):
    """The texts that the alternatives of that name take, each with the number of its row."""
    for number, row in rows:
        yield from ((re.findall(TEXT_OF_BYTES, it.takes), number) for it in row.signature if it.name == name)


def name_at(rows, name):
    """The texts that the alternatives of that name take, and of that with another text, as code has them, in the order of the
    rows."""
    both = sorted([*names(rows, name), *names(rows, f"{name}With")], key=lambda it: it[1])
    return [(some[0], f"{some[0]} ({' '.join(some[1:])}) {k}") for some, k in both]


def in_buckets(rows, name):
    """The names of the alternatives of that name, in buckets by five bits of their first byte, of which one distinguishes small
    letters from others."""
    buckets = [[said for text, said in name_at(rows, name) if ast.literal_eval(text)[0] // 2 % BUCKETS == n] for n in range(BUCKETS)]
    return "buckets![" + " ".join(f"({', '.join(some)})" for some in buckets) + "]"


def in_one(rows, name):
    """And those names in one list."""
    return f"named!{bracketed(said for _, said in name_at(rows, name))}"


def tried_beside(rows, kinds):
    """The entries of those of these rows that are found in another way than these."""
    return f"entries!{in_list(entries([(k, row.outlines(kinds)) for k, row in rows]))}"


def below(rows):
    """How the rows below a built-in row are found, each with its number: what it is called, and what it takes."""
    kinds = {it.name for _, row in rows for it in row.signature}
    if not rows:
        return "Nothing", []
    if "ClassId" in kinds:
        return "ClassIds", [tried_beside(rows, {"ClassId"}), in_one(rows, "ClassId")]
    if "Program" in kinds:
        return "Programs", [tried_beside(rows, {"Program"}), in_buckets(rows, "Program")]
    if kinds & TAGGED:
        tags = sorted({int(it.takes.partition(",")[0], 0) for _, row in rows for it in row.signature if it.name in TAGGED})
        tagged = [(k, row) for k, row in rows if TAGGED & {it.name for it in row.signature}]
        asked_for = [(k, [it for own in row.signature if own.name in TAGGED for it in own.outlines]) for k, row in tagged]
        return "Tagged", [tried_beside(rows, TAGGED), f"0x{tags[0]:04X}", f"0x{tags[-1]:04X}", f"entries!{in_list(entries(asked_for))}"]
    if kinds <= {"Root", "RootWith"}:
        return "Roots", [in_buckets(rows, "Root")]
    told = {"PackageWith"} & kinds
    if not told:
        return "Entries", [f"entries!{in_list(entries([(k, row.outlines()) for k, row in rows]))}"]
    return "Packages", [tried_beside(rows, told), in_one(rows, "PackageWith")]


def in_lines_of_code(name, takes, before, after=";"):
    """A value as `rt fmt` lays it out."""
    line = f"{before}{name}({', '.join(takes)}){after}" if takes else f"{before}{name}{after}"
    if len(line) + 4 <= WIDTH:
        return [line]
    return [f"{before}{name}(", *(f"    {it}," for it in takes), f"){after}"]


def apart(ways):
    """The parents whose rows are found by names."""
    return [k for k, (name, _) in enumerate(ways) if name not in LISTED]


def in_list_of(numbers):
    """A list of them, as a clause or a proof has it."""
    return " ∷ ".join([*map(str, numbers), "[]"])


def in_words(entry):
    place, byte, number = entry
    return str(place), f"0x{byte:02X}", str(number)


def bracketed(words):
    return "[" + ", ".join(words) + "]"


def in_list(some):
    return bracketed(" ".join(in_words(it)) for it in some)


def in_lines(words, many):
    """Words with commas between them, so many a line."""
    words = list(words)
    yield from (f"    {', '.join(words[at : at + many])}{',' * (at + many < len(words))}" for at in range(0, len(words), many))


def last(rows):
    """The rows of the texts."""
    for field, name in (("lines", "JsonLines"), ("json", "JsonText"), ("plain", "PlainText")):
        [(_, number)] = names(enumerate(rows), name)
        yield f"    {field}: {number},"


def in_spans(line, texts):
    """The line with the span of each of its texts for the text."""
    return re.sub(TEXT_OF_BYTES, lambda it: texts.span(bytes_of(it[0])), line)


def lists(rows, parents, texts):
    """The lists of the index, of rows whose parents stand among the constants of the built-in rows. Their texts go to these."""
    numbered = list(enumerate(rows))
    ways = [below([(k, row) for k, row in numbered if row.parent == parent]) for parent in parents]
    ways = [(name, [in_spans(it, texts) for it in takes]) for name, takes in ways]
    for k in apart(ways):
        yield from in_lines_of_code(*ways[k], f"static BELOW_{k}: Below = ")
        yield BELOW_APART.format(k)
    yield "static BELOW: &[Below] = &["
    for name, takes in ways:
        yield from (f"    {it}" for it in in_lines_of_code(*((name, takes) if name in LISTED else ("Nothing", [])), "", ","))
    yield "];"
    yield BELOW_OTHERS.format(in_list_of(apart(ways)), arms(apart(ways), "below_{}()"))
    found, (first, beside) = list(spots(rows)), by_lead(rows)
    yield from spans("", found)
    yield ""
    yield from spans("LEAD_", [(0, first)])
    yield ""
    yield from entries_of("BESIDE", beside)
    yield "\npub(crate) static TEXTS: Texts = Texts {"
    yield from last(rows)
    yield "};"
    own = [(k, row) for k, row in numbered if not row.parent]
    yield "\npub(super) static BY_NAME: ByName = ByName {"
    yield in_spans(f"    roots: {in_buckets(own, 'Root')},", texts)
    yield in_spans(f"    keys: {in_one(own, 'FirstKey')},", texts)
    yield "};"


def spans(name, found):
    """The places of spots, and of all their bytes where the entries of each begin, and the entries."""
    some = [it for _, by_byte in found for it in by_byte]
    starts = list(itertools.accumulate((len(it) for it in some), initial=0))
    places = bracketed(f"{place} {256 * k}" for k, (place, _) in enumerate(found))
    line = f"pub(crate) static {name}SPOTS: [Spot; {len(found)}] ="
    yield from [f"{line} spots!{places};"] if len(found) == 1 else [line, f"    spots!{places};"]
    yield f"\npub(crate) static {name}STARTS: [u16; {len(starts)}] = starts!["
    yield from (f"    {' '.join(map(str, starts[at : at + 64]))}" for at in range(0, len(starts), 64))
    yield "];\n"
    yield from entries_of(f"{name}ENTRIES", itertools.chain(*some))


def entries_of(name, some):
    """A list of entries."""
    some = [*some]
    yield f"pub(crate) static {name}: [Entry; {len(some)}] = picked!["
    yield from in_lines((" ".join(in_words(it)) for it in some), 16)
    yield "];"


def arms(numbers, call):
    """The arms of a match, one for each number, with what it calls."""
    return "\n".join(f"        {it} => {call.format(it)}," for it in numbers)


def lists_of_rows():
    """The names of the lists of rows, as the definitions have them."""
    return sorted(re.findall(r"^unfoldable pub (\w+) : List Further$", text_of("crates/infer_more/specs/Table.antt"), re.M))


def differing(numbers):
    """The proof that a number which is none of these differs from each."""
    return "(λ e. omega arith, " * len(numbers) + "tt" + ")" * len(numbers)


def computed(rows, parents):
    """The proof files of the functions of lists, each with its name."""
    ways = [below([(k, row) for k, row in enumerate(rows) if row.parent == parent]) for parent in parents]
    names = lists_of_rows()
    said = {"names": ", ".join(names), "unfolded": " ".join(names)}
    for k in apart(ways):
        yield f"below_{k}", COMPUTED.format(function=f"below_{k}", lemma="way_below", words="", parent=f"{k} ", **said)
    others = in_list_of(apart(ways))
    yield "below_others", COMPUTED.format(function="below_others", lemma="ways_below", words="◌∷◌, [], ", parent=f"({others}) ", **said)
    yield "way_listed", WAYS_BELOW.format(parents=others, differ=differing(apart(ways)))


def text(rows, parents):
    """The file of the index."""
    texts = Texts()
    lines = "\n".join(lists(rows, parents, texts))
    return HEAD.format(len(rows), literal(texts.whole)) + lines + "\n"
