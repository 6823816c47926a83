"""Writes the further rows as the code has them, from their definitions: rows, alternatives and pieces as lists of numbers, and
relations a few a list, each list behind a function whose contract compares it with them."""
import re

from signatures import literal
from terms import Call
from texts import text_of

RELATIONS = "crates/infer_formats/src/relation.rt"
# The check of a list takes time quadratic in the references that it holds.
RELATIONS_OF_A_LIST = 32
# What a call takes stands on one line up to here.
CALL_WIDTH = 60
DATA = """//! Made by `tools/tables` from the definitions of the further rows, which the prover compares with them.
ghost use Rattle.std.specs.Prelude.{{◌≡◌, IsAscii}};
ghost use Rattle.infer_more.specs.Listed.{{alternatives, asked_texts, extensions, mime_types, pieces, rows}};

use crate::row_data::Piece::{{At, Between, OneOf}};
use crate::row_data::{{Alternative, Bytes, FurtherRow, Piece}};
use infer::MatcherType;
use infer::rows::{{
{parents}
}};

/// The MIME types of the rows, each with a zero after it.
static MIME_TYPES: &str =
    "{mime_types}";

pub(super) fn mime_types() -> &'static str
    ensures value {{ result.now ≡ mime_types }}
    ensures ascii {{ IsAscii result.now }}
{{
    MIME_TYPES
}}

/// The extensions of the rows, each with a zero after it.
static EXTENSIONS: &str =
    "{extensions}";

pub(super) fn extensions() -> &'static str
    ensures value {{ result.now ≡ extensions }}
    ensures ascii {{ IsAscii result.now }}
{{
    EXTENSIONS
}}

/// What the rows ask for.
static ASKED_TEXTS: &[u8] =
    {asked};

#[tactic(auto, unfolding(crate::specs::Listed::asked_texts))]
#[inline(always)]
pub(super) fn asked_texts() -> &'static [u8]
    ensures {{ result.now ≡ asked_texts }}
{{
    ASKED_TEXTS
}}

/// The pieces of all alternatives, a piece a line: a place, and a span of what is asked for or a range of bytes.
static PIECES: [Piece; {piece_count}] = pieces![
{pieces}
];

#[tactic(auto, unfolding(crate::specs::Listed::pieces))]
#[inline(always)]
pub(super) fn all_pieces() -> &'static [Piece]
    ensures {{ result.now ≡ pieces }}
{{
    &PIECES
}}

/// The alternatives of all rows, one a line: a least length and a span of pieces, or the number of a relation.
static ALTERNATIVES: [Alternative; {alternative_count}] = alternatives![
{alternatives}
];

#[tactic(auto, unfolding(crate::specs::Listed::alternatives))]
#[inline(always)]
pub(super) fn all_alternatives() -> &'static [Alternative]
    ensures {{ result.now ≡ alternatives }}
{{
    &ALTERNATIVES
}}

/// The rows, a row a line: spans of what it shows and of its alternatives, and its parent.
static ROWS: [FurtherRow; {row_count}] = rows![
{rows}
];

#[tactic(auto, unfolding(crate::specs::Listed::rows))]
#[inline(always)]
pub(super) fn all_rows() -> &'static [FurtherRow]
    ensures {{ result.now ≡ rows }}
{{
    &ROWS
}}
"""
LISTS = """//! Made by `tools/tables` from the definitions of the further rows, which the prover compares with them: the relations that
//! rows ask for, a few a list.
#![tactic(auto, unfolding(crate::specs::Listed::relations, {unfolded}))]

ghost use Rattle.std.specs.Prelude.{{◌≡◌, ◌+◌, ◌<◌, ◌≤◌, IfSome, None}};
ghost use Rattle.infer_more.specs.Listed.{{AreRelations}};

use infer_formats::relation::Relation;
use infer_formats::relation::Relation::{{
{relations}
}};

/// How many relations stand in a list, but perhaps the last.
const RELATIONS_OF_A_LIST: usize = {size};

/// How many relations there are.
const RELATION_COUNT: usize = {count};
{lists}
/// The list in which the relation of that number stands, and the number of the relation with which it begins.
#[tactic(auto)]
pub(super) fn list_of(number: usize) -> Option<(usize, &'static [Relation<'static>])>
    ensures listed {{ IfSome result (λ list. (list.0 ≤ number)
        × (number < list.0 + RELATIONS_OF_A_LIST) × AreRelations list.0 list.1.now) }}
    ensures all {{ result ≡ None → RELATION_COUNT ≤ number }}
{{
    match number / RELATIONS_OF_A_LIST {{
{arms}
        _ => None,
    }}
}}
"""
LIST = """
static RELATIONS_FROM_{first}: &[Relation<'static>] = &[
{relations}
];

fn relations_from_{first}() -> &'static [Relation<'static>]
    ensures {{ AreRelations {first} result.now }}
{{
    RELATIONS_FROM_{first}
}}
"""
# Rows are compared sixteen a line, and of so many lines at once: one that takes too long ends the check.
ROWS_OF_A_LINE, LINES = 16, 16
ROWS_AT_ONCE = ROWS_OF_A_LINE * LINES
OF_ROWS = """-- Made by `tools/tables`: the rows of the code are those of the definitions, and a zero stands after each of their texts, sixteen
-- rows a line, so that a line which is refused tells of which rows.
use Rattle.infer_more.proofs.Common.{{{names}, ◌≡◌, drop, length, map, refl, subst}}
use Rattle.infer_more.proofs.ListedLemmas.{{AreAlike, listed, listed_is, listed_near, shown, walked}}
use Rattle.infer_more.specs.Listed.{{alternatives, asked_texts, extensions, mime_types, pieces, relations, rows}}
use Rattle.infer_more.specs.declared.row_data.relations.TheConstants.{{RELATION_COUNT}}
{lines}
behind : map listed_near (drop {past} rows) ≡ map shown (drop {past} further)
unfolding rows {unfolded}
behind = refl

pub rows_listed : map listed rows ≡ map shown further
rows_listed = subst (λ listed. map listed rows ≡ map shown further) listed_is
    ({walked})

pub length-relations : length relations ≡ RELATION_COUNT
unfolding relations {unfolded}
length-relations = refl
"""
LINES_OF_ROWS = """
from_{first} : AreAlike listed_near shown rows further {first}
unfolding alternatives asked_texts extensions mime_types pieces relations rows {unfolded}
from_{first} = (
{lines}
)
"""


def byte(value):
    """A byte as the code writes it: as a letter if it is one."""
    return f"b'{value:c}'" if 0x20 < value < 0x7F and value not in b"'\\" else f"0x{value:02X}"


def piece(part):
    """What is asked of a place."""
    place, asked = part.takes
    if part.name == "text" and len(asked) == 1:
        return f"is!({place}, {byte(asked[0])})"
    if part.name == "text":
        return f"At({place}, {literal(asked)})"
    if asked.name == "anyof":
        return f"OneOf({place}, {literal(*asked.takes)})"
    return f"Between({place}, {', '.join(f'0x{it:02X}' for it in asked.takes)})"


def fixed(term):
    least, parts = term.takes
    return ", ".join([str(least), *map(piece, parts)])


def variants():
    """What each relation takes, by its name in small letters: its name in the code, and the types."""
    listed = text_of(RELATIONS).partition("pub enum Relation<'a> {\n")[2].partition("\n}\n")[0]
    found = re.findall(r"^    (\w+)(?:\((.*)\))?,$", listed, re.M)
    return {name.lower(): (name, re.split(r", (?![^\[]*\])", takes) if takes else []) for name, takes in found}


def value(taken, kind):
    """What a relation takes, by its type in the code."""
    if isinstance(taken, Call):
        return f"bytes!({fixed(taken)})"
    if isinstance(taken, int):
        return f"0x{taken:04X}"
    return ("*" if re.fullmatch(r"\[u8; \d+\]", kind) else "") + literal(taken)


def alternative(term):
    """An alternative of a signature."""
    if term.name == "atleast":
        return fixed(term)
    [asked] = term.takes
    if term.name == "binarybytes":
        return f"BinaryBytes(bytes!({fixed(asked)}))"
    name, kinds = variants()[asked.name]
    takes = ", ".join(map(value, asked.takes, kinds))
    return f"{name}({takes})" if takes else name


def wrapped(names):
    """Names that are used, a line of the code each some."""
    lines = [""]
    for name in sorted(names):
        if len(lines[-1]) + len(name) > 94:
            lines.append("")
        lines[-1] += f" {name},"
    return "\n".join("   " + it for it in lines)


class Texts:
    """Texts in one, each once and where it stands there already."""

    def __init__(self):
        self.whole = b""

    def span(self, text):
        """Where the text stands, and its length."""
        if text not in self.whole:
            self.whole += text
        return f"{self.whole.index(text)} {len(text)}"

    def ended(self, text):
        """The same of a text with a zero after it, which the length leaves out."""
        place, _ = self.span(f"{text}\0".encode()).split()
        return f"{place} {len(text)}"


class Listed:
    """The rows as lists of numbers, and their texts."""

    def __init__(self, rows):
        self.mime_types, self.extensions, self.asked = Texts(), Texts(), Texts()
        self.pieces, self.alternatives, self.relations = [], [], []
        self.rows = list(map(self.row, rows))

    def piece(self, part):
        place, asked = part.takes
        if part.name == "text" and len(asked) == 1:
            return f"Between {place} {byte(asked[0])} {byte(asked[0])}"
        if part.name == "text":
            return f"At {place} {self.asked.span(bytes(asked))}"
        if asked.name == "anyof":
            return f"OneOf {place} {self.asked.span(bytes(*asked.takes))}"
        return f"Between {place} {' '.join(map(byte, asked.takes))}"

    def alternative(self, term):
        if term.name == "related":
            self.relations.append(alternative(term))
            return f"Related {len(self.relations) - 1}"
        kind, (least, parts) = ("Bytes", term.takes) if term.name == "atleast" else ("BinaryBytes", term.takes[0].takes)
        first = len(self.pieces)
        self.pieces += map(self.piece, parts)
        return f"{kind} {least} {first} {len(parts)}"

    def row(self, shown):
        group, mime_type, extension, parent, signature = shown
        first = len(self.alternatives)
        self.alternatives += map(self.alternative, signature)
        return f"{group} {self.mime_types.ended(mime_type)} {self.extensions.ended(extension)} {first} {len(signature)} {parent}".rstrip()


def lines(listed):
    return "\n".join(f"    {it};" for it in listed)


def data(rows):
    """The file of the rows."""
    listed = Listed(rows)
    return DATA.format(
        parents=wrapped({it[3] for it in rows} - {""}),
        mime_types=literal(listed.mime_types.whole)[2:-1], extensions=literal(listed.extensions.whole)[2:-1], asked=literal(listed.asked.whole),
        piece_count=len(listed.pieces), pieces=lines(listed.pieces),
        alternative_count=len(listed.alternatives), alternatives=lines(listed.alternatives),
        row_count=len(rows), rows=lines(listed.rows),
    )


def in_lists(rows):
    """The number of the first relation of each list, and the relations."""
    asked = Listed(rows).relations
    return [(first, asked[first : first + RELATIONS_OF_A_LIST]) for first in range(0, len(asked), RELATIONS_OF_A_LIST)]


def laid_out(relation):
    """A relation as `rt fmt` has it in a list."""
    name, _, takes = relation.partition("(")
    if len(takes) - 1 <= CALL_WIDTH or "," not in takes:
        return f"    {relation},"
    taken = "\n".join(f"        {it}," for it in re.findall(r'b"(?:[^"\\]|\\.)*"|[^, ]+', takes[:-1]))
    return f"    {name}(\n{taken}\n    ),"


def relations(rows, lists):
    """The file of the relations, of rows that stand in these lists."""
    found = in_lists(rows)
    names = {it.partition("(")[0] for _, its in found for it in its}
    return LISTS.format(
        relations=wrapped(names), size=RELATIONS_OF_A_LIST, count=sum(len(its) for _, its in found),
        unfolded=", ".join(f"crate::specs::Table::{it}" for it in lists),
        lists="".join(LIST.format(first=first, relations="\n".join(map(laid_out, its))) for first, its in found),
        arms="\n".join(f"        {k} => Some(({first}, relations_from_{first}()))," for k, (first, _) in enumerate(found)),
    )


def of_rows(first, unfolded):
    """The lines that compare some rows."""
    told = (f"  refl,  -- {at} to {at + ROWS_OF_A_LINE - 1}" for at in range(first, first + ROWS_AT_ONCE, ROWS_OF_A_LINE))
    return LINES_OF_ROWS.format(first=first, unfolded=unfolded, lines="\n".join(told))


def answers(rows, names):
    """The proofs of the lists, by their files."""
    joined, unfolded = ", ".join(names), " ".join(names)
    firsts = range(0, len(rows), ROWS_AT_ONCE)
    walked = "behind"
    for first in reversed(firsts):
        walked = f"walked listed_near shown rows further {first} {first + ROWS_AT_ONCE} refl from_{first} {walked if first == firsts[-1] else f'({walked})'}"
    yield "ListedRows", OF_ROWS.format(
        names=joined, unfolded=unfolded, lines="".join(of_rows(first, unfolded) for first in firsts), walked=walked, past=firsts[-1] + ROWS_AT_ONCE)
