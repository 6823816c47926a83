"""Writes the further rows as a text of types, in the notation of docs/NOTATION.md."""
import re

from further_index import TEXT, TEXT_OF_BYTES, byte_of, bytes_of
from texts import kept, text_of

HEAD = """# The further types of the library, as a text of types, in the order in which they are asked. tools/tables writes it from
# the rows.
"""
# What each alternative is called that takes something other than a text, and what it takes.
NAMES = {
    "BinaryBytes": lambda it: f"{fixed(it.removeprefix('bytes!(').removesuffix(')'))} and binary",
    "FirstEntryIs": lambda it: f"first entry: is {quoted(it)}",
    "FirstEntryEndsIn": lambda it: f"first entry: ends in {quoted(it)}",
    "FirstEntryHasExtra": lambda it: f"first entry: has extra {spaced(it)}",
    "ClassId": lambda it: f"class id: {spaced(it)}",
    "DirectoryTag": lambda it: f"first directory has tag {int(it, 0):04X}",
    "DirectoryTagAndMake": lambda it: f"first directory has tag {int(it.split(',')[0], 0):04X} and make {pieces(texts(it)[0])}",
    "Program": lambda it: f"program: {bytes_of(it).decode()}",
    "TextFirst": lambda it: f"begins: {pieces(it)}",
    "TextFirstWith": lambda it: "begins: " + " has ".join(map(pieces, texts(it))),
    "TextFirstWithAll": lambda it: "begins: " + " has ".join(pieces(text) for text in texts(it) if bytes_of(text)),
    "Header": lambda it: "later header: {0} with {2} to {3} at {1}".format(pieces(texts(it)[0]), *(int(number, 0) for number in it.split(", ")[-3:])),
    "FirstKey": lambda it: f"first key: {quoted(it)}",
    "FirstKeyWith": lambda it: "first key: {} is {}".format(*map(quoted, texts(it))),
    "Root": lambda it: f"root: {bytes_of(it).decode()}",
    "RootWith": lambda it: "root: {} with {}".format(bytes_of(texts(it)[0]).decode(), quoted(texts(it)[1])),
}


def called(tokens):
    """What these tokens of relation.rt write."""
    found = re.findall(rf"(\w+)\((?:b'(.)'|({TEXT_OF_BYTES}))\)", tokens)
    return " ".join(byte or (quoted(text) if kind == "Quoted" else bytes_of(text).decode()) for kind, byte, text in found).replace(" :", ":")


@kept
def names():
    """What stands for each alternative: of a relation that takes nothing or a text, what relation.rt calls it."""
    code = " ".join(text_of("crates/infer_formats/src/relation.rt").split())
    of_text = dict(re.findall(r"OfText::(\w+) => Relation::(\w+)\(text\)", code))
    found = dict(NAMES)
    for tokens, takes, name in re.findall(r"\(\s*&\[([^]]*)\],\s*Takes::(Nothing|OneText)\(\w+::(\w+)\)", code):
        found[of_text.get(name, name)] = lambda it, said=called(tokens), takes=takes: said if takes == "Nothing" else f"{said} {quoted(it)}"
    return found


def texts(code):
    return re.findall(TEXT_OF_BYTES, code)


def spaced(literal):
    return " ".join(f"{it:02X}" for it in bytes_of(literal))


def quoted(literal):
    """A text between quotes."""
    return f'"{bytes_of(literal).decode()}"'


def pieces(literal):
    """A text, of which what cannot stand between quotes is told in digits."""
    return written(bytes_of(literal), 1)


def written(said, least=3):
    """The bytes: a text, or its runs of so many printable ones or more in quotes, and the others in digits."""
    least = 1 if re.fullmatch(rb"[ !#-~]+", said) else least
    run = rb"[ !#-~]{%d,}" % least
    runs = re.findall(rb"%s|(?:(?!%s).)+" % (run, run), said, re.DOTALL)
    return " ".join(f'"{it.decode()}"' if re.fullmatch(run, it) else " ".join(f"{byte:02X}" for byte in it) for it in runs)


def part(kind, place, rest):
    if kind == "At":
        said = written(bytes_of(rest))
    elif kind == "is!":
        said = f"{byte_of(rest):02X}"
    elif kind == "OneOf":
        said = "{" + spaced(rest) + "}"
    else:
        low, high = (byte_of(it) for it in rest.split(", "))
        said = f"{low:02X}..{high:02X}"
    return f"@{place} {said}"


def fixed(code):
    """Fixed bytes: a least length and pieces."""
    least, pieces = re.fullmatch(r"(\d+), (.*)", code).groups()
    found = re.findall(rf"(At|OneOf|Between|is!)\((\d+), ((?:{TEXT}|[^()\"'])*)\)", pieces)
    return f"{least}: {', '.join(part(*it) for it in found)}"


def alternative(inside):
    """The text of an alternative."""
    if inside[0].isdigit():
        return fixed(inside)
    name, _, takes = inside.removesuffix(")").partition("(")
    return names()[name](takes)


def line(row, parents):
    """The line of a row, by the extensions of the parents' constants."""
    first, *others = map(alternative, row.alternatives)
    # What is said of one kind is said once: `root: rss or RDF with ..`, `program: python pypy`.
    kind, colon, _ = first.partition(": ")
    once = "" if kind.isdigit() else kind + colon
    said = first + "".join((" " if kind == "program" else " or ") + it.removeprefix(once) for it in others)
    words = [f"{row.extension:<11}", f"{row.mime_type:<36}", f"{row.group.lower():<7}", f"{parents[row.parent] if row.parent else '-':<6}", said]
    return "  ".join(words) + "\n"


def text(rows, parents):
    """The text of these rows."""
    return HEAD + "".join(line(it, parents) for it in rows)
