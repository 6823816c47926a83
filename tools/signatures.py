"""The signatures of the built-in rows as data that the code reads, from the definitions of crates/infer_sig/specs: a row a
line, with its alternatives in brackets, each as its least length and its parts. A row that asks more than bytes at fixed
places has none."""
import glob
import re

from terms import Call, Unread, term_of
from texts import TOP, kept, line_of, refuse, text_of

TABLE = "crates/infer/specs/Table.antt"
DEFINITION = re.compile(r"^abbrev pub (\w+) : (?:List Alternative|List ℕ|List \(List ℕ\))\n\1 =((?:[^\n]*\n)(?: +[^\n]*\n)*)", re.M)


def paths():
    return sorted(glob.glob("crates/infer_sig/specs/*.antt", root_dir=TOP) + glob.glob("crates/infer_deep/specs/*.antt", root_dir=TOP))


@kept
def definitions():
    """What stands for each name of a signature, a text or texts."""
    return dict(it for path in paths() for it in DEFINITION.findall(text_of(path)))


def spelled(text):
    """The text of a term with what stands for each name in its place."""
    known = definitions()
    return re.sub(r'"[^"]*"|\b[a-z]\w*', lambda it: f"({spelled(known[it[0]])})" if it[0] in known else it[0], text.replace("\n", " "))


def literal(text):
    """Bytes as the code writes them."""
    known = {0x22: '\\"', 0x5C: "\\\\", 0x0A: "\\n", 0x0D: "\\r", 0x09: "\\t", 0x00: "\\0"}
    return 'b"' + "".join(known.get(it) or (chr(it) if 0x20 <= it < 0x7F else f"\\x{it:02X}") for it in text) + '"'


def set_of(bytes_):
    """A set of bytes as the code writes it."""
    match bytes_:
        case Call("anyof", (listed,)):
            return f"AnyOf({literal(listed)})"
        case Call("between", (low, high)):
            return f"Between(0x{low:02X}, 0x{high:02X})"
        case Call("allbut", (other,)):
            return f"AllBut(0x{other:02X})"
    raise Unread(bytes_)


def part_of(part):
    """What is asked of places as the code writes it."""
    match part:
        case Call("text", (place, text)):
            return f"Text({place}, {literal(text)})"
        case Call("anytext", (place, texts)):
            return f"AnyText({place}, &[{', '.join(map(literal, texts))}])"
        case Call("byte", (place, bytes_)):
            return f"Byte({place}, {set_of(bytes_)})"
    raise Unread(part)


def signatures_of(names):
    """The names of the rows of the table, each with what its signature is and, of bytes at fixed places, the alternatives."""
    signatures = re.findall(r'^    (?:∷ )?row \w+ \(codes ".*?"\) \(codes ".*?"\) (.*)$', text_of(TABLE), re.M)
    for name, signature in zip(names, signatures, strict=True):
        kind, _, rest = signature.strip("()").partition(" ")
        try:
            alternatives = term_of(spelled(signature[1:-1].partition(" ")[2])) if kind == "fixed" else ()
            yield name, kind, "".join(text_of_alternative(it.takes) for it in alternatives)
        except (AttributeError, TypeError, Unread, ValueError) as fault:
            refuse(*place_of(rest), f"this is no signature that the code can have: {fault}")


def place_of(name):
    """Where the definition of a signature stands, or the row that has another."""
    found = [path for path in paths() if f"\nabbrev pub {name} :" in text_of(path)]
    return (found[0], line_of(found[0], f"{name} = ")) if found else (TABLE, line_of(TABLE, f"(fixed {name})"))


def text_of_alternative(alternative):
    """An alternative as the code writes it."""
    least, parts = alternative
    return f" [{least} {', '.join(map(part_of, parts))}]"


def with_row_data(code, names):
    """The code with the alternatives of each row that asks for bytes at fixed places alone in its lists."""
    size = int(re.search(r"^const ROWS_OF_A_LIST: usize = (\d+);$", code, re.M)[1])
    rows = [f"    {name}{alternatives};\n" for name, _, alternatives in signatures_of(names)]
    rows += ["    NoRow [];\n"] * (-len(rows) % size)
    for first in range(0, len(rows), size):
        before, begin, after = code.partition(f"static DATA_FROM_{first}: [Option<RowData>; ROWS_OF_A_LIST] = row_data! {{\n")
        code = before + begin + "".join(rows[first : first + size]) + after[after.index("};\n") :]
    return code
