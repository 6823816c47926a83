"""What bindings/README.md shows of the calls of infer.h and infer_file.h in each language, by bindings/calls.tsv. There a
cell has names, with what is asked of them in parentheses, or "-" and why there is none."""
import os
import re

from texts import TOP, line_of, refuse, text_of

TABLE = "bindings/calls.tsv"
HEADERS = ["c/infer.h", "c/infer_file.h"]
LANGUAGES = ["C", "C++", "Python", "Rust", "Go", "JavaScript", "Java"]
PYTHON, RUST, GO, JAVASCRIPT = "bindings/python/src/infer", "bindings/rust/infer/src", "bindings/go", "bindings/javascript"
JAVA = "bindings/java/src/dev/hoarvelt/infer"
# Where the names of a module of the binding for Rust stand.
RUST_FILES = {"": ["lib", "read", "encoding", "file_type", "named"], "more": ["more"], "mimesniff": ["mimesniff"], "Types": ["types"], "app": ["matchers"], "image": ["matchers"]}


def declared():
    """The calls of the headers."""
    return set(re.findall(r"\b(infer_\w+)\(", re.sub(r"/\*.*?\*/", "", "".join(map(text_of, HEADERS)), flags=re.S)))


def is_in_cpp(name):
    of, _, item = name.rpartition("::")
    module = text_of("c/infer.hpp")
    # A class or a function, within a class or in the namespace.
    body = re.search(rf"^(?:class|struct) {of} .*?^\}};", module, re.M | re.S)[0] if of else module
    return bool(re.search(rf"\b(?:class|struct) {item} \{{|^ *(?:inline |void |std::|bool ).*\b{item}\(", body, re.M))


def is_in_python(name):
    of, _, method = name.rpartition(".")
    # A name of a module of its own, or of the package.
    if os.path.isfile(f"{TOP}/{PYTHON}/{of}.py"):
        return f'"{method}"' in text_of(f"{PYTHON}/{of}.py").partition("__all__ = ")[2].partition("]")[0]
    module = text_of(f"{PYTHON}/__init__.py")
    body = re.search(rf"^class {of}\b.*?(?=^\S)", module + "\nend", re.M | re.S) if of else None
    return f"def {method}(" in body[0] if body else f'"{method}"' in module.partition("__all__ = ")[2].partition("]")[0]


def is_in_rust(name):
    of, _, item = name.rpartition("::")
    # As it is written, as a macro takes it, or as it is passed on.
    pattern = rf"\bpub (?:fn|struct|enum) {item}\b|\b{item}: \"|\b{item} = \"|\bpub use [^;]*\b{item}\b"
    return any(re.search(pattern, text_of(f"{RUST}/{it}.rs")) for it in RUST_FILES[of])


def is_in_go(name):
    of, _, item = name.rpartition(".")
    receiver = rf"\(\w+ \*?{of}\) " if of else ""
    return any(re.search(rf"^(?:func {receiver}|type ){item}\b", text_of(f"{GO}/{it}.go"), re.M) for it in ("infer", "evidence", "mimesniff", "named", "own_types"))


def is_in_javascript(name):
    of, _, item = name.rpartition(".")
    pattern = rf"^export (?:declare )?class {of}\b.*?^    {item}\(" if of else rf"^export (?:function|class|const|interface) {item}\b"
    return any(re.search(pattern, text_of(f"{JAVASCRIPT}/{it}.d.ts"), re.M | re.S) for it in ("core", "node"))


def is_in_java(name):
    of, _, item = name.rpartition(".")
    return bool(re.search(rf"^    public (?:static )?\S+ {item}\(" if of else rf"^public (?:record|final class|enum) {item}\b", text_of(f"{JAVA}/{of or item}.java"), re.M))


IS_IN = {"C++": is_in_cpp, "Python": is_in_python, "Rust": is_in_rust, "Go": is_in_go, "JavaScript": is_in_javascript, "Java": is_in_java}


def names_of(cell):
    return [] if cell.startswith("-") else [it.partition("(")[0] for it in cell.split(", ")]


# How each language writes the name of a standing, on the page that has the table.
STANDINGS = {
    "docs/C_LIBRARY.md": "INFER_{}".format, "bindings/python/README.md": "Standing.{}".format, "bindings/javascript/README.md": "Standing.{}".format,
    "bindings/java/README.md": "Standing.{}".format, "bindings/go/README.md": lambda name: name.title().replace("_", ""),
    "bindings/rust/infer/README.md": lambda name: "Standing::" + name.title().replace("_", ""),
}


def standings(page):
    """The lines of the table of standings, which say what the header says."""
    yield "| Standing | What it says |"
    yield "|---|---|"
    body = re.search(r"^enum infer_standing \{(.*?)^\};", text_of("c/infer.h"), re.M | re.S)[1]
    for name, says in re.findall(r"INFER_(\w+) = \d,? +/\* (.*) \*/", body):
        yield f"| `{STANDINGS[page](name)}` | {says} |"


def lines():
    """The lines of the table. It ends the program with the first call that a header has and no line, or the other way round,
    or that a language is said to have and has not."""
    rows = [line.split("\t") for line in text_of(TABLE).splitlines()]
    listed = [name for row in rows for name in names_of(row[0])]
    if wrong := [it for it in listed if it not in declared() or listed.count(it) > 1] or sorted(declared() - {*listed}):
        refuse(TABLE, line_of(TABLE, f"{wrong[0]}"), f"the table and the headers have other calls, or it has one twice: {', '.join(wrong)}")
    for number, row in enumerate(rows, 1):
        for language, cell in zip(LANGUAGES, row, strict=True):
            is_in = IS_IN.get(language, lambda name: True)
            if missing := [it for it in names_of(cell) if not is_in(it)]:
                refuse(TABLE, number, f"the binding for {language} has no {missing[0]}")
    yield f"| {' | '.join(LANGUAGES)} |"
    yield "|---" * len(LANGUAGES) + "|"
    for row in rows:
        cells = (f"none: {cell[1:]}" if cell.startswith("-") else ", ".join(f"`{it}`" for it in cell.split(", ")) for cell in row)
        yield f"| {' | '.join(cells)} |"
