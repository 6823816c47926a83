"""What the sources promise: the public functions of a crate, each with its documentation and the clauses of its contract;
and the definitions in whose words the clauses speak, those of the kit too if it is here."""
from __future__ import annotations

import glob
import os
import re
import shutil
import subprocess
import textwrap
from typing import Iterator, NamedTuple

from texts import TOP, kept, text_of

# The crates whose contracts callers rely on, those first that callers begin with, each with what it is for.
CRATES = {
    "infer": "rows and answers", "infer_more": "further rows, and types of a text", "infer_named": "a name and its bytes",
    "infer_sniff": "growing input", "infer_tool": "the program", "infer_label": "lines of names and bytes", "infer_lines": "what the program is made of",
    "infer_c": "the library for C", "infer_uses": "callers with contracts of their own", "infer_sig": "fixed signatures", "infer_deep": "relations on whole buffers",
    "infer_formats": "inside containers and texts", "infer_notation": "the notation of signatures", "mime_types": "MIME types of headers",
    "mime_sniff": "content types by the MIME Sniffing Standard",
}
WORD = re.compile(r"[^\W\d][\w']*(?:\.[^\W\d][\w']*)*")
# The kit has definitions of its own below the folder in which `rt` is.
KIT = os.path.join(subprocess.check_output(["rt", "doc"], text=True).strip().rpartition("/")[0] if shutil.which("rt") else "/none", "rattle")
DECLARED = re.compile(r" {,2}(?:(?:unfoldable|abbrev|opaque|pub) )*(?:record |data )?([^\W\d][\w']*)(?= [:({]|$)")


class Function(NamedTuple):
    """A function by the name that callers know, where it is, its head, its documentation, and the clauses of its contract,
    each with the word before it."""

    name: str
    path: str
    head: str
    doc: str
    clauses: list[tuple[str, str]]


class Definition(NamedTuple):
    """A definition: its crate, its module there, its name, where it is, the words above it, and its text."""

    crate: str
    module: str
    name: str
    path: str
    words: str
    text: str

    @property
    def key(self) -> str:
        return f"{self.crate}.{self.module}.{self.name}"


def clauses_of(contract: str) -> list[tuple[str, str]]:
    """The clauses between a function's result and its body, each with its keyword and its name, and without more blanks."""
    found, at = [], 0
    for begin in re.finditer(r"\b((?:requires|ensures)(?: \w+)?) \{", contract):
        if begin.start() < at:
            continue
        depth, at = 1, begin.end()
        while depth:
            depth += {"{": 1, "}": -1}.get(contract[at], 0)
            at += 1
        found.append((begin[1], " ".join(contract[begin.end() : at - 1].split())))
    return found


def owner_of(line: str) -> str | None:
    """The type or trait whose functions the lines behind this one hold."""
    found = re.match(r"pub trait (\w+)|impl(?:<.*?>)? (?:[\w:<>' ]+ for )?(?:\w+::)*(\w+)", line)
    return found and (found[1] or found[2])


def is_head(lines: list[str]) -> bool:
    """Whether these are the lines of a function before its body: a contract can have records, whose lines end as it does."""
    depth = sum(line.count("{") - line.count("}") for line in lines)
    return bool(re.fullmatch(r" *\{\}?", lines[-1])) or (lines[-1].endswith(";") and depth == 0) or (lines[-1].endswith("{") and depth == 1)


@kept
def functions_in(path: str) -> list[tuple[str, Function]]:
    """The functions of a file that others can call, each with the type or trait that has it."""
    owner, is_shared, doc, found = "", False, [], []
    lines = text_of(path).split("\n")
    for at, line in enumerate(lines):
        if not line.startswith((" ", "}")) and owner_of(line):
            owner, is_shared = owner_of(line) or "", " for " in line or line.startswith("pub trait")
        if line.startswith("}"):
            owner, is_shared = "", False
        if line.strip().startswith("///"):
            doc.append(line.strip().removeprefix("///").removeprefix(" "))
        elif not line.strip().startswith("#["):
            named = re.match(r' *(pub )?(?:extern "C" )?fn (\w+)', line)
            if named and (named[1] or is_shared):
                end = next(i for i in range(at, len(lines)) if is_head(lines[at : i + 1]))
                told = "\n".join(lines[at : end + 1])
                head = re.split(r"\n *(?:requires|ensures)\b|\n *\{|[ ;]*\{?\}?$", told, maxsplit=1)[0]
                found.append((owner, Function(named[2], path, textwrap.dedent(head), "\n".join(doc), clauses_of(told))))
            doc = []
    return found


def file_of(crate: str, path: str) -> str:
    return f"crates/{crate}/src/{path.replace('::', '/')}.rt"


def used(root: str) -> Iterator[tuple[str, str, str]]:
    """What a root file passes on of its own modules: the module, a name there, and the name that callers know."""
    for path, names in re.findall(r"^pub use ((?:\w+::)*\w+)(?:::\{(.*?)\})?;", root, re.M | re.S):
        module, _, last = path.rpartition("::")
        for it in names.split(",") if names else [last]:
            name, _, known = it.strip().partition(" as ")
            if name:
                yield path if names else module, name, known or name


def named_by(prefix: str, owner: str, function: Function) -> Function:
    return function._replace(name=f"{prefix}{owner}::{function.name}" if owner else f"{prefix}{function.name}")


@kept
def functions_of(crate: str) -> list[Function]:
    """The public functions of a crate, in the order of its modules. Of a program they are those of all its modules."""
    root = "lib" if os.path.exists(f"{TOP}/crates/{crate}/src/lib.rt") else "main"
    text = text_of(f"crates/{crate}/src/{root}.rt")
    own = re.findall(r"^(?:pub )?mod (\w+);", text, re.M)
    shown = own if root == "main" else re.findall(r"^pub mod (\w+);", text, re.M)
    named = [named_by("", owner, it) for owner, it in functions_in(f"crates/{crate}/src/{root}.rt")]
    passed_on = {(module, name) for module, name, _ in used(text)}
    for module, name, known in used(text):
        if module.split("::")[0] in own:
            some = functions_in(file_of(crate, module))
            named += [named_by("", known if owner else "", it if owner else it._replace(name=known)) for owner, it in some if name == (owner or it.name)]
    aliases = re.findall(r"^pub use (\w+(?:::\w+)*) as (\w+);", text, re.M)
    for path, known in [(it, it) for it in shown if it != "tests"] + [(path, known) for path, known in aliases if known.islower()]:
        prefix = "" if root == "main" else f"{known}::"
        named += [named_by(prefix, owner, it) for owner, it in functions_in(file_of(crate, path)) if (path, owner or it.name) not in passed_on]
        # What a module passes on of its own ones is called by the module's name.
        text = text_of(file_of(crate, path))
        below = {(module, name) for module, name, _ in used(text) if module in re.findall(r"^mod (\w+);", text, re.M)}
        named += [named_by(prefix, "", it) for module in sorted({it for it, _ in below}) for _, it in functions_in(file_of(crate, f"{path}::{module}")) if (module, it.name) in below]
    return [it for it in named if it.clauses or it.doc]


@kept
def text_at(path: str) -> str:
    """A text of the repository, or one of the kit by its whole path, or nothing."""
    if path.startswith("crates/"):
        return text_of(path) if os.path.exists(f"{TOP}/{path}") else ""
    if not os.path.exists(path):
        return ""
    with open(path, encoding="utf-8") as it:
        return it.read()


def folder_of(crate: str) -> str:
    return f"crates/{crate}" if os.path.isdir(f"{TOP}/crates/{crate}") else f"{KIT}/{crate}"


@kept
def definitions_in(path: str) -> dict[str, Definition]:
    """The definitions of a file, by their names. Without words above it one has those of the definition before it."""
    crate, module = re.search(r"(\w+)/(?:specs|Lib)/([\w/]*)\.antt$", path).groups()
    head, last, found, is_ours = "", "", {}, path.startswith("crates/")
    for part in re.split(r"\n\s*\n", text_at(path)):
        lines = part.split("\n")
        words = [line.strip()[2:].strip() for line in lines if line.strip().startswith("--")]
        code = [line for line in lines if not line.strip().startswith("--") and not re.match(r"(pub )?(use|mod) ", line)]
        # Words of ours go on for what stands below without any. Signatures are data, of which the words at the head tell.
        is_data = any(line.endswith(": List Alternative") for line in code)
        head = head or " ".join(words)
        last = " ".join(words) or (head if is_data else last) * is_ours
        # A module that takes something stands before the first definition in it.
        code = code[1:] if code and code[0].startswith("module ") else code
        if not code:
            continue
        names = [it[1] for line in code if (it := DECLARED.match(line)) and (":" in line or line.lstrip().startswith(("pub", "abbrev", "unfoldable", "opaque")))]
        for name in names[:1] if code[0].lstrip().startswith(("pub record", "pub data", "record", "data")) else names:
            found.setdefault(name, Definition(crate, module.replace("/", "."), name, path, last, textwrap.dedent("\n".join(code))))
    return found


@kept
def declared_in(path: str) -> dict[str, Definition]:
    """The types and constants of a file of code, by their names, as definitions see them."""
    found = {}
    crate, module = re.search(r"(\w+)/src/(.*)\.rt$", path).groups()
    pattern = r"((?:^[ ]*///.*\n)*)(?:^[ ]*#\[.*\]\n)*^[ ]*((?:pub(?:\(\w+\))? )?(?:const|static|struct|enum|trait) (\w+)(?:.*;$|.*\{\n(?:.*\n)*?^[ ]*\}$|.*))"
    for doc, text, name in re.findall(pattern, text_at(path), re.M):
        words = " ".join(line.strip()[3:].strip() for line in doc.splitlines())
        found.setdefault(name, Definition(crate, f"{module.replace('/', '.')}.rt", name, path, words, textwrap.dedent(text)))
    return found


@kept
def find(module: str, name: str) -> Definition | None:
    """The definition of that name that a module has or passes on."""
    parts = module.split(".")
    if parts[0] == "lib":
        return definitions_in(f"{KIT}/logic/Lib/{'/'.join(parts[1:])}.antt").get(name)
    if parts[0] != "Rattle" or len(parts) < 4 or parts[2] != "specs":
        return None
    folder, inner = folder_of(parts[1]), parts[3:]
    if inner[0] == "declared":
        files = [f"{folder}/src/{'/'.join(inner[1:end])}.rt" for end in range(len(inner), 1, -1)] + [f"{folder}/src/lib.rt"]
        file = next((it for it in files if text_at(it)), "")
        known = declared_in(file) if file else {}
        # A variant is shown with its type.
        return known.get(name) or next((known[it] for it in reversed(inner) if it in known), None)
    path = f"{folder}/specs/{'/'.join(inner)}.antt"
    if name in (known := definitions_in(path)):
        return known[name]
    for passed in passed_on(path):
        if name in passed[1]:
            return find(passed[0], name)
    return find(known_as(folder)[inner[0]], name) if len(inner) == 1 and inner[0] in known_as(folder) else None


@kept
def passed_on(path: str) -> list[tuple[str, list[str]]]:
    """What a file of definitions passes on: each module with names of it."""
    return [(module, [it.strip() for it in names.split(",")]) for module, names in re.findall(r"^pub use ((?:Rattle|lib)[\w.]*)\.\{([^}]*)\}", text_at(path), re.M)]


@kept
def known_as(folder: str) -> dict[str, str]:
    """The modules of crates below that a crate passes on, by the names that it gives them."""
    return {known or module.rpartition(".")[2]: module for module, known in re.findall(r"^pub use (Rattle[\w.]*)(?: as (\w+))?$", text_at(f"{folder}/specs/Lib.antt"), re.M)}


@kept
def imported(path: str) -> tuple[dict[str, tuple[str, str]], dict[str, str]]:
    """The names that a file takes from definitions, each with its module and its name there; and its names of modules."""
    names, modules = {}, {}
    for module, listed in re.findall(r"^ *(?:ghost )?use (Rattle[\w.]*)\.\{([^}]*)\}", text_at(path), re.M):
        for it in listed.split(","):
            name, _, known = it.strip().partition(" as ")
            names[known or name] = module, name
    for module, known in re.findall(r"^ *(?:ghost )?use (Rattle[\w.]*) as (\w+);?$", text_at(path), re.M):
        modules[known] = module
    return names, modules


@kept
def meant(path: str, word: str) -> Definition | None:
    """The definition that a word of a file means, which may have the name of a module before it."""
    names, modules = imported(path)
    before, _, name = word.rpartition(".")
    if before in modules:
        return find(modules[before], name)
    if path.endswith(".antt") and word in (own := definitions_in(path)):
        return own[word]
    return find(*names[word]) if word in names else constants().get(word)


@kept
def constants() -> dict[str, Definition]:
    """The types and constants of the code by their names, which a clause may have as the code has them."""
    paths = sorted(glob.glob(f"{TOP}/crates/infer*/src/**/*.rt", recursive=True))
    return {name: it for path in reversed(paths) for name, it in declared_in(path.removeprefix(f"{TOP}/")).items() if name[0].isupper()}


def definitions_of(crate: str) -> list[Definition]:
    """All definitions of a crate, in the order of its files."""
    listed = [path.removeprefix(f"{TOP}/") for path in sorted(glob.glob(f"{TOP}/crates/{crate}/specs/**/*.antt", recursive=True))]
    return [it for path in listed for it in definitions_in(path).values()]


def named_in(text: str, path: str) -> Iterator[tuple[re.Match[str], str, Definition]]:
    """The words of a text of a file that mean a definition: where each stands, the word and the definition."""
    for it in WORD.finditer(text):
        # What stands behind a dot is a field, unless a module stands before it.
        word = it[0] if meant(path, it[0]) else it[0].partition(".")[0]
        found = meant(path, word)
        if found:
            yield it, word, found


def called(call: str) -> Function:
    """The function that a page calls so, which may have the name of its crate before it."""
    crate, _, name = call.partition("::")
    crates, name = ([crate], name) if crate in CRATES else ([*CRATES], call)
    return next(it for crate in crates for it in functions_of(crate) if it.name == name)


def unfolded(calls: list[str], modules: tuple[str, ...]) -> list[Definition]:
    """The definitions of these modules to which the contracts of these calls unfold, in the order of crates and files."""
    functions = [called(call) for call in calls]
    left = [(clause, it.path) for it in functions for _, clause in it.clauses]
    found: dict[str, Definition] = {}
    while left:
        new = [it for _, _, it in named_in(*left.pop()) if it.path.endswith(".antt") and it.key not in found and it.key.startswith(modules)]
        found.update((it.key, it) for it in new)
        left += [(it.text, it.path) for it in new]
    return sorted(found.values(), key=lambda it: ([*CRATES].index(it.crate), it.path, [*definitions_in(it.path)].index(it.name)))
