"""What pages repeat of the sources: names, paths, commands, lines of the program, statuses, contracts, versions.

Each function named `check_` yields what it compared: whether both agree, and what to say if they do not. It compares with
the code, a header, a contract, a script or a text that the program prints, and never with another page."""
import os
import re
import shlex

from texts import kept, text_of

# What is made, and what is no source: the pages' own checks, and edits that are wrong by intent.
PRUNED = {"out", ".git", ".ci", "target", "node_modules", "__pycache__", "dist", "must-fail"}


@kept
def sources():
    """The paths of all texts but the pages."""
    found = []
    for at, folders, files in os.walk("."):
        folders[:] = sorted(it for it in folders if it not in PRUNED)
        found += (os.path.normpath(f"{at}/{it}") for it in sorted(files) if not it.endswith((".md", ".png", ".svg", ".jpg", ".wasm", ".a")))
    # (what make compiles is no text)
    return [it for it in found if not it.endswith("/stdin") and it != "infer_label"]


def without_blocks(page):
    """The text of a page without its blocks."""
    text = re.sub(r"^```.*?^```", "", text_of(page), flags=re.M | re.S)
    return re.sub(r"^    .*$", "", text, flags=re.M)


def blocks_of(page):
    """The lines of all blocks of a page, without their indentation."""
    text = text_of(page)
    fenced = "\n".join(re.findall(r"^```\w*\n(.*?)^```", text, re.M | re.S))
    return [*fenced.split("\n"), *re.findall(r"^    (.*)$", re.sub(r"^```.*?^```", "", text, flags=re.M | re.S), re.M)]


def spans(page):
    """What stands between backticks."""
    return re.findall(r"`([^`]+)`", re.sub(r"(?<=\w)\n(?=\w)", " ", without_blocks(page)))


def is_there(path, page):
    """Whether a path that a page names is there, from the top, from its own folder or from that of the crates."""
    folders = [".", os.path.dirname(page) or ".", "crates"]
    return any(os.path.exists(f"{it}/{path}") for it in folders)


def is_made(path):
    """Whether a build makes it: by a name that the scripts of c/ have."""
    name = os.path.basename(path)
    return "/out/" in f"/{path}/" and (name in ("out", "example") or re.search(rf"\b{re.escape(name)}\b", text_of("c/build") + text_of("c/install") + text_of("crates.txt")) is not None)


def check_paths(page):
    """Each path of the repository between backticks leads somewhere."""
    tops = {it for it in os.listdir(".") if os.path.isdir(it) and it not in PRUNED - {".ci", "dist"}}
    for span in spans(page):
        if re.fullmatch(r"[\w.-]+(?:/[\w.-]+)+/?", span) and span.split("/")[0] in tops:
            yield is_there(span, page) or is_made(span), f"{page}: there is no {span}"


@kept
def rows():
    """The MIME type, extension and class of each row."""
    lines = [it.split("\t") for path in ("vectors/rows.tsv", "vectors/further/rows.tsv") for it in text_of(path).splitlines()]
    # (tools/tables tells of a line that has fewer columns)
    return {(it[1], it[2], it[0].lower()) for it in lines if len(it) > 2}


TYPE = r"\b(?:application|audio|chemical|custom|font|image|message|model|text|video)/[\w.+-]*\w"


@kept
def mime_types_of(path):
    return set(re.findall(TYPE, text_of(path)))


@kept
def mime_types():
    return set().union(*map(mime_types_of, sources()))


def check_types(page):
    """Each MIME type of a page stands in a source, and an extension or a class beside it is of the same row."""
    for mime in set(re.findall(TYPE, re.sub(r"\]\([^)]*\)", "", text_of(page)))):
        yield mime in mime_types() or is_there(mime, page), f"{page}: no source has the MIME type {mime}"
    pairs = re.findall(rf"({TYPE}) ([a-z0-9]+)(?: ([a-z]+))?$", "\n".join(blocks_of(page)), re.M)
    pairs += [it for span in spans(page) for it in re.findall(rf"^(?:\S+: )?({TYPE}) ([a-z0-9]+)(?: ([a-z]+))?$", span)]
    pairs += re.findall(rf"""mime(?:_type)?['"]?[:=] ?['"]({TYPE})['"], ?"?ext(?:ension)?['"]?[:=] ?['"](\w+)(?:['"], ?"?(?:class|group)['"]?[:=] ?['"](\w+))?""", text_of(page))
    pairs += [(mime, extension, "") for extension, mime in re.findall(rf"ext: '(\w+)', mime: '({TYPE})'", text_of(page))]
    for mime, extension, group in pairs:
        fits = any(it[:2] == (mime, extension) and group in ("", it[2]) for it in rows())
        # A question's answer may stand beside a type.
        yield fits or mime.startswith("custom/") or extension == "true", f"{page}: no row is {mime} {extension} {group}".rstrip()


def simple_commands(line):
    """The commands of a line of a shell, each as its words."""
    try:
        tokens = [*shlex.shlex(line, posix=True, punctuation_chars="|&;<>()")]
    except ValueError:
        return
    command = []
    for token in [*tokens, ";"]:
        if re.fullmatch(r"[|&;<>()]+", token):
            if command:
                yield command
            command = [] if token not in ("<", ">") else ["<"]
        else:
            command.append(token)


def check_command(page, command):
    """A command names a folder, a script, a source or an option that is there."""
    command = [*command]
    while command and re.fullmatch(r"\w+=.*", command[0]):
        command.pop(0)
    if not command:
        return
    head, rest = command[0], command[1:]
    if head == "cd":
        yield os.path.isdir(rest[0]), f"{page}: there is no folder {rest[0]} to `cd` to"
    if head == "cc":
        yield from check_compiling(page, rest)
    program = {"infer_tool": "crates/infer_tool/src/run.rt", "./infer_tool": "crates/infer_tool/src/run.rt", "infer_label": "program/help.c"}.get(head, head)
    # (what was built is no text)
    if os.path.isfile(program) and "/out/" not in program:
        told = text_of(program)
        for option in (it for it in rest if re.fullmatch(r"--\w[\w-]*", it)):
            yield option in told, f"{page}: {head} has no option {option}"
    tops = [it for it in os.listdir(".") if os.path.isdir(it)]
    for word in command:
        if word.split("/")[0] in tops and "/" in word:
            yield is_there(word, page) or is_made(word), f"{page}: there is no {word}"


def check_compiling(page, rest):
    """A call of the C compiler finds the headers that its sources include, and has what they call."""
    includes = [("c" if folder == "c/out" else folder) for it, folder in zip(rest, rest[1:]) if it == "-I"]
    parts = [it for it in rest if it.endswith((".c", ".a")) and "/" in it]
    for source in (it for it in parts if it.endswith(".c")):
        if not os.path.isfile(source):
            yield False, f"{page}: there is no {source} to compile"
            continue
        for header in re.findall(r'^#include "(.*)"', text_of(source), re.M):
            found = any(os.path.isfile(f"{it}/{header}") for it in [*includes, os.path.dirname(source)])
            yield found, f"{page}: {source} does not find {header}"
        called = set(re.findall(r"\binfer_\w+(?=\()", text_of(source)))
        yield not called or "c/out/libinfer.a" in parts, f"{page}: {source} is compiled without c/out/libinfer.a"
    known = ("-I", "-o", "-O", "-c", "-L", "-l", "-std=c11")
    for option in (it for it in rest if it.startswith("-")):
        yield option.startswith(known), f"{page}: `cc` is given {option}"
    yield not parts or "-o" in rest, f"{page}: `cc` is not told what to write"


def check_commands(page):
    lines = [it.removeprefix("$ ") for it in blocks_of(page)] + [it for it in spans(page) if " " in it or "/" in it]
    heads = ("cd ", "rt ", "cc ", "c/", "tools/", "bench/", ".ci/", "bindings/", "examples/", "infer_tool ", "./infer_tool ", "infer_label ", "PYTHONPATH=", "export ", "find ")
    for line in lines:
        if line.startswith(heads):
            for command in simple_commands(line):
                yield from check_command(page, command)


@kept
def fault_texts():
    return set(re.findall(r'Fault::\w+(?:\(_\))? => "(.*)"', text_of("crates/infer_lines/src/faults.rt")))


@kept
def said():
    """What the programs say of an input, after its name, but for types."""
    written = re.findall(r'writeln!\([\w.]+, "\{\w+\}: ([a-z ]+)"\)', text_of("crates/infer_tool/src/report.rt") + text_of("crates/infer_tool/src/sample.rt"))
    without_type = re.findall(r'\{ b"([a-z]+)" \}', text_of("crates/infer_label/src/line.rt"))
    return fault_texts() | set(written) | set(without_type)


def is_told(mime_type, extension, more, named):
    """Whether some row has the type, or a name tells of it, and infer_label has the words that follow, the last of which
    end in a blank where the name's type follows."""
    words = "|".join(re.findall(r'b"(,? [a-z ]+)"', text_of("crates/infer_label/src/line.rt")))
    names = text_of("crates/infer_named/names.txt")
    is_known = any(it[:2] == (mime_type, extension) for it in rows()) if extension else f" {mime_type} (" in names
    is_named = f" {named} (" in names if more.endswith(" ") else not named
    return is_known and is_named and bool(re.fullmatch(f"(?:{words}|, us-ascii|, utf-(?:8|16le|16be))*", more))


def are_reasons(text):
    """Whether infer_label says such things of why it is so: of rows that there are, with what their class is called."""
    called = re.findall(r'(MatcherType::[\w |:]+) => "(.*)",', text_of("crates/infer_label/src/why_text.rt"))
    words = {it.lower(): word for names, word in called for it in re.findall(r"::(\w+)", names)}
    named = {(extension, words[it]) for _, extension, it in rows()}
    place = r"(?:(?:[0-9A-F]{2} )+at \d+|\d+ bytes at \d+(?:, one in \d+)?)"
    found = [re.fullmatch(rf"(?:no (\w+) ([a-z ]+): |nothing that begins otherwise: )?{place}|(?:just|at least) \d+ bytes?|and more than there is room for", it) for it in text.split("; ")]
    return all(it and (not it[1] or it.groups() in named) for it in found)


def check_lines(page):
    """What a page shows as a line of the program is one."""
    for line in [*spans(page), *blocks_of(page)]:
        found = re.fullmatch(r"(?:[\w.-]*/)*(?:[\w-]+\.\w+|-|folder|dll): (\S.*)", line)
        if found:
            is_type = re.fullmatch(rf"({TYPE})(?: (\w+))?((?: by [\w ]+)?(?:, [\w -]+)*)({TYPE})?(?:: (.+))?", found[1])
            fits = is_told(*is_type.groups()[:4]) and are_reasons(is_type[5] or "at least 1 byte") if is_type else found[1] in said()
            yield fits, f"{page}: the program prints no line such as '{line}'"
    texts = re.findall(r'&\[u8\] = b"(.*)\\n"', text_of("crates/infer_tool/src/run.rt"))
    for line in spans(page):
        for text in texts:
            begin = text.split(" ")[0]
            if line.startswith(f"{begin} ") and page in ("README.md", "docs/PROGRAM.md"):
                yield line in texts, f"{page}: the program prints no line such as '{line}'"


# The tests that take a block of README.md, run it, and compare what it shows.
RUN_BY = ("program/test", "bindings/python/test", "release/test_clone")


def check_run():
    """Each block of README.md is run by a test, which names its first line, and Python shows texts that the binding has."""
    page = text_of("README.md")
    for first in re.findall(r"(?<=\n\n)    (.*)$", page, re.M):
        yield any(f'/README.md", "{first}")' in text_of(it) for it in RUN_BY), f"README.md: no test runs the block that begins with '{first}'"
    for text in re.findall(r"(?<=\.value\n)    '(.*)'$", page, re.M):
        yield f' = "{text}"\n' in text_of("bindings/python/src/infer/__init__.py"), f"README.md: no value of the binding for Python is '{text}'"


def check_statuses():
    """The pages tell of the statuses as the code of the program has them."""
    outcomes = text_of("crates/infer_lines/src/outcome.rt")
    numbers = dict(re.findall(r"Outcome::(\w+) => (\d),", outcomes))
    listed = {it for line in re.findall(r"^\|.*$", text_of("docs/PROGRAM.md"), re.M) for it in re.findall(r"\| (\d+) \|$", line)}
    yield listed == {*numbers.values(), "127"}, f"docs/PROGRAM.md has the statuses {sorted(listed)}"
    listed = re.findall(r"^\.It (\d+)$", text_of("man/infer_tool.1"), re.M)
    yield listed == [*numbers.values(), "127"], f"man/infer_tool.1 has the statuses {listed}"


@kept
def contracts_in(path):
    """What stands between the name of each function of the file and its body, with the name."""
    found = re.findall(r"^ *(?:pub(?:\(crate\))? )?(?:extern \S+ )?fn (\w+)\b(.*?)^ *\{\}?$", text_of(path), re.M | re.S)
    return [(name, " ".join(contract.split())) for name, contract in found]


@kept
def contracts():
    """What stands between the name of each function and its body, by the name and by that under which a crate passes it on."""
    found, passed_on = {}, []
    for path in (it for it in sources() if re.match(r"crates/\w+/src/.*\.rt$", it)):
        for name, contract in contracts_in(path):
            found.setdefault(name, []).append(contract)
        passed_on += re.findall(r"\b(\w+) as (\w+)", " ".join(re.findall(r"^pub use (.*?);", text_of(path), re.M | re.S)))
    for own, name in passed_on:
        found.setdefault(name, []).extend(found.get(own, []) if own != name else [])
    return found


def check_clauses(page):
    """A clause that stands after the name of its function stands in its contract."""
    text = re.sub(r"(?<=\S)\n(?=\S)", " ", without_blocks(page))
    for name, clause in re.findall(r"`((?:\w+::)*\w+)`: `([^`]*(?:[≡↔]|\w [\w.]*\b(?:now|result)\b)[^`]*)`", text):
        parts = [" ".join(it.split()) for it in clause.split(" ..")]
        of_name = contracts().get(name.split("::")[-1], [])
        found = any(all(it in contract for it in parts) for contract in of_name)
        yield found, f"{page}: no contract of {name} has the clause `{clause}`"


# The crates that a crate's names may come from.
BELOW = {
    "infer": ["infer", "infer_sig", "infer_deep"], "infer_more": ["infer_more", "infer_formats"], "infer_sniff": ["infer_sniff"],
    "infer_uses": ["infer_uses"], "infer_sig": ["infer_sig", "infer_deep"], "infer_deep": ["infer_deep"], "infer_formats": ["infer_formats"],
}


@kept
def declared_in(crate):
    """The names that a crate declares or passes on, with those of its modules."""
    paths = [it for it in sources() if it.startswith(tuple(f"crates/{below}/src/" for below in BELOW[crate])) and "/tests" not in it]
    text = "".join(map(text_of, paths))
    passed_on = " ".join(re.findall(r"^ *pub use (.*?);", text, re.M | re.S))
    found = re.findall(r"\b(?:fn|struct|enum|const|static|mod|trait|type) (\w+)", text) + re.findall(r"\w+", passed_on)
    # A macro writes the names of some functions.
    return {*found, *re.findall(r"\b(?:is|may_become)_\w+", text), *(os.path.basename(it)[:-3] for it in paths)}


def check_qualified(page):
    """A name behind that of its crate is one of that crate."""
    # The binding for Rust has names of its own, and CMake its targets.
    if page.startswith("bindings/") or page == "docs/C_LIBRARY.md":
        return
    for span in spans(page):
        for path in re.findall(r"(?<![\w:])(?:infer\w*)(?:::\w+)+", span):
            crate, *names = path.split("::")
            if crate in BELOW:
                missing = [it for it in names if it not in declared_in(crate)]
                yield not missing, f"{page}: the crate {crate} has no {'::'.join(names)}"


def declared(header):
    """The functions that a header declares, each with its parameters."""
    found = re.findall(r"^(?:static inline )?[a-z][\w ]*?[ *]+(infer_\w+)\((.*?)\);$", text_of(header), re.M)
    return {name: parameters.split(", ") for name, parameters in found}


def check_header():
    """The man pages have the functions of the headers, with their parameters, and so do the pages."""
    for header, page in (("c/infer.h", "man/infer.3"), ("c/infer_file.h", "man/infer_path.3")):
        functions, text = declared(header), text_of(page)
        shown = {name: re.findall(r'"(.*?)"', rest) or rest.split() for name, rest in re.findall(r"^\.Fn (infer_\w+) (\S.*)$", text.partition(".Sh DESCRIPTION")[0], re.M)}
        yield shown == functions, f"{page} has other functions than {header}: {sorted({*shown} ^ {*functions}) or [it for it in shown if shown[it] != functions[it]]}"
        named = set(re.findall(r"^\.Nm (infer_\w+)", text, re.M))
        yield named == {*functions}, f"{page} names other functions than {header}: {sorted(named ^ {*functions})}"
    for line in re.findall(r"^    ([a-z][\w ]* \*?infer_\w+\(.*\);)$", text_of("docs/C_LIBRARY.md"), re.M):
        yield f"\n{line}\n" in text_of("c/infer_file.h") + text_of("c/infer.h"), f"docs/C_LIBRARY.md: no header declares `{line}`"


def check_classes():
    """Pages that list the classes or the faults list those of the code."""
    codes = re.findall(r"^    INFER_([A-Z]+) = \d", text_of("c/infer.h").partition("enum infer_class_code")[2].partition("};")[0], re.M)
    classes = sorted(it.lower() for it in codes if it != "CUSTOM")
    told = re.search(r"classes \(([\w, ]+)\)", text_of("examples/upload_gate/README.md"))
    yield told is not None and told[1].split(", ") == classes, f"examples/upload_gate/README.md lists other classes than {classes}"
    faults = re.findall(r"^    (\w+)(?:\(ErrorKind\))?,$", text_of("crates/infer/src/read/fault.rt"), re.M)
    listed = re.findall(r"^\| `Fault::(\w+)", text_of("docs/LIBRARY.md"), re.M)
    yield listed == faults, f"docs/LIBRARY.md lists the faults {listed}, and the code has {faults}"


def check_copied():
    """A project that copies crates copies what they stand on, and their lines."""
    page = text_of("docs/LIBRARY.md")
    copied = set(re.search(r"^    for crate in (.*); do$", page, re.M)[1].split())
    lines = text_of("crates.txt").splitlines()
    lacking = {it for line in lines if line.split(":")[0] in copied for it in line.split(":")[1].split() if it.startswith("infer")} - copied
    yield not lacking, f"docs/LIBRARY.md copies crates without {sorted(lacking)}, on which they stand"
    inside = re.search(r"^    for crate in .*; do\n((?: {8}.*\n)*)    done$", page, re.M)[1]
    yield 'grep "^$crate:" $from/crates.txt >> crates.txt\n' in inside, f"docs/LIBRARY.md takes other lines of crates.txt than of {sorted(copied)}"


def check_counts(pages):
    """What is counted in figures is what the code has."""
    front = re.search(r"const FRONT: usize = (\d+);", text_of("crates/infer/src/read/head.rt"))[1]
    size = re.search(r"const SAMPLE_SIZE: usize = (\d+);", text_of("crates/infer_more/src/samples.rt"))[1]
    yield f"#define INFER_SAMPLE_SIZE {size}\n" in text_of("c/infer.h"), f"c/infer.h: the longest sample is not {size} bytes"
    most = re.search(r"front must be 1 to (\d+)", text_of("crates/infer_tool/src/run.rt"))[1]
    counted = [len(text_of(f"vectors/{it}").splitlines()) for it in ("rows.tsv", "further/rows.tsv")]
    for page in pages:
        text = re.sub(r"\n(?=\S)", " ", text_of(page))
        for built_in, more in re.findall(r"(\d+) built-in and (\d+) further types", text):
            yield [int(built_in), int(more)] == counted, f"{page} counts {built_in} and {more} types, and there are {counted}"
        # A definition has numbers of its own.
        for count in re.findall(r"first (\d{3,5}) bytes", text) if page != "docs/DEFINITIONS.md" else []:
            yield count in (front, "1024", "256", most), f"{page} speaks of the first {count} bytes, and {front} are read"
        for count in re.findall(r"\b1 to (\d+)", text) if page != "docs/DEFINITIONS.md" else []:
            yield count == most, f"{page} speaks of 1 to {count}, and the program takes {most}"
