"""What pages repeat of measurements and of versions.

`bench/run --pages` writes the tables of docs/PERFORMANCE.md, each between marks that name it, the picture, and the
figures of those tables that other pages repeat; here both are read. What each step of `.ci/run` takes stands in
docs/seconds.tsv, where `.ci/run --anew` writes it, and `tools/tables` writes it into README.md. The version is that of
c/infer.h."""
import json
import math
import os
import re

from texts import kept, text_of

PERFORMANCE = "docs/PERFORMANCE.md"
FIGURE = r"\d[\d,]*(?:\.\d+)?(?: million)?"
MEDIAN = "samples, median"


def as_it_is(cell):
    return cell


def in_millions(cell):
    return str(round(int(cell.replace(",", "")) / 1_000_000))


def at_most(cell):
    """With one digit, rounded up."""
    return f"{math.ceil(float(cell) * 10) / 10:.1f}"


# Where another page repeats a figure, its group, and the table, the row and the column in which it stands.
REPEATED = [
    ("docs/HOSTILE_INPUT.md", r"`position`\s+([\d.]+)\s+instructions\s+a\s+byte", "dearest", "near misses of a header of Office", "a byte of 8 KB", at_most),
    ("docs/HOSTILE_INPUT.md", r"byte\s+order\s+marks\s+([\d.]+),", "dearest", "byte order marks", "a byte of 8 KB", at_most),
    ("docs/HOSTILE_INPUT.md", r"skippable\s+frames\s+([\d.]+)\.\s", "dearest", "skippable frames", "a byte of 8 KB", at_most),
    ("docs/HOSTILE_INPUT.md", r"(\d+)\s+million\s+instructions\s+for\s+a\s+ZIP", "bytewise", "an archive of Office, with near misses of its headers", "instructions", in_millions),
    ("docs/HOSTILE_INPUT.md", r"(\d+)\s+million\s+instructions\s+for\s+8192", "evidence", '8192 bytes of a first line "#!" that has no end', "`more_evidence`", in_millions),
]


SECONDS = "docs/seconds.tsv"
# Each command that README.md shows with its time, by the step: as it is written there, and what it does.
COMMANDS = {
    "first": ("cd crates/infer_tool && rt try --data picture=../../docs/browser.png -- picture", "prints `picture: image/png png`, proves nothing"),
    "all": (".ci/run", "proves and tests everything"),
}


def span(seconds):
    """A time with its unit."""
    return f"{seconds} seconds" if seconds < 100 else f"{round(seconds / 60)} minutes"


def seconds_of():
    """What each step took: processor seconds, seconds, and on how many processors."""
    return {step: its for step, *its in (line.split("\t") for line in text_of(SECONDS).splitlines())}


def commands():
    """The table of README.md: each command with what it takes."""
    known = seconds_of()
    yield from ["| From the repository root | It | Processor time | Time |", "|---|---|---|---|"]
    for step, (written, does) in COMMANDS.items():
        if step not in known:
            # It was not timed by a run that made every proof anew.
            continue
        processor_seconds, seconds, cores = known[step]
        yield f"| `{written}` | {does} | {span(int(processor_seconds))} | {span(int(seconds))} on {cores} cores |"


def marked(name):
    """A table of the page of figures, with the marks around it."""
    return re.compile(rf"(<!-- {re.escape(name)} -->\n)(.*?)(<!-- end -->\n)", re.S)


def with_table(page, name, text):
    page, found = marked(name).subn(lambda it: f"{it[1]}{text}\n{it[3]}", page)
    if found != 1:
        raise SystemExit(f"{PERFORMANCE} has the table {name} {found} times")
    return page


def table_of(page, name):
    """The rows of a table of the page of figures, by their labels, each with its cells by their columns."""
    found = marked(name).search(page)
    lines = [[cell.strip() for cell in line[1:-1].split("|")] for line in found[2].splitlines()] if found else [[]]
    return {label: dict(zip(lines[0][1:], cells)) for label, *cells in lines[2:]}


def repeated(page):
    """Each other page with the figures that it repeats of that text of the page of figures: of two builds the first."""
    texts = {}
    for path, pattern, table, label, column, how in REPEATED:
        text = texts.get(path) or text_of(path)
        cell = table_of(page, table).get(label, {}).get(column, "").partition(" / ")[0]
        place = re.search(pattern, text)
        if not cell or not place:
            raise SystemExit(f"{path} repeats a figure of {PERFORMANCE}: {label}, {column}, in {table}, and one of them is not there")
        at, end = place.span(1)
        texts[path] = text[:at] + how(cell) + text[end:]
    return [*texts.items()]


def tables(page):
    """The tables of a page, each with its columns, and its rows by their labels."""
    for it in re.finditer(r"((?:^\|.*\n)+)", text_of(page), re.M):
        lines = [[cell.strip() for cell in line[1:-1].split("|")] for line in it[1].splitlines()]
        yield lines[0], lines[2:]


def numbers_in(cell):
    return [float(it.replace(",", "")) for it in cell.split(" / ")]


def check_performance():
    """Other pages repeat what the tables have, one a byte is that of its row, and the picture shows those of the library."""
    page = text_of(PERFORMANCE)
    try:
        yield from [(text == text_of(path), f"{path} repeats other figures than {PERFORMANCE} has") for path, text in repeated(page)]
    except SystemExit as fault:
        yield False, str(fault)
    for head, rows in tables(PERFORMANCE):
        for row in rows if head[-1] == "a byte of 1 MB" else []:
            pairs = zip(numbers_in(row[-2]), numbers_in(row[-1]) * 2)
            yield all(abs(all_of_it / (1 << 20) - a_byte) < 0.006 for all_of_it, a_byte in pairs), f"{PERFORMANCE}: {row[-1]} a byte is not {row[-2]} of 1 MB"
    answer = table_of(page, "answer")
    shown = re.findall(r'text-anchor="end">(.*?)</text>\n.*\n.*>([\d,]+) here</text>\n.*\n.*>([\d,]+) Rust crate</text>', text_of("docs/speed.svg"))
    yield len(shown) == 5, "docs/speed.svg has not five kinds of buffers"
    for kind, ours, crate in shown:
        cells = answer.get(kind, {})
        yield cells.get("`position`", "").partition(" / ")[0] == ours, f"{PERFORMANCE}: `position` of {kind} is not {ours}, as docs/speed.svg has it"
        yield cells.get("`get` there") == crate, f"{PERFORMANCE}: the Rust crate takes {crate} of {kind}, as docs/speed.svg has it"


def comparison():
    """The table of README.md: of each program its types, and what it says of the files that other programs test."""
    differences = text_of("docs/DIFFERENCES.md")
    types = {label: cells["Types"] for label, cells in table_of(differences, "compared").items() if cells["Types"].isdigit()}
    head, rows = next((head, rows) for head, rows in tables("docs/DIFFERENCES.md") if " suites: " in head[0])
    count = re.search(r"(\d+) binary files", head[0])[1]
    yield f"| Of {count} files | Types | Right | Only the family | No answer | Wrong |"
    yield "|---|---|---|---|---|---|"
    known = [row for row in rows if not row[0].endswith(", not run")]
    for program, right, coarser, unknown, wrong, *_ in sorted(known, key=lambda row: -int(row[1])):
        count = next((it for label, it in types.items() if label.startswith(program)), "")
        yield f"| {' | '.join([program.replace('here', 'infer'), count, right, coarser, unknown, wrong])} |"


# What both were asked: instead of which, what you call here, the page, the rows and columns of theirs and ours, and the unit.
TIMED = [
    ("`file --mime-type`, 20,000 files", "[the same `file`](bindings/libmagic/README.md) over infer", "bindings/libmagic/README.md", "speed", ("`file --mime-type`", "with libmagic"), ("`file --mime-type`", "with infer"), ""),
    ("python-magic, a buffer", "`infer.magic.Magic(mime=True)`", "bindings/python/README.md", "speed", ("python-magic", "bytes"), ("`infer.magic", "bytes"), " µs"),
    ("filetype.py, a buffer", "`infer.guess`, built-in types", "bindings/python/README.md", "speed", ("`filetype.guess", "bytes"), ("`infer.guess", "bytes"), " µs"),
    ("mimetype, a buffer", "`infer.Detect`, built-in types", "bindings/go/README.md", "speed", ("mimetype.Detect", ""), ("infer.Detect", ""), " ns"),
    ("the Rust crate `infer`, a buffer", "`infer_position`, built-in types", PERFORMANCE, "answer", (MEDIAN, "`get` there"), (MEDIAN, "`position`"), " instructions"),
]


def cell_of(page, table, place):
    """The cell of the first row whose label has this text, in the column of that name, or in the first."""
    cells = next(cells for label, cells in table_of(text_of(page), table).items() if place[0] in label)
    return (cells[place[1]] if place[1] else [*cells.values()][0]).partition(" / ")[0]


def times():
    """The table of README.md: of each question that another program was asked too, how long both took."""
    yield "| Instead of | You call | Theirs | Ours | Times faster |"
    yield "|---|---|---|---|---|"
    for asked, call, page, table, there, here, unit in TIMED:
        theirs, ours = (cell_of(page, table, it) for it in (there, here))
        faster = round(numbers_in(theirs.removesuffix(" s"))[0] / numbers_in(ours.removesuffix(" s"))[0])
        yield f"| {asked} | {call} | {theirs}{unit} | {ours}{unit} | {faster} |"


def check_repeated(page):
    """A page that tells of instructions repeats a figure of the page of figures, in a place that is known."""
    text = re.sub(r"\n(?=\S)", " ", re.sub(r"<!-- times -->.*?<!-- end -->", "", text_of(page), flags=re.S))
    known = [re.search(pattern, text) for path, pattern, *_ in REPEATED if path == page]
    places = [it.span(1) for it in known if it]
    for it in re.finditer(rf"({FIGURE}) instructions", text):
        is_written = any(at < it.end(1) and it.start(1) < end for at, end in places)
        yield is_written, f"{page}: {it[0]} stand in no place that bench/run --pages writes"


def versions():
    """Each place that states the version, and what it states."""
    header = text_of("c/infer.h")
    parts = [re.search(rf"^#define INFER_VERSION_{it} (\d+)$", header, re.M)[1] for it in ("MAJOR", "MINOR", "PATCH")]
    yield "c/infer.h, by its parts", ".".join(parts)
    for path, pattern in [
        ("crates/infer_c/src/lib.rt", r'^const VERSION: &str = "(.*)";$'),
        ("bindings/python/backend.py", r'^NAME, VERSION = "\w+", "(.*)"$'),
        ("bindings/python/pyproject.toml", r'^version = "(.*)"$'),
        ("bindings/rust/infer/Cargo.toml", r'^version = "(.*?)\+infer\.\d+\.\d+\.\d+"$'),
        ("bindings/rust/infer/Cargo.lock", r'^version = "(.*?)\+infer\.'),
        ("CHANGELOG.md", r"^## (\d+\.\d+\.\d+)"),
        ("debian/changelog", r"^infer \((\S+)\)"),
        ("bindings/rust/infer/README.md", r"`(\d+\.\d+\.\d+)\+infer"),
        ("bindings/python/README.md", r"hoarvelt-infer==(\d+\.\d+\.\d+)"),
        ("bindings/go/README.md", r"infer-go-(\d+\.\d+\.\d+)\.tar"),
        ("README.md", r"version (\d+\.\d+\.\d+)"),
        ("docs/RELEASING.md", r"infer-tools_(\d+\.\d+\.\d+)_amd64"),
        ("bindings/javascript/README.md", r"hoarvelt-infer-(\d+\.\d+\.\d+)\.tgz"),
        ("bindings/java/README.md", r"hoarvelt-infer-(\d+\.\d+\.\d+)\.jar"),
        ("dist/MADE", r"^infer (\S+) for wasm64-unknown-unknown, "),
    ]:
        found = re.search(pattern, text_of(path), re.M)
        yield path, found[1] if found else "none"
    yield "bindings/javascript/package.json", json.loads(text_of("bindings/javascript/package.json"))["version"]


def check_versions(pages):
    """The version stands in one place, and those of other things are told as they are asked for."""
    version = re.search(r'^#define INFER_VERSION "(.*)"$', text_of("c/infer.h"), re.M)[1]
    for place, told in versions():
        yield told == version, f"{place} states the version {told}, and c/infer.h {version}"
    for minor in re.findall(r"find_package\(infer (\S+) ", text_of("docs/C_LIBRARY.md")):
        yield minor == version.rpartition(".")[0], f"docs/C_LIBRARY.md wants the version {minor} of {version}"
    named = re.findall(r"^Package: libinfer(\d+\.\d+)$", text_of("debian/control"), re.M)
    yield named == [version.rpartition(".")[0]], f"debian/control has the library's package for {named}, of the version {version}"
    crate = re.search(r'\+infer\.([\d.]+)"$', text_of("bindings/rust/infer/Cargo.toml"), re.M)[1]
    for page in pages:
        told = re.findall(r"(?:crate `infer`|`infer`) (\d+\.\d+\.\d+)|\+infer\.(\d+\.\d+\.\d+)", re.sub(r"\n(?=\S)", " ", text_of(page)))
        wrong = [it for pair in told for it in pair if it and it != crate]
        yield not wrong, f"{page}: the crate is {crate}, and not {wrong}"
    python = re.search(r'^requires-python = ">=(.*)"$', text_of("bindings/python/pyproject.toml"), re.M)[1]
    yield f"Requires-Python: >={python}\n" in text_of("bindings/python/backend.py"), f"bindings/python/backend.py wants another Python than {python}"
    for page, asked, name in [
        ("bindings/python/README.md", python, "Python"),
        ("bindings/go/README.md", re.search(r"^go (.*)$", text_of("go.mod"), re.M)[1], "Go"),
        ("bindings/rust/infer/README.md", re.search(r'^rust-version = "(.*)"$', text_of("bindings/rust/infer/Cargo.toml"), re.M)[1], "Rust"),
        ("bindings/javascript/README.md", json.loads(text_of("bindings/javascript/package.json"))["engines"]["node"].lstrip(">="), "Node"),
        ("bindings/java/README.md", re.search(r"--release (\d+) -Xlint:all -Werror", text_of("bindings/java/fill"))[1], "Java"),
    ]:
        source = os.path.dirname(page) + {"Python": "/pyproject.toml", "Go": "/../../go.mod", "Rust": "/Cargo.toml", "Node": "/package.json", "Java": "/fill"}[name]
        yield f"{name} {asked} or later" in text_of(page).replace("\n", " "), f"{page} does not ask for {name} {asked} or later, as {source} does"
    named = [sorted(set(re.findall(r"rattle-kit-\w+", text_of(it)))) for it in ("README.md", "tools/toolchain")]
    yield named[0] == named[1] and len(named[0]) == 1, f"README.md names the toolchain {named[0]}, and tools/toolchain {named[1]}"
