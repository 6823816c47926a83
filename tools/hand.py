"""Checks the tables that are written by hand before anything is made of them: the first line that is none ends the run with
its file, its number, and what is wrong."""
import re
import subprocess
import tempfile

import further_rows
import libmagic
import names
from texts import TOP, kept, line_of, refuse, text_of

BUILT_IN, FURTHER = "vectors/rows.tsv", "vectors/further/rows.tsv"
VECTORS, FURTHER_VECTORS = "vectors/vectors.tsv", "vectors/further/vectors.tsv"
SOURCES, MISTAKES = "docs/sources.tsv", "vectors/mistakes.tsv"
MODEL, ANSWERS = "vectors/model/expected.py", "vectors/model/answers.py"
RULES, PAGE = "vectors/model/wider.py", "docs/NOTATION.md"
CLASSES = "App|Archive|Audio|Book|Doc|Font|Image|Text|Video"
# What a column has to be, and how it is written.
NAME = "[0-9A-Za-z][0-9A-Za-z!#$&^_.+-]{0,126}"
BYTES = r"(?:[0-9A-F]{2})+(?:\*[0-9]+)?"
GROUP, EXTENSION, MIME_TYPE = ("class", CLASSES), ("extension", NAME), ("MIME type", f"{NAME}/{NAME}")
BUFFER = ("bytes, as 89504E47 00*26", f"-|{BYTES}(?: {BYTES})*")
ROW, WORDS, TEXT = ("row, as Image/png", f"-|(?:{CLASSES})/{NAME}"), ("text", r"[^\t\r]+"), ("text for C", r'[^\t\r"\\]+')
FURTHER_ROW = ("row, as Archive/jar below zip", f"-|(?:{CLASSES})/{NAME}(?: below {NAME})?")
COLUMNS = {
    BUILT_IN: [GROUP, MIME_TYPE, EXTENSION, ("bytes, as 89504E47 00*26, or none", f"none|{BUFFER[1]}")],
    VECTORS: [WORDS, ROW, ROW, BUFFER],
    SOURCES: [EXTENSION, WORDS],
    FURTHER: [GROUP, MIME_TYPE, EXTENSION, ("parent", NAME), WORDS],
    FURTHER_VECTORS: [WORDS, BUFFER, FURTHER_ROW, ("answer, as image/png png, or unknown", f"unknown|{NAME}/{NAME} {NAME}")],
    MISTAKES: [WORDS, WORDS, ("column", "[1-9][0-9]*")],
    "bindings/calls.tsv": [WORDS] * 7,
    "bindings/libmagic/callers.tsv": [WORDS] * 3,
    "docs/seconds.tsv": [WORDS, *[("number", "[0-9]+")] * 3],
}
# How many lines are shown at most that the model answers otherwise.
MOST_SHOWN = 10
# One row below two signatures that another stands between.
TWICE = {("application/vnd.visio", "vsd", "msi")}


def lines_of(path):
    """The columns of each line of a table, with its number."""
    return [(number, line.split("\t")) for number, line in enumerate(text_of(path).removesuffix("\n").split("\n"), 1)]


def check_columns(path):
    """Ends with the first line of a table that is none."""
    wanted = COLUMNS[path]
    for number, cells in lines_of(path):
        if len(cells) != len(wanted):
            refuse(path, number, f"it has {len(cells)} columns with tabs between them, and is to have {len(wanted)}")
        for cell, (what, pattern) in zip(cells, wanted):
            if not re.fullmatch(pattern, cell):
                refuse(path, number, f"this is no {what}: {cell!r}")


def check_twice(path, keys):
    """Ends with the second line of a key. The keys stand with the numbers of their lines."""
    known = {}
    for number, key in keys:
        if key in known:
            refuse(path, number, f"{' '.join(key)} stands in line {known[key]} too")
        known[key] = number


def check_known(path, named, known, what):
    """Ends with the first name that is not known. The names stand with the numbers of their lines."""
    for number, name in named:
        if name not in known:
            refuse(path, number, f"no {what} is {name if isinstance(name, str) else ' '.join(name)}")


def check_rows():
    """No row stands twice, and what names a row names one."""
    built_in = [(number, (mime_type, extension)) for number, (_, mime_type, extension, _) in lines_of(BUILT_IN)]
    extensions = {extension for _, (_, extension) in built_in}
    further = [(number, (mime_type, extension, parent)) for number, (_, mime_type, extension, parent, _) in lines_of(FURTHER)]
    check_twice(BUILT_IN, [(number, (extension,)) for number, (_, extension) in built_in if extension != "epub"])
    check_twice(FURTHER, [it for it in further if it[1] not in TWICE])
    check_known(FURTHER, [(number, parent) for number, (_, _, parent) in further], extensions | {"none"}, f"row of {BUILT_IN}")
    check_known(SOURCES, [(number, extension) for number, (extension, _) in lines_of(SOURCES)], extensions, f"row of {BUILT_IN}")
    check_twice(SOURCES, [(number, (extension,)) for number, (extension, _) in lines_of(SOURCES)])
    names_of_rows = {f"{group}/{extension}" for _, (group, _, extension, _) in lines_of(BUILT_IN)} | {"-"}
    check_known(VECTORS, [(number, ours) for number, (_, _, ours, _) in lines_of(VECTORS)], names_of_rows, f"row of {BUILT_IN}")
    check_known(libmagic.NAMES, libmagic.named(), {it for _, it in built_in} | {it[:2] for _, it in further}, "row")
    check_twice(libmagic.NAMES, libmagic.named())


def check_mistakes():
    """Each text has the mistake that is said of it, by the model of the notation."""
    for number, (reason, text, column) in lines_of(MISTAKES):
        told = mistake_of(text)
        if told != (int(column), reason):
            refuse(MISTAKES, number, f"the model finds {f'{told[1]}, in column {told[0]}' if told else 'no mistake'}")


def mistake_of(text):
    try:
        further_rows.notation.row(text.encode())
    except further_rows.notation.Mistake as mistake:
        return mistake.args[1:]
    return None


@kept
def judged(types):
    """What the model says of the lines that have answers, a line each."""
    with tempfile.TemporaryDirectory() as room:
        for name, text in (("types.txt", types), ("vectors.tsv", text_of(FURTHER_VECTORS))):
            with open(f"{room}/{name}", "w", encoding="utf-8") as it:
                it.write(text)
        run = subprocess.run([f"{TOP}/{MODEL}", f"{room}/types.txt", f"{room}/vectors.tsv"], capture_output=True, text=True, check=False)
    if run.stderr:
        refuse(ANSWERS, line_of(ANSWERS, "RELATIONS: "), run.stderr.strip().splitlines()[-1])
    return run.stdout.splitlines()


def check_answers(types):
    """Ends with the lines that have other answers than the model of the rows."""
    if wrong := judged(types):
        more = [f"and {len(wrong) - MOST_SHOWN} other lines"] * (len(wrong) > MOST_SHOWN)
        raise SystemExit("\n".join(f"tools/tables: {it}" for it in wrong[:MOST_SHOWN] + more))


def check_relations():
    """Each relation of the model of the notation has a rule that rules it out, and stands on the page."""
    for name in dict.fromkeys(name.replace(" :", ":") for name, _, _ in further_rows.notation.RELATIONS):
        if not re.search(rf"(['\"]){re.escape(name)}\1: ", text_of(RULES)):
            refuse(RULES, line_of(RULES, "NEVER: "), f"no rule says when no bytes make a buffer fit the relation {name}")
        if f"`{name}" not in text_of(PAGE):
            refuse(PAGE, line_of(PAGE, "## Relations"), f"the relation {name} does not stand here")


def check():
    """Ends with the first line of a table that says what is not so."""
    check_rows()
    check_mistakes()
    check_relations()
    for number, line in enumerate(text_of("crates.txt").splitlines(), 1):
        if not re.fullmatch(r"#.*||\w+(?: staticlib)?:(?: \w+)*", line):
            refuse("crates.txt", number, f"this is no crate with those it stands on: {line}")
    names.check()
