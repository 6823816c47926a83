"""Which names programs call lies. The library says so of a name and the first 8192 bytes, and the others do not. So
`file` is asked by the bytes, and Python's mimetypes by the name, with the list of Debian's package media-types. gio is
asked twice: by the bytes, of a link that has a number as its name, and by the name alone.

A name lies by them if they know a type of the name and one of the bytes, both differ, neither is a kind of the other,
and not both are texts, as JSON and XML are too. What is the same type, and a kind of what, is said by
bench/aliases.tsv, bench/kinds.tsv, SAME and shared-mime-info. "x-" is passed over. Strictly a name lies too if nothing
is known of the bytes, and the program has a signature of the name's type. SHARED_MIME names another folder of
shared-mime-info than /usr/share/mime."""
import collections
import mimetypes
import os
import re
import subprocess

import peers
from kinds import Types, table
from packages import left_out
from peers import infer

DATA = "application/octet-stream"
# Types that a name and the bytes have in one file. By name alone .otf is a formula too.
SAME = {
    "application/vnd.oasis.opendocument.formula-template": "font/otf",
    "application/x-font": "font/x-postscript-pfb",
    "application/x-msdos-program": "application/vnd.microsoft.portable-executable",
    "audio/sp-midi": "audio/midi",
}
# The kinds of ELF. By shared-mime-info scripts are of this type too, which is not asked.
PROGRAM = "application/x-executable"
PROGRAMS = [("application/x-object", PROGRAM), ("application/x-sharedlib", PROGRAM)]
# What a file is that mimetypes calls packed.
PACKED = {
    "bzip2": "application/x-bzip2",
    "compress": "application/x-compress",
    "gzip": "application/gzip",
    "xz": "application/x-xz",
}


def shared_mime(name):
    """The lines of a file of shared-mime-info."""
    path = f"{os.environ.get('SHARED_MIME', '/usr/share/mime')}/{name}"
    if not os.path.isfile(path):
        left_out(f"the file {name} of shared-mime-info, which is not there")
        return []
    with open(path, encoding="latin-1") as file:
        return file.read().splitlines()


class Folded(Types):
    """Types without "x-", and with those of shared-mime-info."""

    def __init__(self):
        super().__init__()
        aliases, kinds = ([line.lower().split() for line in shared_mime(it)] for it in ("aliases", "subclasses"))
        self.same = {**dict(aliases), **SAME, **self.same}
        self.wider = collections.defaultdict(set)
        for mime_type, wider in [*table("kinds.tsv"), *PROGRAMS, *(it for it in kinds if it[1] != PROGRAM)]:
            self.wider[self.name(mime_type)].add(self.name(wider))

    def name(self, mime_type):
        return super().name(mime_type).replace("/x-", "/")

    def are_against(self, of_name, of_bytes):
        """Whether two types differ, neither is a kind of the other, and not both are texts."""
        named, told = (self.kinds(self.name(it)) for it in (of_name, of_bytes))
        texts = [any(re.match(r"text/|.*\+(json|xml)$", it) for it in kinds) for kinds in (named, told)]
        return self.name(of_name) not in told and self.name(of_bytes) not in named and not all(texts)


def by_library(files):
    """Whether each name lies, and what is said of it."""
    for it in files:
        found = infer.named(os.path.basename(it.path), it.front())
        yield found.standing is infer.Standing.CONTRADICTS, str(found)


def mimetype(path):
    mime_type, packed = mimetypes.guess_type(os.path.basename(path))
    return PACKED.get(packed, "") if packed else mime_type or ""


def by_file(files, _):
    """The version of `file`, the types that it has signatures of, what is known of the names, and what of the bytes."""
    known = re.findall(r"\[([a-z]+/.*?)\]", peers.told_by("file", "--list", stderr=subprocess.DEVNULL))
    command = "file", "--brief", "--dereference", "--mime-type", "--files-from", "-"
    told = peers.told_by(*command, input="".join(f"{it.path}\n" for it in files), errors="surrogateescape")
    types = [line.partition(";")[0] for line in told.splitlines()]
    return f"{peers.listed()[0]} with mimetypes", known, [mimetype(it.path) for it in files], types


def by_gio(files, room):
    """The same of gio."""
    version = peers.told_by("gio", "version").strip()
    known = [it[1] for it in map(re.compile(r"\[\d+:(.*)\]$").match, shared_mime("magic")) if it]
    numbers = [f"{room}/{number}" for number in range(len(files))]
    for number, it in zip(numbers, files):
        os.symlink(it.path, number)
    names = peers.of_paths([it.path for it in files], "fast-content-type")
    return version, known, names, peers.of_paths(numbers)


def lies(types, known, names, told):
    """Whether each name lies, and what is said of it. With known types a signature that is not found makes a lie."""
    for of_name, of_bytes in zip(names, told):
        if of_name in peers.NOTHING or of_bytes in peers.NOTHING:
            is_lie = of_name not in peers.NOTHING and of_bytes == DATA and types.name(of_name) in known
        else:
            is_lie = types.are_against(of_name, of_bytes)
        yield is_lie, f"{of_bytes or 'unknown'}, named {of_name or 'unknown'}"


def answers(files, room):
    """Each program that is there, and what it says of the files."""
    yield "here", [*by_library(files)]
    types = Folded()
    for name, of in {"`file`": by_file, "`gio`": by_gio}.items():
        try:
            version, known, *both = of(files, room)
        except FileNotFoundError:
            left_out(f"{name}, which is not there")
            continue
        for its in both:
            peers.answers(name, lambda _, its=its: its, files)
        yield f"{name} {version}", [*lies(types, [], *both)]
        yield f"{name}, strictly", [*lies(types, {*map(types.name, known)}, *both)]
