"""The programs that tell types, each asked by the contents of files alone, and gio by their names too: the Rust crate
infer, `file`, mimetype for Go, python-magic, filetype.py, file-type for Node, and shared-mime-info by GLib's `gio`.

They are those of Debian's packages librust-infer-dev, file, python3-magic, python3-filetype,
golang-github-gabriel-vasile-mimetype-dev, libglib2.0-bin and shared-mime-info. RUST_REGISTRY names another folder of
crates than /usr/share/cargo/registry, and GO_CODE another than /usr/share/gocode. No package has file-type, which is had
from npm alone: FILE_TYPE names its module, as node_modules/file-type/index.js."""
import importlib
import os
import re
import subprocess
import sys
import tempfile

HERE = os.path.dirname(os.path.abspath(__file__))
ROOT = os.path.dirname(HERE)
sys.path[:0] = [HERE, f"{ROOT}/tools", f"{ROOT}/bindings/python/src"]
import infer
import rust_crate
from texts import text_of, write_table

FRONT = 8192
# What says nothing of a type.
NOTHING = {"", "application/octet-stream", "application/unknown", "application/x-empty", "inode/x-empty"}

ASK_CRATE = """fn main() -> std::io::Result<()> {
    for name in std::io::stdin().lines() {
        let found = infer::get_from_path(name?)?;
        println!("{}", found.map_or("", |it| it.mime_type()));
    }
    Ok(())
}
"""
GO = os.environ.get("GO_CODE", "/usr/share/gocode")
MIMETYPE = "github.com/gabriel-vasile/mimetype"
ASK_MIMETYPE = f"""package main

import (
	"bufio"
	"fmt"
	"os"

	"{MIMETYPE}"
)

func main() {{
	mimetype.SetLimit({FRONT})
	for lines := bufio.NewScanner(os.Stdin); lines.Scan(); {{
		found, err := mimetype.DetectFile(lines.Text())
		if err != nil {{
			panic(err)
		}}
		fmt.Println(found)
	}}
}}
"""
ASK_FILE_TYPE = """
const { fileTypeFromBuffer, supportedMimeTypes } = await import(process.argv[1]);
const { readFileSync } = await import("node:fs");
const names = readFileSync(0, "utf8").split("\\n").slice(0, -1);
if (!names.length) console.log(supportedMimeTypes.size);
for (const name of names) console.log((await fileTypeFromBuffer(new Uint8Array(readFileSync(name))))?.mime ?? "");
"""


def rows():
    """Each row, as its MIME type, its extension and the extension of its parent."""
    for line in text_of("vectors/rows.tsv").splitlines():
        _, mime_type, extension, *_ = line.split("\t")
        yield mime_type, extension, "none"
    for line in text_of("vectors/further/rows.tsv").splitlines():
        _, mime_type, extension, parent, *_ = line.split("\t")
        yield mime_type, extension, parent


def told_by(*command, **more):
    """What a command prints."""
    return subprocess.run(command, stdout=subprocess.PIPE, text=True, check=True, **more).stdout


def asked(*command, line="(.*)"):
    """What a command says of files of these contents. It is given their names, which are numbers, one a line, and prints such a
    line of each. The MIME types may have parameters."""

    def ask(contents):
        with tempfile.TemporaryDirectory() as room:
            names = []
            for content in contents:
                names.append(f"{len(names):06}")
                with open(f"{room}/{names[-1]}", "wb") as file:
                    file.write(content)
            said = told_by(*command, cwd=room, input="".join(f"{it}\n" for it in names))
        return [re.split("[;,]", it[1])[0] for it in map(re.compile(line).match, said.splitlines()) if it]

    return ask


def called(call):
    """What a function says of each of these contents."""
    return lambda contents: [call(it) or "" for it in contents]


def listed():
    """The version of `file`, and how many types it lists."""
    version, known = told_by("file", "--version").split()[0].removeprefix("file-"), told_by("file", "--list", stderr=subprocess.DEVNULL)
    return version, len({*re.findall(r"\[([a-z]+/.*?)\]", known)})


def contents(path):
    with open(path, "rb") as file:
        return file.read()


def written(path, text):
    with open(path, "w", encoding="utf-8") as file:
        file.write(text)


def of_crate(room):
    program, version = rust_crate.program(room, ASK_CRATE)
    return f"Rust crate `infer` {version}", rust_crate.type_count(version), asked(program)


def of_file(_):
    version, types = listed()
    return f"`file` {version}", types, asked("file", "--brief", "--mime-type", "--files-from", "-")


def of_mimetype(room):
    with open(f"{GO}/src/{MIMETYPE}/supported_mimes.md", encoding="utf-8") as file:
        types = int(re.search(r"\d+", file.read())[0])
    written(f"{room}/ask.go", ASK_MIMETYPE)
    told_by("go", "build", "-o", f"{room}/ask", f"{room}/ask.go", env=os.environ | {"GO111MODULE": "off", "GOFLAGS": "", "GOPATH": GO})
    version = told_by("dpkg-query", "--show", "--showformat=${Version}", "golang-github-gabriel-vasile-mimetype-dev").partition("+")[0]
    return f"mimetype {version}, for Go", types, asked(f"{room}/ask")


def of_magic(_):
    magic, (version, types) = importlib.import_module("magic"), listed()
    its = f"{magic.version() / 100:.2f}"
    return f"python-magic, libmagic {its}", types if its == version else "", called(lambda buf: magic.from_buffer(buf, mime=True))


def of_filetype(_):
    filetype = importlib.import_module("filetype")
    return f"filetype.py {filetype.version}", len(filetype.types), called(filetype.guess_mime)


def of_paths(paths, attribute="content-type"):
    """What gio says of files, by their names and bytes. The attribute fast-content-type asks the names alone."""
    command = "xargs", "-0", "gio", "info", f"--attributes=standard::{attribute}"
    told = told_by(*command, input="\0".join(paths), errors="surrogateescape")
    return re.findall(f"^  standard::{attribute}: (.*)$", told, re.M)


def of_desktop(_):
    version, glib = told_by("update-mime-database", "-v", stderr=subprocess.STDOUT).split()[2], told_by("gio", "version").strip()
    command = "xargs", "gio", "info", "--attributes=standard::content-type"
    return f"shared-mime-info {version}, by `gio` {glib}", "", asked(*command, line="  standard::content-type: (.*)")


def of_file_type(_):
    if "FILE_TYPE" not in os.environ:
        raise FileNotFoundError
    command = "node", "--input-type=module", "--eval", ASK_FILE_TYPE, os.path.abspath(os.environ["FILE_TYPE"])
    return "file-type, for Node", int(told_by(*command, input="")), asked(*command)


# bench/compare asks all but the desktop.
DESKTOP = {"shared-mime-info, by `gio`": of_desktop}
OTHERS = {
    "Rust crate `infer`": of_crate,
    "`file`": of_file,
    "mimetype, for Go": of_mimetype,
    "python-magic": of_magic,
    "filetype.py": of_filetype,
    "file-type, for Node": of_file_type,
}


WIDER = "here, with the further types"


def asked_of(room, others):
    """Each of these programs, how many types it knows, and what says its answers about some contents. That is none if
    something of it is not there."""
    for name, of in others.items():
        try:
            program = of(room)
        except (ImportError, FileNotFoundError):
            program = name, "", None
        yield program


def programs(room, others):
    """The library, with and without the further types, and these programs."""
    yield "here, the built-in types", len(infer.types), called(infer.guess_mime)
    yield WIDER, len([*rows()]), called(lambda buf: infer.guess_mime(buf, more=True))
    yield from asked_of(room, others)


def answers(program, ask, contents):
    """What a program says of each of these contents."""
    said = ask(contents)
    if len(said) != len(contents):
        sys.exit(f"bench/{os.path.basename(sys.argv[0])}: {program} says {len(said)} lines of {len(contents)} files")
    return said
