"""Files of Debian's binary packages, as apt-get brings them. bench/packages.tsv lists the packages. Of each section of
Debian 12 but the kernel's there are up to eight, of 1 to 3 MB and without an update: those with the least SHA-256 of
"drawn PACKAGE". Eight more are there for their documents and music, which are rare in packages. bench/liars.tsv has the
files whose names truly lie, or whose bytes are broken, each with the reason."""
import os
import subprocess
import sys
import tempfile
from typing import NamedTuple

sys.path[:0] = [f"{os.path.dirname(os.path.dirname(os.path.abspath(__file__)))}/tools"]
from texts import text_of

FRONT = 8192


class File(NamedTuple):
    """A file: what it is or was made of, and its path, by whose last part it is named."""

    what: str
    path: str

    def front(self):
        with open(self.path, "rb") as file:
            return file.read(FRONT)

    def extension(self):
        return os.path.splitext(self.path)[1][1:].lower()


def left_out(what):
    print(f"left out: {what}", file=sys.stderr)


def lines_of(path):
    """The lines of a table, as lists of cells."""
    return [line.split("\t") for line in text_of(path).splitlines()]


def packages():
    """Each package with its version."""
    return lines_of("bench/packages.tsv")


def unpacked(folder, package, version):
    """Where a package is unpacked. It is none if apt-get does not bring it."""
    top = f"{folder}/{package}_{version}"
    if os.path.isdir(top):
        return top
    with tempfile.TemporaryDirectory(dir=folder) as room:
        fetch = ["apt-get", "--quiet", "--option", "APT::Sandbox::User=root", "download", f"{package}={version}"]
        try:
            subprocess.run(fetch, cwd=room, check=True, capture_output=True)
        except (FileNotFoundError, subprocess.CalledProcessError):
            return None
        archive, place = f"{room}/{os.listdir(room)[0]}", f"{room}/unpacked"
        subprocess.run(["dpkg-deb", "--extract", archive, place], check=True)
        os.rename(place, top)
    return top


def files_below(package, top):
    """The regular files of a package. `file` is given a name a line, so none has a line end."""
    for it in sorted(os.path.join(at, name) for at, _, names in os.walk(top) for name in names):
        if os.path.isfile(it) and not os.path.islink(it) and os.access(it, os.R_OK) and "\n" not in it:
            yield File(f"{package}/{os.path.relpath(it, top)}", it)


def honest(folder):
    """The files of all packages whose names do not lie. What is there is not fetched again."""
    liars = {f"{package}/{path}" for package, path, _ in lines_of("bench/liars.tsv")}
    for package, version in packages():
        top = unpacked(folder, package, version)
        if top is None:
            left_out(f"the package {package} {version}, which apt-get does not bring")
        else:
            yield from (it for it in files_below(package, top) if it.what not in liars)
