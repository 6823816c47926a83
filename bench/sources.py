"""Debian's source packages, as apt-get brings them: that wants a line deb-src among apt's sources. bench/sources.tsv
lists those whose files programs are asked about, by name and bytes. The table of names was not made from them.

A file that is no link and has contents is drawn if it is among the 3000 of its package with the least SHA-256 of "drawn
PACKAGE/PATH". Files are judged in the order of the SHA-256 of "judged PACKAGE/PATH", and bench/judged.tsv says what
they are: by their paths and contents, and before any program was asked. What the TypeScript compiler's tests keep of a
source and the JavaScript made of it is JavaScript only if node takes the whole, and a table of tab-separated values has
no other lines."""
import hashlib
import os
import re
import subprocess
import sys
import tempfile
from typing import NamedTuple

HERE = os.path.dirname(os.path.abspath(__file__))
sys.path[:0] = [f"{os.path.dirname(HERE)}/tools"]
from texts import text_of

MOST = 3000


class Source(NamedTuple):
    """A file of a source package: the package, the file's path below it, and where it stands here."""

    package: str
    path: str
    place: str

    def key(self, word):
        return hashlib.sha256(os.fsencode(f"{word} {self.package}/{self.path}")).digest()


def fetched(folder, package, version=""):
    """Unpacks the source of a package into the folder, without what Debian adds, and gives its place. It is none if
    apt-get does not bring it."""
    with tempfile.TemporaryDirectory(dir=folder) as room:
        wanted = f"{package}={version}" if version else package
        fetch = ["apt-get", "--quiet", "source", "--tar-only", wanted]
        try:
            subprocess.run(fetch, cwd=room, check=True, capture_output=True)
        except (FileNotFoundError, subprocess.CalledProcessError):
            return None
        archive = next(it for it in sorted(os.listdir(room)) if re.search(r"\.orig\.tar\.\w+$", it))
        place = archive.partition(".orig.tar.")[0]
        os.mkdir(f"{room}/{place}")
        unpack = ["tar", "--extract", "--no-same-owner", "--strip-components=1", "--directory", place]
        subprocess.run([*unpack, "--file", archive], cwd=room, check=True)
        os.rename(f"{room}/{place}", f"{folder}/{place}")
    return f"{folder}/{place}"


def files_of(package, top):
    """The files of a package that are drawn."""
    places = [os.path.join(at, name) for at, _, names in os.walk(top) for name in names]
    files = [it for it in places if os.path.isfile(it) and not os.path.islink(it) and os.path.getsize(it)]
    found = [Source(package, os.path.relpath(it, top), it) for it in files]
    return sorted(found, key=lambda it: it.key("drawn"))[:MOST]


def packages():
    """Each package with its version."""
    return [line.split("\t") for line in text_of("bench/sources.tsv").splitlines()]


def drawn(folder):
    """The files that are drawn of all packages, in the order in which they are judged. What is there is not fetched
    again."""
    found = []
    for package, version in packages():
        upstream = re.fullmatch(r"(?:\d+:)?(.*)-[^-]*", version)[1]
        top = f"{folder}/{package}_{upstream}"
        if not os.path.isdir(top) and fetched(folder, package, version) != top:
            script = f"bench/{os.path.basename(sys.argv[0])}"
            sys.exit(f"{script}: apt-get does not bring the source package {package} {version}")
        found += files_of(package, top)
    return sorted(found, key=lambda it: it.key("judged"))
