"""Makes the wheel for pip, without a network and without a package: the files of src/infer, the aliases and the library. This is
what c/build made. Without that it is compiled by CC and CFLAGS, of dist/infer.c, or in a source distribution of
infer_portable.c."""
from __future__ import annotations

import base64
import gzip
import hashlib
import io
import os
import re
import struct
import subprocess
import sysconfig
import tarfile
import tempfile
import zipfile

HERE = os.path.dirname(os.path.abspath(__file__))
ROOT = os.path.dirname(os.path.dirname(HERE))
# What a source distribution has beside this file, and the repository elsewhere.
PORTABLE = os.path.join(HERE, "infer_portable.c")
# What c/build made, and what is compiled without it.
ARCHIVE, DIST = os.path.join(ROOT, "c", "out", "libinfer.a"), os.path.join(ROOT, "dist", "infer.c")
NAME, VERSION = "hoarvelt_infer", "0.1.0"
METADATA = f"""Metadata-Version: 2.1
Name: hoarvelt-infer
Version: {VERSION}
Summary: The type of a file from its first bytes
Home-page: https://hoarvelt.example/infer
Author: Hoarvelt
Author-email: infer@hoarvelt.example
Keywords: mime,mime-type,file-type,magic-number,sniff,content-type
Classifier: Development Status :: 4 - Beta
Classifier: License :: OSI Approved :: MIT License
Classifier: Programming Language :: Python :: 3
Classifier: Typing :: Typed
License: MIT
Requires-Python: >=3.9
Description-Content-Type: text/markdown

"""
# The pages that README.md names. They are in the package's folder.
PAGES = ("NAMES.md", "NOTATION.md")
# What PEP 599 lets a wheel of manylinux2014 need of the system, as far as a library in C can need it.
OLDEST_GLIBC = (2, 17)
OLD_LIBRARIES = {"libc.so.6", "libm.so.6", "libdl.so.2", "librt.so.1", "libpthread.so.0", "libutil.so.1"}


# The system and the machine of a library, by the numbers of ELF, of a DLL and of Mach-O.
OF_ELF = {62: ("linux", "x86_64"), 183: ("linux", "aarch64")}
OF_DLL = {0x8664: ("win", "amd64"), 0xAA64: ("win", "arm64")}
OF_MACHO = {0x01000007: ("macosx", "x86_64"), 0x0100000C: ("macosx", "arm64")}
# What the library is named, as src/infer/_library.py looks for it.
NAMES = {"win": "infer.dll", "macosx": "libinfer.dylib"}
# What a C library of any kind has, and all that the library asks of one.
OF_EVERY_LIBC = {"memcpy", "memmove", "memset"}


def _source() -> str:
    """The C file to compile, or nothing if the library is built."""
    if os.path.exists(PORTABLE):
        return PORTABLE
    is_built = "INFER_LIBRARY" in os.environ or os.path.exists(os.environ.get("INFER_ARCHIVE") or ARCHIVE)
    return DIST if os.path.exists(DIST) and not is_built else ""


def _compiled(folder: str) -> str:
    """The library by this machine's compiler of C."""
    library = os.path.join(folder, "libinfer.so")
    words = [os.environ.get("CC", "cc"), *os.environ.get("CFLAGS", "-O1").split(), "-shared", "-fPIC", _source(), "-o", library]
    subprocess.run(words, check=True)
    return library


def _library(folder: str) -> str:
    """The library that INFER_LIBRARY names, or one that CC links of the archive that INFER_ARCHIVE names, or that c/build
    made. This one names no C library, so that it is for glibc and for musl."""
    if "INFER_LIBRARY" in os.environ:
        return os.environ["INFER_LIBRARY"]
    if _source():
        return _compiled(folder)
    archive = os.environ.get("INFER_ARCHIVE") or ARCHIVE
    names, library = os.path.join(folder, "names"), os.path.join(folder, "libinfer.so")
    if not os.path.exists(archive):
        raise FileNotFoundError(f"no {archive} and no {DIST}: run c/build first")
    with open(names, "w", encoding="ascii") as file:
        file.write("{ global: infer_*; local: *; };\n")
    safe = ["-Wl,-z,now", "-Wl,-z,relro", "-Wl,-z,noexecstack"]
    words = [os.environ.get("CC", "cc"), "-shared", "-nostdlib", *safe, "-Wl,-soname,libinfer.so", f"-Wl,--version-script={names}"]
    subprocess.run([*words, "-Wl,--whole-archive", archive, "-Wl,--no-whole-archive", "-o", library], check=True)
    return library


def _machine(library: str) -> tuple[str, str]:
    """The system and the machine that the library is for, by its own head."""
    with open(library, "rb") as file:
        data = file.read()
    if data.startswith(b"\x7fELF") and len(data) > 20:
        [number] = struct.unpack_from("<H" if data[5] == 1 else ">H", data, 18)
        return OF_ELF.get(number, ("linux", f"machine_{number}"))
    if data.startswith(b"MZ") and len(data) > 64:
        [head] = struct.unpack_from("<I", data, 60)
        if data[head : head + 4] == b"PE\0\0" and len(data) > head + 6:
            [number] = struct.unpack_from("<H", data, head + 4)
            return OF_DLL.get(number, ("win", f"machine_{number}"))
    if data.startswith(b"\xcf\xfa\xed\xfe") and len(data) > 8:
        [number] = struct.unpack_from("<I", data, 4)
        return OF_MACHO.get(number, ("macosx", f"machine_{number}"))
    raise ValueError(f"{library} is no library of Linux, Windows or macOS")


def _wanted() -> tuple[str, str]:
    """The system and the machine that the wheel is made for: those of this Python, or of _PYTHON_HOST_PLATFORM."""
    system, _, rest = sysconfig.get_platform().partition("-")
    return system, rest.rpartition("-")[2]


def _platforms(library: str) -> list[str]:
    """The platforms of the tag, by readelf: both names of manylinux2014 if the library needs no more than that has, and
    musllinux too if it names no C library. The machine is that of the library, which has to be the one that the wheel is made
    for: that of this Python, unless _PYTHON_HOST_PLATFORM says another."""
    plain = [sysconfig.get_platform().replace("-", "_").replace(".", "_")]
    if _source():
        return plain
    system, machine = _machine(library)
    if (system, machine) != _wanted():
        raise ValueError(f"{library} is for {machine} on {system}, and the wheel for {sysconfig.get_platform()}, which _PYTHON_HOST_PLATFORM can change")
    if system != "linux":
        return plain
    words = ["readelf", "--wide", "--dynamic", "--version-info", "--dyn-syms", library]
    try:
        shown = subprocess.run(words, env=os.environ | {"LC_ALL": "C"}, check=True, capture_output=True, text=True).stdout
    except (OSError, subprocess.CalledProcessError):
        return plain
    libraries = set(re.findall(r"\(NEEDED\).*\[(.*)\]", shown))
    versions = re.findall(r"Name: (\S+)", shown.partition("Version needs section")[2])
    found = [re.fullmatch(r"GLIBC_(\d+)\.(\d+)(?:\.\d+)?", version) for version in versions]
    fits = libraries <= OLD_LIBRARIES and all(it and (int(it[1]), int(it[2])) <= OLDEST_GLIBC for it in found)
    if not fits:
        return plain
    everywhere = not libraries and set(re.findall(r" UND (\S+)", shown)) <= OF_EVERY_LIBC
    return [f"manylinux_2_17_{machine}", f"manylinux2014_{machine}", *([f"musllinux_1_1_{machine}"] if everywhere else [])]


def _read(path: str) -> bytes:
    with open(path, "rb") as file:
        return file.read()


def _metadata() -> bytes:
    """What is said of the package, with its page as it is read away from the repository."""
    if os.path.exists(PORTABLE):
        return _read(os.path.join(HERE, "PKG-INFO"))
    with tempfile.TemporaryDirectory() as folder:
        subprocess.run([os.path.join(ROOT, "c", "pages"), folder, os.path.join(HERE, "README.md")], check=True)
        return METADATA.encode() + _read(os.path.join(folder, "README.md"))


def _modules() -> dict[str, bytes]:
    """The files of Python by their names, and the pages that stand beside them in a package."""
    source = os.path.join(HERE, "src", "infer")
    files = {name: _read(os.path.join(source, name)) for name in sorted(os.listdir(source)) if name.endswith((".py", ".typed", ".md"))}
    return files if os.path.exists(PORTABLE) else files | _pages()


def _pages() -> dict[str, bytes]:
    with tempfile.TemporaryDirectory() as folder:
        subprocess.run([os.path.join(ROOT, "c", "pages"), folder, *(os.path.join(ROOT, "docs", name) for name in PAGES)], check=True)
        return {name: _read(os.path.join(folder, name)) for name in PAGES}


def _beside(name: str, *folders: str) -> bytes:
    """A file that stands beside this one in a source distribution, and in that folder in the repository."""
    return _read(os.path.join(HERE, name) if os.path.exists(PORTABLE) else os.path.join(ROOT, *folders, name))


def _contents(library: str, tags: list[str]) -> dict[str, bytes]:
    """The files of the wheel by their names."""
    files = {f"infer/{name}": data for name, data in _modules().items()}
    files |= {"infer/aliases.def": _beside("aliases.def", "aliases"), f"infer/{NAMES.get(_wanted()[0], 'libinfer.so')}": _read(library)}
    files |= {f"{NAME}-{VERSION}.dist-info/LICENSE": _beside("LICENSE"), f"{NAME}-{VERSION}.dist-info/METADATA": _metadata()}
    wheel = "Wheel-Version: 1.0\nGenerator: backend.py\nRoot-Is-Purelib: false\n" + "".join(f"Tag: {tag}\n" for tag in tags)
    files[f"{NAME}-{VERSION}.dist-info/WHEEL"] = wheel.encode()
    return files


def _record(files: dict[str, bytes]) -> bytes:
    def digest(data: bytes) -> str:
        return base64.urlsafe_b64encode(hashlib.sha256(data).digest()).decode().rstrip("=")

    lines = [f"{name},sha256={digest(data)},{len(data)}" for name, data in files.items()]
    return "\n".join([*lines, f"{NAME}-{VERSION}.dist-info/RECORD,,", ""]).encode()


def build_wheel(wheel_directory: str, config_settings: object = None, metadata_directory: object = None) -> str:
    with tempfile.TemporaryDirectory() as folder:
        library = _library(folder)
        platforms = _platforms(library)
        files = _contents(library, [f"py3-none-{platform}" for platform in platforms])
    files[f"{NAME}-{VERSION}.dist-info/RECORD"] = _record(files)
    wheel = f"{NAME}-{VERSION}-py3-none-{'.'.join(platforms)}.whl"
    with zipfile.ZipFile(os.path.join(wheel_directory, wheel), "w") as out:
        for name, data in files.items():
            entry = zipfile.ZipInfo(name)
            entry.external_attr = 0o100644 << 16
            out.writestr(entry, data, zipfile.ZIP_DEFLATED)
    return wheel


def build_sdist(sdist_directory: str, config_settings: object = None) -> str:
    """The source distribution, for platforms that no wheel is for, of what c/build made for any compiler of C."""
    portable = os.path.join(ROOT, "c", "out", "wasm64-unknown-unknown", "infer_portable.c")
    if not os.path.exists(portable):
        raise FileNotFoundError(f"no {portable}: run c/build --target wasm64-unknown-unknown first")
    files = {f"src/infer/{name}": data for name, data in _modules().items()}
    files |= {name: _read(os.path.join(HERE, name)) for name in ("backend.py", "pyproject.toml")}
    files |= {"infer_portable.c": _read(portable), "infer.h": _beside("infer.h", "c"), "aliases.def": _beside("aliases.def", "aliases")}
    files |= {"LICENSE": _beside("LICENSE"), "PKG-INFO": _metadata(), "README.md": _metadata().partition(b"\n\n")[2]}
    name = f"{NAME}-{VERSION}"
    with open(os.path.join(sdist_directory, f"{name}.tar.gz"), "wb") as raw:
        # The same files make the same archive, byte for byte.
        with gzip.GzipFile("", "wb", fileobj=raw, mtime=0) as packed, tarfile.open(fileobj=packed, mode="w", format=tarfile.PAX_FORMAT) as out:
            for path, data in sorted(files.items()):
                entry = tarfile.TarInfo(f"{name}/{path}")
                entry.size, entry.mode = len(data), 0o644
                out.addfile(entry, io.BytesIO(data))
    return f"{name}.tar.gz"
