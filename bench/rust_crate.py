"""Programs that ask the Rust crate infer, where Debian's package librust-infer-dev puts it, or the folder that
RUST_REGISTRY names, in which what it needs lies too."""
import glob
import os
import re
import subprocess

MANIFEST = """[package]
name = "ask"
version = "0.0.0"
edition = "2021"

[[bin]]
name = "ask"
path = "ask.rs"

[dependencies]
infer = "0.22"
"""


def registry():
    found = os.path.abspath(os.environ.get("RUST_REGISTRY", "/usr/share/cargo/registry"))
    if not glob.glob(f"{found}/infer-[0-9]*"):
        raise FileNotFoundError(f"no crate infer is in {found}")
    return found


def program(room, source):
    """The path of the program of that source, and the version of the crate in it."""
    for name, text in [("Cargo.toml", MANIFEST), ("ask.rs", source)]:
        with open(f"{room}/{name}", "w", encoding="utf-8") as file:
            file.write(text)
    source = ["--config", 'source.crates-io.replace-with="folder"', "--config", f'source.folder.directory="{registry()}"']
    subprocess.run(["cargo", "build", "--quiet", "--offline", "--release", "--target-dir", room, *source], cwd=room, check=True)
    with open(f"{room}/Cargo.lock", encoding="utf-8") as file:
        return f"{room}/release/ask", re.search(r'name = "infer"\nversion = "(.*)"', file.read())[1]


def type_count(version):
    """How many types the crate lists."""
    with open(f"{registry()}/infer-{version}/src/map.rs", encoding="utf-8") as file:
        return len(re.findall(r"\bMatcherType::\w+,", file.read()))
