//! Writes the table of the aliases, and links with the library for C, from the folder that `INFER_LIB_DIR` names, or from
//! this one if it is here, or from `c/out` of the repository. Where it is in none of them, `CC` compiles the C file of the
//! repository's `dist`. Without that too all goes but linking.

use std::path::{Path, PathBuf};
use std::process::Command;
use std::{env, fs};

/// The words of the lines, and the kinds of `src/aliases.rs`, in their order.
const KINDS: [(&str, &str); 4] = [("EXTENSION", "Extension"), ("MIME_TYPE", "MimeType"), ("BROWSER", "Browser"), ("BUILT_ON", "BuiltOn")];

fn main() {
    let here = PathBuf::from(variable("CARGO_MANIFEST_DIR"));
    let lines = here.join("aliases.def");
    println!("cargo:rerun-if-changed={}", lines.display());
    let text = fs::read_to_string(&lines).expect("aliases.def is part of the package");
    fs::write(Path::new(&variable("OUT_DIR")).join("aliases.rs"), table(&text)).expect("Cargo's folder can be written to");
    link(env::var_os("INFER_LIB_DIR").map_or_else(|| built(&here), PathBuf::from));
}

/// The folder that has the library, or would have it if it were built.
fn built(here: &Path) -> PathBuf {
    let (made, source) = (here.join("../../../c/out"), here.join("../../../dist/infer.c"));
    if here.join("libinfer.a").exists() {
        warn_unless_it_is_for_the_target();
        here.to_path_buf()
    } else if made.join("libinfer.a").exists() || !source.exists() {
        made
    } else {
        compiled(&source)
    }
}

/// The library beside this file is that of a release, for one platform.
fn warn_unless_it_is_for_the_target() {
    let target = (variable("CARGO_CFG_TARGET_OS"), variable("CARGO_CFG_TARGET_ARCH"));
    if (target.0.as_str(), target.1.as_str()) != ("linux", "x86_64") {
        println!("cargo:warning=this crate has the library for x86-64 Linux alone: use a clone of the repository, or name the folder of another library by INFER_LIB_DIR");
    }
}

/// The folder of the library that the C compiler makes of that file.
fn compiled(source: &Path) -> PathBuf {
    let to = PathBuf::from(variable("OUT_DIR"));
    println!("cargo:rerun-if-changed={}", source.display());
    run(tool("CC", "cc").args(["-std=c99", "-O1", "-fPIC", "-c"]).arg(source).arg("-o").arg(to.join("infer.o")));
    run(tool("AR", "ar").arg("rc").arg(to.join("libinfer.a")).arg(to.join("infer.o")));
    to
}

fn tool(variable: &str, otherwise: &str) -> Command {
    Command::new(env::var_os(variable).unwrap_or(otherwise.into()))
}

fn run(command: &mut Command) {
    let ended = command.status().unwrap_or_else(|fault| panic!("{command:?}: {fault}"));
    assert!(ended.success(), "{command:?}: {ended}");
}

fn variable(name: &str) -> String {
    env::var(name).expect("Cargo sets its variables")
}

/// A slice of a kind, an alias and a target for each line, in order.
fn table(text: &str) -> String {
    let mut all: Vec<_> = text.lines().filter_map(parts).collect();
    all.sort();
    let entries: String =
        all.iter().map(|(kind, alias, target)| format!("    (Kind::{}, {alias:?}, {target:?}),\n", KINDS[*kind].1)).collect();
    format!("&[\n{entries}]\n")
}

/// The place of its kind, the alias and the target, of a line that has them.
fn parts(line: &str) -> Option<(usize, &str, &str)> {
    let (word, rest) = line.split_once("(\"")?;
    let (alias, target) = rest.strip_suffix("\")")?.split_once("\", \"")?;
    Some((KINDS.iter().position(|(kind, _)| *kind == word)?, alias, target))
}

fn link(folder: PathBuf) {
    println!("cargo:rerun-if-env-changed=INFER_LIB_DIR");
    let library = folder.join("libinfer.a");
    println!("cargo:rerun-if-changed={}", library.display());
    if !library.exists() {
        println!("cargo:warning=no {}: c/build makes it, and INFER_LIB_DIR can name its folder", library.display());
    }
    println!("cargo:rustc-link-search=native={}", folder.display());
    println!("cargo:rustc-link-lib=static=infer");
}
