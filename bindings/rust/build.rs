//! Finds the installed library: its header, its archive, and a C compiler for the header's own functions.
//!
//! It serves both crates, gz-range and gz-space, each for the library of its own name. The folder that gz_range was
//! installed below is taken from GZ_RANGE_PREFIX. Where that isn't set, the file gz_range.pc is looked for in the folders
//! of PKG_CONFIG_PATH and in the usual ones, and read by hand: of it the lines prefix=, includedir= and libdir= matter.
//! So neither pkg-config nor another crate is needed. The version of the installed header has to fit the crate's own.

use std::collections::HashMap;
use std::env;
use std::fs;
use std::path::{Path, PathBuf};
use std::process::Command;

/// Where the library is installed.
struct Installed {
    include: PathBuf,
    lib: PathBuf,
}

fn main() {
    let library = env::var("CARGO_PKG_NAME").expect("cargo names the crate").replace('-', "_");
    let prefix = format!("{}_PREFIX", library.to_uppercase());
    for name in [&prefix, "PKG_CONFIG_PATH", "CC", "AR"] {
        println!("cargo:rerun-if-env-changed={name}");
    }
    println!("cargo:rerun-if-changed=src/header.c");
    println!("cargo:rerun-if-env-changed=DOCS_RS");
    if env::var_os("DOCS_RS").is_some() {
        return; // the pages need no library
    }
    let installed = find(&library, &prefix)
        .unwrap_or_else(|| panic!("{library} isn't installed: set {prefix} to the folder that its install was given"));
    let header = installed.include.join(format!("{library}.h"));
    for needed in [&header, &installed.lib.join(format!("lib{library}.a"))] {
        assert!(needed.is_file(), "{} isn't there", needed.display());
        println!("cargo:rerun-if-changed={}", needed.display());
    }
    let (there, own) = (version_in(&header, &library), env::var("CARGO_PKG_VERSION").expect("cargo names the version"));
    assert!(
        fits(&there, &own),
        "the installed {library} is {there}, and this crate wants {own} or later, of the same first number"
    );
    compile_header(&library, &installed.include);
    println!("cargo:rustc-link-search=native={}", installed.lib.display());
    let kind = if env::var_os("CARGO_FEATURE_SHARED").is_some() { "dylib" } else { "static" };
    println!("cargo:rustc-link-lib={kind}={library}");
}

fn find(library: &str, prefix: &str) -> Option<Installed> {
    if let Some(prefix) = env::var_os(prefix) {
        let prefix = PathBuf::from(prefix);
        return Some(Installed { include: prefix.join("include"), lib: prefix.join("lib") });
    }
    let named = env::var_os("PKG_CONFIG_PATH").unwrap_or_default();
    let usual = ["/usr/local/lib/pkgconfig", "/usr/lib/pkgconfig", "/usr/lib/x86_64-linux-gnu/pkgconfig"];
    let file = format!("{library}.pc");
    env::split_paths(&named).chain(usual.iter().map(PathBuf::from)).find_map(|folder| read(&folder.join(&file)))
}

/// Reads the places from a file for pkg-config: lines NAME=VALUE, in which ${NAME} stands for an earlier value.
fn read(file: &Path) -> Option<Installed> {
    let text = fs::read_to_string(file).ok()?;
    println!("cargo:rerun-if-changed={}", file.display());
    let mut values: HashMap<&str, String> = HashMap::new();
    for line in text.lines() {
        let Some((name, value)) = line.split_once('=') else { continue };
        let mut value = value.trim().to_string();
        for (earlier, its) in &values {
            value = value.replace(&format!("${{{earlier}}}"), its);
        }
        values.insert(name.trim(), value);
    }
    Some(Installed { include: PathBuf::from(values.get("includedir")?), lib: PathBuf::from(values.get("libdir")?) })
}

/// The version that an installed header names.
fn version_in(header: &Path, library: &str) -> String {
    let line = format!("#define {}_VERSION_TEXT ", library.to_uppercase());
    let text = fs::read_to_string(header).unwrap_or_else(|error| panic!("{}: {error}", header.display()));
    let named = text.lines().find_map(|text| text.strip_prefix(&line)).unwrap_or("");
    named.trim_matches('"').to_string()
}

/// Whether a library of one version serves a crate of another: the first numbers are the same, and it isn't older.
fn fits(there: &str, own: &str) -> bool {
    let numbers = |version: &str| version.split('.').map(|part| part.parse().unwrap_or(0)).collect::<Vec<u64>>();
    let (there, own) = (numbers(there), numbers(own));
    there[0] == own[0] && there >= own
}

/// Compiles the functions that are C in the header itself, into an archive of their own.
fn compile_header(library: &str, include: &Path) {
    let out = PathBuf::from(env::var_os("OUT_DIR").expect("cargo names a folder"));
    let (object, archive) = (out.join("header.o"), out.join(format!("lib{library}_header.a")));
    let tool = |name: &str, usual: &str| env::var_os(name).unwrap_or_else(|| usual.into());
    run(Command::new(tool("CC", "cc"))
        .args(["-O2", "-fPIC", "-Wall", "-Wextra", "-Werror", "-c", "src/header.c", "-I"])
        .arg(include)
        .arg("-o")
        .arg(&object));
    let _ = fs::remove_file(&archive);
    run(Command::new(tool("AR", "ar")).arg("rcs").arg(&archive).arg(&object));
    println!("cargo:rustc-link-search=native={}", out.display());
    println!("cargo:rustc-link-lib=static={library}_header");
}

fn run(command: &mut Command) {
    let status = command.status().unwrap_or_else(|error| panic!("{command:?}: {error}"));
    assert!(status.success(), "{command:?}: {status}");
}
