//! Lays the original's files out for `src/`, which takes them in by `include!`: for the crate `oracle` as they are, for the crate
//! `present` with the replacements. Of each file the `//!` lines at its front are left out, which `include!` refuses.

mod replacements;

use replacements::{REPLACEMENTS, Replacement, astray, replaced};
use std::{env, fs, path::Path};

const ORIGINAL: &str = "upstream/crates/embedded-audio/src";

fn main() {
    let variable = |name: &str| env::var(name).unwrap_or_else(|_| panic!("no {name} from cargo"));
    println!("cargo::rustc-check-cfg=cfg(present)");
    let (root, replacements): (_, &[Replacement]) = match variable("CARGO_PKG_NAME").as_str() {
        "present" => {
            println!("cargo::rustc-cfg=present");
            ("..", REPLACEMENTS)
        }
        _ => (".", &[]),
    };
    let original = Path::new(root).join(ORIGINAL);
    println!("cargo::rerun-if-changed={}", original.display());
    println!("cargo::rerun-if-changed={root}/build.rs");
    println!("cargo::rerun-if-changed={root}/replacements.rs");
    let mut files = vec![];
    list(&original, "", &mut files);
    let astray = astray(&files, replacements);
    assert!(astray.is_empty(), "for no file of the original: {astray:?}");
    for file in &files {
        let text = fs::read_to_string(original.join(file)).expect("a file of the original");
        let text = replaced(file, &text, replacements).unwrap_or_else(|error| panic!("{error}"));
        write(&Path::new(&variable("OUT_DIR")).join(file), &text);
    }
}

/// Every file under a folder, by its path from there on.
fn list(folder: &Path, from: &str, files: &mut Vec<String>) {
    for entry in fs::read_dir(folder.join(from)).expect("a folder of the original") {
        let entry = entry.expect("an entry of that folder");
        let name = entry
            .file_name()
            .into_string()
            .expect("a name in plain letters");
        let path = if from.is_empty() {
            name
        } else {
            format!("{from}/{name}")
        };
        match entry.path().is_dir() {
            true => list(folder, &path, files),
            false => files.push(path),
        }
    }
}

fn write(path: &Path, text: &str) {
    let lines = text.lines().skip_while(|line| line.starts_with("//!"));
    let code: String = lines.flat_map(|line| [line, "\n"]).collect();
    fs::create_dir_all(path.parent().expect("a folder")).expect("a folder to write to");
    fs::write(path, code).expect("a file in that folder");
}
