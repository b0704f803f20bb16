//! Writes two files for the program to include: the module tree that takes in the original
//! files where they lie, and the cosine table.

use std::env;
use std::fmt::Write as _;
use std::fs;
use std::path::{Path, PathBuf};

/// Where the sources may lie if `SDRK_SRC` is not set, seen from this folder: the first that is there.
const USUAL_SOURCES: [&str; 2] = ["../../sdrk", "../../shared/docs/src"];
/// The original crate's own folder inside the sources.
const CRATE: &str = "crates/core/sdrk-core/src";
/// What the original files may do that we do not look at.
const ALLOW: &str = "#[allow(dead_code, unused_imports, clippy::all, clippy::pedantic)]";

/// The module tree: a folder (or none), its stand-ins, and the original files in it.
const TREE: [(&str, &[&str], &[&str]); 4] = [
    ("", &["error", "tables"], &["num", "types", "timing"]),
    (
        "kernels",
        &["check_len", "mix", "modulate"],
        &["symbol_sync", "costas", "constellation"],
    ),
    (
        "fallback",
        &[],
        &["symbol_sync", "costas", "mix", "modulate"],
    ),
    ("reference", &["open"], &["symbol_sync", "costas"]),
];

fn main() {
    let here = PathBuf::from(env::var("CARGO_MANIFEST_DIR").expect("cargo names this folder"));
    let out = PathBuf::from(env::var("OUT_DIR").expect("cargo names the output folder"));
    println!("cargo::rerun-if-changed=build.rs");
    println!("cargo::rerun-if-env-changed=SDRK_SRC");
    let tree = module_tree(&here, &sources_folder(&here));
    write(&out.join("original.rs"), &tree);
    write(&out.join("cosine_table.rs"), &cosine_table(&here));
}

/// The original crate's folder. A relative `SDRK_SRC` is seen from this folder.
fn sources_folder(here: &Path) -> PathBuf {
    let there = |place: &&str| here.join(place).join(CRATE).is_dir();
    let usual = || {
        USUAL_SOURCES
            .into_iter()
            .find(there)
            .unwrap_or(USUAL_SOURCES[0])
    };
    let given = env::var("SDRK_SRC").unwrap_or_else(|_| usual().to_string());
    let folder = here.join(given).join(CRATE);
    folder.canonicalize().unwrap_or_else(|error| {
        panic!(
            "the original's files are not there: {} cannot be read ({error}). Clone \
             https://github.com/Andste82/sdrk beside this repository and check out commit 907c296844, or set \
             SDRK_SRC to the folder that holds {CRATE}; a relative path is seen from the folder oracle. \
             README.md, section \"The sources\", has the commands.",
            folder.display()
        )
    })
}

/// The text of the whole tree.
fn module_tree(here: &Path, sources: &Path) -> String {
    let standins = here.join("src/standin");
    let mut text = String::new();
    for (folder, ours, theirs) in TREE {
        let mut body = String::new();
        for name in ours {
            body += &module(&standins.join(format!("{name}.rs")), name);
        }
        for name in theirs {
            body += &module(&sources.join(folder).join(format!("{name}.rs")), name);
        }
        text += &match folder {
            "" => body,
            // The original's `kernels` gives its length check at its own level.
            "kernels" => format!("pub mod kernels {{\npub use check_len::check_len;\n{body}}}\n"),
            _ => format!("pub mod {folder} {{\n{body}}}\n"),
        };
    }
    text
}

/// One file, taken in unchanged where it lies.
fn module(file: &Path, name: &str) -> String {
    assert!(
        file.is_file(),
        "there is no {}; of the original, commit 907c296844 is needed (README.md, section \"The sources\")",
        file.display()
    );
    println!("cargo::rerun-if-changed={}", file.display());
    let path = file.to_str().expect("a path that is text");
    format!("{ALLOW}\n#[path = {path:?}]\npub mod {name};\n")
}

/// The table's words as a Rust array.
fn cosine_table(here: &Path) -> String {
    let file = here.join("cosine_table.txt");
    println!("cargo::rerun-if-changed={}", file.display());
    let words = fs::read_to_string(&file).expect("cosine_table.txt stands beside build.rs");
    let mut text = String::from("[\n");
    for word in words.lines() {
        assert!(
            word.len() == 8 && u32::from_str_radix(word, 16).is_ok(),
            "not a word of the table: {word}"
        );
        writeln!(text, "f32::from_bits(0x{word}),").expect("text can be added to");
    }
    text + "]\n"
}

fn write(file: &Path, text: &str) {
    fs::write(file, text).unwrap_or_else(|error| panic!("{}: {error}", file.display()));
}
