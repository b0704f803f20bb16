//! Links the static library, which `make library` writes.

use std::env;
use std::path::PathBuf;

/// The library's folder if `TRAIN_RECEIVER_LIB` is not set, seen from this one.
const DEFAULT_FOLDER: &str = "../../target/staticlib";

const LIBRARY: &str = "libtrain_receiver.a";

fn main() {
    let here = PathBuf::from(env::var("CARGO_MANIFEST_DIR").expect("cargo names this folder"));
    println!("cargo::rerun-if-changed=build.rs");
    println!("cargo::rerun-if-env-changed=TRAIN_RECEIVER_LIB");
    let given = env::var("TRAIN_RECEIVER_LIB").unwrap_or_else(|_| DEFAULT_FOLDER.to_string());
    let folder = here.join(given);
    let library = folder.join(LIBRARY);
    println!("cargo::rerun-if-changed={}", library.display());
    if !library.is_file() {
        println!(
            "cargo::error=there is no {LIBRARY} in {}: `make library`, run at the \
             repository's top, writes it to target/staticlib; TRAIN_RECEIVER_LIB names another folder",
            folder.display()
        );
    }
    println!("cargo::rustc-link-search=native={}", folder.display());
    println!("cargo::rustc-link-lib=static=train_receiver");
}
