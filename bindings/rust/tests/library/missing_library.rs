//! Where the library is missing, the build says which command makes it.

use std::fs;
use std::path::Path;
use std::process::Command;

#[test]
fn the_build_says_what_to_do() {
    let empty = Path::new(env!("CARGO_TARGET_TMPDIR")).join("no_library");
    fs::create_dir_all(&empty).expect("a folder can be made");
    let output = Command::new(env!("CARGO"))
        .args(["check", "--offline", "--manifest-path"])
        .arg(Path::new(env!("CARGO_MANIFEST_DIR")).join("Cargo.toml"))
        .env("TRAIN_RECEIVER_LIB", &empty)
        .env("CARGO_TARGET_DIR", empty.join("target"))
        .output()
        .expect("cargo runs");
    let said = String::from_utf8_lossy(&output.stderr);
    assert!(!output.status.success(), "{said}");
    assert!(
        said.contains("there is no libtrain_receiver.a in"),
        "{said}"
    );
    assert!(said.contains("make library"), "{said}");
}
