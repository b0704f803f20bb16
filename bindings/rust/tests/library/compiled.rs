//! C and C++ compiled and run: with the compilers that `CC` and `CXX` name, or with `cc` and `c++`.

use std::env;
use std::fs;
use std::path::{Path, PathBuf};
use std::process::{Command, Output};

/// The folder of the C header.
pub fn header_folder() -> PathBuf {
    Path::new(env!("CARGO_MANIFEST_DIR")).join("../c")
}

/// The static library.
fn library() -> PathBuf {
    let given = env::var("TRAIN_RECEIVER_LIB").unwrap_or_else(|_| "../../target/staticlib".into());
    let here = Path::new(env!("CARGO_MANIFEST_DIR"));
    here.join(given).join("libtrain_receiver.a")
}

/// A place for a file of the tests.
fn place(name: &str) -> PathBuf {
    Path::new(env!("CARGO_TARGET_TMPDIR")).join(name)
}

/// Writes a source file for a test.
pub fn source(name: &str, text: &str) -> PathBuf {
    let path = place(name);
    fs::write(&path, format!("{}\n", text.trim())).expect("a file can be written");
    path
}

/// The compiler for the file, which is C++ if its name ends in `.cpp`.
fn compiler(file: &Path) -> Command {
    let (variable, usual) = match file.extension() {
        Some(end) if end == "cpp" => ("CXX", "c++"),
        _ => ("CC", "cc"),
    };
    Command::new(env::var(variable).unwrap_or_else(|_| usual.into()))
}

/// Compiles a file with the header's folder and these options, and throws away what comes of it.
pub fn check(file: &Path, options: &[&str]) -> Output {
    compiler(file)
        .args(options)
        .arg("-I")
        .arg(header_folder())
        .args(["-S", "-o", "/dev/null"])
        .arg(file)
        .output()
        .expect("a C and a C++ compiler are installed")
}

/// A program in C, compiled and linked with the static library.
pub struct Program {
    path: PathBuf,
}

impl Program {
    /// Compiles a file.
    pub fn of(file: &Path) -> Program {
        let path = place(file.file_stem().and_then(|s| s.to_str()).expect("a name"));
        let output = compiler(file)
            .args([
                "-std=c99",
                "-O2",
                "-Wall",
                "-Wextra",
                "-pedantic",
                "-Werror",
                "-I",
            ])
            .arg(header_folder())
            .arg(file)
            .arg(library())
            .arg("-o")
            .arg(&path)
            .output()
            .expect("a C compiler is installed");
        assert!(output.status.success(), "{output:?}");
        Program { path }
    }

    /// Compiles a text.
    pub fn of_text(name: &str, text: &str) -> Program {
        Program::of(&source(name, text))
    }

    /// Runs it and answers what it prints.
    pub fn printed(&self) -> String {
        let output = Command::new(&self.path).output().expect("it runs");
        assert!(output.status.success(), "{output:?}");
        String::from_utf8(output.stdout).expect("text")
    }
}
