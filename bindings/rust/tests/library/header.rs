//! The C header compiles without a warning in each standard that it is for, and a dropped answer gives one.

use crate::compiled::{check, source};
use std::sync::LazyLock;

const STRICT: [&str; 4] = ["-Wall", "-Wextra", "-pedantic", "-Werror"];

/// The standards by the end of the file's name. A compiler may not know the newest yet.
const STANDARDS: [(&str, &str); 8] = [
    ("c", "-std=c99"),
    ("c", "-std=c11"),
    ("c", "-std=c17"),
    ("c", "-std=c23"),
    ("c", "-std=c2x"),
    ("cpp", "-std=c++11"),
    ("cpp", "-std=c++17"),
    ("cpp", "-std=c++20"),
];

/// The standards that the compilers here know.
static KNOWN: LazyLock<Vec<(&str, &str)>> = LazyLock::new(|| {
    let known: Vec<_> = STANDARDS
        .into_iter()
        .filter(|(end, standard)| {
            let empty = source(&format!("empty.{end}"), "int main(void) { return 0; }");
            check(&empty, &[standard]).status.success()
        })
        .collect();
    for needed in ["-std=c99", "-std=c11", "-std=c++11", "-std=c++17"] {
        assert!(known.iter().any(|(_, k)| *k == needed), "{needed}");
    }
    known
});

/// What the compiler says of a function body, or nothing if it accepts it.
fn said(name: &str, body: &str, end: &str, standard: &str) -> Option<String> {
    let text = format!(
        "#include \"train_receiver.h\"\n\
         trr_receiver work(trr_receiver r);\n\
         trr_receiver work(trr_receiver r) {{ {body} return r; }}\n"
    );
    let file = source(&format!("{name}{}.{end}", &standard[5..]), &text);
    let mut options = STRICT.to_vec();
    options.push(standard);
    let output = check(&file, &options);
    let said = String::from_utf8_lossy(&output.stderr).into_owned();
    (!output.status.success()).then_some(said)
}

#[test]
fn compiles() {
    for &(end, standard) in KNOWN.iter() {
        let said = said("used", "r = trr_receiver_reset(r);", end, standard);
        assert_eq!(said, None, "{standard}");
    }
}

#[test]
fn dropped_answers_are_warned_of() {
    let dropped = [
        "trr_receiver_reset(r);",
        "trr_receiver_set_phase(r, 1);",
        "float b[2]; trr_receiver_receive(&r, b, 0, b, 0, b, 0);",
        "trr_receiver_narrow(r);",
        "trr_receiver_widen(trr_receiver_narrow(r).receiver);",
        "trr_number_text(TRR_DONE);",
    ];
    for &(end, standard) in KNOWN.iter() {
        for (k, body) in dropped.into_iter().enumerate() {
            let said = said(&format!("dropped{k}"), body, end, standard);
            let said = said.unwrap_or_else(|| panic!("{standard}: {body} gives no warning"));
            let mark = said.contains("unused") || said.contains("nodiscard");
            assert!(mark, "{standard}: {said}");
        }
    }
}

/// Each function of the header has the mark: its declaration follows it.
#[test]
fn every_function_is_marked() {
    let header = include_str!("../../../c/train_receiver.h");
    let lines: Vec<&str> = header.lines().collect();
    let mut functions = 0;
    for pair in lines.windows(2) {
        let declares = pair[1].starts_with(|c: char| c.is_ascii_lowercase())
            && pair[1].contains(" trr_")
            && pair[1].contains('(');
        if declares {
            assert_eq!(pair[0], "TRR_MUST_USE", "{}", pair[1]);
            functions += 1;
        }
    }
    assert_eq!(functions, 23);
}
