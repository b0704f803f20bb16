//! A session as lines of text. README.md describes them.

use super::lanes::Kind;
use super::ops::{Op, Run, SetUp};
use super::records::{constellation, detector};
use super::sheet::Slate;

/// From so many equal words on, a word is written once, with a star and the count.
const REPEATED: usize = 8;
/// The most words of an answer that are written.
const WORDS: usize = 64;

/// One operation a line.
pub fn lines(kind: Kind, ops: &[Op]) -> String {
    let all = ops.iter().map(|op| line(kind, op) + "\n");
    all.collect()
}

fn line(kind: Kind, op: &Op) -> String {
    let name = kind.name();
    match op {
        Op::SetUp(set_up) => format!("{name} new {}", values(kind, set_up)),
        Op::Reset => format!("{name} reset"),
        Op::Phase(phase) => format!("{name} phase {phase:08x}"),
        Op::Frequency(frequency) => format!("{name} frequency {:016x}", frequency.to_bits()),
        Op::Count(count) => format!("{name} count {count}"),
        Op::Convert => format!("{name} convert"),
        Op::Run(run) => format!("{name} {}{}", lent(kind, run), words(&run.input)),
    }
}

/// The values of a set-up, as in scripts; a receiver's are timing's and then the carrier's.
fn values(kind: Kind, set_up: &SetUp) -> String {
    let SetUp { values, spare } = set_up;
    let hex = |x: f64| format!("{:016x}", x.to_bits());
    let mut words = Vec::new();
    if kind.has_timing() {
        let t = &values.timing;
        words.extend([hex(t.sps), detector(t.detector, *spare).to_string()]);
        words.extend([t.bandwidth, t.damping, t.deviation, t.gain].map(hex));
    }
    if kind.has_carrier() {
        let c = &values.carrier;
        words.push(match values.named {
            true => constellation(c.points, *spare).to_string(),
            false => "-".to_string(),
        });
        words.extend([c.bandwidth, c.damping, c.offset].map(hex));
    }
    words.join(" ")
}

/// `run` and the places in samples; or, if that does not say it all, `lend` and the f32 of strobe
/// buffer and output.
fn lent(kind: Kind, run: &Run) -> String {
    let Run {
        input,
        strobes,
        places,
    } = run;
    let whole = |count: usize| count.is_multiple_of(kind.parts());
    let even = kind != Kind::Receiver || strobes == places;
    if whole(input.len()) && whole(*places) && even {
        format!("run {}", places / kind.parts())
    } else {
        format!("lend {strobes} {places}")
    }
}

/// The bits of floats, each with a space before it.
fn words(floats: &[f32]) -> String {
    let same = floats.chunk_by(|a, b| a.to_bits() == b.to_bits());
    let all = same.map(|equal| {
        let word = format!(" {:08x}", equal[0].to_bits());
        if equal.len() < REPEATED {
            word.repeat(equal.len())
        } else {
            format!("{word}*{}", equal.len())
        }
    });
    all.collect()
}

/// What a side answered, in the form of a script's answers.
pub fn answer(op: &Op, slate: &Slate) -> String {
    let count = |name: &str| slate.sheet.found(name);
    let number = count("number").unwrap_or(0);
    let said = match (op, number) {
        (Op::Run(_), 0) => format!(
            "ran {} {}",
            count("consumed").unwrap_or(0),
            count("produced").unwrap_or(0)
        ),
        (_, 0) => "ok".to_string(),
        _ => format!("refused {number}"),
    };
    if !matches!(op, Op::Run(_)) {
        return said;
    }
    let mut said = format!("{said} :{}", some(&slate.output));
    if !slate.strobes.is_empty() {
        said += &format!(" ; strobes{}", some(&slate.strobes));
    }
    said
}

/// The first words of a buffer.
fn some(floats: &[f32]) -> String {
    if floats.len() <= WORDS {
        words(floats)
    } else {
        words(&floats[..WORDS]) + " ..."
    }
}
