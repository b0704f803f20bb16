//! What was counted, lane by lane, and the table of it.

use std::collections::BTreeMap;
use std::fmt::Write as _;

use super::lanes::{Kind, Lane};
use super::ops::{Op, Run};
use super::sheet::Sheet;
use crate::compare::tally::Likeness;

/// A column: its name, and what stands in it.
type Column = (&'static str, fn(&Counts) -> u64);

const COLUMNS: [Column; 12] = [
    ("sessions", |c| c.sessions),
    ("set-ups", |c| c.set_ups),
    ("refused", |c| c.refused_set_ups),
    ("setters", |c| c.setters),
    ("calls", |c| c.calls),
    ("refused", |c| c.refused_calls),
    ("symbols", |c| c.symbols),
    ("values", |c| c.values),
    ("not-finite", |c| c.not_finite),
    ("zero-sign", |c| c.zero_sign()),
    ("nan-pattern", |c| c.nan_pattern()),
    ("reference", |c| c.with_reference),
];

/// The paces that must be among the set-ups.
const PACES: [f64; 3] = [2.0, 48.0, 1_000_000.0];

/// The counts of one lane, or of all.
#[derive(Clone, Default)]
pub struct Counts {
    pub sessions: u64,
    set_ups: u64,
    refused_set_ups: u64,
    /// Resets, phases, frequencies and counts that were set.
    setters: u64,
    pub calls: u64,
    refused_calls: u64,
    pub symbols: u64,
    /// Values and places compared.
    pub values: u64,
    /// Parts of input samples that were infinite or NaN.
    not_finite: u64,
    /// Symbols that were compared with `Reference` too.
    with_reference: u64,
    /// Differences in a zero's sign alone, by place.
    zero_signs: BTreeMap<&'static str, u64>,
    /// Differences in a NaN's pattern alone, by place.
    nan_patterns: BTreeMap<&'static str, u64>,
    /// Refusals by number.
    numbers: BTreeMap<usize, u64>,
    /// Accepted set-ups with each of the paces that must be there.
    paces: [u64; PACES.len()],
    /// Calls after which something was so.
    left: BTreeMap<&'static str, u64>,
    /// Samples whose symbol numbers were compared, and those of them that read none.
    pub read: u64,
    pub none: u64,
    /// Records that were converted, and those of them that were too large.
    conversions: u64,
    too_large: u64,
}

impl Counts {
    fn zero_sign(&self) -> u64 {
        self.zero_signs.values().sum()
    }

    fn nan_pattern(&self) -> u64 {
        self.nan_patterns.values().sum()
    }

    /// Counts how two values at a place stand to each other; says whether they differ.
    pub fn differ(&mut self, place: &'static str, likeness: Likeness) -> bool {
        let apart = match likeness {
            Likeness::Same => return false,
            Likeness::Different => return true,
            Likeness::ZeroSign => &mut self.zero_signs,
            Likeness::NanPattern => &mut self.nan_patterns,
        };
        *apart.entry(place).or_default() += 1;
        false
    }

    /// Counts an operation, by what the original showed after it.
    pub fn operation(&mut self, kind: Kind, op: &Op, seen: &Sheet, with_reference: bool) {
        let number = seen.found("number").unwrap_or(0);
        if number != 0 {
            *self.numbers.entry(number).or_default() += 1;
        }
        match op {
            Op::SetUp(_) => {
                self.set_ups += 1;
                self.refused_set_ups += u64::from(number != 0);
                let sps = seen.float("sps").filter(|_| kind.has_timing());
                for (count, pace) in self.paces.iter_mut().zip(PACES) {
                    *count += u64::from(sps == Some(pace));
                }
            }
            Op::Run(run) => self.call(run, number, seen, with_reference),
            Op::Reset | Op::Phase(_) | Op::Frequency(_) | Op::Count(_) => self.setters += 1,
            // A loop by itself has no record to convert.
            Op::Convert => {
                self.conversions += u64::from(seen.found("narrowed").is_some());
                self.too_large += u64::from(seen.found("narrowed").unwrap_or(0) != 0);
            }
        }
    }

    fn call(&mut self, run: &Run, number: usize, seen: &Sheet, with_reference: bool) {
        let symbols = seen.found("produced").unwrap_or(0) as u64;
        self.calls += 1;
        self.refused_calls += u64::from(number != 0);
        self.symbols += symbols;
        if with_reference {
            self.with_reference += symbols;
        }
        let odd = run.input.iter().filter(|part| !part.is_finite());
        self.not_finite += odd.count() as u64;
        let at = |value: &str, limit: &str| {
            let limit = seen.float(limit).filter(|limit| *limit > 0.0);
            limit.is_some() && seen.float(value).map(f64::abs) == limit
        };
        for (what, so) in [
            ("lock", seen.code("locked") == Some(1)),
            ("a middle held", seen.code("mid_ready") == Some(1)),
            ("the integrator at its limit", at("integ", "lim")),
            ("the frequency at its limit", at("freq", "max")),
        ] {
            *self.left.entry(what).or_default() += u64::from(so);
        }
    }

    fn add(&mut self, other: &Self) {
        self.sessions += other.sessions;
        self.set_ups += other.set_ups;
        self.refused_set_ups += other.refused_set_ups;
        self.setters += other.setters;
        self.calls += other.calls;
        self.refused_calls += other.refused_calls;
        self.symbols += other.symbols;
        self.values += other.values;
        self.not_finite += other.not_finite;
        self.with_reference += other.with_reference;
        self.read += other.read;
        self.none += other.none;
        self.conversions += other.conversions;
        self.too_large += other.too_large;
        add_all(&mut self.zero_signs, &other.zero_signs);
        add_all(&mut self.nan_patterns, &other.nan_patterns);
        add_all(&mut self.numbers, &other.numbers);
        add_all(&mut self.left, &other.left);
        for (sum, count) in self.paces.iter_mut().zip(other.paces) {
            *sum += count;
        }
    }

    /// The sum of several.
    pub fn sum<'a>(parts: impl IntoIterator<Item = &'a Self>) -> Self {
        let mut sum = Self::default();
        for part in parts {
            sum.add(part);
        }
        sum
    }
}

fn add_all<K: Copy + Ord>(sum: &mut BTreeMap<K, u64>, other: &BTreeMap<K, u64>) {
    for (key, count) in other {
        *sum.entry(*key).or_default() += count;
    }
}

/// The table: a line for each lane, for each kind and for all; then what was counted by place, by
/// number and by pace.
pub fn table(rows: &[Counts]) -> String {
    let mut text = format!("{:32}", "");
    for (name, _) in COLUMNS {
        write!(text, " {name:>13}").expect("text can be added to");
    }
    text += "\n";
    let lanes = Lane::all();
    for lane in &lanes {
        line(&mut text, &lane.name(), &rows[lane.row]);
    }
    for kind in super::lanes::KINDS {
        let part = lanes.iter().filter(|lane| lane.kind == kind);
        let sum = Counts::sum(part.map(|lane| &rows[lane.row]));
        line(&mut text, &format!("{}, sum", kind.name()), &sum);
    }
    let all = Counts::sum(rows);
    line(&mut text, "all", &all);
    list(&mut text, "zero's sign alone, by place", &all.zero_signs);
    list(
        &mut text,
        "NaN's pattern alone, by place",
        &all.nan_patterns,
    );
    list(&mut text, "refusals, by number", &all.numbers);
    list(&mut text, "calls that leave", &all.left);
    for (pace, count) in PACES.into_iter().zip(all.paces) {
        writeln!(text, "accepted set-ups with sps {pace}: {count}").expect("text can be added to");
    }
    let (read, none) = (all.read, all.none);
    writeln!(text, "symbol numbers compared: {read}, {none} of them none")
        .expect("text can be added to");
    let (conversions, too_large) = (all.conversions, all.too_large);
    writeln!(
        text,
        "records converted: {conversions}, {too_large} of them too large"
    )
    .expect("text can be added to");
    text
}

fn line(text: &mut String, name: &str, counts: &Counts) {
    write!(text, "{name:32}").expect("text can be added to");
    for (_, count) in COLUMNS {
        write!(text, " {:>13}", count(counts)).expect("text can be added to");
    }
    *text += "\n";
}

fn list<K: std::fmt::Display>(text: &mut String, name: &str, counts: &BTreeMap<K, u64>) {
    let mut all: Vec<String> = counts
        .iter()
        .map(|(key, n)| format!("{key}: {n}"))
        .collect();
    if all.is_empty() {
        all.push("none".to_string());
    }
    writeln!(text, "{name}: {}", all.join(", ")).expect("text can be added to");
}
