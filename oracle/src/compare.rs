//! Compares the original's two implementations with each other on random sessions, and checks on the way
//! what must hold of every state and answer (A10, A11, T22, T23, C22 of docs/SPECIFICATION.md).

pub mod carrier;
pub mod tally;
pub mod timing;

use std::fmt::Write as _;

use crate::kernels::costas::CostasConstellation;
use crate::kernels::symbol_sync::Ted;
use crate::random::Random;
use crate::types::C32;
use tally::Tally;

/// The seed if none is given.
pub const SEED: u64 = 1;
/// The symbols of timing, and as many again of the carrier, if no count is given.
pub const SYMBOLS: u64 = 2_000_000;
/// No position between calls may be above this (T23).
const HIGHEST_POSITION: usize = 1_312_501;

/// What came out.
pub struct Report {
    /// The counts, as lines.
    pub text: String,
    /// No difference, no broken promise.
    pub clean: bool,
}

/// Runs sessions of every kind until each has its share of the symbols.
pub fn compare(seed: u64, symbols: u64) -> Report {
    let mut random = Random::new(seed);
    let (part, third) = (symbols.div_ceil(4), symbols.div_ceil(3));
    let (g, m) = (Ted::Gardner, Ted::MuellerMuller);
    let timing = [
        timing::sessions::<f32>(&mut random, "timing real Gardner", g, part),
        timing::sessions::<f32>(&mut random, "timing real Mueller-Mueller", m, part),
        timing::sessions::<C32>(&mut random, "timing complex Gardner", g, part),
        timing::sessions::<C32>(&mut random, "timing complex Mueller-Mueller", m, part),
    ];
    let carrier = [
        ("carrier BPSK", CostasConstellation::Bpsk),
        ("carrier QPSK", CostasConstellation::Qpsk),
        ("carrier 8-PSK", CostasConstellation::Psk8),
    ]
    .map(|(name, points)| carrier::sessions(&mut random, name, points, third));
    report(seed, &timing, &carrier)
}

fn report(seed: u64, timing: &[Tally], carrier: &[Tally]) -> Report {
    let timing_sum = Tally::sum("timing, sum", timing);
    let carrier_sum = Tally::sum("carrier, sum", carrier);
    let all = [timing, &[timing_sum], carrier, &[carrier_sum]].concat();
    let mut text = format!("seed {seed}\n");
    for tally in &all {
        text += &tally.lines();
    }
    let total = Tally::sum("all", &[timing, carrier].concat());
    writeln!(
        text,
        "largest position between calls {} (at most {HIGHEST_POSITION}), \
         largest magnitude of a level {}",
        total.largest_position, total.largest_level
    )
    .expect("text can be added to");
    let clean = total.clean();
    text += if clean {
        "no difference\n"
    } else {
        "DIFFERENCES\n"
    };
    Report { text, clean }
}

#[cfg(test)]
mod tests {
    use super::*;

    #[test]
    fn a_short_comparison_is_clean_and_repeats() {
        let first = compare(7, 3_000);
        assert!(first.clean, "{}", first.text);
        assert_eq!(first.text, compare(7, 3_000).text);
    }
}
