//! The shapes of a symbol, with the symbol's period as the unit of time.

use std::f64::consts::{FRAC_PI_4, PI};

/// A pulse that decays is cut off so many symbols from its centre.
const FAR: usize = 32;
/// Nearer to a removable gap of a formula than this, the limit is taken.
const NEAR: f64 = 1e-6;

/// What one symbol of 1 makes of the signal. Its centre is at 0, where it is 1.
#[derive(Clone, Copy, Debug, PartialEq)]
pub enum Pulse {
    /// Held for its period: a square.
    Held,
    /// A straight line from symbol to symbol: a triangle. Held symbols behind their matched filter, a
    /// mean over one period, are this too.
    Straight,
    /// Half a cosine from symbol to symbol, as in the sample recording.
    Cosine,
    /// The raised-cosine spectrum with this roll-off: root-raised cosine behind its matched filter.
    RaisedCosine(f64),
}

/// The pulses of the tables.
pub const PULSES: [Pulse; 7] = [
    Pulse::Held,
    Pulse::Straight,
    Pulse::Cosine,
    Pulse::RaisedCosine(0.2),
    Pulse::RaisedCosine(0.35),
    Pulse::RaisedCosine(0.5),
    Pulse::RaisedCosine(1.0),
];

impl Pulse {
    /// As the tables name it.
    pub fn name(self) -> String {
        match self {
            Self::Held => "held symbols".to_string(),
            Self::Straight => "straight transitions".to_string(),
            Self::Cosine => "cosine transitions (the sample recording)".to_string(),
            Self::RaisedCosine(roll_off) => format!("raised cosine, roll-off {roll_off}"),
        }
    }

    /// The value at a time.
    pub fn at(self, t: f64) -> f64 {
        let away = t.abs();
        match self {
            Self::Held => f64::from(u8::from((-0.5..0.5).contains(&t))),
            Self::Straight => (1.0 - away).max(0.0),
            Self::Cosine => 0.5 + 0.5 * (PI * away.min(1.0)).cos(),
            Self::RaisedCosine(roll_off) => raised_cosine(roll_off, away),
        }
    }

    /// How many symbols on either side reach a time that lies within one symbol.
    pub fn reach(self) -> usize {
        match self {
            Self::RaisedCosine(_) => FAR,
            _ => 2,
        }
    }

    /// The slope of Gardner's detector for real symbols of 1 and -1, by its formula. None where the mean
    /// error jumps.
    pub fn gardner(self) -> Option<f64> {
        match self {
            Self::Held => None,
            Self::Straight => Some(1.5),
            Self::Cosine => Some(PI),
            Self::RaisedCosine(a) => Some(2.0 * (PI * a / 2.0).sin() / (1.0 - a * a / 4.0)),
        }
    }

    /// The same for Mueller-Müller: twice the pulse's fall at the next symbol's instant.
    pub fn mueller_muller(self) -> f64 {
        match self {
            Self::Held | Self::Cosine => 0.0,
            Self::Straight => 1.0,
            Self::RaisedCosine(a) => 2.0 * tilt(a, 1.0),
        }
    }
}

/// sin(πt) / (πt) × cos(πat) / (1 - (2at)²).
fn raised_cosine(roll_off: f64, t: f64) -> f64 {
    let wave = if t < NEAR {
        1.0
    } else {
        (PI * t).sin() / (PI * t)
    };
    wave * tilt(roll_off, t)
}

/// The second factor of the raised cosine; at the instant 1 it is the pulse's fall there.
fn tilt(roll_off: f64, t: f64) -> f64 {
    let below = 1.0 - (2.0 * roll_off * t).powi(2);
    if below.abs() < NEAR {
        FRAC_PI_4
    } else {
        (PI * roll_off * t).cos() / below
    }
}

/// The root-raised-cosine pulse, which a matched filter has. Its size is left open.
pub fn root_raised_cosine(roll_off: f64, t: f64) -> f64 {
    let (a, t) = (roll_off, t.abs());
    let near_zero = t < NEAR;
    let below = 1.0 - (4.0 * a * t).powi(2);
    if near_zero {
        1.0 - a + 4.0 * a / PI
    } else if below.abs() < NEAR {
        let (sine, cosine) = (PI / (4.0 * a)).sin_cos();
        a / 2f64.sqrt() * ((1.0 + 2.0 / PI) * sine + (1.0 - 2.0 / PI) * cosine)
    } else {
        let above = (PI * t * (1.0 - a)).sin() + 4.0 * a * t * (PI * t * (1.0 + a)).cos();
        above / (PI * t * below)
    }
}

#[cfg(test)]
mod tests {
    use super::*;

    #[test]
    fn each_pulse_is_1_at_its_centre_and_0_at_the_other_instants() {
        for pulse in PULSES {
            assert!((pulse.at(0.0) - 1.0).abs() < 1e-12, "{pulse:?}");
            for instant in 1..20 {
                assert!(pulse.at(f64::from(instant)).abs() < 1e-12, "{pulse:?}");
                assert!(pulse.at(-f64::from(instant)).abs() < 1e-12, "{pulse:?}");
            }
        }
    }

    #[test]
    fn the_limits_fit_their_surroundings() {
        for roll_off in [0.2, 0.25, 0.35, 0.5, 1.0] {
            for gap in [0.0, 0.25 / roll_off, 0.5 / roll_off] {
                let beside = gap + 1e-4;
                let pulse = Pulse::RaisedCosine(roll_off);
                assert!((pulse.at(gap) - pulse.at(beside)).abs() < 1e-3);
                let root = |t| root_raised_cosine(roll_off, t);
                assert!((root(gap) - root(beside)).abs() < 1e-3);
            }
        }
    }

    /// A matched pair is a raised cosine.
    #[test]
    fn the_root_pulse_with_itself_gives_the_pulse() {
        const STEPS: i32 = 4;
        let root = |n: i32| root_raised_cosine(0.35, f64::from(n) / f64::from(STEPS));
        let with_itself = |shift: i32| -> f64 {
            let both = (-200..=200).map(|n| root(n) * root(n + shift));
            both.sum::<f64>() / f64::from(STEPS)
        };
        for shift in 0..12 {
            let whole = Pulse::RaisedCosine(0.35).at(f64::from(shift) / f64::from(STEPS));
            assert!((with_itself(shift) - whole).abs() < 1e-3, "{shift}");
        }
    }
}
