//! Plays a script: one operation a line, one answer a line. README.md describes both.

use crate::bits::{
    Parts, fresh_output, hex32, hex64, read_count, read_f32, read_f64, read_samples, read_u32,
    write_samples,
};
use crate::error::Error;
use crate::fallback::costas::phase_step_f32;
use crate::fallback::mix::interp_f32_pair;
use crate::fallback::modulate::phase_step;
use crate::fields::state_line;
use crate::kernels::costas::{Costas, CostasConstellation, CostasState};
use crate::kernels::symbol_sync::{SymbolSync, SymbolSyncState, Ted};
use crate::num::{flush_denormal, flush_denormal_f64};
use crate::oscillator::TURN;
use crate::refusal;
use crate::types::C32;

/// What a script is played against: `Fallback` or `Reference`.
pub trait Kernel: SymbolSync<f32> + SymbolSync<C32> + Costas {}
impl<K: SymbolSync<f32> + SymbolSync<C32> + Costas> Kernel for K {}

/// An answer, or what is wrong with the script.
type Answer = Result<String, String>;

/// One state of each kind, once it is set up.
struct Player<K> {
    kernel: K,
    real: Option<SymbolSyncState<f32>>,
    complex: Option<SymbolSyncState<C32>>,
    carrier: Option<CostasState>,
}

/// Plays a whole script and adds its answers. Stops at the first line it cannot read.
pub fn play<K: Kernel>(kernel: K, script: &str, answers: &mut String) -> Result<(), String> {
    let mut player = Player {
        kernel,
        real: None,
        complex: None,
        carrier: None,
    };
    for (index, line) in script.lines().enumerate() {
        let words: Vec<&str> = line.split_whitespace().collect();
        if words.is_empty() || words[0].starts_with('#') {
            continue;
        }
        let answer = player
            .answer(&words)
            .map_err(|message| format!("line {}: {message}", index + 1))?;
        answers.push_str(&answer);
        answers.push('\n');
    }
    Ok(())
}

impl<K: Kernel> Player<K> {
    fn answer(&mut self, words: &[&str]) -> Answer {
        match words {
            ["real", rest @ ..] => timing(&self.kernel, &mut self.real, rest),
            ["complex", rest @ ..] => timing(&self.kernel, &mut self.complex, rest),
            ["carrier", rest @ ..] => carrier(&self.kernel, &mut self.carrier, rest),
            _ => number(words),
        }
    }
}

/// The operations of a timing loop, real or complex.
fn timing<T: Parts>(
    kernel: &impl SymbolSync<T>,
    slot: &mut Option<SymbolSyncState<T>>,
    words: &[&str],
) -> Answer {
    match words {
        ["new", sps, ted, bandwidth, damping, deviation, gain] => {
            let made = SymbolSyncState::new(
                read_f64(sps)?,
                read_ted(ted)?,
                read_f64(bandwidth)?,
                read_f64(damping)?,
                read_f64(deviation)?,
                read_f64(gain)?,
            );
            Ok(set_up(slot, made))
        }
        ["run", places, samples @ ..] => {
            let input: Vec<T> = read_samples(samples)?;
            let mut output: Vec<T> = fresh_output(read_count(places)?);
            let ran = kernel.symbol_sync(ready(slot)?, &input, &mut output);
            let answer = match ran {
                Ok(progress) => format!("ran {} {}", progress.consumed, progress.produced),
                Err(error) => refusal::answer(&error),
            };
            Ok(format!("{answer} :{}", write_samples(&output)))
        }
        ["reset"] => {
            ready(slot)?.reset();
            Ok("ok".to_string())
        }
        ["state"] => Ok(state_line(ready(slot)?)),
        _ => Err("no such timing operation".to_string()),
    }
}

/// The operations of a carrier loop.
fn carrier(kernel: &impl Costas, slot: &mut Option<CostasState>, words: &[&str]) -> Answer {
    match words {
        ["new", constellation, bandwidth, damping, offset] => {
            let made = CostasState::new(
                read_constellation(constellation)?,
                read_f64(bandwidth)?,
                read_f64(damping)?,
                read_f64(offset)?,
            );
            Ok(set_up(slot, made))
        }
        ["run", places, samples @ ..] => {
            let input: Vec<C32> = read_samples(samples)?;
            let mut output: Vec<C32> = fresh_output(read_count(places)?);
            let answer = match kernel.costas(ready(slot)?, &input, &mut output) {
                Ok(()) => "ran".to_string(),
                Err(error) => refusal::answer(&error),
            };
            Ok(format!("{answer} :{}", write_samples(&output)))
        }
        ["phase", phase] => {
            let phase = read_u32(phase)?;
            ready(slot)?.set_phase(phase);
            Ok("ok".to_string())
        }
        ["frequency", frequency] => {
            let frequency = read_f64(frequency)?;
            ready(slot)?.set_frequency(frequency);
            Ok("ok".to_string())
        }
        ["reset"] => {
            ready(slot)?.reset();
            Ok("ok".to_string())
        }
        ["state"] => Ok(state_line(ready(slot)?)),
        _ => Err("no such carrier operation".to_string()),
    }
}

/// A set-up's answer. A refused one leaves the slot as it was.
fn set_up<S>(slot: &mut Option<S>, made: Result<S, Error>) -> String {
    match made {
        Ok(state) => {
            *slot = Some(state);
            "ok".to_string()
        }
        Err(error) => refusal::answer(&error),
    }
}

fn ready<S>(slot: &mut Option<S>) -> Result<&mut S, String> {
    slot.as_mut().ok_or_else(|| "not set up yet".to_string())
}

/// The operations on numbers.
fn number(words: &[&str]) -> Answer {
    let answer = match words {
        ["floor", x] => hex64(libm::floor(read_f64(x)?)),
        ["narrow", x] => hex32(read_f64(x)? as f32),
        ["widen", x] => hex64(f64::from(read_f32(x)?)),
        ["flush32", x] => hex32(flush_denormal(read_f32(x)?)),
        ["flush64", x] => hex64(flush_denormal_f64(read_f64(x)?)),
        ["limit32", x, limit] => limit32(read_f32(x)?, read_f32(limit)?)?,
        ["limit64", x, limit] => limit64(read_f64(x)?, read_f64(limit)?)?,
        ["finite32", x] => u8::from(read_f32(x)?.is_finite()).to_string(),
        ["finite64", x] => u8::from(read_f64(x)?.is_finite()).to_string(),
        ["pair", phase] => match interp_f32_pair(read_u32(phase)?) {
            Some((cosine, sine)) => format!("{} {}", hex32(cosine), hex32(sine)),
            None => "error no entry".to_string(),
        },
        ["phase_step", x] => format!("{:08x}", phase_step_f32(read_f32(x)?)),
        ["phase_step64", x] => format!("{:08x}", phase_step(read_f64(x)?, TURN)),
        _ => return Err(format!("no such operation: {}", words.join(" "))),
    };
    Ok(answer)
}

/// Both forms in which the original limits an f32.
fn limit32(x: f32, limit: f32) -> Answer {
    if limit.is_nan() || limit < 0.0 {
        return Err("a limit is not negative and not NaN".to_string());
    }
    let once = x.clamp(-limit, limit);
    let twice = x.max(-limit).min(limit);
    Ok(format!("{} {}", hex32(once), hex32(twice)))
}

/// The form in which the original limits an f64.
fn limit64(x: f64, limit: f64) -> Answer {
    if limit.is_nan() || limit < 0.0 {
        return Err("a limit is not negative and not NaN".to_string());
    }
    Ok(hex64(x.max(-limit).min(limit)))
}

fn read_ted(word: &str) -> Result<Ted, String> {
    match word {
        "0" => Ok(Ted::Gardner),
        "1" => Ok(Ted::MuellerMuller),
        _ => Err("a detector is 0 or 1".to_string()),
    }
}

fn read_constellation(word: &str) -> Result<CostasConstellation, String> {
    match word {
        "0" => Ok(CostasConstellation::Bpsk),
        "1" => Ok(CostasConstellation::Qpsk),
        "2" => Ok(CostasConstellation::Psk8),
        _ => Err("a constellation is 0, 1 or 2".to_string()),
    }
}

#[cfg(test)]
mod tests;
