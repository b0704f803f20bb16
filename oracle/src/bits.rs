//! Bit patterns as text, and samples as the words of their parts.

use std::iter::repeat_n;

use crate::types::{C32, Sample};

/// How every f32 NaN is written: the compiled code may make any pattern.
pub const NAN32: u32 = 0x7fc0_0000;
/// How every f64 NaN is written.
pub const NAN64: u64 = 0x7ff8_0000_0000_0000;

/// What output buffers hold before a run. It is a finite number, so that it is written as it
/// is, and one that no ordinary signal makes.
pub const SENTINEL: f32 = f32::from_bits(0xdead_beef);

/// The bits of `x`, every NaN alike.
pub fn bits32(x: f32) -> u32 {
    if x.is_nan() { NAN32 } else { x.to_bits() }
}

/// The bits of `x`, every NaN alike.
pub fn bits64(x: f64) -> u64 {
    if x.is_nan() { NAN64 } else { x.to_bits() }
}

/// Eight hexadecimal digits.
pub fn hex32(x: f32) -> String {
    format!("{:08x}", bits32(x))
}

/// Sixteen hexadecimal digits.
pub fn hex64(x: f64) -> String {
    format!("{:016x}", bits64(x))
}

/// A word of exactly so many hexadecimal digits.
fn word(text: &str, digits: usize) -> Result<u64, String> {
    let fits = text.len() == digits && text.bytes().all(|b| b.is_ascii_hexdigit());
    if !fits {
        return Err(format!("'{text}' is not {digits} hexadecimal digits"));
    }
    u64::from_str_radix(text, 16).map_err(|error| format!("'{text}': {error}"))
}

/// Eight hexadecimal digits as a number of 32 bits.
pub fn read_u32(text: &str) -> Result<u32, String> {
    Ok(word(text, 8)? as u32)
}

/// Eight hexadecimal digits as an f32.
pub fn read_f32(text: &str) -> Result<f32, String> {
    Ok(f32::from_bits(read_u32(text)?))
}

/// Sixteen hexadecimal digits as an f64.
pub fn read_f64(text: &str) -> Result<f64, String> {
    Ok(f64::from_bits(word(text, 16)?))
}

/// A decimal count.
pub fn read_count(text: &str) -> Result<usize, String> {
    text.parse()
        .map_err(|_| format!("'{text}' is not a decimal count"))
}

/// A sample as its parts, real part first.
pub trait Parts: Sample {
    /// The parts of one sample.
    const COUNT: usize;
    /// The sample of a complex value; a real sample takes its real part.
    fn of_pair(re: f32, im: f32) -> Self;
    /// The part at a place from 0 to `COUNT` - 1.
    fn part(self, place: usize) -> f32;
    /// All parts in order.
    fn parts(self) -> impl Iterator<Item = f32> {
        (0..Self::COUNT).map(move |place| self.part(place))
    }
}

impl Parts for f32 {
    const COUNT: usize = 1;

    fn of_pair(re: f32, _im: f32) -> Self {
        re
    }

    fn part(self, _place: usize) -> f32 {
        self
    }
}

impl Parts for C32 {
    const COUNT: usize = 2;

    fn of_pair(re: f32, im: f32) -> Self {
        C32::new(re, im)
    }

    fn part(self, place: usize) -> f32 {
        if place == 0 { self.re } else { self.im }
    }
}

/// Words of parts as samples. A star and a count behind a word say how often it comes.
pub fn read_samples<T: Parts>(words: &[&str]) -> Result<Vec<T>, String> {
    let mut parts = Vec::with_capacity(words.len());
    for word in words {
        let (part, count) = word.split_once('*').unwrap_or((word, "1"));
        parts.extend(repeat_n(read_f32(part)?, read_count(count)?));
    }
    if !parts.len().is_multiple_of(T::COUNT) {
        return Err("a complex sample is two words".to_string());
    }
    let samples = parts.chunks(T::COUNT);
    let sample = |parts: &[f32]| T::of_pair(parts[0], parts[T::COUNT - 1]);
    Ok(samples.map(sample).collect())
}

/// Samples as words of parts, each with a space before it.
pub fn write_samples<T: Parts>(samples: &[T]) -> String {
    samples
        .iter()
        .flat_map(|sample| sample.parts())
        .map(|part| format!(" {}", hex32(part)))
        .collect()
}

/// An output buffer as it is before a run.
pub fn fresh_output<T: Parts>(places: usize) -> Vec<T> {
    vec![T::of_pair(SENTINEL, SENTINEL); places]
}
