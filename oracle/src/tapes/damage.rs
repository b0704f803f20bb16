//! Tapes that are cut or have other bytes than they should.

use crate::random::Random;

/// The most bytes that are changed, put in or left out at once.
const BYTES: usize = 8;

/// The tape cut behind each of its bytes, and before the first.
pub fn prefixes(tape: &[u8]) -> impl Iterator<Item = Vec<u8>> {
    (0..=tape.len()).map(|length| tape[..length].to_vec())
}

/// The tape with each value of the byte at a place.
pub fn values(tape: &[u8], place: usize) -> impl Iterator<Item = Vec<u8>> {
    (0..=u8::MAX).map(move |value| with(tape, place, value))
}

/// The tape with each of its bits turned over.
pub fn bits(tape: &[u8]) -> impl Iterator<Item = Vec<u8>> {
    let places = (0..tape.len()).flat_map(|place| (0..8).map(move |bit| (place, bit)));
    places.map(|(place, bit)| with(tape, place, tape[place] ^ (1 << bit)))
}

fn with(tape: &[u8], place: usize, value: u8) -> Vec<u8> {
    let mut tape = tape.to_vec();
    tape[place] = value;
    tape
}

/// The tape with some bits turned over, with bytes put in, or with bytes left out.
pub fn spoilt(random: &mut Random, tape: &[u8]) -> Vec<u8> {
    let mut tape = tape.to_vec();
    let place = random.up_to(tape.len());
    let count = random.pick(&[1, 1, 1, 2, 3, 4, BYTES]);
    match random.up_to(2) {
        0 if !tape.is_empty() => {
            for _ in 0..count {
                let place = random.up_to(tape.len() - 1);
                tape[place] ^= 1 << random.up_to(7);
            }
        }
        1 => {
            let end = tape.len().min(place + count);
            tape.drain(place..end);
        }
        _ => {
            let more: Vec<u8> = (0..count).map(|_| random.bits() as u8).collect();
            tape.splice(place..place, more);
        }
    }
    tape
}
