//! The lines of recorded answers. README.md describes them.

use std::collections::HashSet;

use crate::bits::bits32;

/// The lines so far, none of them twice.
#[derive(Default)]
pub struct Lines {
    text: String,
    seen: HashSet<(char, u64, u64)>,
}

impl Lines {
    /// Adds a line, unless the same question was asked before.
    pub fn add(&mut self, letter: char, x: u64, y: u64, result: u64) {
        if self.seen.insert((letter, x, y)) {
            self.text += &format!("{letter} {x:016x} {y:016x} {result:016x}\n");
        }
    }

    /// All lines as one text.
    pub fn into_text(self) -> String {
        self.text
    }
}

/// An f32's bits in the low half of a wide word.
pub fn wide(x: f32) -> u64 {
    u64::from(bits32(x))
}

/// A line taken apart: letter, argument, second argument, result.
#[cfg(test)]
pub type Line = (char, u64, u64, u64);

#[cfg(test)]
pub fn fields(line: &str) -> Line {
    let word = |start: usize| u64::from_str_radix(&line[start..start + 16], 16).unwrap();
    (line.chars().next().unwrap(), word(2), word(19), word(36))
}

/// Each call, as the lines from its letter, one of these, up to the next call's.
#[cfg(test)]
pub fn calls<'a>(lines: &'a [Line], letters: &str) -> Vec<&'a [Line]> {
    let starts: Vec<usize> = (0..lines.len())
        .filter(|&at| letters.contains(lines[at].0))
        .collect();
    let ends = starts.iter().skip(1).copied().chain([lines.len()]);
    let both = starts.iter().zip(ends);
    both.map(|(&start, end)| &lines[start..end]).collect()
}

/// The lines of a call that have these letters.
#[cfg(test)]
pub fn among(call: &[Line], letters: &str) -> Vec<Line> {
    let some = call.iter().filter(|line| letters.contains(line.0));
    some.copied().collect()
}

/// The f32 whose bits are a word.
#[cfg(test)]
pub fn single(word: u64) -> f32 {
    f32::from_bits(u32::try_from(word).unwrap())
}

/// The lines have 53 bytes, and they are the same every time. Gives them.
#[cfg(test)]
pub fn check_width(make: fn() -> String) -> String {
    let text = make();
    assert!(text.lines().all(|line| line.len() == 52));
    assert_eq!(text.len(), 53 * text.lines().count());
    assert!(text == make(), "the text is another one the second time");
    text
}

/// The same, and no question comes twice.
#[cfg(test)]
pub fn check_form(make: fn() -> String) {
    let text = check_width(make);
    let questions: HashSet<&str> = text.lines().map(|line| &line[..35]).collect();
    assert_eq!(questions.len(), text.lines().count());
}
