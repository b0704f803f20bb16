//! The processor that the tables are of.

use std::fs;

/// Where Linux tells of the processor.
const TOLD: &str = "/proc/cpuinfo";
/// The field that names it.
const FIELD: &str = "model name";

/// The processor's name, if the machine tells it.
pub fn processor() -> Option<String> {
    let text = fs::read_to_string(TOLD).ok()?;
    named(&text).map(str::to_string)
}

/// The first name that stands in such a text.
fn named(text: &str) -> Option<&str> {
    let mut lines = text.lines().filter_map(|line| line.split_once(':'));
    let (_, name) = lines.find(|(field, _)| field.trim() == FIELD)?;
    Some(name.trim())
}

#[cfg(test)]
mod tests {
    use super::*;

    #[test]
    fn the_first_name_counts() {
        let text = "processor\t: 0\nmodel\t\t: 85\nmodel name\t: One @ 2 GHz\nmodel name\t: Two\n";
        assert_eq!(named(text), Some("One @ 2 GHz"));
    }

    #[test]
    fn there_may_be_no_name() {
        assert_eq!(named("processor\t: 0\nmodel name\n"), None);
    }
}
