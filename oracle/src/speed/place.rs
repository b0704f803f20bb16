//! The tables' place in a file.

/// The lines that the tables stand between.
const BEGIN: &str = "<!-- speed: begin -->\n";
const END: &str = "<!-- speed: end -->\n";

/// A file's text up to the first of the two lines, and from the second on.
#[derive(Debug, PartialEq)]
pub struct Frame<'a> {
    before: &'a str,
    after: &'a str,
}

impl<'a> Frame<'a> {
    /// Each line must be there once, in this order.
    pub fn of(text: &'a str) -> Result<Self, String> {
        let (before, rest) = parted(text, BEGIN)?;
        let (_, after) = parted(rest, END)?;
        parted(text, END)?;
        Ok(Self { before, after })
    }

    /// The whole text, with this between the two lines.
    pub fn around(&self, between: &str) -> String {
        let Self { before, after } = self;
        format!("{before}{BEGIN}{between}{END}{after}")
    }
}

/// What stands before a line and what stands after it.
fn parted<'a>(text: &'a str, line: &str) -> Result<(&'a str, &'a str), String> {
    match text.split(line).collect::<Vec<_>>()[..] {
        [before, after] => Ok((before, after)),
        _ => Err(format!("not one line '{}'", line.trim_end())),
    }
}

#[cfg(test)]
mod tests {
    use super::*;

    #[test]
    fn the_tables_go_between_the_lines() {
        let old = format!("one\n{BEGIN}old\nold\n{END}two\n");
        let new = format!("one\n{BEGIN}new\n{END}two\n");
        let replaced = Frame::of(&old).map(|frame| frame.around("new\n"));
        assert_eq!(replaced, Ok(new));
    }

    #[test]
    fn a_line_that_is_not_there_once_is_refused() {
        for text in [
            "one\n".to_string(),
            format!("{BEGIN}old\n"),
            format!("old\n{END}"),
            format!("{END}old\n{BEGIN}"),
            format!("{BEGIN}{BEGIN}{END}"),
            format!("{BEGIN}{END}{END}"),
            format!("{END}{BEGIN}{END}"),
        ] {
            assert!(Frame::of(&text).is_err(), "{text}");
        }
    }
}
