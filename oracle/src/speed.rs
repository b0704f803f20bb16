//! The speed of the ported loops beside the original's: the same calls to both in one process, in turns,
//! and all that comes out compared bit for bit. README.md describes it.

mod carrier;
mod cell;
mod drive;
mod machine;
mod place;
mod receiver;
mod signals;
mod table;
mod timing;

use std::fmt::Display;
use std::fs;
use std::path::Path;

use crate::compare::Report;
use place::Frame;
use table::Tables;

/// The samples of a recording: a run takes some milliseconds.
const SAMPLES: usize = 262_144;
/// Each implementation runs so often; its fastest run counts.
const RUNS: usize = 40;

/// Decimals of a time that a reader can use.
pub const PLAIN: usize = 1;
/// Decimals where two tables are to be compared.
pub const FINE: usize = 3;

/// The tables that the command writes.
pub fn speed(decimals: usize) -> Report {
    measured(SAMPLES, RUNS).report(decimals)
}

/// The same, and the tables go into a file too, between two lines that it has.
pub fn speed_into(file: &Path) -> Result<Report, String> {
    let named = |error: &dyn Display| format!("{}: {error}", file.display());
    let text = fs::read_to_string(file).map_err(|error| named(&error))?;
    let frame = Frame::of(&text).map_err(|error| named(&error))?;
    let tables = measured(SAMPLES, RUNS);
    if tables.same() {
        fs::write(file, frame.around(&tables.text(PLAIN))).map_err(|error| named(&error))?;
    }
    Ok(tables.report(PLAIN))
}

/// Times the receiver, both timing loops and the carrier.
fn measured(samples: usize, runs: usize) -> Tables {
    let mut tables = Tables::new(samples, runs);
    receiver::rows(&mut tables);
    timing::rows(&mut tables);
    carrier::rows(&mut tables);
    receiver::calls(&mut tables);
    timing::calls(&mut tables);
    carrier::calls(&mut tables);
    tables.measure();
    tables
}

#[cfg(test)]
mod tests {
    use super::*;

    /// The widest line of the text between the tables.
    const WIDTH: usize = 120;
    /// Cells of a row: the first table's, the second's, the list's; and how many rows each has.
    const ROWS: [(usize, usize); 3] = [(10, 15), (3, 4), (5, 6)];

    #[test]
    fn short_recordings_give_the_same() {
        let report = measured(1_000, 1).report(PLAIN);
        assert!(report.clean, "{}", report.text);
    }

    #[test]
    fn each_table_has_its_cells() {
        let text = measured(100, 1).text(FINE);
        let (table, plain): (Vec<&str>, Vec<&str>) =
            text.lines().partition(|line| line.starts_with('|'));
        for (cells, rows) in ROWS {
            let wide = |line: &&&str| line.matches('|').count() == cells + 1;
            let heads = 2;
            assert_eq!(table.iter().filter(wide).count(), heads + rows, "{text}");
        }
        assert!(plain.iter().all(|line| line.len() <= WIDTH), "{text}");
    }
}
