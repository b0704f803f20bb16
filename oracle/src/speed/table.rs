//! The tables. The first has a row for each loop and signal, and three columns for each length of the
//! blocks; the second has a row for each loop's empty calls.

use super::cell::{Cell, Run};
use super::drive::EMPTY_CALLS;
use super::signals::{Source, list};
use super::{carrier, machine, timing};
use crate::compare::Report;

/// The lengths of the blocks that a recording is handed in, and how they are written.
const BLOCKS: [(usize, &str); 3] = [(64, "64"), (2_048, "2,048"), (65_536, "65,536")];

/// What the columns of the second table are.
const CALL_COLUMNS: &str = "\
| ns for each empty call | original | ported |
|---|---:|---:|
";

/// What the list of the signals does not say itself.
const SIGNALS: &str = "\
The signals of the rows: points that stand evenly on a circle of radius 1 follow each other at random. The
signal goes smoothly from one to the next, but where a point is held. The noise is the standard deviation in
each part. The carrier begins at so many turns and grows by so many with each symbol; for the carrier alone a
symbol is a sample.
";

/// All rows of both tables.
pub struct Tables {
    pub samples: usize,
    runs: usize,
    rows: Vec<Row>,
    calls: Vec<Call>,
}

/// A loop on a signal, with a cell for each length of the blocks.
struct Row {
    name: String,
    source: Source,
    cells: [Cell; 3],
}

/// A loop's empty calls.
struct Call {
    name: String,
    cell: Cell,
}

impl Tables {
    /// No rows yet.
    pub fn new(samples: usize, runs: usize) -> Self {
        Self {
            samples,
            runs,
            rows: Vec::new(),
            calls: Vec::new(),
        }
    }

    /// Adds a row to the first table. `run` is given the length of the blocks.
    pub fn row(&mut self, name: String, source: Source, run: impl Fn(usize) -> Run) {
        let cells = BLOCKS.map(|(block, _)| Cell::new(run(block)));
        self.rows.push(Row {
            name,
            source,
            cells,
        });
    }

    /// Adds a row to the second table.
    pub fn call(&mut self, name: String, run: Run) {
        let cell = Cell::new(run);
        self.calls.push(Call { name, cell });
    }

    /// Makes all runs. Those of one cell lie far apart, so that no busy while of the machine meets all
    /// of them.
    pub fn measure(&mut self) {
        for _ in 0..self.runs {
            let cells = self.rows.iter_mut().flat_map(|row| &mut row.cells);
            let calls = self.calls.iter_mut().map(|call| &mut call.cell);
            for cell in cells.chain(calls) {
                cell.round();
            }
        }
    }

    /// Whether both came out the same in every run.
    pub fn same(&self) -> bool {
        let cells = self.rows.iter().flat_map(|row| &row.cells);
        let calls = self.calls.iter().map(|call| &call.cell);
        cells.chain(calls).all(Cell::same)
    }

    /// Both tables, what they are of, and the signals, in Markdown.
    pub fn text(&self, decimals: usize) -> String {
        let sources: Vec<Source> = self.rows.iter().map(|row| row.source).collect();
        [
            self.measured(),
            self.symbols(decimals),
            self.empty_calls(decimals),
            SIGNALS.to_string(),
            list(&sources),
            set_ups(),
        ]
        .join("\n")
    }

    /// The machine and the counts.
    fn measured(&self) -> String {
        let place = match machine::processor() {
            Some(name) => format!("Measured on {name}.\n"),
            None => String::new(),
        };
        let Self { samples, runs, .. } = self;
        format!(
            "{place}Recordings of {samples} samples; each time is the fastest of {runs} runs.\n"
        )
    }

    /// The first table.
    fn symbols(&self, decimals: usize) -> String {
        let mut text = String::from("| ns for each symbol |");
        for (_, block) in BLOCKS {
            text += &format!(" original, {block} | ported, {block} | ratio, {block} |");
        }
        text += &format!("\n|---|{}\n", "---:|".repeat(3 * BLOCKS.len()));
        for row in &self.rows {
            let columns = row.cells.iter().map(|cell| cell.columns(decimals));
            text += &format!("| {} |{}\n", row.name, columns.collect::<String>());
        }
        text
    }

    /// The second table.
    fn empty_calls(&self, decimals: usize) -> String {
        let rows = self.calls.iter().map(|call| {
            let times = call.cell.times(decimals);
            format!("| {} |{times}\n", call.name)
        });
        let rows: String = rows.collect();
        format!(
            "An empty call is lent no samples and no places. A run makes {EMPTY_CALLS} of them.\n\n\
             {CALL_COLUMNS}{rows}"
        )
    }

    /// The tables, and whether they are of the same results.
    pub fn report(&self, decimals: usize) -> Report {
        let clean = self.same();
        let end = if clean {
            "the same counts, outputs and states"
        } else {
            "DIFFERENT counts, outputs or states"
        };
        let text = format!("{}\n{end}\n", self.text(decimals));
        Report { text, clean }
    }
}

/// What the loops are set up with.
fn set_ups() -> String {
    let (timing, carrier) = (timing::told(), carrier::told());
    format!("The loops are set up with:\n\n- timing: {timing}\n- carrier: {carrier}\n")
}
