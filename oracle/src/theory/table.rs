//! Markdown tables.

/// A table with its first column to the left and the others to the right.
pub struct Table {
    text: String,
}

impl Table {
    /// A table with these columns and no row yet.
    pub fn new<S: AsRef<str>>(columns: &[S]) -> Self {
        let mut table = Self {
            text: String::new(),
        };
        table.row(columns);
        table.text += &format!("|---|{}\n", "---:|".repeat(columns.len() - 1));
        table
    }

    /// One row more.
    pub fn row<S: AsRef<str>>(&mut self, cells: &[S]) {
        for cell in cells {
            self.text += &format!("| {} ", cell.as_ref());
        }
        self.text += "|\n";
    }

    /// The whole table.
    pub fn text(self) -> String {
        self.text
    }
}

#[cfg(test)]
mod tests {
    use super::*;

    #[test]
    fn rows_stand_below_the_columns() {
        let mut table = Table::new(&["a", "b", "c"]);
        table.row(&["1".to_string(), "2".to_string(), "3".to_string()]);
        let text = "| a | b | c |\n|---|---:|---:|\n| 1 | 2 | 3 |\n";
        assert_eq!(table.text(), text);
    }
}
