//! The tables of a document.

use super::page::{Held, Page};

/// A row of a table.
#[derive(Debug)]
pub struct Row {
    /// The row's line, from 0.
    pub line: usize,
    pub cells: Vec<String>,
}

#[derive(Debug)]
pub struct Table {
    pub head: Row,
    pub rows: Vec<Row>,
}

impl Page {
    /// The first table of a section whose first head cell is `head`.
    pub fn table(&self, section: &str, head: &str) -> Result<Table, String> {
        let lines = self.section(section)?;
        let start = lines.start;
        let mut rows = lines.filter_map(|line| self.row(line));
        let Some(first) = rows.find(|row| row.cells[0] == head) else {
            let what = format!("no table that begins with `{head}` follows");
            return Err(self.fault(start, what));
        };
        let below = first.line + 1..self.lines.len();
        // The row after the head has dashes alone.
        let rows = below.map_while(|line| self.row(line)).skip(1).collect();
        Ok(Table { head: first, rows })
    }

    fn row(&self, line: usize) -> Option<Row> {
        let text = self.lines[line].strip_prefix('|')?.strip_suffix('|')?;
        let cells = text.split('|').map(|cell| cell.trim().to_string());
        Some(Row {
            line,
            cells: cells.collect(),
        })
    }

    /// Holds the row to these cells; those after them may be any.
    pub fn same_cells(&self, row: &Row, expected: &[String]) -> Held {
        match row.cells.starts_with(expected) {
            true => Ok(()),
            false => {
                let what = format!("the row should have | {} |", expected.join(" | "));
                Err(self.fault(row.line, what))
            }
        }
    }

    /// Holds the table to these rows, each as [`Page::same_cells`] does, and no more.
    pub fn same_rows(&self, table: &Table, expected: &[Vec<String>]) -> Held {
        for (row, cells) in table.rows.iter().zip(expected) {
            self.same_cells(row, cells)?;
        }
        if let Some(row) = table.rows.get(expected.len()) {
            return Err(self.fault(row.line, "the table should end before this row"));
        }
        match expected.get(table.rows.len()) {
            Some(missing) => {
                let last = table.rows.last().unwrap_or(&table.head);
                let what = format!("| {} | should follow", missing.join(" | "));
                Err(self.fault(last.line, what))
            }
            None => Ok(()),
        }
    }
}
