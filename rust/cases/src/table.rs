//! A table: a line that names the columns, then rows, all split by tabs.

use std::fmt::Debug;
use std::path::Path;
use std::str::FromStr;

/// The columns' names and the rows below them.
#[derive(Debug)]
pub struct Table {
    columns: Vec<String>,
    rows: Vec<Vec<String>>,
}

/// One row, its cells asked for by their column's name.
#[derive(Clone, Copy, Debug)]
pub struct Row<'t> {
    columns: &'t [String],
    cells: &'t [String],
}

impl Table {
    /// The table of a file, or what is wrong with it.
    pub fn read(file: &Path) -> Result<Table, String> {
        let text = std::fs::read_to_string(file).map_err(|error| error.to_string())?;
        Table::parse(&text)
    }

    /// A table has a row at least, in each row a cell for every column, and a whole last line.
    pub fn parse(text: &str) -> Result<Table, String> {
        let text = text.strip_suffix('\n').ok_or("its last line has no end")?;
        let mut lines = text.split('\n').map(cells);
        let columns = lines.next().unwrap_or_default();
        let rows: Vec<_> = lines.collect();
        match rows.iter().position(|row| row.len() != columns.len()) {
            Some(at) => Err(format!("row {at} has not {} cells", columns.len())),
            None if rows.is_empty() => Err("it has no row".to_string()),
            None => Ok(Table { columns, rows }),
        }
    }

    pub fn rows(&self) -> impl Iterator<Item = Row<'_>> {
        let row = |cells| Row {
            columns: &self.columns,
            cells,
        };
        self.rows.iter().map(move |cells| row(cells))
    }
}

fn cells(line: &str) -> Vec<String> {
    line.split('\t').map(str::to_string).collect()
}

impl<'t> Row<'t> {
    /// A cell as it stands. Columns that nobody asks for are passed over.
    pub fn text(&self, column: &str) -> &'t str {
        let at = self.columns.iter().position(|name| name == column);
        let at = at.unwrap_or_else(|| panic!("no column {column:?} in {:?}", self.columns));
        &self.cells[at]
    }

    /// A cell that is a decimal number.
    pub fn number<N: FromStr<Err: Debug>>(&self, column: &str) -> N {
        let text = self.text(column);
        let number = text.parse();
        number.unwrap_or_else(|error| panic!("{column}: {text:?}: {error:?}"))
    }

    /// A cell of bytes, two hexadecimal digits each.
    pub fn bytes(&self, column: &str) -> Vec<u8> {
        let text = self.text(column);
        bytes(text).unwrap_or_else(|| panic!("{column}: {text:?} is not hexadecimal"))
    }
}

fn bytes(text: &str) -> Option<Vec<u8>> {
    let (pairs, rest) = text.as_bytes().as_chunks();
    let byte = |[high, low]: &[u8; 2]| Some(digit(*high)? << 4 | digit(*low)?);
    rest.is_empty().then(|| pairs.iter().map(byte).collect())?
}

fn digit(letter: u8) -> Option<u8> {
    char::from(letter).to_digit(16).map(|digit| digit as u8)
}

#[cfg(test)]
mod tests {
    use super::*;

    #[test]
    fn cells_are_found_by_their_column() {
        let table = Table::parse("store\tnew\twell formed\n00aF\t\t1\n\tx\t0\n").unwrap();
        let rows: Vec<Row> = table.rows().collect();
        assert_eq!(rows.len(), 2);
        assert_eq!(rows[0].bytes("store"), [0, 0xAF]);
        assert_eq!(rows[0].number::<u32>("well formed"), 1);
        assert_eq!((rows[0].text("new"), rows[1].text("new")), ("", "x"));
        assert_eq!(rows[1].bytes("store"), []);
    }

    #[test]
    fn a_table_that_is_cut_or_empty_is_refused() {
        for text in [
            "",
            "\n",
            "a\tb\n",
            "a\tb\n1\t2",
            "a\tb\n1\n",
            "a\n1\n\n2\t\n",
        ] {
            assert!(Table::parse(text).is_err(), "{text:?}");
        }
        assert!(Table::read(Path::new("no/such/file")).is_err());
    }

    #[test]
    fn what_is_no_byte_is_refused() {
        for text in ["0", "0x", "+1", "000", "é"] {
            assert_eq!(bytes(text), None, "{text:?}");
        }
    }

    #[test]
    #[should_panic(expected = "no column \"reply\"")]
    fn a_missing_column_is_said() {
        let table = Table::parse("store\n00\n").unwrap();
        table.rows().for_each(|row| drop(row.bytes("reply")));
    }
}
