//! The table text and its rows, written from notes 1 and 8 of the change requests
//! and the paper's sentences on lines, and nothing else.

use crate::lines::{fault_of, Fault, Reader, StuckLine};
use crate::netlist::Shown;
use crate::walsh::{bridged_row, Refusal};

/// An accepted table text.
#[derive(Clone, Debug, PartialEq, Eq)]
pub struct Table {
    pub inputs: usize,
    /// The doubled value of each row.
    pub rows: Vec<i32>,
    pub faults: Vec<Fault>,
    pub cap: usize,
}

/// "A free row counts one half", so the values of all marks are doubled.
fn doubled(mark: u8) -> Option<i32> {
    match mark {
        b'0' => Some(0),
        b'-' => Some(1),
        b'1' => Some(2),
        _ => None,
    }
}

/// Whether the first field of the text's first line is `table`.
pub fn is_table(text: &[u8]) -> bool {
    let mut parts = text.split(|&byte| byte == b'\n' || byte == b',');
    parts.next() == Some(b"table")
}

/// Reads a text: `table,N,Q,K`, one line of 2^N marks, and Q faults "that name
/// inputs only".
pub fn parse(text: &[u8]) -> Result<Table, Refusal> {
    let mut reader = Reader::new(text)?;
    let ranges = [1..=8, 1..=32, 1..=4];
    let [inputs, faults, cap] = reader.line()?.sizes("table", ranges)?;
    let marks = reader.bytes()?;
    // "A line of marks of another length gets 2", and 15 comes after 2.
    if marks.len() != 1 << inputs {
        return reader.refuse(2);
    }
    let Some(rows) = marks.iter().map(|&mark| doubled(mark)).collect() else {
        return reader.refuse(15);
    };
    Ok(Table {
        inputs,
        rows,
        faults: reader.faults(faults, inputs, inputs)?,
        cap,
    })
}

impl Table {
    /// The doubled row values, sound (fault 0) or under a fault (from 1); 12
    /// where there is no such fault.
    pub fn rows(&self, fault: u32) -> Result<Vec<i32>, Refusal> {
        let fault = fault_of(&self.faults, fault)?;
        Ok((0..self.rows.len())
            .map(|row| self.rows[shown(row, fault)])
            .collect())
    }

    /// The same as what the one output of a table, its mark, shows.
    pub fn shown(&self, fault: u32) -> Result<Vec<Shown>, Refusal> {
        let rows = self.rows(fault)?;
        Ok(rows.into_iter().map(|mark| mark as Shown).collect())
    }
}

/// The row whose mark a row takes under a fault.
fn shown(row: usize, fault: Option<&Fault>) -> usize {
    match fault {
        None => row,
        Some(Fault::Stuck(stuck)) => replaced(row, stuck),
        Some(&Fault::Bridge { first, second }) => bridged_row(row, first, second),
    }
}

/// "the row with its stuck inputs replaced".
fn replaced(row: usize, stuck: &[StuckLine]) -> usize {
    stuck.iter().fold(row, |row, input| {
        let bit = 1 << (input.line - 1);
        match input.value {
            true => row | bit,
            false => row & !bit,
        }
    })
}

#[cfg(test)]
mod tests {
    use super::*;
    use crate::bridge_texts::BRIDGED_TABLE;
    use crate::circuits::with_line;
    use crate::lines::TEXT_LIMIT;
    use crate::table_texts::{FIGURE, SILENT_INPUT, SMALL};
    use crate::walsh::{number_and_place, refuse};

    /// What the small table gives with its line `place` replaced.
    fn refused(place: usize, line: &str) -> (u32, usize) {
        number_and_place(&parse(&with_line(SMALL, place, line)))
    }

    #[test]
    fn marks_are_doubled_row_by_row() {
        let table = parse(FIGURE.as_bytes()).expect("the figure's table");
        let due = vec![0, 0, 0, 0, 0, 2, 0, 2, 2, 2, 2, 0, 0, 0, 1, 1];
        assert_eq!(table.rows(0), Ok(due));
        let table = parse(SMALL.as_bytes()).expect("a good table");
        assert_eq!((table.inputs, table.cap), (2, 1));
        assert_eq!(table.rows(0), Ok(vec![0, 2, 1, 2]));
    }

    #[test]
    fn rows_under_a_fault_by_hand() {
        let table = parse(SMALL.as_bytes()).expect("a good table");
        // Input 1 at 0 leaves rows 0 and 2, input 2 at 1 rows 2 and 3.
        assert_eq!(table.rows(1), Ok(vec![0, 0, 1, 1]));
        assert_eq!(table.rows(2), Ok(vec![1, 2, 1, 2]));
        for fault in [3, 33, u32::MAX] {
            assert_eq!(table.rows(fault), refuse(12, 0));
        }
        let text = "table,3,3,1\n01-10-10\nfault,1,0,3,1\nfault,1,1,2,0,3,1\nfault,3,0\n";
        let table = parse(text.as_bytes()).expect("a good table");
        assert_eq!(table.rows(0), Ok(vec![0, 2, 1, 2, 0, 1, 2, 0]));
        assert_eq!(table.rows(1), Ok(vec![0, 0, 2, 2, 0, 0, 2, 2]));
        assert_eq!(table.rows(2), Ok(vec![1; 8]));
        assert_eq!(table.rows(3), Ok(vec![0, 2, 1, 2, 0, 2, 1, 2]));
    }

    #[test]
    fn rows_under_a_bridge_by_hand() {
        let text = "table,3,4,1\n01-10-10\nbridge,1,2\nbridge,1,3\nfault,2,0\nbridge,2,3\n";
        let table = parse(text.as_bytes()).expect("a good table");
        assert_eq!(table.rows(0), Ok(vec![0, 2, 1, 2, 0, 1, 2, 0]));
        assert_eq!(table.rows(1), Ok(vec![0, 0, 0, 2, 0, 0, 0, 0]));
        assert_eq!(table.rows(2), Ok(vec![0, 0, 1, 1, 0, 1, 1, 0]));
        assert_eq!(table.rows(3), Ok(vec![0, 2, 0, 2, 0, 1, 0, 1]));
        assert_eq!(table.rows(4), Ok(vec![0, 2, 0, 2, 0, 2, 2, 0]));
        assert_eq!(table.rows(5), refuse(12, 0));
    }

    #[test]
    fn refusals_of_a_bridge() {
        assert!(parse(BRIDGED_TABLE.as_bytes()).is_ok());
        for (line, number) in [
            ("bridge,1,2", 0),
            ("bridge,1", 2),
            ("bridge,1,2,1", 2),
            ("bridge,3,1,", 2),
            ("bridge,57,02", 2),
            ("bridge,1,0", 3),
            ("bridge,57,1", 3),
            ("bridge,2,57", 3),
            ("bridge,1,3", 19),
            ("bridge,3,4", 19),
            ("bridge,3,1", 19),
            ("bridge,2,1", 19),
            ("bridge,2,2", 19),
            ("bridge,56,55", 19),
            ("fault,3,0", 5),
            ("fault,2,0,1,0", 6),
        ] {
            for place in [3, 4] {
                let due = (number, if number == 0 { 0 } else { place });
                assert_eq!(refused(place, line), due, "{line:?}");
            }
        }
        // One input has no bridge.
        for line in ["bridge,1,1", "bridge,1,2", "bridge,2,3"] {
            assert_eq!(
                parse(&with_line(SILENT_INPUT, 3, line)),
                refuse(19, 3),
                "{line}"
            );
        }
    }

    #[test]
    fn word_of_a_table() {
        for text in ["table", "table,", "table\n", "table,x\n", "table\n,", SMALL] {
            assert!(is_table(text.as_bytes()), "{text:?}");
        }
        for text in [
            "", "tabl", "tables", "Table,1", "\ntable", ",table", " table",
        ] {
            assert!(!is_table(text.as_bytes()), "{text:?}");
        }
    }

    #[test]
    fn refusals_of_the_text() {
        assert!(parse(SILENT_INPUT.as_bytes()).is_ok());
        for (place, line, number) in [
            (1, "table,2,2,4", 0),
            (1, "table,2,2", 2),
            (1, "table,2,2,1,1", 2),
            (1, "table,2,02,1", 2),
            (1, "table,9,33,x", 2),
            (1, "circuit,2,2,1", 2),
            (1, "table,0,2,1", 3),
            (1, "table,9,2,1", 3),
            (1, "table,2,0,1", 3),
            (1, "table,2,33,1", 3),
            (1, "table,2,2,0", 3),
            (1, "table,2,2,5", 3),
            (2, "----", 0),
            (2, "", 2),
            (2, "01x", 2),
            (2, "01-1x", 2),
            (2, "01-1\r", 2),
            (2, "01-x", 15),
            (2, "0,11", 15),
            (2, ",,,,", 15),
            (2, "01-\r", 15),
            (2, "01 1", 15),
            (3, "fault,1,1,2,1", 0),
            (3, "fault,1,0,2,1,3,0,4,0", 2),
            (3, "fault,3,2", 3),
            (3, "fault,57,0", 3),
            (3, "fault,3,0", 5),
            (3, "fault,56,0,1,0", 5),
            (4, "fault,2,0,1,0", 6),
            (4, "fault,2,0,2,1", 6),
        ] {
            let due = (number, if number == 0 { 0 } else { place });
            assert_eq!(refused(place, line), due, "{line:?}");
        }
        // Other sizes than the lines that follow.
        for (sizes, due) in [
            ("table,1,2,1", (2, 2)),
            ("table,3,2,1", (2, 2)),
            ("table,2,1,1", (7, 4)),
            ("table,2,3,1", (2, 5)),
        ] {
            assert_eq!(refused(1, sizes), due, "{sizes}");
        }
        let text = SMALL.as_bytes();
        assert_eq!(parse(&text[..text.len() - 1]), refuse(2, 4));
        assert_eq!(parse(&text[..text.len() - 11]), refuse(2, 3));
        assert_eq!(parse(b"table,2,2,1\n01-1"), refuse(2, 2));
        assert_eq!(parse(b"table,2,2,1\nx"), refuse(2, 2));
        assert_eq!(parse(b"table,2,2,1\n"), refuse(2, 2));
        let long = [text, &[b'0'; TEXT_LIMIT]].concat();
        assert_eq!(parse(&long[..TEXT_LIMIT]), refuse(7, 5));
        assert_eq!(parse(&long[..TEXT_LIMIT + 1]), refuse(1, 0));
    }
}
