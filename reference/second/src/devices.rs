//! What a text describes, circuit or table: the inputs, the outputs and the rows
//! by the number of a fault, and the cap. The circuit call stands here; plan and
//! report need no more of a text either.

use crate::lines::Fault;
use crate::netlist::{self, Netlist, Shown};
use crate::tables::{self, is_table, Table};
use crate::walsh::{self, Refusal};

/// An accepted text.
#[derive(Clone, Debug, PartialEq, Eq)]
pub enum Device {
    Circuit(Netlist),
    Table(Table),
}

/// Reads a text: as a table where its first word says so.
pub fn parse(text: &[u8]) -> Result<Device, Refusal> {
    match is_table(text) {
        true => tables::parse(text).map(Device::Table),
        false => netlist::parse(text).map(Device::Circuit),
    }
}

impl Device {
    pub fn inputs(&self) -> usize {
        match self {
            Device::Circuit(netlist) => netlist.inputs,
            Device::Table(table) => table.inputs,
        }
    }

    pub fn faults(&self) -> &[Fault] {
        match self {
            Device::Circuit(netlist) => &netlist.faults,
            Device::Table(table) => &table.faults,
        }
    }

    pub fn cap(&self) -> usize {
        match self {
            Device::Circuit(netlist) => netlist.cap,
            Device::Table(table) => table.cap,
        }
    }

    /// The row values, those of a table doubled, sound (fault 0) or under a
    /// fault (from 1); 12 where there is no such fault.
    pub fn rows(&self, fault: u32) -> Result<Vec<i32>, Refusal> {
        match self {
            Device::Circuit(netlist) => netlist.rows(fault),
            Device::Table(table) => table.rows(fault),
        }
    }

    /// What the outputs show on each row, that of a table, its mark, doubled; the
    /// same faults.
    pub fn shown(&self, fault: u32) -> Result<Vec<Shown>, Refusal> {
        match self {
            Device::Circuit(netlist) => netlist.shown(fault),
            Device::Table(table) => table.shown(fault),
        }
    }
}

/// The circuit call: the coefficients, sound or under a fault.
pub fn circuit(text: &[u8], fault: u32, room: usize) -> Result<Vec<i32>, Refusal> {
    let rows = parse(text)?.rows(fault)?;
    walsh::spectrum(&rows, room)
}

#[cfg(test)]
mod tests {
    use super::*;
    use crate::bridge_texts::{self, BRIDGED_TABLE, LISTING_WITH_A_BRIDGE, SILENT_BRIDGE};
    use crate::circuits::{
        Sizes, LISTING, SILENT_FAULT, STUCK_INNER_LINE, STUCK_INPUTS, TWO_OUTPUTS, TWO_STUCK_INPUTS,
    };
    use crate::lines::TEXT_LIMIT;
    use crate::random::Random;
    use crate::table_texts::{self, FIGURE, SMALL};
    use crate::walsh::refuse;

    fn spectrum_of(text: &str, fault: u32) -> Vec<i32> {
        circuit(text.as_bytes(), fault, 256)
            .unwrap_or_else(|refusal| panic!("{refusal:?}, fault {fault} of\n{text}"))
    }

    #[test]
    fn listing_of_the_paper() {
        assert_eq!(spectrum_of(LISTING, 0), [4, -2, 0, 2, -2, 0, -2, 0]);
        // Of fault 1 and 2 the report prints label 1: 0 and -4.
        assert_eq!(spectrum_of(LISTING, 1), [4, 0, 0, 0, -4, 0, 0, 0]);
        assert_eq!(spectrum_of(LISTING, 2), [4, -4, 0, 0, 0, 0, 0, 0]);
    }

    #[test]
    fn sums_of_the_stuck_circuits() {
        for (text, sums) in [
            (STUCK_INPUTS, &[5, 4, 6, 2, 8][..]),
            (TWO_STUCK_INPUTS, &[8, 8, 8, 4, 12]),
            (STUCK_INNER_LINE, &[8, 6, 11]),
        ] {
            for (fault, &sum) in (0..).zip(sums) {
                assert_eq!(spectrum_of(text, fault)[0], sum, "fault {fault} of\n{text}");
            }
        }
    }

    #[test]
    fn silent_fault_and_two_outputs() {
        assert_eq!(spectrum_of(SILENT_FAULT, 0), [2, -2, 0, 0]);
        assert_eq!(spectrum_of(SILENT_FAULT, 1), [2, -2, 0, 0]);
        assert_eq!(spectrum_of(TWO_OUTPUTS, 0), [4, -2, -2, 0]);
        assert_eq!(spectrum_of(TWO_OUTPUTS, 1), [4, 2, -2, 0]);
        assert_eq!(spectrum_of(TWO_OUTPUTS, 2), [4, -2, 2, 0]);
    }

    #[test]
    fn bridges_of_the_examples() {
        let due = [2, -2, 0, 0, -2, 2, 0, 0];
        assert_eq!(spectrum_of(LISTING_WITH_A_BRIDGE, 2), due);
        assert_eq!(spectrum_of(SILENT_BRIDGE, 0), spectrum_of(SILENT_BRIDGE, 1));
        // A table's are doubled.
        for (fault, sum) in [(0, 14), (1, 20), (2, 14), (3, 14)] {
            assert_eq!(spectrum_of(BRIDGED_TABLE, fault)[0], sum, "fault {fault}");
        }
    }

    #[test]
    fn bridges_from_coefficients_alone() {
        let mut random = Random::new(42);
        let mut seen = [0; 2];
        for round in 0..200 {
            let inputs = 2 + round % 6;
            let draft = match round % 2 {
                0 => {
                    let drawn = Sizes::draw(&mut random);
                    bridge_texts::draw_circuit(&mut random, Sizes { inputs, ..drawn })
                }
                _ => bridge_texts::draw_table(&mut random, inputs),
            };
            let text = draft.text();
            let device = parse(&text).expect("a good text");
            let sound = circuit(&text, 0, 256).expect("fault 0");
            for (fault, number) in device.faults().iter().zip(1..) {
                if let Some((first, second)) = fault.bridge() {
                    let room = random.room(sound.len());
                    let found = walsh::bridged(&sound, first as u32, second as u32, room);
                    assert_eq!(found, circuit(&text, number, room), "{draft:?}");
                    seen[usize::from(found.is_err())] += 1;
                }
            }
        }
        assert!(seen[0] > 500 && seen[1] > 100, "{seen:?}");
    }

    #[test]
    fn figure_of_free_rows() {
        let due = [12, -2, 0, -2, 0, 6, 4, -2, -4, -6, 0, 2, -8, 2, -4, 2];
        assert_eq!(spectrum_of(FIGURE, 0), due);
    }

    #[test]
    fn small_table() {
        assert_eq!(spectrum_of(SMALL, 0), [5, -3, -1, -1]);
        assert_eq!(spectrum_of(SMALL, 1), [2, 0, -2, 0]);
        assert_eq!(spectrum_of(SMALL, 2), [6, -2, 0, 0]);
    }

    /// "twice the ones of even parity plus the free rows of even parity, less
    /// the same of odd parity": c, a, f and e of equations 11 and 12.
    #[test]
    fn coefficients_by_counting_marks() {
        let mut random = Random::new(20);
        for round in 0..200 {
            let draft = table_texts::draw(&mut random, 1 + round % 8);
            let text = draft.text();
            let marks = draft.lines[1][0].as_bytes();
            let found = circuit(&text, 0, 256).expect("a good table");
            for (label, &coefficient) in found.iter().enumerate() {
                let count = |mark: u8, parity: u32| -> i32 {
                    let there = |&row: &usize| {
                        marks[row] == mark && (label & row).count_ones() % 2 == parity
                    };
                    (0..marks.len()).filter(there).count() as i32
                };
                let (c, a) = (count(b'1', 0), count(b'1', 1));
                let (f, e) = (count(b'-', 0), count(b'-', 1));
                assert_eq!(coefficient, 2 * (c - a) + f - e, "label {label}");
            }
        }
    }

    #[test]
    fn arguments_of_the_circuit_call() {
        for (text, length) in [(LISTING, 8), (SMALL, 4)] {
            let text = text.as_bytes();
            assert_eq!(circuit(text, 2, length - 1), refuse(8, 0));
            assert_eq!(circuit(text, 3, length - 1), refuse(12, 0));
            assert_eq!(circuit(text, u32::MAX, length), refuse(12, 0));
            assert_eq!(circuit(&text[1..], 3, length - 1), refuse(2, 1));
        }
    }

    #[test]
    fn long_tables() {
        let long = [SMALL.as_bytes(), &[b'-'; TEXT_LIMIT]].concat();
        assert_eq!(parse(&long[..TEXT_LIMIT]), refuse(7, 5));
        assert_eq!(parse(&long[..TEXT_LIMIT + 1]), refuse(1, 0));
    }

    #[test]
    fn neither_word_is_2_at_line_1() {
        for text in ["", "\n", "tables,1,1,1\n11\nfault,1,0\n", "Table,1,1,1\n"] {
            assert_eq!(parse(text.as_bytes()), refuse(2, 1), "{text:?}");
        }
    }
}
