//! The paper's examples: first those that are left to a program, then those
//! that the proofs have too.

use super::texts::padded;
use super::Case;
use crate::circuits::{
    with_line, LISTING, SILENT_FAULT, STUCK_INNER_LINE, STUCK_INPUTS, TWO_OUTPUTS, TWO_STUCK_INPUTS,
};
use crate::lines::TEXT_LIMIT;
use crate::plan::WORKING_NUMBERS;
use crate::report::REPORT_ROOM;
use crate::walsh::{self, rows_of};

pub fn cases() -> Vec<Case> {
    let mut cases = unproved();
    cases.extend(of_lists());
    cases.extend(of_circuits());
    cases
}

/// Every call on the text, sound and under its first fault.
pub fn every_call(text: &[u8], room: usize) -> Vec<Case> {
    vec![
        Case::circuit(text, 0, room),
        Case::plan(text, WORKING_NUMBERS),
        Case::report(text, REPORT_ROOM, WORKING_NUMBERS),
        Case::reading(text, 0, 0),
        Case::pair(text, 1, 0, 0),
    ]
}

/// "Empty text: 2 at line 1. Text of 16,384 bytes is read, 16,385 gives 1. N =
/// 8 is read, 9 gives 3. A list of 1 gives 9. Row 1,000 passes, 1,001 gives 10."
fn unproved() -> Vec<Case> {
    let mut cases = every_call(b"", 2);
    // No circuit is so long: it is read, and its ninth line is one too many.
    for length in [TEXT_LIMIT, TEXT_LIMIT + 1] {
        let text = padded(LISTING, b'\n', length);
        cases.push(Case::report(&text, REPORT_ROOM, WORKING_NUMBERS));
    }
    cases.extend(every_call(&with_line(LISTING, 1, "circuit,8,4,1,2,2"), 256));
    cases.extend(every_call(&with_line(LISTING, 1, "circuit,9,4,1,2,2"), 2));
    cases.extend([
        Case::coefficient(&[1], 0),
        Case::spectrum(&[1], 1),
        Case::rows(&[1], 1),
        Case::stuck(&[1], &[1], &[0], 1),
        Case::opened(&[1], &[0], 1),
    ]);
    for rows in [[1_000, 0], [1_001, 0], [0, 1_001], [-1_000, 0], [0, -1_001]] {
        cases.push(Case::spectrum(&rows, 2));
        cases.push(Case::coefficient(&rows, 1));
    }
    cases
}

fn of_lists() -> Vec<Case> {
    let mut cases = Vec::new();
    let figure = rows_of(4, |x| {
        let row = (1..=4).fold(0, |row, input| row + (usize::from(x[input]) << (input - 1)));
        [5, 7, 8, 9, 10, 14, 15].contains(&row)
    });
    cases.extend((0..16).map(|label| Case::coefficient(&figure, label)));
    let or = rows_of(3, |x| x[1] && x[2] || x[3]);
    let chosen = rows_of(3, |x| x[1] && x[2] || x[3] && !x[2]);
    let three = rows_of(4, |x| x[1] && x[2] && x[3] || x[4] && !(x[2] && x[3]));
    // Line 5 stands for x2x3 of the first product.
    let open = rows_of(5, |x| x[1] && x[5] || x[4] && !(x[2] && x[3]));
    let [figure, or, chosen, three, open] = [figure, or, chosen, three, open].map(|rows| {
        cases.push(Case::spectrum(&rows, rows.len()));
        walsh::spectrum(&rows, rows.len()).expect("rows in range")
    });
    cases.push(Case::rows(&figure, 16));
    cases.push(Case::rows(&chosen, 8));
    for (input, value) in [(1, 0), (1, 1), (3, 0), (3, 1)] {
        cases.push(Case::stuck(&or, &[input], &[value], 8));
    }
    for values in [[0, 0], [1, 0], [0, 1], [1, 1]] {
        cases.push(Case::stuck(&three, &[1, 2], &values, 16));
    }
    for value in [0, 1] {
        cases.push(Case::opened(&open, &[value], 16));
    }
    cases
}

fn of_circuits() -> Vec<Case> {
    let cap_of_two = with_line(TWO_OUTPUTS, 1, "circuit,2,4,2,2,2");
    let mut cases = Vec::new();
    for (text, length) in [
        (LISTING, 8),
        (STUCK_INPUTS, 8),
        (TWO_STUCK_INPUTS, 16),
        (STUCK_INNER_LINE, 16),
        (SILENT_FAULT, 4),
        (TWO_OUTPUTS, 4),
    ] {
        cases.extend(every_call(text.as_bytes(), length));
    }
    cases.extend(every_call(&cap_of_two, 4));
    cases
}
