//! Cases with weights of both signs.

use super::examples::every_call;
use super::texts::damaged;
use super::uses::every_use;
use super::Case;
use crate::bridge_texts::with_bridges;
use crate::circuits::{near_labels, with_line, Damage, Draft, Sizes, Sketch, DAMAGES};
use crate::plan::{CAP_LIMIT, WORKING_NUMBERS};
use crate::random::Random;
use crate::report::REPORT_ROOM;
use crate::signed_texts::{
    cancelled, constant, draw, draw_changing, every_weight, largest, negated, with_signs,
    BAD_WEIGHTS, CANCELLED_FAULT, EXAMPLES, OUTPUT_DAMAGES, SUBTRACTED_LISTING,
    WEIGHTS_OUT_OF_RANGE,
};

pub fn cases(random: &mut Random) -> Vec<Case> {
    let mut cases = Vec::new();
    for (text, length) in EXAMPLES.into_iter().zip([8, 2, 4]) {
        cases.extend(every_call(text.as_bytes(), length));
        cases.push(Case::circuit(text.as_bytes(), 2, length));
        cases.push(Case::pair(text.as_bytes(), 2, 0, 0));
    }
    cases.extend(each_weight());
    cases.extend(at_the_ends());
    cases.extend(kinds_of_readings());
    cases.extend(of_texts(random));
    cases.extend(refused_lines());
    cases.extend(signs_elsewhere());
    let text = largest(random).text();
    cases.extend(every_call(&text, 256));
    cases.push(Case::circuit(&text, 32, 256));
    cases
}

fn report(text: &[u8]) -> Case {
    Case::report(text, REPORT_ROOM, WORKING_NUMBERS)
}

/// One input as the output, and its complement.
fn each_weight() -> Vec<Case> {
    let mut cases = Vec::new();
    for weight in every_weight() {
        let text = format!("circuit,1,0,1,1,1\noutput,1,{weight}\nfault,1,1\n");
        cases.push(Case::circuit(text.as_bytes(), 0, 2));
        cases.push(Case::reading(text.as_bytes(), 0, 0));
        cases.push(report(text.as_bytes()));
        let inverted = format!("circuit,1,1,1,1,1\ngate,not,1,0\noutput,2,{weight}\nfault,1,1\n");
        cases.push(Case::pair(inverted.as_bytes(), 1, 0, 0));
    }
    cases
}

/// Rows of 60, of -60 and of 0, on two rows and on as many as there can be.
fn at_the_ends() -> Vec<Case> {
    let mut cases = Vec::new();
    for weights in [[15; 4], [-15; 4], [15, -15, 15, -15], [-15, 5, 5, 5]] {
        for inputs in [1, 8] {
            let text = constant(inputs, &weights).text();
            cases.extend(every_call(&text, 1 << inputs));
            cases.push(Case::reading(&text, 1, 1));
        }
    }
    cases
}

/// By outputs, weights and masks.
fn kinds_of_readings() -> Vec<Case> {
    let mut cases = Vec::new();
    for weights in [
        &[-1][..],
        &[1],
        &[-2],
        &[-1, 1],
        &[-1, -1],
        &[1, 1, -1],
        &[2, -1, -1, 1],
    ] {
        let outputs = weights.iter().map(|weight| format!("output,2,{weight}\n"));
        let outputs: String = outputs.collect();
        let count = weights.len();
        let text = format!("circuit,2,0,{count},1,1\n{outputs}fault,1,0,2,1\n");
        for (mask, values) in [(0, 0), (1, 0), (2, 2), (3, 2)] {
            cases.push(Case::reading(text.as_bytes(), mask, values));
            cases.push(Case::pair(text.as_bytes(), 1, mask, values));
        }
    }
    cases
}

/// A small circuit.
fn small(random: &mut Random) -> Draft {
    let sizes = Sizes::small(random, 0);
    draw(random, sizes)
}

fn of_texts(random: &mut Random) -> Vec<Case> {
    let texts = texts(random);
    every_use(random, &texts, &[2, 3, 5], 4, small)
}

/// Every text with a stored report.
fn texts(random: &mut Random) -> Vec<Vec<u8>> {
    let mut drafts = Vec::new();
    for inputs in 1..=8 {
        let drawn = Sizes::draw(random);
        drafts.push(draw(random, Sizes { inputs, ..drawn }));
        // Without a plan the second implementation tries every set.
        drafts.push(draw_changing(random, inputs.min(6)));
        let drawn = draw_changing(random, inputs.min(6));
        let bridged = with_bridges(random, &drawn);
        drafts.extend(bridged.only_changing());
        // The same with every weight negated has the same labels.
        drafts.push(negated(&drawn));
        drafts.push(drawn);
    }
    // A label for each output.
    for count in 1..=CAP_LIMIT {
        let labels = near_labels(random, 3, count);
        let sketch = Sketch::complemented(3, &labels, &[1, 5, 15, 8][..count]);
        drafts.push(with_signs(random, &sketch.draft(count)));
    }
    drafts.push(cancelled(&small(random)));
    let mut texts: Vec<Vec<u8>> = drafts.iter().map(Draft::text).collect();
    let damages: Vec<&Damage> = OUTPUT_DAMAGES.iter().chain(&DAMAGES).collect();
    let wanted = [(2, 16), (3, 12), (4, 1), (5, 10), (6, 1), (7, 1)];
    texts.extend(damaged(random, &damages, &wanted, small));
    texts
}

/// Lines of outputs that are refused, in the place of each of three outputs; what
/// comes first decides.
fn refused_lines() -> Vec<Case> {
    let mut cases = Vec::new();
    for weight in BAD_WEIGHTS.into_iter().chain(WEIGHTS_OUT_OF_RANGE) {
        let line = format!("output,3,{weight}");
        cases.push(report(&with_line(CANCELLED_FAULT, 4, &line)));
    }
    for (place, line) in [
        (3, "output,-3,0"),
        (3, "output,57,-0"),
        (3, "output,57,-16"),
        (3, "output,0,-1"),
        (3, "output,03,-16"),
        (3, "output,4,-1"),
        (3, "output,4,-16"),
        (4, "output,56,-15"),
        (4, "output,4,--1"),
        (4, "output,-1"),
        (4, "output,3,-1,-1"),
        (4, "output,-1,3"),
        (5, "output,4,0"),
        (5, "output,x,-16"),
        (5, "output,-56,-16"),
        (5, "output,4,-15"),
    ] {
        cases.push(report(&with_line(CANCELLED_FAULT, place, line)));
    }
    // The first line decides, whatever the second is refused by.
    for (second, third) in [
        ("output,4,-1", "output,3,-0"),
        ("output,3,-16", "output,3,-0"),
        ("output,3,-0", "output,57,-1"),
    ] {
        let text = with_line(CANCELLED_FAULT, 4, second);
        let text = String::from_utf8(text).expect("plain text");
        cases.push(report(&with_line(&text, 5, third)));
    }
    cases
}

/// A minus before each number of the subtracted listing and of a table.
fn signs_elsewhere() -> Vec<Case> {
    let table = "table,1,1,1\n01\nfault,1,0\n";
    let mut cases = Vec::new();
    for text in [SUBTRACTED_LISTING, table] {
        for (place, line) in (1..).zip(text.lines()) {
            for (comma, _) in line.match_indices(',') {
                let (start, rest) = line.split_at(comma + 1);
                if rest.starts_with(|byte: char| byte.is_ascii_digit() || byte == '-') {
                    let line = format!("{start}-{rest}");
                    cases.push(report(&with_line(text, place, &line)));
                }
            }
        }
    }
    cases
}
