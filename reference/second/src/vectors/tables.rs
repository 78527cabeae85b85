//! Cases of the calls on tables; the reading and the pair call refuse them all.

use super::examples::every_call;
use super::texts::{damaged, padded};
use super::uses::{faults, fixtures, plans, refused, reports, short_buffers};
use super::Case;
use crate::circuits::{Damage, Draft, DAMAGES};
use crate::lines::TEXT_LIMIT;
use crate::plan::{CAP_LIMIT, WORKING_NUMBERS};
use crate::random::Random;
use crate::report::REPORT_ROOM;
use crate::table_texts::{
    draw, draw_blocks, draw_circuit, draw_with, draw_with_a_silent_input, largest, table_of,
    with_labels, ANOTHER_MARK, FIGURE, MARK_DAMAGES, SHORT_MARKS, SILENT_INPUT, SMALL,
};

pub fn cases(random: &mut Random) -> Vec<Case> {
    let mut cases = Vec::new();
    for (text, length) in [
        (FIGURE, 16),
        (SMALL, 4),
        (SILENT_INPUT, 2),
        (ANOTHER_MARK, 4),
        (SHORT_MARKS, 4),
    ] {
        cases.extend(every_call(text.as_bytes(), length));
    }
    // No table is so long: it is read, and its fifth line is one too many.
    let [longest, too_long] =
        [TEXT_LIMIT, TEXT_LIMIT + 1].map(|length| padded(SMALL, b'-', length));
    for text in [&longest, &too_long] {
        cases.push(Case::report(text, REPORT_ROOM, WORKING_NUMBERS));
    }
    cases.push(Case::reading(&too_long, 0, 0));

    let texts = texts(random);
    cases.extend(reports(&texts));
    let mut good = vec![SMALL.as_bytes().to_vec(), FIGURE.as_bytes().to_vec()];
    for inputs in [1, 3, 5, 8] {
        good.push(draw_with(random, inputs, 3).text());
    }
    for text in &good {
        cases.extend(faults(random, text));
        cases.extend(fixtures(random, text));
    }
    cases.extend(short_buffers(&[SMALL, SILENT_INPUT, ANOTHER_MARK, "table"]));
    cases.extend(refused(&texts, &[2, 3, 5, 6, 7, 15]));
    cases.extend(plans(&texts));
    cases
}

/// Every table with a stored report.
fn texts(random: &mut Random) -> Vec<Vec<u8>> {
    let mut drafts = vec![largest()];
    for inputs in 1..=8 {
        drafts.extend([draw(random, inputs), draw_blocks(random, inputs)]);
        drafts.extend(draw(random, inputs).only_changing());
        for labels in 1..=CAP_LIMIT {
            for cap in labels.max(2) - 1..=labels {
                drafts.extend(with_labels(random, inputs, labels, cap));
            }
        }
        let circuit = draw_circuit(random, inputs);
        drafts.push(table_of(&circuit.only_changing().unwrap_or(circuit)));
    }
    drafts.extend((2..=8).map(|inputs| draw_with_a_silent_input(random, inputs)));
    let mut texts: Vec<Vec<u8>> = drafts.iter().map(Draft::text).collect();
    let damages: Vec<&Damage> = DAMAGES.iter().chain(&MARK_DAMAGES).collect();
    let wanted = [(2, 14), (3, 8), (5, 8), (6, 8), (7, 8), (15, 14)];
    texts.extend(damaged(random, &damages, &wanted, |random| {
        let (inputs, faults) = (1 + random.below(4), 1 + random.below(8));
        draw_with(random, inputs, faults)
    }));
    texts
}
