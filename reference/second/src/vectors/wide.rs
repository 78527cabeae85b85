//! Cases with gates of three and four inputs.

use super::examples::every_call;
use super::texts::damaged;
use super::uses::every_use;
use super::Case;
use crate::bridge_texts::with_bridges;
use crate::circuits::{with_line, Damage, Draft, Sizes, DAMAGES};
use crate::plan::WORKING_NUMBERS;
use crate::random::Random;
use crate::report::REPORT_ROOM;
use crate::wide_texts::{
    draw, draw_changing, largest, one_gate, split, EXAMPLES, GATE_DAMAGES, TRUTH_VALUES,
};

pub fn cases(random: &mut Random) -> Vec<Case> {
    let mut cases = Vec::new();
    for (text, length) in EXAMPLES.into_iter().zip([8, 16]) {
        cases.extend(every_call(text.as_bytes(), length));
        cases.push(Case::circuit(text.as_bytes(), 2, length));
    }
    cases.extend(truth_values());
    cases.extend(repeated_lines(random));
    cases.extend(of_texts(random));
    cases.extend(refused_lines());
    let text = largest(random).text();
    cases.extend(every_call(&text, 256));
    cases.push(Case::circuit(&text, 32, 256));
    cases
}

/// All 170: a circuit of one gate for each kind and width.
fn truth_values() -> Vec<Case> {
    let mut cases = vec![Case::circuit(&one_gate(1, "not", &[1, 0]), 0, 2)];
    for (kind, _) in TRUTH_VALUES {
        for lines in [&[1, 2][..], &[1, 2, 3], &[1, 2, 3, 4]] {
            let text = one_gate(lines.len(), kind, lines);
            cases.push(Case::circuit(&text, 0, 1 << lines.len()));
        }
    }
    cases
}

/// One gate of two or three inputs that it reads several times.
fn repeated_lines(random: &mut Random) -> Vec<Case> {
    let mut cases = Vec::new();
    for (kind, _) in TRUTH_VALUES {
        for lines in [&[1, 1, 1][..], &[2, 1, 2], &[2, 2, 2, 2], &[1, 2, 2, 1]] {
            cases.push(Case::circuit(&one_gate(2, kind, lines), 0, 4));
        }
        let lines = [0; 4].map(|_| 1 + random.below(3));
        cases.push(Case::circuit(&one_gate(3, kind, &lines), 0, 8));
    }
    cases
}

/// A small circuit.
fn small(random: &mut Random) -> Draft {
    let sizes = Sizes::small(random, 1);
    draw(random, sizes)
}

fn of_texts(random: &mut Random) -> Vec<Case> {
    let texts = texts(random);
    every_use(random, &texts, &[2, 3, 4], 3, small)
}

/// Every text with a stored report.
fn texts(random: &mut Random) -> Vec<Vec<u8>> {
    let mut drafts = Vec::new();
    for inputs in 1..=8 {
        let drawn = Sizes::draw(random);
        drafts.push(draw(random, Sizes { inputs, ..drawn }));
        // Without a plan the second implementation tries every set.
        for _ in 0..2 {
            drafts.push(draw_changing(random, inputs.min(6)));
        }
        let drawn = draw_changing(random, inputs.min(6));
        let bridged = with_bridges(random, &drawn);
        drafts.extend(bridged.only_changing());
    }
    // The same function, wide and in gates of two inputs.
    let pair = std::iter::repeat_with(|| small(random)).find_map(|wide| {
        let narrow = split(&wide)?;
        (narrow.sizes.gates > wide.sizes.gates + 2).then_some([wide, narrow])
    });
    drafts.extend(pair.into_iter().flatten());
    let mut texts: Vec<Vec<u8>> = drafts.iter().map(Draft::text).collect();
    let damages: Vec<&Damage> = GATE_DAMAGES.iter().chain(&DAMAGES).collect();
    let wanted = [(2, 14), (3, 10), (4, 10), (5, 1), (6, 1), (7, 1)];
    texts.extend(damaged(random, &damages, &wanted, small));
    texts
}

/// Lines of gates that are refused, and some beside them that are not, in the
/// places of both gates of a small circuit; what comes first decides.
fn refused_lines() -> Vec<Case> {
    let good = "circuit,3,2,1,1,1\ngate,nand,1,2,3\ngate,xnor,1,2,3,4\noutput,5,1\nfault,4,1\n";
    let report = |text: &[u8]| Case::report(text, REPORT_ROOM, WORKING_NUMBERS);
    let mut cases = vec![report(good.as_bytes())];
    for (place, line) in [
        (2, "gate,and,1"),
        (2, "gate,and,1,2,3,1"),
        (2, "gate,and,1,2,3,1,2"),
        (2, "gate,and,1,2,"),
        (2, "gate,and,1,2,03"),
        (2, "gate,and,1,2,3,"),
        (2, "gate,and,1,2,0"),
        (2, "gate,and,4,57,1"),
        (2, "gate,and,1,2,3,57"),
        (2, "gate,and,1,2,4"),
        (2, "gate,and,1,2,3,4"),
        (2, "gate,and,1,2,3,56"),
        (2, "gate,not,1,0,2"),
        (2, "gate,not,1,2,3"),
        (2, "gate,not,1,0,0,0"),
        (2, "gate,not,1,2"),
        (2, "gate,not,1,57"),
        (3, "gate,or,4,4,4"),
        (3, "gate,or,1,2,5"),
        (3, "gate,or,1,2,3,5"),
        (3, "gate,or,5,0,1,x"),
        (3, "gate,or,5,1,1,57"),
        (3, "gate,or,1,2,57,x"),
        (3, "gate,or,1,2,3,4,4"),
        (3, "gate,or,1,2,0,4,4"),
        (3, "gate,nor3,1,2,3"),
        (4, "gate,or,1,2,3"),
    ] {
        cases.push(report(&with_line(good, place, line)));
    }
    // The first line decides, whatever the second is refused by.
    for (second, third) in [
        ("gate,and,1,2,4", "gate,and,1,2,3,4,4"),
        ("gate,and,1,2,0", "gate,not,1,0,2"),
        ("gate,and,1,2,3,4", "gate,or,1,2,0"),
    ] {
        let text = String::from_utf8(with_line(good, 2, second)).expect("plain text");
        cases.push(report(&with_line(&text, 3, third)));
    }
    cases
}
