//! Cases in which weights hide what faults change.

use super::examples::every_call;
use super::uses::{plans, reports, short_buffers};
use super::Case;
use crate::circuits::Draft;
use crate::hidden_texts::{
    draw_outcomes, effects_by_place, largest, no_set, on_one_row, Effect, EXAMPLES,
    EXCHANGED_OUTPUTS, SILENT_BEHIND_HIDDEN,
};
use crate::plan::{plan, WORKING_NUMBERS};
use crate::random::Random;
use crate::report::REPORT_ROOM;
use crate::walsh::number_of;

pub fn cases(random: &mut Random) -> Vec<Case> {
    let mut cases = Vec::new();
    for ((text, ..), length) in EXAMPLES.into_iter().zip([2, 2, 2, 4, 4]) {
        cases.extend(every_call(text.as_bytes(), length));
        cases.push(Case::circuit(text.as_bytes(), 1, length));
        cases.push(Case::reading(text.as_bytes(), 1, 1));
        cases.push(Case::pair(text.as_bytes(), 1, 1, 1));
    }
    cases.extend(short_buffers(&[EXCHANGED_OUTPUTS, SILENT_BEHIND_HIDDEN]));
    cases.extend(at_the_places());
    cases.extend(two_outputs());
    cases.extend(on_one_row_each());
    cases.extend(before_no_set(random));
    let texts = texts(random);
    cases.extend(reports(&texts));
    cases.extend(plans(&texts));
    let text = largest(random).text();
    cases.extend(every_call(&text, 256));
    cases.push(Case::circuit(&text, 1, 256));
    cases
}

fn plan_and_report(text: &[u8]) -> [Case; 2] {
    [Case::plan(text, WORKING_NUMBERS), report(text)]
}

fn report(text: &[u8]) -> Case {
    Case::report(text, REPORT_ROOM, WORKING_NUMBERS)
}

/// The first and the second, the last fault but one and the last: hidden alone, with
/// a hidden one behind, and with a silent one at each of the others.
fn at_the_places() -> Vec<Case> {
    let places = [1, 2, 31, 32];
    let mut cases = Vec::new();
    for hidden in places {
        for other in places {
            for effect in [Effect::Hidden, Effect::Silent] {
                let is_one = hidden == other;
                if is_one && effect == Effect::Silent {
                    continue;
                }
                let text = effects_by_place(32, 2, |place| match place {
                    _ if place == hidden => Effect::Hidden,
                    _ if place == other => effect,
                    _ => Effect::Changing,
                });
                match is_one {
                    true => cases.extend(plan_and_report(&text)),
                    false => cases.push(Case::plan(&text, WORKING_NUMBERS)),
                }
            }
        }
    }
    // Two of each and none at all.
    for (faults, all) in [
        (2, Effect::Hidden),
        (2, Effect::Silent),
        (32, Effect::Changing),
    ] {
        cases.extend(plan_and_report(&effects_by_place(faults, 4, |_| all)));
    }
    cases
}

/// A line or its complement twice, with equal and opposite weights, stuck or bridged
/// alone.
fn two_outputs() -> Vec<Case> {
    let mut cases = Vec::new();
    for lines in [[1, 1], [1, 3], [3, 3], [2, 3]] {
        for weights in [[1, 1], [2, -2], [-15, 14]] {
            for fault in ["fault,1,1", "fault,3,0", "bridge,1,2"] {
                let [first, second] = [0, 1].map(|at| format!("{},{}", lines[at], weights[at]));
                let text = format!(
                    "circuit,2,1,2,1,1\ngate,not,1,0\noutput,{first}\noutput,{second}\n{fault}\n"
                );
                cases.push(report(text.as_bytes()));
            }
        }
    }
    cases
}

/// One row and two outputs decide: the first, the last and others.
fn on_one_row_each() -> Vec<Case> {
    let mut cases = Vec::new();
    for (inputs, row) in [(1, 0), (2, 3), (5, 31), (6, 32), (8, 0), (8, 100), (8, 255)] {
        for (places, weights) in [
            ([0, 1], &[1, 1][..]),
            ([2, 3], &[5, -5, -7, -7]),
            ([3, 0], &[15, 1, 1, 15]),
        ] {
            let draft = on_one_row(inputs, row, places, weights);
            cases.push(report(&draft.text()));
        }
    }
    cases
}

/// No four labels cover five faults; with a hidden one and then a silent one.
fn before_no_set(random: &mut Random) -> Vec<Case> {
    let (draft, more) = no_set(random, 4);
    let mut faults = draft.faults().to_vec();
    let mut cases = plan_and_report(&draft.text()).to_vec();
    for fault in more {
        faults.push(fault);
        cases.extend(plan_and_report(&draft.with_faults(&faults, 4).text()));
    }
    cases
}

/// Drawn texts, so many of each outcome.
fn texts(random: &mut Random) -> Vec<Vec<u8>> {
    let mut drafts: Vec<Draft> = Vec::new();
    let mut wanted = vec![(0, 12), (13, 8), (14, 6), (16, 20)];
    while !wanted.is_empty() {
        let inputs = 1 + random.below(6);
        let draft = draw_outcomes(random, inputs);
        let text = draft.text();
        let number = number_of(&plan(&text, WORKING_NUMBERS));
        let left = wanted.iter_mut().find(|left| left.0 == number);
        // Short ones.
        if let Some(left) = left.filter(|_| text.len() < 600) {
            left.1 -= 1;
            drafts.push(draft);
        }
        wanted.retain(|left| left.1 > 0);
    }
    drafts.iter().map(Draft::text).collect()
}
