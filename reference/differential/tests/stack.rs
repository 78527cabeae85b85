//! No call needs more than 64 KiB of stack: each on its largest input, on a
//! thread that has no more. One that did would end this program by a fault.

use differential::library;
use second::bridge_texts::every_bridge;
use second::circuits::{largest_report, worst_search};
use second::hidden_texts;
use second::plan::WORKING_NUMBERS;
use second::random::Random;
use second::report::REPORT_ROOM;
use second::signed_texts;
use second::table_texts::largest;
use second::wide_texts::{self, with_repeats};
use std::thread;

const STACK: usize = 64 * 1024;
const LENGTH: usize = 2048;

/// Runs a call that gives its refusal number on such a thread.
fn number(call: impl FnOnce() -> u32 + Send + 'static) -> u32 {
    let thread = thread::Builder::new().stack_size(STACK).spawn(call);
    let handle = thread.expect("a thread");
    handle.join().expect("its end")
}

#[test]
fn calls_on_lists_within_64_kib() {
    let ones = vec![1; LENGTH];
    let (rows, mut out) = (ones.clone(), ones.clone());
    assert_eq!(number(move || library::spectrum(&rows, &mut out).number), 0);
    let mut spectrum = vec![0; LENGTH];
    spectrum[0] = LENGTH as i32;
    let (list, mut out) = (spectrum.clone(), ones.clone());
    assert_eq!(number(move || library::rows(&list, &mut out).number), 0);
    let (list, mut out) = (spectrum.clone(), ones.clone());
    let stuck = move || library::stuck(&list, &[1, 2, 11], &[0, 1, 1], &mut out).number;
    assert_eq!(number(stuck), 0);
    let (list, mut out) = (spectrum.clone(), ones.clone());
    let bridged = move || library::bridged(&list, 1, 11, &mut out).number;
    assert_eq!(number(bridged), 0);
    let (list, mut out) = (spectrum, ones.clone());
    let opened = move || library::opened(&list, &[0, 1, 1], &mut out).number;
    assert_eq!(number(opened), 0);
    assert_eq!(number(move || library::coefficient(&ones, 2047).number), 0);
}

/// The circuit call under fault 32 and the report call.
fn assert_reported(text: Vec<u8>) {
    let (lent, mut out) = (text.clone(), vec![0; 256]);
    let circuit = move || library::circuit(&lent, 32, &mut out).number;
    assert_eq!(number(circuit), 0);
    let (mut out, mut working) = (vec![0; REPORT_ROOM], vec![0; WORKING_NUMBERS]);
    let report = move || {
        let written = library::report(&text, &mut out, &mut working);
        assert!(out.starts_with(b"plan,4\n"), "{written:?}");
        written.number
    };
    assert_eq!(number(report), 0);
}

/// The circuit call under fault 32, the reading and the pair call.
fn assert_called(text: Vec<u8>) {
    let (lent, mut out) = (text.clone(), vec![0; 256]);
    let circuit = move || library::circuit(&lent, 32, &mut out).number;
    assert_eq!(number(circuit), 0);
    let lent = text.clone();
    assert_eq!(number(move || library::reading(&lent, 0, 0).number), 0);
    assert_eq!(number(move || library::pair(&text, 32, 0, 0).number), 0);
}

/// The plan call on this text.
fn planned(text: Vec<u8>) -> u32 {
    let mut working = vec![0; WORKING_NUMBERS];
    number(move || library::plan(&text, &mut working).number)
}

#[test]
fn calls_on_circuits_within_64_kib() {
    let text = largest_report().text();
    assert_reported(text.clone());
    assert_eq!(planned(worst_search().text()), 14);
    let lent = text.clone();
    assert_eq!(number(move || library::reading(&lent, 0, 0).number), 0);
    assert_eq!(number(move || library::pair(&text, 32, 0, 0).number), 0);
}

/// The same circuits of gates of four inputs, and the longest text without a sign.
#[test]
fn calls_on_wide_gates_within_64_kib() {
    let mut random = Random::new(64);
    assert_reported(with_repeats(&mut random, &largest_report()).text());
    let worst = with_repeats(&mut random, &worst_search());
    assert_eq!(planned(worst.text()), 14);
    let draft = wide_texts::largest(&mut random);
    let planned_draft = draft.only_changing().expect("a fault that changes rows");
    let number_of_plan = planned(planned_draft.text());
    assert!([0, 14].contains(&number_of_plan), "{number_of_plan}");
    assert_called(draft.text());
}

/// Every output subtracted: on the largest circuits, and the longest text of all.
#[test]
fn calls_on_signed_weights_within_64_kib() {
    let mut random = Random::new(65);
    let wide = with_repeats(&mut random, &largest_report());
    for draft in [largest_report(), wide] {
        assert_reported(signed_texts::negated(&draft).text());
    }
    let worst = with_repeats(&mut random, &worst_search());
    assert_eq!(planned(signed_texts::negated(&worst).text()), 14);
    let draft = signed_texts::largest(&mut random);
    let planned_draft = draft.only_changing().expect("a fault that changes rows");
    let number_of_plan = planned(planned_draft.text());
    assert!([0, 14].contains(&number_of_plan), "{number_of_plan}");
    assert_called(draft.text());
}

/// One of 32 faults is hidden, the first and then the last, and none silent, so that the
/// outputs under all of them are compared.
#[test]
fn calls_that_end_in_16_within_64_kib() {
    let mut random = Random::new(66);
    let draft = hidden_texts::largest(&mut random);
    assert_eq!((draft.sizes.gates, draft.sizes.faults), (48, 32));
    let mut faults = draft.faults().to_vec();
    for due in ["refused,16,1\n", "refused,16,32\n"] {
        let text = draft.with_faults(&faults, 4).text();
        assert_eq!(planned(text.clone()), 16);
        assert_called(text.clone());
        let (mut out, mut working) = (vec![0; REPORT_ROOM], vec![0; WORKING_NUMBERS]);
        let report = move || {
            let written = library::report(&text, &mut out, &mut working);
            assert_eq!(&out[..written.bytes], due.as_bytes());
            written.number
        };
        assert_eq!(number(report), 0);
        faults.reverse();
    }
}

/// The largest texts, 28 of whose 32 faults are every bridge of eight inputs.
#[test]
fn calls_on_bridges_within_64_kib() {
    for (draft, due) in [(largest_report(), 13), (worst_search(), 0), (largest(), 0)] {
        let mut faults = every_bridge(8);
        faults.extend_from_slice(&draft.faults()[..4]);
        faults.reverse();
        let text = draft.with_faults(&faults, 4).text();
        let (lent, mut out) = (text.clone(), vec![0; 256]);
        let circuit = move || library::circuit(&lent, 32, &mut out).number;
        assert_eq!(number(circuit), 0);
        assert_eq!(planned(text.clone()), due);
        let due = if draft.lines[0][0] == "table" { 2 } else { 0 };
        assert_eq!(number(move || library::pair(&text, 32, 0, 0).number), due);
    }
}

#[test]
fn calls_on_tables_within_64_kib() {
    let text = largest().text();
    assert_reported(text.clone());
    assert_eq!(planned(text.clone()), 0);
    let lent = text.clone();
    assert_eq!(number(move || library::reading(&lent, 0, 0).number), 2);
    assert_eq!(number(move || library::pair(&text, 32, 0, 0).number), 2);
}
