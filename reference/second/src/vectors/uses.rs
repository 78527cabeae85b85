//! Cases of the calls on texts.

use super::examples::every_call;
use super::Case;
use crate::bridge_texts::with_bridges;
use crate::circuits::{
    with_line, Draft, Sizes, EXAMPLES, HALF_AND_A_ROW, LISTING, SILENT_FAULT, TWO_OUTPUTS,
};
use crate::devices::parse;
use crate::plan::WORKING_NUMBERS;
use crate::random::Random;
use crate::report::REPORT_ROOM;
use crate::walsh::number_of;

pub fn cases(random: &mut Random, texts: &[Vec<u8>]) -> Vec<Case> {
    let plain = EXAMPLES.into_iter().chain([HALF_AND_A_ROW]);
    let mut good: Vec<Vec<u8>> = plain.map(|text| text.as_bytes().to_vec()).collect();
    good.push(with_line(LISTING, 6, "output,7,2"));
    for inputs in [1, 4, 6] {
        good.push(drawn_text(random, inputs));
    }
    let mut cases = Vec::new();
    for text in &good {
        cases.extend(faults(random, text));
        cases.extend(fixtures(random, text));
    }
    for text in [LISTING, TWO_OUTPUTS] {
        cases.extend(bad_fixtures(text.as_bytes()));
    }
    cases.extend(short_buffers(&[
        LISTING,
        SILENT_FAULT,
        TWO_OUTPUTS,
        "",
        "circuit",
    ]));
    cases.extend(refused(texts, &[2, 3, 4, 5, 6, 7]));
    cases.extend(plans(texts));
    cases.extend(fields());
    cases
}

/// A small circuit.
fn drawn_text(random: &mut Random, inputs: usize) -> Vec<u8> {
    let sizes = Sizes {
        inputs,
        gates: 2 + random.below(7),
        outputs: 1 + random.below(3),
        faults: 1 + random.below(3),
        cap: 1 + random.below(4),
    };
    Draft::draw(random, sizes).text()
}

/// The texts reported, refused by these numbers and planned, and every fault and
/// fixture of so many small circuits with bridges.
pub fn every_use(
    random: &mut Random,
    texts: &[Vec<u8>],
    numbers: &[u32],
    circuits: usize,
    small: fn(&mut Random) -> Draft,
) -> Vec<Case> {
    let mut cases = reports(texts);
    for _ in 0..circuits {
        let drawn = small(random);
        let text = with_bridges(random, &drawn).text();
        cases.extend(faults(random, &text));
        cases.extend(fixtures(random, &text));
    }
    cases.extend(refused(texts, numbers));
    cases.extend(plans(texts));
    cases
}

/// Every fault's number from 0 to Q + 1, and one far off; buffers short, exact
/// and longer.
pub fn faults(random: &mut Random, text: &[u8]) -> Vec<Case> {
    let device = parse(text).expect("a good text");
    let length = 1 << device.inputs();
    let last = device.faults().len() as u32;
    let mut cases = Vec::new();
    for fault in 0..=last + 1 {
        cases.push(Case::circuit(text, fault, length));
        // By turns without fixed inputs and with some.
        let mask = (fault % 2) * random.below(length) as u32;
        let values = random.below(length) as u32 & mask;
        cases.push(Case::pair(text, fault, mask, values));
    }
    // 12 goes before 8.
    for (fault, room) in [(1, 0), (last + 1, 0), (u32::MAX, 0)] {
        cases.push(Case::circuit(text, fault, room));
    }
    if length < 16 {
        cases.push(Case::circuit(text, 0, length - 1));
        cases.push(Case::circuit(text, last, length + 1));
    }
    cases
}

/// Masks of no, all and some inputs.
pub fn fixtures(random: &mut Random, text: &[u8]) -> Vec<Case> {
    let inputs = parse(text).expect("a good text").inputs();
    let all: u32 = (1 << inputs) - 1;
    let mut fixed = vec![(0, 0), (all, 0), (all, all), (1, 1), (1 << (inputs - 1), 0)];
    for _ in 0..2 {
        let mask = random.below(1 << inputs) as u32;
        fixed.push((mask, random.below(1 << inputs) as u32 & mask));
    }
    fixed
        .into_iter()
        .map(|(mask, values)| Case::reading(text, mask, values))
        .collect()
}

/// Masks and values out of range.
fn bad_fixtures(text: &[u8]) -> Vec<Case> {
    let all: u32 = (1 << parse(text).expect("a good circuit").inputs()) - 1;
    let mut cases = Vec::new();
    for (mask, values) in [
        (all + 1, 0),
        (all + 1, all + 1),
        (u32::MAX, 0),
        (0, 1),
        (0, u32::MAX),
        (all, all + 1),
        (all - 1, 1),
    ] {
        cases.push(Case::reading(text, mask, values));
        for fault in [0, 1] {
            cases.push(Case::pair(text, fault, mask, values));
        }
    }
    cases
}

/// Buffers of the plan and the report call short, exact and longer.
pub fn short_buffers(texts: &[&str]) -> Vec<Case> {
    let mut cases = Vec::new();
    for text in texts {
        let text = text.as_bytes();
        for working in [0, 1, WORKING_NUMBERS - 1, WORKING_NUMBERS, 4_700] {
            cases.push(Case::plan(text, working));
            cases.push(Case::report(text, REPORT_ROOM, working));
        }
        for room in [0, REPORT_ROOM - 1, REPORT_ROOM + 1, 1_100] {
            cases.push(Case::report(text, room, WORKING_NUMBERS));
        }
        cases.push(Case::report(text, 0, 0));
    }
    cases
}

/// Every call on texts that are refused, two short ones for each of the numbers,
/// with arguments that would be refused too.
pub fn refused(texts: &[Vec<u8>], numbers: &[u32]) -> Vec<Case> {
    let mut cases = Vec::new();
    for &number in numbers {
        let kind = texts
            .iter()
            .filter(|text| text.len() < 200 && number_of(&parse(text)) == number);
        for text in kind.take(2) {
            cases.extend(every_call(text, 2));
            cases.push(Case::circuit(text, 99, 0));
            cases.push(Case::plan(text, 0));
            cases.push(Case::reading(text, 512, 1));
            cases.push(Case::pair(text, 99, 512, 1));
        }
    }
    cases
}

/// The report on each of the texts.
pub fn reports(texts: &[Vec<u8>]) -> Vec<Case> {
    texts
        .iter()
        .map(|text| Case::report(text, REPORT_ROOM, WORKING_NUMBERS))
        .collect()
}

/// Plans of some of the texts that have reports.
pub fn plans(texts: &[Vec<u8>]) -> Vec<Case> {
    let short = texts.iter().filter(|text| text.len() < 400);
    short
        .step_by(5)
        .map(|text| Case::plan(text, WORKING_NUMBERS))
        .collect()
}

fn fields() -> Vec<Case> {
    let mut cases = Vec::new();
    for text in [
        "",
        "gate",
        ",",
        ",,",
        "gate,and,1,2",
        "gate,and,1,2\n",
        ",1",
        "1,",
        "a,,b",
        "fault,1,0,2,1",
        "\n,\n",
    ] {
        let last = text.split(',').count() as u32;
        for number in (0..=last).chain([u32::MAX]) {
            cases.push(Case::field(text.as_bytes(), number));
        }
    }
    cases
}
