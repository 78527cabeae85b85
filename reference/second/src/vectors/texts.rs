//! Texts of every kind for the stored reports.

use crate::circuits::{
    largest_report, near_labels, with_line, worst_search, Damage, Draft, Sizes, Sketch, DAMAGES,
    EXAMPLES, LISTING, TWO_OUTPUTS,
};
use crate::devices;
use crate::netlist::parse;
use crate::plan::{plan, CAP_LIMIT, WORKING_NUMBERS};
use crate::random::Random;
use crate::walsh::number_of;

/// Every text with a stored report.
pub fn texts(random: &mut Random) -> Vec<Vec<u8>> {
    let mut texts = chosen_texts();
    for inputs in 1..=8 {
        texts.extend(drawn_texts(random, inputs));
        texts.extend(texts_by_outcome(random, inputs));
    }
    texts.extend(heavy_texts(random));
    texts.extend(damaged_texts(random));
    texts
}

/// The text with this byte after it, up to this length.
pub fn padded(text: &str, filler: u8, length: usize) -> Vec<u8> {
    let mut text = text.as_bytes().to_vec();
    text.resize(length, filler);
    text
}

/// The paper's texts, and those at a limit; the longest are examples of their
/// own.
fn chosen_texts() -> Vec<Vec<u8>> {
    let listing = LISTING.as_bytes();
    // Rows of 45, and of 60 under the second fault: sums of five digits.
    let always = format!(
        "circuit,8,2,4,2,1\ngate,xnor,1,1\ngate,xor,1,1\n{}fault,9,0\nfault,10,1\n",
        "output,9,15\n".repeat(3) + "output,10,15\n"
    );
    let plain = EXAMPLES.into_iter().chain([&always[..], "", "\n"]);
    let mut texts: Vec<Vec<u8>> = plain.map(|text| text.as_bytes().to_vec()).collect();
    texts.extend([
        with_line(TWO_OUTPUTS, 1, "circuit,2,4,2,2,2"),
        with_line(LISTING, 1, "circuit,8,4,1,2,2"),
        with_line(LISTING, 1, "circuit,9,4,1,2,2"),
        listing[..listing.len() - 1].to_vec(),
        padded(LISTING, b'\n', listing.len() + 1),
        largest_report().text(),
        worst_search().text(),
    ]);
    texts
}

/// Circuits as they are drawn, and without their silent and hidden faults; of the
/// largest sizes too.
fn drawn_texts(random: &mut Random, inputs: usize) -> Vec<Vec<u8>> {
    let mut texts = Vec::new();
    while texts.len() < 16 {
        let drawn = Sizes {
            inputs,
            ..Sizes::draw(random)
        };
        let largest = Sizes {
            inputs,
            ..Sizes::LARGEST
        };
        match texts.len() {
            0..4 => texts.push(Draft::draw(random, drawn).text()),
            4..13 => {
                let draft = Draft::draw(random, drawn).only_changing();
                texts.extend(draft.map(|draft| draft.text()));
            }
            _ => {
                // Again as many faults as there can be.
                let draft = Draft::draw(random, largest);
                let changing = draft.changing_faults();
                let faults: Vec<_> = changing.into_iter().cycle().take(largest.faults).collect();
                if !faults.is_empty() {
                    texts.push(draft.with_faults(&faults, CAP_LIMIT).text());
                }
            }
        }
    }
    texts
}

/// Circuits of the highest weights whose sum of all rows has five digits.
fn heavy_texts(random: &mut Random) -> Vec<Vec<u8>> {
    let mut texts = Vec::new();
    while texts.len() < 6 {
        let mut draft = Draft::draw(random, Sizes::LARGEST);
        for line in &mut draft.lines {
            if line[0] == "output" {
                line[2] = "15".into();
            }
        }
        let rows = parse(&draft.text()).and_then(|netlist| netlist.rows(0));
        if rows.is_ok_and(|rows| rows.iter().sum::<i32>() >= 10_000) {
            texts.extend(draft.only_changing().map(|draft| draft.text()));
        }
    }
    texts
}

/// Circuits of parities: plans of every size, and circuits without a plan.
fn texts_by_outcome(random: &mut Random, inputs: usize) -> Vec<Vec<u8>> {
    let mut texts = Vec::new();
    for count in 1..=CAP_LIMIT.min(1 << inputs) {
        let labels = near_labels(random, inputs, count);
        let weights: Vec<usize> = (0..count).map(|_| 1 + random.below(15)).collect();
        let sketch = Sketch::complemented(inputs, &labels, &weights);
        texts.push(sketch.draft(count).text());
        let sketch = Sketch::paired(inputs, &labels, weights[0]);
        texts.push(sketch.draft(CAP_LIMIT).text());
        if count > 1 {
            texts.push(sketch.draft(count - 1).text());
        }
    }
    let mut wanted = [4; CAP_LIMIT + 1];
    for _ in 0..80 {
        // Without a plan the second implementation tries every set, which
        // takes long for four of many labels.
        let cap = 1 + random.below(if inputs < 7 { 4 } else { 3 });
        let sketch = Sketch::draw(random, inputs).draft(cap);
        let Some(draft) = sketch.only_changing() else {
            continue;
        };
        let text = draft.text();
        let size = plan(&text, WORKING_NUMBERS).map_or(0, |labels| labels.len());
        if wanted[size] > 0 {
            wanted[size] -= 1;
            texts.push(text);
        }
    }
    texts
}

/// Damaged circuits, some for each way in which lines are refused.
fn damaged_texts(random: &mut Random) -> Vec<Vec<u8>> {
    let wanted = [(2, 14), (3, 12), (4, 12), (5, 12), (6, 12), (7, 12)];
    damaged(random, &DAMAGES.each_ref(), &wanted, |random| {
        let sizes = Sizes {
            gates: random.below(8),
            faults: 1 + random.below(8),
            ..Sizes::draw(random)
        };
        Draft::draw(random, sizes)
    })
}

/// Drawn texts damaged until each of the numbers came so often.
pub fn damaged(
    random: &mut Random,
    damages: &[&Damage],
    wanted: &[(u32, usize)],
    draw: impl Fn(&mut Random) -> Draft,
) -> Vec<Vec<u8>> {
    let mut texts = Vec::new();
    let mut wanted = wanted.to_vec();
    for damage in damages.iter().cycle() {
        let draft = draw(random);
        let text = (damage.apply)(random, &draft);
        let number = number_of(&devices::parse(&text));
        if let Some(left) = wanted.iter_mut().find(|left| left.0 == number) {
            left.1 -= 1;
            texts.push(text);
        }
        wanted.retain(|left| left.1 > 0);
        if wanted.is_empty() {
            break;
        }
    }
    texts
}
