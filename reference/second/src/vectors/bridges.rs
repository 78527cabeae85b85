//! Cases with bridged inputs: the call on coefficients, then texts.

use super::examples::every_call;
use super::lists::{ends, room};
use super::texts::damaged;
use super::uses::{faults, fixtures, plans, refused, reports, short_buffers};
use super::Case;
use crate::bridge_texts::{
    circuit_with_labels, draw_changing, draw_circuit, draw_table, table_with_labels, with_bridges,
    BRIDGED_TABLE, BRIDGE_DAMAGES, EXAMPLES, EXAMPLE_ONES, LISTING_WITH_A_BRIDGE,
};
use crate::circuits::{with_line, Damage, Draft, Sizes, DAMAGES};
use crate::plan::CAP_LIMIT;
use crate::random::Random;
use crate::table_texts::draw_with;
use crate::walsh::{self, COEFFICIENT_LIMIT, ROW_LIMIT};

pub fn cases(random: &mut Random) -> Vec<Case> {
    let mut cases = examples();
    for inputs in 2..=11 {
        cases.extend(drawn(random, inputs));
    }
    cases.extend(rooms(random));
    cases.extend(at_the_ends());
    cases.extend(bad_lengths());
    cases.extend(bad_arguments(random));
    cases.extend(several_refusals());
    cases.extend(odd_halves(random));
    cases.extend(of_texts(random));
    cases
}

/// Example 6.2 of source document 004, and those of note 8.
fn examples() -> Vec<Case> {
    let mut rows = vec![0; 16];
    EXAMPLE_ONES.iter().for_each(|&row| rows[row] = 1);
    let spectrum = spectrum_of(&rows);
    let mut cases: Vec<Case> = pairs(4)
        .into_iter()
        .map(|bridge| Case::bridged(&spectrum, bridge, 16))
        .collect();
    let listing = [4, -2, 0, 2, -2, 0, -2, 0];
    cases.push(Case::bridged(&listing, [1, 3], 8));
    let odd = [0, 0, 0, 0, 0, 1, 0, 0];
    cases.push(Case::bridged(&odd, [1, 2], 8));
    for (text, length) in EXAMPLES.into_iter().zip([8, 8, 16]) {
        cases.extend(every_call(text.as_bytes(), length));
    }
    cases
}

fn spectrum_of(rows: &[i32]) -> Vec<i32> {
    walsh::spectrum(rows, rows.len()).expect("rows in range")
}

/// Every two rising inputs of n.
fn pairs(n: u32) -> Vec<[u32; 2]> {
    let below = |second| (1..second).map(move |first| [first, second]);
    (2..=n).flat_map(below).collect()
}

/// A spectrum of rows, and of the shorter lists numbers that are none: every
/// pair of few inputs, one of many, for the file's size.
fn drawn(random: &mut Random, n: u32) -> Vec<Case> {
    let length = 1 << n;
    let bridges = match n {
        0..=4 => pairs(n),
        5..=7 => (0..3).map(|_| random.pick(&pairs(n))).collect(),
        _ => vec![random.pick(&pairs(n))],
    };
    let mut cases = Vec::new();
    for bridge in bridges {
        let rows = random.list(length, ROW_LIMIT);
        let room = room(random, length);
        cases.push(Case::bridged(&spectrum_of(&rows), bridge, room));
        if n < 6 {
            // Every half is whole, or most are not.
            let even = random.list(length, COEFFICIENT_LIMIT / 2);
            let even: Vec<i32> = even.into_iter().map(|half| 2 * half).collect();
            cases.push(Case::bridged(&even, bridge, room));
            let list = random.list(length, COEFFICIENT_LIMIT);
            cases.push(Case::bridged(&list, bridge, room));
        }
    }
    cases
}

/// Lent results too short, exact and longer.
fn rooms(random: &mut Random) -> Vec<Case> {
    let mut cases = Vec::new();
    for length in [4, 8] {
        let spectrum = spectrum_of(&random.list(length, ROW_LIMIT));
        for room in [0, 1, length - 1, length, length + 1, 2 * length] {
            cases.push(Case::bridged(&spectrum, [1, 2], room));
        }
    }
    cases
}

/// Numbers at the ends of the range and just beyond; the first place that is
/// refused.
fn at_the_ends() -> Vec<Case> {
    let mut cases = Vec::new();
    for at in [0, 3] {
        for number in ends(COEFFICIENT_LIMIT) {
            let mut list = vec![COEFFICIENT_LIMIT; 4];
            list[at] = number;
            cases.push(Case::bridged(&list, [1, 2], 4));
        }
    }
    for number in [-COEFFICIENT_LIMIT, COEFFICIENT_LIMIT - 1, i32::MIN] {
        cases.push(Case::bridged(&[number; 8], [2, 3], 8));
    }
    cases
}

fn bad_lengths() -> Vec<Case> {
    [0, 1, 3, 5, 6, 7, 9, 12, 17]
        .into_iter()
        .map(|length| Case::bridged(&vec![1; length], [1, 2], length))
        .collect()
}

/// Inputs 0, equal, falling and above n; a list of two has no pair.
fn bad_arguments(random: &mut Random) -> Vec<Case> {
    let mut cases = Vec::new();
    for n in [1, 3] {
        let spectrum = spectrum_of(&random.list(1 << n, ROW_LIMIT));
        for bridge in [
            [0, 0],
            [0, 1],
            [1, 0],
            [1, 1],
            [2, 1],
            [n, n],
            [1, n],
            [n, n + 1],
            [1, n + 1],
            [n + 1, n + 2],
            [1, 257],
            [1, u32::MAX],
            [u32::MAX, 1],
            [u32::MAX; 2],
        ] {
            cases.push(Case::bridged(&spectrum, bridge, 1 << n));
        }
    }
    cases
}

/// Every choice of reasons to refuse, in the order 9, 12, 10, 8, 11.
fn several_refusals() -> Vec<Case> {
    (0..1 << 5)
        .map(|reasons| {
            let [longer, argument, range, short, odd] =
                [0, 1, 2, 3, 4].map(|reason| reasons >> reason & 1 == 1);
            let mut list = vec![4, 2, 8, 6];
            list[1] += i32::from(odd);
            if range {
                list[3] = COEFFICIENT_LIMIT + 1;
            }
            list.extend(longer.then_some(0));
            let bridge = if argument { [2, 2] } else { [1, 2] };
            Case::bridged(&list, bridge, 4 - usize::from(short))
        })
        .collect()
}

/// One odd number at each place, and the first of several odd halves.
fn odd_halves(random: &mut Random) -> Vec<Case> {
    let mut cases = Vec::new();
    for (n, bridge) in [(2, [1, 2]), (3, [1, 2]), (3, [1, 3]), (3, [2, 3])] {
        for at in 0..1 << n {
            let mut list = vec![0; 1 << n];
            list[at] = random.pick(&[1, -1, 3]);
            cases.push(Case::bridged(&list, bridge, 1 << n));
        }
    }
    for bridge in pairs(4) {
        // Whole in the half of the labels without the last input.
        let list: Vec<i32> = (0..16)
            .map(|label| 2 * random.between(-9, 9) + i32::from(label > 8 && label % 3 == 0))
            .collect();
        cases.push(Case::bridged(&list, bridge, 16));
    }
    cases
}

/// A small circuit or table with bridges.
fn small(random: &mut Random, inputs: usize, table: bool) -> Draft {
    let count = 1 + random.below(6);
    match table {
        true => {
            let drawn = draw_with(random, inputs, count);
            with_bridges(random, &drawn)
        }
        false => {
            let sizes = Sizes {
                inputs,
                gates: random.below(9),
                faults: count,
                ..Sizes::draw(random)
            };
            draw_circuit(random, sizes)
        }
    }
}

fn of_texts(random: &mut Random) -> Vec<Case> {
    let texts = texts(random);
    let mut cases = reports(&texts);
    let mut good: Vec<Vec<u8>> = [LISTING_WITH_A_BRIDGE, BRIDGED_TABLE]
        .map(|text| text.as_bytes().to_vec())
        .into();
    for (inputs, table) in [(2, true), (4, false)] {
        good.push(small(random, inputs, table).text());
    }
    for text in &good {
        cases.extend(faults(random, text));
        cases.extend(fixtures(random, text));
    }
    // Inputs fixed that are bridged, and one that is not.
    for (mask, values) in [(1, 0), (1, 1), (2, 2), (4, 4), (5, 1), (5, 5), (7, 3)] {
        let text = LISTING_WITH_A_BRIDGE.as_bytes();
        cases.push(Case::pair(text, 2, mask, values));
    }
    let bad = String::from_utf8(with_line(LISTING_WITH_A_BRIDGE, 8, "bridge,3,1"));
    let bad = bad.expect("plain text");
    cases.extend(short_buffers(&[&bad]));
    cases.extend(refused(&texts, &[19]));
    cases.extend(plans(&texts));
    cases
}

/// Every text with a stored report.
fn texts(random: &mut Random) -> Vec<Vec<u8>> {
    let mut drafts = Vec::new();
    for inputs in [3, 4, 6, 7, 8] {
        for labels in 1..=CAP_LIMIT {
            // By turns within the cap and beyond it.
            let short = labels - usize::from(labels > 1);
            let caps = [labels, if inputs % 2 == 0 { short } else { labels }];
            drafts.extend(table_with_labels(random, inputs, labels, caps[0]));
            drafts.extend(circuit_with_labels(random, inputs, labels, caps[1]));
        }
        let sizes = Sizes {
            inputs,
            ..Sizes::draw(random)
        };
        drafts.push(draw_circuit(random, sizes));
        drafts.push(draw_table(random, inputs));
        drafts.push(draw_changing(random, inputs.min(6)));
    }
    let mut texts: Vec<Vec<u8>> = drafts.iter().map(Draft::text).collect();
    // 19 beside other refusals of the same line and of the next.
    for (seventh, eighth) in [
        ("bridge,2,2", "fault,9,0"),
        ("bridge,1,9", "bridge,57,1"),
        ("fault,9,0", "bridge,2,2"),
        ("fault,2,0,1,0", "bridge,3,2"),
        ("bridge,9,57", "bridge,1,1"),
        ("bridge,2,1,", "bridge,2,1"),
    ] {
        let text = with_line(LISTING_WITH_A_BRIDGE, 7, seventh);
        let text = String::from_utf8(text).expect("plain text");
        texts.push(with_line(&text, 8, eighth));
    }
    let damages: Vec<&Damage> = BRIDGE_DAMAGES.iter().chain(&DAMAGES).collect();
    for table in [false, true] {
        let wanted = [(2, 3), (3, 3), (5, 1), (6, 1), (7, 1), (19, 8)];
        let inputs = if table { 3 } else { 5 };
        texts.extend(damaged(random, &damages, &wanted, |random| {
            let inputs = 1 + random.below(inputs);
            small(random, inputs, table)
        }));
    }
    texts
}
