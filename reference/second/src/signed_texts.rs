//! Circuits whose weights have a sign: those of note 4, drawn ones, the same with
//! all weights negated, those at the ends of the range of rows, the longest text,
//! and ways to damage the lines of outputs.

use crate::circuits::{Damage, Draft, Sizes, Sketch};
use crate::lines::LINE_LIMIT;
use crate::netlist::WEIGHT_LIMIT;
use crate::random::Random;
use crate::wide_texts;

/// The paper's listing with its output subtracted.
pub const SUBTRACTED_LISTING: &str = "circuit,3,4,1,2,2\n\
    gate,not,2,0\n\
    gate,and,1,2\n\
    gate,and,3,4\n\
    gate,or,5,6\n\
    output,7,-1\n\
    fault,2,0\n\
    fault,2,1\n";

/// The one input is the output, of the lowest weight.
pub const SUBTRACTED_INPUT: &str = "circuit,1,0,1,2,1\n\
    output,1,-15\n\
    fault,1,0\n\
    fault,1,1\n";

/// x1 and its copy, line 3, cancel out: the first fault lowers both, and the sum
/// is -x2 all the same.
pub const CANCELLED_FAULT: &str = "circuit,2,1,3,2,1\n\
    gate,or,1,1\n\
    output,1,3\n\
    output,3,-3\n\
    output,2,-1\n\
    fault,1,0\n\
    fault,3,0\n";

/// Those texts.
pub const EXAMPLES: [&str; 3] = [SUBTRACTED_LISTING, SUBTRACTED_INPUT, CANCELLED_FAULT];

/// Weights that are not written as they should be.
pub const BAD_WEIGHTS: [&str; 28] = [
    "-0", "-00", "-000", "-0000", "-", "--", "--5", "-+5", "+5", "+-5", "+0", "-05", "05", "00",
    "-005", " 5", "- 5", " -5", "5-", "5 ", "-5 ", "", "10000", "-10000", "-00015", "-5\r", "-5.",
    "-x",
];

/// Numbers that are no weights.
pub const WEIGHTS_OUT_OF_RANGE: [&str; 12] = [
    "0", "16", "-16", "17", "-17", "56", "-56", "99", "-100", "256", "9999", "-9999",
];

/// Every weight that an output can have.
pub fn every_weight() -> impl Iterator<Item = i32> {
    (-WEIGHT_LIMIT..=WEIGHT_LIMIT).filter(|&weight| weight != 0)
}

/// One of so many inputs, an output of this weight, stuck at 0 and at 1.
pub fn input_of_weight(inputs: usize, input: usize, weight: i32) -> String {
    format!("circuit,{inputs},0,1,2,1\noutput,{input},{weight}\nfault,{input},0\nfault,{input},1\n")
}

/// The weights of the outputs.
pub fn weights(draft: &Draft) -> Vec<i32> {
    let outputs = draft.outputs().iter();
    outputs
        .map(|output| output[2].parse().expect("a weight"))
        .collect()
}

/// The circuit with these weights.
pub fn with_weights(draft: &Draft, weights: &[i32]) -> Draft {
    let mut changed = draft.clone();
    let outputs = &mut changed.lines[1 + draft.sizes.gates..];
    for (output, weight) in outputs.iter_mut().zip(weights) {
        output[2] = weight.to_string();
    }
    changed
}

/// The circuit with every output added that was subtracted, and the other way
/// round.
pub fn negated(draft: &Draft) -> Draft {
    let negatives: Vec<i32> = weights(draft).iter().map(|weight| -weight).collect();
    with_weights(draft, &negatives)
}

/// The circuit with a drawn sign for each weight, where now and then one cancels
/// the one before it, or with every output subtracted.
pub fn with_signs(random: &mut Random, draft: &Draft) -> Draft {
    if random.once_in(6) {
        return negated(draft);
    }
    let mut signed = weights(draft);
    for at in 0..signed.len() {
        signed[at] = match at.checked_sub(1) {
            Some(before) if random.once_in(4) => -signed[before],
            _ => signed[at] * random.pick(&[1, -1]),
        };
    }
    with_weights(draft, &signed)
}

/// A good circuit of weights of both signs and gates of every width.
pub fn draw(random: &mut Random, sizes: Sizes) -> Draft {
    let drawn = wide_texts::draw(random, sizes);
    with_signs(random, &drawn)
}

/// The same without silent and hidden faults, now and then with a plan of several
/// labels or none.
pub fn draw_changing(random: &mut Random, inputs: usize) -> Draft {
    loop {
        let drawn = wide_texts::draw_changing(random, inputs);
        let signed = with_signs(random, &drawn);
        if let Some(draft) = signed.only_changing() {
            return draft;
        }
    }
}

/// The circuit with two outputs in place of each, of a weight and its negative on
/// one line, but four at most: every row is 0.
pub fn cancelled(draft: &Draft) -> Draft {
    let kept = &draft.outputs()[..draft.sizes.outputs.min(2)];
    let doubled: Vec<_> = kept
        .iter()
        .flat_map(|output| [output.clone(), output.clone()])
        .collect();
    let twice = draft.with_outputs(&doubled);
    let mut signed = weights(&twice);
    for two in signed.chunks_mut(2) {
        two[1] = -two[1];
    }
    with_weights(&twice, &signed)
}

/// A circuit of these weights, all on one line that always shows 1 and is stuck
/// at 0.
pub fn constant(inputs: usize, weights: &[i32]) -> Draft {
    let mut sketch = Sketch::new(inputs);
    let one = sketch.gate("xnor", 1, 1);
    for _ in weights {
        sketch.output(one, 1);
    }
    sketch.fault(&[(one, 0)]);
    with_weights(&sketch.draft(1), weights)
}

/// The longest text that is accepted: four signs longer than without them.
pub fn largest(random: &mut Random) -> Draft {
    negated(&wide_texts::largest(random))
}

/// The text with the line of a drawn output changed, given the first line of the
/// circuit that is not there.
fn with_output(
    random: &mut Random,
    draft: &Draft,
    change: impl Fn(&mut Random, &mut Vec<String>, usize),
) -> Vec<u8> {
    let mut draft = draft.clone();
    let line = 1 + draft.sizes.gates + random.below(draft.sizes.outputs);
    let bound = draft.bound(line);
    change(random, &mut draft.lines[line], bound);
    draft.text()
}

/// A number that is no line of any circuit.
fn no_line(random: &mut Random) -> String {
    random.pick(&["0", "57", "58", "100", "9999"]).into()
}

/// Ways to damage the line of an output; now and then the text stays good.
pub const OUTPUT_DAMAGES: [Damage; 8] = [
    Damage {
        name: "a weight out of range",
        apply: |random, draft| {
            with_output(random, draft, |random, output, _| {
                output[2] = random.pick(&WEIGHTS_OUT_OF_RANGE).into();
            })
        },
    },
    Damage {
        name: "a weight badly written",
        apply: |random, draft| {
            with_output(random, draft, |random, output, _| {
                output[2] = random.pick(&BAD_WEIGHTS).into();
            })
        },
    },
    Damage {
        name: "a minus more",
        apply: |random, draft| {
            let mut draft = draft.clone();
            let (line, field) = draft.draw_number(random);
            draft.lines[line][field].insert(0, '-');
            draft.text()
        },
    },
    Damage {
        name: "a line with a sign",
        apply: |random, draft| {
            with_output(random, draft, |random, output, _| {
                let sign = random.pick(&["-", "-", "+", "--"]);
                output[1].insert_str(0, sign);
            })
        },
    },
    Damage {
        name: "a line out of range, then a weight badly written",
        apply: |random, draft| {
            with_output(random, draft, |random, output, _| {
                output[1] = no_line(random);
                output[2] = random.pick(&BAD_WEIGHTS).into();
            })
        },
    },
    Damage {
        name: "a line that is not there",
        apply: |random, draft| {
            with_output(random, draft, |random, output, bound| {
                output[1] = random.pick(&[bound, bound + 1, LINE_LIMIT]).to_string();
            })
        },
    },
    Damage {
        name: "a line that is not there, then a weight out of range",
        apply: |random, draft| {
            with_output(random, draft, |random, output, bound| {
                output[1] = random.pick(&[bound, LINE_LIMIT]).to_string();
                output[2] = random.pick(&WEIGHTS_OUT_OF_RANGE).into();
            })
        },
    },
    Damage {
        name: "fields more or fewer",
        apply: |random, draft| {
            with_output(random, draft, |random, output, _| match random.below(3) {
                0 => output.truncate(1 + random.below(2)),
                1 => output.insert(2, "-".into()),
                _ => output.push(random.pick(&["-1", "1", "-", ""]).into()),
            })
        },
    },
];

#[cfg(test)]
mod tests {
    use super::*;
    use crate::circuits::try_damages;
    use crate::devices::circuit;
    use crate::netlist::{parse, Netlist, CIRCUIT_LIMIT, CIRCUIT_ROW_LIMIT};
    use crate::plan::{plan, WORKING_NUMBERS};
    use crate::report::{report, REPORT_ROOM};
    use crate::walsh::number_of;
    use std::collections::BTreeSet;

    fn read(draft: &Draft) -> Netlist {
        parse(&draft.text()).unwrap_or_else(|refusal| panic!("{refusal:?}: {draft:?}"))
    }

    fn report_on(text: &str) -> String {
        let report = report(text.as_bytes(), REPORT_ROOM, WORKING_NUMBERS).expect("room enough");
        String::from_utf8(report).expect("plain text")
    }

    #[test]
    fn examples_of_the_change_request() {
        let due = "plan,1\nlabel,1,2\nfault,1,1,0\nfault,2,1,4\n";
        assert_eq!(report_on(SUBTRACTED_LISTING), due);
        let found = circuit(SUBTRACTED_LISTING.as_bytes(), 0, 8);
        assert_eq!(found, Ok(vec![-4, 2, 0, -2, 2, 0, 2, 0]));
        let due = "plan,1\nlabel,0,-15\nfault,1,0,0\nfault,2,0,-30\n";
        assert_eq!(report_on(SUBTRACTED_INPUT), due);
        assert_eq!(report_on(CANCELLED_FAULT), "refused,16,1\n");
        let rows = parse(CANCELLED_FAULT.as_bytes()).map(|netlist| netlist.rows(2));
        assert_eq!(rows, Ok(Ok(vec![0, 3, -1, 2])));
    }

    #[test]
    fn drawn_circuits_have_weights_of_both_signs() {
        let mut random = Random::new(70);
        let (mut seen, mut rows) = (BTreeSet::new(), BTreeSet::new());
        let (mut cancelled, mut unchanged) = (0, 0);
        for _ in 0..400 {
            let sizes = Sizes::draw(&mut random);
            let draft = draw(&mut random, sizes);
            let (netlist, weights) = (read(&draft), weights(&draft));
            assert_eq!(weights.len(), sizes.outputs);
            cancelled += usize::from(weights.windows(2).any(|two| two[0] == -two[1]));
            seen.extend(weights);
            let sound = netlist.rows(0).expect("fault 0");
            let faults = 1..=sizes.faults as u32;
            unchanged += faults
                .filter(|&fault| netlist.rows(fault).as_ref() == Ok(&sound))
                .count();
            rows.extend(sound);
        }
        assert!(every_weight().all(|weight| seen.contains(&weight)));
        assert_eq!(seen.len(), 30);
        assert!(cancelled > 80, "weights that cancel out: {cancelled}");
        assert!(unchanged > 500, "faults that change no row: {unchanged}");
        let (low, high) = (rows.first().copied(), rows.last().copied());
        assert!(low < Some(-35) && high > Some(35), "{low:?} to {high:?}");
        assert!((-20..=20).all(|row| rows.contains(&row)), "{rows:?}");
    }

    #[test]
    fn negated_circuits_have_negated_rows_and_the_same_plan() {
        let mut random = Random::new(71);
        let mut changed = 0;
        for round in 0..200 {
            let draft = draw_changing(&mut random, 1 + round % 6);
            let other = negated(&draft);
            assert_eq!(negated(&other).text(), draft.text());
            let (first, second) = (read(&draft), read(&other));
            for fault in 0..=draft.sizes.faults as u32 {
                let [rows, negated] = [&first, &second].map(|some| some.rows(fault).expect("rows"));
                let due: Vec<i32> = rows.iter().map(|row| -row).collect();
                assert_eq!(negated, due, "{draft:?}");
                changed += usize::from(negated != rows);
            }
            let [found, due] = [&other, &draft].map(|some| plan(&some.text(), WORKING_NUMBERS));
            assert_eq!(found, due, "{draft:?}");
        }
        assert!(changed > 1000, "{changed} lists of rows");
    }

    #[test]
    fn cancelled_circuits_have_rows_of_0_only() {
        let mut random = Random::new(72);
        let mut hidden = 0;
        for _ in 0..100 {
            let sizes = Sizes::draw(&mut random);
            let draft = cancelled(&draw(&mut random, sizes));
            let netlist = read(&draft);
            for fault in 0..=sizes.faults as u32 {
                let rows = netlist.rows(fault).expect("rows");
                assert!(rows.iter().all(|&row| row == 0), "{draft:?}");
            }
            // No fault changes a value: each is silent or hidden.
            let found = plan(&draft.text(), WORKING_NUMBERS);
            match number_of(&found) {
                16 => {
                    assert_eq!(found, crate::walsh::refuse(16, 1));
                    hidden += 1;
                }
                number => assert_eq!(number, 13, "{draft:?}"),
            }
        }
        assert!((10..90).contains(&hidden), "16 came {hidden} times");
    }

    #[test]
    fn ends_of_the_range() {
        for weight in [15, -15] {
            let draft = constant(8, &[weight; 4]);
            let rows = read(&draft).rows(0).expect("fault 0");
            assert_eq!(rows, vec![weight.signum() * CIRCUIT_ROW_LIMIT; 256]);
            let spectrum = circuit(&draft.text(), 0, 256).expect("rows in range");
            assert_eq!(spectrum[0], weight.signum() * CIRCUIT_LIMIT);
            assert_eq!(spectrum[1..], [0; 255]);
        }
    }

    #[test]
    fn changing_circuits_have_plans_of_every_size_and_none() {
        let mut random = Random::new(73);
        let mut sizes = [0; 5];
        for round in 0..500 {
            // Without a plan every set is tried, which takes long for many
            // labels.
            let draft = draw_changing(&mut random, 2 + round % 5);
            let found = plan(&draft.text(), WORKING_NUMBERS);
            assert!([0, 14].contains(&number_of(&found)), "{draft:?}");
            sizes[found.map_or(0, |plan| plan.len())] += 1;
        }
        assert!(sizes.iter().all(|&count| count >= 5), "{sizes:?}");
    }

    #[test]
    fn the_longest_text() {
        let mut random = Random::new(74);
        for _ in 0..20 {
            let draft = largest(&mut random);
            assert_eq!(draft.text().len(), 1_796, "{draft:?}");
            assert_eq!(draft.sizes, Sizes::LARGEST);
            assert!(weights(&draft).iter().all(|&weight| weight <= -10));
            read(&draft);
        }
    }

    #[test]
    fn damages_change_the_text() {
        let mut random = Random::new(75);
        let refused = try_damages(&mut random, &OUTPUT_DAMAGES, [120, 120], |random, _| {
            let sizes = Sizes::draw(random);
            draw(random, sizes)
        });
        for number in [2, 3, 5] {
            assert!(refused[number] > 100, "{refused:?}");
        }
    }
}
