//! Texts with bridges, circuits and tables: those of note 8, good ones in which
//! bridges and stuck lines are mixed, ones whose plans have chosen sizes, and
//! ways to damage lines of bridges.

use crate::circuits::{fault_fields, fields, Damage, Draft, Sizes, Sketch};
use crate::random::Random;
use crate::table_texts::{self, Block, Blocks, NOTHING};

/// The paper's listing with a bridge for its second fault.
pub const LISTING_WITH_A_BRIDGE: &str = "circuit,3,4,1,2,2\n\
    gate,not,2,0\n\
    gate,and,1,2\n\
    gate,and,3,4\n\
    gate,or,5,6\n\
    output,7,1\n\
    fault,2,0\n\
    bridge,1,3\n";

/// x1x2 or x3: a bridge of x1 and x2 changes no row.
pub const SILENT_BRIDGE: &str = "circuit,3,2,1,1,1\n\
    gate,and,1,2\ngate,or,3,4\noutput,5,1\nbridge,1,2\n";

/// The rows of example 6.2 of source document 004.
pub const BRIDGED_TABLE: &str = "table,4,3,2\n1001111001001000\n\
    bridge,1,2\nbridge,2,3\nbridge,3,4\n";

/// The ones of those rows.
pub const EXAMPLE_ONES: [usize; 7] = [0, 3, 4, 5, 6, 9, 12];

/// Those texts.
pub const EXAMPLES: [&str; 3] = [LISTING_WITH_A_BRIDGE, SILENT_BRIDGE, BRIDGED_TABLE];

/// The line of a bridge, the lower input first.
pub fn bridge_fields(one: usize, other: usize) -> Vec<String> {
    fields("bridge", &[one.min(other), one.max(other)])
}

/// Every bridge of so many inputs.
pub fn every_bridge(inputs: usize) -> Vec<Vec<String>> {
    let seconds = |first| (first + 1..=inputs).map(move |second| bridge_fields(first, second));
    (1..=inputs).flat_map(seconds).collect()
}

/// The lines of the text's bridges, as indices.
fn bridges(draft: &Draft) -> Vec<usize> {
    (0..draft.lines.len())
        .filter(|&line| draft.lines[line][0] == "bridge")
        .collect()
}

/// The text with bridges, one at least, in the places of about half of its
/// faults; as it was where there is but one input.
pub fn with_bridges(random: &mut Random, draft: &Draft) -> Draft {
    let bridges = every_bridge(draft.sizes.inputs);
    if bridges.is_empty() {
        return draft.clone();
    }
    let mut faults = draft.faults().to_vec();
    let sure = random.below(faults.len());
    for (at, fault) in faults.iter_mut().enumerate() {
        if at == sure || random.once_in(2) {
            *fault = bridges[random.below(bridges.len())].clone();
        }
    }
    draft.with_faults(&faults, draft.sizes.cap)
}

/// The circuit with inputs for about half of its outputs.
fn with_inputs_as_outputs(random: &mut Random, draft: &Draft) -> Draft {
    let mut draft = draft.clone();
    for line in &mut draft.lines {
        if line[0] == "output" && random.once_in(2) {
            line[1] = (1 + random.below(draft.sizes.inputs)).to_string();
        }
    }
    draft
}

/// A good circuit with bridges; inputs are outputs too.
pub fn draw_circuit(random: &mut Random, sizes: Sizes) -> Draft {
    let drawn = Draft::draw(random, sizes);
    let drawn = with_inputs_as_outputs(random, &drawn);
    with_bridges(random, &drawn)
}

/// A good table with bridges, of drawn marks or blocks.
pub fn draw_table(random: &mut Random, inputs: usize) -> Draft {
    let drawn = match random.below(2) {
        0 => table_texts::draw(random, inputs),
        _ => table_texts::draw_blocks(random, inputs),
    };
    with_bridges(random, &drawn)
}

/// A circuit or table with bridges and without silent and hidden faults; circuits
/// of parities and tables of blocks have more often a plan of several labels, or
/// none.
pub fn draw_changing(random: &mut Random, inputs: usize) -> Draft {
    loop {
        let draft = match random.below(4) {
            0 => {
                let sizes = Sizes {
                    inputs,
                    ..Sizes::draw(random)
                };
                draw_circuit(random, sizes)
            }
            1 => draw_table(random, inputs),
            _ => {
                let cap = random.pick(&[1, 2, 3, 4, 4, 4]);
                let sketch = Sketch::draw(random, inputs).draft(cap);
                with_bridges(random, &sketch)
            }
        };
        if let Some(draft) = draft.only_changing() {
            return draft;
        }
    }
}

/// The label of all three inputs covers every bridge of two of them, and every
/// fault of one; label 0 covers none.
const PARITY: Block = Block {
    inputs: 3,
    value: |x| x[0] ^ x[1] ^ x[2],
};

/// 1 where one or two of the inputs are. Three labels are needed for its six
/// bridges, and label 0 covers none of them.
const ONE_OR_TWO: Block = Block {
    inputs: 4,
    value: |x| (1..=2).contains(&x.iter().filter(|&&value| value).count()),
};

/// Blocks for a plan of so many labels.
fn blocks_of(labels: usize) -> [Block; 2] {
    match labels {
        1 => [PARITY, NOTHING],
        2 => [PARITY, PARITY],
        3 => [ONE_OR_TWO, NOTHING],
        4 => [ONE_OR_TWO, PARITY],
        _ => [ONE_OR_TWO, ONE_OR_TWO],
    }
}

/// The bridges of each block, and the inputs of a parity stuck: both kinds of
/// faults, in a drawn order.
fn faults_of(random: &mut Random, blocks: &Blocks) -> Vec<Vec<String>> {
    let mut faults = Vec::new();
    let (first, second) = blocks.places.split_at(blocks.blocks[0].inputs);
    for places in [first, second] {
        for (at, &one) in places.iter().enumerate() {
            faults.extend(places[..at].iter().map(|&other| bridge_fields(one, other)));
            if places.len() == PARITY.inputs {
                faults.push(fault_fields(random, &[one]));
            }
        }
    }
    for at in (1..faults.len()).rev() {
        faults.swap(at, random.below(at + 1));
    }
    faults
}

/// A table whose plan has so many labels where the cap allows them, five of
/// them or more none; nothing where there are too few inputs.
pub fn table_with_labels(
    random: &mut Random,
    inputs: usize,
    labels: usize,
    cap: usize,
) -> Option<Draft> {
    let blocks = Blocks::draw(random, inputs, blocks_of(labels))?;
    let faults = faults_of(random, &blocks);
    Some(blocks.draft(&faults, cap))
}

/// The same as a circuit: an output for each block.
pub fn circuit_with_labels(
    random: &mut Random,
    inputs: usize,
    labels: usize,
    cap: usize,
) -> Option<Draft> {
    let blocks = Blocks::draw(random, inputs, blocks_of(labels))?;
    let mut sketch = Sketch::new(inputs);
    let (first, second) = blocks.places.split_at(blocks.blocks[0].inputs);
    for places in [first, second] {
        let line = match *places {
            [] => continue,
            [a, b, c, d] => one_or_two(&mut sketch, [a, b, c, d]),
            _ => sketch.chain("xor", places),
        };
        sketch.output(line, 1 + random.below(15));
    }
    // A place for the faults, which are replaced.
    sketch.fault(&[(1, 0)]);
    let faults = faults_of(random, &blocks);
    Some(sketch.draft(cap).with_faults(&faults, cap))
}

/// Gates for one or two of four lines.
fn one_or_two(sketch: &mut Sketch, [a, b, c, d]: [usize; 4]) -> usize {
    let [any_of_two, any_of_others] = [(a, b), (c, d)].map(|(a, b)| sketch.gate("or", a, b));
    let [two, others] = [(a, b), (c, d)].map(|(a, b)| sketch.gate("and", a, b));
    let with_third = sketch.gate("and", two, any_of_others);
    let with_fourth = sketch.gate("and", others, any_of_two);
    let any = sketch.gate("or", any_of_two, any_of_others);
    let at_most_two = sketch.gate("nor", with_third, with_fourth);
    sketch.gate("and", any, at_most_two)
}

/// A circuit of the largest size whose faults are all bridges, none of them silent
/// or hidden: each of the 28 that eight inputs have, and the first four again.
pub fn largest_circuit(random: &mut Random) -> Draft {
    let faults: Vec<_> = every_bridge(8).into_iter().cycle().take(32).collect();
    loop {
        let drawn = Draft::draw(random, Sizes::LARGEST).with_faults(&faults, 4);
        if drawn.changing_faults().len() == faults.len() {
            return drawn;
        }
    }
}

/// The line of a drawn bridge; one is put in where there is none.
fn draw_line(random: &mut Random, draft: &mut Draft) -> usize {
    let lines = bridges(draft);
    if !lines.is_empty() {
        return random.pick(&lines);
    }
    let line = draft.lines.len() - 1 - random.below(draft.sizes.faults);
    draft.lines[line] = bridge_fields(1, 2);
    line
}

/// The text with the numbers of a bridge replaced.
fn with_inputs(
    random: &mut Random,
    draft: &Draft,
    inputs: fn(&mut Random, &Draft, [usize; 2]) -> [usize; 2],
) -> Draft {
    let mut draft = draft.clone();
    let line = draw_line(random, &mut draft);
    let [first, second] =
        [1, 2].map(|field: usize| draft.lines[line][field].parse().expect("an input"));
    draft.lines[line] = fields("bridge", &inputs(random, &draft, [first, second]));
    draft
}

/// The text with these fields of a bridge moved.
fn with_moved(random: &mut Random, draft: &Draft, fields: &[usize]) -> Draft {
    let mut draft = draft.clone();
    let line = draw_line(random, &mut draft);
    for &field in fields {
        draft.move_number(random, line, field);
    }
    draft
}

/// Ways to damage a bridge; now and then the text stays good.
pub const BRIDGE_DAMAGES: [Damage; 8] = [
    Damage {
        name: "falling inputs",
        apply: |random, draft| {
            with_inputs(random, draft, |_, _, [first, second]| [second, first]).text()
        },
    },
    Damage {
        name: "equal inputs",
        apply: |random, draft| {
            let equal = |random: &mut Random, _: &Draft, both: [usize; 2]| [random.pick(&both); 2];
            with_inputs(random, draft, equal).text()
        },
    },
    Damage {
        name: "an input above N",
        apply: |random, draft| {
            let above = |random: &mut Random, draft: &Draft, [first, second]: [usize; 2]| {
                let above = draft.sizes.inputs + 1 + random.below(draft.sizes.gates + 2);
                match random.below(3) {
                    0 => [above, second],
                    1 => [above, above + 1],
                    _ => [first, above],
                }
            };
            with_inputs(random, draft, above).text()
        },
    },
    Damage {
        name: "a number moved",
        apply: |random, draft| {
            let field = 1 + random.below(2);
            with_moved(random, draft, &[field]).text()
        },
    },
    Damage {
        name: "both numbers moved",
        apply: |random, draft| with_moved(random, draft, &[1, 2]).text(),
    },
    Damage {
        name: "another count of inputs",
        apply: |random, draft| {
            let mut draft = draft.clone();
            let line = draw_line(random, &mut draft);
            let count = random.pick(&[0, 1, 3, 4, 6]);
            let numbers: Vec<usize> = (1..=count).collect();
            draft.lines[line] = fields("bridge", &numbers);
            draft.text()
        },
    },
    Damage {
        name: "the word of the other kind",
        apply: |random, draft| {
            let mut draft = draft.clone();
            let line = draft.lines.len() - 1 - random.below(draft.sizes.faults);
            let word = &mut draft.lines[line][0];
            *word = match word.as_str() {
                "bridge" => random.pick(&["fault", "Bridge", "bridges", "bridg"]).into(),
                _ => "bridge".into(),
            };
            draft.text()
        },
    },
    Damage {
        name: "falling inputs and a number of another line moved",
        apply: |random, draft| {
            let mut draft = with_inputs(random, draft, |_, _, [first, second]| [second, first]);
            let (line, field) = draft.draw_number(random);
            draft.move_number(random, line, field);
            draft.text()
        },
    },
];

#[cfg(test)]
mod tests {
    use super::*;
    use crate::circuits::try_damages;
    use crate::devices::{self, Device};
    use crate::plan::{plan, CAP_LIMIT, WORKING_NUMBERS};
    use crate::walsh::{number_of, refuse};

    fn read(draft: &Draft) -> Device {
        devices::parse(&draft.text()).unwrap_or_else(|refusal| panic!("{refusal:?}: {draft:?}"))
    }

    fn plan_of(draft: &Draft) -> Result<Vec<usize>, crate::walsh::Refusal> {
        plan(&draft.text(), WORKING_NUMBERS)
    }

    #[test]
    fn drawn_texts_mix_bridges_and_stuck_lines() {
        let mut random = Random::new(30);
        let (mut bridges, mut stuck, mut mixed, mut outputs) = ([[0; 9]; 9], 0, 0, 0);
        for round in 0..1600 {
            let inputs = 1 + round / 2 % 8;
            let draft = match round % 2 {
                0 => {
                    let drawn = Sizes::draw(&mut random);
                    draw_circuit(&mut random, Sizes { inputs, ..drawn })
                }
                _ => draw_table(&mut random, inputs),
            };
            let device = read(&draft);
            assert_eq!(device.faults().len(), draft.sizes.faults);
            let found: Vec<_> = device.faults().iter().filter_map(|f| f.bridge()).collect();
            assert_eq!(found.is_empty(), inputs == 1, "{draft:?}");
            stuck += device.faults().len() - found.len();
            mixed += usize::from((1..device.faults().len()).contains(&found.len()));
            if let Device::Circuit(netlist) = &device {
                let shown = |line| netlist.outputs.iter().any(|output| output.line == line);
                let shows = found.iter().any(|&(a, b)| shown(a) || shown(b));
                outputs += usize::from(shows);
            }
            for (first, second) in found {
                bridges[first][second] += 1;
            }
        }
        for second in 2..=8 {
            for (first, count) in bridges.iter().map(|of| of[second]).enumerate() {
                let rises = (1..second).contains(&first);
                assert_eq!(
                    (rises, !rises),
                    (count > 40, count == 0),
                    "{first}, {second}"
                );
            }
        }
        assert!(stuck > 5000 && mixed > 1000, "{stuck} stuck, {mixed} mixed");
        assert!(outputs > 300, "bridged inputs that are outputs: {outputs}");
    }

    #[test]
    fn plans_of_every_size() {
        let mut random = Random::new(31);
        for inputs in 1..=8 {
            for labels in 1..=CAP_LIMIT + 1 {
                let fewest = [3, 6, 4, 7, 8][labels - 1];
                for cap in 1..=CAP_LIMIT {
                    let due = match labels <= cap {
                        true => Ok(labels),
                        false => refuse(14, 0),
                    };
                    let table = table_with_labels(&mut random, inputs, labels, cap);
                    let circuit = circuit_with_labels(&mut random, inputs, labels, cap);
                    for draft in [table, circuit] {
                        assert_eq!(draft.is_none(), inputs < fewest, "{labels}, {inputs}");
                        if let Some(draft) = draft {
                            let found = plan_of(&draft).map(|plan| plan.len());
                            assert_eq!(found, due, "{draft:?}");
                        }
                    }
                }
            }
        }
    }

    #[test]
    fn changing_texts_have_plans_of_every_size_and_none() {
        let mut random = Random::new(32);
        let (mut sizes, mut bridged) = ([0; 5], 0);
        for round in 0..600 {
            // Without a plan every set is tried, which takes long for many
            // labels.
            let draft = draw_changing(&mut random, 2 + round % 5);
            bridged += usize::from(!bridges(&draft).is_empty());
            let found = plan_of(&draft);
            assert!([0, 14].contains(&number_of(&found)), "{draft:?}");
            sizes[found.map_or(0, |plan| plan.len())] += 1;
        }
        assert!(sizes.iter().all(|&count| count >= 5), "{sizes:?}");
        assert!(bridged > 500, "{bridged} texts with bridges");
    }

    #[test]
    fn largest_circuit_has_32_bridges() {
        let draft = largest_circuit(&mut Random::new(33));
        assert_eq!(draft.sizes, Sizes::LARGEST);
        assert_eq!(bridges(&draft).len(), 32);
        assert_eq!(every_bridge(8).len(), 28);
        assert_eq!(draft.only_changing().map(|d| d.sizes), Some(draft.sizes));
    }

    #[test]
    fn damages_change_the_text() {
        let mut random = Random::new(34);
        let refused = try_damages(&mut random, &BRIDGE_DAMAGES, [100, 80], |random, round| {
            let inputs = 1 + round % 8;
            match round % 2 {
                0 => draw_table(random, inputs),
                _ => {
                    let drawn = Sizes::draw(random);
                    draw_circuit(random, Sizes { inputs, ..drawn })
                }
            }
        });
        for number in [2, 3, 19] {
            assert!(refused[number] > 100, "{refused:?}");
        }
    }
}
