//! Table texts: those of the change request, random ones of every size, ones
//! whose plans have chosen sizes, tables of circuits, and ways to damage marks.

use crate::circuits::{fault_fields, fields, Damage, Draft, Sizes};
use crate::netlist;
use crate::plan::CAP_LIMIT;
use crate::random::Random;

/// Source document 004, figure 2.
pub const FIGURE: &str = "table,4,1,1\n00000101111000--\nfault,1,0\n";

/// A free row, and two faults that label 0 covers.
pub const SMALL: &str = "table,2,2,1\n01-1\nfault,1,0\nfault,2,1\n";

/// A fault that changes no row.
pub const SILENT_INPUT: &str = "table,1,1,1\n11\nfault,1,0\n";

/// A comma is no mark, though the line has the right length.
pub const ANOTHER_MARK: &str = "table,2,2,1\n0,11\nfault,1,0\nfault,2,1\n";

/// Refused by 2 at the line of marks, which would be refused by 15 too.
pub const SHORT_MARKS: &str = "table,2,2,1\n01x\nfault,1,0\nfault,2,1\n";

pub const MARKS: &[u8; 3] = b"0-1";

/// The largest head of a table.
pub const LARGEST: Sizes = Sizes {
    gates: 0,
    outputs: 0,
    ..Sizes::LARGEST
};

/// The table with these doubled rows and lines of faults.
pub fn draft(rows: &[usize], faults: &[Vec<String>], cap: usize) -> Draft {
    let sizes = Sizes {
        inputs: rows.len().ilog2() as usize,
        faults: faults.len(),
        cap,
        ..LARGEST
    };
    let marks: String = rows.iter().map(|&row| char::from(MARKS[row])).collect();
    let mut lines = vec![sizes.head("table"), vec![marks]];
    lines.extend_from_slice(faults);
    Draft { sizes, lines }
}

/// A fault of one to three inputs.
fn draw_fault(random: &mut Random, inputs: usize) -> Vec<String> {
    let count = 1 + random.below(inputs.min(3));
    let stuck = random.rising(count, |random| 1 + random.below(inputs));
    fault_fields(random, &stuck)
}

fn draw_faults(random: &mut Random, inputs: usize, count: usize) -> Vec<Vec<String>> {
    (0..count).map(|_| draw_fault(random, inputs)).collect()
}

fn draw_cap(random: &mut Random) -> usize {
    1 + random.below(CAP_LIMIT)
}

/// Rows with all three marks, with two of them, or with few that are not free.
fn draw_rows(random: &mut Random, inputs: usize) -> Vec<usize> {
    let from: &[usize] = match random.below(5) {
        0 => &[0, 2],
        1 => &[0, 1],
        2 => &[0, 1, 1, 1, 1, 1, 1, 2],
        _ => &[0, 1, 2],
    };
    (0..1 << inputs).map(|_| random.pick(from)).collect()
}

/// A good table of so many inputs and faults.
pub fn draw_with(random: &mut Random, inputs: usize, faults: usize) -> Draft {
    let rows = draw_rows(random, inputs);
    let faults = draw_faults(random, inputs, faults);
    draft(&rows, &faults, draw_cap(random))
}

/// A good table of so many inputs.
pub fn draw(random: &mut Random, inputs: usize) -> Draft {
    let faults = 1 + random.below(LARGEST.faults);
    draw_with(random, inputs, faults)
}

/// A good table that does not depend on its last input.
pub fn draw_with_a_silent_input(random: &mut Random, inputs: usize) -> Draft {
    let rows = draw_rows(random, inputs - 1).repeat(2);
    let faults = 1 + random.below(LARGEST.faults);
    let faults = draw_faults(random, inputs, faults);
    draft(&rows, &faults, draw_cap(random))
}

/// A function of a few inputs.
#[derive(Clone, Copy)]
pub(crate) struct Block {
    pub(crate) inputs: usize,
    pub(crate) value: fn(&[bool]) -> bool,
}

pub(crate) const NOTHING: Block = Block {
    inputs: 0,
    value: |_| false,
};

/// Label 0 covers its fault.
const ALONE: Block = Block {
    inputs: 1,
    value: |x| x[0],
};

/// The label of both inputs covers both faults, and label 0 none.
const PARITY: Block = Block {
    inputs: 2,
    value: |x| x[0] != x[1],
};

/// Label 0 covers the faults of the last two inputs, no label those of all
/// three.
const CHOICE: Block = Block {
    inputs: 3,
    value: |x| if x[0] { x[1] } else { x[2] },
};

/// The coefficients that are not 0 name two neighbours in a ring, 1 and 2, 2 and
/// 3, 3 and 4, 4 and 1: a label covers the faults of two inputs at most.
const RING: Block = Block {
    inputs: 4,
    value: |x| match x[0] == x[2] {
        true => x[0] != x[1],
        false => x[2] != x[3],
    },
};

/// Two blocks at inputs of their own. The doubled rows are the sums of their
/// values, so that no label but 0 covers faults of both.
pub(crate) struct Blocks {
    pub(crate) inputs: usize,
    pub(crate) blocks: [Block; 2],
    /// The inputs of the first block, then those of the second.
    pub(crate) places: Vec<usize>,
}

impl Blocks {
    /// None where there are too few inputs.
    pub(crate) fn draw(random: &mut Random, inputs: usize, blocks: [Block; 2]) -> Option<Blocks> {
        let used = blocks.iter().map(|block| block.inputs).sum();
        let mut places: Vec<usize> = (1..=inputs).collect();
        for at in (1..inputs).rev() {
            places.swap(at, random.below(at + 1));
        }
        places.truncate(used);
        (used <= inputs).then_some(Blocks {
            inputs,
            blocks,
            places,
        })
    }

    fn row(&self, row: usize) -> usize {
        let shown: Vec<bool> = self
            .places
            .iter()
            .map(|input| row & 1 << (input - 1) != 0)
            .collect();
        let [first, second] = self.blocks;
        let (to_first, to_second) = shown.split_at(first.inputs);
        usize::from((first.value)(to_first)) + usize::from((second.value)(to_second))
    }

    pub(crate) fn draft(&self, faults: &[Vec<String>], cap: usize) -> Draft {
        let rows: Vec<usize> = (0..1 << self.inputs).map(|row| self.row(row)).collect();
        draft(&rows, faults, cap)
    }
}

/// A table whose plan has so many labels where the cap allows them; none where
/// there are too few inputs.
pub fn with_labels(random: &mut Random, inputs: usize, labels: usize, cap: usize) -> Option<Draft> {
    let two = match labels {
        1 => [ALONE, NOTHING],
        2 => [CHOICE, NOTHING],
        3 => [RING, ALONE],
        _ => [RING, CHOICE],
    };
    let blocks = Blocks::draw(random, inputs, two)?;
    let faults: Vec<_> = blocks
        .places
        .iter()
        .map(|&input| fault_fields(random, &[input]))
        .collect();
    Some(blocks.draft(&faults, cap))
}

/// A table of drawn blocks, which has more often a plan of several labels, or
/// none, than one of drawn marks.
pub fn draw_blocks(random: &mut Random, inputs: usize) -> Draft {
    let two = [0; 2].map(|_| random.pick(&[NOTHING, ALONE, PARITY, CHOICE, RING, RING]));
    let Some(blocks) = Blocks::draw(random, inputs, two) else {
        return draw_blocks(random, inputs);
    };
    let count = 1 + random.below(LARGEST.faults);
    let faults: Vec<_> = (0..count)
        .map(|_| match blocks.places.is_empty() || random.once_in(8) {
            true => draw_fault(random, inputs),
            false => {
                let input = random.pick(&blocks.places);
                fault_fields(random, &[input])
            }
        })
        .collect();
    blocks.draft(&faults, draw_cap(random))
}

/// A table of drawn marks or blocks without silent faults.
pub fn draw_changing(random: &mut Random, inputs: usize) -> Draft {
    loop {
        let draft = match random.below(3) {
            0 => draw(random, inputs),
            _ => draw_blocks(random, inputs),
        };
        if let Some(draft) = draft.only_changing() {
            return draft;
        }
    }
}

/// As many inputs, faults and labels as there can be.
pub fn largest() -> Draft {
    let blocks = Blocks {
        inputs: LARGEST.inputs,
        blocks: [RING, RING],
        places: (1..=LARGEST.inputs).collect(),
    };
    let mut faults = Vec::new();
    for value in [0, 1] {
        for input in 1..=LARGEST.inputs {
            faults.push(fields("fault", &[input, value]));
        }
        for input in 1..LARGEST.inputs {
            faults.push(fields("fault", &[input, value, input + 1, 1 - value]));
        }
        faults.push(fields("fault", &[1, value, 4, value, 8, value]));
    }
    blocks.draft(&faults, LARGEST.cap)
}

/// A circuit of one output of weight 1 whose faults name inputs only.
pub fn draw_circuit(random: &mut Random, inputs: usize) -> Draft {
    let drawn = Sizes {
        inputs,
        outputs: 1,
        ..Sizes::draw(random)
    };
    let mut circuit = Draft::draw(random, drawn);
    let output = circuit.lines.len() - drawn.faults - 1;
    circuit.lines[output][2] = "1".into();
    let faults = draw_faults(random, inputs, drawn.faults);
    circuit.with_faults(&faults, drawn.cap)
}

/// The rows of such a circuit as a table, with the same faults and cap.
pub fn table_of(circuit: &Draft) -> Draft {
    let netlist = netlist::parse(&circuit.text()).expect("a good circuit");
    let rows = netlist.rows(0).expect("fault 0");
    let doubled: Vec<usize> = rows.iter().map(|&row| 2 * row as usize).collect();
    draft(&doubled, circuit.faults(), circuit.sizes.cap)
}

/// The text with its line of marks replaced.
pub fn with_marks(text: &[u8], marks: &[u8]) -> Vec<u8> {
    let mut lines: Vec<&[u8]> = text.split(|&byte| byte == b'\n').collect();
    lines[1] = marks;
    lines.join(&b'\n')
}

/// The table with its marks changed.
fn with_changed(draft: &Draft, change: impl FnOnce(&mut Vec<u8>)) -> Vec<u8> {
    let mut marks = draft.lines[1][0].clone().into_bytes();
    change(&mut marks);
    with_marks(&draft.text(), &marks)
}

/// Any byte, or one that is near to a mark or ends a field or a line.
fn draw_mark(random: &mut Random) -> u8 {
    match random.below(3) {
        0 => random.below(256) as u8,
        1 => random.pick(MARKS),
        _ => random.pick(b"2/+.xX*_, \r\n\t\0"),
    }
}

/// Ways to damage the marks; now and then the text stays good.
pub const MARK_DAMAGES: [Damage; 5] = [
    Damage {
        name: "a mark changed",
        apply: |random, draft| {
            with_changed(draft, |marks| {
                let at = random.below(marks.len());
                marks[at] = draw_mark(random);
            })
        },
    },
    Damage {
        name: "a mark removed",
        apply: |random, draft| {
            with_changed(draft, |marks| {
                marks.remove(random.below(marks.len()));
            })
        },
    },
    Damage {
        name: "a mark inserted",
        apply: |random, draft| {
            with_changed(draft, |marks| {
                let at = random.below(marks.len() + 1);
                marks.insert(at, draw_mark(random));
            })
        },
    },
    Damage {
        name: "a mark changed and another length",
        apply: |random, draft| {
            with_changed(draft, |marks| {
                let at = random.below(marks.len());
                marks[at] = b'x';
                let length = random.below(300);
                marks.resize(length, b'0');
            })
        },
    },
    Damage {
        name: "a mark and a fault changed",
        apply: |random, draft| {
            let mut draft = draft.clone();
            let last = draft.lines.len() - 1;
            draft.lines[last][1] = random.pick(&["0", "57", "9", "x"]).into();
            with_changed(&draft, |marks| {
                let at = random.below(marks.len());
                marks[at] = draw_mark(random);
            })
        },
    },
];

#[cfg(test)]
mod tests {
    use super::*;
    use crate::circuits::try_damages;
    use crate::devices::circuit;
    use crate::plan::{plan, WORKING_NUMBERS};
    use crate::tables::parse;
    use crate::walsh::{number_of, refuse};

    fn plan_of(draft: &Draft) -> Result<Vec<usize>, crate::walsh::Refusal> {
        plan(&draft.text(), WORKING_NUMBERS)
    }

    #[test]
    fn drawn_tables_are_good() {
        let mut random = Random::new(21);
        let (mut faults, mut pairs, mut caps) = ([0; 33], [0; 4], [0; 5]);
        for round in 0..2000 {
            let inputs = 1 + round % 8;
            let draft = match round % 3 {
                0 => draw(&mut random, inputs),
                1 => draw_blocks(&mut random, inputs),
                _ => draw_with_a_silent_input(&mut random, inputs.max(2)),
            };
            let table =
                parse(&draft.text()).unwrap_or_else(|refusal| panic!("{refusal:?}: {draft:?}"));
            assert_eq!(table.inputs, draft.sizes.inputs);
            faults[table.faults.len()] += 1;
            caps[table.cap] += 1;
            for fault in &table.faults {
                pairs[fault.stuck().len()] += 1;
            }
        }
        assert!(faults[1..].iter().all(|&count| count > 10), "{faults:?}");
        assert!(caps[1..].iter().all(|&count| count > 100), "{caps:?}");
        assert!(pairs[1..].iter().all(|&count| count > 500), "{pairs:?}");
    }

    #[test]
    fn plans_of_every_size() {
        let mut random = Random::new(22);
        for inputs in 1..=8 {
            for labels in 1..=CAP_LIMIT {
                for cap in 1..=CAP_LIMIT {
                    let Some(draft) = with_labels(&mut random, inputs, labels, cap) else {
                        let fewest = [1, 3, 5, 7][labels - 1];
                        assert!(inputs < fewest, "{labels} labels, {inputs} inputs");
                        continue;
                    };
                    let found = plan_of(&draft).map(|plan| plan.len());
                    let due = match labels <= cap {
                        true => Ok(labels),
                        false => refuse(14, 0),
                    };
                    assert_eq!(found, due, "{draft:?}");
                }
            }
        }
        let largest = largest();
        assert_eq!(largest.sizes, LARGEST);
        assert_eq!(plan_of(&largest).map(|plan| plan.len()), Ok(4));
    }

    #[test]
    fn blocks_have_plans_of_every_size_and_none() {
        let mut random = Random::new(23);
        let (mut sizes, mut refused) = ([0; 5], [0; 15]);
        for round in 0..800 {
            let found = plan_of(&draw_blocks(&mut random, 1 + round % 8));
            refused[number_of(&found) as usize] += 1;
            sizes[found.map_or(0, |plan| plan.len())] += 1;
        }
        assert!(sizes[1..].iter().all(|&count| count >= 5), "{sizes:?}");
        assert!(refused[13] > 20 && refused[14] > 20, "{refused:?}");
    }

    #[test]
    fn last_input_is_silent() {
        let mut random = Random::new(24);
        for inputs in 2..=8 {
            let draft = draw_with_a_silent_input(&mut random, inputs);
            let silent = [fields("fault", &[inputs, 1])];
            assert_eq!(plan_of(&draft.with_faults(&silent, 1)), refuse(13, 1));
        }
    }

    #[test]
    fn tables_of_circuits_have_their_plans_and_twice_their_coefficients() {
        let mut random = Random::new(25);
        let mut planned = 0;
        for round in 0..300 {
            let drawn = draw_circuit(&mut random, 1 + round % 6);
            let netlist = drawn.only_changing().unwrap_or(drawn);
            let table = table_of(&netlist);
            let found = plan_of(&table);
            assert_eq!(found, plan_of(&netlist), "{netlist:?}");
            planned += usize::from(found.is_ok());
            for fault in 0..=netlist.sizes.faults as u32 + 1 {
                let once = circuit(&netlist.text(), fault, 256);
                let twice = once.map(|list| list.into_iter().map(|z| 2 * z).collect());
                assert_eq!(circuit(&table.text(), fault, 256), twice);
            }
        }
        assert!(planned > 150, "{planned} plans");
    }

    #[test]
    fn damages_change_the_text() {
        let mut random = Random::new(26);
        let refused = try_damages(&mut random, &MARK_DAMAGES, [100, 0], |random, round| {
            draw(random, 1 + round % 8)
        });
        assert!(refused[2] > 100 && refused[15] > 100, "{refused:?}");
    }
}
