//! Circuits with gates of three and four inputs: those of note 2, drawn ones in
//! which gates of every width are mixed, the same circuits written in other ways,
//! the longest text without a sign, and ways to damage lines of gates.

use crate::circuits::{
    fault_fields, fields, gate_fields, line_below, Damage, Draft, Sizes, Sketch,
};
use crate::lines::LINE_LIMIT;
use crate::netlist::WIDTH_LIMIT;
use crate::random::Random;

/// An input stuck, and the gate's own line.
pub const AND_OF_THREE: &str = "circuit,3,1,1,2,1\n\
    gate,and,1,2,3\n\
    output,4,1\n\
    fault,1,0\n\
    fault,4,1\n";

/// One gate is the parity of all inputs.
pub const PARITY_OF_FOUR: &str = "circuit,4,1,1,2,2\n\
    gate,xor,1,2,3,4\n\
    output,5,1\n\
    fault,3,1\n\
    fault,5,1\n";

/// Those texts.
pub const EXAMPLES: [&str; 2] = [AND_OF_THREE, PARITY_OF_FOUR];

/// What each kind but `not` shows of two, three and four inputs: bit r for row r.
pub const TRUTH_VALUES: [(&str, [u32; 3]); 6] = [
    ("and", [0x8, 0x80, 0x8000]),
    ("or", [0xe, 0xfe, 0xfffe]),
    ("nand", [0x7, 0x7f, 0x7fff]),
    ("nor", [0x1, 0x01, 0x0001]),
    ("xor", [0x6, 0x96, 0x6996]),
    ("xnor", [0x9, 0x69, 0x9669]),
];

/// The row values of a gate over so many inputs with these truth values.
pub fn rows_of_gate(inputs: usize, values: u32) -> Vec<i32> {
    (0..1 << inputs)
        .map(|row| (values >> row & 1) as i32)
        .collect()
}

/// A circuit of one gate, whose line is the output and stuck at 1.
pub fn one_gate(inputs: usize, kind: &str, lines: &[usize]) -> Vec<u8> {
    let mut sketch = Sketch::new(inputs);
    let own = sketch.wide_gate(kind, lines);
    sketch.output(own, 1);
    sketch.fault(&[(own, 1)]);
    sketch.draft(1).text()
}

/// The numbers of a gate's fields.
fn read_by(gate: &[String]) -> Vec<usize> {
    let numbers = gate[2..].iter();
    numbers.map(|n| n.parse().expect("a line")).collect()
}

/// The circuit with gates of the same kinds that read other lines: `gate` gives
/// them from the kind, the lines that were read, and the gate's own line.
fn with_gates(draft: &Draft, mut gate: impl FnMut(&str, Vec<usize>, usize) -> Vec<usize>) -> Draft {
    let mut changed = draft.clone();
    for (at, line) in draft.gates().iter().enumerate() {
        let read = gate(&line[1], read_by(line), draft.sizes.inputs + at + 1);
        changed.lines[1 + at] = gate_fields(&line[1], &read);
    }
    changed
}

/// The circuit with no, one or two fields more for each gate but `not`, often a
/// line that the gate reads already.
pub fn widened(random: &mut Random, draft: &Draft) -> Draft {
    with_gates(draft, |kind, mut read, own| {
        let more = match kind {
            "not" => 0,
            _ => random.below(WIDTH_LIMIT + 1 - read.len()),
        };
        for _ in 0..more {
            read.push(match random.below(4) {
                0 => random.pick(&read),
                _ => line_below(random, own),
            });
        }
        read
    })
}

/// A good circuit of gates of every width.
pub fn draw(random: &mut Random, sizes: Sizes) -> Draft {
    let drawn = Draft::draw(random, sizes);
    widened(random, &drawn)
}

/// A circuit of gates of two inputs, most of which get four by a line twice that
/// changes nothing: for `xor` and `xnor` any line, for others one that is there.
pub fn with_repeats(random: &mut Random, draft: &Draft) -> Draft {
    with_gates(draft, |kind, mut read, own| {
        if kind == "not" || random.once_in(8) {
            return read;
        }
        let neutral = match kind {
            "xor" | "xnor" => line_below(random, own),
            _ => random.pick(&read),
        };
        let at = random.below(read.len() + 1);
        read.insert(at, neutral);
        read.push(neutral);
        read
    })
}

/// A circuit of wide gates without silent and hidden faults; those of parities have
/// more often a plan of several labels, or none.
pub fn draw_changing(random: &mut Random, inputs: usize) -> Draft {
    loop {
        let draft = match random.below(3) {
            0 => {
                let sizes = Sizes {
                    inputs,
                    ..Sizes::draw(random)
                };
                draw(random, sizes)
            }
            _ => {
                let cap = random.pick(&[1, 2, 3, 4, 4, 4]);
                let sketch = Sketch::draw(random, inputs).draft(cap);
                with_repeats(random, &sketch)
            }
        };
        if let Some(draft) = draft.only_changing() {
            return draft;
        }
    }
}

/// The circuit with other inputs and gates, and each line of its outputs and
/// faults as `moved` has it.
fn renumbered(
    draft: &Draft,
    inputs: usize,
    gates: Vec<Vec<String>>,
    moved: impl Fn(usize) -> usize,
) -> Draft {
    let sizes = Sizes {
        inputs,
        gates: gates.len(),
        ..draft.sizes
    };
    let mut lines = vec![sizes.head("circuit")];
    lines.extend(gates);
    for line in &draft.lines[1 + draft.sizes.gates..] {
        let mut line = line.clone();
        // Every other number of a fault is a value, and of a bridge none.
        let step = if line[0] == "bridge" { 1 } else { 2 };
        for number in line[1..].iter_mut().step_by(step) {
            *number = moved(number.parse().expect("a line")).to_string();
        }
        lines.push(line);
    }
    Draft { sizes, lines }
}

/// The same function in gates of two inputs: each wide gate is a chain, whose end
/// has its line. None where there are more gates than a circuit can have.
pub fn split(draft: &Draft) -> Option<Draft> {
    let inputs = draft.sizes.inputs;
    let mut moved: Vec<usize> = (0..=inputs).collect();
    let mut gates = Vec::new();
    for gate in draft.gates() {
        let kind = gate[1].as_str();
        let chained = match kind {
            "nand" => "and",
            "nor" => "or",
            "xnor" => "xor",
            _ => kind,
        };
        let read: Vec<usize> = read_by(gate).into_iter().map(|line| moved[line]).collect();
        let (mut before, last) = (read[0], read.len() - 1);
        for (at, &line) in read.iter().enumerate().skip(1) {
            let kind = if at == last { kind } else { chained };
            gates.push(gate_fields(kind, &[before, line]));
            before = inputs + gates.len();
        }
        moved.push(before);
    }
    (gates.len() <= Sizes::LARGEST.gates)
        .then(|| renumbered(draft, inputs, gates, |line| moved[line]))
}

/// The circuit with these lines opened: after its inputs come as many more, which
/// all readers and the outputs have in their places. It has a fault only because a
/// text must. None where there are more inputs than a circuit can have.
pub fn opened(draft: &Draft, lines: &[usize]) -> Option<Draft> {
    let inputs = draft.sizes.inputs + lines.len();
    let shown = |line: usize| match lines.iter().position(|&opened| opened == line) {
        Some(at) => draft.sizes.inputs + 1 + at,
        None if line > draft.sizes.inputs => line + lines.len(),
        None => line,
    };
    let read = with_gates(draft, |_, read, _| read.into_iter().map(shown).collect());
    let opened = renumbered(draft, inputs, read.gates().to_vec(), shown);
    let faults = [fields("fault", &[1, 0])];
    (inputs <= Sizes::LARGEST.inputs).then(|| opened.with_faults(&faults, 1))
}

/// The longest text of weights above 0: every word and number is as long as it can
/// be. The first two gates of eight inputs can read no line of two digits.
pub fn largest(random: &mut Random) -> Draft {
    longest_of(random, WIDTH_LIMIT)
}

/// The same of the texts whose gates have so many line fields.
pub fn longest_of(random: &mut Random, width: usize) -> Draft {
    let sizes = Sizes::LARGEST;
    let mut lines = vec![sizes.head("circuit")];
    for own in 9..=LINE_LIMIT {
        let line = |_| match own {
            9 | 10 => 1 + random.below(own - 1),
            _ => 10.max(line_below(random, own)),
        };
        let read: Vec<usize> = (0..width).map(line).collect();
        lines.push(gate_fields(random.pick(&["nand", "xnor"]), &read));
    }
    for _ in 0..sizes.outputs {
        let line = 10.max(line_below(random, LINE_LIMIT + 1));
        lines.push(fields("output", &[line, 10 + random.below(6)]));
    }
    for _ in 0..sizes.faults {
        let stuck = random.rising(3, |random| 10 + random.below(47));
        lines.push(fault_fields(random, &stuck));
    }
    Draft { sizes, lines }
}

/// The text with a drawn gate's line changed, given the gate's own line; as it
/// was where there is no gate.
fn with_gate(
    random: &mut Random,
    draft: &Draft,
    change: impl Fn(&mut Random, &mut Vec<String>, usize),
) -> Vec<u8> {
    let mut draft = draft.clone();
    if draft.sizes.gates > 0 {
        let line = 1 + random.below(draft.sizes.gates);
        let own = draft.bound(line);
        change(random, &mut draft.lines[line], own);
    }
    draft.text()
}

/// The same with a drawn field that is a number replaced, for each of these
/// ways.
fn with_fields(
    random: &mut Random,
    draft: &Draft,
    ways: &[fn(&mut Random, usize) -> String],
) -> Vec<u8> {
    with_gate(random, draft, |random, gate, own| {
        for way in ways {
            let field = 2 + random.below(gate.len() - 2);
            gate[field] = way(random, own);
        }
    })
}

/// A number that no gate can read, whatever its line.
fn out_of_range(random: &mut Random, _: usize) -> String {
    random.pick(&["0", "57", "58", "100", "9999"]).into()
}

/// The gate's own line or a later one.
fn ahead(random: &mut Random, own: usize) -> String {
    random.pick(&[own, own, own + 1, LINE_LIMIT]).to_string()
}

fn badly_written(random: &mut Random, _: usize) -> String {
    let bad = ["", "01", "00", "+1", "-1", " 1", "1 ", "10000", "x", "1\r"];
    random.pick(&bad).into()
}

/// Ways to damage the line of a gate; now and then the text stays good.
pub const GATE_DAMAGES: [Damage; 9] = [
    Damage {
        name: "a field more",
        apply: |random, draft| {
            with_gate(random, draft, |random, gate, own| {
                gate.push(line_below(random, own).to_string());
            })
        },
    },
    Damage {
        name: "fields fewer",
        apply: |random, draft| {
            with_gate(random, draft, |random, gate, _| {
                let kept = 1 + random.below(gate.len() - 1);
                gate.truncate(kept);
            })
        },
    },
    Damage {
        name: "another kind",
        apply: |random, draft| {
            with_gate(random, draft, |random, gate, _| {
                let kinds = ["not", "not", "xor", "buf", "and3", "AND", "nxor", ""];
                gate[1] = random.pick(&kinds).into();
            })
        },
    },
    Damage {
        name: "`not` of more fields",
        apply: |random, draft| {
            with_gate(random, draft, |random, gate, own| {
                let mut read = vec![line_below(random, own), 0];
                for _ in 0..1 + random.below(2) {
                    read.push(random.below(own));
                }
                *gate = gate_fields("not", &read);
            })
        },
    },
    Damage {
        name: "a field out of range",
        apply: |random, draft| with_fields(random, draft, &[out_of_range]),
    },
    Damage {
        name: "a field ahead",
        apply: |random, draft| with_fields(random, draft, &[ahead]),
    },
    Damage {
        name: "a field badly written",
        apply: |random, draft| with_fields(random, draft, &[badly_written]),
    },
    Damage {
        name: "a field ahead, then one out of range",
        apply: |random, draft| with_fields(random, draft, &[ahead, out_of_range]),
    },
    Damage {
        name: "a field out of range, then one badly written",
        apply: |random, draft| with_fields(random, draft, &[out_of_range, badly_written]),
    },
];

#[cfg(test)]
mod tests {
    use super::*;
    use crate::bridge_texts::with_bridges;
    use crate::circuits::try_damages;
    use crate::devices::circuit;
    use crate::netlist::{parse, Gate, Kind, Netlist};
    use crate::plan::{plan, WORKING_NUMBERS};
    use crate::report::{report, REPORT_ROOM};
    use crate::walsh::{self, number_of};

    fn read(draft: &Draft) -> Netlist {
        parse(&draft.text()).unwrap_or_else(|refusal| panic!("{refusal:?}: {draft:?}"))
    }

    /// How many gates there are of each width, and how many read a line twice.
    fn widths(gates: &[Gate]) -> ([usize; WIDTH_LIMIT + 1], usize) {
        let (mut widths, mut twice) = ([0; WIDTH_LIMIT + 1], 0);
        for gate in gates {
            let lines = &gate.lines[..gate.read];
            widths[gate.read] += 1;
            twice += usize::from((1..gate.read).any(|at| lines[..at].contains(&lines[at])));
        }
        (widths, twice)
    }

    #[test]
    fn examples_of_the_change_request() {
        let due = "plan,1\nlabel,0,1\nfault,1,0,0\nfault,2,0,8\n";
        let found = report(AND_OF_THREE.as_bytes(), REPORT_ROOM, WORKING_NUMBERS);
        assert_eq!(found, Ok(due.into()));
        let mut due = vec![0; 16];
        (due[0], due[15]) = (8, -8);
        assert_eq!(circuit(PARITY_OF_FOUR.as_bytes(), 0, 16), Ok(due));
    }

    #[test]
    fn drawn_circuits_mix_widths_and_repeat_lines() {
        let mut random = Random::new(60);
        let (mut gates, mut all) = (0, [0; WIDTH_LIMIT + 1]);
        let (mut repeats, mut stuck) = (0, [0; WIDTH_LIMIT + 1]);
        let mut kinds = [[0; 7]; WIDTH_LIMIT + 1];
        for _ in 0..400 {
            let sizes = Sizes::draw(&mut random);
            let netlist = read(&draw(&mut random, sizes));
            assert_eq!(netlist.gates.len(), sizes.gates);
            let (found, twice) = widths(&netlist.gates);
            gates += sizes.gates;
            repeats += twice;
            (1..=WIDTH_LIMIT).for_each(|width| all[width] += found[width]);
            for gate in &netlist.gates {
                kinds[gate.read][gate.kind as usize] += 1;
            }
            for line in netlist.faults.iter().flat_map(|fault| fault.stuck()) {
                if let Some(at) = line.line.checked_sub(sizes.inputs + 1) {
                    stuck[netlist.gates[at].read] += 1;
                }
            }
        }
        assert!(gates > 8000 && repeats > 2000, "{repeats} of {gates}");
        assert!(all[1..].iter().all(|&count| count > 1000), "{all:?}");
        assert!(stuck[1..].iter().all(|&count| count > 500), "{stuck:?}");
        for (width, kinds) in kinds.iter().enumerate() {
            for (kind, &count) in kinds.iter().enumerate() {
                let is_not = kind == Kind::Not as usize;
                let can_be = is_not == (width == 1) && width > 0;
                assert_eq!((count > 100, count == 0), (can_be, !can_be), "{kinds:?}");
            }
        }
    }

    /// The rows of both, sound and under each fault.
    fn assert_same(draft: &Draft, other: &Draft) {
        let (first, second) = (read(draft), read(other));
        for fault in 0..=draft.sizes.faults as u32 {
            assert_eq!(first.rows(fault), second.rows(fault), "{draft:?}");
        }
    }

    #[test]
    fn repeats_change_no_row() {
        let mut random = Random::new(61);
        let (mut wide, mut narrow) = (0, 0);
        for _ in 0..200 {
            let sizes = Sizes::draw(&mut random);
            let draft = Draft::draw(&mut random, sizes);
            let repeated = with_repeats(&mut random, &draft);
            assert_same(&draft, &repeated);
            let (found, _) = widths(&read(&repeated).gates);
            wide += found[4];
            narrow += found[2];
        }
        assert!(wide > 3000 && narrow > 300, "{wide} and {narrow}");
    }

    #[test]
    fn split_circuits_have_equal_rows() {
        let mut random = Random::new(62);
        let (mut found, mut moved, mut too_many) = (0, 0, 0);
        for _ in 0..400 {
            let sizes = Sizes::draw(&mut random);
            let drawn = draw(&mut random, sizes);
            let draft = with_bridges(&mut random, &drawn);
            let Some(narrow) = split(&draft) else {
                too_many += 1;
                continue;
            };
            assert!(narrow.gates().iter().all(|gate| gate.len() == 4));
            assert_same(&draft, &narrow);
            found += 1;
            moved += usize::from(narrow.sizes.gates > draft.sizes.gates);
        }
        assert!(found > 100 && moved > 100, "{found}, moved {moved}");
        assert!(too_many > 50, "more than 48 gates: {too_many}");
    }

    /// A value for each opened line, and the call on coefficients alone.
    #[test]
    fn opened_circuits_have_the_rows_of_stuck_lines() {
        let mut random = Random::new(63);
        let (mut changed, mut too_many) = (0, 0);
        for round in 0..300 {
            let drawn = Sizes::draw(&mut random);
            let sizes = Sizes {
                inputs: 1 + round % 8,
                faults: 1,
                ..drawn
            };
            let draft = draw(&mut random, sizes);
            let netlist = read(&draft);
            let stuck = netlist.faults[0].stuck();
            let lines: Vec<usize> = stuck.iter().map(|stuck| stuck.line).collect();
            let Some(opened) = opened(&draft, &lines) else {
                too_many += 1;
                continue;
            };
            let rows = read(&opened).rows(0).expect("fault 0");
            let bits = stuck
                .iter()
                .rev()
                .fold(0, |bits, stuck| 2 * bits + usize::from(stuck.value));
            let length = 1 << sizes.inputs;
            let due = netlist.rows(1).expect("fault 1");
            assert_eq!(rows[bits * length..][..length], due, "{draft:?}");
            let spectrum = walsh::spectrum(&rows, rows.len()).expect("rows in range");
            let values: Vec<u32> = stuck.iter().map(|stuck| stuck.value.into()).collect();
            let found = walsh::opened(&spectrum, &values, length);
            assert_eq!(found, walsh::spectrum(&due, length), "{draft:?}");
            changed += usize::from(netlist.rows(0) != Ok(due));
        }
        assert!(changed > 80, "{changed} faults that change rows");
        assert!(too_many > 20, "more than 8 inputs: {too_many}");
    }

    #[test]
    fn changing_circuits_have_plans_of_every_size_and_none() {
        let mut random = Random::new(64);
        let (mut sizes, mut wide) = ([0; 5], 0);
        for round in 0..500 {
            // Without a plan every set is tried, which takes long for many
            // labels.
            let draft = draw_changing(&mut random, 2 + round % 5);
            let (found, _) = widths(&read(&draft).gates);
            wide += usize::from(found[3] + found[4] > 0);
            let found = plan(&draft.text(), WORKING_NUMBERS);
            assert!([0, 14].contains(&number_of(&found)), "{draft:?}");
            sizes[found.map_or(0, |plan| plan.len())] += 1;
        }
        assert!(sizes.iter().all(|&count| count >= 5), "{sizes:?}");
        assert!(wide > 480, "{wide} circuits with wide gates");
    }

    #[test]
    fn the_longest_text() {
        let mut random = Random::new(65);
        for _ in 0..20 {
            let draft = largest(&mut random);
            assert_eq!(draft.text().len(), 1_792, "{draft:?}");
            let netlist = read(&draft);
            assert_eq!(draft.sizes, Sizes::LARGEST);
            assert_eq!(widths(&netlist.gates).0, [0, 0, 0, 0, 48]);
            assert!(netlist.faults.iter().all(|fault| fault.stuck().len() == 3));
        }
    }

    #[test]
    fn damages_change_the_text() {
        let mut random = Random::new(66);
        let refused = try_damages(&mut random, &GATE_DAMAGES, [120, 60], |random, _| {
            let sizes = Sizes::draw(random);
            draw(random, sizes)
        });
        for number in [0, 2, 3, 4] {
            assert!(refused[number] > 100, "{refused:?}");
        }
    }
}
