//! Circuits in which weights hide what a fault changes: those of note 5, drawn ones
//! of equal and of opposite weights, of lines with their complements and of lines
//! that are outputs more than once, lists of faults with a chosen effect at each
//! place, and the largest.

use crate::bridge_texts::{bridge_fields, with_bridges};
use crate::circuits::{fields, gate_fields, near_labels, Draft, Sizes, Sketch};
use crate::devices;
use crate::netlist::OUTPUT_LIMIT;
use crate::random::Random;
use crate::signed_texts::{weights, with_weights};
use crate::wide_texts;

/// An input and its complement: on row 1 they change places.
pub const EXCHANGED_OUTPUTS: &str = "circuit,1,1,2,1,1\n\
    gate,not,1,0\n\
    output,1,1\n\
    output,2,1\n\
    fault,1,0\n";

/// An input that is an output twice, added and subtracted.
pub const OPPOSITE_WEIGHTS: &str = "circuit,1,0,2,1,1\n\
    output,1,1\n\
    output,1,-1\n\
    fault,1,0\n";

/// The first circuit with a gate that nothing reads, which is stuck behind the
/// hidden fault.
pub const SILENT_BEHIND_HIDDEN: &str = "circuit,1,2,2,2,1\n\
    gate,not,1,0\n\
    gate,xor,1,1\n\
    output,1,1\n\
    output,2,1\n\
    fault,1,0\n\
    fault,3,1\n";

/// The same complements under a bridge, which lowers x1 on row 1.
pub const HIDDEN_BRIDGE: &str = "circuit,2,1,2,1,1\n\
    gate,not,1,0\n\
    output,1,-3\n\
    output,3,-3\n\
    bridge,1,2\n";

/// Three outputs that rise together, of which two cancel out the first.
pub const THREE_OUTPUTS: &str = "circuit,2,2,3,1,4\n\
    gate,nand,1,2,2\n\
    gate,and,1,2\n\
    output,4,15\n\
    output,4,-7\n\
    output,4,-8\n\
    fault,1,1\n";

/// Those texts, each with the number and the place that refuse its plan.
pub const EXAMPLES: [(&str, u32, usize); 5] = [
    (EXCHANGED_OUTPUTS, 16, 1),
    (OPPOSITE_WEIGHTS, 16, 1),
    (SILENT_BEHIND_HIDDEN, 13, 2),
    (HIDDEN_BRIDGE, 16, 1),
    (THREE_OUTPUTS, 16, 1),
];

/// What a fault does to a circuit.
#[derive(Clone, Copy, Debug, PartialEq, Eq)]
pub enum Effect {
    /// No output changes on any row.
    Silent,
    /// Some output changes, and no row's value.
    Hidden,
    /// Some row's value changes.
    Changing,
}

/// The effect of each of the text's faults.
pub fn effects(draft: &Draft) -> Vec<Effect> {
    let device = devices::parse(&draft.text()).expect("a good text");
    let (shown, rows) = (device.shown(0), device.rows(0));
    (1..=draft.sizes.faults as u32)
        .map(|fault| {
            if device.rows(fault) != rows {
                Effect::Changing
            } else if device.shown(fault) != shown {
                Effect::Hidden
            } else {
                Effect::Silent
            }
        })
        .collect()
}

/// The text with the faults of these effects only; none where there are none.
pub fn with_effects(draft: &Draft, effects_kept: &[Effect]) -> Option<Draft> {
    let of_faults = draft.faults().iter().zip(effects(draft));
    let kept: Vec<_> = of_faults
        .filter(|(_, effect)| effects_kept.contains(effect))
        .map(|(line, _)| line.clone())
        .collect();
    (!kept.is_empty()).then(|| draft.with_faults(&kept, draft.sizes.cap))
}

/// The circuit with the complement of a line, on a line of its own.
fn with_complement(draft: &Draft, line: &str) -> Draft {
    let mut changed = draft.clone();
    changed.sizes.gates += 1;
    changed.lines[0] = changed.sizes.head("circuit");
    let mut gate = gate_fields("not", &[]);
    gate.extend([line.into(), "0".into()]);
    changed.lines.insert(changed.sizes.gates, gate);
    changed
}

/// The circuit, of less than 48 gates, with outputs that can cancel out: equal
/// weights, opposite ones, a line and its complement, one line twice or three
/// times. What is left of its own outputs comes last, or is left out.
pub fn with_cancelling_outputs(random: &mut Random, draft: &Draft) -> Draft {
    let first = draft.outputs()[0][1].clone();
    let weight = random.pick(&[1, 1, 2, -3, 5, 7, -7]);
    let (draft, cancelling) = match random.below(5) {
        // Of any lines.
        way @ (0 | 1) => {
            let count = draft.sizes.outputs;
            let signs = [1, if way == 0 { 1 } else { -1 }];
            let equal: Vec<i32> = signs
                .iter()
                .cycle()
                .take(count)
                .map(|s| s * weight)
                .collect();
            return with_weights(draft, &equal);
        }
        2 => {
            let changed = with_complement(draft, &first);
            let last = changed.sizes.inputs + changed.sizes.gates;
            let lines = [(first, weight), (last.to_string(), weight)];
            (changed, lines.to_vec())
        }
        3 => {
            let lines = [(first.clone(), weight), (first, -weight)];
            (draft.clone(), lines.to_vec())
        }
        _ => {
            let weights = [2 * weight, -weight, -weight];
            let lines = weights.map(|weight| (first.clone(), weight));
            (draft.clone(), lines.to_vec())
        }
    };
    let mut outputs: Vec<Vec<String>> = cancelling
        .into_iter()
        .map(|(line, weight)| vec!["output".into(), line, weight.to_string()])
        .collect();
    outputs.extend_from_slice(&draft.outputs()[1..]);
    outputs.truncate(OUTPUT_LIMIT - random.below(2));
    draft.with_outputs(&outputs)
}

/// A good circuit of gates of every width whose outputs can cancel out, with
/// bridges every other time.
pub fn draw(random: &mut Random, sizes: Sizes) -> Draft {
    let fewer = Sizes {
        gates: sizes.gates.min(Sizes::LARGEST.gates - 1),
        ..sizes
    };
    let drawn = wide_texts::draw(random, fewer);
    let draft = with_cancelling_outputs(random, &drawn);
    match random.below(2) {
        0 => draft,
        _ => with_bridges(random, &draft),
    }
}

/// Two outputs of equal weight whose sum the stuck lines of one label change, and
/// of three; of two they are the complements of one another, as in the sound
/// circuit. With a line that nothing reads. So many faults of each effect come as
/// are asked for, in a drawn order.
pub fn paired(
    random: &mut Random,
    inputs: usize,
    cap: usize,
    [changing, hidden, silent]: [usize; 3],
) -> Draft {
    let most = 6.min(1 << inputs);
    let count = 2 + random.below(most - 1);
    let labels = near_labels(random, inputs, count);
    let weight = 1 + random.below(15);
    let mut sketch = Sketch::paired(inputs, &labels, weight);
    let unread = sketch.zero();
    let draft = sketch.draft(cap);
    let stuck: Vec<usize> = draft
        .faults()
        .iter()
        .map(|fault| fault[1].parse().expect("a line"))
        .collect();
    let mut faults = Vec::new();
    for _ in 0..changing {
        let several = stuck.len() > 2 && random.once_in(4);
        faults.push(raised(random, &stuck, if several { 3 } else { 1 }));
    }
    for _ in 0..hidden {
        faults.push(raised(random, &stuck, 2));
    }
    for _ in 0..silent {
        faults.push(fields("fault", &[unread, random.below(2)]));
    }
    for at in (1..faults.len()).rev() {
        faults.swap(at, random.below(at + 1));
    }
    draft.with_faults(&faults, cap)
}

/// A fault that sticks so many of the lines at 1.
fn raised(random: &mut Random, lines: &[usize], count: usize) -> Vec<String> {
    let chosen = random.rising(count, |random| random.pick(lines));
    let pairs: Vec<usize> = chosen.iter().flat_map(|&line| [line, 1]).collect();
    fields("fault", &pairs)
}

/// A circuit whose plan call ends in 13, in 16, in 14 and in a plan rather often.
pub fn draw_outcomes(random: &mut Random, inputs: usize) -> Draft {
    use Effect::{Changing, Hidden, Silent};
    let of_effects = random.below(4);
    if random.once_in(2) {
        let cap = random.pick(&[1, 2, 3, 4, 4]);
        let changing = 1 + random.below(10);
        let [hidden, silent] = [of_effects < 2, of_effects == 0];
        let [hidden, silent] = [hidden, silent].map(|there| match there {
            true => 1 + random.below(3),
            false => 0,
        });
        return paired(random, inputs, cap, [changing, hidden, silent]);
    }
    loop {
        let drawn = Sizes::draw(random);
        let draft = draw(random, Sizes { inputs, ..drawn });
        let kept = match of_effects {
            0 => &[Silent, Hidden, Changing][..],
            1 | 2 => &[Hidden, Changing],
            _ => &[Changing],
        };
        if let Some(draft) = with_effects(&draft, kept) {
            return draft;
        }
    }
}

/// x1 and its complement, line 4, of one weight, and x2; nothing reads x3 and
/// line 5.
const EACH_EFFECT: &str = "gate,not,1,0\ngate,xor,1,2,3\n\
    output,1,2\noutput,2,-1\noutput,4,2\n";

/// The lines of faults of that circuit by their effect.
fn lines_of(effect: Effect) -> &'static [&'static str] {
    match effect {
        Effect::Silent => &[
            "fault,3,0",
            "fault,5,1",
            "fault,3,1",
            "fault,5,0",
            "fault,3,0,5,1",
            "fault,3,1,5,1",
        ],
        Effect::Hidden => &[
            "fault,1,0",
            "bridge,1,3",
            "fault,1,1",
            "fault,1,0,3,1",
            "fault,1,1,5,0",
            "fault,1,0,4,1",
        ],
        Effect::Changing => &[
            "fault,2,0",
            "fault,2,1",
            "bridge,1,2",
            "fault,4,0",
            "bridge,2,3",
            "fault,1,0,2,1",
        ],
    }
}

/// A circuit with so many faults, each with the effect that is chosen for its
/// place (from 1).
pub fn effects_by_place(faults: usize, cap: usize, effect: impl Fn(usize) -> Effect) -> Vec<u8> {
    let mut text = format!("circuit,3,2,3,{faults},{cap}\n{EACH_EFFECT}");
    for place in 1..=faults {
        let lines = lines_of(effect(place));
        text += lines[place % lines.len()];
        text += "\n";
    }
    text.into_bytes()
}

/// A circuit of the largest size with 32 faults, of which the first is hidden; each
/// other one changes a row's value, so that the outputs under all of them have to
/// be compared.
pub fn largest(random: &mut Random) -> Draft {
    let sizes = Sizes {
        gates: Sizes::LARGEST.gates - 1,
        ..Sizes::LARGEST
    };
    loop {
        let drawn = Draft::draw(random, sizes);
        let first = drawn.outputs()[0].clone();
        let draft = with_complement(&drawn, &first[1]);
        let mut outputs = draft.outputs().to_vec();
        let last = draft.sizes.inputs + draft.sizes.gates;
        outputs[1] = vec!["output".into(), last.to_string(), first[2].clone()];
        let draft = draft.with_outputs(&outputs);
        let [hidden, changing] =
            [Effect::Hidden, Effect::Changing].map(|effect| with_effects(&draft, &[effect]));
        if let (Some(hidden), Some(changing)) = (hidden, changing) {
            let mut faults = vec![hidden.faults()[0].clone()];
            let others = changing.faults().iter().cycle();
            faults.extend(others.take(Sizes::LARGEST.faults - 1).cloned());
            return draft.with_faults(&faults, draft.sizes.cap);
        }
    }
}

/// The circuit with its outputs in another order; 0 is the first.
pub fn permuted(draft: &Draft, order: &[usize]) -> Draft {
    let outputs: Vec<_> = order
        .iter()
        .map(|&at| draft.outputs()[at].clone())
        .collect();
    draft.with_outputs(&outputs)
}

/// The circuit with each weight times this.
pub fn scaled(draft: &Draft, by: i32) -> Draft {
    let scaled: Vec<i32> = weights(draft).iter().map(|weight| by * weight).collect();
    with_weights(draft, &scaled)
}

/// The circuit with the weights 1, 2, 4 and 8: each choice of outputs has a sum of
/// its own, so that nothing is hidden.
pub fn told_apart(draft: &Draft) -> Draft {
    let powers = [1, 2, 4, 8];
    with_weights(draft, &powers[..draft.sizes.outputs])
}

/// Five faults of one label each with a cap of four, which have no plan, and a
/// hidden and a silent one: two of the stuck lines at once, and a line that nothing
/// reads.
pub fn no_set(random: &mut Random, inputs: usize) -> (Draft, [Vec<String>; 2]) {
    let labels = near_labels(random, inputs, 5);
    let mut sketch = Sketch::paired(inputs, &labels, 2);
    let unread = sketch.zero();
    let draft = sketch.draft(4);
    let stuck: Vec<usize> = draft.faults()[..2]
        .iter()
        .map(|fault| fault[1].parse().expect("a line"))
        .collect();
    let hidden = fields("fault", &[stuck[0], 1, stuck[1], 1]);
    (draft, [hidden, fields("fault", &[unread, 1])])
}

/// A circuit whose one fault changes two outputs, those at the places `raised` and
/// `lowered` (0 is the first), and on this row only. The two others, if there are
/// so many weights, always show 0 and 1.
pub fn on_one_row(
    inputs: usize,
    row: usize,
    [raised, lowered]: [usize; 2],
    weights: &[i32],
) -> Draft {
    let mut sketch = Sketch::new(inputs);
    let zero = sketch.zero();
    let literals: Vec<usize> = (1..=inputs)
        .map(|input| match row & 1 << (input - 1) {
            0 => sketch.gate("not", input, 0),
            _ => input,
        })
        .collect();
    let product = sketch.chain("and", &literals);
    let rising = sketch.gate("and", zero, product);
    let falling = sketch.gate("nand", rising, rising);
    let constant = [sketch.zero(), sketch.gate("xnor", 1, 1)];
    let mut others = constant.iter().cycle();
    for at in 0..weights.len() {
        let line = match at {
            _ if at == raised => rising,
            _ if at == lowered => falling,
            _ => *others.next().expect("a line"),
        };
        sketch.output(line, 1);
    }
    sketch.fault(&[(zero, 1)]);
    with_weights(&sketch.draft(1), weights)
}

/// A circuit of one output, and as many bridges and stuck lines as there can be.
pub fn of_one_output(random: &mut Random, inputs: usize) -> Draft {
    let sizes = Sizes {
        inputs,
        outputs: 1,
        faults: Sizes::LARGEST.faults,
        ..Sizes::draw(random)
    };
    let drawn = wide_texts::draw(random, sizes);
    match inputs {
        1 => drawn,
        _ => {
            let mut faults = drawn.faults().to_vec();
            faults[0] = bridge_fields(1, 2);
            drawn.with_faults(&faults, drawn.sizes.cap)
        }
    }
}

#[cfg(test)]
mod tests {
    use super::*;
    use crate::netlist::{parse, WEIGHT_LIMIT};
    use crate::plan::{plan, WORKING_NUMBERS};
    use crate::report::{report, REPORT_ROOM};
    use crate::signed_texts::negated;
    use crate::walsh::{number_of, refuse, Refusal};

    fn plan_of(text: &[u8]) -> Result<Vec<usize>, Refusal> {
        plan(text, WORKING_NUMBERS)
    }

    fn report_on(text: &str) -> String {
        let report = report(text.as_bytes(), REPORT_ROOM, WORKING_NUMBERS).expect("room enough");
        String::from_utf8(report).expect("plain text")
    }

    #[test]
    fn examples_of_the_change_request() {
        for (text, number, place) in EXAMPLES {
            assert_eq!(plan_of(text.as_bytes()), refuse(number, place), "{text}");
            assert_eq!(report_on(text), format!("refused,{number},{place}\n"));
            let short = plan(text.as_bytes(), WORKING_NUMBERS - 1);
            assert_eq!(short, refuse(8, 0), "{text}");
        }
    }

    #[test]
    fn outputs_of_the_examples_by_hand() {
        let netlist = parse(EXCHANGED_OUTPUTS.as_bytes()).expect("a good text");
        assert_eq!(netlist.shown(0), Ok(vec![0b10, 0b01]));
        assert_eq!(netlist.shown(1), Ok(vec![0b10; 2]));
        assert_eq!(netlist.rows(0), Ok(vec![1; 2]));
        assert_eq!(netlist.rows(1), Ok(vec![1; 2]));
        assert_eq!(netlist.shown(2), refuse(12, 0));
        let netlist = parse(OPPOSITE_WEIGHTS.as_bytes()).expect("a good text");
        assert_eq!(netlist.shown(0), Ok(vec![0b00, 0b11]));
        assert_eq!(netlist.shown(1), Ok(vec![0b00; 2]));
        assert_eq!(netlist.rows(0), Ok(vec![0; 2]));
        let netlist = parse(HIDDEN_BRIDGE.as_bytes()).expect("a good text");
        let [zero, one] = [0b10, 0b01];
        assert_eq!(netlist.shown(0), Ok(vec![zero, one, zero, one]));
        assert_eq!(netlist.shown(1), Ok(vec![zero, zero, zero, one]));
        assert_eq!(netlist.rows(1), Ok(vec![-3; 4]));
    }

    /// 13 goes by the first silent fault of the whole list, 16 by the first hidden
    /// one where none is silent.
    #[test]
    fn every_outcome_is_drawn() {
        let mut random = Random::new(80);
        let (mut outcomes, mut places) = ([0; 20], [0; 33]);
        let (mut bridges, mut wide, mut sizes) = (0, 0, [0; 5]);
        for round in 0..800 {
            let draft = draw_outcomes(&mut random, 1 + round % 6);
            let found = plan_of(&draft.text());
            let effects = effects(&draft);
            let first = |effect| effects.iter().position(|&other| other == effect);
            match (first(Effect::Silent), first(Effect::Hidden), &found) {
                (Some(at), _, found) => assert_eq!(*found, refuse(13, at + 1), "{draft:?}"),
                (_, Some(at), found) => {
                    assert_eq!(*found, refuse(16, at + 1), "{draft:?}");
                    places[at + 1] += 1;
                }
                (_, _, found) => assert!([0, 14].contains(&number_of(found)), "{draft:?}"),
            }
            outcomes[number_of(&found) as usize] += 1;
            let netlist = parse(&draft.text()).expect("a good circuit");
            bridges += netlist
                .faults
                .iter()
                .filter(|f| f.bridge().is_some())
                .count();
            wide += netlist.gates.iter().filter(|gate| gate.read > 2).count();
            sizes[found.map_or(0, |labels| labels.len())] += 1;
        }
        for number in [0, 13, 14, 16] {
            assert!(outcomes[number] > 60, "{outcomes:?}");
        }
        assert!(places[1..=8].iter().all(|&count| count > 0), "{places:?}");
        assert!(bridges > 800 && wide > 2000, "{bridges}, {wide}");
        assert!(sizes.iter().all(|&count| count > 4), "{sizes:?}");
    }

    #[test]
    fn cancelling_outputs_hide_faults() {
        let mut random = Random::new(81);
        let (mut seen, mut outputs) = ([0; 3], [0; 5]);
        let mut ways = [0; 4];
        for _ in 0..600 {
            let sizes = Sizes::draw(&mut random);
            let draft = draw(&mut random, sizes);
            for effect in effects(&draft) {
                seen[effect as usize] += 1;
            }
            outputs[draft.sizes.outputs] += 1;
            let (weights, lines) = (weights(&draft), draft.outputs());
            let pairs = || (0..weights.len()).flat_map(|b| (0..b).map(move |a| (a, b)));
            ways[0] += usize::from(pairs().any(|(a, b)| weights[a] == weights[b]));
            ways[1] += usize::from(pairs().any(|(a, b)| weights[a] == -weights[b]));
            ways[2] += usize::from(pairs().any(|(a, b)| lines[a][1] == lines[b][1]));
            let last = draft.sizes.inputs + draft.sizes.gates;
            ways[3] += usize::from(lines.iter().any(|line| line[1] == last.to_string()));
        }
        assert!(seen.iter().all(|&count| count > 1000), "{seen:?}");
        assert!(outputs[1..].iter().all(|&count| count > 20), "{outputs:?}");
        assert!(ways.iter().all(|&count| count > 100), "{ways:?}");
    }

    #[test]
    fn paired_circuits_have_the_effects_asked_for() {
        let mut random = Random::new(82);
        for round in 0..160 {
            let asked = [0; 3].map(|_| random.below(11));
            if asked == [0; 3] {
                continue;
            }
            let draft = paired(&mut random, 1 + round % 8, 4, asked);
            let found = effects(&draft);
            let count = |effect| found.iter().filter(|&&other| other == effect).count();
            let [silent, hidden, changing] =
                [Effect::Silent, Effect::Hidden, Effect::Changing].map(count);
            assert_eq!([changing, hidden, silent], asked, "{draft:?}");
        }
    }

    #[test]
    fn effects_stand_where_they_are_asked_for() {
        let all = [Effect::Silent, Effect::Hidden, Effect::Changing];
        for (at, &effect) in all.iter().enumerate() {
            let text = effects_by_place(32, 4, |_| effect);
            let found = number_of(&plan_of(&text));
            assert_eq!(found, [13, 16, 0][at]);
        }
        for shift in 0..3 {
            let text = effects_by_place(32, 1, |place| all[(place + shift) % 3]);
            let device = devices::parse(&text).expect("a good text");
            let (shown, rows) = (device.shown(0), device.rows(0));
            for place in 1..=32 {
                let fault = place as u32;
                let found = [device.shown(fault) != shown, device.rows(fault) != rows];
                let due = match all[(place + shift) % 3] {
                    Effect::Silent => [false, false],
                    Effect::Hidden => [true, false],
                    Effect::Changing => [true, true],
                };
                assert_eq!(found, due, "fault {place} of {}", text.escape_ascii());
            }
        }
    }

    #[test]
    fn the_largest_circuit() {
        let mut random = Random::new(83);
        for _ in 0..20 {
            let draft = largest(&mut random);
            assert_eq!(
                draft.sizes,
                Sizes {
                    cap: draft.sizes.cap,
                    ..Sizes::LARGEST
                }
            );
            let effects = effects(&draft);
            assert_eq!(effects[0], Effect::Hidden);
            assert!(effects[1..]
                .iter()
                .all(|&effect| effect == Effect::Changing));
            assert_eq!(plan_of(&draft.text()), refuse(16, 1));
        }
    }

    #[test]
    fn weights_change_no_silent_fault() {
        let mut random = Random::new(84);
        let mut hidden = 0;
        for round in 0..200 {
            let draft = draw_outcomes(&mut random, 1 + round % 5);
            let due = effects(&draft);
            let order: Vec<usize> = (0..draft.sizes.outputs).rev().collect();
            for other in [negated(&draft), permuted(&draft, &order)] {
                assert_eq!(effects(&other), due, "{draft:?}");
            }
            let heaviest = weights(&draft).iter().map(|w| w.abs()).max();
            if heaviest.is_some_and(|weight| 2 * weight <= WEIGHT_LIMIT) {
                assert_eq!(effects(&scaled(&draft, -2)), due, "{draft:?}");
            }
            for (apart, effect) in effects(&told_apart(&draft)).into_iter().zip(due) {
                let due = match effect {
                    Effect::Silent => Effect::Silent,
                    _ => Effect::Changing,
                };
                assert_eq!(apart, due, "{draft:?}");
                hidden += usize::from(effect == Effect::Hidden);
            }
        }
        assert!(hidden > 300, "hidden faults: {hidden}");
    }

    #[test]
    fn no_set_hidden_and_silent() {
        let mut random = Random::new(85);
        for inputs in 3..=5 {
            let (draft, [hidden, silent]) = no_set(&mut random, inputs);
            assert_eq!(plan_of(&draft.text()), refuse(14, 0));
            let mut faults = draft.faults().to_vec();
            faults.push(hidden);
            assert_eq!(
                plan_of(&draft.with_faults(&faults, 4).text()),
                refuse(16, 6)
            );
            faults.push(silent);
            assert_eq!(
                plan_of(&draft.with_faults(&faults, 4).text()),
                refuse(13, 7)
            );
        }
    }

    #[test]
    fn one_row_changes() {
        for (inputs, row) in [(1, 0), (1, 1), (3, 5), (8, 0), (8, 127), (8, 255)] {
            for (weights, effect) in [
                (&[3, 3][..], Effect::Hidden),
                (&[3, -3], Effect::Changing),
                (&[-2, 1, -2, 1], Effect::Changing),
                (&[1, -2, 1, -2], Effect::Changing),
                (&[-7; 4], Effect::Hidden),
            ] {
                let draft = on_one_row(inputs, row, [0, 1], weights);
                assert_eq!(effects(&draft), [effect], "{draft:?}");
                let netlist = parse(&draft.text()).expect("a good circuit");
                let [sound, faulted] = [0, 1].map(|fault| netlist.shown(fault).expect("rows"));
                let differ = |row: &usize| sound[*row] != faulted[*row];
                let rows: Vec<usize> = (0..1 << inputs).filter(differ).collect();
                assert_eq!(rows, [row]);
            }
        }
    }

    #[test]
    fn one_output_hides_nothing() {
        let mut random = Random::new(86);
        for round in 0..200 {
            let draft = of_one_output(&mut random, 1 + round % 8);
            assert!(!effects(&draft).contains(&Effect::Hidden), "{draft:?}");
        }
    }
}
