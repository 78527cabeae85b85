//! Weights with a sign: the static library's calls on texts against the second
//! implementation, with noise in and around all that is lent. First what follows
//! from note 4 without it. The program and the stack have their own files, and so
//! have readings of every kind and the plans of small circuits.

use differential::both::Both;
use differential::calls::{
    self, library_circuit, library_circuit_rows, library_plan, library_report, of_labels, refused,
    Bits, Comparison, Measured, CONSTRAINED, PLAIN, WEIGHTED,
};
use differential::lent::Shown;
use differential::library;
use differential::outcomes::written;
use second::bridge_texts::with_bridges;
use second::circuits::{with_line, Damage, Draft, Sizes, Sketch, DAMAGES};
use second::hidden_texts::{told_apart, SILENT_BEHIND_HIDDEN};
use second::netlist::{self, Netlist, CIRCUIT_LIMIT, CIRCUIT_ROW_LIMIT};
use second::random::Random;
use second::signed_texts::{
    cancelled, constant, draw, draw_changing, every_weight, input_of_weight, largest, negated,
    weights, with_weights, BAD_WEIGHTS, CANCELLED_FAULT, EXAMPLES, OUTPUT_DAMAGES,
    SUBTRACTED_INPUT, SUBTRACTED_LISTING, WEIGHTS_OUT_OF_RANGE,
};
use second::wide_texts::opened;

const SEED: u64 = 0x5349_474e_4544_0000;

/// The bit that is set of every negative binary64; alone it is -0.
const SIGN: u64 = 1 << 63;

/// Outputs of which two cancel out until line 4 is stuck, and an inner line that is
/// subtracted.
const MIXED: &str = "circuit,3,3,3,3,2\n\
    gate,nand,1,2,3\n\
    gate,not,4,0\n\
    gate,xor,5,1\n\
    output,6,-15\n\
    output,4,7\n\
    output,5,7\n\
    fault,4,1\n\
    fault,2,0,6,1\n\
    bridge,1,3\n";

/// A circuit of any size but for its inputs.
fn draw_of(random: &mut Random, inputs: usize) -> Draft {
    let drawn = Sizes::draw(random);
    draw(random, Sizes { inputs, ..drawn })
}

/// The same with bridges every other time.
fn draw_mixed(random: &mut Random, round: usize, inputs: usize) -> Draft {
    let draft = draw_of(random, inputs);
    match round % 2 {
        0 => draft,
        _ => with_bridges(random, &draft),
    }
}

fn read(draft: &Draft) -> Netlist {
    netlist::parse(&draft.text()).expect("a good circuit")
}

/// The library's coefficients, sound and under each fault.
fn library_spectra(draft: &Draft) -> Vec<Vec<i32>> {
    let (text, length) = (draft.text(), 1 << draft.sizes.inputs);
    (0..=draft.sizes.faults as u32)
        .map(|fault| library_circuit(&text, fault, length))
        .collect()
}

/// The library's reading and pair, without the second implementation.
fn measured(text: &[u8], mask: u32, values: u32) -> Measured {
    Measured::found(library::reading(text, mask, values))
}

fn compared(text: &[u8], fault: u32, mask: u32, values: u32) -> Comparison {
    Comparison::found(library::pair(text, fault, mask, values))
}

fn negatives(numbers: &[i32]) -> Vec<i32> {
    numbers.iter().map(|number| -number).collect()
}

/// How many numbers are below, at and above 0.
fn add_signs(signs: &mut [usize; 3], numbers: &[i32]) {
    for number in numbers {
        signs[(number.signum() + 1) as usize] += 1;
    }
}

/// 0 for a reading below 0, 1 for 0, 2 above.
fn sign_of(Bits(bits): Bits) -> usize {
    match bits {
        0 => 1,
        SIGN.. => 0,
        _ => 2,
    }
}

/// Counts a number that is 0 or at an end of a range.
fn at_an_end(ends: &mut [usize; 3], number: f64, limit: i32) {
    for (end, count) in [-limit, 0, limit].into_iter().zip(ends) {
        *count += usize::from(number == f64::from(end));
    }
}

/// A fixture of so many inputs; none or all of them are fixed rather often.
fn fixture(random: &mut Random, inputs: usize) -> (u32, u32) {
    let all: u32 = (1 << inputs) - 1;
    let mask = match random.below(4) {
        0 => 0,
        1 => all,
        _ => random.noise() as u32 & all,
    };
    (mask, random.noise() as u32 & mask)
}

// Without the second implementation.

#[test]
fn examples_of_the_change_request() {
    let text = SUBTRACTED_LISTING.as_bytes();
    assert_eq!(library_plan(text), of_labels(&[1]));
    let due = "plan,1\nlabel,1,2\nfault,1,1,0\nfault,2,1,4\n";
    assert_eq!(library_report(text), due);
    assert_eq!(library_circuit(text, 0, 8), [-4, 2, 0, -2, 2, 0, 2, 0]);
    assert_eq!(library_circuit(text, 2, 8), [-4, 4, 0, 0, 0, 0, 0, 0]);
    let half = Bits(0xbfe0_0000_0000_0000);
    assert_eq!(half, Bits::of(-0.5));
    assert_eq!(measured(text, 0, 0), Measured::new(WEIGHTED, 0, half));
    for fault in [1, 2] {
        let due = Comparison::new([half, half, Bits(0)]);
        assert_eq!(compared(text, fault, 0, 0), due);
    }
    let fixed = Measured::new(CONSTRAINED, 1, Bits::of(-0.75));
    assert_eq!(measured(text, 1, 1), fixed);
    let due = Comparison::new([-0.75, -1.0, 0.25].map(Bits::of));
    assert_eq!(compared(text, 2, 1, 1), due);
    // No row that agrees is 1: the sum of 0 has no sign.
    let fixed = Measured::new(CONSTRAINED, 3, Bits(0));
    assert_eq!(measured(text, 7, 6), fixed);

    let text = SUBTRACTED_INPUT.as_bytes();
    assert_eq!(library_circuit(text, 0, 2), [-15, 15]);
    assert_eq!(library_circuit(text, 1, 2), [0, 0]);
    assert_eq!(library_circuit(text, 2, 2), [-30, 0]);
    let due = "plan,1\nlabel,0,-15\nfault,1,0,0\nfault,2,0,-30\n";
    assert_eq!(library_report(text), due);

    let text = CANCELLED_FAULT.as_bytes();
    assert_eq!(library_circuit_rows(text, 0, 4), [0, 0, -1, -1]);
    assert_eq!(library_circuit_rows(text, 1, 4), [0, 0, -1, -1]);
    assert_eq!(library_circuit_rows(text, 2, 4), [0, 3, -1, 2]);
    assert_eq!(library_plan(text), refused(16, 1));
    assert_eq!(library_report(text), "refused,16,1\n");
}

/// x_i of weight w: w 2^(N-1) at label 0, its negative at label 2^(i-1).
#[test]
fn each_input_of_each_weight() {
    for inputs in 1..=8 {
        for input in 1..=inputs {
            for weight in every_weight() {
                let text = input_of_weight(inputs, input, weight);
                let text = text.as_bytes();
                let half = weight << (inputs - 1);
                let mut due = vec![0; 1 << inputs];
                assert_eq!(library_circuit(text, 1, due.len()), due);
                due[0] = 2 * half;
                assert_eq!(library_circuit(text, 2, due.len()), due);
                (due[0], due[1 << (input - 1)]) = (half, -half);
                assert_eq!(library_circuit(text, 0, due.len()), due, "{weight}");
                let all = 2 * half;
                let due = format!("plan,1\nlabel,0,{half}\nfault,1,0,0\nfault,2,0,{all}\n");
                assert_eq!(library_report(text), due);
            }
        }
    }
}

/// The coefficients of a circuit are those of each output alone, times the
/// weights.
#[test]
fn weighted_sums_of_each_output_alone() {
    let mut random = Random::new(SEED + 1);
    let (mut outputs, mut signs) = ([0; 5], [0; 3]);
    for round in 0..200 {
        let draft = draw_mixed(&mut random, round / 8, 1 + round % 8);
        let mut due = vec![vec![0; 1 << draft.sizes.inputs]; 1 + draft.sizes.faults];
        for (output, weight) in draft.outputs().iter().zip(weights(&draft)) {
            let alone = draft.with_outputs(std::slice::from_ref(output));
            let plain = library_spectra(&with_weights(&alone, &[1]));
            for (due, plain) in due.iter_mut().zip(&plain) {
                for (sum, number) in due.iter_mut().zip(plain) {
                    *sum += weight * number;
                }
            }
        }
        assert_eq!(library_spectra(&draft), due, "{draft:?}");
        outputs[draft.sizes.outputs] += 1;
        due.iter().for_each(|due| add_signs(&mut signs, due));
    }
    assert!(outputs[1..].iter().all(|&count| count > 20), "{outputs:?}");
    assert!(signs.iter().all(|&count| count > 5000), "{signs:?}");
}

/// The report with every coefficient negated.
fn negated_report(report: &str) -> String {
    let line = |line: &str| match line.rsplit_once(',') {
        Some((start, value)) if line.starts_with("label,") || line.starts_with("fault,") => {
            let value: i32 = value.parse().expect("a number");
            format!("{start},{}\n", -value)
        }
        _ => format!("{line}\n"),
    };
    report.lines().map(line).collect()
}

/// The bits of the negative; a sum of 0 is +0 both ways.
fn negative(bits: Bits) -> Bits {
    match bits {
        Bits(0) => bits,
        Bits(bits) => Bits(bits ^ SIGN),
    }
}

#[test]
fn all_weights_negated() {
    let mut random = Random::new(SEED + 2);
    let (mut rows, mut readings, mut plans) = ([0; 3], [0; 3], [0; 17]);
    for round in 0..500 {
        let inputs = 1 + round % 8;
        let draft = match round % 4 {
            0 => draw_changing(&mut random, inputs),
            _ => draw_mixed(&mut random, round / 8, inputs),
        };
        let other = negated(&draft);
        for (plain, negated) in library_spectra(&draft).iter().zip(library_spectra(&other)) {
            assert_eq!(negated, negatives(plain), "{draft:?}");
        }
        let [text, negated] = [draft.text(), other.text()];
        let plan = library_plan(&text);
        assert_eq!(library_plan(&negated), plan, "{draft:?}");
        plans[plan.number as usize] += 1;
        let due = negated_report(&library_report(&text));
        assert_eq!(library_report(&negated), due, "{draft:?}");
        for _ in 0..8 {
            let (mask, values) = fixture(&mut random, inputs);
            let fault = 1 + random.below(draft.sizes.faults) as u32;
            let pair = compared(&negated, fault, mask, values);
            let plain = compared(&text, fault, mask, values);
            assert_eq!((plain.number, pair.number), (0, 0));
            assert_eq!(pair.readings, plain.readings.map(negative), "{draft:?}");
            let [found, plain_reading] =
                [&negated, &text].map(|text| measured(text, mask, values).value);
            assert_eq!(found, negative(plain_reading), "{draft:?}");
            for bits in plain.readings.into_iter().chain(pair.readings) {
                assert_ne!(bits, Bits(SIGN), "-0: {draft:?}");
                readings[sign_of(bits)] += 1;
            }
        }
        add_signs(&mut rows, &library_circuit_rows(&text, 0, 1 << inputs));
    }
    assert!(rows.iter().all(|&count| count > 4000), "{rows:?}");
    assert!(readings.iter().all(|&count| count > 2000), "{readings:?}");
    assert!(plans[0] > 150 && plans[13] > 150, "{plans:?}");
    assert!(plans[16] > 0, "{plans:?}");
}

/// Two outputs on one line that cancel out, once or twice: nothing is left, and
/// every fault is silent or hidden. Which one it is the coefficients of the same
/// outputs say with weights that tell them apart.
#[test]
fn weights_that_cancel_out() {
    let mut random = Random::new(SEED + 3);
    let (mut outputs, mut refusals) = ([0; 5], [0; 17]);
    for round in 0..200 {
        let inputs = 1 + round % 8;
        let draft = cancelled(&draw_mixed(&mut random, round / 8, inputs));
        // Of many faults one is mostly silent.
        let faults = if round % 3 == 0 {
            1
        } else {
            draft.sizes.faults
        };
        let draft = draft.with_faults(&draft.faults()[..faults], 1);
        for spectrum in library_spectra(&draft) {
            assert_eq!(spectrum, vec![0; 1 << inputs], "{draft:?}");
        }
        let text = draft.text();
        let apart = library_spectra(&told_apart(&draft));
        let (sound, faulted) = apart.split_first().expect("a sound circuit");
        let silent = faulted.iter().position(|spectrum| spectrum == sound);
        let (number, place) = silent.map_or((16, 1), |at| (13, at + 1));
        assert_eq!(library_plan(&text), refused(number, place), "{draft:?}");
        let due = format!("refused,{number},{place}\n");
        assert_eq!(library_report(&text), due);
        refusals[number as usize] += 1;
        assert_eq!(measured(&text, 0, 0), Measured::new(WEIGHTED, 0, Bits(0)));
        for fault in 1..=draft.sizes.faults as u32 {
            let (mask, values) = fixture(&mut random, inputs);
            let found = compared(&text, fault, mask, values);
            assert_eq!(found, Comparison::new([Bits(0); 3]), "{draft:?}");
        }
        outputs[draft.sizes.outputs] += 1;
    }
    assert!(outputs[2] > 20 && outputs[4] > 20, "{outputs:?}");
    let [silent, hidden] = [13, 16].map(|number| refusals[number]);
    assert!(silent > 25 && hidden > 25, "{refusals:?}");
    // Each weight, on an input, which the second fault leaves as it was, and on a
    // gate's line, which the bridge does.
    for weight in every_weight() {
        for (line, silent) in [(1, 2), (3, 3)] {
            let text = format!(
                "circuit,2,1,2,3,4\ngate,nand,1,2\noutput,{line},{weight}\noutput,{line},{}\n\
                 fault,1,0\nfault,3,1\nbridge,1,2\n",
                -weight
            );
            for fault in 0..=3 {
                assert_eq!(library_circuit(text.as_bytes(), fault, 4), [0; 4]);
            }
            let found = library_plan(text.as_bytes());
            assert_eq!(found, refused(13, silent), "{text}");
        }
    }
}

#[test]
fn coefficients_and_readings_at_both_ends() {
    for sign in [1, -1] {
        let (weight, row, sum) = (15 * sign, CIRCUIT_ROW_LIMIT * sign, CIRCUIT_LIMIT * sign);
        for inputs in 1..=8 {
            let text = constant(inputs, &[weight; 4]).text();
            let length = 1 << inputs;
            let mut due = vec![0; length];
            assert_eq!(library_circuit(&text, 1, length), due);
            due[0] = sum >> (8 - inputs);
            assert_eq!(library_circuit(&text, 0, length), due);
            assert_eq!(library_circuit_rows(&text, 0, length), vec![row; length]);
            let report = format!("plan,1\nlabel,0,{}\nfault,1,0,0\n", due[0]);
            assert_eq!(library_report(&text), report);
            let reading = Bits::of(f64::from(row));
            assert_eq!(measured(&text, 0, 0), Measured::new(WEIGHTED, 0, reading));
            let all = (1 << inputs) - 1;
            let fixed = Measured::new(CONSTRAINED, inputs as u32, reading);
            assert_eq!(measured(&text, all, all), fixed);
            let due = Comparison::new([reading, Bits(0), reading]);
            assert_eq!(compared(&text, 1, 0, 0), due);
        }
        // The parity of all inputs and its complement: half of it at two labels,
        // and rows of 30 and -30.
        let mut sketch = Sketch::new(8);
        let parity = sketch.parity(255);
        let complement = sketch.gate("not", parity, 0);
        for line in [parity, parity, complement, complement] {
            sketch.output(line, 1);
        }
        sketch.fault(&[(parity, 0)]);
        sketch.fault(&[(parity, 1), (complement, 0)]);
        let draft = sketch.draft(2);
        let mut due = vec![0; 256];
        let text = with_weights(&draft, &[weight; 4]).text();
        due[0] = sum / 2;
        assert_eq!(library_circuit(&text, 0, 256), due);
        assert_eq!(library_plan(&text), refused(16, 1));
        let text = with_weights(&draft, &[weight, weight, -weight, -weight]).text();
        (due[0], due[255]) = (0, -sum / 2);
        assert_eq!(library_circuit(&text, 0, 256), due);
        assert_eq!(library_circuit(&text, 1, 256)[0], -sum / 2);
        assert_eq!(library_circuit(&text, 2, 256)[0], sum / 2);
        assert_eq!(measured(&text, 0, 0), Measured::new(WEIGHTED, 0, Bits(0)));
        let [low, high] = [-30, 30].map(|row| Bits::of(f64::from(row * sign)));
        for (fault, faulty, difference) in [(1, low, high), (2, high, low)] {
            let due = Comparison::new([Bits(0), faulty, difference]);
            assert_eq!(compared(&text, fault, 0, 0), due);
        }
    }
}

/// A fault that takes rows from one end of the range as far as it goes: 60 and -60
/// are the ends of what it changes, too.
#[test]
fn differences_at_both_ends() {
    for (weight, sound) in [(15, 0), (-15, 0), (15, 1), (-15, 1)] {
        let kind = ["xor", "xnor"][sound];
        let outputs = format!("output,2,{weight}\n").repeat(4);
        let text = format!(
            "circuit,1,1,4,1,1\ngate,{kind},1,1\n{outputs}fault,2,{}\n",
            1 - sound
        );
        let [before, after] = [sound as i32, 1 - sound as i32].map(|shown| 4 * weight * shown);
        let due = [before, after, before - after].map(|sum| Bits::of(f64::from(sum)));
        let found = compared(text.as_bytes(), 1, 0, 0);
        assert_eq!(found, Comparison::new(due), "{text}");
        let [before, after] = [2 * before, 2 * after];
        let report = format!("plan,1\nlabel,0,{before}\nfault,1,0,{after}\n");
        assert_eq!(library_report(text.as_bytes()), report);
    }
}

/// Stuck lines by the call on the coefficients of the circuit with those lines
/// opened; stuck and bridged inputs by the calls on the sound ones.
#[test]
fn faults_from_coefficients_alone() {
    let mut random = Random::new(SEED + 4);
    let (mut of_inputs, mut bridges, mut changing) = (0, 0, 0);
    let mut lines_opened = [0; 4];
    for round in 0..240 {
        let inputs = 2 + round % 7;
        let draft = draw_mixed(&mut random, round / 7, inputs);
        let (spectra, length) = (library_spectra(&draft), 1 << inputs);
        let sound = &spectra[0];
        for (fault, under) in read(&draft).faults.iter().zip(&spectra[1..]) {
            let case = format_args!("{fault:?} of {draft:?}");
            changing += usize::from(under != sound);
            if let Some((first, second)) = fault.bridge() {
                let [first, second] = [first, second].map(|input| input as u32);
                let found = written(case, length, |out| {
                    library::bridged(sound, first, second, out)
                });
                assert_eq!(&found, under, "{case}");
                bridges += 1;
                continue;
            }
            let stuck = fault.stuck().iter();
            let lines: Vec<usize> = stuck.clone().map(|stuck| stuck.line).collect();
            let values: Vec<u32> = stuck.map(|stuck| stuck.value.into()).collect();
            if lines.iter().all(|&line| line <= inputs) {
                let numbers: Vec<u32> = lines.iter().map(|&line| line as u32).collect();
                let found = written(case, length, |out| {
                    library::stuck(sound, &numbers, &values, out)
                });
                assert_eq!(&found, under, "{case}");
                of_inputs += 1;
            }
            if let Some(open) = opened(&draft, &lines) {
                let spectrum = library_circuit(&open.text(), 0, length << lines.len());
                let found = written(case, length, |out| library::opened(&spectrum, &values, out));
                assert_eq!(&found, under, "{case}");
                lines_opened[lines.len()] += 1;
            }
        }
    }
    assert!(of_inputs > 100 && bridges > 400, "{of_inputs}, {bridges}");
    let enough = lines_opened[1..].iter().all(|&count| count > 80);
    assert!(enough, "{lines_opened:?}");
    assert!(changing > 700, "faults that change rows: {changing}");
}

/// The fraction of the rows that agree is exact, and 0 has no sign: from the
/// library's own rows.
#[test]
fn readings_are_exact() {
    let mut random = Random::new(SEED + 5);
    let mut signs = [0; 3];
    for round in 0..160 {
        let inputs = 1 + round % 5;
        let draft = draw_mixed(&mut random, round / 5, inputs);
        let (text, length) = (draft.text(), 1 << inputs);
        let fault = 1 + random.below(draft.sizes.faults) as u32;
        let rows = [0, fault].map(|fault| library_circuit_rows(&text, fault, length));
        for mask in 0..length {
            for values in (0..length).filter(|values| values & mask == *values) {
                let agree = || (0..length).filter(|row| row & mask == values);
                let count = agree().count() as f64;
                let [sound, faulty] = rows
                    .each_ref()
                    .map(|rows| agree().map(|row| rows[row]).sum::<i32>());
                let wholes = [sound, faulty, sound - faulty];
                let found = compared(&text, fault, mask as u32, values as u32);
                assert_eq!(found.number, 0);
                for (whole, bits) in wholes.into_iter().zip(found.readings) {
                    let value = f64::from_bits(bits.0);
                    assert_eq!(value * count, f64::from(whole), "{draft:?}");
                    assert_eq!(bits, Bits::of(f64::from(whole) / count));
                    assert_ne!(bits, Bits(SIGN), "-0: {draft:?}");
                    signs[sign_of(bits)] += 1;
                }
                let reading = measured(&text, mask as u32, values as u32);
                assert_eq!(reading.value, found.readings[0]);
            }
        }
    }
    assert!(signs.iter().all(|&count| count > 4000), "{signs:?}");
}

/// "Any weight other than 1 now makes a reading a weighted sum", and so does a
/// second output; fixed inputs go first.
#[test]
fn cases_by_outputs_weights_and_masks() {
    let mut kinds = [0; 4];
    for outputs in 1..=4 {
        for at in 0..outputs {
            for weight in every_weight() {
                for other in [1, -1, -weight] {
                    let lines: String = (0..outputs)
                        .map(|place| if place == at { weight } else { other })
                        .map(|weight| format!("output,1,{weight}\n"))
                        .collect();
                    let text = format!("circuit,2,0,{outputs},1,1\n{lines}fault,1,0\n");
                    let text = text.as_bytes();
                    let kind = match (outputs, weight) {
                        (1, 1) => PLAIN,
                        _ => WEIGHTED,
                    };
                    let all = f64::from(weight + other * (outputs - 1));
                    // Adding 0 makes +0 of -0.
                    let half = Bits::of(all / 2.0 + 0.0);
                    assert_eq!(measured(text, 0, 0), Measured::new(kind, 0, half));
                    kinds[kind as usize] += 1;
                    for (mask, values, due) in [
                        (1, 0, 0.0),
                        (1, 1, all),
                        (2, 0, all / 2.0),
                        (2, 2, all / 2.0),
                        (3, 2, 0.0),
                        (3, 3, all),
                    ] {
                        let fixed = u32::count_ones(mask);
                        let due = Measured::new(CONSTRAINED, fixed, Bits::of(due + 0.0));
                        assert_eq!(measured(text, mask, values), due);
                        kinds[CONSTRAINED as usize] += 1;
                    }
                }
            }
        }
    }
    assert_eq!(kinds, [0, 3, 897, 5400]);
}

// Good circuits.

/// Bridges in every other count of gates.
fn draw_half_bridged(random: &mut Random, sizes: Sizes) -> Draft {
    let draft = draw(random, sizes);
    match sizes.gates % 2 {
        0 => draft,
        _ => with_bridges(random, &draft),
    }
}

#[test]
fn circuits_of_every_size() {
    let mut both = Both::new(SEED + 10);
    let (mut rows, mut sums) = ([0; 3], [0; 3]);
    let changing = both.every_size(1, draw_half_bridged, |_, draft| {
        for fault in 0..=draft.sizes.faults as u32 {
            let found = read(draft).rows(fault).expect("a fault of the circuit");
            add_signs(&mut rows, &found);
            add_signs(&mut sums, &[found.iter().sum()]);
        }
    });
    both.outcomes.assert_seen(&[(0, 6000)]);
    assert!(changing > 2000, "faults that change rows: {changing}");
    assert!(rows.iter().all(|&count| count > 50_000), "{rows:?}");
    assert!(sums.iter().all(|&count| count > 500), "{sums:?}");
}

/// Every call on rows of 60, -60 and 0 and what is between them: four outputs on
/// few lines, one of which always shows 1.
#[test]
fn rows_at_both_ends_of_the_range() {
    let mut both = Both::new(SEED + 11);
    let (mut rows, mut sums, mut readings) = ([0; 3], [0; 3], [0; 3]);
    for round in 0..240 {
        let inputs = 1 + round % 8;
        let mut sketch = Sketch::new(inputs);
        let (one, parity) = (sketch.gate("xnor", 1, 1), sketch.parity((1 << inputs) - 1));
        let lines = match round / 8 % 3 {
            0 => [one; 4],
            1 => [one, one, parity, 1],
            _ => [0; 4].map(|_| both.random.pick(&[one, parity, inputs])),
        };
        for line in lines {
            sketch.output(line, 1);
        }
        for pairs in [&[(one, 0)][..], &[(1, 0), (one, 0)], &[(1, 1)], &[(one, 1)]] {
            sketch.fault(pairs);
        }
        let weights = match round % 5 {
            0 => [15; 4],
            1 => [-15; 4],
            2 => [15, -15, -15, 15],
            _ => [0; 4].map(|_| both.random.pick(&[15, -15])),
        };
        let draft = with_weights(&sketch.draft(4), &weights);
        let text = draft.text();
        both.every_fault(&draft);
        both.plan_and_report(&text);
        if let Some(changing) = draft.only_changing() {
            both.plan_and_report(&changing.text());
        }
        for fault in 1..=4 {
            let (mask, values) = fixture(&mut both.random, inputs);
            let found = calls::reading(&mut both.random, &text, mask, values);
            assert_eq!(found.number, 0, "{}", Shown(&text));
            let pair = calls::pair(&mut both.random, &text, fault, mask, values);
            assert_eq!(pair.readings[0], found.value, "{}", Shown(&text));
            for bits in pair.readings {
                at_an_end(&mut readings, f64::from_bits(bits.0), CIRCUIT_ROW_LIMIT);
            }
            for row in read(&draft).rows(fault).expect("a fault of the circuit") {
                at_an_end(&mut rows, row.into(), CIRCUIT_ROW_LIMIT);
            }
            for number in library_circuit(&text, fault, 1 << inputs) {
                at_an_end(&mut sums, number.into(), CIRCUIT_LIMIT);
            }
        }
    }
    both.outcomes.assert_seen(&[(0, 1500), (13, 300), (14, 0)]);
    for seen in [rows, sums, readings] {
        assert!(seen.iter().all(|&count| count >= 4), "{seen:?}");
    }
}

/// 1,796 bytes: no circuit has more.
#[test]
fn the_longest_texts() {
    Both::new(SEED + 12).longest_texts(largest, 1_796);
}

#[test]
fn faults_that_no_text_has_and_buffers() {
    let mut both = Both::new(SEED + 13);
    for round in 0..40 {
        let draft = draw_mixed(&mut both.random, round, 1 + round % 8);
        both.no_faults(&draft);
        both.buffers(&draft);
    }
    both.outcomes.assert_seen(&[(0, 600), (8, 480), (12, 1900)]);
}

#[test]
fn plans_of_drawn_circuits() {
    let mut both = Both::new(SEED + 14);
    for round in 0..400 {
        let text = draw_mixed(&mut both.random, round, 1 + round % 8).text();
        both.plan_and_report(&text);
    }
    both.outcomes
        .assert_seen(&[(0, 60), (13, 400), (14, 0), (16, 2)]);
    assert!(both.silent.len() > 8, "silent: {:?}", both.silent);
}

#[test]
fn plans_without_silent_faults() {
    Both::new(SEED + 15).plans_without_silent_faults(draw_changing);
}

/// A fault that raises two outputs is hidden where the weights cancel out, and one
/// that raises the one and lowers the other where they are equal.
#[test]
fn a_sign_decides_whether_a_fault_is_hidden() {
    let mut both = Both::new(SEED + 16);
    for weight in every_weight() {
        for other in [weight, -weight] {
            // Lines 2 and 3 show 0 and line 4 shows 1, all stuck in pairs.
            let text = |faults: &str, line| {
                format!(
                    "circuit,1,3,2,2,1\ngate,xor,1,1\ngate,xor,1,1\ngate,xnor,1,1\n\
                     output,2,{weight}\noutput,{line},{other}\n{faults}"
                )
            };
            let raised = text("fault,2,1\nfault,2,1,3,1\n", 3);
            let exchanged = text("fault,2,1\nfault,2,1,4,0\n", 4);
            for (text, is_hidden) in [(raised, other != weight), (exchanged, other == weight)] {
                let found = both.plan_and_report(text.as_bytes());
                let due = match is_hidden {
                    true => refused(16, 2),
                    false => of_labels(&[0]),
                };
                assert_eq!(found, due, "{text}");
            }
        }
    }
    both.outcomes.assert_seen(&[(0, 120), (16, 120)]);
}

#[test]
fn buffers_of_the_plan_and_the_report() {
    let mut both = Both::new(SEED + 17);
    let mut texts: Vec<(Vec<u8>, u32)> = vec![
        (SUBTRACTED_LISTING.as_bytes().to_vec(), 0),
        (SUBTRACTED_INPUT.as_bytes().to_vec(), 0),
        (CANCELLED_FAULT.as_bytes().to_vec(), 16),
        (SILENT_BEHIND_HIDDEN.as_bytes().to_vec(), 13),
        (constant(8, &[-15; 4]).text(), 0),
    ];
    for (line, number) in [
        ("output,6,-0", 2),
        ("output,-6,1", 2),
        ("output,6,-16", 3),
        ("output,6,0", 3),
        ("output,7,-15", 5),
    ] {
        texts.push((with_line(MIXED, 5, line), number));
    }
    for (text, number) in &texts {
        both.working_buffers(text, *number);
        both.report_buffers(text, *number);
    }
    let refused = [(2, 32), (3, 32), (5, 16), (8, 300), (13, 16), (16, 16)];
    both.outcomes
        .assert_seen(&[&[(0, 40)], &refused[..]].concat());
}

#[test]
fn readings_and_pairs() {
    let mut both = Both::new(SEED + 18);
    let (mut kinds, mut signs, mut changed) = ([0; 4], [0; 3], 0);
    for round in 0..400 {
        let inputs = 1 + round % 8;
        let draft = draw_mixed(&mut both.random, round / 8, inputs);
        let text = draft.text();
        let (mask, values) = fixture(&mut both.random, inputs);
        let found = calls::reading(&mut both.random, &text, mask, values);
        assert_eq!(found.number, 0, "{}", Shown(&text));
        kinds[found.kind as usize] += 1;
        for fault in 1..=draft.sizes.faults as u32 {
            let pair = calls::pair(&mut both.random, &text, fault, mask, values);
            assert_eq!(pair.number, 0, "{}", Shown(&text));
            assert_eq!(pair.readings[0], found.value, "{}", Shown(&text));
            changed += usize::from(pair.readings[1] != pair.readings[0]);
            for bits in pair.readings {
                assert_ne!(bits, Bits(SIGN), "-0: {}", Shown(&text));
                signs[sign_of(bits)] += 1;
            }
        }
        // 12 where the arguments are out of range.
        let above = calls::pair(&mut both.random, &text, draft.sizes.faults as u32 + 1, 0, 0);
        let outside = calls::reading(&mut both.random, &text, 1 << inputs, 0);
        assert_eq!((above.number, outside.number), (12, 12));
    }
    assert!(kinds[2] > 80 && kinds[3] > 200, "{kinds:?}");
    assert!(changed > 1000, "readings that a fault changes: {changed}");
    assert!(signs.iter().all(|&count| count > 3000), "{signs:?}");
}

// Refused texts.

/// A circuit of two gates and these outputs; the first of their lines is line 4 of
/// the text, and the last line of the circuit is 4 too.
fn with_outputs(outputs: &[&str]) -> String {
    format!(
        "circuit,2,2,{},1,1\ngate,nand,1,2\ngate,xnor,3,1\n{}\nfault,1,0,3,1\n",
        outputs.len(),
        outputs.join("\n")
    )
}

/// What a weight is refused by; 0 where it is good.
fn due_of_weight(weight: i32) -> u32 {
    match weight {
        -15..=-1 | 1..=15 => 0,
        _ => 3,
    }
}

/// What the line of an output is refused by, from what its two numbers are: 2
/// before 3, whichever stands first, and 5 of a good weight only.
fn due_of_output(line: u32, weight: u32) -> u32 {
    match (line, weight) {
        (2, _) | (_, 2) => 2,
        (3, _) | (_, 3) => 3,
        _ => line,
    }
}

/// LINE with what it is refused by where there are four lines.
const LINES: [(&str, u32); 16] = [
    ("1", 0),
    ("4", 0),
    ("5", 5),
    ("56", 5),
    ("0", 3),
    ("57", 3),
    ("9999", 3),
    ("", 2),
    ("x", 2),
    ("-", 2),
    ("-0", 2),
    ("-1", 2),
    ("-57", 2),
    ("04", 2),
    ("+4", 2),
    ("10000", 2),
];

/// Every WEIGHT from -20 to 20, and what is no weight, with every LINE.
#[test]
fn every_weight_with_every_line() {
    let mut both = Both::new(SEED + 20);
    let mut written: Vec<(String, u32)> = (-20..=20)
        .map(|weight: i32| (weight.to_string(), due_of_weight(weight)))
        .collect();
    written.extend(WEIGHTS_OUT_OF_RANGE.map(|weight| (weight.to_string(), 3)));
    written.extend(BAD_WEIGHTS.map(|weight| (weight.to_string(), 2)));
    for (outputs, at) in [(1, 0), (2, 1), (3, 1), (4, 0), (4, 3)] {
        let others = vec!["output,4,-2"; outputs];
        let text = with_outputs(&others);
        for (line, of_line) in LINES {
            for (weight, of_weight) in &written {
                let output = format!("output,{line},{weight}");
                let due = due_of_output(of_line, *of_weight);
                both.expect_line(&text, 4 + at, &output, due);
            }
        }
    }
    both.outcomes
        .assert_seen(&[(0, 500), (2, 10_000), (3, 3000), (5, 500), (16, 4)]);
}

/// Every field of up to five bytes of a minus and some digits, and every other byte
/// in front of a weight: a weight is what a number prints as.
#[test]
fn every_short_field_as_a_weight() {
    let mut both = Both::new(SEED + 21);
    let mut fields = vec![String::new()];
    let mut last = fields.clone();
    for _ in 0..5 {
        last = last
            .iter()
            .flat_map(|field| "-0159".chars().map(move |byte| format!("{field}{byte}")))
            .collect();
        fields.extend_from_slice(&last);
    }
    assert_eq!(fields.len(), 1 + 5 + 25 + 125 + 625 + 3125);
    for field in &fields {
        let due = match field.parse::<i32>() {
            Ok(number) if number.to_string() == *field && number.abs() < 10_000 => {
                due_of_weight(number)
            }
            _ => 2,
        };
        let text = with_outputs(&[&format!("output,3,{field}")]);
        let due = (due, if due == 0 { 0 } else { 4 });
        assert_eq!(both.circuit(text.as_bytes(), 1, 4), due, "{field}");
        let found = calls::reading(&mut both.random, text.as_bytes(), 0, 0);
        assert_eq!((found.number, found.place), due, "{field}");
    }
    both.outcomes.assert_seen(&[(0, 8), (2, 3000), (3, 450)]);
    for byte in 0..=255 {
        let start = with_outputs(&["output,3,"]);
        let at = start.find("output,3,").expect("the output") + 9;
        let (start, rest) = start.as_bytes().split_at(at);
        let text = [start, &[byte], b"5", rest].concat();
        let due = match byte {
            b'-' | b'1' => (0, 0),
            b'2'..=b'9' => (3, 4),
            _ => (2, 4),
        };
        both.expect(&text, due);
    }
}

/// In front of every number but a weight that has none: in the first line, gates,
/// the lines of outputs, faults and bridges, and in tables.
#[test]
fn a_minus_in_front_of_every_other_number() {
    let mut both = Both::new(SEED + 22);
    let table = "table,3,3,2\n01-10011\nfault,1,0\nfault,1,1,2,0,3,1\nbridge,2,3\n";
    let (mut refused, mut good) = (0, 0);
    for text in [MIXED, SUBTRACTED_LISTING, CANCELLED_FAULT, table] {
        for (place, line) in (1..).zip(text.lines()) {
            let fields: Vec<&str> = line.split(',').collect();
            for (at, field) in fields.iter().enumerate() {
                if line.starts_with(['0', '1']) || field.parse::<i32>().is_err() {
                    continue;
                }
                for minus in ["-", "--", "+", " "] {
                    let moved = format!("{minus}{field}");
                    let mut fields = fields.clone();
                    fields[at] = &moved;
                    let is_plain_weight =
                        fields[0] == "output" && at == 2 && !field.starts_with('-');
                    let number = if is_plain_weight && minus == "-" {
                        0
                    } else {
                        2
                    };
                    both.expect_line(text, place, &fields.join(","), number);
                    refused += usize::from(number == 2);
                    good += usize::from(number == 0);
                }
            }
        }
    }
    // Of the marks a minus is a free row, and one more is one too many.
    both.expect_line(table, 2, "-1-10011", 0);
    both.expect_line(table, 2, "-01-10011", 2);
    // Each of 75 numbers in four ways; three weights are plain.
    assert_eq!((refused, good), (4 * 75 - 3, 3));
}

/// Bad lines for each line of the mixed circuit, with what they are refused by.
/// The gates drive lines 4 to 6.
fn bad_lines(place: usize) -> &'static [(&'static str, u32)] {
    match place {
        1 => &[("circuit,-3,3,3,3,2", 2), ("circuit,9,3,3,3,2", 3)],
        2..=4 => &[
            ("gate,and,-1,2", 2),
            ("gate,and,57,-1", 2),
            ("gate,and,1,57", 3),
            ("gate,and,1,6", 4),
        ],
        5..=7 => &[
            ("output,6", 2),
            ("output,6,-0", 2),
            ("output,6,--1", 2),
            ("output,57,-", 2),
            ("output,-7,-16", 2),
            ("output,7,-16,1", 2),
            ("output,6,-16", 3),
            ("output,6,0", 3),
            ("output,57,-1", 3),
            ("output,7,-16", 3),
            ("output,7,-1", 5),
            ("output,56,-15", 5),
        ],
        _ => &[
            ("fault,-1,0", 2),
            ("output,6,-1", 2),
            ("fault,7,2", 3),
            ("fault,7,0", 5),
            ("fault,3,0,2,0", 6),
            ("bridge,3,1", 19),
        ],
    }
}

#[test]
fn two_refusals_in_two_lines() {
    let mut both = Both::new(SEED + 23);
    for place in 1..=10 {
        for &(line, number) in bad_lines(place) {
            both.expect_line(MIXED, place, line, number);
        }
    }
    both.two_refusals(MIXED, bad_lines, Both::expect);
    both.outcomes.assert_seen(&[
        (1, 200),
        (2, 4000),
        (3, 3000),
        (4, 1000),
        (5, 800),
        (6, 50),
        (7, 4),
        (19, 50),
    ]);
}

/// With 2, 3 and 5 nothing is written but the report's refusal line.
#[test]
fn a_refused_output_leaves_what_is_lent() {
    let mut both = Both::new(SEED + 24);
    for round in 0..120 {
        let mut draft = draw_of(&mut both.random, 1 + round % 8);
        let sizes = draft.sizes;
        let place = 2 + sizes.gates + both.random.below(sizes.outputs);
        let (line, number) = both.random.pick(&[
            ("output,1,-0", 2),
            ("output,1,-", 2),
            ("output,-1,1", 2),
            ("output,ABOVE,--1", 2),
            ("output,1,-16", 3),
            ("output,1,0", 3),
            ("output,ABOVE,-9999", 3),
            ("output,ABOVE,-1", 5),
            ("output,ABOVE,-15", 5),
        ]);
        let above = sizes.inputs + sizes.gates + 1;
        // The largest circuits have every line.
        let number = if number == 5 && above == 57 {
            3
        } else {
            number
        };
        let line = line.replace("ABOVE", &above.to_string());
        draft.lines[place - 1] = line.split(',').map(String::from).collect();
        let next = sizes.faults as u32 + 1;
        both.refused_with_all_kept(&draft.text(), next, (number, place));
    }
    both.outcomes.assert_seen(&[(2, 200), (3, 150), (5, 100)]);
}

#[test]
fn damaged_texts() {
    let mut both = Both::new(SEED + 25);
    let damages: Vec<&Damage> = OUTPUT_DAMAGES.iter().chain(&DAMAGES).collect();
    both.damaged_circuits(&damages, 480, 60, |random, round| {
        let inputs = 1 + round % 8;
        let drawn = Sizes::draw(random);
        let sizes = match round % 4 {
            // Few gates and faults, so that damage often hits outputs.
            0 | 1 => Sizes {
                inputs,
                gates: drawn.gates / 8,
                faults: 1 + drawn.faults / 8,
                ..drawn
            },
            2 => Sizes { inputs, ..drawn },
            _ => Sizes::LARGEST,
        };
        draw(random, sizes)
    });
    both.outcomes.assert_seen(&[
        (0, 800),
        (2, 5000),
        (3, 1500),
        (4, 100),
        (5, 300),
        (6, 60),
        (7, 500),
        (8, 100),
        (12, 60),
        (13, 50),
        (14, 0),
        (16, 2),
    ]);
}

#[test]
fn every_prefix_and_every_byte() {
    let mut both = Both::new(SEED + 26);
    for text in EXAMPLES.into_iter().chain([MIXED]) {
        both.every_prefix(text.as_bytes());
    }
    let longest = largest(&mut both.random).text();
    both.every_prefix(&longest);
    for round in 0..8 {
        let text = draw_mixed(&mut both.random, round, 1 + round).text();
        both.every_prefix(&text);
    }
    for text in [SUBTRACTED_INPUT, MIXED] {
        both.every_byte(text.as_bytes());
    }
    both.outcomes.assert_seen(&[
        (0, 200),
        (2, 50_000),
        (3, 300),
        (4, 50),
        (5, 50),
        (6, 2),
        (7, 300),
        (19, 10),
    ]);
}

#[test]
fn texts_of_noise() {
    let mut both = Both::new(SEED + 27);
    let outputs = [
        "output,1,-1\n",
        "output,1,1\n",
        "output,2,-15\n",
        "output,2,15\n",
        "output,3,-1\n",
        "output,1,-0\n",
        "output,2,-16\n",
        "output,1,--1\n",
        "output,-1,1\n",
    ];
    let faults = ["fault,1,1\n", "fault,2,0\n", "fault,-1,0\n", "bridge,1,2\n"];
    for _ in 0..6000 {
        let count = 1 + both.random.below(3);
        let mut text = format!("circuit,2,0,{count},1,1\n");
        // Now and then an output too many or too few.
        let there = match both.random.below(8) {
            0 => count - 1,
            1 => count + 1,
            _ => count,
        };
        for _ in 0..there {
            let kinds = if both.random.once_in(4) { 9 } else { 4 };
            text += both.random.pick(&outputs[..kinds]);
        }
        text += both.random.pick(&faults);
        let mut text = text.into_bytes();
        if both.random.once_in(4) {
            let at = both.random.below(text.len());
            text[at] = both.random.pick(b",\n0123-");
        }
        let fault = both.random.below(3) as u32;
        both.every_call(&text, fault, 256);
    }
    both.outcomes.assert_seen(&[
        (0, 2000),
        (2, 5000),
        (3, 500),
        (5, 300),
        (12, 100),
        (13, 40),
        (16, 100),
        (19, 0),
    ]);
}
