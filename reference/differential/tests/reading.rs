//! The static library's reading and pair calls against the second
//! implementation: number, place, case, number of fixed inputs and every bit of
//! the readings. The text stands between bytes that would carry it on. Then what
//! follows from the paper's definitions without it.

use differential::calls::{self, Bits, Comparison, Measured, CONSTRAINED, PLAIN, WEIGHTED};
use differential::lent::Shown;
use differential::library;
use differential::outcomes::{written, Outcomes};
use second::bridge_texts::{draw_circuit, with_bridges, BRIDGE_DAMAGES, LISTING_WITH_A_BRIDGE};
use second::circuits::{
    with_line, Draft, Sizes, Sketch, DAMAGES, HALF_AND_A_ROW, LISTING, SILENT_FAULT,
    STUCK_INNER_LINE, STUCK_INPUTS, TWO_OUTPUTS, TWO_STUCK_INPUTS,
};
use second::lines::TEXT_LIMIT;
use second::netlist;
use second::random::Random;
use second::reading::quotient;
use second::signed_texts::{every_weight, input_of_weight};
use second::walsh::bridged_rows;
use second::wide_texts::widened;
use std::collections::BTreeMap;

const SEED: u64 = 0x5245_4144_494e_4700;

/// x1x5 or x4 and not x2x3: input 5 stands for the opened line.
const OPENED: &str = "circuit,5,5,1,2,1\n\
    gate,and,1,5\ngate,and,2,3\ngate,not,7,0\ngate,and,4,8\ngate,or,6,9\n\
    output,10,1\nfault,5,0\nfault,5,1\n";

/// 1 at rows 5, 7, 8, 9, 10, 14, 15 of 16.
const SEVEN_ROWS: &str = "circuit,4,11,1,1,1\n\
    gate,not,4,0\ngate,and,1,3\ngate,and,5,6\n\
    gate,not,3,0\ngate,and,4,8\ngate,nand,1,2\ngate,and,9,10\n\
    gate,and,2,3\ngate,and,4,12\n\
    gate,or,7,11\ngate,or,13,14\noutput,15,1\nfault,15,1\n";

/// Both implementations, what stands around the texts, and how often each
/// outcome, each case, each number of fixed inputs and each sign of a
/// difference came.
struct Both {
    random: Random,
    outcomes: Outcomes,
    kinds: [usize; 4],
    fixed: [usize; 9],
    signs: [usize; 3],
}

impl Both {
    fn new(subject: u64) -> Self {
        Both {
            random: Random::new(SEED + subject),
            outcomes: Outcomes::default(),
            kinds: [0; 4],
            fixed: [0; 9],
            signs: [0; 3],
        }
    }

    fn reading(&mut self, text: &[u8], mask: u32, values: u32) -> Measured {
        let found = calls::reading(&mut self.random, text, mask, values);
        self.outcomes.note(found.number);
        self.kinds[found.kind as usize] += 1;
        if found.number == 0 {
            self.fixed[found.fixed as usize] += 1;
        }
        found
    }

    fn pair(&mut self, text: &[u8], fault: u32, mask: u32, values: u32) -> Comparison {
        let found = calls::pair(&mut self.random, text, fault, mask, values);
        self.outcomes.note(found.number);
        if found.number == 0 {
            self.fixed[mask.count_ones() as usize] += 1;
            let difference = f64::from_bits(found.readings[2].0);
            let sign = usize::from(difference >= 0.0) + usize::from(difference > 0.0);
            self.signs[sign] += 1;
        }
        found
    }

    /// The reading and every fault of a good circuit, under these fixtures.
    fn all(&mut self, draft: &Draft, fixtures: &[(u32, u32)]) {
        let text = draft.text();
        for &(mask, values) in fixtures {
            let found = self.reading(&text, mask, values);
            assert_eq!(found.number, 0, "{}", Shown(&text));
            for fault in 1..=draft.sizes.faults as u32 {
                let pair = self.pair(&text, fault, mask, values);
                assert_eq!(pair.number, 0, "{}", Shown(&text));
                assert_eq!(pair.readings[0], found.value, "{}", Shown(&text));
            }
        }
    }

    /// A circuit of these sizes, now and then with one output of weight 1.
    fn draft(&mut self, sizes: Sizes) -> Draft {
        if !self.random.once_in(3) {
            return Draft::draw(&mut self.random, sizes);
        }
        let mut draft = Draft::draw(
            &mut self.random,
            Sizes {
                outputs: 1,
                ..sizes
            },
        );
        let output = 1 + sizes.gates;
        draft.lines[output][2] = "1".into();
        draft
    }

    fn drawn(&mut self) -> Draft {
        let sizes = Sizes::draw(&mut self.random);
        self.draft(sizes)
    }

    /// A circuit of few gates and faults.
    fn small(&mut self, inputs: usize, faults: usize) -> Draft {
        let gates = self.random.below(13);
        let drawn = Sizes::draw(&mut self.random);
        self.draft(Sizes {
            inputs,
            gates,
            faults,
            ..drawn
        })
    }

    /// Four outputs that read every input once, so that each is 1 on an odd
    /// number of rows: whole sums of as many bits as any can have.
    fn odd_outputs(&mut self, inputs: usize) -> Draft {
        let mut sketch = Sketch::new(inputs);
        let mut lines = Vec::new();
        for _ in 0..4 {
            let mut line = 1;
            for input in 2..=inputs {
                let kind = self.random.pick(&["and", "or", "nand", "nor"]);
                line = sketch.gate(kind, line, input);
                lines.push(line);
            }
            sketch.output(line, 1 + self.random.below(15));
        }
        for _ in 0..8 {
            let line = match self.random.below(3) {
                0 => 1 + self.random.below(inputs),
                _ => self.random.pick(&lines),
            };
            sketch.fault(&[(line, self.random.below(2))]);
        }
        sketch.draft(1)
    }

    /// A mask and values within it; none, or all, of the inputs are fixed
    /// rather often.
    fn fixture(&mut self, inputs: usize) -> (u32, u32) {
        let all = (1 << inputs) - 1;
        let mask = match self.random.below(6) {
            0 => 0,
            1 => all,
            _ => self.random.noise() as u32 & all,
        };
        let values = match self.random.below(8) {
            0 => 0,
            1 => mask,
            _ => self.random.noise() as u32 & mask,
        };
        (mask, values)
    }

    /// A bit that is not in the mask.
    fn bit_outside(&mut self, mask: u32) -> u32 {
        loop {
            let bit = 1 << self.random.below(32);
            if mask & bit == 0 {
                return bit;
            }
        }
    }

    /// A mask and values that no circuit of so many inputs takes, some of them
    /// good in fewer bits.
    fn bad_fixture(&mut self, inputs: usize) -> (u32, u32) {
        let (mask, values) = self.fixture(inputs);
        let high = 1 << (inputs + self.random.below(32 - inputs));
        match self.random.below(7) {
            0 => (1 << inputs, 0),
            1 => (mask | 1 << inputs, values),
            2 => (mask | high, values),
            3 => (mask | high, values | high),
            4 => (u32::MAX, values),
            5 => (mask, values | high),
            _ => (mask, values | self.bit_outside(mask)),
        }
    }

    /// Plain syndromes, weighted sums and constrained values came so often at
    /// least.
    #[track_caller]
    fn assert_kinds(&self, least: [usize; 3]) {
        let enough = self.kinds[1..].iter().zip(least).all(|(&a, b)| a >= b);
        assert!(enough, "cases: {:?}", self.kinds);
    }

    /// Differences below, at and above 0 came so often at least.
    #[track_caller]
    fn assert_signs(&self, least: [usize; 3]) {
        let enough = self.signs.iter().zip(least).all(|(&a, b)| a >= b);
        assert!(enough, "differences: {:?}", self.signs);
    }

    /// Every number of fixed inputs up to this one came so often at least.
    #[track_caller]
    fn assert_fixed(&self, most: usize, least: usize) {
        let enough = self.fixed[..=most].iter().all(|&count| count >= least);
        assert!(enough, "fixed inputs: {:?}", self.fixed);
    }
}

/// Every mask of so many inputs with all values within it.
fn fixtures(inputs: usize) -> Vec<(u32, u32)> {
    let masks = 0..1 << inputs;
    masks
        .flat_map(|mask| {
            let within = move |values: &u32| values & mask == *values;
            (0..=mask).filter(within).map(move |values| (mask, values))
        })
        .collect()
}

/// The library's reading, without the second implementation.
fn measured(text: &[u8], mask: u32, values: u32) -> Measured {
    Measured::found(library::reading(text, mask, values))
}

/// The library's reading as a number; it must not refuse.
fn value(text: &[u8], mask: u32, values: u32) -> f64 {
    let found = library::reading(text, mask, values);
    assert_eq!(found.number, 0, "mask {mask}, {}", Shown(text));
    found.value
}

/// The library's pair, without the second implementation.
fn compared(text: &[u8], fault: u32, mask: u32, values: u32) -> Comparison {
    Comparison::found(library::pair(text, fault, mask, values))
}

/// The library's pair as numbers; it must not refuse.
fn pair(text: &[u8], fault: u32, mask: u32, values: u32) -> [f64; 3] {
    let found = library::pair(text, fault, mask, values);
    assert_eq!(found.number, 0, "fault {fault}, {}", Shown(text));
    [found.sound, found.faulty, found.difference]
}

/// The whole sum of the rows that agree, and their count.
fn whole(rows: &[i32], mask: u32, values: u32) -> (i32, i32) {
    let agree = |row: &usize| (row ^ values as usize) & mask as usize == 0;
    let rows: Vec<i32> = (0..rows.len()).filter(agree).map(|row| rows[row]).collect();
    (rows.iter().sum(), rows.len() as i32)
}

/// How many bits a sum takes once it is divided by two as often as it can be.
fn bits_of(sum: i32) -> u32 {
    match sum {
        0 => 0,
        _ => 32 - sum.unsigned_abs().leading_zeros() - sum.trailing_zeros(),
    }
}

/// The rows of a good circuit, sound and under each fault.
fn all_rows(text: &[u8]) -> Vec<Vec<i32>> {
    let netlist = netlist::parse(text).expect("a good circuit");
    (0..=netlist.faults.len() as u32)
        .map(|fault| netlist.rows(fault).expect("a fault of the circuit"))
        .collect()
}

// By hand.

#[test]
fn half_of_the_rows_and_one() {
    // 129 of 256.
    let text = HALF_AND_A_ROW.as_bytes();
    let found = library::reading(text, 0, 0);
    assert_eq!(
        (found.number, found.kind, found.fixed, found.place),
        (0, 1, 0, 0)
    );
    assert_eq!(found.value.to_bits(), 0x3fe0_2000_0000_0000);
    assert_eq!(found.value.to_bits(), 0.50390625_f64.to_bits());
    let found = library::pair(text, 1, 0, 0);
    assert_eq!((found.number, found.place), (0, 0));
    assert_eq!(found.sound.to_bits(), 0x3fe0_2000_0000_0000);
    assert_eq!(found.faulty.to_bits(), 0x3fe0_0000_0000_0000);
    assert_eq!(found.difference.to_bits(), 0x3f70_0000_0000_0000);
    let numbers = [found.sound, found.faulty, found.difference];
    assert_eq!(numbers, [0.50390625, 0.5, 0.00390625]);
    // Under every fixture of the 8 inputs.
    let mut both = Both::new(1);
    for (mask, values) in fixtures(8) {
        both.reading(text, mask, values);
        if both.random.once_in(8) {
            both.pair(text, 1, mask, values);
        }
    }
    both.assert_kinds([1, 0, 6560]);
    both.assert_signs([0, 500, 20]);
    both.assert_fixed(8, 1);
}

#[test]
fn examples_of_the_paper() {
    // From the paper's own sums; the second implementation is not asked.
    let cap_of_two = TWO_OUTPUTS.replacen("2,2,1\n", "2,2,2\n", 1);
    for (text, kind, sound, faulty) in [
        (LISTING, PLAIN, 0.5, &[0.5, 0.5][..]),
        (STUCK_INPUTS, PLAIN, 0.625, &[0.5, 0.75, 0.25, 1.0]),
        (TWO_STUCK_INPUTS, PLAIN, 0.5, &[0.5, 0.5, 0.25, 0.75]),
        (STUCK_INNER_LINE, PLAIN, 0.5, &[0.375, 0.6875]),
        (OPENED, PLAIN, 0.53125, &[0.375, 0.6875]),
        (SEVEN_ROWS, PLAIN, 0.4375, &[1.0]),
        (SILENT_FAULT, PLAIN, 0.5, &[0.5]),
        (TWO_OUTPUTS, WEIGHTED, 1.0, &[1.0, 1.0]),
        (&cap_of_two, WEIGHTED, 1.0, &[1.0, 1.0]),
    ] {
        let bytes = text.as_bytes();
        let due = Measured::new(kind, 0, Bits::of(sound));
        assert_eq!(measured(bytes, 0, 0), due, "{text}");
        for (fault, &faulty) in (1..).zip(faulty) {
            let due = Comparison::new([sound, faulty, sound - faulty].map(Bits::of));
            assert_eq!(compared(bytes, fault, 0, 0), due, "fault {fault} of {text}");
        }
        let next = faulty.len() as u32 + 1;
        assert_eq!(compared(bytes, next, 0, 0), Comparison::refused(12, 0));
        assert_eq!(compared(bytes, 0, 0, 0), Comparison::refused(12, 0));
    }
    // Differences in bits: 1/8, -1/8, 3/8 and -3/8.
    for (fault, bits) in (1..).zip([
        0x3fc0_0000_0000_0000,
        0xbfc0_0000_0000_0000,
        0x3fd8_0000_0000_0000,
        0xbfd8_0000_0000_0000,
    ]) {
        let found = compared(STUCK_INPUTS.as_bytes(), fault, 0, 0);
        assert_eq!(found.readings[2], Bits(bits), "fault {fault}");
    }
    let mut long = LISTING.as_bytes().to_vec();
    long.resize(TEXT_LIMIT + 1, b'\n');
    let nine = with_line(LISTING, 1, "circuit,9,4,1,2,2");
    for (text, number, place) in [
        (&b""[..], 2, 1),
        (&long, 1, 0),
        (&long[..TEXT_LIMIT], 7, 9),
        (&nine, 3, 1),
    ] {
        assert_eq!(measured(text, 0, 0), Measured::refused(number, place));
        assert_eq!(compared(text, 1, 0, 0), Comparison::refused(number, place));
    }
    let eight = with_line(LISTING, 1, "circuit,8,4,1,2,2");
    // Read, and then line 7 is an input.
    let half = Bits::of(0.5);
    assert_eq!(measured(&eight, 0, 0), Measured::new(PLAIN, 0, half));
    let fixed = Measured::new(CONSTRAINED, 1, Bits::of(1.0));
    assert_eq!(measured(&eight, 64, 64), fixed);
    assert_eq!(measured(&eight, 256, 0), Measured::refused(12, 0));
}

#[test]
fn examples_with_fixed_inputs() {
    // The listing's rows are 0, 0, 0, 1, 1, 1, 0, 1.
    for (text, mask, values, fixed, due) in [
        (LISTING, 1, 0, 1, 0.25),
        (LISTING, 1, 1, 1, 0.75),
        (LISTING, 2, 0, 1, 0.5),
        (LISTING, 2, 2, 1, 0.5),
        (LISTING, 4, 0, 1, 0.25),
        (LISTING, 4, 4, 1, 0.75),
        (LISTING, 3, 0, 2, 0.5),
        (LISTING, 3, 3, 2, 1.0),
        (LISTING, 5, 1, 2, 0.5),
        (LISTING, 5, 5, 2, 1.0),
        (LISTING, 6, 2, 2, 0.5),
        (LISTING, 6, 4, 2, 1.0),
        (LISTING, 6, 0, 2, 0.0),
        (LISTING, 7, 2, 3, 0.0),
        (LISTING, 7, 3, 3, 1.0),
        (LISTING, 7, 6, 3, 0.0),
        // The opened line at 0 and 1: sums 6 and 11 of 16.
        (OPENED, 16, 0, 1, 0.375),
        (OPENED, 16, 16, 1, 0.6875),
        // Example 5.8: sums 8, 8, 4 and 12 when all 16 rows are taken.
        (TWO_STUCK_INPUTS, 3, 0, 2, 0.5),
        (TWO_STUCK_INPUTS, 3, 1, 2, 0.5),
        (TWO_STUCK_INPUTS, 3, 2, 2, 0.25),
        (TWO_STUCK_INPUTS, 3, 3, 2, 0.75),
        (STUCK_INPUTS, 1, 0, 1, 0.5),
        (STUCK_INPUTS, 1, 1, 1, 0.75),
        (STUCK_INPUTS, 4, 0, 1, 0.25),
        (STUCK_INPUTS, 4, 4, 1, 1.0),
        // Constrained, though there are two outputs.
        (TWO_OUTPUTS, 1, 0, 1, 0.5),
        (TWO_OUTPUTS, 1, 1, 1, 1.5),
        (TWO_OUTPUTS, 3, 3, 2, 2.0),
        (TWO_OUTPUTS, 3, 0, 2, 0.0),
    ] {
        let due = Measured::new(CONSTRAINED, fixed, Bits::of(due));
        let found = measured(text.as_bytes(), mask, values);
        assert_eq!(found, due, "mask {mask}, values {values}, {text}");
    }
    for (row, bits) in (0..).zip([0, 0, 0, 1, 1, 1, 0, 1]) {
        let due = Measured::new(CONSTRAINED, 3, Bits(bits * 0x3ff0_0000_0000_0000));
        assert_eq!(measured(LISTING.as_bytes(), 7, row), due, "row {row}");
    }
    // With x2 stuck at 0 the listing is x3, at 1 it is x1.
    for (fault, mask, values, due) in [
        (1, 1, 1, [0.75, 0.5, 0.25]),
        (2, 1, 1, [0.75, 1.0, -0.25]),
        (1, 1, 0, [0.25, 0.5, -0.25]),
        (2, 1, 0, [0.25, 0.0, 0.25]),
        (1, 7, 3, [1.0, 0.0, 1.0]),
        (2, 7, 4, [1.0, 0.0, 1.0]),
        (2, 7, 1, [0.0, 1.0, -1.0]),
        (1, 7, 0, [0.0, 0.0, 0.0]),
    ] {
        let found = compared(LISTING.as_bytes(), fault, mask, values);
        let case = format_args!("fault {fault}, mask {mask}, values {values}");
        assert_eq!(found, Comparison::new(due.map(Bits::of)), "{case}");
    }
}

#[test]
fn readings_at_their_limit() {
    // Line 9 always shows 1, line 10 always 0, and line 17 all inputs' product.
    let head = "circuit,8,9,4,4,1\ngate,xnor,1,1\ngate,xor,1,1\n\
        gate,and,1,2\ngate,and,3,11\ngate,and,4,12\ngate,and,5,13\ngate,and,6,14\n\
        gate,and,7,15\ngate,and,8,16\n";
    let faults = "fault,9,0\nfault,10,1\nfault,17,1\nfault,9,0,10,1,17,1\n";
    let text = |lines: [usize; 4]| {
        let outputs = lines.map(|line| format!("output,{line},15\n")).concat();
        format!("{head}{outputs}{faults}").into_bytes()
    };
    let most = 0x404e_0000_0000_0000;
    let found = measured(&text([9; 4]), 0, 0);
    assert_eq!(found, Measured::new(WEIGHTED, 0, Bits(most)));
    let found = compared(&text([9; 4]), 1, 0, 0);
    assert_eq!(found, Comparison::new([most, 0, most].map(Bits)));
    let found = compared(&text([10; 4]), 2, 0, 0);
    assert_eq!(found, Comparison::new([0, most, most | 1 << 63].map(Bits)));
    // 11,535, 3,855 and 15 of 256.
    let three = text([9, 9, 9, 17]);
    let found = pair(&three, 1, 0, 0);
    assert_eq!(found, [45.05859375, 0.05859375, 45.0]);
    let found = pair(&three, 3, 0, 0);
    assert_eq!(found, [45.05859375, 60.0, -14.94140625]);
    assert_eq!(value(&text([9, 17, 10, 10]), 0, 0), 15.05859375);
    assert_eq!(measured(&three, 0, 0).value, Bits(0x4046_8780_0000_0000));
    assert_eq!(value(&three, 255, 255), 60.0);
    assert_eq!(value(&three, 255, 127), 45.0);
    assert_eq!(value(&three, 127, 127), 52.5);
    let mut both = Both::new(2);
    for lines in [[9; 4], [10; 4], [17; 4], [9, 9, 9, 17], [9, 10, 17, 17]] {
        let text = text(lines);
        for fault in 1..=4 {
            for (mask, values) in [(0, 0), (255, 255), (255, 0), (1, 1), (127, 127), (128, 0)] {
                both.pair(&text, fault, mask, values);
                both.reading(&text, mask, values);
            }
        }
    }
    both.assert_signs([10, 10, 10]);
}

#[test]
fn each_input_as_an_output() {
    // x_i of weight w: w/2, and w or 0 where input i is fixed.
    for inputs in 1..=8 {
        for input in 1..=inputs {
            for weight in every_weight() {
                let text = input_of_weight(inputs, input, weight);
                let text = text.as_bytes();
                let all = f64::from(weight);
                let kind = if weight == 1 { PLAIN } else { WEIGHTED };
                let due = Measured::new(kind, 0, Bits::of(all / 2.0));
                assert_eq!(measured(text, 0, 0), due, "x{input} of {inputs}");
                for other in 1..=inputs {
                    let bit = 1 << (other - 1);
                    for (values, own) in [(0, 0.0), (bit, all)] {
                        let sound = if other == input { own } else { all / 2.0 };
                        let due = Measured::new(CONSTRAINED, 1, Bits::of(sound));
                        let found = measured(text, bit, values);
                        assert_eq!(found, due, "x{input} of {inputs}, x{other} fixed");
                        for (fault, faulty) in [(1, 0.0), (2, all)] {
                            let found = pair(text, fault, bit, values);
                            assert_eq!(found, [sound, faulty, sound - faulty]);
                        }
                    }
                }
            }
        }
    }
}

#[test]
fn cases_by_outputs_weights_and_masks() {
    let mut both = Both::new(3);
    for outputs in 1..=4 {
        for heavy in 0..=outputs {
            for weight in every_weight().filter(|&weight| weight != 1) {
                // Output `heavy` has the weight, the others 1; 0 is none.
                let lines: String = (1..=outputs)
                    .map(|at| format!("output,1,{}\n", if at == heavy { weight } else { 1 }))
                    .collect();
                let text = format!("circuit,2,0,{outputs},1,1\n{lines}fault,1,0\n");
                let kind = if outputs > 1 || heavy == 1 {
                    WEIGHTED
                } else {
                    PLAIN
                };
                let found = both.reading(text.as_bytes(), 0, 0);
                assert_eq!((found.kind, found.fixed), (kind, 0), "{text}");
                for (mask, values) in [(1, 0), (1, 1), (2, 0), (2, 2), (3, 1)] {
                    let found = both.reading(text.as_bytes(), mask, values);
                    let fixed = u32::count_ones(mask);
                    assert_eq!((found.kind, found.fixed), (CONSTRAINED, fixed), "{text}");
                }
            }
        }
    }
    for mask in 1..256 {
        for text in [
            HALF_AND_A_ROW.to_string(),
            HALF_AND_A_ROW.replace("t,15,1", "t,15,7"),
            HALF_AND_A_ROW.replace("t,15,1", "t,15,-1"),
        ] {
            let values = both.random.noise() as u32 & mask;
            let found = both.reading(text.as_bytes(), mask, values);
            let fixed = mask.count_ones();
            assert_eq!((found.kind, found.fixed), (CONSTRAINED, fixed), "{mask}");
        }
    }
    both.outcomes.assert_seen(&[(0, 3100)]);
    both.assert_kinds([29, 370, 2700]);
}

// Random circuits.

#[test]
fn circuits_of_every_size() {
    let mut both = Both::new(10);
    for inputs in 1..=8 {
        for gates in 0..=48 {
            let drawn = Sizes::draw(&mut both.random);
            let outputs = 1 + gates % 4;
            let draft = both.draft(Sizes {
                inputs,
                gates,
                outputs,
                ..drawn
            });
            let text = draft.text();
            both.reading(&text, 0, 0);
            for _ in 0..4 {
                let (mask, values) = both.fixture(inputs);
                both.reading(&text, mask, values);
            }
            for fault in 1..=draft.sizes.faults as u32 {
                let (mask, values) = both.fixture(inputs);
                both.pair(&text, fault, mask, values);
            }
        }
    }
    both.outcomes.assert_seen(&[(0, 7000)]);
    both.assert_kinds([150, 250, 1000]);
    both.assert_signs([1000, 1000, 1000]);
    both.assert_fixed(8, 100);
}

#[test]
fn circuits_of_the_largest_size() {
    let mut both = Both::new(11);
    for _ in 0..24 {
        let draft = both.draft(Sizes::LARGEST);
        let text = draft.text();
        both.reading(&text, 0, 0);
        for fault in 1..=32 {
            let (mask, values) = both.fixture(8);
            both.reading(&text, mask, values);
            both.pair(&text, fault, mask, values);
            both.pair(&text, fault, 0, 0);
        }
    }
    both.outcomes.assert_seen(&[(0, 24 * 97)]);
    both.assert_kinds([20, 80, 400]);
    both.assert_signs([200, 200, 200]);
    both.assert_fixed(8, 5);
}

#[test]
fn sums_of_many_bits() {
    let mut both = Both::new(14);
    let (mut sums, mut differences) = ([0; 15], [0; 15]);
    for round in 0..160 {
        let inputs = 5 + round % 4;
        let draft = both.odd_outputs(inputs);
        let fixtures = [both.fixture(inputs), (0, 0)];
        both.all(&draft, &fixtures);
        let rows = all_rows(&draft.text());
        let (sum, _) = whole(&rows[0], 0, 0);
        sums[bits_of(sum) as usize] += 1;
        for faulted in &rows[1..] {
            let (faulty, _) = whole(faulted, 0, 0);
            differences[bits_of(sum - faulty) as usize] += 1;
        }
    }
    both.outcomes.assert_seen(&[(0, 2800)]);
    both.assert_signs([500, 100, 500]);
    assert!(sums[9..=13].iter().all(|&count| count >= 5), "{sums:?}");
    let enough = differences[1..=11].iter().all(|&count| count >= 10);
    assert!(enough, "{differences:?}");
}

#[test]
fn every_fixture_of_small_circuits() {
    let mut both = Both::new(12);
    for (inputs, circuits, faults) in [
        (1, 40, 6),
        (2, 30, 8),
        (3, 20, 8),
        (4, 12, 6),
        (5, 6, 4),
        (6, 3, 2),
    ] {
        let fixtures = fixtures(inputs);
        assert_eq!(fixtures.len(), 3_usize.pow(inputs as u32));
        for _ in 0..circuits {
            let draft = both.small(inputs, faults);
            both.all(&draft, &fixtures);
        }
    }
    both.outcomes.assert_seen(&[(0, 25_000)]);
    both.assert_kinds([25, 40, 4000]);
    both.assert_signs([3000, 3000, 3000]);
    both.assert_fixed(6, 500);
}

#[test]
fn every_count_of_faults() {
    let mut both = Both::new(13);
    for faults in 1..=32 {
        let inputs = 1 + both.random.below(4);
        let draft = both.small(inputs, faults);
        let fixtures = [both.fixture(inputs), (0, 0)];
        both.all(&draft, &fixtures);
        let text = draft.text();
        let next = faults as u32 + 1;
        for fault in [0, next, next + 1, 33, u32::MAX] {
            for (mask, values) in fixtures {
                let found = both.pair(&text, fault, mask, values);
                assert_eq!(found, Comparison::refused(12, 0), "{fault} of {faults}");
            }
        }
    }
    both.outcomes.assert_seen(&[(0, 1000), (12, 320)]);
    both.assert_signs([100, 100, 100]);
}

// Refusals.

#[test]
fn arguments_out_of_range() {
    let mut both = Both::new(20);
    for inputs in 1..=8 {
        let draft = both.small(inputs, 1 + inputs);
        let (text, faults) = (draft.text(), draft.sizes.faults as u32);
        let all: u32 = (1 << inputs) - 1;
        let refused = (Measured::refused(12, 0), Comparison::refused(12, 0));
        let mut expect = |fault: u32, mask: u32, values: u32| {
            let found = (
                both.reading(&text, mask, values),
                both.pair(&text, fault, mask, values),
            );
            let case = format_args!("{inputs} inputs, mask {mask}, values {values}");
            assert_eq!(found, refused, "fault {fault}, {case}");
        };
        // Masks of 2^N and above.
        for bit in inputs as u32..32 {
            let bit = 1 << bit;
            for (mask, values) in [
                (bit, 0),
                (bit, bit),
                (bit | 1, 0),
                (bit | 1, 1),
                (bit | all, all),
                (bit | all, bit | all),
            ] {
                expect(1, mask, values);
            }
        }
        for mask in [all + 1, all + 2, 2 * all + 1, u32::MAX - 1, u32::MAX] {
            for values in [0, mask, mask & all] {
                expect(1, mask, values);
            }
        }
        // Values outside the mask by one bit, every other bit being good.
        for mask in (0..=all).step_by(1 + all as usize / 12) {
            for bit in (0..32).map(|bit| 1 << bit).filter(|bit| mask & bit == 0) {
                expect(1, mask, bit);
                expect(faults, mask, mask | bit);
            }
            expect(1, mask, !mask);
            expect(1, mask, u32::MAX);
        }
        // The whole mask, below 2^N, is good, and so is 0.
        for (mask, values) in [(all, all), (all, 0), (0, 0)] {
            let found = both.reading(&text, mask, values);
            assert_eq!((found.number, found.fixed), (0, mask.count_ones()));
            for fault in [1, faults] {
                assert_eq!(both.pair(&text, fault, mask, values).number, 0);
            }
            // Faults that the circuit has not, some of them 1 in fewer bits.
            for fault in [
                0,
                faults + 1,
                33,
                256,
                257,
                65_536,
                65_537,
                1 << 31,
                u32::MAX - 1,
                u32::MAX,
            ] {
                let found = both.pair(&text, fault, mask, values);
                assert_eq!(found, Comparison::refused(12, 0), "fault {fault}");
            }
        }
    }
    both.outcomes.assert_seen(&[(0, 72), (12, 5000)]);
}

/// A text for each way in which texts are refused.
fn refused_texts() -> Vec<(Vec<u8>, u32, usize)> {
    let listing = LISTING.as_bytes();
    let mut texts = vec![
        (vec![b'x'; TEXT_LIMIT + 1], 1, 0),
        (Vec::new(), 2, 1),
        (b"\n".to_vec(), 2, 1),
        (listing[..listing.len() - 1].to_vec(), 2, 8),
        (listing[..18].to_vec(), 2, 2),
        ([listing, b"\n"].concat(), 7, 9),
        ([listing, listing].concat(), 7, 9),
    ];
    for (place, line, number) in [
        (1, "circuit,9,4,1,2,2", 3),
        (1, "circuit,3,4,1,2,0", 3),
        (1, "circuits,3,4,1,2,2", 2),
        (2, "gate,buf,2,0", 2),
        (2, "gate,not,2,1", 3),
        (3, "gate,and,3,5", 4),
        (4, "gate,not,4,0,0", 2),
        (5, "gate,or,5,57", 3),
        (5, "gate,or,1,5,0", 3),
        (5, "gate,or,1,2,6,7", 4),
        (6, "output,8,1", 5),
        (6, "output,7,16", 3),
        (7, "fault,2,0,1,0", 6),
        (8, "fault,8,0", 5),
        (8, "fault,2,2", 3),
        (8, "fault,2,1,2,1", 6),
    ] {
        texts.push((with_line(LISTING, place, line), number, place));
    }
    texts
}

#[test]
fn the_text_goes_before_the_arguments() {
    let mut both = Both::new(21);
    for (text, number, place) in refused_texts() {
        for (mask, values) in [
            (0, 0),
            (7, 5),
            (8, 0),
            (9, 1),
            (0, 1),
            (3, 4),
            (256, 0),
            (u32::MAX, 0),
            (u32::MAX, u32::MAX),
            (0, u32::MAX),
        ] {
            let found = both.reading(&text, mask, values);
            assert_eq!(found, Measured::refused(number, place), "{}", Shown(&text));
            for fault in [0, 1, 2, 3, u32::MAX] {
                let found = both.pair(&text, fault, mask, values);
                assert_eq!(
                    found,
                    Comparison::refused(number, place),
                    "{}",
                    Shown(&text)
                );
            }
        }
    }
    both.outcomes.assert_seen(&[
        (1, 60),
        (2, 360),
        (3, 300),
        (4, 60),
        (5, 120),
        (6, 120),
        (7, 120),
    ]);
}

#[test]
fn damaged_texts() {
    let mut both = Both::new(22);
    for round in 0..500 {
        let draft = match round % 3 {
            0 => both.drawn(),
            // Small ones, so that damage often hits outputs and faults.
            _ => both.small(1 + round % 8, 1 + round % 5),
        };
        let inputs = draft.sizes.inputs;
        for damage in &DAMAGES {
            let text = (damage.apply)(&mut both.random, &draft);
            let (mask, values) = match both.random.once_in(3) {
                true => both.bad_fixture(inputs),
                false => both.fixture(inputs),
            };
            both.reading(&text, mask, values);
            let fault = both.random.below(draft.sizes.faults + 2) as u32;
            both.pair(&text, fault, mask, values);
        }
    }
    both.outcomes.assert_seen(&[
        (0, 300),
        (2, 5000),
        (3, 800),
        (4, 300),
        (5, 150),
        (6, 200),
        (7, 1000),
        (12, 300),
    ]);
    both.assert_kinds([20, 30, 200]);
    both.assert_signs([20, 50, 20]);
}

#[test]
fn good_texts_with_drawn_arguments() {
    let mut both = Both::new(23);
    for round in 0..1200 {
        let draft = both.small(1 + round % 8, 1 + round % 7);
        let (text, inputs, faults) = (draft.text(), draft.sizes.inputs, draft.sizes.faults);
        let (mask, values) = match both.random.once_in(2) {
            true => both.bad_fixture(inputs),
            false => both.fixture(inputs),
        };
        both.reading(&text, mask, values);
        let fault = match both.random.below(4) {
            0 => both.random.noise() as u32,
            1 => 0,
            _ => 1 + both.random.below(faults + 1) as u32,
        };
        both.pair(&text, fault, mask, values);
    }
    both.outcomes.assert_seen(&[(0, 600), (12, 1000)]);
    both.assert_kinds([20, 50, 400]);
}

#[test]
fn every_byte_of_the_listing_changed() {
    let mut both = Both::new(24);
    let listing = LISTING.as_bytes();
    for at in 0..listing.len() {
        let (start, rest) = listing.split_at(at);
        both.reading(start, 0, 0);
        both.pair(rest, 1, 0, 0);
        for byte in *b"0123456789,\nax" {
            let mut text = listing.to_vec();
            text[at] = byte;
            let (mask, values) = both.fixture(3);
            both.reading(&text, mask, values);
            both.pair(&text, 2, mask, values);
        }
    }
    both.outcomes
        .assert_seen(&[(0, 100), (2, 1000), (3, 50), (4, 20), (5, 10), (7, 2)]);
}

// Bridges.

#[test]
fn bridges_by_hand() {
    // The rows 0, 0, 0, 1, 1, 1, 0, 1 become 0, 0, 0, 0, 0, 1, 0, 1. A mask and
    // its values choose rows by their numbers, whatever the inputs show.
    let text = LISTING_WITH_A_BRIDGE.as_bytes();
    for (mask, values, due) in [
        (0, 0, [0.5, 0.25, 0.25]),
        (1, 0, [0.25, 0.0, 0.25]),
        (1, 1, [0.75, 0.5, 0.25]),
        (2, 0, [0.5, 0.25, 0.25]),
        (4, 0, [0.25, 0.0, 0.25]),
        (4, 4, [0.75, 0.5, 0.25]),
        (5, 1, [0.5, 0.0, 0.5]),
        (5, 4, [0.5, 0.0, 0.5]),
        (5, 5, [1.0, 1.0, 0.0]),
        (7, 3, [1.0, 0.0, 1.0]),
        (7, 7, [1.0, 1.0, 0.0]),
    ] {
        assert_eq!(pair(text, 2, mask, values), due, "mask {mask}, {values}");
    }
    assert_eq!(value(text, 0, 0), 0.5);
    // Both outputs show the AND: 5 on one row of four, for 2 and 3 on two each.
    let outputs = b"circuit,2,0,2,1,1\noutput,1,2\noutput,2,3\nbridge,1,2\n";
    assert_eq!(pair(outputs, 1, 0, 0), [2.5, 1.25, 1.25]);
    assert_eq!(pair(outputs, 1, 1, 1), [3.5, 2.5, 1.0]);
    assert_eq!(pair(outputs, 1, 3, 1), [2.0, 0.0, 2.0]);
}

#[test]
fn every_fixture_of_small_circuits_with_bridges() {
    let mut both = Both::new(40);
    for round in 0..90 {
        let inputs = 2 + round % 3;
        let drawn = both.small(inputs, 1 + round % 7);
        let draft = with_bridges(&mut both.random, &drawn);
        both.all(&draft, &fixtures(inputs));
    }
    both.outcomes.assert_seen(&[(0, 10_000)]);
    both.assert_kinds([20, 30, 2000]);
    both.assert_signs([500, 2000, 500]);
    both.assert_fixed(4, 300);
}

#[test]
fn circuits_of_every_size_with_bridges() {
    let mut both = Both::new(41);
    for round in 0..200 {
        let drawn = Sizes::draw(&mut both.random);
        let inputs = 2 + round % 7;
        let draft = draw_circuit(&mut both.random, Sizes { inputs, ..drawn });
        let some = [0; 2].map(|_| both.fixture(inputs));
        both.all(&draft, &some);
    }
    both.outcomes.assert_seen(&[(0, 5000)]);
    both.assert_signs([500, 1000, 500]);
    both.assert_fixed(8, 30);
}

/// Gates of every width, with bridges and without.
#[test]
fn circuits_with_wide_gates() {
    let mut both = Both::new(44);
    for round in 0..90 {
        let inputs = 1 + round % 4;
        let drawn = both.small(inputs, 1 + round % 7);
        let draft = widened(&mut both.random, &drawn);
        both.all(&draft, &fixtures(inputs));
    }
    for round in 0..200 {
        let inputs = 2 + round % 7;
        let drawn = Sizes::draw(&mut both.random);
        let drawn = both.draft(Sizes { inputs, ..drawn });
        let wide = widened(&mut both.random, &drawn);
        let draft = with_bridges(&mut both.random, &wide);
        let some = [0; 2].map(|_| both.fixture(inputs));
        both.all(&draft, &some);
    }
    both.outcomes.assert_seen(&[(0, 10_000)]);
    both.assert_kinds([20, 40, 1500]);
    both.assert_signs([1000, 2000, 1000]);
    both.assert_fixed(8, 30);
}

/// The sound rows, by the numbers of rows with both inputs replaced, give the
/// faulty readings of a bridge.
#[test]
fn readings_under_bridges_are_sums_of_bridged_rows() {
    let mut both = Both::new(42);
    let mut bridges = 0;
    for round in 0..200 {
        let drawn = Sizes::draw(&mut both.random);
        let inputs = 2 + round % 7;
        let text = draw_circuit(&mut both.random, Sizes { inputs, ..drawn }).text();
        let netlist = netlist::parse(&text).expect("a good circuit");
        let sound = netlist.rows(0).expect("fault 0");
        for (fault, number) in netlist.faults.iter().zip(1..) {
            let Some((first, second)) = fault.bridge() else {
                continue;
            };
            let (mask, values) = both.fixture(inputs);
            let (sum, count) = whole(&sound, mask, values);
            let (faulty, _) = whole(&bridged_rows(&sound, first, second), mask, values);
            let due = [sum, faulty, sum - faulty].map(|sum| Bits::of(f64::from(sum)));
            let found = pair(&text, number, mask, values);
            let found = found.map(|value| Bits::of(value * f64::from(count)));
            assert_eq!(found, due, "fault {number} of {}", Shown(&text));
            bridges += 1;
        }
    }
    assert!(bridges > 1500, "{bridges} bridges");
}

/// 19 at its line, before all that is wrong with the arguments.
#[test]
fn refused_bridges() {
    let mut both = Both::new(43);
    for (line, number) in [
        ("bridge,1,2,3", 2),
        ("bridge,57,1", 3),
        ("bridge,2,2", 19),
        ("bridge,3,1", 19),
        ("bridge,1,4", 19),
        ("bridge,7,8", 19),
    ] {
        for place in [7, 8] {
            let text = with_line(LISTING_WITH_A_BRIDGE, place, line);
            for (fault, mask, values) in [(1, 0, 0), (2, 5, 4), (0, 8, 9), (9, u32::MAX, 0)] {
                let found = both.reading(&text, mask, values);
                assert_eq!(found, Measured::refused(number, place), "{line}");
                let found = both.pair(&text, fault, mask, values);
                assert_eq!(found, Comparison::refused(number, place), "{line}");
            }
        }
    }
    both.outcomes.assert_seen(&[(2, 16), (3, 16), (19, 64)]);
}

#[test]
fn damaged_circuits_with_bridges() {
    let mut both = Both::new(44);
    for round in 0..600 {
        let drawn = Sizes::draw(&mut both.random);
        let inputs = 1 + round % 8;
        let draft = draw_circuit(&mut both.random, Sizes { inputs, ..drawn });
        for damage in &BRIDGE_DAMAGES {
            let text = (damage.apply)(&mut both.random, &draft);
            let (mask, values) = both.fixture(inputs);
            both.reading(&text, mask, values);
            let fault = both.random.below(draft.sizes.faults + 2) as u32;
            both.pair(&text, fault, mask, values);
        }
    }
    both.outcomes.assert_seen(&[
        (0, 100),
        (2, 1500),
        (3, 500),
        (4, 5),
        (5, 5),
        (6, 1),
        (7, 0),
        (12, 5),
        (19, 2500),
    ]);
}

// What follows from the definitions.

#[test]
fn values_times_the_count_are_the_whole_sums() {
    let mut both = Both::new(30);
    let (mut zeros, mut rows_alone, mut many_bits) = (0, 0, 0);
    for round in 0..200 {
        let draft = match round % 5 {
            0 => both.draft(Sizes::LARGEST),
            1 => both.odd_outputs(8),
            _ => both.drawn(),
        };
        let text = draft.text();
        let rows = all_rows(&text);
        for (fault, faulted) in (0..).zip(&rows) {
            let (mask, values) = both.fixture(draft.sizes.inputs);
            let (sum, count) = whole(&rows[0], mask, values);
            let (faulty_sum, _) = whole(faulted, mask, values);
            let found = match fault {
                0 => vec![(value(&text, mask, values), sum)],
                _ => {
                    let found = pair(&text, fault, mask, values);
                    let sums = [sum, faulty_sum, sum - faulty_sum];
                    found.into_iter().zip(sums).collect()
                }
            };
            for (value, sum) in found {
                let product = Bits::of(value * f64::from(count));
                let case = format_args!("fault {fault}, mask {mask}, {}", Shown(&text));
                assert_eq!(product, Bits::of(f64::from(sum)), "{case}");
                zeros += usize::from(sum == 0);
                rows_alone += usize::from(count == 1);
                many_bits += usize::from(bits_of(sum) >= 11);
            }
        }
    }
    assert!(zeros > 500, "sums of 0: {zeros}");
    assert!(rows_alone > 500, "readings of one row: {rows_alone}");
    assert!(many_bits > 50, "sums of 11 bits and more: {many_bits}");
}

#[test]
fn without_fixed_inputs_it_is_the_coefficient_at_label_0() {
    let mut both = Both::new(31);
    let mut changed = 0;
    for round in 0..120 {
        let draft = match round % 4 {
            0 => both.draft(Sizes::LARGEST),
            _ => both.drawn(),
        };
        let text = draft.text();
        let length = 1 << draft.sizes.inputs;
        // The library's own coefficients.
        let first = |fault| {
            let case = format_args!("fault {fault} of {}", Shown(&text));
            f64::from(written(case, length, |out| library::circuit(&text, fault, out))[0])
        };
        let (sound, count) = (first(0), length as f64);
        let reading = value(&text, 0, 0);
        assert_eq!(Bits::of(reading * count), Bits::of(sound));
        for fault in 1..=draft.sizes.faults as u32 {
            let faulty = first(fault);
            let due = [sound, faulty, sound - faulty].map(Bits::of);
            let found = pair(&text, fault, 0, 0).map(|value| Bits::of(value * count));
            assert_eq!(found, due, "fault {fault} of {}", Shown(&text));
            changed += usize::from(faulty != sound);
        }
    }
    assert!(changed > 500, "faults that change the sum: {changed}");
}

#[test]
fn differences_are_exact() {
    let mut both = Both::new(32);
    let mut signs = BTreeMap::new();
    for round in 0..150 {
        let draft = match round % 5 {
            0 => both.draft(Sizes::LARGEST),
            1 => both.odd_outputs(8),
            _ => both.drawn(),
        };
        let text = draft.text();
        let rows = all_rows(&text);
        for (fault, faulted) in (1..).zip(&rows[1..]) {
            let (mask, values) = both.fixture(draft.sizes.inputs);
            let (sum, count) = whole(&rows[0], mask, values);
            let (faulty, _) = whole(faulted, mask, values);
            let found = pair(&text, fault, mask, values);
            let case = format_args!("fault {fault}, mask {mask}, {}", Shown(&text));
            let bits = quotient(i64::from(sum - faulty), count as u64);
            assert_eq!(Bits::of(found[2]), Bits(bits), "{case}");
            // Of the other two, and the sound one is the reading's.
            assert_eq!(Bits::of(found[0] - found[1]), Bits(bits), "{case}");
            let reading = value(&text, mask, values);
            assert_eq!(Bits::of(found[0]), Bits::of(reading), "{case}");
            *signs.entry((sum - faulty).signum()).or_insert(0) += 1;
        }
    }
    for sign in -1..=1 {
        assert!(signs.get(&sign).is_some_and(|&n| n > 300), "{signs:?}");
    }
}

#[test]
fn equal_readings_have_equal_sums() {
    let mut both = Both::new(33);
    let (mut equal, mut different) = (0, 0);
    for round in 0..60 {
        let draft = both.small(1 + round % 6, 4);
        let text = draft.text();
        let rows = all_rows(&text);
        let inputs = draft.sizes.inputs;
        for _ in 0..6 {
            let (mask, _) = both.fixture(inputs);
            // Sums and readings of this mask: values by chance, sound or not.
            let mut seen = Vec::new();
            for _ in 0..10 {
                let fault = 1 + both.random.below(4);
                let values = both.random.noise() as u32 & mask;
                let found = pair(&text, fault as u32, mask, values).map(Bits::of);
                seen.push((whole(&rows[0], mask, values).0, found[0]));
                seen.push((whole(&rows[fault], mask, values).0, found[1]));
                let reading = Bits::of(value(&text, mask, values));
                seen.push((whole(&rows[0], mask, values).0, reading));
            }
            for (at, one) in seen.iter().enumerate() {
                for other in &seen[..at] {
                    let case = format_args!("mask {mask}, {}", Shown(&text));
                    assert_eq!(one.0 == other.0, one.1 == other.1, "{case}");
                    match one.0 == other.0 {
                        true => equal += 1,
                        false => different += 1,
                    }
                }
            }
        }
    }
    assert!(equal > 10_000, "equal sums: {equal}");
    assert!(different > 10_000, "different sums: {different}");
}

#[test]
fn fixed_inputs_are_stuck_inputs() {
    // Fixing up to three inputs reads what all rows read when they are stuck.
    let mut both = Both::new(34);
    let mut telling = 0;
    for round in 0..300 {
        let draft = both.small(1 + round % 8, 1);
        let inputs = draft.sizes.inputs;
        let (mut mask, mut values, mut fault) = (0, 0, vec!["fault".to_string()]);
        for input in 1..=inputs {
            if fault.len() < 7 && (fault.len() == 1 && input == inputs || both.random.once_in(2)) {
                let stuck = both.random.below(2);
                fault.extend([input.to_string(), stuck.to_string()]);
                mask |= 1 << (input - 1);
                values |= (stuck as u32) << (input - 1);
            }
        }
        let text = draft.with_faults(&[fault], 1).text();
        let fixed = Bits::of(value(&text, mask, values));
        let [sound, stuck, _] = pair(&text, 1, 0, 0).map(Bits::of);
        assert_eq!(fixed, stuck, "mask {mask}, {}", Shown(&text));
        // And then the fault changes nothing.
        let found = compared(&text, 1, mask, values);
        assert_eq!(found, Comparison::new([fixed, fixed, Bits(0)]));
        telling += usize::from(sound != stuck);
    }
    assert!(telling > 100, "fixtures that change the reading: {telling}");
}

#[test]
fn one_more_fixed_input_splits_the_rows() {
    // Twice a reading is the sum of those with one more input at 0 and at 1.
    let mut both = Both::new(35);
    let mut changed = 0;
    for _ in 0..200 {
        let draft = both.drawn();
        let (text, inputs) = (draft.text(), draft.sizes.inputs);
        let bit = 1 << both.random.below(inputs);
        let (mask, values) = both.fixture(inputs);
        let (mask, values) = (mask & !bit, values & !bit);
        let whole = value(&text, mask, values);
        let parts = [values, values | bit].map(|values| value(&text, mask | bit, values));
        assert_eq!(Bits::of(2.0 * whole), Bits::of(parts[0] + parts[1]));
        changed += usize::from(parts[0] != parts[1]);
    }
    assert!(changed > 50, "inputs that change the reading: {changed}");
}
