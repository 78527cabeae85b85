//! Circuit texts: the paper's, random ones of every size, ones whose faults
//! have chosen labels, and ways to damage them. Drafts and damages serve tables
//! too.

use crate::devices;
use crate::lines::LINE_LIMIT;
use crate::netlist::KINDS;
use crate::plan::CAP_LIMIT;
use crate::random::Random;
use std::collections::BTreeMap;

/// The paper's listing.
pub const LISTING: &str = "circuit,3,4,1,2,2\n\
    gate,not,2,0\n\
    gate,and,1,2\n\
    gate,and,3,4\n\
    gate,or,5,6\n\
    output,7,1\n\
    fault,2,0\n\
    fault,2,1\n";

/// x1x2 or x3, an input stuck.
pub const STUCK_INPUTS: &str = "circuit,3,2,1,4,1\n\
    gate,and,1,2\ngate,or,3,4\noutput,5,1\n\
    fault,1,0\nfault,1,1\nfault,3,0\nfault,3,1\n";

/// Example 5.8, both x1 and x2 stuck.
pub const TWO_STUCK_INPUTS: &str = "circuit,4,5,1,4,1\n\
    gate,and,2,3\ngate,and,1,5\ngate,not,5,0\ngate,and,4,7\ngate,or,6,8\noutput,9,1\n\
    fault,1,0,2,0\nfault,1,1,2,0\nfault,1,0,2,1\nfault,1,1,2,1\n";

/// The same function; x2x3 of the first product has a gate of its own, line 5,
/// which is stuck.
pub const STUCK_INNER_LINE: &str = "circuit,4,6,1,2,1\n\
    gate,and,2,3\ngate,and,2,3\ngate,and,1,5\ngate,not,6,0\ngate,and,4,8\ngate,or,7,9\n\
    output,10,1\nfault,5,0\nfault,5,1\n";

/// A fault that changes no row.
pub const SILENT_FAULT: &str = "circuit,2,2,1,1,1\n\
    gate,and,1,2\ngate,or,1,3\noutput,4,1\nfault,3,0\n";

/// Two faults that no single label covers.
pub const TWO_OUTPUTS: &str = "circuit,2,4,2,2,1\n\
    gate,xor,1,1\ngate,xor,1,1\ngate,xor,1,3\ngate,xor,2,4\n\
    output,5,1\noutput,6,1\nfault,3,1\nfault,4,1\n";

/// x8 or x1x2..x7, 1 on half of the rows and one more; that product, line 14, is
/// stuck.
pub const HALF_AND_A_ROW: &str = "circuit,8,7,1,1,1\n\
    gate,and,1,2\ngate,and,3,9\ngate,and,4,10\ngate,and,5,11\ngate,and,6,12\n\
    gate,and,7,13\ngate,or,8,14\noutput,15,1\nfault,14,0\n";

/// The circuits of the paper's examples.
pub(crate) const EXAMPLES: [&str; 6] = [
    LISTING,
    STUCK_INPUTS,
    TWO_STUCK_INPUTS,
    STUCK_INNER_LINE,
    SILENT_FAULT,
    TWO_OUTPUTS,
];

/// The text with its line `place` replaced.
pub fn with_line(text: &str, place: usize, line: &str) -> Vec<u8> {
    let mut lines: Vec<&str> = text.split_terminator('\n').collect();
    lines[place - 1] = line;
    (lines.join("\n") + "\n").into_bytes()
}

/// The numbers of a text's first line.
#[derive(Clone, Copy, Debug, PartialEq, Eq)]
pub struct Sizes {
    pub inputs: usize,
    pub gates: usize,
    pub outputs: usize,
    pub faults: usize,
    pub cap: usize,
}

impl Sizes {
    pub const LARGEST: Sizes = Sizes {
        inputs: 8,
        gates: 48,
        outputs: 4,
        faults: 32,
        cap: 4,
    };

    pub fn draw(random: &mut Random) -> Sizes {
        Sizes {
            inputs: 1 + random.below(8),
            gates: random.below(49),
            outputs: 1 + random.below(4),
            faults: 1 + random.below(32),
            cap: 1 + random.below(4),
        }
    }

    /// Of few inputs, gates, so many at least, and faults.
    pub fn small(random: &mut Random, gates: usize) -> Sizes {
        let drawn = Sizes::draw(random);
        Sizes {
            inputs: 1 + random.below(4),
            gates: gates + random.below(7),
            faults: 1 + random.below(3),
            ..drawn
        }
    }

    /// In the order of the first line.
    fn numbers(&self) -> [usize; 5] {
        [self.inputs, self.gates, self.outputs, self.faults, self.cap]
    }

    /// The first line of a text with this word.
    pub(crate) fn head(&self, word: &str) -> Vec<String> {
        match word {
            "table" => fields(word, &[self.inputs, self.faults, self.cap]),
            _ => fields(word, &self.numbers()),
        }
    }
}

/// A text as lines of fields, so that each field can be found and moved.
#[derive(Clone, Debug)]
pub struct Draft {
    pub sizes: Sizes,
    pub lines: Vec<Vec<String>>,
}

impl Draft {
    /// A good circuit: every rule of the text is kept.
    pub fn draw(random: &mut Random, sizes: Sizes) -> Draft {
        let mut lines = vec![sizes.head("circuit")];
        let last = sizes.inputs + sizes.gates;
        for own in sizes.inputs + 1..=last {
            let kind = random.pick(&KINDS).0;
            let a = line_below(random, own);
            let b = match kind {
                "not" => 0,
                _ => line_below(random, own),
            };
            lines.push(gate_fields(kind, &[a, b]));
        }
        let mut outputs = Vec::new();
        for _ in 0..sizes.outputs {
            let line = match outputs.last() {
                Some(&before) if random.once_in(5) => before,
                _ => line_below(random, last + 1),
            };
            outputs.push(line);
            lines.push(fields("output", &[line, 1 + random.below(15)]));
        }
        for _ in 0..sizes.faults {
            let stuck = stuck_lines(random, sizes, &outputs);
            lines.push(fault_fields(random, &stuck));
        }
        Draft { sizes, lines }
    }

    pub fn text(&self) -> Vec<u8> {
        let mut text = String::new();
        for line in &self.lines {
            text += &line.join(",");
            text += "\n";
        }
        text.into_bytes()
    }

    /// The lines of the gates.
    pub fn gates(&self) -> &[Vec<String>] {
        &self.lines[1..=self.sizes.gates]
    }

    /// The lines of the outputs.
    pub fn outputs(&self) -> &[Vec<String>] {
        &self.lines[1 + self.sizes.gates..][..self.sizes.outputs]
    }

    /// The lines of the faults.
    pub fn faults(&self) -> &[Vec<String>] {
        &self.lines[self.lines.len() - self.sizes.faults..]
    }

    /// The same with these lines of faults, and the cap.
    pub fn with_faults(&self, faults: &[Vec<String>], cap: usize) -> Draft {
        let sizes = Sizes {
            faults: faults.len(),
            cap,
            ..self.sizes
        };
        let kept = self.lines.len() - self.sizes.faults;
        let mut lines = self.lines[..kept].to_vec();
        lines[0] = sizes.head(&lines[0][0]);
        lines.extend_from_slice(faults);
        Draft { sizes, lines }
    }

    /// The same circuit with these lines of outputs.
    pub fn with_outputs(&self, outputs: &[Vec<String>]) -> Draft {
        let sizes = Sizes {
            outputs: outputs.len(),
            ..self.sizes
        };
        let head = vec![sizes.head("circuit")];
        Draft {
            sizes,
            lines: [&head, self.gates(), outputs, self.faults()].concat(),
        }
    }

    pub fn with_cap(&self, cap: usize) -> Draft {
        self.with_faults(self.faults(), cap)
    }

    /// The lines of the faults that change some row's value: those that are neither
    /// silent nor hidden.
    pub fn changing_faults(&self) -> Vec<Vec<String>> {
        let device = devices::parse(&self.text()).expect("a good text");
        let sound = device.rows(0);
        (1..)
            .zip(self.faults())
            .filter(|&(fault, _)| device.rows(fault) != sound)
            .map(|(_, line)| line.clone())
            .collect()
    }

    /// The same with those faults only; none where there are none.
    pub fn only_changing(&self) -> Option<Draft> {
        let changing = self.changing_faults();
        (!changing.is_empty()).then(|| self.with_faults(&changing, self.sizes.cap))
    }

    /// The first field of a line that is a number.
    fn first_number(&self, line: usize) -> usize {
        match self.lines[line][0].as_str() {
            "gate" => 2,
            _ => 1,
        }
    }

    /// Line and field of a number, each line that has one being as likely.
    pub(crate) fn draw_number(&self, random: &mut Random) -> (usize, usize) {
        let lines: Vec<usize> = (0..self.lines.len())
            .filter(|&line| self.first_number(line) < self.lines[line].len())
            .collect();
        let line = random.pick(&lines);
        (line, self.draw_number_of(random, line))
    }

    /// A field of the line that is a number.
    fn draw_number_of(&self, random: &mut Random, line: usize) -> usize {
        let first = self.first_number(line);
        first + random.below(self.lines[line].len() - first)
    }

    /// Every line and field that is a number.
    pub fn numbers(&self) -> Vec<(usize, usize)> {
        (0..self.lines.len())
            .flat_map(|line| {
                (self.first_number(line)..self.lines[line].len()).map(move |field| (line, field))
            })
            .collect()
    }

    /// The range of a number as the paper gives it.
    fn range(&self, line: usize, field: usize) -> (usize, usize) {
        match (self.lines[line][0].as_str(), field) {
            ("circuit" | "table", 1) => (1, 8),
            ("circuit", 2) => (0, 48),
            ("circuit", 4) | ("table", 2) => (1, 32),
            ("circuit" | "table", _) => (1, 4),
            ("gate", 3) if self.lines[line][1] == "not" => (0, 0),
            ("output", 2) => (1, 15),
            ("fault", 2 | 4 | 6) => (0, 1),
            _ => (1, LINE_LIMIT),
        }
    }

    /// The first line or input that this line of the text may not name.
    pub(crate) fn bound(&self, line: usize) -> usize {
        match self.lines[line][0].as_str() {
            "gate" => self.sizes.inputs + line,
            "bridge" => self.sizes.inputs + 1,
            _ => self.sizes.inputs + self.sizes.gates + 1,
        }
    }

    /// Moves a number to an end of its range or past it, to an end of what
    /// there is, or spoils how it is written.
    pub(crate) fn move_number(&mut self, random: &mut Random, line: usize, field: usize) {
        let (low, high) = self.range(line, field);
        let bound = self.bound(line);
        let number = self.lines[line][field].clone();
        let before = match field.checked_sub(2) {
            // Of a bridge it is the other input.
            Some(_) if self.lines[line][0] == "bridge" => self.lines[line][1].clone(),
            // In a fault it is the line, or the value, of the pair before.
            Some(before) => self.lines[line][before].clone(),
            None => number.clone(),
        };
        self.lines[line][field] = match random.below(20) {
            0 | 1 => low.checked_sub(1).map_or("-1".into(), |n| n.to_string()),
            2 => low.to_string(),
            3 => high.to_string(),
            4 | 5 => (high + 1).to_string(),
            6 => (bound - 1).to_string(),
            7 | 8 => bound.to_string(),
            9 => random.below(10_000).to_string(),
            10 => format!("0{number}"),
            11 => random.pick(&["10000", "00001", "65537", "99999"]).into(),
            12 => String::new(),
            13 => random.pick(&["+1", "-0", " 1", "1 ", "1.", "0x1"]).into(),
            14 => format!("{number}\r"),
            15 => random.pick(&["9999", "256", "257", "0"]).into(),
            16 => random.below(61).to_string(),
            _ => before,
        };
    }
}

pub fn fields(word: &str, numbers: &[usize]) -> Vec<String> {
    let mut fields = vec![word.to_string()];
    fields.extend(numbers.iter().map(usize::to_string));
    fields
}

/// A fault that sticks each of the lines at a drawn value.
pub(crate) fn fault_fields(random: &mut Random, stuck: &[usize]) -> Vec<String> {
    let mut numbers = Vec::new();
    for &line in stuck {
        numbers.extend([line, random.below(2)]);
    }
    fields("fault", &numbers)
}

pub(crate) fn gate_fields(kind: &str, lines: &[usize]) -> Vec<String> {
    let mut gate = fields(kind, lines);
    gate.insert(0, "gate".into());
    gate
}

/// A circuit under way, for circuits whose faults have chosen labels: gates
/// are added one by one, each giving its line.
#[derive(Clone, Debug)]
pub struct Sketch {
    inputs: usize,
    gates: Vec<Vec<String>>,
    outputs: Vec<Vec<String>>,
    faults: Vec<Vec<String>>,
    /// The lines of the parities so far, by label.
    parities: BTreeMap<usize, usize>,
}

impl Sketch {
    pub fn new(inputs: usize) -> Sketch {
        Sketch {
            inputs,
            gates: Vec::new(),
            outputs: Vec::new(),
            faults: Vec::new(),
            parities: BTreeMap::new(),
        }
    }

    /// How many gates can still be added.
    fn gates_left(&self) -> usize {
        Sizes::LARGEST.gates - self.gates.len()
    }

    pub fn gate(&mut self, kind: &str, a: usize, b: usize) -> usize {
        self.wide_gate(kind, &[a, b])
    }

    pub fn wide_gate(&mut self, kind: &str, lines: &[usize]) -> usize {
        self.gates.push(gate_fields(kind, lines));
        self.inputs + self.gates.len()
    }

    /// A new line that always shows 0, to be stuck.
    pub fn zero(&mut self) -> usize {
        self.gate("xor", 1, 1)
    }

    /// The parity of the inputs that the label names.
    pub fn parity(&mut self, label: usize) -> usize {
        if let Some(&line) = self.parities.get(&label) {
            return line;
        }
        // One gate where a parity is there that differs by one input.
        let near = (1..=self.inputs).find_map(|input| {
            let line = self.parities.get(&(label ^ 1 << (input - 1)))?;
            Some((*line, input))
        });
        let highest = (1..=self.inputs).rfind(|input| label & 1 << (input - 1) != 0);
        let line = match (highest, near) {
            (None, _) => self.zero(),
            (Some(input), _) if label.is_power_of_two() => input,
            (_, Some((line, input))) => self.gate("xor", line, input),
            (Some(input), None) => {
                let rest = self.parity(label & !(1 << (input - 1)));
                self.gate("xor", rest, input)
            }
        };
        self.parities.insert(label, line);
        line
    }

    fn draw_parity(&mut self, random: &mut Random) -> usize {
        self.parity(random.below(1 << self.inputs))
    }

    /// Gates of the kind that join all the lines.
    pub fn chain(&mut self, kind: &str, lines: &[usize]) -> usize {
        let (first, rest) = lines.split_first().expect("a line");
        rest.iter()
            .fold(*first, |before, &line| self.gate(kind, before, line))
    }

    pub fn output(&mut self, line: usize, weight: usize) {
        self.outputs.push(fields("output", &[line, weight]));
    }

    /// A fault of lines and values, put in rising order.
    pub fn fault(&mut self, pairs: &[(usize, usize)]) {
        let mut pairs = pairs.to_vec();
        pairs.sort_unstable();
        let numbers: Vec<usize> = pairs.iter().flat_map(|&(a, b)| [a, b]).collect();
        self.faults.push(fields("fault", &numbers));
    }

    pub fn draft(&self, cap: usize) -> Draft {
        let sizes = Sizes {
            inputs: self.inputs,
            gates: self.gates.len(),
            outputs: self.outputs.len(),
            faults: self.faults.len(),
            cap,
        };
        let head = vec![sizes.head("circuit")];
        let lines = [&head, &self.gates, &self.outputs, &self.faults].map(|part| part.as_slice());
        Draft {
            sizes,
            lines: lines.concat(),
        }
    }

    /// An output for each label: its parity, complemented when a line of its
    /// own is stuck at 1. The row values then differ by the parity's sign, so
    /// that only this label covers the fault.
    pub fn complemented(inputs: usize, labels: &[usize], weights: &[usize]) -> Sketch {
        let mut sketch = Sketch::new(inputs);
        for (&label, &weight) in labels.iter().zip(weights) {
            let (parity, stuck) = (sketch.parity(label), sketch.zero());
            let output = sketch.gate("xor", parity, stuck);
            sketch.output(output, weight);
            sketch.fault(&[(stuck, 1)]);
        }
        sketch
    }

    /// The same for any number of labels from two outputs of equal weight: a
    /// line of each label, stuck at 1, puts the parity P into both. Their sum
    /// was 1 and is 2P then.
    pub fn paired(inputs: usize, labels: &[usize], weight: usize) -> Sketch {
        let mut sketch = Sketch::new(inputs);
        let (mut with, mut without) = (Vec::new(), Vec::new());
        for &label in labels {
            let (parity, stuck) = (sketch.parity(label), sketch.zero());
            let both = sketch.gate("and", stuck, parity);
            with.push(both);
            // The line and not the parity.
            without.push(sketch.gate("xor", stuck, both));
            sketch.fault(&[(stuck, 1)]);
        }
        let first = sketch.chain("xor", &with);
        let second = sketch.chain("xor", &without);
        let second = sketch.gate("not", second, 0);
        sketch.output(first, weight);
        sketch.output(second, weight);
        sketch
    }

    /// One output, the parity of `label`, with a line that adds the parity of
    /// `other` to it when stuck at 1: these two labels cover the fault.
    pub fn two_labels(inputs: usize, label: usize, other: usize) -> Sketch {
        let mut sketch = Sketch::new(inputs);
        let (own, added) = (sketch.parity(label), sketch.parity(label ^ other));
        let stuck = sketch.zero();
        let term = sketch.gate("and", stuck, added);
        let output = sketch.gate("xor", own, term);
        sketch.output(output, 1);
        sketch.fault(&[(stuck, 1)]);
        sketch
    }

    /// Outputs that are parities, each with lines that add a product of
    /// parities to it when stuck: faults of 1, 2, 4, 8 labels, and of their
    /// joins and differences where several lines are stuck.
    pub fn draw(random: &mut Random, inputs: usize) -> Sketch {
        let mut sketch = Sketch::new(inputs);
        let outputs = match random.below(2) {
            0 => Sizes::LARGEST.outputs,
            _ => 1 + random.below(Sizes::LARGEST.outputs),
        };
        let weight = 1 + random.below(15);
        let widest = random.below(4);
        let mut stuck = Vec::new();
        for _ in 0..outputs {
            // An output and a term without factors take 9 gates at most, a
            // factor 8.
            if sketch.gates_left() < 14 {
                break;
            }
            let mut output = sketch.draw_parity(random);
            for _ in 0..1 + random.below(4) {
                let most = match sketch.gates_left() {
                    40.. => widest,
                    30.. => widest.min(1),
                    14.. => 0,
                    _ => break,
                };
                let line = sketch.zero();
                stuck.push(line);
                let mut term = line;
                for _ in 0..random.below(most + 1) {
                    let factor = sketch.draw_parity(random);
                    term = sketch.gate("and", term, factor);
                }
                output = sketch.gate("xor", output, term);
            }
            let own = 1 + random.below(15);
            sketch.output(output, if random.once_in(3) { own } else { weight });
        }
        for _ in 0..1 + random.below(Sizes::LARGEST.faults) {
            let count = match random.below(6) {
                0 => 2,
                1 => 3,
                _ => 1,
            };
            let mut pairs: Vec<(usize, usize)> = Vec::new();
            while pairs.len() < count.min(stuck.len()) {
                let line = match random.below(40) {
                    0 => 1 + random.below(inputs + sketch.gates.len()),
                    _ => random.pick(&stuck),
                };
                if pairs.iter().all(|pair| pair.0 != line) {
                    pairs.push((line, usize::from(!random.once_in(20))));
                }
            }
            sketch.fault(&pairs);
        }
        sketch
    }
}

/// Different labels, each but the first one input away from one before it, so
/// that their parities take few gates.
pub fn near_labels(random: &mut Random, inputs: usize, count: usize) -> Vec<usize> {
    let mut labels = vec![random.below(1 << inputs)];
    while labels.len() < count {
        let label = random.pick(&labels) ^ 1 << random.below(inputs);
        if !labels.contains(&label) {
            labels.push(label);
        }
    }
    labels
}

/// A report as long as any can be: a plan of four labels of three digits, and
/// 32 faults, every coefficient negative with four digits. An output for each
/// label is its parity; a product of three inputs, added to it by a stuck line,
/// changes it on an eighth of the rows. There are two such products; what they
/// change shares only the label itself, and nothing with the other outputs.
pub fn largest_report() -> Draft {
    let mut sketch = Sketch::new(8);
    let products = [[1, 2, 3], [4, 5, 8]].map(|inputs| sketch.chain("and", &inputs));
    let mut stuck = Vec::new();
    for label in [128, 160, 192, 224] {
        let mut output = sketch.parity(label);
        for product in products {
            let line = sketch.zero();
            let term = sketch.gate("and", line, product);
            output = sketch.gate("xor", output, term);
            stuck.push(line);
        }
        sketch.output(output, 15);
    }
    for line in stuck.iter().cycle().take(Sizes::LARGEST.faults) {
        sketch.fault(&[(*line, 1)]);
    }
    sketch.draft(CAP_LIMIT)
}

/// The longest search: five faults of one label each, at the very end of the
/// order, so that no four labels do and yet nearly every choice of three might
/// be completed by those still to come. The other faults have all labels, or all
/// that leave out input 1.
pub fn worst_search() -> Draft {
    let labels = [255, 254, 253, 251, 247];
    let mut sketch = Sketch::paired(8, &labels, 7);
    sketch.fault(&[(1, 0)]);
    for (kind, first) in [("and", 1), ("or", 2)] {
        let mut line = first;
        for input in first + 1..=8 {
            line = sketch.gate(kind, line, input);
            sketch.fault(&[(line, 0)]);
            sketch.fault(&[(line, 1)]);
        }
        sketch.output(line, first + 1);
    }
    sketch.draft(CAP_LIMIT)
}

/// A line below `bound`, often one of the last, so that circuits go deep.
pub(crate) fn line_below(random: &mut Random, bound: usize) -> usize {
    match random.below(3) {
        0 => 1 + random.below(bound - 1),
        _ => bound - 1 - random.below((bound - 1).min(6)),
    }
}

/// One to three rising lines: inputs, outputs and any.
fn stuck_lines(random: &mut Random, sizes: Sizes, outputs: &[usize]) -> Vec<usize> {
    let last = sizes.inputs + sizes.gates;
    let count = 1 + random.below(last.min(3));
    random.rising(count, |random| match random.below(4) {
        0 => 1 + random.below(sizes.inputs),
        1 => random.pick(outputs),
        _ => 1 + random.below(last),
    })
}

/// Any byte, or one that the format uses or nearly uses.
fn draw_byte(random: &mut Random) -> u8 {
    match random.below(4) {
        0 => random.below(256) as u8,
        1 => random.pick(b",\n"),
        2 => random.pick(b"0123456789"),
        _ => random.pick(b"- \r\t;.+\0acdefgilnoprtux"),
    }
}

/// A way to damage a text; now and then the text stays good.
pub struct Damage {
    pub name: &'static str,
    pub apply: fn(&mut Random, &Draft) -> Vec<u8>,
}

pub const DAMAGES: [Damage; 16] = [
    Damage {
        name: "a byte changed",
        apply: |random, draft| {
            let mut text = draft.text();
            let at = random.below(text.len());
            text[at] = draw_byte(random);
            text
        },
    },
    Damage {
        name: "a byte removed",
        apply: |random, draft| {
            let mut text = draft.text();
            text.remove(random.below(text.len()));
            text
        },
    },
    Damage {
        name: "a byte inserted",
        apply: |random, draft| {
            let mut text = draft.text();
            let at = random.below(text.len() + 1);
            text.insert(at, draw_byte(random));
            text
        },
    },
    Damage {
        name: "a line dropped",
        apply: |random, draft| {
            let mut draft = draft.clone();
            draft.lines.remove(random.below(draft.lines.len()));
            draft.text()
        },
    },
    Damage {
        name: "a line doubled",
        apply: |random, draft| {
            let mut draft = draft.clone();
            let at = random.below(draft.lines.len());
            draft.lines.insert(at, draft.lines[at].clone());
            draft.text()
        },
    },
    Damage {
        name: "a line swapped with the next",
        apply: |random, draft| {
            let mut draft = draft.clone();
            let at = random.below(draft.lines.len() - 1);
            draft.lines.swap(at, at + 1);
            draft.text()
        },
    },
    Damage {
        name: "a number moved",
        apply: |random, draft| {
            let mut draft = draft.clone();
            let (line, field) = draft.draw_number(random);
            draft.move_number(random, line, field);
            draft.text()
        },
    },
    Damage {
        name: "a size moved",
        apply: |random, draft| {
            let mut draft = draft.clone();
            let field = 1 + random.below(draft.lines[0].len() - 1);
            let size: usize = draft.lines[0][field].parse().expect("a size");
            draft.lines[0][field] = match random.below(3) {
                0 => (size + 1).to_string(),
                1 => size.saturating_sub(1).to_string(),
                _ => random.below(50).to_string(),
            };
            draft.text()
        },
    },
    Damage {
        name: "two numbers of a line moved",
        apply: |random, draft| {
            let mut draft = draft.clone();
            let (line, field) = draft.draw_number(random);
            draft.move_number(random, line, field);
            let other = draft.draw_number_of(random, line);
            draft.move_number(random, line, other);
            draft.text()
        },
    },
    Damage {
        name: "numbers of two lines moved",
        apply: |random, draft| {
            let mut draft = draft.clone();
            for _ in 0..2 {
                let (line, field) = draft.draw_number(random);
                draft.move_number(random, line, field);
            }
            draft.text()
        },
    },
    Damage {
        name: "a field added",
        apply: |random, draft| {
            let mut draft = draft.clone();
            let line = random.below(draft.lines.len());
            let line = &mut draft.lines[line];
            let at = random.below(line.len() + 1);
            line.insert(at, random.pick(&["", "0", "1", "2", "gate", "x"]).into());
            draft.text()
        },
    },
    Damage {
        name: "a field removed",
        apply: |random, draft| {
            let mut draft = draft.clone();
            let line = random.below(draft.lines.len());
            let line = &mut draft.lines[line];
            line.remove(random.below(line.len()));
            draft.text()
        },
    },
    Damage {
        name: "a pair added to a fault",
        apply: |random, draft| {
            let mut draft = draft.clone();
            let first = draft.lines.len() - draft.sizes.faults;
            let line = first + random.below(draft.sizes.faults);
            let named = 1 + random.below(draft.bound(line));
            let value = random.below(2);
            draft.lines[line].extend([named.to_string(), value.to_string()]);
            draft.text()
        },
    },
    Damage {
        name: "the last line end removed",
        apply: |_, draft| {
            let mut text = draft.text();
            text.pop();
            text
        },
    },
    Damage {
        name: "bytes appended",
        apply: |random, draft| {
            let mut text = draft.text();
            for _ in 0..1 + random.below(12) {
                text.push(draw_byte(random));
            }
            text
        },
    },
    Damage {
        name: "an empty line put in",
        apply: |random, draft| {
            let mut draft = draft.clone();
            let at = random.below(draft.lines.len() + 1);
            draft.lines.insert(at, Vec::new());
            draft.text()
        },
    },
];

/// Each damage on 160 drawn texts, of which it must change so many and have so many
/// refused; gives how often each number came.
#[cfg(test)]
pub(crate) fn try_damages(
    random: &mut Random,
    damages: &[Damage],
    least: [usize; 2],
    draw: impl Fn(&mut Random, usize) -> Draft,
) -> [usize; 20] {
    let mut refused = [0; 20];
    for damage in damages {
        let (mut changed, mut bad) = (0, 0);
        for round in 0..160 {
            let draft = draw(random, round);
            let text = (damage.apply)(random, &draft);
            let number = crate::walsh::number_of(&devices::parse(&text)) as usize;
            changed += usize::from(text != draft.text());
            bad += usize::from(number != 0);
            refused[number] += 1;
        }
        assert!(changed > least[0], "{}: {changed} changed", damage.name);
        assert!(bad >= least[1], "{}: {bad} refused", damage.name);
    }
    refused
}

#[cfg(test)]
mod tests {
    use super::*;
    use crate::netlist::{parse, Netlist};
    use crate::plan::{order, Spectra};

    fn drawn(random: &mut Random, sizes: Sizes) -> Netlist {
        let text = Draft::draw(random, sizes).text();
        parse(&text).unwrap_or_else(|refusal| panic!("{refusal:?}: {}", text.escape_ascii()))
    }

    #[test]
    fn every_size_is_drawn_and_read() {
        let mut random = Random::new(4);
        let mut seen = [[false; 50]; 5];
        for _ in 0..2000 {
            let sizes = Sizes::draw(&mut random);
            let netlist = drawn(&mut random, sizes);
            let read = [
                netlist.inputs,
                netlist.gates.len(),
                netlist.outputs.len(),
                netlist.faults.len(),
                netlist.cap,
            ];
            assert_eq!(read, sizes.numbers());
            (0..5).for_each(|which| seen[which][read[which]] = true);
        }
        for (which, (low, high)) in [(1, 8), (0, 48), (1, 4), (1, 32), (1, 4)]
            .into_iter()
            .enumerate()
        {
            assert!(
                (0..50).all(|size| seen[which][size] == (low..=high).contains(&size)),
                "size {which} of the first line: {:?}",
                seen[which]
            );
        }
    }

    #[test]
    fn kinds_weights_outputs_and_faults_are_drawn() {
        let mut random = Random::new(5);
        let (mut kinds, mut weights) = (Vec::new(), Vec::new());
        let (mut twice, mut counts, mut mixed) = (0, [0; 4], 0);
        for _ in 0..200 {
            let netlist = drawn(&mut random, Sizes::LARGEST);
            kinds.extend(netlist.gates.iter().map(|gate| gate.kind));
            weights.extend(netlist.outputs.iter().map(|output| output.weight));
            let outputs: Vec<usize> = netlist.outputs.iter().map(|output| output.line).collect();
            twice += usize::from((1..4).any(|at| outputs[..at].contains(&outputs[at])));
            for fault in &netlist.faults {
                let fault = fault.stuck();
                counts[fault.len()] += 1;
                let is_output = |line| outputs.contains(&line);
                let input = fault.iter().any(|stuck| stuck.line <= 8);
                let output = fault
                    .iter()
                    .any(|stuck| stuck.line > 8 && is_output(stuck.line));
                let inner = fault
                    .iter()
                    .any(|stuck| stuck.line > 8 && !is_output(stuck.line));
                mixed += usize::from(input && output && inner);
            }
        }
        for (name, kind) in KINDS {
            assert!(kinds.contains(&kind), "{name} was never drawn");
        }
        for weight in 1..=15 {
            assert!(weights.contains(&weight), "weight {weight} never came");
        }
        assert!(twice > 50, "a line was an output twice {twice} times only");
        assert!(counts[1..].iter().all(|&count| count > 1000), "{counts:?}");
        assert!(mixed > 200, "input, inner line and output: {mixed}");
    }

    /// The labels that cover each fault, in the order.
    fn covering(draft: &Draft) -> Vec<Vec<usize>> {
        let spectra = Spectra::of(&devices::parse(&draft.text()).expect("a good circuit"));
        (0..draft.sizes.faults)
            .map(|fault| {
                let mut labels = order(draft.sizes.inputs);
                labels.retain(|&label| spectra.covers(label, fault));
                labels
            })
            .collect()
    }

    #[test]
    fn sketches_have_the_labels_they_are_for() {
        let mut random = Random::new(9);
        for inputs in 2..=8 {
            for _ in 0..5 {
                let labels = near_labels(&mut random, inputs, 4);
                let alone: Vec<Vec<usize>> = labels.iter().map(|&label| vec![label]).collect();
                let sketch = Sketch::complemented(inputs, &labels, &[1, 15, 4, 4]);
                assert_eq!(covering(&sketch.draft(1)), alone);
                let sketch = Sketch::paired(inputs, &labels, 5);
                assert_eq!(covering(&sketch.draft(1)), alone);
                let sketch = Sketch::two_labels(inputs, labels[0], labels[1]);
                let found = &covering(&sketch.draft(1))[0];
                assert_eq!(found.len(), 2);
                assert!(labels[..2].iter().all(|label| found.contains(label)));
            }
        }
    }

    #[test]
    fn sketches_are_good_circuits() {
        let mut random = Random::new(10);
        for round in 0..2000 {
            let draft = Sketch::draw(&mut random, 1 + round % 8).draft(CAP_LIMIT);
            let read = parse(&draft.text()).map(|netlist| netlist.faults.len());
            assert_eq!(read, Ok(draft.sizes.faults), "{draft:?}");
        }
    }

    #[test]
    fn worst_search_cannot_be_cut_short() {
        let draft = worst_search();
        assert_eq!(draft.sizes, Sizes::LARGEST);
        let covering = covering(&draft);
        let last = &order(8)[251..];
        for (fault, labels) in covering.iter().enumerate() {
            match fault {
                0..5 => assert_eq!(labels.len(), 1, "fault {}", fault + 1),
                _ => assert!(labels.len() >= 128, "fault {}", fault + 1),
            }
            // The last five labels together cover everything.
            assert!(labels.iter().any(|label| last.contains(label)));
        }
        let alone: Vec<usize> = covering[..5].iter().map(|labels| labels[0]).collect();
        assert!(last.iter().all(|label| alone.contains(label)), "{alone:?}");
    }

    #[test]
    fn damages_change_the_text() {
        let mut random = Random::new(6);
        for damage in &DAMAGES {
            let mut changed = 0;
            for _ in 0..40 {
                let sizes = Sizes::draw(&mut random);
                let draft = Draft::draw(&mut random, sizes);
                let text = (damage.apply)(&mut random, &draft);
                changed += usize::from(text != draft.text());
            }
            assert!(changed > 20, "{}: {changed} of 40", damage.name);
        }
    }
}
