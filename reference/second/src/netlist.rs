//! The circuit text, its outputs and its rows, written from the sentences of the
//! paper and of notes 2, 4, 5 and 8, and nothing else.

use crate::lines::{fault_of, Fault, Line, Reader, LINE_LIMIT};
use crate::walsh::Refusal;

/// A gate reads no more lines: "gates of up to four inputs".
pub const WIDTH_LIMIT: usize = 4;
/// "M outputs (1 to 4)".
pub const OUTPUT_LIMIT: usize = 4;
/// "-15 to 15 without 0".
pub const WEIGHT_LIMIT: i32 = 15;
/// "Row values then run from -60 to 60": 4 outputs of the largest weight.
pub const CIRCUIT_ROW_LIMIT: i32 = 60;
/// No coefficient of a circuit is beyond it: 256 rows.
pub const CIRCUIT_LIMIT: i32 = 15_360;

#[derive(Clone, Copy, Debug, PartialEq, Eq)]
pub enum Kind {
    And,
    Or,
    Nand,
    Nor,
    Xor,
    Xnor,
    Not,
}

/// The words of the kinds.
pub(crate) const KINDS: [(&str, Kind); 7] = [
    ("and", Kind::And),
    ("or", Kind::Or),
    ("nand", Kind::Nand),
    ("nor", Kind::Nor),
    ("xor", Kind::Xor),
    ("xnor", Kind::Xnor),
    ("not", Kind::Not),
];

impl Kind {
    fn of(word: &[u8]) -> Option<Kind> {
        KINDS
            .iter()
            .find(|(name, _)| name.as_bytes() == word)
            .map(|&(_, kind)| kind)
    }

    /// The most line fields of a gate: "two, three or four", but "`not` keeps
    /// just A and its `0`".
    fn most_fields(self) -> usize {
        match self {
            Kind::Not => 2,
            _ => WIDTH_LIMIT,
        }
    }

    /// "Gates have their usual truth values", by how many of the lines that are
    /// read show 1: "`xor` is 1 for an odd number of ones, `xnor` its
    /// complement". A line that is read twice counts twice.
    fn value(self, ones: usize, read: usize) -> bool {
        match self {
            Kind::And => ones == read,
            Kind::Or => ones > 0,
            Kind::Nand => ones < read,
            Kind::Nor => ones == 0,
            Kind::Xor => ones % 2 == 1,
            Kind::Xnor => ones % 2 == 0,
            Kind::Not => ones == 0,
        }
    }
}

/// A gate reads one line for `not`, else two to four, which need not differ.
/// Past those it has 0, which is no line and shows no 1.
#[derive(Clone, Copy, Debug, PartialEq, Eq)]
pub struct Gate {
    pub kind: Kind,
    pub read: usize,
    pub lines: [usize; WIDTH_LIMIT],
}

/// What a gate shows, by how many of its lines show 1.
type Values = [bool; WIDTH_LIMIT + 1];

impl Gate {
    /// Worked out once for all rows.
    fn values(&self) -> Values {
        std::array::from_fn(|ones| self.kind.value(ones, self.read))
    }
}

#[derive(Clone, Copy, Debug, PartialEq, Eq)]
pub struct Output {
    pub line: usize,
    pub weight: i32,
}

/// What the outputs show on one row: bit i - 1 is for output i, in the text's
/// order. A line that is an output twice has two bits.
pub type Shown = u8;

/// An accepted circuit text.
#[derive(Clone, Debug, PartialEq, Eq)]
pub struct Netlist {
    pub inputs: usize,
    pub gates: Vec<Gate>,
    pub outputs: Vec<Output>,
    pub faults: Vec<Fault>,
    pub cap: usize,
}

/// What a fault does to the lines of a circuit.
struct Held {
    /// What each line shows whatever was applied or computed; index 0 is no
    /// line.
    stuck: [Option<bool>; LINE_LIMIT + 1],
    /// The inputs that show the AND of what is applied to them.
    bridge: Option<(usize, usize)>,
}

impl Held {
    fn by(fault: Option<&Fault>) -> Held {
        let mut stuck = [None; LINE_LIMIT + 1];
        for pair in fault.map_or(&[][..], Fault::stuck) {
            stuck[pair.line] = Some(pair.value);
        }
        Held {
            stuck,
            bridge: fault.and_then(Fault::bridge),
        }
    }
}

impl Line<'_> {
    /// `gate,KIND,A,B`, "two, three or four line fields": the gate that drives
    /// line `own`. "Added fields have the range and the checks of B."
    fn gate(mut self, own: usize) -> Result<Gate, Refusal> {
        self.word("gate")?;
        let kind = self.read(Kind::of)?;
        let mut lines = [self.number()?, self.number()?, 0, 0];
        let mut read = 2;
        while !self.is_over() {
            self.test(2, read < kind.most_fields())?;
            lines[read] = self.number()?;
            read += 1;
        }
        if kind == Kind::Not {
            self.test(3, lines[1] == 0)?;
            read = 1;
        }
        for line in &lines[..read] {
            self.test(3, (1..=LINE_LIMIT).contains(line))?;
        }
        self.test(4, lines.iter().all(|&line| line < own))?;
        Ok(Gate { kind, read, lines })
    }

    /// `output,LINE,WEIGHT`, in a circuit of `lines` lines. The weight alone may
    /// have a sign: "Weight 0 gives 3".
    fn output(mut self, lines: usize) -> Result<Output, Refusal> {
        self.word("output")?;
        let (line, weight) = (self.number()?, self.signed_number()?);
        self.end()?;
        self.test(3, (1..=LINE_LIMIT).contains(&line))?;
        self.test(3, (1..=WEIGHT_LIMIT).contains(&weight.abs()))?;
        self.test(5, line <= lines)?;
        Ok(Output { line, weight })
    }
}

/// Reads a text: "1 first, then line by line; within a line 2, 3, then 4, 5,
/// 6", of a bridge 19 "in the place of 5 and 6".
pub fn parse(text: &[u8]) -> Result<Netlist, Refusal> {
    let mut reader = Reader::new(text)?;
    let ranges = [1..=8, 0..=48, 1..=OUTPUT_LIMIT, 1..=32, 1..=4];
    let [inputs, gates, outputs, faults, cap] = reader.line()?.sizes("circuit", ranges)?;
    let lines = inputs + gates;
    let mut netlist = Netlist {
        inputs,
        gates: Vec::with_capacity(gates),
        outputs: Vec::with_capacity(outputs),
        faults: Vec::new(),
        cap,
    };
    for own in inputs + 1..=lines {
        netlist.gates.push(reader.line()?.gate(own)?);
    }
    for _ in 0..outputs {
        netlist.outputs.push(reader.line()?.output(lines)?);
    }
    netlist.faults = reader.faults(faults, inputs, lines)?;
    Ok(netlist)
}

impl Netlist {
    /// The row values of the sound circuit (fault 0) or under a fault (from
    /// 1); 12 where there is no such fault.
    pub fn rows(&self, fault: u32) -> Result<Vec<i32>, Refusal> {
        let shown = self.shown(fault)?;
        Ok(shown.into_iter().map(|shown| self.value(shown)).collect())
    }

    /// What the outputs show on every row; the same faults.
    pub fn shown(&self, fault: u32) -> Result<Vec<Shown>, Refusal> {
        let held = Held::by(fault_of(&self.faults, fault)?);
        let values: Vec<_> = self.gates.iter().map(Gate::values).collect();
        Ok((0..1 << self.inputs)
            .map(|row| self.shown_on(row, &held, &values))
            .collect())
    }

    /// "the sum of WEIGHT over outputs showing 1".
    fn value(&self, shown: Shown) -> i32 {
        let outputs = self.outputs.iter().zip(0..);
        let showing = outputs.filter(|&(_, at)| shown & (1 << at) != 0);
        showing.map(|(output, _)| output.weight).sum()
    }

    /// What the outputs show on a row.
    fn shown_on(&self, row: usize, held: &Held, values: &[Values]) -> Shown {
        let mut shown = [false; LINE_LIMIT + 1];
        for input in 1..=self.inputs {
            let applied = row & (1 << (input - 1)) != 0;
            shown[input] = held.stuck[input].unwrap_or(applied);
        }
        if let Some((first, second)) = held.bridge {
            let both = shown[first] & shown[second];
            (shown[first], shown[second]) = (both, both);
        }
        for ((gate, values), own) in self.gates.iter().zip(values).zip(self.inputs + 1..) {
            let ones = gate.lines.iter().filter(|&&line| shown[line]).count();
            shown[own] = held.stuck[own].unwrap_or(values[ones]);
        }
        let outputs = self.outputs.iter().zip(0..);
        outputs.fold(0, |bits, (output, at)| {
            bits | Shown::from(shown[output.line]) << at
        })
    }
}

#[cfg(test)]
mod tests {
    use super::*;
    use crate::bridge_texts;
    use crate::circuits::{with_line, Sizes, LISTING};
    use crate::lines::TEXT_LIMIT;
    use crate::random::Random;
    use crate::signed_texts::{BAD_WEIGHTS, WEIGHTS_OUT_OF_RANGE};
    use crate::table_texts::SMALL;
    use crate::walsh::{bridged_rows, number_and_place, refuse};
    use crate::wide_texts::{one_gate, rows_of_gate, TRUTH_VALUES};

    /// What the listing gives with its line `place` replaced.
    fn refused(place: usize, line: &str) -> (u32, usize) {
        number_and_place(&parse(&with_line(LISTING, place, line)))
    }

    #[test]
    fn listing_of_the_paper() {
        let netlist = parse(LISTING.as_bytes()).expect("the paper's text");
        assert_eq!((netlist.inputs, netlist.cap), (3, 2));
        assert_eq!(netlist.rows(0), Ok(vec![0, 0, 0, 1, 1, 1, 0, 1]));
    }

    #[test]
    fn truth_values_of_every_kind_and_width() {
        let mut values = 0;
        for (kind, tables) in TRUTH_VALUES {
            for (width, table) in (2..=WIDTH_LIMIT).zip(tables) {
                let lines: Vec<usize> = (1..=width).collect();
                let netlist = parse(&one_gate(width, kind, &lines)).expect("a good text");
                let due = rows_of_gate(width, table);
                values += due.len();
                assert_eq!(netlist.rows(0), Ok(due), "{kind} of {width}");
                assert_eq!(netlist.rows(1), Ok(vec![1; 1 << width]), "{kind} stuck");
            }
        }
        let not = parse(&one_gate(1, "not", &[1, 0])).expect("a good text");
        assert_eq!(not.rows(0), Ok(vec![1, 0]));
        assert_eq!(values + 2, 170);
    }

    #[test]
    fn a_line_may_be_read_more_than_once() {
        // Rows 00, 10, 01, 11 of two inputs.
        for (kind, lines, rows) in [
            ("and", &[1, 1, 2][..], [0, 0, 0, 1]),
            ("and", &[2, 2, 2, 2], [0, 0, 1, 1]),
            ("or", &[1, 2, 1, 1], [0, 1, 1, 1]),
            ("or", &[1, 1, 1], [0, 1, 0, 1]),
            ("nand", &[2, 1, 2], [1, 1, 1, 0]),
            ("nand", &[1, 1, 1, 1], [1, 0, 1, 0]),
            ("nor", &[1, 1, 2, 2], [1, 0, 0, 0]),
            ("xor", &[1, 1, 2], [0, 0, 1, 1]),
            ("xor", &[1, 1, 1, 2], [0, 1, 1, 0]),
            ("xor", &[1, 1, 2, 2], [0, 0, 0, 0]),
            ("xor", &[2, 2, 2], [0, 0, 1, 1]),
            ("xnor", &[2, 1, 1], [1, 1, 0, 0]),
            ("xnor", &[2, 2, 2, 2], [1, 1, 1, 1]),
        ] {
            let netlist = parse(&one_gate(2, kind, lines)).expect("a good text");
            assert_eq!(netlist.rows(0), Ok(rows.to_vec()), "{kind} of {lines:?}");
        }
    }

    #[test]
    fn stuck_lines_show_to_wide_gates() {
        // The complement of the majority, from three products.
        let text = "circuit,3,4,1,4,1\ngate,and,1,2\ngate,and,1,3\ngate,and,2,3\n\
            gate,nor,4,5,6\noutput,7,3\nfault,4,1\nfault,5,0,6,0\nfault,3,1\nfault,7,0\n";
        let netlist = parse(text.as_bytes()).expect("a good text");
        assert_eq!(netlist.rows(0), Ok(vec![3, 3, 3, 0, 3, 0, 0, 0]));
        assert_eq!(netlist.rows(1), Ok(vec![0; 8]));
        assert_eq!(netlist.rows(2), Ok(vec![3, 3, 3, 0, 3, 3, 3, 0]));
        assert_eq!(netlist.rows(3), Ok(vec![3, 0, 0, 0, 3, 0, 0, 0]));
        assert_eq!(netlist.rows(4), Ok(vec![0; 8]));
    }

    #[test]
    fn bridged_inputs_show_to_wide_gates() {
        let parity = |bits: usize| (bits.count_ones() % 2) as i32;
        for lines in ["1,2,3,4", "4,2,1,3", "2,3,4,1"] {
            let text = format!(
                "circuit,4,1,1,2,1\ngate,xor,{lines}\noutput,5,1\nbridge,3,4\nbridge,1,2\n"
            );
            let netlist = parse(text.as_bytes()).expect("a good text");
            // Two equal inputs cancel out, which leaves the other two.
            for (fault, left) in [(0, 15), (1, 3), (2, 12)] {
                let due = (0..16).map(|row| parity(row & left)).collect();
                assert_eq!(netlist.rows(fault), Ok(due), "fault {fault}, {lines}");
            }
        }
    }

    #[test]
    fn stuck_lines_show_in_outputs() {
        // An input, an inner line and an output, each an output too.
        let text = "circuit,2,2,4,2,1\ngate,nor,1,2\ngate,not,3,0\n\
            output,1,1\noutput,3,2\noutput,4,4\noutput,4,8\n\
            fault,1,1,3,1,4,0\nfault,1,0,3,0,4,1\n";
        let netlist = parse(text.as_bytes()).expect("a good text");
        assert_eq!(netlist.rows(0), Ok(vec![2, 13, 12, 13]));
        assert_eq!(netlist.rows(1), Ok(vec![3; 4]));
        assert_eq!(netlist.rows(2), Ok(vec![12; 4]));
    }

    #[test]
    fn bridged_inputs_show_in_gates_and_outputs() {
        // x1, x2, their xor, and x3 with x2: weights 1, 2, 4 and 8.
        let text = "circuit,3,2,4,4,1\ngate,xor,1,2\ngate,and,2,3\n\
            output,1,1\noutput,2,2\noutput,4,4\noutput,5,8\n\
            bridge,1,2\nbridge,1,3\nbridge,2,3\nfault,1,1\n";
        let netlist = parse(text.as_bytes()).expect("a good text");
        assert_eq!(netlist.rows(0), Ok(vec![0, 5, 6, 3, 0, 5, 14, 11]));
        assert_eq!(netlist.rows(1), Ok(vec![0, 0, 0, 3, 0, 0, 0, 11]));
        assert_eq!(netlist.rows(2), Ok(vec![0, 0, 6, 6, 0, 5, 6, 11]));
        assert_eq!(netlist.rows(3), Ok(vec![0, 5, 0, 5, 0, 5, 14, 11]));
        assert_eq!(netlist.rows(4), Ok(vec![5, 5, 3, 3, 5, 5, 11, 11]));
        assert_eq!(netlist.rows(5), refuse(12, 0));
    }

    #[test]
    fn rows_under_a_bridge_are_sound_rows_with_both_inputs_replaced() {
        let mut random = Random::new(41);
        let mut changed = 0;
        for round in 0..200 {
            let drawn = Sizes::draw(&mut random);
            let inputs = 2 + round % 7;
            let draft = bridge_texts::draw_circuit(&mut random, Sizes { inputs, ..drawn });
            let netlist = parse(&draft.text()).expect("a good circuit");
            let sound = netlist.rows(0).expect("fault 0");
            for (fault, number) in netlist.faults.iter().zip(1..) {
                let Some((first, second)) = fault.bridge() else {
                    continue;
                };
                let due = bridged_rows(&sound, first, second);
                changed += usize::from(due != sound);
                assert_eq!(netlist.rows(number), Ok(due), "{draft:?}");
            }
        }
        assert!(changed > 500, "{changed} bridges");
    }

    #[test]
    fn refusals_of_a_bridge() {
        // Three inputs and four gates, whose lines are no inputs.
        for (line, number) in [
            ("bridge,1,2", 0),
            ("bridge,1,3", 0),
            ("bridge,2,3", 0),
            ("bridge", 2),
            ("bridge,", 2),
            ("bridge,1", 2),
            ("bridge,1,", 2),
            ("bridge,,2", 2),
            ("bridge,1,2,", 2),
            ("bridge,1,2,3", 2),
            ("bridge,1,2,3,0", 2),
            ("bridge,01,2", 2),
            ("bridge,1,10000", 2),
            ("bridge,x,57", 2),
            ("bridge,57,x", 2),
            ("bridges,1,2", 2),
            ("Bridge,1,2", 2),
            ("bridge ,1,2", 2),
            ("bridge,1,2\r", 2),
            ("and,1,2", 2),
            ("bridge,0,1", 3),
            ("bridge,1,0", 3),
            ("bridge,0,0", 3),
            ("bridge,1,57", 3),
            ("bridge,57,1", 3),
            ("bridge,9999,9999", 3),
            ("bridge,3,57", 3),
            ("bridge,4,0", 3),
            ("bridge,1,1", 19),
            ("bridge,2,2", 19),
            ("bridge,3,2", 19),
            ("bridge,3,1", 19),
            ("bridge,1,4", 19),
            ("bridge,3,4", 19),
            ("bridge,4,7", 19),
            ("bridge,7,1", 19),
            ("bridge,7,7", 19),
            ("bridge,1,8", 19),
            ("bridge,8,1", 19),
            ("bridge,1,56", 19),
            ("bridge,56,56", 19),
            ("fault,3,2", 3),
            ("fault,8,0", 5),
            ("fault,3,0,3,0", 6),
        ] {
            for place in [7, 8] {
                let due = (number, if number == 0 { 0 } else { place });
                assert_eq!(refused(place, line), due, "{line}");
            }
        }
        // With four inputs one of those lines is an input.
        for (line, due) in [("bridge,2,4", (0, 0)), ("bridge,2,5", (19, 7))] {
            let text = LISTING.replace("circuit,3", "circuit,4");
            let found = number_and_place(&parse(&with_line(&text, 7, line)));
            assert_eq!(found, due, "{line}");
        }
    }

    #[test]
    fn refusals_of_a_gate() {
        // The first gate of three inputs drives line 4.
        for (line, number) in [
            ("gate,and,1,2", 0),
            ("gate,and,1,2,3", 0),
            ("gate,and,1,2,3,1", 0),
            ("gate,and,3,3,3,3", 0),
            ("gate,not,1,0", 0),
            // Two, three or four line fields.
            ("gate", 2),
            ("gate,and", 2),
            ("gate,and,1", 2),
            ("gate,and,1,2,3,1,2", 2),
            ("gate,and,1,2,3,1,2,3", 2),
            ("gate,and,57,0,4,9,1", 2),
            ("gate,not,1", 2),
            ("gate,not,1,0,2", 2),
            ("gate,not,1,0,0", 2),
            ("gate,not,1,2,3", 2),
            ("gate,not,1,0,0,0", 2),
            ("gate,not,57,4,0,9", 2),
            // Kinds and numbers.
            ("gate,buf,1,2,3", 2),
            ("gate,and3,1,2,3", 2),
            ("gate,,1,2,3", 2),
            ("gate,and,,2,3", 2),
            ("gate,and,1,,3", 2),
            ("gate,and,1,2,", 2),
            ("gate,and,1,2,3,", 2),
            ("gate,and,1,2,3,1,", 2),
            ("gate,and,1,2,03", 2),
            ("gate,and,1,2,3,00", 2),
            ("gate,and,1,2,10000", 2),
            ("gate,and,1,2,3,+1", 2),
            ("gate,and,1,2, 3", 2),
            ("gate,and,1,2,3\r", 2),
            ("gate,and,57,2,x", 2),
            ("gate,and,4,0,1,", 2),
            // Ranges.
            ("gate,not,1,2", 3),
            ("gate,not,1,57", 3),
            ("gate,not,1,9999", 3),
            ("gate,not,0,0", 3),
            ("gate,not,57,0", 3),
            ("gate,not,4,4", 3),
            ("gate,and,0,1,2", 3),
            ("gate,and,1,0,2", 3),
            ("gate,and,1,2,0", 3),
            ("gate,and,1,2,3,0", 3),
            ("gate,and,1,2,57", 3),
            ("gate,and,1,2,3,57", 3),
            ("gate,and,1,2,3,9999", 3),
            ("gate,and,4,57,1", 3),
            ("gate,and,4,1,0", 3),
            ("gate,and,56,56,56,57", 3),
            ("gate,and,57,56,56,56", 3),
            // Its own line and later ones.
            ("gate,not,4,0", 4),
            ("gate,and,4,2,3", 4),
            ("gate,and,1,4,3", 4),
            ("gate,and,1,2,4", 4),
            ("gate,and,1,2,3,4", 4),
            ("gate,and,1,2,56", 4),
            ("gate,and,1,2,3,56", 4),
            ("gate,and,5,6,7,8", 4),
        ] {
            let due = (number, if number == 0 { 0 } else { 2 });
            for (kind, _) in TRUTH_VALUES {
                let line = line.replacen(",and", &format!(",{kind}"), 1);
                assert_eq!(refused(2, &line), due, "{line}");
            }
        }
        // Each gate has its own line.
        for (place, own) in (2..=5).zip(4..) {
            for (read, due) in [(own - 1, (0, 0)), (own, (4, place)), (own + 1, (4, place))] {
                assert_eq!(refused(place, &format!("gate,xor,1,2,{read}")), due);
                assert_eq!(refused(place, &format!("gate,or,1,1,2,{read}")), due);
            }
        }
    }

    #[test]
    fn every_weight_and_none_beyond() {
        for weight in -20..=20 {
            let in_range = (1..=15).contains(&i32::abs(weight));
            let due = if in_range { (0, 0) } else { (3, 6) };
            assert_eq!(refused(6, &format!("output,7,{weight}")), due, "{weight}");
            // Of a line that is not there.
            let due = if in_range { (5, 6) } else { (3, 6) };
            assert_eq!(refused(6, &format!("output,8,{weight}")), due, "{weight}");
            assert_eq!(refused(6, &format!("output,57,{weight}")), (3, 6));
            for bad in ["", "x", "07", "-7", "10000"] {
                let line = format!("output,{bad},{weight}");
                assert_eq!(refused(6, &line), (2, 6), "{line}");
            }
        }
        for (weights, number) in [(&BAD_WEIGHTS[..], 2), (&WEIGHTS_OUT_OF_RANGE, 3)] {
            for weight in weights {
                for line in [7, 8, 57, 0] {
                    let line = format!("output,{line},{weight}");
                    assert_eq!(refused(6, &line), (number, 6), "{line:?}");
                }
                assert_eq!(refused(6, &format!("output,-7,{weight}")), (2, 6));
                assert_eq!(refused(6, &format!("output,7,{weight},1")), (2, 6));
            }
        }
        assert_eq!(refused(6, "output,7,--1"), (2, 6));
        assert_eq!(refused(6, "output,7,-1,"), (2, 6));
        assert_eq!(refused(6, "output,7,-1,-1"), (2, 6));
        assert_eq!(refused(6, "output,-1"), (2, 6));
        assert_eq!(refused(6, "output,-1,7"), (2, 6));
    }

    #[test]
    fn only_a_weight_may_have_a_sign() {
        let text = "circuit,3,2,2,3,1\ngate,not,1,0\ngate,nor,1,2,3,4\n\
            output,5,7\noutput,4,-2\nfault,1,0,2,1,5,1\nbridge,1,2\nfault,3,1\n";
        assert!(parse(text.as_bytes()).is_ok());
        let mut minuses = 0;
        for (place, line) in (1..).zip(text.lines()) {
            let fields: Vec<&str> = line.split(',').collect();
            for (at, field) in fields.iter().enumerate() {
                if field.parse::<i32>().is_err() {
                    continue;
                }
                let mut fields = fields.clone();
                let minus = format!("-{field}");
                fields[at] = &minus;
                let due = match (fields[0], at, *field) {
                    ("output", 2, "7") => (0, 0),
                    _ => (2, place),
                };
                let found = parse(&with_line(text, place, &fields.join(",")));
                assert_eq!(number_and_place(&found), due, "{fields:?}");
                minuses += 1;
            }
        }
        assert_eq!(minuses, 5 + 2 + 4 + 4 + 6 + 2 + 2);
    }

    #[test]
    fn rows_of_signed_weights() {
        // x1, x2 and x3 count 1, -2 and -4, and x1x2 cancels x2.
        let text = "circuit,3,1,4,3,1\ngate,and,1,2\n\
            output,1,1\noutput,2,-2\noutput,3,-4\noutput,4,2\n\
            fault,4,0\nfault,3,1\nbridge,1,2\n";
        let netlist = parse(text.as_bytes()).expect("a good text");
        assert_eq!(netlist.rows(0), Ok(vec![0, 1, -2, 1, -4, -3, -6, -3]));
        assert_eq!(netlist.rows(1), Ok(vec![0, 1, -2, -1, -4, -3, -6, -5]));
        assert_eq!(netlist.rows(2), Ok(vec![-4, -3, -6, -3, -4, -3, -6, -3]));
        assert_eq!(netlist.rows(3), Ok(vec![0, 0, 0, 1, -4, -4, -4, -3]));
        // One line with a weight and its negative, and both ends of the range.
        for (weights, row) in [
            ([15, 15, 15, 15], 60),
            ([-15, -15, -15, -15], -60),
            ([15, -15, 15, -15], 0),
            ([9, -4, -4, -1], 0),
            ([-15, 1, 1, 1], -12),
            ([1, -1, 1, 14], 15),
        ] {
            let outputs = weights
                .map(|weight| format!("output,1,{weight}\n"))
                .concat();
            let text = format!("circuit,1,0,4,2,1\n{outputs}fault,1,0\nfault,1,1\n");
            let netlist = parse(text.as_bytes()).expect("a good text");
            assert_eq!(netlist.rows(0), Ok(vec![0, row]), "{weights:?}");
            assert_eq!(netlist.rows(1), Ok(vec![0; 2]), "{weights:?}");
            assert_eq!(netlist.rows(2), Ok(vec![row; 2]), "{weights:?}");
        }
    }

    #[test]
    fn refusals_of_the_text() {
        assert_eq!(parse(b""), refuse(2, 1));
        assert_eq!(parse(b"\n"), refuse(2, 1));
        let long = [LISTING.as_bytes(), &[b'x'; TEXT_LIMIT]].concat();
        assert_eq!(parse(&long[..TEXT_LIMIT]), refuse(7, 9));
        assert_eq!(parse(&long[..TEXT_LIMIT + 1]), refuse(1, 0));
        let text = LISTING.as_bytes();
        assert_eq!(parse(&text[..text.len() - 1]), refuse(2, 8));
        assert_eq!(parse(&[text, b"\n"].concat()), refuse(7, 9));
        for (place, line, number) in [
            (1, "circuit,8,4,1,2,2", 0),
            (1, "circuit,9,4,1,2,2", 3),
            (1, "circuit,3,4,1,2,02", 2),
            (1, "circuit,3,4,1,2", 2),
            (1, "Circuit,3,4,1,2,2", 2),
            (1, "circuit,9,4,1,2,10000", 2),
            (3, "gate,and,3,4", 0),
            (3, "gate,and,3,5", 4),
            (3, "gate,and,56,1", 4),
            (3, "gate,and,5,57", 3),
            (3, "gate,and,1,0", 3),
            (3, "gate,not,1,2", 3),
            (3, "gate,not,5,0", 4),
            (3, "gate,buf,1,0", 2),
            (6, "output,8,15", 5),
            (6, "output,8,16", 3),
            (6, "output,7,", 2),
            (7, "fault", 2),
            (7, "fault,1,0,7", 2),
            (7, "fault,1,0,2,1,7,0", 0),
            (7, "fault,1,0,2,1,7,0,7,1", 2),
            (7, "fault,1,0,1,0", 6),
            (7, "fault,8,0,1,0", 5),
            (7, "fault,8,0,1,2", 3),
        ] {
            // N = 8 moves the gates' own lines, which stay above all they read.
            let due = (number, if number == 0 { 0 } else { place });
            assert_eq!(refused(place, line), due, "{line}");
        }
    }

    #[test]
    fn a_table_is_no_circuit() {
        assert_eq!(parse(SMALL.as_bytes()), refuse(2, 1));
        let long = [SMALL.as_bytes(), &[b'0'; TEXT_LIMIT]].concat();
        assert_eq!(parse(&long), refuse(1, 0));
    }
}
