//! The gate rule, read off: the table of 170 cases in the definitions and the cases
//! in the code, both as text, line by line; each row against the second
//! implementation and against a circuit of one gate, given to the library.

use differential::calls::library_circuit_rows;
use second::netlist::{self, WIDTH_LIMIT};
use second::wide_texts::one_gate;
use std::fs;
use std::path::Path;

/// As document 01 lists them.
const KINDS: [&str; 7] = ["and", "or", "nand", "nor", "xor", "xnor", "not"];

/// A kind, its bits with A's first, and its value.
#[derive(Clone, Debug, PartialEq, Eq)]
struct Case {
    kind: String,
    bits: String,
    value: bool,
}

impl Case {
    fn new(kind: &str, bits: &str, value: &str) -> Case {
        assert!(
            !bits.is_empty() && bits.bytes().all(|bit| bit == b'0' || bit == b'1'),
            "bits: {bits}"
        );
        Case {
            kind: kind.to_string(),
            bits: bits.to_string(),
            value: match value {
                "true" => true,
                "false" => false,
                _ => panic!("a value: {value}"),
            },
        }
    }

    /// The circuit of one such gate: A is input 1, B is input 2, ..
    fn text(&self) -> Vec<u8> {
        let width = self.bits.len();
        let mut lines: Vec<usize> = (1..=width).collect();
        if self.kind == "not" {
            lines.push(0);
        }
        one_gate(width, &self.kind, &lines)
    }

    /// Its row on which the inputs have these bits: input 1 is the lowest.
    fn row(&self) -> usize {
        let bits = self.bits.bytes().rev();
        bits.fold(0, |row, bit| 2 * row + usize::from(bit == b'1'))
    }
}

/// A file of the crate `gates`.
fn read(file: &str) -> String {
    let folder = Path::new(env!("CARGO_MANIFEST_DIR")).join("../../crates/gates");
    let path = folder.join(file);
    fs::read_to_string(&path).unwrap_or_else(|error| panic!("{}: {error}", path.display()))
}

/// The lines after the one that is `from`, up to the next that is `to`, without
/// blanks around them.
fn between<'a>(text: &'a str, from: &str, to: &str) -> Vec<&'a str> {
    let mut lines = text.lines().map(str::trim);
    assert!(lines.any(|line| line == from), "no line is {from}");
    let rest: Vec<&str> = lines.collect();
    let end = rest.iter().position(|line| *line == to);
    rest[..end.expect("the last line")].to_vec()
}

/// The kind of that name in the code and the definitions, as it is written in a
/// text.
fn word_of(name: &str) -> &'static str {
    let is = |kind: &&&str| {
        let (first, rest) = kind.split_at(1);
        name == first.to_uppercase() + rest
    };
    KINDS.iter().find(is).expect("a kind")
}

/// The rows of the table in the definitions.
fn table() -> Vec<Case> {
    let text = read("specs/GateTable.antt");
    let row = |line: &str| {
        let parts: Vec<&str> = line.split(' ').collect();
        let [row, kind, bits, value, cons] = parts[..] else {
            panic!("a row: {line}");
        };
        assert_eq!((row, cons), ("row", "∷"), "{line}");
        let bits = bits
            .strip_prefix('"')
            .and_then(|bits| bits.strip_suffix('"'));
        Case::new(word_of(kind), bits.expect("bits"), value)
    };
    let rows = between(&text, "gate_table =", "[]");
    rows.into_iter().map(row).collect()
}

/// The cases in the code: kinds in the order in which the rule tells them apart,
/// each with the arms of its own file.
fn arms() -> Vec<Case> {
    let text = read("src/lib.rt");
    let mut cases = Vec::new();
    for line in between(&text, "match kind {", "}") {
        let (kind, call) = line.split_once(" => ").expect("an arm");
        let kind = word_of(kind.strip_prefix("Kind::").expect("a kind"));
        assert_eq!(call, format!("{kind}::value(bits),"));
        let text = read(&format!("src/{kind}.rt"));
        let mut arms = between(&text, "match bits {", "}");
        // Shown never to be taken.
        let last = arms.split_off(arms.len().saturating_sub(3));
        assert_eq!(last, ["_ => {", "prove!(false);", "false"], "{kind}");
        for arm in arms {
            let (bits, value) = arm.split_once(" => ").expect("an arm");
            let bits = bits.strip_prefix("0b1_").expect("a leading 1");
            cases.push(Case::new(
                kind,
                bits,
                value.strip_suffix(',').expect("an arm"),
            ));
        }
    }
    cases
}

/// Every kind with its bits, two of them, then three, then four, and one for
/// `not`: counting up with A's highest.
fn in_order() -> Vec<(String, String)> {
    let mut cases = Vec::new();
    for kind in KINDS {
        let widths = match kind {
            "not" => 1..=1,
            _ => 2..=WIDTH_LIMIT,
        };
        for width in widths {
            for number in 0..1 << width {
                cases.push((kind.to_string(), format!("{number:0width$b}")));
            }
        }
    }
    cases
}

#[test]
fn every_row_of_the_table() {
    let table = table();
    assert_eq!(table.len(), 170);
    let cases = table
        .iter()
        .map(|case| (case.kind.clone(), case.bits.clone()));
    assert_eq!(cases.collect::<Vec<_>>(), in_order());
    for case in &table {
        let (text, row, due) = (case.text(), case.row(), i32::from(case.value));
        let netlist = netlist::parse(&text).expect("a good text");
        assert_eq!(
            netlist.rows(0).expect("the sound circuit")[row],
            due,
            "{case:?}"
        );
        let found = library_circuit_rows(&text, 0, 1 << case.bits.len());
        assert_eq!(found[row], due, "the library: {case:?}");
    }
}

#[test]
fn every_arm_of_the_code() {
    let arms = arms();
    assert_eq!(arms.len(), 170);
    assert_eq!(arms, table(), "left the code, right the table");
}
