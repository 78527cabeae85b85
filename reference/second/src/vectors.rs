//! The stored cases: every call with what is due, in one file that a program
//! can read where no second implementation is at hand. A case is a head of 54
//! bytes, `CALL,TTTTT,LLLLL,AAAAA,BBBBB,RRRRR,WWWWW,DDDDD` and a line end: the
//! call's word, filled up with spaces to 11 bytes, then with zeros in front how
//! many bytes its text has, how many numbers its list, its first and its second
//! arguments, how many numbers (a report: bytes) and how many working numbers
//! are lent, how many bytes are due. Then come the text, the list and the
//! arguments (each number a sign, ten digits, and a comma or a line end), and
//! what is due; `crates/vectors/src/main.rt` says what that is for each call.

mod bridges;
mod examples;
mod hidden;
mod lists;
mod signed;
mod tables;
mod texts;
mod uses;
mod wide;

use crate::devices;
use crate::lines;
use crate::netlist;
use crate::plan::{self, CAP_LIMIT};
use crate::random::Random;
use crate::reading::{self, Reading, Whole};
use crate::report;
use crate::walsh::{self, number_and_place, number_of, Refusal};
use std::path::{Path, PathBuf};

const SEED: u64 = 0x5645_4354_4f52_5300;

/// What stands in a lent result before the call; no call writes it.
const BLANK: i32 = -99_999_999;

/// A call with its arguments, and what is due.
#[derive(Clone, Debug, Default)]
pub struct Case {
    pub call: &'static str,
    pub text: Vec<u8>,
    pub list: Vec<i32>,
    pub first: Vec<u32>,
    pub second: Vec<u32>,
    pub room: usize,
    pub working: usize,
    pub due: Vec<u8>,
    /// The refusal's number, 0 where the call is done: no part of the file.
    pub number: u32,
}

/// Where the cases are stored.
pub fn path() -> PathBuf {
    Path::new(env!("CARGO_MANIFEST_DIR")).join("../../crates/vectors/stdin")
}

/// The file as it is due.
pub fn stored() -> Vec<u8> {
    cases().iter().flat_map(Case::bytes).collect()
}

/// All cases: the paper's examples first, those on tables, with bridges, with wide
/// gates, with signed weights and with hidden faults last, one after the other, so
/// that earlier cases stay where they were.
pub fn cases() -> Vec<Case> {
    let texts = texts::texts(&mut Random::new(SEED));
    let mut random = Random::new(SEED + 1);
    let mut cases = examples::cases();
    cases.extend(uses::reports(&texts));
    cases.extend(lists::cases(&mut random));
    cases.extend(uses::cases(&mut random, &texts));
    cases.extend(tables::cases(&mut Random::new(SEED + 2)));
    cases.extend(bridges::cases(&mut Random::new(SEED + 3)));
    cases.extend(wide::cases(&mut Random::new(SEED + 4)));
    cases.extend(signed::cases(&mut Random::new(SEED + 5)));
    cases.extend(hidden::cases(&mut Random::new(SEED + 6)));
    cases
}

/// A line of an answer.
fn line(word: &str, numbers: impl IntoIterator<Item = i64>) -> String {
    let mut line = word.to_string();
    for number in numbers {
        line += &format!(",{number}");
    }
    line + "\n"
}

/// Number and place.
fn refusal_numbers<T>(result: &Result<T, Refusal>) -> Vec<i64> {
    let (number, place) = number_and_place(result);
    vec![i64::from(number), place as i64]
}

impl Case {
    /// The case as it is stored.
    pub fn bytes(&self) -> Vec<u8> {
        let sizes = [
            self.text.len(),
            self.list.len(),
            self.first.len(),
            self.second.len(),
            self.room,
            self.working,
            self.due.len(),
        ];
        let mut head = format!("{:11}", self.call);
        for size in sizes {
            assert!(size < 100_000, "{size} has more than five digits");
            head += &format!(",{size:05}");
        }
        head += "\n";
        let mut numbers = String::new();
        let list: Vec<i64> = self.list.iter().map(|&z| z.into()).collect();
        let [first, second] =
            [&self.first, &self.second].map(|some| some.iter().map(|&n| n.into()).collect());
        for some in [list, first, second] {
            let fields: Vec<String> = some.iter().map(|z: &i64| format!("{z:+011}")).collect();
            if !fields.is_empty() {
                numbers += &(fields.join(",") + "\n");
            }
        }
        [head.as_bytes(), &self.text, numbers.as_bytes(), &self.due].concat()
    }

    fn due(self, number: u32, due: impl Into<Vec<u8>>) -> Case {
        let due = due.into();
        Case {
            number,
            due,
            ..self
        }
    }

    /// What is due of a call that writes a list into a lent result.
    fn lent(self, room: usize, result: Result<Vec<i32>, Refusal>) -> Case {
        let mut left = vec![BLANK; room];
        let written = result.as_deref().unwrap_or_default();
        left[..written.len()].copy_from_slice(written);
        let due = line("answer", refusal_numbers(&result))
            + &line("left", left.into_iter().map(i64::from));
        Case { room, ..self }.due(number_of(&result), due)
    }

    pub fn coefficient(rows: &[i32], label: u32) -> Case {
        let result = walsh::coefficient(rows, label);
        let mut numbers = refusal_numbers(&result);
        numbers.push(result.unwrap_or_default().into());
        Case {
            call: "coefficient",
            list: rows.to_vec(),
            first: vec![label],
            ..Case::default()
        }
        .due(number_of(&result), line("answer", numbers))
    }

    pub fn spectrum(rows: &[i32], room: usize) -> Case {
        Case {
            call: "spectrum",
            list: rows.to_vec(),
            ..Case::default()
        }
        .lent(room, walsh::spectrum(rows, room))
    }

    pub fn rows(coefficients: &[i32], room: usize) -> Case {
        Case {
            call: "rows",
            list: coefficients.to_vec(),
            ..Case::default()
        }
        .lent(room, walsh::rows(coefficients, room))
    }

    pub fn stuck(coefficients: &[i32], inputs: &[u32], values: &[u32], room: usize) -> Case {
        Case {
            call: "stuck",
            list: coefficients.to_vec(),
            first: inputs.to_vec(),
            second: values.to_vec(),
            ..Case::default()
        }
        .lent(room, walsh::stuck(coefficients, inputs, values, room))
    }

    pub fn opened(coefficients: &[i32], values: &[u32], room: usize) -> Case {
        Case {
            call: "opened",
            list: coefficients.to_vec(),
            first: values.to_vec(),
            ..Case::default()
        }
        .lent(room, walsh::opened(coefficients, values, room))
    }

    pub fn bridged(coefficients: &[i32], bridge: [u32; 2], room: usize) -> Case {
        let [first, second] = bridge;
        Case {
            call: "bridged",
            list: coefficients.to_vec(),
            first: bridge.to_vec(),
            ..Case::default()
        }
        .lent(room, walsh::bridged(coefficients, first, second, room))
    }

    pub fn circuit(text: &[u8], fault: u32, room: usize) -> Case {
        Case {
            call: "circuit",
            text: text.to_vec(),
            first: vec![fault],
            ..Case::default()
        }
        .lent(room, devices::circuit(text, fault, room))
    }

    pub fn plan(text: &[u8], working: usize) -> Case {
        let result = plan::plan(text, working);
        let number = number_of(&result);
        let mut numbers = refusal_numbers(&result);
        let mut labels = result.unwrap_or_default();
        numbers.push(labels.len() as i64);
        labels.resize(CAP_LIMIT, 0);
        numbers.extend(labels.into_iter().map(|label| label as i64));
        Case {
            call: "plan",
            text: text.to_vec(),
            working,
            ..Case::default()
        }
        .due(number, line("answer", numbers))
    }

    pub fn report(text: &[u8], room: usize, working: usize) -> Case {
        let (number, due) = match report::report(text, room, working) {
            Ok(report) => (0, report),
            Err(refusal) => (refusal.number, Vec::new()),
        };
        Case {
            call: "report",
            text: text.to_vec(),
            room,
            working,
            ..Case::default()
        }
        .due(number, due)
    }

    pub fn reading(text: &[u8], mask: u32, values: u32) -> Case {
        let (refusal, kind, fixed) = match reading::reading(text, mask, values) {
            Reading::PlainSyndrome { .. } => (Ok(()), 1, 0),
            Reading::WeightedSum { .. } => (Ok(()), 2, 0),
            Reading::Constrained { fixed, .. } => (Ok(()), 3, fixed.into()),
            Reading::Refused(refusal) => (Err(refusal), 0, 0),
        };
        let mut numbers = refusal_numbers(&refusal);
        numbers.extend([kind, fixed]);
        let [sum] = sums(text, refusal, [0], mask, values);
        Case {
            call: "reading",
            text: text.to_vec(),
            list: vec![sum.0],
            first: vec![mask, values],
            second: vec![sum.1],
            ..Case::default()
        }
        .due(number_of(&refusal), line("answer", numbers))
    }

    pub fn pair(text: &[u8], fault: u32, mask: u32, values: u32) -> Case {
        let refusal = reading::pair(text, fault, mask, values).map(|_| ());
        let [sound, faulty] = sums(text, refusal, [0, fault], mask, values);
        Case {
            call: "pair",
            text: text.to_vec(),
            list: vec![sound.0, faulty.0, sound.0 - faulty.0],
            first: vec![fault, mask, values],
            second: vec![sound.1],
            ..Case::default()
        }
        .due(
            number_of(&refusal),
            line("answer", refusal_numbers(&refusal)),
        )
    }

    pub fn field(text: &[u8], number: u32) -> Case {
        let (start, length) = lines::field(text, number as usize);
        Case {
            call: "field",
            text: text.to_vec(),
            first: vec![number],
            second: vec![start as u32],
            ..Case::default()
        }
        .due(0, &text[start..start + length])
    }
}

/// The whole sums under these faults with their count; 0 of 1 with a refusal:
/// "readings returned with a refusal are 0".
fn sums<const N: usize>(
    text: &[u8],
    refusal: Result<(), Refusal>,
    faults: [u32; N],
    mask: u32,
    values: u32,
) -> [(i32, u32); N] {
    if refusal.is_err() {
        return [(0, 1); N];
    }
    let netlist = netlist::parse(text).expect("a good circuit");
    faults.map(|fault| {
        let rows = netlist.rows(fault).expect("a fault of the circuit");
        let whole = Whole::of(&rows, mask, values);
        (whole.sum as i32, whole.count as u32)
    })
}
