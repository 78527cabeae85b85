//! The calls on texts by both implementations: each comparison covers all that
//! comes back and all that is lent, with noise in and around it. The text stands
//! between bytes that would carry it on.

use crate::lent::{lend_text, surround, Lent, Shown};
use crate::library::{self, Signature, Written};
use crate::outcomes::{answer, compare, written};
use second::devices;
use second::netlist::CIRCUIT_LIMIT;
use second::plan::{self, CAP_LIMIT, WORKING_NUMBERS};
use second::random::Random;
use second::reading::{self, Reading};
use second::report::{self, REPORT_ROOM};
use second::walsh::Refusal;
use std::fmt;

/// The circuit call with the text and what stands around it, and a buffer of
/// `room` numbers; gives number and place.
pub fn circuit(random: &mut Random, texts: [&[u8]; 3], fault: u32, room: usize) -> (u32, usize) {
    let case = format_args!("fault {fault} of {}", Shown(texts[1]));
    let due = devices::circuit(texts[1], fault, room);
    let found = compare(random, case, room, &due, |out| {
        lend_text(case, texts, |text| library::circuit(text, fault, out))
    });
    let limit = -CIRCUIT_LIMIT..=CIRCUIT_LIMIT;
    assert!(
        due.iter().flatten().all(|number| limit.contains(number)),
        "{case}: a coefficient is beyond the limit"
    );
    found
}

/// What the plan call gives back that ends in this result.
pub fn plan_of(result: &Result<Vec<usize>, Refusal>) -> Signature {
    let refused = answer(result);
    let mut labels = [0; CAP_LIMIT];
    let found = result.as_deref().unwrap_or_default();
    for (place, &label) in labels.iter_mut().zip(found) {
        *place = label as u32;
    }
    Signature {
        number: refused.number,
        place: refused.place,
        size: found.len(),
        labels,
    }
}

/// A plan of these labels.
pub fn of_labels(labels: &[usize]) -> Signature {
    plan_of(&Ok(labels.to_vec()))
}

/// What the plan call gives back with this refusal.
pub fn refused(number: u32, place: usize) -> Signature {
    plan_of(&Err(Refusal { number, place }))
}

/// How many working numbers may have been used.
fn used(number: u32) -> usize {
    match number {
        0 | 13 | 14 | 16 => WORKING_NUMBERS,
        _ => 0,
    }
}

/// The number in a refusal line; 0 for a plan.
pub fn reported_number(report: &[u8]) -> u32 {
    let report = std::str::from_utf8(report).expect("plain text");
    match report.strip_prefix("refused,") {
        Some(rest) => {
            let (number, _) = rest.split_once(',').expect("a place");
            number.parse().expect("a number")
        }
        None => 0,
    }
}

/// The plan call with a working buffer of this length.
pub fn plan(random: &mut Random, text: &[u8], working: usize) -> Signature {
    let case = format_args!("{working} working numbers, {}", Shown(text));
    let due = plan_of(&plan::plan(text, working));
    let mut work = Lent::new(working, || random.noise() as u32);
    let texts = surround(random, text);
    let found = lend_text(case, texts, |text| library::plan(text, work.part()));
    assert_eq!(found, due, "{case}: left what came back, right what is due");
    work.assert_kept(used(found.number), case);
    found
}

/// The report call with buffers of these lengths; gives the number that the
/// call or its report names, and the report's bytes.
pub fn report(random: &mut Random, text: &[u8], room: usize, working: usize) -> (u32, Vec<u8>) {
    let case = format_args!("room {room}, {working} working numbers, {}", Shown(text));
    let due = report::report(text, room, working);
    let mut work = Lent::new(working, || random.noise() as u32);
    let mut out = Lent::new(room, || random.noise() as u8);
    let texts = surround(random, text);
    let found = lend_text(case, texts, |text| {
        library::report(text, out.part(), work.part())
    });
    let number = answer(&due).number;
    let bytes = due.unwrap_or_default();
    let written = Written {
        number,
        bytes: bytes.len(),
    };
    assert_eq!(
        found, written,
        "{case}: left what came back, right what is due"
    );
    out.assert_holds(&bytes, case);
    let outcome = match number {
        0 => reported_number(&bytes),
        _ => number,
    };
    work.assert_kept(used(outcome), case);
    (outcome, bytes)
}

/// The library's plan, without the second implementation.
pub fn library_plan(text: &[u8]) -> Signature {
    library::plan(text, &mut vec![7; WORKING_NUMBERS])
}

/// The library's report, without the second implementation.
pub fn library_report(text: &[u8]) -> String {
    let mut out = vec![b'x'; REPORT_ROOM];
    let found = library::report(text, &mut out, &mut vec![7; WORKING_NUMBERS]);
    assert_eq!(found.number, 0, "{}", Shown(text));
    String::from_utf8(out[..found.bytes].to_vec()).expect("plain text")
}

/// Asserts that the library's plan and report call refuse the text so.
pub fn assert_refused(text: &[u8], (number, place): (u32, usize)) {
    assert_eq!(
        library_plan(text),
        refused(number, place),
        "{}",
        Shown(text)
    );
    let line = format!("refused,{number},{place}\n");
    assert_eq!(library_report(text), line, "{}", Shown(text));
}

/// The library's coefficients of a text, without the second implementation.
pub fn library_circuit(text: &[u8], fault: u32, length: usize) -> Vec<i32> {
    let case = format_args!("fault {fault} of {}", Shown(text));
    written(case, length, |out| library::circuit(text, fault, out))
}

/// The same, taken back to rows by the library.
pub fn library_circuit_rows(text: &[u8], fault: u32, length: usize) -> Vec<i32> {
    let coefficients = library_circuit(text, fault, length);
    written(Shown(text), length, |out| library::rows(&coefficients, out))
}

/// The cases of an answer, as the library numbers them.
pub const REFUSED: u32 = 0;
pub const PLAIN: u32 = 1;
pub const WEIGHTED: u32 = 2;
pub const CONSTRAINED: u32 = 3;

/// A reading by its bits, so that -0 is not 0 and NaN is equal to itself.
#[derive(Clone, Copy, PartialEq, Eq, PartialOrd, Ord)]
pub struct Bits(pub u64);

impl Bits {
    pub fn of(value: f64) -> Bits {
        Bits(value.to_bits())
    }
}

impl fmt::Debug for Bits {
    fn fmt(&self, f: &mut fmt::Formatter) -> fmt::Result {
        write!(f, "{:#018x} ({:?})", self.0, f64::from_bits(self.0))
    }
}

/// What the reading call gives back.
#[derive(Clone, Copy, Debug, PartialEq, Eq)]
pub struct Measured {
    pub number: u32,
    pub kind: u32,
    pub fixed: u32,
    pub place: usize,
    pub value: Bits,
}

impl Measured {
    pub fn new(kind: u32, fixed: u32, value: Bits) -> Measured {
        Measured {
            number: 0,
            kind,
            fixed,
            place: 0,
            value,
        }
    }

    pub fn refused(number: u32, place: usize) -> Measured {
        Measured {
            number,
            place,
            ..Measured::new(REFUSED, 0, Bits(0))
        }
    }

    pub fn found(found: library::Measured) -> Measured {
        Measured {
            number: found.number,
            kind: found.kind,
            fixed: found.fixed,
            place: found.place,
            value: Bits::of(found.value),
        }
    }

    pub fn due(reading: Reading) -> Measured {
        match reading {
            Reading::PlainSyndrome { bits } => Measured::new(PLAIN, 0, Bits(bits)),
            Reading::WeightedSum { bits } => Measured::new(WEIGHTED, 0, Bits(bits)),
            Reading::Constrained { bits, fixed } => Measured::new(CONSTRAINED, fixed, Bits(bits)),
            Reading::Refused(refusal) => Measured::refused(refusal.number, refusal.place),
        }
    }
}

/// What the pair call gives back: sound, faulty and difference.
#[derive(Clone, Copy, Debug, PartialEq, Eq)]
pub struct Comparison {
    pub number: u32,
    pub place: usize,
    pub readings: [Bits; 3],
}

impl Comparison {
    pub fn new(readings: [Bits; 3]) -> Comparison {
        Comparison {
            number: 0,
            place: 0,
            readings,
        }
    }

    pub fn refused(number: u32, place: usize) -> Comparison {
        Comparison {
            number,
            place,
            readings: [Bits(0); 3],
        }
    }

    pub fn found(found: library::Comparison) -> Comparison {
        Comparison {
            number: found.number,
            place: found.place,
            readings: [found.sound, found.faulty, found.difference].map(Bits::of),
        }
    }

    pub fn due(pair: Result<reading::Pair, Refusal>) -> Comparison {
        match pair {
            Ok(pair) => Comparison::new([pair.sound, pair.faulty, pair.difference].map(Bits)),
            Err(refusal) => Comparison::refused(refusal.number, refusal.place),
        }
    }
}

/// The reading call.
pub fn reading(random: &mut Random, text: &[u8], mask: u32, values: u32) -> Measured {
    let case = format_args!("mask {mask}, values {values}, {}", Shown(text));
    let texts = surround(random, text);
    let found = lend_text(case, texts, |text| library::reading(text, mask, values));
    let found = Measured::found(found);
    let due = Measured::due(reading::reading(text, mask, values));
    assert_eq!(found, due, "{case}: left what came back, right what is due");
    found
}

/// The pair call.
pub fn pair(random: &mut Random, text: &[u8], fault: u32, mask: u32, values: u32) -> Comparison {
    let case = format_args!(
        "fault {fault}, mask {mask}, values {values}, {}",
        Shown(text)
    );
    let texts = surround(random, text);
    let found = lend_text(case, texts, |text| library::pair(text, fault, mask, values));
    let found = Comparison::found(found);
    let due = Comparison::due(reading::pair(text, fault, mask, values));
    assert_eq!(found, due, "{case}: left what came back, right what is due");
    found
}
