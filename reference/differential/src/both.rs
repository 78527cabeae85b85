//! Both implementations side by side on texts: each call is compared, and what
//! came is counted.

use crate::calls::{self, assert_refused, library_circuit, library_plan, refused};
use crate::lent::{surround, Shown};
use crate::library::{self, Signature};
use crate::outcomes::Outcomes;
use second::circuits::{with_line, Damage, Draft, Sizes};
use second::devices;
use second::lines::TEXT_LIMIT;
use second::plan::{CAP_LIMIT, WORKING_NUMBERS};
use second::random::Random;
use second::report::REPORT_ROOM;
use second::table_texts::table_of;
use std::collections::BTreeSet;

/// Fault numbers that no text has, some of them 0 or 1 in fewer bits.
const NO_FAULTS: [u32; 7] = [33, 256, 257, 65_536, 65_537, 1 << 31, u32::MAX];

/// The noise for lent buffers, how often each outcome and each size of a plan
/// came, at which lines texts were refused, and which faults were the first silent
/// and the first hidden one.
pub struct Both {
    pub random: Random,
    pub outcomes: Outcomes,
    pub sizes: [usize; CAP_LIMIT + 1],
    pub places: BTreeSet<usize>,
    pub silent: BTreeSet<usize>,
    pub hidden: BTreeSet<usize>,
}

impl Both {
    pub fn new(seed: u64) -> Self {
        Both {
            random: Random::new(seed),
            outcomes: Outcomes::default(),
            sizes: [0; CAP_LIMIT + 1],
            places: BTreeSet::new(),
            silent: BTreeSet::new(),
            hidden: BTreeSet::new(),
        }
    }

    /// The circuit call on a text with what stands around it, and a buffer of
    /// `room` numbers.
    pub fn settle(&mut self, texts: [&[u8]; 3], fault: u32, room: usize) -> (u32, usize) {
        let (number, place) = calls::circuit(&mut self.random, texts, fault, room);
        self.outcomes.note(number);
        if place != 0 {
            self.places.insert(place);
        }
        (number, place)
    }

    pub fn circuit(&mut self, text: &[u8], fault: u32, room: usize) -> (u32, usize) {
        let texts = surround(&mut self.random, text);
        self.settle(texts, fault, room)
    }

    /// Every call on the text, with drawn fixed inputs; gives what the circuit
    /// call gives.
    pub fn every_call(&mut self, text: &[u8], fault: u32, room: usize) -> (u32, usize) {
        let found = self.circuit(text, fault, room);
        self.plan(text);
        self.report(text);
        let [mask, values] = [0; 2].map(|_| self.random.below(10) as u32);
        calls::reading(&mut self.random, text, mask, values);
        calls::pair(&mut self.random, text, fault, mask, values);
        found
    }

    /// Every call on twenty of the longest texts that there are, of this length,
    /// with all of their faults and with those that change a row's value.
    pub fn longest_texts(&mut self, largest: fn(&mut Random) -> Draft, length: usize) {
        let mut changing = 0;
        for round in 0..20 {
            let draft = largest(&mut self.random);
            let text = draft.text();
            assert_eq!(text.len(), length);
            changing += self.every_fault(&draft);
            self.plan_and_report(&text);
            let planned = draft.only_changing().expect("a fault that changes rows");
            // Without a plan the second implementation tries every set.
            self.plan_and_report(&planned.with_cap(1 + round % 2).text());
            let found = calls::reading(&mut self.random, &text, round as u32, 0);
            assert_eq!(found.number, 0);
            for fault in 1..=32 {
                let found = calls::pair(&mut self.random, &text, fault, 0, 0);
                assert_eq!(found.number, 0);
            }
        }
        self.outcomes
            .assert_seen(&[(0, 20 * 33 + 20), (13, 20), (14, 0)]);
        assert!(changing > 300, "faults that change rows: {changing}");
    }

    /// Plans of drawn circuits without silent and hidden faults, of every size and
    /// none.
    pub fn plans_without_silent_faults(&mut self, draw: fn(&mut Random, usize) -> Draft) {
        for round in 0..600 {
            // Without a plan the second implementation tries every set.
            let draft = draw(&mut self.random, 1 + round % 6);
            self.plan_and_report(&draft.text());
            if round % 4 == 0 {
                self.caps_and_orders(&draft);
            }
        }
        self.outcomes.assert_seen(&[(0, 1000), (14, 150)]);
        self.assert_sizes([500, 200, 40, 10]);
    }

    /// Every damage on drawn circuits, by the circuit call and now and then by every
    /// call; each must be refused so often at least.
    pub fn damaged_circuits(
        &mut self,
        damages: &[&Damage],
        rounds: usize,
        least: usize,
        draw: impl Fn(&mut Random, usize) -> Draft,
    ) {
        let mut damaged = vec![0; damages.len()];
        for round in 0..rounds {
            let draft = draw(&mut self.random, round);
            for (damage, refused) in damages.iter().zip(&mut damaged) {
                let text = (damage.apply)(&mut self.random, &draft);
                let fault = self.random.below(draft.sizes.faults + 2) as u32;
                let room = self.random.room(1 << draft.sizes.inputs);
                let (number, _) = self.circuit(&text, fault, room);
                *refused += usize::from((2..=7).contains(&number));
                if round % 8 < 2 {
                    self.every_call(&text, fault, room);
                }
            }
        }
        for (damage, refused) in damages.iter().zip(damaged) {
            assert!(refused > least, "{}: refused {refused} times", damage.name);
        }
    }

    /// What every call refuses the text by, but that readings take no tables;
    /// (0, 0) where it is accepted.
    pub fn expect(&mut self, text: &[u8], due: (u32, usize)) {
        let found = self.every_call(text, 0, 256);
        assert_eq!(found, due, "{}", Shown(text));
        if due.0 != 0 {
            assert_refused(text, due);
        }
    }

    /// The same of the text with its line `place` replaced.
    pub fn expect_line(&mut self, text: &str, place: usize, line: &str, number: u32) {
        let due = (number, if number == 0 { 0 } else { place });
        self.expect(&with_line(text, place, line), due);
    }

    /// The circuit, the plan and the report call on a text that is refused at a
    /// line: nothing is written but the report's refusal line. `next` is the
    /// number after the last fault.
    pub fn refused_with_all_kept(&mut self, text: &[u8], next: u32, due: (u32, usize)) {
        for (fault, room) in [(0, 256), (1, 0), (next, 256), (u32::MAX, 0)] {
            let mut out = vec![-7; room];
            let reply = library::circuit(text, fault, &mut out);
            assert_eq!((reply.number, reply.place), due, "{}", Shown(text));
            assert!(out.iter().all(|&number| number == -7));
            self.circuit(text, fault, room);
        }
        for working in [0, WORKING_NUMBERS - 1, WORKING_NUMBERS, 5_000] {
            let mut work = vec![7; working];
            assert_eq!(library::plan(text, &mut work), refused(due.0, due.1));
            assert!(work.iter().all(|&number| number == 7));
            self.plan_with(text, working);
        }
        let (mut out, mut work) = (vec![b'#'; 1_100], vec![7; 4_700]);
        let bytes = library::report(text, &mut out, &mut work).bytes;
        let line = format!("refused,{},{}\n", due.0, due.1);
        assert_eq!(&out[..bytes], line.as_bytes());
        assert!(out[bytes..].iter().all(|&byte| byte == b'#'));
        assert!(work.iter().all(|&number| number == 7));
        self.report(text);
    }

    /// Every fault of a good text; gives how many change its rows.
    pub fn every_fault(&mut self, draft: &Draft) -> usize {
        let text = draft.text();
        let device = devices::parse(&text)
            .unwrap_or_else(|refusal| panic!("{refusal:?} for {}", Shown(&text)));
        let length = 1 << device.inputs();
        let mut changing = 0;
        for fault in 0..=device.faults().len() as u32 {
            let found = self.circuit(&text, fault, length);
            assert_eq!(found, (0, 0), "fault {fault} of {}", Shown(&text));
            changing += usize::from(device.rows(fault) != device.rows(0));
        }
        changing
    }

    /// Every fault of drawn circuits of every count of inputs, from `least` on, with
    /// every count of gates; every count of outputs comes with every count of inputs.
    /// `each` gets every circuit afterwards. Gives how many faults change rows.
    pub fn every_size(
        &mut self,
        least: usize,
        draw: impl Fn(&mut Random, Sizes) -> Draft,
        mut each: impl FnMut(&mut Both, &Draft),
    ) -> usize {
        let mut changing = 0;
        for inputs in least..=8 {
            for gates in 0..=48 {
                let drawn = Sizes::draw(&mut self.random);
                let sizes = Sizes {
                    inputs,
                    gates,
                    outputs: 1 + gates % 4,
                    ..drawn
                };
                let draft = draw(&mut self.random, sizes);
                changing += self.every_fault(&draft);
                each(self, &draft);
            }
        }
        changing
    }

    /// Faults that a good text has not, with any buffer.
    pub fn no_faults(&mut self, draft: &Draft) {
        let (text, length) = (draft.text(), 1 << draft.sizes.inputs);
        let next = draft.sizes.faults as u32 + 1;
        for fault in [next, next + 1].into_iter().chain(NO_FAULTS) {
            for room in [0, length - 1, length, length + 9] {
                let found = self.circuit(&text, fault, room);
                assert_eq!(found, (12, 0), "fault {fault}, room {room}");
            }
        }
    }

    /// A good text with buffers that are too short, exact and longer.
    pub fn buffers(&mut self, draft: &Draft) {
        let (text, length) = (draft.text(), 1 << draft.sizes.inputs);
        let last = draft.sizes.faults as u32;
        for fault in [0, 1, last] {
            for room in [0, 1, length / 2, length - 1] {
                let found = self.circuit(&text, fault, room);
                assert_eq!(found, (8, 0), "room {room} for {length}");
                let found = self.circuit(&text, last + 1, room);
                assert_eq!(found, (12, 0), "12 and 8: room {room} for {length}");
            }
            for room in [length, length + 1, 2 * length, 256, 2048] {
                let found = self.circuit(&text, fault, room);
                assert_eq!(found, (0, 0), "room {room} for {length}");
            }
        }
    }

    /// Every prefix of a good text, and every rest; the other part of the text
    /// stands around it.
    pub fn every_prefix(&mut self, text: &[u8]) {
        assert_eq!(self.settle([b"", text, b""], 1, 256), (0, 0));
        for cut in 0..text.len() {
            let (start, rest) = text.split_at(cut);
            let line = 1 + start.iter().filter(|&&byte| byte == b'\n').count();
            let found = self.settle([b"", start, rest], 1, 256);
            assert_eq!(found, (2, line), "{}", Shown(start));
            assert_eq!(library_plan(start), refused(2, line), "{}", Shown(start));
            if cut > 0 {
                let found = self.settle([start, rest, b""], 1, 256);
                assert_eq!(found, (2, 1), "{}", Shown(rest));
            }
        }
    }

    /// Every byte removed, changed and inserted, under one of the first two faults.
    pub fn every_byte(&mut self, text: &[u8]) {
        with_every_byte(text, |text| {
            self.circuit(text, 1 + (text.len() % 2) as u32, 256);
        });
    }

    /// Every number of a good text replaced by others, good ones and bad ones.
    pub fn every_number(&mut self, draft: &Draft) {
        let plain = (0..=66).chain([99, 100, 255, 256, 257, 512, 999, 1000, 4097, 9999]);
        let beyond = [10_000, 10_001, 65_537, 99_999, 4_294_967_297];
        let written: Vec<String> = plain
            .chain(beyond)
            .map(|number: u64| number.to_string())
            .chain(["00", "01", "001", "0001", "007", ""].map(String::from))
            .collect();
        for (line, field) in draft.numbers() {
            for number in &written {
                let mut draft = draft.clone();
                draft.lines[line][field] = number.clone();
                self.circuit(&draft.text(), 1, 256);
            }
        }
    }

    /// A good text with bad lines in the places of two of its lines: the first
    /// decides. 7 goes last, 1 first, and all of them before 12 and 8.
    pub fn two_refusals(
        &mut self,
        text: &str,
        bad_lines: fn(usize) -> &'static [(&'static str, u32)],
        expect: fn(&mut Both, &[u8], (u32, usize)),
    ) {
        let good = devices::parse(text.as_bytes()).expect("a good text");
        let (length, last) = (1 << good.inputs(), text.lines().count());
        let mut tests: Vec<(Vec<u8>, (u32, usize))> = Vec::new();
        for first in 1..=last {
            for &(line, number) in bad_lines(first) {
                let bad = with_line(text, first, line);
                let due = (number, first);
                for second in first + 1..=last {
                    for (later, _) in bad_lines(second) {
                        let bad = String::from_utf8(bad.clone()).expect("plain text");
                        tests.push((with_line(&bad, second, later), due));
                    }
                }
                for more in ["\n", "x", "fault,1,0\n"] {
                    tests.push(([&bad, more.as_bytes()].concat(), due));
                }
                // Without its end the last line is refused by 2.
                let cut = if first == last { (2, last) } else { due };
                tests.push((bad[..bad.len() - 1].to_vec(), cut));
                let mut long = bad.clone();
                long.resize(TEXT_LIMIT + 1, b'\n');
                tests.push((long[..TEXT_LIMIT].to_vec(), due));
                tests.push((long, (1, 0)));
                tests.push((bad, due));
            }
        }
        let good = text.as_bytes();
        tests.push(([good, b"\n"].concat(), (7, last + 1)));
        tests.push((good[..good.len() - 1].to_vec(), (2, last)));
        tests.push((vec![b'x'; TEXT_LIMIT + 1], (1, 0)));
        for (text, due) in &tests {
            expect(self, text, *due);
            for (fault, room) in [(0, 0), (99, length), (u32::MAX, length - 1)] {
                let found = self.circuit(text, fault, room);
                assert_eq!(found, *due, "fault {fault}, room {room}, {}", Shown(text));
            }
        }
    }

    /// The plan call with a working buffer of this length.
    pub fn plan_with(&mut self, text: &[u8], working: usize) -> Signature {
        let found = calls::plan(&mut self.random, text, working);
        self.outcomes.note(found.number);
        match found.number {
            0 => self.sizes[found.size] += 1,
            13 => {
                self.silent.insert(found.place);
            }
            16 => {
                self.hidden.insert(found.place);
            }
            _ => {}
        }
        found
    }

    pub fn plan(&mut self, text: &[u8]) -> Signature {
        self.plan_with(text, WORKING_NUMBERS)
    }

    /// The report call with buffers of these lengths; gives the report's bytes.
    pub fn report_with(&mut self, text: &[u8], room: usize, working: usize) -> Vec<u8> {
        let (number, bytes) = calls::report(&mut self.random, text, room, working);
        self.outcomes.note(number);
        bytes
    }

    pub fn report(&mut self, text: &[u8]) -> Vec<u8> {
        self.report_with(text, REPORT_ROOM, WORKING_NUMBERS)
    }

    /// Both calls with enough of everything.
    pub fn plan_and_report(&mut self, text: &[u8]) -> Signature {
        let found = self.plan(text);
        self.report(text);
        found
    }

    /// A circuit of one output of weight 1 whose faults name inputs only, and its
    /// rows as a table: the plans are equal, the coefficients of the table twice
    /// the others. The second implementation is asked for the report only.
    pub fn table_of_circuit(&mut self, circuit: &Draft) {
        let (once, twice) = (circuit.text(), table_of(circuit).text());
        let found = library_plan(&twice);
        assert_eq!(found, library_plan(&once), "{}", Shown(&once));
        self.outcomes.note(found.number);
        let length = 1 << circuit.sizes.inputs;
        for fault in 0..=circuit.sizes.faults as u32 {
            let due: Vec<i32> = library_circuit(&once, fault, length)
                .into_iter()
                .map(|coefficient| 2 * coefficient)
                .collect();
            assert_eq!(library_circuit(&twice, fault, length), due);
        }
        self.report(&twice);
    }

    /// The plans of a text with other caps, and with its faults in another order
    /// and more often: the cap only cuts off, and the set does not depend on how
    /// the faults stand.
    pub fn caps_and_orders(&mut self, draft: &Draft) {
        let found = self.plan(&draft.with_cap(CAP_LIMIT).text());
        for cap in 1..CAP_LIMIT {
            let due = match found.number == 0 && found.size <= cap {
                true => found,
                false => refused(14, 0),
            };
            assert_eq!(self.plan(&draft.with_cap(cap).text()), due, "cap {cap}");
        }
        let mut faults = draft.faults().to_vec();
        for at in (1..faults.len()).rev() {
            faults.swap(at, self.random.below(at + 1));
        }
        let repeated: Vec<_> = faults.iter().cycle().take(32).cloned().collect();
        for faults in [faults, repeated] {
            let text = draft.with_faults(&faults, CAP_LIMIT).text();
            assert_eq!(self.plan(&text), found, "{}", Shown(&text));
        }
    }

    /// The plan call on a text with working buffers of every length; `number` is
    /// what it gives with enough.
    pub fn working_buffers(&mut self, text: &[u8], number: u32) {
        for working in [0, 1, 2_304, 4_607, 4_608, 4_609, 5_000, 9_216] {
            let due = match number {
                0 | 13 | 14 | 16 if working < WORKING_NUMBERS => 8,
                _ => number,
            };
            let found = self.plan_with(text, working);
            assert_eq!(found.number, due, "{working} working numbers");
        }
    }

    /// The report call on a text with buffers of every length; the same.
    pub fn report_buffers(&mut self, text: &[u8], number: u32) {
        for room in [0, 1, 670, 1_023, 1_024, 1_025, 3_000] {
            for working in [0, 1, 2_304, 4_607, 4_608, 4_609, 5_000, 9_216] {
                let short = room < REPORT_ROOM || working < WORKING_NUMBERS;
                let bytes = self.report_with(text, room, working);
                assert_eq!(bytes.is_empty(), short, "room {room}, {working}");
                if !short {
                    assert_eq!(calls::reported_number(&bytes), number);
                }
            }
        }
    }

    /// Asserts that these sizes of plans came so often at least.
    #[track_caller]
    pub fn assert_sizes(&self, least: [usize; CAP_LIMIT]) {
        for (size, least) in (1..).zip(least) {
            let seen = self.sizes[size];
            assert!(seen >= least, "{size} labels: {seen} times only");
        }
    }
}

/// Calls with every byte of the text removed, changed to each byte, swapped with
/// the next, and with each byte inserted at every place.
pub fn with_every_byte(text: &[u8], mut call: impl FnMut(&[u8])) {
    for at in 0..=text.len() {
        let (start, rest) = text.split_at(at);
        let after = rest.split_first().map(|(_, after)| after);
        after
            .into_iter()
            .for_each(|after| call(&[start, after].concat()));
        for byte in 0..=255 {
            call(&[start, &[byte], rest].concat());
            if let Some(after) = after {
                call(&[start, &[byte], after].concat());
            }
        }
    }
    for at in 1..text.len() {
        let mut text = text.to_vec();
        text.swap(at - 1, at);
        call(&text);
    }
}

/// A good line with fields too many, too few or empty, with other bytes, and
/// with its last number badly written.
pub fn badly_written(line: &str) -> Vec<String> {
    let (word, _) = line.split_once(',').expect("a comma");
    let (start, _) = line.rsplit_once(',').expect("a comma");
    // A gate but `not` may have one or two fields more.
    let more = match word == "gate" && !line.starts_with("gate,not,") {
        true => ",1,1,1",
        false => ",1",
    };
    // A weight may have one minus.
    let negative = if word == "output" { "--1" } else { "-1" };
    let mut lines = vec![
        String::new(),
        word.to_string(),
        format!("{line},"),
        format!(",{line}"),
        format!("{line}{more}"),
        format!("{line} "),
        format!(" {line}"),
        format!("{line}\r"),
        format!("{line}\0"),
        line.replacen(',', ",,", 1),
        line.replacen(',', ";", 1),
        line.replacen(',', ", ", 1),
        line.replacen(',', ",\"", 1),
        start.to_string(),
        format!("{start},"),
    ];
    let numbers = [
        "00", "01", "02", "001", "0000", "00000", "10000", "00001", negative, "-0", "+1", "1.",
        "1e0", "a", "0x1", "1_", "\u{661}", "/", ":", "-",
    ];
    lines.extend(numbers.map(|number| format!("{start},{number}")));
    lines
}
