//! The static library's calls on tables against the second implementation: all
//! that comes back and all that is lent, with noise in and around it, at every
//! comparison. Then what follows from the change request without it.

use differential::both::{badly_written, with_every_byte, Both};
use differential::calls::{
    self, assert_refused, library_circuit, library_plan, library_report, of_labels, refused,
};
use differential::lent::Shown;
use differential::library;
use differential::outcomes::Outcomes;
use second::circuits::{fields, with_line, Damage, DAMAGES, LISTING};
use second::lines::{Fault, TEXT_LIMIT};
use second::plan::CAP_LIMIT;
use second::random::Random;
use second::table_texts::{
    draw, draw_blocks, draw_changing, draw_circuit, draw_with, draw_with_a_silent_input, largest,
    with_labels, with_marks, ANOTHER_MARK, FIGURE, MARKS, MARK_DAMAGES, SHORT_MARKS, SILENT_INPUT,
    SMALL,
};
use second::tables;

const SEED: u64 = 0x5441_424c_4553_0000;

/// Three inputs and faults of one, two and three of them.
const PAIRS: &str = "table,3,3,2\n\
    01-10-10\n\
    fault,2,1\n\
    fault,1,0,3,1\n\
    fault,1,1,2,0,3,1\n";

/// The reading and the pair call: a text whose first word is `table` is refused
/// by 1 where it is too long, else by 2 at line 1.
fn unread(both: &mut Both, text: &[u8], fault: u32, mask: u32, values: u32) {
    let reading = calls::reading(&mut both.random, text, mask, values);
    let pair = calls::pair(&mut both.random, text, fault, mask, values);
    if tables::is_table(text) {
        let due = match text.len() {
            0..=TEXT_LIMIT => (2, 1),
            _ => (1, 0),
        };
        assert_eq!((reading.number, reading.place), due, "{}", Shown(text));
        assert_eq!((pair.number, pair.place), due, "{}", Shown(text));
    }
}

/// Every call on the text.
fn every_call(both: &mut Both, text: &[u8], fault: u32, room: usize) -> (u32, usize) {
    let found = both.circuit(text, fault, room);
    both.plan(text);
    both.report(text);
    let [mask, values] = [0; 2].map(|_| both.random.below(10) as u32);
    unread(both, text, fault, mask, values);
    found
}

/// Asserts what the circuit, the plan and the report call refuse the text by;
/// (0, 0) where it is accepted.
fn expect(both: &mut Both, text: &[u8], due: (u32, usize)) {
    let found = every_call(both, text, 0, 256);
    assert_eq!(found, due, "{}", Shown(text));
    if due.0 != 0 {
        assert_refused(text, due);
    }
}

/// The text with its line `place` replaced.
fn expect_line(both: &mut Both, text: &str, place: usize, line: &str, number: u32) {
    let due = (number, if number == 0 { 0 } else { place });
    expect(both, &with_line(text, place, line), due);
}

// Without the second implementation.

#[test]
fn examples_of_the_change_request() {
    let figure = [12, -2, 0, -2, 0, 6, 4, -2, -4, -6, 0, 2, -8, 2, -4, 2];
    assert_eq!(library_circuit(FIGURE.as_bytes(), 0, 16), figure);
    let small = SMALL.as_bytes();
    assert_eq!(library_circuit(small, 0, 4), [5, -3, -1, -1]);
    assert_eq!(library_circuit(small, 1, 4), [2, 0, -2, 0]);
    assert_eq!(library_circuit(small, 2, 4), [6, -2, 0, 0]);
    assert_eq!(library_plan(small), of_labels(&[0]));
    assert_eq!(
        library_report(small),
        "plan,1\nlabel,0,5\nfault,1,0,2\nfault,2,0,6\n"
    );
    for (text, number, place) in [
        (SILENT_INPUT, 13, 1),
        (ANOTHER_MARK, 15, 2),
        (SHORT_MARKS, 2, 2),
    ] {
        let text = text.as_bytes();
        assert_eq!(library_plan(text), refused(number, place));
        assert_eq!(library_report(text), format!("refused,{number},{place}\n"));
    }
}

/// Equations 11 and 12 of source document 004, doubled.
#[test]
fn coefficients_by_counting_marks() {
    let mut random = Random::new(SEED + 1);
    for round in 0..240 {
        let draft = draw(&mut random, 1 + round % 8);
        let marks = draft.lines[1][0].as_bytes();
        let found = library_circuit(&draft.text(), 0, marks.len());
        for (label, &coefficient) in found.iter().enumerate() {
            let mut due = 0;
            for (row, mark) in marks.iter().enumerate() {
                let size = match mark {
                    b'1' => 2,
                    b'-' => 1,
                    _ => 0,
                };
                match (label & row).count_ones() % 2 {
                    0 => due += size,
                    _ => due -= size,
                }
            }
            assert_eq!(coefficient, due, "label {label} of {draft:?}");
        }
    }
}

#[test]
fn faults_from_coefficients_alone() {
    let mut random = Random::new(SEED + 2);
    let mut outcomes = Outcomes::default();
    for round in 0..240 {
        let inputs = 1 + round % 8;
        let text = draw(&mut random, inputs).text();
        let table = tables::parse(&text).expect("a good table");
        let length = 1 << inputs;
        let sound = library_circuit(&text, 0, length);
        for (stuck, fault) in table.faults.iter().map(Fault::stuck).zip(1..) {
            let numbers: Vec<u32> = stuck.iter().map(|input| input.line as u32).collect();
            let values: Vec<u32> = stuck.iter().map(|input| input.value.into()).collect();
            let room = random.room(length);
            let noise: Vec<i32> = (0..room).map(|_| random.noise()).collect();
            let (mut by_table, mut by_list) = (noise.clone(), noise);
            let found = library::circuit(&text, fault, &mut by_table);
            let again = library::stuck(&sound, &numbers, &values, &mut by_list);
            assert_eq!(found, again, "fault {fault} of {}", Shown(&text));
            assert_eq!(by_table, by_list, "fault {fault} of {}", Shown(&text));
            outcomes.note(found.number);
        }
    }
    outcomes.assert_seen(&[(0, 2000), (8, 500)]);
}

/// A circuit of one output of weight 1 and its rows as a table.
#[test]
fn tables_of_circuits() {
    let mut both = Both::new(SEED + 3);
    for round in 0..400 {
        let drawn = draw_circuit(&mut both.random, 1 + round % 8);
        let circuit = drawn.only_changing().unwrap_or(drawn);
        both.table_of_circuit(&circuit);
    }
    both.outcomes.assert_seen(&[(0, 400), (13, 20), (14, 0)]);
}

// Good tables.

#[test]
fn tables_of_every_size() {
    let mut both = Both::new(SEED + 10);
    for inputs in 1..=8 {
        for faults in 1..=32 {
            let draft = draw_with(&mut both.random, inputs, faults);
            both.every_fault(&draft);
            let text = draft.text();
            let found = both.circuit(&text, faults as u32 + 1, 1 << inputs);
            assert_eq!(found, (12, 0), "{}", Shown(&text));
            both.plan_and_report(&text);
        }
    }
    both.outcomes
        .assert_seen(&[(0, 4000), (12, 256), (13, 4), (14, 0)]);
}

#[test]
fn every_table_of_few_rows() {
    // One input: all marks. Two: all marks with four faults.
    let mut both = Both::new(SEED + 11);
    for inputs in [1, 2] {
        let rows = 1 << inputs;
        for number in 0..3_usize.pow(rows) {
            let marks: String = (0..rows)
                .map(|row| char::from(MARKS[number / 3_usize.pow(row) % 3]))
                .collect();
            for fault in ["fault,1,0", "fault,1,1", "fault,2,0", "fault,1,1,2,0"] {
                if inputs == 1 && fault.contains('2') {
                    continue;
                }
                let text = format!("table,{inputs},1,1\n{marks}\n{fault}\n").into_bytes();
                for number in [0, 1] {
                    assert_eq!(both.circuit(&text, number, 1 << inputs), (0, 0));
                }
                both.plan(&text);
                both.report(&text);
            }
        }
    }
    both.outcomes.assert_seen(&[(0, 800), (13, 60)]);
}

#[test]
fn faults_that_no_table_has() {
    let mut both = Both::new(SEED + 12);
    for round in 0..64 {
        let draft = draw(&mut both.random, 1 + round % 8);
        both.no_faults(&draft);
    }
    both.outcomes.assert_seen(&[(12, 2000)]);
}

#[test]
fn buffers_too_short_exact_and_longer() {
    let mut both = Both::new(SEED + 13);
    for inputs in 1..=8 {
        for _ in 0..6 {
            let draft = draw(&mut both.random, inputs);
            both.buffers(&draft);
        }
    }
    both.outcomes.assert_seen(&[(0, 700), (8, 500), (12, 500)]);
}

// Plans.

#[test]
fn plans_of_one_to_four_labels_and_none() {
    let mut both = Both::new(SEED + 20);
    for inputs in 1..=8 {
        for labels in 1..=CAP_LIMIT {
            for cap in 1..=CAP_LIMIT {
                let drawn = with_labels(&mut both.random, inputs, labels, cap);
                let Some(draft) = drawn else { continue };
                let text = draft.text();
                let found = both.plan(&text);
                match labels <= cap {
                    true => assert_eq!((found.number, found.size), (0, labels)),
                    false => assert_eq!(found, refused(14, 0)),
                }
                both.report(&text);
            }
        }
    }
    let text = largest().text();
    assert_eq!(both.plan(&text).size, 4);
    both.report(&text);
    both.outcomes.assert_seen(&[(0, 80), (14, 40)]);
    both.assert_sizes([30, 15, 8, 3]);
}

#[test]
fn tables_as_they_are_drawn() {
    let mut both = Both::new(SEED + 21);
    for round in 0..800 {
        let inputs = 1 + round / 2 % 8;
        let draft = match round % 2 {
            0 => draw(&mut both.random, inputs),
            _ => draw_blocks(&mut both.random, inputs),
        };
        let text = draft.text();
        both.plan_and_report(&text);
    }
    both.outcomes.assert_seen(&[(0, 800), (13, 200), (14, 20)]);
    both.assert_sizes([300, 20, 5, 0]);
    assert!(both.silent.len() > 10, "silent: {:?}", both.silent);
}

#[test]
fn tables_without_silent_faults() {
    let mut both = Both::new(SEED + 22);
    for round in 0..800 {
        let text = draw_changing(&mut both.random, 1 + round % 8).text();
        both.plan_and_report(&text);
    }
    both.outcomes.assert_seen(&[(0, 1000), (14, 60)]);
    both.assert_sizes([300, 60, 20, 3]);
}

#[test]
fn caps_and_the_order_of_faults() {
    let mut both = Both::new(SEED + 23);
    for round in 0..200 {
        let draft = draw_changing(&mut both.random, 1 + round % 8);
        both.caps_and_orders(&draft);
    }
    both.outcomes.assert_seen(&[(0, 700), (14, 40)]);
    both.assert_sizes([400, 60, 20, 3]);
}

#[test]
fn silent_faults_at_each_place() {
    let mut both = Both::new(SEED + 24);
    for count in 1..=32 {
        for place in 1..=count {
            let inputs = 2 + both.random.below(7);
            let (draft, changing) = loop {
                let draft = draw_with_a_silent_input(&mut both.random, inputs);
                let changing = draft.changing_faults();
                if !changing.is_empty() {
                    break (draft, changing);
                }
            };
            let silent = fields("fault", &[inputs, both.random.below(2)]);
            let mut faults: Vec<_> = changing.into_iter().cycle().take(count).collect();
            faults[place - 1] = silent.clone();
            // Others after it.
            for later in &mut faults[place..] {
                if both.random.once_in(3) {
                    *later = silent.clone();
                }
            }
            let text = draft.with_faults(&faults, 1).text();
            assert_eq!(both.plan(&text), refused(13, place), "of {count}");
            let due = format!("refused,13,{place}\n");
            assert_eq!(both.report(&text), due.as_bytes());
        }
    }
    both.outcomes.assert_seen(&[(13, 900)]);
    assert!(both.silent.iter().copied().eq(1..=32), "{:?}", both.silent);
}

#[test]
fn silent_goes_before_no_set() {
    let mut both = Both::new(SEED + 25);
    for (inputs, labels) in [(4, 2), (6, 3), (8, 4)] {
        let draft = with_labels(&mut both.random, inputs, labels, labels - 1);
        let draft = draft.expect("inputs enough");
        assert_eq!(both.plan(&draft.text()), refused(14, 0));
        // The input that is in no block.
        let named: Vec<&str> = draft.faults().iter().map(|fault| &fault[1][..]).collect();
        let unused = (1..=inputs).find(|input| !named.contains(&&input.to_string()[..]));
        let silent = fields("fault", &[unused.expect("an input"), 1]);
        for place in 0..=draft.sizes.faults {
            let mut faults = draft.faults().to_vec();
            faults.insert(place, silent.clone());
            let text = draft.with_faults(&faults, labels - 1).text();
            assert_eq!(both.plan(&text), refused(13, place + 1));
        }
    }
    both.outcomes.assert_seen(&[(13, 18), (14, 3)]);
}

// Lent buffers of the plan and the report.

/// A table for each outcome but 8.
fn tables_by_outcome() -> Vec<(Vec<u8>, u32)> {
    let small = SMALL.as_bytes();
    let mut random = Random::new(SEED + 30);
    let beyond = with_labels(&mut random, 8, 4, 3).expect("inputs enough");
    let mut texts = vec![
        (small.to_vec(), 0),
        (largest().text(), 0),
        ([small, &[b'0'; TEXT_LIMIT]].concat(), 1),
        (b"table".to_vec(), 2),
        (SHORT_MARKS.as_bytes().to_vec(), 2),
        ([small, b"\n"].concat(), 7),
        (SILENT_INPUT.as_bytes().to_vec(), 13),
        (beyond.text(), 14),
        (ANOTHER_MARK.as_bytes().to_vec(), 15),
    ];
    for (place, line, number) in [
        (1, "table,9,2,1", 3),
        (3, "fault,3,0", 5),
        (4, "fault,2,0,1,0", 6),
    ] {
        texts.push((with_line(SMALL, place, line), number));
    }
    texts
}

/// The numbers of those tables, each so often at least.
fn each_outcome(least: usize) -> Vec<(u32, usize)> {
    [0, 1, 2, 3, 5, 6, 7, 8, 13, 14, 15]
        .map(|number| (number, least))
        .into()
}

#[test]
fn working_buffers_short_exact_and_longer() {
    let mut both = Both::new(SEED + 31);
    for (text, number) in tables_by_outcome() {
        both.working_buffers(&text, number);
    }
    both.outcomes.assert_seen(&each_outcome(4));
}

#[test]
fn buffers_of_the_report() {
    let mut both = Both::new(SEED + 32);
    for (text, number) in tables_by_outcome() {
        both.report_buffers(&text, number);
    }
    both.outcomes.assert_seen(&each_outcome(8));
}

/// With 15 nothing is written but the report's refusal line.
#[test]
fn another_mark_leaves_what_is_lent() {
    let mut both = Both::new(SEED + 33);
    for inputs in 1..=8 {
        for _ in 0..20 {
            let draft = draw(&mut both.random, inputs);
            let mut marks = draft.lines[1][0].clone().into_bytes();
            let at = both.random.below(marks.len());
            marks[at] = both.random.pick(b"2x, \r\0\xff");
            let text = with_marks(&draft.text(), &marks);
            let next = draft.sizes.faults as u32 + 1;
            both.refused_with_all_kept(&text, next, (15, 2));
        }
    }
    both.outcomes.assert_seen(&[(15, 1400)]);
}

// Refused texts.

/// Whether a line of these bytes is a line of marks.
fn all_are_marks(line: &[u8]) -> bool {
    line.iter().all(|byte| MARKS.contains(byte))
}

#[test]
fn every_byte_at_each_place_of_the_marks() {
    let mut both = Both::new(SEED + 40);
    for text in [SILENT_INPUT, SMALL, PAIRS] {
        let text = text.as_bytes();
        let marks = text.split(|&byte| byte == b'\n').nth(1).expect("marks");
        for at in 0..marks.len() {
            for byte in 0..=255 {
                let mut marks = marks.to_vec();
                marks[at] = byte;
                // A line end leaves a line that is too short.
                let due = match byte {
                    b'\n' => (2, 2),
                    b'0' | b'1' | b'-' => (0, 0),
                    _ => (15, 2),
                };
                expect(&mut both, &with_marks(text, &marks), due);
            }
        }
    }
    both.outcomes
        .assert_seen(&[(0, 80), (2, 40), (13, 4), (15, 10_000)]);
}

#[test]
fn lines_of_marks_of_other_lengths() {
    let mut both = Both::new(SEED + 41);
    for inputs in 1..=8 {
        let rows = 1 << inputs;
        let text = draw(&mut both.random, inputs).text();
        for length in [0, 1, rows / 2, rows - 1, rows, rows + 1, 2 * rows, 300] {
            for filler in [b'0', b'1', b'-', b'x', b',', b'\r', 0, 0xff] {
                let line = vec![filler; length];
                let due = match (length == rows, all_are_marks(&line)) {
                    (false, _) => (2, 2),
                    (true, false) => (15, 2),
                    (true, true) => (0, 0),
                };
                expect(&mut both, &with_marks(&text, &line), due);
                // The same with a carriage return at its end, or for its last.
                let mut line = vec![filler; length];
                line.push(b'\r');
                let due = match line.len() == rows {
                    false => (2, 2),
                    true => (15, 2),
                };
                expect(&mut both, &with_marks(&text, &line), due);
            }
        }
    }
    both.outcomes
        .assert_seen(&[(0, 20), (2, 2000), (13, 20), (15, 100)]);
}

#[test]
fn first_words() {
    let mut both = Both::new(SEED + 42);
    let rest = &SMALL["table".len()..];
    for word in [
        "",
        "t",
        "tabl",
        "tables",
        "table ",
        " table",
        "Table",
        "TABLE",
        "table\r",
        "table\0",
        "circuit",
        "fault",
        "tab1e",
        "\u{feff}table",
        ",table",
        "\ntable",
    ] {
        expect(&mut both, format!("{word}{rest}").as_bytes(), (2, 1));
    }
    for text in [
        "table",
        "table\n",
        "table,",
        "table,\n",
        "table,2,2,1",
        "table\n01-1\n",
    ] {
        expect(&mut both, text.as_bytes(), (2, 1));
    }
    // Either word before what belongs to the other.
    let circuit = LISTING.replace("circuit", "table");
    expect(&mut both, circuit.as_bytes(), (2, 1));
    expect(&mut both, &with_line(LISTING, 1, "table,3,2,2"), (2, 2));
    expect(&mut both, &with_line(SMALL, 1, "circuit,2,2,1"), (2, 1));
    expect(&mut both, &with_line(SMALL, 1, "circuit,2,0,1,2,1"), (2, 2));
    both.outcomes.assert_seen(&[(2, 60)]);
}

#[test]
fn ranges_at_their_ends() {
    let mut both = Both::new(SEED + 43);
    for number in (0..=60).chain([99, 100, 256, 257, 999, 9999]) {
        for (field, high) in [(1, 8), (2, 32), (3, 4)] {
            // After a first line in range the second is missing.
            let mut sizes = ["table", "1", "1", "1"].map(String::from);
            sizes[field] = number.to_string();
            let text = sizes.join(",") + "\n";
            let in_range = (1..=high).contains(&number);
            expect(
                &mut both,
                text.as_bytes(),
                if in_range { (2, 2) } else { (3, 1) },
            );
        }
        let due = |good: bool, otherwise: u32| match ((1..=56).contains(&number), good) {
            (false, _) => 3,
            (true, true) => 0,
            (true, false) => otherwise,
        };
        let there = number <= 3;
        expect_line(
            &mut both,
            PAIRS,
            3,
            &format!("fault,{number},0"),
            due(there, 5),
        );
        let value = if number <= 1 { 0 } else { 3 };
        expect_line(&mut both, PAIRS, 3, &format!("fault,3,{number}"), value);
        expect_line(
            &mut both,
            PAIRS,
            4,
            &format!("fault,1,0,2,0,3,{number}"),
            value,
        );
        // Input 2 is stuck too: before it, at it, after it.
        let last = match due(there, 5) {
            0 if number <= 2 => 6,
            other => other,
        };
        expect_line(&mut both, PAIRS, 5, &format!("fault,2,0,{number},1"), last);
    }
    both.outcomes
        .assert_seen(&[(0, 8), (2, 100), (3, 300), (5, 100), (6, 3), (13, 0)]);
}

#[test]
fn every_number_in_every_place() {
    let mut both = Both::new(SEED + 44);
    for inputs in [1, 2, 3, 8] {
        let draft = draw_with(&mut both.random, inputs, 4);
        both.every_number(&draft);
    }
    both.outcomes
        .assert_seen(&[(0, 50), (2, 800), (3, 1500), (5, 500), (6, 10), (7, 8)]);
}

#[test]
fn each_sentence_on_the_text() {
    let mut both = Both::new(SEED + 45);
    let text = SMALL.as_bytes();
    expect(&mut both, text, (0, 0));
    expect(&mut both, PAIRS.as_bytes(), (0, 0));
    // A line missing, or without its end.
    expect(&mut both, b"table,2,2,1\n", (2, 2));
    expect(&mut both, b"table,2,2,1\n01-1", (2, 2));
    expect(&mut both, b"table,2,2,1\nxxxx", (2, 2));
    expect(&mut both, b"table,2,2,1\n01-1\n", (2, 3));
    expect(&mut both, b"table,2,2,1\n\n01-1\n", (2, 2));
    expect(&mut both, &text[..text.len() - 1], (2, 4));
    expect(&mut both, &text[..text.len() - 10], (2, 4));
    expect(&mut both, &text[..text.len() - 11], (2, 3));
    // Bytes after the last due line.
    for more in ["\n", "x", ",", "\0", "01-1\n", "fault,2,1\n", SMALL] {
        expect(&mut both, &[text, more.as_bytes()].concat(), (7, 5));
    }
    // One size more or less than the lines that follow.
    for (sizes, due) in [
        ("table,1,2,1", (2, 2)),
        ("table,3,2,1", (2, 2)),
        ("table,8,2,1", (2, 2)),
        ("table,2,1,1", (7, 4)),
        ("table,2,3,1", (2, 5)),
        ("table,2,32,1", (2, 5)),
    ] {
        expect(&mut both, &with_line(SMALL, 1, sizes), due);
    }
    // The line end is one byte 0A.
    expect(&mut both, SMALL.replace('\n', "\r\n").as_bytes(), (2, 1));
    expect(&mut both, SMALL.replace('\n', "\r").as_bytes(), (2, 1));
    for place in [1, 3, 4] {
        let line = SMALL.lines().nth(place - 1).expect("a line");
        let (_, numbers) = line.split_once(',').expect("a comma");
        for bad in [
            "", "x", "tables", "Fault", "circuit", "output", "gate", "fault ",
        ] {
            expect_line(&mut both, SMALL, place, &format!("{bad},{numbers}"), 2);
        }
        for bad in badly_written(line) {
            expect_line(&mut both, SMALL, place, &bad, 2);
        }
    }
    // The lines of the faults and of the marks change places.
    expect(
        &mut both,
        b"table,2,2,1\nfault,1,0\n01-1\nfault,2,1\n",
        (2, 2),
    );
    expect(&mut both, b"table,2,2,1\n01-1\n01-1\nfault,2,1\n", (2, 3));
    // So long is a fault's line too.
    expect(&mut both, b"table,3,1,1\n01-1,0,1\nfault,1,0\n", (15, 2));
    both.outcomes
        .assert_seen(&[(0, 2), (2, 300), (7, 20), (15, 3)]);
}

/// Bad lines for each line of the small table, with what they are refused by.
fn bad_lines(place: usize) -> &'static [(&'static str, u32)] {
    match place {
        1 => &[
            ("table,2,2", 2),
            ("table,9,33,05", 2),
            ("table,9,2,1,1", 2),
            ("table,9,2,1", 3),
            ("table,2,33,5", 3),
            ("table,2,2,0", 3),
        ],
        2 => &[
            ("", 2),
            ("01x", 2),
            ("01-1x", 2),
            ("x,,1\r", 2),
            ("fault,1,0", 2),
            ("01-x", 15),
            ("0,11", 15),
            ("xx\0\r", 15),
        ],
        _ => &[
            ("", 2),
            ("fault,57,2,", 2),
            ("fault,3,2,x,0", 2),
            ("fault,2,0,1,0,1,0,57,0", 2),
            ("fault,3,2", 3),
            ("fault,57,0,3,0", 3),
            ("fault,2,0,1,2", 3),
            ("fault,3,0", 5),
            ("fault,3,0,3,0", 5),
            ("fault,2,0,56,0,1,0", 5),
            ("fault,2,0,1,0", 6),
            ("fault,2,0,2,1", 6),
        ],
    }
}

#[test]
fn two_refusals_in_one_line() {
    let mut both = Both::new(SEED + 46);
    for place in 1..=4 {
        for &(line, number) in bad_lines(place) {
            expect_line(&mut both, SMALL, place, line, number);
        }
    }
    both.outcomes
        .assert_seen(&[(2, 40), (3, 20), (5, 15), (6, 10), (15, 9)]);
}

#[test]
fn two_refusals_in_two_lines() {
    let mut both = Both::new(SEED + 47);
    both.two_refusals(SMALL, bad_lines, expect);
    both.outcomes.assert_seen(&[
        (1, 100),
        (2, 1000),
        (3, 300),
        (5, 60),
        (6, 60),
        (7, 4),
        (15, 150),
    ]);
}

#[test]
fn lengths_around_the_limit() {
    let mut both = Both::new(SEED + 48);
    let lengths = [16_000, 16_383, 16_384, 16_385, 16_386, 1 << 16, 1 << 17];
    let starts = [
        ("table,", (2, 1)),
        ("table,2,2,1\n", (2, 2)),
        ("table,2,2,1\n01-1\n", (2, 3)),
        ("table,2,2,1\n0,11\n", (15, 2)),
        (SMALL, (7, 5)),
        (PAIRS, (7, 6)),
    ];
    for length in lengths {
        for (start, refusal) in starts {
            for filler in [b'-', b'0', b'\n', b',', b'x', 0, 0xff] {
                let mut text = start.as_bytes().to_vec();
                text.resize(length, filler);
                let due = match length {
                    0..=TEXT_LIMIT => refusal,
                    _ => (1, 0),
                };
                expect(&mut both, &text, due);
            }
        }
    }
    // Good tables one after the other.
    let mut text = SMALL.repeat(500).into_bytes();
    text.truncate(TEXT_LIMIT + 1);
    expect(&mut both, &text, (1, 0));
    expect(&mut both, &text[..TEXT_LIMIT], (7, 5));
    both.outcomes
        .assert_seen(&[(1, 450), (2, 180), (7, 120), (15, 60)]);
}

#[test]
fn damaged_tables() {
    let mut both = Both::new(SEED + 49);
    let damages: Vec<&Damage> = DAMAGES.iter().chain(&MARK_DAMAGES).collect();
    let mut damaged = vec![0; damages.len()];
    for round in 0..600 {
        let inputs = 1 + round % 8;
        let draft = match round % 3 {
            0 => draw_changing(&mut both.random, inputs),
            1 => draw(&mut both.random, inputs),
            _ => {
                let faults = 1 + both.random.below(4);
                draw_with(&mut both.random, inputs, faults)
            }
        };
        for (damage, refused) in damages.iter().zip(&mut damaged) {
            let text = (damage.apply)(&mut both.random, &draft);
            let fault = both.random.below(draft.sizes.faults + 2) as u32;
            let room = both.random.room(1 << inputs);
            let (number, _) = every_call(&mut both, &text, fault, room);
            *refused += usize::from(matches!(number, 2..=7 | 15));
        }
    }
    both.outcomes.assert_seen(&[
        (0, 2000),
        (2, 15_000),
        (3, 800),
        (5, 700),
        (6, 200),
        (7, 1500),
        (8, 100),
        (12, 30),
        (13, 60),
        (14, 5),
        (15, 1500),
    ]);
    // The longest text has 34 lines, and 7 is given at the next.
    for place in 1..=35 {
        assert!(both.places.contains(&place), "none refused at line {place}");
    }
    for (damage, refused) in damages.iter().zip(damaged) {
        assert!(refused > 60, "{}: refused {refused} times", damage.name);
    }
}

#[test]
fn texts_of_noise() {
    let mut both = Both::new(SEED + 50);
    let pieces = [
        "table", "circuit", "fault", ",", ",", ",", "\n", "\n", "0", "1", "2", "-", "01-1", "x",
    ];
    let lines = [
        "01-1\n",
        "----\n",
        "0x-1\n",
        "011\n",
        "fault,1,1\n",
        "fault,2,0\n",
        "fault,1,0,2,1\n",
        "fault,2,0,1,1\n",
        "fault,3,0\n",
        "fault,1,2\n",
    ];
    for round in 0..8000 {
        let length = both.random.below(60);
        let mut text = match round % 3 {
            0 => b"table,".to_vec(),
            1 => b"table,2,1,1\n".to_vec(),
            _ => b"table,2,1,1\n-01-\n".to_vec(),
        };
        match both.random.below(4) {
            0 => text.extend((0..length).map(|_| both.random.below(256) as u8)),
            1 => text.extend((0..length).map(|_| both.random.pick(b",\n0123456789-"))),
            2 => {
                for _ in 0..both.random.below(20) {
                    text.extend(both.random.pick(&pieces).as_bytes());
                }
            }
            _ => {
                for _ in 0..1 + both.random.below(3) {
                    text.extend(both.random.pick(&lines).as_bytes());
                }
            }
        }
        let fault = both.random.below(2) as u32;
        every_call(&mut both, &text, fault, 4);
    }
    both.outcomes.assert_seen(&[
        (0, 150),
        (2, 10_000),
        (3, 30),
        (5, 30),
        (6, 30),
        (7, 300),
        (13, 0),
        (14, 0),
        (15, 100),
    ]);
}

#[test]
fn every_prefix_of_good_tables() {
    let mut both = Both::new(SEED + 51);
    let mut texts: Vec<Vec<u8>> = [SMALL, PAIRS, FIGURE, SILENT_INPUT]
        .map(|text| text.as_bytes().to_vec())
        .into();
    texts.push(largest().text());
    texts.extend((1..=8).map(|inputs| draw(&mut both.random, inputs).text()));
    for text in &texts {
        both.every_prefix(text);
        for cut in 0..text.len() {
            unread(&mut both, &text[..cut], 1, 0, 0);
        }
    }
    both.outcomes.assert_seen(&[(0, 13), (2, 5000)]);
}

#[test]
fn every_byte_removed_changed_and_inserted() {
    let mut both = Both::new(SEED + 52);
    for text in [SMALL.as_bytes(), PAIRS.as_bytes()] {
        with_every_byte(text, |text| {
            every_call(&mut both, text, 1 + (text.len() % 2) as u32, 256);
        });
    }
    both.outcomes.assert_seen(&[
        (0, 300),
        (2, 50_000),
        (3, 300),
        (5, 100),
        (6, 20),
        (7, 500),
        (13, 0),
        (14, 0),
        (15, 3000),
    ]);
}

// Readings and pairs.

#[test]
fn tables_are_not_read() {
    let mut both = Both::new(SEED + 60);
    let numbers = [0, 1, 2, 3, 7, 255, 256, 1 << 31, u32::MAX];
    for round in 0..80 {
        let draft = draw(&mut both.random, 1 + round % 8);
        let mut long = draft.text();
        long.resize(TEXT_LIMIT + 1, b'\n');
        let damaged = (
            both.random.pick(&[0, 1, 2, 3, 4]),
            both.random.below(DAMAGES.len()),
        );
        let by_mark = (MARK_DAMAGES[damaged.0].apply)(&mut both.random, &draft);
        let by_any = (DAMAGES[damaged.1].apply)(&mut both.random, &draft);
        for text in [&draft.text(), &by_mark, &by_any, &long] {
            for _ in 0..12 {
                let [fault, mask, values] = [0; 3].map(|_| both.random.pick(&numbers));
                unread(&mut both, text, fault, mask, values);
            }
        }
    }
    for text in [
        "table",
        "table,",
        "table\n",
        SMALL,
        ANOTHER_MARK,
        SHORT_MARKS,
        FIGURE,
    ] {
        for &mask in &numbers {
            unread(&mut both, text.as_bytes(), 1, mask, 0);
        }
    }
}
