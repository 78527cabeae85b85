//! The static library's calls on texts against the second implementation:
//! number, place and the whole lent buffer, with noise in and around it, at
//! every comparison. The text stands between bytes that would carry it on.

use differential::both::{badly_written, with_every_byte, Both};
use differential::calls::library_circuit;
use differential::lent::{lend_text, surround, Shown};
use differential::library::{self, Part};
use differential::outcomes::written;
use second::circuits::{
    with_line, Draft, Sizes, DAMAGES, LISTING, SILENT_FAULT, STUCK_INNER_LINE, STUCK_INPUTS,
    TWO_OUTPUTS, TWO_STUCK_INPUTS,
};
use second::lines::{self, Fault, StuckLine, TEXT_LIMIT};
use second::netlist::{self, Netlist, CIRCUIT_LIMIT};
use second::random::Random;
use second::signed_texts::input_of_weight;
use second::walsh;

const SEED: u64 = 0x4e45_544c_4953_5400;

/// Two outputs on one line, and faults of two and three lines.
const PAIRS: &str = "circuit,2,2,2,2,1\n\
    gate,nand,1,2\n\
    gate,xnor,3,1\n\
    output,4,15\n\
    output,4,1\n\
    fault,1,0,3,1\n\
    fault,2,1,3,0,4,1\n";

/// Asserts what the text is refused by; (0, 0) where it is accepted.
fn expect(both: &mut Both, text: &[u8], due: (u32, usize)) {
    let found = both.circuit(text, 0, 256);
    assert_eq!(found, due, "{}", Shown(text));
}

/// The listing with its line `place` replaced.
fn expect_line(both: &mut Both, place: usize, line: &str, number: u32) {
    let text = with_line(LISTING, place, line);
    expect(both, &text, (number, if number == 0 { 0 } else { place }));
}

fn field(both: &mut Both, text: &[u8], number: usize) -> Part {
    let case = format_args!("field {number} of {}", Shown(text));
    let found = lend_text(case, surround(&mut both.random, text), |text| {
        library::field(text, number)
    });
    let (start, length) = lines::field(text, number);
    assert_eq!(
        found,
        Part { start, length },
        "{case}: left the library, right what is due"
    );
    found
}

/// The library's coefficients, without the second implementation.
fn library_spectrum(text: &str, fault: u32, length: usize) -> Vec<i32> {
    library_circuit(text.as_bytes(), fault, length)
}

// Faults from coefficients alone.

/// The rows of the circuit with the fault's lines opened: after the inputs each
/// opened line is driven by a bit of the row.
fn opened_rows(netlist: &Netlist, lines: &[StuckLine]) -> Vec<i32> {
    let mut rows = Vec::new();
    for bits in 0..1 << lines.len() {
        let driven = lines.iter().enumerate().map(|(at, stuck)| StuckLine {
            line: stuck.line,
            value: bits >> at & 1 == 1,
        });
        let opened = Netlist {
            faults: vec![Fault::Stuck(driven.collect())],
            ..netlist.clone()
        };
        rows.extend(opened.rows(1).expect("fault 1"));
    }
    rows
}

#[test]
fn faults_of_circuits_from_coefficients_alone() {
    let mut random = Random::new(SEED + 40);
    let (mut of_inputs, mut of_inner_lines) = (0, 0);
    for _ in 0..150 {
        let sizes = Sizes::draw(&mut random);
        let text = Draft::draw(&mut random, sizes).text();
        let netlist = netlist::parse(&text).expect("a good circuit");
        let length = 1 << netlist.inputs;
        let case = Shown(&text);
        let under = |fault: u32| library_circuit(&text, fault, length);
        for (lines, fault) in netlist.faults.iter().map(Fault::stuck).zip(1..) {
            let numbers: Vec<u32> = lines.iter().map(|stuck| stuck.line as u32).collect();
            let values: Vec<u32> = lines.iter().map(|stuck| stuck.value.into()).collect();
            let what = format_args!("fault {fault} of {case}");
            if lines.iter().all(|stuck| stuck.line <= netlist.inputs) {
                let found = written(what, length, |out| {
                    library::stuck(&under(0), &numbers, &values, out)
                });
                assert_eq!(found, under(fault), "stuck inputs, {what}");
                of_inputs += 1;
            }
            let rows = opened_rows(&netlist, lines);
            let spectrum = written(what, rows.len(), |out| library::spectrum(&rows, out));
            let found = written(what, length, |out| library::opened(&spectrum, &values, out));
            assert_eq!(found, under(fault), "opened lines, {what}");
            of_inner_lines += usize::from(lines.iter().all(|stuck| stuck.line > netlist.inputs));
        }
    }
    assert!(of_inputs > 200, "{of_inputs} faults of inputs");
    assert!(of_inner_lines > 200, "{of_inner_lines} of inner lines");
}

// Good circuits.

#[test]
fn examples_of_the_paper() {
    // The numbers are the paper's own; the second implementation is not asked.
    let spectrum = library_spectrum(LISTING, 0, 8);
    assert_eq!(spectrum, [4, -2, 0, 2, -2, 0, -2, 0]);
    assert_eq!(library_spectrum(LISTING, 1, 8)[1], 0);
    assert_eq!(library_spectrum(LISTING, 2, 8)[1], -4);

    for (text, length, sums) in [
        (STUCK_INPUTS, 8, &[5, 4, 6, 2, 8][..]),
        (TWO_STUCK_INPUTS, 16, &[8, 8, 8, 4, 12]),
        (STUCK_INNER_LINE, 16, &[8, 6, 11]),
    ] {
        for (fault, &sum) in (0..).zip(sums) {
            let found = library_spectrum(text, fault, length);
            assert_eq!(found[0], sum, "fault {fault} of {text}");
        }
    }

    for fault in [0, 1] {
        assert_eq!(library_spectrum(SILENT_FAULT, fault, 4), [2, -2, 0, 0]);
    }
    assert_eq!(library_spectrum(TWO_OUTPUTS, 0, 4), [4, -2, -2, 0]);
    assert_eq!(library_spectrum(TWO_OUTPUTS, 1, 4), [4, 2, -2, 0]);
    assert_eq!(library_spectrum(TWO_OUTPUTS, 2, 4), [4, -2, 2, 0]);
}

#[test]
fn truth_tables_of_the_kinds() {
    // Rows 00, 10, 01, 11 of the lines that A and B name.
    let tables = [
        ("and", [0, 0, 0, 1]),
        ("or", [0, 1, 1, 1]),
        ("nand", [1, 1, 1, 0]),
        ("nor", [1, 0, 0, 0]),
        ("xor", [0, 1, 1, 0]),
        ("xnor", [1, 0, 0, 1]),
        ("not", [1, 0, 1, 0]),
    ];
    for (kind, table) in tables {
        for (a, b) in [(1, 2), (2, 1), (1, 1), (2, 2)] {
            let rows: Vec<i32> = (0..4)
                .map(|row| table[(row >> (a - 1) & 1) + 2 * (row >> (b - 1) & 1)])
                .collect();
            let due = walsh::spectrum(&rows, 4).expect("rows in range");
            let b = if kind == "not" { 0 } else { b };
            let text = format!("circuit,2,1,1,1,1\ngate,{kind},{a},{b}\noutput,3,1\nfault,3,1\n");
            assert_eq!(library_spectrum(&text, 0, 4), due, "{kind} of {a} and {b}");
            let stuck = library_spectrum(&text, 1, 4);
            assert_eq!(stuck, [4, 0, 0, 0], "{kind} stuck at 1");
        }
    }
}

#[test]
fn each_input_as_an_output() {
    // x_i of weight w: w 2^(N-1) at label 0, its negative at label 2^(i-1).
    let mut both = Both::new(SEED + 1);
    for inputs in 1..=8 {
        for input in 1..=inputs {
            let weight = both.random.between(1, 15);
            let text = input_of_weight(inputs, input, weight);
            let half = weight << (inputs - 1);
            let mut due = vec![0; 1 << inputs];
            (due[0], due[1 << (input - 1)]) = (half, -half);
            assert_eq!(library_spectrum(&text, 0, due.len()), due, "{text}");
            due.fill(0);
            assert_eq!(library_spectrum(&text, 1, due.len()), due, "{text}");
            due[0] = 2 * half;
            assert_eq!(library_spectrum(&text, 2, due.len()), due, "{text}");
            for fault in 0..=3 {
                both.circuit(text.as_bytes(), fault, 1 << inputs);
            }
        }
    }
    both.outcomes.assert_seen(&[(0, 108), (12, 36)]);
}

#[test]
fn circuits_of_every_size() {
    let mut both = Both::new(SEED + 2);
    let mut changing = 0;
    for inputs in 1..=8 {
        for gates in 0..=48 {
            for round in 0..4 {
                let drawn = Sizes::draw(&mut both.random);
                let sizes = Sizes {
                    inputs,
                    gates,
                    // Every count of outputs comes with every count of inputs.
                    outputs: 1 + (gates + round) % 4,
                    ..drawn
                };
                let draft = Draft::draw(&mut both.random, sizes);
                changing += both.every_fault(&draft);
            }
        }
    }
    both.outcomes.assert_seen(&[(0, 24_000)]);
    let unchanged = both.outcomes.seen(0) - changing;
    assert!(changing > 10_000, "faults that change rows: {changing}");
    assert!(
        unchanged > 1000,
        "faults that change no row, and sound circuits: {unchanged}"
    );
}

#[test]
fn circuits_of_the_largest_size() {
    let mut both = Both::new(SEED + 3);
    let mut changing = 0;
    for _ in 0..60 {
        let draft = Draft::draw(&mut both.random, Sizes::LARGEST);
        changing += both.every_fault(&draft);
    }
    both.outcomes.assert_seen(&[(0, 60 * 33)]);
    assert!(changing > 1000, "faults that change rows: {changing}");
}

#[test]
fn every_count_of_faults() {
    let mut both = Both::new(SEED + 4);
    for faults in 1..=32 {
        for cap in 1..=4 {
            let drawn = Sizes::draw(&mut both.random);
            let inputs = 1 + both.random.below(5);
            let sizes = Sizes {
                inputs,
                faults,
                cap,
                ..drawn
            };
            let draft = Draft::draw(&mut both.random, sizes);
            both.every_fault(&draft);
            both.no_faults(&draft);
        }
    }
    both.outcomes.assert_seen(&[(0, 2000), (12, 4000)]);
}

#[test]
fn buffers_too_short_exact_and_longer() {
    let mut both = Both::new(SEED + 5);
    for inputs in 1..=8 {
        for _ in 0..6 {
            let drawn = Sizes::draw(&mut both.random);
            let draft = Draft::draw(&mut both.random, Sizes { inputs, ..drawn });
            both.buffers(&draft);
        }
    }
    both.outcomes.assert_seen(&[(0, 700), (8, 500), (12, 500)]);
}

#[test]
fn inputs_inner_lines_and_outputs_stuck_at_once() {
    let mut both = Both::new(SEED + 6);
    let (mut full, mut telling) = (0, 0);
    for _ in 0..500 {
        let drawn = Sizes::draw(&mut both.random);
        let sizes = Sizes {
            inputs: 2 + both.random.below(5),
            gates: 4 + both.random.below(45),
            faults: 4,
            ..drawn
        };
        let mut draft = Draft::draw(&mut both.random, sizes);
        let netlist = netlist::parse(&draft.text()).expect("a good circuit");
        let is_output = |line| netlist.outputs.iter().any(|output| output.line == line);
        let gates = sizes.inputs + 1..=sizes.inputs + sizes.gates;
        let (outputs, inner): (Vec<usize>, Vec<usize>) = gates.partition(|&line| is_output(line));
        if outputs.is_empty() {
            continue;
        }
        let mut lines = [
            1 + both.random.below(sizes.inputs),
            both.random.pick(&inner),
            both.random.pick(&outputs),
        ];
        lines.sort_unstable();
        let pairs: Vec<String> = lines
            .iter()
            .map(|line| format!("{line},{}", both.random.below(2)))
            .collect();
        // All three pairs, then each two of them.
        let first = draft.lines.len() - 4;
        for (at, left_out) in [None, Some(0), Some(1), Some(2)].into_iter().enumerate() {
            let kept = (0..3).filter(|&pair| Some(pair) != left_out);
            draft.lines[first + at] = std::iter::once("fault".to_string())
                .chain(kept.map(|pair| pairs[pair].clone()))
                .collect();
        }
        both.every_fault(&draft);
        let netlist = netlist::parse(&draft.text()).expect("a good circuit");
        full += 1;
        telling += usize::from((2..=4).all(|fault| netlist.rows(fault) != netlist.rows(1)));
    }
    both.outcomes.assert_seen(&[(0, 2000)]);
    assert!(full > 400, "three lines of three kinds: {full}");
    assert!(telling > 10, "faults in which every line tells: {telling}");
}

#[test]
fn stuck_lines_show_in_the_outputs() {
    // Lines 1, 3 and 4 are outputs; whatever is applied, stuck lines show
    // their values there and to their readers.
    let mut both = Both::new(SEED + 7);
    let start = "circuit,2,2,4,1,1\ngate,nor,1,2\ngate,not,3,0\n\
        output,1,1\noutput,3,2\noutput,4,4\noutput,4,8\n";
    for (fault, rows) in [
        ("fault,1,1,3,1,4,0", [3, 3, 3, 3]),
        ("fault,1,0,3,0,4,1", [12, 12, 12, 12]),
        ("fault,1,0", [2, 2, 12, 12]),
        ("fault,1,1", [13, 13, 13, 13]),
        ("fault,2,0", [2, 13, 2, 13]),
        ("fault,3,1", [2, 3, 2, 3]),
        ("fault,4,0", [2, 1, 0, 1]),
        ("fault,3,0,4,0", [0, 1, 0, 1]),
        ("fault,3,1,4,1", [14, 15, 14, 15]),
        ("fault,2,1,4,1", [12, 13, 12, 13]),
    ] {
        let text = format!("{start}{fault}\n");
        let due = walsh::spectrum(&rows, 4).expect("rows in range");
        assert_eq!(library_spectrum(&text, 1, 4), due, "{fault}");
        let sound = walsh::spectrum(&[2, 13, 12, 13], 4).expect("rows in range");
        assert_eq!(library_spectrum(&text, 0, 4), sound, "{fault}");
        both.circuit(text.as_bytes(), 1, 4);
    }
    both.outcomes.assert_seen(&[(0, 10)]);
}

#[test]
fn coefficients_at_their_limit() {
    let mut both = Both::new(SEED + 8);
    // Line 9 always shows 1, line 15 the parity of all inputs.
    let outputs = |line: usize| format!("output,{line},15\n").repeat(4);
    let text = format!(
        "circuit,8,1,4,2,1\ngate,xnor,1,1\n{}fault,9,0\nfault,9,1\n",
        outputs(9)
    );
    let mut due = vec![0; 256];
    due[0] = CIRCUIT_LIMIT;
    assert_eq!(library_spectrum(&text, 0, 256), due);
    assert_eq!(library_spectrum(&text, 1, 256), [0; 256]);
    assert_eq!(library_spectrum(&text, 2, 256), due);
    for fault in 0..=2 {
        both.circuit(text.as_bytes(), fault, 256);
    }

    for (kind, sign) in [("xor", -1), ("xnor", 1)] {
        let mut text = "circuit,8,7,4,1,1\ngate,xor,1,2\n".to_string();
        for input in 3..=7 {
            text += &format!("gate,xor,{input},{}\n", input + 6);
        }
        text += &format!("gate,{kind},8,14\n{}fault,15,1\n", outputs(15));
        due.fill(0);
        (due[0], due[255]) = (CIRCUIT_LIMIT / 2, sign * CIRCUIT_LIMIT / 2);
        assert_eq!(library_spectrum(&text, 0, 256), due, "{kind}");
        for fault in 0..=1 {
            both.circuit(text.as_bytes(), fault, 256);
        }
    }
    both.outcomes.assert_seen(&[(0, 7)]);
}

// Refused texts.

#[test]
fn damaged_texts() {
    let mut both = Both::new(SEED + 20);
    let mut refused = [0; DAMAGES.len()];
    for round in 0..4000 {
        let drawn = Sizes::draw(&mut both.random);
        let sizes = match round % 8 {
            0 => Sizes::LARGEST,
            // Small ones, so that damage often hits outputs and faults.
            1..=3 => Sizes {
                inputs: 1 + both.random.below(3),
                gates: both.random.below(5),
                faults: 1 + both.random.below(5),
                ..drawn
            },
            _ => drawn,
        };
        let draft = Draft::draw(&mut both.random, sizes);
        for (damage, refused) in DAMAGES.iter().zip(&mut refused) {
            let text = (damage.apply)(&mut both.random, &draft);
            let fault = both.random.below(draft.sizes.faults + 2) as u32;
            let room = both.random.room(1 << draft.sizes.inputs);
            let (number, _) = both.circuit(&text, fault, room);
            *refused += usize::from((2..=7).contains(&number));
        }
    }
    both.outcomes.assert_seen(&[
        (0, 2000),
        (2, 20_000),
        (3, 3000),
        (4, 1500),
        (5, 500),
        (6, 1000),
        (7, 3000),
        (8, 500),
        (12, 300),
    ]);
    // The longest text has 85 lines, and 7 is given at the next.
    for place in 1..=86 {
        assert!(both.places.contains(&place), "none refused at line {place}");
    }
    for (damage, refused) in DAMAGES.iter().zip(refused) {
        assert!(refused > 500, "{}: refused {refused} times", damage.name);
    }
}

#[test]
fn every_number_in_every_place() {
    let mut both = Both::new(SEED + 21);
    let small = Sizes {
        inputs: 3,
        gates: 5,
        outputs: 2,
        faults: 4,
        cap: 2,
    };
    for _ in 0..6 {
        let draft = Draft::draw(&mut both.random, small);
        both.every_number(&draft);
    }
    both.outcomes.assert_seen(&[
        (0, 500),
        (2, 2000),
        (3, 5000),
        (4, 1000),
        (5, 1000),
        (6, 100),
        (7, 10),
    ]);
}

#[test]
fn ranges_at_their_ends() {
    let mut both = Both::new(SEED + 22);
    for (field, low, high) in [(1, 1, 8), (3, 1, 4), (4, 1, 32), (5, 1, 4), (2, 0, 48)] {
        for number in 0..=60 {
            // After a first line in range the second is missing.
            let mut sizes = ["circuit", "1", "0", "1", "1", "1"].map(String::from);
            sizes[field] = number.to_string();
            let text = sizes.join(",") + "\n";
            let in_range = (low..=high).contains(&number);
            expect(
                &mut both,
                text.as_bytes(),
                if in_range { (2, 2) } else { (3, 1) },
            );
        }
    }
    for number in (0..=60).chain([99, 100, 999, 9999]) {
        let in_range = (1..=56).contains(&number);
        let due = |good: bool, otherwise: u32| match (in_range, good) {
            (false, _) => 3,
            (true, true) => 0,
            (true, false) => otherwise,
        };
        // Line 4 of the text is the gate that drives line 6.
        let below = number < 6;
        expect_line(&mut both, 4, &format!("gate,or,{number},1"), due(below, 4));
        expect_line(&mut both, 4, &format!("gate,or,1,{number}"), due(below, 4));
        for wide in ["gate,or,1,5", "gate,or,1,5,1"] {
            expect_line(&mut both, 4, &format!("{wide},{number}"), due(below, 4));
        }
        expect_line(&mut both, 4, &format!("gate,not,{number},0"), due(below, 4));
        let not = if number == 0 { 0 } else { 3 };
        expect_line(&mut both, 4, &format!("gate,not,1,{number}"), not);
        let there = number <= 7;
        expect_line(&mut both, 6, &format!("output,{number},1"), due(there, 5));
        let weight = if (1..=15).contains(&number) { 0 } else { 3 };
        expect_line(&mut both, 6, &format!("output,7,{number}"), weight);
        // The weight alone may have a sign, but not of 0.
        let negative = if number == 0 { 2 } else { weight };
        expect_line(&mut both, 6, &format!("output,7,-{number}"), negative);
        for line in ["output,-7", "output,07", "output,7,-", "output,7,1"] {
            expect_line(&mut both, 6, &format!("{line},-{number}"), 2);
        }
        expect_line(&mut both, 6, &format!("output,-{number},1"), 2);
        expect_line(&mut both, 4, &format!("gate,or,1,-{number}"), 2);
        expect_line(&mut both, 7, &format!("fault,7,-{number}"), 2);
        expect_line(&mut both, 7, &format!("fault,{number},0"), due(there, 5));
        let value = if number <= 1 { 0 } else { 3 };
        expect_line(&mut both, 7, &format!("fault,7,{number}"), value);
        expect_line(&mut both, 7, &format!("fault,1,0,2,0,7,{number}"), value);
        // Line 3 is stuck too: before it, at it, after it.
        let last = match due(there, 5) {
            0 if number <= 3 => 6,
            other => other,
        };
        expect_line(&mut both, 7, &format!("fault,3,0,{number},1"), last);
    }
    both.outcomes
        .assert_seen(&[(0, 65), (2, 500), (3, 400), (4, 100), (5, 100), (6, 3)]);
}

#[test]
fn each_sentence_on_the_text() {
    let mut both = Both::new(SEED + 23);
    let text = LISTING.as_bytes();
    expect(&mut both, text, (0, 0));
    // A line missing, or without its end.
    expect(&mut both, b"", (2, 1));
    expect(&mut both, b"\n", (2, 1));
    expect(&mut both, b"circuit,3,4,1,2,2", (2, 1));
    expect(&mut both, b"circuit,3,4,1,2,2\n", (2, 2));
    expect(&mut both, b"circuit,3,4,1,2,2\n\n", (2, 2));
    expect(&mut both, &text[..text.len() - 1], (2, 8));
    expect(&mut both, &text[..text.len() - 10], (2, 8));
    expect(&mut both, &text[..text.len() - 11], (2, 7));
    // Bytes after the last due line.
    for more in [
        "\n",
        "x",
        ",",
        "\0",
        "\n\n\n",
        "fault,2,1",
        "fault,2,1\n",
        LISTING,
    ] {
        expect(&mut both, &[text, more.as_bytes()].concat(), (7, 9));
    }
    // One size more or less than the lines that follow.
    for (sizes, due) in [
        ("circuit,3,3,1,2,2", (2, 5)),
        ("circuit,3,5,1,2,2", (2, 6)),
        ("circuit,3,4,2,2,2", (2, 7)),
        ("circuit,3,4,1,1,2", (7, 8)),
        ("circuit,3,4,1,3,2", (2, 9)),
        // With fewer inputs each gate drives a lower line.
        ("circuit,2,4,1,2,2", (4, 5)),
        ("circuit,2,5,1,2,2", (4, 5)),
        ("circuit,1,4,1,2,2", (4, 2)),
        ("circuit,8,4,1,2,2", (0, 0)),
        ("circuit,9,4,1,2,2", (3, 1)),
    ] {
        expect(&mut both, &with_line(LISTING, 1, sizes), due);
    }
    // The line end is one byte 0A.
    let crlf = LISTING.replace('\n', "\r\n");
    expect(&mut both, crlf.as_bytes(), (2, 1));
    let cr = LISTING.replace('\n', "\r");
    expect(&mut both, cr.as_bytes(), (2, 1));
    for (place, line) in LISTING.lines().enumerate() {
        let (place, words) = (place + 1, line.split_once(',').expect("a comma"));
        // Wrong words, byte for byte.
        for word in ["", "x", "circui", "gates", "Gate", "OUTPUT", "fault "] {
            expect_line(&mut both, place, &format!("{word},{}", words.1), 2);
        }
        for word in ["circuit", "gate", "output", "fault"] {
            let number = if word == words.0 { 0 } else { 2 };
            expect_line(&mut both, place, &format!("{word},{}", words.1), number);
        }
        for bad in badly_written(line) {
            expect_line(&mut both, place, &bad, 2);
        }
    }
    // Kinds.
    for kind in ["and", "or", "nand", "nor", "xor", "xnor"] {
        expect_line(&mut both, 5, &format!("gate,{kind},5,6"), 0);
        expect_line(&mut both, 5, &format!("gate,{kind},5,0"), 3);
        expect_line(&mut both, 5, &format!("gate,{kind},5,7"), 4);
        // A field more, and another; then there are too many.
        let mut line = format!("gate,{kind},5,6");
        for (field, number) in [(4, 0), (1, 0), (2, 2), (3, 2)] {
            line += &format!(",{field}");
            expect_line(&mut both, 5, &line, number);
        }
        expect_line(&mut both, 5, &format!("gate,{kind},5,6,0"), 3);
        expect_line(&mut both, 5, &format!("gate,{kind},5,6,7"), 4);
        expect_line(&mut both, 5, &format!("gate,{kind},5,6,4,57"), 3);
        expect_line(&mut both, 5, &format!("gate,{kind},5,6,4,7"), 4);
    }
    expect_line(&mut both, 5, "gate,not,6,0", 0);
    expect_line(&mut both, 5, "gate,not,7,0", 4);
    for b in [1, 6, 7, 56, 57, 9999] {
        expect_line(&mut both, 5, &format!("gate,not,6,{b}"), 3);
        expect_line(&mut both, 5, &format!("gate,not,6,0,{b}"), 2);
        expect_line(&mut both, 5, &format!("gate,not,6,0,0,{b}"), 2);
    }
    for kind in [
        "", "an", "andd", "AND", "And", "no", "nott", "nan", "xorr", "nxor", "buf", "gate", "0",
        "not ",
    ] {
        expect_line(&mut both, 5, &format!("gate,{kind},5,6"), 2);
        expect_line(&mut both, 5, &format!("gate,{kind},5,0"), 2);
    }
    // Pairs of a fault.
    for (line, number) in [
        ("fault", 2),
        ("fault,", 2),
        ("fault,1", 2),
        ("fault,1,", 2),
        ("fault,1,0", 0),
        ("fault,1,0,", 2),
        ("fault,1,0,2", 2),
        ("fault,1,0,2,0", 0),
        ("fault,1,0,2,0,3", 2),
        ("fault,1,0,2,0,3,0", 0),
        ("fault,1,0,2,0,3,0,4", 2),
        ("fault,1,0,2,0,3,0,4,0", 2),
        ("fault,1,0,2,0,3,0,4,0,5,0", 2),
        ("fault,1,0,1,1", 6),
        ("fault,2,0,1,0", 6),
        ("fault,1,0,2,0,2,1", 6),
        ("fault,1,0,3,0,2,0", 6),
        ("fault,2,0,1,0,3,0", 6),
        ("fault,2,0,3,0,1,0", 6),
        ("fault,5,1,6,1,7,1", 0),
        ("fault,6,1,7,1,8,1", 5),
    ] {
        expect_line(&mut both, 7, line, number);
        expect_line(&mut both, 8, line, number);
    }
    both.outcomes
        .assert_seen(&[(0, 25), (2, 300), (3, 10), (4, 8), (5, 2), (6, 10), (7, 8)]);
}

/// Bad lines for each line of the listing, with what they are refused by.
fn bad_lines(place: usize) -> &'static [(&'static str, u32)] {
    match place {
        1 => &[
            ("", 2),
            ("circuit,3,4,1,2", 2),
            ("circuit,9,49,5,33,05", 2),
            ("circuit,9,4,1,2,2", 3),
            ("circuit,3,49,1,2,2", 3),
            ("circuit,3,4,1,2,5", 3),
        ],
        2..=5 => &[
            ("", 2),
            ("gate,and,1,2,3,1,2", 2),
            ("gate,not,1,0,2", 2),
            ("gate,not,7,57,0", 2),
            ("gate,buf,57,7", 2),
            ("gate,and,57,x", 2),
            ("gate,and,7,01", 2),
            ("gate,and,0,", 2),
            ("gate,and,1,2,03", 2),
            ("gate,and,1,57,7,", 2),
            ("gate,and,57,7", 3),
            ("gate,and,7,57", 3),
            ("gate,and,7,0", 3),
            ("gate,not,7,7", 3),
            ("gate,not,1,1", 3),
            ("gate,and,1,2,0", 3),
            ("gate,and,7,57,1", 3),
            ("gate,and,7,1,2,57", 3),
            ("gate,and,7,1", 4),
            ("gate,and,1,2,7", 4),
            ("gate,and,1,2,3,56", 4),
            ("gate,or,1,56", 4),
            ("gate,not,7,0", 4),
        ],
        6 => &[
            ("", 2),
            ("output,57,", 2),
            ("output,8,16,", 2),
            ("output,8,016", 2),
            ("output,57,-0", 2),
            ("output,-8,-16", 2),
            ("output,8,--16", 2),
            ("output,8,16", 3),
            ("output,8,-16", 3),
            ("output,8,0", 3),
            ("output,57,1", 3),
            ("output,57,-1", 3),
            ("output,8,1", 5),
            ("output,8,-15", 5),
            ("output,56,15", 5),
        ],
        _ => &[
            ("", 2),
            ("fault,57,2,", 2),
            ("fault,57,2,8", 2),
            ("fault,8,0,8,0,0,x", 2),
            ("fault,3,0,2,0,1,0,57,0", 2),
            ("fault,8,2", 3),
            ("fault,8,0,8,2", 3),
            ("fault,3,0,2,2", 3),
            ("fault,3,2,2,0", 3),
            ("fault,2,0,2,0,57,0", 3),
            ("fault,8,0,3,0,0,1", 3),
            ("fault,8,0", 5),
            ("fault,8,0,8,0", 5),
            ("fault,3,0,8,0,2,1", 5),
            ("fault,3,0,2,1,8,0", 5),
            ("fault,56,0,2,1", 5),
            ("fault,3,0,2,1", 6),
            ("fault,2,0,2,0", 6),
            ("fault,1,0,7,0,7,1", 6),
        ],
    }
}

#[test]
fn two_refusals_in_one_line() {
    // 2 before 3, then 4, 5, 6: the lines hold several of them at once.
    let mut both = Both::new(SEED + 24);
    for place in 1..=8 {
        for &(line, number) in bad_lines(place) {
            expect_line(&mut both, place, line, number);
        }
    }
    both.outcomes
        .assert_seen(&[(2, 40), (3, 30), (4, 12), (5, 10), (6, 6)]);
}

#[test]
fn two_refusals_in_two_lines() {
    let mut both = Both::new(SEED + 25);
    both.two_refusals(LISTING, bad_lines, expect);
    both.outcomes.assert_seen(&[
        (1, 100),
        (2, 1500),
        (3, 1000),
        (4, 500),
        (5, 50),
        (6, 50),
        (7, 4),
    ]);
}

#[test]
fn lengths_around_the_limit() {
    let mut both = Both::new(SEED + 26);
    let wrapped = [1 << 16, (1 << 16) + LISTING.len(), 1 << 17];
    let lengths = [1, 2, 16_000, 16_382, 16_383, 16_384, 16_385, 16_386, 16_640];
    let starts = [
        ("", (2, 1)),
        ("circuit,3,4,1,2,2\n", (2, 2)),
        ("circuit,3,4,1,2,2\ngate,not,2,0\ngate,", (2, 3)),
        (LISTING, (7, 9)),
        (PAIRS, (7, 8)),
    ];
    for length in lengths.into_iter().chain(wrapped) {
        for (start, refusal) in starts {
            if length <= start.len() {
                continue;
            }
            for filler in [b'\n', b',', b'0', b'1', b'x', 0, 0xff] {
                let mut text = start.as_bytes().to_vec();
                text.resize(length, filler);
                let due = match length {
                    0..=TEXT_LIMIT => refusal,
                    _ => (1, 0),
                };
                for room in [0, 8] {
                    for fault in [0, 3] {
                        let found = both.circuit(&text, fault, room);
                        assert_eq!(found, due, "{length} bytes from {}", Shown(&text));
                    }
                }
            }
        }
    }
    // Good texts one after the other, and a last line of many fields.
    for length in [TEXT_LIMIT, TEXT_LIMIT + 1] {
        let due = |refusal| match length {
            TEXT_LIMIT => refusal,
            _ => (1, 0),
        };
        let mut text = LISTING.repeat(200).into_bytes();
        text.truncate(length);
        expect(&mut both, &text, due((7, 9)));
        let mut text = LISTING.as_bytes()[..LISTING.len() - 1].to_vec();
        text.extend(b",1".repeat(length));
        text.truncate(length - 1);
        text.push(b'\n');
        expect(&mut both, &text, due((2, 8)));
    }
    both.outcomes.assert_seen(&[(1, 600), (2, 300), (7, 200)]);
}

#[test]
fn texts_of_noise() {
    let mut both = Both::new(SEED + 27);
    let words = [
        "circuit", "gate", "output", "fault", "and", "not", "xor", ",", ",", ",", "\n", "\n", "0",
        "1", "2", "3", "8", "12", "-1", " ",
    ];
    let lines = [
        "gate,not,1,0\n",
        "gate,or,1,3\n",
        "output,1,3\n",
        "output,1,16\n",
        "output,3,1\n",
        "fault,1,1\n",
        "fault,1,0,2,1\n",
        "fault,2,0,1,1\n",
    ];
    for round in 0..16_000 {
        let length = both.random.below(200);
        let makes = if round % 3 == 0 { 3 } else { 4 };
        let mut text = match round % 3 {
            0 => Vec::new(),
            1 => b"circuit,2,1,1,1,1\n".to_vec(),
            _ => b"circuit,2,0,1,1,1\n".to_vec(),
        };
        match both.random.below(makes) {
            0 => text.extend((0..length).map(|_| both.random.below(256) as u8)),
            1 => text.extend((0..length).map(|_| both.random.pick(b",\n0123456789-"))),
            2 => {
                for _ in 0..both.random.below(30) {
                    text.extend(both.random.pick(&words).as_bytes());
                }
            }
            // Whole lines, now and then those that are due.
            _ => {
                for _ in 0..2 + both.random.below(3) {
                    text.extend(both.random.pick(&lines).as_bytes());
                }
            }
        }
        let fault = both.random.below(2) as u32;
        both.circuit(&text, fault, 4);
    }
    for length in 0..300 {
        for byte in [b'\n', b',', b'0', 0, 0xff, b'c'] {
            expect(&mut both, &vec![byte; length], (2, 1));
        }
    }
    both.outcomes.assert_seen(&[
        (0, 10),
        (2, 10_000),
        (3, 50),
        (4, 50),
        (5, 50),
        (6, 10),
        (7, 20),
    ]);
    assert!(both.places.len() >= 5, "places: {:?}", both.places);
}

#[test]
fn every_prefix_of_good_texts() {
    let mut both = Both::new(SEED + 28);
    let mut texts = vec![LISTING.as_bytes().to_vec(), PAIRS.as_bytes().to_vec()];
    texts.push(Draft::draw(&mut both.random, Sizes::LARGEST).text());
    for _ in 0..10 {
        let sizes = Sizes::draw(&mut both.random);
        texts.push(Draft::draw(&mut both.random, sizes).text());
    }
    for text in &texts {
        both.every_prefix(text);
    }
    both.outcomes.assert_seen(&[(0, 13), (2, 10_000)]);
}

#[test]
fn every_byte_removed_changed_and_inserted() {
    let mut both = Both::new(SEED + 29);
    for text in [LISTING.as_bytes(), PAIRS.as_bytes()] {
        with_every_byte(text, |text| {
            both.circuit(text, 1 + (text.len() % 2) as u32, 256);
        });
    }
    both.outcomes.assert_seen(&[
        (0, 300),
        (2, 50_000),
        (3, 300),
        (4, 100),
        (5, 100),
        (6, 10),
        (7, 300),
    ]);
}

// The field call.

#[test]
fn fields_by_hand() {
    let mut both = Both::new(SEED + 40);
    for (text, spans) in [
        ("", &[(0, 0)][..]),
        (",", &[(0, 0), (1, 0)]),
        (",,", &[(0, 0), (1, 0), (2, 0)]),
        ("a", &[(0, 1)]),
        ("a,", &[(0, 1), (2, 0)]),
        (",a", &[(0, 0), (1, 1)]),
        ("gate,and,1,22", &[(0, 4), (5, 3), (9, 1), (11, 2)]),
        ("fault,2,1\nfault,3", &[(0, 5), (6, 1), (8, 7), (16, 1)]),
        ("\"a,b\"", &[(0, 2), (3, 2)]),
    ] {
        for number in 0..spans.len() + 3 {
            let (start, length) = spans.get(number).copied().unwrap_or((text.len(), 0));
            let found = field(&mut both, text.as_bytes(), number);
            assert_eq!(found, Part { start, length }, "field {number} of {text:?}");
        }
        let (start, length) = (text.len(), 0);
        for number in [255, 256, 65_536, 1 << 32, usize::MAX - 1, usize::MAX] {
            let found = field(&mut both, text.as_bytes(), number);
            assert_eq!(found, Part { start, length }, "field {number} of {text:?}");
        }
    }
}

#[test]
fn fields_of_random_texts() {
    let mut both = Both::new(SEED + 41);
    let (mut full, mut empty, mut beyond) = (0, 0, 0);
    for _ in 0..6000 {
        let length = both.random.below(60);
        let commas = 1 + both.random.below(6);
        let text: Vec<u8> = (0..length)
            .map(|_| match both.random.once_in(commas) {
                true => b',',
                false => both.random.below(256) as u8,
            })
            .collect();
        let count = 1 + text.iter().filter(|&&byte| byte == b',').count();
        let mut joined = Vec::new();
        for number in 0..count {
            let Part { start, length } = field(&mut both, &text, number);
            joined.push(&text[start..start + length]);
            full += usize::from(length > 0);
            empty += usize::from(length == 0);
        }
        assert_eq!(joined.join(&b','), text, "{}", Shown(&text));
        let far = (both.random.word() >> both.random.below(60)) as usize;
        for number in [count, count + 1, far, usize::MAX] {
            field(&mut both, &text, number);
            beyond += usize::from(number >= count);
        }
    }
    assert!(full > 10_000, "fields with bytes: {full}");
    assert!(empty > 10_000, "empty fields: {empty}");
    assert!(beyond > 20_000, "no such field: {beyond}");
}

#[test]
fn fields_of_long_texts() {
    // The field call has no limit of its own.
    let mut both = Both::new(SEED + 42);
    let commas = [b','; 70_000];
    let last = commas.len();
    for number in [0, 1, 255, 256, 16_384, 65_535, 65_536, last - 1, last] {
        let found = field(&mut both, &commas, number);
        assert_eq!((found.start, found.length), (number, 0), "field {number}");
    }
    for number in [last + 1, 2 * last, usize::MAX] {
        let found = field(&mut both, &commas, number);
        assert_eq!((found.start, found.length), (last, 0), "field {number}");
    }
    for (number, due) in [(0, (0, 70_000)), (1, (70_000, 0))] {
        let found = field(&mut both, &[b'\n'; 70_000], number);
        assert_eq!((found.start, found.length), due, "field {number}");
    }
    let text = LISTING.repeat(300);
    for _ in 0..200 {
        let number = both.random.below(8000);
        field(&mut both, text.as_bytes(), number);
    }
}
