//! Faults that bridge two inputs, in circuits and in tables: the static library's
//! calls on texts against the second implementation, with noise in and around all
//! that is lent. Then what follows from note 8 without it. The call on
//! coefficients is in walsh.rs, readings and pairs are in reading.rs.

use differential::both::{badly_written, Both};
use differential::calls::{library_circuit, library_plan, library_report, of_labels, refused};
use differential::lent::Shown;
use differential::library;
use differential::outcomes::Outcomes;
use second::bridge_texts::{
    bridge_fields, circuit_with_labels, draw_changing, draw_circuit, draw_table, every_bridge,
    table_with_labels, with_bridges, BRIDGED_TABLE, BRIDGE_DAMAGES, EXAMPLES,
    LISTING_WITH_A_BRIDGE, SILENT_BRIDGE,
};
use second::circuits::{with_line, Damage, Draft, Sizes, DAMAGES};
use second::devices;
use second::lines::TEXT_LIMIT;
use second::plan::CAP_LIMIT;
use second::random::Random;
use second::table_texts;
use second::walsh;

const SEED: u64 = 0x4252_4944_4745_5300;

/// A circuit with bridges, of any size but for its inputs.
fn circuit_of(random: &mut Random, inputs: usize) -> Draft {
    let drawn = Sizes::draw(random);
    draw_circuit(random, Sizes { inputs, ..drawn })
}

/// Circuits and tables by turns.
fn draw(random: &mut Random, round: usize, inputs: usize) -> Draft {
    match round % 2 {
        0 => circuit_of(random, inputs),
        _ => draw_table(random, inputs),
    }
}

/// The spectrum of these rows.
fn spectrum_of(rows: &[i32]) -> Vec<i32> {
    walsh::spectrum(rows, rows.len()).expect("rows in range")
}

// Without the second implementation.

#[test]
fn examples_of_the_change_request() {
    for (text, plan, report) in [
        (
            LISTING_WITH_A_BRIDGE,
            of_labels(&[3]),
            "plan,1\nlabel,3,2\nfault,1,3,0\nfault,2,3,0\n",
        ),
        (SILENT_BRIDGE, refused(13, 1), "refused,13,1\n"),
        (
            BRIDGED_TABLE,
            of_labels(&[2]),
            "plan,1\nlabel,2,6\nfault,1,2,4\nfault,2,2,2\nfault,3,2,2\n",
        ),
    ] {
        assert_eq!(library_plan(text.as_bytes()), plan, "{text}");
        assert_eq!(library_report(text.as_bytes()), report, "{text}");
    }
    let bridged = [2, -2, 0, 0, -2, 2, 0, 0];
    let text = LISTING_WITH_A_BRIDGE.as_bytes();
    assert_eq!(library_circuit(text, 2, 8), bridged);
    // Each bridge of the rows of example 6.2, at label 0 and doubled.
    for (bridge, sum) in [
        ("bridge,1,2", 20),
        ("bridge,1,3", 8),
        ("bridge,1,4", 20),
        ("bridge,2,4", 18),
        ("bridge,2,3", 14),
        ("bridge,3,4", 14),
    ] {
        let text = with_line(BRIDGED_TABLE, 5, bridge);
        assert_eq!(library_circuit(&text, 3, 16)[0], sum, "{bridge}");
        assert_eq!(library_circuit(&text, 0, 16)[0], 14, "{bridge}");
    }
}

/// Whatever is lent, the call on the sound coefficients answers and writes what
/// the circuit call does for a bridge.
#[test]
fn bridges_from_coefficients_alone() {
    let mut random = Random::new(SEED + 1);
    let mut outcomes = [Outcomes::default(), Outcomes::default()];
    for round in 0..400 {
        let inputs = 2 + round / 2 % 7;
        let text = draw(&mut random, round, inputs).text();
        let device = devices::parse(&text).expect("a good text");
        let length = 1 << inputs;
        let sound = library_circuit(&text, 0, length);
        for (fault, number) in device.faults().iter().zip(1..) {
            let Some((first, second)) = fault.bridge() else {
                continue;
            };
            let room = random.room(length);
            let noise: Vec<i32> = (0..room).map(|_| random.noise()).collect();
            let (mut by_text, mut by_list) = (noise.clone(), noise);
            let found = library::circuit(&text, number, &mut by_text);
            let again = library::bridged(&sound, first as u32, second as u32, &mut by_list);
            assert_eq!(found, again, "fault {number} of {}", Shown(&text));
            assert_eq!(by_text, by_list, "fault {number} of {}", Shown(&text));
            outcomes[round % 2].note(found.number);
        }
    }
    for outcomes in outcomes {
        outcomes.assert_seen(&[(0, 800), (8, 200)]);
    }
}

/// Two inputs are the only outputs: both show their AND.
#[test]
fn each_two_inputs_as_outputs() {
    let mut both = Both::new(SEED + 2);
    for inputs in 2..=8 {
        for second in 2..=inputs {
            for first in 1..second {
                let weights = [0; 2].map(|_| both.random.between(1, 15));
                let text = format!(
                    "circuit,{inputs},0,2,1,1\noutput,{second},{}\noutput,{first},{}\n\
                    bridge,{first},{second}\n",
                    weights[0], weights[1]
                );
                let rows: Vec<i32> = (0..1 << inputs)
                    .map(|row| (row >> (first - 1)) & (row >> (second - 1)) & 1)
                    .map(|both: i32| both * (weights[0] + weights[1]))
                    .collect();
                let found = library_circuit(text.as_bytes(), 1, rows.len());
                assert_eq!(found, spectrum_of(&rows), "{text}");
                assert_eq!(both.circuit(text.as_bytes(), 1, rows.len()), (0, 0));
            }
        }
    }
    both.outcomes.assert_seen(&[(0, 84)]);
}

/// Every gate that reads a bridged input and every output that names it.
#[test]
fn bridged_inputs_show_in_gates_and_outputs() {
    let mut both = Both::new(SEED + 3);
    // Outputs x1, x2, x1 xor x2 and x2x3, of weights 1, 2, 4 and 8.
    let start = "circuit,3,2,4,1,1\ngate,xor,1,2\ngate,and,2,3\n\
        output,1,1\noutput,2,2\noutput,4,4\noutput,5,8\n";
    let sound = [0, 5, 6, 3, 0, 5, 14, 11];
    for (fault, rows) in [
        ("bridge,1,2", [0, 0, 0, 3, 0, 0, 0, 11]),
        ("bridge,1,3", [0, 0, 6, 6, 0, 5, 6, 11]),
        ("bridge,2,3", [0, 5, 0, 5, 0, 5, 14, 11]),
        ("fault,1,0,2,0", [0; 8]),
    ] {
        let text = format!("{start}{fault}\n").into_bytes();
        assert_eq!(library_circuit(&text, 0, 8), spectrum_of(&sound), "{fault}");
        assert_eq!(library_circuit(&text, 1, 8), spectrum_of(&rows), "{fault}");
        assert_eq!(both.circuit(&text, 1, 8), (0, 0));
    }
    // Marks 0, 1, 2 for rows 0 to 7, both inputs replaced.
    let start = "table,3,1,1\n01-10-10\n";
    let sound = [0, 2, 1, 2, 0, 1, 2, 0];
    for (fault, rows) in [
        ("bridge,1,2", [0, 0, 0, 2, 0, 0, 0, 0]),
        ("bridge,1,3", [0, 0, 1, 1, 0, 1, 1, 0]),
        ("bridge,2,3", [0, 2, 0, 2, 0, 2, 2, 0]),
    ] {
        let text = format!("{start}{fault}\n").into_bytes();
        assert_eq!(library_circuit(&text, 0, 8), spectrum_of(&sound), "{fault}");
        assert_eq!(library_circuit(&text, 1, 8), spectrum_of(&rows), "{fault}");
        assert_eq!(both.circuit(&text, 1, 8), (0, 0));
    }
    both.outcomes.assert_seen(&[(0, 7)]);
}

/// A circuit of one output of weight 1 and its rows as a table.
#[test]
fn tables_of_circuits() {
    let mut both = Both::new(SEED + 4);
    for round in 0..300 {
        let inputs = 2 + round % 7;
        let drawn = table_texts::draw_circuit(&mut both.random, inputs);
        let drawn = with_bridges(&mut both.random, &drawn);
        let circuit = drawn.only_changing().unwrap_or(drawn);
        both.table_of_circuit(&circuit);
    }
    both.outcomes.assert_seen(&[(0, 400), (13, 10), (14, 0)]);
}

// Good texts.

#[test]
fn circuits_of_every_size() {
    let mut both = Both::new(SEED + 10);
    let mut changing = both.every_size(2, draw_circuit, |_, _| ());
    for _ in 0..20 {
        let draft = draw_circuit(&mut both.random, Sizes::LARGEST);
        changing += both.every_fault(&draft);
    }
    both.outcomes.assert_seen(&[(0, 5000)]);
    assert!(changing > 3000, "faults that change rows: {changing}");
}

#[test]
fn tables_of_every_size() {
    let mut both = Both::new(SEED + 11);
    let mut changing = 0;
    for inputs in 2..=8 {
        for faults in 1..=32 {
            let drawn = table_texts::draw_with(&mut both.random, inputs, faults);
            let draft = with_bridges(&mut both.random, &drawn);
            changing += both.every_fault(&draft);
        }
    }
    both.outcomes.assert_seen(&[(0, 3500)]);
    assert!(changing > 3000, "faults that change rows: {changing}");
}

/// Every bridge of texts of every number of inputs, one after the other.
#[test]
fn every_bridge_of_every_number_of_inputs() {
    let mut both = Both::new(SEED + 12);
    for round in 0..28 {
        let inputs = 2 + round / 2 % 7;
        let drawn = draw(&mut both.random, round, inputs);
        both.every_fault(&drawn.with_faults(&every_bridge(inputs), 4));
    }
    both.outcomes.assert_seen(&[(0, 28 + 4 * 84)]);
}

/// Q and the numbers of the faults count bridges.
#[test]
fn faults_that_no_text_has_and_buffers() {
    let mut both = Both::new(SEED + 13);
    for round in 0..42 {
        let inputs = 2 + round / 2 % 7;
        let draft = draw(&mut both.random, round, inputs);
        both.no_faults(&draft);
        both.buffers(&draft);
    }
    both.outcomes.assert_seen(&[(0, 600), (8, 500), (12, 2000)]);
}

// Plans.

#[test]
fn plans_of_one_to_four_labels_and_none() {
    let mut both = Both::new(SEED + 20);
    for inputs in 2..=8 {
        for labels in 1..=CAP_LIMIT + 1 {
            for cap in 1..=CAP_LIMIT {
                let random = &mut both.random;
                let table = table_with_labels(random, inputs, labels, cap);
                let circuit = circuit_with_labels(random, inputs, labels, cap);
                for draft in [table, circuit].into_iter().flatten() {
                    let text = draft.text();
                    let found = both.plan(&text);
                    match labels <= cap {
                        true => assert_eq!((found.number, found.size), (0, labels)),
                        false => assert_eq!(found, refused(14, 0)),
                    }
                    both.report(&text);
                }
            }
        }
    }
    both.outcomes.assert_seen(&[(0, 150), (14, 80)]);
    both.assert_sizes([40, 15, 15, 4]);
}

#[test]
fn plans_of_drawn_texts() {
    let mut both = Both::new(SEED + 21);
    for round in 0..600 {
        let text = draw(&mut both.random, round, 2 + round / 2 % 7).text();
        both.plan_and_report(&text);
    }
    both.outcomes.assert_seen(&[(0, 300), (13, 300), (14, 5)]);
    both.assert_sizes([100, 10, 0, 0]);
    assert!(both.silent.len() > 10, "silent: {:?}", both.silent);
}

#[test]
fn plans_without_silent_faults() {
    let mut both = Both::new(SEED + 22);
    for round in 0..800 {
        // Without a plan the second implementation tries every set.
        let text = draw_changing(&mut both.random, 2 + round % 5).text();
        both.plan_and_report(&text);
    }
    both.outcomes.assert_seen(&[(0, 1000), (14, 100)]);
    both.assert_sizes([300, 100, 40, 10]);
}

#[test]
fn caps_and_the_order_of_faults() {
    let mut both = Both::new(SEED + 23);
    for round in 0..150 {
        let draft = draw_changing(&mut both.random, 2 + round % 5);
        both.caps_and_orders(&draft);
    }
    both.outcomes.assert_seen(&[(0, 500), (14, 60)]);
    both.assert_sizes([300, 60, 15, 3]);
}

/// x1x2 or x3, and as a table: a bridge of x1 and x2 is silent, others are not.
#[test]
fn silent_bridges_at_each_place() {
    let mut both = Both::new(SEED + 24);
    let start = ["gate,and,1,2\ngate,or,3,4\noutput,5,1\n", "00011111\n"];
    for count in 1..=32 {
        for place in 1..=count {
            let mut faults: Vec<&str> = (0..count)
                .map(|_| both.random.pick(&["bridge,1,3", "bridge,2,3", "fault,3,0"]))
                .collect();
            faults[place - 1] = "bridge,1,2";
            // Others after it.
            for later in &mut faults[place..] {
                if both.random.once_in(3) {
                    *later = "bridge,1,2";
                }
            }
            let heads = [
                format!("circuit,3,2,1,{count},1"),
                format!("table,3,{count},1"),
            ];
            for (head, start) in heads.iter().zip(start) {
                let text = format!("{head}\n{start}{}\n", faults.join("\n"));
                assert_eq!(both.plan(text.as_bytes()), refused(13, place), "of {count}");
                let due = format!("refused,13,{place}\n");
                assert_eq!(both.report(text.as_bytes()), due.as_bytes());
            }
        }
    }
    both.outcomes.assert_seen(&[(13, 2000)]);
    assert!(both.silent.iter().copied().eq(1..=32), "{:?}", both.silent);
}

#[test]
fn silent_goes_before_no_set() {
    let mut both = Both::new(SEED + 25);
    for (inputs, labels) in [(6, 3), (8, 2)] {
        // Two inputs at least are in no block.
        let table = table_with_labels(&mut both.random, inputs, labels, labels - 1);
        let circuit = circuit_with_labels(&mut both.random, inputs, labels, labels - 1);
        for draft in [table, circuit].map(|draft| draft.expect("inputs enough")) {
            assert_eq!(both.plan(&draft.text()), refused(14, 0));
            let named = |input: &usize| {
                let input = input.to_string();
                draft
                    .faults()
                    .iter()
                    .any(|fault| fault[1..].contains(&input))
            };
            let unused: Vec<usize> = (1..=inputs).filter(|input| !named(input)).collect();
            let silent = bridge_fields(unused[0], unused[1]);
            for place in 0..=draft.sizes.faults {
                let mut faults = draft.faults().to_vec();
                faults.insert(place, silent.clone());
                let text = draft.with_faults(&faults, labels - 1).text();
                assert_eq!(both.plan(&text), refused(13, place + 1));
            }
        }
    }
    both.outcomes.assert_seen(&[(13, 30), (14, 4)]);
}

#[test]
fn buffers_of_the_plan_and_the_report() {
    let mut both = Both::new(SEED + 26);
    let random = &mut both.random;
    let beyond = table_with_labels(random, 7, 4, 3).expect("inputs enough");
    let within = circuit_with_labels(random, 7, 4, 4).expect("inputs enough");
    let mut texts = vec![(beyond.text(), 14), (within.text(), 0)];
    for (text, number) in EXAMPLES.into_iter().zip([0, 13, 0]) {
        texts.push((text.as_bytes().to_vec(), number));
    }
    texts.push((with_line(LISTING_WITH_A_BRIDGE, 8, "bridge,1,4"), 19));
    texts.push((with_line(BRIDGED_TABLE, 3, "bridge,2,2"), 19));
    for (text, number) in &texts {
        both.working_buffers(text, *number);
        both.report_buffers(text, *number);
    }
    both.outcomes
        .assert_seen(&[(0, 48), (8, 200), (13, 15), (14, 15), (19, 30)]);
}

// Refused texts.

/// What a line of a bridge is refused by in a text of so many inputs.
fn due_of_bridge(inputs: usize, first: usize, second: usize) -> u32 {
    let in_range = |input: &usize| (1..=56).contains(input);
    match ([first, second].iter().all(in_range), first < second) {
        (false, _) => 3,
        (true, true) if second <= inputs => 0,
        _ => 19,
    }
}

#[test]
fn every_two_numbers_of_a_bridge() {
    let mut both = Both::new(SEED + 30);
    let numbers: Vec<usize> = (0..=10)
        .chain([15, 16, 17, 48, 49, 54, 55, 56, 57, 58, 99, 256, 257, 9999])
        .collect();
    for inputs in 1..=8 {
        // Lines up to 56 are those of gates.
        let gates = "gate,or,1,1\n".repeat(48);
        let circuit = format!("circuit,{inputs},48,1,2,1\n{gates}output,1,1\nfault,1,0\n");
        let marks = "0".repeat(1 << inputs);
        let table = format!("table,{inputs},2,1\n{marks}\nfault,1,0\n");
        for (start, place) in [(circuit, 52), (table, 4)] {
            for &first in &numbers {
                for &second in &numbers {
                    let text = format!("{start}bridge,{first},{second}\n");
                    let number = due_of_bridge(inputs, first, second);
                    let due = (number, if number == 0 { 0 } else { place });
                    let found = both.circuit(text.as_bytes(), 2, 256);
                    assert_eq!(found, due, "{first} and {second} of {inputs}");
                }
            }
        }
    }
    both.outcomes
        .assert_seen(&[(0, 168), (3, 4000), (19, 5000)]);
}

#[test]
fn each_sentence_on_the_line() {
    let mut both = Both::new(SEED + 31);
    // The listing has three inputs and four gates, the table four inputs.
    let texts = [(LISTING_WITH_A_BRIDGE, 7, 3), (BRIDGED_TABLE, 3, 4)];
    for (text, first_fault, inputs) in texts {
        for place in first_fault..=text.lines().count() {
            let mut line = |line: &str, number| both.expect_line(text, place, line, number);
            for (bad, number) in [
                ("bridge,1,2", 0),
                ("bridge,2,3", 0),
                ("bridge,57,1", 3),
                ("bridge,1,57", 3),
                ("bridge,0,1", 3),
                ("bridge,0,0", 3),
                ("bridge,1,0", 3),
                ("bridge,2,2", 19),
                ("bridge,3,2", 19),
                ("bridge,2,5", 19),
                ("bridge,5,6", 19),
                ("bridge,5,2", 19),
                ("bridge,1,56", 19),
                ("bridge,56,1", 19),
                ("bridge,56,56", 19),
            ] {
                line(bad, number);
            }
            let four = if inputs == 3 { 19 } else { 0 };
            line("bridge,1,4", four);
            line("bridge,3,4", four);
            line("bridge,4,3", 19);
            // Three fields.
            for bad in [
                "bridge",
                "bridge,",
                "bridge,,",
                "bridge,1",
                "bridge,1,",
                "bridge,,2",
                "bridge,1,2,",
                "bridge,1,2,3",
                "bridge,1,2,3,4",
                "bridge,1,0,2,1",
                "bridge,2,1,",
                "bridge,5,5,5",
                "bridge,57,1,1",
            ] {
                line(bad, 2);
            }
            for bad in badly_written("bridge,1,2") {
                line(&bad, 2);
            }
            // Either word byte for byte, and the fields of the other kind.
            for word in [
                "",
                "x",
                "b",
                "bridg",
                "bridges",
                "Bridge",
                "BRIDGE",
                "bridge ",
                " bridge",
                "bridge\0",
                "bridge\r",
                "faultbridge",
                "gate",
                "output",
                "circuit",
                "table",
                "stuck",
                "short",
            ] {
                line(&format!("{word},1,2"), 2);
                line(&format!("{word},1,1"), 2);
            }
            for (bad, number) in [
                ("fault,1,2", 3),
                ("fault,1,1", 0),
                ("fault,2,1", 0),
                ("bridge,1,1", 19),
                ("bridge,2,1", 19),
                ("bridge,1,0,2,0", 2),
                ("fault,1,2,3", 2),
                // A stuck line is refused as before, never by 19.
                ("fault,8,0", 5),
                ("fault,9,1,2,0", 5),
                ("fault,2,0,1,0", 6),
                ("fault,2,0,2,0", 6),
            ] {
                line(bad, number);
            }
            // A gate's line may be stuck where there are gates.
            line("fault,7,0", if inputs == 3 { 0 } else { 5 });
        }
    }
    // In the place of another line it is a wrong word.
    for (text, places) in [(LISTING_WITH_A_BRIDGE, 1..=6), (BRIDGED_TABLE, 1..=2)] {
        for place in places {
            both.expect_line(text, place, "bridge,1,2", 2);
        }
    }
    // One fault too few, one too many.
    both.expect(
        &with_line(LISTING_WITH_A_BRIDGE, 1, "circuit,3,4,1,3,2"),
        (2, 9),
    );
    both.expect(
        &with_line(LISTING_WITH_A_BRIDGE, 1, "circuit,3,4,1,1,2"),
        (7, 8),
    );
    both.expect(&with_line(BRIDGED_TABLE, 1, "table,4,2,2"), (7, 5));
    both.expect(&with_line(BRIDGED_TABLE, 1, "table,4,4,2"), (2, 6));
    // With fewer inputs line 2 of the circuit drives line 3.
    both.expect(
        b"circuit,2,1,1,1,1\ngate,or,1,2\noutput,3,1\nbridge,2,3\n",
        (19, 4),
    );
    both.expect(
        b"circuit,3,1,1,1,1\ngate,or,1,2\noutput,4,1\nbridge,2,3\n",
        (0, 0),
    );
    both.outcomes.assert_seen(&[
        (0, 40),
        (2, 400),
        (3, 30),
        (5, 15),
        (6, 15),
        (7, 4),
        (19, 100),
    ]);
}

/// Bad lines of bridges, with what they are refused by in a text of three or
/// four inputs; several of 2, 3 and 19 at once.
const BAD_BRIDGES: [(&str, u32); 16] = [
    ("bridge,1", 2),
    ("bridge,3,2,", 2),
    ("bridge,57,x", 2),
    ("bridge,x,9", 2),
    ("bridge,9,09", 2),
    ("bridge,2,2,2", 2),
    ("bridge,57,2", 3),
    ("bridge,2,57", 3),
    ("bridge,9,0", 3),
    ("bridge,0,9", 3),
    ("bridge,57,57", 3),
    ("bridge,3,2", 19),
    ("bridge,2,2", 19),
    ("bridge,2,9", 19),
    ("bridge,9,2", 19),
    ("bridge,56,9", 19),
];

/// The others of the listing, and of its table; lines of faults last.
const BAD_FAULTS: [(&str, u32); 8] = [
    ("", 2),
    ("bridges,1,2", 2),
    ("fault,9,2,", 2),
    ("fault,9,2", 3),
    ("fault,9,0", 5),
    ("fault,3,0,9,0,2,1", 5),
    ("fault,3,0,2,1", 6),
    ("fault,2,0,2,0", 6),
];

static BAD_FAULT_LINES: [(&str, u32); 24] = {
    let mut lines = [("", 0); 24];
    let mut at = 0;
    while at < 24 {
        lines[at] = match at {
            0..16 => BAD_BRIDGES[at],
            _ => BAD_FAULTS[at - 16],
        };
        at += 1;
    }
    lines
};

fn bad_lines_of_the_circuit(place: usize) -> &'static [(&'static str, u32)] {
    match place {
        1 => &[("circuit,3,4,1,2", 2), ("circuit,9,4,1,2,2", 3)],
        2..=5 => &[("bridge,1,2", 2), ("gate,and,57,7", 3), ("gate,and,7,1", 4)],
        6 => &[("bridge,2,2", 2), ("output,8,16", 3), ("output,8,1", 5)],
        _ => &BAD_FAULT_LINES,
    }
}

fn bad_lines_of_the_table(place: usize) -> &'static [(&'static str, u32)] {
    match place {
        1 => &[("table,4,3", 2), ("table,9,3,2", 3)],
        2 => &[("bridge,1,2", 2), ("100111100100100x", 15)],
        _ => &BAD_FAULT_LINES,
    }
}

#[test]
fn two_refusals_in_one_line() {
    // 2 before 3, then 19.
    let mut both = Both::new(SEED + 32);
    for (text, places) in [(LISTING_WITH_A_BRIDGE, 7..=8), (BRIDGED_TABLE, 3..=5)] {
        for place in places {
            for (line, number) in BAD_FAULT_LINES {
                both.expect_line(text, place, line, number);
            }
        }
    }
    both.outcomes
        .assert_seen(&[(2, 90), (3, 60), (5, 20), (6, 20), (19, 50)]);
}

#[test]
fn two_refusals_in_two_lines() {
    let mut both = Both::new(SEED + 33);
    both.two_refusals(
        LISTING_WITH_A_BRIDGE,
        bad_lines_of_the_circuit,
        Both::expect,
    );
    both.two_refusals(BRIDGED_TABLE, bad_lines_of_the_table, Both::expect);
    both.outcomes.assert_seen(&[
        (1, 300),
        (2, 4000),
        (3, 3000),
        (4, 1000),
        (5, 1000),
        (6, 500),
        (7, 8),
        (15, 300),
        (19, 2000),
    ]);
}

/// With 19 nothing is written but the report's refusal line.
#[test]
fn a_refused_bridge_leaves_what_is_lent() {
    let mut both = Both::new(SEED + 34);
    for round in 0..160 {
        let inputs = 1 + round / 2 % 8;
        let draft = draw(&mut both.random, round, inputs);
        let mut faults = draft.faults().to_vec();
        let at = both.random.below(faults.len());
        let above = inputs + 1 + both.random.below(3);
        let bad = [[inputs, inputs], [1, above], [above, above + 1], [above, 1]];
        faults[at] = both.random.pick(&bad).map(|n| n.to_string()).to_vec();
        faults[at].insert(0, "bridge".into());
        let text = draft.with_faults(&faults, 1).text();
        let place = draft.lines.len() - faults.len() + at + 1;
        both.refused_with_all_kept(&text, faults.len() as u32 + 1, (19, place));
        both.expect(&text, (19, place));
    }
    both.outcomes.assert_seen(&[(19, 1500)]);
}

#[test]
fn lengths_around_the_limit() {
    let mut both = Both::new(SEED + 35);
    let starts = [
        (LISTING_WITH_A_BRIDGE, (7, 9)),
        (BRIDGED_TABLE, (7, 6)),
        ("circuit,2,0,1,2,1\noutput,1,1\nbridge,1,2\nbridge,", (2, 4)),
        ("circuit,2,0,1,2,1\noutput,1,1\nbridge,2,1\n", (19, 3)),
        ("table,1,2,1\n01\nbridge,1,2\n", (19, 3)),
    ];
    for length in [16_000, 16_384, 16_385, 1 << 16] {
        for (start, refusal) in starts {
            for filler in [b'\n', b',', b'1', b'x', 0xff] {
                let mut text = start.as_bytes().to_vec();
                text.resize(length, filler);
                let due = match length {
                    0..=TEXT_LIMIT => refusal,
                    _ => (1, 0),
                };
                both.expect(&text, due);
            }
        }
    }
    both.outcomes
        .assert_seen(&[(1, 100), (2, 20), (7, 50), (19, 50)]);
}

/// The word of the line that a text was refused at.
fn word_at(text: &[u8], place: usize) -> &[u8] {
    let line = text.split(|&byte| byte == b'\n').nth(place - 1);
    let word = line.and_then(|line| line.split(|&byte| byte == b',').next());
    word.unwrap_or_default()
}

/// Bridges never give 5 or 6, and nothing else gives 19.
#[test]
fn damaged_texts() {
    let mut both = Both::new(SEED + 36);
    let damages: Vec<&Damage> = BRIDGE_DAMAGES.iter().chain(&DAMAGES).collect();
    let mut damaged = vec![0; damages.len()];
    for round in 0..500 {
        let inputs = 1 + round / 2 % 8;
        let drawn = draw(&mut both.random, round, inputs);
        // Few faults, so that damage often hits the last.
        let faults = drawn.faults();
        let few = 1 + both.random.below(faults.len().min(6));
        let draft = match round % 4 {
            0 | 1 => drawn.with_faults(&faults[..few], drawn.sizes.cap),
            _ => drawn,
        };
        for (damage, refused) in damages.iter().zip(&mut damaged) {
            let text = (damage.apply)(&mut both.random, &draft);
            let fault = both.random.below(draft.sizes.faults + 2) as u32;
            let room = both.random.room(1 << inputs);
            let (number, place) = both.every_call(&text, fault, room);
            let word = match place {
                0 => b"",
                _ => word_at(&text, place),
            };
            match number {
                19 => assert_eq!(word, b"bridge", "{}", Shown(&text)),
                5 => assert!([&b"fault"[..], b"output"].contains(&word)),
                6 => assert_eq!(word, b"fault", "{}", Shown(&text)),
                _ => {}
            }
            *refused += usize::from(matches!(number, 2..=7 | 15 | 19));
        }
    }
    both.outcomes.assert_seen(&[
        (0, 600),
        (2, 10_000),
        (3, 1500),
        (4, 300),
        (5, 100),
        (6, 50),
        (7, 1000),
        (8, 50),
        (12, 30),
        (13, 300),
        (14, 1),
        (15, 100),
        (19, 3000),
    ]);
    for (damage, refused) in damages.iter().zip(damaged) {
        assert!(refused > 60, "{}: refused {refused} times", damage.name);
    }
}

#[test]
fn every_number_in_every_place() {
    let mut both = Both::new(SEED + 37);
    for round in 0..8 {
        let drawn = draw(&mut both.random, round, 2 + round / 2);
        let faults = &drawn.faults()[..drawn.sizes.faults.min(4)];
        let mut draft = drawn.with_faults(faults, 1);
        if round % 2 == 0 {
            // Without most of its gates.
            let sizes = Sizes {
                gates: 4,
                faults: 4,
                ..draft.sizes
            };
            draft = draw_circuit(&mut both.random, sizes);
        }
        both.every_number(&draft);
    }
    both.outcomes.assert_seen(&[
        (0, 200),
        (2, 1000),
        (3, 2000),
        (4, 200),
        (5, 300),
        (6, 5),
        (7, 8),
        (19, 300),
    ]);
}

#[test]
fn every_prefix_and_every_byte() {
    let mut both = Both::new(SEED + 38);
    for text in [LISTING_WITH_A_BRIDGE, SILENT_BRIDGE, BRIDGED_TABLE] {
        both.every_prefix(text.as_bytes());
    }
    for round in 0..8 {
        let text = draw(&mut both.random, round, 2 + round % 7).text();
        both.every_prefix(&text);
    }
    for text in [LISTING_WITH_A_BRIDGE, BRIDGED_TABLE] {
        both.every_byte(text.as_bytes());
    }
    both.outcomes.assert_seen(&[
        (0, 200),
        (2, 50_000),
        (3, 200),
        (4, 50),
        (5, 5),
        (7, 300),
        (15, 3000),
        (19, 100),
    ]);
}

#[test]
fn texts_of_noise() {
    let mut both = Both::new(SEED + 39);
    let lines = [
        "bridge,1,2\n",
        "bridge,1,2\n",
        "bridge,2,1\n",
        "bridge,1,3\n",
        "bridge,0,1\n",
        "bridge,1,2,3\n",
        "bridge,1\n",
        "fault,1,1\n",
        "fault,1,0,2,1\n",
        "fault,2,0,1,1\n",
        "fault,3,0\n",
        "\n",
    ];
    for round in 0..6000 {
        let mut text = match round % 2 {
            0 => b"circuit,2,0,2,2,1\noutput,1,1\noutput,2,1\n".to_vec(),
            _ => b"table,2,2,2\n-01-\n".to_vec(),
        };
        for _ in 0..1 + both.random.below(3) {
            text.extend(both.random.pick(&lines).as_bytes());
        }
        if both.random.once_in(4) {
            let at = both.random.below(text.len());
            text[at] = both.random.pick(b",\n0123x");
        }
        let fault = both.random.below(3) as u32;
        both.every_call(&text, fault, 4);
    }
    both.outcomes.assert_seen(&[
        (0, 300),
        (2, 5000),
        (3, 500),
        (5, 400),
        (6, 400),
        (7, 300),
        (14, 10),
        (15, 50),
        (19, 1000),
    ]);
}
