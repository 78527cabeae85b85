//! Gates of three and four inputs: the static library's calls on texts against the
//! second implementation, with noise in and around all that is lent. First what
//! follows from note 2 without it. The program and the stack have their own files,
//! and so have readings of every kind and the plans of small circuits.

use differential::both::Both;
use differential::calls::{
    self, library_circuit, library_circuit_rows, library_plan, library_report, of_labels, refused,
};
use differential::lent::Shown;
use differential::library;
use differential::outcomes::written;
use second::bridge_texts::with_bridges;
use second::circuits::{with_line, Damage, Draft, Sizes, Sketch, DAMAGES, LISTING};
use second::lines::Fault;
use second::netlist::{self, Netlist, WIDTH_LIMIT};
use second::random::Random;
use second::wide_texts::{
    draw, draw_changing, largest, one_gate, opened, rows_of_gate, split, with_repeats,
    AND_OF_THREE, EXAMPLES, GATE_DAMAGES, PARITY_OF_FOUR, TRUTH_VALUES,
};

const SEED: u64 = 0x5749_4445_0000_0000;

/// Gates of every width but one, and a line that a gate reads twice.
const MIXED: &str = "circuit,3,5,2,3,2\n\
    gate,nand,1,2,3\n\
    gate,xnor,1,4\n\
    gate,not,5,0\n\
    gate,or,4,2,6,2\n\
    gate,xor,7,3,1\n\
    output,8,2\n\
    output,7,1\n\
    fault,4,1\n\
    fault,2,0,7,1\n\
    bridge,1,3\n";

/// A circuit of any size but for its inputs.
fn draw_of(random: &mut Random, inputs: usize) -> Draft {
    let drawn = Sizes::draw(random);
    draw(random, Sizes { inputs, ..drawn })
}

/// The same with bridges every other time.
fn draw_mixed(random: &mut Random, round: usize, inputs: usize) -> Draft {
    let draft = draw_of(random, inputs);
    match round % 2 {
        0 => draft,
        _ => with_bridges(random, &draft),
    }
}

fn read(draft: &Draft) -> Netlist {
    netlist::parse(&draft.text()).expect("a good circuit")
}

/// The library's coefficients, sound and under each fault.
fn library_spectra(draft: &Draft) -> Vec<Vec<i32>> {
    let (text, length) = (draft.text(), 1 << draft.sizes.inputs);
    (0..=draft.sizes.faults as u32)
        .map(|fault| library_circuit(&text, fault, length))
        .collect()
}

/// How many faults stick a line of a gate that reads so many.
fn stuck_widths(netlist: &Netlist) -> [usize; WIDTH_LIMIT + 1] {
    let mut widths = [0; WIDTH_LIMIT + 1];
    for stuck in netlist.faults.iter().flat_map(Fault::stuck) {
        if let Some(gate) = stuck.line.checked_sub(netlist.inputs + 1) {
            widths[netlist.gates[gate].read] += 1;
        }
    }
    widths
}

// Without the second implementation.

#[test]
fn examples_of_the_change_request() {
    let text = AND_OF_THREE.as_bytes();
    assert_eq!(library_plan(text), of_labels(&[0]));
    let due = "plan,1\nlabel,0,1\nfault,1,0,0\nfault,2,0,8\n";
    assert_eq!(library_report(text), due);
    assert_eq!(library_circuit(text, 0, 8), [1, -1, -1, 1, -1, 1, 1, -1]);
    assert_eq!(library_circuit(text, 1, 8), [0; 8]);
    assert_eq!(library_circuit(text, 2, 8), [8, 0, 0, 0, 0, 0, 0, 0]);

    let mut due = [0; 16];
    (due[0], due[15]) = (8, -8);
    let text = PARITY_OF_FOUR.as_bytes();
    assert_eq!(library_circuit(text, 0, 16), due);
    assert_eq!(library_plan(text), of_labels(&[15]));
}

#[test]
fn all_170_truth_values() {
    let mut values = 0;
    for (kind, tables) in TRUTH_VALUES {
        for (width, table) in (2..=WIDTH_LIMIT).zip(tables) {
            let mut lines: Vec<usize> = (1..=width).collect();
            let (length, due) = (1 << width, rows_of_gate(width, table));
            values += length;
            // No kind tells its lines apart.
            for _ in 0..width {
                lines.rotate_left(1);
                let text = one_gate(width, kind, &lines);
                assert_eq!(
                    library_circuit_rows(&text, 0, length),
                    due,
                    "{kind} of {lines:?}"
                );
                assert_eq!(library_circuit_rows(&text, 1, length), vec![1; length]);
            }
        }
    }
    let not = one_gate(1, "not", &[1, 0]);
    assert_eq!(library_circuit_rows(&not, 0, 2), [1, 0]);
    assert_eq!(values + 2, 170);
}

/// What a gate shows that reads these inputs, on each row of so many.
fn rows_over(inputs: usize, table: u32, lines: &[usize]) -> Vec<i32> {
    let shown = |row: usize| {
        let bits = lines.iter().rev();
        bits.fold(0, |bits, line| 2 * bits + (row >> (line - 1) & 1))
    };
    (0..1 << inputs)
        .map(|row| (table >> shown(row) & 1) as i32)
        .collect()
}

/// Every choice of lines, any of them several times.
#[test]
fn a_line_may_be_read_more_than_once() {
    let mut choices = 0;
    for (kind, tables) in TRUTH_VALUES {
        for (width, table) in (2..=WIDTH_LIMIT).zip(tables) {
            for choice in 0..3_usize.pow(width as u32) {
                let lines: Vec<usize> = (0..width as u32)
                    .map(|at| 1 + choice / 3_usize.pow(at) % 3)
                    .collect();
                let due = rows_over(3, table, &lines);
                let found = library_circuit_rows(&one_gate(3, kind, &lines), 0, 8);
                assert_eq!(found, due, "{kind} of {lines:?}");
                choices += 1;
            }
        }
    }
    assert_eq!(choices, 6 * (9 + 27 + 81));
}

/// Inputs of the largest circuits, and the gate at each line there can be.
#[test]
fn gates_at_every_line() {
    let mut random = Random::new(SEED + 1);
    for gates in 1..=48 {
        for (kind, tables) in TRUTH_VALUES {
            let width = random.pick(&[2, 3, 4]);
            let lines: Vec<usize> = (0..width).map(|_| 1 + random.below(8)).collect();
            let mut sketch = Sketch::new(8);
            let last = (1..gates).fold(8, |before, _| sketch.gate("and", before, before));
            // The last line before the gate shows input 8 all the same.
            let read: Vec<usize> = lines
                .iter()
                .map(|&line| if line == 8 { last } else { line })
                .collect();
            let own = sketch.wide_gate(kind, &read);
            sketch.output(own, 1);
            sketch.fault(&[(own, 0)]);
            let text = sketch.draft(1).text();
            let due = rows_over(8, tables[width - 2], &lines);
            assert_eq!(
                library_circuit_rows(&text, 0, 256),
                due,
                "{kind} of {read:?}"
            );
            assert_eq!(library_circuit_rows(&text, 1, 256), [0; 256], "stuck at 0");
        }
    }
}

/// Wide gates and chains of gates of two inputs, with the faults renumbered.
#[test]
fn split_circuits_have_equal_spectra_and_plans() {
    let mut random = Random::new(SEED + 2);
    let (mut moved, mut faults, mut widths) = (0, 0, [0; WIDTH_LIMIT + 1]);
    let mut plans = [0; 15];
    for round in 0..700 {
        let drawn = Sizes::draw(&mut random);
        let sizes = Sizes {
            inputs: 1 + round % 8,
            gates: drawn.gates / 2,
            ..drawn
        };
        let drawn = draw(&mut random, sizes);
        let bridged = with_bridges(&mut random, &drawn);
        let wide = if round % 2 == 0 { drawn } else { bridged };
        let Some(narrow) = split(&wide) else {
            continue;
        };
        assert!(narrow.gates().iter().all(|gate| gate.len() == 4));
        assert_eq!(library_spectra(&wide), library_spectra(&narrow), "{wide:?}");
        let found = library_plan(&wide.text());
        assert_eq!(found, library_plan(&narrow.text()), "{wide:?}");
        plans[found.number as usize] += 1;
        moved += usize::from(narrow.sizes.gates > wide.sizes.gates);
        faults += wide.sizes.faults;
        let stuck = stuck_widths(&read(&wide));
        (1..=WIDTH_LIMIT).for_each(|width| widths[width] += stuck[width]);
    }
    assert!(moved > 400 && faults > 6000, "{moved} circuits, {faults}");
    assert!(widths[1..].iter().all(|&count| count > 300), "{widths:?}");
    assert!(plans[0] > 50 && plans[13] > 200, "{plans:?}");
}

/// Lines that change nothing, in most gates of two inputs.
#[test]
fn repeated_lines_change_no_answer() {
    let mut random = Random::new(SEED + 3);
    let mut plans = [0; 15];
    for round in 0..400 {
        let inputs = 1 + round % 8;
        let narrow = match round % 2 {
            0 => {
                let drawn = Sizes::draw(&mut random);
                Draft::draw(&mut random, Sizes { inputs, ..drawn })
            }
            _ => Sketch::draw(&mut random, inputs).draft(1 + round / 2 % 4),
        };
        let narrow = narrow.only_changing().unwrap_or(narrow);
        let wide = with_repeats(&mut random, &narrow);
        assert_eq!(library_spectra(&wide), library_spectra(&narrow), "{wide:?}");
        let [found, due] = [&wide, &narrow].map(|draft| library_report(&draft.text()));
        assert_eq!(found, due, "{wide:?}");
        plans[calls::reported_number(found.as_bytes()) as usize] += 1;
    }
    assert!(plans[0] > 200 && plans[14] > 20, "{plans:?}");
}

/// Each fault by the call on the coefficients of the circuit with the fault's
/// lines opened, which is a circuit of more inputs.
#[test]
fn opened_lines_of_wide_gates() {
    let mut random = Random::new(SEED + 4);
    let (mut counts, mut widths) = ([0; 4], [0; WIDTH_LIMIT + 1]);
    for round in 0..300 {
        let inputs = 1 + round % 7;
        let drawn = draw_of(&mut random, inputs);
        let netlist = read(&drawn);
        let (text, length) = (drawn.text(), 1 << inputs);
        for (fault, number) in netlist.faults.iter().map(Fault::stuck).zip(1..) {
            let lines: Vec<usize> = fault.iter().map(|stuck| stuck.line).collect();
            let values: Vec<u32> = fault.iter().map(|stuck| stuck.value.into()).collect();
            let Some(open) = opened(&drawn, &lines) else {
                continue;
            };
            let spectrum = library_circuit(&open.text(), 0, length << lines.len());
            let case = format_args!("fault {number} of {}", Shown(&text));
            let found = written(case, length, |out| library::opened(&spectrum, &values, out));
            assert_eq!(found, library_circuit(&text, number, length), "{case}");
            counts[lines.len()] += 1;
        }
        let stuck = stuck_widths(&netlist);
        (1..=WIDTH_LIMIT).for_each(|width| widths[width] += stuck[width]);
    }
    assert!(counts[1..].iter().all(|&count| count > 200), "{counts:?}");
    assert!(widths[1..].iter().all(|&count| count > 200), "{widths:?}");
}

/// Stuck and bridged inputs by the calls on the sound coefficients.
#[test]
fn faults_of_inputs_from_coefficients_alone() {
    let mut random = Random::new(SEED + 5);
    let (mut stuck_inputs, mut bridges, mut changing) = (0, 0, 0);
    for round in 0..300 {
        let inputs = 2 + round % 7;
        let drawn = draw_of(&mut random, inputs);
        let draft = with_bridges(&mut random, &drawn);
        let spectra = library_spectra(&draft);
        let (sound, length) = (&spectra[0], 1 << inputs);
        for (fault, under) in read(&draft).faults.iter().zip(&spectra[1..]) {
            let stuck = fault.stuck();
            let found = match fault.bridge() {
                Some((first, second)) => {
                    bridges += 1;
                    let [first, second] = [first, second].map(|input| input as u32);
                    written("a bridge", length, |out| {
                        library::bridged(sound, first, second, out)
                    })
                }
                None if stuck.iter().all(|stuck| stuck.line <= inputs) => {
                    stuck_inputs += 1;
                    let lines: Vec<u32> = stuck.iter().map(|stuck| stuck.line as u32).collect();
                    let values: Vec<u32> = stuck.iter().map(|stuck| stuck.value.into()).collect();
                    written("stuck inputs", length, |out| {
                        library::stuck(sound, &lines, &values, out)
                    })
                }
                None => continue,
            };
            assert_eq!(&found, under, "{fault:?} of {draft:?}");
            changing += usize::from(under != sound);
        }
    }
    assert!(
        stuck_inputs > 200 && bridges > 1000,
        "{stuck_inputs}, {bridges}"
    );
    assert!(changing > 500, "faults that change rows: {changing}");
}

// Good circuits.

/// Bridges in every other count of gates.
fn draw_half_bridged(random: &mut Random, sizes: Sizes) -> Draft {
    let draft = draw(random, sizes);
    match sizes.gates % 2 {
        0 => draft,
        _ => with_bridges(random, &draft),
    }
}

#[test]
fn circuits_of_every_size() {
    let mut both = Both::new(SEED + 10);
    let mut widths = [0; WIDTH_LIMIT + 1];
    let changing = both.every_size(1, draw_half_bridged, |_, draft| {
        let stuck = stuck_widths(&read(draft));
        (1..=WIDTH_LIMIT).for_each(|width| widths[width] += stuck[width]);
    });
    both.outcomes.assert_seen(&[(0, 6000)]);
    assert!(changing > 2000, "faults that change rows: {changing}");
    assert!(widths[1..].iter().all(|&count| count > 500), "{widths:?}");
}

/// 1,792 bytes: no circuit without a sign has more.
#[test]
fn the_longest_texts() {
    Both::new(SEED + 11).longest_texts(largest, 1_792);
}

#[test]
fn faults_that_no_text_has_and_buffers() {
    let mut both = Both::new(SEED + 12);
    for round in 0..40 {
        let draft = draw_mixed(&mut both.random, round, 1 + round % 8);
        both.no_faults(&draft);
        both.buffers(&draft);
    }
    both.outcomes.assert_seen(&[(0, 600), (8, 480), (12, 1900)]);
}

#[test]
fn plans_of_drawn_circuits() {
    let mut both = Both::new(SEED + 13);
    for round in 0..400 {
        let text = draw_mixed(&mut both.random, round, 1 + round % 8).text();
        both.plan_and_report(&text);
    }
    both.outcomes.assert_seen(&[(0, 80), (13, 400), (14, 0)]);
    assert!(both.silent.len() > 8, "silent: {:?}", both.silent);
}

#[test]
fn plans_without_silent_faults() {
    Both::new(SEED + 14).plans_without_silent_faults(draw_changing);
}

#[test]
fn buffers_of_the_plan_and_the_report() {
    let mut both = Both::new(SEED + 15);
    let mut texts: Vec<(Vec<u8>, u32)> = EXAMPLES.map(|text| (text.as_bytes().to_vec(), 0)).into();
    for (line, number) in [
        ("gate,nand,1,2,3,1,2", 2),
        ("gate,not,1,0,0", 2),
        ("gate,nand,1,2,0", 3),
        ("gate,nand,1,2,3,4", 4),
    ] {
        texts.push((with_line(MIXED, 2, line), number));
    }
    let silent = "circuit,3,1,1,1,1\ngate,xor,1,2,3,3\noutput,4,1\nfault,3,1\n";
    texts.push((silent.as_bytes().to_vec(), 13));
    for (text, number) in &texts {
        both.working_buffers(text, *number);
        both.report_buffers(text, *number);
    }
    both.outcomes
        .assert_seen(&[(0, 32), (2, 32), (3, 16), (4, 16), (8, 200), (13, 16)]);
}

#[test]
fn readings_and_pairs() {
    let mut both = Both::new(SEED + 16);
    let (mut sound, mut changed) = ([0; 4], 0);
    for round in 0..400 {
        let inputs = 1 + round % 8;
        let draft = draw_mixed(&mut both.random, round / 8, inputs);
        let text = draft.text();
        let mask = both.random.below(1 << inputs) as u32 * u32::from(round % 3 > 0);
        let values = both.random.noise() as u32 & mask;
        let found = calls::reading(&mut both.random, &text, mask, values);
        assert_eq!(found.number, 0, "{}", Shown(&text));
        sound[found.kind as usize] += 1;
        for fault in 1..=draft.sizes.faults as u32 {
            let pair = calls::pair(&mut both.random, &text, fault, mask, values);
            assert_eq!(pair.number, 0, "{}", Shown(&text));
            assert_eq!(pair.readings[0], found.value, "{}", Shown(&text));
            changed += usize::from(pair.readings[1] != pair.readings[0]);
        }
        // 12 where the arguments are out of range.
        let above = calls::pair(&mut both.random, &text, draft.sizes.faults as u32 + 1, 0, 0);
        let outside = calls::reading(&mut both.random, &text, 1 << inputs, 0);
        assert_eq!((above.number, outside.number), (12, 12));
    }
    assert!(sound[2] > 80 && sound[3] > 200, "{sound:?}");
    assert!(changed > 1000, "readings that a fault changes: {changed}");
}

// Refused texts.

/// What a field is refused by, by what stands there, in the gate of this line;
/// 0 where it is good. B of `not` has its own rule.
fn due_of_field(written: &str, own: usize) -> u32 {
    let digits = written.bytes().all(|byte| byte.is_ascii_digit());
    let leading_zero = written.len() > 1 && written.starts_with('0');
    if !digits || leading_zero || !(1..=4).contains(&written.len()) {
        return 2;
    }
    match written.parse().expect("a number") {
        0 | 57.. => 3,
        line if line < own => 0,
        _ => 4,
    }
}

/// A circuit of this gate and those before it, each `or` of line 1, so that the
/// gate drives line `own`; the place of its line is the last before the output.
fn with_last_gate(inputs: usize, own: usize, gate: &str) -> (Vec<u8>, usize) {
    let gates = own - inputs;
    let before = "gate,or,1,1\n".repeat(gates - 1);
    let text =
        format!("circuit,{inputs},{gates},1,1,1\n{before}{gate}\noutput,{own},1\nfault,1,1\n");
    (text.into_bytes(), gates + 1)
}

/// The circuit and the plan call on the circuit whose last gate this is.
fn expect_gate(both: &mut Both, inputs: usize, own: usize, gate: &str, number: u32) {
    let (text, place) = with_last_gate(inputs, own, gate);
    let due = (number, if number == 0 { 0 } else { place });
    assert_eq!(both.circuit(&text, 0, 256), due, "{gate} drives {own}");
    if number != 0 {
        assert_eq!(library_plan(&text), refused(due.0, due.1), "{gate}");
        let found = calls::reading(&mut both.random, &text, 0, 0);
        assert_eq!((found.number, found.place), due, "{gate} drives {own}");
    }
}

/// Where gates stand: the first of one input and of eight, one between, and the
/// last that there can be.
const PLACES: [(usize, usize); 5] = [(1, 2), (3, 4), (3, 20), (8, 9), (8, 56)];

#[test]
fn every_field_at_the_ends_of_its_range() {
    let mut both = Both::new(SEED + 20);
    for (inputs, own) in PLACES {
        let plain = [0, 1, 2, own - 1, own, own + 1, 55, 56, 57, 58, 99, 256, 257];
        let mut written: Vec<String> = plain.iter().map(usize::to_string).collect();
        let others = [
            "9999",
            "10000",
            "65537",
            "4294967297",
            "00",
            "01",
            "001",
            "0057",
            "",
            "+1",
            "-1",
            "-0",
            " 1",
            "1 ",
            "1.",
            "x",
            "0x1",
            "1\r",
            "1\0",
        ];
        written.extend(others.map(String::from));
        for (kind, _) in TRUTH_VALUES {
            for width in 2..=WIDTH_LIMIT {
                for field in 0..width {
                    for number in &written {
                        let mut fields = vec!["1"; width];
                        fields[field] = number;
                        let gate = format!("gate,{kind},{}", fields.join(","));
                        let due = due_of_field(number, own);
                        expect_gate(&mut both, inputs, own, &gate, due);
                    }
                }
            }
        }
        for number in &written {
            let due = due_of_field(number, own);
            expect_gate(&mut both, inputs, own, &format!("gate,not,{number},0"), due);
            // B is 0 and nothing else.
            let due = match due_of_field(number, own) {
                2 => 2,
                _ if number == "0" => 0,
                _ => 3,
            };
            expect_gate(&mut both, inputs, own, &format!("gate,not,1,{number}"), due);
            for more in [format!("1,0,{number}"), format!("1,0,0,{number}")] {
                expect_gate(&mut both, inputs, own, &format!("gate,not,{more}"), 2);
            }
        }
    }
    both.outcomes
        .assert_seen(&[(0, 500), (2, 4000), (3, 1500), (4, 800)]);
}

#[test]
fn every_count_of_fields() {
    let mut both = Both::new(SEED + 21);
    let kinds = TRUTH_VALUES.map(|(kind, _)| kind);
    for (inputs, own) in PLACES {
        for count in 1..=9 {
            // The word and the kind are fields too.
            let numbers = |number: &str| format!(",{number}").repeat(count.max(2) - 2);
            for kind in kinds.into_iter().chain(["not", "buf", "and3", "Not", ""]) {
                let head = match count {
                    1 => "gate".to_string(),
                    _ => format!("gate,{kind}"),
                };
                for number in [1, 0, own - 1, own, own + 1].map(|n| n.to_string()) {
                    let due = match (kind, count) {
                        ("not", 4) => 3,
                        (_, 4..=6) if kinds.contains(&kind) => due_of_field(&number, own),
                        _ => 2,
                    };
                    expect_gate(
                        &mut both,
                        inputs,
                        own,
                        &(head.clone() + &numbers(&number)),
                        due,
                    );
                }
            }
        }
        expect_gate(&mut both, inputs, own, "gate,not,1,0", 0);
    }
    both.outcomes
        .assert_seen(&[(0, 80), (2, 1000), (3, 80), (4, 100)]);
}

/// 2 before 3 before 4, whatever stands first: in every two fields of gates of
/// every width.
#[test]
fn two_refusals_in_one_line() {
    let mut both = Both::new(SEED + 22);
    let (inputs, own) = (3, 20);
    let bad = [
        ("x", 2),
        ("", 2),
        ("01", 2),
        ("0", 3),
        ("57", 3),
        ("20", 4),
        ("56", 4),
    ];
    for (kind, _) in TRUTH_VALUES {
        for width in 2..=WIDTH_LIMIT {
            for (first, second) in pairs(width) {
                for (one, number) in bad {
                    for (other, later) in bad {
                        let mut fields = vec!["1"; width];
                        (fields[first], fields[second]) = (one, other);
                        let gate = format!("gate,{kind},{}", fields.join(","));
                        expect_gate(&mut both, inputs, own, &gate, number.min(later));
                        // Without the kind it is 2, and with too many fields.
                        if number != later {
                            let unknown = gate.replacen(kind, "nxor", 1);
                            expect_gate(&mut both, inputs, own, &unknown, 2);
                            let more = gate.clone() + &",1".repeat(WIDTH_LIMIT + 1 - width);
                            expect_gate(&mut both, inputs, own, &more, 2);
                        }
                    }
                }
            }
        }
    }
    for (gate, number) in [
        ("gate,not,1,2,3", 2),
        ("gate,not,1,0,2", 2),
        ("gate,not,57,0,20", 2),
        ("gate,not,20,57,0,1", 2),
        ("gate,not,20,x", 2),
        ("gate,not,57,x", 2),
        ("gate,not,x,57", 2),
        ("gate,not,20,1", 3),
        ("gate,not,20,20", 3),
        ("gate,not,57,0", 3),
        ("gate,not,0,0", 3),
        ("gate,not,20,0", 4),
    ] {
        expect_gate(&mut both, inputs, own, gate, number);
    }
    both.outcomes.assert_seen(&[(2, 3000), (3, 500), (4, 200)]);
}

/// Each two of so many places.
fn pairs(count: usize) -> Vec<(usize, usize)> {
    let below = |second| (0..second).map(move |first| (first, second));
    (1..count).flat_map(below).collect()
}

/// Bad lines for each line of the mixed circuit, with what they are refused by.
/// The gates drive lines 4 to 8.
fn bad_lines(place: usize) -> &'static [(&'static str, u32)] {
    match place {
        1 => &[("circuit,3,5,2,3", 2), ("circuit,9,5,2,3,2", 3)],
        2..=6 => &[
            ("gate,and,1", 2),
            ("gate,and,1,2,3,1,2", 2),
            ("gate,and,1,2,", 2),
            ("gate,and,1,2,03", 2),
            ("gate,not,1,0,2", 2),
            ("gate,nxor,57,0,8", 2),
            ("gate,and,1,2,0", 3),
            ("gate,and,8,57,1", 3),
            ("gate,and,1,8,2,57", 3),
            ("gate,not,1,2", 3),
            ("gate,and,1,2,8", 4),
            ("gate,and,1,2,3,56", 4),
            ("gate,and,8,1,2,3", 4),
        ],
        7 | 8 => &[("output,8", 2), ("output,9,16", 3), ("output,9,1", 5)],
        _ => &[
            ("gate,and,1,2,3", 2),
            ("fault,9,2", 3),
            ("fault,9,0", 5),
            ("fault,3,0,2,0", 6),
            ("bridge,3,1", 19),
        ],
    }
}

#[test]
fn two_refusals_in_two_lines() {
    let mut both = Both::new(SEED + 23);
    for place in 1..=11 {
        for &(line, number) in bad_lines(place) {
            both.expect_line(MIXED, place, line, number);
        }
    }
    both.two_refusals(MIXED, bad_lines, Both::expect);
    both.outcomes.assert_seen(&[
        (1, 200),
        (2, 5000),
        (3, 4000),
        (4, 3000),
        (5, 200),
        (6, 50),
        (7, 4),
        (19, 50),
    ]);
}

/// A line more in a gate moves nothing else: other lines are refused as before.
#[test]
fn other_lines_of_more_fields_are_refused() {
    let mut both = Both::new(SEED + 24);
    for (place, line) in LISTING.lines().enumerate() {
        let number = match line.split(',').nth(1) {
            Some("and" | "or") => 0,
            _ => 2,
        };
        both.expect_line(LISTING, place + 1, &format!("{line},1"), number);
        both.expect_line(
            LISTING,
            place + 1,
            &format!("{line},2,1"),
            match line {
                // A second pair, which does not rise.
                _ if line.starts_with("fault") => 6,
                _ => number,
            },
        );
        both.expect_line(LISTING, place + 1, &format!("{line},1,2,1"), 2);
    }
    both.outcomes.assert_seen(&[(0, 6), (2, 30), (6, 4)]);
}

/// With 2, 3 and 4 nothing is written but the report's refusal line.
#[test]
fn a_refused_gate_leaves_what_is_lent() {
    let mut both = Both::new(SEED + 25);
    for round in 0..120 {
        let drawn = Sizes::draw(&mut both.random);
        let sizes = Sizes {
            inputs: 1 + round % 8,
            gates: 1 + both.random.below(48),
            ..drawn
        };
        let mut draft = draw(&mut both.random, sizes);
        let place = 2 + both.random.below(sizes.gates);
        let own = sizes.inputs + place - 1;
        let (line, number) = both.random.pick(&[
            ("gate,nor,1,1,1,1,1", 2),
            ("gate,not,1,0,1", 2),
            ("gate,nor,1,1,", 2),
            ("gate,nor,1,1,57", 3),
            ("gate,nor,1,1,1,0", 3),
            ("gate,nor,1,1,OWN", 4),
            ("gate,nor,1,1,1,OWN", 4),
        ]);
        let line = line.replace("OWN", &own.to_string());
        draft.lines[place - 1] = line.split(',').map(String::from).collect();
        let next = sizes.faults as u32 + 1;
        both.refused_with_all_kept(&draft.text(), next, (number, place));
    }
    both.outcomes.assert_seen(&[(2, 200), (3, 150), (4, 150)]);
}

#[test]
fn damaged_texts() {
    let mut both = Both::new(SEED + 26);
    let damages: Vec<&Damage> = GATE_DAMAGES.iter().chain(&DAMAGES).collect();
    both.damaged_circuits(&damages, 600, 80, |random, round| {
        let inputs = 1 + round % 8;
        let drawn = Sizes::draw(random);
        let sizes = match round % 4 {
            // Few faults, so that damage often hits gates.
            0 | 1 => Sizes {
                inputs,
                gates: 1 + drawn.gates / 4,
                faults: 1 + drawn.faults / 8,
                ..drawn
            },
            2 => Sizes { inputs, ..drawn },
            _ => Sizes::LARGEST,
        };
        draw(random, sizes)
    });
    both.outcomes.assert_seen(&[
        (0, 1500),
        (2, 6000),
        (3, 1500),
        (4, 1000),
        (5, 60),
        (6, 60),
        (7, 500),
        (8, 100),
        (12, 60),
        (13, 100),
    ]);
}

#[test]
fn every_number_in_every_place() {
    let mut both = Both::new(SEED + 27);
    let small = Sizes {
        inputs: 3,
        gates: 5,
        outputs: 1,
        faults: 2,
        cap: 2,
    };
    for _ in 0..4 {
        let draft = draw(&mut both.random, small);
        both.every_number(&draft);
    }
    both.outcomes.assert_seen(&[
        (0, 300),
        (2, 1000),
        (3, 3000),
        (4, 1500),
        (5, 500),
        (6, 0),
        (7, 4),
    ]);
}

#[test]
fn every_prefix_and_every_byte() {
    let mut both = Both::new(SEED + 28);
    for text in EXAMPLES.into_iter().chain([MIXED]) {
        both.every_prefix(text.as_bytes());
    }
    let longest = largest(&mut both.random).text();
    both.every_prefix(&longest);
    for round in 0..8 {
        let text = draw_mixed(&mut both.random, round, 1 + round).text();
        both.every_prefix(&text);
    }
    for text in [AND_OF_THREE, MIXED] {
        both.every_byte(text.as_bytes());
    }
    both.outcomes.assert_seen(&[
        (0, 200),
        (2, 50_000),
        (3, 300),
        (4, 150),
        (5, 50),
        (6, 2),
        (7, 300),
        (19, 20),
    ]);
}

#[test]
fn texts_of_noise() {
    let mut both = Both::new(SEED + 29);
    let lines = [
        "gate,and,1,2\n",
        "gate,and,1,2,1\n",
        "gate,xor,2,1,2,1\n",
        "gate,nor,1,2,3\n",
        "gate,nor,1,2,2,3\n",
        "gate,or,1,2,0\n",
        "gate,or,1,2,1,2,1\n",
        "gate,not,1,0\n",
        "gate,not,1,0,0\n",
        "output,3,1\n",
        "output,3,1\n",
        "fault,3,1\n",
        "fault,3,1\n",
    ];
    for round in 0..6000 {
        let mut text = b"circuit,2,1,1,1,1\n".to_vec();
        let drawn: Vec<&str> = match round % 2 {
            // A gate and lines that may come after it, or any lines.
            0 => {
                let output = if both.random.once_in(8) {
                    "output,4,1\n"
                } else {
                    "output,3,1\n"
                };
                vec![both.random.pick(&lines[..9]), output, "fault,3,1\n"]
            }
            _ => {
                let count = 2 + both.random.below(3);
                (0..count).map(|_| both.random.pick(&lines)).collect()
            }
        };
        text.extend(drawn.concat().as_bytes());
        if both.random.once_in(4) {
            let at = both.random.below(text.len());
            text[at] = both.random.pick(b",\n0123x");
        }
        let fault = both.random.below(3) as u32;
        both.every_call(&text, fault, 256);
    }
    both.outcomes.assert_seen(&[
        (0, 1500),
        (2, 5000),
        (3, 500),
        (4, 1000),
        (5, 300),
        (7, 5),
        (12, 100),
        (13, 0),
    ]);
}
