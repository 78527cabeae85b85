//! Faults that weights hide: the static library's plan and report calls against the
//! second implementation, with noise in and around all that is lent. First what
//! follows from note 5 without it. The program, the stack and the stored cases have
//! their own files.

use differential::both::{with_every_byte, Both};
use differential::calls::{
    assert_refused, library_circuit, library_circuit_rows, library_plan, library_report, of_labels,
    refused, Bits, Comparison, Measured, WEIGHTED,
};
use differential::lent::Shown;
use differential::library::{self, Signature};
use second::bridge_texts;
use second::circuits::{Damage, Draft, Sizes, Sketch, DAMAGES, SILENT_FAULT};
use second::devices;
use second::hidden_texts::{
    draw, draw_outcomes, effects_by_place, largest, no_set, of_one_output, on_one_row, paired,
    permuted, scaled, told_apart, Effect, EXAMPLES, EXCHANGED_OUTPUTS, HIDDEN_BRIDGE,
    OPPOSITE_WEIGHTS, SILENT_BEHIND_HIDDEN,
};
use second::netlist::WEIGHT_LIMIT;
use second::plan::{order, Spectra, CAP_LIMIT, WORKING_NUMBERS};
use second::random::Random;
use second::signed_texts::{self, every_weight, negated, weights, with_weights, OUTPUT_DAMAGES};
use second::table_texts;
use second::wide_texts;
use std::collections::BTreeSet;

const SEED: u64 = 0x4849_4444_454e_0000;

/// How often each number came.
type Numbers = [usize; 20];

/// Asserts that a plan came so often, and each of these refusals.
#[track_caller]
fn assert_came(numbers: &Numbers, least: usize, refusals: &[usize]) {
    for &number in [0].iter().chain(refusals) {
        let came = numbers[number];
        assert!(came >= least, "{number} came {came} times only");
    }
}

/// The library's plan of this text; the report call says the same.
fn answer(text: &[u8], numbers: &mut Numbers) -> Signature {
    let found = library_plan(text);
    numbers[found.number as usize] += 1;
    let report = library_report(text);
    match found.number {
        0 => assert!(report.starts_with("plan,"), "{report} for {}", Shown(text)),
        number => {
            let due = format!("refused,{number},{}\n", found.place);
            assert_eq!(report, due, "{}", Shown(text));
        }
    }
    found
}

/// The library's coefficients, sound and under each fault.
fn spectra(draft: &Draft) -> Vec<Vec<i32>> {
    let (text, length) = (draft.text(), 1 << draft.sizes.inputs);
    (0..=draft.sizes.faults as u32)
        .map(|fault| library_circuit(&text, fault, length))
        .collect()
}

/// Which faults change any of these coefficients.
fn changed(spectra: &[Vec<i32>]) -> Vec<bool> {
    spectra[1..]
        .iter()
        .map(|under| *under != spectra[0])
        .collect()
}

/// 13 or 16 with its place, from the library's own coefficients: those of each output
/// alone, which is how an output changes, and those of the text as it stands.
fn refusal_by_outputs(draft: &Draft) -> Option<(u32, usize)> {
    let mut shows = vec![false; draft.sizes.faults];
    for output in draft.outputs() {
        let alone = draft.with_outputs(std::slice::from_ref(output));
        let alone = with_weights(&alone, &[1]);
        for (shows, changes) in shows.iter_mut().zip(changed(&spectra(&alone))) {
            *shows |= changes;
        }
    }
    let first = |is: &dyn Fn(usize) -> bool| (0..shows.len()).find(|&at| is(at));
    if let Some(silent) = first(&|at| !shows[at]) {
        return Some((13, silent + 1));
    }
    let sums = changed(&spectra(draft));
    first(&|at| !sums[at]).map(|hidden| (16, hidden + 1))
}

/// A circuit of any size but for its inputs.
fn draw_of(random: &mut Random, inputs: usize) -> Draft {
    let drawn = Sizes::draw(random);
    draw(random, Sizes { inputs, ..drawn })
}

/// A few faults, so that hidden ones often have no silent one behind them.
fn draw_few(random: &mut Random, inputs: usize) -> Draft {
    let faults = 1 + random.below(3);
    let drawn = Sizes::draw(random);
    let sizes = Sizes {
        inputs,
        faults,
        gates: drawn.gates / 4,
        ..drawn
    };
    draw(random, sizes)
}

/// The faults of the text in another order.
fn shuffled(random: &mut Random, draft: &Draft) -> Draft {
    let mut faults = draft.faults().to_vec();
    for at in (1..faults.len()).rev() {
        faults.swap(at, random.below(at + 1));
    }
    draft.with_faults(&faults, draft.sizes.cap)
}

// Without the second implementation.

#[test]
fn examples_of_the_change_request() {
    for (text, number, place) in EXAMPLES {
        assert_refused(text.as_bytes(), (number, place));
    }
    assert_refused(SILENT_FAULT.as_bytes(), (13, 1));
    // One of the two outputs alone has a plan, and so have weights that do not
    // cancel out.
    for text in [
        "circuit,1,1,1,1,1\ngate,not,1,0\noutput,1,1\nfault,1,0\n",
        "circuit,1,1,1,1,1\ngate,not,1,0\noutput,2,1\nfault,1,0\n",
        "circuit,1,1,2,1,1\ngate,not,1,0\noutput,1,1\noutput,2,-1\nfault,1,0\n",
        "circuit,1,0,2,1,1\noutput,1,1\noutput,1,1\nfault,1,0\n",
        "circuit,1,0,2,1,1\noutput,1,2\noutput,1,-1\nfault,1,0\n",
    ] {
        assert_eq!(library_plan(text.as_bytes()), of_labels(&[0]), "{text}");
    }
}

/// The calls but plan and report go by the sums alone, as before.
#[test]
fn the_other_calls_see_no_change() {
    let one = Bits::of(1.0);
    for fault in 0..=1 {
        let text = EXCHANGED_OUTPUTS.as_bytes();
        assert_eq!(library_circuit(text, fault, 2), [2, 0]);
        assert_eq!(library_circuit_rows(text, fault, 2), [1, 1]);
        let text = OPPOSITE_WEIGHTS.as_bytes();
        assert_eq!(library_circuit(text, fault, 2), [0, 0]);
        let text = HIDDEN_BRIDGE.as_bytes();
        assert_eq!(library_circuit(text, fault, 4), [-12, 0, 0, 0]);
    }
    let text = EXCHANGED_OUTPUTS.as_bytes();
    let found = Measured::found(library::reading(text, 0, 0));
    assert_eq!(found, Measured::new(WEIGHTED, 0, one));
    let found = Comparison::found(library::pair(text, 1, 0, 0));
    assert_eq!(found, Comparison::new([one, one, Bits(0)]));
    let found = Comparison::found(library::pair(text, 1, 1, 1));
    assert_eq!(found, Comparison::new([one, one, Bits(0)]));
}

/// A hidden and a silent fault of 32 at each pair of places: the silent one is named,
/// before the hidden one and behind it.
#[test]
fn hidden_and_silent_at_each_pair_of_places() {
    for hidden in 1..=32 {
        for silent in 1..=32 {
            if hidden == silent {
                continue;
            }
            let text = effects_by_place(32, 1 + (hidden + silent) % 4, |place| match place {
                _ if place == hidden => Effect::Hidden,
                _ if place == silent => Effect::Silent,
                _ => Effect::Changing,
            });
            assert_refused(&text, (13, silent));
        }
    }
}

/// Each count of faults, and each place of the first hidden one; more of them behind
/// it, now none, now some, now all.
#[test]
fn the_first_hidden_fault_is_named() {
    let mut random = Random::new(SEED + 1);
    for count in 1..=32 {
        for first in 1..=count {
            for share in [0, 1, 2] {
                let behind = (1u64 << count) - (1 << (first - 1));
                let hidden = match share {
                    0 => 0,
                    1 => random.word(),
                    _ => u64::MAX,
                } & behind
                    | 1 << (first - 1);
                let text = effects_by_place(count, 4, |place| match hidden >> (place - 1) & 1 {
                    1 => Effect::Hidden,
                    _ => Effect::Changing,
                });
                assert_refused(&text, (16, first));
            }
        }
    }
}

/// The first silent fault is named in any company: the others are hidden, or silent
/// and stand behind it.
#[test]
fn a_silent_fault_goes_before_every_hidden_one() {
    let mut random = Random::new(SEED + 2);
    for count in 1..=32 {
        for first in 1..=count {
            for kinds in [1, 2, 3] {
                let drawn: Vec<Effect> = (1..=count)
                    .map(|place| match random.below(kinds) {
                        _ if place == first => Effect::Silent,
                        0 => Effect::Hidden,
                        1 => Effect::Changing,
                        _ if place < first => Effect::Hidden,
                        _ => Effect::Silent,
                    })
                    .collect();
                let text = effects_by_place(count, 1, |place| drawn[place - 1]);
                assert_refused(&text, (13, first));
            }
        }
    }
}

/// Five faults of one label each with a cap of four: a hidden fault decides at each
/// place, and a silent one at each place beside it.
#[test]
fn hidden_and_silent_go_before_no_set() {
    let mut random = Random::new(SEED + 3);
    for inputs in 3..=8 {
        let (draft, [hidden, silent]) = no_set(&mut random, inputs);
        // In the end 14 takes a search.
        if inputs < 6 {
            assert_refused(&draft.text(), (14, 0));
        }
        for place in 0..=5 {
            let mut faults = draft.faults().to_vec();
            faults.insert(place, hidden.clone());
            assert_refused(&draft.with_faults(&faults, 4).text(), (16, place + 1));
            for beside in 0..=6 {
                let mut faults = faults.clone();
                faults.insert(beside, silent.clone());
                assert_refused(&draft.with_faults(&faults, 4).text(), (13, beside + 1));
            }
        }
    }
}

/// A row alone decides, whichever it is, and two outputs alone, whichever they are.
#[test]
fn every_row_and_every_two_outputs() {
    let mut numbers = [0; 20];
    for inputs in 1..=8 {
        for row in 0..1 << inputs {
            for (weights, due) in [
                (&[1, 1][..], refused(16, 1)),
                (&[-15, -15], refused(16, 1)),
                (&[1, 2], of_labels(&[0])),
                (&[1, -1], of_labels(&[0])),
            ] {
                let text = on_one_row(inputs, row, [0, 1], weights).text();
                assert_eq!(answer(&text, &mut numbers), due, "row {row} of {inputs}");
            }
        }
    }
    for raised in 0..4 {
        for lowered in (0..4).filter(|&lowered| lowered != raised) {
            for weight in every_weight() {
                let mut weights = [1, -15, 7, -2];
                for other in [weight, -weight] {
                    (weights[raised], weights[lowered]) = (weight, other);
                    let text = on_one_row(3, 6, [raised, lowered], &weights).text();
                    let due = match other == weight {
                        true => refused(16, 1),
                        false => of_labels(&[0]),
                    };
                    assert_eq!(answer(&text, &mut numbers), due, "{weights:?}");
                }
            }
        }
    }
    assert_came(&numbers, 1000, &[16]);
}

/// What the lines 1 to 4 of `gate,not,1,0` and `gate,not,2,0` show on a row under one
/// fault of one line, or under the bridge (line 0).
fn shown(row: usize, (line, value): (usize, usize)) -> [usize; 4] {
    let stuck = |own, computed| if own == line { value } else { computed };
    let [mut x1, mut x2] = [1, 2].map(|input| stuck(input, row >> (input - 1) & 1));
    if line == 0 {
        (x1, x2) = (x1 & x2, x1 & x2);
    }
    [x1, x2, stuck(3, 1 - x1), stuck(4, 1 - x2)]
}

/// All circuits of two or three outputs on two inputs and their complements, with
/// weights that cancel out or do not, under each stuck line and the bridge.
#[test]
fn every_choice_of_outputs_on_two_inputs() {
    let mut numbers = [0; 20];
    let mut faults: Vec<(usize, usize)> = vec![(0, 0)];
    faults.extend((1..=4).flat_map(|line| [(line, 0), (line, 1)]));
    let no_fault = (9, 0);
    for count in 2..=3_u32 {
        for lines in 0..4_usize.pow(count) {
            for choice in 0..3_usize.pow(count) {
                let outputs: Vec<(usize, i32)> = (0..count)
                    .map(|at| {
                        let weight = [1, -1, 2][choice / 3_usize.pow(at) % 3];
                        (lines >> (2 * at) & 3, weight)
                    })
                    .collect();
                let written: String = outputs
                    .iter()
                    .map(|(line, weight)| format!("output,{},{weight}\n", line + 1))
                    .collect();
                for &fault in &faults {
                    let on = |row, fault| -> Vec<usize> {
                        let shown = shown(row, fault);
                        outputs.iter().map(|&(line, _)| shown[line]).collect()
                    };
                    let sum = |bits: &[usize]| -> i32 {
                        let weights = outputs.iter().map(|&(_, weight)| weight);
                        weights.zip(bits).map(|(w, &bit)| w * bit as i32).sum()
                    };
                    let rows = (0..4).map(|row| (on(row, no_fault), on(row, fault)));
                    let (mut bits, mut sums) = (false, false);
                    for (sound, faulted) in rows {
                        bits |= sound != faulted;
                        sums |= sum(&sound) != sum(&faulted);
                    }
                    let line = match fault {
                        (0, _) => "bridge,1,2".to_string(),
                        (line, value) => format!("fault,{line},{value}"),
                    };
                    let text = format!(
                        "circuit,2,2,{count},1,1\ngate,not,1,0\ngate,not,2,0\n{written}{line}\n"
                    );
                    let found = library_plan(text.as_bytes());
                    numbers[found.number as usize] += 1;
                    match (bits, sums) {
                        (false, _) => assert_eq!(found, refused(13, 1), "{text}"),
                        (true, false) => assert_eq!(found, refused(16, 1), "{text}"),
                        (true, true) => assert_eq!((found.number, found.size), (0, 1), "{text}"),
                    }
                }
            }
        }
    }
    assert_came(&numbers, 900, &[13, 16]);
}

/// 13 and 16 of drawn circuits, from the circuit call on each output alone.
#[test]
fn refusals_by_each_output_alone() {
    let mut random = Random::new(SEED + 4);
    let (mut numbers, mut places) = ([0; 20], BTreeSet::new());
    for round in 0..700 {
        let inputs = 1 + round % 8;
        let draft = match round / 8 % 3 {
            0 => draw_outcomes(&mut random, inputs.min(6)),
            1 => draw_few(&mut random, inputs),
            _ => paired(&mut random, inputs, 2, [9, 1 + round % 2, 0]),
        };
        let found = answer(&draft.text(), &mut numbers);
        match refusal_by_outputs(&draft) {
            Some((number, place)) => {
                assert_eq!(found, refused(number, place), "{draft:?}");
                places.insert((number, place));
            }
            None => assert!([0, 14].contains(&found.number), "{draft:?}"),
        }
    }
    assert_came(&numbers, 30, &[13, 14, 16]);
    let hidden = places.iter().filter(|place| place.0 == 16).count();
    assert!(hidden > 6 && places.len() > hidden + 6, "{places:?}");
}

/// The answers of a text whose weights are negated, or as large as they can be, or
/// whose outputs stand in another order: the same, the labels too.
#[test]
fn signs_scale_and_order_of_outputs_change_nothing() {
    let mut random = Random::new(SEED + 5);
    let mut numbers = [0; 20];
    for round in 0..600 {
        let draft = draw_outcomes(&mut random, 1 + round % 6);
        let found = answer(&draft.text(), &mut numbers);
        let mut order: Vec<usize> = (0..draft.sizes.outputs).collect();
        for at in (1..order.len()).rev() {
            order.swap(at, random.below(at + 1));
        }
        let mut others = vec![negated(&draft), permuted(&draft, &order)];
        let heaviest = weights(&draft).iter().map(|weight| weight.abs()).max();
        let most = WEIGHT_LIMIT / heaviest.expect("an output");
        others.extend([most, -most].map(|by| scaled(&draft, by)));
        for other in others {
            assert_eq!(library_plan(&other.text()), found, "{other:?}");
        }
    }
    assert_came(&numbers, 50, &[13, 14, 16]);
}

/// Under weights of 1, 2, 4 and 8 no choice of outputs cancels out: 16 never comes,
/// and 13 as before.
#[test]
fn weights_that_tell_outputs_apart_hide_nothing() {
    let mut random = Random::new(SEED + 6);
    let (mut numbers, mut before) = ([0; 20], [0; 20]);
    for round in 0..600 {
        let draft = match round % 2 {
            0 => draw_outcomes(&mut random, 1 + round % 6),
            _ => draw_few(&mut random, 1 + round % 8),
        };
        let found = answer(&draft.text(), &mut before);
        let apart = answer(&told_apart(&draft).text(), &mut numbers);
        match found.number {
            13 => assert_eq!(apart, found, "{draft:?}"),
            _ => assert!([0, 14].contains(&apart.number), "{draft:?}"),
        }
    }
    assert_came(&before, 20, &[13, 14, 16]);
    assert_eq!(numbers[16], 0);
}

/// Whatever the weights are, 13 comes at the same fault.
#[test]
fn weights_play_no_part_in_silence() {
    let mut random = Random::new(SEED + 7);
    let mut numbers = [0; 20];
    for round in 0..400 {
        let draft = draw_few(&mut random, 1 + round % 7);
        let found = answer(&draft.text(), &mut numbers);
        let all: Vec<i32> = every_weight().collect();
        for _ in 0..6 {
            let any: Vec<i32> = (0..draft.sizes.outputs)
                .map(|_| random.pick(&all))
                .collect();
            let other = with_weights(&draft, &any);
            let again = answer(&other.text(), &mut numbers);
            assert_eq!(again.number == 13, found.number == 13, "{other:?}");
            assert!(found.number != 13 || again == found, "{other:?}");
        }
    }
    assert_came(&numbers, 80, &[13, 16]);
}

/// Of a table the one output is its mark: what changes no coefficient is silent.
#[test]
fn tables_hide_nothing() {
    let mut random = Random::new(SEED + 8);
    let (mut numbers, mut bridges) = ([0; 20], 0);
    for round in 0..800 {
        let inputs = 1 + round % 6;
        let draft = match round % 4 {
            0 => table_texts::draw(&mut random, inputs),
            1 => table_texts::draw_with_a_silent_input(&mut random, inputs.max(2)),
            _ => bridge_texts::draw_table(&mut random, inputs),
        };
        bridges += draft.faults().iter().filter(|f| f[0] == "bridge").count();
        let found = answer(&draft.text(), &mut numbers);
        let silent = changed(&spectra(&draft))
            .iter()
            .position(|changes| !changes);
        match silent {
            Some(at) => assert_eq!(found, refused(13, at + 1), "{draft:?}"),
            None => assert!([0, 14].contains(&found.number), "{draft:?}"),
        }
    }
    assert_came(&numbers, 100, &[13]);
    assert!(numbers[16] == 0 && bridges > 1000, "{numbers:?}, {bridges}");
}

/// The same of circuits of one output, whatever its weight.
#[test]
fn one_output_hides_nothing() {
    let mut random = Random::new(SEED + 9);
    let mut numbers = [0; 20];
    for round in 0..800 {
        let drawn = of_one_output(&mut random, 1 + round % 7);
        let weight = every_weight().nth(round % 30).expect("30 weights");
        let draft = with_weights(&drawn, &[weight]);
        let all = changed(&spectra(&draft));
        let silent = all.iter().position(|changes| !changes);
        let found = answer(&draft.text(), &mut numbers);
        match silent {
            Some(at) => assert_eq!(found, refused(13, at + 1), "{draft:?}"),
            None => assert!([0, 14].contains(&found.number), "{draft:?}"),
        }
        // Without its silent faults.
        if let Some(changing) = draft.only_changing() {
            let found = answer(&changing.with_cap(1 + round % 2).text(), &mut numbers);
            assert!([0, 14].contains(&found.number), "{changing:?}");
        }
    }
    assert_came(&numbers, 300, &[13]);
    assert_eq!(numbers[16], 0);
}

/// Buffers around the 4,608 working numbers: 8 below, free up to there and untouched
/// past it, one by one.
#[test]
fn working_numbers_of_16() {
    let mut random = Random::new(SEED + 10);
    let largest = largest(&mut random).text();
    let examples = EXAMPLES.iter().map(|(text, ..)| text.as_bytes());
    for text in examples.chain([&largest[..]]) {
        let due = library_plan(text);
        assert!([13, 16].contains(&due.number), "{}", Shown(text));
        let line = format!("refused,{},{}\n", due.number, due.place);
        for working in [0, 1, 2_303, 4_607, 4_608, 4_609, 5_000, 9_216] {
            let before: Vec<u32> = (0..working).map(|_| random.noise() as u32).collect();
            let (mut work, mut again) = (before.clone(), before.clone());
            let mut out = vec![b'#'; 1_100];
            let found = library::plan(text, &mut work);
            let written = library::report(text, &mut out, &mut again);
            let free = match working < WORKING_NUMBERS {
                true => {
                    assert_eq!(found, refused(8, 0), "{working} working numbers");
                    assert_eq!((written.number, written.bytes), (8, 0));
                    assert!(out.iter().all(|&byte| byte == b'#'));
                    0
                }
                false => {
                    assert_eq!(found, due, "{working} working numbers");
                    assert_eq!((written.number, written.bytes), (0, line.len()));
                    assert_eq!(&out[..line.len()], line.as_bytes());
                    assert!(out[line.len()..].iter().all(|&byte| byte == b'#'));
                    WORKING_NUMBERS
                }
            };
            for at in free..working {
                let held = [work[at], again[at]];
                assert_eq!(held, [before[at]; 2], "number {at} of {working}");
            }
        }
        // A report of less than 1,024 bytes goes first.
        for room in [0, 13, 1_023] {
            let (mut out, mut work) = (vec![b'#'; room], vec![7; 5_000]);
            let written = library::report(text, &mut out, &mut work);
            assert_eq!((written.number, written.bytes), (8, 0), "room {room}");
            assert!(out.iter().all(|&byte| byte == b'#'));
            assert!(work.iter().all(|&number| number == 7));
        }
    }
}

/// The first way to cover what is missing by so many masks more.
fn first_cover(masks: &[u32], missing: u32, more: usize) -> Option<Vec<usize>> {
    if more == 0 {
        return (missing == 0).then(Vec::new);
    }
    (0..masks.len()).find_map(|at| {
        let rest = first_cover(&masks[at + 1..], missing & !masks[at], more - 1)?;
        let rest = rest.into_iter().map(|other| at + 1 + other);
        Some([at].into_iter().chain(rest).collect())
    })
}

/// What the plan call gave before note 5: 13 with the first fault under which no row's
/// value differs.
fn old_answer(text: &[u8]) -> Signature {
    let device = devices::parse(text).expect("a good text");
    let faults = device.faults().len();
    let sound = device.rows(0);
    if let Some(fault) = (1..=faults).find(|&fault| device.rows(fault as u32) == sound) {
        return refused(13, fault);
    }
    let (spectra, labels) = (Spectra::of(&device), order(device.inputs()));
    let masks: Vec<u32> = labels.iter().map(|&label| spectra.mask(label)).collect();
    let all = u32::MAX >> (32 - faults);
    match (1..=device.cap()).find_map(|size| first_cover(&masks, all, size)) {
        Some(set) => of_labels(&set.iter().map(|&at| labels[at]).collect::<Vec<_>>()),
        None => refused(14, 0),
    }
}

/// A text that ended in 13 ends in 16 at that fault, or in 13 at it or a later one;
/// labels and 14 are as they were.
#[test]
fn old_answers_stand() {
    let mut random = Random::new(SEED + 11);
    let mut numbers = [0; 20];
    // 13 as before, 13 at a later fault, 16.
    let mut moved = [0; 3];
    for round in 0..1500 {
        let inputs = 1 + round / 6 % 6;
        let draft = match round % 6 {
            0 | 1 => draw_outcomes(&mut random, inputs),
            2 => draw_of(&mut random, inputs),
            3 => signed_texts::draw_changing(&mut random, inputs),
            4 => bridge_texts::draw_changing(&mut random, inputs),
            _ => wide_texts::draw(
                &mut random,
                Sizes {
                    inputs,
                    ..Sizes::LARGEST
                },
            ),
        };
        let text = draft.text();
        let (before, now) = (old_answer(&text), answer(&text, &mut numbers));
        let case = format_args!("{before:?} before, {now:?} now, {}", Shown(&text));
        match (before.number, now.number) {
            (13, 16) => {
                assert_eq!(now, refused(16, before.place), "{case}");
                moved[2] += 1;
            }
            (13, 13) => {
                assert_eq!(now, refused(13, now.place), "{case}");
                assert!(now.place >= before.place, "{case}");
                moved[usize::from(now.place > before.place)] += 1;
            }
            _ => assert_eq!(now, before, "{case}"),
        }
    }
    assert!(moved.iter().all(|&count| count > 60), "{moved:?}");
    assert_came(&numbers, 60, &[13, 14, 16]);
}

// Against the second implementation.

#[test]
fn circuits_of_every_outcome() {
    let mut both = Both::new(SEED + 20);
    for round in 0..1600 {
        let draft = draw_outcomes(&mut both.random, 1 + round % 6);
        both.plan_and_report(&draft.text());
        if round % 4 == 0 {
            let other = shuffled(&mut both.random, &draft);
            both.plan_and_report(&other.text());
        }
    }
    both.outcomes
        .assert_seen(&[(0, 800), (13, 500), (14, 100), (16, 800)]);
    both.assert_sizes([200, 60, 20, 5]);
    let (hidden, silent) = (&both.hidden, &both.silent);
    assert!(
        hidden.len() > 10 && silent.len() > 10,
        "{hidden:?}, {silent:?}"
    );
}

#[test]
fn circuits_of_every_size() {
    let mut both = Both::new(SEED + 21);
    let changing = both.every_size(1, draw, |both, draft| {
        both.plan_and_report(&draft.text());
        // One fault alone at each place: silent, hidden or covered by a label.
        for fault in draft.faults() {
            let alone = draft.with_faults(std::slice::from_ref(fault), 1);
            both.plan(&alone.text());
        }
    });
    both.outcomes
        .assert_seen(&[(0, 6000), (13, 1500), (14, 0), (16, 1000)]);
    assert!(changing > 1500, "faults that change rows: {changing}");
}

#[test]
fn every_call_on_circuits_that_hide() {
    let mut both = Both::new(SEED + 22);
    for round in 0..400 {
        let inputs = 1 + round % 8;
        let draft = draw_few(&mut both.random, inputs);
        let text = draft.text();
        for fault in 0..=draft.sizes.faults as u32 {
            both.every_call(&text, fault, 1 << inputs);
        }
        if round % 10 == 0 {
            both.no_faults(&draft);
            both.buffers(&draft);
        }
    }
    let least = [
        (0, 2000),
        (8, 400),
        (12, 1000),
        (13, 300),
        (14, 0),
        (16, 300),
    ];
    both.outcomes.assert_seen(&least);
}

/// The sets are those of before, whatever the cap and the order of the faults are.
#[test]
fn plans_of_circuits_without_hidden_faults() {
    let mut both = Both::new(SEED + 23);
    for round in 0..300 {
        let draft = paired(&mut both.random, 1 + round % 6, 4, [1 + round % 12, 0, 0]);
        both.caps_and_orders(&draft);
    }
    both.outcomes.assert_seen(&[(0, 900), (14, 300)]);
    both.assert_sizes([200, 150, 60, 30]);
}

/// All outputs under all of 32 faults: one hidden at each place, one silent at each
/// place, and none.
#[test]
fn the_largest_circuits() {
    let mut both = Both::new(SEED + 24);
    for _ in 0..3 {
        let draft = largest(&mut both.random);
        let (hidden, others) = draft.faults().split_first().expect("32 faults");
        let plan = both.plan(&draft.with_faults(others, 2).text());
        assert!([0, 14].contains(&plan.number), "{plan:?}");
        for place in 0..32 {
            let mut faults = others.to_vec();
            faults.insert(place, hidden.clone());
            let text = draft.with_faults(&faults, CAP_LIMIT).text();
            assert_eq!(both.plan_and_report(&text), refused(16, place + 1));
        }
    }
    both.outcomes.assert_seen(&[(0, 0), (14, 0), (16, 192)]);
    assert!(both.hidden.iter().copied().eq(1..=32), "{:?}", both.hidden);
}

#[test]
fn buffers_of_the_plan_and_the_report() {
    let mut both = Both::new(SEED + 25);
    let largest = largest(&mut both.random).text();
    let last = effects_by_place(32, 4, |place| match place {
        32 => Effect::Hidden,
        _ => Effect::Changing,
    });
    let mut texts: Vec<(Vec<u8>, u32)> = vec![(largest, 16), (last, 16)];
    for (text, number, _) in EXAMPLES {
        texts.push((text.as_bytes().to_vec(), number));
    }
    for (text, number) in &texts {
        both.working_buffers(text, *number);
        both.report_buffers(text, *number);
    }
    both.outcomes.assert_seen(&[(8, 250), (13, 16), (16, 96)]);
}

// Refused texts.

/// What is refused at a line goes before 16, and leaves all as it was.
#[test]
fn refusals_of_the_text_go_first() {
    let mut both = Both::new(SEED + 26);
    let lines = |text: &str| -> Vec<String> { text.lines().map(String::from).collect() };
    for (text, place, line, number) in [
        (EXCHANGED_OUTPUTS, 1, "circuit,1,1,2,1,x", 2),
        (EXCHANGED_OUTPUTS, 1, "circuit,1,1,2,1,5", 3),
        (EXCHANGED_OUTPUTS, 2, "gate,not,2,0", 4),
        (EXCHANGED_OUTPUTS, 3, "output,1,-0", 2),
        (EXCHANGED_OUTPUTS, 4, "output,3,1", 5),
        (EXCHANGED_OUTPUTS, 5, "fault,1,0,1,0", 6),
        (EXCHANGED_OUTPUTS, 5, "bridge,1,2", 19),
        (OPPOSITE_WEIGHTS, 3, "output,1,0", 3),
        (OPPOSITE_WEIGHTS, 3, "output,1,-16", 3),
        (SILENT_BEHIND_HIDDEN, 7, "fault,4,1", 5),
        (HIDDEN_BRIDGE, 5, "bridge,2,1", 19),
    ] {
        let mut lines = lines(text);
        lines[place - 1] = line.into();
        let text = lines.join("\n") + "\n";
        both.refused_with_all_kept(text.as_bytes(), 2, (number, place));
    }
    let more = [EXCHANGED_OUTPUTS.as_bytes(), b"\n"].concat();
    both.refused_with_all_kept(&more, 2, (7, 6));
    let numbers: Vec<(u32, usize)> = [2, 3, 4, 5, 6, 7, 19].map(|number| (number, 8)).into();
    both.outcomes.assert_seen(&numbers);
}

#[test]
fn damaged_texts() {
    let mut both = Both::new(SEED + 27);
    let damages: Vec<&Damage> = OUTPUT_DAMAGES.iter().chain(&DAMAGES).collect();
    both.damaged_circuits(&damages, 400, 50, |random, round| {
        draw_few(random, 1 + round % 8)
    });
    both.outcomes.assert_seen(&[
        (0, 500),
        (2, 4000),
        (3, 1200),
        (4, 50),
        (5, 200),
        (6, 40),
        (7, 400),
        (8, 100),
        (12, 200),
        (13, 40),
        (14, 0),
        (16, 60),
        (19, 10),
    ]);
}

/// Every byte of the examples changed, removed, inserted and swapped with the next.
#[test]
fn every_byte_of_the_examples() {
    let mut both = Both::new(SEED + 28);
    for text in [EXCHANGED_OUTPUTS, OPPOSITE_WEIGHTS, HIDDEN_BRIDGE] {
        with_every_byte(text.as_bytes(), |text| {
            both.plan(text);
        });
    }
    both.outcomes.assert_seen(&[
        (0, 50),
        (2, 60_000),
        (3, 100),
        (4, 4),
        (5, 20),
        (6, 0),
        (7, 10),
        (13, 0),
        (14, 0),
        (16, 60),
        (19, 2),
    ]);
}

/// Two faults that are hidden alone may change the sum when they hold together, and
/// two that change it may be hidden together.
#[test]
fn lines_that_are_stuck_together() {
    let mut both = Both::new(SEED + 29);
    // x1 and its complement of one weight, x2 and its copy of opposite ones.
    let mut sketch = Sketch::new(2);
    let complement = sketch.gate("not", 1, 0);
    let copy = sketch.gate("or", 2, 2);
    for line in [1, complement, 2, copy] {
        sketch.output(line, 1);
    }
    for pairs in [
        &[(1, 0)][..],
        &[(1, 0), (2, 1)],
        &[(1, 0), (complement, 1)],
        &[(complement, 1)],
        &[(2, 0), (copy, 0)],
        &[(copy, 0)],
        &[(1, 1), (2, 0), (complement, 0)],
    ] {
        sketch.fault(pairs);
    }
    let draft = with_weights(&sketch.draft(4), &[4, 4, 9, -9]);
    let due = [16, 16, 16, 0, 16, 0, 16];
    for (fault, due) in draft.faults().iter().zip(due) {
        let alone = draft.with_faults(std::slice::from_ref(fault), 1);
        let found = both.plan_and_report(&alone.text());
        assert_eq!(found.number, due, "{fault:?}");
    }
    assert_eq!(both.plan(&draft.text()), refused(16, 1));
    both.outcomes.assert_seen(&[(0, 4), (16, 11)]);
}
