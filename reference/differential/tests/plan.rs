//! The static library's plan and report calls against the second
//! implementation: number, place, size, all four labels and every byte of the
//! report, with noise in and around all that is lent. Then what follows from the
//! paper's definitions without it.

use differential::both::Both;
use differential::calls::{library_plan, library_report, of_labels, refused};
use differential::lent::Shown;
use differential::library;
use second::bridge_texts;
use second::circuits::{
    largest_report, near_labels, with_line, worst_search, Draft, Sizes, Sketch, DAMAGES, LISTING,
    SILENT_FAULT, TWO_OUTPUTS,
};
use second::devices;
use second::hidden_texts::{no_set, EXCHANGED_OUTPUTS};
use second::lines::TEXT_LIMIT;
use second::plan::{Spectra, CAP_LIMIT, WORKING_NUMBERS};
use second::signed_texts::{self, with_signs};
use second::table_texts::draw_changing;
use second::wide_texts;

const SEED: u64 = 0x504c_414e_5300_0000;

/// Circuits of random parities without silent and hidden faults.
fn sketch(both: &mut Both, inputs: usize, cap: usize) -> Draft {
    loop {
        let draft = Sketch::draw(&mut both.random, inputs).draft(cap);
        if let Some(draft) = draft.only_changing() {
            return draft;
        }
    }
}

/// A drawn circuit without silent and hidden faults.
fn changing_draft(both: &mut Both, inputs: usize) -> Draft {
    loop {
        let drawn = Sizes::draw(&mut both.random);
        let draft = Draft::draw(&mut both.random, Sizes { inputs, ..drawn });
        if let Some(draft) = draft.only_changing() {
            return draft;
        }
    }
}

fn draw_cap(both: &mut Both) -> usize {
    1 + both.random.below(CAP_LIMIT)
}

/// The labels in the order, by its rule.
fn ordered(labels: &[usize]) -> Vec<usize> {
    let mut labels = labels.to_vec();
    labels.sort_by_key(|&label| (label.count_ones(), label));
    labels
}

// Examples and the order.

#[test]
fn examples_of_the_paper() {
    // The answers are the paper's own; the second implementation is not asked.
    let listing = LISTING.as_bytes();
    assert_eq!(library_plan(listing), of_labels(&[1]));
    assert_eq!(
        library_report(listing),
        "plan,1\nlabel,1,-2\nfault,1,1,0\nfault,2,1,-4\n"
    );
    let silent = SILENT_FAULT.as_bytes();
    assert_eq!(library_plan(silent), refused(13, 1));
    assert_eq!(library_report(silent), "refused,13,1\n");
    let pair = TWO_OUTPUTS.as_bytes();
    assert_eq!(library_plan(pair), refused(14, 0));
    assert_eq!(library_report(pair), "refused,14,0\n");
    let pair = with_line(TWO_OUTPUTS, 1, "circuit,2,4,2,2,2");
    assert_eq!(library_plan(&pair), of_labels(&[1, 2]));
    assert!(library_report(&pair).starts_with("plan,2\nlabel,1,-2\nlabel,2,-2\n"));
    assert_eq!(library_plan(b""), refused(2, 1));
    assert_eq!(library_report(b""), "refused,2,1\n");
    let mut long = listing.to_vec();
    long.resize(TEXT_LIMIT + 1, b'\n');
    assert_eq!(library_plan(&long), refused(1, 0));
    assert_eq!(library_report(&long), "refused,1,0\n");
    assert_eq!(library_report(&long[..TEXT_LIMIT]), "refused,7,9\n");
    let nine = with_line(LISTING, 1, "circuit,9,4,1,2,2");
    assert_eq!(library_report(&nine), "refused,3,1\n");
    let eight = with_line(LISTING, 1, "circuit,8,4,1,2,2");
    // Read, and then line 7 is an input, which line 2 does not change.
    assert_eq!(library_plan(&eight), refused(13, 1));
}

#[test]
fn every_label_alone() {
    let mut both = Both::new(SEED + 1);
    for inputs in 1..=8 {
        for label in 0..1 << inputs {
            let weight = 1 + both.random.below(15);
            let sketch = Sketch::complemented(inputs, &[label], &[weight]);
            let cap = draw_cap(&mut both);
            let found = both.plan(&sketch.draft(cap).text());
            assert_eq!(found, of_labels(&[label]), "{inputs} inputs");
        }
    }
    both.outcomes.assert_seen(&[(0, 510)]);
}

#[test]
fn of_two_labels_the_first_in_the_order() {
    let mut both = Both::new(SEED + 2);
    for inputs in 1..=8 {
        let order = ordered(&(0..1 << inputs).collect::<Vec<_>>());
        let mut pairs: Vec<[usize; 2]> = order.windows(2).map(|two| [two[0], two[1]]).collect();
        for _ in 0..100 {
            let labels = near_labels(&mut both.random, inputs, 2);
            pairs.push([labels[0], labels[1]]);
            let any = [0; 2].map(|_| both.random.below(1 << inputs));
            if any[0] != any[1] {
                pairs.push(any);
            }
        }
        for [a, b] in pairs {
            for [a, b] in [[a, b], [b, a]] {
                let text = Sketch::two_labels(inputs, a, b).draft(1).text();
                let found = both.plan(&text);
                assert_eq!(found, of_labels(&ordered(&[a, b])[..1]), "{a} and {b}");
            }
        }
    }
    both.outcomes.assert_seen(&[(0, 3000)]);
}

#[test]
fn parities_within_the_cap_and_beyond() {
    // Each fault has one label, so the plan is all of them or none.
    let mut both = Both::new(SEED + 3);
    for inputs in 1..=8 {
        for count in 1..=7.min(1 << inputs) {
            for cap in 1..=CAP_LIMIT {
                let labels = near_labels(&mut both.random, inputs, count);
                let weights = [0; 4].map(|_| 1 + both.random.below(15));
                let due = match count <= cap {
                    true => of_labels(&ordered(&labels)),
                    false => refused(14, 0),
                };
                let mut sketches = vec![Sketch::paired(inputs, &labels, weights[0])];
                if count <= 4 {
                    sketches.push(Sketch::complemented(inputs, &labels, &weights));
                }
                for sketch in sketches {
                    let text = sketch.draft(cap).text();
                    let found = match inputs < 7 {
                        true => both.plan(&text),
                        // Here trying every set would take long.
                        false => library_plan(&text),
                    };
                    assert_eq!(found, due, "cap {cap}, {labels:?}");
                }
            }
        }
    }
    both.outcomes.assert_seen(&[(0, 90), (14, 90)]);
    both.assert_sizes([40, 30, 18, 8]);
}

#[test]
fn each_fault_decides() {
    // One fault needs a label that no other one needs.
    let mut both = Both::new(SEED + 4);
    for count in 2..=32 {
        for place in 0..count {
            let inputs = 1 + both.random.below(5);
            let labels = near_labels(&mut both.random, inputs, 2);
            let draft = Sketch::paired(inputs, &labels, 1).draft(2);
            let mut faults = vec![draft.faults()[0].clone(); count];
            faults[place] = draft.faults()[1].clone();
            let text = draft.with_faults(&faults, 2).text();
            assert_eq!(both.plan(&text), of_labels(&ordered(&labels)));
            both.report(&text);
            let text = draft.with_faults(&faults, 1).text();
            let found = both.plan(&text);
            assert_eq!(found, refused(14, 0), "fault {} of {count}", place + 1);
        }
    }
    both.outcomes.assert_seen(&[(0, 1000), (14, 500)]);
    both.assert_sizes([0, 500, 0, 0]);
}

// Random circuits.

#[test]
fn circuits_as_they_are_drawn() {
    let mut both = Both::new(SEED + 10);
    for round in 0..1600 {
        let drawn = Sizes::draw(&mut both.random);
        let sizes = Sizes {
            inputs: 1 + round % 8,
            faults: match round % 2 {
                0 => drawn.faults,
                _ => 1 + both.random.below(4),
            },
            ..drawn
        };
        let text = Draft::draw(&mut both.random, sizes).text();
        both.plan(&text);
        both.report(&text);
    }
    // Drawn weights hide next to nothing.
    both.outcomes
        .assert_seen(&[(0, 200), (13, 1500), (14, 0), (16, 0)]);
    assert!(both.silent.len() > 10, "silent: {:?}", both.silent);
}

#[test]
fn circuits_without_silent_faults() {
    let mut both = Both::new(SEED + 11);
    for round in 0..1200 {
        let text = changing_draft(&mut both, 1 + round % 8).text();
        both.plan(&text);
        both.report(&text);
    }
    both.outcomes.assert_seen(&[(0, 1500), (14, 30)]);
    both.assert_sizes([400, 40, 0, 0]);
}

#[test]
fn circuits_of_parities() {
    let mut both = Both::new(SEED + 12);
    for round in 0..3600 {
        let cap = draw_cap(&mut both);
        let text = sketch(&mut both, 1 + round % 6, cap).text();
        both.plan(&text);
        both.report(&text);
    }
    both.outcomes.assert_seen(&[(0, 4000), (14, 1000)]);
    both.assert_sizes([800, 400, 150, 30]);
}

#[test]
fn circuits_of_parities_with_many_labels() {
    let mut both = Both::new(SEED + 13);
    for round in 0..240 {
        // Three of 256 labels, or four of 128, are tried in little time.
        let inputs = 7 + round % 2;
        let cap = 1 + both.random.below(if inputs == 7 { 4 } else { 3 });
        let text = sketch(&mut both, inputs, cap).text();
        both.plan(&text);
    }
    both.outcomes.assert_seen(&[(0, 100), (14, 30)]);
    both.assert_sizes([20, 20, 8, 1]);
}

#[test]
fn four_labels_of_every_count_of_inputs() {
    let mut both = Both::new(SEED + 14);
    for inputs in 2..=7 {
        for _ in 0..12 {
            let labels = near_labels(&mut both.random, inputs, 4);
            let weights = [0; 4].map(|_| 1 + both.random.below(15));
            let sketch = Sketch::complemented(inputs, &labels, &weights);
            let plain = sketch.draft(4);
            // A sign moves no label.
            let signed = with_signs(&mut both.random, &plain);
            for text in [plain.text(), signed.text()] {
                assert_eq!(both.plan(&text), of_labels(&ordered(&labels)));
                both.report(&text);
            }
        }
    }
    both.outcomes.assert_seen(&[(0, 288)]);
    both.assert_sizes([0, 0, 0, 144]);
}

#[test]
fn searches_through_all_labels() {
    let mut both = Both::new(SEED + 15);
    let worst = worst_search();
    let largest = Sizes::LARGEST;
    assert_eq!(worst.sizes, largest);
    assert_eq!(both.plan(&worst.text()), refused(14, 0));
    for cap in 1..=3 {
        assert_eq!(both.plan(&worst.with_cap(cap).text()), refused(14, 0));
    }
    // The last set of all.
    let last = [251, 253, 254, 255];
    let text = Sketch::paired(8, &[255, 254, 253, 251], 3).draft(4).text();
    assert_eq!(both.plan(&text), of_labels(&last));
    // Without the last two of the one-label faults there are three.
    let kept: Vec<_> = worst.faults()[..3]
        .iter()
        .chain(&worst.faults()[5..])
        .cloned()
        .collect();
    let found = both.plan(&worst.with_faults(&kept, 3).text());
    assert_eq!(found, of_labels(&[253, 254, 255]));
    both.outcomes.assert_seen(&[(0, 2), (14, 4)]);
}

// What follows from the definitions.

/// The masks of the labels below 2^N, from the circuit call's coefficients.
fn masks(text: &[u8], faults: usize, labels: usize) -> Vec<u32> {
    let spectrum = |fault| devices::circuit(text, fault, labels).expect("a good circuit");
    let sound = spectrum(0);
    let mut masks = vec![0; labels];
    for fault in 1..=faults {
        let faulted = spectrum(fault as u32);
        for label in 0..labels {
            masks[label] |= u32::from(sound[label] != faulted[label]) << (fault - 1);
        }
    }
    masks
}

/// Asserts that the library's plan of each drawn text is the first of all sets
/// within the cap.
fn assert_no_subset_goes_before(
    subject: u64,
    draw: impl Fn(&mut Both, usize, usize) -> Draft,
) -> Both {
    let mut both = Both::new(SEED + subject);
    for round in 0..600 {
        let inputs = 1 + round % 4;
        let draft = draw(&mut both, round, inputs);
        let text = draft.text();
        let found = library_plan(&text);
        both.outcomes.note(found.number);
        both.sizes[found.size] += 1;
        let labels = 1 << inputs;
        let masks = masks(&text, draft.sizes.faults, labels);
        let all = u32::MAX >> (32 - draft.sizes.faults);
        let covers = |set: &[usize]| set.iter().fold(0, |mask, &label| mask | masks[label]) == all;
        let case = format!("{found:?} for {}", Shown(&text));
        // Every subset as a mask of labels; the best one within the cap.
        let best = (1..1usize << labels)
            .filter(|subset| subset.count_ones() as usize <= draft.sizes.cap)
            .map(|subset| {
                let members: Vec<usize> = (0..labels).filter(|l| subset & 1 << l != 0).collect();
                ordered(&members)
            })
            .filter(|set| covers(set))
            .min_by_key(|set| {
                let keys: Vec<_> = set.iter().map(|l| (l.count_ones(), *l)).collect();
                (set.len(), keys)
            });
        match best {
            Some(set) => assert_eq!(found, of_labels(&set), "{case}"),
            None => assert_eq!(found, refused(14, 0), "{case}"),
        }
    }
    both
}

#[test]
fn no_subset_of_the_labels_goes_before() {
    let both = assert_no_subset_goes_before(20, |both, round, inputs| match round % 3 {
        0 => changing_draft(both, inputs),
        _ => {
            let cap = draw_cap(both);
            sketch(both, inputs, cap)
        }
    });
    both.outcomes.assert_seen(&[(0, 350), (14, 80)]);
    both.assert_sizes([150, 60, 20, 4]);
}

#[test]
fn no_subset_goes_before_in_tables() {
    let both = assert_no_subset_goes_before(23, |both, _, inputs| {
        draw_changing(&mut both.random, inputs)
    });
    both.outcomes.assert_seen(&[(0, 500), (14, 20)]);
    both.assert_sizes([400, 20, 0, 0]);
}

#[test]
fn no_subset_goes_before_under_bridges() {
    let both = assert_no_subset_goes_before(24, |both, _, inputs| {
        bridge_texts::draw_changing(&mut both.random, inputs)
    });
    both.outcomes.assert_seen(&[(0, 400), (14, 20)]);
    both.assert_sizes([300, 50, 10, 1]);
}

#[test]
fn no_subset_goes_before_with_signed_weights() {
    let both = assert_no_subset_goes_before(26, |both, _, inputs| {
        signed_texts::draw_changing(&mut both.random, inputs)
    });
    both.outcomes.assert_seen(&[(0, 400), (14, 20)]);
    both.assert_sizes([200, 50, 10, 1]);
}

#[test]
fn no_subset_goes_before_with_wide_gates() {
    let both = assert_no_subset_goes_before(25, |both, _, inputs| {
        wide_texts::draw_changing(&mut both.random, inputs)
    });
    both.outcomes.assert_seen(&[(0, 400), (14, 20)]);
    both.assert_sizes([200, 50, 10, 1]);
}

#[test]
fn labels_are_in_order_and_cover_each_fault() {
    let mut both = Both::new(SEED + 21);
    for round in 0..1500 {
        let inputs = 1 + round % 8;
        let cap = 1 + both.random.below(if inputs < 7 { 4 } else { 3 });
        let draft = sketch(&mut both, inputs, cap);
        let text = draft.text();
        let found = library_plan(&text);
        both.outcomes.note(found.number);
        if found.number != 0 {
            assert_eq!(found, refused(14, 0), "{}", Shown(&text));
            continue;
        }
        both.sizes[found.size] += 1;
        let labels: Vec<usize> = found.labels[..found.size]
            .iter()
            .map(|&label| label as usize)
            .collect();
        assert_eq!(found, of_labels(&labels), "labels past the size");
        assert!((1..=cap).contains(&found.size), "cap {cap}: {found:?}");
        assert!(labels.iter().all(|&label| label < 1 << inputs), "{found:?}");
        let keys: Vec<_> = labels.iter().map(|l| (l.count_ones(), *l)).collect();
        assert!(keys.windows(2).all(|two| two[0] < two[1]), "{found:?}");
        let spectra = Spectra::of(&devices::parse(&text).expect("a good circuit"));
        for fault in 0..draft.sizes.faults {
            assert!(
                labels.iter().any(|&label| spectra.covers(label, fault)),
                "{found:?}: fault {} of {}",
                fault + 1,
                Shown(&text)
            );
        }
    }
    both.outcomes.assert_seen(&[(0, 800), (14, 300)]);
    both.assert_sizes([300, 150, 60, 8]);
}

#[test]
fn caps_and_the_order_of_faults() {
    let mut both = Both::new(SEED + 22);
    for round in 0..500 {
        let draft = sketch(&mut both, 1 + round % 6, CAP_LIMIT);
        both.caps_and_orders(&draft);
    }
    both.outcomes.assert_seen(&[(0, 1500), (14, 500)]);
    both.assert_sizes([600, 300, 100, 30]);
}

// Refusals.

#[test]
fn silent_faults_at_each_place() {
    let mut both = Both::new(SEED + 30);
    let listing = Draft {
        sizes: Sizes {
            inputs: 3,
            gates: 4,
            outputs: 1,
            faults: 2,
            cap: 2,
        },
        lines: LISTING
            .lines()
            .map(|line| line.split(',').map(String::from).collect())
            .collect(),
    };
    assert_eq!(listing.text(), LISTING.as_bytes());
    let changing = listing.faults().to_vec();
    // A gate that nothing reads, so that its line is silent.
    let mut draft = listing.clone();
    draft
        .lines
        .insert(5, ["gate", "xor", "1", "1"].map(String::from).into());
    draft.sizes.gates += 1;
    let silent: Vec<String> = ["fault", "8", "1"].map(String::from).into();
    for count in 1..=32 {
        for place in 1..=count {
            let mut faults: Vec<_> = changing.iter().cycle().take(count).cloned().collect();
            faults[place - 1] = silent.clone();
            let text = draft.with_faults(&faults, 1).text();
            assert_eq!(both.plan(&text), refused(13, place), "of {count}");
            let due = format!("refused,13,{place}\n");
            assert_eq!(both.report(&text), due.as_bytes());
            // Others after it.
            for later in &mut faults[place..] {
                if both.random.once_in(3) {
                    *later = silent.clone();
                }
            }
            let text = draft.with_faults(&faults, 4).text();
            assert_eq!(both.plan(&text), refused(13, place), "of {count}");
        }
    }
    both.outcomes.assert_seen(&[(13, 1500)]);
    assert!(both.silent.iter().copied().eq(1..=32), "{:?}", both.silent);
}

/// Five faults of one label each with a cap of four, and one more, which decides at
/// each place; `which` is 0 for a hidden one, two of the stuck lines at once, and 1
/// for a silent one, a line that nothing reads.
fn assert_goes_before_no_set(subject: u64, which: usize, number: u32) {
    let mut both = Both::new(SEED + subject);
    for inputs in 3..=5 {
        let (draft, more) = no_set(&mut both.random, inputs);
        assert_eq!(both.plan(&draft.text()), refused(14, 0));
        for place in 0..=5 {
            let mut faults = draft.faults().to_vec();
            faults.insert(place, more[which].clone());
            let text = draft.with_faults(&faults, 4).text();
            assert_eq!(both.plan(&text), refused(number, place + 1));
        }
    }
    both.outcomes.assert_seen(&[(number, 18), (14, 3)]);
}

#[test]
fn hidden_goes_before_no_set() {
    assert_goes_before_no_set(31, 0, 16);
}

#[test]
fn silent_goes_before_no_set() {
    assert_goes_before_no_set(36, 1, 13);
}

/// A text for each outcome but 8.
fn texts_by_outcome() -> Vec<(Vec<u8>, u32)> {
    let listing = LISTING.as_bytes();
    let mut texts = vec![
        (listing.to_vec(), 0),
        (largest_report().text(), 0),
        (vec![b'x'; TEXT_LIMIT + 1], 1),
        (Vec::new(), 2),
        (listing[..listing.len() - 1].to_vec(), 2),
        ([listing, b"\n"].concat(), 7),
        (SILENT_FAULT.as_bytes().to_vec(), 13),
        (TWO_OUTPUTS.as_bytes().to_vec(), 14),
        (EXCHANGED_OUTPUTS.as_bytes().to_vec(), 16),
    ];
    for (place, line, number) in [
        (1, "circuit,9,4,1,2,2", 3),
        (3, "gate,and,3,5", 4),
        (4, "gate,not,4,0,0", 2),
        (5, "gate,or,1,5,0", 3),
        (5, "gate,or,1,2,6,7", 4),
        (6, "output,8,1", 5),
        (7, "fault,2,0,1,0", 6),
    ] {
        texts.push((with_line(LISTING, place, line), number));
    }
    texts
}

#[test]
fn working_buffers_short_exact_and_longer() {
    let mut both = Both::new(SEED + 32);
    for (text, number) in texts_by_outcome() {
        both.working_buffers(&text, number);
    }
    let least: Vec<(u32, usize)> = (0..=8).chain([13, 14, 16]).map(|n| (n, 4)).collect();
    both.outcomes.assert_seen(&least);
}

#[test]
fn working_numbers_may_hold_anything() {
    let mut both = Both::new(SEED + 33);
    let mut left_over = vec![0; WORKING_NUMBERS];
    for round in 0..400 {
        let cap = draw_cap(&mut both);
        let text = sketch(&mut both, 1 + round % 6, cap).text();
        let due = both.plan(&text);
        for fill in [0, 1, u32::MAX, 1 << 31] {
            let found = library::plan(&text, &mut vec![fill; WORKING_NUMBERS]);
            assert_eq!(found, due, "filled with {fill}: {}", Shown(&text));
        }
        // What the calls before have left there.
        let found = library::plan(&text, &mut left_over);
        assert_eq!(found, due, "{}", Shown(&text));
    }
    both.outcomes.assert_seen(&[(0, 250), (14, 50)]);
}

#[test]
fn damaged_texts() {
    let mut both = Both::new(SEED + 34);
    for round in 0..500 {
        let cap = draw_cap(&mut both);
        let draft = match round % 2 {
            0 => sketch(&mut both, 1 + round % 5, cap),
            _ => changing_draft(&mut both, 1 + round % 5),
        };
        for damage in &DAMAGES {
            let text = (damage.apply)(&mut both.random, &draft);
            let working = both.random.room(WORKING_NUMBERS);
            both.plan_with(&text, working);
            if both.random.once_in(4) {
                both.report(&text);
            }
        }
    }
    both.outcomes.assert_seen(&[
        (0, 300),
        (2, 3000),
        (3, 300),
        (4, 100),
        (5, 60),
        (6, 100),
        (7, 500),
        (8, 20),
        (13, 20),
        (14, 20),
    ]);
}

#[test]
fn every_byte_of_the_listing_changed() {
    let mut both = Both::new(SEED + 35);
    let listing = LISTING.as_bytes();
    for at in 0..listing.len() {
        both.plan(&listing[..at]);
        for byte in *b"0123456789,\nax" {
            let mut text = listing.to_vec();
            text[at] = byte;
            both.plan(&text);
            both.report(&text);
        }
    }
    both.outcomes.assert_seen(&[
        (0, 100),
        (2, 1000),
        (3, 50),
        (4, 20),
        (5, 10),
        (7, 2),
        (13, 4),
    ]);
}

// Reports.

#[test]
fn buffers_of_the_report() {
    let mut both = Both::new(SEED + 40);
    for (text, number) in texts_by_outcome() {
        both.report_buffers(&text, number);
    }
    let least: Vec<(u32, usize)> = (0..=8).chain([13, 14, 16]).map(|n| (n, 12)).collect();
    both.outcomes.assert_seen(&least);
}

#[test]
fn the_largest_report() {
    // 7 bytes, four lines of 16, nine of 18 and 23 of 19.
    let mut both = Both::new(SEED + 41);
    let text = largest_report().text();
    let bytes = both.report(&text);
    assert_eq!(bytes.len(), 7 + 4 * 16 + 9 * 18 + 23 * 19);
    let report = library_report(&text);
    assert_eq!(report.as_bytes(), bytes);
    assert!(report.starts_with("plan,4\nlabel,128,-1920\nlabel,160,-1920\n"));
    assert!(report.contains("\nfault,1,128,-1440\n"));
    assert!(report.ends_with("\nfault,32,224,-1440\n"));
}

/// Asserts that reports are line by line what the library's own plan and
/// coefficients say; gives how many faults the first label does not cover.
fn assert_reports_agree(both: &mut Both, draw: impl Fn(&mut Both, usize) -> Draft) -> usize {
    let mut later = 0;
    for round in 0..600 {
        let inputs = 1 + round % 6;
        let draft = draw(both, inputs);
        let text = draft.text();
        let found = library_plan(&text);
        if found.number != 0 {
            continue;
        }
        let spectrum = |fault: usize| {
            let mut out = vec![0; 1 << inputs];
            let found = library::circuit(&text, fault as u32, &mut out);
            assert_eq!(found.number, 0);
            out
        };
        let sound = spectrum(0);
        let labels: Vec<usize> = found.labels[..found.size]
            .iter()
            .map(|&label| label as usize)
            .collect();
        let report = both.report(&text);
        let report = std::str::from_utf8(&report).expect("plain text");
        let mut lines = report.split_terminator('\n');
        let mut next = || lines.next().expect("a line");
        assert_eq!(next(), format!("plan,{}", labels.len()));
        for &label in &labels {
            assert_eq!(next(), format!("label,{label},{}", sound[label]));
        }
        for fault in 1..=draft.sizes.faults {
            let faulted = spectrum(fault);
            let first = labels
                .iter()
                .position(|&label| faulted[label] != sound[label]);
            let first = first.expect("a covering label");
            later += usize::from(first > 0);
            let label = labels[first];
            assert_eq!(next(), format!("fault,{fault},{label},{}", faulted[label]));
        }
        assert_eq!(lines.next(), None);
        assert!(report.ends_with('\n'));
    }
    later
}

#[test]
fn reports_agree_with_the_plan_and_the_circuit_call() {
    let mut both = Both::new(SEED + 42);
    let later = assert_reports_agree(&mut both, |both, inputs| sketch(both, inputs, CAP_LIMIT));
    both.outcomes.assert_seen(&[(0, 300)]);
    assert!(
        later > 500,
        "faults not covered by the first label: {later}"
    );
}

#[test]
fn reports_on_tables_agree_with_the_plan_and_the_circuit_call() {
    let mut both = Both::new(SEED + 43);
    let later = assert_reports_agree(&mut both, |both, inputs| {
        draw_changing(&mut both.random, inputs).with_cap(CAP_LIMIT)
    });
    both.outcomes.assert_seen(&[(0, 500)]);
    assert!(
        later > 300,
        "faults not covered by the first label: {later}"
    );
}

#[test]
fn reports_under_bridges_agree_with_the_plan_and_the_circuit_call() {
    let mut both = Both::new(SEED + 44);
    let later = assert_reports_agree(&mut both, |both, inputs| {
        bridge_texts::draw_changing(&mut both.random, inputs).with_cap(CAP_LIMIT)
    });
    both.outcomes.assert_seen(&[(0, 400)]);
    assert!(
        later > 300,
        "faults not covered by the first label: {later}"
    );
}

#[test]
fn reports_with_signed_weights_agree_with_the_plan_and_the_circuit_call() {
    let mut both = Both::new(SEED + 46);
    let later = assert_reports_agree(&mut both, |both, inputs| {
        signed_texts::draw_changing(&mut both.random, inputs).with_cap(CAP_LIMIT)
    });
    both.outcomes.assert_seen(&[(0, 400)]);
    assert!(
        later > 300,
        "faults not covered by the first label: {later}"
    );
}

#[test]
fn reports_with_wide_gates_agree_with_the_plan_and_the_circuit_call() {
    let mut both = Both::new(SEED + 45);
    let later = assert_reports_agree(&mut both, |both, inputs| {
        wide_texts::draw_changing(&mut both.random, inputs).with_cap(CAP_LIMIT)
    });
    both.outcomes.assert_seen(&[(0, 400)]);
    assert!(
        later > 300,
        "faults not covered by the first label: {later}"
    );
}
