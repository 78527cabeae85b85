//! The static library against the second implementation: number, place and
//! the whole lent buffer, with noise in and around it, at every comparison.

use differential::library::{self, Reply};
use differential::outcomes::{compare, written, Outcomes};
use second::bridge_texts::EXAMPLE_ONES;
use second::random::Random;
use second::walsh::{self, Refusal, COEFFICIENT_LIMIT, ROW_LIMIT};
use std::fmt;

const LENGTHS: [usize; 11] = [2, 4, 8, 16, 32, 64, 128, 256, 512, 1024, 2048];
const BAD_LENGTHS: [usize; 10] = [0, 1, 3, 5, 6, 7, 2047, 2049, 4096, 8192];
const SEED: u64 = 0x5741_4c53_4800_0000;

/// Random rounds at a length: many short lists, fewer long ones.
fn rounds(length: usize) -> usize {
    (60_000 / length).clamp(40, 800)
}

/// A list in a message: whole when short, else its start.
struct Shown<'a>(&'a [i32]);

impl fmt::Display for Shown<'_> {
    fn fmt(&self, f: &mut fmt::Formatter) -> fmt::Result {
        let start = &self.0[..self.0.len().min(16)];
        write!(f, "{} numbers {start:?}", self.0.len())?;
        if start.len() < self.0.len() {
            write!(f, " and so on")?;
        }
        Ok(())
    }
}

/// Both implementations, the noise for lent buffers, and how often each
/// outcome came.
struct Both {
    random: Random,
    outcomes: Outcomes,
    /// How often 10 or 11 came with a place other than 0.
    placed: usize,
}

impl Both {
    fn new(subject: u64) -> Self {
        Both {
            random: Random::new(SEED + subject),
            outcomes: Outcomes::default(),
            placed: 0,
        }
    }

    /// Lends a buffer of `room` numbers to the library and holds all that
    /// comes back against what is due.
    fn settle(
        &mut self,
        case: fmt::Arguments,
        room: usize,
        due: Result<Vec<i32>, Refusal>,
        call: impl FnOnce(&mut [i32]) -> Reply,
    ) -> (u32, usize) {
        let (number, place) = compare(&mut self.random, case, room, &due, call);
        self.note(number, place)
    }

    fn note(&mut self, number: u32, place: usize) -> (u32, usize) {
        self.outcomes.note(number);
        if place != 0 {
            self.placed += 1;
        }
        (number, place)
    }

    fn coefficient(&mut self, rows: &[i32], label: u32) -> (u32, usize) {
        let found = library::coefficient(rows, label);
        let due = match walsh::coefficient(rows, label) {
            Ok(value) => (0, value, 0),
            Err(refusal) => (refusal.number, 0, refusal.place),
        };
        assert_eq!(
            (found.number, found.value, found.place),
            due,
            "coefficient at {label} of {}: left the library, right what is due",
            Shown(rows)
        );
        self.note(found.number, found.place)
    }

    fn spectrum(&mut self, rows: &[i32], room: usize) -> (u32, usize) {
        let due = walsh::spectrum(rows, room);
        let case = format_args!("spectrum of {}", Shown(rows));
        self.settle(case, room, due, |out| library::spectrum(rows, out))
    }

    fn rows(&mut self, coefficients: &[i32], room: usize) -> (u32, usize) {
        let due = walsh::rows(coefficients, room);
        let case = format_args!("rows of {}", Shown(coefficients));
        self.settle(case, room, due, |out| library::rows(coefficients, out))
    }

    fn stuck(
        &mut self,
        coefficients: &[i32],
        inputs: &[u32],
        values: &[u32],
        room: usize,
    ) -> (u32, usize) {
        let due = walsh::stuck(coefficients, inputs, values, room);
        let list = Shown(coefficients);
        let case = format_args!("inputs {inputs:?} stuck at {values:?} of {list}");
        self.settle(case, room, due, |out| {
            library::stuck(coefficients, inputs, values, out)
        })
    }

    fn opened(&mut self, coefficients: &[i32], values: &[u32], room: usize) -> (u32, usize) {
        let due = walsh::opened(coefficients, values, room);
        let list = Shown(coefficients);
        let case = format_args!("opened lines at {values:?} of {list}");
        self.settle(case, room, due, |out| {
            library::opened(coefficients, values, out)
        })
    }

    fn bridged(
        &mut self,
        coefficients: &[i32],
        [first, second]: [u32; 2],
        room: usize,
    ) -> (u32, usize) {
        let due = walsh::bridged(coefficients, first, second, room);
        let list = Shown(coefficients);
        let case = format_args!("inputs {first} and {second} bridged of {list}");
        self.settle(case, room, due, |out| {
            library::bridged(coefficients, first, second, out)
        })
    }

    /// A list of one of several makes, each in range.
    fn list(&mut self, length: usize, limit: i32) -> Vec<i32> {
        let random = &mut self.random;
        match random.below(6) {
            0 => random.list(length, 1),
            1 => (0..length).map(|_| random.between(0, 1)).collect(),
            2 => (0..length).map(|_| random.pick(&[-limit, limit])).collect(),
            3 => {
                let mut list = vec![0; length];
                list[random.below(length)] = random.between(-limit, limit);
                list
            }
            _ => random.list(length, limit),
        }
    }

    /// Puts numbers out of range at one to three random indices.
    fn spoil(&mut self, list: &mut [i32], limit: i32) {
        for _ in 0..1 + self.random.below(3) {
            let at = self.random.below(list.len());
            list[at] = self.random.pick(&bad_numbers(limit));
        }
    }

    /// Now and then numbers out of range, or a length that is none.
    fn spoil_at_times(&mut self, list: &mut Vec<i32>, limit: i32) {
        if self.random.once_in(6) {
            self.spoil(list, limit);
        }
        if self.random.once_in(12) {
            list.pop();
        }
    }

    /// Multiples of 8: sums of them over opened lines divide.
    fn eights(&mut self, length: usize, limit: i32) -> Vec<i32> {
        let eighths = self.random.list(length, limit / 8);
        eighths.iter().map(|number| 8 * number).collect()
    }

    /// Even numbers: every half of a sum of two is whole.
    fn evens(&mut self, length: usize, limit: i32) -> Vec<i32> {
        let halves = self.random.list(length, limit / 2);
        halves.iter().map(|number| 2 * number).collect()
    }

    /// Two rising inputs of n.
    fn bridge(&mut self, n: usize) -> [u32; 2] {
        self.random.pick(&bridges(n))
    }

    /// One to three rising inputs of n, and values.
    fn fault(&mut self, n: usize) -> (Vec<u32>, Vec<u32>) {
        let count = 1 + self.random.below(n.min(3));
        let mut inputs: Vec<u32> = Vec::new();
        while inputs.len() < count {
            let input = 1 + self.random.below(n) as u32;
            if !inputs.contains(&input) {
                inputs.push(input);
            }
        }
        inputs.sort_unstable();
        let values = self.values(count);
        (inputs, values)
    }

    fn values(&mut self, count: usize) -> Vec<u32> {
        (0..count).map(|_| self.random.below(2) as u32).collect()
    }

    fn spectrum_of_rows(&mut self, length: usize) -> (Vec<i32>, Vec<i32>) {
        let rows = self.list(length, ROW_LIMIT);
        let spectrum = due_spectrum(&rows);
        (rows, spectrum)
    }
}

/// The number of inputs of a list.
fn inputs_of(length: usize) -> usize {
    length.trailing_zeros() as usize
}

/// Every two rising inputs of n.
fn bridges(n: usize) -> Vec<[u32; 2]> {
    let n = n as u32;
    (2..=n)
        .flat_map(|second| (1..second).map(move |first| [first, second]))
        .collect()
}

/// The label without the two inputs.
fn without(label: usize, bridge: [u32; 2]) -> usize {
    bridge
        .iter()
        .fold(label, |label, input| label & !(1 << (input - 1)))
}

fn bad_numbers(limit: i32) -> [i32; 6] {
    [
        limit + 1,
        -limit - 1,
        limit + 2048,
        -2 * limit,
        i32::MIN,
        i32::MAX,
    ]
}

fn due_spectrum(rows: &[i32]) -> Vec<i32> {
    walsh::spectrum(rows, rows.len())
        .unwrap_or_else(|refusal| panic!("spectrum of {}: {refusal:?}", Shown(rows)))
}

/// The library's spectrum, without the second implementation.
fn library_spectrum(rows: &[i32]) -> Vec<i32> {
    let case = format_args!("spectrum of {}", Shown(rows));
    written(case, rows.len(), |out| library::spectrum(rows, out))
}

/// The library's way back, without the second implementation.
fn library_rows(coefficients: &[i32]) -> Vec<i32> {
    let case = format_args!("rows of {}", Shown(coefficients));
    written(case, coefficients.len(), |out| {
        library::rows(coefficients, out)
    })
}

/// The library's bridge, without the second implementation.
fn library_bridged(coefficients: &[i32], [first, second]: [u32; 2]) -> Vec<i32> {
    let case = format_args!("{first} and {second} of {}", Shown(coefficients));
    written(case, coefficients.len(), |out| {
        library::bridged(coefficients, first, second, out)
    })
}

/// Asserts that `call`, a fault's call on the spectrum of `rows`, writes the
/// spectrum of `faulted`, the rows under that fault.
fn assert_sums(
    case: fmt::Arguments,
    [rows, faulted]: [&[i32]; 2],
    call: impl FnOnce(&mut [i32]) -> Reply,
) {
    let case = format_args!("{case} on rows {}", Shown(rows));
    assert_eq!(
        written(case, faulted.len(), call),
        due_spectrum(faulted),
        "{case}: right the faulted rows' sums"
    );
}

/// Lists at the limits of a range, each with no number out of it.
fn extremes(length: usize, limit: i32) -> Vec<Vec<i32>> {
    let alternating = |low: i32, high: i32| {
        (0..length)
            .map(|at| if at % 2 == 0 { high } else { low })
            .collect()
    };
    vec![
        vec![0; length],
        vec![limit; length],
        vec![-limit; length],
        alternating(-limit, limit),
        alternating(limit, -limit),
        alternating(0, limit),
        alternating(-limit, 0),
        (0..length)
            .map(|at| if at < length / 2 { limit } else { -limit })
            .collect(),
    ]
}

/// The first, a middle and the last index.
fn indices(length: usize) -> [usize; 3] {
    [0, length / 2, length - 1]
}

/// Every list of `count` numbers below `bound`.
fn tuples(count: usize, bound: u32) -> Vec<Vec<u32>> {
    let mut all = vec![Vec::new()];
    for _ in 0..count {
        all = all
            .iter()
            .flat_map(|start: &Vec<u32>| {
                (0..bound).map(|next| {
                    let mut longer = start.clone();
                    longer.push(next);
                    longer
                })
            })
            .collect();
    }
    all
}

/// The rows when inputs are stuck: a row's number gets the stuck bits.
fn stuck_rows(rows: &[i32], inputs: &[u32], values: &[u32]) -> Vec<i32> {
    (0..rows.len())
        .map(|row| {
            let mut shown = row;
            for (&input, &value) in inputs.iter().zip(values) {
                let bit = 1 << (input - 1);
                shown = if value == 1 {
                    shown | bit
                } else {
                    shown & !bit
                };
            }
            rows[shown]
        })
        .collect()
}

/// The rows when two inputs are bridged: neither bit of a row's number stays
/// where one of them is 0.
fn bridged_rows(rows: &[i32], bridge: [u32; 2]) -> Vec<i32> {
    (0..rows.len())
        .map(|row| {
            let both = bridge.iter().all(|input| row >> (input - 1) & 1 == 1);
            rows[if both { row } else { without(row, bridge) }]
        })
        .collect()
}

/// The rows of the first n inputs when the lines after them are stuck.
fn opened_rows(rows: &[i32], values: &[u32]) -> Vec<i32> {
    let n = inputs_of(rows.len()) - values.len();
    (0..1 << n)
        .map(|row| {
            let mut shown = row;
            for (line, &value) in values.iter().enumerate() {
                shown += (value as usize) << (n + line);
            }
            rows[shown]
        })
        .collect()
}

#[test]
fn examples_of_the_paper() {
    // The numbers are the paper's own; the second implementation is not asked.
    let spectrum_of = |ones: &[usize], length: usize| {
        let mut rows = vec![0; length];
        ones.iter().for_each(|&row| rows[row] = 1);
        library_spectrum(&rows)
    };
    let ones_of = |n: usize, function: fn(&dyn Fn(usize) -> bool) -> bool| -> Vec<usize> {
        (0..1 << n)
            .filter(|&row: &usize| function(&|input| row & (1 << (input - 1)) != 0))
            .collect()
    };

    let figure = [7, -1, -1, -1, -1, 3, 3, -1, -3, -3, 1, 1, -3, 1, -3, 1];
    assert_eq!(spectrum_of(&[5, 7, 8, 9, 10, 14, 15], 16), figure);

    let ones = ones_of(3, |x| x(1) && x(2) || x(3) && !x(2));
    assert_eq!(spectrum_of(&ones, 8), [4, -2, 0, 2, -2, 0, -2, 0]);

    let spectrum = spectrum_of(&ones_of(3, |x| x(1) && x(2) || x(3)), 8);
    assert_eq!(spectrum[0], 5);
    for (input, value, sum) in [(1, 0, 4), (1, 1, 6), (3, 0, 2), (3, 1, 8)] {
        let case = format_args!("x{input} stuck at {value}");
        let found = written(case, 8, |out| {
            library::stuck(&spectrum, &[input], &[value], out)
        });
        assert_eq!(found[0], sum, "{case}");
    }

    let ones = ones_of(4, |x| x(1) && x(2) && x(3) || x(4) && !(x(2) && x(3)));
    let spectrum = spectrum_of(&ones, 16);
    assert_eq!(spectrum[0], 8);
    for (values, sum) in [([0, 0], 8), ([1, 0], 8), ([0, 1], 4), ([1, 1], 12)] {
        let case = format_args!("x1, x2 stuck at {values:?}");
        let found = written(case, 16, |out| {
            library::stuck(&spectrum, &[1, 2], &values, out)
        });
        assert_eq!(found[0], sum, "{case}");
    }

    // Line 5 stands for x2x3 of the first product.
    let ones = ones_of(5, |x| x(1) && x(5) || x(4) && !(x(2) && x(3)));
    let spectrum = spectrum_of(&ones, 32);
    assert_eq!((spectrum[0], spectrum[16]), (17, -5));
    for (value, sum) in [(0, 6), (1, 11)] {
        let case = format_args!("opened line stuck at {value}");
        let found = written(case, 16, |out| library::opened(&spectrum, &[value], out));
        assert_eq!(found[0], sum, "{case}");
    }
}

/// Example 6.2 of source document 004, and those of note 8.
#[test]
fn examples_of_bridges() {
    let mut rows = vec![0; 16];
    EXAMPLE_ONES.iter().for_each(|&row| rows[row] = 1);
    let spectrum = library_spectrum(&rows);
    let due = [7, 1, 3, 1, -1, -3, -1, 1, 3, 1, -1, 1, -1, 1, -1, 5];
    assert_eq!(spectrum, due);
    for (bridge, sum) in [
        ([1, 2], 10),
        ([1, 3], 4),
        ([1, 4], 10),
        ([2, 4], 9),
        ([2, 3], 7),
        ([3, 4], 7),
    ] {
        assert_eq!(library_bridged(&spectrum, bridge)[0], sum, "{bridge:?}");
    }
    let listing = [4, -2, 0, 2, -2, 0, -2, 0];
    let due = [2, -2, 0, 0, -2, 2, 0, 0];
    assert_eq!(library_bridged(&listing, [1, 3]), due);
    let mut out = [9; 8];
    let reply = library::bridged(&[0, 0, 0, 0, 0, 1, 0, 0], 1, 2, &mut out);
    assert_eq!((reply.number, reply.place, out), (11, 4, [9; 8]));
}

// Lists that every list call must refuse or take in the same way.

/// A list call with arguments that suit any length from 4 up; the stuck
/// and opened ones take one line, the bridged one two.
type Call = fn(&mut Both, &[i32], usize) -> (u32, usize);

struct Subject {
    name: &'static str,
    call: Call,
    limit: i32,
    /// Numbers due in the buffer for a list of this length.
    due: fn(usize) -> usize,
    shortest: usize,
}

const SUBJECTS: [Subject; 5] = [
    Subject {
        name: "spectrum",
        call: |both, list, room| both.spectrum(list, room),
        limit: ROW_LIMIT,
        due: |length| length,
        shortest: 2,
    },
    Subject {
        name: "rows",
        call: |both, list, room| both.rows(list, room),
        limit: COEFFICIENT_LIMIT,
        due: |length| length,
        shortest: 2,
    },
    Subject {
        name: "stuck",
        call: |both, list, room| both.stuck(list, &[1], &[1], room),
        limit: COEFFICIENT_LIMIT,
        due: |length| length,
        shortest: 2,
    },
    Subject {
        name: "opened",
        call: |both, list, room| both.opened(list, &[1], room),
        limit: COEFFICIENT_LIMIT,
        due: |length| length / 2,
        shortest: 4,
    },
    Subject {
        name: "bridged",
        call: |both, list, room| both.bridged(list, [1, 2], room),
        limit: COEFFICIENT_LIMIT,
        due: |length| length,
        shortest: 4,
    },
];

#[test]
fn every_length_up_to_2100() {
    let mut both = Both::new(1);
    for length in (0..=2100)
        .chain(BAD_LENGTHS)
        .chain([1 << 16, (1 << 20) + 2])
    {
        let zeros = vec![0; length];
        let good = LENGTHS.contains(&length);
        let due = (if good { 0 } else { 9 }, 0);
        for subject in &SUBJECTS {
            if length == 2 && subject.shortest > 2 {
                continue;
            }
            let found = (subject.call)(&mut both, &zeros, length);
            assert_eq!(found, due, "{} of {length} zeros", subject.name);
        }
        let found = both.coefficient(&zeros, 0);
        assert_eq!(found, due, "coefficient of {length} zeros");
    }
    both.outcomes.assert_seen(&[(0, 54), (9, 10_000)]);
}

#[test]
fn first_number_out_of_range() {
    let mut both = Both::new(2);
    for subject in &SUBJECTS {
        for length in LENGTHS.into_iter().filter(|&l| l >= subject.shortest) {
            let zeros = vec![0; length];
            for at in indices(length) {
                for bad in bad_numbers(subject.limit) {
                    let mut list = zeros.clone();
                    list[at] = bad;
                    let found = (subject.call)(&mut both, &list, length);
                    assert_eq!(found, (10, at), "{}: {bad} at {at}", subject.name);
                    // A later one does not move the place.
                    for later in &mut list[at..] {
                        *later = bad;
                    }
                    let found = (subject.call)(&mut both, &list, length);
                    assert_eq!(found, (10, at), "{}: {bad} from {at}", subject.name);
                    let label = (length - 1) as u32;
                    if subject.limit == ROW_LIMIT {
                        let found = both.coefficient(&list, label);
                        assert_eq!(found, (10, at), "coefficient: {bad} from {at}");
                    }
                }
            }
        }
    }
    both.outcomes.assert_seen(&[(10, 1500)]);
    assert!(both.placed > 1000, "places beyond 0: {}", both.placed);
}

#[test]
fn every_index_out_of_range() {
    let mut both = Both::new(3);
    for subject in &SUBJECTS {
        for length in [4, 64, 2048] {
            let mut list = vec![0; length];
            for at in 0..length {
                list[at] = -subject.limit - 1;
                let found = (subject.call)(&mut both, &list, length);
                assert_eq!(found, (10, at), "{} of {length}", subject.name);
                list[at] = 0;
            }
        }
    }
    both.outcomes.assert_seen(&[(10, 8000)]);
}

#[test]
fn buffers_too_short_exact_and_longer() {
    let mut both = Both::new(4);
    for subject in &SUBJECTS {
        for length in LENGTHS.into_iter().filter(|&l| l >= subject.shortest) {
            // A spectrum of rows divides in each call that divides.
            let rows = both.random.list(length, ROW_LIMIT);
            let list = if subject.limit == ROW_LIMIT {
                rows
            } else {
                due_spectrum(&rows)
            };
            let due = (subject.due)(length);
            for short in [0, 1, due / 2, due - 1] {
                if short < due {
                    let found = (subject.call)(&mut both, &list, short);
                    assert_eq!(found, (8, 0), "{} of {length}, {short}", subject.name);
                }
            }
            for room in [due, due + 1, due + 2, due + 100, 2 * due, 4 * due] {
                let found = (subject.call)(&mut both, &list, room);
                assert_eq!(found, (0, 0), "{} of {length}, {room}", subject.name);
            }
        }
    }
    both.outcomes.assert_seen(&[(0, 250), (8, 150)]);
}

#[test]
fn extremes_of_each_range() {
    let mut both = Both::new(5);
    for subject in &SUBJECTS {
        for length in LENGTHS.into_iter().filter(|&l| l >= subject.shortest) {
            for list in extremes(length, subject.limit) {
                let (number, _) = (subject.call)(&mut both, &list, length + 3);
                if subject.name == "rows" {
                    // No rows in range have these, save for zeros.
                    let zero = list.iter().all(|&number| number == 0);
                    assert_eq!(number == 0, zero, "rows of {}", Shown(&list));
                } else {
                    assert_eq!(number, 0, "{} of {}", subject.name, Shown(&list));
                }
            }
            for beyond in [subject.limit + 1, -subject.limit - 1, i32::MIN, i32::MAX] {
                let found = (subject.call)(&mut both, &vec![beyond; length], length + 3);
                assert_eq!(found, (10, 0), "{} of {beyond}", subject.name);
            }
        }
    }
    both.outcomes.assert_seen(&[(0, 250), (10, 150), (11, 50)]);
}

#[test]
fn two_refusals_at_once_in_every_list_call() {
    let mut both = Both::new(6);
    for subject in &SUBJECTS {
        let Subject {
            name, call, limit, ..
        } = *subject;
        for length in BAD_LENGTHS.into_iter().filter(|&l| l > 0) {
            let mut list = vec![0; length];
            assert_eq!(call(&mut both, &list, 0), (9, 0), "{name}: 9 and 8");
            list[length - 1] = limit + 1;
            assert_eq!(call(&mut both, &list, length), (9, 0), "{name}: 9 and 10");
            assert_eq!(call(&mut both, &list, 0), (9, 0), "{name}: 9, 10 and 8");
        }
        for length in LENGTHS.into_iter().filter(|&l| l >= subject.shortest) {
            for at in indices(length) {
                let mut list = vec![0; length];
                list[at] = -limit - 1;
                for room in [0, (subject.due)(length) - 1] {
                    let found = call(&mut both, &list, room);
                    assert_eq!(found, (10, at), "{name} of {length}: 10 and 8");
                }
            }
        }
        assert_eq!(
            call(&mut both, &[], 0),
            (9, 0),
            "{name}: empty list and buffer"
        );
    }
    both.outcomes.assert_seen(&[(9, 100), (10, 200)]);
}

// One coefficient.

#[test]
fn coefficient_at_random_labels() {
    let mut both = Both::new(10);
    for length in LENGTHS {
        for _ in 0..rounds(length) {
            let mut rows = both.list(length, ROW_LIMIT);
            both.spoil_at_times(&mut rows, ROW_LIMIT);
            let label = match both.random.below(6) {
                0 => length as u32 + both.random.below(10) as u32,
                1 => both.random.word() as u32,
                _ => both.random.below(length) as u32,
            };
            both.coefficient(&rows, label);
        }
    }
    both.outcomes
        .assert_seen(&[(0, 1000), (9, 100), (10, 100), (12, 300)]);
}

#[test]
fn coefficient_at_every_label() {
    let mut both = Both::new(11);
    for length in LENGTHS {
        let rows = both.random.list(length, ROW_LIMIT);
        for (label, &listed) in library_spectrum(&rows).iter().enumerate() {
            both.coefficient(&rows, label as u32);
            let found = library::coefficient(&rows, label as u32);
            assert_eq!(
                found.value, listed,
                "label {label} of {length}: left the one call, right the list call"
            );
        }
    }
    both.outcomes.assert_seen(&[(0, 4094)]);
}

#[test]
fn coefficient_at_the_ends_and_extremes() {
    let mut both = Both::new(12);
    for length in LENGTHS {
        let last = (length - 1) as u32;
        for rows in extremes(length, ROW_LIMIT) {
            for label in [0, 1, length as u32 / 2, last] {
                assert_eq!(both.coefficient(&rows, label), (0, 0), "label {label}");
            }
            for label in [length as u32, 2 * length as u32, 1 << 31, u32::MAX] {
                assert_eq!(both.coefficient(&rows, label), (12, 0), "label {label}");
            }
        }
        let whole = library::coefficient(&vec![ROW_LIMIT; length], 0);
        assert_eq!(whole.value, ROW_LIMIT * length as i32);
    }
    both.outcomes.assert_seen(&[(0, 300), (12, 300)]);
}

#[test]
fn coefficient_with_two_refusals_at_once() {
    let mut both = Both::new(13);
    for length in BAD_LENGTHS {
        let mut rows = vec![0; length];
        let found = both.coefficient(&rows, length as u32);
        assert_eq!(found, (9, 0), "9 and 12 at {length}");
        if length > 0 {
            rows[0] = ROW_LIMIT + 1;
            assert_eq!(both.coefficient(&rows, 0), (9, 0), "9 and 10 at {length}");
        }
        assert_eq!(both.coefficient(&rows, u32::MAX), (9, 0), "all at {length}");
    }
    for length in LENGTHS {
        for at in indices(length) {
            let mut rows = vec![0; length];
            rows[at] = i32::MIN;
            let found = both.coefficient(&rows, length as u32);
            assert_eq!(found, (12, 0), "12 and 10 at {length}");
            assert_eq!(both.coefficient(&rows, at as u32), (10, at), "10 alone");
        }
    }
    both.outcomes.assert_seen(&[(9, 25), (10, 33), (12, 33)]);
}

// Rows to the spectrum, and the way back.

#[test]
fn spectrum_of_random_lists() {
    let mut both = Both::new(20);
    for length in LENGTHS {
        for _ in 0..rounds(length) {
            let mut rows = both.list(length, ROW_LIMIT);
            both.spoil_at_times(&mut rows, ROW_LIMIT);
            let room = both.random.room(length);
            both.spectrum(&rows, room);
        }
    }
    both.outcomes
        .assert_seen(&[(0, 1000), (8, 300), (9, 100), (10, 300)]);
    assert!(both.placed > 200, "places beyond 0: {}", both.placed);
}

#[test]
fn spectrum_of_one_row() {
    // One row alone shows the sign of each label and row.
    let mut both = Both::new(21);
    for length in LENGTHS {
        let step = (length / 64).max(1);
        for row in (0..length).step_by(step).chain([length - 1]) {
            let mut rows = vec![0; length];
            rows[row] = ROW_LIMIT;
            assert_eq!(both.spectrum(&rows, length), (0, 0), "row {row}");
        }
    }
    both.outcomes.assert_seen(&[(0, 300)]);
}

#[test]
fn round_trips() {
    let mut both = Both::new(22);
    for length in LENGTHS {
        let mut lists = extremes(length, ROW_LIMIT);
        for _ in 0..rounds(length) / 2 {
            lists.push(both.list(length, ROW_LIMIT));
        }
        for rows in lists {
            let spectrum = library_spectrum(&rows);
            assert_eq!(both.rows(&spectrum, length + 1), (0, 0), "{}", Shown(&rows));
            let back = library_rows(&spectrum);
            assert_eq!(back, rows, "left the rows that came back, right the rows");
        }
    }
    both.outcomes.assert_seen(&[(0, 1000)]);
}

#[test]
fn rows_of_random_coefficients() {
    let mut both = Both::new(23);
    for length in LENGTHS {
        for _ in 0..rounds(length) {
            let mut list = if both.random.once_in(2) {
                both.spectrum_of_rows(length).1
            } else {
                both.list(length, COEFFICIENT_LIMIT)
            };
            both.spoil_at_times(&mut list, COEFFICIENT_LIMIT);
            let room = both.random.room(length);
            both.rows(&list, room);
        }
    }
    both.outcomes
        .assert_seen(&[(0, 500), (8, 300), (9, 100), (10, 300), (11, 500)]);
}

#[test]
fn rows_of_mutated_spectra() {
    let mut both = Both::new(24);
    for length in LENGTHS {
        for _ in 0..rounds(length) {
            let (rows, spectrum) = both.spectrum_of_rows(length);
            let mut mutated = spectrum.clone();
            let at = both.random.below(length);
            let long = length as i32;
            let change = both.random.pick(&[1, 2, long / 2, long, 3 * long]);
            let swap = both.random.once_in(3);
            if swap {
                mutated.swap(at, both.random.below(length));
            } else if both.random.once_in(2) {
                mutated[at] += change;
            } else {
                mutated[at] -= change;
            }
            let (number, place) = both.rows(&mutated, length);
            if number == 0 {
                let found = library_rows(&mutated);
                assert_eq!(due_spectrum(&found), mutated, "rows of {}", Shown(&mutated));
                assert_eq!(found == rows, mutated == spectrum);
            }
            if !swap && change % long != 0 {
                // Each row's sum changes by what the length does not divide.
                let case = Shown(&mutated);
                assert_eq!((number, place), (11, 0), "{change} at {at} of {case}");
            }
        }
    }
    both.outcomes.assert_seen(&[(0, 500), (11, 1500)]);
    assert!(both.placed > 300, "places beyond 0: {}", both.placed);
}

#[test]
fn rows_just_in_and_out_of_range() {
    let mut both = Both::new(25);
    for length in LENGTHS {
        let long = length as i32;
        let alone = |number: i32| {
            let mut list = vec![0; length];
            list[0] = number;
            list
        };
        for sign in [1, -1] {
            let due = both.rows(&alone(sign * 1000 * long), length);
            assert_eq!(due, (0, 0), "all rows {}", sign * 1000);
            // Out of range by one and, where the length allows, by less:
            // the first does not divide, the second does.
            for more in [1, long / 2, long - 1, long] {
                let list = alone(sign * (1000 * long + more));
                let due = if list[0].abs() > COEFFICIENT_LIMIT {
                    10
                } else {
                    11
                };
                assert_eq!(both.rows(&list, length), (due, 0), "{}", list[0]);
            }
            // All signs agree at one row only: its sum is the largest there
            // is, beyond 32 bits for 2,048, and every other sum is 0.
            for row in indices(length) {
                let peak: Vec<i32> = (0..length)
                    .map(|label| {
                        let odd = (label & row).count_ones() % 2 == 1;
                        sign * if odd { -1 } else { 1 } * COEFFICIENT_LIMIT
                    })
                    .collect();
                assert_eq!(both.rows(&peak, length), (11, row), "peak at {row}");
                let high: Vec<i32> = peak.iter().map(|c| c / COEFFICIENT_LIMIT * 1001).collect();
                assert_eq!(both.rows(&high, length), (11, row), "1001 at {row}");
                let full: Vec<i32> = peak.iter().map(|c| c / COEFFICIENT_LIMIT * 1000).collect();
                assert_eq!(both.rows(&full, length), (0, 0), "1000 at {row}");
            }
        }
    }
    both.outcomes.assert_seen(&[(0, 80), (10, 8), (11, 200)]);
}

#[test]
fn rows_with_two_refusals_at_once() {
    let mut both = Both::new(26);
    for length in LENGTHS {
        let mut list = vec![0; length];
        list[0] = 1;
        assert_eq!(both.rows(&list, length), (11, 0), "11 alone");
        assert_eq!(both.rows(&list, length - 1), (8, 0), "8 and 11");
        assert_eq!(both.rows(&list, 0), (8, 0), "8 and 11");
        list[length - 1] = COEFFICIENT_LIMIT + 1;
        assert_eq!(both.rows(&list, length), (10, length - 1), "10 and 11");
        assert_eq!(both.rows(&list, 0), (10, length - 1), "10, 8 and 11");
        list[length - 1] = 0;
        list.push(0);
        assert_eq!(both.rows(&list, length), (9, 0), "9 and 11");
    }
    both.outcomes
        .assert_seen(&[(8, 22), (9, 11), (10, 22), (11, 11)]);
}

// Stuck inputs.

#[test]
fn stuck_inputs_at_random() {
    let mut both = Both::new(30);
    for length in LENGTHS {
        let n = inputs_of(length);
        for _ in 0..rounds(length) * 2 {
            let mut list = both.list(length, COEFFICIENT_LIMIT);
            both.spoil_at_times(&mut list, COEFFICIENT_LIMIT);
            let (mut inputs, mut values) = both.fault(n);
            match both.random.below(24) {
                0 => inputs.push(n as u32 + 1),
                1 => values.push(0),
                2 => inputs.reverse(),
                3 => {
                    let at = both.random.below(values.len());
                    values[at] = both.random.pick(&[2, 3, 1 << 31, u32::MAX]);
                }
                4 => {
                    let at = both.random.below(inputs.len());
                    inputs[at] = both.random.pick(&[0, n as u32 + 1, 32, 33, u32::MAX]);
                }
                _ => (),
            }
            let room = both.random.room(length);
            both.stuck(&list, &inputs, &values, room);
        }
    }
    both.outcomes
        .assert_seen(&[(0, 2000), (8, 500), (9, 300), (10, 500), (12, 500)]);
    assert!(both.placed > 300, "places beyond 0: {}", both.placed);
}

#[test]
fn stuck_inputs_every_fault_of_every_length() {
    let mut both = Both::new(31);
    for length in LENGTHS {
        let n = inputs_of(length) as u32;
        let list = both.random.list(length, COEFFICIENT_LIMIT);
        for chosen in 1..length {
            if chosen.count_ones() > 3 {
                continue;
            }
            let inputs: Vec<u32> = (1..=n)
                .filter(|&input| chosen & (1 << (input - 1)) != 0)
                .collect();
            for values in tuples(inputs.len(), 2) {
                let found = both.stuck(&list, &inputs, &values, length);
                assert_eq!(found, (0, 0), "{inputs:?} at {values:?} of {length}");
            }
        }
    }
    both.outcomes.assert_seen(&[(0, 4000)]);
}

#[test]
fn stuck_inputs_every_argument_of_short_lists() {
    let mut both = Both::new(32);
    for length in [2, 4, 8, 16] {
        let n = inputs_of(length) as u32;
        let list = both.random.list(length, COEFFICIENT_LIMIT);
        for count in 0..=4 {
            for values_count in 0..=4 {
                // Every value, one too large among them, where the counts
                // may pass; else the value 0 is enough.
                let may_pass = count == values_count && count <= 3;
                let bound = if may_pass { 3 } else { 1 };
                for inputs in tuples(count, n + 2) {
                    for values in tuples(values_count, bound) {
                        both.stuck(&list, &inputs, &values, length);
                    }
                }
            }
        }
    }
    both.outcomes.assert_seen(&[(0, 90), (12, 10_000)]);
}

#[test]
fn stuck_inputs_out_of_range() {
    let mut both = Both::new(33);
    for length in LENGTHS {
        let n = inputs_of(length) as u32;
        let list = both.random.list(length, COEFFICIENT_LIMIT);
        let mut bad: Vec<(Vec<u32>, Vec<u32>)> = vec![
            (vec![], vec![]),
            (vec![], vec![0]),
            (vec![1], vec![]),
            (vec![1], vec![0, 1]),
            (vec![1], vec![2]),
            (vec![1], vec![u32::MAX]),
            (vec![n], vec![2]),
            (vec![0], vec![0]),
            (vec![n + 1], vec![1]),
            (vec![u32::MAX], vec![1]),
            (vec![33], vec![1]),
            (vec![1, 1], vec![0, 0]),
            (vec![n, n], vec![1, 0]),
            (vec![n, 1], vec![1, 0]),
            (vec![0, 1], vec![0, 0]),
            (vec![n, n + 1], vec![0, 0]),
            (vec![1, 2, 3, 4], vec![0, 0, 0, 0]),
            (vec![1, 2, 3, 4], vec![0, 0, 0]),
            (vec![1, 2, 3], vec![0, 0, 0, 0]),
        ];
        if n >= 3 {
            bad.push((vec![1, 3, 2], vec![0, 0, 0]));
            bad.push((vec![2, 1, 3], vec![0, 0, 0]));
            bad.push((vec![1, 2, 2], vec![0, 0, 0]));
            bad.push((vec![1, 2, 3], vec![0, 0, 2]));
            bad.push((vec![1, 2, 3], vec![0, 0]));
            bad.push((vec![1, 2], vec![0, 0, 1]));
        }
        for (inputs, values) in &bad {
            let case = format!("{inputs:?} at {values:?} of {length}");
            let mut list = list.clone();
            let found = both.stuck(&list, inputs, values, length);
            assert_eq!(found, (12, 0), "{case}");
            let found = both.stuck(&list, inputs, values, length - 1);
            assert_eq!(found, (12, 0), "12 and 8: {case}");
            list[0] = COEFFICIENT_LIMIT + 1;
            let found = both.stuck(&list, inputs, values, length);
            assert_eq!(found, (12, 0), "12 and 10: {case}");
            let found = both.stuck(&list, inputs, values, 0);
            assert_eq!(found, (12, 0), "12, 10 and 8: {case}");
            list[0] = 0;
            list.push(0);
            let found = both.stuck(&list, inputs, values, length + 1);
            assert_eq!(found, (9, 0), "9 and 12: {case}");
        }
        // The ends of what is taken.
        for (inputs, value) in [([1], 0), ([1], 1), ([n], 0), ([n], 1)] {
            assert_eq!(both.stuck(&list, &inputs, &[value], length), (0, 0));
        }
    }
    for length in BAD_LENGTHS {
        let zeros = vec![0; length];
        assert_eq!(both.stuck(&zeros, &[], &[], length), (9, 0), "9 and 12");
        assert_eq!(both.stuck(&zeros, &[12], &[0], 0), (9, 0), "9, 12 and 8");
    }
    both.outcomes.assert_seen(&[(0, 44), (9, 200), (12, 800)]);
}

#[test]
fn stuck_inputs_of_rows() {
    let mut both = Both::new(34);
    for length in LENGTHS {
        for _ in 0..rounds(length) {
            let (rows, spectrum) = both.spectrum_of_rows(length);
            let (inputs, values) = both.fault(inputs_of(length));
            assert_eq!(both.stuck(&spectrum, &inputs, &values, length), (0, 0));
            let faulted = stuck_rows(&rows, &inputs, &values);
            let case = format_args!("inputs {inputs:?} stuck at {values:?}");
            assert_sums(case, [&rows, &faulted], |out| {
                library::stuck(&spectrum, &inputs, &values, out)
            });
        }
    }
    both.outcomes.assert_seen(&[(0, 2000)]);
}

// Opened lines.

#[test]
fn opened_lines_at_random() {
    let mut both = Both::new(40);
    for length in LENGTHS {
        let all = inputs_of(length);
        for _ in 0..rounds(length) * 2 {
            let mut list = match both.random.below(3) {
                0 => both.list(length, COEFFICIENT_LIMIT),
                // Sums that divide, but for one coefficient at most: 11 at
                // labels beyond 0.
                _ => {
                    let mut list = both.eights(length, COEFFICIENT_LIMIT);
                    let at = both.random.below(length);
                    let limit = COEFFICIENT_LIMIT;
                    let change = both.random.pick(&[0, 0, 1, -1, 2, 4, -4]);
                    list[at] = (list[at] + change).clamp(-limit, limit);
                    list
                }
            };
            both.spoil_at_times(&mut list, COEFFICIENT_LIMIT);
            let k = 1 + both.random.below(all.min(3));
            let mut values = both.values(k);
            match both.random.below(20) {
                0 => values.clear(),
                1 => values.resize(4, 0),
                2 => values[k - 1] = both.random.pick(&[2, 3, 1 << 31, u32::MAX]),
                _ => (),
            }
            let room = both.random.room(length >> k);
            both.opened(&list, &values, room);
        }
    }
    both.outcomes.assert_seen(&[
        (0, 800),
        (8, 300),
        (9, 300),
        (10, 500),
        (11, 800),
        (12, 400),
    ]);
    assert!(both.placed > 800, "places beyond 0: {}", both.placed);
}

#[test]
fn opened_lines_of_rows_always_divide() {
    let mut both = Both::new(41);
    for length in LENGTHS.into_iter().filter(|&l| l >= 4) {
        let all = inputs_of(length);
        for _ in 0..rounds(length) {
            let (rows, spectrum) = both.spectrum_of_rows(length);
            let k = 1 + both.random.below((all - 1).min(3));
            let values = both.values(k);
            let room = length >> k;
            assert_eq!(both.opened(&spectrum, &values, room), (0, 0));
            let faulted = opened_rows(&rows, &values);
            let case = format_args!("opened lines at {values:?}");
            assert_sums(case, [&rows, &faulted], |out| {
                library::opened(&spectrum, &values, out)
            });
        }
    }
    both.outcomes.assert_seen(&[(0, 2000)]);
}

#[test]
fn opened_lines_of_any_list_seldom_divide() {
    let mut both = Both::new(42);
    for length in LENGTHS.into_iter().filter(|&l| l >= 4) {
        let all = inputs_of(length);
        for _ in 0..rounds(length) {
            let list = both.random.list(length, COEFFICIENT_LIMIT);
            let k = 1 + both.random.below((all - 1).min(3));
            let values = both.values(k);
            both.opened(&list, &values, length);
        }
    }
    both.outcomes.assert_seen(&[(0, 100), (11, 2000)]);
    assert!(both.placed > 400, "places beyond 0: {}", both.placed);
}

#[test]
fn opened_lines_refused_at_each_label() {
    let mut both = Both::new(43);
    for length in LENGTHS.into_iter().filter(|&l| l >= 4) {
        for k in 1..=3.min(inputs_of(length) - 1) {
            let room = length >> k;
            for label in indices(room) {
                for line in [0, 1 << k >> 1] {
                    // 2^(k-1) is the largest change that does not divide.
                    for change in [1, -1, 1 << (k - 1)] {
                        let mut list = both.eights(length, COEFFICIENT_LIMIT / 2);
                        let values = both.values(k);
                        assert_eq!(both.opened(&list, &values, room), (0, 0), "{values:?}");
                        list[label + line * room] += change;
                        let found = both.opened(&list, &values, room);
                        assert_eq!(found, (11, label), "{values:?} of {length}");
                        let short = both.opened(&list, &values, room - 1);
                        assert_eq!(short, (8, 0), "8 and 11");
                        list[length - 1] = COEFFICIENT_LIMIT + 1;
                        let found = both.opened(&list, &values, room);
                        assert_eq!(found, (10, length - 1), "10 and 11");
                        let mut bad = values.clone();
                        bad[0] = 2;
                        let found = both.opened(&list, &bad, 0);
                        assert_eq!(found, (12, 0), "12, 10, 8 and 11");
                    }
                }
            }
        }
    }
    both.outcomes
        .assert_seen(&[(0, 400), (8, 400), (10, 400), (11, 400), (12, 400)]);
}

#[test]
fn opened_lines_every_argument() {
    let mut both = Both::new(44);
    for length in LENGTHS {
        let all = inputs_of(length);
        let list = both.eights(length, COEFFICIENT_LIMIT);
        for k in 0..=4 {
            for values in tuples(k, 3) {
                let good = (1..=3).contains(&k) && k < all && values.iter().all(|&v| v < 2);
                let due = (if good { 0 } else { 12 }, 0);
                let found = both.opened(&list, &values, length);
                assert_eq!(found, due, "{values:?} of {length}");
                if good {
                    let room = length >> k;
                    assert_eq!(both.opened(&list, &values, room), (0, 0), "exact");
                    assert_eq!(both.opened(&list, &values, room - 1), (8, 0), "short");
                    assert_eq!(both.opened(&list, &values, 0), (8, 0), "empty");
                }
            }
        }
        for values in [vec![u32::MAX], vec![0, 1 << 31], vec![0; 12], vec![0; 40]] {
            let found = both.opened(&list, &values, length);
            assert_eq!(found, (12, 0), "{values:?} of {length}");
        }
    }
    both.outcomes.assert_seen(&[(0, 200), (8, 200), (12, 1000)]);
}

#[test]
fn opened_lines_with_two_refusals_at_once() {
    let mut both = Both::new(45);
    for length in LENGTHS {
        let all = inputs_of(length);
        let mut bad = vec![vec![], vec![2], vec![0, u32::MAX], vec![0; 4]];
        if all <= 3 {
            // No input is left when every one is an opened line.
            bad.push(vec![1; all]);
        }
        for values in &bad {
            let mut list = vec![0; length];
            let found = both.opened(&list, values, 0);
            assert_eq!(found, (12, 0), "12 and 8: {values:?} of {length}");
            list[0] = 1;
            let found = both.opened(&list, values, length);
            assert_eq!(found, (12, 0), "12 and 11: {values:?} of {length}");
            list[length - 1] = i32::MIN;
            let found = both.opened(&list, values, length);
            assert_eq!(found, (12, 0), "12 and 10: {values:?} of {length}");
            list.push(0);
            let found = both.opened(&list, values, length);
            assert_eq!(found, (9, 0), "9 and 12: {values:?} of {length}");
        }
    }
    for length in BAD_LENGTHS {
        let list = vec![1; length];
        assert_eq!(both.opened(&list, &[0], length), (9, 0), "9 and 11");
        assert_eq!(both.opened(&list, &[], 0), (9, 0), "9, 12 and 8");
        let list = vec![i32::MAX; length];
        assert_eq!(both.opened(&list, &[2], 0), (9, 0), "9, 12, 10 and 8");
    }
    both.outcomes.assert_seen(&[(9, 70), (12, 120)]);
}

// Bridged inputs.

#[test]
fn bridges_of_rows_every_pair_of_every_length() {
    let mut both = Both::new(50);
    for length in LENGTHS.into_iter().filter(|&l| l >= 4) {
        for bridge in bridges(inputs_of(length)) {
            for _ in 0..(2000 / length).clamp(3, 60) {
                let (rows, spectrum) = both.spectrum_of_rows(length);
                // On a spectrum of rows every half is whole.
                assert_eq!(both.bridged(&spectrum, bridge, length), (0, 0));
                let case = format_args!("inputs {bridge:?} bridged");
                assert_sums(case, [&rows, &bridged_rows(&rows, bridge)], |out| {
                    library::bridged(&spectrum, bridge[0], bridge[1], out)
                });
            }
        }
    }
    both.outcomes.assert_seen(&[(0, 2000)]);
}

#[test]
fn bridges_at_random() {
    let mut both = Both::new(51);
    for length in LENGTHS.into_iter().filter(|&l| l >= 4) {
        let n = inputs_of(length);
        for _ in 0..rounds(length) * 2 {
            let mut list = match both.random.below(4) {
                0 => both.list(length, COEFFICIENT_LIMIT),
                // Whole halves, but for one at most: 11 at labels beyond 0.
                _ => {
                    let mut list = both.evens(length, COEFFICIENT_LIMIT - 2);
                    let at = both.random.below(length);
                    list[at] += both.random.pick(&[0, 0, 1, -1, 2]);
                    list
                }
            };
            both.spoil_at_times(&mut list, COEFFICIENT_LIMIT);
            let mut bridge = both.bridge(n);
            match both.random.below(16) {
                0 => bridge.reverse(),
                1 => bridge = [both.random.pick(&bridge); 2],
                2 => {
                    let at = both.random.below(2);
                    let far = [0, n as u32 + 1, 32, 33, 1 << 31, u32::MAX];
                    bridge[at] = both.random.pick(&far);
                }
                _ => (),
            }
            let room = both.random.room(length);
            both.bridged(&list, bridge, room);
        }
    }
    both.outcomes.assert_seen(&[
        (0, 1000),
        (8, 500),
        (9, 300),
        (10, 400),
        (11, 500),
        (12, 500),
    ]);
    assert!(both.placed > 600, "places beyond 0: {}", both.placed);
}

/// Four labels share a half: one odd number shows where it is in that half, at
/// the label of these four that names neither input, and else not at all.
#[test]
fn bridges_with_one_odd_half_at_each_place() {
    let mut both = Both::new(52);
    for length in LENGTHS.into_iter().filter(|&l| l >= 4) {
        let mut pairs = bridges(inputs_of(length));
        if length > 256 {
            pairs = (0..5).map(|_| both.random.pick(&pairs)).collect();
        }
        let mut list = both.evens(length, COEFFICIENT_LIMIT - 2);
        for bridge in pairs {
            for at in 0..length {
                let change = both.random.pick(&[1, -1]);
                list[at] += change;
                let named = bridge.iter().filter(|&input| at >> (input - 1) & 1 == 1);
                let due = match named.count() {
                    1 => (11, without(at, bridge)),
                    _ => (0, 0),
                };
                let found = both.bridged(&list, bridge, length);
                assert_eq!(found, due, "{bridge:?} of {length}, odd at {at}");
                list[at] -= change;
            }
        }
    }
    both.outcomes.assert_seen(&[(0, 10_000), (11, 10_000)]);
    assert!(both.placed > 9000, "places beyond 0: {}", both.placed);
}

#[test]
fn bridges_with_several_odd_halves() {
    // The first label is given, whatever comes after it.
    let mut both = Both::new(53);
    for length in LENGTHS.into_iter().filter(|&l| l >= 4) {
        for bridge in bridges(inputs_of(length)) {
            let [low, high] = bridge.map(|input| 1 << (input - 1));
            let neither: Vec<usize> = (0..length)
                .filter(|&label| label == without(label, bridge))
                .collect();
            let first = both.random.below(neither.len());
            let mut list = both.evens(length, COEFFICIENT_LIMIT - 2);
            let mut odd = neither[first..].to_vec();
            odd.retain(|&label| label == neither[first] || both.random.once_in(3));
            for &label in &odd {
                list[label + low] += 1;
            }
            let found = both.bridged(&list, bridge, length);
            assert_eq!(found, (11, neither[first]), "{bridge:?} of {length}");
            // Two odd numbers have an even sum.
            for &label in &odd {
                list[label + high] -= 1;
            }
            assert_eq!(both.bridged(&list, bridge, length), (0, 0), "{bridge:?}");
        }
    }
    both.outcomes.assert_seen(&[(0, 220), (11, 220)]);
}

#[test]
fn bridges_every_argument() {
    let mut both = Both::new(54);
    for length in LENGTHS {
        let n = inputs_of(length) as u32;
        let mut list = both.evens(length, COEFFICIENT_LIMIT);
        let far = [n + 3, 31, 32, 33, 34, 65, 256, 257, 65_537, 1 << 31];
        let arguments: Vec<u32> = (0..=n + 2).chain(far).chain([u32::MAX]).collect();
        for &first in &arguments {
            for &second in &arguments {
                let good = 1 <= first && first < second && second <= n;
                let due = (if good { 0 } else { 12 }, 0);
                let found = both.bridged(&list, [first, second], length);
                assert_eq!(found, due, "{first} and {second} of {length}");
                if !good {
                    let found = both.bridged(&list, [first, second], length - 1);
                    assert_eq!(found, (12, 0), "12 and 8: {first} and {second}");
                    let kept = std::mem::replace(&mut list[0], i32::MIN);
                    let found = both.bridged(&list, [first, second], length);
                    assert_eq!(found, (12, 0), "12 and 10: {first} and {second}");
                    list[0] = kept;
                }
            }
        }
    }
    both.outcomes.assert_seen(&[(0, 220), (12, 5000)]);
}

/// Every choice of reasons to refuse: the first in the order 9, 12, 10, 8, 11.
#[test]
fn bridges_with_several_refusals_at_once() {
    let mut both = Both::new(55);
    let order = [9, 12, 10, 8, 11];
    for length in LENGTHS.into_iter().filter(|&l| l >= 4) {
        let n = inputs_of(length) as u32;
        for bridge in [[1, 2], [1, n], [n - 1, n]] {
            for reasons in 0..1 << order.len() {
                let [longer, argument, range, short, odd] =
                    [0, 1, 2, 3, 4].map(|reason| reasons >> reason & 1 == 1);
                let mut list = both.evens(length, COEFFICIENT_LIMIT - 2);
                list[1 << (bridge[0] - 1)] += i32::from(odd);
                let at = both.random.below(length);
                if range {
                    list[at] = both.random.pick(&bad_numbers(COEFFICIENT_LIMIT));
                }
                list.extend(longer.then_some(0));
                let bad = [[0, 2], [2, 1], [n, n], [n, n + 1], [u32::MAX; 2]];
                let bridge = match argument {
                    true => both.random.pick(&bad),
                    false => bridge,
                };
                let room = length - usize::from(short);
                let number = (0..order.len())
                    .find(|reason| reasons >> reason & 1 == 1)
                    .map_or(0, |reason| order[reason]);
                let due = (number, if number == 10 { at } else { 0 });
                let found = both.bridged(&list, bridge, room);
                assert_eq!(found, due, "{bridge:?} of {length}, reasons {reasons:05b}");
            }
        }
    }
    both.outcomes
        .assert_seen(&[(0, 30), (8, 60), (9, 480), (10, 120), (11, 30), (12, 240)]);
    for length in BAD_LENGTHS {
        let list = vec![1; length];
        assert_eq!(both.bridged(&list, [1, 2], length), (9, 0), "9 and 11");
        assert_eq!(both.bridged(&list, [0, 0], 0), (9, 0), "9, 12 and 8");
        let list = vec![i32::MAX; length];
        assert_eq!(both.bridged(&list, [2, 1], 0), (9, 0), "9, 12, 10 and 8");
    }
    // A list of two has no two inputs.
    for bridge in [[0, 1], [1, 1], [1, 2], [2, 3], [0, 0], [2, 1]] {
        assert_eq!(both.bridged(&[2, 4], bridge, 2), (12, 0), "{bridge:?}");
    }
}

#[test]
fn bridges_at_the_ends_of_the_range() {
    let mut both = Both::new(56);
    let limit = COEFFICIENT_LIMIT;
    for length in LENGTHS.into_iter().filter(|&l| l >= 4) {
        for bridge in bridges(inputs_of(length)) {
            for sign in [1, -1] {
                let list = vec![sign * limit; length];
                assert_eq!(both.bridged(&list, bridge, length), (0, 0));
                let found = library_bridged(&list, bridge);
                assert_eq!(found[0], sign * 6_144_000, "{bridge:?} of {length}");
                assert_eq!(found[1 << (bridge[0] - 1)], sign * limit);
                // Odd and large: the half of the sum of the ends' neighbours.
                let odd = vec![sign * (limit - 1); length];
                assert_eq!(both.bridged(&odd, bridge, length), (0, 0));
            }
        }
    }
    both.outcomes.assert_seen(&[(0, 880)]);
}

/// Without the second implementation: a bridge twice is the bridge once, and
/// where both inputs are stuck at one value it shows no more.
#[test]
fn bridges_twice_and_with_both_inputs_stuck() {
    let mut both = Both::new(57);
    for length in LENGTHS.into_iter().filter(|&l| l >= 4) {
        for bridge in bridges(inputs_of(length)) {
            let (_, spectrum) = both.spectrum_of_rows(length);
            let once = library_bridged(&spectrum, bridge);
            assert_eq!(library_bridged(&once, bridge), once, "{bridge:?} twice");
            for value in [0, 1] {
                let case = format_args!("{bridge:?} of {length} stuck at {value}");
                let [sound, faulty] = [&spectrum, &once].map(|list| {
                    written(case, length, |out| {
                        library::stuck(list, &bridge, &[value; 2], out)
                    })
                });
                assert_eq!(sound, faulty, "{case}");
            }
        }
    }
}
