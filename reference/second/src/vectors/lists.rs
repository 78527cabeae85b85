//! Cases of the calls on lists.

use super::Case;
use crate::random::Random;
use crate::walsh::{self, COEFFICIENT_LIMIT, ROW_LIMIT};

pub fn cases(random: &mut Random) -> Vec<Case> {
    let mut cases = Vec::new();
    for inputs in 1..=11 {
        for _ in 0..if inputs < 5 { 4 } else { 1 } {
            cases.extend(drawn(random, inputs));
        }
    }
    cases.extend(rooms(random));
    cases.extend(at_the_ends());
    cases.extend(bad_lengths());
    cases.extend(bad_arguments(random));
    cases.extend(several_refusals());
    cases.extend(undivided(random));
    cases
}

/// One to three rising inputs of n, and their values.
fn fault(random: &mut Random, n: usize) -> (Vec<u32>, Vec<u32>) {
    let count = 1 + random.below(n.min(3));
    let inputs = random.rising(count, |random| 1 + random.below(n));
    let inputs: Vec<u32> = inputs.into_iter().map(|input| input as u32).collect();
    let values = inputs.iter().map(|_| random.below(2) as u32).collect();
    (inputs, values)
}

/// A lent result's length: exact or longer.
pub fn room(random: &mut Random, due: usize) -> usize {
    due + random.pick(&[0, 0, 1, 8])
}

/// Every call on lists of 2^n numbers; of the longest not each, for the file's
/// size.
fn drawn(random: &mut Random, n: usize) -> Vec<Case> {
    let length = 1 << n;
    let (all, longest) = (n < 9, n == 11);
    let rows = random.list(length, ROW_LIMIT);
    let spectrum = walsh::spectrum(&rows, length).expect("rows in range");
    let mut cases = Vec::new();
    if all || longest {
        let label = random.below(length) as u32;
        cases.push(Case::coefficient(&rows, label));
    }
    if all || longest || n == 9 {
        cases.push(Case::spectrum(&rows, room(random, length)));
    }
    if all || longest {
        let mut list = spectrum.clone();
        // Now and then no rows have that spectrum.
        if n < 5 && random.once_in(3) {
            list[random.below(length)] += random.pick(&[-1, 1, 2, length as i32]);
        }
        cases.push(Case::rows(&list, room(random, length)));
    }
    if all || n == 10 {
        let list = random.list(length, COEFFICIENT_LIMIT);
        let (inputs, values) = fault(random, n);
        cases.push(Case::stuck(&list, &inputs, &values, room(random, length)));
    }
    if all || n == 10 {
        let k = 1 + random.below(n.min(3));
        let values: Vec<u32> = (0..k).map(|_| random.below(2) as u32).collect();
        let mut list = spectrum;
        if n < 5 && random.once_in(3) {
            list[random.below(length)] += random.pick(&[-1, 1, 2, 4]);
        }
        cases.push(Case::opened(&list, &values, room(random, length >> k)));
    }
    cases
}

/// Lent results too short, exact and longer.
fn rooms(random: &mut Random) -> Vec<Case> {
    let mut cases = Vec::new();
    for length in [4, 8] {
        let rows = random.list(length, ROW_LIMIT);
        let list = walsh::spectrum(&rows, length).expect("rows in range");
        for room in [0, 1, length - 1, length, length + 1, 2 * length] {
            cases.push(Case::spectrum(&rows, room));
            cases.push(Case::rows(&list, room));
            cases.push(Case::stuck(&list, &[1, 2], &[0, 1], room));
            cases.push(Case::opened(&list, &[1], room / 2));
        }
    }
    cases
}

/// Both ends of a range, the numbers after them, and those farthest off.
pub fn ends(limit: i32) -> [i32; 6] {
    [limit, -limit, limit + 1, -limit - 1, i32::MAX, i32::MIN]
}

/// Numbers at the ends of their ranges and just beyond; the first place that is
/// refused.
fn at_the_ends() -> Vec<Case> {
    let mut cases = Vec::new();
    for n in [1, 2] {
        let length: usize = 1 << n;
        for at in [0, length - 1] {
            for number in ends(ROW_LIMIT) {
                let mut rows = vec![ROW_LIMIT; length];
                rows[at] = number;
                cases.push(Case::coefficient(&rows, at as u32));
                cases.push(Case::spectrum(&rows, length));
            }
            for number in ends(COEFFICIENT_LIMIT) {
                let mut list = vec![-COEFFICIENT_LIMIT; length];
                list[at] = number;
                cases.push(Case::rows(&list, length));
                cases.push(Case::stuck(&list, &[n], &[1], length));
                cases.push(Case::opened(&list, &[1], length / 2));
            }
            // One row, in range and not.
            for row in [ROW_LIMIT, ROW_LIMIT + 1, -ROW_LIMIT, -ROW_LIMIT - 1] {
                let mut rows = vec![0; length];
                rows[at] = 1;
                let list = walsh::spectrum(&rows, length).expect("rows in range");
                let list: Vec<i32> = list.into_iter().map(|c| c * row).collect();
                cases.push(Case::rows(&list, length));
            }
        }
        // Two numbers out of range.
        let list = vec![i32::MIN; length];
        cases.push(Case::spectrum(&list, length));
        cases.push(Case::stuck(&list, &[1], &[0], length));
    }
    cases
}

fn bad_lengths() -> Vec<Case> {
    let mut cases = Vec::new();
    for length in [0, 3, 5, 6, 7, 9, 17] {
        let list = vec![1; length];
        cases.extend([
            Case::coefficient(&list, 0),
            Case::spectrum(&list, length),
            Case::rows(&list, length),
            Case::stuck(&list, &[1], &[0], length),
            Case::opened(&list, &[0], length),
        ]);
    }
    cases
}

fn bad_arguments(random: &mut Random) -> Vec<Case> {
    let mut cases = Vec::new();
    for n in [1, 3] {
        let length: usize = 1 << n;
        let rows = random.list(length, ROW_LIMIT);
        let list = walsh::spectrum(&rows, length).expect("rows in range");
        for label in [length - 1, length, 256, u32::MAX as usize] {
            cases.push(Case::coefficient(&rows, label as u32));
        }
        let n = n as u32;
        for (inputs, values) in [
            (vec![], vec![]),
            (vec![1], vec![]),
            (vec![], vec![0]),
            (vec![1], vec![0, 1]),
            (vec![1], vec![2]),
            (vec![1], vec![u32::MAX]),
            (vec![0], vec![0]),
            (vec![n], vec![1]),
            (vec![n + 1], vec![1]),
            (vec![u32::MAX], vec![1]),
            (vec![1, 1], vec![0, 0]),
            (vec![2, 1], vec![0, 0]),
            (vec![1, 2], vec![0, 1]),
            (vec![1, 2, 3], vec![0, 1, 1]),
            (vec![1, 3, 2], vec![0, 1, 1]),
            (vec![1, 2, 3], vec![0, 1, 2]),
            (vec![1, 2, 3, 4], vec![0, 1, 1, 0]),
        ] {
            cases.push(Case::stuck(&list, &inputs, &values, length));
        }
        for values in [
            vec![],
            vec![2],
            vec![u32::MAX],
            vec![1],
            vec![0, 1],
            vec![1, 1, 0],
            vec![1, 1, 2],
            vec![0, 0, 0, 0],
        ] {
            cases.push(Case::opened(&list, &values, length));
        }
    }
    cases
}

/// Every choice of reasons to refuse, in the order 9, 12, 10, 8, 11.
fn several_refusals() -> Vec<Case> {
    let mut cases = Vec::new();
    for reasons in 0..1 << 5 {
        let has = |reason: usize| reasons & (1 << reason) != 0;
        let [length, argument, range, room, sum] = [0, 1, 2, 3, 4].map(has);
        let list = |limit: i32| {
            let mut list = vec![0; 4];
            list[1] = i32::from(sum);
            list[3] = if range { limit + 1 } else { 0 };
            list.extend(length.then_some(0));
            list
        };
        let (rows, coefficients) = (list(ROW_LIMIT), list(COEFFICIENT_LIMIT));
        let value = if argument { 2 } else { 1 };
        let lent = |due: usize| if room { due - 1 } else { due };
        if !room && !sum {
            let label = if argument { 5 } else { 1 };
            cases.push(Case::coefficient(&rows, label));
        }
        if !argument && !sum {
            cases.push(Case::spectrum(&rows, lent(4)));
        }
        if !argument {
            cases.push(Case::rows(&coefficients, lent(4)));
        }
        if !sum {
            cases.push(Case::stuck(&coefficients, &[2], &[value], lent(4)));
        }
        cases.push(Case::opened(&coefficients, &[value], lent(2)));
    }
    cases
}

/// Spectra of rows with one opened sum changed: by less than 2^k it does not
/// divide, by 2^k it does.
fn undivided(random: &mut Random) -> Vec<Case> {
    let mut cases = Vec::new();
    for (n, k) in [(2, 1), (3, 1), (3, 2), (4, 3)] {
        let (length, due) = (1 << n, 1 << (n - k));
        let rows = random.list(length, ROW_LIMIT);
        let spectrum = walsh::spectrum(&rows, length).expect("rows in range");
        let values: Vec<u32> = (0..k).map(|_| random.below(2) as u32).collect();
        for label in [0, due - 1] {
            for change in [1, -1, 1 << (k - 1), 1 << k] {
                let mut list = spectrum.clone();
                list[label + due * random.below(1 << k)] += change;
                cases.push(Case::opened(&list, &values, due));
            }
        }
    }
    cases
}
