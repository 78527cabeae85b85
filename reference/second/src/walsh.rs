//! The six calls on lists, written from the sentences of the paper and of note
//! 8, and nothing else. They give a list or a refusal; `room` is the length of
//! the buffer that the caller would lend.

/// Limit of a row value, either way.
pub const ROW_LIMIT: i32 = 1_000;
/// Limit of a coefficient, either way.
pub const COEFFICIENT_LIMIT: i32 = 2_048_000;

/// A refusal's number and its place.
#[derive(Clone, Copy, Debug, PartialEq, Eq)]
pub struct Refusal {
    pub number: u32,
    pub place: usize,
}

pub fn refuse<T>(number: u32, place: usize) -> Result<T, Refusal> {
    Err(Refusal { number, place })
}

/// The number and the place that a call gives back: 0 and 0 where it is done.
pub fn number_and_place<T>(result: &Result<T, Refusal>) -> (u32, usize) {
    match result {
        Ok(_) => (0, 0),
        Err(refusal) => (refusal.number, refusal.place),
    }
}

/// That number alone.
pub(crate) fn number_of<T>(result: &Result<T, Refusal>) -> u32 {
    let (number, _) = number_and_place(result);
    number
}

/// "list length is not 2, 4, 8 .. 2,048"; gives the number of inputs.
pub fn test_length(list: &[i32]) -> Result<usize, Refusal> {
    match (1..=11).find(|&inputs| list.len() == 1 << inputs) {
        Some(inputs) => Ok(inputs),
        None => refuse(9, 0),
    }
}

/// "argument out of range".
pub(crate) fn test_argument(good: bool) -> Result<(), Refusal> {
    if good {
        Ok(())
    } else {
        refuse(12, 0)
    }
}

/// "a row or coefficient out of range; the first".
pub fn test_range(list: &[i32], limit: i32) -> Result<(), Refusal> {
    match list
        .iter()
        .position(|number| !(-limit..=limit).contains(number))
    {
        Some(index) => refuse(10, index),
        None => Ok(()),
    }
}

/// "lent buffer too short".
pub fn test_room(room: usize, due: usize) -> Result<(), Refusal> {
    if room < due {
        refuse(8, 0)
    } else {
        Ok(())
    }
}

/// "The sign is + when label AND row has an even number of ones, else −."
fn sign(label: usize, row: usize) -> i64 {
    match (label & row).count_ones() % 2 {
        0 => 1,
        _ => -1,
    }
}

/// "the signed sum of all row values". The sign does not change when label
/// and row trade places, so the way back uses it too.
fn signed_sum(list: &[i32], label: usize) -> i64 {
    let mut sum = 0;
    for (row, &value) in list.iter().enumerate() {
        sum += sign(label, row) * i64::from(value);
    }
    sum
}

/// Every sum that is handed out is at most 8 coefficients, so it fits.
fn narrow(sum: i64) -> i32 {
    i32::try_from(sum).expect("a sum beyond 32 bits")
}

/// The coefficient at one label.
pub fn coefficient(rows: &[i32], label: u32) -> Result<i32, Refusal> {
    test_length(rows)?;
    test_argument((label as usize) < rows.len())?;
    test_range(rows, ROW_LIMIT)?;
    Ok(narrow(signed_sum(rows, label as usize)))
}

/// Rows to the whole spectrum.
pub fn spectrum(rows: &[i32], room: usize) -> Result<Vec<i32>, Refusal> {
    test_length(rows)?;
    test_range(rows, ROW_LIMIT)?;
    test_room(room, rows.len())?;
    Ok((0..rows.len())
        .map(|label| narrow(signed_sum(rows, label)))
        .collect())
}

/// The way back: "the row is the same signed sum divided by the length".
pub fn rows(coefficients: &[i32], room: usize) -> Result<Vec<i32>, Refusal> {
    test_length(coefficients)?;
    test_range(coefficients, COEFFICIENT_LIMIT)?;
    test_room(room, coefficients.len())?;
    let length = coefficients.len() as i64;
    let limit = i64::from(ROW_LIMIT);
    let mut rows = Vec::new();
    for row in 0..coefficients.len() {
        let sum = signed_sum(coefficients, row);
        if sum % length != 0 || !(-limit..=limit).contains(&(sum / length)) {
            return refuse(11, row);
        }
        rows.push(narrow(sum / length));
    }
    Ok(rows)
}

/// "the sum over each subset of the stuck inputs of the coefficient at
/// (label plus subset), negated once for each member stuck at 1". A label
/// bit and a value stand for each stuck input; the label names none.
fn sum_over_subsets(coefficients: &[i32], label: usize, stuck: &[(usize, u32)]) -> i64 {
    let mut sum = 0;
    for subset in 0..1 << stuck.len() {
        let mut at = label;
        let mut term_sign = 1;
        for (member, &(bit, value)) in stuck.iter().enumerate() {
            if subset & (1 << member) != 0 {
                at += bit;
                if value == 1 {
                    term_sign = -term_sign;
                }
            }
        }
        sum += term_sign * i64::from(coefficients[at]);
    }
    sum
}

/// The spectrum with one to three inputs stuck.
pub fn stuck(
    coefficients: &[i32],
    inputs: &[u32],
    values: &[u32],
    room: usize,
) -> Result<Vec<i32>, Refusal> {
    let n = test_length(coefficients)?;
    test_argument((1..=3).contains(&inputs.len()))?;
    test_argument(inputs.len() == values.len())?;
    test_argument(inputs.iter().all(|&input| 1 <= input && input <= n as u32))?;
    test_argument(inputs.windows(2).all(|pair| pair[0] < pair[1]))?;
    test_argument(values.iter().all(|&value| value <= 1))?;
    test_range(coefficients, COEFFICIENT_LIMIT)?;
    test_room(room, coefficients.len())?;

    let stuck: Vec<(usize, u32)> = inputs
        .iter()
        .zip(values)
        .map(|(&input, &value)| (1 << (input - 1), value))
        .collect();
    let mut results = Vec::new();
    for label in 0..coefficients.len() {
        let names_stuck_input = stuck.iter().any(|&(bit, _)| label & bit != 0);
        results.push(if names_stuck_input {
            0
        } else {
            narrow(sum_over_subsets(coefficients, label, &stuck))
        });
    }
    Ok(results)
}

/// The spectrum of n inputs with the last k of n+k, the opened lines, stuck:
/// "the same sum over the opened lines divided by 2^k".
pub fn opened(coefficients: &[i32], values: &[u32], room: usize) -> Result<Vec<i32>, Refusal> {
    let all = test_length(coefficients)?;
    let k = values.len();
    test_argument((1..=3).contains(&k))?;
    test_argument(all > k)?;
    test_argument(values.iter().all(|&value| value <= 1))?;
    let n = all - k;
    test_range(coefficients, COEFFICIENT_LIMIT)?;
    test_room(room, 1 << n)?;

    let stuck: Vec<(usize, u32)> = values
        .iter()
        .enumerate()
        .map(|(line, &value)| (1 << (n + line), value))
        .collect();
    let mut results = Vec::new();
    for label in 0..1 << n {
        let sum = sum_over_subsets(coefficients, label, &stuck);
        if sum % (1 << k) != 0 {
            return refuse(11, label);
        }
        results.push(narrow(sum / (1 << k)));
    }
    Ok(results)
}

/// The spectrum with two inputs bridged. The four labels that differ in nothing
/// but these inputs share the half of the sum of the two that name one of them.
pub fn bridged(
    coefficients: &[i32],
    first: u32,
    second: u32,
    room: usize,
) -> Result<Vec<i32>, Refusal> {
    let n = test_length(coefficients)?;
    // "unless I is below J and both are inputs of the list"
    test_argument(1 <= first && first < second && second <= n as u32)?;
    test_range(coefficients, COEFFICIENT_LIMIT)?;
    test_room(room, coefficients.len())?;

    let (i, j) = (1 << (first - 1), 1 << (second - 1));
    let mut results = Vec::new();
    for label in 0..coefficients.len() {
        let without = label & !i & !j;
        let sum = i64::from(coefficients[without + i]) + i64::from(coefficients[without + j]);
        if sum % 2 != 0 {
            return refuse(11, label);
        }
        let half = sum / 2;
        results.push(narrow(match (label & i != 0, label & j != 0) {
            (false, false) => {
                let both = i64::from(coefficients[without + i + j]);
                i64::from(coefficients[without]) + half + both
            }
            (true, true) => -half,
            _ => half,
        }));
    }
    Ok(results)
}

/// "Both inputs then show the AND of what is applied": the row that shows where
/// this one is applied.
pub fn bridged_row(row: usize, first: usize, second: usize) -> usize {
    let both = 1 << (first - 1) | 1 << (second - 1);
    match row & both == both {
        true => row,
        false => row & !both,
    }
}

/// The rows under that bridge.
pub fn bridged_rows(rows: &[i32], first: usize, second: usize) -> Vec<i32> {
    (0..rows.len())
        .map(|row| rows[bridged_row(row, first, second)])
        .collect()
}

/// The rows of a function of n inputs; x[1] is input 1.
pub(crate) fn rows_of(n: usize, function: impl Fn(&[bool]) -> bool) -> Vec<i32> {
    (0..1 << n)
        .map(|row: usize| {
            let mut x = vec![false];
            x.extend((0..n).map(|bit| row & (1 << bit) != 0));
            i32::from(function(&x))
        })
        .collect()
}

#[cfg(test)]
mod tests {
    use super::*;
    use crate::bridge_texts::EXAMPLE_ONES;
    use crate::random::Random;

    fn spectrum_of(rows: &[i32]) -> Vec<i32> {
        spectrum(rows, rows.len()).expect("rows in range")
    }

    fn stuck_at(coefficients: &[i32], inputs: &[u32], values: &[u32]) -> Vec<i32> {
        stuck(coefficients, inputs, values, coefficients.len()).expect("inputs in range")
    }

    #[test]
    fn figure_of_sixteen_rows() {
        let mut rows = vec![0; 16];
        for row in [5, 7, 8, 9, 10, 14, 15] {
            rows[row] = 1;
        }
        let figure = [7, -1, -1, -1, -1, 3, 3, -1, -3, -3, 1, 1, -3, 1, -3, 1];
        assert_eq!(spectrum_of(&rows), figure);
        for (label, &due) in figure.iter().enumerate() {
            assert_eq!(coefficient(&rows, label as u32), Ok(due), "label {label}");
        }
        assert_eq!(super::rows(&figure, 16), Ok(rows));
    }

    #[test]
    fn two_products_over_three_inputs() {
        let rows = rows_of(3, |x| x[1] && x[2] || x[3] && !x[2]);
        assert_eq!(spectrum_of(&rows), [4, -2, 0, 2, -2, 0, -2, 0]);
    }

    #[test]
    fn stuck_inputs_of_x1x2_or_x3() {
        let spectrum = spectrum_of(&rows_of(3, |x| x[1] && x[2] || x[3]));
        assert_eq!(spectrum[0], 5);
        for (input, value, sum) in [(1, 0, 4), (1, 1, 6), (3, 0, 2), (3, 1, 8)] {
            let found = stuck_at(&spectrum, &[input], &[value]);
            assert_eq!(found[0], sum, "x{input} stuck at {value}");
            for (label, &number) in found.iter().enumerate() {
                if label & (1 << (input - 1)) != 0 {
                    assert_eq!(number, 0, "x{input} stuck at {value}, label {label}");
                }
            }
        }
    }

    #[test]
    fn two_stuck_inputs_of_example_5_8() {
        let rows = rows_of(4, |x| x[1] && x[2] && x[3] || x[4] && !(x[2] && x[3]));
        let spectrum = spectrum_of(&rows);
        assert_eq!(spectrum[0], 8);
        for (values, sum) in [([0, 0], 8), ([1, 0], 8), ([0, 1], 4), ([1, 1], 12)] {
            let found = stuck_at(&spectrum, &[1, 2], &values);
            assert_eq!(found[0], sum, "x1, x2 stuck at {values:?}");
        }
    }

    #[test]
    fn opened_line_of_the_first_product() {
        // Line 5 stands for x2x3 of the first product.
        let rows = rows_of(5, |x| x[1] && x[5] || x[4] && !(x[2] && x[3]));
        let spectrum = spectrum_of(&rows);
        assert_eq!((spectrum[0], spectrum[16]), (17, -5));
        for (value, sum) in [(0, 6), (1, 11)] {
            let found = opened(&spectrum, &[value], 16).expect("a spectrum of rows");
            assert_eq!((found.len(), found[0]), (16, sum), "stuck at {value}");
        }
    }

    fn bridged_at(coefficients: &[i32], first: u32, second: u32) -> Vec<i32> {
        bridged(coefficients, first, second, coefficients.len()).expect("whole halves")
    }

    #[test]
    fn bridges_of_example_6_2() {
        let mut rows = vec![0; 16];
        for row in EXAMPLE_ONES {
            rows[row] = 1;
        }
        let spectrum = spectrum_of(&rows);
        let due = [7, 1, 3, 1, -1, -3, -1, 1, 3, 1, -1, 1, -1, 1, -1, 5];
        assert_eq!(spectrum, due);
        for (first, second, sum) in [
            (1, 2, 10),
            (1, 3, 4),
            (1, 4, 10),
            (2, 4, 9),
            (2, 3, 7),
            (3, 4, 7),
        ] {
            let found = bridged_at(&spectrum, first, second);
            assert_eq!(found[0], sum, "x{first} and x{second}");
            let sums = spectrum_of(&bridged_rows(&rows, first as usize, second as usize));
            assert_eq!(found, sums, "x{first} and x{second}");
        }
    }

    #[test]
    fn bridged_rows_by_hand() {
        assert_eq!(bridged_rows(&[1, 2, 3, 4], 1, 2), [1, 1, 1, 4]);
        let rows = [0, 1, 2, 3, 4, 5, 6, 7];
        assert_eq!(bridged_rows(&rows, 1, 2), [0, 0, 0, 3, 4, 4, 4, 7]);
        assert_eq!(bridged_rows(&rows, 1, 3), [0, 0, 2, 2, 0, 5, 2, 7]);
        assert_eq!(bridged_rows(&rows, 2, 3), [0, 1, 0, 1, 0, 1, 6, 7]);
    }

    #[test]
    fn bridges_by_hand() {
        let listing = [4, -2, 0, 2, -2, 0, -2, 0];
        assert_eq!(bridged_at(&listing, 1, 3), [2, -2, 0, 0, -2, 2, 0, 0]);
        assert_eq!(bridged_at(&[100, 20, 4, 1], 1, 2), [113, 12, 12, -12]);
        assert_eq!(bridged_at(&[0, -3, 1, 0], 1, 2), [-1, -1, -1, 1]);
        let most = vec![COEFFICIENT_LIMIT; 4];
        assert_eq!(bridged_at(&most, 1, 2)[0], 6_144_000);
        // The first label whose half is not whole, which names neither input.
        let mut odd = vec![0, 0, 0, 0, 0, 1, 0, 0];
        assert_eq!(bridged(&odd, 1, 2, 8), refuse(11, 4));
        assert_eq!(bridged(&odd, 1, 3, 8), Ok(vec![1, 0, 0, 0, 0, 0, 0, 0]));
        assert_eq!(bridged(&odd, 2, 3, 8), refuse(11, 1));
        odd[6] = 1;
        assert_eq!(bridged(&odd, 1, 2, 8), Ok(vec![0, 0, 0, 0, 1, 1, 1, -1]));
        odd[2] = 1;
        assert_eq!(bridged(&odd, 1, 2, 8), refuse(11, 0));
    }

    #[test]
    fn bridges_of_every_pair_are_the_sums_of_bridged_rows() {
        let mut random = Random::new(40);
        for n in 2..=6_usize {
            for _ in 0..20 {
                let rows = random.list(1 << n, ROW_LIMIT);
                let spectrum = spectrum_of(&rows);
                for second in 2..=n {
                    for first in 1..second {
                        let due = spectrum_of(&bridged_rows(&rows, first, second));
                        let found = bridged_at(&spectrum, first as u32, second as u32);
                        assert_eq!(found, due, "{first} and {second} of {rows:?}");
                    }
                }
            }
        }
    }

    #[test]
    fn refusals_of_a_bridge() {
        // 9, 12, 10, 8, 11: each before all that follow it.
        assert_eq!(bridged(&[i32::MAX; 3], 0, 0, 0), refuse(9, 0));
        let mut list = vec![0, 1, 0, 0, 0, 0, 0, i32::MIN];
        let bad = [
            (0, 0),
            (0, 1),
            (1, 0),
            (1, 1),
            (2, 1),
            (3, 3),
            (1, 4),
            (3, 4),
            (4, 5),
            (1, u32::MAX),
            (u32::MAX, 1),
            (u32::MAX, u32::MAX),
        ];
        for (first, second) in bad {
            assert_eq!(bridged(&list, first, second, 0), refuse(12, 0));
        }
        for (first, second) in [(1, 2), (1, 3), (2, 3)] {
            assert_eq!(bridged(&list, first, second, 0), refuse(10, 7));
        }
        list[7] = 0;
        assert_eq!(bridged(&list, 1, 2, 7), refuse(8, 0));
        assert_eq!(bridged(&list, 1, 2, 8), refuse(11, 0));
        // A list of two has no such pair.
        for second in 0..4 {
            assert_eq!(bridged(&[0, 0], 1, second, 2), refuse(12, 0));
        }
    }

    #[test]
    fn limits_of_the_paper() {
        assert_eq!(spectrum(&[1], 1), refuse(9, 0));
        assert_eq!(spectrum(&[1000, -1000], 2), Ok(vec![0, 2000]));
        assert_eq!(spectrum(&[1000, 1001], 2), refuse(10, 1));
        assert_eq!(spectrum(&[1000, 1000], 1), refuse(8, 0));
        assert_eq!(rows(&[1, 0], 2), refuse(11, 0));
        assert_eq!(rows(&[2000, 2], 2), refuse(11, 0));
        assert_eq!(rows(&[1998, -4], 2), refuse(11, 1));
        assert_eq!(coefficient(&[1, 2], 2), refuse(12, 0));
        assert_eq!(opened(&[0, 0], &[0], 2), refuse(12, 0));
        assert_eq!(opened(&[1, 1, 1, 0], &[0], 2), refuse(11, 1));
    }
}
