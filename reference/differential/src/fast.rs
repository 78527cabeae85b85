//! What the benchmark holds the library against: the plain fast transform, the
//! usual three nested loops in place, after the same tests as the list call;
//! the calls on texts with that transform; and the readings, summed and divided
//! in binary64.

use second::devices::{self, Device};
use second::netlist;
use second::plan::{order, CAP_LIMIT, WORKING_NUMBERS};
use second::reading::{test_fault, test_fixture};
use second::report::{lines, refusal_line, REPORT_ROOM};
use second::walsh::{refuse, test_length, test_range, test_room, Refusal, ROW_LIMIT};

fn transform(list: &mut [i32]) {
    let mut half = 1;
    while half < list.len() {
        for pair in list.chunks_exact_mut(2 * half) {
            let (zeros, ones) = pair.split_at_mut(half);
            for (zero, one) in zeros.iter_mut().zip(ones) {
                (*zero, *one) = (*zero + *one, *zero - *one);
            }
        }
        half *= 2;
    }
}

pub fn spectrum(rows: &[i32], out: &mut [i32]) -> Result<(), Refusal> {
    test_length(rows)?;
    test_range(rows, ROW_LIMIT)?;
    test_room(out.len(), rows.len())?;
    let out = &mut out[..rows.len()];
    out.copy_from_slice(rows);
    transform(out);
    Ok(())
}

pub fn circuit(text: &[u8], fault: u32, out: &mut [i32]) -> Result<(), Refusal> {
    let rows = devices::parse(text)?.rows(fault)?;
    spectrum(&rows, out)
}

/// The choice of labels: a mask of covered faults for each, in the order, and
/// the union of the masks from each place on.
struct Search {
    masks: Vec<u32>,
    unions: Vec<u32>,
}

impl Search {
    fn new(masks: Vec<u32>) -> Search {
        let mut unions = masks.clone();
        for at in (1..unions.len()).rev() {
            unions[at - 1] |= unions[at];
        }
        Search { masks, unions }
    }

    /// Fills `chosen` with the first places from `from` on that cover what is
    /// missing.
    fn choose(&self, from: usize, missing: u32, chosen: &mut [usize]) -> bool {
        let Some((first, rest)) = chosen.split_first_mut() else {
            return missing == 0;
        };
        if rest.is_empty() {
            let covers = |mask: &u32| mask & missing == missing;
            let found = self.masks[from..].iter().position(covers);
            *first = from + found.unwrap_or(0);
            return found.is_some();
        }
        for at in from..self.masks.len() {
            if missing & !self.unions[at] != 0 {
                return false;
            }
            *first = at;
            if self.choose(at + 1, missing & !self.masks[at], rest) {
                return true;
            }
        }
        false
    }
}

/// Where no row's value changes under fault `first`, and does under each before it:
/// 13 for the first silent fault, else 16 for this one.
fn refuse_unchanged<T>(device: &Device, first: usize) -> Result<T, Refusal> {
    let sound = device.shown(0)?;
    for fault in first..=device.faults().len() {
        if device.shown(fault as u32)? == sound {
            return refuse(13, fault);
        }
    }
    refuse(16, first)
}

/// A plan, the sound rows, and for each fault the spectrum of what it changes
/// in them, one after the other.
struct Planned {
    labels: Vec<usize>,
    rows: Vec<i32>,
    changes: Vec<i32>,
}

fn planned(text: &[u8], working: usize) -> Result<Planned, Refusal> {
    let device = devices::parse(text)?;
    test_room(working, WORKING_NUMBERS)?;
    let rows = device.rows(0)?;
    let faults = device.faults().len();
    let mut changes = Vec::with_capacity(faults * rows.len());
    for fault in 1..=faults {
        let start = changes.len();
        let faulted = device.rows(fault as u32)?;
        changes.extend(faulted.iter().zip(&rows).map(|(new, old)| new - old));
        if changes[start..].iter().all(|&change| change == 0) {
            return refuse_unchanged(&device, fault);
        }
        transform(&mut changes[start..]);
    }
    let mut by_label = vec![0; rows.len()];
    for (fault, changes) in changes.chunks_exact(rows.len()).enumerate() {
        for (mask, &change) in by_label.iter_mut().zip(changes) {
            *mask |= u32::from(change != 0) << fault;
        }
    }
    let order = order(device.inputs());
    let search = Search::new(order.iter().map(|&label| by_label[label]).collect());
    let all = u32::MAX >> (32 - faults);
    let mut chosen = [0; CAP_LIMIT];
    for size in 1..=device.cap() {
        let chosen = &mut chosen[..size];
        if search.choose(0, all, chosen) {
            let labels = chosen.iter().map(|&at| order[at]).collect();
            return Ok(Planned {
                labels,
                rows,
                changes,
            });
        }
    }
    refuse(14, 0)
}

pub fn plan(text: &[u8], working: usize) -> Result<Vec<usize>, Refusal> {
    planned(text, working).map(|planned| planned.labels)
}

pub fn report(text: &[u8], room: usize, working: usize) -> Result<Vec<u8>, Refusal> {
    test_room(room, REPORT_ROOM)?;
    test_room(working, WORKING_NUMBERS)?;
    let report = match planned(text, working) {
        Ok(Planned {
            labels,
            rows: mut sound,
            changes,
        }) => {
            let length = sound.len();
            transform(&mut sound);
            lines(&labels, changes.len() / length, |fault, label| {
                let change = match fault {
                    0 => 0,
                    _ => changes[(fault - 1) * length + label],
                };
                sound[label] + change
            })
        }
        Err(refusal) => refusal_line(refusal),
    };
    Ok(report.into_bytes())
}

/// The mean of the rows that agree.
fn mean(rows: &[i32], mask: usize, values: usize) -> f64 {
    let (mut sum, mut count) = (0.0, 0.0);
    for (row, &value) in rows.iter().enumerate() {
        if row & mask == values {
            sum += f64::from(value);
            count += 1.0;
        }
    }
    sum / count
}

pub fn reading(text: &[u8], mask: u32, values: u32) -> Result<f64, Refusal> {
    let netlist = netlist::parse(text)?;
    test_fixture(&netlist, mask, values)?;
    let sound = netlist.rows(0)?;
    Ok(mean(&sound, mask as usize, values as usize))
}

/// The readings and their difference.
pub fn pair(text: &[u8], fault: u32, mask: u32, values: u32) -> Result<[f64; 3], Refusal> {
    let netlist = netlist::parse(text)?;
    test_fixture(&netlist, mask, values)?;
    test_fault(&netlist, fault)?;
    let rows = [netlist.rows(0)?, netlist.rows(fault)?];
    let [sound, faulty] = rows.map(|rows| mean(&rows, mask as usize, values as usize));
    Ok([sound, faulty, sound - faulty])
}

#[cfg(test)]
mod tests {
    use super::*;
    use crate::outcomes::{answer, compare, Outcomes};
    use second::circuits::{largest_report, worst_search, Draft, Sizes, Sketch};
    use second::random::Random;
    use second::reading::Reading;
    use second::{
        bridge_texts, hidden_texts, plan, reading, report, table_texts, walsh, wide_texts,
    };

    #[test]
    fn equals_the_direct_sums() {
        let mut random = Random::new(3);
        for inputs in 1..=11 {
            let mut rows = random.list(1 << inputs, ROW_LIMIT);
            for room in [rows.len(), rows.len() + 5, rows.len() - 1] {
                for last in [rows[rows.len() - 1], ROW_LIMIT + 1] {
                    let end = rows.len() - 1;
                    rows[end] = last;
                    let due = walsh::spectrum(&rows, room);
                    let case = format_args!("{inputs} inputs");
                    compare(&mut random, case, room, &due, |out| {
                        answer(&spectrum(&rows, out))
                    });
                    rows[end] = 0;
                }
            }
        }
        assert_eq!(
            spectrum(&[0; 3], &mut [0; 3]),
            walsh::spectrum(&[0; 3], 3).map(|_| ())
        );
    }

    #[test]
    fn circuits_and_tables_equal_the_direct_sums() {
        let mut random = Random::new(7);
        for round in 0..200 {
            let draft = match round % 5 {
                0 => {
                    let sizes = Sizes::draw(&mut random);
                    Draft::draw(&mut random, sizes)
                }
                1 => bridge_texts::draw_changing(&mut random, 2 + round / 5 % 7),
                2 => wide_texts::draw_changing(&mut random, 1 + round / 5 % 8),
                _ => table_texts::draw(&mut random, 1 + round / 2 % 8),
            };
            let (mut text, sizes) = (draft.text(), draft.sizes);
            if random.once_in(10) {
                text.pop();
            }
            let room = (1 << sizes.inputs) - 1 + random.below(4);
            for fault in 0..=sizes.faults as u32 + 1 {
                let due = devices::circuit(&text, fault, room);
                let case = format_args!("fault {fault}, {sizes:?}");
                compare(&mut random, case, room, &due, |out| {
                    answer(&circuit(&text, fault, out))
                });
            }
        }
    }

    #[test]
    fn plans_and_reports_equal_the_yardstick() {
        let mut random = Random::new(8);
        let mut outcomes = Outcomes::default();
        let mut sizes = [0; CAP_LIMIT + 1];
        for round in 0..1200 {
            let inputs = 1 + round % 7;
            let cap = random.pick(&[1, 2, 3, 4, 4, 4]);
            let draft = match round % 6 {
                0 => table_texts::draw_blocks(&mut random, inputs).with_cap(cap),
                1 => bridge_texts::draw_changing(&mut random, inputs).with_cap(cap),
                2 => wide_texts::draw_changing(&mut random, inputs).with_cap(cap),
                3 => hidden_texts::draw_outcomes(&mut random, inputs),
                _ => Sketch::draw(&mut random, inputs).draft(cap),
            };
            let draft = match draft.only_changing() {
                Some(draft) if round % 6 != 3 && !random.once_in(8) => draft,
                _ => draft,
            };
            let mut text = draft.text();
            if random.once_in(20) {
                text.pop();
            }
            let working = WORKING_NUMBERS - usize::from(random.once_in(20));
            let due = plan::plan(&text, working);
            assert_eq!(super::plan(&text, working), due, "{draft:?}");
            let due_report = report::report(&text, REPORT_ROOM, working);
            let found = super::report(&text, REPORT_ROOM, working);
            assert_eq!(found, due_report, "{draft:?}");
            outcomes.note(answer(&due).number);
            sizes[due.map_or(0, |labels| labels.len())] += 1;
        }
        let refused = [(2, 20), (8, 20), (13, 50), (14, 50), (16, 50)];
        outcomes.assert_seen(&[&[(0, 500)], &refused[..]].concat());
        assert!(sizes.iter().all(|&count| count >= 30), "{sizes:?}");
        let text = worst_search().text();
        let due = plan::plan(&text, WORKING_NUMBERS);
        assert_eq!(super::plan(&text, WORKING_NUMBERS), due);
        let text = largest_report().text();
        for text in [&text, &table_texts::largest().text()] {
            let due = report::report(text, REPORT_ROOM, WORKING_NUMBERS);
            let found = super::report(text, REPORT_ROOM, WORKING_NUMBERS);
            assert_eq!(found, due);
        }
        assert_eq!(
            super::report(&text, REPORT_ROOM - 1, WORKING_NUMBERS),
            refuse(8, 0)
        );
    }

    #[test]
    fn readings_equal_the_whole_numbers() {
        let mut random = Random::new(11);
        let mut outcomes = Outcomes::default();
        for round in 0..400 {
            let sizes = Sizes::draw(&mut random);
            let draft = match round % 2 {
                0 => Draft::draw(&mut random, sizes),
                _ => wide_texts::draw(&mut random, sizes),
            };
            let mut text = draft.text();
            if random.once_in(10) {
                text.pop();
            }
            let mask = random.below((1 << sizes.inputs) + 1) as u32;
            let values = match random.below(10) {
                0 => random.below(1 << sizes.inputs) as u32,
                _ => random.noise() as u32 & mask,
            };
            let due = match reading::reading(&text, mask, values) {
                Reading::PlainSyndrome { bits }
                | Reading::WeightedSum { bits }
                | Reading::Constrained { bits, .. } => Ok(bits),
                Reading::Refused(refusal) => Err(refusal),
            };
            let found = super::reading(&text, mask, values).map(f64::to_bits);
            assert_eq!(found, due, "mask {mask}, values {values}, {sizes:?}");
            outcomes.note(answer(&due).number);
            for fault in 0..=sizes.faults as u32 + 1 {
                let due = reading::pair(&text, fault, mask, values)
                    .map(|pair| [pair.sound, pair.faulty, pair.difference]);
                let found = super::pair(&text, fault, mask, values);
                let found = found.map(|readings| readings.map(f64::to_bits));
                assert_eq!(found, due, "fault {fault}, mask {mask}, values {values}");
            }
        }
        outcomes.assert_seen(&[(0, 200), (2, 20), (12, 20)]);
    }
}
