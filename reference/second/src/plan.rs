//! The plan call, written from the sentences of the paper and of note 5 and
//! nothing else: every set is tried, over coefficients that are direct sums.

use crate::devices::{self, Device};
use crate::walsh::{self, refuse, test_room, Refusal};

/// How many working numbers the plan and the report call get.
pub const WORKING_NUMBERS: usize = 4_608;
/// The largest cap.
pub const CAP_LIMIT: usize = 4;

/// "Labels stand in the order: fewer inputs first, then the smaller number";
/// those below 2^N.
pub fn order(inputs: usize) -> Vec<usize> {
    let mut labels: Vec<usize> = (0..1 << inputs).collect();
    labels.sort_by_key(|&label| (label.count_ones(), label));
    labels
}

/// The coefficients of a text, sound and under each of its faults.
pub struct Spectra {
    pub sound: Vec<i32>,
    pub faulted: Vec<Vec<i32>>,
}

impl Spectra {
    pub fn of(device: &Device) -> Spectra {
        let spectrum = |fault| {
            let rows = device.rows(fault).expect("a fault of the text");
            walsh::spectrum(&rows, rows.len()).expect("rows in range")
        };
        Spectra {
            sound: spectrum(0),
            faulted: (1..=device.faults().len() as u32).map(spectrum).collect(),
        }
    }

    /// "A label covers a fault when its coefficients, sound and faulted,
    /// differ"; faults count from 0 here.
    pub fn covers(&self, label: usize, fault: usize) -> bool {
        self.faulted[fault][label] != self.sound[label]
    }

    /// The faults that a label covers, a bit each.
    pub fn mask(&self, label: usize) -> u32 {
        (0..self.faulted.len())
            .filter(|&fault| self.covers(label, fault))
            .fold(0, |mask, fault| mask | 1 << fault)
    }
}

/// The first of the text's faults, from 1, that is meant.
fn first_fault(device: &Device, meant: impl Fn(u32) -> bool) -> Option<usize> {
    (1..=device.faults().len()).find(|&fault| meant(fault as u32))
}

/// The first silent fault: "no output changes on any row".
fn first_silent(device: &Device) -> Option<usize> {
    let shown = device.shown(0);
    first_fault(device, |fault| device.shown(fault) == shown)
}

/// The first hidden fault: it "changes some output but no row's weighted sum".
fn first_hidden(device: &Device) -> Option<usize> {
    let (shown, rows) = (device.shown(0), device.rows(0));
    first_fault(device, |fault| {
        device.shown(fault) != shown && device.rows(fault) == rows
    })
}

/// The first way to choose `more` masks from `from` on that cover what is
/// missing, as places in the list. Sets come by their first differing label.
fn choose(masks: &[u32], missing: u32, from: usize, more: usize) -> Option<Vec<usize>> {
    if more == 0 {
        return (missing == 0).then(Vec::new);
    }
    (from..masks.len()).find_map(|at| {
        let mut chosen = choose(masks, missing & !masks[at], at + 1, more - 1)?;
        chosen.insert(0, at);
        Some(chosen)
    })
}

/// The first set of at most `cap` labels that covers every fault.
fn first_set(spectra: &Spectra, order: &[usize], cap: usize) -> Option<Vec<usize>> {
    let masks: Vec<u32> = order.iter().map(|&label| spectra.mask(label)).collect();
    let all = (0..spectra.faulted.len()).fold(0, |mask, fault| mask | 1 << fault);
    let places = (1..=cap).find_map(|size| choose(&masks, all, 0, size))?;
    Some(places.into_iter().map(|at| order[at]).collect())
}

/// A plan with what the report prints of it.
pub struct Planned {
    pub labels: Vec<usize>,
    pub spectra: Spectra,
}

/// Plans for a text; `working` is how many working numbers are lent.
pub fn planned(text: &[u8], working: usize) -> Result<Planned, Refusal> {
    let device = devices::parse(text)?;
    test_room(working, WORKING_NUMBERS)?;
    if let Some(fault) = first_silent(&device) {
        return refuse(13, fault);
    }
    // "after 13 and before 14"
    if let Some(fault) = first_hidden(&device) {
        return refuse(16, fault);
    }
    let spectra = Spectra::of(&device);
    match first_set(&spectra, &order(device.inputs()), device.cap()) {
        Some(labels) => Ok(Planned { labels, spectra }),
        None => refuse(14, 0),
    }
}

/// The plan call: the labels of the first set within the cap.
pub fn plan(text: &[u8], working: usize) -> Result<Vec<usize>, Refusal> {
    planned(text, working).map(|planned| planned.labels)
}

#[cfg(test)]
mod tests {
    use super::*;
    use crate::bridge_texts::{BRIDGED_TABLE, LISTING_WITH_A_BRIDGE, SILENT_BRIDGE};
    use crate::circuits::{with_line, LISTING, SILENT_FAULT, TWO_OUTPUTS};
    use crate::hidden_texts::{EXCHANGED_OUTPUTS, OPPOSITE_WEIGHTS, SILENT_BEHIND_HIDDEN};
    use crate::table_texts::{ANOTHER_MARK, SILENT_INPUT, SMALL};

    #[test]
    fn order_of_the_labels() {
        let all = order(8);
        assert_eq!(all[..12], [0, 1, 2, 4, 8, 16, 32, 64, 128, 3, 5, 6]);
        assert_eq!(all[247..], [127, 191, 223, 239, 247, 251, 253, 254, 255]);
        for inputs in 1..=8 {
            // "a smaller N skips labels of 2^N and above"
            let kept = all.iter().filter(|&&label| label < 1 << inputs);
            assert!(kept.eq(&order(inputs)), "{inputs} inputs");
        }
    }

    #[test]
    fn examples_of_the_paper() {
        let working = WORKING_NUMBERS;
        assert_eq!(plan(LISTING.as_bytes(), working), Ok(vec![1]));
        assert_eq!(plan(SILENT_FAULT.as_bytes(), working), refuse(13, 1));
        assert_eq!(plan(TWO_OUTPUTS.as_bytes(), working), refuse(14, 0));
        let cap_of_two = with_line(TWO_OUTPUTS, 1, "circuit,2,4,2,2,2");
        assert_eq!(plan(&cap_of_two, working), Ok(vec![1, 2]));
        assert_eq!(plan(b"", working), refuse(2, 1));
        assert_eq!(plan(SMALL.as_bytes(), working), Ok(vec![0]));
        assert_eq!(plan(SILENT_INPUT.as_bytes(), working), refuse(13, 1));
        assert_eq!(plan(ANOTHER_MARK.as_bytes(), working), refuse(15, 2));
        assert_eq!(plan(LISTING_WITH_A_BRIDGE.as_bytes(), working), Ok(vec![3]));
        assert_eq!(plan(SILENT_BRIDGE.as_bytes(), working), refuse(13, 1));
        assert_eq!(plan(BRIDGED_TABLE.as_bytes(), working), Ok(vec![2]));
    }

    #[test]
    fn silent_and_hidden_faults() {
        let working = WORKING_NUMBERS;
        let plan_of = |text: &str| plan(text.as_bytes(), working);
        assert_eq!(plan_of(EXCHANGED_OUTPUTS), refuse(16, 1));
        assert_eq!(plan_of(OPPOSITE_WEIGHTS), refuse(16, 1));
        assert_eq!(plan_of(SILENT_BEHIND_HIDDEN), refuse(13, 2));
        assert_eq!(plan_of(SILENT_FAULT), refuse(13, 1));
        // The weights alone hide the first two faults, and not the third.
        let other = with_line(EXCHANGED_OUTPUTS, 4, "output,2,2");
        assert_eq!(plan(&other, working), Ok(vec![0]));
        let other = with_line(OPPOSITE_WEIGHTS, 3, "output,1,1");
        assert_eq!(plan(&other, working), Ok(vec![0]));
        let other = with_line(SILENT_BEHIND_HIDDEN, 5, "output,2,-1");
        assert_eq!(plan(&other, working), refuse(13, 2));
        // The paper's two outputs, which no one label covers, with x3 and its
        // complement as two more: hidden goes before 14.
        let text = "circuit,3,5,4,3,1\n\
            gate,xor,1,1\ngate,xor,1,1\ngate,xor,1,4\ngate,xor,2,5\ngate,not,3,0\n\
            output,6,1\noutput,7,1\noutput,3,4\noutput,8,4\n\
            fault,4,1\nfault,5,1\nfault,3,0\n";
        assert_eq!(plan_of(text), refuse(16, 3));
        let bridged = with_line(text, 11, "bridge,1,2");
        assert_eq!(plan(&bridged, working), refuse(16, 3));
        let not_stuck = with_line(text, 13, "fault,4,1");
        assert_eq!(plan(&not_stuck, working), refuse(14, 0));
        let opposite = with_line(text, 9, "output,3,-4");
        assert_eq!(plan(&opposite, working), refuse(14, 0));
    }

    #[test]
    fn order_of_the_refusals() {
        let short = WORKING_NUMBERS - 1;
        assert_eq!(plan(b"", short), refuse(2, 1));
        assert_eq!(plan(LISTING.as_bytes(), short), refuse(8, 0));
        assert_eq!(plan(SILENT_FAULT.as_bytes(), short), refuse(8, 0));
        assert_eq!(plan(TWO_OUTPUTS.as_bytes(), short), refuse(8, 0));
        assert_eq!(plan(SILENT_BRIDGE.as_bytes(), short), refuse(8, 0));
        for text in [EXCHANGED_OUTPUTS, OPPOSITE_WEIGHTS, SILENT_BEHIND_HIDDEN] {
            assert_eq!(plan(text.as_bytes(), short), refuse(8, 0));
        }
        let no_line = with_line(EXCHANGED_OUTPUTS, 5, "fault,3,0");
        assert_eq!(plan(&no_line, short), refuse(5, 5));
        let no_inputs = with_line(LISTING_WITH_A_BRIDGE, 8, "bridge,1,4");
        assert_eq!(plan(&no_inputs, short), refuse(19, 8));
    }
}
