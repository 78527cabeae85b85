//! The report call, written from the paper's sentences and nothing else.

use crate::plan::{planned, WORKING_NUMBERS};
use crate::walsh::{test_room, Refusal};

/// How many bytes the report call gets.
pub const REPORT_ROOM: usize = 1_024;

/// The report on a plan. `values` gives the coefficient at a label under a
/// fault, and the sound one for fault 0.
pub fn lines(labels: &[usize], faults: usize, values: impl Fn(usize, usize) -> i32) -> String {
    let mut report = format!("plan,{}\n", labels.len());
    for &label in labels {
        report += &format!("label,{label},{}\n", values(0, label));
    }
    for fault in 1..=faults {
        // "the plan's first covering label"
        let covers = |label: &&usize| values(fault, **label) != values(0, **label);
        let label = *labels.iter().find(covers).expect("a covering label");
        report += &format!("fault,{fault},{label},{}\n", values(fault, label));
    }
    report
}

/// "A refusal is one line".
pub fn refusal_line(refusal: Refusal) -> String {
    format!("refused,{},{}\n", refusal.number, refusal.place)
}

/// The report call; `room` and `working` are the lengths of the buffers that
/// the caller would lend. Only 8 leaves nothing to report.
pub fn report(text: &[u8], room: usize, working: usize) -> Result<Vec<u8>, Refusal> {
    test_room(room, REPORT_ROOM)?;
    test_room(working, WORKING_NUMBERS)?;
    let report = match planned(text, working) {
        Ok(plan) => {
            let spectra = &plan.spectra;
            lines(
                &plan.labels,
                spectra.faulted.len(),
                |fault, label| match fault {
                    0 => spectra.sound[label],
                    _ => spectra.faulted[fault - 1][label],
                },
            )
        }
        Err(refusal) => refusal_line(refusal),
    };
    Ok(report.into_bytes())
}

#[cfg(test)]
mod tests {
    use super::*;
    use crate::bridge_texts::{BRIDGED_TABLE, LISTING_WITH_A_BRIDGE, SILENT_BRIDGE};
    use crate::circuits::{with_line, LISTING, SILENT_FAULT, TWO_OUTPUTS};
    use crate::hidden_texts::EXCHANGED_OUTPUTS;
    use crate::table_texts::{ANOTHER_MARK, SILENT_INPUT, SMALL};
    use crate::walsh::refuse;

    fn report_on(text: &[u8]) -> String {
        let report = report(text, REPORT_ROOM, WORKING_NUMBERS).expect("room enough");
        String::from_utf8(report).expect("plain text")
    }

    #[test]
    fn examples_of_the_paper() {
        let due = "plan,1\nlabel,1,-2\nfault,1,1,0\nfault,2,1,-4\n";
        assert_eq!(report_on(LISTING.as_bytes()), due);
        assert_eq!(report_on(SILENT_FAULT.as_bytes()), "refused,13,1\n");
        assert_eq!(report_on(TWO_OUTPUTS.as_bytes()), "refused,14,0\n");
        let cap_of_two = with_line(TWO_OUTPUTS, 1, "circuit,2,4,2,2,2");
        let due = "plan,2\nlabel,1,-2\nlabel,2,-2\nfault,1,1,2\nfault,2,2,2\n";
        assert_eq!(report_on(&cap_of_two), due);
        assert_eq!(report_on(b""), "refused,2,1\n");
        let due = "plan,1\nlabel,0,5\nfault,1,0,2\nfault,2,0,6\n";
        assert_eq!(report_on(SMALL.as_bytes()), due);
        assert_eq!(report_on(SILENT_INPUT.as_bytes()), "refused,13,1\n");
        assert_eq!(report_on(EXCHANGED_OUTPUTS.as_bytes()), "refused,16,1\n");
        assert_eq!(report_on(ANOTHER_MARK.as_bytes()), "refused,15,2\n");
    }

    #[test]
    fn examples_with_bridges() {
        let due = "plan,1\nlabel,3,2\nfault,1,3,0\nfault,2,3,0\n";
        assert_eq!(report_on(LISTING_WITH_A_BRIDGE.as_bytes()), due);
        assert_eq!(report_on(SILENT_BRIDGE.as_bytes()), "refused,13,1\n");
        let due = "plan,1\nlabel,2,6\nfault,1,2,4\nfault,2,2,2\nfault,3,2,2\n";
        assert_eq!(report_on(BRIDGED_TABLE.as_bytes()), due);
        let no_inputs = with_line(BRIDGED_TABLE, 4, "bridge,2,5");
        assert_eq!(report_on(&no_inputs), "refused,19,4\n");
    }

    #[test]
    fn short_buffers_go_before_all_else() {
        for text in [
            LISTING,
            SILENT_FAULT,
            EXCHANGED_OUTPUTS,
            "",
            "x",
            SMALL,
            ANOTHER_MARK,
        ] {
            let text = text.as_bytes();
            assert_eq!(report(text, 1_023, 4_608), refuse(8, 0));
            assert_eq!(report(text, 1_024, 4_607), refuse(8, 0));
            assert_eq!(report(text, 0, 0), refuse(8, 0));
            assert!(report(text, 1_024, 4_608).is_ok());
        }
    }
}
