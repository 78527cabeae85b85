//! The samples in the repository's root: beside each text stands the
//! report that is due on it.

use second::plan::WORKING_NUMBERS;
use second::report::{report, REPORT_ROOM};
use std::collections::BTreeSet;
use std::fs;
use std::path::{Path, PathBuf};

fn folder() -> PathBuf {
    Path::new(env!("CARGO_MANIFEST_DIR")).join("../../samples")
}

/// The names of the samples' files with this ending.
fn samples(ending: &str) -> BTreeSet<String> {
    let entries = fs::read_dir(folder()).expect("the folder of the samples");
    let names = entries.map(|entry| entry.expect("an entry").file_name());
    names
        .filter_map(|name| Some(name.to_str()?.strip_suffix(ending)?.to_string()))
        .collect()
}

fn read(name: &str, ending: &str) -> Vec<u8> {
    let path = folder().join(format!("{name}{ending}"));
    fs::read(&path).unwrap_or_else(|error| panic!("{}: {error}", path.display()))
}

#[test]
fn every_sample_has_a_text_and_a_report() {
    let texts = samples(".txt");
    assert_eq!(texts, samples(".report"), "left texts, right reports");
    assert!(texts.len() >= 10, "{} samples", texts.len());
}

#[test]
fn reports_of_the_samples_are_those_that_are_due() {
    for name in samples(".txt") {
        let due = report(&read(&name, ".txt"), REPORT_ROOM, WORKING_NUMBERS).expect("room enough");
        assert_eq!(
            String::from_utf8_lossy(&read(&name, ".report")),
            String::from_utf8_lossy(&due),
            "{name}: left what stands there, right what is due"
        );
    }
}
