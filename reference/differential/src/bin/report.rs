//! The program `signature` again, over this crate's fast plans: a text
//! on standard input, its report on standard output. For the benchmark.

use differential::fast;
use second::plan::WORKING_NUMBERS;
use second::report::REPORT_ROOM;
use std::io::{self, Read, Write};

fn main() -> io::Result<()> {
    let mut text = Vec::new();
    io::stdin().lock().read_to_end(&mut text)?;
    let report = fast::report(&text, REPORT_ROOM, WORKING_NUMBERS).expect("room enough");
    io::stdout().lock().write_all(&report)
}
