//! Writes the stored cases, and what the program `vectors` says of them.

use second::vectors::{cases, path, Case};
use std::fs;

fn main() -> std::io::Result<()> {
    if let Some(folder) = path().parent() {
        fs::create_dir_all(folder)?;
    }
    let cases = cases();
    let stored: Vec<u8> = cases.iter().flat_map(Case::bytes).collect();
    fs::write(path(), stored)?;
    let said = format!("{} cases, 0 differ\n", cases.len());
    fs::write(path().with_file_name("stdout"), said)
}
