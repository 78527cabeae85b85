//! The pages of this repository name its crates, files, functions, definitions,
//! laws, tests and must-fail edits: each name must be there, and each link lead
//! to a file. Each must-fail edit is on the map from sentences to what keeps
//! them. A name leads to one place: every name is defined once.

use std::collections::{BTreeMap, BTreeSet};
use std::fs;
use std::path::{Path, PathBuf};

/// The map: the demands, and document 01 sentence by sentence.
const MAP: [&str; 2] = ["docs/DEMANDS.md", "docs/SENTENCES.md"];

const ARCHITECTURE: &str = "docs/ARCHITECTURE.md";

/// Commands; what follows one between the same backticks is no statement.
const COMMANDS: [&str; 4] = ["rt", "cargo", "bash", "dos2unix"];

/// What pages name that is not of this repository: C functions that the program
/// `signature` comes to by libraries, and words that are no kinds of gates.
const OTHERS: [&str; 5] = [
    "write",
    "rattle_errno",
    "__xpg_strerror_r",
    "buf",
    "AND",
];

type Names = BTreeSet<String>;

fn root() -> PathBuf {
    Path::new(env!("CARGO_MANIFEST_DIR")).join("../..")
}

/// The files and folders below a folder, but for what is built and git's own.
fn below(folder: &Path, found: &mut Vec<PathBuf>) {
    let entries = fs::read_dir(folder).unwrap_or_else(|error| panic!("{folder:?}: {error}"));
    for entry in entries {
        let path = entry.expect("an entry").path();
        let name = path.file_name().expect("a name");
        if name == "target" || name == "out" || name == ".git" {
            continue;
        }
        if path.is_dir() {
            below(&path, found);
        }
        found.push(path);
    }
}

fn all_below(folder: &str) -> Vec<PathBuf> {
    let mut found = Vec::new();
    below(&root().join(folder), &mut found);
    found
}

fn files_of(folder: &str, ending: &str) -> Vec<PathBuf> {
    let mut found = all_below(folder);
    found.retain(|path| path.extension().is_some_and(|name| name == ending));
    found
}

fn read(path: &Path) -> String {
    fs::read_to_string(path).unwrap_or_else(|error| panic!("{path:?}: {error}"))
}

fn stem(path: &Path) -> String {
    let name = path.file_stem().expect("a name");
    name.to_string_lossy().into_owned()
}

/// The text of a file without its comments.
fn code_of(path: &Path) -> String {
    let has_dashes = path.extension().is_some_and(|ending| ending == "antt");
    let mark = if has_dashes { "--" } else { "//" };
    let text = read(path);
    let lines = text.lines().map(|line| line.split(mark).next());
    let code = lines.flatten().collect::<Vec<_>>().join("\n");
    // C has the other kind of comments too.
    let mut parts = code.split("/*");
    let first = parts.next().unwrap_or_default().to_string();
    let rests = parts.filter_map(|part| part.split_once("*/"));
    rests.fold(first, |code, (_, rest)| code + " " + rest)
}

/// Names as the papers, Rattle and its prover write them.
fn words(text: &str) -> impl Iterator<Item = &str> {
    text.split(|c: char| !(c.is_alphanumeric() || "_-".contains(c)))
        .filter(|word| !word.is_empty())
}

fn is_name(text: &str) -> bool {
    words(text).next() == Some(text)
}

fn names_in(path: &Path) -> Names {
    words(&code_of(path)).map(str::to_string).collect()
}

/// The must-fail edits.
fn edits() -> Names {
    files_of("crates", "edit")
        .iter()
        .map(|path| stem(path))
        .collect()
}

/// The crates by name, each with what it stands on.
fn crates_with_others() -> BTreeMap<String, Names> {
    let list = read(&root().join("crates.txt"));
    let lines = list.lines().filter(|line| !line.starts_with('#'));
    lines
        .filter_map(|line| line.split_once(':'))
        .map(|(name, others)| {
            let others = others.split_whitespace().map(str::to_string);
            // "staticlib" may stand after the name.
            let name = name.split_whitespace().next().expect("a crate's name");
            (name.to_string(), others.collect())
        })
        .collect()
}

fn crates() -> Names {
    crates_with_others().into_keys().collect()
}

/// What stands under `#[test]`.
fn tests() -> Names {
    let mut names = BTreeSet::new();
    for path in files_of("reference", "rs") {
        let text = read(&path);
        for part in text.split("#[test]").skip(1) {
            let (_, rest) = part.split_once("fn ").expect("a function");
            names.extend(words(rest).next().map(str::to_string));
        }
    }
    names
}

/// Every name in the crates' code, definitions and proofs, files included.
fn names() -> Names {
    let mut names = BTreeSet::new();
    for ending in ["rt", "antt"] {
        for path in files_of("crates", ending) {
            names.extend(names_in(&path));
            names.insert(stem(&path));
        }
    }
    names
}

/// What stands between backticks, but for blocks between lines of three.
fn spans(page: &str) -> Vec<&str> {
    let mut spans = Vec::new();
    let mut in_block = false;
    for line in page.lines() {
        if line.starts_with("```") {
            in_block = !in_block;
        } else if !in_block {
            let parts: Vec<_> = line.split('`').collect();
            assert!(parts.len() % 2 == 1, "a backtick without its other: {line}");
            spans.extend(parts.into_iter().skip(1).step_by(2));
        }
    }
    assert!(!in_block, "a block without its end");
    spans
}

/// What stands between backticks, where it is one name or a path to one.
fn quoted(cell: &str) -> Vec<&str> {
    let last = spans(cell)
        .into_iter()
        .map(|part| part.rsplit("::").next().unwrap_or(part));
    last.filter(|part| is_name(part)).collect()
}

/// The cells of each row of each table, with the heads of their columns.
fn cells(text: &str) -> Vec<(String, String)> {
    let mut cells = Vec::new();
    let mut head: Vec<String> = Vec::new();
    for line in text.lines() {
        let Some(row) = line.strip_prefix('|') else {
            head.clear();
            continue;
        };
        let row = row.trim_end_matches('|').split('|').map(|cell| cell.trim());
        if head.is_empty() {
            head = row.map(str::to_string).collect();
        } else {
            let row: Vec<_> = row.map(str::to_string).collect();
            assert_eq!(row.len(), head.len(), "cells of the row: {line}");
            cells.extend(head.iter().cloned().zip(row));
        }
    }
    cells
}

/// The text of a page.
fn page(name: &str) -> String {
    read(&root().join(name))
}

/// The cells of the map's tables.
fn map_cells() -> Vec<(String, String)> {
    MAP.iter().flat_map(|name| cells(&page(name))).collect()
}

/// The pages by their names, which begin in the root.
fn pages() -> Vec<(PathBuf, String)> {
    let paths = files_of("", "md").into_iter();
    paths.map(|path| (from_root(&path), read(&path))).collect()
}

fn from_root(path: &Path) -> PathBuf {
    let path = path.strip_prefix(root()).expect("a path below the root");
    path.to_path_buf()
}

#[test]
fn what_the_map_names_is_there() {
    let (edits, tests, names, crates) = (edits(), tests(), names(), crates());
    assert!(edits.len() > 50 && tests.len() > 100 && crates.len() > 10);
    let mut checked = 0;
    for (head, cell) in map_cells() {
        for name in quoted(&cell) {
            let there = match head.as_str() {
                "refused" => edits.contains(name) || crates.contains(name),
                "tried by" | "run by" => tests.contains(name) || crates.contains(name),
                "defined by" | "exactly there" => names.contains(name) || crates.contains(name),
                "kept by" => [&names, &edits, &tests, &crates]
                    .iter()
                    .any(|known| known.contains(name)),
                _ => continue,
            };
            assert!(
                there,
                "{name:?}, in a column {head:?}, is not there: {cell}"
            );
            checked += 1;
        }
    }
    assert!(checked > 300, "{checked} names were looked for");
}

#[test]
fn must_fail_edits_are_of_the_crate_before_them() {
    let (edits, crates) = (edits(), crates());
    let mut checked = 0;
    for (_, cell) in map_cells().iter().filter(|(head, _)| head == "refused") {
        for part in cell.split(';') {
            let mut of: Option<&str> = None;
            for name in quoted(part) {
                if crates.contains(name) && !edits.contains(name) {
                    of = Some(name);
                } else if let Some(owner) = of {
                    let path = root().join(format!("crates/{owner}/must-fail/{name}.edit"));
                    assert!(path.is_file(), "{name} is none of {owner}'s: {cell}");
                    checked += 1;
                }
            }
        }
    }
    assert!(checked > 30, "{checked} names were looked for");
}

#[test]
fn every_must_fail_edit_is_on_the_map() {
    let map = MAP.map(page).concat();
    let named: BTreeSet<_> = spans(&map).into_iter().collect();
    for edit in edits() {
        assert!(named.contains(edit.as_str()), "{edit} is not named");
    }
}

/// What a page can name between backticks.
struct Known {
    /// Names of any kind.
    names: Names,
    /// What each crate's code declares.
    code: BTreeMap<String, Names>,
    /// The crates' code, where it names what other libraries have.
    calls: String,
    /// Files and folders, from the root.
    paths: Vec<PathBuf>,
}

impl Known {
    fn new() -> Known {
        let mut known = Known {
            names: names(),
            code: BTreeMap::new(),
            calls: String::new(),
            paths: all_below("").iter().map(|path| from_root(path)).collect(),
        };
        for name in crates() {
            let files = files_of(&format!("crates/{name}/src"), "rt");
            let code: String = files.iter().map(|path| code_of(path) + "\n").collect();
            let declared = declared_names(&code, &["fn ", "const ", "struct ", "enum "]);
            known.calls += &code;
            known.code.insert(name, declared.into_iter().collect());
        }
        for more in [crates(), edits(), tests()] {
            known.names.extend(more);
        }
        for path in ["h", "c"].iter().flat_map(|ending| files_of("", ending)) {
            known.names.extend(names_in(&path));
        }
        known
    }

    /// A file or folder whose path ends so; NAME stands for any name.
    fn is_path(&self, quote: &str) -> bool {
        let due: Vec<_> = quote.trim_end_matches('/').split('/').rev().collect();
        self.paths.iter().any(|path| {
            let mut found = path.iter().rev().map(|part| part.to_string_lossy());
            due.iter().all(|&due| {
                let ending = due.strip_prefix("NAME");
                found.next().is_some_and(|found| {
                    found == due || ending.is_some_and(|ending| found.ends_with(ending))
                })
            })
        })
    }

    /// A name, a file's name with or without its ending, or, where it ends in
    /// a low line, how some name begins.
    fn is_named(&self, quote: &str) -> bool {
        self.names.contains(quote)
            || self.is_path(quote)
            || self.paths.iter().any(|path| stem(path) == quote)
            || quote.ends_with('_') && self.names.iter().any(|name| name.starts_with(quote))
    }

    /// Whether what is quoted is there; none where it is no single name.
    fn has(&self, quote: &str) -> Option<bool> {
        if COMMANDS.contains(&quote) || OTHERS.contains(&quote) {
            return Some(true);
        }
        if let Some((owner, name)) = quote.split_once("::") {
            return is_name(name).then(|| match self.code.get(owner) {
                Some(code) => code.contains(name),
                // Of another library: where some code calls it so.
                None => self.calls.contains(quote),
            });
        }
        if is_name(quote) {
            return Some(self.is_named(quote));
        }
        // A field of a value, whose name is one letter.
        if let Some((_, field)) = quote.split_once('.').filter(|(value, _)| value.len() == 1) {
            return Some(field.split('.').all(|name| self.names.contains(name)));
        }
        let mut parts = quote.split(['/', '.']);
        let is_path = !quote.contains("..") && parts.all(|part| part.is_empty() || is_name(part));
        // What is built is not there before it is.
        let is_built = quote.starts_with("target/");
        (is_path && !is_built).then(|| self.is_path(quote))
    }
}

/// The page on the port has names of before beside those of today.
#[test]
fn what_the_pages_name_is_there() {
    let known = Known::new();
    let mut checked = 0;
    let mut missing = Vec::new();
    let pages = pages().into_iter();
    for (name, text) in pages.filter(|(name, _)| ![Path::new("docs/PORT.md"), Path::new("docs/DESIGN-PASS.md")].contains(&name.as_path())) {
        for quote in spans(&text) {
            if let Some(there) = known.has(quote) {
                checked += 1;
                missing.extend((!there).then(|| format!("{}: {quote}", name.display())));
            }
        }
    }
    assert!(missing.is_empty(), "not there: {missing:#?}");
    assert!(checked > 1500, "{checked} names were looked for");
}

/// The map says laws in blocks and, with spaces, between backticks. Names of
/// one letter are variables, and words in capitals are those of the paper.
#[test]
fn statements_on_the_map_have_names_that_are_there() {
    let known = Known::new();
    let mut checked = 0;
    for text in MAP.map(page) {
        let blocks = text.lines().filter_map(|line| line.strip_prefix("    "));
        let blocks = blocks.filter_map(|line| line.split("--").next());
        let quotes = spans(&text).into_iter().filter(|quote| {
            let first = words(quote).next().unwrap_or_default();
            known.has(quote).is_none() && !COMMANDS.contains(&first)
        });
        for statement in blocks.chain(quotes) {
            for name in words(statement).filter(|name| name.chars().nth(1).is_some()) {
                let there = known.names.contains(name) || name == name.to_uppercase();
                assert!(there, "{name} is not there: {statement}");
                checked += 1;
            }
        }
    }
    assert!(checked > 300, "{checked} names were looked for");
}

/// The names in each crate and in each file of definitions or laws, by its name.
fn names_inside() -> BTreeMap<String, Names> {
    let mut inside: BTreeMap<String, Names> = BTreeMap::new();
    for owner in crates() {
        for path in all_below(&format!("crates/{owner}")) {
            let file = stem(&path);
            let of_crate = inside.entry(owner.clone()).or_default();
            of_crate.insert(file.clone());
            let ending = path.extension().unwrap_or_default();
            if ending == "rt" || ending == "antt" {
                let names = names_in(&path);
                of_crate.extend(names.iter().cloned());
                if ending == "antt" {
                    inside.entry(file).or_default().extend(names);
                }
            }
        }
    }
    inside
}

/// `crate` `File`, `crate` `name`, `File` `name`: with a space between them and
/// no more, the second is in the first.
#[test]
fn a_name_is_in_the_crate_or_file_before_it() {
    let inside = names_inside();
    let mut checked = 0;
    for (page, text) in pages() {
        for line in text.lines() {
            let parts: Vec<_> = line.split('`').collect();
            for at in (1..parts.len().saturating_sub(2)).step_by(2) {
                let (owner, between, name) = (parts[at], parts[at + 1], parts[at + 2]);
                let Some(names) = inside.get(owner).filter(|_| between == " ") else {
                    continue;
                };
                if is_name(name) {
                    let page = page.display();
                    assert!(names.contains(name), "{page}: {name} is not in {owner}");
                    checked += 1;
                }
            }
        }
    }
    assert!(checked > 200, "{checked} names were looked for");
}

/// Asserts that these are the files of definitions or laws, by crate and name.
fn assert_lists(listed: &BTreeSet<(String, String)>, room: &str) {
    let mut found = BTreeSet::new();
    for owner in crates() {
        for path in files_of(&format!("crates/{owner}"), "antt") {
            let name = stem(&path);
            let folder = path.parent().and_then(Path::file_name);
            if folder.is_some_and(|folder| folder == room) && name != "Lib" {
                found.insert((owner.clone(), name));
            }
        }
    }
    let missing: Vec<_> = found.difference(listed).collect();
    assert!(missing.is_empty(), "{room} not on the page: {missing:?}");
    let others: Vec<_> = listed.difference(&found).collect();
    assert!(others.is_empty(), "{room} not there: {others:?}");
}

/// The README counts what its first command proves, and the must-fail edits.
#[test]
fn the_readme_counts_crates_and_edits() {
    let text = page("README.md");
    let proved = 1 + crates_with_others()["signature"]
        .intersection(&crates())
        .count();
    let edits = files_of("crates", "edit").len();
    for said in [
        format!("({proved} crates,"),
        format!("each of some {edits} wrong changes"),
    ] {
        assert!(text.contains(&said), "not there: {said}");
    }
}

/// The table of crates counts their functions and must-fail edits; that of the
/// gate's seconds, with several crates a row, their edits.
#[test]
fn architecture_counts_functions_and_edits() {
    let rows = cells(&page(ARCHITECTURE));
    let mut counted = BTreeSet::new();
    let mut all = 0;
    let mut owner = String::new();
    let mut timed = 0;
    // The line under the heads is a row too.
    for (head, cell) in rows.iter().filter(|(_, cell)| cell != "---") {
        let folder = format!("crates/{owner}");
        let due = match head.as_str() {
            "crate" => {
                owner = cell.trim_matches('`').to_string();
                continue;
            }
            "functions" => {
                counted.insert(owner.clone());
                let codes = files_of(&format!("{folder}/src"), "rt");
                let declared = codes
                    .iter()
                    .map(|path| declared_names(&code_of(path), &["fn "]));
                declared.map(|names| names.len()).sum::<usize>()
            }
            "must-fail edits" => {
                let edits = files_of(&folder, "edit").len();
                all += edits;
                edits
            }
            // Of the last row some cells are empty.
            "edits" if !owner.is_empty() => {
                let edits = files_of(&folder, "edit").len();
                timed += edits;
                edits
            }
            _ => continue,
        };
        assert_eq!(cell, &due.to_string(), "{head} of {owner}");
    }
    assert_eq!(counted, crates());
    assert_eq!(timed, all, "must-fail edits with their seconds, and all");
    let said = format!("with {all} must-fail edits;");
    assert!(page(ARCHITECTURE).contains(&said), "not there: {said}");
}

#[test]
fn architecture_lists_the_files_of_definitions() {
    let crates = crates();
    let mut listed = BTreeSet::new();
    for (_, cell) in cells(&page(ARCHITECTURE))
        .iter()
        .filter(|(head, _)| head == "file")
    {
        // One or more crates, then files that each of them has.
        let mut owners: Vec<&str> = Vec::new();
        let mut has_files = false;
        for name in quoted(cell) {
            let is_crate = crates.contains(name);
            if is_crate && has_files {
                owners.clear();
            }
            has_files = !is_crate;
            if is_crate {
                owners.push(name);
            } else {
                assert!(!owners.is_empty(), "{name} has no crate before it: {cell}");
                listed.extend(owners.iter().map(|&of| (of.to_string(), name.to_string())));
            }
        }
    }
    assert_lists(&listed, "specs");
}

/// The list of laws is a block of lines `crate   File ─ File, File: what they
/// say   File: ..`; a line without a crate goes on with the one above it.
#[test]
fn architecture_lists_the_files_of_laws() {
    let text = page(ARCHITECTURE);
    let (_, laws) = text.split_once("\n## Laws\n").expect("the laws");
    let laws = laws.split("\n## ").next().unwrap_or(laws);
    let crates = crates();
    let mut listed = BTreeSet::new();
    let mut owner = "";
    for line in laws.lines().filter_map(|line| line.strip_prefix("    ")) {
        let mut rest = line;
        if !line.starts_with(' ') {
            (owner, rest) = line.split_once(' ').expect("files after the crate");
            assert!(crates.contains(owner), "no crate: {owner}");
        }
        for part in rest.split("  ").flat_map(|part| part.split(['─', '└'])) {
            let (files, _) = part.split_once(':').unwrap_or((part, ""));
            let files: Vec<_> = files.trim().split(", ").collect();
            let is_file = |name: &&str| is_name(name) && name.starts_with(char::is_uppercase);
            if files.iter().all(is_file) {
                let files = files.iter().map(|name| name.to_string());
                listed.extend(files.map(|name| (owner.to_string(), name)));
            }
        }
    }
    assert_lists(&listed, "proofs");
}

#[test]
fn links_lead_to_files() {
    let mut checked = 0;
    for (name, text) in pages() {
        let page = root().join(&name);
        let folder = page.parent().expect("a folder");
        for rest in text.split("](").skip(1) {
            let (link, _) = rest.split_once(')').expect("the end of the link");
            let path = link.split('#').next().unwrap_or(link);
            if !link.contains("://") && !path.is_empty() {
                let there = folder.join(path).exists();
                assert!(there, "{}: {link} leads nowhere", name.display());
                checked += 1;
            }
        }
    }
    assert!(checked > 10, "{checked} links were followed");
}

/// What a line of a file of definitions or laws has after its spaces.
enum Form<'a> {
    /// The name of a record or of data, if others can use it.
    Block(&'a str, Option<&'a str>),
    /// The name of a definition or a law that others can use.
    Public(&'a str),
    Other,
}

fn form(line: &str) -> Form<'_> {
    let line = ["abbrev ", "unfoldable "]
        .iter()
        .find_map(|mark| line.strip_prefix(mark))
        .unwrap_or(line);
    let public = line.strip_prefix("pub ");
    let mut rest = public.unwrap_or(line).split_whitespace();
    match (rest.next(), rest.next()) {
        (Some(kind @ ("record" | "data")), Some(name)) => Form::Block(kind, public.and(Some(name))),
        (Some("ruleset"), Some(name)) if public.is_some() => Form::Public(name),
        (Some(name), Some(":")) if public.is_some() => Form::Public(name),
        (Some("mod"), Some(_)) => Form::Other,
        _ => {
            assert!(public.is_none(), "of no known form: {line}");
            Form::Other
        }
    }
}

/// The names that a file of definitions or laws defines for others. Fields of
/// records are none, constructors of data are.
fn defined_names(text: &str) -> Vec<String> {
    let mut names = Vec::new();
    let mut block: Option<(usize, &str, bool)> = None;
    for line in text.lines().filter(|line| !line.trim().is_empty()) {
        let words = line.trim_start();
        let indent = line.len() - words.len();
        if block.is_some_and(|(least, _, _)| indent <= least) {
            block = None;
        }
        match (block, form(words)) {
            (None, Form::Block(kind, name)) => {
                block = Some((indent, kind, name.is_some()));
                names.extend(name.map(str::to_string));
            }
            (None, Form::Public(name)) => names.push(name.to_string()),
            (Some((least, "data", true)), _) if indent == least + 2 => {
                let mut words = words.split_whitespace();
                if let (Some(name), Some(":")) = (words.next(), words.next()) {
                    names.push(name.to_string());
                }
            }
            _ => {}
        }
    }
    names
}

/// What a file of code declares, of these kinds.
fn declared_names(text: &str, kinds: &[&str]) -> Vec<String> {
    let lines = text.lines().map(|line| {
        let line = line.strip_prefix("pub ").unwrap_or(line);
        line.strip_prefix("extern \"C\" ").unwrap_or(line)
    });
    let rests = lines.filter_map(|line| kinds.iter().find_map(|kind| line.strip_prefix(kind)));
    let names = rests.filter_map(|rest| words(rest).next());
    names.map(str::to_string).collect()
}

/// The names of structs whose model has a value of the same name, a record in the
/// definitions of their crate: for a reader they are one thing.
fn names_of_values(code: &str) -> Vec<&str> {
    code.split("\nimpl Model for ")
        .skip(1)
        .filter_map(|part| {
            let (name, rest) = part.split_once(" {")?;
            let (_, value) = rest.split_once("ghost Value = { ")?;
            value.starts_with(&format!("{name} }}")).then_some(name)
        })
        .collect()
}

#[test]
fn a_name_leads_to_one_place() {
    let mut places: BTreeMap<String, Vec<PathBuf>> = BTreeMap::new();
    for ending in ["antt", "rt"] {
        for path in files_of("crates", ending) {
            let folder = path.parent().expect("a folder");
            let room = folder.file_name().expect("a name").to_string_lossy();
            let names = match (ending, room.as_ref()) {
                ("rt", _) => {
                    let code = read(&path);
                    let mut names = declared_names(&code, &["struct ", "enum "]);
                    names.retain(|name| !names_of_values(&code).contains(&name.as_str()));
                    names
                }
                // The proof of a function, in a folder of its own, is cited by no page.
                (_, "specs" | "proofs") => defined_names(&read(&path)),
                _ => continue,
            };
            for name in names {
                places.entry(name).or_default().push(path.clone());
            }
        }
    }
    assert!(places.len() > 500, "{} names were found", places.len());
    let twice: Vec<_> = places.iter().filter(|(_, at)| at.len() > 1).collect();
    assert!(twice.is_empty(), "defined more than once: {twice:#?}");
}
