//! The stored cases: the file is what the second implementation would write
//! today, and there are cases of every kind. That the library meets them is
//! tried by the program `vectors` (`bash tools/build vectors`), which must see every
//! case that is not as it should be; the gate has built it before these tests.

use differential::outcomes::Outcomes;
use second::bridge_texts::{BRIDGED_TABLE, LISTING_WITH_A_BRIDGE};
use second::circuits::LISTING;
use second::devices::{self, Device};
use second::hidden_texts;
use second::lines::TEXT_LIMIT;
use second::netlist;
use second::plan::CAP_LIMIT;
use second::signed_texts;
use second::tables::is_table;
use second::vectors::{cases, path, stored, Case};
use second::walsh;
use second::wide_texts::{one_gate, rows_of_gate, AND_OF_THREE, PARITY_OF_FOUR, TRUTH_VALUES};
use std::collections::BTreeSet;
use std::io::Write;
use std::path::PathBuf;
use std::process::{Command, Stdio};
use std::sync::LazyLock;

/// The lengths that a list can have.
const LENGTHS: [usize; 11] = [2, 4, 8, 16, 32, 64, 128, 256, 512, 1_024, 2_048];

static CASES: LazyLock<Vec<Case>> = LazyLock::new(cases);

#[test]
fn stored_cases_are_those_of_today() {
    let file = std::fs::read(path()).expect("the stored cases");
    assert!(
        file == stored(),
        "run `cargo run --release --offline --locked --bin vectors`"
    );
    assert!(file.len() < 1_390_000, "{} bytes", file.len());
    let said = std::fs::read_to_string(path().with_file_name("stdout"));
    let due = format!("{} cases, 0 differ\n", CASES.len());
    assert_eq!(said.expect("what is said of them"), due);
    // What the program `vectors` has room for.
    for case in CASES.iter() {
        assert!(case.list.len() <= 2_056 && case.due.len() <= 25_000);
        assert!(case.first.len() <= 4 && case.second.len() <= 4);
        let room = if case.call == "report" { 1_100 } else { 2_056 };
        assert!(case.room <= room && case.working <= 4_700);
    }
}

/// What the program `vectors` says of a file of cases.
fn said(file: Vec<u8>) -> String {
    let program = PathBuf::from(env!("CARGO_MANIFEST_DIR")).join("../../target/bin/vectors");
    let mut child = Command::new(&program)
        .stdin(Stdio::piped())
        .stdout(Stdio::piped())
        .spawn()
        .unwrap_or_else(|error| panic!("{}: {error}", program.display()));
    let mut input = child.stdin.take().expect("standard input");
    input.write_all(&file).expect("cases taken");
    drop(input);
    let output = child.wait_with_output().expect("its end");
    assert!(output.status.success());
    String::from_utf8(output.stdout).expect("plain text")
}

/// The program says of each of these cases, spoilt, that it differs.
fn assert_all_differ(
    least: usize,
    chosen: impl Fn(&Case) -> bool,
    spoil: impl Fn(usize, &mut Case),
) {
    let mut spoilt: Vec<Case> = CASES.iter().filter(|case| chosen(case)).cloned().collect();
    let count = spoilt.len();
    assert!(count >= least, "{count} cases");
    for (at, case) in spoilt.iter_mut().enumerate() {
        spoil(at, case);
    }
    let file = spoilt.iter().flat_map(Case::bytes).collect();
    assert_eq!(said(file), format!("{count} cases, {count} differ\n"));
}

#[test]
fn spoilt_cases_differ() {
    // A byte of what is due, each time another one.
    assert_all_differ(
        1_500,
        |case| !case.due.is_empty(),
        |at, case| {
            let place = at * 7_919 % case.due.len();
            case.due[place] ^= 1;
        },
    );
    // A byte less and a byte more.
    assert_all_differ(
        1_500,
        |case| !case.due.is_empty(),
        |_, case| case.due.truncate(case.due.len() - 1),
    );
    assert_all_differ(1_500, |_| true, |_, case| case.due.push(b'\n'));
    // The sums of readings, each of a pair's three in turn.
    let reads = |case: &Case| ["reading", "pair"].contains(&case.call) && case.number == 0;
    assert_all_differ(100, reads, |at, case| {
        let place = at % case.list.len();
        case.list[place] += 1;
    });
    // Where a field starts.
    let fields = |case: &Case| case.call == "field";
    assert_all_differ(40, fields, |_, case| case.second[0] += 1);
}

#[test]
fn cut_files_differ() {
    let (last, before) = CASES.split_last().expect("cases");
    let whole: Vec<u8> = before.iter().flat_map(Case::bytes).collect();
    let count = CASES.len();
    for length in [1, 53, 54, last.bytes().len() - 1] {
        let mut file = whole.clone();
        file.extend(&last.bytes()[..length]);
        assert_eq!(said(file), format!("{count} cases, 1 differ\n"), "{length}");
    }
}

/// What a head says of what is lent is not needed to find the next case, so of a damaged
/// room or number of working numbers the case is read, and differs alone.
#[test]
fn cases_after_a_damaged_head_are_found() {
    let count = CASES.len();
    for number in [4, 5] {
        let mut file: Vec<u8> = CASES.iter().flat_map(Case::bytes).collect();
        let last_digit = 12 + 6 * number + 4;
        file[last_digit] = b'x';
        assert_eq!(said(file), format!("{count} cases, 1 differ\n"), "{number}");
    }
}

/// It ends on an input without an end: here there is one case more than it takes.
#[test]
fn a_million_cases_are_taken() {
    let file = vec![b'\n'; 54 * 1_000_001];
    assert_eq!(said(file), "1000000 cases, 1000000 differ\n");
}

/// How often each outcome of the call came on texts that are chosen.
fn seen(call: &str, chosen: fn(&[u8]) -> bool) -> Outcomes {
    let mut outcomes = Outcomes::default();
    let of_call = CASES.iter().filter(|case| case.call == call);
    for case in of_call.filter(|case| chosen(&case.text)) {
        outcomes.note(case.number);
    }
    outcomes
}

/// Each listed outcome of the call came at least so often, and no other came.
fn assert_seen(call: &str, least: &[(u32, usize)]) {
    seen(call, |_| true).assert_seen(least);
}

#[test]
fn stored_cases_are_of_every_call_and_outcome() {
    let lists: [(&str, &[(u32, usize)]); 6] = [
        ("coefficient", &[(0, 40), (9, 10), (10, 20), (12, 8)]),
        ("spectrum", &[(0, 25), (8, 5), (9, 10), (10, 20)]),
        ("rows", &[(0, 20), (8, 5), (9, 10), (10, 20), (11, 20)]),
        ("stuck", &[(0, 25), (8, 5), (9, 10), (10, 20), (12, 30)]),
        (
            "opened",
            &[(0, 20), (8, 5), (9, 10), (10, 10), (11, 20), (12, 30)],
        ),
        (
            "bridged",
            &[(0, 50), (8, 8), (9, 20), (10, 10), (11, 25), (12, 30)],
        ),
    ];
    for (call, least) in lists {
        assert_seen(call, least);
    }
    let of_text: Vec<(u32, usize)> = (2..=7).map(|number| (number, 4)).collect();
    let texts: [(&str, &[(u32, usize)]); 4] = [
        ("circuit", &[(0, 40), (8, 10), (12, 20), (15, 4), (19, 4)]),
        (
            "plan",
            &[
                (0, 20),
                (8, 5),
                (13, 20),
                (14, 5),
                (15, 4),
                (16, 30),
                (19, 8),
            ],
        ),
        ("reading", &[(0, 80), (1, 1), (12, 10), (19, 4)]),
        ("pair", &[(0, 30), (12, 30), (19, 4)]),
    ];
    for (call, least) in texts {
        assert_seen(call, &[&of_text, least].concat());
    }
    assert_seen("report", &[(0, 450), (8, 20)]);
    assert_seen("field", &[(0, 40)]);
}

#[test]
fn stored_lists_are_of_every_length() {
    let mut all = BTreeSet::new();
    for (call, longest) in [
        ("coefficient", 2_048),
        ("spectrum", 2_048),
        ("rows", 2_048),
        ("stuck", 1_024),
        ("opened", 1_024),
        ("bridged", 2_048),
    ] {
        let done = CASES.iter().filter(|case| case.number == 0);
        let found: BTreeSet<usize> = done
            .filter(|case| case.call == call)
            .map(|case| case.list.len())
            .collect();
        // Of two inputs none can be opened lines but one, and one has no bridge.
        let shortest = match call {
            "opened" | "bridged" => 4,
            _ => 2,
        };
        for length in [2, 4, 8, 16, 32, 64, 128, 256, longest] {
            let is_due = length >= shortest;
            assert!(!is_due || found.contains(&length), "{call}: no {length}");
        }
        all.extend(found);
    }
    assert_eq!(all.into_iter().collect::<Vec<_>>(), LENGTHS);
}

#[test]
fn stored_examples_come_first() {
    let due = |at: usize| std::str::from_utf8(&CASES[at].due).expect("plain text");
    for (at, start) in [
        "answer,2,1\nleft,-99999999,-99999999\n",
        "answer,2,1,0,0,0,0,0\n",
        "refused,2,1\n",
        "answer,2,1,0,0\n",
        "answer,2,1\n",
        "refused,7,9\n",
        "refused,1,0\n",
        "answer,0,0\nleft,128,0,0",
    ]
    .into_iter()
    .enumerate()
    {
        assert!(due(at).starts_with(start), "{at}: {}", due(at));
    }
    let lengths = [5, 6].map(|at| CASES[at].text.len());
    assert_eq!(lengths, [TEXT_LIMIT, TEXT_LIMIT + 1]);
    assert!(due(12).starts_with("answer,3,1\n"), "N = 9");
    assert!((17..22).all(|at| due(at).starts_with("answer,9,0")));
    assert_eq!(due(22), "answer,0,0\nleft,1000,1000\n");
    assert_eq!(due(24), "answer,10,0\nleft,-99999999,-99999999\n");
}

/// How often each kind of report is stored.
#[derive(Default)]
struct Reports {
    outcomes: Outcomes,
    sizes: [usize; CAP_LIMIT + 1],
    inputs: [usize; 9],
    many_faults: usize,
    many_gates: usize,
    negative: usize,
    five_digits: usize,
}

impl Reports {
    /// Those on circuits, or on tables.
    fn stored(on_tables: bool) -> Reports {
        let mut reports = Reports::default();
        let stored = CASES.iter().filter(|case| case.call == "report");
        for case in stored.filter(|case| is_table(&case.text) == on_tables) {
            reports.note(case);
        }
        reports
    }

    fn note(&mut self, case: &Case) {
        let report = std::str::from_utf8(&case.due).expect("plain text");
        if let Some(refusal) = report.strip_prefix("refused,") {
            let (number, _) = refusal.split_once(',').expect("a place");
            self.outcomes.note(number.parse().expect("a number"));
        }
        let Some(plan) = report.strip_prefix("plan,") else {
            return;
        };
        self.outcomes.note(0);
        self.sizes[usize::from(plan.as_bytes()[0] - b'0')] += 1;
        let device = devices::parse(&case.text).expect("a good text");
        self.inputs[device.inputs()] += 1;
        self.many_faults += usize::from(device.faults().len() == 32);
        if let Device::Circuit(netlist) = device {
            self.many_gates += usize::from(netlist.gates.len() == 48);
        }
        for line in report.lines() {
            let value = line.rsplit(',').next().expect("a field");
            self.negative += usize::from(value.starts_with('-'));
            self.five_digits += usize::from(value.len() == 5 && !value.starts_with('-'));
        }
    }
}

#[test]
fn stored_reports_are_of_every_kind() {
    let listing = |case: &Case| case.call == "report" && case.text == LISTING.as_bytes();
    assert!(CASES.iter().any(listing));
    let reports = Reports::stored(false);
    let mut least: Vec<(u32, usize)> = (2..=7).map(|number| (number, 10)).collect();
    least.extend([(0, 200), (1, 1), (13, 20), (14, 30), (16, 40), (19, 14)]);
    reports.outcomes.assert_seen(&least);
    let (sizes, inputs) = (reports.sizes, reports.inputs);
    assert!(sizes[1..].iter().all(|&count| count >= 20), "{sizes:?}");
    assert!(inputs[1..].iter().all(|&count| count >= 20), "{inputs:?}");
    let (faults, gates) = (reports.many_faults, reports.many_gates);
    assert!(faults >= 10, "32 faults: {faults}");
    assert!(gates >= 10, "48 gates: {gates}");
    let (negative, five_digits) = (reports.negative, reports.five_digits);
    assert!(negative >= 200, "negative coefficients: {negative}");
    assert!(five_digits >= 20, "five digits: {five_digits}");
}

#[test]
fn stored_reports_on_tables_are_of_every_kind() {
    let reports = Reports::stored(true);
    let mut least: Vec<(u32, usize)> = [2, 3, 5, 6, 7].map(|number| (number, 8)).into();
    least.extend([(0, 40), (1, 1), (13, 8), (14, 10), (15, 14), (19, 8)]);
    reports.outcomes.assert_seen(&least);
    let (sizes, inputs) = (reports.sizes, reports.inputs);
    assert!(sizes[1..].iter().all(|&count| count >= 3), "{sizes:?}");
    assert!(inputs[1..].iter().all(|&count| count >= 3), "{inputs:?}");
    assert!(reports.many_faults >= 1, "32 faults");
    assert!(reports.negative >= 10, "{} negative", reports.negative);
}

/// The reading and the pair call take no table, good or damaged.
#[test]
fn stored_cases_on_tables_are_of_every_call_and_outcome() {
    let of_text: Vec<(u32, usize)> = [2, 3, 5, 6, 7, 15].map(|number| (number, 4)).into();
    let circuit = [(0, 20), (8, 5), (12, 10), (19, 0)];
    seen("circuit", is_table).assert_seen(&[&of_text[..], &circuit].concat());
    let plan = [(0, 10), (8, 5), (13, 3), (14, 2), (19, 1)];
    seen("plan", is_table).assert_seen(&[&of_text[..], &plan].concat());
    seen("reading", is_table).assert_seen(&[(1, 1), (2, 40)]);
    seen("pair", is_table).assert_seen(&[(2, 40)]);
}

/// A bridge among the lines of the text.
fn has_a_bridge(text: &[u8]) -> bool {
    let mut lines = text.split(|&byte| byte == b'\n');
    lines.any(|line| line.starts_with(b"bridge,"))
}

/// Those with bridges come after all others but those with wide gates, signed weights
/// and hidden faults, so that the others stay as they were.
#[test]
fn stored_cases_with_bridges_come_last_and_are_of_every_kind() {
    let with_bridge = |case: &Case| case.call == "bridged" || has_a_bridge(&case.text);
    let first = CASES.iter().position(with_bridge).expect("a bridge");
    assert_eq!(first, 2_048);
    let last = CASES.iter().rposition(|case| case.call == "field");
    assert!(last.is_some_and(|last| last < first));
    for text in [LISTING_WITH_A_BRIDGE, BRIDGED_TABLE] {
        for call in ["circuit", "plan", "report", "reading", "pair"] {
            let stored = |case: &&Case| case.call == call && case.text == text.as_bytes();
            let count = CASES.iter().filter(stored).count();
            assert!(count > 0, "{call} of {text}");
        }
    }
    seen("circuit", has_a_bridge).assert_seen(&[(0, 15), (8, 5), (12, 10), (19, 4)]);
    seen("pair", has_a_bridge).assert_seen(&[(0, 12), (2, 5), (12, 3), (19, 4)]);
    seen("reading", has_a_bridge).assert_seen(&[(0, 10), (2, 5), (19, 4)]);
    let mut reports = Reports::default();
    let bridged = CASES.iter().filter(|case| has_a_bridge(&case.text));
    for case in bridged.filter(|case| case.call == "report") {
        reports.note(case);
    }
    reports.outcomes.assert_seen(&[
        (0, 30),
        (2, 5),
        (3, 5),
        (5, 1),
        (6, 1),
        (7, 1),
        (13, 3),
        (14, 5),
        (16, 10),
        (19, 20),
    ]);
    let sizes = reports.sizes;
    assert!(sizes[1..].iter().all(|&count| count >= 3), "{sizes:?}");
}

/// A circuit that is accepted and has a gate of three or four inputs.
fn has_a_wide_gate(text: &[u8]) -> bool {
    let netlist = netlist::parse(text);
    netlist.is_ok_and(|netlist| netlist.gates.iter().any(|gate| gate.read > 2))
}

/// Those with wide gates come last but for those with signed weights and with hidden
/// faults, and the others stay as they were.
#[test]
fn stored_cases_with_wide_gates_come_last_and_are_of_every_kind() {
    let first = CASES.iter().position(|case| has_a_wide_gate(&case.text));
    assert_eq!(first, Some(2_470));
    for text in [AND_OF_THREE, PARITY_OF_FOUR] {
        for call in ["circuit", "plan", "report", "reading", "pair"] {
            let stored = |case: &&Case| case.call == call && case.text == text.as_bytes();
            let count = CASES.iter().filter(stored).count();
            assert!(count > 0, "{call} of {text}");
        }
    }
    // The longest text.
    let longest = |case: &&Case| case.text.len() == 1_792 && has_a_wide_gate(&case.text);
    assert!(CASES.iter().filter(longest).count() >= 5);
    seen("circuit", has_a_wide_gate).assert_seen(&[(0, 50), (8, 4), (12, 4)]);
    seen("reading", has_a_wide_gate).assert_seen(&[(0, 20)]);
    seen("pair", has_a_wide_gate).assert_seen(&[(0, 8), (12, 4)]);
    seen("plan", has_a_wide_gate).assert_seen(&[(0, 3), (13, 1), (16, 10)]);
    let mut reports = Reports::default();
    let wide = CASES[2_470..FIRST_SIGNED].iter();
    for case in wide.filter(|case| case.call == "report") {
        reports.note(case);
    }
    let refused = [(2, 20), (3, 15), (4, 15), (5, 1), (6, 1), (7, 1)];
    let planned = [(0, 25), (13, 5), (14, 2)];
    let least = [&refused[..], &planned].concat();
    reports.outcomes.assert_seen(&least);
    let sizes = reports.sizes;
    assert!(sizes[1..].iter().all(|&count| count >= 1), "{sizes:?}");
}

/// The first case with a weight below 0, and the first of those with hidden faults.
const FIRST_SIGNED: usize = 2_764;
const FIRST_HIDDEN: usize = 3_329;

/// A circuit that is accepted and has a weight below 0.
fn has_a_negative_weight(text: &[u8]) -> bool {
    let netlist = netlist::parse(text);
    netlist.is_ok_and(|netlist| netlist.outputs.iter().any(|output| output.weight < 0))
}

/// Those with signed weights come last but for those with hidden faults, and the others
/// stay as they were.
#[test]
fn stored_cases_with_signed_weights_come_last_and_are_of_every_kind() {
    let is_signed = |case: &Case| has_a_negative_weight(&case.text);
    assert_eq!(CASES.iter().position(is_signed), Some(FIRST_SIGNED));
    for text in signed_texts::EXAMPLES {
        for call in ["circuit", "plan", "report", "reading", "pair"] {
            let stored = |case: &&Case| case.call == call && case.text == text.as_bytes();
            let count = CASES.iter().filter(stored).count();
            assert!(count > 0, "{call} of {text}");
        }
    }
    // The longest text.
    let longest = |case: &&Case| case.text.len() == 1_796 && is_signed(case);
    assert!(CASES.iter().filter(longest).count() >= 5);
    seen("circuit", has_a_negative_weight).assert_seen(&[(0, 40), (8, 4), (12, 8)]);
    seen("pair", has_a_negative_weight).assert_seen(&[(0, 50), (12, 8)]);
    seen("reading", has_a_negative_weight).assert_seen(&[(0, 70)]);
    seen("plan", has_a_negative_weight).assert_seen(&[(0, 5), (13, 1), (14, 0), (16, 10)]);
    let mut reports = Reports::default();
    let signed = CASES[FIRST_SIGNED..FIRST_HIDDEN].iter();
    for case in signed.clone().filter(|case| case.call == "report") {
        reports.note(case);
    }
    let refused = [(2, 60), (3, 25), (4, 1), (5, 10), (6, 1), (7, 1)];
    let planned = [(0, 60), (13, 5), (14, 2), (16, 4)];
    let least = [&refused[..], &planned].concat();
    reports.outcomes.assert_seen(&least);
    let sizes = reports.sizes;
    assert!(sizes[1..].iter().all(|&count| count >= 1), "{sizes:?}");
    assert!(reports.negative >= 50, "{} negative", reports.negative);
    // Sums below, at and above 0, of readings and of what a fault changes; the
    // third case is the constrained one.
    let (mut signs, mut kinds) = ([0; 3], [0; 4]);
    for case in signed.filter(|case| case.number == 0 && !case.list.is_empty()) {
        for sum in &case.list {
            signs[(sum.signum() + 1) as usize] += 1;
        }
        if case.call == "reading" {
            let kind = case.due["answer,0,0,".len()] - b'0';
            kinds[usize::from(kind)] += 1;
        }
    }
    assert!(signs.iter().all(|&count| count >= 50), "{signs:?}");
    assert!(
        kinds[1] >= 2 && kinds[2] >= 40 && kinds[3] >= 40,
        "{kinds:?}"
    );
}

/// Those with hidden faults come last. Of the others eleven end in 16, each a circuit
/// of weights below 0, and stay as they were in all but that.
#[test]
fn stored_cases_with_hidden_faults_come_last_and_are_of_every_kind() {
    let first = hidden_texts::EXCHANGED_OUTPUTS.as_bytes();
    let first = CASES.iter().position(|case| case.text == first);
    assert_eq!(first, Some(FIRST_HIDDEN));
    let (before, hidden) = CASES.split_at(FIRST_HIDDEN);
    let ends_in_16 = |case: &&Case| case.number == 16 || case.due.starts_with(b"refused,16,");
    let earlier: Vec<&Case> = before.iter().filter(ends_in_16).collect();
    assert_eq!(earlier.len(), 11);
    let signed = earlier.iter().all(|case| has_a_negative_weight(&case.text));
    assert!(signed);
    for (text, ..) in hidden_texts::EXAMPLES {
        for call in ["circuit", "plan", "report", "reading", "pair"] {
            let stored = |case: &&Case| case.call == call && case.text == text.as_bytes();
            let count = hidden.iter().filter(stored).count();
            assert!(count > 0, "{call} of {text}");
        }
    }
    let mut reports = Reports::default();
    let mut plans = Outcomes::default();
    let mut places = [(); 2].map(|_| BTreeSet::new());
    for case in hidden {
        match case.call {
            "report" => reports.note(case),
            "plan" => plans.note(case.number),
            _ => assert_eq!(case.number, 0),
        }
        let due = String::from_utf8_lossy(&case.due);
        for (places, number) in places.iter_mut().zip([13, 16]) {
            for start in ["answer", "refused"] {
                let rest = due.strip_prefix(&format!("{start},{number},"));
                let place = rest.and_then(|rest| rest.split([',', '\n']).next());
                places.extend(place.and_then(|place| place.parse::<usize>().ok()));
            }
        }
    }
    plans.assert_seen(&[(0, 2), (8, 6), (13, 12), (14, 1), (16, 20)]);
    let outcomes = [(0, 20), (13, 10), (14, 6), (16, 30)];
    reports.outcomes.assert_seen(&outcomes);
    for places in places {
        let missing = [1, 2, 31, 32].iter().find(|place| !places.contains(place));
        assert_eq!(missing, None, "{places:?}");
    }
    // Working numbers and bytes just short and just enough.
    for (room, working) in [
        (0, 4_607),
        (0, 4_608),
        (0, 4_700),
        (1_023, 4_608),
        (1_024, 4_608),
    ] {
        let hides = |case: &&Case| case.text == hidden_texts::EXCHANGED_OUTPUTS.as_bytes();
        let lent = |case: &&Case| case.room == room && case.working == working;
        let mut due = hidden.iter().filter(hides).filter(lent);
        assert!(due.next().is_some(), "room {room}, {working}");
    }
}

/// Every weight there is, as the one output's.
#[test]
fn stored_circuits_have_every_weight() {
    for weight in signed_texts::every_weight() {
        let text = format!("circuit,1,0,1,1,1\noutput,1,{weight}\nfault,1,1\n");
        let stored = |call: &str| {
            let of_text = |case: &&Case| case.call == call && case.text == text.as_bytes();
            let case = CASES.iter().find(of_text).expect("a circuit of one output");
            String::from_utf8_lossy(&case.due).into_owned()
        };
        let (sum, twice) = (weight, 2 * weight);
        assert_eq!(
            stored("circuit"),
            format!("answer,0,0\nleft,{sum},{}\n", -sum)
        );
        let report = format!("plan,1\nlabel,0,{sum}\nfault,1,0,{twice}\n");
        assert_eq!(stored("report"), report);
        let kind = if weight == 1 { 1 } else { 2 };
        assert_eq!(stored("reading"), format!("answer,0,0,{kind},0\n"));
    }
}

/// All 170: every kind and width over as many inputs, each a circuit of its own.
#[test]
fn stored_circuits_show_every_truth_value() {
    let mut values = 0;
    let not = one_gate(1, "not", &[1, 0]);
    let mut gates = vec![(not, vec![1, 0])];
    for (kind, tables) in TRUTH_VALUES {
        for (width, table) in (2..).zip(tables) {
            let lines: Vec<usize> = (1..=width).collect();
            gates.push((one_gate(width, kind, &lines), rows_of_gate(width, table)));
        }
    }
    for (text, rows) in gates {
        let spectrum = walsh::spectrum(&rows, rows.len()).expect("rows in range");
        let spectrum: Vec<String> = spectrum.iter().map(i32::to_string).collect();
        let due = format!("answer,0,0\nleft,{}\n", spectrum.join(","));
        let stored =
            |case: &&Case| case.call == "circuit" && case.text == text && case.first == [0];
        let case = CASES.iter().find(stored).expect("a circuit of one gate");
        assert_eq!(String::from_utf8_lossy(&case.due), due);
        values += rows.len();
    }
    assert_eq!(values, 170);
}

/// Every pair of few inputs, and each pair's half not whole at some label.
#[test]
fn stored_bridges_are_of_every_pair() {
    let of = |inputs: [u32; 2], length: usize, number: u32| {
        let stored = |case: &&Case| {
            case.call == "bridged" && case.first == inputs && case.list.len() == length
        };
        let count = CASES.iter().filter(stored);
        count.filter(|case| case.number == number).count()
    };
    for n in 2..=4 {
        for second in 2..=n {
            for first in 1..second {
                for number in [0, 11] {
                    let count = of([first, second], 1 << n, number);
                    assert!(count > 0, "{number}: {first} and {second} of {n}");
                }
            }
        }
    }
}
