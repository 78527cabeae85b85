//! The program `signature`, as a user runs it: a text on standard input, the
//! report on standard output, and on standard error only what could not be read
//! or written. The gate has built it before these tests run.

use second::bridge_texts::{
    draw_changing as draw_bridged, BRIDGED_TABLE, BRIDGE_DAMAGES, LISTING_WITH_A_BRIDGE,
    SILENT_BRIDGE,
};
use second::circuits::{with_line, Damage, Draft, Sizes, DAMAGES, LISTING};
use second::hidden_texts::{
    draw_outcomes, largest as largest_hidden, EXCHANGED_OUTPUTS, OPPOSITE_WEIGHTS,
    SILENT_BEHIND_HIDDEN,
};
use second::lines::TEXT_LIMIT;
use second::plan::WORKING_NUMBERS;
use second::random::Random;
use second::report::{self, REPORT_ROOM};
use second::signed_texts::{
    constant, draw_changing as draw_signed, largest as longest_signed, CANCELLED_FAULT,
    OUTPUT_DAMAGES, SUBTRACTED_INPUT, SUBTRACTED_LISTING,
};
use second::table_texts::{
    draw, draw_changing, largest, ANOTHER_MARK, MARK_DAMAGES, SHORT_MARKS, SILENT_INPUT, SMALL,
};
use second::wide_texts::{
    draw_changing as draw_wide, largest as longest, AND_OF_THREE, GATE_DAMAGES,
};
use std::fs::File;
use std::io::{ErrorKind, Write};
use std::os::fd::OwnedFd;
use std::os::unix::net::UnixStream;
use std::path::{Path, PathBuf};
use std::process::{Child, Command, Stdio};
use std::thread;
use std::time::Duration;

const SEED: u64 = 0x5349_474e_4154_5552;

fn program() -> PathBuf {
    PathBuf::from(env!("CARGO_MANIFEST_DIR")).join("../../target/bin/signature")
}

/// The program with these for its standard input and output.
fn start(input: Stdio, output: Stdio) -> Child {
    Command::new(program())
        .stdin(input)
        .stdout(output)
        .stderr(Stdio::piped())
        .spawn()
        .unwrap_or_else(|error| panic!("{}: {error}", program().display()))
}

/// What it wrote to its two streams. Its status says nothing: it is always 0.
fn ended(child: Child) -> (Vec<u8>, String) {
    let end = child.wait_with_output().expect("its end");
    assert!(end.status.success());
    let said = String::from_utf8(end.stderr).expect("words");
    (end.stdout, said)
}

/// What the program writes for an input that comes in these pieces, with a
/// pause after each. It may stop reading early: of a text that is too long it
/// needs no more than the limit and one byte.
fn run(pieces: &[&[u8]], pause: Duration) -> Vec<u8> {
    let mut child = start(Stdio::piped(), Stdio::piped());
    let mut input = child.stdin.take().expect("standard input");
    for piece in pieces {
        match input.write_all(piece) {
            Ok(()) => (),
            Err(error) if error.kind() == ErrorKind::BrokenPipe => break,
            Err(error) => panic!("{error}"),
        }
        thread::sleep(pause);
    }
    drop(input);
    let (written, said) = ended(child);
    assert_eq!(said, "");
    written
}

/// The report that is due.
fn due(text: &[u8]) -> Vec<u8> {
    report::report(text, REPORT_ROOM, WORKING_NUMBERS).expect("room enough")
}

fn assert_reports(case: &str, text: &[u8], pieces: &[&[u8]], pause: Duration) {
    assert_eq!(
        String::from_utf8_lossy(&run(pieces, pause)),
        String::from_utf8_lossy(&due(text)),
        "{case}: left what it wrote, right what is due"
    );
}

fn assert_reports_at_once(case: &str, text: &[u8]) {
    assert_reports(case, text, &[text], Duration::ZERO);
}

#[test]
fn the_listing() {
    assert_eq!(
        run(&[LISTING.as_bytes()], Duration::ZERO),
        b"plan,1\nlabel,1,-2\nfault,1,1,0\nfault,2,1,-4\n"
    );
}

#[test]
fn small_tables() {
    for (text, due) in [
        (SMALL, "plan,1\nlabel,0,5\nfault,1,0,2\nfault,2,0,6\n"),
        (SILENT_INPUT, "refused,13,1\n"),
        (ANOTHER_MARK, "refused,15,2\n"),
        (SHORT_MARKS, "refused,2,2\n"),
    ] {
        for size in [1, text.len()] {
            let pieces: Vec<&[u8]> = text.as_bytes().chunks(size).collect();
            let written = run(&pieces, Duration::from_millis(1));
            assert_eq!(String::from_utf8_lossy(&written), due, "{text}");
        }
    }
}

#[test]
fn texts_with_bridges() {
    for (text, due) in [
        (
            LISTING_WITH_A_BRIDGE,
            "plan,1\nlabel,3,2\nfault,1,3,0\nfault,2,3,0\n",
        ),
        (SILENT_BRIDGE, "refused,13,1\n"),
        (
            BRIDGED_TABLE,
            "plan,1\nlabel,2,6\nfault,1,2,4\nfault,2,2,2\nfault,3,2,2\n",
        ),
    ] {
        let written = run(&[text.as_bytes()], Duration::ZERO);
        assert_eq!(String::from_utf8_lossy(&written), due, "{text}");
    }
    let mut random = Random::new(SEED + 2);
    for round in 0..48 {
        let draft = draw_bridged(&mut random, 2 + round % 5);
        assert_reports_at_once("drawn", &draft.text());
        let damage = &BRIDGE_DAMAGES[round % BRIDGE_DAMAGES.len()];
        let text = (damage.apply)(&mut random, &draft);
        assert_reports_at_once(damage.name, &text);
    }
}

#[test]
fn circuits_of_wide_gates() {
    let due = "plan,1\nlabel,0,1\nfault,1,0,0\nfault,2,0,8\n";
    let written = run(&[AND_OF_THREE.as_bytes()], Duration::ZERO);
    assert_eq!(String::from_utf8_lossy(&written), due);
    let mut random = Random::new(SEED + 3);
    assert_reports_at_once("longest", &longest(&mut random).text());
    for round in 0..54 {
        let draft = draw_wide(&mut random, 1 + round % 6);
        assert_reports_at_once("drawn", &draft.text());
        let damage = &GATE_DAMAGES[round % GATE_DAMAGES.len()];
        let text = (damage.apply)(&mut random, &draft);
        assert_reports_at_once(damage.name, &text);
    }
}

#[test]
fn circuits_of_signed_weights() {
    for (text, due) in [
        (
            SUBTRACTED_LISTING,
            "plan,1\nlabel,1,2\nfault,1,1,0\nfault,2,1,4\n",
        ),
        (
            SUBTRACTED_INPUT,
            "plan,1\nlabel,0,-15\nfault,1,0,0\nfault,2,0,-30\n",
        ),
        (CANCELLED_FAULT, "refused,16,1\n"),
    ] {
        let written = run(&[text.as_bytes()], Duration::ZERO);
        assert_eq!(String::from_utf8_lossy(&written), due, "{text}");
    }
    let mut random = Random::new(SEED + 4);
    assert_reports_at_once("longest", &longest_signed(&mut random).text());
    for weight in [15, -15] {
        let text = constant(8, &[weight; 4]).text();
        assert_reports_at_once("the ends of the range", &text);
    }
    for round in 0..48 {
        let draft = draw_signed(&mut random, 1 + round % 6);
        assert_reports_at_once("drawn", &draft.text());
        let damage = &OUTPUT_DAMAGES[round % OUTPUT_DAMAGES.len()];
        let text = (damage.apply)(&mut random, &draft);
        assert_reports_at_once(damage.name, &text);
    }
}

#[test]
fn circuits_in_which_weights_hide() {
    for (text, due) in [
        (EXCHANGED_OUTPUTS, "refused,16,1\n"),
        (OPPOSITE_WEIGHTS, "refused,16,1\n"),
        (SILENT_BEHIND_HIDDEN, "refused,13,2\n"),
    ] {
        let written = run(&[text.as_bytes()], Duration::ZERO);
        assert_eq!(String::from_utf8_lossy(&written), due, "{text}");
    }
    let mut random = Random::new(SEED + 5);
    assert_reports_at_once("largest", &largest_hidden(&mut random).text());
    for round in 0..48 {
        let draft = draw_outcomes(&mut random, 1 + round % 6);
        assert_reports_at_once("drawn", &draft.text());
    }
}

#[test]
fn no_input() {
    assert_eq!(run(&[], Duration::ZERO), b"refused,2,1\n");
}

#[test]
fn input_in_pieces() {
    let text = LISTING.as_bytes();
    for size in [1, 2, 7, 50] {
        let pieces: Vec<&[u8]> = text.chunks(size).collect();
        assert_reports("pieces", text, &pieces, Duration::from_millis(1));
    }
}

/// A text of the limit is read to its end; one byte more gives 1, and so does
/// any longer input, even where its front would be accepted.
#[test]
fn lengths_around_the_limit() {
    for length in [TEXT_LIMIT - 1, TEXT_LIMIT, TEXT_LIMIT + 1, TEXT_LIMIT + 2] {
        let mut text = LISTING.as_bytes().to_vec();
        text.resize(length, b'x');
        assert_reports_at_once("padded", &text);
        let halves = text.split_at(length / 2);
        assert_reports(
            "halves",
            &text,
            &[halves.0, halves.1],
            Duration::from_millis(5),
        );
    }
    for length in [65_536, 65_537, 1_000_000] {
        let mut text = LISTING.as_bytes().to_vec();
        text.resize(length, b'\n');
        assert_eq!(run(&[&text], Duration::ZERO), b"refused,1,0\n");
    }
}

#[test]
fn circuits_sound_and_damaged() {
    let mut random = Random::new(SEED);
    for _ in 0..60 {
        let sizes = Sizes::draw(&mut random);
        let draft = Draft::draw(&mut random, sizes);
        assert_reports_at_once("drawn", &draft.text());
        let damage = &DAMAGES[random.below(DAMAGES.len())];
        let text = (damage.apply)(&mut random, &draft);
        assert_reports_at_once(damage.name, &text);
    }
}

#[test]
fn tables_sound_and_damaged() {
    let mut random = Random::new(SEED + 1);
    let damages: Vec<&Damage> = DAMAGES.iter().chain(&MARK_DAMAGES).collect();
    assert_reports_at_once("largest", &largest().text());
    for round in 0..64 {
        let inputs = 1 + round % 8;
        let draft = match round % 3 {
            0 => draw(&mut random, inputs),
            _ => draw_changing(&mut random, inputs),
        };
        assert_reports_at_once("drawn", &draft.text());
        let damage = random.pick(&damages);
        let text = (damage.apply)(&mut random, &draft);
        assert_reports_at_once(damage.name, &text);
    }
    for length in [TEXT_LIMIT, TEXT_LIMIT + 1] {
        let mut text = SMALL.as_bytes().to_vec();
        text.resize(length, b'-');
        assert_reports_at_once("padded", &text);
    }
}

#[test]
fn says_that_it_could_not_write() {
    let listing = Path::new(env!("CARGO_MANIFEST_DIR")).join("../../samples/listing.txt");
    let text = File::open(listing).expect("the listing");
    let full = File::options().write(true).open("/dev/full");
    let (_, said) = ended(start(text.into(), full.expect("a full device").into()));
    assert_eq!(
        said,
        "signature: standard output: No space left on device\n"
    );
}

/// A failed read is told, and an empty input is not; the report is the same.
#[test]
fn says_that_it_could_not_read() {
    let folder = File::open(env!("CARGO_MANIFEST_DIR")).expect("a folder");
    let for_writing = File::options().write(true).open("/dev/null");
    for (input, said) in [
        (folder.into(), "signature: standard input: Is a directory\n"),
        (
            for_writing.expect("a device").into(),
            "signature: standard input: Bad file descriptor\n",
        ),
        (Stdio::null(), ""),
    ] {
        let (written, told) = ended(start(input, Stdio::piped()));
        assert_eq!(
            (written.as_slice(), told.as_str()),
            (&b"refused,2,1\n"[..], said)
        );
    }
}

/// The report is on what came before, whole or cut: here the other end stays
/// open and has no more to give.
#[test]
fn a_failed_read_ends_the_input() {
    let text = LISTING.as_bytes();
    for length in [0, 1, text.len() / 2, text.len() - 1, text.len()] {
        let (mut giver, taker) = UnixStream::pair().expect("two ends");
        giver.write_all(&text[..length]).expect("room");
        taker.set_nonblocking(true).expect("a mode");
        let child = start(OwnedFd::from(taker).into(), Stdio::piped());
        let (written, said) = ended(child);
        assert_eq!(
            said,
            "signature: standard input: Resource temporarily unavailable\n"
        );
        assert_eq!(written, due(&text[..length]));
    }
}

/// What docs/FORMAT.md names as the usual causes of a refusal, each made in the
/// listing or in the small table.
#[test]
fn usual_causes_of_refusals() {
    let with = |place, line| with_line(LISTING, place, line);
    let table = |place, line| with_line(SMALL, place, line);
    let text = |text: String| text.into_bytes();
    for (cause, text, refused) in [
        (
            "carriage returns",
            text(LISTING.replace('\n', "\r\n")),
            "2,1",
        ),
        ("byte-order mark", text(format!("\u{feff}{LISTING}")), "2,1"),
        ("upper case", with(1, "CIRCUIT,3,4,1,2,2"), "2,1"),
        ("comment first", text(format!("# mine\n{LISTING}")), "2,1"),
        ("blank line first", text(format!("\n{LISTING}")), "2,1"),
        ("space", with(1, "circuit, 3,4,1,2,2"), "2,1"),
        (
            "indented",
            text(LISTING.replace("circuit", "    circuit")),
            "2,1",
        ),
        ("semicolons", text(LISTING.replace(',', ";")), "2,1"),
        ("quotes", with(1, "\"circuit\",3,4,1,2,2"), "2,1"),
        ("five digits", with(1, "circuit,00003,4,1,2,2"), "2,1"),
        ("leading zero", with(1, "circuit,03,4,1,2,2"), "2,1"),
        ("sign", with(1, "circuit,+3,4,1,2,2"), "2,1"),
        ("four numbers", with(1, "circuit,3,4,1,2"), "2,1"),
        ("G too small", with(1, "circuit,3,3,1,2,2"), "2,5"),
        ("G too large", with(1, "circuit,3,5,1,2,2"), "2,6"),
        ("M too large", with(1, "circuit,3,4,2,2,2"), "2,7"),
        ("no such kind", with(2, "gate,inv,2,0"), "2,2"),
        ("not of one field", with(2, "gate,not,2"), "2,2"),
        ("five inputs", with(5, "gate,or,1,2,3,5,6"), "2,5"),
        ("not of three fields", with(2, "gate,not,2,0,0"), "2,2"),
        ("no fourth field", with(5, "gate,or,1,5,"), "2,5"),
        ("no weight", with(6, "output,7"), "2,6"),
        ("weight of five digits", with(6, "output,7,10000"), "2,6"),
        ("zero before a weight", with(6, "output,7,01"), "2,6"),
        ("one carriage return", with(8, "fault,2,1\r"), "2,8"),
        ("space at the end", with(3, "gate,and,1,2 "), "2,3"),
        ("comma at the end", with(3, "gate,and,1,2,"), "2,3"),
        ("blank line between", with(5, "gate,or,5,6\n"), "2,6"),
        ("comment between", with(5, "gate,or,5,6\n# out"), "2,6"),
        ("a plus before a weight", with(6, "output,7,+1"), "2,6"),
        ("weight of -0", with(6, "output,7,-0"), "2,6"),
        ("a long minus", with(6, "output,7,\u{2212}1"), "2,6"),
        ("LINE with a sign", with(6, "output,-7,1"), "2,6"),
        ("VALUE with a sign", with(7, "fault,2,-1"), "2,7"),
        ("four pairs", with(7, "fault,1,0,2,0,3,0,4,0"), "2,7"),
        ("no VALUE", with(7, "fault,2"), "2,7"),
        ("no line end", text(LISTING.trim_end().into()), "2,8"),
        ("a fault too few", with(1, "circuit,3,4,1,3,2"), "2,9"),
        ("N of 9", with(1, "circuit,9,4,1,2,2"), "3,1"),
        ("Q of 0", with(1, "circuit,3,4,1,0,2"), "3,1"),
        ("K of 0", with(1, "circuit,3,4,1,2,0"), "3,1"),
        ("not of two", with(2, "gate,not,2,2"), "3,2"),
        ("and of one", with(3, "gate,and,1,0"), "3,3"),
        ("filled up with 0", with(3, "gate,and,1,2,0,0"), "3,3"),
        ("LINE of 0", with(6, "output,0,1"), "3,6"),
        ("LINE of 57", with(6, "output,57,1"), "3,6"),
        ("weight of 0", with(6, "output,7,0"), "3,6"),
        ("weight of 16", with(6, "output,7,16"), "3,6"),
        ("weight of -16", with(6, "output,7,-16"), "3,6"),
        ("VALUE of 2", with(7, "fault,2,2"), "3,7"),
        ("its own line", with(3, "gate,and,1,5"), "4,3"),
        ("a later line", with(3, "gate,and,1,6"), "4,3"),
        ("a third input ahead", with(3, "gate,and,1,2,5"), "4,3"),
        ("a fourth input ahead", with(3, "gate,and,1,2,3,7"), "4,3"),
        ("no such line", with(6, "output,8,1"), "5,6"),
        ("pairs not sorted", with(8, "fault,2,1,1,0"), "6,8"),
        ("a line twice", with(8, "fault,2,1,2,0"), "6,8"),
        ("blank line last", text(format!("{LISTING}\n")), "7,9"),
        ("comment last", text(format!("{LISTING}# end\n")), "7,9"),
        (
            "end of file as a byte",
            text(format!("{LISTING}\u{1a}")),
            "7,9",
        ),
        ("a fault too many", with(1, "circuit,3,4,1,1,2"), "7,8"),
        ("a table in upper case", table(1, "Table,2,2,1"), "2,1"),
        ("a table's three numbers", table(1, "table,2,2"), "2,1"),
        ("a circuit's numbers", table(1, "table,2,0,1,2,1"), "2,1"),
        ("a row left out", table(2, "01-"), "2,2"),
        ("a row too many", table(2, "01-11"), "2,2"),
        ("N of another table", table(1, "table,3,2,1"), "2,2"),
        ("commas between marks", table(2, "0,1,-,1"), "2,2"),
        ("spaces between marks", table(2, "0 1 - 1"), "2,2"),
        ("marks over two lines", table(2, "01\n-1"), "2,2"),
        ("marks with CR LF", table(2, "01-1\r"), "2,2"),
        ("a long dash", table(2, "01\u{2013}1"), "2,2"),
        ("no line of marks", text("table,2,2,1\n".into()), "2,2"),
        ("x for a free row", table(2, "01x1"), "15,2"),
        ("2 for a free row", table(2, "0121"), "15,2"),
        ("a letter for a digit", table(2, "O1-1"), "15,2"),
        ("a comma for a mark", table(2, "0,-1"), "15,2"),
        ("a space for a mark", table(2, "0 -1"), "15,2"),
        ("CR for a mark", table(2, "01-\r"), "15,2"),
        ("a line above N", table(3, "fault,3,0"), "5,3"),
        ("an output in a table", table(3, "output,1,1"), "2,3"),
        (
            "a fault too few for a table",
            table(1, "table,2,3,1"),
            "2,5",
        ),
        ("a bridge of three inputs", with(7, "bridge,1,2,3"), "2,7"),
        ("a bridge with a value", with(7, "bridge,1,2,0"), "2,7"),
        ("a bridge in upper case", with(7, "Bridge,1,2"), "2,7"),
        ("a bridge from input 0", with(7, "bridge,0,1"), "3,7"),
        ("inputs not sorted", with(7, "bridge,3,1"), "19,7"),
        ("an input with itself", with(7, "bridge,2,2"), "19,7"),
        ("a bridge of a gate's line", with(8, "bridge,1,4"), "19,8"),
        ("a bridge above N", table(3, "bridge,1,3"), "19,3"),
        (
            "a table's inputs not sorted",
            table(4, "bridge,2,1"),
            "19,4",
        ),
        (
            "a fault too many for a table",
            table(1, "table,2,1,1"),
            "7,4",
        ),
    ] {
        let written = String::from_utf8(run(&[&text], Duration::ZERO)).expect("a report");
        assert_eq!(written, format!("refused,{refused}\n"), "{cause}");
    }
}
