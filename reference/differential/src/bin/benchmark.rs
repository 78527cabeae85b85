//! Times the library's whole-list calls on 2,048 numbers against the second
//! implementation's direct ones and, for the spectrum, a plain fast transform; then
//! its circuit call against rows one by one and that transform, its plan and
//! report calls on a circuit and on a table, and its plan call on both with
//! bridges, against the same with a choice of labels that is cut short, its plan
//! call on a circuit where a fault is hidden, its reading and pair calls against a
//! plain mean of those rows, these calls on circuits of wide gates, and the program
//! `signature` on the listing, from its start to its end, against `report`.

use differential::{fast, library};
use second::circuits::{worst_search, Draft, Sizes, LISTING};
use second::hidden_texts;
use second::plan::{self, CAP_LIMIT, WORKING_NUMBERS};
use second::random::Random;
use second::reading::Reading;
use second::report::{self, REPORT_ROOM};
use second::table_texts;
use second::walsh::ROW_LIMIT;
use second::{bridge_texts, devices, netlist, reading, walsh, wide_texts};
use std::hint::black_box;
use std::io::Write;
use std::path::{Path, PathBuf};
use std::process::{Command, Stdio};
use std::time::Instant;

const LENGTH: usize = 2048;
const CIRCUIT_LENGTH: usize = 256;
const ROUNDS: usize = 31;
/// Calls are repeated within a measurement until it lasts this long.
const MEASUREMENT_SECONDS: f64 = 0.002;

/// The row whose time is asked for as such, too.
const WORST_SEARCH: &str = "plan, worst search";

struct Contender<'a> {
    name: &'static str,
    call: Box<dyn FnMut() + 'a>,
    repeats: usize,
    seconds: Vec<f64>,
}

impl<'a> Contender<'a> {
    fn new(name: &'static str, call: impl FnMut() + 'a) -> Self {
        let mut contender = Contender {
            name,
            call: Box::new(call),
            repeats: 1,
            seconds: Vec::new(),
        };
        // Also warms up.
        while contender.measure() * (contender.repeats as f64) < MEASUREMENT_SECONDS {
            contender.repeats *= 2;
        }
        contender
    }

    /// Seconds per call.
    fn measure(&mut self) -> f64 {
        let start = Instant::now();
        for _ in 0..self.repeats {
            (self.call)();
        }
        start.elapsed().as_secs_f64() / self.repeats as f64
    }

    fn median(&self) -> f64 {
        sorted(&self.seconds)[ROUNDS / 2]
    }
}

fn sorted(numbers: &[f64]) -> Vec<f64> {
    let mut sorted = numbers.to_vec();
    sorted.sort_by(f64::total_cmp);
    sorted
}

/// The library's call and those it is held against.
struct Race<'a> {
    name: &'static str,
    library: Contender<'a>,
    others: Vec<Contender<'a>>,
}

/// The plan call on a text, with these working numbers.
fn plan_race<'a>(name: &'static str, text: &'a [u8], working: &'a mut [u32]) -> Race<'a> {
    Race {
        name,
        library: Contender::new("library", move || {
            black_box(library::plan(black_box(text), black_box(working)));
        }),
        others: vec![Contender::new("masks, pruned choice", move || {
            let _ = black_box(fast::plan(black_box(text), WORKING_NUMBERS));
        })],
    }
}

/// The report call on a text, with these buffers.
fn report_race<'a>(
    name: &'static str,
    text: &'a [u8],
    out: &'a mut [u8],
    working: &'a mut [u32],
) -> Race<'a> {
    Race {
        name,
        library: Contender::new("library", move || {
            let (out, working) = (black_box(&mut *out), black_box(&mut *working));
            black_box(library::report(black_box(text), out, working));
        }),
        others: vec![Contender::new("masks, pruned choice", move || {
            let text = black_box(text);
            let _ = black_box(fast::report(text, REPORT_ROOM, WORKING_NUMBERS));
        })],
    }
}

/// The circuit call on a text, sound and under each of its faults.
fn circuit_race<'a>(
    name: &'static str,
    text: &'a [u8],
    faults: u32,
    [out, fast_out]: [&'a mut [i32]; 2],
) -> Race<'a> {
    Race {
        name,
        library: Contender::new("library", move || {
            for fault in 0..=faults {
                let out = black_box(&mut out[..CIRCUIT_LENGTH]);
                black_box(library::circuit(black_box(text), black_box(fault), out));
            }
        }),
        others: vec![Contender::new("rows, fast transform", move || {
            for fault in 0..=faults {
                let out = black_box(&mut fast_out[..CIRCUIT_LENGTH]);
                let _ = black_box(fast::circuit(black_box(text), black_box(fault), out));
            }
        })],
    }
}

/// The reading call on a text, without fixed inputs.
fn reading_race<'a>(name: &'static str, text: &'a [u8]) -> Race<'a> {
    Race {
        name,
        library: Contender::new("library", move || {
            black_box(library::reading(
                black_box(text),
                black_box(0),
                black_box(0),
            ));
        }),
        others: vec![Contender::new("rows, mean in binary64", move || {
            let text = black_box(text);
            let _ = black_box(fast::reading(text, black_box(0), black_box(0)));
        })],
    }
}

/// What a program writes for a text on standard input.
fn run(program: &Path, text: &[u8]) -> Vec<u8> {
    let mut child = Command::new(program)
        .stdin(Stdio::piped())
        .stdout(Stdio::piped())
        .spawn()
        .unwrap_or_else(|error| panic!("{}: {error}", program.display()));
    let mut input = child.stdin.take().expect("standard input");
    input.write_all(text).expect("a text taken");
    drop(input);
    let output = child.wait_with_output().expect("its end");
    assert!(output.status.success(), "{} failed", program.display());
    output.stdout
}

/// The program `signature`, and the one beside this that does the same.
fn programs() -> [PathBuf; 2] {
    let folder = Path::new(env!("CARGO_MANIFEST_DIR"));
    let this = std::env::current_exe().expect("where this program stands");
    [
        folder.join("../../target/bin/signature"),
        this.with_file_name("report"),
    ]
}

fn main() {
    let mut random = Random::new(2048);
    let rows = random.list(LENGTH, ROW_LIMIT);
    let spectrum = walsh::spectrum(&rows, LENGTH).expect("rows in range");
    let (inputs, values, bridge) = ([2, 5, 11], [0, 1, 1], [2, 11]);
    check(&rows, &spectrum, &inputs, &values);
    check_bridge(&spectrum, bridge);
    let text = Draft::draw(&mut random, Sizes::LARGEST).text();
    let faults = check_circuit(&text);
    let planned = planned_text(&mut random, |random| Draft::draw(random, Sizes::LARGEST));
    let table = table_texts::largest().text();
    let bridges = bridged_text(&mut random);
    let table_bridges = bridged_table();
    // Numbers of their own, so that the texts above stay as they were.
    let mut random = Random::new(1_792);
    let wide = wide_texts::largest(&mut random).text();
    assert_eq!(check_circuit(&wide), faults);
    let wide_planned = planned_text(&mut random, wide_texts::largest);
    let mut random = Random::new(1_650);
    let three = of_three_fields(&mut random).text();
    assert_eq!(check_circuit(&three), faults);
    let three_planned = planned_text(&mut random, of_three_fields);
    let texts = [&planned, &table, &bridges, &table_bridges];
    for text in texts.into_iter().chain([&wide_planned, &three_planned]) {
        check_plan(text);
    }
    let worst = worst_search().text();
    check_refused(&worst, 14, 0);
    let hidden = hidden_texts::largest(&mut Random::new(16)).text();
    check_refused(&hidden, 16, 1);
    check_readings(&text, faults);
    check_readings(&wide, faults);
    check_readings(&three, faults);
    let [signature, plain_report] = &programs();
    check_programs(signature, plain_report);

    let (rows, spectrum, text) = (&rows[..], &spectrum[..], &text[..]);
    let (planned, table, worst) = (&planned[..], &table[..], &worst[..]);
    let hidden = &hidden[..];
    let (bridges, table_bridges) = (&bridges[..], &table_bridges[..]);
    let (wide, wide_planned) = (&wide[..], &wide_planned[..]);
    let (three, three_planned) = (&three[..], &three_planned[..]);
    // One buffer for each contender, so that none meets another's result.
    let mut buffers = vec![vec![0; LENGTH]; 12];
    let mut lend = buffers.iter_mut();
    let mut buffer = || &mut lend.next().expect("a buffer for each contender")[..];
    let (to_spectrum, to_fast, to_rows) = (buffer(), buffer(), buffer());
    let (to_stuck, to_opened, to_bridged) = (buffer(), buffer(), buffer());
    let [to_circuit, to_three, to_wide] = [(); 3].map(|_| [buffer(), buffer()]);
    let mut working = [(); 7].map(|_| vec![0; WORKING_NUMBERS]);
    let [to_plan, to_search, to_report, to_table_plan, to_table_report, to_bridges, to_table_bridges] =
        &mut working;
    let mut working = [(); 5].map(|_| vec![0; WORKING_NUMBERS]);
    let [to_three_plan, to_three_report, to_wide_plan, to_wide_report, to_hidden] = &mut working;
    let mut bytes = [(); 4].map(|_| vec![0; REPORT_ROOM]);
    let [to_bytes, to_table_bytes, to_three_bytes, to_wide_bytes] = &mut bytes;

    let mut races = [
        Race {
            name: "spectrum of 2,048 rows",
            library: Contender::new("library", move || {
                black_box(library::spectrum(black_box(rows), black_box(to_spectrum)));
            }),
            others: vec![
                Contender::new("second, direct sums", move || {
                    let _ = black_box(walsh::spectrum(black_box(rows), LENGTH));
                }),
                Contender::new("fast transform in Rust", move || {
                    let _ = black_box(fast::spectrum(black_box(rows), black_box(to_fast)));
                }),
            ],
        },
        Race {
            name: "rows of 2,048 coefficients",
            library: Contender::new("library", move || {
                black_box(library::rows(black_box(spectrum), black_box(to_rows)));
            }),
            others: vec![Contender::new("second, direct sums", move || {
                let _ = black_box(walsh::rows(black_box(spectrum), LENGTH));
            })],
        },
        Race {
            name: "3 stuck inputs of 11",
            library: Contender::new("library", move || {
                black_box(library::stuck(
                    black_box(spectrum),
                    black_box(&inputs),
                    black_box(&values),
                    black_box(to_stuck),
                ));
            }),
            others: vec![Contender::new("second, subset sums", move || {
                let (inputs, values) = (black_box(&inputs), black_box(&values));
                let _ = black_box(walsh::stuck(black_box(spectrum), inputs, values, LENGTH));
            })],
        },
        Race {
            name: "3 opened lines of 11",
            library: Contender::new("library", move || {
                black_box(library::opened(
                    black_box(spectrum),
                    black_box(&values),
                    black_box(to_opened),
                ));
            }),
            others: vec![Contender::new("second, subset sums", move || {
                let values = black_box(&values);
                let _ = black_box(walsh::opened(black_box(spectrum), values, LENGTH));
            })],
        },
        Race {
            name: "bridge on 2,048 coefficients",
            library: Contender::new("library", move || {
                let [first, second] = black_box(bridge);
                let out = black_box(&mut *to_bridged);
                black_box(library::bridged(black_box(spectrum), first, second, out));
            }),
            others: vec![Contender::new("second, halves of sums", move || {
                let [first, second] = black_box(bridge);
                let _ = black_box(walsh::bridged(black_box(spectrum), first, second, LENGTH));
            })],
        },
        circuit_race("circuit, sound and 32 faults", text, faults, to_circuit),
        plan_race("plan, largest circuit", planned, to_plan),
        report_race("report, largest circuit", planned, to_bytes, to_report),
        plan_race("plan, largest table", table, to_table_plan),
        report_race(
            "report, largest table",
            table,
            to_table_bytes,
            to_table_report,
        ),
        plan_race("plan, circuit of 32 bridges", bridges, to_bridges),
        plan_race("plan, table of 28 bridges", table_bridges, to_table_bridges),
        reading_race("reading, largest circuit", text),
        Race {
            name: "pair, largest circuit",
            library: Contender::new("library", move || {
                let fault = black_box(faults);
                black_box(library::pair(
                    black_box(text),
                    fault,
                    black_box(0),
                    black_box(0),
                ));
            }),
            others: vec![Contender::new("rows, mean in binary64", move || {
                let (text, fault) = (black_box(text), black_box(faults));
                let _ = black_box(fast::pair(text, fault, black_box(0), black_box(0)));
            })],
        },
        circuit_race("circuit, three fields a gate", three, faults, to_three),
        plan_race("plan, three fields a gate", three_planned, to_three_plan),
        report_race(
            "report, three fields a gate",
            three_planned,
            to_three_bytes,
            to_three_report,
        ),
        reading_race("reading, three fields a gate", three),
        circuit_race("circuit, four fields a gate", wide, faults, to_wide),
        plan_race("plan, four fields a gate", wide_planned, to_wide_plan),
        report_race(
            "report, four fields a gate",
            wide_planned,
            to_wide_bytes,
            to_wide_report,
        ),
        reading_race("reading, four fields a gate", wide),
        plan_race("plan, first of 32 is hidden", hidden, to_hidden),
        plan_race(WORST_SEARCH, worst, to_search),
        Race {
            name: "signature, the listing",
            library: Contender::new("program", move || {
                black_box(run(signature, LISTING.as_bytes()));
            }),
            others: vec![Contender::new("program in Rust", move || {
                black_box(run(plain_report, LISTING.as_bytes()));
            })],
        },
    ];

    // Every round measures each contender once, so noise hits all alike.
    for _ in 0..ROUNDS {
        for race in &mut races {
            let contenders = std::iter::once(&mut race.library).chain(&mut race.others);
            for contender in contenders {
                let seconds = contender.measure();
                contender.seconds.push(seconds);
            }
        }
    }

    println!("Microseconds per call, median of {ROUNDS} interleaved rounds; the ratio of the");
    println!("medians, and between which ratios the middle four fifths of the rounds lie.");
    println!("Buffers were not cleared between calls; \"second\" makes its own list.");
    println!("The circuit rows are {} calls on one text.", faults + 1);
    println!();
    println!(
        "{:<30}{:>10}  {:<24}{:>10}{:>9}  {}",
        "call", "library", "against", "time", "ratio", "rounds"
    );
    for race in &races {
        for other in &race.others {
            let (ours, theirs) = (race.library.median(), other.median());
            let rounds = race.library.seconds.iter().zip(&other.seconds);
            let ratios = sorted(
                &rounds
                    .map(|(ours, theirs)| ours / theirs)
                    .collect::<Vec<_>>(),
            );
            println!(
                "{:<30}{:>10.2}  {:<24}{:>10.2}{:>9.4}  {:.4} .. {:.4}",
                race.name,
                ours * 1e6,
                other.name,
                theirs * 1e6,
                ours / theirs,
                ratios[ROUNDS / 10],
                ratios[ROUNDS - 1 - ROUNDS / 10],
            );
        }
    }
    let search = races.iter().find(|race| race.name == WORST_SEARCH);
    let seconds = search.expect("a worst search").library.median();
    println!();
    println!("The worst search took the library {seconds:.3} s; under 0.2 s is asked.");
}

/// What is timed must be equal first.
fn check(rows: &[i32], spectrum: &[i32], inputs: &[u32], values: &[u32]) {
    let mut out = vec![0; LENGTH];
    assert_eq!(library::spectrum(rows, &mut out).number, 0);
    assert_eq!(out, spectrum, "the library's spectrum differs");

    out.fill(0);
    assert_eq!(fast::spectrum(rows, &mut out), Ok(()));
    assert_eq!(out, spectrum, "the fast transform's spectrum differs");

    assert_eq!(library::rows(spectrum, &mut out).number, 0);
    assert_eq!(out, rows, "the library's rows differ");
    let due = walsh::rows(spectrum, LENGTH);
    assert_eq!(due.as_deref(), Ok(rows), "the second's rows differ");

    assert_eq!(library::stuck(spectrum, inputs, values, &mut out).number, 0);
    let due = walsh::stuck(spectrum, inputs, values, LENGTH);
    assert_eq!(Ok(out.clone()), due, "the results for stuck inputs differ");

    assert_eq!(library::opened(spectrum, values, &mut out).number, 0);
    let due = walsh::opened(spectrum, values, LENGTH).expect("a spectrum of rows");
    assert_eq!(out[..due.len()], due, "the results for opened lines differ");
}

/// The same for a bridge.
fn check_bridge(spectrum: &[i32], [first, second]: [u32; 2]) {
    let mut out = vec![0; LENGTH];
    assert_eq!(
        library::bridged(spectrum, first, second, &mut out).number,
        0
    );
    let due = walsh::bridged(spectrum, first, second, LENGTH);
    assert_eq!(Ok(out), due, "the results for a bridge differ");
}

/// The same for a circuit; gives the number of its faults.
fn check_circuit(text: &[u8]) -> u32 {
    let netlist = netlist::parse(text).expect("a good circuit");
    let three_lines = netlist.faults.iter().filter(|f| f.stuck().len() == 3);
    assert!(three_lines.count() > 0, "no fault has three lines");
    let faults = netlist.faults.len() as u32;
    for fault in 0..=faults {
        let due = devices::circuit(text, fault, CIRCUIT_LENGTH);
        let mut out = vec![0; CIRCUIT_LENGTH];
        assert_eq!(library::circuit(text, fault, &mut out).number, 0);
        assert_eq!(
            Ok(&out),
            due.as_ref(),
            "the library's fault {fault} differs"
        );
        out.fill(0);
        assert_eq!(fast::circuit(text, fault, &mut out), Ok(()));
        assert_eq!(Ok(out), due, "the plain fault {fault} differs");
    }
    faults
}

/// A circuit of the largest size whose gates have three line fields.
fn of_three_fields(random: &mut Random) -> Draft {
    wide_texts::longest_of(random, 3)
}

/// A circuit of the largest size with a plan of more than one label.
fn planned_text(random: &mut Random, draw: fn(&mut Random) -> Draft) -> Vec<u8> {
    loop {
        let draft = draw(random);
        let changing = draft.changing_faults();
        // Faults that change a row stand in for the silent and the hidden ones.
        let faults: Vec<_> = changing.iter().cycle().take(32).cloned().collect();
        let text = draft.with_faults(&faults, CAP_LIMIT).text();
        if faults.len() == 32 && fast::plan(&text, WORKING_NUMBERS).is_ok_and(|set| set.len() > 1) {
            return text;
        }
    }
}

/// A circuit of the largest size whose 32 faults are bridges: eight inputs have
/// 28, and four stand twice. Its plan has more than one label.
fn bridged_text(random: &mut Random) -> Vec<u8> {
    loop {
        let text = bridge_texts::largest_circuit(random).text();
        if fast::plan(&text, WORKING_NUMBERS).is_ok_and(|set| set.len() > 1) {
            return text;
        }
    }
}

/// The largest table with these 28 bridges and four stuck inputs; its plan has
/// four labels.
fn bridged_table() -> Vec<u8> {
    let table = table_texts::largest();
    let mut faults = bridge_texts::every_bridge(8);
    faults.extend_from_slice(&table.faults()[..4]);
    let text = table.with_faults(&faults, CAP_LIMIT).text();
    let labels = fast::plan(&text, WORKING_NUMBERS).map(|set| set.len());
    assert_eq!(labels, Ok(CAP_LIMIT));
    text
}

/// The same for the plan and the report on a text.
fn check_plan(planned: &[u8]) {
    let working = &mut vec![0; WORKING_NUMBERS];
    let due = plan::plan(planned, WORKING_NUMBERS).expect("a plan");
    let found = library::plan(planned, working);
    let labels: Vec<usize> = found.labels.iter().map(|&label| label as usize).collect();
    assert_eq!((found.number, found.size), (0, due.len()));
    assert_eq!(labels[..due.len()], due, "the library's plan differs");
    assert_eq!(fast::plan(planned, WORKING_NUMBERS), Ok(due));

    let due = report::report(planned, REPORT_ROOM, WORKING_NUMBERS).expect("a report");
    let mut out = vec![0; REPORT_ROOM];
    let found = library::report(planned, &mut out, working);
    assert_eq!((found.number, found.bytes), (0, due.len()));
    assert_eq!(out[..due.len()], due, "the library's report differs");
    let fast_report = fast::report(planned, REPORT_ROOM, WORKING_NUMBERS);
    assert_eq!(fast_report, Ok(due));
}

/// The same where there is no plan.
fn check_refused(text: &[u8], number: u32, place: usize) {
    let working = &mut vec![0; WORKING_NUMBERS];
    let found = library::plan(text, working);
    assert_eq!((found.number, found.place), (number, place));
    let due = walsh::refuse(number, place);
    assert_eq!(fast::plan(text, WORKING_NUMBERS), due);
}

/// The same for readings without fixed inputs; four outputs make a weighted sum.
fn check_readings(text: &[u8], faults: u32) {
    let found = library::reading(text, 0, 0);
    let bits = found.value.to_bits();
    assert_eq!((found.number, found.kind, found.fixed), (0, 2, 0));
    assert_eq!(reading::reading(text, 0, 0), Reading::WeightedSum { bits });
    assert_eq!(fast::reading(text, 0, 0).map(f64::to_bits), Ok(bits));

    for fault in 1..=faults {
        let found = library::pair(text, fault, 0, 0);
        let readings = [found.sound, found.faulty, found.difference].map(f64::to_bits);
        assert_eq!(found.number, 0);
        let due = reading::pair(text, fault, 0, 0).expect("a good circuit");
        let due = [due.sound, due.faulty, due.difference];
        assert_eq!(readings, due, "the library's pair differs at fault {fault}");
        let plain = fast::pair(text, fault, 0, 0).map(|found| found.map(f64::to_bits));
        assert_eq!(plain, Ok(due), "the plain pair differs at fault {fault}");
    }
}

/// The same for the two programs.
fn check_programs(signature: &Path, plain_report: &Path) {
    let text = LISTING.as_bytes();
    let due = report::report(text, REPORT_ROOM, WORKING_NUMBERS).expect("a report");
    assert_eq!(run(signature, text), due, "the program's report differs");
    assert_eq!(run(plain_report, text), due, "the plain report differs");
}
