//! Timing. Both implementations get the same texts in one process, in turns,
//! with their buffers cleared alike before each call. A time is that of one
//! text, and of several rounds the quickest counts, as whatever else the
//! machine does can only make a round slower.

use crate::plain::reader::{self, Scenario};
use crate::plain::report;
use crate::plain::rules;
use crate::plain::state::{State, MAX_EVENTS, MAX_TRANSACTIONS};
use crate::proved;
use crate::rng::Rng;
use crate::text;
use crate::walk::{walk, Profile};
use std::fs;
use std::hint::black_box;
use std::time::{Duration, Instant};

const SEED: u64 = 20_050_900;
const TEXTS: u64 = 8;
const ROUNDS: usize = 40;
const ROUND: Duration = Duration::from_millis(4);

/// One text with all that is made of it before the clock starts.
struct Subject {
    text: Vec<u8>,
    scenario: Scenario,
    table: Vec<u32>,
    events: Vec<u32>,
}

fn subjects(sites: usize, transactions: usize, events: usize) -> Vec<Subject> {
    let profile = Profile::steady(sites, transactions, events);
    (0..TEXTS)
        .map(|number| {
            let scenario = walk(&mut Rng::new(SEED, number), &profile);
            let (table, events) = text::flat(&scenario);
            Subject {
                text: text::write(&scenario),
                scenario,
                table,
                events,
            }
        })
        .collect()
}

/// Times in nanoseconds.
struct Times {
    plain: f64,
    proved: f64,
}

/// Where a call writes: bytes that any report fits in, and what a scenario is
/// read into, in the form that each implementation takes.
struct Buffer {
    bytes: Vec<u8>,
    scenario: Scenario,
    table: Vec<u32>,
    events: Vec<u32>,
}

impl Buffer {
    fn new() -> Self {
        Buffer {
            bytes: vec![0; proved::ROOM],
            scenario: Scenario::default(),
            table: vec![0; 2 * MAX_TRANSACTIONS],
            events: vec![0; 7 * MAX_EVENTS],
        }
    }

    /// Empties everything and keeps the room.
    fn clear(&mut self) {
        self.bytes.clear();
        self.bytes.resize(proved::ROOM, 0);
        self.scenario.table.clear();
        self.scenario.events.clear();
        self.table.fill(0);
        self.events.fill(0);
    }
}

/// One way to treat a text.
type Call = fn(&Subject, &mut Buffer);

fn measure(subjects: &[Subject], plain: Call, proved: Call) -> Times {
    let plain_repeats = calibrate(subjects, plain);
    let proved_repeats = calibrate(subjects, proved);
    let mut times = Times {
        plain: f64::INFINITY,
        proved: f64::INFINITY,
    };
    for _ in 0..ROUNDS {
        times.plain = times.plain.min(round(subjects, plain, plain_repeats));
        times.proved = times.proved.min(round(subjects, proved, proved_repeats));
    }
    times
}

/// How often the texts can be treated in the time of a round, once at least.
fn calibrate(subjects: &[Subject], call: Call) -> usize {
    let once = round(subjects, call, 3) * subjects.len() as f64;
    ((ROUND.as_nanos() as f64 / once) as usize).max(1)
}

/// The mean time of a text. The clock runs only during the calls.
fn round(subjects: &[Subject], call: Call, repeats: usize) -> f64 {
    let mut buffer = Buffer::new();
    let mut spent = Duration::ZERO;
    for _ in 0..repeats {
        for subject in subjects {
            buffer.clear();
            let start = Instant::now();
            call(black_box(subject), black_box(&mut buffer));
            spent += start.elapsed();
        }
    }
    spent.as_nanos() as f64 / (repeats * subjects.len()) as f64
}

fn plain_read(subject: &Subject, buffer: &mut Buffer) {
    let _ = black_box(reader::read_into(&subject.text, &mut buffer.scenario));
}

fn proved_read(subject: &Subject, buffer: &mut Buffer) {
    let line = proved::read(&subject.text, &mut buffer.table, &mut buffer.events);
    black_box(line);
}

fn plain_run(subject: &Subject, buffer: &mut Buffer) {
    let scenario = &subject.scenario;
    let answers = &mut buffer.bytes[..MAX_EVENTS];
    let run = State::setup(scenario.sites, &scenario.table)
        .and_then(|mut state| rules::run(&mut state, &scenario.events, answers));
    let _ = black_box(run);
}

fn proved_run(subject: &Subject, buffer: &mut Buffer) {
    let sites = subject.scenario.sites;
    let answers = &mut buffer.bytes[..MAX_EVENTS];
    let run = proved::run(sites, &subject.table, &subject.events, answers);
    black_box(run);
}

/// The plain report is appended to a vector, whose room is there already.
fn plain_report(subject: &Subject, buffer: &mut Buffer) {
    buffer.bytes.clear();
    report::report(&subject.text, &mut buffer.bytes);
}

fn proved_report(subject: &Subject, buffer: &mut Buffer) {
    black_box(proved::report(&subject.text, &mut buffer.bytes));
}

/// The parts of the work: their names and how each implementation does them.
const PARTS: [(&str, Call, Call); 3] = [
    ("reading", plain_read, proved_read),
    ("running", plain_run, proved_run),
    ("whole", plain_report, proved_report),
];

pub fn bench() {
    println!("Time of one text; the quickest of {ROUNDS} rounds, each over {TEXTS} texts.\n");
    println!("| sites | events | accepted | committed | part | plain | proved | ratio |");
    println!("|---|---|---|---|---|---|---|---|");
    for sites in [2, 5, 8] {
        for events in [16, MAX_EVENTS] {
            let transactions = if events == MAX_EVENTS { 32 } else { 4 };
            let subjects = subjects(sites, transactions, events);
            let (accepted, committed) = outcome(&subjects);
            for (name, plain, proved) in PARTS {
                let times = measure(&subjects, plain, proved);
                println!(
                    "| {sites} | {events} | {accepted:.0} % | {committed:.0} | {name} | {} |",
                    columns(&times)
                );
            }
        }
    }
}

/// How many of a hundred events are accepted, and how many transactions of
/// one text have committed at all sites in the end.
fn outcome(subjects: &[Subject]) -> (f64, f64) {
    let (mut accepted, mut events, mut committed) = (0, 0, 0);
    for Subject { scenario, .. } in subjects {
        let mut answers = vec![0; scenario.events.len()];
        let mut state = State::setup(scenario.sites, &scenario.table).expect("a setup in order");
        rules::run(&mut state, &scenario.events, &mut answers).expect("a run in order");
        accepted += answers.iter().filter(|&&answer| answer == 0).count();
        events += answers.len();
        let everywhere = |t: &u8| state.sites.iter().all(|site| site.log.contains(t));
        committed += state.sites[0].log.iter().filter(|t| everywhere(t)).count();
    }
    let accepted = 100.0 * accepted as f64 / events as f64;
    (accepted, committed as f64 / subjects.len() as f64)
}

fn columns(times: &Times) -> String {
    format!(
        "{:.2} µs | {:.2} µs | {:.2}",
        times.plain / 1000.0,
        times.proved / 1000.0,
        times.proved / times.plain
    )
}

/// Sites, transactions and events: each grows while the other two are at their
/// largest, and the largest of all stands at the end.
const GROWTH: [(usize, usize, usize); 9] = [
    (8, 32, 16),
    (8, 32, 64),
    (8, 32, 256),
    (1, 32, 1024),
    (2, 32, 1024),
    (4, 32, 1024),
    (8, 1, 1024),
    (8, 8, 1024),
    (8, 32, 1024),
];

/// How the time of a whole report grows with each of its three sizes.
pub fn growth() {
    println!(
        "Time of one whole report; the quickest of {ROUNDS} rounds, each over {TEXTS} texts.\n"
    );
    println!("| sites | transactions | events | plain | proved | ratio |");
    println!("|---|---|---|---|---|---|");
    for (sites, transactions, events) in GROWTH {
        let subjects = subjects(sites, transactions, events);
        let times = measure(&subjects, plain_report, proved_report);
        println!(
            "| {sites} | {transactions} | {events} | {} |",
            columns(&times)
        );
    }
    println!(
        "\nHighest memory of the process, both implementations in it: {}",
        highest_memory()
    );
}

/// The kernel's own account, where there is one.
fn highest_memory() -> String {
    let status = fs::read_to_string("/proc/self/status").unwrap_or_default();
    let line = status.lines().find_map(|line| line.strip_prefix("VmHWM:"));
    line.map_or("not known", str::trim).to_string()
}
