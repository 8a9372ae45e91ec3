//! The random comparison: each drawn text goes to both implementations.

use crate::coverage::{Coverage, Kind};
use crate::draw;
use crate::invariants::History;
use crate::plain::reader::{self, Scenario, MAX_TEXT};
use crate::plain::report;
use crate::plain::rules;
use crate::plain::state::{State, MAX_EVENTS};
use crate::proved;
use crate::rng::Rng;
use crate::text;
use std::{env, fs};

/// What every place of a buffer holds before the library writes to it. No
/// report and no answer contains it.
const UNTOUCHED: u8 = 0xA5;

/// Draws and compares so many texts. On failure gives what went wrong.
pub fn random(seed: u64, count: u64) -> Result<(), String> {
    let mut comparison = Comparison {
        coverage: Coverage::new(),
        expected: Vec::with_capacity(proved::ROOM),
        out: vec![UNTOUCHED; proved::ROOM],
    };
    for number in 0..count {
        let mut rng = Rng::new(seed, number);
        let text = draw::text(&mut rng);
        if let Err(reason) = comparison.check(&mut rng, &text) {
            let path = env::temp_dir().join(format!("compare-{seed}-{number}.txt"));
            fs::write(&path, &text).map_err(|error| format!("{reason}\n{error}"))?;
            return Err(format!(
                "text {number} of seed {seed}: {reason}\nthe text: {}",
                path.display()
            ));
        }
    }
    comparison.coverage.print();
    println!("\n{count} texts of seed {seed}: no difference.");
    let never_met = comparison.coverage.never_met();
    if never_met.is_empty() {
        Ok(())
    } else {
        Err(format!("never met: {}", never_met.join("; ")))
    }
}

struct Comparison {
    coverage: Coverage,
    /// The plain report.
    expected: Vec<u8>,
    /// The room for the proved report.
    out: Vec<u8>,
}

impl Comparison {
    fn check(&mut self, rng: &mut Rng, text: &[u8]) -> Result<(), String> {
        let read = reader::read(text);
        self.count_form(text, &read);
        if let (Ok(scenario), true) = (&read, text.len() <= MAX_TEXT) {
            self.walk_again(scenario)?;
        }
        self.expected.clear();
        report::report(text, &mut self.expected);
        self.compare_report(text)?;
        self.compare_short_room(text)?;
        if rng.percent(30) {
            if let Ok(scenario) = &read {
                self.compare_run(rng, scenario)?;
            }
            // A text past the limit is refused by its length, not by a line.
            if text.len() <= MAX_TEXT {
                self.compare_read(rng, text, &read)?;
            }
        }
        Ok(())
    }

    fn count_form(&mut self, text: &[u8], read: &Result<Scenario, reader::Fault>) {
        let length = text.len();
        if read.is_ok() {
            self.coverage
                .count_if(length == MAX_TEXT, Kind::LengthAtLimit);
            self.coverage
                .count_if(length == MAX_TEXT + 1, Kind::LengthPastLimit);
        }
        match read {
            _ if length > MAX_TEXT => self.coverage.count(Kind::FaultZero),
            Err(fault) if fault.0 == 1 => self.coverage.count(Kind::FaultFirstLine),
            Err(fault) => {
                self.coverage.count(Kind::FaultLaterLine);
                // Without its line at fault and what follows it, a text whose
                // fault stands after the end is in good form.
                let lines = text.split_inclusive(|&b| b == b'\n');
                let kept = lines.take(fault.0 as usize - 1).map(<[u8]>::len).sum();
                let after_end = reader::read(&text[..kept]).is_ok();
                self.coverage.count_if(after_end, Kind::FaultAfterEnd);
            }
            Ok(_) => {}
        }
    }

    /// Does the run event by event, checks what must hold after each one and
    /// counts what happened.
    fn walk_again(&mut self, scenario: &Scenario) -> Result<(), String> {
        let mut state = match State::setup(scenario.sites, &scenario.table) {
            Ok(state) => state,
            Err(refusal) => {
                self.coverage.setup_refused(scenario, refusal);
                return Ok(());
            }
        };
        if scenario.events.len() > MAX_EVENTS {
            self.coverage.count(Kind::Setup(31));
            return Ok(());
        }
        self.coverage.run_started(scenario);
        let mut history = History::new(&state);
        for (number, event) in scenario.events.iter().enumerate() {
            let answer = state.step(event);
            self.coverage.event(event, answer, history.last(), &state);
            let checked = history.check(&state, answer);
            checked.map_err(|reason| format!("after event {number}: {reason}"))?;
        }
        self.coverage.run_ended(&state, history.list());
        Ok(())
    }

    /// Equal reports, and nothing written beyond them.
    fn compare_report(&mut self, text: &[u8]) -> Result<(), String> {
        self.out.fill(UNTOUCHED);
        let length = proved::report(text, &mut self.out).ok_or("the proved report is refused")?;
        let (report, beyond) = self.out.split_at(length);
        if report != self.expected {
            return Err(first_difference(&self.expected, report));
        }
        untouched(beyond, "bytes beyond the report were written")
    }

    /// A room of exactly the report's length is enough, and one byte less is
    /// refused and left as it came.
    fn compare_short_room(&mut self, text: &[u8]) -> Result<(), String> {
        let length = self.expected.len();
        self.out.fill(UNTOUCHED);
        if proved::report(text, &mut self.out[..length - 1]).is_some() {
            return Err("a room one byte too short was taken".into());
        }
        untouched(&self.out, "a room one byte too short was written to")?;
        if proved::report(text, &mut self.out[..length]) != Some(length) {
            return Err("a room of the report's length was not enough".into());
        }
        untouched(&self.out[length..], "bytes beyond the room were written")
    }

    /// Compares a reading: the line at fault and, of a text in good form, the
    /// numbers. Some of the lists have too little room, and no place is written
    /// that the numbers do not reach.
    fn compare_read(
        &mut self,
        rng: &mut Rng,
        text: &[u8],
        read: &Result<Scenario, reader::Fault>,
    ) -> Result<(), String> {
        self.coverage.count(Kind::ReadChecked);
        let room = rng.pick(&[0, 1, 20, 7 * MAX_EVENTS]);
        let mut table = vec![u32::from(UNTOUCHED); room];
        let mut events = vec![u32::from(UNTOUCHED); room];
        let line = proved::read(text, &mut table, &mut events);
        let expected = read.as_ref().err().map_or(0, |fault| fault.0);
        if line != expected {
            return Err(format!(
                "bench_read gives line {line}, plain gives {expected}"
            ));
        }
        let Ok(scenario) = read else {
            return Ok(());
        };
        let (mut plain_table, mut plain_events) = text::flat(scenario);
        plain_table.resize(room, u32::from(UNTOUCHED));
        plain_events.resize(room, u32::from(UNTOUCHED));
        if (plain_table, plain_events) != (table, events) {
            return Err("bench_read gives other numbers".into());
        }
        Ok(())
    }

    /// Compares a run on numbers. Some have a rest of an event at their end,
    /// which is not read, and some too little room for the answers.
    fn compare_run(&mut self, rng: &mut Rng, scenario: &Scenario) -> Result<(), String> {
        self.coverage.count(Kind::RunChecked);
        let (table, mut events) = text::flat(scenario);
        let rest = rng.pick(&[0, 0, 1, 6]);
        events.resize(events.len() + rest, 1);
        let count = scenario.events.len();
        let room = match rng.below(4) {
            0 => count.saturating_sub(1),
            1 => count,
            _ => count + 3,
        };
        let mut expected = vec![UNTOUCHED; room];
        let plain = State::setup(scenario.sites, &scenario.table)
            .and_then(|mut state| rules::run(&mut state, &scenario.events, &mut expected));
        let mut answers = vec![UNTOUCHED; room];
        let proved = proved::run(scenario.sites, &table, &events, &mut answers);
        if proved != plain.ok() {
            return Err(format!("bench_run gives {proved:?}, plain gives {plain:?}"));
        }
        if answers != expected {
            return Err("bench_run writes other answers".into());
        }
        Ok(())
    }
}

fn untouched(bytes: &[u8], complaint: &str) -> Result<(), String> {
    if bytes.iter().all(|&byte| byte == UNTOUCHED) {
        Ok(())
    } else {
        Err(complaint.into())
    }
}

/// Names the first line in which two reports differ.
fn first_difference(plain: &[u8], proved: &[u8]) -> String {
    let mut plain = plain.split(|&b| b == b'\n');
    let mut proved = proved.split(|&b| b == b'\n');
    let mut number = 1;
    loop {
        let (one, other) = (plain.next(), proved.next());
        if one != other || one.is_none() {
            let show = |line: Option<&[u8]>| match line {
                Some(line) => String::from_utf8_lossy(line).into_owned(),
                None => "(no such line)".into(),
            };
            return format!(
                "report line {number}: plain {:?}, proved {:?}",
                show(one),
                show(other)
            );
        }
        number += 1;
    }
}
