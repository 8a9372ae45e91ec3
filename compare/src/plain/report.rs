//! The report of a scenario.

use super::reader::{self, Scenario, MAX_TEXT};
use super::rules;
use super::state::{Refusal, State, MAX_EVENTS};

/// Appends the report of the text to `out`.
pub fn report(text: &[u8], out: &mut Vec<u8>) {
    if text.len() > MAX_TEXT {
        return line(out, "fault=", 0);
    }
    let scenario = match reader::read(text) {
        Ok(scenario) => scenario,
        Err(fault) => return line(out, "fault=", fault.0),
    };
    if let Err(refusal) = report_run(&scenario, out) {
        line(out, "setup=", u64::from(refusal.number()));
    }
}

/// The report of a run, or the reason why setup or the run was refused. A
/// refused one writes nothing.
fn report_run(scenario: &Scenario, out: &mut Vec<u8>) -> Result<(), Refusal> {
    let mut state = State::setup(scenario.sites, &scenario.table)?;
    let mut answers = [0; MAX_EVENTS];
    let messages = rules::run(&mut state, &scenario.events, &mut answers)?;
    for &answer in &answers[..scenario.events.len()] {
        line(out, "answer=", u64::from(answer));
    }
    for site in &state.sites {
        let statuses = &site.status[..state.transactions.len()];
        list(out, "status=", statuses.iter().map(|s| s.number()));
        list(out, "log=", site.log.iter().copied());
    }
    line(out, "messages=", u64::from(messages));
    Ok(())
}

fn line(out: &mut Vec<u8>, key: &str, value: u64) {
    out.extend_from_slice(key.as_bytes());
    decimal(out, value);
    out.push(b'\n');
}

fn list(out: &mut Vec<u8>, key: &str, values: impl Iterator<Item = u8>) {
    out.extend_from_slice(key.as_bytes());
    for (i, value) in values.enumerate() {
        if i > 0 {
            out.push(b',');
        }
        decimal(out, u64::from(value));
    }
    out.push(b'\n');
}

fn decimal(out: &mut Vec<u8>, value: u64) {
    if value >= 10 {
        decimal(out, value / 10);
    }
    out.push(b'0' + (value % 10) as u8);
}
