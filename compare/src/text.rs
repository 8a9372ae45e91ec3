//! The text of a scenario and the flat numbers that the library's run takes.

use crate::plain::reader::Scenario;
use crate::plain::rules::Event;
use std::io::Write;

pub fn write(scenario: &Scenario) -> Vec<u8> {
    let mut out = Vec::new();
    line(&mut out, "sites", &[scenario.sites]);
    line(&mut out, "transactions", &[scenario.table.len() as u32]);
    for entry in &scenario.table {
        line(&mut out, "master", &[entry.home]);
        line(&mut out, "priority", &[entry.priority]);
    }
    line(&mut out, "events", &[scenario.events.len() as u32]);
    for event in &scenario.events {
        line(&mut out, "event", &fields(event));
    }
    out
}

fn line(out: &mut Vec<u8>, key: &str, numbers: &[u32]) {
    let numbers: Vec<String> = numbers.iter().map(u32::to_string).collect();
    writeln!(out, "{key}={}", numbers.join(",")).expect("a vector takes every byte");
}

pub fn fields(event: &Event) -> [u32; 7] {
    [
        event.action,
        event.site,
        event.transaction,
        event.kind,
        event.from,
        event.reads,
        event.writes,
    ]
}

/// The event with these seven fields.
pub fn event(fields: [u32; 7]) -> Event {
    let [action, site, transaction, kind, from, reads, writes] = fields;
    Event {
        action,
        site,
        transaction,
        kind,
        from,
        reads,
        writes,
    }
}

/// The table and the events as the library's run takes them.
pub fn flat(scenario: &Scenario) -> (Vec<u32>, Vec<u32>) {
    let table = scenario.table.iter();
    let events = scenario.events.iter();
    (
        table.flat_map(|e| [e.home, e.priority]).collect(),
        events.flat_map(fields).collect(),
    )
}
