//! The texts of a random comparison.

use crate::damage;
use crate::plain::reader::{Scenario, MAX_TEXT};
use crate::plain::rules::Event;
use crate::plain::state::{Entry, MAX_EVENTS};
use crate::rng::Rng;
use crate::text;
use crate::walk::{draw_table, walk, Profile};

/// The shortest and the longest line of an event, and the part of a line that
/// is no digit.
const SHORTEST: usize = "event=0,0,0,0,0,0,0\n".len();
const BARE: usize = SHORTEST - 7;
const LONGEST: usize = BARE + 7 * 10;

/// Any text: mostly runs, many of them short, and every way to spoil one.
pub fn text(rng: &mut Rng) -> Vec<u8> {
    match rng.below(100) {
        0..=34 => run(rng, 0, 60),
        35..=57 => run(rng, 60, 300),
        58..=61 => run(rng, 300, MAX_EVENTS),
        62..=63 => run(rng, MAX_EVENTS, MAX_EVENTS),
        64..=72 => text::write(&refused_setup(rng)),
        73..=94 => damaged(rng),
        95..=97 => at_the_length_limit(rng),
        _ => noise(rng),
    }
}

/// A run of so many events. One of an exact number has operations enough for
/// all of it and is filled up.
fn run(rng: &mut Rng, low: usize, high: usize) -> Vec<u8> {
    let events = rng.between(low, high);
    let mut profile = match rng.below(3) {
        0 => Profile::crowded(rng, events),
        _ => Profile::random(rng, events),
    };
    if low == high {
        profile.fill = true;
        profile.operations.1 = events / profile.transactions;
    }
    text::write(&walk(rng, &profile))
}

fn short_scenario(rng: &mut Rng) -> Scenario {
    let events = rng.below(24);
    let mut profile = Profile::random(rng, events);
    profile.transactions = profile.transactions.min(6);
    walk(rng, &profile)
}

fn damaged(rng: &mut Rng) -> Vec<u8> {
    let scenario = if rng.percent(20) {
        refused_setup(rng)
    } else {
        short_scenario(rng)
    };
    let mut text = text::write(&scenario);
    damage::damage(rng, &mut text);
    text
}

/// A setup or a length of run that is refused for one reason or for several.
fn refused_setup(rng: &mut Rng) -> Scenario {
    let mut scenario = short_scenario(rng);
    for _ in 0..rng.pick(&[1, 1, 2, 3]) {
        spoil_setup(rng, &mut scenario);
    }
    scenario
}

fn spoil_setup(rng: &mut Rng, scenario: &mut Scenario) {
    match rng.below(6) {
        0 => scenario.sites = rng.pick(&[0, 9, 10, 255, 256, 1 << 31, u32::MAX]),
        1 => spoil_table_length(rng, scenario),
        2 | 3 if !scenario.table.is_empty() => {
            let t = rng.below(scenario.table.len());
            scenario.table[t].home = rng.pick(&[scenario.sites, 8, 9, 256, u32::MAX]);
        }
        4 if scenario.table.len() > 1 => {
            let t = rng.below(scenario.table.len() - 1);
            let last = scenario.table.len() - 1;
            scenario.table[last].priority = scenario.table[t].priority;
        }
        _ => {
            let count = rng.pick(&[1024, 1025, 1025, 1026, 3000]);
            scenario.events.resize(count, Event::default());
        }
    }
}

fn spoil_table_length(rng: &mut Rng, scenario: &mut Scenario) {
    if rng.percent(20) {
        // Entries this short are the only ones that fit so many times.
        let (home, priority) = (0, 0);
        scenario.table.resize(3000, Entry { home, priority });
    } else {
        let count = rng.pick(&[0, 0, 32, 33, 33, 34, 256]);
        scenario.table = draw_table(rng, 8, count);
    }
}

/// A text in good form, or one with a byte changed, whose length is at the
/// limit or one byte to either side.
fn at_the_length_limit(rng: &mut Rng) -> Vec<u8> {
    let length = rng.pick(&[MAX_TEXT - 1, MAX_TEXT, MAX_TEXT, MAX_TEXT + 1]);
    let mut text = padded(rng, length);
    if rng.percent(30) {
        damage::change_byte(rng, &mut text);
    }
    text
}

/// A text in good form of exactly this length: a short scenario, then events
/// with long numbers. Some have more events than a run takes.
fn padded(rng: &mut Rng, length: usize) -> Vec<u8> {
    let mut scenario = short_scenario(rng);
    let count = match rng.below(4) {
        0 => rng.between(MAX_EVENTS + 1, 3000),
        1 => MAX_EVENTS,
        _ => rng.between(900, MAX_EVENTS),
    };
    let written = text::write(&scenario).len();
    let digits = |number: usize| number.to_string().len();
    let mut bytes = length + digits(scenario.events.len()) - written - digits(count);
    let mut lines = count - scenario.events.len();
    while lines > 0 {
        lines -= 1;
        let low = SHORTEST.max(bytes.saturating_sub(lines * LONGEST));
        let high = LONGEST.min(bytes - lines * SHORTEST);
        let line = rng.between(low, high);
        scenario.events.push(long_event(rng, line));
        bytes -= line;
    }
    text::write(&scenario)
}

/// An event whose line has this length.
fn long_event(rng: &mut Rng, line: usize) -> Event {
    let mut spare = line - SHORTEST;
    let mut digits = [1; 7];
    while spare > 0 {
        let field = rng.below(7);
        if digits[field] < 10 {
            digits[field] += 1;
            spare -= 1;
        }
    }
    text::event(digits.map(|count| number_of_digits(rng, count)))
}

fn number_of_digits(rng: &mut Rng, count: u32) -> u32 {
    let low = if count == 1 {
        0
    } else {
        10_usize.pow(count - 1)
    };
    let high = (10_usize.pow(count) - 1).min(u32::MAX as usize);
    if rng.percent(20) {
        return high as u32;
    }
    rng.between(low, high) as u32
}

/// Bytes that were never a scenario, and the empty text.
fn noise(rng: &mut Rng) -> Vec<u8> {
    let length = rng.pick(&[0, 1, 2, 10, 100, 1000, MAX_TEXT, MAX_TEXT + 1, 70_000]);
    let mut text: Vec<u8> = (0..length).map(|_| rng.next() as u8).collect();
    if rng.percent(30) && length >= 6 {
        text[..6].copy_from_slice(b"sites=");
    }
    text
}
