//! The reader of a scenario: one pass over its bytes.

use super::rules::Event;
use super::state::Entry;

pub const MAX_TEXT: usize = 65_536;

/// The shortest text of a table entry, and of an event. A count announced by
/// the text reserves no more room than the rest of the text can fill.
const SHORTEST: usize = "event=0,0,0,0,0,0,0\n".len();

/// A scenario in good form. Its numbers are not checked any further.
#[derive(Clone, Default, PartialEq, Eq, Debug)]
pub struct Scenario {
    pub sites: u32,
    pub table: Vec<Entry>,
    pub events: Vec<Event>,
}

/// The number of the line that is not of the form, or absent.
#[derive(Clone, Copy, PartialEq, Eq, Debug)]
pub struct Fault(pub u64);

/// Reads the lines in their order. The length of the whole text is the
/// caller's to check.
pub fn read(text: &[u8]) -> Result<Scenario, Fault> {
    let mut scenario = Scenario::default();
    read_into(text, &mut scenario)?;
    Ok(scenario)
}

/// Reads into a scenario whose vectors may have room from an earlier text.
/// After a fault it holds what was read before it.
pub fn read_into(text: &[u8], scenario: &mut Scenario) -> Result<(), Fault> {
    let mut lines = Lines {
        rest: text,
        number: 1,
    };
    scenario.sites = lines.value(b"sites=")?;
    let count = lines.value(b"transactions=")?;
    scenario.table.clear();
    scenario.table.reserve(lines.room(count));
    for _ in 0..count {
        let home = lines.value(b"master=")?;
        let priority = lines.value(b"priority=")?;
        scenario.table.push(Entry { home, priority });
    }
    let count = lines.value(b"events=")?;
    scenario.events.clear();
    scenario.events.reserve(lines.room(count));
    for _ in 0..count {
        scenario.events.push(lines.event()?);
    }
    if !lines.rest.is_empty() {
        return Err(Fault(lines.number));
    }
    Ok(())
}

/// What is left of the text and the number of the line it starts with.
struct Lines<'a> {
    rest: &'a [u8],
    number: u64,
}

impl Lines<'_> {
    fn room(&self, count: u32) -> usize {
        (count as usize).min(self.rest.len() / SHORTEST)
    }

    /// A line with one number.
    fn value(&mut self, key: &[u8]) -> Result<u32, Fault> {
        let [value] = self.line(key)?;
        Ok(value)
    }

    fn event(&mut self) -> Result<Event, Fault> {
        let [action, site, transaction, kind, from, reads, writes] = self.line(b"event=")?;
        Ok(Event {
            action,
            site,
            transaction,
            kind,
            from,
            reads,
            writes,
        })
    }

    /// A whole line: the key, N numbers with commas between, a line feed.
    fn line<const N: usize>(&mut self, key: &[u8]) -> Result<[u32; N], Fault> {
        let fault = Fault(self.number);
        let mut rest = self.rest.strip_prefix(key).ok_or(fault)?;
        let mut numbers = [0; N];
        for (i, number) in numbers.iter_mut().enumerate() {
            let end = if i + 1 < N { b',' } else { b'\n' };
            (*number, rest) = number_before(rest, end).ok_or(fault)?;
        }
        self.rest = rest;
        self.number += 1;
        Ok(numbers)
    }
}

/// The number that the text starts with and what follows the byte that ends
/// it. A 0 in front must stand alone, as no number has leading zeros.
fn number_before(text: &[u8], end: u8) -> Option<(u32, &[u8])> {
    let (&first, mut rest) = text.split_first()?;
    let mut number = digit(first)?;
    loop {
        let (&byte, tail) = rest.split_first()?;
        if byte == end {
            return Some((number, tail));
        }
        if first == b'0' {
            return None;
        }
        number = number.checked_mul(10)?.checked_add(digit(byte)?)?;
        rest = tail;
    }
}

fn digit(byte: u8) -> Option<u32> {
    byte.is_ascii_digit().then(|| u32::from(byte - b'0'))
}
