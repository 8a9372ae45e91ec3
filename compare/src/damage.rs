//! Damage to a text in good form, byte by byte, line by line and number by
//! number. Some of it leaves the form whole, which is as good a test.

use crate::rng::Rng;
use std::ops::Range;

/// What stands in for a number: the ends of its range and what looks like a
/// number but is none.
const NUMBERS: [&str; 22] = [
    "0",
    "1",
    "4294967295",
    "4294967296",
    "4294967300",
    "9999999999",
    "42949672950",
    "18446744073709551615",
    "18446744073709551617",
    "00",
    "01",
    "0000000000000000",
    "04294967295",
    "+1",
    "-1",
    "-0",
    " 1",
    "1 ",
    "",
    "0x1",
    "1.0",
    "1,1",
];

const BYTES: &[u8] = b"0123456789=,\n\r \t\0+-./:aestv\x7f\x80\xff";

const KEYS: [&str; 9] = [
    "sites=",
    "transactions=",
    "master=",
    "priority=",
    "events=",
    "event=",
    "Sites=",
    "event",
    "event==",
];

/// One damage most of the time, up to four otherwise.
pub fn damage(rng: &mut Rng, text: &mut Vec<u8>) {
    for _ in 0..rng.pick(&[1, 1, 1, 1, 2, 3, 4]) {
        match rng.below(8) {
            0 | 1 => damage_bytes(rng, text),
            2 | 3 => damage_lines(rng, text),
            4 | 5 => damage_number(rng, text),
            6 => damage_end(rng, text),
            _ => damage_form(rng, text),
        }
    }
}

/// Changes one byte, so that the length stays.
pub fn change_byte(rng: &mut Rng, text: &mut [u8]) {
    if !text.is_empty() {
        let place = rng.below(text.len());
        text[place] = if rng.percent(80) {
            rng.pick(BYTES)
        } else {
            rng.next() as u8
        };
    }
}

fn damage_bytes(rng: &mut Rng, text: &mut Vec<u8>) {
    if text.is_empty() {
        return;
    }
    let place = rng.below(text.len());
    match rng.below(4) {
        0 => change_byte(rng, text),
        1 => drop(text.remove(place)),
        2 => text.insert(place, text[place]),
        _ => text.insert(place, rng.pick(BYTES)),
    }
}

fn damage_lines(rng: &mut Rng, text: &mut Vec<u8>) {
    let mut lines: Vec<Vec<u8>> = text
        .split_inclusive(|&b| b == b'\n')
        .map(<[u8]>::to_vec)
        .collect();
    if lines.is_empty() {
        return;
    }
    let (one, other) = (rng.below(lines.len()), rng.below(lines.len()));
    match rng.below(4) {
        0 => lines.swap(one, other),
        1 => drop(lines.remove(one)),
        2 => lines.insert(one, lines[one].clone()),
        _ => lines.insert(one, lines[other].clone()),
    }
    *text = lines.concat();
}

/// Puts something else in the place of one number. The counts, which decide
/// how many lines there must be, are met more often than by chance.
fn damage_number(rng: &mut Rng, text: &mut Vec<u8>) {
    let places = numbers(text);
    if places.is_empty() {
        return;
    }
    let place = match rng.below(3) {
        0 => places[rng.below(places.len().min(3))].clone(),
        _ => places[rng.below(places.len())].clone(),
    };
    let instead = match rng.below(4) {
        0 => rng.below(40).to_string(),
        _ => rng.pick(&NUMBERS).to_string(),
    };
    text.splice(place, instead.into_bytes());
}

/// Where the runs of digits stand.
fn numbers(text: &[u8]) -> Vec<Range<usize>> {
    let mut places = Vec::new();
    let mut start = 0;
    for run in text.split(|b| !b.is_ascii_digit()) {
        if !run.is_empty() {
            places.push(start..start + run.len());
        }
        start += run.len() + 1;
    }
    places
}

fn damage_end(rng: &mut Rng, text: &mut Vec<u8>) {
    match rng.below(6) {
        0 => drop(text.pop()),
        1 => text.push(b'\n'),
        2 => text.push(rng.pick(BYTES)),
        3 => text.extend_from_slice(b"event=1,0,0,0,0,0,0\n"),
        4 => text.extend_from_slice(b"\r\n"),
        _ => text.truncate(rng.below(text.len() + 1)),
    }
}

/// Line ends, keys and commas that are not of the form.
fn damage_form(rng: &mut Rng, text: &mut Vec<u8>) {
    let (byte, instead) = match rng.below(4) {
        0 => return carriage_returns(text),
        1 => (b'\n', rng.pick(&["\r\n", "\n\n", "\r", "", " \n", "\0\n"])),
        2 => (b'=', rng.pick(&KEYS)),
        _ => (b',', rng.pick(&["", ",,", ";", ", ", ",0,"])),
    };
    let places: Vec<usize> = (0..text.len()).filter(|&i| text[i] == byte).collect();
    if !places.is_empty() {
        let place = rng.pick(&places);
        text.splice(place..=place, instead.bytes());
    }
}

fn carriage_returns(text: &mut Vec<u8>) {
    let lines: Vec<&[u8]> = text.split(|&b| b == b'\n').collect();
    *text = lines.join(b"\r\n".as_slice());
}
