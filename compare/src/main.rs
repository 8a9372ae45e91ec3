//! Compares the proved bench with a plain implementation of document 01 that
//! was written apart from it, and times the one against the other.

mod bench;
mod coverage;
mod damage;
mod draw;
mod invariants;
mod plain;
mod proved;
mod random;
mod rng;
mod text;
mod walk;

#[cfg(test)]
mod cases;

use std::env;
use std::io::{self, Read, Write};
use std::process::ExitCode;

const USAGE: &str = "usage: compare report < scenario
       compare random SEED COUNT
       compare bench
       compare growth";

fn main() -> ExitCode {
    let arguments: Vec<String> = env::args().skip(1).collect();
    let arguments: Vec<&str> = arguments.iter().map(String::as_str).collect();
    let result = match arguments[..] {
        ["report"] => report().map_err(|error| error.to_string()),
        ["random", seed, count] => match (seed.parse(), count.parse()) {
            (Ok(seed), Ok(count)) => random::random(seed, count),
            _ => Err(USAGE.into()),
        },
        ["bench"] => {
            bench::bench();
            Ok(())
        }
        ["growth"] => {
            bench::growth();
            Ok(())
        }
        _ => Err(USAGE.into()),
    };
    match result {
        Ok(()) => ExitCode::SUCCESS,
        Err(reason) => {
            eprintln!("{reason}");
            ExitCode::FAILURE
        }
    }
}

/// Prints the plain report of the scenario on standard input. One byte past
/// the limit is enough to know that a text is too long.
fn report() -> io::Result<()> {
    let mut text = Vec::new();
    let limit = plain::reader::MAX_TEXT as u64 + 1;
    io::stdin().lock().take(limit).read_to_end(&mut text)?;
    let mut out = Vec::new();
    plain::report::report(&text, &mut out);
    io::stdout().write_all(&out)
}
