//! Makes cases, answers them by the plain implementation, and compares it with another.
//! Usage: compare gen SEED COUNT | answers | count SEED COUNT | time SEED COUNT | run SEED COUNT | bench COUNT | growth | slow

#[cfg(feature = "proved")]
mod bench;
mod calendars;
mod case;
mod cases;
#[cfg(feature = "proved")]
mod clinic;
mod damage;
#[cfg(feature = "proved")]
mod growth;
#[cfg(feature = "proved")]
mod proved;
mod queries;
mod random;
mod series;
#[cfg(feature = "proved")]
mod slow;
mod table;

use std::io::{self, BufRead, BufWriter, Write};
use std::process::ExitCode;
use std::time::Duration;

use case::Case;
use table::Table;

/// How many times a call is measured.
const REPEATS: usize = 9;

fn main() -> ExitCode {
    let arguments: Vec<String> = std::env::args().skip(1).collect();
    let arguments: Vec<&str> = arguments.iter().map(String::as_str).collect();
    let done = match arguments[..] {
        ["gen", seed, count] => numbers(seed, count).and_then(|(seed, count)| generate(seed, count)),
        ["answers"] => answers(),
        ["count", seed, count] => numbers(seed, count).and_then(|(seed, count)| tally(seed, count)),
        ["time", seed, count] => numbers(seed, count).and_then(|(seed, count)| time(seed, count)),
        #[cfg(feature = "proved")]
        ["run", seed, count] => numbers(seed, count).and_then(|(seed, count)| compare(seed, count)),
        #[cfg(feature = "proved")]
        ["bench", count] => numbers("1", count).map(|(seed, count)| bench::clinics(seed, count)),
        #[cfg(feature = "proved")]
        ["growth"] => {
            bench::growth();
            Ok(())
        }
        #[cfg(feature = "proved")]
        ["slow"] => bench::slow(),
        _ => Err("usage: compare gen SEED COUNT | answers | count SEED COUNT | time SEED COUNT | run SEED COUNT | bench COUNT | growth | slow\n\
                  (`run`, `bench`, `growth` and `slow` only in a build with the feature `proved`)"
            .to_string()),
    };
    match done {
        Ok(()) => ExitCode::SUCCESS,
        Err(message) => {
            eprintln!("{message}");
            ExitCode::FAILURE
        }
    }
}

fn numbers(seed: &str, count: &str) -> Result<(u64, u64), String> {
    let number = |text: &str| text.parse::<u64>().map_err(|_| format!("`{text}` is no number"));
    Ok((number(seed)?, number(count)?))
}

/// Writes cases in the replay form.
fn generate(seed: u64, count: u64) -> Result<(), String> {
    let mut out = BufWriter::new(io::stdout().lock());
    for number in 0..count {
        writeln!(out, "{}", cases::make(seed, number).written()).map_err(|e| e.to_string())?;
    }
    out.flush().map_err(|e| e.to_string())
}

/// Answers the cases on standard input.
fn answers() -> Result<(), String> {
    let mut out = BufWriter::new(io::stdout().lock());
    for (number, line) in io::stdin().lock().lines().enumerate() {
        let line = line.map_err(|e| e.to_string())?;
        let case = Case::read(&line).map_err(|e| format!("line {}: {e}", number + 1))?;
        writeln!(out, "{}", case.plain().written()).map_err(|e| e.to_string())?;
    }
    out.flush().map_err(|e| e.to_string())
}

/// Answers made cases and prints how many answers there are of each kind. A case on which
/// the plain implementation panics is printed.
fn tally(seed: u64, count: u64) -> Result<(), String> {
    let mut table = Table::default();
    for number in 0..count {
        let case = cases::make(seed, number);
        let outcome = std::panic::catch_unwind(|| case.plain())
            .map_err(|_| format!("case {number} of seed {seed} panics:\n{}", case.written()))?;
        table.add(&case, &outcome);
    }
    print!("{table}");
    Ok(())
}

/// Measures the time of the calls alone, buffers made before, over those of the made cases
/// that have 2,000 bytes or more and are answered; of each the shortest of some calls.
fn time(seed: u64, count: u64) -> Result<(), String> {
    let refused = |case: &Case| matches!(case.plain().answer, plain::Answer::Refused(_));
    let cases: Vec<Case> = (0..count)
        .map(|number| cases::make(seed, number))
        .filter(|case| case.calendar.len() >= 2_000 && !refused(case))
        .collect();
    for (question, of_match) in [("match", true), ("report", false)] {
        let chosen: Vec<&Case> = cases.iter().filter(|case| case.query.is_some() == of_match).collect();
        let bytes: usize = chosen.iter().map(|case| case.calendar.len()).sum();
        let show = |name: &str, spent: Duration| {
            let per_byte = spent.as_nanos() as f64 / bytes.max(1) as f64;
            println!("{question:6} {name:6} {} calls, {bytes} bytes: {spent:?}, {per_byte:.2} ns a byte", chosen.len());
        };
        let shortest = |call: fn(&Case) -> Duration| -> Duration {
            chosen.iter().map(|case| (0..REPEATS).map(|_| call(case)).min().unwrap_or_default()).sum()
        };
        show("plain", shortest(Case::plain_time));
        #[cfg(feature = "proved")]
        show("proved", shortest(|case| proved::ask(case).spent));
    }
    Ok(())
}

/// Asks both implementations and stops at the first difference.
#[cfg(feature = "proved")]
fn compare(seed: u64, count: u64) -> Result<(), String> {
    let mut table = Table::default();
    for number in 0..count {
        let case = cases::make(seed, number);
        let (plain, proved) = (case.plain(), proved::ask(&case));
        if !proved.agrees_with(&plain) {
            println!("{}", case.written());
            return Err(format!(
                "case {number} of seed {seed} differs:\nplain  {}\nproved {}",
                plain.written(),
                proved.written()
            ));
        }
        table.add(&case, &plain);
    }
    print!("{table}");
    println!("{count} cases of seed {seed}: no difference");
    Ok(())
}
