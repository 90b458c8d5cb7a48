//! Measures both implementations call by call: on clinic calendars, and on inputs made to be slow.
//! The buffers of each call were just filled, so they are warm.

use std::time::Duration;

use plain::Answer;

use crate::case::Case;
use crate::{clinic, growth, proved, slow};

/// How many rounds a benchmark has.
const ROUNDS: usize = 5;
/// How many times each slow input is asked.
const TRIES: usize = 3;
/// How many times each step of a series is asked.
const CALLS: usize = 500;
/// How many of the slow inputs are shown.
const SHOWN: usize = 10;

/// The times of either.
#[derive(Clone, Copy)]
struct Times {
    plain: Duration,
    proved: Duration,
}

impl Times {
    fn ratio(self) -> f64 {
        self.proved.as_secs_f64() / self.plain.as_secs_f64()
    }
}

/// Asks both. The one that is asked second finds the calendar in the cache.
fn times(case: &Case, plain_first: bool) -> Times {
    if plain_first {
        let plain = case.plain_time();
        Times { plain, proved: proved::ask(case).spent }
    } else {
        let proved = proved::ask(case).spent;
        Times { plain: case.plain_time(), proved }
    }
}

/// Prints for each kind of question the times and the ratio of the middle round, and the least and the greatest ratio.
pub fn clinics(seed: u64, count: u64) {
    println!("{count} calendars, {ROUNDS} rounds");
    for (name, kind) in clinic::KINDS {
        let cases: Vec<Case> = (0..count).map(|number| clinic::question(seed, number, kind)).collect();
        let bytes: usize = cases.iter().map(|case| case.calendar.len()).sum();
        let yes = cases.iter().filter(|case| case.plain().answer == Answer::Verdict(true)).count();
        let mut rounds: Vec<Times> = (0..ROUNDS).map(|round| sum(&cases, round)).collect();
        rounds.sort_by(|a, b| a.ratio().total_cmp(&b.ratio()));
        let middle = rounds[ROUNDS / 2];
        println!(
            "{name:18} {bytes} bytes, {yes:4} yes: plain {:6.1} ms, proved {:6.1} ms, ratio {:.2}, from {:.2} to {:.2}",
            milliseconds(middle.plain),
            milliseconds(middle.proved),
            middle.ratio(),
            rounds[0].ratio(),
            rounds[ROUNDS - 1].ratio()
        );
    }
}

/// The times of all the cases. The two take turns in going first.
fn sum(cases: &[Case], round: usize) -> Times {
    let mut sum = Times { plain: Duration::ZERO, proved: Duration::ZERO };
    for (number, case) in cases.iter().enumerate() {
        let times = times(case, (round + number).is_multiple_of(2));
        sum.plain += times.plain;
        sum.proved += times.proved;
    }
    sum
}

/// Prints the shortest of many calls of both, step by step of each series.
pub fn growth() {
    println!("microseconds, the shortest of {CALLS} calls: plain, proved");
    for (name, steps) in growth::series() {
        println!("{name}:");
        for (step, case) in steps {
            let all: Vec<Times> = (0..CALLS).map(|call| times(&case, call.is_multiple_of(2))).collect();
            let shortest = |of: fn(&Times) -> Duration| microseconds(all.iter().map(of).min().unwrap_or_default());
            println!("{step:8} {:9.1} {:9.1}", shortest(|t| t.plain), shortest(|t| t.proved));
        }
    }
}

/// Compares both on the slow inputs and prints those on which each takes longest, by the shortest of some calls.
pub fn slow() -> Result<(), String> {
    let mut measured = Vec::new();
    for (name, case) in slow::inputs() {
        if !proved::ask(&case).agrees_with(&case.plain()) {
            println!("{}", case.written());
            return Err(format!("the two differ on `{name}`"));
        }
        let tries: Vec<Times> = (0..TRIES).map(|k| times(&case, k.is_multiple_of(2))).collect();
        let plain = tries.iter().map(|t| t.plain).min().unwrap_or_default();
        let proved = tries.iter().map(|t| t.proved).min().unwrap_or_default();
        measured.push((name, Times { plain, proved }));
    }
    println!("{} inputs, the shortest of {TRIES} calls in ms: proved, plain", measured.len());
    show("proved", measured.clone(), |times| times.proved);
    show("plain", measured, |times| times.plain);
    Ok(())
}

fn show(whose: &str, mut measured: Vec<(String, Times)>, time: fn(&Times) -> Duration) {
    measured.sort_by_key(|(_, times)| std::cmp::Reverse(time(times)));
    println!("where {whose} takes longest:");
    for (name, times) in measured.iter().take(SHOWN) {
        println!("{:9.2} {:9.2}  {name}", milliseconds(times.proved), milliseconds(times.plain));
    }
}

fn milliseconds(time: Duration) -> f64 {
    1_000.0 * time.as_secs_f64()
}

fn microseconds(time: Duration) -> f64 {
    time.as_secs_f64() * 1e6
}
