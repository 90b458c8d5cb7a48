//! Answers the two questions of document 01, match and report, with requests, in
//! plain Rust. The stages run in the order of the table of refusals; each has its own module.

#![forbid(unsafe_code)]
#![warn(missing_docs)]

mod events;
mod filter;
mod lines;
mod nesting;
mod overrides;
mod report;
mod time;
mod values;

use filter::Query;
use lines::Line;
use nesting::Component;
use time::{Context, LAST_SECOND};

/// The longest calendar, in bytes as they come.
const LONGEST_CALENDAR: usize = 65_536;

/// What a call answers: one of three kinds.
#[derive(Clone, Copy, Debug, PartialEq, Eq)]
pub enum Answer {
    /// A match's yes or no.
    Verdict(bool),
    /// The number of bytes of a report that was written.
    Length(usize),
    /// No answer, and why.
    Refused(Refusal),
}

/// Why there is no answer.
#[derive(Clone, Copy, Debug, PartialEq, Eq)]
pub struct Refusal {
    /// The number in the table of refusals, 1 to 12.
    pub number: u8,
    /// The line that it is about, the first being 1; 0 for all but refusals 6 to 10.
    pub line: usize,
    /// The rule that is broken, for refusal 10; of several, any.
    pub breach: Option<Breach>,
}

impl Refusal {
    /// A refusal that is about no line.
    fn of(number: u8) -> Self {
        Refusal::at(number, 0)
    }

    /// A refusal about a line.
    fn at(number: u8, line: usize) -> Self {
        Refusal { number, line, breach: None }
    }
}

/// The rules of a component, by how they are broken. An override is a VEVENT with a
/// RECURRENCE-ID, its master the VEVENT without one that has its UID.
#[derive(Clone, Copy, Debug, PartialEq, Eq)]
pub enum Breach {
    /// A rule of document 01.
    Basic,
    /// A VEVENT has two UIDs.
    TwoUids,
    /// An EXDATE is not of the kind of its event's start.
    ExceptionKind,
    /// Two masters have one UID.
    SharedUid,
    /// A VEVENT has two RECURRENCE-IDs.
    TwoRecurrenceIds,
    /// An override has no UID.
    NoUid,
    /// An override has an RRULE.
    BesideRule,
    /// An override has an EXDATE.
    BesideExceptions,
    /// Two overrides of one UID name one second.
    SameSecond,
    /// An override has no master.
    NoMaster,
    /// A RECURRENCE-ID is not of the kind of its master's start.
    OverrideKind,
    /// A RECURRENCE-ID names no instance.
    NoInstance,
    /// A RECURRENCE-ID names an instance that is excluded.
    Excluded,
}

/// Does the calendar match the query? On refusals 1 to 5 `work` is unchanged,
/// otherwise it starts with the unfolded calendar.
pub fn matches(cal: &[u8], query: &[u8], offset: i64, work: &mut [u8]) -> Answer {
    try_match(cal, query, offset, work).map_or_else(Answer::Refused, Answer::Verdict)
}

/// Writes the calendar's busy time from `start` to `end` into `out`. `work` is as for
/// [`matches`]; `out` is unchanged on any refusal and behind the report.
pub fn report(cal: &[u8], start: u64, end: u64, offset: i64, stamp: u64, work: &mut [u8], out: &mut [u8]) -> Answer {
    try_report(cal, (start, end), offset, stamp, work, out).map_or_else(Answer::Refused, Answer::Length)
}

fn try_match(cal: &[u8], query: &[u8], offset: i64, work: &mut [u8]) -> Result<bool, Refusal> {
    let context = Context::new(offset).ok_or(Refusal::of(1))?;
    check_buffer(cal, work)?;
    let query = Query::read(query).map_err(Refusal::of)?;
    let text = unfolded(cal, work);
    let (lines, components) = structure(text)?;
    let meanings = events::read(text, &lines, &components, &context)?;
    Ok(query.holds(text, &lines, &components, &meanings))
}

fn try_report(
    cal: &[u8],
    (start, end): (u64, u64),
    offset: i64,
    stamp: u64,
    work: &mut [u8],
    out: &mut [u8],
) -> Result<usize, Refusal> {
    let range = time::range(start, end).ok_or(Refusal::of(1))?;
    let stamp = i64::try_from(stamp).ok().filter(|&s| s <= LAST_SECOND).ok_or(Refusal::of(1))?;
    let context = Context::new(offset).ok_or(Refusal::of(1))?;
    check_buffer(cal, work)?;
    let text = unfolded(cal, work);
    let (lines, components) = structure(text)?;
    let meanings = events::read(text, &lines, &components, &context)?;
    let pieces = report::pieces(&meanings, &range).ok_or(Refusal::of(11))?;
    report::write(&report::merged(pieces), &range, stamp, out).ok_or(Refusal::of(12))
}

/// Refusals 2 and 3.
fn check_buffer(cal: &[u8], work: &[u8]) -> Result<(), Refusal> {
    if cal.len() > LONGEST_CALENDAR {
        Err(Refusal::of(2))
    } else if work.len() < cal.len() {
        Err(Refusal::of(3))
    } else {
        Ok(())
    }
}

/// Unfolds the calendar into the work buffer and lends the unfolded part.
fn unfolded<'a>(cal: &[u8], work: &'a mut [u8]) -> &'a [u8] {
    let length = lines::unfold(cal, work);
    &work[..length]
}

/// Refusals 6 and 7: the lines and the components that they make.
fn structure(text: &[u8]) -> Result<(Vec<Line>, Vec<Component>), Refusal> {
    let lines = lines::cut(text).map_err(|line| Refusal::at(6, line))?;
    let components = nesting::read(text, &lines).map_err(|line| Refusal::at(7, line))?;
    Ok((lines, components))
}

#[cfg(test)]
mod tests;
