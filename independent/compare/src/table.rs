//! The table of counts: how many answers of each kind and number came out, which lines
//! refusals told, which rules were broken, and how often an exception or an override decided.
//! Lengths are counted in bands, and how many different ones there are.

use std::collections::BTreeSet;
use std::fmt;

use plain::{Answer, Breach, Refusal};

use crate::case::{Case, Outcome};

/// The rules of a component, with names.
const BREACHES: [(&str, Breach); 13] = [
    ("of document 01", Breach::Basic),
    ("two UIDs", Breach::TwoUids),
    ("EXDATE of another kind", Breach::ExceptionKind),
    ("two masters of one UID", Breach::SharedUid),
    ("two RECURRENCE-IDs", Breach::TwoRecurrenceIds),
    ("override without UID", Breach::NoUid),
    ("override with RRULE", Breach::BesideRule),
    ("override with EXDATE", Breach::BesideExceptions),
    ("two overrides of one second", Breach::SameSecond),
    ("override without master", Breach::NoMaster),
    ("RECURRENCE-ID of another kind", Breach::OverrideKind),
    ("RECURRENCE-ID of no instance", Breach::NoInstance),
    ("RECURRENCE-ID of an excluded one", Breach::Excluded),
];

/// An output that every report has room in.
const ROOM: usize = 40_000;

/// Counts of answers.
#[derive(Default)]
pub struct Table {
    matches: u64,
    reports: u64,
    verdicts: [u64; 2],
    empty_reports: u64,
    short_reports: u64,
    long_reports: u64,
    lengths: BTreeSet<usize>,
    match_refusals: [u64; 13],
    report_refusals: [u64; 13],
    /// Refusals by number that told no line, the first, a later one, the one behind the last.
    told: [[u64; 4]; 13],
    /// Refusals 10 by the rule that is broken, for a match and for a report.
    broken: [[u64; 2]; BREACHES.len()],
    exceptions: Removals,
    overrides: Removals,
    long_calendars: u64,
}

/// Answered cases with lines that take instances away, for a match and for a report.
#[derive(Default)]
struct Removals {
    /// Those with such a line in some component.
    present: [u64; 2],
    /// Those of them that would be answered otherwise without such lines.
    decided: [u64; 2],
}

impl Removals {
    /// Counts an answered case. Without means that the lines have other names, in the query too;
    /// a report is compared as if it had room.
    fn add(&mut self, case: &Case, outcome: &Outcome, names: &[&[u8]]) {
        let Some(calendar) = renamed(&outcome.work, names) else {
            return;
        };
        let question = usize::from(case.query.is_none());
        self.present[question] += 1;
        let mut roomy = Case { out: ROOM, ..case.clone() };
        let with = roomy.plain();
        roomy.calendar = calendar;
        roomy.query.iter_mut().for_each(|query| names.iter().for_each(|name| rename_in(query, name)));
        let without = roomy.plain();
        let other = with.answer != without.answer || with.out != without.out;
        self.decided[question] += u64::from(other && !matches!(without.answer, Answer::Refused(_)));
    }
}

/// The text with another name, as long, on every line that has one of the names, or nothing if
/// none has the first of them.
fn renamed(text: &[u8], names: &[&[u8]]) -> Option<Vec<u8>> {
    let mut renamed = text.to_vec();
    let mut found = false;
    let mut start = 0;
    for end in (0..text.len()).filter(|&end| text[end..].starts_with(b"\r\n")) {
        let line = &text[start..end];
        let name = &line[..line.iter().position(|b| b":;".contains(b)).unwrap_or(0)];
        if names.iter().any(|other| other.eq_ignore_ascii_case(name)) {
            found |= names[0].eq_ignore_ascii_case(name);
            renamed[start..start + 2].copy_from_slice(b"X-");
        }
        start = end + 2;
    }
    renamed.truncate(start);
    found.then_some(renamed)
}

/// Gives the name, wherever it stands, the same other name.
fn rename_in(bytes: &mut [u8], name: &[u8]) {
    for start in 0..(bytes.len() + 1).saturating_sub(name.len()) {
        if bytes[start..start + name.len()].eq_ignore_ascii_case(name) {
            bytes[start..start + 2].copy_from_slice(b"X-");
        }
    }
}

impl Table {
    /// Counts one answer.
    pub fn add(&mut self, case: &Case, outcome: &Outcome) {
        let of_match = case.query.is_some();
        *(if of_match { &mut self.matches } else { &mut self.reports }) += 1;
        self.long_calendars += u64::from(case.calendar.len() > 20_000);
        match outcome.answer {
            Answer::Verdict(yes) => self.verdicts[usize::from(yes)] += 1,
            Answer::Length(length) => {
                self.lengths.insert(length);
                match length {
                    0..=190 => self.empty_reports += 1,
                    191..=1_000 => self.short_reports += 1,
                    _ => self.long_reports += 1,
                }
            }
            Answer::Refused(refusal) => {
                let number = usize::from(refusal.number);
                let refusals = if of_match { &mut self.match_refusals } else { &mut self.report_refusals };
                refusals[number] += 1;
                self.told[number][place(refusal, &outcome.work)] += 1;
                for (counts, (_, breach)) in self.broken.iter_mut().zip(BREACHES) {
                    counts[usize::from(!of_match)] += u64::from(refusal.breach == Some(breach));
                }
                return;
            }
        }
        self.exceptions.add(case, outcome, &[b"EXDATE"]);
        self.overrides.add(case, outcome, &[b"RECURRENCE-ID", b"UID"]);
    }
}

/// In which column of `told` a refusal is counted. Only wrong nesting tells a line behind the
/// last. All lines are then well formed, so that each CR LF in the work buffer ends one.
fn place(refusal: Refusal, work: &[u8]) -> usize {
    let lines = || work.windows(2).filter(|two| two == b"\r\n").count();
    match refusal.line {
        0 => 0,
        line if refusal.number == 7 && line > lines() => 3,
        1 => 1,
        _ => 2,
    }
}

impl fmt::Display for Table {
    fn fmt(&self, f: &mut fmt::Formatter<'_>) -> fmt::Result {
        writeln!(
            f,
            "matches {} reports {} (calendars over 20,000 bytes: {})",
            self.matches, self.reports, self.long_calendars
        )?;
        writeln!(f, "verdict no {} yes {}", self.verdicts[0], self.verdicts[1])?;
        writeln!(
            f,
            "length 190: {}, to 1,000: {}, above: {}; different lengths {}",
            self.empty_reports,
            self.short_reports,
            self.long_reports,
            self.lengths.len()
        )?;
        writeln!(f, "refusal    match   report  no line  line 1    later  past the end")?;
        for number in 1..=12 {
            let [none, first, later, behind] = self.told[number];
            let (of_match, of_report) = (self.match_refusals[number], self.report_refusals[number]);
            writeln!(f, "{number:7} {of_match:8} {of_report:8} {none:8} {first:7} {later:8} {behind:13}")?;
        }
        writeln!(f, "rule that refusal 10 is for          match   report")?;
        for ((name, _), [of_match, of_report]) in BREACHES.iter().zip(self.broken) {
            writeln!(f, "  {name:32} {of_match:7} {of_report:8}")?;
        }
        writeln!(f, "answered                             match   report")?;
        for (name, Removals { present, decided }) in [("EXDATE", &self.exceptions), ("RECURRENCE-ID", &self.overrides)]
        {
            writeln!(f, "  with {name:27} {:7} {:8}", present[0], present[1])?;
            writeln!(f, "    otherwise without it             {:6} {:8}", decided[0], decided[1])?;
        }
        Ok(())
    }
}
