//! The other implementation, by its static library's two exported functions.
//! Only built with the feature `proved`; see build.rs for where the library is looked for.

use std::time::{Duration, Instant};

use plain::Answer;

use crate::case::{Case, Outcome, FILL};

extern "C" {
    fn lokuwaine_match(
        cal: *const u8,
        cal_len: usize,
        query: *const u8,
        query_len: usize,
        offset: i64,
        work: *mut u8,
        work_len: usize,
        value: *mut u64,
        line: *mut u64,
    ) -> u64;
    fn lokuwaine_report(
        cal: *const u8,
        cal_len: usize,
        start: u64,
        end: u64,
        offset: i64,
        stamp: u64,
        work: *mut u8,
        work_len: usize,
        out: *mut u8,
        out_len: usize,
        value: *mut u64,
        line: *mut u64,
    ) -> u64;
}

/// What the library gave, as it gave it, with both buffers.
pub struct Given {
    kind: u64,
    value: u64,
    line: u64,
    work: Vec<u8>,
    out: Vec<u8>,
    /// How long the call took.
    pub spent: Duration,
}

/// Asks the library.
pub fn ask(case: &Case) -> Given {
    let (mut work, mut out) = (vec![FILL; case.work], vec![FILL; case.out]);
    let (mut value, mut line) = (u64::MAX, u64::MAX);
    let cal = &case.calendar;
    let begun = Instant::now();
    // SAFETY: every pointer is of a live slice or variable and comes with its true length;
    // the buffers lent for writing are lent to nobody else.
    let kind = unsafe {
        match &case.query {
            Some(query) => lokuwaine_match(
                cal.as_ptr(),
                cal.len(),
                query.as_ptr(),
                query.len(),
                case.offset,
                work.as_mut_ptr(),
                work.len(),
                &mut value,
                &mut line,
            ),
            None => lokuwaine_report(
                cal.as_ptr(),
                cal.len(),
                case.start,
                case.end,
                case.offset,
                case.stamp,
                work.as_mut_ptr(),
                work.len(),
                out.as_mut_ptr(),
                out.len(),
                &mut value,
                &mut line,
            ),
        }
    };
    let spent = begun.elapsed();
    Given { kind, value, line, work, out, spent }
}

impl Given {
    /// Whether kind, value, line and all of both buffers are those of the outcome.
    pub fn agrees_with(&self, outcome: &Outcome) -> bool {
        let answer = match outcome.answer {
            Answer::Verdict(yes) => (0, u64::from(yes), 0),
            Answer::Length(length) => (1, length as u64, 0),
            Answer::Refused(refusal) => (2, refusal.number.into(), refusal.line as u64),
        };
        (self.kind, self.value, self.line) == answer && self.work == outcome.work && self.out == outcome.out
    }

    /// What it gave, for a reader.
    pub fn written(&self) -> String {
        let Given { kind, value, line, work, out, .. } = self;
        let other = |bytes: &[u8]| bytes.iter().filter(|&&b| b != FILL).count();
        format!(
            "kind {kind} value {value} line {line} (bytes other than the fill: work {}, output {})",
            other(work),
            other(out)
        )
    }
}
