//! The proved calendar engine, for Rust.
//!
//! Two calls, and any bytes at all are answered: nothing has to be checked first. Neither call reads a clock, allocates, or keeps
//! a reference.

mod raw {
    extern "C" {
        pub fn lokuwaine_match(
            cal: *const u8,
            cal_len: usize,
            query: *const u8,
            query_len: usize,
            offset: i64,
            work: *mut u8,
            work_len: usize,
            value: *mut u64,
            line: *mut u64,
        ) -> u64;

        pub fn lokuwaine_report(
            cal: *const u8,
            cal_len: usize,
            start: u64,
            end: u64,
            offset: i64,
            stamp: u64,
            work: *mut u8,
            work_len: usize,
            out: *mut u8,
            out_len: usize,
            value: *mut u64,
            line: *mut u64,
        ) -> u64;
    }
}

/// A work buffer of this many bytes is enough for every calendar that is not refused for its length.
pub const WORK: usize = 65_536;

/// An output of this many bytes is enough for every report.
pub const OUTPUT: usize = 35_006;

/// What a call answers.
#[derive(Clone, Copy, Debug, PartialEq, Eq)]
pub enum Answer {
    /// Does the calendar match?
    Verdict(bool),
    /// The report's length: that many bytes stand first in the output.
    Length(usize),
    /// A refusal.
    Refused {
        /// Its number, 1 to 12.
        number: u8,
        /// The line at fault, counted from 1 after unfolding; only 6 to 10 have one, the others 0. Of 10 it is the component's
        /// BEGIN line; of 7, where the file stops too early, one more than there are lines.
        line: usize,
    },
}

fn answer(kind: u64, value: u64, line: u64) -> Answer {
    match kind {
        0 => Answer::Verdict(value == 1),
        1 => Answer::Length(value as usize),
        _ => Answer::Refused { number: value as u8, line: line as usize },
    }
}

/// Does the calendar match the query? `offset` is how many seconds floating times are ahead of UTC. `work` is written over; as long
/// as the calendar is long enough.
pub fn matches(cal: &[u8], query: &[u8], offset: i64, work: &mut [u8]) -> Answer {
    let (mut value, mut line) = (0, 0);
    // SAFETY: each pointer goes with its length, the written ones are exclusive borrows, and the callee is proved to stay inside.
    let kind = unsafe {
        raw::lokuwaine_match(
            cal.as_ptr(),
            cal.len(),
            query.as_ptr(),
            query.len(),
            offset,
            work.as_mut_ptr(),
            work.len(),
            &mut value,
            &mut line,
        )
    };
    answer(kind, value, line)
}

/// Which seconds from `start` up to, but not including, `end` are taken, by busy type? The report goes to `out`.
pub fn report(
    cal: &[u8],
    start: u64,
    end: u64,
    offset: i64,
    stamp: u64,
    work: &mut [u8],
    out: &mut [u8],
) -> Answer {
    let (mut value, mut line) = (0, 0);
    // SAFETY: each pointer goes with its length, the written ones are exclusive borrows, and the callee is proved to stay inside.
    let kind = unsafe {
        raw::lokuwaine_report(
            cal.as_ptr(),
            cal.len(),
            start,
            end,
            offset,
            stamp,
            work.as_mut_ptr(),
            work.len(),
            out.as_mut_ptr(),
            out.len(),
            &mut value,
            &mut line,
        )
    };
    answer(kind, value, line)
}
