//! A case of either question: its replay form, and the plain implementation's answer to it.
//! Both buffers are filled with 0xA5 before a call.

use std::time::{Duration, Instant};

use plain::Answer;

/// What the buffers hold before a call.
pub const FILL: u8 = 0xA5;

/// A question with all that it is asked with. A report has no query.
#[derive(Clone, Debug)]
pub struct Case {
    pub calendar: Vec<u8>,
    pub query: Option<Vec<u8>>,
    pub start: u64,
    pub end: u64,
    pub offset: i64,
    pub stamp: u64,
    pub work: usize,
    pub out: usize,
}

/// An answer with both buffers as the call left them.
#[derive(PartialEq, Eq)]
pub struct Outcome {
    pub answer: Answer,
    pub work: Vec<u8>,
    pub out: Vec<u8>,
}

impl Case {
    /// Asks the plain implementation.
    pub fn plain(&self) -> Outcome {
        self.timed().0
    }

    /// How long the plain implementation's call takes.
    pub fn plain_time(&self) -> Duration {
        self.timed().1
    }

    fn timed(&self) -> (Outcome, Duration) {
        let (mut work, mut out) = (vec![FILL; self.work], vec![FILL; self.out]);
        let begun = Instant::now();
        let answer = match &self.query {
            Some(query) => plain::matches(&self.calendar, query, self.offset, &mut work),
            None => plain::report(&self.calendar, self.start, self.end, self.offset, self.stamp, &mut work, &mut out),
        };
        let spent = begun.elapsed();
        (Outcome { answer, work, out }, spent)
    }

    /// The replay form, a line without its end.
    pub fn written(&self) -> String {
        let (kind, query) = match &self.query {
            Some(query) => ("match", hex(query)),
            None => ("report", "-".to_string()),
        };
        let Case { start, end, offset, stamp, work, out, .. } = self;
        format!("{kind}\t{}\t{query}\t{start}\t{end}\t{offset}\t{stamp}\t{work}\t{out}", hex(&self.calendar))
    }

    /// Reads the replay form; the error says what is wrong with it.
    pub fn read(line: &str) -> Result<Self, String> {
        let columns: Vec<&str> = line.split('\t').collect();
        let [kind, calendar, query, start, end, offset, stamp, work, out] = columns[..] else {
            return Err(format!("{} columns where 9 are wanted", columns.len()));
        };
        let query = match kind {
            "match" => Some(unhex(query)?),
            "report" => None,
            _ => return Err(format!("the question is `{kind}`")),
        };
        Ok(Case {
            calendar: unhex(calendar)?,
            query,
            start: number(start)? as u64,
            end: number(end)? as u64,
            offset: number(offset)? as i64,
            stamp: number(stamp)? as u64,
            work: number(work)? as usize,
            out: number(out)? as usize,
        })
    }
}

impl Outcome {
    /// The replay form of the answer, a line without its end.
    pub fn written(&self) -> String {
        let (kind, number, line) = match self.answer {
            Answer::Verdict(yes) => ("verdict", usize::from(yes), 0),
            Answer::Length(length) => ("length", length, 0),
            Answer::Refused(refusal) => ("refusal", refusal.number.into(), refusal.line),
        };
        format!("{kind}\t{number}\t{line}\t{}\t{}", adler32(&self.work), adler32(&self.out))
    }
}

/// Any 64-bit number, signed or not.
fn number(column: &str) -> Result<i128, String> {
    let read: i128 = column.parse().map_err(|_| format!("`{column}` is no number"))?;
    if (i128::from(i64::MIN)..=i128::from(u64::MAX)).contains(&read) {
        Ok(read)
    } else {
        Err(format!("`{column}` has more than 64 bits"))
    }
}

fn hex(bytes: &[u8]) -> String {
    const DIGITS: &[u8; 16] = b"0123456789abcdef";
    if bytes.is_empty() {
        return ".".to_string();
    }
    let digit = |nibble: u8| char::from(DIGITS[usize::from(nibble)]);
    bytes.iter().flat_map(|b| [digit(b >> 4), digit(b & 15)]).collect()
}

fn unhex(column: &str) -> Result<Vec<u8>, String> {
    if column == "." || column == "-" {
        return Ok(Vec::new());
    }
    let digit = |b: u8| char::from(b).to_digit(16).map(|d| d as u8);
    let pairs = column.as_bytes().chunks_exact(2);
    if !pairs.remainder().is_empty() || column.is_empty() {
        return Err("an odd number of hex digits".to_string());
    }
    let bytes: Option<Vec<u8>> = pairs.map(|pair| Some(digit(pair[0])? << 4 | digit(pair[1])?)).collect();
    bytes.ok_or_else(|| "bytes that are no hex digits".to_string())
}

fn adler32(bytes: &[u8]) -> u32 {
    let (mut a, mut b) = (1u32, 0u32);
    for chunk in bytes.chunks(5_552) {
        for &byte in chunk {
            a += u32::from(byte);
            b += a;
        }
        a %= 65_521;
        b %= 65_521;
    }
    b << 16 | a
}
