//! Values of lines: times by their parameters, lists of times, DURATION, RRULE, FREEBUSY periods.
//! A reader gives the value, or a fault: 8 for an unsupported thing, 9 for a bad value.

use crate::lines::{is_name, Line};
use crate::time::{number, Context, Kind, Time, DAY};
use crate::Refusal;

/// The longest duration in seconds.
const LONGEST_DURATION: i64 = 315_360_000;

/// What is wrong with a line. The order is that of going first on one line.
#[derive(Clone, Copy, Debug, PartialEq, Eq)]
pub enum Fault {
    /// Refusal 8.
    Unsupported,
    /// Refusal 9.
    BadValue,
}

impl Fault {
    /// The refusal for that line.
    pub fn on(self, line: &Line) -> Refusal {
        let number = match self {
            Fault::Unsupported => 8,
            Fault::BadValue => 9,
        };
        Refusal::at(number, line.number())
    }
}

/// A DURATION's length in seconds and whether it has a time part.
#[derive(Clone, Copy, Debug, PartialEq, Eq)]
pub struct Duration {
    /// The length.
    pub seconds: i64,
    /// Whether a time part is written, be it zero.
    pub timed: bool,
}

/// What ends a repetition.
#[derive(Clone, Copy, Debug, PartialEq, Eq)]
pub enum Limit {
    /// So many instances.
    Count(i64),
    /// No start after this.
    Until(Time),
    /// None.
    Endless,
}

/// An RRULE: the seconds from one start to the next, and the limit.
#[derive(Clone, Copy, Debug, PartialEq, Eq)]
pub struct Rule {
    /// Seconds from one start to the next.
    pub step: i64,
    /// What ends it.
    pub limit: Limit,
}

/// The types of busy time in the report's order.
#[derive(Clone, Copy, Debug, PartialEq, Eq, PartialOrd, Ord)]
pub enum BusyType {
    /// BUSY
    Busy,
    /// BUSY-TENTATIVE
    Tentative,
    /// BUSY-UNAVAILABLE
    Unavailable,
}

/// Reads DTSTART or DTEND of an event.
pub fn event_time(text: &[u8], line: &Line, context: &Context) -> Result<Time, Fault> {
    time(line.value(text), time_form(text, line)?, context)
}

/// Reads RECURRENCE-ID, which is like DTSTART but for RANGE.
pub fn recurrence(text: &[u8], line: &Line, context: &Context) -> Result<Time, Fault> {
    if has_parameter(text, line, b"RANGE") {
        return Err(Fault::Unsupported);
    }
    event_time(text, line, context)
}

/// Reads EXDATE, a list of values like DTSTART's, and hands each to `take`.
pub fn exceptions(text: &[u8], line: &Line, context: &Context, mut take: impl FnMut(Time)) -> Result<(), Fault> {
    let form = time_form(text, line)?;
    line.value(text).split(|&b| b == b',').try_for_each(|item| time(item, form, context).map(&mut take))
}

/// Reads a value of the form that the parameters ask for.
fn time(value: &[u8], form: Kind, context: &Context) -> Result<Time, Fault> {
    let read = match form {
        Kind::Date => context.date(value),
        _ => context.date_time(value),
    };
    read.ok_or(Fault::BadValue)
}

/// Reads DTSTART or DTEND of a free-busy block, which are UTC.
pub fn block_time(text: &[u8], line: &Line, context: &Context) -> Result<i64, Fault> {
    let time = event_time(text, line, context)?;
    if time.kind == Kind::Utc {
        Ok(time.second)
    } else {
        Err(Fault::BadValue)
    }
}

/// The form that the parameters ask for: `Date`, or else a DATE-TIME of either kind.
fn time_form(text: &[u8], line: &Line) -> Result<Kind, Fault> {
    if has_parameter(text, line, b"TZID") {
        return Err(Fault::Unsupported);
    }
    match single_parameter(text, line, b"VALUE")? {
        None => Ok(Kind::Floating),
        Some(word) if word.eq_ignore_ascii_case(b"DATE-TIME") => Ok(Kind::Floating),
        Some(word) if word.eq_ignore_ascii_case(b"DATE") => Ok(Kind::Date),
        Some(_) => Err(Fault::BadValue),
    }
}

/// Whether the line has a parameter of that name.
fn has_parameter(text: &[u8], line: &Line, wanted: &[u8]) -> bool {
    line.parameters(text).any(|(name, _)| name.eq_ignore_ascii_case(wanted))
}

/// The one value of a parameter that is read; twice or as a list is bad.
fn single_parameter<'a>(text: &'a [u8], line: &Line, wanted: &[u8]) -> Result<Option<&'a [u8]>, Fault> {
    let mut values =
        line.parameters(text).filter(|(name, _)| name.eq_ignore_ascii_case(wanted)).flat_map(|(_, values)| values);
    let first = values.next();
    match values.next() {
        None => Ok(first),
        Some(_) => Err(Fault::BadValue),
    }
}

/// Reads a DURATION.
pub fn duration(value: &[u8]) -> Option<Duration> {
    let unsigned = value.strip_prefix(b"+").unwrap_or(value);
    let [b'P' | b'p', body @ ..] = unsigned else {
        return None;
    };
    let (seconds, timed) = match body {
        [b'T' | b't', clock @ ..] => (clock_seconds(clock)?, true),
        _ => match amount(body)? {
            (weeks, b'W', []) => (weeks * 7 * DAY, false),
            (days, b'D', []) => (days * DAY, false),
            (days, b'D', [b'T' | b't', clock @ ..]) => (days * DAY + clock_seconds(clock)?, true),
            _ => return None,
        },
    };
    (seconds <= LONGEST_DURATION).then_some(Duration { seconds, timed })
}

/// Reads a time behind its T: hours, minutes, seconds, from any of them on without a gap.
fn clock_seconds(clock: &[u8]) -> Option<i64> {
    let mut total = 0;
    let mut rest = clock;
    let mut before = None;
    loop {
        let (count, unit, behind) = amount(rest)?;
        total += count
            * match (before, unit) {
                (None, b'H') => 3_600,
                (None | Some(b'H'), b'M') => 60,
                (None | Some(b'M'), b'S') => 1,
                _ => return None,
            };
        if behind.is_empty() {
            return Some(total);
        }
        before = Some(unit);
        rest = behind;
    }
}

/// Reads a number of 1 to 6 digits and its unit, a capital, and gives what follows.
fn amount(bytes: &[u8]) -> Option<(i64, u8, &[u8])> {
    let digits = bytes.iter().position(|b| !b.is_ascii_digit())?;
    if !(1..=6).contains(&digits) {
        return None;
    }
    Some((number(&bytes[..digits])?, bytes[digits].to_ascii_uppercase(), &bytes[digits + 1..]))
}

/// Reads an RRULE. An unsupported part anywhere goes before every other fault.
pub fn rule(value: &[u8], context: &Context) -> Result<Rule, Fault> {
    let mut unsupported = false;
    let mut bad = false;
    let (mut frequency, mut interval, mut count, mut until) = (None, None, None, None);
    for part in value.split(|&b| b == b';') {
        let equals = part.iter().position(|&b| b == b'=');
        let Some((name, setting)) = equals.map(|e| (&part[..e], &part[e + 1..])).filter(|(n, _)| is_name(n)) else {
            bad = true;
            continue;
        };
        if name.eq_ignore_ascii_case(b"FREQ") {
            match step(setting) {
                Some(step) => bad |= frequency.replace(step).is_some(),
                None => unsupported = true,
            }
        } else if name.eq_ignore_ascii_case(b"INTERVAL") {
            bad |= !put_once(&mut interval, small_number(setting, 999));
        } else if name.eq_ignore_ascii_case(b"COUNT") {
            bad |= !put_once(&mut count, small_number(setting, 9_999));
        } else if name.eq_ignore_ascii_case(b"UNTIL") {
            let read = if setting.len() == 8 { context.date(setting) } else { context.date_time(setting) };
            bad |= !put_once(&mut until, read);
        } else {
            unsupported = true;
        }
    }
    if unsupported {
        return Err(Fault::Unsupported);
    }
    let limit = match (count, until) {
        (None, None) => Limit::Endless,
        (Some(count), None) => Limit::Count(count),
        (None, Some(until)) => Limit::Until(until),
        (Some(_), Some(_)) => return Err(Fault::BadValue),
    };
    match frequency {
        Some(step) if !bad => Ok(Rule { step: step * interval.unwrap_or(1), limit }),
        _ => Err(Fault::BadValue),
    }
}

/// Puts a value that was read into an empty place; says whether there was one and the other.
fn put_once<T>(place: &mut Option<T>, read: Option<T>) -> bool {
    place.is_none() && {
        *place = read;
        place.is_some()
    }
}

/// The seconds of a FREQ that is supported.
fn step(frequency: &[u8]) -> Option<i64> {
    if frequency.eq_ignore_ascii_case(b"DAILY") {
        Some(DAY)
    } else if frequency.eq_ignore_ascii_case(b"WEEKLY") {
        Some(7 * DAY)
    } else {
        None
    }
}

/// Reads a number of 1 to 4 digits from 1 to `most`.
fn small_number(digits: &[u8], most: i64) -> Option<i64> {
    if !(1..=4).contains(&digits.len()) {
        return None;
    }
    number(digits).filter(|n| (1..=most).contains(n))
}

/// Reads a FREEBUSY line and hands each of its periods, start and end, to `take`.
/// The answer is their type, nothing for FREE.
pub fn free_busy(
    text: &[u8],
    line: &Line,
    context: &Context,
    mut take: impl FnMut(i64, i64),
) -> Result<Option<BusyType>, Fault> {
    let word = single_parameter(text, line, b"FBTYPE")?;
    for item in line.value(text).split(|&b| b == b',') {
        let (start, end) = period(item, context).ok_or(Fault::BadValue)?;
        take(start, end);
    }
    Ok(word.map_or(Some(BusyType::Busy), busy_type))
}

fn busy_type(word: &[u8]) -> Option<BusyType> {
    if word.eq_ignore_ascii_case(b"FREE") {
        None
    } else if word.eq_ignore_ascii_case(b"BUSY-TENTATIVE") {
        Some(BusyType::Tentative)
    } else if word.eq_ignore_ascii_case(b"BUSY-UNAVAILABLE") {
        Some(BusyType::Unavailable)
    } else {
        Some(BusyType::Busy)
    }
}

/// Reads `start/end` or `start/duration`, the end after the start.
fn period(item: &[u8], context: &Context) -> Option<(i64, i64)> {
    let slash = item.iter().position(|&b| b == b'/')?;
    let start = context.utc(&item[..slash])?;
    let behind = &item[slash + 1..];
    let end = match behind.first()? {
        b'0'..=b'9' => context.utc(behind)?,
        _ => start + duration(behind)?.seconds,
    };
    (start < end).then_some((start, end))
}
