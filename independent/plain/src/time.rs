//! Times: Gregorian days, the limits, reading DATE and DATE-TIME, writing a UTC time.
//! Seconds are counted from 19700101T000000Z and held as `i64`, so that sums never overflow.

use std::ops::Range;

/// 20991231T235959Z, the last second.
pub const LAST_SECOND: i64 = 4_102_444_799;
/// Seconds of a day.
pub const DAY: i64 = 86_400;
/// The largest zone offset, either way.
const LARGEST_OFFSET: i64 = 50_400;

/// How a time is given.
#[derive(Clone, Copy, Debug, PartialEq, Eq)]
pub enum Kind {
    /// A DATE-TIME with Z.
    Utc,
    /// A DATE-TIME without Z.
    Floating,
    /// A DATE, its midnight.
    Date,
}

/// A time that was read: its UTC second, within the limits, and how it was given.
#[derive(Clone, Copy, Debug, PartialEq, Eq)]
pub struct Time {
    /// The UTC second.
    pub second: i64,
    /// How it was given.
    pub kind: Kind,
}

/// What values are read with: the zone offset.
pub struct Context {
    offset: i64,
}

impl Context {
    /// The context of an offset within its limits.
    pub fn new(offset: i64) -> Option<Self> {
        (-LARGEST_OFFSET..=LARGEST_OFFSET).contains(&offset).then_some(Context { offset })
    }

    /// Reads a DATE, `YYYYMMDD`.
    pub fn date(&self, value: &[u8]) -> Option<Time> {
        let second = midnight(value)? - self.offset;
        within_limits(Time { second, kind: Kind::Date })
    }

    /// Reads a DATE-TIME, `YYYYMMDDTHHMMSS` and perhaps Z.
    pub fn date_time(&self, value: &[u8]) -> Option<Time> {
        let (local, kind) = match value {
            [local @ .., b'Z' | b'z'] => (local, Kind::Utc),
            local => (local, Kind::Floating),
        };
        let [date @ .., b'T' | b't', h1, h2, m1, m2, s1, s2] = local else {
            return None;
        };
        let hour = number(&[*h1, *h2]).filter(|&h| h <= 23)?;
        let minute = number(&[*m1, *m2]).filter(|&m| m <= 59)?;
        let second = number(&[*s1, *s2]).filter(|&s| s <= 60)?.min(59);
        let wall = midnight(date)? + hour * 3_600 + minute * 60 + second;
        let second = if kind == Kind::Utc { wall } else { wall - self.offset };
        within_limits(Time { second, kind })
    }

    /// Reads a DATE-TIME that must be UTC.
    pub fn utc(&self, value: &[u8]) -> Option<i64> {
        self.date_time(value).filter(|t| t.kind == Kind::Utc).map(|t| t.second)
    }
}

/// A range with start before end, both within the limits.
pub fn range(start: u64, end: u64) -> Option<Range<i64>> {
    let (start, end) = (i64::try_from(start).ok()?, i64::try_from(end).ok()?);
    (start < end && end <= LAST_SECOND).then_some(start..end)
}

/// Reads a number of decimal digits; the caller sees to their count.
pub fn number(digits: &[u8]) -> Option<i64> {
    digits.iter().try_fold(0, |sum, b| b.is_ascii_digit().then(|| sum * 10 + i64::from(b - b'0')))
}

/// Writes a second within the limits as `YYYYMMDDTHHMMSSZ`.
pub fn written(second: i64) -> [u8; 16] {
    let (year, month, day) = civil(second.div_euclid(DAY));
    let clock = second.rem_euclid(DAY);
    let mut bytes = *b"00000000T000000Z";
    put(&mut bytes[0..4], year);
    put(&mut bytes[4..6], month);
    put(&mut bytes[6..8], day);
    put(&mut bytes[9..11], clock / 3_600);
    put(&mut bytes[11..13], clock / 60 % 60);
    put(&mut bytes[13..15], clock % 60);
    bytes
}

fn put(places: &mut [u8], mut number: i64) {
    for place in places.iter_mut().rev() {
        *place = b'0' + (number % 10) as u8;
        number /= 10;
    }
}

fn within_limits(time: Time) -> Option<Time> {
    (0..=LAST_SECOND).contains(&time.second).then_some(time)
}

/// The second at which the day `YYYYMMDD` starts, no offset taken.
fn midnight(value: &[u8]) -> Option<i64> {
    if value.len() != 8 {
        return None;
    }
    let year = number(&value[..4])?;
    let month = number(&value[4..6]).filter(|m| (1..=12).contains(m))?;
    let day = number(&value[6..])?;
    (1..=days_of_month(year, month)).contains(&day).then(|| days(year, month, day) * DAY)
}

fn days_of_month(year: i64, month: i64) -> i64 {
    match month {
        2 if year % 4 == 0 && (year % 100 != 0 || year % 400 == 0) => 29,
        2 => 28,
        4 | 6 | 9 | 11 => 30,
        _ => 31,
    }
}

/// Days from 19700101 to a Gregorian day. Years are counted from March, so that the leap
/// day comes last, and in eras of 400 years, which are all of 146,097 days.
fn days(year: i64, month: i64, day: i64) -> i64 {
    let year = if month <= 2 { year - 1 } else { year };
    let era = year.div_euclid(400);
    let year_of_era = year.rem_euclid(400);
    let day_of_year = (153 * ((month + 9) % 12) + 2) / 5 + day - 1;
    era * 146_097 + year_of_era * 365 + year_of_era / 4 - year_of_era / 100 + day_of_year - 719_468
}

/// The Gregorian day, as year, month, day, that many days from 19700101.
fn civil(days: i64) -> (i64, i64, i64) {
    let shifted = days + 719_468;
    let era = shifted.div_euclid(146_097);
    let day_of_era = shifted.rem_euclid(146_097);
    let year_of_era = (day_of_era - day_of_era / 1_460 + day_of_era / 36_524 - day_of_era / 146_096) / 365;
    let day_of_year = day_of_era - (365 * year_of_era + year_of_era / 4 - year_of_era / 100);
    let month_from_march = (5 * day_of_year + 2) / 153;
    let day = day_of_year - (153 * month_from_march + 2) / 5 + 1;
    let month = (month_from_march + 2) % 12 + 1;
    (era * 400 + year_of_era + i64::from(month <= 2), month, day)
}
