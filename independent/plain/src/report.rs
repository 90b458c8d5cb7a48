//! The report: collecting busy pieces, merging them, and writing the bytes.
//! Pieces are counted by arithmetic first, so that a refusal never lists them.

use std::ops::Range;

use crate::events::Meaning;
use crate::time::written;
use crate::values::BusyType;

/// The most busy pieces that are answered.
const MOST_PIECES: usize = 512;

const HEAD: &[u8] =
    b"BEGIN:VCALENDAR\r\nVERSION:2.0\r\nPRODID:-//Cover Desk//Free Busy//EN\r\nBEGIN:VFREEBUSY\r\nDTSTAMP:";
const START: &[u8] = b"\r\nDTSTART:";
const END: &[u8] = b"\r\nDTEND:";
const TAIL: &[u8] = b"END:VFREEBUSY\r\nEND:VCALENDAR\r\n";
const LINE_END: &[u8] = b"\r\n";
/// The bytes of a written time.
const TIME: usize = 16;
/// The bytes of a report without periods.
const EMPTY: usize = HEAD.len() + START.len() + END.len() + LINE_END.len() + TAIL.len() + 3 * TIME;

/// A stretch of seconds of one type; pieces sort by type, then by start.
#[derive(Clone, Copy, Debug, PartialEq, Eq, PartialOrd, Ord)]
pub struct Piece {
    busy: BusyType,
    start: i64,
    end: i64,
}

impl BusyType {
    /// What stands before a period of the type.
    fn head(self) -> &'static [u8] {
        match self {
            BusyType::Busy => b"FREEBUSY;FBTYPE=BUSY:",
            BusyType::Tentative => b"FREEBUSY;FBTYPE=BUSY-TENTATIVE:",
            BusyType::Unavailable => b"FREEBUSY;FBTYPE=BUSY-UNAVAILABLE:",
        }
    }
}

/// The busy pieces, clipped to the range, or nothing if they are too many.
pub fn pieces(meanings: &[Meaning], range: &Range<i64>) -> Option<Vec<Piece>> {
    let mut pieces = Vec::new();
    for meaning in meanings {
        match meaning {
            Meaning::Event(event) => {
                let length = event.length();
                let Some(busy) = event.busy.filter(|_| length > 0) else {
                    continue;
                };
                let instances = event.instances_in(range);
                if instances.count() > MOST_PIECES - pieces.len() {
                    return None;
                }
                pieces.extend(instances.starts().map(|start| clipped(busy, start, start + length, range)));
            }
            Meaning::Block(block) => {
                for period in &block.periods {
                    let Some(busy) = period.busy else {
                        continue;
                    };
                    if period.start < range.end && range.start < period.end {
                        if pieces.len() == MOST_PIECES {
                            return None;
                        }
                        pieces.push(clipped(busy, period.start, period.end, range));
                    }
                }
            }
            Meaning::Other => {}
        }
    }
    Some(pieces)
}

fn clipped(busy: BusyType, start: i64, end: i64, range: &Range<i64>) -> Piece {
    Piece { busy, start: start.max(range.start), end: end.min(range.end) }
}

/// The fewest periods of each type: sorted, those that touch or overlap made one.
pub fn merged(mut pieces: Vec<Piece>) -> Vec<Piece> {
    pieces.sort_unstable();
    pieces.dedup_by(|next, last| {
        let joins = next.busy == last.busy && next.start <= last.end;
        if joins {
            last.end = last.end.max(next.end);
        }
        joins
    });
    pieces
}

/// Writes the report and gives its length, or nothing, and nothing written, if it has no room.
pub fn write(periods: &[Piece], range: &Range<i64>, stamp: i64, out: &mut [u8]) -> Option<usize> {
    let lines: usize = periods.iter().map(|p| p.busy.head().len() + 2 * TIME + 1 + LINE_END.len()).sum();
    let length = EMPTY + lines;
    let mut rest = out.get_mut(..length)?;
    let mut put = |bytes: &[u8]| {
        let (here, behind) = std::mem::take(&mut rest).split_at_mut(bytes.len());
        here.copy_from_slice(bytes);
        rest = behind;
    };
    put(HEAD);
    put(&written(stamp));
    put(START);
    put(&written(range.start));
    put(END);
    put(&written(range.end));
    put(LINE_END);
    for period in periods {
        put(period.busy.head());
        put(&written(period.start));
        put(b"/");
        put(&written(period.end));
        put(LINE_END);
    }
    put(TAIL);
    Some(length)
}
