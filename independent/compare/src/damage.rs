//! Damage: to the list of lines, to bytes, and folds put anywhere.
//! Folds are no damage: a folded calendar means the same.

use crate::random::Random;

/// Pieces for a place directly in the calendar, their lines cut at `|`, by the refusal that
/// each makes: 6 to 10.
const FAULTS: [&[&[u8]]; 5] = [
    &[
        b"X-A:\x7f", b"X-A;B=\"open:1", b"X-A;B=open", b"", b"X-A:a\rb", b"X-A:a\nb", b" X-A:1", b"X A:1",
        b"X-A;B=\"a\"b:1", b"X-A;B=\"\x01\":1", b"X-A:1|X-A;:1", b"END:VCALENDAR|X-A",
    ],
    &[
        b"END:X-OUT", b"BEGIN:X-OPEN", b"BEGIN;A=b:X|END:X", b"BEGIN:X|END;A=b:X", b"BEGIN:VCALENDAR|END:VCALENDAR",
        b"END:VCALENDAR", b"BEGIN:X-A|BEGIN:VEVENT|END:VEVENT|END:X-A", b"BEGIN:X-A|BEGIN:X-B|END:X-A|END:X-B",
        b"BEGIN:|END:",
    ],
    &[
        b"BEGIN:VEVENT|RDATE:x|END:VEVENT",
        b"BEGIN:VEVENT|RRULE:FREQ=YEARLY|DTSTART:x|END:VEVENT",
        b"BEGIN:VEVENT|BEGIN:X-A|RDATE:x|END:X-A|DTSTART;TZID=x:y|END:VEVENT",
        b"BEGIN:VFREEBUSY|DTEND;TZID=:|DTEND;TZID=:|END:VFREEBUSY",
        b"BEGIN:VEVENT|X-A:1|EXDATE;TZID=:|EXDATE:|END:VEVENT",
        b"BEGIN:VEVENT|RECURRENCE-ID;RANGE=:|EXRULE:|END:VEVENT",
        b"BEGIN:VEVENT|EXRULE:x|END:VEVENT",
    ],
    &[
        b"BEGIN:VEVENT|DTSTART:|END:VEVENT",
        b"BEGIN:VEVENT|DURATION:x|RDATE:|END:VEVENT",
        b"BEGIN:VEVENT|DTSTART:20240311T080000Z|BEGIN:X-A|DURATION:x|END:X-A|DURATION:-P1D|END:VEVENT",
        b"BEGIN:VFREEBUSY|FREEBUSY:20240311T080000Z/PT0S|END:VFREEBUSY",
        b"BEGIN:VFREEBUSY|DTSTART:x|FREEBUSY:x|END:VFREEBUSY",
        b"BEGIN:VEVENT|X-A:1|EXDATE:|EXDATE:|END:VEVENT",
        b"BEGIN:VEVENT|EXDATE:20240311T080000Z,|EXRULE:|END:VEVENT",
        b"BEGIN:VEVENT|RECURRENCE-ID:20240311T080000Z,20240312T080000Z|RDATE:|END:VEVENT",
    ],
    &[
        b"BEGIN:VEVENT|END:VEVENT",
        b"BEGIN:VEVENT|BEGIN:X-A|DTSTART:x|END:X-A|END:VEVENT",
        b"BEGIN:VEVENT|DTSTART:20240311T080000Z|DTSTART:20240311T080000Z|END:VEVENT",
        b"BEGIN:VEVENT|X-A:1|DTSTART:20240311T080000Z|DTEND:20240311T080000Z|END:VEVENT",
        b"BEGIN:VFREEBUSY|DTEND:20240311T080000Z|DTSTART:20240311T080000Z|END:VFREEBUSY",
        b"BEGIN:VFREEBUSY|DTEND:20240311T080000Z|DTEND:20240311T080000Z|END:VFREEBUSY",
        b"BEGIN:VEVENT|DTSTART:20240311T080000Z|EXDATE:20240311T080000|END:VEVENT",
        b"BEGIN:VEVENT|DTSTART:20240311T080000Z|UID:u|UID:u|END:VEVENT",
        b"BEGIN:VEVENT|DTSTART:20240311T080000Z|RECURRENCE-ID:20240311T080000Z|UID:lost|END:VEVENT",
        // Each of these offends beside another, or the same once more.
        b"BEGIN:VEVENT|DTSTART:20240311T080000Z|UID:twice|END:VEVENT",
        b"BEGIN:VEVENT|DTSTART:20240311T080000Z|UID:twice|RECURRENCE-ID:20240311T080000Z|END:VEVENT",
        b"BEGIN:VEVENT|DTSTART:20240311T080000Z|UID:twice|RECURRENCE-ID:20240312T080000Z|END:VEVENT",
        b"BEGIN:VEVENT|UID:twice|END:VEVENT",
    ],
];

/// Puts in some faults of one refusal or two, so that it matters which comes first.
pub fn faults(random: &mut Random, lines: &mut Vec<Vec<u8>>) {
    let between = between_components(lines);
    if between.is_empty() {
        return;
    }
    let kinds = [random.below(FAULTS.len()), random.below(FAULTS.len())];
    let mut places: Vec<usize> = (0..2 + random.below(3)).map(|_| between[random.below(between.len())]).collect();
    // From the back, so that the places before it stay.
    places.sort_unstable_by(|a, b| b.cmp(a));
    for at in places {
        let kind = kinds[random.below(kinds.len())];
        let piece = random.pick(FAULTS[kind]);
        lines.splice(at..at, piece.split(|&b| b == b'|').map(<[u8]>::to_vec));
    }
}

/// The lines, counted from 0, before which something can be put directly in the calendar.
fn between_components(lines: &[Vec<u8>]) -> Vec<usize> {
    let starts_with = |line: &[u8], word: &[u8]| line.get(..word.len()).is_some_and(|l| l.eq_ignore_ascii_case(word));
    let mut depth = 0;
    let mut places = Vec::new();
    for (number, line) in lines.iter().enumerate() {
        if depth == 1 {
            places.push(number);
        }
        depth += i32::from(starts_with(line, b"BEGIN:")) - i32::from(starts_with(line, b"END:"));
    }
    places
}

/// Harms the list of lines once.
pub fn lines(random: &mut Random, lines: &mut Vec<Vec<u8>>) {
    if lines.is_empty() {
        return;
    }
    let (at, other) = (random.below(lines.len()), random.below(lines.len()));
    match random.below(8) {
        0 => {
            lines.remove(at);
        }
        1 => lines.insert(other, lines[at].clone()),
        2 => lines.swap(at, other),
        3 => {
            let keep = random.below(lines[at].len() + 1);
            lines[at].truncate(keep);
        }
        4 => lines.truncate(at),
        5 => lines.insert(at, Vec::new()),
        6 => {
            let next = (at + 1).min(lines.len() - 1);
            lines.swap(at, next);
        }
        _ => {
            let text: &[u8] = random.pick::<[u8]>(&[
                b"BEGIN:VALARM", b"END:VALARM", b"END:VEVENT", b"BEGIN:VEVENT", b"END:VCALENDAR", b"BEGIN:VCALENDAR",
                b"BEGIN;A=b:X", b"END:", b"BEGIN:A B", b"BEGIN", b"A:", b"A:b", b" folded", b"END;A=:VEVENT",
            ]);
            lines.insert(at, text.to_vec());
        }
    }
}

/// Puts the calendar into a wrong frame: two in a row, lines outside, another outermost name.
pub fn frame(random: &mut Random, lines: &mut Vec<Vec<u8>>) {
    match random.below(6) {
        0 => lines.extend(lines.clone()),
        1 => lines.extend([b"BEGIN:VEVENT".to_vec(), b"END:VEVENT".to_vec()]),
        2 => lines.push(b"X-AFTER:1".to_vec()),
        3 => lines.insert(0, b"X-BEFORE:1".to_vec()),
        4 => {
            if let (Some(first), Some(last)) = (lines.first().cloned(), lines.last().cloned()) {
                lines.insert(0, first);
                lines.push(last);
            }
        }
        _ => {
            if let [first, .., last] = &mut lines[..] {
                *first = b"BEGIN:X-CAL".to_vec();
                *last = b"END:X-CAL".to_vec();
            }
        }
    }
}

/// Harms the bytes once.
pub fn bytes(random: &mut Random, bytes: &mut Vec<u8>) {
    const INTERESTING: &[u8] = b"\r\n \t;:,=\"-+/PTZ019aAzZ\x00\x7f\x80\xff\x1f_";
    let any = |random: &mut Random| match random.below(4) {
        0 => random.below(256) as u8,
        _ => INTERESTING[random.below(INTERESTING.len())],
    };
    if bytes.is_empty() {
        bytes.push(any(random));
        return;
    }
    let at = random.below(bytes.len());
    match random.below(10) {
        0..=1 => bytes[at] ^= 1 << random.below(8),
        2..=3 => bytes[at] = any(random),
        4 => {
            let byte = any(random);
            bytes.insert(at, byte);
        }
        5..=6 => {
            bytes.remove(at);
        }
        7 => bytes.insert(at, bytes[at]),
        8 => {
            let other = (at + 1 + random.below(3)).min(bytes.len() - 1);
            bytes.swap(at, other);
        }
        _ => {
            let keep = if random.often(500) { bytes.len() - 1 - random.below(4).min(bytes.len() - 1) } else { at };
            bytes.truncate(keep);
        }
    }
}

/// Joins the lines, CR LF behind each.
pub fn joined(lines: &[Vec<u8>]) -> Vec<u8> {
    let mut bytes = Vec::with_capacity(lines.iter().map(|l| l.len() + 2).sum());
    for line in lines {
        bytes.extend_from_slice(line);
        bytes.extend_from_slice(b"\r\n");
    }
    bytes
}

/// Puts in about `count` folds at any places, the end excepted. Now and then a fold comes
/// between CR and LF, which is as good as any place.
pub fn folded(random: &mut Random, bytes: &[u8], count: usize) -> Vec<u8> {
    let mut places: Vec<usize> = (0..count).map(|_| random.below(bytes.len().max(1))).collect();
    places.sort_unstable();
    let mut result = Vec::with_capacity(bytes.len() + 3 * count);
    let mut from = 0;
    for place in places {
        result.extend_from_slice(&bytes[from..place]);
        result.extend_from_slice(if random.often(800) { b"\r\n " } else { b"\r\n\t" });
        from = place;
    }
    result.extend_from_slice(&bytes[from..]);
    result
}
