//! Makes a case from a seed and a number: a calendar of some profile, a question, the
//! buffers. Lengths of output buffers are taken around the true length of the report.

use crate::calendars::{Maker, LAST_SECOND};
use crate::case::Case;
use crate::random::Random;
use crate::{damage, queries};
use plain::Answer;

/// The longest calendar that is answered.
const LONGEST: usize = 65_536;

/// Case `number` of `seed`.
pub fn make(seed: u64, number: u64) -> Case {
    let random = &mut Random::new(seed, number);
    let mut offset = offset(random);
    let mut maker = Maker::new(random, offset);
    profile(&mut maker);
    let Maker { mut lines, marks, spans, instances, focus, .. } = maker;
    let places = queries::Places { marks, spans, instances, focus };

    if random.often(60) {
        damage::faults(random, &mut lines);
    }
    if random.often(70) {
        (0..1 + random.below(2)).for_each(|_| damage::lines(random, &mut lines));
    }
    if random.often(10) {
        damage::frame(random, &mut lines);
    }
    let long = lines.len() > 1_500;
    if random.often(25) {
        odd_line(random, &mut lines);
    }
    if long {
        fill(random, &mut lines);
    }
    let mut calendar = damage::joined(&lines);
    if random.often(300) && calendar.len() + 900 < LONGEST {
        let count = match random.below(4) {
            0..=1 => 1 + random.below(3),
            2 => 1 + random.below(300.min(calendar.len())),
            _ => calendar.len() / 75,
        };
        calendar = damage::folded(random, &calendar, count);
    }
    if random.often(90) {
        (0..1 + random.below(3)).for_each(|_| damage::bytes(random, &mut calendar));
    }
    if random.often(12) {
        calendar = tiny(random);
    }

    if random.often(12) {
        offset = random.number(&[50_401, -50_401, i64::MAX, i64::MIN, 1 << 32, 86_400, -(1 << 40)]);
    }
    let work = work_length(random, calendar.len());
    if random.often(500) {
        let query = queries::make(random, &lines, &places);
        let out = random.below(6);
        Case { calendar, query: Some(query), start: 0, end: 0, offset, stamp: 0, work, out }
    } else {
        let (start, end) = if random.often(15) { queries::edgy_range(random) } else { queries::range(random, &places) };
        let stamp = stamp(random);
        let mut case = Case { calendar, query: None, start, end, offset, stamp, work, out: 0 };
        case.out = output_length(random, &case);
        case
    }
}

fn offset(random: &mut Random) -> i64 {
    match random.below(6) {
        0..=1 => 0,
        2 => random.between(-50_400, 50_400),
        _ => random.number(&[3_600, -3_600, 19_800, -28_800, 1, -1, 50_400, -50_400, 50_399, -43_200]),
    }
}

fn stamp(random: &mut Random) -> u64 {
    let last = LAST_SECOND as u64;
    match random.below(100) {
        0 => [last + 1, u64::MAX, 1 << 32, 1 << 63][random.below(4)],
        1..=3 => [0, last, last - 1, 951_782_400][random.below(4)],
        4..=40 => 1_710_050_400,
        _ => random.below(last as usize) as u64,
    }
}

/// Writes the lines of one calendar.
fn profile(maker: &mut Maker) {
    match maker.random.below(1_000) {
        0..=14 => {
            let total = [254, 255, 256, 256, 257, 257, 258][maker.random.below(7)];
            maker.crowd(total);
        }
        15..=49 => maker.busy(),
        50..=169 => single(maker),
        170..=369 => {
            let count = 1 + maker.random.below(3);
            maker.all_series(count);
        }
        370..=860 => {
            let count = 1 + maker.random.below(4);
            maker.calendar(count);
        }
        861..=985 => {
            let count = 3 + maker.random.below(20);
            maker.calendar(count);
        }
        _ => {
            // So many components are too many, so the lines are filled up elsewhere.
            maker.faults /= 20;
            let count = 60 + maker.random.below(60);
            maker.calendar(count);
            let lines = 1_501 + maker.random.below(1_200);
            while maker.lines.len() < lines {
                let at = 1 + maker.random.below(3);
                let line = format!("X-FILL;N={at}:{}", "abcdefgh ".repeat(maker.random.below(5)));
                maker.lines.insert(1, line.into_bytes());
            }
        }
    }
}

/// An event or a block around one value at its edge.
fn single(maker: &mut Maker) {
    let time = maker.edgy_time();
    let duration = maker.edgy_duration();
    let rule = maker.edgy_rule();
    let date = time.len() == 8 && maker.random.often(800);
    let start = if date { format!("DTSTART;VALUE=DATE:{time}") } else { format!("DTSTART:{time}") };
    let good =
        maker.random.pick(&["DTSTART:20240311T080000Z", "DTSTART:20240311T080000", "DTSTART;VALUE=DATE:20240311"]);
    let form = maker.random.below(15);
    let (name, own): (&str, Vec<String>) = match form {
        0 => ("VEVENT", vec![start]),
        1 => ("VEVENT", vec![good.into(), start.replace("DTSTART", "DTEND")]),
        2 => ("VEVENT", vec![start, "DTEND:20991231T235959Z".into()]),
        3..=4 => ("VEVENT", vec![good.into(), format!("DURATION:{duration}")]),
        5..=7 => ("VEVENT", vec![good.into(), format!("RRULE:{rule}")]),
        8 => ("VEVENT", vec![good.into(), format!("RRULE:FREQ=DAILY;UNTIL={time}"), "DURATION:P1D".into()]),
        12..=13 => ("VEVENT", vec![good.into(), start.replace("DTSTART", "EXDATE")]),
        14 => ("VEVENT", vec![good.into(), start.replace("DTSTART", "RECURRENCE-ID"), "UID:u".into()]),
        9 => ("VFREEBUSY", vec![format!("FREEBUSY:{time}/{duration}")]),
        10 => ("VFREEBUSY", vec![format!("FREEBUSY:20240311T080000Z/{duration}")]),
        _ => ("VFREEBUSY", vec![start, "FREEBUSY:20240311T080000Z/PT1H".into()]),
    };
    let mut lines = vec!["BEGIN:VCALENDAR".to_string(), format!("BEGIN:{name}")];
    lines.extend(own);
    lines.extend([format!("END:{name}"), "END:VCALENDAR".to_string()]);
    maker.lines = lines.into_iter().map(String::into_bytes).collect();
    maker.marks.extend([0, LAST_SECOND, 1_710_144_000, 1_710_144_000 - maker.offset]);
}

/// Puts in a line of a length at the edge, or one of noise.
fn odd_line(random: &mut Random, lines: &mut Vec<Vec<u8>>) {
    let at = random.below(lines.len() + 1);
    let line = if random.often(600) {
        let length = random.number(&[1_023, 1_024, 1_024, 1_025, 1_026]) as usize;
        let mut line: Vec<u8> = match random.below(3) {
            0 => b"X-LONG:".to_vec(),
            1 => b"X-LONG;A=".to_vec(),
            _ => b"N".to_vec(),
        };
        line.resize(length - 1, b'n');
        line.push(b':');
        if line.starts_with(b"X-LONG:") {
            line[length - 1] = b'\t';
        }
        line
    } else {
        Maker::new(random, 0).noise()
    };
    lines.insert(at, line);
}

/// Fills a long calendar up with lines to a length about the longest, or leaves it.
fn fill(random: &mut Random, lines: &mut Vec<Vec<u8>>) {
    if random.often(300) || lines.is_empty() {
        return;
    }
    let target = random.number(&[65_535, 65_536, 65_536, 65_536, 65_537, 65_600]) as usize;
    let mut length: usize = lines.iter().map(|line| line.len() + 2).sum();
    let at = random.below(lines.len() - 1) + 1;
    // Now and then as many lines as there is room for.
    let (least, spread) = [(4, 1), (8, 40), (8, 900), (8, 900)][random.below(4)];
    let mut extra = Vec::new();
    // A line is at least `X:` and CR LF, four bytes; the last one takes what is left.
    while target >= length + 4 {
        let missing = target - length;
        let mut this = missing.min(least + random.below(spread));
        if missing - this < 4 && missing != this {
            this = if this < 8 { missing } else { this - 4 };
        }
        let mut line = b"X:".to_vec();
        line.resize(this - 2, b'v');
        length += this;
        extra.push(line);
    }
    lines.splice(at..at, extra);
}

/// Next to nothing, or noise.
fn tiny(random: &mut Random) -> Vec<u8> {
    let texts: [&[u8]; 13] = [
        b"", b"\r\n", b"\r\n ", b"\r\n \r\n\t", b"BEGIN:VCALENDAR\r\n", b"BEGIN:VCALENDAR\r\nEND:VCALENDAR\r\n",
        b"BEGIN:VCALENDAR\r\nEND:VCALENDAR", b"BEGIN:VCALENDAR\r\nEND:VCALENDAR\r\n ",
        b"BEGIN:VCALENDAR\r\nEND:VCALENDAR\r\n\r\n", b"BEGIN:VCALENDAR\r\r\n \nEND:VCALENDAR\r\n",
        b"\r\n BEGIN:VCALENDAR\r\nEND:VCALENDAR\r\n", b"BEGIN:VEVENT\r\nEND:VEVENT\r\n", b"X:\r\n",
    ];
    match random.below(4) {
        0 => (0..random.below(40)).map(|_| random.below(256) as u8).collect(),
        _ => texts[random.below(texts.len())].to_vec(),
    }
}

fn work_length(random: &mut Random, needed: usize) -> usize {
    match random.below(100) {
        0 => needed.saturating_sub(1),
        1 => random.below(needed + 1),
        2..=20 => needed + 1 + random.below(70),
        _ => needed,
    }
}

/// Too short by one, exact, longer, or anything.
fn output_length(random: &mut Random, case: &Case) -> usize {
    if random.often(100) {
        return random.number(&[0, 1, 189, 190, 191, 245, 246, 312]) as usize;
    }
    let trial = Case { out: 40_000, work: case.calendar.len(), ..case.clone() };
    match trial.plain().answer {
        Answer::Length(length) => match random.below(20) {
            0 => length - 1,
            1 => random.below(length),
            2..=9 => length,
            10..=15 => length + 1 + random.below(9),
            _ => length + random.below(400),
        },
        _ => random.number(&[0, 7, 190, 400]) as usize,
    }
}
