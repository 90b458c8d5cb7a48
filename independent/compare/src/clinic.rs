//! Calendars as clinics send them, none damaged, for measuring: fittings, recurring cover, and now and then a free-busy block.
//! Each has the size that is asked for, up to one event less.

use std::fmt::Write;

use crate::case::Case;
use crate::queries::Query;
use crate::random::Random;

/// The sizes that are measured, in bytes.
const SIZES: (i64, i64) = (2 * 1024, 60 * 1024);

/// April 2024, the range of every report and every query.
const RANGE: (u64, u64) = (1_711_929_600, 1_714_521_600);

/// A kind of question.
#[derive(Clone, Copy)]
pub enum Kind {
    Report,
    /// An event in April with an ATTENDEE line that names someone, found soon or not at all.
    April,
    /// An event with an ATTENDEE line and a certain SUMMARY, which is that of the first event.
    First,
    /// The same, which is that of the last event.
    Last,
    /// The same, which is that of none.
    None,
}

/// What is measured, with names.
pub const KINDS: [(&str, Kind); 5] = [
    ("report", Kind::Report),
    ("match in April", Kind::April),
    ("match by the first", Kind::First),
    ("match by the last", Kind::Last),
    ("match by none", Kind::None),
];

/// A question of a calendar.
pub fn question(seed: u64, number: u64, kind: Kind) -> Case {
    let mut random = Random::new(seed, number);
    let size = random.between(SIZES.0, SIZES.1) as usize;
    let (calendar, events) = calendar(&mut random, size);
    let query = match kind {
        Kind::Report => None,
        Kind::April => Some(in_april(random.pick(&["insurer.example", "nobody.example"]))),
        Kind::First => Some(of_visit(events.first().copied())),
        Kind::Last => Some(of_visit(events.last().copied())),
        Kind::None => Some(of_visit(None)),
    };
    Case {
        calendar: calendar.into_bytes(),
        query,
        start: RANGE.0,
        end: RANGE.1,
        offset: 7_200,
        stamp: RANGE.0,
        work: 65_536,
        out: 35_006,
    }
}

/// A calendar and the numbers of its events.
fn calendar(random: &mut Random, size: usize) -> (String, Vec<u32>) {
    let mut text = String::from("BEGIN:VCALENDAR\r\nVERSION:2.0\r\nPRODID:-//Clinic//Fitting Room//EN\r\n");
    let mut events = Vec::new();
    let mut number = 0;
    while number < 250 && text.len() + 900 < size {
        number += 1;
        if random.often(40) {
            block(random, &mut text, number);
        } else {
            event(random, &mut text, number);
            events.push(number);
        }
    }
    while text.len() + 80 < size {
        text.push_str("X-NOTE:the liner is replaced when it has worn through\r\n");
    }
    text.push_str("END:VCALENDAR\r\n");
    (text, events)
}

fn event(random: &mut Random, text: &mut String, number: u32) {
    let (month, day, hour) = (random.between(1, 12), random.between(1, 28), random.between(7, 17));
    let zone = if random.often(500) { "Z" } else { "" };
    let _ = write!(
        text,
        "BEGIN:VEVENT\r\nUID:limb-{number:05}@clinic.example\r\nDTSTAMP:20240101T000000Z\r\nDTSTART:2024{month:02}{day:02}T{hour:02}0000{zone}\r\n"
    );
    if random.often(500) {
        let _ = write!(text, "DTEND:2024{month:02}{day:02}T{:02}3000{zone}\r\n", hour + 1);
    } else {
        text.push_str("DURATION:PT45M\r\n");
    }
    if random.often(150) {
        let _ = write!(text, "RRULE:FREQ=WEEKLY;INTERVAL=2;COUNT={}\r\n", random.between(2, 12));
    }
    let status = random.pick(&["CONFIRMED", "TENTATIVE", "CANCELLED"]);
    let _ = write!(
        text,
        "SUMMARY:Fitting of the knee\\, visit {number}\r\nDESCRIPTION:Bring the old socket and the liner. The ramp first\\, then the st\r\n airs\\, then the measuring bench.\r\nATTENDEE;PARTSTAT=ACCEPTED;ROLE=CHAIR:mailto:fitter@clinic.example\r\nATTENDEE;PARTSTAT=NEEDS-ACTION:mailto:claims@insurer.example\r\nSTATUS:{status}\r\nEND:VEVENT\r\n"
    );
}

fn block(random: &mut Random, text: &mut String, number: u32) {
    let _ = write!(text, "BEGIN:VFREEBUSY\r\nUID:bench-{number:05}@clinic.example\r\nDTSTAMP:20240101T000000Z\r\n");
    for day in 1..=8 {
        let kind = random.pick(&["BUSY", "BUSY-UNAVAILABLE", "FREE"]);
        let _ = write!(
            text,
            "FREEBUSY;FBTYPE={kind}:202404{:02}T080000Z/PT4H,202404{:02}T140000Z/20240430T160000Z\r\n",
            day * 3,
            day * 3
        );
    }
    text.push_str("END:VFREEBUSY\r\n");
}

/// Is there an event in April with an ATTENDEE line that names someone and has a certain PARTSTAT?
fn in_april(wanted: &str) -> Vec<u8> {
    Query {
        ranges: vec![RANGE],
        texts: texts(["VCALENDAR", "VEVENT", "ATTENDEE", wanted, "PARTSTAT", "needs-action"]),
        components: vec![[0, 0, 0, 0], [0, 1, 1, 0]],
        properties: vec![[1, 2, 0, 4, 1, 0]],
        parameters: vec![[0, 4, 6, 1, 0]],
    }
    .written()
}

/// Is there an event with such an ATTENDEE line, as all have, and the SUMMARY of a visit?
fn of_visit(number: Option<u32>) -> Vec<u8> {
    let visit = number.map_or("no visit".to_string(), |number| format!("visit {number}"));
    Query {
        ranges: Vec::new(),
        texts: texts([
            "VCALENDAR", "VEVENT", "ATTENDEE", "insurer.example", "PARTSTAT", "needs-action", "SUMMARY", &visit,
        ]),
        components: vec![[0, 0, 0, 0], [0, 1, 0, 0]],
        properties: vec![[1, 2, 0, 4, 1, 0], [1, 6, 0, 8, 1, 0]],
        parameters: vec![[0, 4, 6, 1, 0]],
    }
    .written()
}

fn texts<const N: usize>(texts: [&str; N]) -> Vec<Vec<u8>> {
    texts.iter().map(|text| text.as_bytes().to_vec()).collect()
}
