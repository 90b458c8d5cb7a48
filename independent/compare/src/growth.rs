//! How time grows: with a calendar's size, the number of its events and of its busy pieces, and the number of a query's tests.
//! Each series changes one of them alone.

use crate::calendars::LAST_SECOND;
use crate::case::Case;
use crate::queries::Query;

/// A line that no rule reads and no test asks for.
const FILLER: &str = "X-NOTE:the liner is replaced when it has worn through\r\n";
/// The size of every calendar but those of the first series.
const SIZE: usize = 60 * 1024;

/// The series: a name, and for each step its number and the question.
pub fn series() -> Vec<(&'static str, Vec<(usize, Case)>)> {
    vec![
        ("report, by bytes", [2, 4, 8, 16, 32, 60].map(|kib| (kib * 1024, report(sized(kib * 1024)))).into()),
        ("report, by events in 60 KiB", [1, 50, 100, 200].map(|n| (n, report(filled(events(n), SIZE)))).into()),
        ("report, by pieces in 60 KiB", [0, 1, 8, 64, 512].map(|n| (n, report(filled(pieces(n), SIZE)))).into()),
        ("match, by tests, 200 events", [1, 4, 16, 32].map(|n| (n, tests(filled(events(200), SIZE), n))).into()),
    ]
}

fn report(calendar: String) -> Case {
    asked(calendar, None)
}

/// Every event passes all of the tests but the last, which none does.
fn tests(calendar: String, count: usize) -> Case {
    let test = |number| [1, 2, 0, if number + 1 < count { 4 } else { 5 }, 1, 0];
    let query = Query {
        ranges: Vec::new(),
        texts: ["VCALENDAR", "VEVENT", "SUMMARY", "knee", "ankle"].map(|text| text.as_bytes().to_vec()).into(),
        components: vec![[0; 4], [0, 1, 0, 0]],
        properties: (0..count).map(test).collect(),
        parameters: Vec::new(),
    };
    asked(calendar, Some(query.written()))
}

fn asked(calendar: String, query: Option<Vec<u8>>) -> Case {
    let (start, end) = (0, LAST_SECOND as u64);
    Case { calendar: calendar.into_bytes(), query, start, end, offset: 0, stamp: 0, work: 65_536, out: 35_006 }
}

/// A calendar of a size, with an event for each 300 bytes.
fn sized(size: usize) -> String {
    filled(events(size / 300), size)
}

/// Events of one piece each, none touching another.
fn events(count: usize) -> String {
    let event = |number: usize| {
        format!(
            "BEGIN:VEVENT\r\nUID:limb-{number:05}@clinic.example\r\nDTSTART:20{:02}{:02}{:02}T080000Z\r\nDURATION:PT45M\r\nSUMMARY:Fitting of the knee\r\nEND:VEVENT\r\n",
            10 + number / 336,
            1 + number / 28 % 12,
            1 + number % 28
        )
    };
    (0..count).map(event).collect()
}

/// One event that takes place so often.
fn pieces(count: usize) -> String {
    let event = |rule| {
        format!("BEGIN:VEVENT\r\nDTSTART:20240101T080000Z\r\nDURATION:PT45M\r\nRRULE:FREQ=DAILY;COUNT={rule}\r\nEND:VEVENT\r\n")
    };
    if count == 0 {
        String::new()
    } else {
        event(count)
    }
}

/// The components as a calendar of a size, up to one line less.
fn filled(components: String, size: usize) -> String {
    let mut text = format!("BEGIN:VCALENDAR\r\n{components}");
    while text.len() + FILLER.len() + 15 <= size {
        text.push_str(FILLER);
    }
    text.push_str("END:VCALENDAR\r\n");
    text
}
