//! The worked examples of document 01, refusals with their lines and blocks at the ends of a
//! range, run on the public calls.
//! The cases with answers are replayed by the `compare` program instead.

use crate::{matches, report, Answer, Breach, Refusal};

fn file(body: &str) -> Vec<u8> {
    format!("BEGIN:VCALENDAR\n{body}END:VCALENDAR\n").replace('\n', "\r\n").into_bytes()
}

fn reported(body: &str, start: u64, end: u64, stamp: u64) -> Result<String, Refusal> {
    report_of(&file(body), start, end, stamp)
}

fn report_of(cal: &[u8], start: u64, end: u64, stamp: u64) -> Result<String, Refusal> {
    let (mut work, mut out) = (vec![0; cal.len()], vec![0; 40_000]);
    match report(cal, start, end, 0, stamp, &mut work, &mut out) {
        Answer::Length(length) => Ok(String::from_utf8(out[..length].to_vec()).unwrap()),
        Answer::Refused(refusal) => Err(refusal),
        Answer::Verdict(_) => unreachable!(),
    }
}

#[test]
fn worked_report() {
    let body = "BEGIN:VEVENT\nDTSTART:20240311T073000Z\nDTEND:20240311T091500Z\nEND:VEVENT\n\
                BEGIN:VEVENT\nDTSTART:20240311T090000Z\nDURATION:PT1H30M\nSTATUS:TENTATIVE\nEND:VEVENT\n";
    let wanted = "BEGIN:VCALENDAR\nVERSION:2.0\nPRODID:-//Cover Desk//Free Busy//EN\nBEGIN:VFREEBUSY\n\
                  DTSTAMP:20240310T060000Z\nDTSTART:20240311T080000Z\nDTEND:20240311T180000Z\n\
                  FREEBUSY;FBTYPE=BUSY:20240311T080000Z/20240311T091500Z\n\
                  FREEBUSY;FBTYPE=BUSY-TENTATIVE:20240311T090000Z/20240311T103000Z\n\
                  END:VFREEBUSY\nEND:VCALENDAR\n"
        .replace('\n', "\r\n");
    assert_eq!(wanted.len(), 312);
    assert_eq!(reported(body, 1_710_144_000, 1_710_180_000, 1_710_050_400), Ok(wanted));
}

#[test]
fn no_busy_time_is_190_bytes() {
    assert_eq!(reported("", 0, 1, 0).map(|r| r.len()), Ok(190));
}

#[test]
fn pieces_up_to_512() {
    let body = |count| {
        format!("BEGIN:VEVENT\nDTSTART:20000101T000000Z\nDURATION:PT1H\nRRULE:FREQ=DAILY;COUNT={count}\nEND:VEVENT\n")
    };
    assert!(reported(&body(512), 0, 4_102_444_799, 0).is_ok());
    assert_eq!(reported(&body(513), 0, 4_102_444_799, 0), Err(Refusal::of(11)));
}

#[test]
fn calendar_is_there() {
    let query = b"\x00\x01\x09VCALENDAR\x01\x00\x00\x00\x00\x00\x00";
    let cal = file("");
    assert_eq!(matches(&cal, query, 0, &mut vec![0; cal.len()]), Answer::Verdict(true));
}

/// Asserts the refusal, number and line, of a whole file with CR LF for `|`.
fn refused(file: &str, number: u8, line: usize) {
    let cal = file.replace('|', "\r\n").into_bytes();
    let refusal = report_of(&cal, 0, 1, 0).map_err(|r| (r.number, r.line));
    assert_eq!(refusal, Err((number, line)), "{file}");
}

#[test]
fn lines_of_badly_formed_lines() {
    refused("BEGIN:VCALENDAR|X:1|END:VCALENDAR", 6, 3);
    refused("BEGIN:VCALENDAR|END:X|bad|", 6, 3);
    refused("|", 6, 1);
    refused("BEGIN:VCALENDAR|X:1|END:VCALENDAR||", 6, 4);
    // Folds make no lines.
    refused("BEGIN:VCAL| ENDAR|X| :1|bad|", 6, 3);
    // What is read past a line's end, or a control, is no later line's fault.
    refused("BEGIN:VCALENDAR|X;A=\"b|X:\":1|bad|", 6, 2);
    refused("BEGIN:VCALENDAR|X;A=b|X:1|bad|", 6, 2);
    refused("BEGIN:VCALENDAR|X:\x7f|bad|", 6, 2);
    refused("BEGIN:VCALENDAR|X:1\rX:1|END:VCALENDAR|", 6, 2);
    refused("BEGIN:VCALENDAR|X:1|END:VCALENDAR\n|", 6, 3);
}

#[test]
fn lines_of_wrong_nesting() {
    refused("", 7, 1);
    refused("X:1|BEGIN:VCALENDAR|END:VCALENDAR|", 7, 1);
    refused("BEGIN:VEVENT|END:VEVENT|", 7, 1);
    refused("BEGIN:VCALENDAR|END:X|A:1|", 7, 2);
    refused("BEGIN:VCALENDAR|X:1|", 7, 3);
    refused("BEGIN:VCALENDAR|BEGIN:X|END:VCALENDAR|", 7, 3);
    refused("BEGIN:VCALENDAR|BEGIN:X|BEGIN:VEVENT|", 7, 3);
    refused("BEGIN:VCALENDAR|END:VCALENDAR|X:1|X:1|", 7, 3);
    refused(&format!("BEGIN:VCALENDAR|{}", "BEGIN:X|".repeat(8)), 7, 9);
    refused(&format!("BEGIN:VCALENDAR|{}END:VCALENDAR|", "BEGIN:X|END:X|".repeat(256)), 7, 512);
    // As many lines as a calendar has room for.
    refused(&format!("BEGIN:VCALENDAR|{}", "X:|".repeat(16_379)), 7, 16_381);
}

#[test]
fn lines_of_values_and_components() {
    let calendar = |body: &str| format!("BEGIN:VCALENDAR|{body}END:VCALENDAR|");
    let good = "BEGIN:VEVENT|DTSTART:20240311T080000Z|END:VEVENT|";
    let bad = "BEGIN:VEVENT|DTSTART:x|END:VEVENT|";
    let unsupported = "BEGIN:VEVENT|RDATE:x|END:VEVENT|";
    let broken = "BEGIN:VEVENT|END:VEVENT|";
    refused(&calendar(bad), 9, 3);
    refused(&calendar(&[good, bad, unsupported].concat()), 9, 6);
    refused(&calendar(&[good, unsupported, bad].concat()), 8, 6);
    refused(&calendar(&[broken, good, bad].concat()), 9, 8);
    refused(&calendar(&[good, broken, broken].concat()), 10, 5);
    refused(&calendar("BEGIN:VEVENT|BEGIN:X|DTSTART:x|END:X|DTSTART:x|END:VEVENT|"), 9, 6);
    refused(&calendar("BEGIN:VFREEBUSY|X:1|FREEBUSY:x|END:VFREEBUSY|"), 9, 4);
}

/// Whether a component of that name with those lines, `|` between two, is in the range.
fn in_range(name: &str, lines: &str, start: u64, end: u64) -> bool {
    let cal = file(&format!("BEGIN:{name}\n{}\nEND:{name}\n", lines.replace('|', "\n")));
    some_in_range(&cal, name, start, end)
}

/// Whether some component of that name is in the range.
fn some_in_range(cal: &[u8], name: &str, start: u64, end: u64) -> bool {
    let mut query = vec![1];
    query.extend([start.to_be_bytes(), end.to_be_bytes()].concat());
    query.extend(b"\x02\x09VCALENDAR");
    query.push(name.len() as u8);
    query.extend(name.as_bytes());
    query.extend([2, 0, 0, 0, 0, 0, 1, 1, 0, 0, 0]);
    match matches(cal, &query, 0, &mut vec![0; cal.len()]) {
        Answer::Verdict(yes) => yes,
        other => panic!("{other:?}"),
    }
}

#[test]
fn blocks_at_the_ends_of_a_range() {
    let ends = "DTSTART:19700101T001640Z|DTEND:19700101T003320Z";
    let period = "FREEBUSY:19700101T001640Z/19700101T003320Z";
    for block in [ends.to_string(), format!("{ends}|{period}"), format!("{ends}|FREEBUSY:19700101T010000Z/PT1H")] {
        assert!(in_range("VFREEBUSY", &block, 1_999, 3_000));
        assert!(in_range("VFREEBUSY", &block, 2_000, 3_000));
        assert!(!in_range("VFREEBUSY", &block, 2_001, 3_000));
        assert!(!in_range("VFREEBUSY", &block, 500, 1_000));
        assert!(in_range("VFREEBUSY", &block, 500, 1_001));
        assert!(!in_range("VFREEBUSY", &block, 3_600, 3_700));
    }
    // By periods, one end alone or none, and events.
    let start = format!("DTSTART:19700101T000000Z|{period}");
    let end = format!("DTEND:19700101T010000Z|{period}");
    for (name, lines) in [("VFREEBUSY", period), ("VFREEBUSY", &start), ("VFREEBUSY", &end), ("VEVENT", ends)] {
        assert!(in_range(name, lines, 1_999, 3_000));
        assert!(!in_range(name, lines, 2_000, 3_000));
        assert!(!in_range(name, lines, 500, 1_000));
        assert!(in_range(name, lines, 500, 1_001));
    }
}

/// A calendar of VEVENTs, each between brackets, its lines cut at `|`. Short for a line: `s` a
/// start, `h` an hour, `r` five days, `R12` a RECURRENCE-ID; for lines: `M` a master with `u` as
/// UID, `O` its override of the 12th. `@12` is 8 o'clock on that day of March 2024.
fn events(short: &str) -> Vec<u8> {
    let events = short.split_terminator(')').map(|event| {
        let lines: Vec<&str> = event.trim_start_matches('(').split('|').flat_map(lines_of).collect();
        format!("BEGIN:VEVENT\n{}\nEND:VEVENT\n", lines.join("\n"))
    });
    let text: String = events.collect();
    let mut pieces = text.split('@');
    let first = pieces.next().unwrap_or_default().to_string();
    file(&pieces.fold(first, |text, piece| format!("{text}202403{}T080000{}", &piece[..2], &piece[2..])))
}

fn lines_of(short: &str) -> Vec<&str> {
    match short {
        "s" => vec!["DTSTART:@11Z"],
        "h" => vec!["DURATION:PT1H"],
        "r" => vec!["RRULE:FREQ=DAILY;COUNT=5"],
        "M" => vec!["UID:u", "DTSTART:@11Z", "DURATION:PT1H", "RRULE:FREQ=DAILY;COUNT=5"],
        "R12" => vec!["RECURRENCE-ID:@12Z"],
        "R20" => vec!["RECURRENCE-ID:@20Z"],
        "O" => vec!["UID:u", "RECURRENCE-ID:@12Z", "DTSTART:20240312T100000Z", "DURATION:PT1H"],
        line => vec![line],
    }
}

/// The report's periods over March 2024 as `dd.hhmm-dd.hhmm`, a word before those that are not
/// BUSY, or the refusal's number and line.
fn march(short: &str) -> Result<String, (u8, usize)> {
    let report = report_of(&events(short), 1_709_251_200, 1_711_929_600, 0).map_err(|r| (r.number, r.line))?;
    let period = |line: &str| {
        let (kind, times) = line.strip_prefix("FREEBUSY;FBTYPE=BUSY")?.split_once(':')?;
        let times: Vec<String> = times.split('/').map(|t| format!("{}.{}", &t[6..8], &t[9..13])).collect();
        Some(format!("{kind} {}", times.join("-")).trim_start().to_string())
    };
    Ok(report.lines().filter_map(period).collect::<Vec<_>>().join(" "))
}

fn assert_busy(short: &str, periods: &str) {
    assert_eq!(march(short), Ok(periods.to_string()), "{short}");
}

fn assert_refused(short: &str, number: u8, line: usize) {
    assert_eq!(march(short), Err((number, line)), "{short}");
}

#[test]
fn reading_exceptions_and_recurrences() {
    assert_refused("(s|EXDATE;TZID=X:@11)", 8, 4);
    assert_refused("(UID:u|RECURRENCE-ID;RANGE=;VALUE=X:bad|s)", 8, 4);
    assert_refused("(UID:u|RECURRENCE-ID;VALUE=X;TZID=:bad|s)", 8, 4);
    assert_refused("(s|RDATE:@11Z)", 8, 4);
    assert_refused("(s|EXRULE:FREQ=DAILY)", 8, 4);
    for bad in [
        "EXDATE:", "EXDATE:@11Z,", "EXDATE:,@11Z", "EXDATE:@11Z,,@12Z", "EXDATE:@11Z,x", "EXDATE:@11Z, @12Z",
        "EXDATE:20240311", "EXDATE;VALUE=DATE:20240311,@12Z", "EXDATE;VALUE=DATE,DATE:20240311", "EXDATE;VALUE=X:@11Z",
        "EXDATE;VALUE=DATE;VALUE=DATE:20240311", "EXDATE:21000101T000000Z", "EXDATE;RANGE=:x", "RECURRENCE-ID:",
        "RECURRENCE-ID:@11Z,@12Z", "RECURRENCE-ID;VALUE=PERIOD:@11Z",
    ] {
        assert_refused(&format!("(s|{bad})"), 9, 4);
    }
    assert_busy(
        "(s|h|r|EXDATE;RANGE=:@11Z,@14Z|EXDATE;VALUE=DATE-TIME:@13Z|EXDATE:20240315T075960Z)",
        "12.0800-12.0900 15.0800-15.0900",
    );
    // None of them is read elsewhere.
    assert_busy("(s|h|BEGIN:X|EXDATE:x|UID:u|UID:u|RECURRENCE-ID;RANGE=:x|END:X)", "11.0800-11.0900");
    let block = "BEGIN:VFREEBUSY\nUID:u\nUID:u\nEXDATE:\nRECURRENCE-ID;TZID=:\nEND:VFREEBUSY\n";
    assert_eq!(reported(block, 0, 1, 0).map(|r| r.len()), Ok(190));
}

#[test]
fn uids() {
    assert_refused("(M|UID:u)", 10, 2);
    assert_refused("(M|UID:v)", 10, 2);
    assert_refused("(UID:|s)(UID:|s)", 10, 6);
    assert_refused("(UID:u|s)(UID:u|s)", 10, 6);
    assert_refused("(UID:u|s)(UID;X=y:u|s)(UID:u|s)", 10, 6);
    for other in ["UID:U", "UID:u ", "UID: u", "UID:", "X-UID:u"] {
        assert_busy(&format!("(UID:u|s|h)({other}|s|h)"), "11.0800-11.0900");
    }
    assert_busy("(s|h)(s|h)", "11.0800-11.0900");
}

#[test]
fn overrides_by_themselves() {
    assert_refused("(M)(R12|s)", 10, 8);
    assert_refused("(M)(O|R12)", 10, 8);
    assert_refused("(M)(O|RECURRENCE-ID:@13Z)", 10, 8);
    assert_refused("(M)(O|RRULE:FREQ=DAILY;COUNT=1)", 10, 8);
    assert_refused("(M)(O|EXDATE:@20Z)", 10, 8);
    assert_refused("(M)(O|UID:u)", 10, 8);
    assert_refused("(M)(UID:u|R12|h)", 10, 8);
    assert_refused("(M|EXDATE;VALUE=DATE:20240312)", 10, 2);
    assert_refused("(EXDATE:@12|M)", 10, 2);
}

#[test]
fn overrides_beside_their_masters() {
    assert_refused("(O)", 10, 2);
    assert_refused("(O)(UID:U|s|r)", 10, 2);
    assert_refused("(UID:u|RECURRENCE-ID:@12|s)(M)", 10, 2);
    assert_refused("(O)(M|EXDATE:@12Z)", 10, 2);
    assert_refused("(M|EXDATE:@12Z)(O)", 10, 9);
    assert_refused("(M)(UID:u|R20|s)", 10, 8);
    assert_refused("(M)(UID:u|RECURRENCE-ID:20240312T080001Z|s)", 10, 8);
    assert_refused("(M)(UID:u|RECURRENCE-ID:@10Z|s)", 10, 8);
    assert_refused("(M)(UID:u|RECURRENCE-ID:@16Z|s)", 10, 8);
    assert_refused("(M)(O)(O)", 10, 14);
    assert_refused("(O)(O)(O)(M)", 10, 8);
    // Equal seconds of other UIDs.
    assert_busy("(UID:u|s)(UID:u|RECURRENCE-ID:@11Z|s|h)(UID:v|RECURRENCE-ID:@11Z|s)(UID:v|s)", "11.0800-11.0900");
    // Broken masters.
    assert_refused("(UID:u|R20|s)(M|UID:v)", 10, 7);
    assert_refused("(UID:v|R20|s)(M|UID:v)", 10, 7);
    assert_refused("(O)(O)(M|DTEND:@12Z)", 10, 8);
    assert_refused("(O)(UID:u|RECURRENCE-ID:@12|s)(M|DTEND:@12Z)", 10, 8);
    assert_refused("(UID:u|R20|s)(M|DTEND:@12Z)(M)", 10, 7);
    assert_refused("(UID:u|R20|s)(M)(M|DTEND:@12Z)", 10, 2);
    assert_refused("(UID:u|R20|s)(M|EXDATE;VALUE=DATE:20240312)", 10, 7);
    // Of one broken master's two UIDs, each by itself.
    assert_refused("(UID:u|R12|s)(UID:v|R12|s)(UID:u|UID:v|s)", 10, 12);
    assert_refused("(UID:u|R12|s)(UID:w|R12|s)(UID:u|UID:v|s)", 10, 7);
}

#[test]
fn instances_that_stand() {
    assert_busy("(s|h|EXDATE:@12Z)", "11.0800-11.0900");
    assert_busy("(s|h|EXDATE:@11Z)", "");
    assert_busy("(M|EXDATE:@12Z,@12Z|EXDATE:@20Z)", "11.0800-11.0900 13.0800-13.0900 14.0800-14.0900 15.0800-15.0900");
    assert_busy(
        "(M)(UID:u|R12|s|h|STATUS:CANCELLED)",
        "11.0800-11.0900 13.0800-13.0900 14.0800-14.0900 15.0800-15.0900",
    );
    assert_busy(
        "(O|STATUS:TENTATIVE)(M|EXDATE:@14Z|STATUS:CONFIRMED)",
        "11.0800-11.0900 13.0800-13.0900 15.0800-15.0900 -TENTATIVE 12.1000-12.1100",
    );
    assert_busy("(M|STATUS:CANCELLED)(O)", "12.1000-12.1100");
    assert_busy("(UID:u|s|h)(UID:u|RECURRENCE-ID:@11Z|DTSTART;VALUE=DATE:20240320)", "20.0000-21.0000");
    assert_busy("(M|EXDATE:@11Z,@13Z,@14Z,@15Z)(UID:u|R12|s)", "");
}

#[test]
fn removed_instances_in_ranges() {
    let hour = |short: &str, start| some_in_range(&events(short), "VEVENT", start, start + 3_600);
    let (twelfth, eleventh) = (1_710_230_400, 1_710_144_000);
    assert!(hour("(M)", twelfth));
    assert!(!hour("(M)(O)", twelfth));
    assert!(hour("(M)(O)", twelfth + 7_200));
    assert!(!hour("(M|EXDATE:@12Z)", twelfth));
    assert!(hour("(M|EXDATE:@12Z)", eleventh));
    assert!(hour("(M|STATUS:CANCELLED)(O|TRANSP:TRANSPARENT)", twelfth + 7_200));
    // A range from a removed instance to the next that stands.
    assert!(!some_in_range(&events("(M|EXDATE:@12Z,@13Z)"), "VEVENT", twelfth, twelfth + 2 * 86_400));
    assert!(some_in_range(&events("(M|EXDATE:@12Z,@13Z)"), "VEVENT", twelfth, twelfth + 2 * 86_400 + 1));
}

#[test]
fn pieces_are_what_stands() {
    let body = |exceptions: &str| format!("(s|DURATION:PT1H|RRULE:FREQ=DAILY;COUNT=513{exceptions})");
    let all = |short: &str| report_of(&events(short), 0, 4_102_444_799, 0).map(|_| ());
    assert!(all(&body("|EXDATE:@20Z")).is_ok());
    assert_eq!(all(&body("|EXDATE:20240320T080001Z")), Err(Refusal::of(11)));
}

#[test]
fn breaches() {
    let breach = |short: &str| report_of(&events(short), 0, 1, 0).map_err(|refusal| refusal.breach);
    for (short, expected) in [
        ("(h)", Breach::Basic),
        ("(M|UID:u)", Breach::TwoUids),
        ("(M|EXDATE:@12)", Breach::ExceptionKind),
        ("(M)(M)", Breach::SharedUid),
        ("(M)(O|R12)", Breach::TwoRecurrenceIds),
        ("(M)(R12|s)", Breach::NoUid),
        ("(M)(O|r)", Breach::BesideRule),
        ("(M)(O|EXDATE:@12Z)", Breach::BesideExceptions),
        ("(M)(O)(O)", Breach::SameSecond),
        ("(O)", Breach::NoMaster),
        ("(M)(UID:u|RECURRENCE-ID:@12|s)", Breach::OverrideKind),
        ("(M)(UID:u|R20|s)", Breach::NoInstance),
        ("(M|EXDATE:@12Z)(O)", Breach::Excluded),
    ] {
        assert_eq!(breach(short), Err(Some(expected)), "{short}");
    }
}
