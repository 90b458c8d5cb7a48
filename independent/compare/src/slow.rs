//! Calendars and queries made to be slow, each with a name: many of what a call goes through,
//! and texts that nearly stand where they are looked for.

use crate::calendars::{written, Kind, DAY, LAST_SECOND};
use crate::case::Case;
use crate::queries::Query;

/// The longest calendar that is answered.
const LONGEST: usize = 65_536;
/// How many component, property and parameter tests a query may have.
const COMPONENTS: usize = 16;
const TESTS: usize = 32;
/// How many components a calendar may have besides the outermost.
const INNER: usize = 255;

/// What an event starts and ends with.
const EVENT: [&str; 2] = ["BEGIN:VEVENT\r\nDTSTART:20000101T000000Z\r\n", "END:VEVENT\r\n"];
const BLOCK: [&str; 2] = ["BEGIN:VFREEBUSY\r\n", "END:VFREEBUSY\r\n"];
const NOTHING: [&str; 2] = ["", ""];

/// The test of VCALENDAR, whose name is text 0.
const CALENDAR: [u8; 4] = [0; 4];

/// All of them.
pub fn inputs() -> Vec<(String, Case)> {
    let mut inputs = Inputs { list: Vec::new() };
    inputs.repetitions();
    inputs.pieces();
    inputs.lines();
    inputs.folds();
    inputs.names();
    inputs.values();
    inputs.parameters();
    inputs.components();
    inputs.events();
    inputs.exceptions();
    inputs.overrides();
    inputs.uids();
    inputs.list
}

struct Inputs {
    list: Vec<(String, Case)>,
}

impl Inputs {
    /// A report over all the time that there is.
    fn report(&mut self, name: &str, calendar: Vec<u8>) {
        self.report_to(LAST_SECOND, name, calendar);
    }

    /// A report over the time before that second.
    fn report_to(&mut self, end: i64, name: &str, calendar: Vec<u8>) {
        self.add(format!("report, {name}"), calendar, None, end);
    }

    fn matching(&mut self, name: &str, calendar: &[u8], query: &Query) {
        self.add(format!("match, {name}"), calendar.to_vec(), Some(query.written()), LAST_SECOND);
    }

    /// As many tests as there can be of an event in a range, over ranges that start soon after 0
    /// and end soon after that second.
    fn ranges_to(&mut self, end: i64, name: &str, calendar: &[u8]) {
        let mut query = query(&["VEVENT"]);
        query.ranges = (0..8).map(|k| (k, end as u64 + 1 + k)).collect();
        query.components.extend((1..COMPONENTS as u8).map(|test| [0, 1, 1 + test % 8, 0]));
        self.matching(&format!("15 ranges, {name}"), calendar, &query);
    }

    fn add(&mut self, name: String, calendar: Vec<u8>, query: Option<Vec<u8>>, end: i64) {
        let (end, work) = (end as u64, LONGEST);
        self.list.push((name, Case { calendar, query, start: 0, end, offset: 0, stamp: 0, work, out: 35_006 }));
    }

    /// Events that repeat for 130 years and are not busy.
    fn repetitions(&mut self) {
        for (name, own) in [
            ("without length", "RRULE:FREQ=DAILY\r\n"),
            ("without length, with an end", "RRULE:FREQ=DAILY;UNTIL=20991231T000000Z\r\n"),
            ("without length, counted", "RRULE:FREQ=DAILY;COUNT=9999\r\n"),
            ("transparent", "RRULE:FREQ=DAILY\r\nDURATION:PT1H\r\nTRANSP:TRANSPARENT\r\n"),
            ("cancelled", "RRULE:FREQ=DAILY\r\nDURATION:PT1H\r\nSTATUS:CANCELLED\r\n"),
        ] {
            let event = format!("BEGIN:VEVENT\r\nDTSTART:19700101T000000Z\r\n{own}END:VEVENT\r\n");
            self.report(&format!("{INNER} daily events, {name}"), calendar(&event.repeat(INNER)));
        }
    }

    /// As many busy pieces as are answered, in orders that are hard to keep sorted.
    fn pieces(&mut self) {
        let daily = "DURATION:PT1H\r\nRRULE:FREQ=DAILY;COUNT=512\r\n";
        self.report("512 pieces of one event", calendar(&[EVENT[0], daily, EVENT[1]].concat()));
        let busy = ["BUSY", "BUSY-TENTATIVE", "BUSY-UNAVAILABLE"];
        let rising: Vec<usize> = (0..512).collect();
        let falling: Vec<usize> = (0..512).rev().collect();
        let inwards: Vec<usize> = (0..256).flat_map(|k| [k, 511 - k]).collect();
        let even_then_odd: Vec<usize> = (0..512).step_by(2).chain((1..512).step_by(2)).collect();
        for (name, order) in
            [("rising", &rising), ("falling", &falling), ("inwards", &inwards), ("even, then odd", &even_then_odd)]
        {
            self.report(&format!("512 periods, {name}"), calendar(&periods(order, &busy[..1], "PT1H")));
        }
        self.report("512 periods, falling, of three types", calendar(&periods(&falling, &busy, "PT1H")));
        self.report("512 periods, falling, each touching the next", calendar(&periods(&falling, &busy[..1], "PT2H")));
        self.report("512 periods that all overlap", calendar(&periods(&inwards, &busy[..1], "P30W")));
        let free = format!("FREEBUSY;FBTYPE=FREE:{}\r\n", ["20000101T000000Z/P1W"; 45].join(","));
        self.report("free periods only", filled(BLOCK, &free));
    }

    /// Many lines of one kind.
    fn lines(&mut self) {
        self.report("16,000 lines", filled(NOTHING, "A:\r\n"));
        for first in ["A", "D", "E", "R", "B"] {
            self.report(&format!("16,000 lines {first} in an event"), filled(EVENT, &format!("{first}:\r\n")));
        }
        for line in ["TRANSP:", "DTSTART:20000101T000000", "RRULE:FREQ=DAILY;COUNT=1", "DURATION:PT1H1M1S"] {
            self.report(&format!("too many lines {line}"), filled(EVENT, &format!("{line}\r\n")));
        }
        let many = ";A=".repeat(320);
        let start = format!("BEGIN:VEVENT\r\nDTSTART{many}:20000101T000000Z\r\nEND:VEVENT\r\n");
        self.report("starts with 320 parameters", filled(NOTHING, &start));
        self.report("periods with 320 parameters", filled(BLOCK, &format!("FREEBUSY{many}:20000101T000000Z/P1D\r\n")));
        self.report("quoted values of 1,000 bytes", filled(NOTHING, &format!("A;B=\"{}\":v\r\n", "x".repeat(1_000))));
        self.report("names of 1,000 bytes", filled(EVENT, &format!("{}:\r\n", "d".repeat(1_000))));
    }

    /// Many folds, and what looks like one.
    fn folds(&mut self) {
        for (name, piece) in [
            ("a fold behind each byte", "A\r\n "),
            ("a fold behind each 14", "AAAAAAAAAAAAAA\r\n "),
            ("empty lines", "\r\n"),
            ("CR only", "\r"),
        ] {
            self.report(name, piece.repeat(LONGEST / piece.len()).into_bytes());
        }
        let line = format!("X\r\n :{}\r\n", "v\r\n ".repeat(900));
        self.report("lines folded behind each byte", filled(NOTHING, &line));
    }

    /// Many lines, asked for by their names; the name is the last of 32 texts.
    fn names(&mut self) {
        const LAST: u8 = 31;
        let query = |name| query(&[&["N"; 30][..], &[name]].concat());
        for (name, line, last) in [("of another name", "A:", "Y"), ("of a name that begins alike", "YA:", "YB")] {
            let mut query = query(last);
            query.properties = vec![[0, LAST, 0, 0, 0, 0]; TESTS];
            let lines = filled(["", &format!("{last}:\r\n")], &format!("{line}\r\n"));
            self.matching(&format!("16,000 lines {name}, {TESTS} tests hold by the last"), &lines, &query);
        }
        for name in ["A", "E"] {
            let mut query = query(name);
            query.properties = vec![[0, LAST, 0, LAST + 1, 1, 0]; TESTS];
            let line = format!("{name}:\r\n");
            let lines = filled(["", &format!("{name}:{name}\r\n")], &line);
            self.matching(&format!("16,000 lines {name}, {TESTS} tests hold by the last"), &lines, &query);
            self.matching(&format!("16,000 lines {name}, no test holds"), &filled(NOTHING, &line), &query);
        }
    }

    /// Values that nearly hold a text at every place.
    fn values(&mut self) {
        for (collation, form) in [(0, "octet"), (1, "casemap")] {
            for (text, value) in [(255, 1_000), (128, 1_000), (255, 600)] {
                let nearly = "a".repeat(text - 1);
                for (name, wanted) in [
                    ("a..ab", format!("{nearly}b")),
                    ("ba..a", format!("b{nearly}")),
                    ("a..aba..a", format!("{}b{}", &nearly[..text / 2], &nearly[text / 2..])),
                ] {
                    let mut query = query(&["X", &wanted]);
                    query.properties = vec![[0, 1, 0, 3, collation, 0]; TESTS];
                    let line = format!("X:{}\r\n", "a".repeat(value));
                    let lines = filled(["", &format!("X:{wanted}\r\n")], &line);
                    let name = format!("{name} of {text} in {value} bytes a, {form}, {TESTS} tests hold by the last");
                    self.matching(&name, &lines, &query);
                }
            }
        }
    }

    /// Lines with many parameters, parameters with many values.
    fn parameters(&mut self) {
        let list = filled(NOTHING, &format!("X;A={}b:v\r\n", ",".repeat(1_010)));
        let mut held = query(&["X", "A", "b", "c"]);
        held.properties = vec![[0, 1, 0, 0, 0, 0]];
        held.parameters = vec![[0, 2, 4, 0, 0]; TESTS];
        held.parameters[TESTS - 1] = [0, 2, 5, 0, 0];
        self.matching(&format!("1,010 values of a parameter, {TESTS} tests, the last one fails"), &list, &held);
        let quoted = filled(NOTHING, &format!("X;A={}b:v\r\n", "\"\",".repeat(336)));
        self.matching(&format!("336 quoted values of a parameter, {TESTS} tests, the last one fails"), &quoted, &held);
        let mut other = query(&["X", "Z", "b"]);
        other.properties = vec![[0, 1, 0, 0, 0, 0]; TESTS];
        other.parameters = (0..TESTS as u8).map(|test| [test, 2, 4, 0, 0]).collect();
        self.matching(&format!("1,010 values of a parameter of another name, {TESTS} properties"), &list, &other);

        let many = filled(NOTHING, &format!("X{};Q=c:v\r\n", ";A=".repeat(336)));
        for (name, test) in [("hold by the last", [0, 2, 0, 0, 0]), ("that it is not there", [0, 2, 0, 0, 1])] {
            let mut query = query(&["X", "Q", "b"]);
            query.properties = vec![[0, 1, 0, 0, 0, 0]];
            query.parameters = vec![test; TESTS];
            query.parameters[TESTS - 1] = [0, 2, 4, 0, 0];
            self.matching(&format!("336 parameters, {TESTS} tests {name}"), &many, &query);
        }
        for (collation, form) in [(0, "octet"), (1, "casemap")] {
            let long = filled(NOTHING, &format!("X;Q={}:v\r\n", "a".repeat(1_010)));
            let mut query = query(&["X", "Q", &format!("{}b", "a".repeat(254))]);
            query.properties = vec![[0, 1, 0, 0, 0, 0]];
            query.parameters = vec![[0, 2, 4, collation, 2]; TESTS];
            query.parameters[TESTS - 1] = [0, 2, 4, collation, 0];
            self.matching(&format!("a..ab in a parameter's 1,010 bytes a, {form}, {TESTS} tests"), &long, &query);
        }
    }

    /// Many components, deep ones, and many tests of them.
    fn components(&mut self) {
        self.report("8 deep, 36 times", calendar(&nested(7, "", "").repeat(36)));
        let long = "A".repeat(110);
        let named = format!("BEGIN:{long}\r\nEND:{long}\r\n");
        self.report("components with names of 110 bytes", calendar(&named.repeat(INNER)));

        let mut chain = query(&["A", "X", "Y"]);
        chain.components.extend((0..7).map(|parent| [parent, 1, 0, 0]));
        chain.properties = (0..TESTS as u8).map(|test| [test % 8, 2, 0, 0, 0, 0]).collect();
        let deep = nested(7, &"A:\r\n".repeat(16_000), "X:\r\n") + "X:\r\n";
        self.matching("8 deep, 4 tests at each of a line behind 16,000", &calendar(&deep), &chain);
        chain.properties[TESTS - 1] = [7, 3, 0, 0, 0, 0];
        let chains = nested(7, &"A:\r\n".repeat(400), "X:\r\n").repeat(36) + "X:\r\n";
        self.matching("8 deep, 36 times, 4 tests at each, the innermost fails", &calendar(&chains), &chain);
        let mut tree = query(&["A"]);
        tree.components.extend((1..COMPONENTS as u8).map(|test| [(test - 1) / 2, 1, 0, 0]));
        self.matching("84 chains of 3, 15 tests in pairs", &calendar(&nested(3, "", "").repeat(84)), &tree);

        let padded = nested(1, &"N:\r\n".repeat(59), "").repeat(INNER - 1);
        let mut wide = query(&["B"]);
        wide.components.extend([[0, 1, 0, 0]; COMPONENTS - 1]);
        let behind = [&padded, "BEGIN:B\r\nEND:B\r\n"].concat();
        self.matching("15 tests of a component behind 254 of 60 lines", &calendar(&behind), &wide);
        let mut around = query(&["VEVENT", "Y"]);
        around.components.push([0, 1, 0, 0]);
        around.properties = vec![[1, 2, 0, 0, 0, 0]; TESTS];
        let event = [EVENT[0], &padded, "Y:\r\n", EVENT[1]].concat();
        self.matching(&format!("{TESTS} tests of a line behind 254 inner components"), &calendar(&event), &around);
    }

    /// Many events and blocks, and many tests of them.
    fn events(&mut self) {
        let event = |day: &str| {
            let times = format!("DTSTART:{day}T000000Z\r\nDTEND:{day}T010000Z\r\n");
            let others = "RRULE:FREQ=DAILY;INTERVAL=1;COUNT=1\r\nSTATUS:CONFIRMED\r\n";
            ["BEGIN:VEVENT\r\n", &times, others, &"N:\r\n".repeat(28), "END:VEVENT\r\n"].concat()
        };
        let events = calendar(&(event("20000101").repeat(INNER - 1) + &event("19700101")));
        let mut ranges = query(&["VEVENT"]);
        ranges.ranges = vec![(1_000, 2_000)];
        ranges.components.extend([[0, 1, 1, 0]; COMPONENTS - 1]);
        self.matching("15 ranges that only the last of 255 events is in", &events, &ranges);
        let mut all = query(&["VEVENT", "N", "STATUS", "x"]);
        all.components.extend([[0, 1, 0, 0]; COMPONENTS - 1]);
        all.properties = (0..TESTS as u8).map(|test| [1 + test % 15, 2 + test % 2, 0, 0, 0, 0]).collect();
        all.properties[14] = [15, 2, 0, 5, 1, 0];
        self.matching("255 events of 34 lines, 15 tests with 32 properties, the last fails", &events, &all);
        let mut one = query(&["VEVENT", "N", "x"]);
        one.components.push([0, 1, 0, 0]);
        one.properties = vec![[1, 2, 0, 4, 1, 2]; TESTS];
        one.properties[TESTS - 1] = [1, 2, 0, 4, 1, 0];
        self.matching("255 events of 34 lines, a test with 32 properties, the last fails", &events, &one);

        let block = |period: &str| format!("{}FREEBUSY:{}\r\n{}", BLOCK[0], [period; 45].join(","), BLOCK[1]);
        let mut blocks = query(&["VFREEBUSY"]);
        blocks.ranges = vec![(1_000, 2_000)];
        blocks.components.extend([[0, 1, 1, 0]; COMPONENTS - 1]);
        let last = filled(["", &block("19700101T000000Z/P1W")], &block("20000101T000000Z/P1W"));
        self.matching("15 ranges that only the last block is in", &last, &blocks);
    }

    /// A daily event from 1970 on with as many exceptions as there is room for, and events with
    /// some each.
    fn exceptions(&mut self) {
        for (order, numbers) in orders(EXCEPTIONS) {
            for (left, limit) in [("500 stand", ";COUNT=7500"), ("none stands", ";COUNT=7000"), ("endless", "")] {
                let name = format!("7,000 exceptions, {order}, {left}");
                let event = daily(&format!("{limit}\r\n{}", exceptions(&numbers)));
                let last = EXCEPTIONS * DAY;
                self.report(&name, calendar(&event));
                self.report_to(last, &format!("{name}, all of the range"), calendar(&event));
                self.ranges_to(last, &name, &calendar(&event));
                self.ranges_to(last - DAY - 10, &format!("{name}, all of each range"), &calendar(&event));
            }
        }
        let misses: Vec<i64> = (0..EXCEPTIONS).map(|k| 20_000 + k).collect();
        let event = daily(&format!(";COUNT=500\r\n{}", exceptions(&misses)));
        self.report("7,000 exceptions of no instance", calendar(&event));
        self.ranges_to(DAY, "7,000 exceptions of no instance", &calendar(&event));
        let hundred: Vec<i64> = (0..100).rev().collect();
        let events = filled(NOTHING, &daily(&format!(";COUNT=105\r\n{}", exceptions(&hundred))));
        self.report("events with 100 exceptions each", events.clone());
        self.ranges_to(100 * DAY, "events with 100 exceptions each", &events);
    }

    /// A master with as many overrides as there can be, alone and with many exceptions, before
    /// and behind them.
    fn overrides(&mut self) {
        let after = |number: i64| written(Kind::Date, number * DAY, 0);
        for (order, numbers) in orders(OVERRIDES) {
            let of = |number: &i64| {
                let (id, start) = (after(*number), after(*number + 20_000));
                let lines = format!("RECURRENCE-ID;VALUE=DATE:{id}\r\nDTSTART;VALUE=DATE:{start}\r\n");
                format!("BEGIN:VEVENT\r\nUID:u\r\n{lines}END:VEVENT\r\n")
            };
            let overrides: String = numbers.iter().map(of).collect();
            let others: Vec<i64> = (0..3_500).rev().map(|k| OVERRIDES + k).collect();
            for (name, own) in [
                ("", ";COUNT=500\r\nUID:u\r\n".to_string()),
                (" and 3,500 exceptions", format!("\r\nUID:u\r\n{}", exceptions(&others))),
            ] {
                let last = DAY * if name.is_empty() { OVERRIDES } else { OVERRIDES + 3_500 };
                for (place, events) in
                    [("first", [daily(&own), overrides.clone()]), ("last", [overrides.clone(), daily(&own)])]
                {
                    let name = format!("{OVERRIDES} overrides{name}, {order}, the master {place}");
                    let calendar = calendar(&events.concat());
                    self.report(&name, calendar.clone());
                    self.report_to(last, &format!("{name}, all of the range"), calendar.clone());
                    self.ranges_to(last, &name, &calendar);
                }
            }
        }
    }

    /// Many UIDs: of sound events, and of broken masters behind overrides, which are not asked
    /// whether they fit.
    fn uids(&mut self) {
        let event = |uid: String| format!("{}UID:{uid}\r\n{}", EVENT[0], EVENT[1]);
        for length in [40, 200] {
            let same = "u".repeat(length - 4);
            let last = |number: usize| event(format!("{same}{number:04}"));
            let first = |number: usize| event(format!("{number:04}{same}"));
            let falling = |number: usize| event(format!("{same}{:04}", 9_999 - number * 37 % 250));
            let events: [(&str, &dyn Fn(usize) -> String); 3] =
                [("at the end", &last), ("at the start", &first), ("at the end, mixed", &falling)];
            for (place, event) in events {
                let name = format!("250 UIDs of {length} bytes that differ {place}");
                let events: String = (0..250).map(event).collect();
                self.report(&name, calendar(&events));
                self.ranges_to(10_957 * DAY, &name, &calendar(&events));
            }
        }
        let moved = |uid: &str| {
            let times = "RECURRENCE-ID:20000101T000000Z\r\nDTSTART:20000101T000000Z\r\n";
            format!("BEGIN:VEVENT\r\nUID:{uid}\r\n{times}END:VEVENT\r\n")
        };
        let broken = |lines: &str| format!("BEGIN:VEVENT\r\n{lines}END:VEVENT\r\n");
        let overrides: String = (0..120).map(|number| moved(&format!("v{number:03}"))).collect();
        let named: String = (0..120).map(|number| format!("UID:v{number:03}\r\n")).collect();
        let (room, one) = (LONGEST - overrides.len() - named.len() - 300, "UID:u000\r\n");
        let many = one.repeat(room / one.len());
        let different: String = (0..room / 11).map(|number| format!("UID:{number:05}\r\n")).collect();
        for (name, lines) in [("equal UIDs", many), ("different UIDs", different)] {
            let behind = [overrides.as_str(), &broken(&[lines.as_str(), &named].concat())].concat();
            self.report(&format!("120 overrides before a broken master with {name}"), calendar(&behind));
            let lost = [overrides.as_str(), &broken(&lines)].concat();
            self.report(&format!("120 overrides without a master before one with {name}"), calendar(&lost));
        }
        let masters = broken("UID:a\r\n").replace("UID:a\r\n", &"UID:a\r\n".repeat(45)).repeat(125);
        let behind = [overrides.as_str(), &masters, &broken(&named)].concat();
        self.report("120 overrides before 126 broken masters", calendar(&behind));
        self.report("9,000 empty UIDs in a broken master", filled(EVENT, "UID:\r\n"));
    }
}

/// How many exceptions and how many overrides a calendar has room for.
const EXCEPTIONS: i64 = 7_000;
const OVERRIDES: i64 = 250;

/// The numbers from 0 in three orders.
fn orders(count: i64) -> [(&'static str, Vec<i64>); 3] {
    let mixed = (0..count).map(|k| k * 4_999 % count).collect();
    [("rising", (0..count).collect()), ("falling", (0..count).rev().collect()), ("mixed", mixed)]
}

/// A daily event of whole days from 1970 on, with what follows the frequency of its rule.
fn daily(own: &str) -> String {
    format!("BEGIN:VEVENT\r\nDTSTART;VALUE=DATE:19700101\r\nRRULE:FREQ=DAILY{own}END:VEVENT\r\n")
}

/// EXDATE lines with these days, counted from 1970, in lists as long as a line holds.
fn exceptions(days: &[i64]) -> String {
    let list = |days: &[i64]| {
        let items: Vec<String> = days.iter().map(|day| written(Kind::Date, day * DAY, 0)).collect();
        format!("EXDATE;VALUE=DATE:{}\r\n", items.join(","))
    };
    days.chunks(111).map(list).collect()
}

/// Components in one another, `inner` in the innermost and `behind` before the end of each.
fn nested(depth: usize, inner: &str, behind: &str) -> String {
    let end = [behind, "END:A\r\n"].concat();
    ["BEGIN:A\r\n".repeat(depth), inner.to_string(), end.repeat(depth)].concat()
}

/// A query of VCALENDAR with no test yet; the texts follow its name.
fn query(texts: &[&str]) -> Query {
    let texts = std::iter::once("VCALENDAR").chain(texts.iter().copied());
    Query {
        ranges: Vec::new(),
        texts: texts.map(|text| text.as_bytes().to_vec()).collect(),
        components: vec![CALENDAR],
        properties: Vec::new(),
        parameters: Vec::new(),
    }
}

fn calendar(body: &str) -> Vec<u8> {
    ["BEGIN:VCALENDAR\r\n", body, "END:VCALENDAR\r\n"].concat().into_bytes()
}

/// A calendar with the piece, as often as there is room, between a head and a tail.
fn filled([head, tail]: [&str; 2], piece: &str) -> Vec<u8> {
    let room = LONGEST - calendar(&[head, tail].concat()).len();
    calendar(&[head, &piece.repeat(room / piece.len()), tail].concat())
}

/// A block with a period for each number, two hours from one to the next, the types in turn.
fn periods(order: &[usize], types: &[&str], length: &str) -> String {
    let mut text = BLOCK[0].to_string();
    for (line, numbers) in order.chunks(40).enumerate() {
        let items: Vec<String> = numbers
            .iter()
            .map(|k| format!("2000{:02}{:02}T{:02}0000Z/{length}", 1 + k / 12 / 28, 1 + k / 12 % 28, 2 * (k % 12)))
            .collect();
        text.push_str(&format!("FREEBUSY;FBTYPE={}:{}\r\n", types[line % types.len()], items.join(",")));
    }
    text + BLOCK[1]
}
