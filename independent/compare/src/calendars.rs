//! Makes calendars as lists of lines: valid ones, and ones with faults at a chosen rate.
//! Times gather around one focus, and the seconds used are kept as marks for ranges.

use crate::random::Random;

/// 20991231T235959Z.
pub const LAST_SECOND: i64 = 4_102_444_799;
/// Seconds of a day.
pub const DAY: i64 = 86_400;

#[derive(Clone, Copy, PartialEq, Eq)]
pub enum Kind {
    Utc,
    Floating,
    Date,
}

/// Makes the lines of one calendar.
pub struct Maker<'r> {
    pub random: &'r mut Random,
    pub offset: i64,
    /// Times are within `spread` of it.
    pub focus: i64,
    pub spread: i64,
    /// How many in a thousand places go wrong.
    pub faults: usize,
    /// Seconds at which something starts or ends.
    pub marks: Vec<i64>,
    /// DTSTART and DTEND of blocks that have both.
    pub spans: Vec<(i64, i64)>,
    /// Starts and ends of instances that are taken away, and of those put in their places.
    pub instances: Vec<(i64, i64)>,
    pub lines: Vec<Vec<u8>>,
}

impl<'r> Maker<'r> {
    pub fn new(random: &'r mut Random, offset: i64) -> Self {
        let focus = match random.below(10) {
            0 => 0,
            1 => LAST_SECOND,
            2 => random.between(0, LAST_SECOND),
            3 => 951_782_400,
            _ => 1_710_144_000,
        };
        let spread = random.number(&[30, 7_200, DAY, 10 * DAY, 10 * DAY, 90 * DAY, 700 * DAY, LAST_SECOND]);
        let faults = random.number(&[0, 0, 0, 0, 0, 0, 0, 4, 20, 120, 300]) as usize;
        let (marks, spans, instances, lines) = (Vec::new(), Vec::new(), Vec::new(), Vec::new());
        Maker { random, offset, focus, spread, faults, marks, spans, instances, lines }
    }

    pub fn fault(&mut self) -> bool {
        self.random.often(self.faults)
    }

    /// Adds a line, its letters at times in another case.
    pub fn line(&mut self, text: &str) {
        let mut bytes = text.as_bytes().to_vec();
        match self.random.below(40) {
            0 => bytes.make_ascii_lowercase(),
            1 => bytes.iter_mut().filter(|_| self.random.often(400)).for_each(|b| {
                if b.is_ascii_alphabetic() {
                    *b ^= 32;
                }
            }),
            _ => {}
        }
        self.lines.push(bytes);
    }

    /// A whole calendar of about that many components.
    pub fn calendar(&mut self, components: usize) {
        self.line("BEGIN:VCALENDAR");
        self.header();
        for _ in 0..components {
            match self.random.below(20) {
                0..=7 => self.event(),
                8..=9 => self.series(),
                10..=15 => self.block(),
                16 => self.other(1),
                17 => self.deep(),
                18 => self.lines_of_noise(),
                _ => self.any_property(),
            }
        }
        self.line("END:VCALENDAR");
    }

    pub fn header(&mut self) {
        if self.random.often(700) {
            self.line("VERSION:2.0");
        }
        if self.random.often(700) {
            self.line("PRODID:-//Cover Desk//Free Busy//EN");
        }
    }

    /// Exactly so many components in all, VCALENDAR among them.
    pub fn crowd(&mut self, total: usize) {
        self.line("BEGIN:VCALENDAR");
        let mut left = total - 1;
        while left > 0 {
            let depth = (1 + self.random.below(3)).min(left);
            let name = if depth == 1 { "VFREEBUSY" } else { "X-C" };
            (0..depth).for_each(|_| self.line(&format!("BEGIN:{name}")));
            (0..depth).for_each(|_| self.line(&format!("END:{name}")));
            left -= depth;
        }
        self.line("END:VCALENDAR");
    }

    /// Close to 512 busy pieces over the whole span, from rules and from period lists.
    pub fn busy(&mut self) {
        let total = self.random.number(&[510, 511, 512, 512, 513, 513, 514, 600]);
        let mut left = total;
        self.line("BEGIN:VCALENDAR");
        while left > 0 {
            let here = self.random.between(1, left.min(300));
            left -= here;
            if self.random.often(500) {
                let step = self.random.number(&[1, 1, 2, 7]);
                let start = 1_000_000_000 + self.random.between(0, 50 * DAY);
                self.line("BEGIN:VEVENT");
                self.line(&format!("DTSTART:{}", written(Kind::Utc, start, self.offset)));
                let duration = self.random.pick(&["PT1S", "PT1H", "P1D", "P1DT1S", "P3D", "PT23H59M59S"]);
                self.line(&format!("DURATION:{duration}"));
                let removed = if self.random.often(300) { self.random.between(1, 8) } else { 0 };
                self.line(&format!("RRULE:FREQ=DAILY;INTERVAL={step};COUNT={}", here + removed));
                for number in 0..removed {
                    // From both ends, none twice.
                    let number = if number % 2 == 0 { number / 2 } else { here + removed - 1 - number / 2 };
                    let second = start + number * step * DAY;
                    self.line(&format!("EXDATE:{}", written(Kind::Utc, second, self.offset)));
                }
                let status = self.random.pick(&["CONFIRMED", "TENTATIVE", "X"]);
                self.line(&format!("STATUS:{status}"));
                self.line("END:VEVENT");
            } else {
                self.line("BEGIN:VFREEBUSY");
                let mut done = 0;
                let mut at = 1_000_000_000 + self.random.between(0, 50 * DAY);
                while done < here {
                    let count = self.random.between(1, 25).min(here - done);
                    let mut items = Vec::new();
                    for _ in 0..count {
                        let length = self.random.number(&[1, 60, 3_600, 4_000]);
                        items.push(format!("{}/PT{length}S", written(Kind::Utc, at, self.offset)));
                        at += self.random.number(&[0, 1, 60, 3_600, 3_601, 7_200]);
                    }
                    done += count;
                    let kind =
                        self.random.pick(&["", ";FBTYPE=BUSY", ";FBTYPE=BUSY-TENTATIVE", ";FBTYPE=BUSY-UNAVAILABLE"]);
                    self.line(&format!("FREEBUSY{kind}:{}", items.join(",")));
                }
                if self.random.often(300) {
                    self.line("FREEBUSY;FBTYPE=FREE:20010101T000000Z/P400D");
                }
                self.line("END:VFREEBUSY");
            }
        }
        self.line("END:VCALENDAR");
        self.marks.extend([1_000_000_000, 1_000_000_000 + 50 * DAY]);
    }

    /// A second near the focus, within the limits and their offsets.
    pub fn second(&mut self) -> i64 {
        let near = self.focus.saturating_add(self.random.between(-self.spread, self.spread));
        let second =
            if self.random.often(15) { self.random.number(&[0, 1, LAST_SECOND, LAST_SECOND - 1]) } else { near };
        let second = if second % 60 != 0 && self.random.often(600) { second - second % 900 } else { second };
        let second = second.clamp(0, LAST_SECOND);
        self.marks.push(second);
        second
    }

    pub fn kind(&mut self) -> Kind {
        match self.random.below(10) {
            0..=4 => Kind::Utc,
            5..=7 => Kind::Floating,
            _ => Kind::Date,
        }
    }

    /// The second that a time of the kind stands for.
    pub fn settled(&self, kind: Kind, second: i64) -> i64 {
        match kind {
            Kind::Date => {
                let day = (second + self.offset).div_euclid(DAY);
                let first = (self.offset + DAY - 1).div_euclid(DAY);
                day.clamp(first, (LAST_SECOND + self.offset).div_euclid(DAY)) * DAY - self.offset
            }
            _ => second,
        }
    }

    /// The parameters of a line that is read as DTSTART is.
    pub fn time_parameters(&mut self, kind: Kind) -> String {
        if self.fault() {
            let bad = [
                ";TZID=Europe/Paris", ";tzid=\"a;b:c,d\"", ";VALUE=DATE;VALUE=DATE", ";VALUE=DATE,DATE", ";VALUE=",
                ";VALUE=\"\"", ";VALUE=PERIOD", ";VALUE=DATE,", ";VALUE=\"DATE\";X=1", ";VALUE=DATE-TIME",
                ";VALUE=DATE", ";VALUE=DATE-TIME;TZID=", ";VALUE=DATE-TIME;value=\"date-time\"", ";VALUE= DATE",
                ";VALUE=\"DATE,DATE\"", ";VALUE=\"DATE\",\"DATE\"",
            ];
            return self.random.pick(&bad).to_string();
        }
        let own = match kind {
            Kind::Date => self.random.pick(&[";VALUE=DATE", ";VALUE=DATE", ";VALUE=\"DATE\"", ";value=Date"]),
            _ => self.random.pick(&["", "", "", "", ";VALUE=DATE-TIME", ";VALUE=\"date-time\""]),
        };
        let extra = if self.random.often(80) { self.parameters() } else { String::new() };
        if self.random.often(500) {
            format!("{own}{extra}")
        } else {
            format!("{extra}{own}")
        }
    }

    /// A time of the kind, at times a bad or an edgy one instead.
    fn time(&mut self, kind: Kind, second: i64) -> String {
        if self.fault() {
            self.edgy_time()
        } else if self.random.often(10) {
            written(kind, second, self.offset).to_ascii_lowercase()
        } else {
            written(kind, second, self.offset)
        }
    }

    /// A time at an edge, good or bad.
    pub fn edgy_time(&mut self) -> String {
        const EDGES: &[&str] = &[
            "19700101T000000Z", "19691231T235959Z", "19691231T235960Z", "20991231T235959Z", "20991231T235960Z",
            "21000101T000000Z", "20000229T000000Z", "20010229T000000Z", "20040229T010203Z", "21000229T000000Z",
            "19000101T000000Z", "00000101T000000Z", "00000229T000000", "99991231T235959Z", "20240311T240000Z",
            "20240311T236000Z", "20240311T235961Z", "20240311T235960Z", "20240311T235960", "20240311", "20240229",
            "20230229", "20240311T080000", "2024031T080000Z", "20240311t080000z", "20240311T080000ZZ", "", "Z", "T",
            "20240311T08000Z", "20241311T080000Z", "20240011T080000Z", "20240300T080000Z", "20240431T080000Z",
            "20240430T080000Z", "20240132T000000Z", "20240131T000000Z", " 20240311T080000Z", "+0240311T080000Z",
            "20240311T080000Z ", "19700101T140000", "19700101T100000", "19691231T100000", "20991231T235959",
            "21000101T000000", "21000101T135959", "21000101T140000", "19700101", "19691231", "21000101", "21000102",
            "20991231", "20240311080000Z", "20240311T080000+0000", "2024-03-11T08:00:00Z", "20240311T0800000",
            "202403111T080000Z", "19700102T000000", "20991231T000000", "20240311T08:000Z", "2024031/T080000Z",
            "20240311T080000z", "20240311 080000Z",
        ];
        let limit = if self.random.often(500) { 0 } else { LAST_SECOND };
        match self.random.below(8) {
            0..=2 => self.random.pick(EDGES).to_string(),
            3 => {
                let second = limit + self.random.between(-1, 1);
                written(Kind::Utc, second, self.offset)
            }
            4 => {
                let second = limit + self.random.between(-1, 1);
                written(Kind::Floating, second, self.offset)
            }
            5 => {
                let second = limit + self.random.between(-1, 1) * DAY;
                written(Kind::Date, second, self.offset)
            }
            _ => {
                let second = self.second();
                let kind = self.kind();
                let mut text = written(kind, second, self.offset).into_bytes();
                let at = self.random.below(text.len());
                text[at] = b"0123456789TZtz /:-"[self.random.below(18)];
                String::from_utf8_lossy(&text).into_owned()
            }
        }
    }

    /// A duration, and its seconds if good ones are wanted.
    fn duration(&mut self, whole_days: bool) -> (String, i64) {
        let sign = if self.random.often(100) { "+" } else { "" };
        let many = |random: &mut Random, most: i64| match random.below(12) {
            0 => 0,
            1 => most,
            2 => 1,
            _ => random.between(1, most.min(40)),
        };
        let pad = if self.random.often(60) { 6 } else { 1 };
        let r = &mut *self.random;
        let form = if whole_days { r.below(2) } else { r.below(9) };
        let (days, hours, minutes, seconds) = (many(r, 1_800), many(r, 20_000), many(r, 999_999), many(r, 999_999));
        let (text, total) = match form {
            0 => (format!("P{:0pad$}W", days / 6), days / 6 * 7 * DAY),
            1 => (format!("P{days:0pad$}D"), days * DAY),
            2 => (format!("P{days:0pad$}DT{hours}H"), days * DAY + hours * 3_600),
            3 => (format!("PT{hours:0pad$}H{minutes}M{seconds}S"), hours * 3_600 + minutes * 60 + seconds),
            4 => (format!("PT{minutes:0pad$}M"), minutes * 60),
            5 => (format!("PT{seconds:0pad$}S"), seconds),
            6 => (format!("PT{minutes}M{seconds:0pad$}S"), minutes * 60 + seconds),
            7 => (format!("P{days}DT{seconds}S"), days * DAY + seconds),
            _ => (format!("PT{hours}H{minutes:0pad$}M"), hours * 3_600 + minutes * 60),
        };
        (format!("{sign}{text}"), total)
    }

    /// A duration at an edge, or one of the letters in any order.
    pub fn edgy_duration(&mut self) -> String {
        const EDGES: &[&str] = &[
            "P", "PT", "P1DT", "+P1D", "-P1D", "--P1D", "++P1D", "P1W", "P1W1D", "P1D1W", "PT1H30S", "PT1H30M",
            "P1DT30S", "PT0S", "P0D", "P0W", "PT1S1M", "PT1M1H", "P1DT0S", "PT000001S", "PT0000001S", "P3650D",
            "P3651D", "P3649DT86400S", "P3649DT86401S", "P3650DT0S", "P3650DT1S", "P521W", "P522W", "PT87600H",
            "PT87601H", "PT87600H0M0S", "PT87600H0M1S", "P999999W", "P999999D", "PT999999H", "PT999999M", "PT999999S",
            "P1000000D", "p1dt2h", "P1DT2H", "P1D2H", "PT1D", "P1H", "P1M", "PT1W", "", "+", "1D", "P 1D", "P1D ",
            "P1.5D", "PT1H1M1S1S", "P1DT1H1M1S", "PTS", "PD", "P1", "PT1", "P1DT1", "P-1D", "P+1D", "PT1HM", "P1DTT1H",
            "PTT1H", "P1DP1D", "PT5256000M", "PT1H1H", "P0001W",
        ];
        if self.random.often(550) {
            return self.random.pick(EDGES).to_string();
        }
        let mut text = if self.random.often(800) { "P".to_string() } else { String::new() };
        for _ in 0..self.random.below(7) {
            let token = self.random.pick(&[
                "T", "W", "D", "H", "M", "S", "1", "0", "12", "000060", "1D", "2H", "3M", "4S", "T5H", "t1m", "+", "P",
            ]);
            text.push_str(token);
        }
        text
    }

    /// A good rule for an event of that start, kind and length.
    fn rule(&mut self, kind: Kind, start: i64, length: i64) -> String {
        let weekly = self.random.often(350);
        let interval = match self.random.below(12) {
            0 => 999,
            1..=2 => self.random.between(1, 999),
            _ => self.random.between(1, 4),
        };
        let step = interval * DAY * if weekly { 7 } else { 1 };
        let mut parts = vec![format!("FREQ={}", if weekly { "WEEKLY" } else { "DAILY" })];
        if interval > 1 || self.random.often(200) {
            let pad = if self.random.often(100) { 4 } else { 1 };
            parts.push(format!("INTERVAL={interval:0pad$}"));
        }
        let last = match self.random.below(10) {
            0..=4 => {
                let count = match self.random.below(8) {
                    0 => 1,
                    1 => 9_999,
                    2 => self.random.between(1, 9_999),
                    _ => self.random.between(1, 30),
                };
                parts.push(format!("COUNT={count}"));
                count - 1
            }
            5..=7 => {
                let times = self.random.between(0, 40);
                let until = start + times * step + self.random.number(&[0, 0, 1, 600, DAY, -1]);
                let until = until.clamp(start, LAST_SECOND.max(start));
                let until = self.settled(kind, until).max(start);
                parts.push(format!("UNTIL={}", written(kind, until, self.offset)));
                self.marks.push(until);
                times
            }
            _ => 1_000,
        };
        for k in [1, last / 2, last, last + 1] {
            self.marks.extend([start + k * step, start + k * step + length]);
        }
        self.random.shuffle(&mut parts);
        parts.join(";")
    }

    /// A rule of any parts, most of them bad.
    pub fn edgy_rule(&mut self) -> String {
        const PARTS: &[&str] = &[
            "FREQ=DAILY", "FREQ=WEEKLY", "freq=daily", "FREQ=MONTHLY", "FREQ=", "FREQ=DAILY=X", "FREQ=DAILY ", "FREQ",
            "COUNT=5", "COUNT=0", "COUNT=1", "COUNT=0001", "COUNT=00001", "COUNT=9999", "COUNT=10000", "COUNT=",
            "COUNT=5x", "COUNT=-1", " COUNT=5", "INTERVAL=1", "INTERVAL=0", "INTERVAL=999", "INTERVAL=0999",
            "INTERVAL=1000", "INTERVAL=00999", "INTERVAL=", "interval=2", "UNTIL=", "BYDAY=MO", "BYDAY=", "BYDAY",
            "BY DAY=MO", "=1", "", "WKST=MO", "X-A=1", "-=", "UNTIL=20990101T000000Z", "UNTIL=20990101T000000",
            "UNTIL=20990101", "UNTIL=99991231T235959Z", "UNTIL=20240311T080060Z", "until=20300101t000000z",
            "COUNT=5,6", "FREQ=DAILY,WEEKLY",
        ];
        let mut parts = Vec::new();
        if self.random.often(400) {
            // One fault at most, beside parts that are good.
            parts.push(self.random.pick(&["FREQ=DAILY", "FREQ=WEEKLY"]).to_string());
            parts.push(self.random.pick(PARTS).to_string());
            if self.random.often(400) {
                parts.push(self.random.pick(&["COUNT=3", "INTERVAL=2", "UNTIL=20990101T000000Z"]).to_string());
            }
            self.random.shuffle(&mut parts);
            return parts.join(";");
        }
        if self.random.often(700) {
            parts.push(self.random.pick(&["FREQ=DAILY", "FREQ=WEEKLY"]).to_string());
        }
        for _ in 0..self.random.below(4) {
            if self.random.often(120) {
                let time = self.edgy_time();
                parts.push(format!("UNTIL={time}"));
            } else {
                parts.push(self.random.pick(PARTS).to_string());
            }
        }
        self.random.shuffle(&mut parts);
        parts.join(";")
    }

    /// A VEVENT.
    pub fn event(&mut self) {
        let kind = self.kind();
        let wanted = self.second();
        let start = self.settled(kind, wanted);
        let mut own = Vec::new();
        if !self.fault() {
            let (parameters, value) = (self.time_parameters(kind), self.time(kind, start));
            own.push(format!("DTSTART{parameters}:{value}"));
        }
        let ending = self.random.below(10);
        let length = match ending {
            0..=3 => {
                let scale = self.random.number(&[2, 60, 3_600, 9_000, DAY, 3 * DAY, 40 * DAY, 4_000 * DAY]);
                let wanted = (start + self.random.between(1, scale)).min(LAST_SECOND);
                let end = if kind == Kind::Date { self.settled(kind, wanted + DAY) } else { wanted };
                let other = if self.fault() { self.kind() } else { kind };
                if end > start {
                    let (parameters, value) = (self.time_parameters(other), self.time(other, end));
                    own.push(format!("DTEND{parameters}:{value}"));
                }
                end - start
            }
            4..=7 => {
                let clock = self.fault();
                let (text, total) = self.duration(kind == Kind::Date && !clock);
                let bad = self.fault();
                let text = if bad { self.edgy_duration() } else { text };
                own.push(format!("DURATION:{text}"));
                total
            }
            _ => 0,
        };
        self.marks.push(start + length);
        if self.random.often(400) {
            let rule = if self.fault() { self.edgy_rule() } else { self.rule(kind, start, length) };
            own.push(format!("RRULE:{rule}"));
        }
        if self.random.often(350) {
            let status = self
                .random
                .pick(&["TENTATIVE", "TENTATIVE", "CANCELLED", "CONFIRMED", "", "TENTATIVE ", "tentative", "X"]);
            own.push(format!("STATUS:{status}"));
        }
        if self.random.often(250) {
            let value = self.random.pick(&["TRANSPARENT", "OPAQUE", "transparent", "", "TRANSPARENT,", "OPAQUE"]);
            own.push(format!("TRANSP:{value}"));
        }
        for _ in 0..self.random.below(4) {
            let property = self.property();
            own.push(property);
        }
        if self.random.often(400) {
            let uid = if self.fault() { "shared".to_string() } else { self.uid() };
            own.push(format!("UID:{uid}"));
        }
        if self.fault() {
            let time = self.edgy_time();
            let surplus = [
                "RDATE:20240311T080000Z", "EXDATE:", "EXRULE:FREQ=DAILY", "RECURRENCE-ID:20240311T080000Z",
                "RECURRENCE-ID;RANGE=THISANDFUTURE:x", "EXDATE:20240311T080000Z", "EXDATE;VALUE=DATE:20240311",
                "UID:another", "EXDATE:20240311T080000Z,", "EXDATE;TZID=x:y", "DTSTART:20240311T080000Z",
                "DTEND:20991231T235959Z", "DTEND;VALUE=DATE:20991231", "DURATION:PT1H", "STATUS:CONFIRMED",
                "TRANSP:OPAQUE", "RRULE:FREQ=DAILY", "rdate;TZID=x:", "DTSTART;TZID=x:y", "FREEBUSY:x",
            ];
            let extra = match self.random.below(6) {
                0 => format!("DTSTART:{time}"),
                1 => format!("DTEND:{time}"),
                2 => format!("EXDATE:{time}"),
                3 => format!("RECURRENCE-ID:{time}"),
                _ => self.random.pick(&surplus).to_string(),
            };
            own.push(extra);
        }
        if self.fault() && !own.is_empty() {
            let again = own[self.random.below(own.len())].clone();
            own.push(again);
        }
        self.put_event(own);
    }

    /// Adds a VEVENT of these lines in any order. The letters of a UID stay.
    pub fn put_event(&mut self, mut own: Vec<String>) {
        self.random.shuffle(&mut own);
        let inner = self.random.often(200);
        let at = self.random.below(own.len() + 1);
        self.line("BEGIN:VEVENT");
        for (number, text) in own.iter().enumerate() {
            if inner && number == at {
                self.other(2);
            }
            match text.strip_prefix("UID") {
                Some(rest) if self.random.often(20) => self.lines.push(format!("uId{rest}").into_bytes()),
                Some(_) => self.lines.push(text.as_bytes().to_vec()),
                None => self.line(text),
            }
        }
        self.line("END:VEVENT");
    }

    /// A UID that no event before has, but for the empty one.
    pub fn uid(&mut self) -> String {
        let number = self.lines.len();
        match self.random.below(40) {
            0 => String::new(),
            1 => format!("{}{number}", "long-".repeat(self.random.below(150))),
            2 => format!("{number} "),
            3 => format!("\u{e9}-{number};x=\"y\",z:"),
            4..=10 => format!("u{number}"),
            _ => format!("visit-{number}@clinic.example"),
        }
    }

    /// A VFREEBUSY.
    pub fn block(&mut self) {
        let mut own = Vec::new();
        let (a, b) = (self.second(), self.second());
        if a != b || self.fault() {
            let (first, last) = if self.fault() { (a.max(b), a) } else { (a.min(b), a.max(b)) };
            let share = if self.random.often(400) { 1_000 } else { 250 };
            for (name, second) in [("DTSTART", first), ("DTEND", last)] {
                if self.random.often(share) {
                    let kind = if self.fault() { self.kind() } else { Kind::Utc };
                    let (parameters, value) = (self.time_parameters(kind), self.time(kind, second));
                    own.push(format!("{name}{parameters}:{value}"));
                }
            }
            if own.len() == 2 {
                self.spans.push((first, last));
            }
        }
        for _ in 0..self.random.below(5) {
            let kind = self.fb_type();
            let count = 1 + self.random.below(5);
            let mut items = Vec::new();
            for _ in 0..count {
                items.push(self.period());
            }
            own.push(format!("FREEBUSY{kind}:{}", items.join(",")));
        }
        for _ in 0..self.random.below(2) {
            let property = self.property();
            own.push(property);
        }
        if self.random.often(50) {
            let unread = self.random.pick(&[
                "RDATE:x", "RRULE:x", "DURATION:x", "EXDATE:", "RECURRENCE-ID:", "STATUS:CANCELLED",
                "TRANSP:TRANSPARENT", "UID:shared", "UID:", "RECURRENCE-ID;RANGE=:x",
            ]);
            own.extend(vec![unread.to_string(); 1 + self.random.below(2)]);
        }
        if self.fault() {
            let extra = [
                "DTSTART:20240311T080000Z", "DTEND:20240311T080000Z", "FREEBUSY:", "DTEND;TZID=:",
                "DTSTART:20240311T080000",
            ];
            own.push(self.random.pick(&extra).to_string());
        }
        self.random.shuffle(&mut own);
        self.line("BEGIN:VFREEBUSY");
        own.iter().for_each(|text| self.line(text));
        if self.random.often(60) {
            self.other(2);
        }
        self.line("END:VFREEBUSY");
    }

    fn fb_type(&mut self) -> String {
        if self.fault() {
            let bad = [
                ";FBTYPE=FREE;FBTYPE=FREE", ";FBTYPE=BUSY,FREE", ";FBTYPE=BUSY,", ";FBTYPE=;FBTYPE=",
                ";FBTYPE=\"a\",\"b\"",
            ];
            return self.random.pick(&bad).to_string();
        }
        let good = [
            "", "", "", ";FBTYPE=BUSY", ";FBTYPE=BUSY-TENTATIVE", ";FBTYPE=BUSY-UNAVAILABLE", ";FBTYPE=FREE",
            ";fbtype=\"busy-tentative\"", ";FBTYPE=", ";FBTYPE=\"\"", ";FBTYPE=X-NEW",
            ";X-P=a,b;FBTYPE=BUSY-UNAVAILABLE", ";VALUE=PERIOD", ";TZID=x", ";FBTYPE=\" FREE\"",
            ";FBTYPE=\"FREE,BUSY\"", ";FBTYPE=Free",
        ];
        self.random.pick(&good).to_string()
    }

    fn period(&mut self) -> String {
        if self.fault() {
            let (time, duration) = (self.edgy_time(), self.edgy_duration());
            let good = "20240311T080000Z";
            return match self.random.below(10) {
                0 => String::new(),
                1 => format!("{time}/{good}"),
                2 => format!("{good}/{time}"),
                3 => format!("{good}/{duration}"),
                4 => format!("{good}/{good}"),
                5 => good.to_string(),
                6 => format!("{good}//PT1H"),
                7 => format!(" {good}/PT1H"),
                8 => format!("{time}/{duration}"),
                _ => format!("{good}/20240311T080001"),
            };
        }
        let start = self.second();
        let wanted = start + self.random.number(&[1, 2, 60, 900, 3_600, 5_400, DAY, 30 * DAY]);
        if self.random.often(500) && wanted <= LAST_SECOND {
            self.marks.push(wanted);
            return format!("{}/{}", written(Kind::Utc, start, 0), written(Kind::Utc, wanted, 0));
        }
        let (text, total) = match self.duration(false) {
            (_, 0) => ("PT1S".to_string(), 1),
            good => good,
        };
        self.marks.push(start + total);
        format!("{}/{text}", written(Kind::Utc, start, 0))
    }

    /// A component whose lines are not read, at that depth or below.
    fn other(&mut self, above: usize) {
        let name = self
            .random
            .pick(&["VALARM", "VTODO", "VJOURNAL", "VTIMEZONE", "X-BOX", "x-box", "-", "STANDARD"])
            .to_string();
        let name = if self.fault() {
            self.random.pick(&["VEVENT", "VFREEBUSY", "VCALENDAR", "VEVENTS"]).to_string()
        } else {
            name
        };
        // At times BEGIN and END fit each other, but one is not of its form.
        let (begin, end) = if self.fault() {
            self.random.pick(&[
                &("BEGIN;A=b:X", "END:X"),
                &("BEGIN:X", "END;A=:X"),
                &("BEGIN:A B", "END:A B"),
                &("BEGIN:", "END:"),
                &("BEGIN:X_", "END:X_"),
                &("BEGIN:\u{e9}", "END:\u{e9}"),
                &("BEGIN:X", "END:X "),
                &("BEGIN: X", "END:X"),
                &("BEGIN:X", "END:Y"),
                &("BEGIN:x", "end:X"),
            ])
        } else {
            &("", "")
        };
        let (begin, end) = match (*begin, *end) {
            ("", "") => (format!("BEGIN:{name}"), format!("END:{name}")),
            (begin, end) => (begin.to_string(), end.to_string()),
        };
        self.line(&begin);
        for _ in 0..self.random.below(3) {
            let odd = self.random.often(300);
            if odd {
                let text = self.random.pick(&[
                    "RDATE:x", "DTSTART:bad", "DTSTART;TZID=a:b", "RRULE:", "FREEBUSY:", "DURATION:-P1D",
                    "TRIGGER:-PT15M", "EXDATE:", "EXDATE;TZID=a:b", "RECURRENCE-ID;RANGE=:x", "UID:inner",
                ]);
                self.line(text);
            } else {
                self.any_property();
            }
        }
        if above < 7 && self.random.often(250) {
            self.other(above + 1);
        }
        self.line(&end);
    }

    /// Components down to the deepest level, or one more if it is to go wrong.
    fn deep(&mut self) {
        let levels = if self.fault() { 8 } else { 7 };
        (0..levels).for_each(|level| self.line(&format!("BEGIN:X-{level}")));
        self.any_property();
        (0..levels).rev().for_each(|level| self.line(&format!("END:X-{level}")));
    }

    fn any_property(&mut self) {
        let text = self.property();
        self.line(&text);
    }

    /// A line of a property that is not read.
    pub fn property(&mut self) -> String {
        let parameters = if self.random.often(500) { self.parameters() } else { String::new() };
        let name = self.random.pick(&[
            "SUMMARY", "ATTENDEE", "ATTENDEE", "DESCRIPTION", "X-UID", "LOCATION", "X-ROOM", "CATEGORIES", "DTSTAMP",
            "VCALENDAR",
        ]);
        let value = self.random.pick(&[
            "Morning cover", "mailto:cyrus@example.com", "mailto:lisa@example.com", "", "a\\,b\\;c\\n", "Event #1",
            "20240311T080000Z", "x:y;z=\"q\",w", "\u{e9}t\u{e9} \u{1f600}", "A\tB", "BEGIN:VEVENT", "aAaAaAab",
            "Standby, west wing",
        ]);
        format!("{name}{parameters}:{value}")
    }

    /// One or more well formed parameters.
    fn parameters(&mut self) -> String {
        let mut text = String::new();
        for _ in 0..1 + self.random.below(3) {
            let name = self.random.pick(&["PARTSTAT", "PARTSTAT", "CN", "ROLE", "X-P", "partstat", "1", "-"]);
            text.push_str(&format!(";{name}="));
            for number in 0..1 + self.random.below(3) * self.random.below(2) {
                if number > 0 {
                    text.push(',');
                }
                let value = self.random.pick(&[
                    "NEEDS-ACTION", "ACCEPTED", "\"ACCEPTED\"", "\"a;b:c,d\"", "", "\"\"", "Cyrus Daboo", "\"Lisa=D\"",
                    "a=b", "\u{fc}", "accepted",
                ]);
                text.push_str(value);
            }
        }
        text
    }

    /// Lines of the line grammar's bytes in any order; most are badly formed. Only where
    /// faults are wanted; else a fine one.
    fn lines_of_noise(&mut self) {
        if !self.fault() {
            self.lines.push(b"X-NOISE;A=,,\"\";B-2=\"x:y;z,w\",:any\tvalue \xff\"".to_vec());
            return;
        }
        let line = self.noise();
        self.lines.push(line);
    }

    /// A line of the grammar's bytes in any order.
    pub fn noise(&mut self) -> Vec<u8> {
        let mut line = Vec::new();
        for _ in 0..1 + self.random.below(12) {
            let piece: &[u8] = self.random.pick::<[u8]>(&[
                b"A", b"NAME", b"-", b"1", b";", b"=", b":", b",", b"\"", b"\"\"", b";B=", b";B=c", b"\"x;y:z,\"",
                b" ", b"\t", b"\x7f", b"\x00", b"\r", b"\n", b"\xc3", b"\x1f", b"_", b"END", b"BEGIN", b"X:y",
                b"A;B=c:d",
            ]);
            line.extend_from_slice(piece);
        }
        line
    }
}

/// A second as a time of that kind at that offset; any year from 0 to 9999 or so.
pub fn written(kind: Kind, second: i64, offset: i64) -> String {
    let local = if kind == Kind::Utc { second } else { second + offset };
    let (mut days, clock) = (local.div_euclid(DAY), local.rem_euclid(DAY));
    let leap = |year: i64| year % 4 == 0 && (year % 100 != 0 || year % 400 == 0);
    let year_days = |year: i64| if leap(year) { 366 } else { 365 };
    let mut year = 1970;
    while days < 0 {
        year -= 1;
        days += year_days(year);
    }
    while days >= year_days(year) {
        days -= year_days(year);
        year += 1;
    }
    let mut month = 1;
    for length in [31, if leap(year) { 29 } else { 28 }, 31, 30, 31, 30, 31, 31, 30, 31, 30, 31] {
        if days < length {
            break;
        }
        days -= length;
        month += 1;
    }
    let date = format!("{year:04}{month:02}{:02}", days + 1);
    let (hour, minute, second) = (clock / 3_600, clock / 60 % 60, clock % 60);
    match kind {
        Kind::Date => date,
        Kind::Floating => format!("{date}T{hour:02}{minute:02}{second:02}"),
        Kind::Utc => format!("{date}T{hour:02}{minute:02}{second:02}Z"),
    }
}
