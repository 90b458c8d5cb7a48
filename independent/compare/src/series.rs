//! Makes series: a master with exceptions, the overrides of its instances, and at times
//! something that breaks a rule between them. The VEVENTs of a series stand in any order.

use crate::calendars::{written, Kind, Maker, DAY, LAST_SECOND};

/// A master, as its exceptions and overrides see it.
struct Master {
    uid: String,
    kind: Kind,
    start: i64,
    length: i64,
    step: i64,
    /// How many instances it has; of an endless rule, as many as are within the limits.
    count: i64,
    /// The numbers of those that its exceptions name.
    excluded: Vec<i64>,
    /// The numbers of those that overrides name.
    replaced: Vec<i64>,
    lines: Vec<String>,
}

impl Master {
    fn instance(&self, number: i64) -> i64 {
        self.start + number * self.step
    }

    /// The number of the instance at that second.
    fn number(&self, second: i64) -> Option<i64> {
        let since = second - self.start;
        (since >= 0 && since % self.step == 0 && since / self.step < self.count).then_some(since / self.step)
    }

    /// How many of the instances start within the limits.
    fn nameable(&self) -> i64 {
        self.count.min((LAST_SECOND - self.start) / self.step + 1)
    }
}

impl Maker<'_> {
    /// A whole calendar of series, and now and then something between them.
    pub fn all_series(&mut self, count: usize) {
        self.line("BEGIN:VCALENDAR");
        self.header();
        for _ in 0..count {
            self.series();
            match self.random.below(12) {
                0 => self.event(),
                1 => self.block(),
                _ => {}
            }
        }
        self.line("END:VCALENDAR");
    }

    /// A master, its overrides, and at times what breaks their rules.
    pub fn series(&mut self) {
        let mut master = self.master();
        for _ in 0..self.random.number(&[0, 0, 1, 2, 3, 6]) {
            let second = self.exception(&master);
            self.exclude(&mut master, second);
        }
        let mut events = Vec::new();
        for _ in 0..self.random.number(&[0, 1, 1, 2, 3, 5]) {
            events.extend(self.good_override(&mut master));
        }
        let mut masters = vec![std::mem::take(&mut master.lines)];
        let breaches = self.random.number(&[0, 0, 0, 0, 0, 0, 0, 1, 1, 2]);
        for _ in 0..breaches {
            match self.random.below(3) {
                0 => self.break_master(&mut master, &mut masters, &mut events),
                1 => self.break_override(&master, &mut events),
                _ => self.misplace(&mut master, &mut masters, &mut events),
            }
        }
        // Masters keep their order among themselves, so that it is known which is first.
        let mut places: Vec<bool> = events.iter().map(|_| false).chain(masters.iter().map(|_| true)).collect();
        match self.random.below(4) {
            0 => {}
            1 => places.reverse(),
            _ => self.random.shuffle(&mut places),
        }
        self.random.shuffle(&mut events);
        let (mut masters, mut events) = (masters.into_iter(), events.into_iter());
        for of_master in places {
            let own = if of_master { masters.next() } else { events.next() };
            self.put_event(own.unwrap_or_default());
        }
        if self.random.often(60) {
            self.stranger(&master);
        }
    }

    /// A component besides events that has the master's UID, which ties it to nothing.
    fn stranger(&mut self, master: &Master) {
        let name = self.random.pick(&["VFREEBUSY", "VFREEBUSY", "VTODO"]);
        self.line(&format!("BEGIN:{name}"));
        self.lines.push(format!("UID:{}", master.uid).into_bytes());
        if self.random.often(500) {
            self.line(&format!("RECURRENCE-ID:{}", written(Kind::Utc, master.start, 0)));
        }
        self.line(&format!("END:{name}"));
    }

    /// A sound master without exceptions.
    fn master(&mut self) -> Master {
        let kind = self.kind();
        let mut wanted = self.second();
        if self.random.often(60) {
            wanted = (wanted - wanted % 60 + 59).min(LAST_SECOND);
        }
        let start = self.settled(kind, wanted);
        let weekly = self.random.often(250);
        let interval = self.random.number(&[1, 1, 1, 1, 2, 3, 30]);
        let step = interval * DAY * if weekly { 7 } else { 1 };
        let room = (LAST_SECOND - start) / step + 1;
        let few = self.random.between(1, 12);
        let (count, limit) = match self.random.below(10) {
            0 => (1, None),
            1..=5 => (few, Some(format!(";COUNT={few}"))),
            6..=7 => {
                let count = few.min(room);
                let unit = if kind == Kind::Date { DAY } else { 1 };
                let behind = self.random.number(&[0, 0, unit, step - unit]) % step;
                let until = (start + (count - 1) * step + behind).min(LAST_SECOND);
                let until = self.settled(kind, until);
                (count, Some(format!(";UNTIL={}", written(kind, until, self.offset))))
            }
            _ => (room, Some(String::new())),
        };
        let (uid, value) = (self.uid(), self.value(kind, start));
        let parameters = self.time_parameters(kind);
        let mut lines = vec![format!("UID:{uid}"), format!("DTSTART{parameters}:{value}")];
        lines.extend(limit.map(|limit| {
            let frequency = if weekly { "WEEKLY" } else { "DAILY" };
            format!("RRULE:FREQ={frequency};INTERVAL={interval}{limit}")
        }));
        let length = self.ending(kind, start, &mut lines);
        self.busy_type(150, &mut lines);
        self.extras(&mut lines);
        let (excluded, replaced) = (Vec::new(), Vec::new());
        Master { uid, kind, start, length, step, count, excluded, replaced, lines }
    }

    /// Adds an ending that fits the kind, or none, and gives the length.
    fn ending(&mut self, kind: Kind, start: i64, lines: &mut Vec<String>) -> i64 {
        let unit = if kind == Kind::Date { DAY } else { 3_600 };
        let long = self.random.number(&[unit, unit, unit, 2 * DAY, 9 * DAY]);
        match self.random.below(8) {
            0 if kind == Kind::Date => DAY,
            0 => 0,
            1..=2 if start + long <= LAST_SECOND => {
                let parameters = self.time_parameters(kind);
                lines.push(format!("DTEND{parameters}:{}", written(kind, start + long, self.offset)));
                long
            }
            3 if kind != Kind::Date => {
                lines.push("DURATION:PT1S".to_string());
                1
            }
            _ if long % DAY == 0 => {
                lines.push(format!("DURATION:P{}D", long / DAY));
                long
            }
            _ => {
                lines.push("DURATION:PT1H".to_string());
                long
            }
        }
    }

    /// Adds a STATUS or TRANSP line so many times in a thousand.
    fn busy_type(&mut self, per_mille: usize, lines: &mut Vec<String>) {
        if self.random.often(per_mille) {
            let status = self.random.pick(&["CANCELLED", "CANCELLED", "TENTATIVE", "TENTATIVE", "CONFIRMED"]);
            lines.push(format!("STATUS:{status}"));
        }
        if self.random.often(per_mille / 2) {
            let value = self.random.pick(&["TRANSPARENT", "OPAQUE"]);
            lines.push(format!("TRANSP:{value}"));
        }
    }

    /// Adds lines that are not read.
    fn extras(&mut self, lines: &mut Vec<String>) {
        if self.random.often(250) {
            let property = self.property();
            lines.push(property);
        }
    }

    /// A time of the kind, at times with second 60 for 59.
    fn value(&mut self, kind: Kind, second: i64) -> String {
        let text = written(kind, second, self.offset);
        let (clock, zone) = match text.strip_suffix('Z') {
            Some(clock) => (clock, "Z"),
            None => (text.as_str(), ""),
        };
        match clock.strip_suffix("59") {
            Some(clock) if kind != Kind::Date && self.random.often(400) => format!("{clock}60{zone}"),
            _ => text,
        }
    }

    /// A second for an exception: an instance in most cases, else one just beside.
    fn exception(&mut self, master: &Master) -> i64 {
        let some = self.random.between(0, master.nameable().min(12) - 1);
        let second = match self.random.below(10) {
            0 => master.instance(some) + self.random.number(&[1, -1, 3_600, DAY, -DAY]),
            1 => master.instance(master.count),
            2 => master.instance(-1),
            _ => master.instance(some),
        };
        let second = if (0..=LAST_SECOND).contains(&second) { second } else { master.instance(some) };
        self.settled(master.kind, second)
    }

    /// Excludes a second, on a line of its own or in the list of one that is there.
    fn exclude(&mut self, master: &mut Master, second: i64) {
        let value = self.value(master.kind, second);
        let joins = self.random.often(500);
        let list = master.lines.iter_mut().find(|line| joins && line.starts_with("EXDATE"));
        match list {
            Some(list) => list.push_str(&format!(",{value}")),
            None => {
                let range = if self.random.often(30) { ";RANGE=THISANDFUTURE" } else { "" };
                let parameters = self.time_parameters(master.kind);
                master.lines.push(format!("EXDATE{range}{parameters}:{value}"));
            }
        }
        master.excluded.extend(master.number(second));
        self.took_away(master, second);
    }

    /// Remembers the time of an instance for ranges.
    fn took_away(&mut self, master: &Master, second: i64) {
        self.instances.push((second, second + master.length.max(1)));
        self.marks.extend([second, second + master.length]);
    }

    /// An override of an instance that is neither excluded nor replaced yet, if there is one.
    fn good_override(&mut self, master: &mut Master) -> Option<Vec<String>> {
        let some = self.random.between(0, master.nameable().min(12) - 1);
        if master.excluded.contains(&some) || master.replaced.contains(&some) {
            return None;
        }
        master.replaced.push(some);
        Some(self.override_at(master, master.kind, master.instance(some)))
    }

    /// An override that names a second, whatever is there.
    fn override_at(&mut self, master: &Master, kind: Kind, second: i64) -> Vec<String> {
        self.took_away(master, second);
        let (parameters, value) = (self.time_parameters(kind), self.value(kind, second));
        let uid_parameters = if self.random.often(40) { ";X-P=a" } else { "" };
        let mut lines =
            vec![format!("UID{uid_parameters}:{}", master.uid), format!("RECURRENCE-ID{parameters}:{value}")];
        let kind = if self.random.often(150) { self.kind() } else { master.kind };
        let wanted = match self.random.below(8) {
            0..=1 => second,
            2..=3 => second + self.random.number(&[1, 1_800, 3_600, 7_200, -3_600, DAY, -DAY]),
            4 => master.instance(self.random.between(0, master.nameable().min(12) - 1)),
            5 => master.instance(master.nameable()),
            _ => self.second(),
        };
        let start = self.settled(kind, wanted.clamp(0, LAST_SECOND));
        let (parameters, value) = (self.time_parameters(kind), self.value(kind, start));
        lines.push(format!("DTSTART{parameters}:{value}"));
        let length = self.ending(kind, start, &mut lines);
        self.instances.push((start, start + length.max(1)));
        self.marks.extend([start, start + length]);
        self.busy_type(350, &mut lines);
        self.extras(&mut lines);
        lines
    }

    /// A kind besides that one.
    fn other_kind(&mut self, kind: Kind) -> Kind {
        let others = [Kind::Utc, Kind::Floating, Kind::Date].into_iter().filter(|other| *other != kind);
        let others: Vec<Kind> = others.collect();
        others[self.random.below(others.len())]
    }

    /// A second at which the master has no instance.
    fn miss(&mut self, master: &Master) -> i64 {
        let some = self.random.between(0, master.nameable().min(12) - 1);
        let wanted = [
            master.instance(some) + self.random.number(&[1, -1, DAY, -DAY, 3_600]),
            master.instance(master.count),
            master.instance(-1),
            master.instance(some) + master.step / 2,
        ];
        let wanted = wanted[self.random.below(wanted.len())].clamp(0, LAST_SECOND);
        self.settled(master.kind, wanted)
    }

    /// A RECURRENCE-ID that does not fit the master.
    fn misfit(&mut self, master: &mut Master, masters: &mut [Vec<String>]) -> Vec<String> {
        match self.random.below(4) {
            0..=1 => {
                let second = self.miss(master);
                self.override_at(master, master.kind, second)
            }
            2 => {
                let some = self.random.between(0, master.nameable().min(12) - 1);
                let second = master.instance(some);
                if !master.excluded.contains(&some) {
                    self.exclude(master, second);
                    let lines = std::mem::take(&mut master.lines);
                    masters.iter_mut().take(1).for_each(|first| first.extend(lines.iter().cloned()));
                }
                self.override_at(master, master.kind, second)
            }
            _ => {
                let kind = self.other_kind(master.kind);
                let second = master.instance(self.random.between(0, master.nameable().min(12) - 1));
                self.override_at(master, kind, self.settled(kind, second))
            }
        }
    }

    /// Breaks a rule of the master by itself, and adds what is asked or not asked of it then.
    fn break_master(&mut self, master: &mut Master, masters: &mut Vec<Vec<String>>, events: &mut Vec<Vec<String>>) {
        let Some(sound) = masters.first().cloned() else {
            return;
        };
        let other = self.other_kind(master.kind);
        let hit = master.instance(self.random.between(0, master.nameable().min(12) - 1));
        let another = if self.random.often(300) { master.uid.clone() } else { format!("{}-b", master.uid) };
        let extra = match self.random.below(8) {
            0..=1 => format!("UID:{another}"),
            2 => format!("DTSTART:{}", written(Kind::Utc, hit, 0)),
            3 => "DTEND;VALUE=DATE:19700102".to_string(),
            4 => "STATUS:CONFIRMED|STATUS:CONFIRMED".to_string(),
            5 => self.bad_exception(),
            _ => {
                let parameters = if other == Kind::Date { ";VALUE=DATE" } else { "" };
                format!("EXDATE{parameters}:{}", written(other, self.settled(other, hit), self.offset))
            }
        };
        masters[0].extend(extra.split('|').map(str::to_string));
        for _ in 0..self.random.below(3) {
            let misfit = self.misfit(master, masters);
            events.push(misfit);
        }
        if self.random.often(300) {
            // Two of one second, perhaps of two kinds; perhaps of the second UID.
            let kind = if self.random.often(500) { master.kind } else { other };
            let (first, mut second) =
                (self.override_at(master, master.kind, hit), self.override_at(master, kind, self.settled(kind, hit)));
            if self.random.often(300) {
                second[0] = format!("UID:{another}");
            }
            events.extend([first, second]);
        }
        match self.random.below(4) {
            0 => masters.push(sound),
            1 => masters.insert(0, sound),
            _ => {}
        }
    }

    /// An EXDATE line that is 8 or 9, or of any kind.
    fn bad_exception(&mut self) -> String {
        let time = self.edgy_time();
        let good = "20240311T080000Z";
        match self.random.below(12) {
            0 => "EXDATE:".to_string(),
            1 => format!("EXDATE:{good},"),
            2 => format!("EXDATE:,{good}"),
            3 => format!("EXDATE:{good},,{good}"),
            4 => format!("EXDATE:{good}, {good}"),
            5 => format!("EXDATE:{good},{time}"),
            6 => "EXDATE;VALUE=DATE:20240311,20240312T080000Z".to_string(),
            7 => format!("EXDATE;TZID=Europe/Paris:{good}"),
            8 => format!("EXDATE;VALUE=DATE,DATE;tzid=:{good}"),
            9 => format!("EXDATE;VALUE=DATE-TIME;VALUE=DATE-TIME:{good}"),
            10 => format!("EXDATE;VALUE=PERIOD:{good}"),
            _ => format!("EXDATE:{time}"),
        }
    }

    /// Breaks a rule of an override by itself.
    fn break_override(&mut self, master: &Master, events: &mut Vec<Vec<String>>) {
        let second = master.instance(self.random.between(0, master.nameable().min(12) - 1));
        let mut lines = self.override_at(master, master.kind, second);
        let time = self.edgy_time();
        let value = written(Kind::Utc, second, 0);
        let replace = |lines: &mut [String], head: &str, by: String| {
            lines.iter_mut().filter(|line| line.starts_with(head)).for_each(|line| *line = by.clone());
        };
        match self.random.below(16) {
            0 => lines.retain(|line| !line.starts_with("UID")),
            1 => lines.push(format!("UID:{}", master.uid)),
            2 => lines.push(format!("UID:{}-b", master.uid)),
            3..=4 => lines.push("RRULE:FREQ=DAILY;COUNT=1".to_string()),
            5 => lines.push(format!("EXDATE:{value}")),
            6 => {
                let exception = lines[1].replace("RECURRENCE-ID", "EXDATE");
                lines.push(exception);
            }
            7 => lines.push(lines[1].clone()),
            8 => lines.push(format!("RECURRENCE-ID:{time}")),
            9 => {
                let range = self.random.pick(&["THISANDFUTURE", "", "x,y", "\"THISANDPRIOR\""]);
                let with_range = lines[1].replace("RECURRENCE-ID", &format!("RECURRENCE-ID;RANGE={range}"));
                lines[1] = with_range;
            }
            10 => replace(&mut lines, "RECURRENCE-ID", format!("RECURRENCE-ID;TZID=x:{value}")),
            11 => replace(&mut lines, "RECURRENCE-ID", format!("RECURRENCE-ID:{value},{value}")),
            12 => replace(&mut lines, "RECURRENCE-ID", format!("RECURRENCE-ID:{time}")),
            13 => replace(&mut lines, "RECURRENCE-ID", format!("RECURRENCE-ID;VALUE=X;range=:{value}")),
            14 => lines.retain(|line| !line.starts_with("DTSTART")),
            _ => lines.push("DTEND;VALUE=DATE:19700102".to_string()),
        }
        events.push(lines);
    }

    /// Breaks a rule between the master and others, or does something that looks like it.
    fn misplace(&mut self, master: &mut Master, masters: &mut Vec<Vec<String>>, events: &mut Vec<Vec<String>>) {
        let some = self.random.between(0, master.nameable().min(12) - 1);
        match self.random.below(12) {
            0..=3 => {
                let misfit = self.misfit(master, masters);
                events.push(misfit);
            }
            4..=5 => {
                let second = master.instance(some);
                for _ in 0..2 {
                    let lines = self.override_at(master, master.kind, second);
                    events.push(lines);
                }
            }
            6 => {
                // A UID that is not the master's, though nearly.
                let mut lines = self.override_at(master, master.kind, master.instance(some));
                let uid = &master.uid;
                let nearly = [swapped(uid), format!("{uid} "), format!(" {uid}"), String::new(), format!("{uid}x")];
                lines[0] = format!("UID:{}", nearly[self.random.below(nearly.len())]);
                events.push(lines);
            }
            7 => {
                masters.clear();
                let lines = self.override_at(master, master.kind, master.instance(some));
                events.push(lines);
            }
            8..=9 => {
                // Another master, perhaps a shorter one, of the same UID or nearly so.
                let mut lines = masters.first().cloned().unwrap_or_default();
                if self.random.often(500) {
                    lines.retain(|line| !line.starts_with("RRULE"));
                }
                if self.random.often(400) {
                    lines.iter_mut().filter(|line| line.starts_with("UID")).for_each(|line| {
                        *line = format!("UID:{}", swapped(&master.uid));
                    });
                }
                let at = self.random.below(masters.len() + 1);
                masters.insert(at, lines);
                if self.random.often(500) {
                    let misfit = self.misfit(master, masters);
                    events.push(misfit);
                }
            }
            _ => {
                // The same second, of another series: harmless if that is sound.
                let mut other = masters.first().cloned().unwrap_or_default();
                let uid = format!("{}-c", master.uid);
                other.iter_mut().filter(|line| line.starts_with("UID")).for_each(|line| *line = format!("UID:{uid}"));
                let second = master.instance(some);
                let mut lines = self.override_at(master, master.kind, second);
                lines[0] = format!("UID:{uid}");
                events.push(lines);
                masters.push(other);
            }
        }
    }
}

/// The text with the case of its letters changed.
fn swapped(text: &str) -> String {
    text.chars().map(|c| if c.is_ascii_alphabetic() { char::from(c as u8 ^ 32) } else { c }).collect()
}
