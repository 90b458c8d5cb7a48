//! Makes queries: well formed ones that often fit the calendar, and damaged ones.
//! Records refer to the texts by number; a text is put in when first referred to.

use crate::calendars::LAST_SECOND;
use crate::damage;
use crate::random::Random;

/// A query by its sections. Names count from 0, ranges and texts from 1.
pub struct Query {
    pub ranges: Vec<(u64, u64)>,
    pub texts: Vec<Vec<u8>>,
    /// Parent, name, range, flag.
    pub components: Vec<[u8; 4]>,
    /// Component, name, range, text, collation, flag.
    pub properties: Vec<[u8; 6]>,
    /// Property, name, text, collation, flag.
    pub parameters: Vec<[u8; 5]>,
}

impl Query {
    fn text(&mut self, text: &[u8]) -> u8 {
        let text = &text[..text.len().min(255)];
        if let Some(number) = self.texts.iter().position(|t| t == text) {
            return number as u8;
        }
        if self.texts.len() == 32 {
            return 0;
        }
        self.texts.push(text.to_vec());
        (self.texts.len() - 1) as u8
    }

    /// The bytes of the query.
    pub fn written(&self) -> Vec<u8> {
        let mut bytes = vec![self.ranges.len() as u8];
        for (start, end) in &self.ranges {
            bytes.extend(start.to_be_bytes());
            bytes.extend(end.to_be_bytes());
        }
        bytes.push(self.texts.len() as u8);
        for text in &self.texts {
            bytes.push(text.len() as u8);
            bytes.extend(text);
        }
        bytes.push(self.components.len() as u8);
        self.components.iter().for_each(|record| bytes.extend(record));
        bytes.push(self.properties.len() as u8);
        self.properties.iter().for_each(|record| bytes.extend(record));
        bytes.push(self.parameters.len() as u8);
        self.parameters.iter().for_each(|record| bytes.extend(record));
        bytes
    }
}

/// The seconds around which ranges are made.
pub struct Places {
    pub marks: Vec<i64>,
    pub spans: Vec<(i64, i64)>,
    pub instances: Vec<(i64, i64)>,
    pub focus: i64,
}

/// A range, mostly within the limits, that often starts or ends at a mark, is about one instance,
/// or stands just before or behind a span.
pub fn range(random: &mut Random, places: &Places) -> (u64, u64) {
    let Places { marks, spans, instances, focus } = places;
    if !instances.is_empty() && random.often(400) {
        return about_instance(random, instances);
    }
    if !spans.is_empty() && random.often(300) {
        let (first, last) = spans[random.below(spans.len())];
        let (step, length) = (random.number(&[-1, 0, 0, 1]), random.number(&[1, 2, 60, 3_600, 86_400]));
        return if random.often(500) {
            limited(last + step, last + step + length)
        } else {
            limited(first + step - length, first + step)
        };
    }
    let point = |random: &mut Random| {
        let second = if !marks.is_empty() && random.often(650) {
            marks[random.below(marks.len())] + random.number(&[-1, 0, 0, 0, 1])
        } else {
            let spread = random.number(&[3_600, 86_400, 20 * 86_400, 400 * 86_400, LAST_SECOND]);
            focus.saturating_add(random.between(-spread, spread))
        };
        second.clamp(0, LAST_SECOND)
    };
    let (a, b) = match random.below(20) {
        0..=2 => (0, LAST_SECOND),
        3..=7 => {
            let at = point(random);
            let length = random.number(&[1, 2, 60, 3_600, 86_400]);
            if random.often(500) {
                (at, at + length)
            } else {
                ((at - length).max(0), at)
            }
        }
        _ => (point(random), point(random)),
    };
    limited(a.min(b), a.max(b))
}

/// A range about one instance: just that, a second of it, or on to the next day or another one.
fn about_instance(random: &mut Random, instances: &[(i64, i64)]) -> (u64, u64) {
    let (first, last) = instances[random.below(instances.len())];
    let (step, other) = (random.number(&[-1, 0, 0, 0, 0, 1]), instances[random.below(instances.len())]);
    match random.below(10) {
        0..=4 => limited(first, last + step),
        5 => limited(first + step, last),
        6 => limited(first, first + 1),
        7 => limited(last - 1, last),
        8 => limited(first + step, last + 86_400),
        _ => limited(first.min(other.0), last.max(other.1)),
    }
}

/// The range, or what is nearest to it within the limits and not empty.
fn limited(start: i64, end: i64) -> (u64, u64) {
    let start = start.clamp(0, LAST_SECOND - 1);
    (start as u64, end.clamp(start + 1, LAST_SECOND) as u64)
}

/// A range that is at or beyond a limit.
pub fn edgy_range(random: &mut Random) -> (u64, u64) {
    let last = LAST_SECOND as u64;
    let any = random.next();
    let edges = [
        (0, last),
        (0, last + 1),
        (last - 1, last),
        (last, last),
        (last, last + 1),
        (5, 5),
        (6, 5),
        (0, 0),
        (0, u64::MAX),
        (u64::MAX, 0),
        (any, any),
        (0, 1 << 32),
        (0, 1 << 63),
        (1 << 63, (1 << 63) + 1),
        (u64::MAX - 1, u64::MAX),
        (0, 1),
    ];
    edges[random.below(edges.len())]
}

/// A query for the calendar of those lines.
pub fn make(random: &mut Random, lines: &[Vec<u8>], places: &Places) -> Vec<u8> {
    let mut query = if !places.instances.is_empty() && random.often(400) {
        of_series(random, places)
    } else if random.often(450) {
        fitting(random, lines, places)
    } else {
        well_formed(random, lines, places)
    };
    if random.often(90) {
        spoil(random, &mut query);
    }
    if random.often(15) {
        lengthen(random, &mut query);
    }
    let mut bytes = query.written();
    match random.below(30) {
        0 => (0..1 + random.below(2)).for_each(|_| damage::bytes(random, &mut bytes)),
        1 if random.often(300) => {
            let at = random.below(bytes.len());
            bytes[at] = random.below(4) as u8;
        }
        2 if random.often(300) => {
            let change = random.number(&[-1, 1]) as u8;
            let at = random.below(bytes.len());
            bytes[at] = bytes[at].wrapping_add(change);
        }
        3 if random.often(200) => bytes.push(random.below(256) as u8),
        4 if random.often(100) => bytes = (0..random.below(60)).map(|_| random.below(3) as u8).collect(),
        _ => {}
    }
    bytes
}

/// A query for events in a range: any, masters alone, overrides alone, or one of each.
fn of_series(random: &mut Random, places: &Places) -> Query {
    let texts: [&[u8]; 3] = [b"VCALENDAR", b"VEVENT", b"RECURRENCE-ID"];
    let mut query = Query {
        ranges: vec![about_instance(random, &places.instances), range(random, places)],
        texts: texts.map(<[u8]>::to_vec).into(),
        components: vec![[0, 0, 0, 0], [0, 1, 1, 0]],
        properties: Vec::new(),
        parameters: Vec::new(),
    };
    let (with, without) = ([1, 2, 0, 0, 0, 0], [1, 2, 0, 0, 0, 1]);
    match random.below(5) {
        0..=1 => {}
        2 => query.properties.push(with),
        3 => query.properties.push(without),
        _ => {
            let range = 1 + random.below(2) as u8;
            query.components.push([0, 1, range, 0]);
            query.properties.extend([with, [2, 2, 0, 0, 0, 1]]);
        }
    }
    query
}

fn well_formed(random: &mut Random, lines: &[Vec<u8>], places: &Places) -> Query {
    let mut query = Query {
        ranges: Vec::new(),
        texts: Vec::new(),
        components: Vec::new(),
        properties: Vec::new(),
        parameters: Vec::new(),
    };
    let ranges = match random.below(12) {
        0..=1 => 0,
        2 => 8,
        _ => 1 + random.below(3),
    };
    query.ranges = (0..ranges).map(|_| range(random, places)).collect();
    if random.often(80) {
        query.text(b"spare text \xff");
    }
    let calendar = query.text(if random.often(950) { b"VCALENDAR" } else { b"vCalendar" });
    query.components.push([0, calendar, 0, 0]);

    let more = match random.below(40) {
        0 => 15,
        1..=8 => 0,
        9..=30 => 1,
        _ => 2 + random.below(3),
    };
    for _ in 0..more {
        let parent = if random.often(750) { 0 } else { random.below(query.components.len()) };
        if query.components[parent][3] == 1 {
            continue;
        }
        let own: &[&str] = match parent {
            0 => &[
                "VEVENT", "VEVENT", "VEVENT", "VFREEBUSY", "VFREEBUSY", "VTODO", "X-BOX", "vevent", "VCALENDAR", "X-0",
            ],
            _ => &["VALARM", "VALARM", "X-BOX", "VTODO", "STANDARD", "X-1", "VEVENT"],
        };
        let word = random.pick(own);
        let name = query.text(word.as_bytes());
        let timed = ["VEVENT", "VFREEBUSY", "vevent"].contains(&word);
        let absent = random.often(130);
        let range =
            if timed && !absent && ranges > 0 && random.often(650) { 1 + random.below(ranges) as u8 } else { 0 };
        query.components.push([parent as u8, name, range, u8::from(absent)]);
    }
    let properties = match random.below(40) {
        0 => 32,
        1..=12 => 0,
        13..=30 => 1,
        _ => 2 + random.below(3),
    };
    for _ in 0..properties {
        let owner = random.below(query.components.len());
        if query.components[owner][3] == 1 {
            continue;
        }
        let (name, text, _) = hint(random, lines);
        let (text, collation, flag) = demand(random, &mut query, &text);
        let name = query.text(&name);
        query.properties.push([owner as u8, name, 0, text, collation, flag]);
    }
    if !query.properties.is_empty() {
        let parameters = match random.below(40) {
            0 => 32,
            1..=18 => 0,
            _ => 1 + random.below(3),
        };
        for _ in 0..parameters {
            let owner = random.below(query.properties.len());
            if query.properties[owner][5] == 1 {
                continue;
            }
            let (_, _, line) = hint(random, lines);
            let (name, text) = parameter_hint(random, &line);
            let (text, collation, flag) = demand(random, &mut query, &text);
            let name = query.text(&name);
            query.parameters.push([owner as u8, name, text, collation, flag]);
        }
    }
    query
}

/// A query made after some lines of one component: its chain of components, and tests that
/// those lines pass in most cases.
fn fitting(random: &mut Random, lines: &[Vec<u8>], places: &Places) -> Query {
    let mut query = Query {
        ranges: Vec::new(),
        texts: Vec::new(),
        components: Vec::new(),
        properties: Vec::new(),
        parameters: Vec::new(),
    };
    let begins = |line: &[u8]| line.len() > 6 && line[..6].eq_ignore_ascii_case(b"BEGIN:");
    let ends = |line: &[u8]| line.len() > 4 && line[..4].eq_ignore_ascii_case(b"END:");
    let chosen = random.below(lines.len().max(1));
    let mut chain: Vec<usize> = Vec::new();
    for (number, line) in lines.iter().enumerate().take(chosen + 1) {
        if begins(line) {
            chain.push(number);
        } else if ends(line) && number < chosen {
            chain.pop();
        }
    }
    chain.truncate(8);
    query.ranges.push(if random.often(300) { (0, LAST_SECOND as u64) } else { range(random, places) });
    let calendar = query.text(b"VCALENDAR");
    query.components.push([0, calendar, 0, 0]);
    for &number in chain.iter().skip(1) {
        let name = &lines[number][6..];
        let timed = name.eq_ignore_ascii_case(b"VEVENT") || name.eq_ignore_ascii_case(b"VFREEBUSY");
        let range = u8::from(timed && random.often(650));
        let parent = (query.components.len() - 1) as u8;
        let name = query.text(name);
        query.components.push([parent, name, range, 0]);
    }
    if random.often(150) {
        let parent = random.below(query.components.len()) as u8;
        let name = random.pick(&["X-NONE", "VTODO", "VALARM"]);
        let name = query.text(name.as_bytes());
        query.components.push([parent, name, 0, 1]);
    }
    let Some(&last) = chain.last() else {
        return query;
    };
    // At times the range alone decides.
    if random.often(350) {
        return query;
    }
    let owner = (chain.len() - 1) as u8;
    for line in lines[last + 1..].iter().take_while(|line| !begins(line) && !ends(line)) {
        if random.often(500) || query.properties.len() > 4 {
            continue;
        }
        let (name, text, line) = hint(random, std::slice::from_ref(line));
        let (text, collation, flag) = demand(random, &mut query, &text);
        let flag = if flag == 2 && random.often(700) { 0 } else { flag };
        let flag = if flag == 1 && random.often(800) { 0 } else { flag };
        let name = query.text(&name);
        query.properties.push([owner, name, 0, text, collation, flag]);
        if flag != 1 && line.contains(&b';') && random.often(600) {
            let (name, text) = parameter_hint(random, &line);
            let (text, collation, flag) = demand(random, &mut query, &text);
            let name = query.text(&name);
            query.parameters.push([(query.properties.len() - 1) as u8, name, text, collation, flag]);
        }
    }
    query
}

/// What is asked of a property or parameter: text, collation, flag.
fn demand(random: &mut Random, query: &mut Query, text: &[u8]) -> (u8, u8, u8) {
    let collation = random.below(2) as u8;
    match random.below(10) {
        0 => (0, collation, 1),
        1..=2 => (0, collation, 0),
        form => {
            let mut text = text.to_vec();
            if random.often(300) {
                text.make_ascii_uppercase();
            }
            let flag = if form < 5 { 2 } else { 0 };
            (query.text(&text) + 1, collation, flag)
        }
    }
}

/// A property name and a piece of a value, mostly of a line of the calendar, and that line.
fn hint(random: &mut Random, lines: &[Vec<u8>]) -> (Vec<u8>, Vec<u8>, Vec<u8>) {
    let line = if lines.is_empty() { &[][..] } else { &lines[random.below(lines.len())] };
    let end = line.iter().position(|&b| b == b':' || b == b';').unwrap_or(0);
    let name_fits = end > 0 && line[..end].iter().all(|b| b.is_ascii_alphanumeric() || *b == b'-');
    let name: &[u8] = if name_fits && random.often(850) {
        &line[..end]
    } else {
        random.pick(&["SUMMARY", "ATTENDEE", "DTSTART", "X-NONE", "BEGIN", "END", "uid"]).as_bytes()
    };
    let value = line.iter().position(|&b| b == b':').map_or(&[][..], |colon| &line[colon + 1..]);
    (name.to_vec(), piece(random, value), line.to_vec())
}

/// A parameter name and a piece of a value, mostly of that line.
fn parameter_hint(random: &mut Random, line: &[u8]) -> (Vec<u8>, Vec<u8>) {
    let names = ["PARTSTAT", "CN", "ROLE", "X-P", "VALUE", "FBTYPE", "1", "-", "X-NONE"];
    let name = random.pick(&names).as_bytes().to_vec();
    let values: &[&str] = &["ACCEPTED", "NEEDS-ACTION", "a;b:c,d", "", "Cyrus", "DATE", "=", "\"", "BUSY"];
    let text = random.pick(values).as_bytes();
    let Some(from) = line.iter().position(|&b| b == b';') else {
        return (name, piece(random, text));
    };
    let rest = &line[from + 1..];
    match rest.iter().position(|&b| b == b'=') {
        Some(equals) if equals > 0 && random.often(800) && rest[..equals].iter().all(u8::is_ascii_alphanumeric) => {
            let end = rest.iter().position(|&b| matches!(b, b':' | b';' | b',')).unwrap_or(rest.len()).max(equals + 1);
            (rest[..equals].to_vec(), piece(random, &rest[equals + 1..end]))
        }
        _ => (name, piece(random, text)),
    }
}

/// A piece of a value: whole, a part, or one with a byte changed.
fn piece(random: &mut Random, value: &[u8]) -> Vec<u8> {
    if value.is_empty() {
        return Vec::new();
    }
    let from = random.below(value.len());
    let to = from + random.below((value.len() - from + 1).min(20));
    let mut piece = if random.often(200) { value.to_vec() } else { value[from..to].to_vec() };
    if !piece.is_empty() && random.often(80) {
        let at = random.below(piece.len());
        piece[at] ^= 32;
    }
    piece
}

/// Sets one field wrong, or at least otherwise.
fn spoil(random: &mut Random, query: &mut Query) {
    if random.often(500) {
        breach(random, query);
        return;
    }
    let any = random.number(&[0, 1, 2, 3, 15, 16, 31, 32, 33, 255]) as u8;
    match random.below(14) {
        0..=2 => {
            let at = random.below(query.components.len());
            query.components[at][random.below(4)] = any;
        }
        3..=4 if !query.properties.is_empty() => {
            let at = random.below(query.properties.len());
            query.properties[at][random.below(6)] = any;
        }
        5..=6 if !query.parameters.is_empty() => {
            let at = random.below(query.parameters.len());
            query.parameters[at][random.below(5)] = any;
        }
        7 if !query.ranges.is_empty() => {
            let at = random.below(query.ranges.len());
            query.ranges[at] = edgy_range(random);
        }
        8 => {
            let extra = 9usize.saturating_sub(query.ranges.len()).min(1 + random.below(9));
            query.ranges.extend((0..extra).map(|_| (0, 1)));
        }
        9 => {
            let extra = random.below(34);
            query.texts.extend((0..extra).map(|n| vec![b'a'; n]));
        }
        // A range where none may be: refusal 5.
        10..=11 if !query.ranges.is_empty() => {
            let at = random.below(query.components.len());
            if query.components[at][3] == 0 {
                query.components[at][2] = 1;
            }
        }
        12..=13 if !query.ranges.is_empty() && !query.properties.is_empty() => {
            let at = random.below(query.properties.len());
            if query.properties[at][5] != 1 {
                query.properties[at][2] = 1;
            }
        }
        10 => {
            query.ranges.push((0, 1));
            query.components[0][2] = query.ranges.len() as u8;
        }
        11 => {
            let name = query.texts.len() as u8;
            query.texts.push(random.pick(&["", "A B", "A_B", "\u{e9}", "VCALENDAR"]).as_bytes().to_vec());
            let at = random.below(query.components.len());
            query.components[at][1] = name;
        }
        12 => query.components.extend((query.components.len()..16 + random.below(2)).map(|_| [0, 0, 0, 0])),
        _ => query.properties.extend((query.properties.len()..32 + random.below(2)).map(|_| [0, 0, 0, 0, 0, 0])),
    }
}

/// Breaks one rule of the query and keeps the others, or stays just within it.
fn breach(random: &mut Random, query: &mut Query) {
    let name = query.text(b"X-A");
    let components = query.components.len() as u8;
    let properties = query.properties.len() as u8;
    if query.ranges.is_empty() {
        query.ranges.push((0, 1));
    }
    let flag = random.below(2) as u8;
    match random.below(16) {
        // Children of a record that may be is-not-defined.
        0 => query.components.extend([[0, name, 0, flag], [components, name, 0, 0]]),
        1 => {
            query.components.push([0, name, 0, flag]);
            query.properties.push([components, name, 0, 0, 0, 0]);
        }
        2 => {
            query.properties.push([0, name, 0, 0, 0, flag]);
            query.parameters.push([properties, name, 0, 0, 0]);
        }
        3 => {
            query.components = vec![[0, query.components[0][1], 0, flag]];
            query.properties.clear();
            query.parameters.clear();
        }
        // Parents and owners at or just beyond the number of records.
        4 => query.components.push([components - flag, name, 0, 0]),
        5 => query.properties.push([components - flag, name, 0, 0, 0, 1]),
        6 => query.parameters.push([properties.saturating_sub(flag), name, 0, 0, 1]),
        // A range beside is-not-defined, or one number too high.
        7 => query.components.push([0, query.components[components as usize - 1][1], 1, flag]),
        8 => query.properties.push([0, name, flag, 0, 0, flag]),
        9 => query.components.push([0, name, query.ranges.len() as u8 + flag, 0]),
        // Texts, flags and collations.
        10 => query.properties.push([0, name, 0, query.texts.len() as u8 + flag, 0, 2]),
        11 => query.properties.push([0, name, 0, flag, 1, 2]),
        12 => query.properties.push([0, name, 0, flag, 1 + random.below(2) as u8, random.below(4) as u8]),
        13 => {
            query.properties.push([0, name, 0, 0, 0, 0]);
            let text = random.below(query.texts.len() + 2) as u8;
            query.parameters.push([properties, name, text, random.below(3) as u8, random.below(4) as u8]);
        }
        // Counts at their limits and one more.
        14 => {
            let target = 32 + usize::from(flag);
            match random.below(3) {
                0 => {
                    query.properties.push([0, name, 0, 0, 0, 0]);
                    query.parameters.resize(target, [properties, name, 0, 0, 1]);
                }
                1 => query.properties.resize(target, [0, name, 0, 0, 0, 1]),
                _ => query.texts.resize(target, b"spare".to_vec()),
            }
        }
        _ => {
            if random.often(500) {
                query.components.resize(16 + usize::from(flag), [0, name, 0, 1]);
            } else {
                query.ranges.resize(8 + usize::from(flag), (0, 1));
            }
        }
    }
}

/// Puts in texts that nothing uses until the query has 4,095 to 4,097 bytes.
fn lengthen(random: &mut Random, query: &mut Query) {
    let target = random.number(&[4_095, 4_096, 4_096, 4_097]) as usize;
    while query.texts.len() < 32 {
        let missing = target.saturating_sub(query.written().len());
        if missing == 0 {
            break;
        }
        let length = (missing - 1).min(255);
        query.texts.push(vec![random.below(256) as u8; length]);
    }
}
