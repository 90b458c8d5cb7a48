//! Events and free-busy blocks: reading them from their lines, the rules of a component by
//! itself, the instances of an event and the time range test.

use std::ops::Range;

use crate::lines::Line;
use crate::nesting::{children, own_lines, Component};
use crate::overrides::Series;
use crate::time::{Context, Kind, Time, DAY};
use crate::values::{self, BusyType, Duration, Fault, Limit, Rule};
use crate::{Breach, Refusal};

/// What a component means for time.
#[derive(Clone, Debug)]
pub enum Meaning {
    /// A VEVENT.
    Event(Event),
    /// A VFREEBUSY.
    Block(Block),
    /// Any other component.
    Other,
}

/// How an event ends.
#[derive(Clone, Copy, Debug)]
pub enum Ending {
    /// By a stated end.
    End(i64),
    /// By a stated duration.
    Duration(i64),
    /// By nothing; the length is then that of the start's kind.
    Unstated,
}

/// A VEVENT that keeps the rules.
#[derive(Clone, Debug)]
pub struct Event {
    start: Time,
    ending: Ending,
    rule: Rule,
    /// The numbers of its instances that do not stand, rising, none twice.
    removed: Vec<i64>,
    /// The type of its busy time, nothing if it is free.
    pub busy: Option<BusyType>,
}

/// A period of a FREEBUSY line.
#[derive(Clone, Copy, Debug)]
pub struct Period {
    /// Its first second.
    pub start: i64,
    /// The second behind its last.
    pub end: i64,
    /// Its type, nothing if it is free.
    pub busy: Option<BusyType>,
}

/// A VFREEBUSY that keeps the rules.
#[derive(Clone, Debug)]
pub struct Block {
    span: Option<Range<i64>>,
    /// All its periods in file order.
    pub periods: Vec<Period>,
}

impl Event {
    /// How its start is given.
    pub fn kind(&self) -> Kind {
        self.start.kind
    }

    /// The length of every instance.
    pub fn length(&self) -> i64 {
        match self.ending {
            Ending::End(end) => end - self.start.second,
            Ending::Duration(seconds) => seconds,
            Ending::Unstated if self.start.kind == Kind::Date => DAY,
            Ending::Unstated => 0,
        }
    }

    /// The instances that stand and are in the range. Length 0 is tested as length 1:
    /// start < s + 1 is start ≤ s.
    pub fn instances_in(&self, range: &Range<i64>) -> Instances<'_> {
        let first = self.first_from(range.start - self.length().max(1) + 1);
        let behind = self.first_from(range.end).min(self.count()).max(first);
        let place = |number: i64| self.removed.partition_point(|&r| r < number);
        Instances { event: self, numbers: first..behind, removed: &self.removed[place(first)..place(behind)] }
    }

    /// The number of the instance that starts at that second, whether it stands or not.
    pub fn number_at(&self, second: i64) -> Option<i64> {
        let since = second - self.start.second;
        let number = since / self.rule.step;
        (since >= 0 && since % self.rule.step == 0 && number < self.count()).then_some(number)
    }

    /// Whether the instance of that number is taken away.
    pub fn is_removed(&self, number: i64) -> bool {
        self.removed.binary_search(&number).is_ok()
    }

    /// Takes away the instances that start at these seconds; at some there may be none.
    pub fn remove(&mut self, seconds: impl Iterator<Item = i64>) {
        let mut removed = std::mem::take(&mut self.removed);
        removed.extend(seconds.filter_map(|second| self.number_at(second)));
        removed.sort_unstable();
        removed.dedup();
        self.removed = removed;
    }

    /// How many instances there are, those taken away among them.
    fn count(&self) -> i64 {
        match self.rule.limit {
            Limit::Count(count) => count,
            Limit::Until(until) => self.first_from(until.second + 1),
            Limit::Endless => i64::MAX,
        }
    }

    /// The number of the first instance, limits apart, that starts at `second` or later.
    fn first_from(&self, second: i64) -> i64 {
        let step = self.rule.step;
        ((second - self.start.second).max(0) + step - 1) / step
    }

    fn in_range(&self, range: &Range<i64>) -> bool {
        self.instances_in(range).count() > 0
    }
}

/// Instances of an event with numbers that follow each other, without those taken away.
pub struct Instances<'e> {
    event: &'e Event,
    numbers: Range<i64>,
    /// Which of the numbers are taken away.
    removed: &'e [i64],
}

impl<'e> Instances<'e> {
    /// How many there are, by arithmetic.
    pub fn count(&self) -> usize {
        (self.numbers.end - self.numbers.start) as usize - self.removed.len()
    }

    /// The seconds at which they start.
    pub fn starts(self) -> impl Iterator<Item = i64> + 'e {
        let Instances { event, numbers, removed } = self;
        let mut removed = removed.iter().peekable();
        let standing = numbers.filter(move |number| removed.next_if_eq(&number).is_none());
        standing.map(|number| event.start.second + number * event.rule.step)
    }
}

impl Block {
    fn in_range(&self, range: &Range<i64>) -> bool {
        match &self.span {
            // One that ends where the range starts is in it.
            Some(span) => range.start <= span.end && span.start < range.end,
            None => self.periods.iter().any(|p| overlap(&(p.start..p.end), range)),
        }
    }
}

impl Meaning {
    /// The time range test.
    pub fn in_range(&self, range: &Range<i64>) -> bool {
        match self {
            Meaning::Event(event) => event.in_range(range),
            Meaning::Block(block) => block.in_range(range),
            Meaning::Other => false,
        }
    }
}

/// Whether two ranges, neither of them empty, have a second in common.
fn overlap(a: &Range<i64>, b: &Range<i64>) -> bool {
    a.start < b.end && b.start < a.end
}

/// Reads what each component means, in the order of the components, or gives refusal 8, 9
/// or 10. Only lines directly in VEVENT and VFREEBUSY are read, which stand directly in
/// VCALENDAR, so going through these in order is going through the lines in file order.
/// Refusal 10 waits until all are read, and is then for the first that breaks a rule.
pub fn read(text: &[u8], lines: &[Line], components: &[Component], context: &Context) -> Result<Vec<Meaning>, Refusal> {
    let mut meanings = vec![Meaning::Other; components.len()];
    let mut series = Series::default();
    let mut broken = None;
    for number in children(components, 0) {
        let name = components[number].name(text, lines);
        let own = own_lines(lines, components, number);
        let kept = if name.eq_ignore_ascii_case(b"VEVENT") {
            let read = EventLines::read(text, own, context)?;
            read.uids().for_each(|uid| series.add(uid, read.recurrence.value, number));
            read.event().map(|event| meanings[number] = Meaning::Event(event))
        } else if name.eq_ignore_ascii_case(b"VFREEBUSY") {
            let block = BlockLines::read(text, own, context)?.block();
            block.map(|block| meanings[number] = Meaning::Block(block)).ok_or(Breach::Basic)
        } else {
            continue;
        };
        if let Err(breach) = kept {
            broken = broken.or(Some((number, breach)));
        }
    }
    series.sort();
    let beside_others = series.first_breach(&meanings);
    if let Some((first, breach)) = broken.into_iter().chain(beside_others).min_by_key(|&(number, _)| number) {
        let line = components[first].begin_line(lines).number();
        return Err(Refusal { number: 10, line, breach: Some(breach) });
    }
    series.replace(&mut meanings);
    Ok(meanings)
}

/// A property of which a component has at most one line.
struct Once<T> {
    value: Option<T>,
    surplus: bool,
}

impl<T: Copy> Once<T> {
    fn new() -> Self {
        Once { value: None, surplus: false }
    }

    fn put(&mut self, value: T) {
        self.surplus |= self.value.replace(value).is_some();
    }

    /// The value if there is one; nothing at all if there are more.
    fn at_most_one(&self) -> Option<Option<T>> {
        (!self.surplus).then_some(self.value)
    }
}

/// The values of an event's lines before the component rules are asked.
struct EventLines<'a> {
    start: Once<Time>,
    end: Once<Time>,
    duration: Once<Duration>,
    rule: Once<Rule>,
    status: Once<&'a [u8]>,
    transparency: Once<&'a [u8]>,
    uid: Option<&'a [u8]>,
    further_uids: Vec<&'a [u8]>,
    recurrence: Once<Time>,
    exceptions: Vec<Time>,
}

impl<'a> EventLines<'a> {
    fn read<'l>(text: &'a [u8], own: impl Iterator<Item = &'l [Line]>, context: &Context) -> Result<Self, Refusal> {
        let mut read = EventLines {
            start: Once::new(),
            end: Once::new(),
            duration: Once::new(),
            rule: Once::new(),
            status: Once::new(),
            transparency: Once::new(),
            uid: None,
            further_uids: Vec::new(),
            recurrence: Once::new(),
            exceptions: Vec::new(),
        };
        for stretch in own {
            for line in stretch {
                read.add(text, line, context).map_err(|fault| fault.on(line))?;
            }
        }
        Ok(read)
    }

    /// Reads one more line.
    fn add(&mut self, text: &'a [u8], line: &Line, context: &Context) -> Result<(), Fault> {
        match EventProperty::named(line.name(text)) {
            EventProperty::Start => self.start.put(values::event_time(text, line, context)?),
            EventProperty::End => self.end.put(values::event_time(text, line, context)?),
            EventProperty::Duration => self.duration.put(values::duration(line.value(text)).ok_or(Fault::BadValue)?),
            EventProperty::Rule => self.rule.put(values::rule(line.value(text), context)?),
            EventProperty::Status => self.status.put(line.value(text)),
            EventProperty::Transparency => self.transparency.put(line.value(text)),
            EventProperty::Uid => self.further_uids.extend(self.uid.replace(line.value(text))),
            EventProperty::Recurrence => self.recurrence.put(values::recurrence(text, line, context)?),
            EventProperty::Exceptions => values::exceptions(text, line, context, |time| self.exceptions.push(time))?,
            EventProperty::Unsupported => return Err(Fault::Unsupported),
            EventProperty::Unread => {}
        }
        Ok(())
    }

    fn uids(&self) -> impl Iterator<Item = &'a [u8]> + '_ {
        self.uid.iter().chain(&self.further_uids).copied()
    }

    /// The event without the instances that its exceptions take away, or the rule that is
    /// broken. Rules beside other events are not asked here.
    fn event(&self) -> Result<Event, Breach> {
        let mut event = self.basic_event().ok_or(Breach::Basic)?;
        if !self.further_uids.is_empty() {
            return Err(Breach::TwoUids);
        }
        if self.recurrence.value.is_some() {
            self.check_override()?;
        }
        if self.exceptions.iter().any(|exception| exception.kind != event.kind()) {
            return Err(Breach::ExceptionKind);
        }
        if !self.exceptions.is_empty() {
            event.remove(self.exceptions.iter().map(|exception| exception.second));
        }
        Ok(event)
    }

    /// The rules of an event with a RECURRENCE-ID.
    fn check_override(&self) -> Result<(), Breach> {
        if self.recurrence.surplus {
            Err(Breach::TwoRecurrenceIds)
        } else if self.uid.is_none() {
            Err(Breach::NoUid)
        } else if self.rule.value.is_some() {
            Err(Breach::BesideRule)
        } else if !self.exceptions.is_empty() {
            Err(Breach::BesideExceptions)
        } else {
            Ok(())
        }
    }

    /// The event with all its instances, or nothing if a rule of document 01 is broken.
    fn basic_event(&self) -> Option<Event> {
        let start = self.start.at_most_one()??;
        let status = self.status.at_most_one()?;
        let transparency = self.transparency.at_most_one()?;
        let ending = match (self.end.at_most_one()?, self.duration.at_most_one()?) {
            (Some(_), Some(_)) => return None,
            (Some(end), None) if end.kind == start.kind && end.second > start.second => Ending::End(end.second),
            (Some(_), None) => return None,
            (None, Some(duration)) if start.kind == Kind::Date && duration.timed => return None,
            (None, Some(duration)) => Ending::Duration(duration.seconds),
            (None, None) => Ending::Unstated,
        };
        let rule = match self.rule.at_most_one()? {
            None => Rule { step: DAY, limit: Limit::Count(1) },
            Some(rule) => rule,
        };
        if let Limit::Until(until) = rule.limit {
            if until.kind != start.kind || until.second < start.second {
                return None;
            }
        }
        Some(Event { start, ending, rule, removed: Vec::new(), busy: event_busy(status, transparency) })
    }
}

/// The type of an event's busy time.
fn event_busy(status: Option<&[u8]>, transparency: Option<&[u8]>) -> Option<BusyType> {
    let is = |value: Option<&[u8]>, word: &[u8]| value.is_some_and(|v| v.eq_ignore_ascii_case(word));
    if is(transparency, b"TRANSPARENT") || is(status, b"CANCELLED") {
        None
    } else if is(status, b"TENTATIVE") {
        Some(BusyType::Tentative)
    } else {
        Some(BusyType::Busy)
    }
}

/// The properties of an event that matter.
enum EventProperty {
    Start,
    End,
    Duration,
    Rule,
    Status,
    Transparency,
    Uid,
    Recurrence,
    Exceptions,
    Unsupported,
    Unread,
}

impl EventProperty {
    /// Sorts by length first: most lines are of no name that matters.
    fn named(name: &[u8]) -> Self {
        let is = |word: &[u8]| name.eq_ignore_ascii_case(word);
        match name.len() {
            3 if is(b"UID") => Self::Uid,
            5 if is(b"DTEND") => Self::End,
            5 if is(b"RRULE") => Self::Rule,
            5 if is(b"RDATE") => Self::Unsupported,
            6 if is(b"STATUS") => Self::Status,
            6 if is(b"TRANSP") => Self::Transparency,
            6 if is(b"EXDATE") => Self::Exceptions,
            6 if is(b"EXRULE") => Self::Unsupported,
            7 if is(b"DTSTART") => Self::Start,
            8 if is(b"DURATION") => Self::Duration,
            13 if is(b"RECURRENCE-ID") => Self::Recurrence,
            _ => Self::Unread,
        }
    }
}

/// The values of a block's lines before the component rules are asked.
struct BlockLines {
    start: Once<i64>,
    end: Once<i64>,
    periods: Vec<Period>,
}

impl BlockLines {
    fn read<'l>(text: &[u8], own: impl Iterator<Item = &'l [Line]>, context: &Context) -> Result<Self, Refusal> {
        let mut read = BlockLines { start: Once::new(), end: Once::new(), periods: Vec::new() };
        for stretch in own {
            for line in stretch {
                read.add(text, line, context).map_err(|fault| fault.on(line))?;
            }
        }
        Ok(read)
    }

    /// Reads one more line.
    fn add(&mut self, text: &[u8], line: &Line, context: &Context) -> Result<(), Fault> {
        let name = line.name(text);
        if name.eq_ignore_ascii_case(b"DTSTART") {
            self.start.put(values::block_time(text, line, context)?);
        } else if name.eq_ignore_ascii_case(b"DTEND") {
            self.end.put(values::block_time(text, line, context)?);
        } else if name.eq_ignore_ascii_case(b"FREEBUSY") {
            let before = self.periods.len();
            let take = |start, end| self.periods.push(Period { start, end, busy: None });
            let busy = values::free_busy(text, line, context, take)?;
            self.periods[before..].iter_mut().for_each(|p| p.busy = busy);
        }
        Ok(())
    }

    /// The block, or nothing if a component rule is broken.
    fn block(self) -> Option<Block> {
        let span = match (self.start.at_most_one()?, self.end.at_most_one()?) {
            (Some(start), Some(end)) if start < end => Some(start..end),
            (Some(_), Some(_)) => return None,
            _ => None,
        };
        Some(Block { span, periods: self.periods })
    }
}
