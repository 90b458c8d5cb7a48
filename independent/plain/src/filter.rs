//! The query: reading it (refusals 4 and 5) and its component, property and
//! parameter tests on a calendar that was read.

use std::ops::Range;

use crate::events::Meaning;
use crate::lines::{is_name, Line};
use crate::nesting::{children, own_lines, Component};
use crate::time;

/// The longest query in bytes.
const LONGEST_QUERY: usize = 4_096;
/// Refusal 4.
const BADLY_FORMED: u8 = 4;
/// Refusal 5.
const MISPLACED_RANGE: u8 = 5;

/// A query that was read.
pub struct Query<'q> {
    components: Vec<ComponentTest<'q>>,
    properties: Vec<PropertyTest<'q>>,
    parameters: Vec<ParameterTest<'q>>,
}

struct ComponentTest<'q> {
    parent: usize,
    name: &'q [u8],
    range: Option<Range<i64>>,
    absent: bool,
}

struct PropertyTest<'q> {
    component: usize,
    name: &'q [u8],
    ranged: bool,
    demand: Demand,
}

struct ParameterTest<'q> {
    property: usize,
    name: &'q [u8],
    demand: Demand,
}

/// What is asked of the lines or values that have a test's name.
enum Demand {
    /// That there are none.
    Absent,
    /// That there is one.
    Present,
    /// That one contains the text, or does not if negated.
    Text { text: Text, negated: bool },
}

impl Demand {
    fn is_absent(&self) -> bool {
        matches!(self, Demand::Absent)
    }

    /// Whether a value that is there is as wanted.
    fn accepts(&self, value: &[u8]) -> bool {
        match self {
            Demand::Absent => false,
            Demand::Present => true,
            Demand::Text { text, negated } => text.stands_in(value) != *negated,
        }
    }
}

/// A text to look for, in the way of Knuth, Morris and Pratt, so that the time is that of one
/// pass over the value.
struct Text {
    /// In small letters if case does not matter.
    bytes: Vec<u8>,
    casemap: bool,
    /// How many of the first bytes are also the last of the first `k + 1`, fewer than all.
    again: Vec<usize>,
}

impl Text {
    fn new(text: &[u8], casemap: bool) -> Self {
        let bytes = if casemap { text.to_ascii_lowercase() } else { text.to_vec() };
        let mut new = Text { again: Vec::with_capacity(bytes.len()), bytes, casemap };
        let mut fitting = 0;
        for k in 0..new.bytes.len() {
            if k > 0 {
                fitting = new.fitting_with(fitting, new.bytes[k]);
            }
            new.again.push(fitting);
        }
        new
    }

    /// How many bytes fit with one more byte of the value, where `fitting` did before it.
    fn fitting_with(&self, mut fitting: usize, byte: u8) -> usize {
        while self.bytes[fitting] != byte {
            if fitting == 0 {
                return 0;
            }
            fitting = self.again[fitting - 1];
        }
        fitting + 1
    }

    /// Whether the text stands somewhere in the value.
    fn stands_in(&self, value: &[u8]) -> bool {
        let folded = |b: u8| if self.casemap { b.to_ascii_lowercase() } else { b };
        let length = self.bytes.len();
        let (mut at, mut fitting) = (0, 0);
        while fitting < length {
            if value.len() - at < length - fitting {
                return false;
            }
            if fitting == 0 {
                let starts = &value[at..=value.len() - length];
                let Some(start) = starts.iter().position(|&b| folded(b) == self.bytes[0]) else {
                    return false;
                };
                at += start + 1;
                fitting = 1;
            } else {
                fitting = self.fitting_with(fitting, folded(value[at]));
                at += 1;
            }
        }
        true
    }
}

impl<'q> Query<'q> {
    /// Reads the bytes, or gives refusal 4 or 5.
    pub fn read(bytes: &'q [u8]) -> Result<Self, u8> {
        let query = Self::well_formed(bytes).ok_or(BADLY_FORMED)?;
        let timed = |name: &[u8]| name.eq_ignore_ascii_case(b"VEVENT") || name.eq_ignore_ascii_case(b"VFREEBUSY");
        let misplaced = query.components.iter().any(|c| c.range.is_some() && !timed(c.name))
            || query.properties.iter().any(|p| p.ranged);
        if misplaced {
            Err(MISPLACED_RANGE)
        } else {
            Ok(query)
        }
    }

    /// Reads the five sections; nothing if anything about them is bad.
    fn well_formed(bytes: &'q [u8]) -> Option<Self> {
        if bytes.len() > LONGEST_QUERY {
            return None;
        }
        let mut reader = Reader { rest: bytes };
        let ranges = reader.section(0..=8, |r, _| {
            let (start, end) = (r.eight_bytes()?, r.eight_bytes()?);
            time::range(start, end)
        })?;
        let texts = reader.section(0..=32, |r, _| {
            let length = r.byte()?;
            r.bytes(length.into())
        })?;
        let texts = Texts { all: texts };

        let components = reader.section(1..=16, |r, number| {
            let [parent, name, range, flag] = r.record()?;
            let parent = usize::from(parent);
            let test = ComponentTest {
                parent,
                name: texts.name(name)?,
                range: match usize::from(range) {
                    0 => None,
                    some => Some(ranges.get(some - 1)?.clone()),
                },
                absent: flag == 1,
            };
            let placed = if number == 0 {
                parent == 0 && test.name.eq_ignore_ascii_case(b"VCALENDAR") && flag == 0
            } else {
                parent < number
            };
            (placed && flag <= 1 && !(test.absent && test.range.is_some())).then_some(test)
        })?;
        let childless = components.iter().skip(1).all(|c| !components[c.parent].absent);

        let properties = reader.section(0..=32, |r, _| {
            let [component, name, range, text, collation, flag] = r.record()?;
            let component = usize::from(component);
            let ranged = range != 0;
            let demand = texts.demand(text, collation, flag)?;
            let fits = !components.get(component)?.absent
                && usize::from(range) <= ranges.len()
                && !(demand.is_absent() && ranged);
            fits.then_some(PropertyTest { component, name: texts.name(name)?, ranged, demand })
        })?;

        let parameters = reader.section(0..=32, |r, _| {
            let [property, name, text, collation, flag] = r.record()?;
            let property = usize::from(property);
            let demand = texts.demand(text, collation, flag)?;
            let fits = !properties.get(property)?.demand.is_absent();
            fits.then_some(ParameterTest { property, name: texts.name(name)?, demand })
        })?;

        (childless && reader.rest.is_empty()).then_some(Query { components, properties, parameters })
    }

    /// The verdict on a calendar.
    pub fn holds(&self, text: &[u8], lines: &[Line], components: &[Component], meanings: &[Meaning]) -> bool {
        Search { query: self, text, lines, components, meanings }.component_holds(0, std::iter::once(0))
    }
}

/// The texts of a query, as records refer to them.
struct Texts<'q> {
    all: Vec<&'q [u8]>,
}

impl<'q> Texts<'q> {
    fn name(&self, number: u8) -> Option<&'q [u8]> {
        self.all.get(usize::from(number)).copied().filter(|t| is_name(t))
    }

    fn demand(&self, text: u8, collation: u8, flag: u8) -> Option<Demand> {
        let text = match usize::from(text) {
            0 => None,
            some => Some(*self.all.get(some - 1)?),
        };
        let casemap = match collation {
            0 => false,
            1 => true,
            _ => return None,
        };
        match (text, flag) {
            (None, 0) => Some(Demand::Present),
            (None, 1) => Some(Demand::Absent),
            (Some(text), 0 | 2) => Some(Demand::Text { text: Text::new(text, casemap), negated: flag == 2 }),
            _ => None,
        }
    }
}

/// Reads a query from front to back.
struct Reader<'q> {
    rest: &'q [u8],
}

impl<'q> Reader<'q> {
    /// Reads a count within the limits and so many records, each knowing its number.
    fn section<T>(
        &mut self,
        counts: std::ops::RangeInclusive<usize>,
        mut record: impl FnMut(&mut Self, usize) -> Option<T>,
    ) -> Option<Vec<T>> {
        let count = usize::from(self.byte()?);
        if !counts.contains(&count) {
            return None;
        }
        (0..count).map(|number| record(self, number)).collect()
    }

    fn bytes(&mut self, length: usize) -> Option<&'q [u8]> {
        let (read, rest) = self.rest.split_at_checked(length)?;
        self.rest = rest;
        Some(read)
    }

    fn record<const N: usize>(&mut self) -> Option<[u8; N]> {
        self.bytes(N)?.try_into().ok()
    }

    fn byte(&mut self) -> Option<u8> {
        self.record().map(|[byte]| byte)
    }

    fn eight_bytes(&mut self) -> Option<u64> {
        self.record().map(u64::from_be_bytes)
    }
}

/// A query on a calendar. Each test of a component is asked at most once of each component,
/// since it is asked only where its parent's test is asked of the parent component.
struct Search<'s, 'q> {
    query: &'s Query<'q>,
    text: &'s [u8],
    lines: &'s [Line],
    components: &'s [Component],
    meanings: &'s [Meaning],
}

impl Search<'_, '_> {
    /// Component test `number` in the scope of the components `there`.
    fn component_holds(&self, number: usize, there: impl Iterator<Item = usize>) -> bool {
        let test = &self.query.components[number];
        let mut named =
            there.filter(|&c| self.components[c].name(self.text, self.lines).eq_ignore_ascii_case(test.name));
        if test.absent {
            return named.next().is_none();
        }
        named.any(|component| {
            test.range.as_ref().is_none_or(|range| self.meanings[component].in_range(range))
                && self.properties_hold(number, component)
                && self.children_hold(number, component)
        })
    }

    /// Every test of a component whose parent is test `number`, in that component.
    fn children_hold(&self, number: usize, component: usize) -> bool {
        (number + 1..self.query.components.len())
            .filter(|&child| self.query.components[child].parent == number)
            .all(|child| self.component_holds(child, children(self.components, component)))
    }

    /// Every property test of test `number`, in that component.
    fn properties_hold(&self, number: usize, component: usize) -> bool {
        let tests = self.query.properties.iter().enumerate();
        tests.filter(|(_, test)| test.component == number).all(|(property, test)| {
            let mut named = own_lines(self.lines, self.components, component)
                .flatten()
                .filter(|line| line.name(self.text).eq_ignore_ascii_case(test.name));
            if test.demand.is_absent() {
                return named.next().is_none();
            }
            named.any(|line| test.demand.accepts(line.value(self.text)) && self.parameters_hold(property, line))
        })
    }

    /// Every parameter test of property test `property`, on that line.
    fn parameters_hold(&self, property: usize, line: &Line) -> bool {
        let tests = self.query.parameters.iter().filter(|test| test.property == property);
        tests.into_iter().all(|test| {
            let mut values = line
                .parameters(self.text)
                .filter(|(name, _)| name.eq_ignore_ascii_case(test.name))
                .flat_map(|(_, values)| values);
            if test.demand.is_absent() {
                values.next().is_none()
            } else {
                values.any(|value| test.demand.accepts(value))
            }
        })
    }
}
