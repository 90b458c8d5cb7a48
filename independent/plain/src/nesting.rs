//! Components: checks the nesting of BEGIN and END lines and lists the components.
//! The list is in file order, so that a component's descendants follow it at once.

use crate::lines::{is_name, Line};

/// How deep components go, VCALENDAR being 1.
const DEEPEST: usize = 8;
/// How many components there are at most, VCALENDAR among them.
const MOST: usize = 256;
/// The depth at which VEVENT and VFREEBUSY stand.
const EVENT_DEPTH: usize = 2;

/// A component, by the places of its lines.
#[derive(Clone, Copy, Debug)]
pub struct Component {
    /// The place of its BEGIN line in the list of lines, the first being 0.
    begin: usize,
    /// The place of its END line.
    end: usize,
    /// The number of the first component behind it and its descendants.
    next: usize,
}

impl Component {
    /// The component's name.
    pub fn name<'a>(&self, text: &'a [u8], lines: &[Line]) -> &'a [u8] {
        self.begin_line(lines).value(text)
    }

    /// The component's BEGIN line.
    pub fn begin_line<'l>(&self, lines: &'l [Line]) -> &'l Line {
        &lines[self.begin]
    }
}

/// The numbers of the components directly in component `parent`.
pub fn children(components: &[Component], parent: usize) -> impl Iterator<Item = usize> + '_ {
    let end = components[parent].next;
    let step = move |child: usize| Some(child).filter(|&c| c < end);
    std::iter::successors(step(parent + 1), move |&child| step(components[child].next))
}

/// The property lines directly in component `number`, in file order, as the stretches of
/// lines between its inner components.
pub fn own_lines<'a>(
    lines: &'a [Line],
    components: &'a [Component],
    number: usize,
) -> impl Iterator<Item = &'a [Line]> + 'a {
    let this = &components[number];
    let starts = std::iter::once(this.begin).chain(children(components, number).map(|c| components[c].end));
    let ends = children(components, number).map(|c| components[c].begin).chain(std::iter::once(this.end));
    starts.zip(ends).map(|(start, end)| &lines[start + 1..end])
}

/// Lists the components, component 0 being VCALENDAR, or gives the number of the line that
/// breaks the nesting; if none does but VCALENDAR is not closed, the number behind the last.
pub fn read(text: &[u8], lines: &[Line]) -> Result<Vec<Component>, usize> {
    let mut components: Vec<Component> = Vec::new();
    let mut open = [0; DEEPEST];
    let mut depth = 0;
    for (number, line) in lines.iter().enumerate() {
        let name = line.name(text);
        let begins = name.eq_ignore_ascii_case(b"BEGIN");
        let ends = name.eq_ignore_ascii_case(b"END");
        // Only the first line stands outside every component, and it begins one.
        if depth == 0 && !(number == 0 && begins) {
            return Err(line.number());
        }
        if !begins && !ends {
            continue;
        }
        let value = line.value(text);
        if line.has_parameters() || !is_name(value) {
            return Err(line.number());
        }
        if begins {
            if depth == DEEPEST || components.len() == MOST || !may_stand(value, depth + 1) {
                return Err(line.number());
            }
            open[depth] = components.len();
            depth += 1;
            components.push(Component { begin: number, end: 0, next: 0 });
        } else {
            depth -= 1;
            let next = components.len();
            let innermost = &mut components[open[depth]];
            if !value.eq_ignore_ascii_case(lines[innermost.begin].value(text)) {
                return Err(line.number());
            }
            innermost.end = number;
            innermost.next = next;
        }
    }
    if depth == 0 && !components.is_empty() {
        Ok(components)
    } else {
        Err(lines.len() + 1)
    }
}

/// Whether a component of that name may stand at that depth.
fn may_stand(name: &[u8], depth: usize) -> bool {
    let calendar = name.eq_ignore_ascii_case(b"VCALENDAR");
    let event = name.eq_ignore_ascii_case(b"VEVENT") || name.eq_ignore_ascii_case(b"VFREEBUSY");
    calendar == (depth == 1) && (!event || depth == EVENT_DEPTH)
}
