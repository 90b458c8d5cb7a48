//! Content lines: unfolding, cutting into well formed lines, and a line's parts.
//! Everything here works on slices of the unfolded text; nothing is copied but by `unfold`.

/// The longest line without its CR LF.
const LONGEST_LINE: usize = 1_024;

/// A well formed line: where it starts in the text, its parts counted from there, and which
/// line it is. A line has four bytes or more, so that its number fits.
#[derive(Clone, Copy, Debug)]
pub struct Line {
    start: u32,
    name_end: u16,
    colon: u16,
    end: u16,
    number: u16,
}

impl Line {
    /// The property's name.
    pub fn name<'a>(&self, text: &'a [u8]) -> &'a [u8] {
        self.part(text, 0, self.name_end)
    }

    /// The property's value: all that stands behind the colon.
    pub fn value<'a>(&self, text: &'a [u8]) -> &'a [u8] {
        self.part(text, self.colon + 1, self.end)
    }

    /// The parameters in their order.
    pub fn parameters<'a>(&self, text: &'a [u8]) -> Parameters<'a> {
        Parameters { rest: self.part(text, self.name_end, self.colon) }
    }

    /// Whether there is any parameter.
    pub fn has_parameters(&self) -> bool {
        self.name_end != self.colon
    }

    /// Which line of the text it is, the first being 1.
    pub fn number(&self) -> usize {
        self.number.into()
    }

    fn part<'a>(&self, text: &'a [u8], from: u16, to: u16) -> &'a [u8] {
        let start = self.start as usize;
        &text[start + from as usize..start + to as usize]
    }
}

/// The parameters of a line, each as its name and its values.
pub struct Parameters<'a> {
    /// Empty, or `;name=value,value..` and so on.
    rest: &'a [u8],
}

impl<'a> Iterator for Parameters<'a> {
    type Item = (&'a [u8], ParameterValues<'a>);

    fn next(&mut self) -> Option<Self::Item> {
        let body = self.rest.strip_prefix(b";")?;
        let equals = body.iter().position(|&b| b == b'=')?;
        let (name, values) = (&body[..equals], &body[equals + 1..]);
        let end = position_unquoted(values, b';');
        self.rest = &values[end..];
        Some((name, ParameterValues { rest: Some(&values[..end]) }))
    }
}

/// The values of one parameter, quotes taken off.
#[derive(Clone)]
pub struct ParameterValues<'a> {
    rest: Option<&'a [u8]>,
}

impl<'a> Iterator for ParameterValues<'a> {
    type Item = &'a [u8];

    fn next(&mut self) -> Option<Self::Item> {
        let list = self.rest?;
        let end = position_unquoted(list, b',');
        self.rest = list.get(end + 1..);
        let value = &list[..end];
        Some(value.strip_prefix(b"\"").and_then(|v| v.strip_suffix(b"\"")).unwrap_or(value))
    }
}

/// The first place of `wanted` outside double quotes, or the length.
fn position_unquoted(bytes: &[u8], wanted: u8) -> usize {
    let mut quoted = false;
    let found = bytes.iter().position(|&b| {
        quoted ^= b == b'"';
        b == wanted && !quoted
    });
    found.unwrap_or(bytes.len())
}

/// Copies the calendar into `work` without its folds and gives the length. `work` must be
/// at least as long as the calendar.
pub fn unfold(cal: &[u8], work: &mut [u8]) -> usize {
    let mut filled = 0;
    let mut rest = cal;
    loop {
        let fold = first_fold(rest);
        let kept = &rest[..fold.unwrap_or(rest.len())];
        work[filled..filled + kept.len()].copy_from_slice(kept);
        filled += kept.len();
        match fold {
            Some(place) => rest = &rest[place + 3..],
            None => return filled,
        }
    }
}

/// The first place of CR LF and a blank. Whole blocks are asked first, without a branch on
/// each byte, since most have no fold.
fn first_fold(bytes: &[u8]) -> Option<usize> {
    const BLOCK: usize = 64;
    let is_fold = |a: u8, b: u8, c: u8| (a == b'\r') & (b == b'\n') & ((c == b' ') | (c == b'\t'));
    let mut at = 0;
    while let Some(block) = bytes.get(at..at + BLOCK + 2) {
        let threes = block.iter().zip(&block[1..]).zip(&block[2..]);
        if threes.fold(false, |any, ((&a, &b), &c)| any | is_fold(a, b, c)) {
            break;
        }
        at += BLOCK;
    }
    let place = bytes[at..].windows(3).position(|three| is_fold(three[0], three[1], three[2]))?;
    Some(at + place)
}

/// Cuts the unfolded text into lines, or gives the number of the first that is badly formed.
/// The CR LF at the end of each line must be all the controls that there are; they are counted
/// for all lines at once.
pub fn cut(text: &[u8]) -> Result<Vec<Line>, usize> {
    let mut lines = Vec::with_capacity(text.len() / 24 + 2);
    let mut start = 0;
    while let Some(line) = read_line(text, start, lines.len() + 1) {
        start += usize::from(line.end) + 2;
        lines.push(line);
    }
    if start == text.len() && controls(text) == 2 * lines.len() {
        Ok(lines)
    } else {
        Err(first_bad(text, &lines))
    }
}

/// The number of the first badly formed line: of the lines read, the first that has controls
/// besides its CR LF, as one read past its true end has too; else the next line.
#[cold]
fn first_bad(text: &[u8], lines: &[Line]) -> usize {
    let good = |line: &Line| controls(line.part(text, 0, line.end + 2)) == 2;
    lines.iter().take_while(|line| good(line)).count() + 1
}

/// Reads the line that starts there, controls apart.
fn read_line(text: &[u8], start: usize, number: usize) -> Option<Line> {
    let bytes = &text[start..];
    let name_end = name_length(bytes);
    if name_end == 0 {
        return None;
    }
    let mut colon = name_end;
    while bytes.get(colon) == Some(&b';') {
        colon = parameter_end(bytes, colon + 1)?;
    }
    if bytes.get(colon) != Some(&b':') {
        return None;
    }
    let end = colon + find(b'\r', &bytes[colon..])?;
    if end > LONGEST_LINE || bytes.get(end + 1) != Some(&b'\n') {
        return None;
    }
    Some(Line {
        start: start as u32,
        name_end: name_end as u16,
        colon: colon as u16,
        end: end as u16,
        number: number as u16,
    })
}

/// Where the parameter whose name starts at `from` ends.
fn parameter_end(bytes: &[u8], from: usize) -> Option<usize> {
    let mut at = from + name_length(&bytes[from..]);
    if at == from || bytes.get(at) != Some(&b'=') {
        return None;
    }
    loop {
        at += 1;
        if bytes.get(at) == Some(&b'"') {
            at += 1;
            at += find(b'"', &bytes[at..])? + 1;
        } else {
            at += bytes[at..].iter().position(|b| matches!(b, b'"' | b';' | b':' | b','))?;
        }
        match bytes.get(at)? {
            b',' => {}
            b';' | b':' => return Some(at),
            _ => return None,
        }
    }
}

/// How many name bytes stand first.
fn name_length(bytes: &[u8]) -> usize {
    bytes.iter().position(|&b| !is_name_byte(b)).unwrap_or(bytes.len())
}

/// Whether the bytes are a name: one or more letters, digits or hyphens.
pub fn is_name(bytes: &[u8]) -> bool {
    !bytes.is_empty() && bytes.iter().all(|&b| is_name_byte(b))
}

/// The first place of the byte. Eight bytes are asked at once: with 1 taken off each byte of
/// `word`, the lowest high bit that comes up is that of its first 0.
fn find(byte: u8, bytes: &[u8]) -> Option<usize> {
    const ONES: u64 = 0x0101_0101_0101_0101;
    let (words, rest) = bytes.as_chunks();
    for (number, word) in words.iter().enumerate() {
        let word = u64::from_le_bytes(*word) ^ (ONES * u64::from(byte));
        let zeros = word.wrapping_sub(ONES) & !word & (ONES << 7);
        if zeros != 0 {
            return Some(8 * number + zeros.trailing_zeros() as usize / 8);
        }
    }
    let place = rest.iter().position(|&b| b == byte)?;
    Some(8 * words.len() + place)
}

/// How many controls there are, a tab being none. Chunks whose count fits a byte are fast.
fn controls(bytes: &[u8]) -> usize {
    let is_control = |b: u8| (b < 32 && b != b'\t') || b == 127;
    let count = |chunk: &[u8]| chunk.iter().map(|&b| u8::from(is_control(b))).sum::<u8>();
    bytes.chunks(240).map(|chunk| usize::from(count(chunk))).sum()
}

fn is_name_byte(b: u8) -> bool {
    NAME_BYTES[usize::from(b)]
}

static NAME_BYTES: [bool; 256] = {
    let mut table = [false; 256];
    let mut b = 0;
    while b < table.len() {
        table[b] = (b as u8).is_ascii_alphanumeric() || b as u8 == b'-';
        b += 1;
    }
    table
};
