//! The path to a value, as keys and indexes, and the path to an error in the bytes of a document.
use std::fmt::{self, Write};
use std::ops::Deref;

/// A key or an index on the way to a value.
#[derive(Clone, Debug, PartialEq, Eq, Hash)]
pub enum PathElement {
    /// A key of a document.
    Key(String),
    /// An index of an array, from 0.
    Index(usize),
}

/// The keys and indexes that lead to a value. It is displayed with points between them, for example `orders.0.price`.
#[derive(Clone, Debug, Default, PartialEq, Eq, Hash)]
pub struct Path(Vec<PathElement>);

impl Path {
    /// The path whose elements are these, its end first.
    pub(crate) fn reversed(mut elements: Vec<PathElement>) -> Path {
        elements.reverse();
        Path(elements)
    }

    pub(crate) fn insert(&mut self, element: PathElement) {
        self.0.insert(0, element);
    }
}

impl Deref for Path {
    type Target = [PathElement];

    fn deref(&self) -> &[PathElement] {
        &self.0
    }
}

impl FromIterator<PathElement> for Path {
    fn from_iter<I: IntoIterator<Item = PathElement>>(elements: I) -> Path {
        Path(elements.into_iter().collect())
    }
}

impl From<&str> for PathElement {
    fn from(key: &str) -> PathElement {
        PathElement::Key(key.to_owned())
    }
}

impl From<usize> for PathElement {
    fn from(index: usize) -> PathElement {
        PathElement::Index(index)
    }
}

/// Control characters, U+2028 and U+2029 of keys are escaped as in JSON, for example `\u001b`.
impl fmt::Display for PathElement {
    fn fmt(&self, f: &mut fmt::Formatter<'_>) -> fmt::Result {
        match self {
            PathElement::Index(index) => write!(f, "{index}"),
            PathElement::Key(key) => key.chars().try_for_each(|it| match it {
                '\u{2028}' | '\u{2029}' => write!(f, "\\u{:04x}", u32::from(it)),
                _ if it.is_control() => write!(f, "\\u{:04x}", u32::from(it)),
                _ => f.write_char(it),
            }),
        }
    }
}

impl fmt::Display for Path {
    fn fmt(&self, f: &mut fmt::Formatter<'_>) -> fmt::Result {
        self.0.iter().enumerate().try_for_each(|(at, it)| write!(f, "{}{it}", if at == 0 { "" } else { "." }))
    }
}

const DOCUMENT: u8 = 0x03;
const ARRAY: u8 = 0x04;
const CODE_WITH_SCOPE: u8 = 0x0F;

/// An element of bytes that need not be a document. Its end is after all bytes if nothing says where it is.
struct Element {
    name: PathElement,
    tag: u8,
    start: usize,
    end: usize,
}

/// The elements of a document or an array, as far as they can be followed.
struct Elements<'a> {
    data: &'a [u8],
    at: usize,
    index: usize,
    is_array: bool,
}

fn elements(data: &[u8], at: usize, is_array: bool) -> Elements<'_> {
    Elements { data, at: at + 4, index: 0, is_array }
}

impl Iterator for Elements<'_> {
    type Item = Element;

    fn next(&mut self) -> Option<Element> {
        let tag = *self.data.get(self.at).filter(|it| **it != 0)?;
        let zero = zero_after(self.data, self.at + 1)?;
        let key = || String::from_utf8_lossy(&self.data[self.at + 1..zero]).into_owned();
        let name = if self.is_array { PathElement::Index(self.index) } else { PathElement::Key(key()) };
        let (start, end) = (zero + 1, value_end(self.data, tag, zero + 1));
        self.at = end;
        self.index += 1;
        Some(Element { name, tag, start, end })
    }
}

fn zero_after(data: &[u8], at: usize) -> Option<usize> {
    Some(at + data.get(at..)?.iter().position(|it| *it == 0)?)
}

/// The number of up to four bytes, which is negative if the first bit of the last is set.
fn number_at(data: &[u8], at: usize) -> i64 {
    let part = &data[at.min(data.len())..(at + 4).min(data.len())];
    let sign = if part.last().is_some_and(|it| *it >= 0x80) { -1 } else { 0 };
    part.iter().rev().fold(sign, |number, it| number << 8 | i64::from(*it))
}

fn value_end(data: &[u8], tag: u8, at: usize) -> usize {
    let unknown = data.len() + 1;
    let after_number = |more: usize| match usize::try_from(number_at(data, at)) {
        Ok(length) if length < unknown - at => at + length + more,
        _ => unknown,
    };
    match tag {
        0x06 | 0x0A | 0x7F | 0xFF => at,
        0x08 => at + 1,
        0x01 | 0x09 | 0x11 | 0x12 => at + 8,
        0x07 => at + 12,
        0x10 => at + 4,
        0x13 => at + 16,
        0x0B => zero_after(data, at).and_then(|it| zero_after(data, it + 1)).map_or(unknown, |it| it + 1),
        DOCUMENT | ARRAY | CODE_WITH_SCOPE => after_number(0),
        0x02 | 0x0D | 0x0E => after_number(4),
        0x05 => after_number(5),
        0x0C => after_number(16),
        _ => unknown,
    }
}

/// Where the document inside a value begins, and the key on the way to it.
fn inside_of(data: &[u8], tag: u8, at: usize) -> Option<(usize, Option<PathElement>)> {
    match tag {
        DOCUMENT | ARRAY => Some((at, None)),
        CODE_WITH_SCOPE => Some((at + 8 + usize::try_from(number_at(data, at + 4)).unwrap_or(0), Some("$scope".into()))),
        _ => None,
    }
}

/// The path to the innermost value whose bytes, with its key, contain an offset.
pub(crate) fn at_offset(data: &[u8], offset: usize) -> Path {
    let (mut path, mut inside, mut is_array) = (Vec::new(), Some((0, None)), false);
    while let Some((at, scope)) = inside.filter(|it| it.0 + 4 <= offset) {
        let found = elements(data, at, is_array).find(|it| it.end > offset);
        path.extend(scope);
        let Some(found) = found else { break };
        path.push(found.name);
        (inside, is_array) = (inside_of(data, found.tag, found.start), found.tag == ARRAY);
    }
    Path(path)
}

/// The path to the first finite double other than zero in the bytes of a document.
pub(crate) fn of_finite_double(document: &[u8]) -> Path {
    Path::reversed(double_inside(document, 0, false).unwrap_or_default())
}

/// The path, its end first.
fn double_inside(data: &[u8], at: usize, is_array: bool) -> Option<Vec<PathElement>> {
    elements(data, at, is_array).find_map(|it| {
        let bytes = data.get(it.start..it.start + 8).filter(|_| it.tag == 0x01);
        let number = bytes.map(|it| f64::from_le_bytes(it.try_into().expect("eight bytes")));
        if number.is_some_and(|it| it.is_finite() && it != 0.0) {
            return Some(vec![it.name]);
        }
        let (start, scope) = inside_of(data, it.tag, it.start)?;
        let mut path = double_inside(data, start, it.tag == ARRAY)?;
        path.extend(scope);
        path.push(it.name);
        Some(path)
    })
}
