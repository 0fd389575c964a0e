//! Typed items (Table 6, Appendices B to D).

use crate::calendar::is_real;
use crate::tables::FIELDS;

/// The type of an item. An empty list of Char is no enumeration; otherwise its values, and also 0 for unused.
#[derive(Clone, Copy, Debug, PartialEq, Eq)]
pub enum Kind {
    Char(&'static [u8]),
    Word,
    Int,
    Text(usize),
    Number(usize),
    Float(usize, usize),
    Date,
}

#[derive(Debug)]
pub struct Item {
    pub name: &'static str,
    pub at: usize,
    pub width: usize,
    pub kind: Kind,
}

#[derive(Debug)]
pub struct Field {
    pub fid: u32,
    pub name: &'static str,
    pub width: usize,
    pub items: &'static [Item],
}

/// The value of an item.
#[derive(Clone, Copy, Debug, PartialEq, Eq)]
pub enum Value<'a> {
    Char(u8),
    Word(u16),
    Int(u32),
    /// Without trailing spaces.
    Text(&'a [u8]),
    Number(i64),
    /// Units of 10 to the power -b.
    Float(i64),
    /// The number YYYYMMDD; none if all spaces.
    Date(Option<u32>),
}

/// The field of Appendix D with that FID. The table is sorted.
pub fn known_field(fid: u32) -> Option<&'static Field> {
    FIELDS.binary_search_by_key(&fid, |field| field.fid).ok().map(|i| &FIELDS[i])
}

impl Kind {
    pub fn width(&self) -> usize {
        match *self {
            Kind::Char(_) => 1,
            Kind::Word => 2,
            Kind::Int => 4,
            Kind::Text(a) | Kind::Number(a) | Kind::Float(a, _) => a,
            Kind::Date => 8,
        }
    }

    /// Are the bytes a value of the type?
    pub fn holds(&self, bytes: &[u8]) -> bool {
        match *self {
            Kind::Text(a) => bytes.len() == a && is_text(bytes),
            _ => self.value(bytes).is_some(),
        }
    }

    /// The value that the bytes have, if they are a value of the type.
    pub fn value<'a>(&self, bytes: &'a [u8]) -> Option<Value<'a>> {
        if bytes.len() != self.width() {
            return None;
        }
        match *self {
            Kind::Char(values) => {
                let byte = bytes[0];
                let known = values.is_empty() || byte == 0 || values.contains(&byte);
                known.then_some(Value::Char(byte))
            }
            Kind::Word => Some(Value::Word(crate::packet::u16_at(bytes, 0))),
            Kind::Int => Some(Value::Int(crate::packet::u32_at(bytes, 0))),
            Kind::Text(_) => is_text(bytes).then(|| Value::Text(without_trailing_spaces(bytes))),
            Kind::Number(_) => number(bytes, None).map(Value::Number),
            Kind::Float(a, b) => number(bytes, Some(a.checked_sub(b + 1)?)).map(Value::Float),
            Kind::Date => date(bytes).map(Value::Date),
        }
    }
}

/// String: bytes 0x20 to 0xFF but 0x7F.
fn is_text(bytes: &[u8]) -> bool {
    // No early end: all bytes at once are faster.
    !bytes.iter().fold(false, |wrong, &b| wrong | (b < 0x20) | (b == 0x7F))
}

fn without_trailing_spaces(bytes: &[u8]) -> &[u8] {
    let end = bytes.iter().rposition(|&b| b != b' ').map_or(0, |last| last + 1);
    &bytes[..end]
}

/// Number and Float: digits filled with 0 in front, the first byte '-' if negative, '.' at its place alone; minus zero
/// and no digit at all are wrong. The widths of the tables (at most 14) are far from what 64 bits hold.
fn number(bytes: &[u8], point: Option<usize>) -> Option<i64> {
    let negative = bytes.first() == Some(&b'-') && point != Some(0);
    let mut digits = 0;
    let mut value: i64 = 0;
    for (at, &byte) in bytes.iter().enumerate().skip(usize::from(negative)) {
        if point == Some(at) {
            if byte != b'.' {
                return None;
            }
        } else if byte.is_ascii_digit() {
            value = value * 10 + i64::from(byte - b'0');
            digits += 1;
        } else {
            return None;
        }
    }
    match (digits, negative, value) {
        (0, _, _) | (_, true, 0) => None,
        (_, true, _) => Some(-value),
        (_, false, _) => Some(value),
    }
}

/// Date: all spaces, or YYYYMMDD, a real date.
fn date(bytes: &[u8]) -> Option<Option<u32>> {
    if bytes.iter().all(|&b| b == b' ') {
        return Some(None);
    }
    let mut value = 0;
    for &byte in bytes {
        if !byte.is_ascii_digit() {
            return None;
        }
        value = value * 10 + u32::from(byte - b'0');
    }
    is_real(value).then_some(Some(value))
}

/// The first item of the field that isn't a value of its type, if any. The bytes have the field's width.
pub fn wrong_item(field: &Field, bytes: &[u8]) -> Option<usize> {
    field.items.iter().position(|item| !item.kind.holds(&bytes[item.at..item.at + item.width]))
}

/// The values of all items of a field, if it is known, has its width and all items are values.
pub fn values(fid: u32, bytes: &[u8]) -> Option<Vec<Value<'_>>> {
    let field = known_field(fid).filter(|field| field.width == bytes.len())?;
    field.items.iter().map(|item| item.kind.value(&bytes[item.at..item.at + item.width])).collect()
}

/// Item `i` of a field, counted from 0: none where there is no such item or its bytes aren't all there; then its value, none
/// where the bytes aren't one. Nothing else of the field is looked at.
pub fn item(fid: u32, i: usize, bytes: &[u8]) -> Option<Option<Value<'_>>> {
    let row = known_field(fid)?.items.get(i)?;
    bytes.get(row.at..row.at + row.width).map(|bytes| row.kind.value(bytes))
}
