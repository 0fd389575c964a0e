//! Values written as items (Table 6), and values to be tried.

use crate::generate::Random;
use crate::items::{Kind, Value};
use crate::tables::FIELDS;

/// A value that is given to be written. Numbers may be larger than any item holds, and the sign stands apart, so that
/// minus zero can be given.
#[derive(Clone, Debug, PartialEq, Eq)]
pub enum Given {
    Char(u64),
    Word(u64),
    Int(u64),
    Text(Vec<u8>),
    Number {
        negative: bool,
        units: u64,
    },
    Float {
        negative: bool,
        units: u64,
    },
    /// Year, month, day; none for unused.
    Date(Option<(u16, u8, u8)>),
}

impl Kind {
    /// The bytes that a value is written as: those of the type's width that are read as it. None where there are none.
    pub fn bytes(&self, given: &Given) -> Option<Vec<u8>> {
        let (bytes, value) = match (*self, given) {
            (Kind::Char(_), &Given::Char(x)) => {
                let byte = u8::try_from(x).ok()?;
                (vec![byte], Value::Char(byte))
            }
            (Kind::Word, &Given::Word(x)) => {
                let word = u16::try_from(x).ok()?;
                (word.to_be_bytes().to_vec(), Value::Word(word))
            }
            (Kind::Int, &Given::Int(x)) => {
                let int = u32::try_from(x).ok()?;
                (int.to_be_bytes().to_vec(), Value::Int(int))
            }
            (Kind::Text(a), Given::Text(text)) => {
                let mut bytes = text.clone();
                // One that is too long keeps its length, and is no item of the width.
                bytes.resize(a.max(text.len()), b' ');
                (bytes, Value::Text(text))
            }
            (Kind::Number(a), &Given::Number { negative, units }) => {
                (signed(a, None, negative, units), Value::Number(value(negative, units)?))
            }
            (Kind::Float(a, b), &Given::Float { negative, units }) => {
                (signed(a, Some(b), negative, units), Value::Float(value(negative, units)?))
            }
            (Kind::Date, Given::Date(None)) => (vec![b' '; 8], Value::Date(None)),
            (Kind::Date, &Given::Date(Some((year, month, day)))) => {
                let number = u32::from(year) * 10_000 + u32::from(month) * 100 + u32::from(day);
                (format!("{year:04}{month:02}{day:02}").into_bytes(), Value::Date(Some(number)))
            }
            _ => return None,
        };
        (self.value(&bytes) == Some(value)).then_some(bytes)
    }
}

fn value(negative: bool, units: u64) -> Option<i64> {
    let units = i64::try_from(units).ok()?;
    Some(if negative { -units } else { units })
}

/// The sign, and the digits filled with 0 in front, with a point before the last `behind`: `width` bytes or more.
fn signed(width: usize, behind: Option<usize>, negative: bool, units: u64) -> Vec<u8> {
    let sign = if negative { "-" } else { "" };
    let point = usize::from(behind.is_some());
    let mut text = format!("{sign}{units:0digits$}", digits = width.saturating_sub(sign.len() + point));
    if let Some(behind) = behind {
        text.insert(text.len().saturating_sub(behind), '.');
    }
    text.into_bytes()
}

/// A value for an item of the type: mostly of that type, and mostly at a border of what it holds.
pub fn given(r: &mut Random, kind: Kind) -> Given {
    let any = |r: &mut Random| {
        let field = &FIELDS[r.below(FIELDS.len())];
        field.items[r.below(field.items.len())].kind
    };
    match if r.once_in(12) { any(r) } else { kind } {
        Kind::Char(values) => Given::Char(match r.below(4) {
            0 => r.pick(&[0, 1, 127, 128, 255, 256, 257, u64::MAX]),
            1 if !values.is_empty() => r.pick(values).into(),
            _ => r.byte().into(),
        }),
        Kind::Word => Given::Word(whole(r, 1 << 16)),
        Kind::Int => Given::Int(whole(r, 1 << 32)),
        Kind::Text(a) => Given::Text(text(r, a)),
        Kind::Number(a) => {
            let negative = r.once_in(2);
            Given::Number { negative, units: units(r, a - usize::from(negative)) }
        }
        Kind::Float(a, _) => {
            let negative = r.once_in(2);
            Given::Float { negative, units: units(r, a - 1 - usize::from(negative)) }
        }
        Kind::Date if r.once_in(8) => Given::Date(None),
        Kind::Date => {
            let year = if r.once_in(2) {
                r.within(1590, 2110) as u16
            } else {
                r.pick(&[0, 1, 1600, 1601, 1900, 2000, 2024, 2100, 9999, 10_000, 65_535])
            };
            let month =
                if r.once_in(2) { r.within(1, 12) as u8 } else { r.pick(&[0, 1, 2, 4, 9, 10, 12, 13, 99, 100, 255]) };
            let day =
                if r.once_in(2) { r.within(1, 31) as u8 } else { r.pick(&[0, 1, 28, 29, 30, 31, 32, 99, 100, 255]) };
            Given::Date(Some((year, month, day)))
        }
    }
}

/// A whole number around what `above` values hold.
fn whole(r: &mut Random, above: u64) -> u64 {
    match r.below(4) {
        0 => r.pick(&[0, 1, above - 1, above, above + 1, u64::MAX]),
        1 => r.next(),
        _ => r.next() % above,
    }
}

/// Units around what so many digits hold.
fn units(r: &mut Random, digits: usize) -> u64 {
    let above = 10u64.pow(digits as u32);
    match r.below(4) {
        0 => r.pick(&[0, 1, 9, 10, above / 10 - 1, above / 10, above - 1, above, above + 1]),
        1 => r.pick(&[1 << 31, 1 << 32, 1 << 63, u64::MAX, 999_999_999_999_999_999, 1_000_000_000_000_000_000]),
        _ => {
            let most = r.within(0, digits + 1) as u32;
            r.next() % 10u64.pow(most)
        }
    }
}

/// A text around the width: often a right one; else with a byte that isn't text, a space at the end, or too long.
fn text(r: &mut Random, width: usize) -> Vec<u8> {
    let n = match r.below(4) {
        0 => r.pick(&[0, 1, width - 1, width, width + 1, width + 300]),
        _ => r.within(0, width),
    };
    let mut text: Vec<u8> = (0..n).map(|_| r.within(0x20, 0x7E) as u8).collect();
    if n > 0 {
        let at = r.below(n);
        match r.below(8) {
            0 => text[at] = r.pick(&[0x00, 0x1F, 0x7F]),
            1 => text[at] = r.pick(&[0x80, 0xFF, b' ', b'~']),
            2 => text[n - 1] = b' ',
            3 => text[0] = b' ',
            _ => text[n - 1] = b'z',
        }
    }
    text
}
