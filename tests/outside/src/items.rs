//! Both sides on items: values read and written.

use crate::compare::{output, Asked};
use crate::{read_item, write_item, Item};
use crate::{CHAR, DAY, FLOAT, INT, NO_ITEM, NO_VALUE, NUMBER, TEXT, UNUSED, WORD};
use reader::generate::Random;
use reader::given::Given;
use reader::items::{item, known_field, Value};

/// The reader's value of item `i` in the library's numbers.
fn numbers(fid: u32, i: usize, field: &[u8]) -> Item {
    let signed = |kind, x: i64| Item { kind, value: x.unsigned_abs(), negative: u8::from(x < 0), ..Item::default() };
    let whole = |kind, value| Item { kind, value, ..Item::default() };
    match item(fid, i, field) {
        None => Item { kind: NO_ITEM, ..Item::default() },
        Some(None) => Item { kind: NO_VALUE, ..Item::default() },
        Some(Some(Value::Char(x))) => whole(CHAR, x.into()),
        Some(Some(Value::Word(x))) => whole(WORD, x.into()),
        Some(Some(Value::Int(x))) => whole(INT, x.into()),
        Some(Some(Value::Text(text))) => {
            let start = text.as_ptr() as usize - field.as_ptr() as usize;
            Item { kind: TEXT, start, len: text.len(), ..Item::default() }
        }
        Some(Some(Value::Number(x))) => signed(NUMBER, x),
        Some(Some(Value::Float(x))) => signed(FLOAT, x),
        Some(Some(Value::Date(None))) => Item { kind: UNUSED, ..Item::default() },
        Some(Some(Value::Date(Some(x)))) => {
            let (year, month, day) = ((x / 10_000) as u16, (x / 100 % 100) as u8, (x % 100) as u8);
            Item { kind: DAY, year, month, day, ..Item::default() }
        }
    }
}

/// One item of any field's bytes; gives its kind.
pub fn read(asked: &mut Asked, fid: u32, i: usize, field: &[u8]) -> Result<u8, String> {
    let right = numbers(fid, i, field);
    asked.same(&format!("item {i} of {fid:#06x}"), read_item(fid, i, field), right)?;
    Ok(right.kind)
}

/// All items of a field's bytes, and those that it doesn't have.
pub fn read_all(asked: &mut Asked, fid: u32, field: &[u8]) -> Result<(), String> {
    let count = known_field(fid).map_or(0, |row| row.items.len());
    for i in (0..=count).chain([usize::MAX]) {
        read(asked, fid, i, field)?;
    }
    Ok(())
}

/// A value in the library's numbers, with any numbers where they aren't looked at.
fn given_numbers(r: &mut Random, given: &Given) -> Item {
    let noise = Item {
        start: r.next() as usize,
        len: r.next() as usize,
        value: r.next(),
        year: r.next() as u16,
        month: r.byte(),
        day: r.byte(),
        kind: 0,
        negative: r.byte(),
    };
    let minus = |r: &mut Random, negative: bool| if negative { r.pick(&[1, 1, 2, 255]) } else { 0 };
    match *given {
        Given::Char(value) => Item { kind: CHAR, value, ..noise },
        Given::Word(value) => Item { kind: WORD, value, ..noise },
        Given::Int(value) => Item { kind: INT, value, ..noise },
        Given::Text(_) => Item { kind: TEXT, ..noise },
        Given::Number { negative, units } => Item { kind: NUMBER, value: units, negative: minus(r, negative), ..noise },
        Given::Float { negative, units } => Item { kind: FLOAT, value: units, negative: minus(r, negative), ..noise },
        Given::Date(None) => Item { kind: UNUSED, ..noise },
        Given::Date(Some((year, month, day))) => Item { kind: DAY, year, month, day, ..noise },
    }
}

/// A value written as item `i`; gives whether it fits.
pub fn written(asked: &mut Asked, r: &mut Random, fid: u32, i: usize, given: &Given) -> Result<bool, String> {
    let row = known_field(fid).and_then(|field| field.items.get(i));
    let right = row.and_then(|row| row.kind.bytes(given)).ok_or(9);
    let value = given_numbers(r, given);
    // Beside anything but a text, any bytes.
    let beside = r.bytes(3);
    let text = if let Given::Text(text) = given { text } else { &beside };
    output(asked, r, right.as_deref().map_err(|row| *row), |out| write_item(fid, i, value, text, out))?;
    Ok(right.is_ok())
}

/// A kind that is no value: refused, whatever else is given.
pub fn not_written(asked: &mut Asked, r: &mut Random, fid: u32, i: usize, kind: u8) -> Result<(), String> {
    assert!(kind == NO_ITEM || kind == NO_VALUE || kind > UNUSED);
    let value = Item { kind, value: r.pick(&[0, 1]), ..Item::default() };
    output(asked, r, Err(9), |out| write_item(fid, i, value, b"", out))
}
