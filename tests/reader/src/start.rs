//! The start field (DisseminationstartField): the series, and the next number wanted (4.3.3.2).

use crate::generate::{raw_field, Random};
use crate::items::{values, Value};
use crate::packet::fields;

pub const START_FIELD: u32 = 0x0004;

/// The start field of a content, among the fields that are whole.
#[derive(Clone, Copy, Debug, PartialEq, Eq)]
pub enum Start {
    Absent,
    Next {
        series: u16,
        number: u32,
    },
    /// One, of another width.
    Misshapen,
    /// More than one.
    Several,
}

pub fn start_field(content: &[u8]) -> Start {
    let mut found = fields(content).map_while(Result::ok).filter(|field| field.fid == START_FIELD);
    match (found.next(), found.next()) {
        (None, _) => Start::Absent,
        (Some(_), Some(_)) => Start::Several,
        (Some(one), None) => match values(one.fid, one.value).as_deref() {
            Some(&[Value::Word(series), Value::Int(number)]) => Start::Next { series, number },
            _ => Start::Misshapen,
        },
    }
}

/// The field with its FID and length.
pub fn start_field_bytes(series: u16, number: u32) -> Vec<u8> {
    raw_field(START_FIELD, &[&series.to_be_bytes()[..], &number.to_be_bytes()].concat())
}

/// A content of some fields with no start field, one, or more, of the right width or another; not always whole.
pub fn start_input(r: &mut Random) -> Vec<u8> {
    let mut out = Vec::new();
    for _ in 0..r.below(6) {
        let n = if r.once_in(4) { r.below(60) } else { 6 };
        let value = r.bytes(n);
        let fid = if r.once_in(2) { START_FIELD } else { r.pick(&[3, 5, 0x0100_0004, 0x0400, 0x4000]) };
        out.extend(raw_field(fid, &value));
    }
    match r.below(4) {
        0 => out.truncate(r.below(out.len() + 1)),
        1 => {
            let n = r.below(12);
            out.extend(r.bytes(n));
        }
        _ => {}
    }
    out
}
