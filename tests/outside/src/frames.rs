//! Frames of JR/T 0087 of the library, and both sides on the same frames.

use crate::compare::Asked;
use crate::{Span, Written};
use reader::fix::{self, Field, Judgement, Message};
use reader::generate::Random;

pub const REFUSED: u8 = 0;

/// How a frame is judged, and what it says. What an answer doesn't have is 0.
#[repr(C)]
#[derive(Clone, Copy, Debug, Default, PartialEq, Eq)]
pub struct Reading {
    pub name: Span,
    pub fields: Span,
    pub text: Span,
    pub expected: u32,
    pub number: u32,
    pub first: u32,
    pub second: u32,
    pub answer: u8,
    pub refusal: u8,
    pub kind: u8,
    pub fill: u8,
}

/// A field of a run.
#[repr(C)]
#[derive(Clone, Copy, Debug, Default, PartialEq, Eq)]
pub struct Tagged {
    pub start: usize,
    pub len: usize,
    pub tag: u32,
    pub found: u8,
}

impl Tagged {
    fn of(field: Option<&Field>) -> Self {
        field.map_or(Tagged::default(), |f| Tagged { start: f.start, len: f.len, tag: f.tag, found: 1 })
    }
}

#[repr(C)]
#[derive(Clone, Copy, Debug, Default, PartialEq, Eq)]
pub struct Number {
    pub number: u32,
    pub found: u8,
}

extern "C" {
    fn ftd_frame_read(bytes: *const u8, count: usize, expected: u32) -> Reading;
    fn ftd_frame_write(
        name: *const u8,
        name_len: usize,
        fields: *const u8,
        count: usize,
        output: *mut u8,
        room: usize,
    ) -> Written;
    fn ftd_frame_field(fields: *const u8, count: usize, i: usize) -> Tagged;
    fn ftd_frame_first(fields: *const u8, count: usize, tag: u32) -> Tagged;
    fn ftd_frame_number(text: *const u8, count: usize) -> Number;
}

pub fn read(bytes: &[u8], expected: u32) -> Reading {
    unsafe { ftd_frame_read(bytes.as_ptr(), bytes.len(), expected) }
}

pub fn write(name: &[u8], fields: &[u8], output: &mut [u8]) -> Written {
    let (name_len, count) = (name.len(), fields.len());
    unsafe { ftd_frame_write(name.as_ptr(), name_len, fields.as_ptr(), count, output.as_mut_ptr(), output.len()) }
}

pub fn field(fields: &[u8], i: usize) -> Tagged {
    unsafe { ftd_frame_field(fields.as_ptr(), fields.len(), i) }
}

pub fn first(fields: &[u8], tag: u32) -> Tagged {
    unsafe { ftd_frame_first(fields.as_ptr(), fields.len(), tag) }
}

pub fn number(text: &[u8]) -> Number {
    unsafe { ftd_frame_number(text.as_ptr(), text.len()) }
}

/// The number of a type, and the tags of its own values.
fn own(kind: &[u8]) -> (u8, Option<u32>, Option<u32>) {
    match kind {
        b"0" => (1, None, None),
        b"1" => (2, Some(112), None),
        b"2" => (3, Some(7), Some(16)),
        b"4" => (4, Some(36), None),
        b"5" => (5, None, None),
        b"A" => (6, Some(98), Some(108)),
        _ => (0, None, None),
    }
}

/// What the reader says of a frame, in the library's numbers. 35 is the third field, and 10 has seven bytes.
fn said(bytes: &[u8], message: &Message, expected: u32) -> Reading {
    let one = |tag: Option<u32>| message.fields.iter().find(|field| Some(field.tag) == tag);
    let value = |tag| one(tag).and_then(|field| fix::number(field.text(bytes))).unwrap_or(0);
    let (kind, first, second) = own(message.kind);
    let behind = |byte: u8, from: usize| from + bytes[from..].iter().position(|&b| b == byte).expect("a frame") + 1;
    let name = behind(b'=', behind(fix::SOH, behind(fix::SOH, 0)));
    let fields = name + message.kind.len() + 1;
    Reading {
        name: Span { start: name, len: message.kind.len() },
        fields: Span { start: fields, len: bytes.len() - 7 - fields },
        text: one(first).map_or(Span::default(), |field| Span { start: field.start, len: field.len }),
        expected,
        number: message.number,
        first: value(first),
        second: value(second),
        answer: match message.judgement {
            Judgement::Next => 1,
            Judgement::Again => 2,
            Judgement::Gap => 3,
            Judgement::Reset => 4,
        },
        refusal: 0,
        kind,
        fill: message.fields.iter().any(|field| field.tag == 123 && field.text(bytes) == b"Y").into(),
    }
}

/// A run on both sides, whole or not: its fields up to the first place where none stands, by index and by tag, and their
/// texts as numbers.
fn run(asked: &mut Asked, r: &mut Random, bytes: &[u8]) -> Result<(), String> {
    // The longest front of it that is whole.
    let ends = (0..=bytes.len()).rev().filter(|&n| n == 0 || bytes[n - 1] == fix::SOH);
    let fields = ends.map(|n| fix::cut(bytes, 0, n)).find_map(|cut| cut).expect("no bytes are whole");
    let count = fields.len();
    let some = [r.below(count + 1), count / 2, count, count + 1, usize::MAX];
    for i in (0..count.min(12)).chain(count.saturating_sub(2)..count).chain(some) {
        asked.same(&format!("field {i}"), field(bytes, i), Tagged::of(fields.get(i)))?;
    }
    let tags = fields.iter().take(12).map(|field| field.tag);
    for tag in tags.chain([34, 43, 112, 0, r.pick(&[1, 35, 96, 123, 141, 999_999_999, u32::MAX])]) {
        let right = Tagged::of(fields.iter().find(|field| field.tag == tag));
        asked.same(&format!("the first field {tag}"), first(bytes, tag), right)?;
    }
    let texts = fields.iter().take(12).map(|field| field.text(bytes));
    for text in texts.chain([bytes, &bytes[..r.below(bytes.len() + 1).min(10)]]) {
        let right = fix::number(text).map_or(Number::default(), |number| Number { number, found: 1 });
        asked.same(&format!("{text:?} as a number"), number(text), right)?;
    }
    Ok(())
}

/// Some bytes read on both sides: the answer as a number (28, 29, 30, or 100 and up for next, again, gap, reset). A frame
/// that isn't turned away is the same bytes when it is written again.
pub fn read_both(asked: &mut Asked, r: &mut Random, bytes: &[u8], expected: u32) -> Result<u8, String> {
    let found = read(bytes, expected);
    let answer = fix::read(bytes, expected);
    match &answer.found {
        Err(row) => {
            let right = Reading { expected: answer.expected, refusal: *row, answer: REFUSED, ..Reading::default() };
            asked.same("a frame", found, right)?;
            Ok(*row)
        }
        Ok(message) => {
            asked.same("a frame", found, said(bytes, message, answer.expected))?;
            let (name, fields) = (found.name.of(bytes), found.fields.of(bytes));
            asked.same("the type", name, message.kind)?;
            run(asked, r, fields)?;
            let mut out = vec![0xA5; bytes.len()];
            asked.same("written again", write(name, fields, &mut out), Written { bytes: out.len(), refusal: 0 })?;
            asked.same("written again", out.as_slice(), bytes)?;
            Ok(99 + found.answer)
        }
    }
}

/// A type and a run of fields written on both sides, into outputs of exactly the bytes that the frame has, of one less, of
/// some more and of none; every byte of the output. What is written is read back as what was meant.
pub fn write_both(asked: &mut Asked, r: &mut Random, name: &[u8], fields: &[u8]) -> Result<u8, String> {
    run(asked, r, fields)?;
    let mut whole = vec![0; fix::MOST_FRAME];
    let right = fix::write_run(name, fields, &mut whole);
    let takes = right.unwrap_or(name.len() + fields.len() + 26);
    for room in [takes, takes.saturating_sub(1), takes + 1 + r.below(9), 0] {
        let (mut out, mut left) = (vec![0xA5; room], vec![0xA5; room]);
        let answer = match fix::write_run(name, fields, &mut left) {
            Ok(bytes) => Written { bytes, refusal: 0 },
            Err(refusal) => Written { bytes: 0, refusal },
        };
        asked.same(&format!("written with room for {room}"), write(name, fields, &mut out), answer)?;
        asked.same(&format!("the output of {room}"), &out, &left)?;
    }
    if right.is_ok() {
        let (bytes, expected) = (&whole[..takes], r.pick(&[0, 1, 5]));
        let back = read(bytes, expected);
        if back.refusal != 30 {
            asked.same("read back", (back.name.of(bytes), back.fields.of(bytes)), (name, fields))?;
        }
    }
    Ok(right.err().unwrap_or(0))
}
