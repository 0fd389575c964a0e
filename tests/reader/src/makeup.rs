//! Messages: modes, make-up (Appendix E) and the check of content, rows 7 to 10.

use crate::items::{known_field, wrong_item};
use crate::packet::{fields, FIELD_HEADER, MOST_CONTENT};
use crate::tables::{MESSAGES, MOST_LINES, TIDS};

/// Up: sent by the member; down: sent by the exchange (Table 7).
#[derive(Clone, Copy, Debug, PartialEq, Eq, PartialOrd, Ord)]
pub enum Direction {
    Down,
    Up,
}

#[derive(Clone, Copy, Debug, PartialEq, Eq)]
pub enum Mode {
    Dialog,
    Private,
    Broadcast,
    Management,
}

#[derive(Debug)]
pub struct Tid {
    pub number: u32,
    pub name: &'static str,
    pub mode: Mode,
}

/// A line of Appendix E: how often a field occurs; `most` is none if unlimited.
#[derive(Debug)]
pub struct Line {
    pub fid: u32,
    pub least: usize,
    pub most: Option<usize>,
}

#[derive(Debug)]
pub struct Message {
    pub tid: u32,
    pub direction: Direction,
    pub name: &'static str,
    pub lines: &'static [Line],
}

/// The mode of a TID; none outside Appendix A.
pub fn mode(tid: u32) -> Option<Mode> {
    TIDS.iter().find(|row| row.number == tid).map(|row| row.mode)
}

/// The message of Appendix E. The table is sorted.
pub fn known_message(tid: u32, direction: Direction) -> Option<&'static Message> {
    let found = MESSAGES.binary_search_by_key(&(tid, direction), |row| (row.tid, row.direction));
    found.ok().map(|i| &MESSAGES[i])
}

/// Row 10: each listed field occurs as often as listed. Unlisted fields pass, and so does an unknown message.
pub fn makeup_right(tid: u32, direction: Direction, content: &[u8]) -> bool {
    let Some(message) = known_message(tid, direction) else {
        return true;
    };
    let mut counts = [0; MOST_LINES];
    for field in fields(content).flatten() {
        if let Some(i) = message.lines.iter().position(|line| line.fid == field.fid) {
            counts[i] += 1;
        }
    }
    message.lines.iter().zip(counts).all(|(line, n)| n >= line.least && line.most.is_none_or(|most| n <= most))
}

/// Whole fields of at most 4,074 bytes, `most` bytes in all.
pub fn shape_right(content: &[u8], most: usize) -> bool {
    content.len() <= most
        && fields(content).all(|field| field.is_ok_and(|field| field.value.len() <= MOST_CONTENT - FIELD_HEADER))
}

/// Row 8: each known field has its width.
pub fn widths_right(content: &[u8]) -> bool {
    fields(content).flatten().all(|field| known_field(field.fid).is_none_or(|row| row.width == field.value.len()))
}

/// Row 9, after row 8: each item of each known field is a value of its type.
pub fn items_right(content: &[u8]) -> bool {
    fields(content)
        .flatten()
        .all(|field| known_field(field.fid).is_none_or(|row| wrong_item(row, field.value).is_none()))
}

/// The check of content that has at most `most` bytes: the first of 7, 8, 9, 10 that holds, over all fields.
pub fn check(tid: u32, direction: Direction, content: &[u8], most: usize) -> Result<(), u8> {
    if !shape_right(content, most) {
        Err(7)
    } else if !widths_right(content) {
        Err(8)
    } else if !items_right(content) {
        Err(9)
    } else if !makeup_right(tid, direction, content) {
        Err(10)
    } else {
        Ok(())
    }
}
