//! Safe wrappers of the proved library: slices in, structs out. The declarations are those of include/ftd.h; nothing but
//! the tests here checks them against the library.

use reader::cut::Header;
use reader::makeup::Direction;

pub mod accounts;
pub mod bench;
pub mod book;
pub mod boxes;
pub mod calendar;
pub mod calls;
pub mod checkpoints;
pub mod compare;
pub mod effective;
pub mod ends;
pub mod frames;
pub mod history;
pub mod items;
pub mod orders;
pub mod several;
pub mod world;

pub const SHORT: u8 = 0;
pub const LINK: u8 = 1;
pub const SKIPPED: u8 = 2;
pub const MESSAGE: u8 = 3;
pub const REFUSED: u8 = 4;

/// A part of lent bytes.
#[repr(C)]
#[derive(Clone, Copy, Debug, Default, PartialEq, Eq)]
pub struct Span {
    pub start: usize,
    pub len: usize,
}

impl Span {
    /// The bytes of that part.
    pub fn of<'a>(&self, bytes: &'a [u8]) -> &'a [u8] {
        &bytes[self.start..self.start + self.len]
    }
}

/// What some bytes are. What an answer doesn't have is 0.
#[repr(C)]
#[derive(Clone, Copy, Debug, Default, PartialEq, Eq)]
pub struct Packet {
    pub size: usize,
    pub missing: usize,
    pub extension: Span,
    pub content: Span,
    pub tid: u32,
    pub number: u32,
    pub date: u32,
    pub series: u16,
    pub fields: u16,
    pub place: u16,
    pub answer: u8,
    pub refusal: u8,
    pub kind: u8,
    pub chain: u8,
    pub dated: u8,
    pub placed: u8,
}

#[repr(C)]
#[derive(Clone, Copy, Debug, Default, PartialEq, Eq)]
pub struct Field {
    pub start: usize,
    pub len: usize,
    pub fid: u32,
    pub found: u8,
}

/// A field at a known place: its bytes lie behind the six of FID and length.
#[repr(C)]
struct Step {
    len: usize,
    fid: u32,
    found: u8,
}

#[repr(C)]
#[derive(Clone, Copy, Debug)]
struct Message {
    tid: u32,
    number: u32,
    date: u32,
    series: u16,
    dated: u8,
}

impl Message {
    fn of(header: &Header) -> Self {
        Message {
            tid: header.tid,
            number: header.number,
            date: header.mark.unwrap_or(0),
            series: header.series,
            dated: header.mark.is_some().into(),
        }
    }
}

#[repr(C)]
#[derive(Clone, Copy, Debug, Default, PartialEq, Eq)]
pub struct Size {
    pub packets: usize,
    pub bytes: usize,
    pub refusal: u8,
}

#[repr(C)]
#[derive(Clone, Copy, Debug, Default, PartialEq, Eq)]
pub struct Written {
    pub bytes: usize,
    pub refusal: u8,
}

/// Neither a link packet nor a skipped one.
pub const NOT_PLAIN: u8 = 255;

#[repr(C)]
#[derive(Clone, Copy, Debug, Default, PartialEq, Eq)]
pub struct Date {
    pub date: u32,
    pub dated: u8,
}

pub const NO_ITEM: u8 = 0;
pub const NO_VALUE: u8 = 1;
pub const CHAR: u8 = 2;
pub const WORD: u8 = 3;
pub const INT: u8 = 4;
pub const TEXT: u8 = 5;
pub const NUMBER: u8 = 6;
pub const FLOAT: u8 = 7;
pub const DAY: u8 = 8;
pub const UNUSED: u8 = 9;

/// The value of an item. What a value of its kind doesn't have is 0.
#[repr(C)]
#[derive(Clone, Copy, Debug, Default, PartialEq, Eq)]
pub struct Item {
    pub start: usize,
    pub len: usize,
    pub value: u64,
    pub year: u16,
    pub month: u8,
    pub day: u8,
    pub kind: u8,
    pub negative: u8,
}

pub const NO_START: u8 = 0;
pub const START: u8 = 1;
pub const WRONG_START: u8 = 2;
pub const SEVERAL_START: u8 = 3;

#[repr(C)]
#[derive(Clone, Copy, Debug, Default, PartialEq, Eq)]
pub struct Resume {
    pub number: u32,
    pub series: u16,
    pub answer: u8,
}

extern "C" {
    fn ftd_read(bytes: *const u8, count: usize) -> Packet;
    fn ftd_find_field(bytes: *const u8, count: usize, i: usize) -> Field;
    fn ftd_field_at(content: *const u8, count: usize, at: usize) -> Step;
    fn ftd_check(tid: u32, direction: u8, content: *const u8, count: usize, limit: usize) -> u8;
    fn ftd_message_size(message: Message, content: *const u8, count: usize) -> Size;
    fn ftd_write_message(message: Message, content: *const u8, count: usize, output: *mut u8, room: usize) -> Written;
    fn ftd_write_field(fid: u32, bytes: *const u8, count: usize, output: *mut u8, room: usize) -> Written;
    fn ftd_said_length(bytes: *const u8, count: usize) -> usize;
    fn ftd_trade_date(extension: *const u8, count: usize) -> Date;
    fn ftd_keep_alive(extension: *const u8, count: usize) -> u8;
    fn ftd_read_item(fid: u32, i: usize, field: *const u8, count: usize) -> Item;
    fn ftd_write_item(
        fid: u32,
        i: usize,
        value: Item,
        text: *const u8,
        count: usize,
        output: *mut u8,
        room: usize,
    ) -> Written;
    fn ftd_mode_of(tid: u32) -> u8;
    fn ftd_find_resume(content: *const u8, count: usize) -> Resume;
    fn ftd_write_resume(series: u16, number: u32, output: *mut u8, room: usize) -> Written;
    fn ftd_write_plain(
        kind: u8,
        extension: *const u8,
        extent: usize,
        body: *const u8,
        count: usize,
        output: *mut u8,
        room: usize,
    ) -> Written;
}

// No call has a precondition: each takes any bytes and numbers. The slices give the pointers and lengths, and a `&mut` slice
// overlaps no other.

pub fn read(bytes: &[u8]) -> Packet {
    unsafe { ftd_read(bytes.as_ptr(), bytes.len()) }
}

pub fn field(bytes: &[u8], i: usize) -> Field {
    unsafe { ftd_find_field(bytes.as_ptr(), bytes.len(), i) }
}

pub fn field_at(content: &[u8], at: usize) -> Field {
    let step = unsafe { ftd_field_at(content.as_ptr(), content.len(), at) };
    let start = if step.found == 0 { 0 } else { at + reader::packet::FIELD_HEADER };
    Field { start, len: step.len, fid: step.fid, found: step.found }
}

/// 0, or the number of the refusal.
pub fn check(tid: u32, direction: Direction, content: &[u8], limit: usize) -> u8 {
    let direction = match direction {
        Direction::Up => 0,
        Direction::Down => 1,
    };
    unsafe { ftd_check(tid, direction, content.as_ptr(), content.len(), limit) }
}

pub fn size(header: &Header, content: &[u8]) -> Size {
    unsafe { ftd_message_size(Message::of(header), content.as_ptr(), content.len()) }
}

pub fn write(header: &Header, content: &[u8], output: &mut [u8]) -> Written {
    unsafe {
        ftd_write_message(Message::of(header), content.as_ptr(), content.len(), output.as_mut_ptr(), output.len())
    }
}

pub fn said_length(bytes: &[u8]) -> usize {
    unsafe { ftd_said_length(bytes.as_ptr(), bytes.len()) }
}

pub fn trade_date(extension: &[u8]) -> Date {
    unsafe { ftd_trade_date(extension.as_ptr(), extension.len()) }
}

pub fn keep_alive(extension: &[u8]) -> u8 {
    unsafe { ftd_keep_alive(extension.as_ptr(), extension.len()) }
}

pub fn read_item(fid: u32, i: usize, field: &[u8]) -> Item {
    unsafe { ftd_read_item(fid, i, field.as_ptr(), field.len()) }
}

pub fn write_item(fid: u32, i: usize, value: Item, text: &[u8], output: &mut [u8]) -> Written {
    unsafe { ftd_write_item(fid, i, value, text.as_ptr(), text.len(), output.as_mut_ptr(), output.len()) }
}

pub fn mode(tid: u32) -> u8 {
    unsafe { ftd_mode_of(tid) }
}

pub fn find_resume(content: &[u8]) -> Resume {
    unsafe { ftd_find_resume(content.as_ptr(), content.len()) }
}

pub fn write_resume(series: u16, number: u32, output: &mut [u8]) -> Written {
    unsafe { ftd_write_resume(series, number, output.as_mut_ptr(), output.len()) }
}

pub fn write_plain(kind: u8, extension: &[u8], body: &[u8], output: &mut [u8]) -> Written {
    let (extent, count) = (extension.len(), body.len());
    unsafe {
        ftd_write_plain(kind, extension.as_ptr(), extent, body.as_ptr(), count, output.as_mut_ptr(), output.len())
    }
}

pub fn write_field(fid: u32, bytes: &[u8], output: &mut [u8]) -> Written {
    unsafe { ftd_write_field(fid, bytes.as_ptr(), bytes.len(), output.as_mut_ptr(), output.len()) }
}
