//! Contents and packets for the scripts.

use crate::generate::{known_field_bytes, raw_field, Random};
use crate::items::known_field;
use crate::packet::{FIELD_HEADER, PLACE, TRADE_DATE};
use crate::serving::LOGIN;
use crate::start::start_field_bytes;

/// The mark of the day that most cases are of.
pub const DAY: u32 = 20_041_231;
pub const REQUEST: u32 = 0x0023;
pub const ANSWER: u32 = 0x0027;
/// A TID and a FID that the appendices don't have.
pub const STRANGE: u32 = 0x7777;
pub const MATCHES: u32 = 0x2002;
pub const MATCH: u32 = 0x000A;
pub const BULLETIN: u32 = 0x2003;

/// A right field of the table, the same at each call.
pub fn right(fid: u32) -> Vec<u8> {
    known_field_bytes(&mut Random::new(u64::from(fid)), known_field(fid).expect("a known field"))
}

/// The field with its last byte missing (8).
pub fn narrow(fid: u32) -> Vec<u8> {
    let field = right(fid);
    raw_field(fid, &field[FIELD_HEADER..field.len() - 1])
}

/// The field with its first item wrong (9): a byte that no String has.
pub fn wrong(fid: u32) -> Vec<u8> {
    let mut field = right(fid);
    field[FIELD_HEADER] = 0x7F;
    field
}

/// A field of unknown FID with so many bytes.
pub fn plain(length: usize) -> Vec<u8> {
    let bytes: Vec<u8> = (0..length).map(|i| (i * 7 + length) as u8).collect();
    raw_field(STRANGE, &bytes)
}

/// The parts of a message packet. Each is right until one is changed.
#[derive(Clone)]
pub struct Parts {
    pub kind: u8,
    pub extension: Vec<u8>,
    pub version: u8,
    pub tid: u32,
    pub chain: u8,
    pub series: u16,
    pub number: u32,
    pub fields: u16,
    pub length: usize,
    pub content: Vec<u8>,
}

impl Parts {
    /// A login packet.
    pub fn new(mark: Option<u32>, start: Option<(u16, u32)>) -> Self {
        let mut content = right(REQUEST);
        if let Some((series, number)) = start {
            content.extend(start_field_bytes(series, number));
        }
        let extension = mark.map_or(vec![], |mark| [&[TRADE_DATE, 4][..], &mark.to_be_bytes()].concat());
        let fields = 1 + u16::from(start.is_some());
        let length = content.len();
        Parts { kind: 1, extension, version: 1, tid: LOGIN, chain: b'S', series: 0, number: 0, fields, length, content }
    }

    /// A login answer.
    pub fn answer(mark: Option<u32>) -> Self {
        Parts::new(mark, None).with(&[right(ANSWER)])
    }

    /// A packet of a message of unknown TID.
    pub fn piece(mark: Option<u32>, series: u16, number: u32, chain: u8, content: &[Vec<u8>]) -> Self {
        Parts { tid: STRANGE, series, number, chain, ..Parts::new(mark, None).with(content) }
    }

    /// With a place (02, No. 10) behind the other tags.
    pub fn placed(mut self, place: u16) -> Self {
        self.extension.extend([PLACE, 2]);
        self.extension.extend(place.to_be_bytes());
        self
    }

    /// Other content, with the counts that belong to it.
    pub fn with(mut self, content: &[Vec<u8>]) -> Self {
        self.fields = content.len() as u16;
        self.content = content.concat();
        self.length = self.content.len();
        self
    }

    pub fn bytes(&self) -> Vec<u8> {
        let mut out = vec![self.kind, self.extension.len() as u8];
        out.extend(((16 + self.content.len()) as u16).to_be_bytes());
        out.extend(&self.extension);
        out.push(self.version);
        out.extend(self.tid.to_be_bytes());
        out.push(self.chain);
        out.extend(self.series.to_be_bytes());
        out.extend(self.number.to_be_bytes());
        out.extend(self.fields.to_be_bytes());
        out.extend((self.length as u16).to_be_bytes());
        out.extend(&self.content);
        out
    }
}

/// A right login packet.
pub fn asking(mark: Option<u32>, start: Option<(u16, u32)>) -> Vec<u8> {
    Parts::new(mark, start).bytes()
}

/// A right login packet with some parts changed.
pub fn changed(change: impl Fn(&mut Parts)) -> Vec<u8> {
    let mut parts = Parts::new(Some(DAY), Some((1, 1)));
    change(&mut parts);
    parts.bytes()
}
