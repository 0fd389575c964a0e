//! A message cut into packets (4.2.1.2), and packets written.

use crate::makeup::shape_right;
use crate::packet::{
    count_fields, fields, FIELD_HEADER, MESSAGE_HEADER, MOST_CONTENT, MOST_MESSAGE, PLACE, TRADE_DATE,
};

/// The parts of a message's content: as many whole fields in each as 4,080 bytes hold, in order. One empty part if
/// there is no field; none if the content isn't whole fields of at most 4,074 bytes, 32,768 in all.
pub fn cut(content: &[u8]) -> Option<Vec<&[u8]>> {
    if !shape_right(content, MOST_MESSAGE) {
        return None;
    }
    let mut parts = Vec::new();
    let (mut from, mut to) = (0, 0);
    for field in fields(content).flatten() {
        let length = FIELD_HEADER + field.value.len();
        if to + length - from > MOST_CONTENT {
            parts.push(&content[from..to]);
            from = to;
        }
        to += length;
    }
    parts.push(&content[from..to]);
    Some(parts)
}

/// The chain letter of part `i` of `n`.
pub fn chain_letter(i: usize, n: usize) -> u8 {
    match i {
        0 if n == 1 => b'S',
        0 => b'F',
        _ if i + 1 == n => b'L',
        _ => b'C',
    }
}

/// The header of a message, the same in all its packets.
#[derive(Clone, Copy, Debug, PartialEq, Eq)]
pub struct Header {
    pub tid: u32,
    pub series: u16,
    pub number: u32,
    /// Written as tag 0x05, the first tag; without it there is no such tag.
    pub mark: Option<u32>,
}

/// Writes one message packet behind `out`, without a place. The content is whole fields, at most 4,080 bytes.
pub fn write_packet(out: &mut Vec<u8>, header: &Header, chain: u8, content: &[u8]) {
    write_placed(out, header, None, chain, content);
}

/// Writes one message packet behind `out`, with a place as tag 0x70 behind the mark if there is one.
pub fn write_placed(out: &mut Vec<u8>, header: &Header, place: Option<u16>, chain: u8, content: &[u8]) {
    let count = count_fields(content).expect("whole fields");
    let body = MESSAGE_HEADER + content.len();
    let tags = if header.mark.is_some() { 6 } else { 0 } + if place.is_some() { 4 } else { 0 };
    out.extend([1, tags]);
    out.extend((body as u16).to_be_bytes());
    if let Some(mark) = header.mark {
        out.extend([TRADE_DATE, 4]);
        out.extend(mark.to_be_bytes());
    }
    if let Some(place) = place {
        out.extend([PLACE, 2]);
        out.extend(place.to_be_bytes());
    }
    out.push(1);
    out.extend(header.tid.to_be_bytes());
    out.push(chain);
    out.extend(header.series.to_be_bytes());
    out.extend(header.number.to_be_bytes());
    out.extend((count as u16).to_be_bytes());
    out.extend((content.len() as u16).to_be_bytes());
    out.extend_from_slice(content);
}

/// Writes packet `i` of a message that is cut into these parts as both Sends write it: with its place.
pub fn write_sent_packet(out: &mut Vec<u8>, header: &Header, parts: &[&[u8]], i: usize) {
    write_placed(out, header, Some(i as u16), chain_letter(i, parts.len()), parts[i]);
}

/// Writes all packets of a message behind `out` as the whole Send does, and gives their number; none if the content can't
/// be cut.
pub fn write_sent(out: &mut Vec<u8>, header: &Header, content: &[u8]) -> Option<usize> {
    let parts = cut(content)?;
    for i in 0..parts.len() {
        write_sent_packet(out, header, &parts, i);
    }
    Some(parts.len())
}

/// Writes all packets of a message behind `out` for others, without places, and gives their number; none if the content
/// can't be cut.
pub fn write_message(out: &mut Vec<u8>, header: &Header, content: &[u8]) -> Option<usize> {
    let parts = cut(content)?;
    for (i, part) in parts.iter().enumerate() {
        write_packet(out, header, chain_letter(i, parts.len()), part);
    }
    Some(parts.len())
}
