//! A bufferful (document 02, No. 8): Receive for packet after packet of some bytes, Publish for record after record.

use crate::packet::{said_length, u16_at, u32_at};
use crate::receiving::{Content, Received, Receiving};
use crate::serving::Serving;

/// Length of a record's head: series 2 bytes, TID 4, content length 4.
pub const RECORD_HEADER: usize = 10;

/// What the call stopped at.
#[derive(Clone, Copy, Debug, PartialEq, Eq)]
pub enum Stop {
    End,
    /// So many bytes of the next packet, or record, are missing.
    Short(usize),
    Refused(u8),
    /// A message, whose content lies in the bytes given or, with `buffer`, in the chain buffer.
    Message {
        last: u32,
        tid: u32,
        buffer: bool,
        start: usize,
        len: usize,
    },
}

/// What the call answers, and how many bytes it took.
#[derive(Clone, Copy, Debug, PartialEq, Eq)]
pub struct Answer {
    pub stop: Stop,
    pub taken: usize,
}

/// How long the packet, or record, at the front is; end or short where it isn't there whole. Its head has `head` bytes.
pub(crate) fn whole(rest: &[u8], head: usize, length: fn(&[u8]) -> usize) -> Result<usize, Stop> {
    if rest.is_empty() {
        return Err(Stop::End);
    }
    if rest.len() < head {
        return Err(Stop::Short(head - rest.len()));
    }
    match length(rest).checked_sub(rest.len()) {
        Some(missing) if missing > 0 => Err(Stop::Short(missing)),
        _ => Ok(length(rest)),
    }
}

impl Receiving {
    /// Receives packet after packet. Idle, again and held pass.
    pub fn receive_several(&mut self, bytes: &[u8], buffer: &mut [u8]) -> Answer {
        let buffer_at = buffer.as_ptr() as usize;
        let mut taken = 0;
        loop {
            let length = match whole(&bytes[taken..], 4, |rest| said_length(rest).unwrap_or(0)) {
                Ok(length) => length,
                Err(stop) => return Answer { stop, taken },
            };
            let answer = self.receive(&bytes[taken..taken + length], buffer);
            taken += length;
            match answer {
                Ok(Received::Idle | Received::Again(_) | Received::Held(_)) => {}
                Ok(Received::Message { last, tid, content }) => {
                    let (buffer, from) = match content {
                        Content::OfPacket(_) => (false, bytes.as_ptr() as usize),
                        Content::OfBuffer(_) => (true, buffer_at),
                    };
                    let start = content.bytes().as_ptr() as usize - from;
                    let len = content.bytes().len();
                    return Answer { stop: Stop::Message { last, tid, buffer, start, len }, taken };
                }
                Err(row) => return Answer { stop: Stop::Refused(row), taken },
            }
        }
    }
}

impl Serving {
    /// Publishes record after record. Those before a refused one are in.
    pub fn publish_several(&mut self, bytes: &[u8], log: &mut [u8]) -> Answer {
        let mut taken = 0;
        loop {
            let rest = &bytes[taken..];
            let length = match whole(rest, RECORD_HEADER, |rest| RECORD_HEADER + u32_at(rest, 6) as usize) {
                Ok(length) => length,
                Err(stop) => return Answer { stop, taken },
            };
            taken += length;
            let content = &rest[RECORD_HEADER..length];
            if let Err(row) = self.publish(u16_at(rest, 0), u32_at(rest, 2), content, log) {
                return Answer { stop: Stop::Refused(row), taken };
            }
        }
    }
}

/// A driver: it calls until the call is through, each time with what wasn't taken, and hears each answer with the bytes
/// that it was given. What is left at last waits in `waiting` for the next read.
pub fn drive(
    waiting: &mut Vec<u8>,
    read: &[u8],
    mut call: impl FnMut(&[u8]) -> Answer,
    mut hear: impl FnMut(Stop, &[u8]),
) {
    waiting.extend_from_slice(read);
    loop {
        let answer = call(waiting);
        hear(answer.stop, waiting);
        waiting.drain(..answer.taken);
        if matches!(answer.stop, Stop::End | Stop::Short(_)) {
            return;
        }
    }
}
