//! The receiving end (document 01): Opening, Connect, Ask, Answer and Receive, each with its tests in the refusal table's
//! order. The chain buffer and the output are lent, the output as in `serving`.

use crate::cut::{write_packet, Header};
use crate::few::{may_open, Few};
use crate::makeup::{items_right, makeup_right, shape_right, widths_right, Direction};
use crate::packet::{read, said_length, Packet, FIELD_HEADER, MESSAGE_HEADER, MOST_CONTENT, MOST_MESSAGE};
use crate::serving::{one_message, LOGIN, MOST_MESSAGES};
use crate::start::{start_field, start_field_bytes, Start};

/// The start field with FID and length.
const START_LENGTH: usize = FIELD_HEADER + 6;

/// Packets of a chain are counted so far and no further: one more than any place, so that none agrees from then on
/// (document 02, No. 10).
pub const MOST_PIECES: u32 = 65_536;

/// An open chain: its TID, how many content bytes are held in the series' part of the chain buffer, and how many packets.
/// Its number is last + 1.
#[derive(Clone, Copy, Debug, Default, PartialEq, Eq)]
pub struct Chain {
    pub tid: u32,
    pub held: usize,
    pub pieces: u32,
}

/// What is kept of a series.
#[derive(Clone, Copy, Debug, Default, PartialEq, Eq)]
pub struct Kept {
    pub series: u16,
    pub mark: Option<u32>,
    pub last: u32,
    pub logged_in: bool,
    pub chain: Option<Chain>,
}

/// A content that is handed on: a part of the packet, or of the chain buffer.
#[derive(Clone, Copy, Debug, PartialEq, Eq)]
pub enum Content<'a> {
    OfPacket(&'a [u8]),
    OfBuffer(&'a [u8]),
}

impl<'a> Content<'a> {
    pub fn bytes(&self) -> &'a [u8] {
        match self {
            Content::OfPacket(bytes) | Content::OfBuffer(bytes) => bytes,
        }
    }
}

/// What Receive answers where it doesn't refuse. All but `Idle` report the series' last.
#[derive(Clone, Copy, Debug, PartialEq, Eq)]
pub enum Received<'a> {
    Idle,
    Again(u32),
    /// A piece of a long message.
    Held(u32),
    Message {
        last: u32,
        tid: u32,
        content: Content<'a>,
    },
}

/// The end. A fresh one has no series, and no other has none.
#[derive(Clone, Copy, Debug, Default, PartialEq)]
pub struct Receiving {
    pub open: Few<Kept>,
}

impl Receiving {
    fn place(&self, series: u16) -> Option<usize> {
        self.open.iter().position(|one| one.series == series)
    }

    /// Opening: 1 to 8 differing series from 1 up, once.
    pub fn open(&mut self, series: &[u16]) -> Result<(), u8> {
        if !self.open.is_empty() || !may_open(series) {
            return Err(11);
        }
        self.open = Few::of(series.iter().map(|&series| Kept { series, ..Kept::default() })).ok_or(11)?;
        Ok(())
    }

    /// Connect: login and chain of all are cleared.
    pub fn connect(&mut self) {
        for one in self.open.iter_mut() {
            one.logged_in = false;
            one.chain = None;
        }
    }

    /// Ask: a login packet with the content and the start field for last + 1. The end stays as it is.
    pub fn ask(&self, series: u16, content: &[u8], room: usize, out: &mut Vec<u8>) -> Result<(), u8> {
        if !shape_right(content, MOST_CONTENT - START_LENGTH) {
            return Err(7);
        }
        if !widths_right(content) {
            return Err(8);
        }
        if !items_right(content) {
            return Err(9);
        }
        // The number that is wanted doesn't count in the make-up.
        let place = self.place(series);
        let last = place.map_or(0, |place| self.open[place].last);
        let fields = [content, &start_field_bytes(series, last.wrapping_add(1))].concat();
        if start_field(content) != Start::Absent || !makeup_right(LOGIN, Direction::Up, &fields) {
            return Err(10);
        }
        let mark = self.open[place.ok_or(13)?].mark;
        let tag = if mark.is_some() { 6 } else { 0 };
        if room < 4 + tag + MESSAGE_HEADER + fields.len() {
            return Err(18);
        }
        out.clear();
        write_packet(out, &Header { tid: LOGIN, series: 0, number: 0, mark }, b'S', &fields);
        Ok(())
    }

    /// Answer: a higher mark, or any where none is kept, starts a new day; both it and an equal one log in and drop the
    /// chain. Reports last.
    pub fn answer(&mut self, series: u16, packet: &[u8]) -> Result<u32, u8> {
        let answer = one_message(packet)?;
        if !widths_right(answer.content) {
            return Err(8);
        }
        if !items_right(answer.content) {
            return Err(9);
        }
        let made_up = makeup_right(LOGIN, Direction::Down, answer.content);
        if answer.tid != LOGIN || answer.chain != b'S' || !made_up {
            return Err(10);
        }
        let place = self.place(series).ok_or(13)?;
        let one = &mut self.open[place];
        let mark = answer.mark.filter(|&mark| one.mark.is_none_or(|kept| mark >= kept)).ok_or(15)?;
        if answer.series != 0 || answer.number != 0 {
            return Err(16);
        }
        if one.mark != Some(mark) {
            one.mark = Some(mark);
            one.last = 0;
        }
        one.logged_in = true;
        one.chain = None;
        Ok(one.last)
    }

    /// Receive: one packet. The buffer has 32,768 bytes for each series, in the opening's order.
    pub fn receive<'a>(&mut self, packet: &'a [u8], buffer: &'a mut [u8]) -> Result<Received<'a>, u8> {
        if said_length(packet) != Some(packet.len()) {
            return Err(12);
        }
        let piece = match read(packet) {
            Packet::Message(piece) => piece,
            Packet::Refused(row) => return Err(row),
            Packet::Link { .. } | Packet::Skipped { .. } => return Ok(Received::Idle),
            Packet::Short(_) => unreachable!("as many bytes as said"),
        };
        let place = self.place(piece.series).ok_or(13)?;
        let parts = self.open.len() * MOST_MESSAGE;
        let one = &mut self.open[place];
        if !one.logged_in {
            return Err(14);
        }
        // From here on the chain is dropped, but for its next piece.
        let chain = one.chain.take();
        if piece.mark.is_some() && piece.mark != one.mark {
            return Err(15);
        }
        let number = piece.number;
        if number == 0 || u64::from(number) > u64::from(one.last) + 1 || number > MOST_MESSAGES {
            return Err(16);
        }
        if number <= one.last {
            return Ok(Received::Again(one.last));
        }
        // What is held before it: nothing where it starts anew, else the open chain.
        let Chain { held, pieces, .. } = match (piece.chain, chain) {
            (b'S' | b'F', _) => Chain::default(),
            (_, Some(chain)) if chain.tid == piece.tid => chain,
            _ => return Err(17),
        };
        if piece.place.is_some_and(|place| u32::from(place) != pieces) {
            return Err(17);
        }
        if piece.chain == b'S' {
            one.last = number;
            let content = Content::OfPacket(piece.content);
            return Ok(Received::Message { last: number, tid: piece.tid, content });
        }
        let length = held.checked_add(piece.content.len()).filter(|&length| length <= MOST_MESSAGE).ok_or(18)?;
        let from = place * MOST_MESSAGE;
        let part = buffer.get_mut(..parts).ok_or(18)?.get_mut(from..from + MOST_MESSAGE).ok_or(18)?;
        part[held..length].copy_from_slice(piece.content);
        if piece.chain != b'L' {
            let pieces = pieces.saturating_add(1).min(MOST_PIECES);
            one.chain = Some(Chain { tid: piece.tid, held: length, pieces });
            return Ok(Received::Held(one.last));
        }
        one.last = number;
        Ok(Received::Message { last: number, tid: piece.tid, content: Content::OfBuffer(&part[..length]) })
    }
}
