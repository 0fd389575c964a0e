//! The box as one product (document 02, No. 3): one receiving end towards above, one day that is open below, and 16
//! seats, each with its own place in each series. What comes in from above is published below; Answer opens the days
//! below. Each call has its tests in the order of No. 3: those of the receiving end before those of publishing and
//! opening. With it No. 4 (one packet a call), No. 8 (a bufferful), No. 10 (places) and No. 11 (reserves, set with the
//! box's opening). Log, chain buffer and outputs are lent as to the ends; to Answer the log by its length.

use crate::few::{may_open, Few, MOST_SERIES};
use crate::makeup::{items_right, makeup_right, widths_right, Direction};
use crate::packet::{read, said_length, Packet, MOST_MESSAGE};
use crate::receiving::{Chain, Content, Received, Receiving, MOST_PIECES};
use crate::serving::{one_message, Day, OnePacket, Served, Serving, LOGIN, MOST_MESSAGES};
use crate::several::{whole, Answer, Stop};

/// Seats are numbered from 0 to 15.
pub const SEATS: usize = 16;

/// Where a seat that is logged in to a series is: the number that is sent next, and how many packets of that message
/// were written one by one.
#[derive(Clone, Copy, Debug, Default, PartialEq, Eq)]
pub struct Place {
    pub next: u64,
    pub piece: u64,
}

/// A seat's places, in the order of the day's series; none where it isn't logged in.
pub type Seat = [Option<Place>; MOST_SERIES];

/// The box. A fresh one isn't opened, has no day, and nobody is logged in.
#[derive(Clone, Copy, Debug, Default, PartialEq)]
pub struct Relay {
    pub receiving: Receiving,
    /// Of the receiving end's series, in their order; the others don't count.
    pub reserves: [usize; MOST_SERIES],
    /// What all seats share: the day and its log's accounts. It has no login of its own.
    pub below: Serving,
    pub seats: [Seat; SEATS],
}

impl Relay {
    /// Where a series stands at the receiving end.
    fn place(&self, series: u16) -> Option<usize> {
        self.receiving.open.iter().position(|one| one.series == series)
    }

    /// Opening: as the receiving end's, with a reserve for each series. The log isn't looked at, and the day below
    /// stays closed.
    pub fn open(&mut self, series: &[u16], reserves: &[usize]) -> Result<(), u8> {
        if !self.receiving.open.is_empty() || !may_open(series) || reserves.len() != series.len() {
            return Err(11);
        }
        self.receiving.open(series)?;
        self.reserves = [0; MOST_SERIES];
        self.reserves[..reserves.len()].copy_from_slice(reserves);
        Ok(())
    }

    /// Connect: a new line from above. The seats go on.
    pub fn connect(&mut self) {
        self.receiving.connect();
    }

    /// Ask: as the receiving end's, by the series' own mark and last.
    pub fn ask(&self, series: u16, content: &[u8], room: usize, out: &mut Vec<u8>) -> Result<(), u8> {
        self.receiving.ask(series, content, room, out)
    }

    /// Answer, with a log of so many bytes: a mark above the day open below, or the first, opens its day there, and
    /// takes all seats out. Reports last.
    pub fn answer(&mut self, series: u16, packet: &[u8], log: usize) -> Result<u32, u8> {
        let answer = one_message(packet)?;
        if !widths_right(answer.content) {
            return Err(8);
        }
        if !items_right(answer.content) {
            return Err(9);
        }
        if answer.tid != LOGIN || answer.chain != b'S' || !makeup_right(LOGIN, Direction::Down, answer.content) {
            return Err(10);
        }
        let place = self.place(series).ok_or(13)?;
        let mark = answer.mark.ok_or(15)?;
        let lower = |than: Option<u32>| than.is_some_and(|than| mark < than);
        let day = self.below.day.as_ref().map(|day| day.mark);
        if lower(self.receiving.open[place].mark) || lower(day) {
            return Err(15);
        }
        if answer.series != 0 || answer.number != 0 {
            return Err(16);
        }
        if day.is_none_or(|day| mark > day) {
            self.open_below(mark, log)?;
        }
        let one = &mut self.receiving.open[place];
        if one.mark != Some(mark) {
            (one.mark, one.last) = (Some(mark), 0);
        }
        one.logged_in = true;
        one.chain = None;
        Ok(one.last)
    }

    /// The opening below: all series of the receiving end, in its order, with nothing published.
    fn open_below(&mut self, mark: u32, log: usize) -> Result<(), u8> {
        let series: Vec<u16> = self.receiving.open.iter().map(|one| one.series).collect();
        let reserves = &self.reserves[..series.len()];
        let together: u128 = reserves.iter().map(|&reserve| reserve as u128).sum();
        if !may_open(&series) || together > log as u128 {
            return Err(11);
        }
        let fresh = |(&series, &reserve)| Served { series, reserve, ..Served::default() };
        let open = Few::of(series.iter().zip(reserves).map(fresh)).ok_or(11)?;
        self.below.day = Some(Day { mark, open, used: 0 });
        self.seats = [[None; MOST_SERIES]; SEATS];
        Ok(())
    }

    /// Receive: one packet from above. A message that is handed on is published below; where its publication is refused
    /// it isn't taken: its chain is dropped, and nothing else changes, no byte of log and chain buffer either.
    pub fn receive<'a>(&mut self, packet: &'a [u8], log: &mut [u8], buffer: &'a mut [u8]) -> Result<Received<'a>, u8> {
        if said_length(packet) != Some(packet.len()) {
            return Err(12);
        }
        let piece = match read(packet) {
            Packet::Message(piece) => piece,
            Packet::Refused(row) => return Err(row),
            Packet::Link { .. } | Packet::Skipped { .. } => return Ok(Received::Idle),
            Packet::Short(_) => unreachable!("as many bytes as said"),
        };
        let place = self.place(piece.series).ok_or(13)?;
        let kept = self.receiving.open[place];
        if !kept.logged_in {
            return Err(14);
        }
        // From here on the chain is dropped, but for its next piece.
        self.receiving.open[place].chain = None;
        let other = piece.mark.is_some() && piece.mark != kept.mark;
        let day = self.below.day.as_ref().map(|day| day.mark);
        let late = kept.mark.zip(day).is_some_and(|(mark, day)| mark < day);
        if other || late {
            return Err(15);
        }
        let number = piece.number;
        if number == 0 || u64::from(number) > u64::from(kept.last) + 1 || number > MOST_MESSAGES {
            return Err(16);
        }
        if number <= kept.last {
            return Ok(Received::Again(kept.last));
        }
        // The next message: what is held before this packet.
        let before = match piece.chain {
            b'S' | b'F' => Chain::default(),
            _ => kept.chain.filter(|chain| chain.tid == piece.tid).ok_or(17)?,
        };
        if piece.place.is_some_and(|at| u32::from(at) != before.pieces) {
            return Err(17);
        }
        if piece.chain == b'S' {
            self.below.publish(piece.series, piece.tid, piece.content, log)?;
            self.receiving.open[place].last = number;
            let content = Content::OfPacket(piece.content);
            return Ok(Received::Message { last: number, tid: piece.tid, content });
        }
        if buffer.len() < self.receiving.open.len() * MOST_MESSAGE {
            return Err(18);
        }
        let held = before.held;
        let length = held.checked_add(piece.content.len()).filter(|&length| length <= MOST_MESSAGE).ok_or(18)?;
        let part = &mut buffer[place * MOST_MESSAGE..][..MOST_MESSAGE];
        if piece.chain == b'L' {
            let message = [&part[..held], piece.content].concat();
            self.below.publish(piece.series, piece.tid, &message, log)?;
        }
        part[held..length].copy_from_slice(piece.content);
        let one = &mut self.receiving.open[place];
        if piece.chain == b'L' {
            one.last = number;
            let content = Content::OfBuffer(&part[..length]);
            return Ok(Received::Message { last: number, tid: piece.tid, content });
        }
        let pieces = before.pieces.saturating_add(1).min(MOST_PIECES);
        one.chain = Some(Chain { tid: piece.tid, held: length, pieces });
        Ok(Received::Held(one.last))
    }

    /// Receive for packet after packet of some bytes (No. 8). A refused publication is a refusal, and its packet is
    /// taken.
    pub fn receive_several(&mut self, bytes: &[u8], log: &mut [u8], buffer: &mut [u8]) -> Answer {
        let buffer_at = buffer.as_ptr() as usize;
        let mut taken = 0;
        loop {
            let length = match whole(&bytes[taken..], 4, |rest| said_length(rest).unwrap_or(0)) {
                Ok(length) => length,
                Err(stop) => return Answer { stop, taken },
            };
            let answer = self.receive(&bytes[taken..taken + length], log, buffer);
            taken += length;
            match answer {
                Ok(Received::Idle | Received::Again(_) | Received::Held(_)) => {}
                Ok(Received::Message { last, tid, content }) => {
                    let (buffer, from) = match content {
                        Content::OfPacket(_) => (false, bytes.as_ptr() as usize),
                        Content::OfBuffer(_) => (true, buffer_at),
                    };
                    let (start, len) = (content.bytes().as_ptr() as usize - from, content.bytes().len());
                    return Answer { stop: Stop::Message { last, tid, buffer, start, len }, taken };
                }
                Err(row) => return Answer { stop: Stop::Refused(row), taken },
            }
        }
    }

    /// A call of the serving end by a seat, with the seat's place in the series: 25 comes first, and nothing but that
    /// place can change.
    fn at_seat<T>(
        &mut self,
        seat: usize,
        series: u16,
        call: impl FnOnce(&mut Serving) -> Result<T, u8>,
    ) -> Result<T, u8> {
        let places = self.seats.get_mut(seat).ok_or(25)?;
        let open = self.below.day.as_ref().and_then(|day| day.open.iter().position(|one| one.series == series));
        let Some(place) = open else { return call(&mut self.below) };
        if let (Some(day), Some(Place { next, piece })) = (&mut self.below.day, places[place]) {
            (day.open[place].next, day.open[place].piece) = (Some(next), piece);
        }
        let answer = call(&mut self.below);
        if let Some(day) = &mut self.below.day {
            let one = &mut day.open[place];
            places[place] = one.next.map(|next| Place { next, piece: one.piece });
            (one.next, one.piece) = (None, 0);
        }
        answer
    }

    /// Login of a seat: the answer's packet.
    pub fn login(
        &mut self,
        seat: usize,
        series: u16,
        packet: &[u8],
        content: &[u8],
        room: usize,
        out: &mut Vec<u8>,
    ) -> Result<(), u8> {
        self.at_seat(seat, series, |end| end.login(series, packet, content, room, out))
    }

    /// Send of a seat: all packets of its next message.
    pub fn send(
        &mut self,
        seat: usize,
        series: u16,
        log: &[u8],
        room: usize,
        out: &mut Vec<u8>,
    ) -> Result<Option<u32>, u8> {
        self.at_seat(seat, series, |end| end.send(series, log, room, out))
    }

    /// Send of a seat, one packet (No. 4).
    pub fn send_packet(
        &mut self,
        seat: usize,
        series: u16,
        log: &[u8],
        room: usize,
        out: &mut Vec<u8>,
    ) -> Result<Option<OnePacket>, u8> {
        self.at_seat(seat, series, |end| end.send_packet(series, log, room, out))
    }
}
