//! The serving end (document 01): Opening, Publish, Login and Send, and the form of Send that writes one packet (document
//! 02, No. 4), each with its tests in the refusal table's order; the packets of both Sends bear their place (No. 10), and
//! each series has its share of the log (No. 11). The log and the output are lent, the log to Opening by its length; an
//! output is given as a vector that is emptied and holds what was written, and its room.

use crate::cut::{cut, write_packet, write_sent, write_sent_packet, Header};
use crate::few::{may_open, Few};
use crate::makeup::{check, items_right, makeup_right, shape_right, widths_right, Direction};
use crate::packet::{read, said_length, u16_at, u32_at, MessagePacket, Packet};
use crate::packet::{MESSAGE_HEADER, MOST_CONTENT, MOST_MESSAGE};
use crate::start::{start_field, Start};

/// At most so many messages a series and day.
pub const MOST_MESSAGES: u32 = 1_000_000;
/// The TID of login packets and their answers.
pub const LOGIN: u32 = 0x0016;
/// Length of an entry's head in the log.
pub const ENTRY_HEADER: usize = 16;
/// Header, tag 0x05 and message header of a login answer. (A packet of either Send has tag 0x70 too.)
pub const AROUND: usize = 4 + 6 + MESSAGE_HEADER;

/// A series of the day: how many were published; the number that is sent next, if it is logged in; how many packets of
/// that message were written one by one, 0 where none is unfinished; and its account of the log (No. 11): the bytes
/// reserved for it, and those that its entries have, with their heads.
#[derive(Clone, Copy, Debug, Default, PartialEq, Eq)]
pub struct Served {
    pub series: u16,
    pub published: u32,
    pub next: Option<u64>,
    pub piece: u64,
    pub reserve: usize,
    pub used: usize,
}

/// A packet of a message, written by itself.
#[derive(Clone, Copy, Debug, PartialEq, Eq)]
pub struct OnePacket {
    pub number: u32,
    /// It is the message's last one.
    pub last: bool,
}

#[derive(Clone, Copy, Debug, PartialEq)]
pub struct Day {
    pub mark: u32,
    pub open: Few<Served>,
    /// Bytes of the log in use.
    pub used: usize,
}

impl Day {
    /// Where a series stands among the open ones.
    pub fn place(&self, series: u16) -> Option<usize> {
        self.open.iter().position(|one| one.series == series)
    }

    /// What all series take of the log (No. 11), with an entry of so many bytes more for the one at a place: each the larger
    /// of its bytes used and its reserve. Sums can't wrap.
    fn shares(&self, place: usize, more: usize) -> u128 {
        let used = |i: usize| self.open[i].used as u128 + if i == place { more as u128 } else { 0 };
        (0..self.open.len()).map(|i| used(i).max(self.open[i].reserve as u128)).sum()
    }

    /// TID and content of a message's entry; none where the log is damaged up to it.
    fn entry<'a>(&self, log: &'a [u8], series: u16, number: u64) -> Option<(u32, &'a [u8])> {
        self.entries(log, series, number, |_| ())
    }

    /// Likewise, and those of its series before it are given one by one.
    fn entries<'a>(
        &self,
        log: &'a [u8],
        series: u16,
        number: u64,
        mut each: impl FnMut((u32, &'a [u8])),
    ) -> Option<(u32, &'a [u8])> {
        let mut rest = log.get(..self.used)?;
        let mut seen = [0; crate::few::MOST_SERIES];
        loop {
            let head = rest.get(..ENTRY_HEADER)?;
            let length = usize::try_from(u32_at(head, 12)).ok()?;
            let content = rest[ENTRY_HEADER..].get(..length)?;
            let place = self.place(u16_at(head, 0))?;
            seen[place] += 1;
            if u16_at(head, 2) != 0 || u64::from(u32_at(head, 8)) != seen[place] || !shape_right(content, MOST_MESSAGE)
            {
                return None;
            }
            if u16_at(head, 0) == series {
                let one = (u32_at(head, 4), content);
                if seen[place] == number {
                    return Some(one);
                }
                each(one);
            }
            rest = &rest[ENTRY_HEADER + length..];
        }
    }

    /// TIDs and contents of all that was published in a series, in order (No. 14); none where Send of the last one
    /// would find damage. Where nothing was published the log isn't looked at.
    pub fn messages<'a>(&self, log: &'a [u8], series: u16) -> Option<Vec<(u32, &'a [u8])>> {
        let mut all = vec![];
        let published = self.place(series).map_or(0, |place| self.open[place].published);
        if published > 0 {
            let last = self.entries(log, series, published.into(), |one| all.push(one))?;
            all.push(last);
        }
        Some(all)
    }

    /// The message that both forms of Send are about, with its series' place: 13, 14, none if all have been stepped over, 20.
    fn left<'a>(&self, log: &'a [u8], series: u16) -> Result<Option<(usize, Header, &'a [u8])>, u8> {
        let place = self.place(series).ok_or(13)?;
        let next = self.open[place].next.ok_or(14)?;
        if next > self.open[place].published.into() {
            return Ok(None);
        }
        let (tid, content) = self.entry(log, series, next).ok_or(20)?;
        let number = u32::try_from(next).expect("at most the published count");
        Ok(Some((place, Header { tid, series, number, mark: Some(self.mark) }, content)))
    }
}

/// The message packet that Login and Answer take: 12 where the bytes aren't one packet, or by their first four no message
/// packet; then rows 1, 2 and 4 to 7. (Row 3 can't hold any more.)
pub fn one_message(packet: &[u8]) -> Result<MessagePacket<'_>, u8> {
    let one = said_length(packet) == Some(packet.len());
    let body = if one { usize::from(u16_at(packet, 2)) } else { 0 };
    if !one || packet[0] != 1 || !(MESSAGE_HEADER..=MESSAGE_HEADER + MOST_CONTENT).contains(&body) {
        return Err(12);
    }
    match read(packet) {
        Packet::Message(message) => Ok(message),
        Packet::Refused(row) => Err(row),
        other => unreachable!("{other:?}"),
    }
}

/// The end. A fresh one has no day.
#[derive(Clone, Copy, Debug, Default, PartialEq)]
pub struct Serving {
    pub day: Option<Day>,
}

impl Serving {
    /// Opening: a mark above the present one, if any, and 1 to 8 differing series from 1 up, each with its reserve; together
    /// they are within the log's length (No. 11). It empties log and logins.
    pub fn open(&mut self, mark: u32, series: &[u16], reserves: &[usize], log: usize) -> Result<(), u8> {
        if !may_open(series) || self.day.is_some_and(|day| mark <= day.mark) {
            return Err(11);
        }
        let together: u128 = reserves.iter().map(|&reserve| reserve as u128).sum();
        if reserves.len() != series.len() || together > log as u128 {
            return Err(11);
        }
        let served = |(&series, &reserve)| Served { series, reserve, ..Served::default() };
        let open = Few::of(series.iter().zip(reserves).map(served)).ok_or(11)?;
        self.day = Some(Day { mark, open, used: 0 });
        Ok(())
    }

    /// Publish: the message's number. Its entry goes behind the used part of the log. 18 where the shares of all series with
    /// it pass the log's length (No. 11); where the accounts are those that calls left, an entry that they let in fits.
    pub fn publish(&mut self, series: u16, tid: u32, content: &[u8], log: &mut [u8]) -> Result<u32, u8> {
        check(tid, Direction::Down, content, MOST_MESSAGE)?;
        let day = self.day.as_mut().ok_or(13)?;
        let place = day.place(series).ok_or(13)?;
        let (room, size) = (log.len() as u128, ENTRY_HEADER + content.len());
        let free = log.get_mut(day.used..).ok_or(20)?;
        if day.shares(place, size) > room {
            return Err(18);
        }
        let entry = free.get_mut(..size).ok_or(18)?;
        let one = &mut day.open[place];
        if one.published >= MOST_MESSAGES {
            return Err(21);
        }
        one.published += 1;
        one.used += size;
        day.used += size;
        let (head, behind) = entry.split_at_mut(ENTRY_HEADER);
        head[..2].copy_from_slice(&series.to_be_bytes());
        head[2..4].fill(0);
        head[4..8].copy_from_slice(&tid.to_be_bytes());
        head[8..12].copy_from_slice(&one.published.to_be_bytes());
        head[12..].copy_from_slice(&(content.len() as u32).to_be_bytes());
        behind.copy_from_slice(content);
        Ok(one.published)
    }

    /// Login: the answer's packet.
    pub fn login(
        &mut self,
        series: u16,
        packet: &[u8],
        content: &[u8],
        room: usize,
        out: &mut Vec<u8>,
    ) -> Result<(), u8> {
        let asked = one_message(packet)?;
        if !shape_right(content, MOST_CONTENT) {
            return Err(7);
        }
        if !widths_right(asked.content) || !widths_right(content) {
            return Err(8);
        }
        if !items_right(asked.content) || !items_right(content) {
            return Err(9);
        }
        let start = start_field(asked.content);
        let made_up =
            makeup_right(LOGIN, Direction::Up, asked.content) && makeup_right(LOGIN, Direction::Down, content);
        if asked.tid != LOGIN || asked.chain != b'S' || start == Start::Several || !made_up {
            return Err(10);
        }
        let day = self.day.as_mut().ok_or(13)?;
        let place = day.place(series).ok_or(13)?;
        if matches!(start, Start::Next { series: other, .. } if other != series) {
            return Err(13);
        }
        if asked.mark.is_some_and(|mark| mark > day.mark) {
            return Err(15);
        }
        if asked.series != 0 || asked.number != 0 {
            return Err(16);
        }
        if room < AROUND + content.len() {
            return Err(18);
        }
        let next = match start {
            Start::Next { number, .. } if asked.mark.is_none_or(|mark| mark == day.mark) => u64::from(number),
            _ => 1,
        };
        let one = &mut day.open[place];
        if next == 0 || next > u64::from(one.published) + 1 {
            return Err(19);
        }
        (one.next, one.piece) = (Some(next), 0);
        out.clear();
        write_packet(out, &Header { tid: LOGIN, series: 0, number: 0, mark: Some(day.mark) }, b'S', content);
        Ok(())
    }

    /// Send: the number of the next message, whose packets are all written; none if all have been stepped over.
    pub fn send(&mut self, series: u16, log: &[u8], room: usize, out: &mut Vec<u8>) -> Result<Option<u32>, u8> {
        let day = self.day.as_mut().ok_or(13)?;
        let Some((place, header, content)) = day.left(log, series)? else { return Ok(None) };
        out.clear();
        write_sent(out, &header, content).ok_or(20)?;
        if room < out.len() {
            return Err(18);
        }
        let one = &mut day.open[place];
        (one.next, one.piece) = (Some(u64::from(header.number) + 1), 0);
        Ok(Some(header.number))
    }

    /// Send, one packet: the next one of the next message. With the message's last packet it steps on. 20 also where the
    /// entry, altered meanwhile, has no such packet.
    pub fn send_packet(
        &mut self,
        series: u16,
        log: &[u8],
        room: usize,
        out: &mut Vec<u8>,
    ) -> Result<Option<OnePacket>, u8> {
        let day = self.day.as_mut().ok_or(13)?;
        let Some((place, header, content)) = day.left(log, series)? else { return Ok(None) };
        let parts = cut(content).ok_or(20)?;
        let one = &mut day.open[place];
        let i = usize::try_from(one.piece).ok().filter(|&i| i < parts.len()).ok_or(20)?;
        out.clear();
        write_sent_packet(out, &header, &parts, i);
        if room < out.len() {
            return Err(18);
        }
        let last = i + 1 == parts.len();
        one.piece += 1;
        if last {
            (one.next, one.piece) = (Some(u64::from(header.number) + 1), 0);
        }
        Ok(Some(OnePacket { number: header.number, last }))
    }
}
