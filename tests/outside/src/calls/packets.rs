//! One packet a call in the lists (document 02, No. 4): messages sent packet by packet, finished and broken off, with calls of the
//! serving end between; what the line then has of them; and logs that are altered between two packets.

use super::{plain, room, Bytes, Kind, Lists, Transmission, MOST_OUTPUT, MOST_PACKET};
use crate::effective::Happened;
use crate::history::Delivery;
use reader::generate::Random;
use reader::packet::{fields, u16_at, u32_at, FIELD_HEADER};
use reader::serving::{OnePacket, ENTRY_HEADER};

/// A place that no call made, and some that calls make.
pub(super) fn any_piece(r: &mut Random) -> u64 {
    r.pick(&[0, 1, 1, 2, 3, 16, 17, 255, 65_536, u64::from(u32::MAX), 1 << 32, u64::MAX])
}

impl Lists {
    /// The message of that series that is unfinished, if any, is broken off.
    pub(super) fn broken_off(&mut self, series: u16, by: &'static str) {
        if self.line.unfinished.remove(&series).is_some() {
            *self.transmissions.entry(by).or_default() += 1;
        }
    }

    /// A message is sent, whole or with its last packet.
    pub(super) fn sent(&mut self, series: u16, number: u32) -> Result<Option<Delivery>, String> {
        Ok(if self.kind == Kind::Honest { Some(self.history.sent(series, number)?) } else { None })
    }

    /// Demand 3's second half, where the answer is none.
    pub(super) fn none_left(&mut self, series: u16, none: bool) -> Result<(), String> {
        if none && self.kind == Kind::Honest && self.history.none_left(series)? {
            self.demand += 1;
            self.arrived += 1;
            if self.happened.iter().any(|one| matches!(one, Happened::Back(_))) {
                self.case("all has arrived behind a return");
            }
        }
        Ok(())
    }

    /// A series, often one of which a message is unfinished.
    pub(super) fn under_way(&self, r: &mut Random) -> u16 {
        let unfinished: Vec<u16> = self.line.unfinished.keys().copied().collect();
        if unfinished.is_empty() || r.once_in(2) {
            return self.series(r);
        }
        unfinished[r.below(unfinished.len())]
    }

    /// One packet of the next message. Gives whether it was written.
    pub(super) fn send_packet(&mut self, r: &mut Random, series: u16) -> Result<bool, String> {
        // How much it takes, to find outputs of exactly as many bytes.
        let log = self.log(r);
        let (mut copy, mut out) = (self.world.serving, std::mem::take(&mut self.world.written));
        let takes = match copy.send_packet(series, &self.world.logs[1][..log], usize::MAX, &mut out) {
            Ok(Some(_)) => out.len(),
            _ => r.below(40),
        };
        self.world.written = out;
        let room = room(r, takes);
        self.send_packet_with(series, log, room)
    }

    pub(super) fn send_packet_with(&mut self, series: u16, log: usize, room: usize) -> Result<bool, String> {
        let (start, before) = (self.world.sender, self.piece(series));
        if self.kind != Kind::Wild && (before > 0) != self.line.unfinished.contains_key(&series) {
            return Err(format!("series {series}: {before} packets of the next message written, says the end"));
        }
        let answer = self.world.send_packet(series, log, room)?;
        let name = match answer {
            Ok(Some(OnePacket { last: true, .. })) => "last",
            Ok(Some(_)) => "more",
            _ => "none",
        };
        self.note("Send packet", name, &answer);
        self.none_left(series, matches!(answer, Ok(None)))?;
        if answer == Err(20) && start.send(series, &self.world.logs[0][..log], &mut [0; MOST_OUTPUT]).refusal == 0 {
            *self.transmissions.entry("20 for want of the packet").or_default() += 1;
        }
        let Ok(Some(OnePacket { number, last })) = answer else { return Ok(false) };
        let (packet, place): (Bytes, usize) = (self.world.written[..].into(), self.line.messages.len());
        let (place, _) = self.line.unfinished.entry(series).or_insert_with(|| {
            // The library's own whole Send, in place of this packet.
            let mut whole = vec![0; MOST_OUTPUT];
            let sent = start.send(series, &self.world.logs[0], &mut whole);
            whole.truncate(sent.bytes);
            (place, whole.into())
        });
        let place = *place;
        if place == self.line.messages.len() {
            self.line.messages.push(Transmission { packets: vec![], sent: None });
        }
        self.line.messages[place].packets.push(packet);
        self.undisturbed(series, place, last)?;
        if last {
            self.line.unfinished.remove(&series);
            self.line.messages[place].sent = self.sent(series, number)?;
            let what = match self.line.messages[place].packets.len() {
                1 => "finished, of one packet",
                2..=4 => "finished, of two to four packets",
                _ => "finished, of five to seventeen packets",
            };
            *self.transmissions.entry(what).or_default() += 1;
        }
        Ok(true)
    }

    /// How many packets of the series' next message were written.
    fn piece(&self, series: u16) -> u64 {
        let day = self.world.serving.day;
        day.and_then(|day| day.open.iter().find(|one| one.series == series).map(|one| one.piece)).unwrap_or(0)
    }

    /// The packets of an undisturbed message are those that the whole Send writes.
    fn undisturbed(&self, series: u16, place: usize, last: bool) -> Result<(), String> {
        let (packets, whole) = (self.line.messages[place].packets.concat(), &self.line.unfinished[&series].1);
        if self.kind == Kind::Wild || whole.starts_with(&packets) && (whole.len() == packets.len()) == last {
            return Ok(());
        }
        Err(format!("series {series}: other packets than the whole Send's"))
    }

    /// A message packet by packet, each handed over as soon as it is written, with calls of the serving end between them. Of an
    /// unfinished one first those that it has.
    pub(super) fn as_written(&mut self, r: &mut Random, series: u16) -> Result<(), String> {
        let place = self.line.unfinished.get(&series).map_or(self.line.messages.len(), |(place, _)| *place);
        let mut given = 0;
        loop {
            while self.line.messages.get(place).is_some_and(|of| given < of.packets.len()) {
                self.hand_over(r, place, given)?;
                given += 1;
            }
            if given > 0 {
                self.within(r, series)?;
                if self.line.unfinished.get(&series).is_none_or(|(unfinished, _)| *unfinished != place) {
                    return Ok(());
                }
            }
            if !self.send_packet(r, series)? {
                return Ok(());
            }
        }
    }

    /// A call of the serving end, or two, between two packets: half of them change nothing of this series.
    fn within(&mut self, r: &mut Random, series: u16) -> Result<(), String> {
        let other = self.series(r);
        match r.below(24) {
            0..=2 => self.publish(r),
            3 => self.publish_several(r),
            4..=5 => self.login(r),
            6 => self.send(r, series),
            7 => self.send(r, other),
            8..=9 => self.send_packet(r, other).map(|_| ()),
            10 => self.send_packet_with(series, self.world.logs[0].len(), 25).map(|_| ()),
            11 => self.send_with(series, self.world.logs[0].len(), 25).map(|_| ()),
            12 if r.once_in(3) => self.open_day(r),
            13..=15 if self.kind == Kind::Wild => {
                self.alter_any(r);
                Ok(())
            }
            16..=20 if self.kind == Kind::Wild => {
                self.alter_entry(r);
                Ok(())
            }
            _ => Ok(()),
        }
    }

    /// The next message is sent and arrives: packet by packet of it so many at most, then whole, where this is 0 or 1. Gives whether
    /// there was one.
    pub(super) fn arrives(&mut self, series: u16, by_packets: usize) -> Result<bool, String> {
        let (log, all) = (self.world.logs[0].len(), self.world.buffers[0].len());
        let place = self.line.messages.len();
        let most = if by_packets == 2 { usize::MAX } else { by_packets };
        for i in 0..most {
            if !self.send_packet_with(series, log, MOST_PACKET)? {
                return Ok(false);
            }
            self.hand_over_with(place, i, all)?;
            if self.line.messages[place].sent.is_some() {
                return Ok(true);
            }
        }
        let place = self.line.messages.len();
        if !self.send_with(series, log, MOST_OUTPUT)? {
            return Ok(false);
        }
        let Transmission { packets, sent } = self.line.messages[place].clone();
        if series % 2 == 0 {
            let bytes = packets.concat();
            self.receive_cut(&bytes, bytes.len() / 2, all)?;
            self.history.delivered(&sent.expect("an honest list"));
            return Ok(true);
        }
        for i in 0..packets.len() {
            self.hand_over_with(place, i, all)?;
        }
        Ok(true)
    }

    pub(super) fn alter_any(&mut self, r: &mut Random) {
        if r.once_in(3) {
            self.alter_entry(r);
        } else {
            self.alter(r);
        }
    }

    /// The entry of a message that is sent next, an unfinished one if there is one, gets other whole fields: fewer of them, or as many
    /// bytes cut into fields anew. It may have no packet at the place then.
    fn alter_entry(&mut self, r: &mut Random) {
        let Some(day) = self.world.serving.day else { return };
        let left = |unfinished: bool| {
            let is = move |one: &&reader::serving::Served| one.next.is_some() && (one.piece > 0 || !unfinished);
            day.open.iter().find(is).map(|one| (one.series, one.next))
        };
        let Some((series, next)) = left(true).or(left(false)) else { return };
        let log = &self.world.logs[1];
        let (mut at, used) = (0, day.used.min(log.len()));
        let length = loop {
            if used - at < ENTRY_HEADER {
                return;
            }
            let length = u32_at(log, at + 12) as usize;
            if used - at - ENTRY_HEADER < length {
                return;
            }
            if u16_at(log, at) == series && Some(u64::from(u32_at(log, at + 8))) == next {
                break length;
            }
            at += ENTRY_HEADER + length;
        };
        let content = &log[at + ENTRY_HEADER..at + ENTRY_HEADER + length];
        let altered = if r.once_in(2) {
            // So many of its fields.
            let all: Vec<usize> =
                fields(content).map_while(Result::ok).map(|one| FIELD_HEADER + one.value.len()).collect();
            content[..all[..r.below(all.len() + 1)].iter().sum()].to_vec()
        } else {
            refilled(r, length)
        };
        for log in &mut self.world.logs {
            log[at + 12..at + 16].copy_from_slice(&(altered.len() as u32).to_be_bytes());
            log[at + ENTRY_HEADER..][..altered.len()].copy_from_slice(&altered);
        }
        *self.transmissions.entry("an entry altered").or_default() += 1;
    }
}

/// Whole fields of so many bytes in all, or of a few less.
fn refilled(r: &mut Random, length: usize) -> Vec<u8> {
    let mut content = vec![];
    while length - content.len() >= FIELD_HEADER {
        let left = length - content.len() - FIELD_HEADER;
        let any = r.below(4075);
        let one = r.pick(&[left, 4074, any, 2034]).min(left).min(4074);
        // What is left has to be a field, or nothing.
        let one = if (1..FIELD_HEADER).contains(&(left - one)) { one.saturating_sub(FIELD_HEADER) } else { one };
        content.extend(plain(one));
    }
    content
}
