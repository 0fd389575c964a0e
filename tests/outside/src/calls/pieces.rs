//! Every piece counted in the lists (document 02, No. 10): single packets of any transmission, lost, repeated and late
//! at will; and chains around the most packets that are counted.

use super::{near_place, Bytes, Kind, Lists, Transmission, STRANGE};
use reader::generate::Random;
use reader::packet::{read, Packet};
use reader::receiving::{Chain, Kept};

/// A count that no call made, and some that calls make.
pub(super) fn any_count(r: &mut Random) -> u32 {
    r.pick(&[
        0,
        1,
        1,
        2,
        3,
        16,
        17,
        255,
        256,
        65_534,
        65_535,
        65_535,
        65_536,
        65_536,
        65_537,
        131_072,
        u32::MAX - 1,
        u32::MAX,
    ])
}

/// Is this the message that its series wants next?
fn wanted(open: &[Kept], packet: &[u8]) -> bool {
    let next = |kept: &&Kept, packet: &reader::packet::MessagePacket| {
        kept.series == packet.series && kept.mark == packet.mark && u64::from(kept.last) + 1 == packet.number.into()
    };
    match read(packet) {
        Packet::Message(one) => open.iter().any(|kept| kept.logged_in && next(&kept, &one)),
        _ => false,
    }
}

/// Single packets of a message, of all its transmissions: mostly the next one; some are lost, repeated or late. Often
/// it is the message that an end with these series wants next, and mostly one of several packets.
pub(super) fn single_packets(r: &mut Random, messages: &[Transmission], open: &[Kept]) -> Vec<Bytes> {
    let long = !r.once_in(6);
    let all = || messages.iter().map(|of| &of.packets).filter(|of| of.len() > 1 || !long);
    let next: Vec<&Bytes> = all().map(|of| &of[0]).filter(|first| wanted(open, first)).collect();
    let of = if next.is_empty() || r.once_in(5) { all().map(|of| &of[0]).collect() } else { next };
    let Some(&first) = super::late_place(r, of.len()).map(|i| &of[i]) else { return vec![] };
    let same: Vec<&Vec<Bytes>> = all().filter(|of| of[0] == *first).collect();
    let most = same.iter().map(|of| of.len()).max().unwrap_or(1);
    // In one of three the faults are few, so that long messages are completed too.
    let seldom = if r.once_in(3) { 40 } else { 4 };
    let (mut next, mut packets) = (if r.once_in(5) { r.below(most) } else { 0 }, vec![]);
    for _ in 0..r.within(1, most + 2) {
        if r.once_in(seldom) {
            match r.below(4) {
                0 => next += 1,
                1 => next = next.saturating_sub(1),
                2 => next = 0,
                _ => next = r.below(most),
            }
        }
        // Of a transmission that is broken off or unfinished there are the first ones alone.
        let there: Vec<&Bytes> = same.iter().filter_map(|of| of.get(next)).collect();
        if !there.is_empty() {
            packets.push(there[r.below(there.len())].clone());
        }
        next = if next + 1 < most { next + 1 } else { 0 };
    }
    packets
}

impl Lists {
    pub(super) fn single_packets(&self, r: &mut Random) -> Vec<Bytes> {
        single_packets(r, &self.line.messages, &self.world.receiving.open)
    }

    /// These one by one, with calls of either end between them. They count as no run, whatever they come to.
    pub(super) fn singles(&mut self, r: &mut Random) -> Result<(), String> {
        if r.once_in(4) {
            // So that something is wanted that was sent.
            let series = self.series(r);
            self.whole_login(r, series)?;
            self.send(r, series)?;
        }
        for packet in self.single_packets(r) {
            let before = self.world.receiving;
            self.receive(r, &packet)?;
            if self.kind == Kind::Honest {
                self.note_single(&before.open, &packet);
            }
            let series = self.series(r);
            match r.below(40) {
                0 => self.ask(r, series)?,
                1 => self.publish(r)?,
                2 => self.send(r, series)?,
                3 => _ = self.send_packet(r, series)?,
                // A packet of another series, or of any.
                4 => {
                    if let Some(other) = self.single_packets(r).first() {
                        self.receive(r, other)?;
                    }
                }
                5 if r.once_in(4) => self.answer(r)?,
                6 if r.once_in(8) => self.connect()?,
                _ => {}
            }
        }
        Ok(())
    }

    /// What a single packet of the message that is wanted next came to, by the models' states.
    fn note_single(&mut self, before: &[Kept], packet: &[u8]) {
        let Packet::Message(one) = read(packet) else { return };
        let is = |kept: &&Kept| kept.series == one.series && kept.mark == one.mark && kept.logged_in;
        let (Some(was), Some(now)) = (before.iter().find(is), self.world.receiving.open.iter().find(is)) else {
            return;
        };
        if was.last.wrapping_add(1) != one.number || one.chain == b'S' {
            return;
        }
        let what = match (was.chain, now.chain) {
            _ if now.last > was.last => "completes its message",
            (None, None) => "17, and no chain was open",
            (Some(_), None) => "17, and the chain is gone",
            (Some(_), Some(Chain { pieces: 1, .. })) => "replaces a chain",
            _ => "is held",
        };
        *self.singles.entry(what).or_default() += 1;
    }

    /// A chain with any count of packets, often about the most that are counted, and pieces of it with a place, or
    /// without.
    pub(super) fn counted_chain(&mut self, r: &mut Random) -> Result<(), String> {
        if self.world.receiving.open.is_empty() {
            return Ok(());
        }
        let place = r.below(self.world.receiving.open.len());
        let one = &mut self.world.receiving.open[place];
        one.logged_in = true;
        one.chain = Some(Chain { tid: STRANGE, held: r.pick(&[0, 6, 32_768]), pieces: any_count(r) });
        self.world.level();
        for _ in 0..r.within(1, 5) {
            let kept = self.world.receiving.open[place];
            let letter = r.pick(b"CCCCCLF");
            // Mostly with no content: a chain of such packets has no end.
            let content = if r.once_in(4) { super::plain(r.below(3)) } else { vec![] };
            let of = (kept.series, kept.last.wrapping_add(1));
            let at = near_place(r, letter, kept.chain);
            let packet = super::made_packet(r, STRANGE, of, (letter, at), [None, None, None, kept.mark], &content);
            self.receive(r, &packet)?;
        }
        Ok(())
    }
}
