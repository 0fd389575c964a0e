//! Bufferfuls in the lists of calls (document 02, No. 8): many packets in one call of the receiving end, many records in one of the
//! serving end, given in two parts that are cut at any place, each until it is through.

use super::{damaged, late, Kind, Lists};
use crate::ends::{ReceivedSeveral, IN_PACKET, SEVERAL_END, SEVERAL_MESSAGE, SEVERAL_REFUSED, SEVERAL_SHORT};
use crate::history::Delivery;
use crate::several::{record, record_length};
use reader::generate::Random;
use reader::packet::{read, said_length, u16_at, u32_at, Packet};
use reader::several::RECORD_HEADER;

const NAMES: [&str; 5] = ["end", "short", "", "message", "refused"];

/// A call is through where it answers end or short.
fn through(answer: u8) -> bool {
    answer == SEVERAL_END || answer == SEVERAL_SHORT
}

impl Lists {
    fn note_several(&mut self, call: &'static str, answer: u8, refusal: u8) {
        let said = if answer == SEVERAL_REFUSED { Err(refusal) } else { Ok(()) };
        self.note(call, NAMES[usize::from(answer)], &said);
    }

    /// What a line brings: messages that were sent, some broken off, single packets, and other packets between them; where packets
    /// are damaged or made up, such ones too. Gives the bytes, and what is delivered with them.
    fn brought(&self, r: &mut Random) -> (Vec<u8>, Vec<Delivery>) {
        let (mut bytes, mut whole) = (vec![], vec![]);
        for _ in 0..r.within(1, 5) {
            match r.below(8) {
                0 => bytes.extend(r.pick(&[&[0, 2, 0, 0, 4, 0][..], &[1, 0, 0, 0], &[7, 0, 0, 1, 0]])),
                1 | 2 if self.kind != Kind::Honest => bytes.extend(self.made_up_packet(r)),
                3 => bytes.extend(self.single_packets(r).concat()),
                _ => {
                    let Some(one) = late(r, &self.line.messages) else { continue };
                    let count = if r.once_in(5) { r.below(one.packets.len() + 1) } else { one.packets.len() };
                    for packet in &one.packets[..count] {
                        if self.kind != Kind::Honest && r.once_in(12) {
                            bytes.extend(damaged(r, packet));
                        } else {
                            bytes.extend(&packet[..]);
                        }
                    }
                    whole.extend(one.sent.filter(|_| count == one.packets.len()));
                }
            }
        }
        (bytes, whole)
    }

    pub(super) fn receive_several(&mut self, r: &mut Random) -> Result<(), String> {
        let (bytes, whole) = self.brought(r);
        let (cut, buffer) = (r.below(bytes.len() + 1), self.buffer(r));
        self.receive_cut(&bytes, cut, buffer)?;
        for one in whole {
            self.history.delivered(&one);
        }
        Ok(())
    }

    pub(super) fn receive_cut(&mut self, bytes: &[u8], cut: usize, buffer: usize) -> Result<(), String> {
        self.lent(buffer);
        let mut taken = 0;
        for to in [cut, bytes.len()] {
            loop {
                let given = &bytes[taken..to];
                let answer = self.world.receive_several(given, buffer)?;
                self.note_several("Receive several", answer.answer, answer.refusal);
                if answer.answer == SEVERAL_MESSAGE && self.kind == Kind::Honest {
                    self.handed_on(given, &answer)?;
                }
                taken += answer.taken;
                if through(answer.answer) {
                    break;
                }
            }
        }
        Ok(())
    }

    /// A message of a bufferful, in its last packet taken: demand 3, on what is heard.
    fn handed_on(&mut self, given: &[u8], answer: &ReceivedSeveral) -> Result<(), String> {
        let mut packet = &given[..answer.taken];
        while let Some(length) = said_length(packet).filter(|&length| length < packet.len()) {
            packet = &packet[length..];
        }
        let Packet::Message(message) = read(packet) else { return Err("a message that is no packet".to_string()) };
        self.demand += 1;
        let bytes = if answer.origin == IN_PACKET { given } else { &self.world.buffers[0] };
        let (mark, content) = (message.mark.unwrap_or(0), answer.content.of(bytes).to_vec());
        self.history.handed_on(message.series, mark, answer.tid, &content)?;
        self.heard_message(&message, answer.tid, content);
        self.heard_report(message.series, self.history.day_of(message.series), answer.last);
        self.history.reported(message.series, answer.last)
    }

    /// Records, right and wrong ones; at the end one that is cut off, or whose length is too high for its bytes.
    fn records(&self, r: &mut Random) -> Vec<u8> {
        let mut bytes = vec![];
        for _ in 0..r.below(6) {
            let (series, (tid, content)) = (self.series(r), self.contents.message(r, self.large()));
            bytes.extend(record(series, tid, &content));
        }
        let mut last = record(self.series(r), 0x7777, &[]);
        match r.below(8) {
            0 => last.truncate(r.below(last.len())),
            1 => last[6..].copy_from_slice(&r.pick(&[1u32, 32_768, 32_769, u32::MAX]).to_be_bytes()),
            2 => last.clear(),
            // More than a message may have, all there.
            3 if r.once_in(4) => {
                last[6..].copy_from_slice(&32_769u32.to_be_bytes());
                last.resize(last.len() + 32_769, 0);
            }
            _ => {}
        }
        bytes.extend(last);
        if self.kind != Kind::Honest && r.once_in(3) && !bytes.is_empty() {
            let at = r.below(bytes.len());
            bytes[at] ^= 1 << r.below(8);
        }
        bytes
    }

    pub(super) fn publish_several(&mut self, r: &mut Random) -> Result<(), String> {
        let bytes = self.records(r);
        let (cut, log) = (r.below(bytes.len() + 1), self.log(r));
        let mut taken = 0;
        for to in [cut, bytes.len()] {
            loop {
                let given = &bytes[taken..to];
                let answer = self.world.publish_several(given, log)?;
                self.note_several("Publish several", answer.answer, answer.refusal);
                let refusal = if answer.answer == SEVERAL_REFUSED { answer.refusal } else { 0 };
                self.published(&given[..answer.taken], refusal)?;
                taken += answer.taken;
                if through(answer.answer) {
                    break;
                }
            }
        }
        Ok(())
    }

    /// All records that were taken are in, but for the last one where there is a refusal.
    fn published(&mut self, mut taken: &[u8], refusal: u8) -> Result<(), String> {
        while !taken.is_empty() {
            let (one, rest) = taken.split_at(record_length(taken));
            let (series, content) = (u16_at(one, 0), &one[RECORD_HEADER..]);
            let answer = if rest.is_empty() && refusal != 0 { Err(refusal) } else { Ok(()) };
            if answer.is_ok() && self.kind == Kind::Honest {
                self.history.published(series, u32_at(one, 2), content);
            }
            if self.kind != Kind::Wild {
                self.accounts.published(series, content.len(), &answer)?;
            }
            taken = rest;
        }
        Ok(())
    }
}
