//! What isn't honest in the lists for the box: packets and login packets made up around what the ends have; the log and
//! the chain buffer altered, and states that no call made.

use super::{kept, Boxes, ABOVE, ENDS};
use crate::boxes::world::BoxWorld;
use crate::calls::pieces::any_count;
use crate::calls::shares::any_bytes;
use crate::calls::{any_piece, made_packet, near_place, plain, some_place, Kind, BUFFER, MATCHES, STRANGE};
use reader::few::Few;
use reader::generate::{packet_input, Random, FORMS};
use reader::receiving::Chain;
use reader::relay::{Place, Relay, SEATS};
use reader::serving::LOGIN;
use reader::start::start_field_bytes;

impl Boxes {
    /// A login packet with a mark and a start around what the serving end of the line has.
    pub(super) fn made_up_login(&self, r: &mut Random, line: usize, series: u16) -> Vec<u8> {
        let (mark, published) = self.served(line, series);
        let mut content = self.contents.request(r).to_vec();
        if !r.once_in(4) {
            let next = u64::from(published) + r.below(4) as u64;
            let number = if r.once_in(3) { r.pick(&[0, 1, u32::MAX]) } else { next.saturating_sub(1) as u32 };
            content.extend(start_field_bytes(if r.once_in(8) { self.series(r) } else { series }, number));
        }
        let (place, mark) = (some_place(r), Some(mark));
        made_packet(r, LOGIN, (0, 0), (b'S', place), [None, mark, mark, mark], &content)
    }

    /// Any bytes, a packet that bears no message, or one around what the receiving end has.
    pub(super) fn made_up_packet(&self, r: &mut Random, line: usize) -> Vec<u8> {
        match r.below(4) {
            0 => {
                let form = r.pick(&FORMS);
                packet_input(r, form)
            }
            1 => {
                let right = [&[0, 2, 0, 0, 4, 0][..], &[1, 0, 0, 0], &[7, 0, 0, 1, 0]];
                let wrong = [&[0, 2, 0, 0, 4, 1][..], &[1, 0, 0, 1, 0]];
                if r.once_in(2) {
                    r.pick(&wrong).to_vec()
                } else {
                    r.pick(&right).to_vec()
                }
            }
            _ => self.made_up_piece(r, line),
        }
    }

    /// A packet around what the receiving end has; its content may be one that isn't published.
    pub(super) fn made_up_piece(&self, r: &mut Random, line: usize) -> Vec<u8> {
        let series = self.series(r);
        let kept = kept(&self.open(line), series);
        let number = kept.last.wrapping_add(r.pick(&[0, 1, 1, 1, 1, 1, 1, 2, u32::MAX]));
        let number = if r.once_in(20) { r.pick(&[0, 1, 1_000_000, 1_000_001, u32::MAX]) } else { number };
        let (mut tid, content) = match r.below(10) {
            0 => (STRANGE, plain(4074)),
            1 => (STRANGE, vec![]),
            2..=5 => self.contents.messages[r.below(self.contents.messages.len())].clone(),
            6 => (MATCHES, self.contents.row.clone()),
            _ => (STRANGE, plain(r.below(30))),
        };
        let letter = r.pick(b"SSFFCCL");
        // So that the chain goes on.
        if let Some(chain) = kept.chain.filter(|_| !r.once_in(4)) {
            tid = chain.tid;
        }
        let (mark, place) = (kept.mark, near_place(r, letter, kept.chain));
        made_packet(r, tid, (series, number), (letter, place), [None, mark, mark, mark], &content)
    }

    /// Some of them behind each other.
    pub(super) fn made_up(&mut self, r: &mut Random) -> Result<(), String> {
        for _ in 0..r.within(1, 4) {
            let packet = self.made_up_piece(r, ABOVE).into();
            self.receive(r, ABOVE, &packet)?;
        }
        Ok(())
    }

    /// A chain up to the most bytes that it may have, and around them.
    pub(super) fn made_up_chain(&mut self, r: &mut Random, line: usize) -> Result<(), String> {
        if self.kind == Kind::Honest || !r.once_in(3) {
            return Ok(());
        }
        let series = self.series(r);
        let of = (series, kept(&self.open(line), series).last.wrapping_add(1));
        for i in 0..8 {
            let letter = (if i == 0 { b'F' } else { b'C' }, Some(i));
            let packet = made_packet(r, STRANGE, of, letter, [None; 4], &plain(4074)).into();
            self.receive(r, line, &packet)?;
        }
        let (last, letter) = (plain(r.pick(&[0, 121, 122, 123, 124, 4074])), r.pick(b"CL"));
        let packet = made_packet(r, STRANGE, of, (letter, None), [None; 4], &last).into();
        self.receive(r, line, &packet)
    }

    /// A state that no call made, and the next message of a series on it: published apart from last, at the end of a
    /// day; or a chain whose bytes are any. Or series that can't be opened, and an answer that would open them.
    pub(super) fn set_up(&mut self, r: &mut Random) -> Result<(), String> {
        if r.once_in(5) {
            return self.wrong_series(r);
        }
        let BoxWorld { tried, model, .. } = &mut self.worlds[0];
        let (Some(day), false) = (&mut model.relay.below.day, model.relay.receiving.open.is_empty()) else {
            return Ok(());
        };
        // The chain buffer may be too short for all series.
        let parts = model.relay.receiving.open.len().min(tried.buffer.len() / BUFFER);
        let place = r.below(parts);
        let one = &mut model.relay.receiving.open[place];
        (one.mark, one.logged_in) = (Some(day.mark), true);
        if let Some(below) = day.open.iter_mut().find(|below| below.series == one.series) {
            below.published = r.pick(&[below.published, 999_999, 1_000_000, 1_000_001, u32::MAX]);
        }
        let letter = r.pick(b"SLL");
        if letter == b'L' {
            let held = r.pick(&[0, 1, 5, 6, 7, 10, 16]);
            one.chain = Some(Chain { tid: STRANGE, held, pieces: 1 });
            let field = [&plain(r.below(12))[..], &[0; 16]].concat();
            for buffer in [&mut tried.buffer, &mut model.buffer] {
                buffer[place * BUFFER..][..16].copy_from_slice(&field[..16]);
            }
        }
        let of = (one.series, one.last.wrapping_add(1));
        self.worlds[0].level();
        let content = plain(r.below(12));
        let packet = made_packet(r, STRANGE, of, (letter, None), [None; 4], &content).into();
        self.receive(r, ABOVE, &packet)
    }

    pub(super) fn wrong_series(&mut self, r: &mut Random) -> Result<(), String> {
        let relay = &mut self.worlds[0].model.relay;
        let before = *relay;
        let open = &mut relay.receiving.open;
        let (Some(first), Some(last)) = (open.first().map(|one| one.series), open.len().checked_sub(1)) else {
            return Ok(());
        };
        open[last].series = r.pick(&[0, first]);
        let mark = Some(relay.below.day.map_or(1, |day| day.mark.wrapping_add(1)));
        self.worlds[0].level();
        let content = self.contents.answer.clone();
        let packet = made_packet(r, LOGIN, (0, 0), (b'S', None), [mark; 4], &content).into();
        let log = self.log(r, Some(0));
        self.answer_with(ABOVE, first, &packet, log)?;
        // Mostly put back, so that the list goes on.
        if !r.once_in(6) {
            self.worlds[0].model.relay.receiving.open[last].series = before.receiving.open[last].series;
            self.worlds[0].level();
        }
        Ok(())
    }

    /// The log or the chain buffer altered, or a state set that no call made.
    pub(super) fn alter(&mut self, r: &mut Random) {
        for line in &mut self.lines[1..] {
            line.unfinished.clear();
        }
        let BoxWorld { tried, model, .. } = &mut self.worlds[0];
        let relay = &mut model.relay;
        let length = tried.log.len();
        let used = relay.below.day.map_or(0, |day| day.used).min(length);
        let series = relay.receiving.open.len();
        match r.below(14) {
            0..=2 if used > 0 => {
                let at = if r.once_in(2) { r.below(used) } else { r.below(used.min(40)) };
                tried.log[at] ^= 1 << r.below(8);
                model.log[at] = tried.log[at];
            }
            3..=4 if series > 0 => {
                let at = r.below(series.min(tried.buffer.len() / BUFFER)) * BUFFER + r.below(24);
                tried.buffer[at] = r.pick(&[0, 1, 6, 255]);
                model.buffer[at] = tried.buffer[at];
            }
            5..=7 => alter_day(r, relay, length, used),
            8..=10 if series > 0 => alter_kept(r, relay, series),
            11 if series > 0 => relay.reserves[r.below(series)] = any_bytes(r, length),
            _ => {
                let seat = if r.once_in(4) { r.below(SEATS) } else { self.seats[r.below(ENDS)] };
                let next = r.pick(&[0, 1, 1, 2, 3, 999_999, 1_000_000, u64::from(u32::MAX), 1 << 32, u64::MAX]);
                let place = Place { next, piece: any_piece(r) };
                relay.seats[seat][r.below(8)] = (!r.once_in(5)).then_some(place);
            }
        }
        self.worlds[0].level();
    }
}

fn alter_day(r: &mut Random, relay: &mut Relay, length: usize, used: usize) {
    let (one, series) = (relay.receiving.open.first().map_or(1, |one| one.series), r.pick(&[0, 1, 2, 9]));
    let Some(day) = &mut relay.below.day else { return };
    if day.open.is_empty() || r.once_in(12) {
        relay.below.day = None;
        return;
    }
    let place = r.below(day.open.len());
    match r.below(9) {
        0..=1 => day.open[place].published = r.pick(&[999_998, 999_999, 1_000_000, 1_000_001, u32::MAX, 0, 1, 2]),
        2 => day.mark = r.pick(&[0, 1, 2, 3, u32::MAX]),
        3 => day.used = r.pick(&[0, 1, 15, 16, used, used + 1, usize::MAX]),
        4 => day.open[place].reserve = any_bytes(r, length),
        5 => day.open[place].used = any_bytes(r, length),
        6 => day.open[place].series = r.pick(&[series, one]),
        7 => day.open = Few::of(day.open.iter().take(place).copied()).expect("at most eight"),
        _ => {}
    }
}

fn alter_kept(r: &mut Random, relay: &mut Relay, series: usize) {
    let mark = relay.below.day.map(|day| day.mark);
    let one = &mut relay.receiving.open[r.below(series)];
    match r.below(9) {
        0 => one.last = r.pick(&[999_998, 999_999, 1_000_000, 1_000_001, u32::MAX - 1, u32::MAX]),
        1 => one.mark = r.pick(&[None, Some(0), Some(u32::MAX), mark]),
        2 => one.logged_in = !r.once_in(3),
        3 => {
            let held = r.pick(&[0, 1, 6, 10, 32_640, 32_767, 32_768, 32_769, usize::MAX - 5, usize::MAX]);
            one.chain = Some(Chain { tid: STRANGE, held, pieces: any_count(r) });
        }
        4 => one.last = r.below(4) as u32,
        5 if r.once_in(4) => one.series = r.pick(&[0, 1, 2]),
        _ => (one.mark, one.logged_in) = (mark.or(one.mark), true),
    }
}
