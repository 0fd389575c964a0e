//! What the calls of the lists for the box came to, and what has to occur; what holds of every box that calls have
//! made.

use super::{kept, last_packet, Boxes};
use crate::boxes::world::{Call, Heard};
use crate::ends::{HANDED_ON, IN_PACKET, SEND_MESSAGE};
use reader::packet::{read, u16_at, u32_at, Packet, MOST_MESSAGE};
use reader::relay::Relay;
use reader::serving::ENTRY_HEADER;
use std::collections::BTreeMap;

/// What is expected of each call: its answers, and its refusals.
const ALL: [(&str, &[&str], &[u8]); 9] = [
    ("Opening", &["opened"], &[11]),
    ("Connect", &["connected"], &[]),
    ("Ask", &["asked"], &[7, 8, 9, 10, 13, 18]),
    ("Answer", &["answered", "opened below"], &[12, 1, 2, 4, 5, 6, 7, 8, 9, 10, 13, 15, 16, 11]),
    (
        "Receive",
        &["idle", "again", "held", "message"],
        &[12, 1, 3, 2, 4, 5, 6, 7, 13, 14, 15, 16, 17, 18, 8, 9, 10, 20, 21],
    ),
    ("Receive several", &["end", "short", "message"], &[1, 3, 2, 4, 5, 6, 7, 13, 14, 15, 16, 17, 18, 8, 9, 10, 20, 21]),
    ("Login", &["logged in"], &[25, 12, 1, 2, 4, 5, 6, 7, 8, 9, 10, 13, 15, 16, 18, 19]),
    ("Send", &["sent", "none"], &[25, 13, 14, 20, 18]),
    ("Send packet", &["more", "last", "none"], &[25, 13, 14, 20, 18]),
];

/// What is to be seen besides.
const SEEN: [&str; 20] = [
    "Answer: 16 before 11 by reserves",
    "Answer: 11 by reserves",
    "Answer: 11 by the series",
    "Answer: 15 for the day alone",
    "Answer: a series follows into the open day",
    "Answer: an opening takes seats out",
    "Answer: an opening, and another series' chain stays",
    "Receive: 7 of the publication",
    "Receive: 13 of the publication",
    "Receive: 15 for the day alone",
    "Receive: 15 for the day alone, of a message taken before",
    "Receive: 15 for the day alone, with a chain open",
    "Receive: 18 of the chain buffer",
    "Receive: 18 of the log",
    "Receive: 18 of the log, by reserves alone",
    "Receive: 21",
    "Receive: a publication refused, of a chain",
    "Receive: published, of a chain",
    "Login: of a seat that has a message under way",
    "Send: whole, with the message under way",
];

/// What the calls came to.
#[derive(Default)]
pub struct Counts {
    /// How often each answer was given, by call.
    pub answers: BTreeMap<(&'static str, &'static str, u8), u64>,
    pub seen: BTreeMap<&'static str, u64>,
    /// All calls, of the box and of the other ends.
    pub calls: u64,
    pub of_the_box: u64,
    /// Checks of demand 3, and how many of them are of its second half: from above, and on seats' lines.
    pub demand: u64,
    pub arrived: [u64; 2],
    /// Lists made once more for one seat alone, and the calls that were left out.
    pub alone: u64,
    pub left_out: u64,
    /// Of rows: keeps and returns at the last end; how often the whole list had to be there, with messages in it, and
    /// how often so in lists with returns.
    pub kept: u64,
    pub returned: u64,
    pub whole: u64,
    pub whole_behind: u64,
}

impl Counts {
    /// What should occur and didn't.
    pub fn missing(&self) -> Vec<String> {
        let mut all = vec![];
        for (call, names, rows) in ALL {
            let names = names.iter().map(|&name| (call, name, 0));
            for one in names.chain(rows.iter().map(|&row| (call, "refused", row))) {
                if !self.answers.contains_key(&one) {
                    all.push(format!("{call}: {} {}", one.1, one.2));
                }
            }
        }
        let unseen = SEEN.iter().filter(|&what| !self.seen.contains_key(what)).map(|what| what.to_string());
        all.extend(unseen);
        if self.arrived.contains(&0) {
            all.push("that all has arrived".to_string());
        }
        all
    }
}

/// What holds of every box that calls have made.
pub(super) fn joined(of: &Relay) -> Result<(), String> {
    let highest = of.receiving.open.iter().filter_map(|one| one.mark).max();
    if of.below.day.map(|day| day.mark) != highest {
        return Err(format!("the day below isn't the highest mark, {highest:?}"));
    }
    for one in of.receiving.open.iter() {
        if one.logged_in && one.mark.is_none() || one.chain.is_some() && !one.logged_in {
            return Err(format!("series {}: a login without a mark, or a chain without a login", one.series));
        }
    }
    let Some(day) = of.below.day else { return Ok(()) };
    if !day.open.iter().map(|one| one.series).eq(of.receiving.open.iter().map(|one| one.series)) {
        return Err("the day's series aren't the receiving end's".to_string());
    }
    for (place, (below, above)) in day.open.iter().zip(of.receiving.open.iter()).enumerate() {
        let published = if above.mark == Some(day.mark) { above.last } else { 0 };
        if below.published != published {
            return Err(format!("series {}: {} published below, {published} taken", below.series, below.published));
        }
        for seat in of.seats {
            if seat[place].is_some_and(|one| one.next == 0 || one.next > u64::from(published) + 1) {
                return Err(format!("series {}: a seat is at {:?}, of {published}", below.series, seat[place]));
            }
        }
    }
    Ok(())
}

impl Boxes {
    fn note(&mut self, call: &'static str, name: &'static str, refusal: u8) {
        let said = if refusal == 0 { (call, name, 0) } else { (call, "refused", refusal) };
        *self.counts.answers.entry(said).or_default() += 1;
        if self.tracing {
            self.trace.push(format!("{call}: {} {}", said.1, said.2));
        }
    }

    fn see(&mut self, what: &'static str) {
        *self.counts.seen.entry(what).or_default() += 1;
    }

    /// What was handed on stands at the end of the log, under its number, and nothing else was published.
    pub(super) fn published_below(&self, of: usize, before: &Relay, given: &[u8], heard: &Heard) -> Result<(), String> {
        let world = &self.worlds[of];
        let content = heard.content.of(if heard.origin == IN_PACKET { given } else { &world.tried.buffer });
        let taken = if heard.taken == 0 { given.len() } else { heard.taken };
        let Packet::Message(piece) = read(last_packet(&given[..taken])) else { return Err("no packet".to_string()) };
        let (Some(was), Some(day)) = (before.below.day, world.model.relay.below.day) else {
            return Err("no day".to_string());
        };
        let entry = world.tried.log.get(was.used..day.used).unwrap_or(&[]);
        let right = entry.len() == ENTRY_HEADER + content.len()
            && (u16_at(entry, 0), u16_at(entry, 2)) == (piece.series, 0)
            && (u32_at(entry, 4), u32_at(entry, 8)) == (heard.tid, heard.last)
            && u32_at(entry, 12) as usize == content.len()
            && entry[ENTRY_HEADER..] == *content
            && heard.last == piece.number;
        let others = was.open.iter().zip(day.open.iter()).all(|(was, now)| was.series == piece.series || was == now);
        if right && others {
            return Ok(());
        }
        Err(format!("message {} of series {} handed on, and not so published below", heard.last, piece.series))
    }

    /// Counts what the call came to.
    pub(super) fn look(&mut self, of: usize, before: &Relay, call: &Call, heard: &Heard) {
        let row = heard.refusal;
        let after = self.worlds[of].model.relay;
        let opened = before.below.day.map(|day| day.mark) != after.below.day.map(|day| day.mark);
        let day = before.below.day.map(|day| day.mark);
        let name = match call {
            Call::Open { .. } => "opened",
            Call::Connect => "connected",
            Call::Ask { .. } => "asked",
            Call::Answer { .. } if opened => "opened below",
            Call::Answer { .. } => "answered",
            Call::Receive { .. } => ["idle", "again", "held", "message", ""][usize::from(heard.answer.min(4))],
            Call::Several { .. } => ["end", "short", "", "message", ""][usize::from(heard.answer.min(4))],
            Call::Login { .. } => "logged in",
            _ if heard.answer != SEND_MESSAGE => "none",
            Call::Send { .. } => "sent",
            Call::SendPacket { .. } if heard.whole == 0 => "more",
            Call::SendPacket { .. } => "last",
        };
        self.note(call.name(), name, row);
        match call {
            Call::Answer { series, packet, log } => {
                let Packet::Message(answer) = read(packet) else { return };
                let own = kept(&before.receiving.open, *series);
                let mark = answer.mark;
                let reserves = &before.reserves[..before.receiving.open.len()];
                let above = reserves.iter().map(|&one| one as u128).sum::<u128>() > *log as u128;
                if row == 16 && above && day.is_none_or(|day| mark > Some(day)) {
                    self.see("Answer: 16 before 11 by reserves");
                }
                if row == 11 {
                    self.see(if above { "Answer: 11 by reserves" } else { "Answer: 11 by the series" });
                }
                if row == 15 && mark.is_some() && own.mark.is_none_or(|own| mark >= Some(own)) {
                    self.see("Answer: 15 for the day alone");
                }
                if row == 0 && !opened && own.mark != mark {
                    self.see("Answer: a series follows into the open day");
                }
                if row == 0 && opened && before.seats.iter().flatten().any(|place| place.is_some()) {
                    self.see("Answer: an opening takes seats out");
                }
                let chain = after.receiving.open.iter().any(|one| one.series != *series && one.chain.is_some());
                if row == 0 && opened && chain {
                    self.see("Answer: an opening, and another series' chain stays");
                }
            }
            Call::Receive { packet, log, buffer } => {
                let Packet::Message(piece) = read(packet) else { return };
                let Some(own) = before.receiving.open.iter().find(|one| one.series == piece.series) else { return };
                let late = own.mark.is_some() && own.mark < day;
                let alone = row == 15 && late && (piece.mark.is_none() || piece.mark == own.mark);
                if alone {
                    self.see("Receive: 15 for the day alone");
                    if piece.number > 0 && piece.number <= own.last {
                        self.see("Receive: 15 for the day alone, of a message taken before");
                    }
                    if own.chain.is_some() {
                        self.see("Receive: 15 for the day alone, with a chain open");
                    }
                }
                let held = own.chain.filter(|_| piece.chain == b'L').map_or(0, |chain| chain.held);
                let length = held.saturating_add(piece.content.len());
                let parts = before.receiving.open.len() * MOST_MESSAGE;
                if row == 18 && piece.chain != b'S' && (*buffer < parts || length > MOST_MESSAGE) {
                    self.see("Receive: 18 of the chain buffer");
                    return;
                }
                match row {
                    0 if heard.answer == HANDED_ON && piece.chain == b'L' => self.see("Receive: published, of a chain"),
                    7 => self.see("Receive: 7 of the publication"),
                    13 => self.see("Receive: 13 of the publication"),
                    21 => self.see("Receive: 21"),
                    18 => {
                        self.see("Receive: 18 of the log");
                        let used = before.below.day.map_or(0, |day| day.used);
                        if log.saturating_sub(used) >= ENTRY_HEADER + length {
                            self.see("Receive: 18 of the log, by reserves alone");
                        }
                    }
                    _ => {}
                }
                if matches!(row, 7..=10 | 13 | 18 | 20 | 21) && piece.chain == b'L' {
                    self.see("Receive: a publication refused, of a chain");
                }
            }
            Call::Login { seat, series, .. } | Call::Send { seat, series, .. } if row == 0 => {
                let Some(place) =
                    before.below.day.and_then(|day| day.open.iter().position(|one| one.series == *series))
                else {
                    return;
                };
                let under_way = before.seats[*seat][place].is_some_and(|one| one.piece > 0);
                if under_way && matches!(call, Call::Login { .. }) {
                    self.see("Login: of a seat that has a message under way");
                } else if under_way && heard.answer == SEND_MESSAGE {
                    self.see("Send: whole, with the message under way");
                }
            }
            _ => {}
        }
    }
}
