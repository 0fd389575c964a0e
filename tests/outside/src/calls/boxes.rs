//! Random lists of calls for the box (document 02, No. 3): the exchange, the box with three seats' ends below it, and
//! the lines between them; or three boxes in a row and an end behind the last one (No. 14, row.rs). In an honest list
//! only the lines are at fault, and the buffers that are lent: packets are lost, repeated and late at will; there both
//! halves of demand 3 are checked on each line. In a damaged one packets are altered or made up, and login packets go
//! to other seats; in a wild one the log and the chain buffer are altered too, and states set that no call made. After
//! each list that only calls made, the calls are made once more without those of all seats but one.

use super::pieces::single_packets;
use super::shares::some_reserves;
use super::{damaged, late, late_place, made_packet, room, some_place};
use super::{Bytes, Contents, Kind, Line, Transmission, BUFFER, MOST_OUTPUT, MOST_PACKET};
use crate::boxes::world::{BoxWorld, Call, Heard};
use crate::boxes::Side;
use crate::ends::{AGAIN, HANDED_ON, HELD, IDLE, IN_PACKET, SEND_MESSAGE};
use crate::ends::{SEVERAL_END, SEVERAL_MESSAGE, SEVERAL_REFUSED, SEVERAL_SHORT};
use crate::history::{Delivery, History};
use crate::world::World;
use reader::few::Few;
use reader::generate::Random;
use reader::packet::{cut_apart, read, said_length, Packet};
use reader::receiving::Kept;
use reader::relay::SEATS;
use reader::serving::{Day, LOGIN};

mod counts;
mod row;
mod wild;

use counts::{joined, Counts};
use row::Row;

/// The line from the exchange to the box; the others are those of three seats. In a row each is of a seat of the box
/// that the one before it leads to.
const ABOVE: usize = 0;
const ENDS: usize = 3;
const LINES: usize = 1 + ENDS;

pub struct Boxes {
    /// The box, or those of the row from above.
    pub worlds: Vec<BoxWorld>,
    exchange: World,
    ends: Vec<World>,
    /// The seats that the lines from below are at.
    seats: [usize; ENDS],
    /// Of a row: what happens at its last end.
    row: Option<Row>,
    lines: [Line; LINES],
    histories: [History; LINES],
    contents: Contents,
    kind: Kind,
    about: Vec<u16>,
    /// Checked is what holds of every box that calls have made; and that a seat alone hears the same.
    pub joining: bool,
    pub parting: bool,
    pub counts: Counts,
    trace: Vec<String>,
    tracing: bool,
}

/// A seat number, of all that there are and above.
fn any_seat(r: &mut Random) -> usize {
    if r.once_in(3) {
        return r.pick(&[16, 17, 31, 32, 255, 256, 257, 1 << 16, 1 << 32, (1 << 32) + 1, 1 << 60, 1 << 63, usize::MAX]);
    }
    r.below(SEATS)
}

fn kept(open: &[Kept], series: u16) -> Kept {
    open.iter().find(|one| one.series == series).copied().unwrap_or_default()
}

/// The last of some packets, each as long as its first four bytes say.
fn last_packet(mut bytes: &[u8]) -> &[u8] {
    while let Some(length) = said_length(bytes).filter(|&length| length < bytes.len()) {
        bytes = &bytes[length..];
    }
    bytes
}

impl Boxes {
    pub fn new(side: Box<dyn Side>) -> Self {
        Boxes {
            worlds: vec![BoxWorld::new(side)],
            exchange: World::default(),
            ends: (0..ENDS).map(|_| World::default()).collect(),
            seats: [0; ENDS],
            row: None,
            lines: Default::default(),
            histories: Default::default(),
            contents: Contents::new(),
            kind: Kind::Honest,
            about: vec![],
            joining: true,
            parting: true,
            counts: Counts::default(),
            trace: vec![],
            tracing: false,
        }
    }

    /// Answers and buffers compared, of all ends.
    pub fn asked(&self) -> u64 {
        let boxes = self.worlds.iter().map(|one| one.asked.0).sum::<u64>();
        boxes + self.exchange.asked.0 + self.ends.iter().map(|end| end.asked.0).sum::<u64>()
    }

    /// The box that serves a line; none where the exchange does.
    fn above(&self, line: usize) -> Option<usize> {
        line.checked_sub(1).map(|before| if self.row.is_some() { before } else { 0 })
    }

    /// The box that a line leads to; none where it leads to an end.
    fn below(&self, line: usize) -> Option<usize> {
        (line < self.worlds.len()).then_some(line)
    }

    /// The end that it leads to.
    fn end(&mut self, line: usize) -> &mut World {
        let place = line - self.worlds.len();
        &mut self.ends[place]
    }

    /// The lines that a box serves.
    fn served_by(&self, of: usize) -> Vec<usize> {
        (0..LINES).filter(|&line| self.above(line) == Some(of)).collect()
    }

    /// A list of about so many calls; the first difference with the calls of the box that led to it.
    pub fn list(&mut self, seed: u64, calls: usize) -> Result<(), String> {
        let before = self.counts.calls;
        let Err(text) = self.try_list(seed, calls) else { return Ok(()) };
        let call = self.counts.calls - before;
        // Once more, for the trace.
        self.tracing = true;
        self.trace.clear();
        _ = self.try_list(seed, calls);
        let from = self.trace.len().saturating_sub(12);
        let trace = self.trace[from..].join("\n    ");
        self.tracing = false;
        Err(format!("list {seed}, call {call}: {text}\n  before it:\n    {trace}"))
    }

    fn try_list(&mut self, seed: u64, calls: usize) -> Result<(), String> {
        let r = &mut Random::new(seed);
        let other = if self.row.is_some() { Kind::Honest } else { Kind::Wild };
        self.kind = r.pick(&[Kind::Honest, Kind::Honest, Kind::Damaged, other]);
        self.lines = Default::default();
        self.histories = Default::default();
        let many = if r.once_in(12) { 8 } else { r.within(1, 3) };
        self.about = (0..many as u16).map(|i| i + 1).collect();
        if r.once_in(4) {
            self.about[0] = r.pick(&[65_535, 256, 258]);
        }
        let mut seats: Vec<usize> = (0..SEATS).collect();
        r.shuffle(&mut seats);
        let few = if self.row.is_some() { 2 } else { 4 };
        self.seats = if r.once_in(few) { [0, 14, 15] } else { [seats[0], seats[1], seats[2]] };
        let log = match r.below(8) {
            0 => r.below(200),
            1 => 40_000,
            2..=3 => r.within(9000, 20_000),
            _ => r.within(500, 4000),
        };
        let own = match r.below(6) {
            0 => r.below(log + 1),
            1 => log,
            _ => log * 2,
        };
        let buffer = many * BUFFER + r.pick(&[0, 0, 1, 100]);
        self.exchange.fresh(log, 0)?;
        for end in &mut self.ends {
            end.fresh(0, buffer)?;
        }
        for world in &mut self.worlds {
            world.fresh(own, buffer, self.kind != Kind::Wild && self.parting)?;
            world.noise = (self.kind == Kind::Wild).then(|| r.clone());
        }
        self.begin_row(r)?;
        let until = self.counts.calls + calls as u64;
        if !r.once_in(8) {
            self.start(r)?;
        }
        while self.counts.calls < until {
            self.step(r)?;
        }
        if self.kind == Kind::Honest {
            for line in 0..LINES {
                self.catch_up(line)?;
            }
            self.end_row()?;
        }
        if self.kind != Kind::Wild && self.parting {
            let of = r.below(self.worlds.len());
            let own = self.served_by(of);
            let seat = if r.once_in(4) { r.below(SEATS) } else { self.seats[own[r.below(own.len())] - 1] };
            self.counts.left_out += self.worlds[of].alone(seat)?;
            self.counts.alone += 1;
        }
        Ok(())
    }

    /// All ends opened, and mostly logged in.
    fn start(&mut self, r: &mut Random) -> Result<(), String> {
        for _ in 0..2 {
            if self.exchange.serving.day.is_none() {
                self.open_day(r)?;
            }
            for line in 0..LINES {
                if self.open(line).is_empty() {
                    self.open_end(r, line)?;
                }
            }
        }
        self.settle(r)
    }

    /// Logins from above and at the seats, mostly, and some messages on each line.
    fn settle(&mut self, r: &mut Random) -> Result<(), String> {
        for line in 0..LINES {
            for series in self.about.clone() {
                if !r.once_in(5) {
                    self.whole_login(r, line, series)?;
                }
            }
            for _ in 0..r.below(4) {
                let series = self.series(r);
                if line == ABOVE {
                    self.publish(r)?;
                }
                self.pass(r, line, series)?;
            }
        }
        Ok(())
    }

    /// A call of a box.
    fn call(&mut self, of: usize, call: Call) -> Result<Heard, String> {
        self.counts.calls += 1;
        self.counts.of_the_box += 1;
        let before = self.worlds[of].model.relay;
        let heard = self.worlds[of].call(call.clone())?;
        self.look(of, &before, &call, &heard);
        if self.kind != Kind::Wild && self.joining {
            joined(&self.worlds[of].model.relay)?;
            let handed_on = match call {
                Call::Receive { ref packet, .. } if heard.answer == HANDED_ON => Some(packet),
                Call::Several { ref packets, .. } if heard.answer == SEVERAL_MESSAGE => Some(packets),
                _ => None,
            };
            if let Some(given) = handed_on {
                self.published_below(of, &before, given, &heard)?;
            }
        }
        Ok(heard)
    }

    // --- The steps ---

    fn series(&self, r: &mut Random) -> u16 {
        if r.once_in(20) {
            r.pick(&[0, 1, 2, 9, 65_535])
        } else {
            self.about[r.below(self.about.len())]
        }
    }

    fn step(&mut self, r: &mut Random) -> Result<(), String> {
        let line = if self.row.is_none() && r.once_in(2) { ABOVE } else { r.below(LINES) };
        let series = self.series(r);
        if self.row.is_some() && r.once_in(4) {
            return self.row_step(r, series);
        }
        match r.below(100) {
            0 => self.open_day(r),
            1 => self.open_end(r, line),
            2 if r.once_in(2) => self.connect(line),
            2..=11 => self.publish(r),
            12..=14 => self.ask(r, line, series),
            15..=19 => self.login(r, line),
            20..=24 => self.answer(r, line),
            25..=32 => self.send(r, line, series),
            33..=40 => self.send_packet(r, line, series).map(|_| ()),
            41..=52 => self.run(r, line),
            53..=58 => self.singles(r, line),
            59..=64 => self.bufferful(r, line),
            65..=70 => self.whole_login(r, line, series),
            71..=80 => self.pass(r, line, series),
            81..=85 => self.as_written(r, line, series),
            86..=89 => self.other_seat(r),
            90 => self.new_day(r),
            91..=92 => self.settle(r),
            93 => self.made_up_chain(r, line),
            94..=95 if self.kind == Kind::Wild => {
                self.alter(r);
                Ok(())
            }
            96 if self.kind == Kind::Wild => self.set_up(r),
            _ if self.kind == Kind::Wild => {
                self.alter(r);
                self.made_up(r)
            }
            94..=97 if self.kind == Kind::Damaged => self.made_up(r),
            _ => self.run(r, line),
        }
    }

    /// The exchange opens another day, and one of the box's series is answered before the others; these go on for a
    /// while.
    fn new_day(&mut self, r: &mut Random) -> Result<(), String> {
        self.open_day(r)?;
        let series = self.series(r);
        self.whole_login(r, ABOVE, series)?;
        for _ in 0..r.below(4) {
            self.run(r, ABOVE)?;
            self.answer(r, ABOVE)?;
        }
        if r.once_in(2) {
            self.settle(r)?;
        }
        Ok(())
    }

    /// A list of series: mostly right ones, in any order.
    fn some_series(&self, r: &mut Random) -> Vec<u16> {
        let mut series = self.about.clone();
        r.shuffle(&mut series);
        if r.once_in(6) {
            series.truncate(r.within(1, series.len()));
        }
        match r.below(30) {
            0 => series.clear(),
            1 => series[0] = 0,
            2 => series.push(series[0]),
            3 => series = (1..=r.within(7, 10) as u16).collect(),
            _ => {}
        }
        series
    }

    fn open_day(&mut self, r: &mut Random) -> Result<(), String> {
        let mark = match self.exchange.serving.day {
            Some(day) => day.mark.wrapping_add(r.pick(&[0, 1, 1, 1, 1, 2])),
            None if r.once_in(10) => u32::MAX - 1,
            None => r.below(3) as u32,
        };
        let series = self.some_series(r);
        let log = self.exchange.logs[0].len();
        let reserves = vec![0; series.len()];
        self.counts.calls += 1;
        if self.exchange.open_day(mark, &series, &reserves, log)?.is_ok() {
            self.histories[ABOVE].opened(mark);
            self.lines[ABOVE].unfinished.clear();
        }
        Ok(())
    }

    fn open_end(&mut self, r: &mut Random, line: usize) -> Result<(), String> {
        let series = self.some_series(r);
        let opened = if let Some(of) = self.below(line) {
            let reserves = some_reserves(r, series.len(), self.worlds[of].tried.log.len());
            self.call(of, Call::Open { series, reserves })?.refusal == 0
        } else {
            self.counts.calls += 1;
            self.end(line).open_end(&series)?.is_ok()
        };
        if opened {
            self.histories[line].disturbed();
        }
        Ok(())
    }

    fn connect(&mut self, line: usize) -> Result<(), String> {
        if let Some(of) = self.below(line) {
            self.call(of, Call::Connect)?;
        } else {
            self.counts.calls += 1;
            _ = self.end(line).connect()?;
        }
        self.histories[line].disturbed();
        Ok(())
    }

    fn publish(&mut self, r: &mut Random) -> Result<(), String> {
        let series = self.series(r);
        let log = self.exchange.logs[0].len();
        let (tid, content) = self.contents.message(r, log >= 9000);
        self.counts.calls += 1;
        if self.exchange.publish(series, tid, &content, log)?.is_ok() && self.kind == Kind::Honest {
            self.histories[ABOVE].published(series, tid, &content);
        }
        Ok(())
    }

    /// What the receiving end of a line keeps.
    fn open(&self, line: usize) -> Few<Kept> {
        match self.below(line) {
            Some(of) => self.worlds[of].model.relay.receiving.open,
            None => self.ends[line - self.worlds.len()].receiving.open,
        }
    }

    /// The day of the serving end of a line.
    fn day(&self, line: usize) -> Option<Day> {
        self.above(line).map_or(self.exchange.serving.day, |of| self.worlds[of].model.relay.below.day)
    }

    /// Mark and published of a series at the serving end of a line.
    fn served(&self, line: usize, series: u16) -> (u32, u32) {
        let day = self.day(line);
        let one = day.and_then(|day| day.open.iter().find(|one| one.series == series).copied());
        (day.map_or(1, |day| day.mark), one.map_or(0, |one| one.published))
    }

    fn ask(&mut self, r: &mut Random, line: usize, series: u16) -> Result<(), String> {
        let content: Bytes = self.contents.request(r).into();
        let tag = if kept(&self.open(line), series).mark.is_some() { 6 } else { 0 };
        let room = room(r, 4 + tag + 16 + content.len() + 12);
        self.ask_with(line, series, &content, room)
    }

    fn ask_with(&mut self, line: usize, series: u16, content: &Bytes, room: usize) -> Result<(), String> {
        let packet: Bytes = if let Some(of) = self.below(line) {
            let heard = self.call(of, Call::Ask { series, content: content.clone(), room })?;
            if heard.refusal != 0 {
                return Ok(());
            }
            self.worlds[of].written(&heard)
        } else {
            self.counts.calls += 1;
            if self.end(line).ask(series, content, room)?.is_err() {
                return Ok(());
            }
            self.end(line).written[..].into()
        };
        self.lines[line].logins.push((series, packet));
        Ok(())
    }

    /// A login packet of the line. Where they aren't honest also one of another line, of any start, or damaged.
    fn login(&mut self, r: &mut Random, line: usize) -> Result<(), String> {
        let from = if self.kind != Kind::Honest && r.once_in(8) { r.below(LINES) } else { line };
        let place = late_place(r, self.lines[from].logins.len());
        let (mut series, mut packet) = place.map_or((1, [].into()), |place| self.lines[from].logins[place].clone());
        if self.kind == Kind::Honest && packet.is_empty() {
            return Ok(());
        }
        if r.once_in(12) {
            series = self.series(r);
        }
        if self.kind != Kind::Honest {
            if r.once_in(3) {
                packet = self.made_up_login(r, line, series).into();
            }
            if r.once_in(4) {
                packet = damaged(r, &packet).into();
            }
        }
        let answers = self.lines[line].answers.len();
        self.login_with(r, line, series, &packet)?;
        // Asked for before a return, it owes nothing.
        if self.lines[line].answers.len() > answers && place.is_some_and(|place| place < self.lines[line].asked_before)
        {
            self.histories[line].let_off(series);
        }
        Ok(())
    }

    fn login_with(&mut self, r: &mut Random, line: usize, series: u16, packet: &Bytes) -> Result<(), String> {
        let content: Bytes = self.contents.answer(r).into();
        let room = room(r, 26 + content.len());
        self.login_in(line, series, packet, &content, room)
    }

    fn login_in(
        &mut self,
        line: usize,
        series: u16,
        packet: &Bytes,
        content: &Bytes,
        room: usize,
    ) -> Result<(), String> {
        let answer: Bytes = if let Some(of) = self.above(line) {
            let (seat, packet, content) = (self.seats[line - 1], packet.clone(), content.clone());
            let heard = self.call(of, Call::Login { seat, series, packet, content, room })?;
            if heard.refusal != 0 {
                return Ok(());
            }
            self.worlds[of].written(&heard)
        } else {
            self.counts.calls += 1;
            if self.exchange.login(series, packet, content, room)?.is_err() {
                return Ok(());
            }
            self.exchange.written[..].into()
        };
        self.lines[line].answers.push((series, answer.clone()));
        self.lines[line].unfinished.remove(&series);
        self.histories[line].logged_in(series, answer);
        Ok(())
    }

    /// A login, or a Send, at any seat: at those that no end is at, and at none.
    fn other_seat(&mut self, r: &mut Random) -> Result<(), String> {
        let of = r.below(self.worlds.len());
        let own = self.served_by(of);
        // Beside a row often at the seat next to the row's.
        let seat = if self.row.is_some() && r.once_in(2) { self.seats[own[0] - 1] ^ 1 } else { any_seat(r) };
        if own.iter().any(|&line| self.seats[line - 1] == seat) && self.kind == Kind::Honest {
            return Ok(());
        }
        let (series, log, room) =
            (self.series(r), self.log(r, Some(of)), r.pick(&[0, 25, 200, MOST_PACKET, MOST_OUTPUT]));
        let call = match r.below(3) {
            0 => {
                let from = r.below(LINES);
                let (series, mut packet) = late(r, &self.lines[from].logins).unwrap_or((series, [].into()));
                if r.once_in(3) {
                    packet = self.made_up_login(r, own[0], series).into();
                }
                if r.once_in(4) {
                    packet = damaged(r, &packet).into();
                }
                Call::Login { seat, series, packet, content: self.contents.answer(r).into(), room }
            }
            1 => Call::Send { seat, series, log, room },
            _ => Call::SendPacket { seat, series, log, room },
        };
        self.call(of, call).map(|_| ())
    }

    fn answer(&mut self, r: &mut Random, line: usize) -> Result<(), String> {
        let (mut series, mut packet) = late(r, &self.lines[line].answers).unwrap_or((1, [].into()));
        if self.kind == Kind::Honest && packet.is_empty() {
            return Ok(());
        }
        if self.kind != Kind::Honest {
            if r.once_in(3) {
                series = self.series(r);
                let day = self.below(line).and_then(|of| self.worlds[of].model.relay.below.day);
                let day = day.filter(|_| r.once_in(2));
                let day = day.map(|day| day.mark.wrapping_add(r.pick(&[0, 0, 1])));
                let mark = day.or(kept(&self.open(line), series).mark).unwrap_or(r.below(3) as u32);
                let of = r.pick(&[(0, 0), (0, 0), (0, 0), (0, 0), (0, 1), (1, 0)]);
                let (content, place) = (self.contents.answer(r), some_place(r));
                let marks = [None, Some(mark), Some(mark), Some(mark)];
                packet = made_packet(r, LOGIN, of, (b'S', place), marks, content).into();
            }
            if r.once_in(4) {
                packet = damaged(r, &packet).into();
            }
        }
        let log = self.log(r, self.below(line));
        self.answer_with(line, series, &packet, log)
    }

    fn answer_with(&mut self, line: usize, series: u16, packet: &Bytes, log: usize) -> Result<(), String> {
        let answer = if let Some(of) = self.below(line) {
            let before = self.worlds[of].model.relay.below.day.map(|day| day.mark);
            let heard = self.call(of, Call::Answer { series, packet: packet.clone(), log })?;
            let mark = self.worlds[of].model.relay.below.day.map(|day| day.mark);
            if let (true, Some(mark)) = (mark != before, mark) {
                for line in self.served_by(of) {
                    self.histories[line].opened(mark);
                    self.lines[line].unfinished.clear();
                }
            }
            if heard.refusal == 11 {
                self.histories[line].let_off(series);
            }
            if heard.refusal == 0 {
                Ok(heard.last)
            } else {
                Err(heard.refusal)
            }
        } else {
            self.counts.calls += 1;
            self.end(line).answer(series, packet)?
        };
        self.histories[line].delivered(&Delivery::Answer(series, packet.clone()));
        if let (Ok(last), Kind::Honest) = (answer, self.kind) {
            let Packet::Message(message) = read(packet) else { return Err("an answer that is no packet".to_string()) };
            self.counts.demand += 1;
            self.histories[line].answered(series, message.mark.unwrap_or(0), last)?;
            self.reported(line, series, last);
            self.days()?;
        }
        Ok(())
    }

    /// How much of a box's log is lent.
    fn log(&self, r: &mut Random, of: Option<usize>) -> usize {
        let Some(of) = of.map(|of| &self.worlds[of]) else { return 0 };
        let all = of.tried.log.len();
        let used = of.model.relay.below.day.map_or(0, |day| day.used).min(all);
        match r.below(30) {
            0 => r.pick(&[used.saturating_sub(1), used, used + (all - used) / 2, 0]),
            1 => (used + r.below(60)).min(all),
            _ => all,
        }
    }

    fn all_of_the_log(&self, of: Option<usize>) -> usize {
        of.map_or(0, |of| self.worlds[of].tried.log.len())
    }

    fn send(&mut self, r: &mut Random, line: usize, series: u16) -> Result<(), String> {
        let (log, mut out) = (self.log(r, self.above(line)), vec![]);
        let sent = if let Some(of) = self.above(line).map(|of| &self.worlds[of]) {
            let mut copy = of.model.relay;
            copy.send(self.seats[line - 1], series, &of.tried.log[..log], usize::MAX, &mut out)
        } else {
            let mut copy = self.exchange.serving;
            copy.send(series, &self.exchange.logs[0], usize::MAX, &mut out)
        };
        let takes = if matches!(sent, Ok(Some(_))) { out.len() } else { r.below(40) };
        let room = room(r, takes);
        self.send_with(line, series, log, room).map(|_| ())
    }

    /// A message whole. Gives where the line has it.
    fn send_with(&mut self, line: usize, series: u16, log: usize, room: usize) -> Result<Option<usize>, String> {
        let (answer, written): (Result<Option<u32>, u8>, Bytes) = if let Some(of) = self.above(line) {
            let heard = self.call(of, Call::Send { seat: self.seats[line - 1], series, log, room })?;
            let sent = (heard.answer == SEND_MESSAGE).then_some(heard.last);
            (if heard.refusal == 0 { Ok(sent) } else { Err(heard.refusal) }, self.worlds[of].written(&heard))
        } else {
            self.counts.calls += 1;
            let log = self.exchange.logs[0].len();
            (self.exchange.send(series, log, room)?, self.exchange.written[..].into())
        };
        self.none_left(line, series, answer == Ok(None))?;
        let Ok(Some(number)) = answer else { return Ok(None) };
        self.lines[line].unfinished.remove(&series);
        let sent = self.sent(line, series, number)?;
        self.lines[line].messages.push(Transmission { packets: cut_apart(&written), sent });
        Ok(Some(self.lines[line].messages.len() - 1))
    }

    fn send_packet(&mut self, r: &mut Random, line: usize, series: u16) -> Result<Option<usize>, String> {
        let (log, mut out) = (self.log(r, self.above(line)), vec![]);
        let sent = if let Some(of) = self.above(line).map(|of| &self.worlds[of]) {
            let mut copy = of.model.relay;
            copy.send_packet(self.seats[line - 1], series, &of.tried.log[..log], usize::MAX, &mut out)
        } else {
            let mut copy = self.exchange.serving;
            copy.send_packet(series, &self.exchange.logs[0], usize::MAX, &mut out)
        };
        let takes = if matches!(sent, Ok(Some(_))) { out.len() } else { r.below(40) };
        let room = room(r, takes);
        self.send_packet_with(line, series, log, room)
    }

    /// One packet. Gives where the line has its message.
    fn send_packet_with(&mut self, line: usize, series: u16, log: usize, room: usize) -> Result<Option<usize>, String> {
        let (answer, written): (Result<Option<(u32, bool)>, u8>, Bytes) = if let Some(of) = self.above(line) {
            let heard = self.call(of, Call::SendPacket { seat: self.seats[line - 1], series, log, room })?;
            let sent = (heard.answer == SEND_MESSAGE).then_some((heard.last, heard.whole != 0));
            (if heard.refusal == 0 { Ok(sent) } else { Err(heard.refusal) }, self.worlds[of].written(&heard))
        } else {
            self.counts.calls += 1;
            let log = self.exchange.logs[0].len();
            let answer = self.exchange.send_packet(series, log, room)?;
            (answer.map(|one| one.map(|one| (one.number, one.last))), self.exchange.written[..].into())
        };
        self.none_left(line, series, answer == Ok(None))?;
        let Ok(Some((number, last))) = answer else { return Ok(None) };
        let Line { messages, unfinished, .. } = &mut self.lines[line];
        let (place, _) = *unfinished.entry(series).or_insert_with(|| {
            messages.push(Transmission { packets: vec![], sent: None });
            (messages.len() - 1, [].into())
        });
        messages[place].packets.push(written);
        if last {
            self.lines[line].unfinished.remove(&series);
            self.lines[line].messages[place].sent = self.sent(line, series, number)?;
        }
        Ok(Some(place))
    }

    fn sent(&mut self, line: usize, series: u16, number: u32) -> Result<Option<Delivery>, String> {
        Ok(if self.kind == Kind::Honest { Some(self.histories[line].sent(series, number)?) } else { None })
    }

    /// Demand 3's second half, where the answer is none.
    fn none_left(&mut self, line: usize, series: u16, none: bool) -> Result<(), String> {
        if none && self.kind == Kind::Honest && self.of_line(line, self.histories[line].none_left(series))? {
            self.counts.demand += 1;
            self.counts.arrived[usize::from(line != ABOVE)] += 1;
            self.whole_row(series)?;
        }
        Ok(())
    }

    /// A failing check, with its line.
    fn of_line<T>(&self, line: usize, check: Result<T, String>) -> Result<T, String> {
        check.map_err(|text| match line {
            ABOVE => format!("on the line from above: {text}"),
            _ if self.row.is_some() => format!("on line {line} of the row: {text}"),
            _ => format!("on the line of seat {}: {text}", self.seats[line - 1]),
        })
    }

    // --- What the receiving ends are handed ---

    /// The chain buffer of the receiving end of a line.
    fn lent(&self, line: usize) -> &[u8] {
        match self.below(line) {
            Some(of) => &self.worlds[of].tried.buffer,
            None => &self.ends[line - self.worlds.len()].buffers[0],
        }
    }

    /// How much of a chain buffer is lent. Where it hasn't all its parts nothing is owed any more.
    fn buffer(&mut self, r: &mut Random, line: usize) -> usize {
        let parts = self.open(line).len() * BUFFER;
        let all = self.lent(line).len();
        let buffer = match r.below(24) {
            0 => parts.saturating_sub(1),
            1 => r.below(parts + 1),
            2..=6 => parts,
            _ => all,
        };
        // There may be more series than the buffer was made for.
        let buffer = buffer.min(all);
        if buffer < parts {
            self.histories[line].disturbed();
        }
        buffer
    }

    fn receive(&mut self, r: &mut Random, line: usize, packet: &Bytes) -> Result<(), String> {
        let (log, buffer) = (self.log(r, self.below(line)), self.buffer(r, line));
        self.receive_with(line, packet, log, buffer)
    }

    fn receive_with(&mut self, line: usize, packet: &Bytes, log: usize, buffer: usize) -> Result<(), String> {
        let heard: Heard = if let Some(of) = self.below(line) {
            self.call(of, Call::Receive { packet: packet.clone(), log, buffer })?
        } else {
            self.counts.calls += 1;
            let Ok(taken) = self.end(line).receive(packet, buffer)? else { return Ok(()) };
            let crate::ends::Received { content, last, tid, answer, origin, .. } = taken;
            Heard { content, last, tid, answer, origin, ..Heard::default() }
        };
        match heard.answer {
            IDLE => Ok(()),
            AGAIN | HELD | HANDED_ON => self.hear(line, packet, &heard, heard.answer == HANDED_ON),
            _ => {
                self.not_taken(line, packet, heard.refusal);
                Ok(())
            }
        }
    }

    /// A refusal of a box: where the log didn't take the message nothing is owed any more.
    fn not_taken(&mut self, line: usize, packet: &[u8], row: u8) {
        if let (18 | 20, Packet::Message(piece)) = (row, read(packet)) {
            self.histories[line].let_off(piece.series);
        }
    }

    /// A report, and maybe a message before it, of the last of the packets given: demand 3's first half. What the box
    /// hands on is what it publishes for all seats.
    fn hear(&mut self, line: usize, given: &[u8], heard: &Heard, handed_on: bool) -> Result<(), String> {
        if self.kind != Kind::Honest {
            return Ok(());
        }
        let taken = if heard.taken == 0 { given.len() } else { heard.taken };
        let Packet::Message(message) = read(last_packet(&given[..taken])) else {
            return Err("a packet sent that is no message".to_string());
        };
        self.counts.demand += 1;
        if handed_on {
            let bytes = if heard.origin == IN_PACKET { given } else { self.lent(line) };
            let content = heard.content.of(bytes).to_vec();
            let mark = message.mark.unwrap_or(0);
            let right = self.histories[line].handed_on(message.series, mark, heard.tid, &content);
            self.of_line(line, right)?;
            // From the exchange to the seat: a start of what was published there.
            let number = self.histories[line].handed(message.series, mark);
            if !self.histories[ABOVE].is_published(message.series, mark, number, heard.tid, &content) {
                let text = format!("message {number} of series {}, day {mark}, isn't the exchange's", message.series);
                return self.of_line(line, Err(text));
            }
            for below in self.below(line).map_or(vec![], |of| self.served_by(of)) {
                self.histories[below].published(message.series, heard.tid, &content);
            }
            self.handed_on(line, &message, heard.tid, content);
        }
        let right = self.histories[line].reported(message.series, heard.last);
        self.reported(line, message.series, heard.last);
        self.of_line(line, right)
    }

    /// A message's packets, all or the first few. Otherwise any of them, damaged or made up.
    fn run(&mut self, r: &mut Random, line: usize) -> Result<(), String> {
        if self.kind != Kind::Honest && r.once_in(3) {
            let packet = self.made_up_packet(r, line).into();
            return self.receive(r, line, &packet);
        }
        let Some(place) = late_place(r, self.lines[line].messages.len()) else { return Ok(()) };
        let packets = self.lines[line].messages[place].packets.len();
        let count = if r.once_in(5) { r.within(1, packets) } else { packets };
        for i in 0..count {
            if self.kind != Kind::Honest && r.once_in(8) {
                let packet = self.lines[line].messages[place].packets[i].clone();
                match r.below(3) {
                    // Lost, damaged, doubled.
                    0 => continue,
                    1 => {
                        let packet = damaged(r, &packet).into();
                        self.receive(r, line, &packet)?;
                        continue;
                    }
                    _ => self.receive(r, line, &packet)?,
                }
            }
            self.hand_over(r, line, place, i)?;
            // Calls of seats stand within a run from above; they are no calls of the box's receiving end.
            if self.below(line).is_some() && r.once_in(12) {
                self.other_seat(r)?;
            }
        }
        Ok(())
    }

    /// Packet i of a message, in a run with those before it.
    fn hand_over(&mut self, r: &mut Random, line: usize, place: usize, i: usize) -> Result<(), String> {
        let (log, buffer) = (self.log(r, self.below(line)), self.buffer(r, line));
        self.hand_over_with(line, place, i, log, buffer)
    }

    fn hand_over_with(&mut self, line: usize, place: usize, i: usize, log: usize, buffer: usize) -> Result<(), String> {
        let packet = self.lines[line].messages[place].packets[i].clone();
        self.receive_with(line, &packet, log, buffer)?;
        let of = &self.lines[line].messages[place];
        if let Some(sent) = of.sent.as_ref().filter(|_| i + 1 == of.packets.len()) {
            self.histories[line].delivered(sent);
        }
        Ok(())
    }

    /// Single packets, lost, repeated and late.
    fn singles(&mut self, r: &mut Random, line: usize) -> Result<(), String> {
        for packet in single_packets(r, &self.lines[line].messages, &self.open(line)) {
            self.receive(r, line, &packet)?;
            match r.below(30) {
                0 => self.other_seat(r)?,
                1 => self.publish(r)?,
                2 => {
                    let series = self.series(r);
                    self.send(r, line, series)?;
                }
                3 if r.once_in(4) => self.answer(r, line)?,
                4 if r.once_in(8) => self.connect(line)?,
                _ => {}
            }
        }
        Ok(())
    }

    /// What a line brings, in two parts that are cut at any place, each until it is through.
    fn bufferful(&mut self, r: &mut Random, line: usize) -> Result<(), String> {
        let (mut bytes, mut whole) = (vec![], vec![]);
        for _ in 0..r.within(1, 5) {
            match r.below(8) {
                0 => bytes.extend(r.pick(&[&[0, 2, 0, 0, 4, 0][..], &[1, 0, 0, 0], &[7, 0, 0, 1, 0]])),
                1 if self.kind != Kind::Honest => bytes.extend(self.made_up_packet(r, line)),
                2 | 4 if self.kind != Kind::Honest => bytes.extend(self.made_up_piece(r, line)),
                3 => bytes.extend(single_packets(r, &self.lines[line].messages, &self.open(line)).concat()),
                _ => {
                    let Some(one) = late(r, &self.lines[line].messages) else { continue };
                    let count = if r.once_in(5) { r.below(one.packets.len() + 1) } else { one.packets.len() };
                    for packet in &one.packets[..count] {
                        if self.kind != Kind::Honest && r.once_in(12) {
                            bytes.extend(damaged(r, packet));
                        } else {
                            bytes.extend(&packet[..]);
                        }
                    }
                    whole.extend(one.sent.filter(|_| count == one.packets.len()));
                }
            }
        }
        let (cut, log) = (r.below(bytes.len() + 1), self.log(r, self.below(line)));
        let buffer = self.buffer(r, line);
        self.receive_cut(line, &bytes, cut, log, buffer)?;
        for one in whole {
            self.histories[line].delivered(&one);
        }
        Ok(())
    }

    fn receive_cut(&mut self, line: usize, bytes: &[u8], cut: usize, log: usize, buffer: usize) -> Result<(), String> {
        let mut taken = 0;
        for to in [cut, bytes.len()] {
            loop {
                let given: Bytes = bytes[taken..to].into();
                let heard: Heard = if let Some(of) = self.below(line) {
                    self.call(of, Call::Several { packets: given.clone(), log, buffer })?
                } else {
                    self.counts.calls += 1;
                    let answer = self.end(line).receive_several(&given, buffer)?;
                    let crate::ends::ReceivedSeveral { content, taken, last, tid, answer, origin, .. } = answer;
                    Heard { content, taken, last, tid, answer, origin, ..Heard::default() }
                };
                match heard.answer {
                    SEVERAL_MESSAGE => self.hear(line, &given, &heard, true)?,
                    SEVERAL_REFUSED if self.below(line).is_some() => {
                        self.not_taken(line, last_packet(&given[..heard.taken]), heard.refusal)
                    }
                    _ => {}
                }
                taken += heard.taken;
                if heard.answer == SEVERAL_END || heard.answer == SEVERAL_SHORT {
                    break;
                }
                if heard.taken == 0 {
                    return Err("a message or a refusal, and nothing is taken".to_string());
                }
            }
        }
        Ok(())
    }

    /// A login without a fault of the line.
    fn whole_login(&mut self, r: &mut Random, line: usize, series: u16) -> Result<(), String> {
        let before = (self.lines[line].logins.len(), self.lines[line].answers.len());
        self.ask(r, line, series)?;
        if self.lines[line].logins.len() > before.0 {
            let packet = self.lines[line].logins[before.0].1.clone();
            self.login_with(r, line, series, &packet)?;
        }
        if self.lines[line].answers.len() > before.1 {
            let (packet, log) = (self.lines[line].answers[before.1].1.clone(), self.log(r, self.below(line)));
            self.answer_with(line, series, &packet, log)?;
        }
        Ok(())
    }

    /// Some messages, each sent whole and handed over at once.
    fn pass(&mut self, r: &mut Random, line: usize, series: u16) -> Result<(), String> {
        for _ in 0..r.within(1, 4) {
            let log = self.log(r, self.above(line));
            let Some(place) = self.send_with(line, series, log, MOST_OUTPUT)? else { return Ok(()) };
            for i in 0..self.lines[line].messages[place].packets.len() {
                self.hand_over(r, line, place, i)?;
            }
        }
        Ok(())
    }

    /// A message packet by packet, each handed over as soon as it is written, with other calls between, but none of
    /// this line's receiving end.
    fn as_written(&mut self, r: &mut Random, line: usize, series: u16) -> Result<(), String> {
        if self.lines[line].unfinished.contains_key(&series) {
            return Ok(());
        }
        let mut first = None;
        for i in 0.. {
            let Some(place) = self.send_packet(r, line, series)? else { return Ok(()) };
            // Another message than the one that was begun: something ended that.
            if *first.get_or_insert(place) != place || self.lines[line].messages[place].packets.len() != i + 1 {
                return Ok(());
            }
            self.hand_over(r, line, place, i)?;
            if !self.lines[line].unfinished.contains_key(&series) {
                return Ok(());
            }
            let other = 1 + (line + r.below(ENDS)) % ENDS;
            let any = self.series(r);
            match r.below(12) {
                0 => self.publish(r)?,
                1 => self.other_seat(r)?,
                2 if other != line => self.send(r, other, any)?,
                3 if other != line => self.login(r, other)?,
                4 if line != ABOVE => self.pass(r, ABOVE, any)?,
                5 if r.once_in(3) => self.login(r, line)?,
                6 if r.once_in(3) => self.send(r, line, series)?,
                _ => {}
            }
        }
        Ok(())
    }

    /// All that is left of the day arrives, with large buffers; then as much is reported as was published, unless the
    /// log of the box hasn't taken something.
    fn catch_up(&mut self, line: usize) -> Result<(), String> {
        if self.lent(line).len() < self.open(line).len() * BUFFER {
            return Ok(());
        }
        self.connect(line)?;
        let log = self.all_of_the_log(self.below(line));
        let open: Vec<u16> = self.day(line).map_or(vec![], |day| day.open.iter().map(|one| one.series).collect());
        let (request, content): (Bytes, Bytes) = (self.contents.request[..].into(), self.contents.answer[..].into());
        for series in open {
            if !self.open(line).iter().any(|kept| kept.series == series) {
                continue;
            }
            let before = (self.lines[line].logins.len(), self.lines[line].answers.len());
            self.ask_with(line, series, &request, 5000)?;
            let Some((_, packet)) = self.lines[line].logins.get(before.0).cloned() else {
                return self.of_line(line, Err("a right Ask is refused".to_string()));
            };
            self.login_in(line, series, &packet, &content, 5000)?;
            let Some((_, packet)) = self.lines[line].answers.get(before.1).cloned() else {
                return self.of_line(line, Err("a right Login is refused".to_string()));
            };
            self.answer_with(line, series, &packet, log)?;
            let arrived = self.counts.arrived;
            for turn in usize::from(series).. {
                if !self.arrives(line, series, turn % 3)? {
                    break;
                }
            }
            if self.counts.arrived == arrived && self.histories[line].owes(series) {
                let text = format!("demand 3: all was delivered of series {series}, and doesn't count");
                return self.of_line(line, Err(text));
            }
        }
        Ok(())
    }

    /// The next message is sent and arrives: whole as a run, whole as a bufferful, packet by packet. Gives whether
    /// there was one.
    fn arrives(&mut self, line: usize, series: u16, how: usize) -> Result<bool, String> {
        let (own, log) = (self.all_of_the_log(self.above(line)), self.all_of_the_log(self.below(line)));
        let all = self.lent(line).len();
        if how == 2 {
            for i in 0.. {
                let Some(place) = self.send_packet_with(line, series, own, MOST_PACKET)? else { return Ok(false) };
                self.hand_over_with(line, place, i, log, all)?;
                if !self.lines[line].unfinished.contains_key(&series) {
                    return Ok(true);
                }
            }
        }
        let Some(place) = self.send_with(line, series, own, MOST_OUTPUT)? else { return Ok(false) };
        let Transmission { packets, sent } = self.lines[line].messages[place].clone();
        if how == 1 {
            let bytes = packets.concat();
            self.receive_cut(line, &bytes, bytes.len() / 2, log, all)?;
            self.histories[line].delivered(&sent.expect("an honest list"));
            return Ok(true);
        }
        for i in 0..packets.len() {
            self.hand_over_with(line, place, i, log, all)?;
        }
        Ok(true)
    }
}
