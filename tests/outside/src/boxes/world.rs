//! The box on both sides: each call is made on the side that is tried and on the model, and every answer, every number
//! of state and places, and every byte that was lent are compared. The calls can be made once more, without those of
//! other seats.

use super::{boxed, place_at, places, received, received_several, relay, sent, sent_packet, three};
use super::{Boxed, Places, Received, ReceivedSeveral, Sent, SentPacket, Side, PLACES};
use crate::compare::Asked;
use crate::ends::SEND_MESSAGE;
use crate::world::{flag, noisy_receiver, same_bytes, PATTERN};
use crate::{Span, Written};
use reader::generate::Random;
use reader::relay::Relay;
use std::rc::Rc;

type Bytes = Rc<[u8]>;

/// A call with all that it is given. Log and chain buffer are lent by their first bytes, so many; an output has `room`.
#[derive(Clone, Debug)]
pub enum Call {
    Open { series: Vec<u16>, reserves: Vec<usize> },
    Connect,
    Ask { series: u16, content: Bytes, room: usize },
    Answer { series: u16, packet: Bytes, log: usize },
    Receive { packet: Bytes, log: usize, buffer: usize },
    Several { packets: Bytes, log: usize, buffer: usize },
    Login { seat: usize, series: u16, packet: Bytes, content: Bytes, room: usize },
    Send { seat: usize, series: u16, log: usize, room: usize },
    SendPacket { seat: usize, series: u16, log: usize, room: usize },
}

impl Call {
    pub fn name(&self) -> &'static str {
        match self {
            Call::Open { .. } => "Opening",
            Call::Connect => "Connect",
            Call::Ask { .. } => "Ask",
            Call::Answer { .. } => "Answer",
            Call::Receive { .. } => "Receive",
            Call::Several { .. } => "Receive several",
            Call::Login { .. } => "Login",
            Call::Send { .. } => "Send",
            Call::SendPacket { .. } => "Send packet",
        }
    }

    /// The seat, and the series, of a call from below.
    pub fn seat(&self) -> Option<(usize, u16)> {
        match *self {
            Call::Login { seat, series, .. }
            | Call::Send { seat, series, .. }
            | Call::SendPacket { seat, series, .. } => Some((seat, series)),
            _ => None,
        }
    }

    fn room(&self) -> usize {
        match *self {
            Call::Ask { room, .. }
            | Call::Login { room, .. }
            | Call::Send { room, .. }
            | Call::SendPacket { room, .. } => room,
            _ => 0,
        }
    }
}

/// What a call answers, besides the state. What it doesn't have is 0.
#[derive(Clone, Copy, Debug, Default, PartialEq, Eq)]
pub struct Heard {
    pub content: Span,
    pub bytes: usize,
    pub taken: usize,
    pub missing: usize,
    /// Last, or the number of what was sent.
    pub last: u32,
    pub tid: u32,
    pub answer: u8,
    pub origin: u8,
    pub refusal: u8,
    /// It is the message's last packet.
    pub whole: u8,
}

impl From<Written> for Heard {
    fn from(Written { bytes, refusal }: Written) -> Self {
        Heard { bytes, refusal, ..Heard::default() }
    }
}

impl From<Received> for Heard {
    fn from(Received { content, last, tid, answer, origin, refusal, .. }: Received) -> Self {
        Heard { content, last, tid, answer, origin, refusal, ..Heard::default() }
    }
}

impl From<ReceivedSeveral> for Heard {
    fn from(of: ReceivedSeveral) -> Self {
        let ReceivedSeveral { content, taken, missing, last, tid, answer, origin, refusal, .. } = of;
        Heard { content, taken, missing, last, tid, answer, origin, refusal, ..Heard::default() }
    }
}

impl From<Sent> for Heard {
    fn from(Sent { bytes, number, answer, refusal }: Sent) -> Self {
        Heard { bytes, last: number, answer, refusal, ..Heard::default() }
    }
}

impl From<SentPacket> for Heard {
    fn from(SentPacket { bytes, number, answer, refusal, last }: SentPacket) -> Self {
        Heard { bytes, last: number, answer, refusal, whole: last, ..Heard::default() }
    }
}

/// A box of the side that is tried, with all that is lent to it.
#[derive(Clone)]
pub struct Tried {
    pub state: Boxed,
    pub places: Places,
    pub log: Vec<u8>,
    pub buffer: Vec<u8>,
    pub output: Vec<u8>,
}

impl Tried {
    fn fresh(side: &dyn Side, log: usize, buffer: usize) -> Self {
        Tried { state: side.fresh(), places: [0; PLACES], log: vec![0; log], buffer: vec![0; buffer], output: vec![] }
    }

    /// The call, with this state lent.
    fn call(&mut self, side: &dyn Side, state: Boxed, call: &Call) -> Heard {
        self.output.clear();
        self.output.resize(call.room(), PATTERN);
        let (log, buffer, out) = (&mut self.log, &mut self.buffer, &mut self.output);
        match *call {
            Call::Open { ref series, ref reserves } => {
                let answer = side.open(state, series, reserves);
                self.state = answer.state;
                Heard { refusal: answer.refusal, ..Heard::default() }
            }
            Call::Connect => {
                self.state = side.connect(state);
                Heard::default()
            }
            Call::Ask { series, ref content, .. } => side.request_login(state, series, content, out).into(),
            Call::Answer { series, ref packet, log: lent } => {
                let answer = side.confirm_login(state, series, packet, &log[..lent], &mut self.places);
                self.state = answer.state;
                Heard { last: answer.last, refusal: answer.refusal, ..Heard::default() }
            }
            Call::Receive { ref packet, log: lent, buffer: parts } => {
                let answer = side.receive(state, packet, &mut log[..lent], &mut buffer[..parts]);
                self.state = answer.state;
                answer.into()
            }
            Call::Several { ref packets, log: lent, buffer: parts } => {
                let answer = side.receive_several(state, packets, &mut log[..lent], &mut buffer[..parts]);
                self.state = answer.state;
                answer.into()
            }
            Call::Login { seat, series, ref packet, ref content, .. } => {
                side.login(state, seat, series, packet, content, &mut self.places, out).into()
            }
            Call::Send { seat, series, log: lent, .. } => {
                side.send(state, seat, series, &mut self.places, &log[..lent], out).into()
            }
            Call::SendPacket { seat, series, log: lent, .. } => {
                side.send_packet(state, seat, series, &mut self.places, &log[..lent], out).into()
            }
        }
    }
}

/// The model, with all that is lent to it.
#[derive(Default)]
pub struct Model {
    pub relay: Relay,
    pub log: Vec<u8>,
    pub buffer: Vec<u8>,
    written: Vec<u8>,
}

impl Model {
    fn call(&mut self, call: &Call) -> Heard {
        let Model { relay, log, buffer, written: out } = self;
        out.clear();
        let written = |answer: Result<(), u8>, out: &[u8]| Written {
            bytes: if answer.is_ok() { out.len() } else { 0 },
            refusal: answer.err().unwrap_or(0),
        };
        match *call {
            Call::Open { ref series, ref reserves } => {
                Heard { refusal: relay.open(series, reserves).err().unwrap_or(0), ..Heard::default() }
            }
            Call::Connect => {
                relay.connect();
                Heard::default()
            }
            Call::Ask { series, ref content, room } => written(relay.ask(series, content, room, out), out).into(),
            Call::Answer { series, ref packet, log: lent } => {
                let answer = relay.answer(series, packet, lent);
                Heard { last: answer.unwrap_or(0), refusal: answer.err().unwrap_or(0), ..Heard::default() }
            }
            Call::Receive { ref packet, log: lent, buffer: parts } => {
                let from = buffer.as_ptr();
                let answer = relay.receive(packet, &mut log[..lent], &mut buffer[..parts]);
                received(Boxed::default(), answer, packet.as_ptr(), from).into()
            }
            Call::Several { ref packets, log: lent, buffer: parts } => {
                let answer = relay.receive_several(packets, &mut log[..lent], &mut buffer[..parts]);
                received_several(Boxed::default(), answer).into()
            }
            Call::Login { seat, series, ref packet, ref content, room } => {
                written(relay.login(seat, series, packet, content, room, out), out).into()
            }
            Call::Send { seat, series, log: lent, room } => {
                let answer = relay.send(seat, series, &log[..lent], room, out);
                sent(answer, out.len()).into()
            }
            Call::SendPacket { seat, series, log: lent, room } => {
                let answer = relay.send_packet(seat, series, &log[..lent], room, out);
                sent_packet(answer, out.len()).into()
            }
        }
    }
}

/// The same box with any numbers where they don't count.
pub(crate) fn noisy_box(r: &mut Random, mut state: Boxed) -> Boxed {
    state.receiver = noisy_receiver(r, state.receiver);
    for one in state.reserves.iter_mut().skip(state.receiver.count) {
        *one = r.next() as usize;
    }
    let day = &mut state.day;
    if !flag(r, &mut day.dated) {
        day.date = r.next() as u32;
    }
    for one in day.series.iter_mut().skip(day.count) {
        (one.reserve, one.used) = (r.next() as usize, r.next() as usize);
        (one.published, one.series) = (r.next() as u32, r.pick(&[0, 1, 2, 3]));
    }
    state
}

/// A call that was made, what was heard and what was written.
struct Made {
    call: Call,
    heard: Heard,
    written: Bytes,
}

pub struct BoxWorld {
    pub side: Box<dyn Side>,
    pub asked: Asked,
    pub tried: Tried,
    pub model: Model,
    /// Not set: the model follows the side that is tried, and nothing is compared.
    pub comparing: bool,
    /// Where it is set, what a state doesn't have is lent as any numbers, and a flag as any but 0.
    pub noise: Option<Random>,
    /// The calls so far, where they are kept.
    made: Option<Vec<Made>>,
}

impl BoxWorld {
    pub fn new(side: Box<dyn Side>) -> Self {
        let tried = Tried::fresh(&*side, 0, 0);
        let (asked, model) = (Asked::default(), Model::default());
        BoxWorld { side, asked, tried, model, comparing: true, noise: None, made: None }
    }

    /// A fresh box, a log and a chain buffer.
    pub fn fresh(&mut self, log: usize, buffer: usize, keeping: bool) -> Result<(), String> {
        self.tried = Tried::fresh(&*self.side, log, buffer);
        self.model.relay = Relay::default();
        for (bytes, length) in [(&mut self.model.log, log), (&mut self.model.buffer, buffer)] {
            bytes.clear();
            bytes.resize(length, 0);
        }
        self.made = keeping.then(Vec::new);
        self.asked.same("a fresh box", self.tried.state, boxed(&self.model.relay))
    }

    /// What is tried is set to the model's state.
    pub fn level(&mut self) {
        self.tried.state = boxed(&self.model.relay);
        self.tried.places = places(&self.model.relay);
    }

    /// The state as it is lent, and the places set so: any numbers where they don't count.
    fn noisy(&mut self) -> Boxed {
        let Some(r) = &mut self.noise else { return self.tried.state };
        let state = noisy_box(r, self.tried.state);
        for three in self.tried.places.chunks_mut(3) {
            if !r.once_in(8) {
                continue;
            }
            if three[0] == 0 {
                (three[1], three[2]) = (r.next(), r.next());
            } else {
                three[0] = r.pick(&[1, 2, 256, 1 << 32, 1 << 63, u64::MAX]);
            }
        }
        state
    }

    /// What the last call wrote.
    pub fn written(&self, heard: &Heard) -> Bytes {
        self.tried.output[..heard.bytes].into()
    }

    /// The call on both sides. Gives what was heard, or the first difference.
    pub fn call(&mut self, call: Call) -> Result<Heard, String> {
        let state = self.noisy();
        let before = self.tried.places;
        let heard = self.tried.call(&*self.side, state, &call);
        if heard.bytes > self.tried.output.len() {
            return Err(format!("{}: {} bytes written in an output of {}", call.name(), heard.bytes, call.room()));
        }
        if self.comparing {
            self.compare(&call, &heard, &before)?;
        } else {
            self.model.relay = relay(&self.tried.state, &self.tried.places);
        }
        let written = self.written(&heard);
        if let Some(made) = &mut self.made {
            made.push(Made { call, heard, written });
        }
        Ok(heard)
    }

    fn compare(&mut self, call: &Call, heard: &Heard, before: &Places) -> Result<(), String> {
        let name = call.name();
        let day = |of: &Relay| of.below.day.map(|day| day.mark);
        let mark = day(&self.model.relay);
        let right = self.model.call(call);
        let (asked, relay) = (&mut self.asked, &self.model.relay);
        asked.same(name, *heard, right)?;
        if self.noise.is_some() {
            self.tried.state = self.tried.state.meant();
        }
        asked.same(&format!("{name}, the box behind it"), self.tried.state, boxed(relay))?;
        // The numbers of the places: the one that a call sets, or all by an opening; the others stay, bit for bit.
        let mut now = *before;
        let opened = matches!(call, Call::Answer { .. }) && right.refusal == 0 && day(relay) != mark;
        let sets = match call {
            Call::Login { .. } => right.refusal == 0,
            _ => right.answer == SEND_MESSAGE,
        };
        if opened {
            now = [0; PLACES];
        } else if let (Some((seat, series)), true) = (call.seat(), sets) {
            let place = relay.below.day.and_then(|day| day.open.iter().position(|one| one.series == series));
            let place = place.expect("a series that is open");
            now[place_at(seat, place)..][..3].copy_from_slice(&three(relay.seats[seat][place]));
        }
        asked.0 += 1;
        if let Some(at) = (0..PLACES).find(|&at| now[at] != self.tried.places[at]) {
            let (given, seat) = (self.tried.places[at], at / 24);
            return Err(format!(
                "{name}: place {} of seat {seat}, number {}\n  library: {given}\n  reader:  {}",
                at % 24 / 3,
                at % 3,
                now[at]
            ));
        }
        if !matches!(call, Call::Open { .. } | Call::Connect | Call::Ask { .. } | Call::Login { .. }) {
            same_bytes(asked, "log", &self.tried.log, &self.model.log)?;
        }
        if matches!(call, Call::Receive { .. } | Call::Several { .. }) {
            same_bytes(asked, "chain buffer", &self.tried.buffer, &self.model.buffer)?;
        }
        let bytes = right.bytes;
        same_bytes(asked, "output", &self.tried.output[..bytes], &self.model.written[..bytes])?;
        match self.tried.output[bytes..].iter().position(|&byte| byte != PATTERN) {
            None => Ok(()),
            Some(at) => Err(format!("output, byte {} behind what is written is changed", bytes + at)),
        }
    }

    /// The calls once more from a fresh box, without those of all seats but one: the same answers and bytes, and at
    /// last the same box, log, chain buffer and places of that seat. Gives how many calls were left out.
    pub fn alone(&self, seat: usize) -> Result<u64, String> {
        let Some(made) = &self.made else { return Ok(0) };
        let mut one = Tried::fresh(&*self.side, self.tried.log.len(), self.tried.buffer.len());
        let mut left_out = 0;
        for (i, Made { call, heard, written }) in made.iter().enumerate() {
            if call.seat().is_some_and(|(of, _)| of != seat) {
                left_out += 1;
                continue;
            }
            let state = one.state;
            let again = one.call(&*self.side, state, call);
            if again != *heard || one.output.get(..again.bytes) != Some(&written[..]) {
                return Err(format!(
                    "seat {seat} alone, call {i}, {}: another answer or other bytes\n  with others: {heard:?}\n  \
                     alone: {again:?}",
                    call.name()
                ));
            }
        }
        let own = place_at(seat, 0)..place_at(seat + 1, 0);
        let same = one.state == self.tried.state
            && one.log == self.tried.log
            && one.buffer == self.tried.buffer
            && one.places[own.clone()] == self.tried.places[own];
        if same {
            return Ok(left_out);
        }
        Err(format!("seat {seat} alone: another box, log, chain buffer or place at last"))
    }
}
