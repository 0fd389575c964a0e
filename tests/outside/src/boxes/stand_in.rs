//! The model in the library's place: each call is made on the model of the numbers that are lent. With a fault it is
//! one of the wrong boxes, for the tests of the tests.

use super::{boxed, places, received, received_several, relay, sent, sent_packet, three};
use super::{Boxed, Confirmed, Opened, Places, Received, ReceivedSeveral, Sent, SentPacket, Side};
use crate::Written;
use reader::few::{Few, MOST_SERIES};
use reader::packet::{read, MessagePacket, Packet, MOST_MESSAGE};
use reader::receiving::{self, Content};
use reader::relay::{Relay, Seat, SEATS};
use reader::several::{Answer, Stop};

/// A wrong box.
#[derive(Clone, Copy, Debug, PartialEq, Eq)]
pub enum Fault {
    /// Publishes an older series' message in the new day.
    LateTaken,
    /// Older series are refused 15 only where a message would be taken.
    LateMessagesAlone,
    /// Takes a message whose publication is refused.
    RefusedTaken,
    /// Opens wherever a series starts its day, also with an equal mark.
    OpensAgain,
    /// Opens with the answered series alone.
    OpensAnswered,
    /// Opens the first day only.
    FirstDayOnly,
    /// Publishes under another TID.
    OtherTid,
    /// Publishes the last piece alone.
    LastPieceAlone,
    /// One position for all seats.
    OneSeat,
    /// A login takes the other seats out.
    TakesOut,
    /// Seats 14 and 15 in one place.
    SharedPlace,
    /// Asks with the open day's mark and the old number.
    AskOpenDay,
    /// Takes an Answer below the day.
    LowAnswer,
    /// A refused publication keeps the chain.
    ChainStays,
    /// A refused publication logs the series out.
    LogsOut,
    /// A refused publication leaves L's bytes in the chain buffer.
    BytesStay,
    /// An opening keeps seats logged in, at 1.
    SeatsStay,
    /// An opening logs the other series out above.
    OthersOut,
    /// Publish's checks before Receive's 16 and 17.
    PublishFirst,
    /// 11 before 15 and 16 in Answer.
    OpeningFirst,
    /// Reserves aren't looked at in the opening.
    ReservesAside,
    /// 12 before 25.
    SeatBehindPacket,
    /// A refused publication of a bufferful isn't taken.
    RefusedNotTaken,
    /// A login keeps the packets written of the message before.
    PieceStays,
    /// A Send sets the numbers of a place that isn't its own, too.
    WritesBeside,
}

pub const FAULTS: [Fault; 25] = [
    Fault::LateTaken,
    Fault::LateMessagesAlone,
    Fault::RefusedTaken,
    Fault::OpensAgain,
    Fault::OpensAnswered,
    Fault::FirstDayOnly,
    Fault::OtherTid,
    Fault::LastPieceAlone,
    Fault::OneSeat,
    Fault::TakesOut,
    Fault::SharedPlace,
    Fault::AskOpenDay,
    Fault::LowAnswer,
    Fault::ChainStays,
    Fault::LogsOut,
    Fault::BytesStay,
    Fault::SeatsStay,
    Fault::OthersOut,
    Fault::PublishFirst,
    Fault::OpeningFirst,
    Fault::ReservesAside,
    Fault::SeatBehindPacket,
    Fault::RefusedNotTaken,
    Fault::PieceStays,
    Fault::WritesBeside,
];

impl Fault {
    /// Is it shut out by what has to hold of the lines and of the seats, without a comparison of each answer?
    pub fn by_statements(self) -> bool {
        use Fault::*;
        matches!(
            self,
            LateTaken
                | RefusedTaken
                | OpensAgain
                | OpensAnswered
                | FirstDayOnly
                | OtherTid
                | LastPieceAlone
                | OneSeat
                | TakesOut
                | SharedPlace
                | AskOpenDay
        )
    }

    /// And does a row of three such boxes tell it, by what its lines and its last end hear alone?
    pub fn in_a_row(self) -> bool {
        self.by_statements() && self != Fault::TakesOut
    }
}

/// The model, right or with a fault.
#[derive(Default)]
pub struct StandIn {
    pub fault: Option<Fault>,
}

fn message(packet: &[u8]) -> Option<MessagePacket<'_>> {
    match read(packet) {
        Packet::Message(piece) => Some(piece),
        _ => None,
    }
}

const NOBODY: Places = [0; super::PLACES];

impl StandIn {
    fn is(&self, fault: Fault) -> bool {
        self.fault == Some(fault)
    }

    fn answer(&self, of: &mut Relay, series: u16, packet: &[u8], log: usize) -> Result<u32, u8> {
        let before = *of;
        let mark = message(packet).and_then(|packet| packet.mark);
        let opens = |day: Option<u32>| mark.is_some_and(|mark| day.is_none_or(|day| mark > day));
        let opening = opens(before.below.day.map(|day| day.mark));
        let place = of.receiving.open.iter().position(|one| one.series == series);
        match self.fault {
            Some(Fault::LowAnswer) => {
                // The day is looked at as if it were the answer's.
                if let (Some(day), Some(mark)) = (&mut of.below.day, mark) {
                    day.mark = day.mark.min(mark);
                }
                let answer = of.answer(series, packet, log);
                if let (false, Some(day), Some(was)) = (opening, &mut of.below.day, before.below.day) {
                    day.mark = was.mark;
                }
                return answer;
            }
            Some(Fault::OpensAgain) => {
                let starts = place.is_some_and(|place| of.receiving.open[place].mark != mark);
                if let (true, Some(day)) = (starts && of.below.day.map(|day| day.mark) == mark, &mut of.below.day) {
                    day.mark = day.mark.saturating_sub(1);
                }
                let answer = of.answer(series, packet, log);
                if answer.is_err() {
                    *of = before;
                }
                return answer;
            }
            Some(Fault::OpeningFirst) if opening => {
                let together: u128 = of.reserves[..of.receiving.open.len()].iter().map(|&one| one as u128).sum();
                if place.is_some() && together > log as u128 && matches!(of.answer(series, packet, 0), Err(15 | 16)) {
                    return Err(11);
                }
                *of = before;
            }
            _ => {}
        }
        let log = if self.is(Fault::ReservesAside) { usize::MAX } else { log };
        let answer = of.answer(series, packet, log)?;
        if !opening {
            return Ok(answer);
        }
        match self.fault {
            Some(Fault::OpensAnswered) => {
                let day = of.below.day.as_mut().expect("just opened");
                day.open = Few::of(day.open.iter().filter(|one| one.series == series).copied()).expect("at most eight");
            }
            Some(Fault::FirstDayOnly) if before.below.day.is_some() => {
                (of.below, of.seats) = (before.below, before.seats)
            }
            Some(Fault::SeatsStay) => {
                let at_1 = |seat: &Seat| seat.map(|one| one.map(|_| reader::relay::Place { next: 1, piece: 0 }));
                of.seats = before.seats.map(|seat| at_1(&seat));
            }
            Some(Fault::OthersOut) => {
                for one in of.receiving.open.iter_mut().filter(|one| one.series != series) {
                    one.logged_in = false;
                }
            }
            _ => {}
        }
        Ok(answer)
    }

    fn receive<'a>(
        &self,
        of: &mut Relay,
        packet: &'a [u8],
        log: &mut [u8],
        buffer: &'a mut [u8],
    ) -> Result<receiving::Received<'a>, u8> {
        let before = *of;
        let Some(piece) = message(packet) else { return of.receive(packet, log, buffer) };
        let Some(place) = of.receiving.open.iter().position(|one| one.series == piece.series) else {
            return of.receive(packet, log, buffer);
        };
        let kept = before.receiving.open[place];
        let late = kept.mark.zip(before.below.day).is_some_and(|(mark, day)| mark < day.mark);
        let next = u64::from(piece.number) == u64::from(kept.last) + 1;
        match self.fault {
            Some(Fault::LateTaken) if late => return self.of_another_day(of, packet, log, buffer),
            Some(Fault::LateMessagesAlone) if late && (piece.chain == b'F' || !next) => {
                return self.of_another_day(of, packet, log, buffer);
            }
            Some(Fault::PublishFirst) if kept.logged_in && !late && piece.chain == b'S' && !next => {
                let mut copy = *of;
                copy.receiving.open[place].last = piece.number.wrapping_sub(1);
                if let Err(row @ (8 | 9 | 10 | 20)) = copy.receive(packet, &mut log.to_vec(), &mut buffer.to_vec()) {
                    of.receiving.open[place].chain = None;
                    return Err(row);
                }
            }
            Some(Fault::OtherTid | Fault::LastPieceAlone) => {
                let used = of.below.day.map_or(0, |day| day.used);
                let answer = of.receive(packet, log, buffer);
                if let Ok(receiving::Received::Message { content, .. }) = answer {
                    if self.is(Fault::OtherTid) {
                        log[used + 7] ^= 1;
                    } else if let Content::OfBuffer(bytes) = content {
                        // The same length in all: the last piece, and then nothing that is right.
                        let start = used + 16 + bytes.len() - piece.content.len();
                        log.copy_within(start..start + piece.content.len(), used + 16);
                    }
                }
                return answer;
            }
            _ => {}
        }
        if !matches!(self.fault, Some(Fault::RefusedTaken | Fault::ChainStays | Fault::LogsOut | Fault::BytesStay)) {
            return of.receive(packet, log, buffer);
        }
        // Whether the refusal is of the publication: the receiving end alone would hand the message on.
        let (mut end, mut copy) = (before.receiving, before);
        let alone =
            !late && matches!(end.receive(packet, &mut buffer.to_vec()), Ok(receiving::Received::Message { .. }));
        let row = match copy.receive(packet, &mut log.to_vec(), &mut buffer.to_vec()) {
            Err(row) if alone => row,
            _ => return of.receive(packet, log, buffer),
        };
        let one = &mut of.receiving.open[place];
        one.chain = None;
        match self.fault {
            Some(Fault::RefusedTaken) => {
                *of = before;
                return of.receiving.receive(packet, buffer);
            }
            Some(Fault::ChainStays) => one.chain = kept.chain,
            Some(Fault::LogsOut) => one.logged_in = false,
            Some(Fault::BytesStay) if piece.chain == b'L' => {
                let held = kept.chain.map_or(0, |chain| chain.held);
                buffer[place * MOST_MESSAGE + held..][..piece.content.len()].copy_from_slice(piece.content);
            }
            _ => {}
        }
        Err(row)
    }

    /// Receive as if the day were as old as any series.
    fn of_another_day<'a>(
        &self,
        of: &mut Relay,
        packet: &'a [u8],
        log: &mut [u8],
        buffer: &'a mut [u8],
    ) -> Result<receiving::Received<'a>, u8> {
        let mark = of.below.day.map(|day| day.mark);
        if let Some(day) = &mut of.below.day {
            day.mark = 0;
        }
        let answer = of.receive(packet, log, buffer);
        if let (Some(day), Some(mark)) = (&mut of.below.day, mark) {
            day.mark = mark;
        }
        answer
    }

    fn receive_several(&self, of: &mut Relay, bytes: &[u8], log: &mut [u8], buffer: &mut [u8]) -> Answer {
        if self.fault.is_none() {
            return of.receive_several(bytes, log, buffer);
        }
        let (mut taken, buffer_at) = (0, buffer.as_ptr() as usize);
        loop {
            // One packet by the model's own rule, to find its length; then as this box receives it.
            let rest = &bytes[taken..];
            let length = match reader::packet::said_length(rest) {
                _ if rest.is_empty() => return Answer { stop: Stop::End, taken },
                None => return Answer { stop: Stop::Short(4 - rest.len()), taken },
                Some(length) if length > rest.len() => return Answer { stop: Stop::Short(length - rest.len()), taken },
                Some(length) => length,
            };
            match self.receive(of, &rest[..length], log, buffer) {
                Ok(receiving::Received::Message { last, tid, content }) => {
                    let (in_buffer, from) = match content {
                        Content::OfPacket(_) => (false, bytes.as_ptr() as usize),
                        Content::OfBuffer(_) => (true, buffer_at),
                    };
                    let (start, len) = (content.bytes().as_ptr() as usize - from, content.bytes().len());
                    let stop = Stop::Message { last, tid, buffer: in_buffer, start, len };
                    return Answer { stop, taken: taken + length };
                }
                Ok(_) => taken += length,
                Err(row @ (8 | 9 | 10 | 20)) if self.is(Fault::RefusedNotTaken) => {
                    return Answer { stop: Stop::Refused(row), taken };
                }
                Err(row) => return Answer { stop: Stop::Refused(row), taken: taken + length },
            }
        }
    }

    /// The seat that a call is about, by this box.
    fn seat(&self, seat: usize) -> usize {
        match self.fault {
            Some(Fault::OneSeat) if seat < SEATS => 0,
            Some(Fault::SharedPlace) if seat == 15 => 14,
            _ => seat,
        }
    }

    /// The numbers of the places that changed, and those of a place that was set.
    fn put(&self, before: &Relay, after: &Relay, set: Option<(usize, u16)>, at: &mut Places) {
        let set = set.and_then(|(seat, series)| {
            let day = after.below.day?;
            Some((seat, day.open.iter().position(|one| one.series == series)?))
        });
        for seat in 0..SEATS {
            for place in 0..MOST_SERIES {
                let (was, now) = (before.seats[seat][place], after.seats[seat][place]);
                if was != now || set == Some((seat, place)) {
                    at[super::place_at(seat, place)..][..3].copy_from_slice(&three(now));
                }
            }
        }
    }
}

/// What was written, into the lent output.
fn written(answer: Result<(), u8>, bytes: &[u8], out: &mut [u8]) -> Written {
    match answer {
        Err(refusal) => Written { bytes: 0, refusal },
        Ok(()) => {
            out[..bytes.len()].copy_from_slice(bytes);
            Written { bytes: bytes.len(), refusal: 0 }
        }
    }
}

impl Side for StandIn {
    fn name(&self) -> String {
        self.fault.map_or("model".to_string(), |fault| format!("{fault:?}"))
    }

    fn fresh(&self) -> Boxed {
        boxed(&Relay::default())
    }

    fn open(&self, of: Boxed, series: &[u16], reserves: &[usize]) -> Opened {
        let mut of = relay(&of, &NOBODY);
        let refusal = of.open(series, reserves).err().unwrap_or(0);
        Opened { state: boxed(&of), refusal }
    }

    fn connect(&self, of: Boxed) -> Boxed {
        let mut of = relay(&of, &NOBODY);
        of.connect();
        boxed(&of)
    }

    fn request_login(&self, of: Boxed, series: u16, content: &[u8], out: &mut [u8]) -> Written {
        let (mut of, mut bytes) = (relay(&of, &NOBODY), vec![]);
        if let (true, Some(day)) = (self.is(Fault::AskOpenDay), of.below.day) {
            for one in of.receiving.open.iter_mut() {
                one.mark = one.mark.map(|mark| mark.max(day.mark));
            }
        }
        let answer = of.ask(series, content, out.len(), &mut bytes);
        written(answer, &bytes, out)
    }

    fn confirm_login(&self, of: Boxed, series: u16, packet: &[u8], log: &[u8], at: &mut Places) -> Confirmed {
        let mut now = relay(&of, at);
        let before = now;
        let answer = self.answer(&mut now, series, packet, log.len());
        if now.below.day.map(|day| day.mark) != before.below.day.map(|day| day.mark) {
            *at = places(&now);
        } else {
            self.put(&before, &now, None, at);
        }
        Confirmed { state: boxed(&now), last: answer.unwrap_or(0), refusal: answer.err().unwrap_or(0) }
    }

    fn receive(&self, of: Boxed, packet: &[u8], log: &mut [u8], buffer: &mut [u8]) -> Received {
        let mut of = relay(&of, &NOBODY);
        let from = buffer.as_ptr();
        let answer = if self.fault.is_some() {
            self.receive(&mut of, packet, log, buffer)
        } else {
            of.receive(packet, log, buffer)
        };
        let answer = received(Boxed::default(), answer, packet.as_ptr(), from);
        Received { state: boxed(&of), ..answer }
    }

    fn receive_several(&self, of: Boxed, packets: &[u8], log: &mut [u8], buffer: &mut [u8]) -> ReceivedSeveral {
        let mut of = relay(&of, &NOBODY);
        let answer = self.receive_several(&mut of, packets, log, buffer);
        received_several(boxed(&of), answer)
    }

    fn login(
        &self,
        of: Boxed,
        seat: usize,
        series: u16,
        packet: &[u8],
        content: &[u8],
        at: &mut Places,
        out: &mut [u8],
    ) -> Written {
        let (mut of, mut bytes, to) = (relay(&of, at), vec![], self.seat(seat));
        if self.is(Fault::SeatBehindPacket) && seat >= SEATS && packet.len() < 4 {
            return Written { bytes: 0, refusal: 12 };
        }
        let before = of;
        let answer = of.login(to, series, packet, content, out.len(), &mut bytes);
        if answer.is_ok() {
            let place =
                of.below.day.and_then(|day| day.open.iter().position(|one| one.series == series)).expect("open");
            if self.is(Fault::TakesOut) {
                for other in (0..SEATS).filter(|&other| other != to) {
                    of.seats[other][place] = None;
                }
            }
            if let (true, Some(was), Some(now)) =
                (self.is(Fault::PieceStays), before.seats[to][place], &mut of.seats[to][place])
            {
                now.piece = was.piece;
            }
        }
        self.put(&before, &of, answer.is_ok().then_some((to, series)), at);
        written(answer, &bytes, out)
    }

    fn send(&self, of: Boxed, seat: usize, series: u16, at: &mut Places, log: &[u8], out: &mut [u8]) -> Sent {
        let (mut of, mut bytes, to) = (relay(&of, at), vec![], self.seat(seat));
        let before = of;
        let answer = of.send(to, series, log, out.len(), &mut bytes);
        let taken = matches!(answer, Ok(Some(_)));
        self.put(&before, &of, taken.then_some((to, series)), at);
        if taken {
            written(Ok(()), &bytes, out);
        }
        if taken && self.is(Fault::WritesBeside) && at[super::place_at((to + 1) % SEATS, 0)] == 0 {
            at[super::place_at((to + 1) % SEATS, 0) + 1] = 1;
        }
        sent(answer, bytes.len())
    }

    fn send_packet(
        &self,
        of: Boxed,
        seat: usize,
        series: u16,
        at: &mut Places,
        log: &[u8],
        out: &mut [u8],
    ) -> SentPacket {
        let (mut of, mut bytes, to) = (relay(&of, at), vec![], self.seat(seat));
        let before = of;
        let answer = of.send_packet(to, series, log, out.len(), &mut bytes);
        let taken = matches!(answer, Ok(Some(_)));
        self.put(&before, &of, taken.then_some((to, series)), at);
        if taken {
            written(Ok(()), &bytes, out);
        }
        sent_packet(answer, bytes.len())
    }
}
