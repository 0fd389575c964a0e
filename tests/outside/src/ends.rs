//! The two ends of the library: the states by value, the calls, and the models' states and answers in the library's numbers.

use crate::{Span, Written};
use reader::few::{Few, MOST_SERIES};
use reader::receiving::{self, Chain, Content, Receiving};
use reader::serving::{self, Serving};
use reader::several::{Answer, Stop};
use std::fmt::{Debug, Formatter};

#[repr(C)]
#[derive(Clone, Copy, Debug, Default, PartialEq, Eq)]
pub struct Served {
    pub next: u64,
    pub piece: u64,
    pub reserve: usize,
    pub used: usize,
    pub published: u32,
    pub series: u16,
    pub login: u8,
}

#[repr(C)]
#[derive(Clone, Copy, Default, PartialEq, Eq)]
pub struct Sender {
    pub used: usize,
    pub series: [Served; MOST_SERIES],
    pub count: usize,
    pub date: u32,
    pub dated: u8,
}

#[repr(C)]
#[derive(Clone, Copy, Debug, PartialEq, Eq)]
pub struct SenderOpened {
    pub end: Sender,
    pub refusal: u8,
}

#[repr(C)]
#[derive(Clone, Copy, Debug, PartialEq, Eq)]
pub struct Published {
    pub end: Sender,
    pub number: u32,
    pub refusal: u8,
}

#[repr(C)]
#[derive(Clone, Copy, Debug, PartialEq, Eq)]
pub struct LoggedIn {
    pub end: Sender,
    pub bytes: usize,
    pub refusal: u8,
}

pub const SEND_NONE: u8 = 0;
pub const SEND_MESSAGE: u8 = 1;
pub const SEND_REFUSED: u8 = 2;

#[repr(C)]
#[derive(Clone, Copy, Debug, PartialEq, Eq)]
pub struct Sent {
    pub end: Sender,
    pub bytes: usize,
    pub number: u32,
    pub answer: u8,
    pub refusal: u8,
}

/// The answers are Send's: none, written, refused.
#[repr(C)]
#[derive(Clone, Copy, Debug, PartialEq, Eq)]
pub struct SentPacket {
    pub end: Sender,
    pub bytes: usize,
    pub number: u32,
    pub answer: u8,
    pub refusal: u8,
    pub last: u8,
}

#[repr(C)]
#[derive(Clone, Copy, Debug, Default, PartialEq, Eq)]
pub struct Kept {
    pub held: usize,
    pub date: u32,
    pub last: u32,
    pub tid: u32,
    pub pieces: u32,
    pub series: u16,
    pub dated: u8,
    pub login: u8,
    pub chain: u8,
}

#[repr(C)]
#[derive(Clone, Copy, Default, PartialEq, Eq)]
pub struct Receiver {
    pub series: [Kept; MOST_SERIES],
    pub count: usize,
}

#[repr(C)]
#[derive(Clone, Copy, Debug, PartialEq, Eq)]
pub struct ReceiverOpened {
    pub end: Receiver,
    pub refusal: u8,
}

#[repr(C)]
#[derive(Clone, Copy, Debug, PartialEq, Eq)]
pub struct Confirmed {
    pub end: Receiver,
    pub last: u32,
    pub refusal: u8,
}

pub const IDLE: u8 = 0;
pub const AGAIN: u8 = 1;
pub const HELD: u8 = 2;
pub const HANDED_ON: u8 = 3;
pub const RECEIVE_REFUSED: u8 = 4;
pub const IN_PACKET: u8 = 0;
pub const IN_BUFFER: u8 = 1;

#[repr(C)]
#[derive(Clone, Copy, Debug, PartialEq, Eq)]
pub struct Received {
    pub end: Receiver,
    pub content: Span,
    pub last: u32,
    pub tid: u32,
    pub answer: u8,
    pub origin: u8,
    pub refusal: u8,
}

pub const SEVERAL_END: u8 = 0;
pub const SEVERAL_SHORT: u8 = 1;
pub const SEVERAL_MESSAGE: u8 = 3;
pub const SEVERAL_REFUSED: u8 = 4;

#[repr(C)]
#[derive(Clone, Copy, Debug, PartialEq, Eq)]
pub struct ReceivedSeveral {
    pub end: Receiver,
    pub content: Span,
    pub taken: usize,
    pub missing: usize,
    pub last: u32,
    pub tid: u32,
    pub answer: u8,
    pub origin: u8,
    pub refusal: u8,
}

#[repr(C)]
#[derive(Clone, Copy, Debug, PartialEq, Eq)]
pub struct PublishedSeveral {
    pub end: Sender,
    pub taken: usize,
    pub missing: usize,
    pub answer: u8,
    pub refusal: u8,
}

/// The open places of a list; all where another one isn't 0.
pub(crate) fn shown<T: Default + PartialEq>(all: &[T; MOST_SERIES], count: usize) -> &[T] {
    let open = count.min(MOST_SERIES);
    if all[open..].iter().all(|one| *one == T::default()) {
        &all[..open]
    } else {
        all
    }
}

impl Debug for Sender {
    fn fmt(&self, f: &mut Formatter<'_>) -> std::fmt::Result {
        let Sender { used, count, date, dated, .. } = self;
        let series = shown(&self.series, *count);
        write!(f, "[date {date} ({dated}), used {used}, count {count}, {series:?}]")
    }
}

impl Debug for Receiver {
    fn fmt(&self, f: &mut Formatter<'_>) -> std::fmt::Result {
        write!(f, "[count {}, {:?}]", self.count, shown(&self.series, self.count))
    }
}

extern "C" {
    fn ftd_sender_fresh() -> Sender;
    fn ftd_sender_open(
        end: Sender,
        date: u32,
        series: *const u16,
        count: usize,
        reserves: *const usize,
        reserve_count: usize,
        log: *const u8,
        log_len: usize,
    ) -> SenderOpened;
    fn ftd_publish(
        end: Sender,
        series: u16,
        tid: u32,
        content: *const u8,
        count: usize,
        log: *mut u8,
        log_len: usize,
    ) -> Published;
    fn ftd_login(
        end: Sender,
        series: u16,
        packet: *const u8,
        packet_len: usize,
        content: *const u8,
        count: usize,
        output: *mut u8,
        room: usize,
    ) -> LoggedIn;
    fn ftd_send(end: Sender, series: u16, log: *const u8, log_len: usize, output: *mut u8, room: usize) -> Sent;
    fn ftd_send_packet(
        end: Sender,
        series: u16,
        log: *const u8,
        log_len: usize,
        output: *mut u8,
        room: usize,
    ) -> SentPacket;
    fn ftd_receiver_fresh() -> Receiver;
    fn ftd_receiver_open(end: Receiver, series: *const u16, count: usize) -> ReceiverOpened;
    fn ftd_connect(end: Receiver) -> Receiver;
    fn ftd_request_login(
        end: Receiver,
        series: u16,
        content: *const u8,
        count: usize,
        output: *mut u8,
        room: usize,
    ) -> Written;
    fn ftd_confirm_login(end: Receiver, series: u16, packet: *const u8, packet_len: usize) -> Confirmed;
    fn ftd_receive(end: Receiver, packet: *const u8, packet_len: usize, buffer: *mut u8, buffer_len: usize)
        -> Received;
    fn ftd_receive_several(
        end: Receiver,
        packets: *const u8,
        count: usize,
        buffer: *mut u8,
        buffer_len: usize,
    ) -> ReceivedSeveral;
    fn ftd_publish_several(
        end: Sender,
        records: *const u8,
        count: usize,
        log: *mut u8,
        log_len: usize,
    ) -> PublishedSeveral;
}

impl Sender {
    pub fn fresh() -> Self {
        unsafe { ftd_sender_fresh() }
    }

    pub fn open(self, date: u32, series: &[u16], reserves: &[usize], log: &[u8]) -> SenderOpened {
        let (s, r) = (series.as_ptr(), reserves.as_ptr());
        unsafe { ftd_sender_open(self, date, s, series.len(), r, reserves.len(), log.as_ptr(), log.len()) }
    }

    pub fn publish(self, series: u16, tid: u32, content: &[u8], log: &mut [u8]) -> Published {
        unsafe { ftd_publish(self, series, tid, content.as_ptr(), content.len(), log.as_mut_ptr(), log.len()) }
    }

    pub fn publish_several(self, records: &[u8], log: &mut [u8]) -> PublishedSeveral {
        unsafe { ftd_publish_several(self, records.as_ptr(), records.len(), log.as_mut_ptr(), log.len()) }
    }

    pub fn login(self, series: u16, packet: &[u8], content: &[u8], out: &mut [u8]) -> LoggedIn {
        let (p, c) = (packet.as_ptr(), content.as_ptr());
        unsafe { ftd_login(self, series, p, packet.len(), c, content.len(), out.as_mut_ptr(), out.len()) }
    }

    pub fn send(self, series: u16, log: &[u8], out: &mut [u8]) -> Sent {
        unsafe { ftd_send(self, series, log.as_ptr(), log.len(), out.as_mut_ptr(), out.len()) }
    }

    pub fn send_packet(self, series: u16, log: &[u8], out: &mut [u8]) -> SentPacket {
        unsafe { ftd_send_packet(self, series, log.as_ptr(), log.len(), out.as_mut_ptr(), out.len()) }
    }
}

impl Sender {
    /// The end with 0 for what it doesn't have: next number and packets of a series without login, the places that aren't
    /// open.
    pub fn meant(mut self) -> Self {
        for (i, one) in self.series.iter_mut().enumerate() {
            if i >= self.count {
                *one = Served::default();
            } else if one.login == 0 {
                (one.next, one.piece) = (0, 0);
            }
        }
        self
    }
}

impl Receiver {
    /// The end with 0 for what it doesn't have: TID, bytes and pieces of a series without chain, the places that aren't open.
    pub fn meant(mut self) -> Self {
        for (i, one) in self.series.iter_mut().enumerate() {
            if i >= self.count {
                *one = Kept::default();
            } else if one.chain == 0 {
                (one.tid, one.held, one.pieces) = (0, 0, 0);
            }
        }
        self
    }

    pub fn fresh() -> Self {
        unsafe { ftd_receiver_fresh() }
    }

    pub fn open(self, series: &[u16]) -> ReceiverOpened {
        unsafe { ftd_receiver_open(self, series.as_ptr(), series.len()) }
    }

    pub fn connect(self) -> Self {
        unsafe { ftd_connect(self) }
    }

    pub fn request_login(self, series: u16, content: &[u8], out: &mut [u8]) -> Written {
        unsafe { ftd_request_login(self, series, content.as_ptr(), content.len(), out.as_mut_ptr(), out.len()) }
    }

    pub fn confirm_login(self, series: u16, packet: &[u8]) -> Confirmed {
        unsafe { ftd_confirm_login(self, series, packet.as_ptr(), packet.len()) }
    }

    pub fn receive(self, packet: &[u8], buffer: &mut [u8]) -> Received {
        unsafe { ftd_receive(self, packet.as_ptr(), packet.len(), buffer.as_mut_ptr(), buffer.len()) }
    }

    pub fn receive_several(self, packets: &[u8], buffer: &mut [u8]) -> ReceivedSeveral {
        unsafe { ftd_receive_several(self, packets.as_ptr(), packets.len(), buffer.as_mut_ptr(), buffer.len()) }
    }
}

// --- The models in the library's numbers ---

/// The first places by a list, the others 0.
pub(crate) fn places<T: Copy, U: Copy + Default>(few: &Few<T>, number: impl Fn(&T) -> U) -> [U; MOST_SERIES] {
    let mut all = [U::default(); MOST_SERIES];
    for (place, one) in all.iter_mut().zip(few.iter()) {
        *place = number(one);
    }
    all
}

pub fn sender(of: &Serving) -> Sender {
    let Some(day) = of.day else {
        return Sender::default();
    };
    let number = |one: &serving::Served| Served {
        next: one.next.unwrap_or(0),
        piece: one.piece,
        reserve: one.reserve,
        used: one.used,
        published: one.published,
        series: one.series,
        login: one.next.is_some().into(),
    };
    Sender { used: day.used, series: places(&day.open, number), count: day.open.len(), date: day.mark, dated: 1 }
}

pub fn receiver(of: &Receiving) -> Receiver {
    let number = |one: &receiving::Kept| {
        let chain = one.chain.unwrap_or_default();
        Kept {
            held: chain.held,
            date: one.mark.unwrap_or(0),
            last: one.last,
            tid: chain.tid,
            pieces: chain.pieces,
            series: one.series,
            dated: one.mark.is_some().into(),
            login: one.logged_in.into(),
            chain: one.chain.is_some().into(),
        }
    };
    Receiver { series: places(&of.open, number), count: of.open.len() }
}

/// The model of a serving end: of numbers that it can say, so at most eight series, and none without a day.
pub fn serving(of: &Sender) -> Serving {
    let served = |one: &Served| serving::Served {
        series: one.series,
        published: one.published,
        next: (one.login != 0).then_some(one.next),
        piece: one.piece,
        reserve: one.reserve,
        used: one.used,
    };
    let day = (of.dated != 0).then(|| {
        let open = Few::of(of.series.iter().take(of.count).map(served)).expect("at most eight");
        serving::Day { mark: of.date, open, used: of.used }
    });
    Serving { day }
}

/// The model of a receiving end: of numbers that it can say, so of at most eight series.
pub fn receiving(of: &Receiver) -> Receiving {
    let kept = |one: &Kept| receiving::Kept {
        series: one.series,
        mark: (one.dated != 0).then_some(one.date),
        last: one.last,
        logged_in: one.login != 0,
        chain: (one.chain != 0).then_some(Chain { tid: one.tid, held: one.held, pieces: one.pieces }),
    };
    Receiving { open: Few::of(of.series.iter().take(of.count).map(kept)).expect("at most eight") }
}

/// An answer of the model's Receive, beside the packet and the buffer that it was lent.
pub fn received(
    end: Receiver,
    answer: Result<receiving::Received<'_>, u8>,
    packet: *const u8,
    buffer: *const u8,
) -> Received {
    let none = Received { end, content: Span::default(), last: 0, tid: 0, answer: IDLE, origin: 0, refusal: 0 };
    match answer {
        Err(refusal) => Received { answer: RECEIVE_REFUSED, refusal, ..none },
        Ok(receiving::Received::Idle) => none,
        Ok(receiving::Received::Again(last)) => Received { answer: AGAIN, last, ..none },
        Ok(receiving::Received::Held(last)) => Received { answer: HELD, last, ..none },
        Ok(receiving::Received::Message { last, tid, content }) => {
            let (origin, from) = match content {
                Content::OfPacket(_) => (IN_PACKET, packet),
                Content::OfBuffer(_) => (IN_BUFFER, buffer),
            };
            let bytes = content.bytes();
            let content = Span { start: bytes.as_ptr() as usize - from as usize, len: bytes.len() };
            Received { answer: HANDED_ON, content, last, tid, origin, ..none }
        }
    }
}

/// An answer of the model to a bufferful of packets.
pub fn received_several(end: Receiver, Answer { stop, taken }: Answer) -> ReceivedSeveral {
    let content = Span::default();
    let none = ReceivedSeveral {
        end,
        content,
        taken,
        missing: 0,
        last: 0,
        tid: 0,
        answer: SEVERAL_END,
        origin: 0,
        refusal: 0,
    };
    match stop {
        Stop::End => none,
        Stop::Short(missing) => ReceivedSeveral { answer: SEVERAL_SHORT, missing, ..none },
        Stop::Refused(refusal) => ReceivedSeveral { answer: SEVERAL_REFUSED, refusal, ..none },
        Stop::Message { last, tid, buffer, start, len } => {
            let origin = if buffer { IN_BUFFER } else { IN_PACKET };
            ReceivedSeveral { answer: SEVERAL_MESSAGE, content: Span { start, len }, last, tid, origin, ..none }
        }
    }
}

/// An answer of the model to a bufferful of records.
pub fn published_several(end: Sender, Answer { stop, taken }: Answer) -> PublishedSeveral {
    let (answer, missing, refusal) = match stop {
        Stop::End => (SEVERAL_END, 0, 0),
        Stop::Short(missing) => (SEVERAL_SHORT, missing, 0),
        Stop::Refused(refusal) => (SEVERAL_REFUSED, 0, refusal),
        Stop::Message { .. } => unreachable!("Publish hands no message on"),
    };
    PublishedSeveral { end, taken, missing, answer, refusal }
}
