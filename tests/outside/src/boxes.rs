//! The box (document 02, No. 3): its state by value and its calls, as C sees them; the model's state and answers in
//! these numbers; and the two sides that answer the calls, the library and, in its place or deliberately wrong, the
//! model.

use crate::ends::{self, Receiver, SEND_MESSAGE, SEND_NONE, SEND_REFUSED};
use crate::{Span, Written};
use reader::few::{Few, MOST_SERIES};
use reader::receiving;
use reader::relay::{Place, Relay, SEATS};
use reader::serving::{self, OnePacket, Serving};
use reader::several;
use std::fmt::{Debug, Formatter};
use std::mem::size_of;

pub mod stand_in;
pub mod world;

/// Numbers of all places: seat by seat, series by series, three each.
pub const PLACES: usize = SEATS * MOST_SERIES * 3;

/// Of each place: logged in where it isn't 0, next, piece. All 0: nobody is logged in.
pub type Places = [u64; PLACES];

#[repr(C)]
#[derive(Clone, Copy, Debug, Default, PartialEq, Eq)]
pub struct DaySeries {
    pub reserve: usize,
    pub used: usize,
    pub published: u32,
    pub series: u16,
}

#[repr(C)]
#[derive(Clone, Copy, Default, PartialEq, Eq)]
pub struct Day {
    pub used: usize,
    pub series: [DaySeries; MOST_SERIES],
    pub count: usize,
    pub date: u32,
    pub dated: u8,
}

/// `struct ftd_box`.
#[repr(C)]
#[derive(Clone, Copy, Debug, Default, PartialEq, Eq)]
pub struct Boxed {
    pub receiver: Receiver,
    pub reserves: [usize; MOST_SERIES],
    pub day: Day,
}

#[repr(C)]
#[derive(Clone, Copy, Debug, PartialEq, Eq)]
pub struct Opened {
    pub state: Boxed,
    pub refusal: u8,
}

#[repr(C)]
#[derive(Clone, Copy, Debug, PartialEq, Eq)]
pub struct Confirmed {
    pub state: Boxed,
    pub last: u32,
    pub refusal: u8,
}

#[repr(C)]
#[derive(Clone, Copy, Debug, PartialEq, Eq)]
pub struct Received {
    pub state: Boxed,
    pub content: Span,
    pub last: u32,
    pub tid: u32,
    pub answer: u8,
    pub origin: u8,
    pub refusal: u8,
}

#[repr(C)]
#[derive(Clone, Copy, Debug, PartialEq, Eq)]
pub struct ReceivedSeveral {
    pub state: Boxed,
    pub content: Span,
    pub taken: usize,
    pub missing: usize,
    pub last: u32,
    pub tid: u32,
    pub answer: u8,
    pub origin: u8,
    pub refusal: u8,
}

#[repr(C)]
#[derive(Clone, Copy, Debug, PartialEq, Eq)]
pub struct Sent {
    pub bytes: usize,
    pub number: u32,
    pub answer: u8,
    pub refusal: u8,
}

#[repr(C)]
#[derive(Clone, Copy, Debug, PartialEq, Eq)]
pub struct SentPacket {
    pub bytes: usize,
    pub number: u32,
    pub answer: u8,
    pub refusal: u8,
    pub last: u8,
}

// The sizes that C has.
const _: () = {
    assert!(size_of::<DaySeries>() == 24 && size_of::<Day>() == 216 && size_of::<Boxed>() == 544);
    assert!(size_of::<Opened>() == 552 && size_of::<Confirmed>() == 552);
    assert!(size_of::<Received>() == 576 && size_of::<ReceivedSeveral>() == 592);
    assert!(size_of::<Sent>() == 16 && size_of::<SentPacket>() == 16);
};

impl Debug for Day {
    fn fmt(&self, f: &mut Formatter<'_>) -> std::fmt::Result {
        let Day { used, count, date, dated, .. } = self;
        let series = ends::shown(&self.series, *count);
        write!(f, "[date {date} ({dated}), used {used}, count {count}, {series:?}]")
    }
}

impl Boxed {
    /// The box with 0 for what it doesn't have: what the receiving end doesn't have, reserves of series that aren't
    /// open, the day's places that aren't open, the mark of no day.
    pub fn meant(mut self) -> Self {
        self.receiver = self.receiver.meant();
        for one in self.reserves.iter_mut().skip(self.receiver.count) {
            *one = 0;
        }
        for one in self.day.series.iter_mut().skip(self.day.count) {
            *one = DaySeries::default();
        }
        if self.day.dated == 0 {
            self.day.date = 0;
        }
        self
    }
}

/// What answers the calls. States are given and answered by value; log, chain buffer, places and output are lent.
pub trait Side {
    fn name(&self) -> String;
    fn fresh(&self) -> Boxed;
    fn open(&self, of: Boxed, series: &[u16], reserves: &[usize]) -> Opened;
    fn connect(&self, of: Boxed) -> Boxed;
    fn request_login(&self, of: Boxed, series: u16, content: &[u8], out: &mut [u8]) -> Written;
    fn confirm_login(&self, of: Boxed, series: u16, packet: &[u8], log: &[u8], places: &mut Places) -> Confirmed;
    fn receive(&self, of: Boxed, packet: &[u8], log: &mut [u8], buffer: &mut [u8]) -> Received;
    fn receive_several(&self, of: Boxed, packets: &[u8], log: &mut [u8], buffer: &mut [u8]) -> ReceivedSeveral;
    #[allow(clippy::too_many_arguments)]
    fn login(
        &self,
        of: Boxed,
        seat: usize,
        series: u16,
        packet: &[u8],
        content: &[u8],
        places: &mut Places,
        out: &mut [u8],
    ) -> Written;
    fn send(&self, of: Boxed, seat: usize, series: u16, places: &mut Places, log: &[u8], out: &mut [u8]) -> Sent;
    fn send_packet(
        &self,
        of: Boxed,
        seat: usize,
        series: u16,
        places: &mut Places,
        log: &[u8],
        out: &mut [u8],
    ) -> SentPacket;
}

// --- The library ---

/// The library's box. Compiled with the feature `box` alone.
#[cfg(feature = "box")]
pub struct Library;

#[cfg(feature = "box")]
mod library {
    use super::*;

    extern "C" {
        fn ftd_box_fresh() -> Boxed;
        fn ftd_box_open(
            of: Boxed,
            series: *const u16,
            count: usize,
            reserves: *const usize,
            reserve_count: usize,
        ) -> Opened;
        fn ftd_box_connect(of: Boxed) -> Boxed;
        fn ftd_box_request_login(
            of: Boxed,
            series: u16,
            content: *const u8,
            count: usize,
            output: *mut u8,
            room: usize,
        ) -> Written;
        fn ftd_box_confirm_login(
            of: Boxed,
            series: u16,
            packet: *const u8,
            packet_len: usize,
            log: *const u8,
            log_len: usize,
            places: *mut u64,
        ) -> Confirmed;
        fn ftd_box_receive(
            of: Boxed,
            packet: *const u8,
            packet_len: usize,
            log: *mut u8,
            log_len: usize,
            buffer: *mut u8,
            buffer_len: usize,
        ) -> Received;
        fn ftd_box_receive_several(
            of: Boxed,
            packets: *const u8,
            count: usize,
            log: *mut u8,
            log_len: usize,
            buffer: *mut u8,
            buffer_len: usize,
        ) -> ReceivedSeveral;
        fn ftd_box_login(
            of: Boxed,
            seat: usize,
            series: u16,
            packet: *const u8,
            packet_len: usize,
            content: *const u8,
            count: usize,
            places: *mut u64,
            output: *mut u8,
            room: usize,
        ) -> Written;
        fn ftd_box_send(
            of: Boxed,
            seat: usize,
            series: u16,
            places: *mut u64,
            log: *const u8,
            log_len: usize,
            output: *mut u8,
            room: usize,
        ) -> Sent;
        fn ftd_box_send_packet(
            of: Boxed,
            seat: usize,
            series: u16,
            places: *mut u64,
            log: *const u8,
            log_len: usize,
            output: *mut u8,
            room: usize,
        ) -> SentPacket;
    }

    impl Side for Library {
        fn name(&self) -> String {
            "library".to_string()
        }

        fn fresh(&self) -> Boxed {
            unsafe { ftd_box_fresh() }
        }

        fn open(&self, of: Boxed, series: &[u16], reserves: &[usize]) -> Opened {
            unsafe { ftd_box_open(of, series.as_ptr(), series.len(), reserves.as_ptr(), reserves.len()) }
        }

        fn connect(&self, of: Boxed) -> Boxed {
            unsafe { ftd_box_connect(of) }
        }

        fn request_login(&self, of: Boxed, series: u16, content: &[u8], out: &mut [u8]) -> Written {
            let (c, o) = (content.as_ptr(), out.as_mut_ptr());
            unsafe { ftd_box_request_login(of, series, c, content.len(), o, out.len()) }
        }

        fn confirm_login(&self, of: Boxed, series: u16, packet: &[u8], log: &[u8], places: &mut Places) -> Confirmed {
            let (p, l) = (packet.as_ptr(), log.as_ptr());
            unsafe { ftd_box_confirm_login(of, series, p, packet.len(), l, log.len(), places.as_mut_ptr()) }
        }

        fn receive(&self, of: Boxed, packet: &[u8], log: &mut [u8], buffer: &mut [u8]) -> Received {
            let (p, l, b) = (packet.as_ptr(), log.as_mut_ptr(), buffer.as_mut_ptr());
            unsafe { ftd_box_receive(of, p, packet.len(), l, log.len(), b, buffer.len()) }
        }

        fn receive_several(&self, of: Boxed, packets: &[u8], log: &mut [u8], buffer: &mut [u8]) -> ReceivedSeveral {
            let (p, l, b) = (packets.as_ptr(), log.as_mut_ptr(), buffer.as_mut_ptr());
            unsafe { ftd_box_receive_several(of, p, packets.len(), l, log.len(), b, buffer.len()) }
        }

        fn login(
            &self,
            of: Boxed,
            seat: usize,
            series: u16,
            packet: &[u8],
            content: &[u8],
            places: &mut Places,
            out: &mut [u8],
        ) -> Written {
            let (p, c, at, o) = (packet.as_ptr(), content.as_ptr(), places.as_mut_ptr(), out.as_mut_ptr());
            unsafe { ftd_box_login(of, seat, series, p, packet.len(), c, content.len(), at, o, out.len()) }
        }

        fn send(&self, of: Boxed, seat: usize, series: u16, places: &mut Places, log: &[u8], out: &mut [u8]) -> Sent {
            let (at, l, o) = (places.as_mut_ptr(), log.as_ptr(), out.as_mut_ptr());
            unsafe { ftd_box_send(of, seat, series, at, l, log.len(), o, out.len()) }
        }

        fn send_packet(
            &self,
            of: Boxed,
            seat: usize,
            series: u16,
            places: &mut Places,
            log: &[u8],
            out: &mut [u8],
        ) -> SentPacket {
            let (at, l, o) = (places.as_mut_ptr(), log.as_ptr(), out.as_mut_ptr());
            unsafe { ftd_box_send_packet(of, seat, series, at, l, log.len(), o, out.len()) }
        }
    }
}

// --- The model in the library's numbers ---

pub fn boxed(of: &Relay) -> Boxed {
    let number = |one: &serving::Served| DaySeries {
        reserve: one.reserve,
        used: one.used,
        published: one.published,
        series: one.series,
    };
    let day = of.below.day.map_or(Day::default(), |day| Day {
        used: day.used,
        series: ends::places(&day.open, number),
        count: day.open.len(),
        date: day.mark,
        dated: 1,
    });
    let mut reserves = of.reserves;
    reserves[of.receiving.open.len()..].fill(0);
    Boxed { receiver: ends::receiver(&of.receiving), reserves, day }
}

/// The three numbers of a place.
pub fn three(of: Option<Place>) -> [u64; 3] {
    of.map_or([0; 3], |place| [1, place.next, place.piece])
}

/// Where the numbers of a place stand.
pub fn place_at(seat: usize, place: usize) -> usize {
    (seat * MOST_SERIES + place) * 3
}

pub fn places(of: &Relay) -> Places {
    let mut all = [0; PLACES];
    for (seat, places) in of.seats.iter().enumerate() {
        for (place, one) in places.iter().enumerate() {
            all[place_at(seat, place)..][..3].copy_from_slice(&three(*one));
        }
    }
    all
}

/// The model of a state: of numbers that it can say, so at most eight series, and none without a day.
pub fn relay(of: &Boxed, places: &Places) -> Relay {
    let served = |one: &DaySeries| serving::Served {
        series: one.series,
        published: one.published,
        reserve: one.reserve,
        used: one.used,
        ..serving::Served::default()
    };
    let day = (of.day.dated != 0).then(|| {
        let open = Few::of(of.day.series.iter().take(of.day.count).map(served)).expect("at most eight");
        serving::Day { mark: of.day.date, open, used: of.day.used }
    });
    let mut seats = [[None; MOST_SERIES]; SEATS];
    for (seat, all) in seats.iter_mut().enumerate() {
        for (i, place) in all.iter_mut().enumerate() {
            let at = place_at(seat, i);
            *place = (places[at] != 0).then_some(Place { next: places[at + 1], piece: places[at + 2] });
        }
    }
    Relay { receiving: ends::receiving(&of.receiver), reserves: of.reserves, below: Serving { day }, seats }
}

/// An answer of the model's Receive, beside the packet and the buffer that it was lent.
pub fn received(
    state: Boxed,
    answer: Result<receiving::Received<'_>, u8>,
    packet: *const u8,
    buffer: *const u8,
) -> Received {
    let ends::Received { content, last, tid, answer, origin, refusal, .. } =
        ends::received(Receiver::default(), answer, packet, buffer);
    Received { state, content, last, tid, answer, origin, refusal }
}

/// An answer of the model to a bufferful.
pub fn received_several(state: Boxed, answer: several::Answer) -> ReceivedSeveral {
    let ends::ReceivedSeveral { content, taken, missing, last, tid, answer, origin, refusal, .. } =
        ends::received_several(Receiver::default(), answer);
    ReceivedSeveral { state, content, taken, missing, last, tid, answer, origin, refusal }
}

pub fn sent(answer: Result<Option<u32>, u8>, written: usize) -> Sent {
    let none = Sent { bytes: 0, number: 0, answer: SEND_NONE, refusal: 0 };
    match answer {
        Ok(None) => none,
        Ok(Some(number)) => Sent { bytes: written, number, answer: SEND_MESSAGE, ..none },
        Err(refusal) => Sent { answer: SEND_REFUSED, refusal, ..none },
    }
}

pub fn sent_packet(answer: Result<Option<OnePacket>, u8>, written: usize) -> SentPacket {
    let none = SentPacket { bytes: 0, number: 0, answer: SEND_NONE, refusal: 0, last: 0 };
    match answer {
        Ok(None) => none,
        Ok(Some(OnePacket { number, last })) => {
            SentPacket { bytes: written, number, answer: SEND_MESSAGE, last: last.into(), ..none }
        }
        Err(refusal) => SentPacket { answer: SEND_REFUSED, refusal, ..none },
    }
}
