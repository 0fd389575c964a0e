//! The box (document 02, No. 3) by hand: lists of calls with each answer written down, what a refused publication
//! leaves, the opening below, the seats' places, reserves (No. 11), one packet a call (No. 4), a bufferful (No. 8),
//! places of packets (No. 10).

use reader::cut::{write_packet, write_placed, Header};
use reader::generate::{known_field_bytes, raw_field, Random};
use reader::items::known_field;
use reader::packet::{read, Packet, FIELD_HEADER};
use reader::receiving::{Content, Received};
use reader::relay::{Place, Relay};
use reader::serving::{OnePacket, Served, LOGIN};
use reader::several::{Answer, Stop};
use reader::start::start_field_bytes;

const TID: u32 = 0x7777;
const ROOM: usize = 40_000;
const PART: usize = 32_768;

fn right(fid: u32) -> Vec<u8> {
    known_field_bytes(&mut Random::new(1), known_field(fid).unwrap())
}

/// One field of ten bytes in all, of a FID that isn't known.
fn f4() -> Vec<u8> {
    raw_field(0x7000, &[1, 2, 3, 4])
}

/// What Receive comes to, without the lent bytes.
#[derive(Debug, PartialEq)]
enum Said {
    Idle,
    Again(u32),
    Held(u32),
    Message(u32, u32, Vec<u8>),
    Refused(u8),
}

use Said::{Again, Held, Idle, Refused};

fn message(number: u32, content: &[u8]) -> Said {
    Said::Message(number, TID, content.to_vec())
}

/// A box with what it is lent.
struct Try {
    relay: Relay,
    log: Vec<u8>,
    buffer: Vec<u8>,
    out: Vec<u8>,
}

/// A login answer of a mark, with a header number.
fn answer(mark: Option<u32>, number: u32) -> Vec<u8> {
    let mut out = vec![];
    write_packet(&mut out, &Header { tid: LOGIN, series: 0, number, mark }, b'S', &right(0x0027));
    out
}

/// A login packet of a mark, with a start field or none.
fn asked(mark: Option<u32>, start: Option<(u16, u32)>) -> Vec<u8> {
    let start = start.map_or(vec![], |(series, number)| start_field_bytes(series, number));
    let mut out = vec![];
    let content = [right(0x0023), start].concat();
    write_packet(&mut out, &Header { tid: LOGIN, series: 0, number: 0, mark }, b'S', &content);
    out
}

fn packet(letter: u8, (series, number, mark): (u16, u32, u32), tid: u32, content: &[u8]) -> Vec<u8> {
    let mut out = vec![];
    write_packet(&mut out, &Header { tid, series, number, mark: Some(mark) }, letter, content);
    out
}

impl Try {
    /// A box opened with series 1 and 2, no reserves.
    fn new(log: usize) -> Self {
        Try::with(&[1, 2], &[0, 0], log)
    }

    fn with(series: &[u16], reserves: &[usize], log: usize) -> Self {
        let mut relay = Relay::default();
        assert_eq!(relay.open(series, reserves), Ok(()));
        Try { relay, log: vec![0xEE; log], buffer: vec![0xBB; series.len() * PART], out: vec![] }
    }

    /// A(s, m).
    fn a(&mut self, series: u16, mark: u32) -> Result<u32, u8> {
        self.relay.answer(series, &answer(Some(mark), 0), self.log.len())
    }

    /// What is refused changes nothing but the chain, and that only from 15 on or by a publication.
    fn given(&mut self, packet: &[u8]) -> Said {
        let (mut before, lent) = (self.relay, (self.log.clone(), self.buffer.clone()));
        let said = match self.relay.receive(packet, &mut self.log, &mut self.buffer) {
            Ok(Received::Idle) => Idle,
            Ok(Received::Again(last)) => Again(last),
            Ok(Received::Held(last)) => Held(last),
            Ok(Received::Message { last, tid, content }) => {
                let Packet::Message(piece) = read(packet) else { panic!("a message") };
                assert_eq!(matches!(content, Content::OfPacket(_)), piece.chain == b'S');
                Said::Message(last, tid, content.bytes().to_vec())
            }
            Err(row) => Refused(row),
        };
        if !matches!(said, Said::Message(..)) {
            assert_eq!(self.log, lent.0, "the log");
        }
        if matches!(said, Refused(_) | Again(_) | Idle) {
            assert!(self.buffer == lent.1, "the chain buffer");
            for (one, now) in before.receiving.open.iter_mut().zip(self.relay.receiving.open.iter()) {
                if now.chain.is_none() {
                    one.chain = None;
                }
            }
            assert_eq!(self.relay, before);
        }
        said
    }

    fn letter(&mut self, letter: u8, of: (u16, u32, u32), content: &[u8]) -> Said {
        self.given(&packet(letter, of, TID, content))
    }

    /// R(s, k, m) with a content.
    fn r(&mut self, series: u16, number: u32, mark: u32, content: &[u8]) -> Said {
        self.letter(b'S', (series, number, mark), content)
    }

    fn f(&mut self, series: u16, number: u32, mark: u32, content: &[u8]) -> Said {
        self.letter(b'F', (series, number, mark), content)
    }

    fn l(&mut self, series: u16, number: u32, mark: u32, content: &[u8]) -> Said {
        self.letter(b'L', (series, number, mark), content)
    }

    /// Login(seat, s), of a packet without mark and start field.
    fn login(&mut self, seat: usize, series: u16) -> Result<(), u8> {
        self.login_with(seat, series, &asked(None, None))
    }

    fn login_with(&mut self, seat: usize, series: u16, packet: &[u8]) -> Result<(), u8> {
        self.relay.login(seat, series, packet, &right(0x0027), ROOM, &mut self.out)
    }

    fn send(&mut self, seat: usize, series: u16) -> Result<Option<u32>, u8> {
        self.relay.send(seat, series, &self.log, ROOM, &mut self.out)
    }

    fn step(&mut self, seat: usize, series: u16) -> Result<Option<(u32, bool)>, u8> {
        let answer = self.relay.send_packet(seat, series, &self.log, ROOM, &mut self.out)?;
        Ok(answer.map(|OnePacket { number, last }| (number, last)))
    }

    /// Mark, and published of each series, of the day below.
    fn day(&self) -> Option<(u32, Vec<(u16, u32)>)> {
        self.relay.below.day.map(|day| (day.mark, day.open.iter().map(|one| (one.series, one.published)).collect()))
    }

    fn chain(&self, place: usize) -> bool {
        self.relay.receiving.open[place].chain.is_some()
    }

    /// Nobody is logged in at any seat.
    fn empty(&self) -> bool {
        self.relay.seats.iter().flatten().all(|place| place.is_none())
    }
}

/// 1 to 5.
#[test]
fn a_series_behind() {
    let mut t = Try::new(1000);
    assert_eq!(t.day(), None);
    assert_eq!(t.login(0, 1), Err(13));
    assert_eq!(t.a(1, 5), Ok(0));
    assert_eq!(t.day(), Some((5, vec![(1, 0), (2, 0)])));
    assert_eq!(t.login(0, 2), Ok(()));
    assert_eq!(t.send(0, 2), Ok(None));

    assert_eq!(t.a(2, 4), Err(15));
    assert_eq!(t.a(2, 5), Ok(0));
    assert_eq!(t.day(), Some((5, vec![(1, 0), (2, 0)])));
    assert_eq!(t.send(0, 2), Ok(None));

    assert_eq!(t.r(1, 1, 5, &f4()), message(1, &f4()));
    assert_eq!(t.day(), Some((5, vec![(1, 1), (2, 0)])));
    assert_eq!(t.r(1, 1, 5, &f4()), Again(1));
    assert_eq!(t.f(2, 1, 5, &f4()), Held(0));

    assert_eq!(t.a(1, 6), Ok(0));
    assert_eq!(t.day(), Some((6, vec![(1, 0), (2, 0)])));
    assert!(t.empty());
    assert_eq!(t.send(0, 2), Err(14));
    assert!(t.chain(1));
    assert_eq!(t.l(2, 1, 5, &f4()), Refused(15));
    assert!(!t.chain(1));
    assert_eq!(t.r(2, 0, 5, &[]), Refused(15));
    assert_eq!(t.r(2, 1, 6, &[]), Refused(15));
    assert_eq!(t.a(2, 5), Err(15));
    assert_eq!(t.login(3, 1), Ok(()));
    assert_eq!(t.a(2, 6), Ok(0));
    assert_eq!(t.send(3, 1), Ok(None));
    assert_eq!(t.r(2, 1, 6, &[]), message(1, &[]));
    assert_eq!(t.day(), Some((6, vec![(1, 0), (2, 1)])));

    let before = t.relay;
    assert_eq!(t.relay.answer(1, &answer(Some(5), 1), 1000), Err(15));
    assert_eq!(t.relay.answer(1, &answer(Some(7), 1), 1000), Err(16));
    assert_eq!(t.relay, before);
}

/// 6, and a repeat and a piece of an older series.
#[test]
fn late_before_again() {
    let mut t = Try::new(1000);
    assert_eq!((t.a(1, 5), t.a(2, 5)), (Ok(0), Ok(0)));
    assert_eq!(t.r(2, 1, 5, &[]), message(1, &[]));
    assert_eq!(t.a(1, 6), Ok(0));
    assert_eq!(t.r(2, 1, 5, &[]), Refused(15));
    assert_eq!(t.f(2, 2, 5, &f4()), Refused(15));
    t.relay.connect();
    assert_eq!(t.r(2, 1, 5, &[]), Refused(14));
}

/// 8.
#[test]
fn a_full_log() {
    let mut t = Try::new(25);
    assert_eq!(t.a(1, 5), Ok(0));
    assert_eq!(t.r(1, 1, 5, &f4()), Refused(18));
    assert_eq!(t.r(1, 2, 5, &f4()), Refused(16));
    assert_eq!(t.r(1, 1, 5, &[]), message(1, &[]));
    let entry = [&[0, 1, 0, 0, 0, 0, 0x77, 0x77, 0, 0, 0, 1, 0, 0, 0, 0][..], &[0xEE; 9]].concat();
    assert_eq!(t.log, entry);
}

/// 9: the chain buffer stays as it was behind F.
#[test]
fn a_chain_that_does_not_fit() {
    let mut t = Try::new(35);
    assert_eq!(t.a(1, 5), Ok(0));
    assert_eq!(t.f(1, 1, 5, &f4()), Held(0));
    assert_eq!(t.buffer[..10], f4());
    assert_eq!(t.l(1, 1, 5, &f4()), Refused(18));
    assert!(!t.chain(0));
    assert_eq!(t.buffer[10..20], [0xBB; 10]);
    assert_eq!(t.l(1, 1, 5, &f4()), Refused(17));
    // One byte more is enough.
    let mut t = Try::new(36);
    assert_eq!(t.a(1, 5), Ok(0));
    assert_eq!(t.f(1, 1, 5, &f4()), Held(0));
    assert_eq!(t.l(1, 1, 5, &f4()), message(1, &[f4(), f4()].concat()));
    assert_eq!(t.log[16..], [f4(), f4()].concat());
    assert_eq!(t.buffer[..20], [f4(), f4()].concat());
}

/// 10: the checks of publishing come behind those of the receiving end.
#[test]
fn wrong_contents() {
    let narrow = raw_field(4, &[0, 1, 2]);
    let mut minus = right(0x0023);
    minus[FIELD_HEADER + 97..FIELD_HEADER + 100].copy_from_slice(b"-00");
    let mut t = Try::new(1000);
    assert_eq!(t.a(1, 5), Ok(0));
    assert_eq!(t.r(1, 1, 5, &narrow), Refused(8));
    let log = std::mem::take(&mut t.log);
    assert_eq!(t.r(1, 1, 5, &narrow), Refused(8));
    t.log = log;
    assert_eq!(t.r(1, 1, 5, &minus), Refused(9));
    assert_eq!(t.given(&packet(b'S', (1, 1, 5), 0x2003, &[])), Refused(10));
    // Two listed where one may stand; a wrong one of number 2 is 16.
    assert_eq!(t.given(&packet(b'S', (1, 1, 5), 0x2003, &[right(1), right(1)].concat())), Refused(10));
    assert_eq!(t.r(1, 2, 5, &narrow), Refused(16));

    assert_eq!(t.f(1, 1, 5, &narrow), Held(0));
    let buffer = std::mem::take(&mut t.buffer);
    assert_eq!(t.l(1, 1, 5, &[]), Refused(18));
    t.buffer = buffer;
    assert_eq!(t.f(1, 1, 5, &narrow), Held(0));
    assert_eq!(t.l(1, 1, 5, &[]), Refused(8));
    assert!(!t.chain(0));
    // 8 of the last packet and 9 of the first: 8. The chain is dropped by each.
    assert_eq!(t.f(1, 1, 5, &minus), Held(0));
    assert_eq!(t.l(1, 1, 5, &narrow), Refused(8));
    assert_eq!(t.f(1, 1, 5, &minus), Held(0));
    assert_eq!(t.l(1, 1, 5, &f4()), Refused(9));
    assert_eq!(t.f(1, 1, 5, &f4()), Held(0));
    assert_eq!(t.r(1, 1, 5, &narrow), Refused(8));
    assert_eq!(t.l(1, 1, 5, &f4()), Refused(17));
}

/// 11 and 12.
#[test]
fn counted_over_the_chain() {
    let mut t = Try::new(1000);
    assert_eq!(t.a(1, 5), Ok(0));
    assert_eq!(t.given(&packet(b'F', (1, 1, 5), 0x2003, &right(1))), Held(0));
    let said = t.given(&packet(b'L', (1, 1, 5), 0x2003, &f4()));
    assert_eq!(said, Said::Message(1, 0x2003, [right(1), f4()].concat()));

    t.log.truncate(3);
    assert_eq!(t.r(1, 2, 5, &[]), Refused(20));
    assert_eq!(t.l(1, 2, 5, &[]), Refused(17));
    assert_eq!(t.r(1, 1, 5, &[]), Again(1));
    assert_eq!(t.f(1, 2, 5, &f4()), Held(1));
    assert_eq!(t.l(1, 2, 5, &f4()), Refused(20));
    assert!(!t.chain(0));
}

/// 13.
#[test]
fn seat_numbers() {
    let mut t = Try::new(1000);
    assert_eq!(t.login_with(16, 1, &[]), Err(25));
    assert_eq!(t.login_with(15, 1, &[]), Err(12));
    assert_eq!(t.send(255, 9), Err(25));
    assert_eq!(t.send(16, 1), Err(25));
    assert_eq!(t.send(15, 1), Err(13));
    assert_eq!(t.step(usize::MAX, 1), Err(25));
    assert_eq!(t.step(15, 1), Err(13));
}

/// 14.
#[test]
fn three_seats() {
    let mut t = Try::new(1000);
    assert_eq!(t.a(1, 5), Ok(0));
    for number in 1..=3 {
        assert_eq!(t.r(1, number, 5, &f4()), message(number, &f4()));
    }
    assert_eq!(t.login_with(0, 1, &asked(Some(5), Some((1, 1)))), Ok(()));
    assert_eq!(t.login_with(15, 1, &asked(None, Some((1, 3)))), Ok(()));
    assert_eq!(t.login_with(7, 1, &asked(Some(5), Some((1, 5)))), Err(19));
    assert_eq!(t.send(15, 1), Ok(Some(3)));
    assert_eq!(t.send(0, 1), Ok(Some(1)));
    assert_eq!(t.send(15, 1), Ok(None));
    assert_eq!(t.send(7, 1), Err(14));
    assert_eq!(t.send(0, 1), Ok(Some(2)));
    t.relay.connect();
    assert_eq!(t.send(0, 1), Ok(Some(3)));
    assert_eq!(t.r(1, 4, 5, &f4()), Refused(14));
    // What Send wrote bears the day's mark and its place.
    let Packet::Message(sent) = read(&t.out) else { panic!("a message") };
    assert_eq!((sent.mark, sent.place, sent.series, sent.number, sent.content), (Some(5), Some(0), 1, 3, &f4()[..]));
    // A start of an older day begins at 1, one of a higher day is 15, and one of another series 13.
    assert_eq!(t.login_with(7, 1, &asked(Some(4), Some((1, 5)))), Ok(()));
    assert_eq!(t.send(7, 1), Ok(Some(1)));
    assert_eq!(t.login_with(7, 1, &asked(Some(6), Some((1, 1)))), Err(15));
    assert_eq!(t.login_with(7, 1, &asked(Some(5), Some((2, 1)))), Err(13));
    assert_eq!(t.send(7, 1), Ok(Some(2)));
}

/// A lent output that is too small, and one that just fits.
#[test]
fn outputs() {
    let mut t = Try::new(1000);
    assert_eq!(t.a(1, 5), Ok(0));
    assert_eq!(t.r(1, 1, 5, &f4()), message(1, &f4()));
    let (content, packet) = (right(0x0027), asked(None, None));
    let takes = 26 + content.len();
    assert_eq!(t.relay.login(9, 1, &packet, &content, takes - 1, &mut t.out), Err(18));
    assert_eq!(t.relay.send(9, 1, &t.log, ROOM, &mut t.out), Err(14));
    assert_eq!(t.relay.login(9, 1, &packet, &content, takes, &mut t.out), Ok(()));
    let Packet::Message(sent) = read(&t.out) else { panic!("a message") };
    assert_eq!((sent.tid, sent.mark, sent.place, sent.content), (LOGIN, Some(5), None, &content[..]));
    assert_eq!(t.relay.send(9, 1, &t.log, 39, &mut t.out), Err(18));
    assert_eq!(t.relay.send(9, 1, &t.log[..25], 40, &mut t.out), Err(20));
    assert_eq!(t.relay.send(9, 1, &t.log, 40, &mut t.out), Ok(Some(1)));
    assert_eq!(t.relay.send(9, 1, &[], 40, &mut t.out), Ok(None));
}

/// The box's opening: once, by the rule, and as many reserves as series. It doesn't look at the log.
#[test]
fn openings() {
    for (series, reserves, right) in [
        (&[][..], &[][..], false),
        (&[0], &[0], false),
        (&[1, 1], &[0, 0], false),
        (&[1, 2], &[0], false),
        (&[1], &[0, 0], false),
        (&[1], &[usize::MAX], true),
        (&[2, 1], &[usize::MAX, usize::MAX], true),
        (&[1, 2, 3, 4, 5, 6, 7, 8], &[0; 8], true),
        (&[1, 2, 3, 4, 5, 6, 7, 8, 9], &[0; 9], false),
    ] {
        let mut relay = Relay::default();
        let answer = relay.open(series, reserves);
        assert_eq!(answer, if right { Ok(()) } else { Err(11) }, "{series:?} {reserves:?}");
        assert!(right || relay == Relay::default());
        assert_eq!(relay.below.day, None);
        let before = relay;
        assert_eq!(relay.open(&[3], &[0]).is_err(), right);
        assert!(!right || relay == before);
    }
}

/// Reserves (No. 11): 11 behind 16, where an opening would come; nothing else is changed by it.
#[test]
fn forbidden_openings() {
    let mut t = Try::with(&[1, 2], &[60, 40], 99);
    let before = t.relay;
    assert_eq!(t.a(1, 5), Err(11));
    assert_eq!(t.relay.answer(1, &answer(Some(5), 1), 99), Err(16));
    assert_eq!(t.relay.answer(1, &answer(None, 1), 99), Err(15));
    assert_eq!(t.relay.answer(3, &answer(Some(5), 0), 99), Err(13));
    assert_eq!(t.relay, before);
    t.log.push(0xEE);
    assert_eq!(t.a(1, 5), Ok(0));
    let day = t.relay.below.day.unwrap();
    assert_eq!(day.open[0], Served { series: 1, reserve: 60, ..Served::default() });
    assert_eq!(day.open[1], Served { series: 2, reserve: 40, ..Served::default() });
    assert_eq!(t.login(4, 2), Ok(()));
    // An answer that opens nothing isn't forbidden by a shorter log; one of a new day is, and the seats stay in.
    t.log.truncate(50);
    assert_eq!(t.a(2, 5), Ok(0));
    assert_eq!(t.f(2, 1, 5, &f4()), Held(0));
    let before = t.relay;
    assert_eq!(t.a(2, 6), Err(11));
    assert_eq!(t.relay, before);
    assert_eq!(t.send(4, 2), Ok(None));
    // Sums that wrap don't open.
    let mut t = Try::with(&[1, 2], &[1 << 63, (1 << 63) + 50], 100);
    assert_eq!(t.a(1, 5), Err(11));
}

/// 18 by shares: the larger of used and reserve, of all series.
#[test]
fn shares() {
    let mut t = Try::with(&[1, 2], &[0, 52], 100);
    assert_eq!((t.a(1, 5), t.a(2, 5)), (Ok(0), Ok(0)));
    // 26 and 52 are 78; 52 and 52 are 104.
    assert_eq!(t.r(1, 1, 5, &f4()), message(1, &f4()));
    assert_eq!(t.r(1, 2, 5, &f4()), Refused(18));
    assert_eq!(t.r(1, 2, 5, &raw_field(0x7000, &[])), message(2, &raw_field(0x7000, &[])));
    assert_eq!(t.r(1, 3, 5, &[]), Refused(18));
    // What is reserved for 2 is there for it, and no more.
    assert_eq!(t.r(2, 1, 5, &f4()), message(1, &f4()));
    assert_eq!(t.r(2, 2, 5, &f4()), message(2, &f4()));
    assert_eq!(t.r(2, 3, 5, &[]), Refused(18));
    assert_eq!(t.relay.below.day.unwrap().used, 100);
    // A new day has its reserves again.
    assert_eq!((t.a(1, 6), t.a(2, 6)), (Ok(0), Ok(0)));
    assert_eq!(t.r(1, 1, 6, &f4()), message(1, &f4()));
    assert_eq!(t.r(1, 2, 6, &f4()), Refused(18));
}

/// One packet a call (No. 4): each seat has its own message under way; a login, a whole Send and an opening end it.
#[test]
fn packet_by_packet() {
    let long: Vec<u8> = (0..3).flat_map(|_| raw_field(0x7000, &[9; 4000])).collect();
    let field = |i: usize| &long[i * 4006..][..4006];
    let mut t = Try::new(20_000);
    assert_eq!(t.a(1, 5), Ok(0));
    for (letter, i, said) in [(b'F', 0, Held(0)), (b'C', 1, Held(0)), (b'L', 2, message(1, &long))] {
        assert_eq!(t.letter(letter, (1, 1, 5), field(i)), said);
    }
    for seat in [2, 3] {
        assert_eq!(t.login(seat, 1), Ok(()));
    }
    assert_eq!(t.step(2, 1), Ok(Some((1, false))));
    assert_eq!(t.step(2, 1), Ok(Some((1, false))));
    assert_eq!(t.relay.seats[2][0], Some(Place { next: 1, piece: 2 }));
    assert_eq!(t.relay.seats[3][0], Some(Place { next: 1, piece: 0 }));
    assert_eq!(t.step(3, 1), Ok(Some((1, false))));
    // Publishing between changes nothing of it; a refused login and one of the other seat neither.
    assert_eq!(t.r(1, 2, 5, &[]), message(2, &[]));
    assert_eq!(t.login_with(2, 1, &asked(None, Some((1, 9)))), Err(19));
    assert_eq!(t.login(3, 1), Ok(()));
    assert_eq!(t.step(2, 1), Ok(Some((1, true))));
    let Packet::Message(last) = read(&t.out) else { panic!("a message") };
    assert_eq!((last.chain, last.place, last.content), (b'L', Some(2), field(2)));
    assert_eq!(t.step(2, 1), Ok(Some((2, true))));
    assert_eq!(t.step(2, 1), Ok(None));
    // Seat 3 begins anew, by its login; then by a whole Send.
    assert_eq!(t.step(3, 1), Ok(Some((1, false))));
    assert_eq!(t.send(3, 1), Ok(Some(1)));
    assert_eq!(t.relay.seats[3][0], Some(Place { next: 2, piece: 0 }));
    // An opening below.
    assert_eq!(t.login(3, 1), Ok(()));
    assert_eq!(t.step(3, 1), Ok(Some((1, false))));
    assert_eq!(t.a(1, 6), Ok(0));
    assert_eq!(t.step(3, 1), Err(14));
    // An output of a packet's bytes is enough.
    assert_eq!(t.step(16, 1), Err(25));
}

/// Places (No. 10): compared for the next number alone, before the chain buffer and before publishing.
#[test]
fn places() {
    let placed = |letter: u8, number: u32, place: u16, content: &[u8]| {
        let mut out = vec![];
        let header = Header { tid: TID, series: 1, number, mark: Some(5) };
        write_placed(&mut out, &header, Some(place), letter, content);
        out
    };
    let narrow = raw_field(4, &[0, 1, 2]);
    let mut t = Try::new(1000);
    assert_eq!(t.a(1, 5), Ok(0));
    assert_eq!(t.given(&placed(b'S', 1, 1, &narrow)), Refused(17));
    assert_eq!(t.given(&placed(b'S', 1, 0, &narrow)), Refused(8));
    assert_eq!(t.given(&placed(b'F', 1, 0, &f4())), Held(0));
    assert_eq!(t.given(&placed(b'L', 1, 2, &f4())), Refused(17));
    assert!(!t.chain(0));
    assert_eq!(t.given(&placed(b'F', 1, 0, &f4())), Held(0));
    assert_eq!(t.given(&placed(b'C', 1, 1, &f4())), Held(0));
    assert_eq!(t.given(&placed(b'L', 1, 2, &f4())), message(1, &[f4(), f4(), f4()].concat()));
    assert_eq!(t.given(&placed(b'S', 1, 7, &f4())), Again(1));
}

/// A bufferful (No. 8): each packet as by Receive; it stops at a message, at a refusal, at a short rest, at the end.
#[test]
fn bufferfuls() {
    let mut t = Try::new(16 + 20 + 16);
    assert_eq!(t.a(1, 5), Ok(0));
    let first = packet(b'F', (1, 1, 5), TID, &f4());
    let last = packet(b'L', (1, 1, 5), TID, &f4());
    let full = packet(b'S', (1, 2, 5), TID, &f4());
    let fits = packet(b'S', (1, 2, 5), TID, &[]);
    let link = [0, 2, 0, 0, 4, 0];
    let bytes = [&first[..], &link, &last, &last, &full, &fits, &link, &first[..7]].concat();
    let mut call = |bytes: &[u8]| t.relay.receive_several(bytes, &mut t.log, &mut t.buffer);
    let mut at = first.len() + 6 + last.len();
    let stop = Stop::Message { last: 1, tid: TID, buffer: true, start: 0, len: 20 };
    assert_eq!(call(&bytes), Answer { stop, taken: at });
    // Again passes; the full log is a refusal, and its packet is taken.
    let taken = last.len() + full.len();
    assert_eq!(call(&bytes[at..]), Answer { stop: Stop::Refused(18), taken });
    at += taken;
    let stop = Stop::Message { last: 2, tid: TID, buffer: false, start: 4 + 6 + 16, len: 0 };
    assert_eq!(call(&bytes[at..]), Answer { stop, taken: fits.len() });
    at += fits.len();
    assert_eq!(call(&bytes[at..]), Answer { stop: Stop::Short(first.len() - 7), taken: 6 });
    assert_eq!(call(&[]), Answer { stop: Stop::End, taken: 0 });
    assert_eq!(t.day(), Some((5, vec![(1, 2), (2, 0)])));
}

/// States that no call made: a series that isn't open below, published apart from last, a day that is full, a day
/// without series, no mark kept.
#[test]
fn other_states() {
    let mut t = Try::new(1000);
    assert_eq!(t.a(1, 5), Ok(0));
    let start = t.relay;
    t.relay.below.day.as_mut().unwrap().open[0].series = 9;
    assert_eq!(t.r(1, 1, 5, &f4()), Refused(13));
    t.relay = start;
    t.relay.below.day = None;
    assert_eq!(t.r(1, 1, 5, &f4()), Refused(13));
    assert_eq!(t.a(1, 5), Ok(0));
    assert_eq!(t.day(), Some((5, vec![(1, 0), (2, 0)])));
    t.relay = start;
    t.relay.below.day.as_mut().unwrap().open[0].published = 1_000_000;
    assert_eq!(t.r(1, 1, 5, &f4()), Refused(21));
    t.relay = start;
    t.relay.below.day.as_mut().unwrap().open[0].published = 6;
    assert_eq!(t.r(1, 1, 5, &f4()), message(1, &f4()));
    assert_eq!(t.log[8..12], [0, 0, 0, 7]);
    t.relay = start;
    t.relay.receiving.open[0].mark = None;
    assert_eq!(t.r(1, 1, 5, &f4()), Refused(15));
    let mut untagged = vec![];
    write_packet(&mut untagged, &Header { tid: TID, series: 1, number: 1, mark: None }, b'S', &f4());
    assert_eq!(t.given(&untagged), message(1, &f4()));
    // What is held isn't whole fields, but with the last packet it is; then it isn't, by a byte.
    t.relay = start;
    assert_eq!(t.f(1, 1, 5, &f4()), Held(0));
    t.buffer[4..6].copy_from_slice(&[0, 14]);
    assert_eq!(t.l(1, 1, 5, &f4()), message(1, &[&[0, 0, 0x70, 0, 0, 14, 1, 2, 3, 4][..], &f4()].concat()));
    t.relay = start;
    assert_eq!(t.f(1, 1, 5, &f4()), Held(0));
    t.buffer[4..6].copy_from_slice(&[0, 13]);
    assert_eq!(t.l(1, 1, 5, &f4()), Refused(7));
}
