//! The receiving end by hand: the bytes of what it asks, what it hands on, its states, short chain buffers, and numbers at
//! the end of a day.

use reader::cut::{write_packet, Header};
use reader::few::Few;
use reader::generate::{known_field_bytes, raw_field, Random};
use reader::items::known_field;
use reader::receiving::{Chain, Content, Kept, Received, Receiving};
use reader::serving::{Serving, LOGIN};

fn right(fid: u32) -> Vec<u8> {
    known_field_bytes(&mut Random::new(1), known_field(fid).unwrap())
}

fn packet(mark: Option<u32>, series: u16, number: u32, chain: u8, content: &[u8]) -> Vec<u8> {
    let mut out = vec![];
    write_packet(&mut out, &Header { tid: 0x7777, series, number, mark }, chain, content);
    out
}

fn answer(mark: u32) -> Vec<u8> {
    let mut out = vec![];
    write_packet(&mut out, &Header { tid: LOGIN, series: 0, number: 0, mark: Some(mark) }, b'S', &right(0x0027));
    out
}

/// One series, a day of mark 9, logged in.
fn end(last: u32) -> Receiving {
    let kept = Kept { series: 4, mark: Some(9), last, logged_in: true, chain: None };
    Receiving { open: Few::of([kept]).unwrap() }
}

#[test]
fn asked_bytes() {
    let request = right(0x0023);
    let mut out = vec![];
    let mut fresh = Receiving::default();
    fresh.open(&[4]).unwrap();
    fresh.ask(4, &request, 65_536, &mut out).unwrap();
    let body = 16 + request.len() + 12;
    let mut by_hand = vec![1, 0, (body >> 8) as u8, body as u8, 1, 0, 0, 0, 0x16, b'S', 0, 0, 0, 0, 0, 0, 0, 2];
    by_hand.extend(((body - 16) as u16).to_be_bytes());
    by_hand.extend(&request);
    by_hand.extend([0, 0, 0, 4, 0, 6, 0, 4, 0, 0, 0, 1]);
    assert_eq!(out, by_hand);
    // With a day: the tag, and last + 1.
    end(299).ask(4, &request, 65_536, &mut out).unwrap();
    assert_eq!(out[..10], [1, 6, (body >> 8) as u8, body as u8, 5, 4, 0, 0, 0, 9]);
    assert_eq!(out[out.len() - 6..], [0, 4, 0, 0, 1, 44]);
}

/// P10: each from last 5.
#[test]
fn bench_p10() {
    let field = raw_field(0x7777, &[1, 2]);
    let receive = |number| {
        let mut one = end(5);
        let p = packet(Some(9), 4, number, b'S', &field);
        let answer = match one.receive(&p, &mut []) {
            Ok(Received::Message { last, tid, content }) => {
                assert_eq!((tid, content), (0x7777, Content::OfPacket(&field)));
                Ok((true, last))
            }
            Ok(Received::Again(last)) => Ok((false, last)),
            Ok(other) => panic!("{other:?}"),
            Err(row) => Err(row),
        };
        (answer, one.open[0].last)
    };
    assert_eq!(receive(6), (Ok((true, 6)), 6));
    assert_eq!(receive(5), (Ok((false, 5)), 5));
    assert_eq!(receive(7), (Err(16), 5));
}

#[test]
fn last_number_of_a_day() {
    let p = |number| packet(None, 4, number, b'S', &[]);
    let mut one = end(999_999);
    assert!(matches!(one.receive(&p(1_000_000), &mut []), Ok(Received::Message { last: 1_000_000, .. })));
    assert_eq!(one.receive(&p(1_000_000), &mut []), Ok(Received::Again(1_000_000)));
    assert_eq!(one.receive(&p(1_000_001), &mut []), Err(16));
}

/// The buffer has all its parts, or nothing is held; S and "again" don't need it.
#[test]
fn chain_buffers() {
    let mut one = Receiving::default();
    one.open(&[2, 5, 3]).unwrap();
    for series in [2, 5, 3] {
        assert_eq!(one.answer(series, &answer(9)), Ok(0));
    }
    let (a, b) = (raw_field(0x7777, &[7; 100]), raw_field(0x7777, &[8; 30]));
    let mut short = vec![0; 3 * 32_768 - 1];
    let mut buffer = vec![0; 3 * 32_768];
    assert_eq!(one.receive(&packet(Some(9), 5, 1, b'F', &a), &mut short), Err(18));
    assert_eq!(one.receive(&packet(Some(9), 5, 1, b'F', &a), &mut buffer), Ok(Received::Held(0)));
    assert_eq!(one.open[1].chain, Some(Chain { tid: 0x7777, held: 106, pieces: 1 }));
    // 18 drops it: L is 17 then.
    assert_eq!(one.receive(&packet(Some(9), 5, 1, b'C', &a), &mut short), Err(18));
    assert_eq!(one.receive(&packet(Some(9), 5, 1, b'L', &b), &mut buffer), Err(17));
    assert_eq!(one.receive(&packet(Some(9), 5, 1, b'F', &a), &mut buffer), Ok(Received::Held(0)));
    let last = packet(Some(9), 5, 1, b'L', &b);
    let got = one.receive(&last, &mut buffer).unwrap();
    let whole = [&a[..], &b].concat();
    assert_eq!(got, Received::Message { last: 1, tid: 0x7777, content: Content::OfBuffer(&whole) });
    assert_eq!(buffer[32_768..32_768 + whole.len()], whole);
    assert!(buffer[..32_768].iter().chain(&buffer[32_768 + whole.len()..]).all(|&byte| byte == 0));
    assert!(short.iter().all(|&byte| byte == 0));
    assert!(one.open.iter().all(|one| one.chain.is_none()));
    assert_eq!(one.receive(&packet(Some(9), 5, 1, b'L', &b), &mut []), Ok(Received::Again(1)));
    assert_eq!(one.receive(&packet(Some(9), 2, 1, b'L', &b), &mut []), Err(17));
}

/// A day with more messages than today's, then a new one: yesterday's number isn't used.
#[test]
fn a_new_day() {
    let (request, said) = (right(0x0023), right(0x0027));
    let (mut serving, mut receiving) = (Serving::default(), Receiving::default());
    let (mut log, mut out) = (vec![0; 1000], vec![]);
    receiving.open(&[1]).unwrap();
    for (mark, count) in [(3, 5), (4, 2)] {
        serving.open(mark, &[1], &[0], 0).unwrap();
        for _ in 0..count {
            serving.publish(1, 0x7777, &[], &mut log).unwrap();
        }
        receiving.ask(1, &request, 10_000, &mut out).unwrap();
        let asked = out.clone();
        serving.login(1, &asked, &said, 10_000, &mut out).unwrap();
        assert_eq!(receiving.answer(1, &out), Ok(0));
        for number in 1..=count {
            assert_eq!(serving.send(1, &log, 10_000, &mut out), Ok(Some(number)));
            assert!(matches!(receiving.receive(&out, &mut []), Ok(Received::Message { last, .. }) if last == number));
        }
        assert_eq!(serving.send(1, &log, 0, &mut out), Ok(None));
    }
}
