//! One packet a call (document 02, No. 4), where a script doesn't reach: logs that are damaged or altered between two packets,
//! and states that no call made. And for contents of all kinds: the packets of an undisturbed message are the whole Send's.

use reader::generate::{raw_field, Random};
use reader::serving::{OnePacket, Serving, ENTRY_HEADER};

const TID: u32 = 0x7777;

fn field(length: usize) -> Vec<u8> {
    raw_field(0x7777, &vec![7; length])
}

/// No two of its fields fit into one packet: 36, 4,105 and 38 bytes.
fn three() -> Vec<u8> {
    [field(0), field(4069), field(2)].concat()
}

/// An end of series 3 and 5, logged in to series 3 at number 1, with these contents published there.
fn end(contents: &[Vec<u8>]) -> (Serving, Vec<u8>) {
    let (mut end, mut log) = (Serving::default(), vec![0; 50_000]);
    end.open(9, &[3, 5], &[0, 0], 0).unwrap();
    for content in contents {
        end.publish(3, TID, content, &mut log).unwrap();
    }
    end.day.as_mut().unwrap().open[0].next = Some(1);
    (end, log)
}

/// Next number and place of series 3.
fn place(end: &Serving) -> (Option<u64>, u64) {
    let one = end.day.unwrap().open[0];
    (one.next, one.piece)
}

const FIRST: Result<Option<OnePacket>, u8> = Ok(Some(OnePacket { number: 1, last: false }));
const LAST: Result<Option<OnePacket>, u8> = Ok(Some(OnePacket { number: 1, last: true }));

#[test]
fn damaged_between() {
    let (mut end, log) = end(&[three(), vec![]]);
    let used = end.day.unwrap().used;
    let (mut out, mut whole) = (vec![], vec![]);
    end.clone().send(3, &log, usize::MAX, &mut whole).unwrap();
    assert_eq!(end.send_packet(3, &log, 36, &mut out), FIRST);
    assert_eq!(place(&end), (Some(1), 1));
    let first = out.clone();
    // Too short, a byte of the entry, of its fields; 20 comes before 18, and the place stays.
    let mut damaged = log.clone();
    damaged[2] = 1;
    let mut broken = log.clone();
    broken[ENTRY_HEADER + 5] = 1;
    for wrong in [&log[..used - 1], &[], &damaged, &broken] {
        assert_eq!(end.send_packet(3, wrong, usize::MAX, &mut out), Err(20));
        assert_eq!(end.send_packet(3, wrong, 0, &mut out), Err(20));
        assert_eq!(end.send(3, wrong, usize::MAX, &mut out), Err(20));
        assert_eq!(place(&end), (Some(1), 1));
    }
    // Behind the entry nothing is looked at.
    let mut behind = log.clone();
    behind[ENTRY_HEADER + three().len()..].fill(0xFF);
    assert_eq!(end.send_packet(3, &behind, 4105, &mut out), FIRST);
    let second = out.clone();
    // Whole again: it goes on with the same packet.
    assert_eq!(end.send_packet(3, &log, 38, &mut out), LAST);
    assert_eq!([first, second, out].concat(), whole);
    assert_eq!(place(&end), (Some(2), 0));
}

/// The entry has other whole fields, and fewer packets: 20 where it has none at the place.
#[test]
fn altered_between() {
    let (mut end, log) = end(&[three()]);
    let mut out = vec![];
    assert_eq!(end.send_packet(3, &log, usize::MAX, &mut out), FIRST);
    let with_length = |length: usize| {
        let mut altered = log.clone();
        altered[12..16].copy_from_slice(&(length as u32).to_be_bytes());
        altered
    };
    let (one, two) = (with_length(6), with_length(6 + 4075));
    assert_eq!(end.send_packet(3, &one, usize::MAX, &mut out), Err(20));
    assert_eq!(end.send_packet(3, &one, 0, &mut out), Err(20));
    assert_eq!(place(&end), (Some(1), 1));
    // With two packets the second is the last one.
    let mut other = end;
    assert_eq!(other.send_packet(3, &two, usize::MAX, &mut out), LAST);
    assert_eq!((place(&other), out[19], out.len()), ((Some(2), 0), b'L', 4105));
    // A whole Send takes it as it is, and leads out of it.
    assert_eq!(end.send(3, &one, usize::MAX, &mut out), Ok(Some(1)));
    assert_eq!((place(&end), out.len()), ((Some(2), 0), 36));
}

#[test]
fn any_place() {
    let (start, log) = end(&[three()]);
    let mut out = vec![];
    for piece in [3, 4, 17, u64::from(u32::MAX), 1 << 32, u64::MAX] {
        let mut end = start;
        end.day.as_mut().unwrap().open[0].piece = piece;
        assert_eq!(end.send_packet(3, &log, usize::MAX, &mut out), Err(20));
        assert_eq!(place(&end), (Some(1), piece));
        // 13, 14 and none come first.
        assert_eq!(end.send_packet(4, &log, usize::MAX, &mut out), Err(13));
        assert_eq!(end.send_packet(5, &log, usize::MAX, &mut out), Err(14));
        end.day.as_mut().unwrap().open[0].next = Some(2);
        assert_eq!(end.send_packet(3, &[], 0, &mut out), Ok(None));
        assert_eq!(place(&end), (Some(2), piece));
        // Out of it leads a whole Send.
        end.day.as_mut().unwrap().open[0].next = Some(1);
        assert_eq!(end.send(3, &log, usize::MAX, &mut out), Ok(Some(1)));
        assert_eq!(place(&end), (Some(2), 0));
    }
}

#[test]
fn undisturbed() {
    let mut r = Random::new(4);
    for _ in 0..500 {
        let mut content = vec![];
        while content.len() < 24_000 && !r.once_in(8) {
            let length = if r.once_in(2) { r.below(4075) } else { r.pick(&[0, 1, 4074, 2034, 2035, 4068]) };
            content.extend(field(length));
        }
        let (mut end, log) = end(&[content]);
        let (mut whole, mut packets, mut out) = (vec![], vec![], vec![]);
        end.clone().send(3, &log, usize::MAX, &mut whole).unwrap();
        while let Some(one) = end.send_packet(3, &log, usize::MAX, &mut out).unwrap() {
            packets.extend_from_slice(&out);
            assert_eq!(one.last, place(&end) == (Some(2), 0));
        }
        assert_eq!(packets, whole);
    }
}
