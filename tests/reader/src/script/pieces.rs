//! The worked examples of every piece counted (02, No. 10).

use super::parts::*;
use super::{Script, ROOM};

/// The first of the days that the examples open, and the series.
const FIRST: u32 = 1_000_000_020;
const SERIES: u16 = 9;

/// The worked examples of every piece counted.
pub fn examples(s: &mut Script) {
    let packets = sent_places(s);
    lost(s, &packets);
    repeated(s, &packets);
    broken_off(s);
    two_days(s);
    starts(s);
    other_numbers(s);
    untagged(s);
    wrong_tags(s);
    logins(s);
    bufferfuls(s);
    s.connect();
}

/// A packet of a day of the examples, made by hand, with a place.
fn piece(mark: u32, number: u32, chain: u8, place: u16, content: &[Vec<u8>]) -> Vec<u8> {
    Parts::piece(Some(mark), SERIES, number, chain, content).placed(place).bytes()
}

fn answering(mark: u32) -> Vec<u8> {
    Parts::answer(Some(mark)).bytes()
}

fn log_in(s: &mut Script, number: u32) {
    let answer = right(ANSWER);
    s.login(SERIES, ROOM, &asking(None, Some((SERIES, number))), &answer, &format!("login {}", 26 + answer.len()));
}

/// The states, the series' own lines written by hand.
fn states(s: &mut Script, serving: &str, kept: &str) {
    s.states(&format!(
        "{serving}\nreceiving 4\nseries 7 none last 0 out chain none\nseries 1 501 last 2 out chain none\n\
         series 3 600 last 7 out chain none\nseries 9 {kept}"
    ));
}

/// A content of five packets, of 37, 4,110, 38, 4,109 and 39 bytes: no two of its fields fit into one.
fn five() -> Vec<u8> {
    [plain(1), plain(4074), plain(2), plain(4073), plain(3)].concat()
}

/// Both Sends write the place behind the day's mark, from 0 in each message, and anew where it is written anew. Gives the
/// packets of message 1.
fn sent_places(s: &mut Script) -> Vec<Vec<u8>> {
    s.open(FIRST, &[SERIES], "opened");
    s.publish(SERIES, STRANGE, &five(), "published 1");
    s.publish(SERIES, STRANGE, &plain(4), "published 2");
    log_in(s, 1);
    let lengths = [37, 4110, 38, 4109, 39];
    let mut packets = vec![];
    for (j, length) in lengths.into_iter().enumerate() {
        let word = if j + 1 < lengths.len() { "more" } else { "last" };
        let packet = s.send_packet(SERIES, ROOM, &format!("packet {length} {word}"));
        let head = [&[1, 10][..], &packet[2..4], &[5, 4], &FIRST.to_be_bytes(), &[0x70, 2, 0, j as u8]].concat();
        assert_eq!(packet[..14], head, "place {j}");
        packets.push(packet);
    }
    let single = s.send_packet(SERIES, ROOM, "packet 40 last");
    assert_eq!(single[10..14], [0x70, 2, 0, 0]);
    log_in(s, 1);
    s.send_packet(SERIES, ROOM, "packet 37 more");
    assert_eq!(s.sent(SERIES, ROOM), Some(packets.concat()), "the same bytes");
    s.begins("sent 8333");
    s.answer(SERIES, &answering(FIRST), "answered 0");
    packets
}

/// Packets lost: the first piece behind the gap is 17, and those behind it, until the first one comes again.
fn lost(s: &mut Script, packets: &[Vec<u8>]) {
    let serving = "serving 1000000020 8225\nseries 9 published 2 used 8225 reserve 0 next 2 piece 0";
    // All in the middle: before this request the message would have been handed on without them.
    s.receive(&packets[0], "held 0");
    states(s, serving, "1000000020 last 0 in chain 7 1");
    s.receive(&packets[4], "refused 17");
    states(s, serving, "1000000020 last 0 in chain none");
    s.receive(&packets[4], "refused 17");
    // One of them; the one behind it changes nothing any more.
    s.receive(&packets[0], "held 0");
    s.receive(&packets[2], "refused 17");
    s.receive(&packets[4], "refused 17");
    // The one before the last.
    for packet in &packets[..3] {
        s.receive(packet, "held 0");
    }
    states(s, serving, "1000000020 last 0 in chain 4095 3");
    s.receive(&packets[4], "refused 17");
    // The first one.
    s.receive(&packets[2], "refused 17");
}

/// Packets repeated and late.
fn repeated(s: &mut Script, packets: &[Vec<u8>]) {
    // A piece again is 17, and the chain is gone.
    s.receive(&packets[0], "held 0");
    s.receive(&packets[1], "held 0");
    s.receive(&packets[1], "refused 17");
    s.receive(&packets[2], "refused 17");
    // Two that changed places.
    s.receive(&packets[0], "held 0");
    s.receive(&packets[2], "refused 17");
    s.receive(&packets[1], "refused 17");
    // The first one again replaces what is held.
    s.receive(&packets[0], "held 0");
    s.receive(&packets[1], "held 0");
    s.receive(&packets[0], "held 0");
    s.receive(&packets[0], "held 0");
    for packet in &packets[1..4] {
        s.receive(packet, "held 0");
    }
    s.receive(&packets[4], "message 1");
    for j in [4, 2, 0, 3] {
        s.receive(&packets[j], "again 1");
    }
}

/// A transmission that is broken off and one that is sent anew: the same bytes, so that pieces of both make up the message.
fn broken_off(s: &mut Script) {
    s.open(FIRST + 1, &[SERIES], "opened");
    s.publish(SERIES, STRANGE, &[plain(5), plain(4074), plain(6)].concat(), "published 1");
    log_in(s, 1);
    let first = [s.send_packet(SERIES, ROOM, "packet 41 more"), s.send_packet(SERIES, ROOM, "packet 4110 more")];
    log_in(s, 1);
    let second = [s.send_packet(SERIES, ROOM, "packet 41 more")];
    let third = s.sent(SERIES, ROOM).expect("a message");
    s.begins("sent 4193");
    assert_eq!((&third[..41], &third[41..4151]), (&second[0][..], &first[1][..]), "the same bytes");
    s.answer(SERIES, &answering(FIRST + 1), "answered 0");
    s.receive(&second[0], "held 0");
    s.receive(&first[1], "held 0");
    s.receive(&first[1], "refused 17");
    s.receive(&first[0], "held 0");
    s.receive(&third[41..4151], "held 0");
    s.receive(&third[4151..], "message 1");
}

/// A piece of today doesn't go behind one of yesterday; a message that is handed on leaves no chain.
fn two_days(s: &mut Script) {
    let (old, new) = (FIRST + 1, FIRST + 2);
    s.receive(&piece(old, 2, b'F', 0, &[plain(1)]), "held 1");
    s.answer(SERIES, &answering(new), "answered 0");
    s.receive(&piece(new, 1, b'L', 1, &[plain(2)]), "refused 17");
    s.receive(&piece(new, 1, b'F', 0, &[plain(3)]), "held 0");
    s.receive(&piece(old, 2, b'L', 1, &[plain(2)]), "refused 15");
    s.receive(&piece(new, 1, b'L', 1, &[plain(4)]), "refused 17");
    s.receive(&piece(new, 1, b'F', 0, &[plain(3)]), "held 0");
    s.receive(&piece(new, 1, b'L', 1, &[plain(4)]), "message 1");
    s.receive(&piece(new, 2, b'C', 1, &[plain(5)]), "refused 17");
    s.receive(&piece(new, 2, b'L', 2, &[plain(6)]), "refused 17");
}

/// S and F are compared with 0, whatever is held; C and L with the pieces.
fn starts(s: &mut Script) {
    let part = |chain: u8, place: u16| piece(FIRST + 2, 2, chain, place, &[plain(1)]);
    for place in [1, 2, 255, 256, 65_535] {
        s.receive(&part(b'F', 0), "held 1");
        s.receive(&part(b'S', place), "refused 17");
        s.receive(&part(b'L', 1), "refused 17");
        s.receive(&part(b'F', 0), "held 1");
        s.receive(&part(b'F', place), "refused 17");
        s.receive(&part(b'L', 1), "refused 17");
        s.receive(&part(b'F', 0), "held 1");
        s.receive(&part(b'C', 1), "held 1");
        s.receive(&part(if place % 2 == 0 { b'C' } else { b'L' }, place + u16::from(place == 2)), "refused 17");
    }
    // A chain of another TID, with the right place.
    let mut other = Parts::piece(Some(FIRST + 2), SERIES, 2, b'L', &[plain(1)]).placed(1);
    other.tid = MATCHES;
    s.receive(&part(b'F', 0), "held 1");
    s.receive(&other.bytes(), "refused 17");
    // S in the middle of a chain.
    s.receive(&part(b'F', 0), "held 1");
    s.receive(&part(b'C', 1), "held 1");
    s.receive(&part(b'S', 0), "message 2");
}

/// 15, 16 and again come before the place.
fn other_numbers(s: &mut Script) {
    let part = |number: u32, chain: u8, place: u16| piece(FIRST + 2, number, chain, place, &[]);
    for (chain, place) in [(b'S', 3), (b'F', 1), (b'C', 0), (b'L', 65_535)] {
        s.receive(&part(2, chain, place), "again 2");
        s.receive(&part(1, chain, place), "again 2");
        s.receive(&part(0, chain, place), "refused 16");
        s.receive(&part(4, chain, place), "refused 16");
        s.receive(&piece(FIRST, 3, chain, place, &[]), "refused 15");
    }
    // A wrong place comes before a chain that is too long.
    for chain in [b'F', b'C', b'C', b'C', b'C', b'C', b'C', b'C'] {
        s.receive(&Parts::piece(None, SERIES, 3, chain, &[plain(4074)]).bytes(), "held 2");
    }
    s.receive(&piece(FIRST + 2, 3, b'C', 7, &[plain(4074)]), "refused 17");
    s.receive(&piece(FIRST + 2, 3, b'C', 8, &[plain(4074)]), "refused 17");
    for chain in [b'F', b'C', b'C', b'C', b'C', b'C', b'C', b'C'] {
        s.receive(&Parts::piece(None, SERIES, 3, chain, &[plain(4074)]).bytes(), "held 2");
    }
    s.receive(&piece(FIRST + 2, 3, b'C', 8, &[plain(4074)]), "refused 18");
}

/// Without the tag nothing is compared, and it counts as a piece; the order of the tags doesn't matter.
fn untagged(s: &mut Script) {
    let part = |chain: u8, place: u16| piece(FIRST + 2, 3, chain, place, &[plain(1)]);
    let bare = |chain: u8, extension: &[u8]| {
        let mut parts = Parts::piece(Some(FIRST + 2), SERIES, 3, chain, &[plain(2)]);
        parts.extension = extension.to_vec();
        parts.bytes()
    };
    s.receive(&bare(b'F', &[]), "held 2");
    s.receive(&part(b'C', 1), "held 2");
    s.receive(&bare(b'C', &[0x77, 0]), "held 2");
    states(
        s,
        "serving 1000000021 4119\nseries 9 published 1 used 4119 reserve 0 next 2 piece 0",
        "1000000022 last 2 in chain 23 3",
    );
    s.receive(&part(b'C', 2), "refused 17");
    s.receive(&part(b'F', 0), "held 2");
    s.receive(&bare(b'C', &[]), "held 2");
    s.receive(&part(b'C', 2), "held 2");
    let day = [&[5, 4][..], &(FIRST + 2).to_be_bytes()].concat();
    s.receive(&bare(b'C', &[&[0x70, 2, 0, 3, 0x77, 1, 0][..], &day].concat()), "held 2");
    s.receive(&bare(b'L', &[0x70, 2, 0, 4]), "message 3");
}

/// 2: another length, or two of them, in message and link packets, whatever the number; skipped ones are kept unread. The
/// chain stays.
fn wrong_tags(s: &mut Script) {
    s.receive(&piece(FIRST + 2, 4, b'F', 0, &[plain(1)]), "held 3");
    for (tags, wrong) in [
        (&[0x70, 0][..], true),
        (&[0x70, 1, 1], true),
        (&[0x70, 3, 0, 0, 1], true),
        (&[0x70, 2, 1], true),
        (&[0x70, 2, 0, 1, 0x70, 2, 0, 1], true),
        (&[0x70, 2, 0, 1, 4, 0, 0x70, 2, 0, 2], true),
        (&[0x70, 2, 0, 9], false),
        (&[0x6F, 1, 0, 0x71, 0, 0x71, 0], false),
    ] {
        let of = |number: u32| {
            let mut parts = Parts::piece(None, SERIES, number, b'L', &[plain(2)]);
            parts.extension = tags.to_vec();
            parts.bytes()
        };
        if wrong {
            s.receive(&of(4), "refused 2");
            s.receive(&of(1), "refused 2");
            s.receive(&of(99), "refused 2");
        }
        for kind in [0, 1] {
            let link = [&[kind, tags.len() as u8, 0, 0][..], tags].concat();
            s.receive(&link, if wrong { "refused 2" } else { "idle" });
        }
        s.receive(&[&[2, tags.len() as u8, 0, 0][..], tags].concat(), "idle");
        s.receive(&[&[0, tags.len() as u8, 0, 1][..], tags, &[7]].concat(), "idle");
    }
    s.receive(&piece(FIRST + 2, 4, b'L', 1, &[plain(2)]), "message 4");
}

/// In login packets and answers a right tag passes, whatever it says; a wrong one is 2. What the ends write has none.
fn logins(s: &mut Script) {
    let answer = right(ANSWER);
    let taken = format!("login {}", 26 + answer.len());
    for (tag, wrong) in [
        (&[0x70, 2, 0, 7][..], false),
        (&[0x70, 3, 0, 0, 7], true),
        (&[0x70, 0], true),
        (&[0x70, 2, 0, 0, 0x70, 2, 0, 0], true),
    ] {
        let mut login = Parts::new(Some(FIRST + 1), Some((SERIES, 1)));
        login.extension.extend(tag);
        s.login(SERIES, ROOM, &login.bytes(), &answer, if wrong { "refused 2" } else { &taken });
        let mut said = Parts::answer(Some(FIRST + 2));
        said.extension.extend(tag);
        s.answer(SERIES, &said.bytes(), if wrong { "refused 2" } else { "answered 4" });
    }
    let asked = s.asked(SERIES, ROOM, &right(REQUEST)).expect("a login packet");
    assert_eq!(asked[..10], [&[1, 6][..], &asked[2..4], &[5, 4], &(FIRST + 2).to_be_bytes()].concat());
    let said = s.logged_in(SERIES, ROOM, &asking(None, None), &answer).expect("an answer");
    assert_eq!(said[..10], [&[1, 6][..], &said[2..4], &[5, 4], &(FIRST + 1).to_be_bytes()].concat());
}

/// In a bufferful the first piece behind a gap stops the call.
fn bufferfuls(s: &mut Script) {
    let part = |chain: u8, place: u16| piece(FIRST + 2, 5, chain, place, &[plain(0)]);
    let bytes = [part(b'F', 0), part(b'C', 1), part(b'L', 3), part(b'C', 2), part(b'F', 0), part(b'L', 1)].concat();
    let mut rest = &bytes[..];
    for lines in [
        &["held 4", "held 4", "refused 17", "taken 108 refused 17"][..],
        &["refused 17", "taken 36 refused 17"],
        &["held 4", "message 5", "taken 72 message"],
    ] {
        rest = &rest[s.receive_all(rest, lines)..];
    }
    assert!(rest.is_empty(), "all is taken");
}
