//! The worked examples of a bufferful (02, No. 8).

use super::parts::*;
use super::Script;

/// The day of the receiving end; its packets are made by hand, whatever the serving end's day is.
const TODAY: u32 = 600;
const LINK: [u8; 6] = [0, 2, 0, 0, 4, 0];

/// A packet of today's series 3.
fn piece(number: u32, chain: u8, content: &[Vec<u8>]) -> Vec<u8> {
    Parts::piece(Some(TODAY), 3, number, chain, content).bytes()
}

/// A record: series, TID, content length, content.
fn record(series: u16, tid: u32, content: &[u8]) -> Vec<u8> {
    [&series.to_be_bytes()[..], &tid.to_be_bytes(), &(content.len() as u32).to_be_bytes(), content].concat()
}

/// The worked examples of a bufferful.
pub fn examples(s: &mut Script) {
    packets(s);
    chains(s);
    packet_rests(s);
    refused_packets(s);
    records(s);
    record_rests(s);
    refused_records(s);
    bad_lines(s);
}

/// Packets one behind the other, line after line, until none is left: what each line prints.
fn received(s: &mut Script, packets: &[&[u8]], expected: &[&[&str]]) {
    let bytes = packets.concat();
    let mut rest = &bytes[..];
    for lines in expected {
        rest = &rest[s.receive_all(rest, lines)..];
    }
    assert!(rest.is_empty(), "all is taken");
}

/// Before a login, and none, one and several packets; it stops at each message.
fn packets(s: &mut Script) {
    let one = piece(1, b'S', &[plain(1)]);
    s.receive_all(&[], &["taken 0 end"]);
    s.receive_all(&LINK, &["idle", "taken 6 end"]);
    received(s, &[&LINK, &one, &LINK], &[&["idle", "refused 14", "taken 39 refused 14"], &["idle", "taken 6 end"]]);
    s.answer(3, &Parts::answer(Some(TODAY)).bytes(), "answered 0");
    received(s, &[&one], &[&["message 1", "taken 33 message"], &["taken 0 end"]]);
    // Link, skipped and repeated packets pass.
    let (two, three) = (piece(2, b'S', &[]), piece(3, b'S', &[plain(3), right(MATCH)]));
    received(
        s,
        &[&one, &LINK, &[9, 1, 0, 2, 3, 4, 5], &one, &two, &three, &two, &[1, 0, 0, 0]],
        &[
            &["again 1", "idle", "idle", "again 1", "message 2", "taken 105 message"],
            &["message 3", &format!("taken {} message", three.len())],
            &["again 3", "idle", "taken 30 end"],
        ],
    );
    // Many in one line.
    let mut lines = vec!["idle"; 2000];
    lines.push("taken 8000 end");
    s.receive_all(&[0; 8000], &lines);
}

/// A long message over two lines, and one inside a line.
fn chains(s: &mut Script) {
    let part = |number: u32, chain: u8, n: usize| piece(number, chain, &[plain(n)]);
    s.receive_all(&[part(4, b'F', 1), part(4, b'C', 2)].concat(), &["held 3", "held 3", "taken 67 end"]);
    s.states(
        "serving 1000000000 32784\nseries 9 published 1 used 32784 reserve 0 next 2 piece 0\nreceiving 4\nseries 7 none last 0 out chain none\n\
         series 1 501 last 2 out chain none\nseries 3 600 last 3 in chain 15 2\nseries 9 7 last 1 out chain none",
    );
    received(
        s,
        &[&part(4, b'L', 3), &part(5, b'F', 4), &LINK, &part(5, b'L', 5), &part(5, b'L', 5)],
        &[
            &["message 4", "taken 35 message"],
            &["held 4", "idle", "message 5", "taken 79 message"],
            &["again 5", "taken 37 end"],
        ],
    );
    s.receive_all(&[part(6, b'F', 0), part(5, b'S', 0)].concat(), &["held 5", "again 5", "taken 64 end"]);
    s.receive_all(&part(6, b'L', 0), &["refused 17", "taken 32 refused 17"]);
}

/// A rest that is short, and then whole; a header that claims what can't be is short first, then 1 or 3.
fn packet_rests(s: &mut Script) {
    let six = piece(6, b'S', &[plain(6)]);
    for (length, missing) in [(1, 3), (2, 2), (3, 1), (4, 34), (5, 33), (37, 1)] {
        s.receive_all(&six[..length], &[&format!("taken 0 short {missing}")]);
        let bytes = [&LINK[..], &six[..length]].concat();
        s.receive_all(&bytes, &["idle", &format!("taken 6 short {missing}")]);
    }
    received(s, &[&six], &[&["message 6", "taken 38 message"]]);
    s.receive_all(&[1, 128, 0, 0], &["taken 0 short 128"]);
    s.receive_all(&[&[1, 128, 0, 0][..], &[0; 127]].concat(), &["taken 0 short 1"]);
    s.receive_all(&[&[1, 128, 0, 0][..], &[0; 128]].concat(), &["refused 1", "taken 132 refused 1"]);
    s.receive_all(&[1, 0, 0, 15], &["taken 0 short 15"]);
    s.receive_all(&[&[1, 0, 0, 15][..], &[1; 15]].concat(), &["refused 3", "taken 19 refused 3"]);
    s.receive_all(&[1, 255, 255, 255], &["taken 0 short 65790"]);
    s.receive_all(&[&LINK[..], &[0, 255, 255, 255, 0]].concat(), &["idle", "taken 6 short 65789"]);
}

/// A refused packet is taken, and what was before it stays; the rest is given again.
fn refused_packets(s: &mut Script) {
    let part = |number: u32, chain: u8, n: usize| piece(number, chain, &[plain(n)]);
    let mut strange = Parts::piece(Some(TODAY), 2, 1, b'S', &[]);
    strange.version = 2;
    received(
        s,
        &[&LINK, &part(7, b'F', 1), &strange.bytes(), &part(7, b'L', 2), &part(9, b'S', 0), &part(6, b'S', 0), &LINK],
        &[
            &["idle", "held 6", "refused 4", "taken 65 refused 4"],
            &["message 7", "taken 34 message"],
            &["refused 16", "taken 32 refused 16"],
            &["again 7", "idle", "taken 38 end"],
        ],
    );
    s.connect();
    s.receive_all(&part(8, b'S', 0), &["refused 14", "taken 32 refused 14"]);
}

fn records(s: &mut Script) {
    s.open(1_000_000_001, &[9, 4], "opened");
    s.publish_all(&[], &["taken 0 end"]);
    s.publish_all(&record(4, STRANGE, &[]), &["published 1", "taken 10 end"]);
    let three = [record(9, STRANGE, &plain(1)), record(4, MATCHES, &right(MATCH)), record(9, STRANGE, &[])].concat();
    let taken = format!("taken {} end", three.len());
    s.publish_all(&three, &["published 1", "published 2", "published 2", &taken]);
    let mut lines: Vec<String> = (3..103).map(|number| format!("published {number}")).collect();
    lines.push("taken 1000 end".to_string());
    let lines: Vec<&str> = lines.iter().map(|line| &line[..]).collect();
    s.publish_all(&record(9, STRANGE, &[]).repeat(100), &lines);
}

/// A rest that is short, and then whole; a length above 32,768 is short first, then 7.
fn record_rests(s: &mut Script) {
    let one = record(4, STRANGE, &plain(0));
    for (length, missing) in [(1, 9), (3, 7), (9, 1), (10, 6), (15, 1)] {
        s.publish_all(&one[..length], &[&format!("taken 0 short {missing}")]);
    }
    s.publish_all(&[&one[..], &one[..12]].concat(), &["published 3", "taken 16 short 4"]);
    let long = record(4, STRANGE, &vec![0; 32_769]);
    s.publish_all(&long[..10], &["taken 0 short 32769"]);
    s.publish_all(&long[..long.len() - 1], &["taken 0 short 1"]);
    s.publish_all(&long, &["refused 7", "taken 32779 refused 7"]);
    s.publish_all(&[0, 4, 0, 0, 0x77, 0x77, 255, 255, 255, 255], &["taken 0 short 4294967295"]);
}

/// A refused record is taken, and those before it are in; the rest is given again.
fn refused_records(s: &mut Script) {
    let (right_one, closed) = (record(4, STRANGE, &plain(2)), record(5, STRANGE, &plain(2)));
    let bytes = [&right_one[..], &closed, &right_one, &record(4, MATCHES, &[]), &right_one].concat();
    let mut rest = &bytes[..];
    for lines in [
        &["published 4", "refused 13", "taken 36 refused 13"][..],
        &["published 5", "refused 10", "taken 28 refused 10"],
        &["published 6", "taken 18 end"],
    ] {
        rest = &rest[s.publish_all(rest, lines)..];
    }
    assert!(rest.is_empty(), "all is taken");
    // The log is full behind the first.
    let biggest = record(9, STRANGE, &[vec![plain(4074); 8], vec![plain(122)]].concat().concat());
    s.publish_all(&biggest, &["published 103", "taken 32778 end"]);
    let two = [&right_one[..], &biggest].concat();
    s.publish_all(&two, &["published 7", "refused 18", "taken 32796 refused 18"]);
}

fn bad_lines(s: &mut Script) {
    for line in [
        "receiveall",
        "receiveall ",
        "receiveall 0",
        "receiveall 0G",
        "receiveall - -",
        "receiveall 3 00000000",
        "receivealls -",
        "receiveAll -",
        "receive all -",
        "publishall",
        "publishall 000",
        "publishall 1 00007777 -",
        "publishal -",
        " publishall -",
    ] {
        s.bad(line);
    }
}
