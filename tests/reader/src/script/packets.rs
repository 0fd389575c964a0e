//! The worked examples of one packet a call (02, No. 4).

use super::parts::*;
use super::{Script, ROOM};

/// The first of the days that the examples open.
const FIRST: u32 = 1_000_000_002;
/// What the receiving end is all the time, but for the last example.
const RECEIVING: &str = "receiving 4\nseries 7 none last 0 out chain none\nseries 1 501 last 2 out chain none\n\
     series 3 600 last 7 out chain none\nseries 9 7 last 1 out chain none";

/// The worked examples of one packet a call.
pub fn examples(s: &mut Script) {
    orders(s);
    undisturbed(s);
    one_packet(s);
    rooms(s);
    logins(s);
    openings(s);
    whole_sends(s);
    publications(s);
    two_series(s);
    last_message(s);
    biggest(s);
    over_the_line(s);
    bad_lines(s);
}

/// A content of three packets, of 36 + n, 4,105 and 37 + n bytes: no two of its fields fit into one.
fn three(n: usize) -> Vec<u8> {
    [plain(n), plain(4069), plain(n + 1)].concat()
}

/// Login of a series at a number.
fn log_in(s: &mut Script, series: u16, number: u32) {
    let answer = right(ANSWER);
    s.login(series, ROOM, &asking(None, Some((series, number))), &answer, &format!("login {}", 26 + answer.len()));
}

/// The serving end's lines of `state`, written by hand.
fn places(s: &mut Script, serving: &str) {
    s.states(&format!("{serving}\n{RECEIVING}"));
}

/// 13, 14 and none come before the output is looked at.
fn orders(s: &mut Script) {
    s.open(FIRST, &[9, 4], "opened");
    s.send_packet(5, ROOM, "refused 13");
    s.send_packet(0, 0, "refused 13");
    s.send_packet(9, ROOM, "refused 14");
    s.send_packet(9, 0, "refused 14");
    log_in(s, 9, 1);
    s.send_packet(9, ROOM, "none");
    s.send_packet(9, 0, "none");
    s.publish(4, STRANGE, &three(0), "published 1");
    s.send_packet(9, ROOM, "none");
    s.send_packet(4, ROOM, "refused 14");
    places(
        s,
        "serving 1000000002 4104\nseries 9 published 0 used 0 reserve 0 next 1 piece 0\n\
         series 4 published 1 used 4104 reserve 0 next out piece 0",
    );
}

/// The packets of an undisturbed message are those that the whole Send writes.
fn undisturbed(s: &mut Script) {
    s.publish(9, STRANGE, &three(1), "published 1");
    let line = |next: u64, piece: u64| {
        format!(
            "serving 1000000002 8210\nseries 9 published 1 used 4106 reserve 0 next {next} piece {piece}\n\
             series 4 published 1 used 4104 reserve 0 next out piece 0"
        )
    };
    let mut packets = s.send_packet(9, ROOM, "packet 37 more");
    places(s, &line(1, 1));
    packets.extend(s.send_packet(9, ROOM, "packet 4105 more"));
    places(s, &line(1, 2));
    packets.extend(s.send_packet(9, ROOM, "packet 38 last"));
    places(s, &line(2, 0));
    s.send_packet(9, ROOM, "none");
    s.send(9, ROOM, "none");
    log_in(s, 9, 1);
    assert_eq!(s.sent(9, ROOM), Some(packets), "the same bytes");
    s.begins("sent 4180");
}

/// Messages of one packet step on at once; whole and packet by packet in turn.
fn one_packet(s: &mut Script) {
    s.open(FIRST + 1, &[9], "opened");
    s.publish(9, STRANGE, &[], "published 1");
    s.publish(9, STRANGE, &plain(3), "published 2");
    s.publish(9, MATCHES, &right(MATCH), "published 3");
    // P12: one packet, then two.
    s.publish(9, STRANGE, &[plain(2034), plain(2034)].concat(), "published 4");
    s.publish(9, STRANGE, &[plain(2034), plain(2035)].concat(), "published 5");
    s.publish(9, STRANGE, &plain(4), "published 6");
    log_in(s, 9, 1);
    s.send_packet(9, ROOM, "packet 30 last");
    s.send_packet(9, ROOM, "packet 39 last");
    s.send(9, ROOM, &format!("sent {}", 30 + right(MATCH).len()));
    s.send_packet(9, ROOM, "packet 4110 last");
    s.send_packet(9, ROOM, "packet 2070 more");
    s.send_packet(9, ROOM, "packet 2071 last");
    s.send(9, ROOM, "sent 40");
    s.send_packet(9, ROOM, "none");
    log_in(s, 9, 3);
    s.send_packet(9, ROOM, &format!("packet {} last", 30 + right(MATCH).len()));
    s.send(9, ROOM, "sent 4110");
    s.send(9, ROOM, "sent 4141");
    s.send_packet(9, ROOM, "packet 40 last");
    s.send(9, ROOM, "none");
}

/// 18 counts the packet at hand alone, and a call refused with it is simply made again.
fn rooms(s: &mut Script) {
    s.open(FIRST + 2, &[9], "opened");
    s.publish(9, STRANGE, &three(1), "published 1");
    s.publish(9, STRANGE, &[], "published 2");
    log_in(s, 9, 1);
    s.send_packet(9, 0, "refused 18");
    s.send_packet(9, 36, "refused 18");
    s.send_packet(9, 37, "packet 37 more");
    s.send_packet(9, 37, "refused 18");
    s.send_packet(9, 4104, "refused 18");
    s.send(9, 4105, "refused 18");
    s.send_packet(9, 4105, "packet 4105 more");
    places(s, "serving 1000000004 4122\nseries 9 published 2 used 4122 reserve 0 next 1 piece 2");
    s.send_packet(9, 37, "refused 18");
    s.send_packet(9, 0, "refused 18");
    s.send_packet(9, 38, "packet 38 last");
    s.send_packet(9, 29, "refused 18");
    s.send_packet(9, 30, "packet 30 last");
    s.send_packet(9, 0, "none");
}

/// A login of that series ends the unfinished message: the next packet is the first of the one that it starts at. One of
/// another series doesn't, and a refused one neither.
fn logins(s: &mut Script) {
    let answer = right(ANSWER);
    s.open(FIRST + 3, &[4, 9], "opened");
    for n in 1..=3 {
        s.publish(9, STRANGE, &three(n), &format!("published {n}"));
    }
    s.publish(4, STRANGE, &[], "published 1");
    log_in(s, 9, 2);
    s.send_packet(9, ROOM, "packet 38 more");
    // That very number: from its first packet on.
    log_in(s, 9, 2);
    places(
        s,
        "serving 1000000005 12340\nseries 4 published 1 used 16 reserve 0 next out piece 0\n\
         series 9 published 3 used 12324 reserve 0 next 2 piece 0",
    );
    let first = s.send_packet(9, ROOM, "packet 38 more");
    let second = s.send_packet(9, ROOM, "packet 4105 more");
    // An earlier one, a later one.
    log_in(s, 9, 1);
    s.send_packet(9, ROOM, "packet 37 more");
    log_in(s, 9, 3);
    s.send_packet(9, ROOM, "packet 39 more");
    // Of an earlier day: from the day's first message on.
    let stale = asking(Some(FIRST + 2), Some((9, 3)));
    s.login(9, ROOM, &stale, &answer, &format!("login {}", 26 + answer.len()));
    s.send_packet(9, ROOM, "packet 37 more");
    // Behind the last: none, until something is published.
    log_in(s, 9, 4);
    s.send_packet(9, ROOM, "none");
    s.publish(9, STRANGE, &three(4), "published 4");
    s.send_packet(9, ROOM, "packet 40 more");
    // Refused logins, and a login of another series.
    log_in(s, 9, 2);
    assert_eq!(s.send_packet(9, ROOM, "packet 38 more"), first);
    s.login(9, ROOM, &asking(None, Some((9, 6))), &answer, "refused 19");
    s.login(9, ROOM, &asking(None, Some((9, 0))), &answer, "refused 19");
    s.login(9, 25, &asking(None, Some((9, 1))), &answer, "refused 18");
    s.login(9, ROOM, &asking(Some(FIRST + 4), Some((9, 1))), &answer, "refused 15");
    s.login(9, ROOM, &asking(None, Some((4, 1))), &answer, "refused 13");
    s.login(9, ROOM, &[], &answer, "refused 12");
    log_in(s, 4, 1);
    places(
        s,
        "serving 1000000005 16452\nseries 4 published 1 used 16 reserve 0 next 1 piece 0\n\
         series 9 published 4 used 16436 reserve 0 next 2 piece 1",
    );
    assert_eq!(s.send_packet(9, ROOM, "packet 4105 more"), second);
    log_in(s, 4, 2);
    s.send_packet(9, ROOM, "packet 39 last");
    s.send_packet(9, ROOM, "packet 39 more");
}

/// An opening ends what is unfinished; a refused one doesn't.
fn openings(s: &mut Script) {
    s.open(FIRST + 4, &[9, 4], "opened");
    s.send_packet(9, ROOM, "refused 14");
    places(
        s,
        "serving 1000000006 0\nseries 9 published 0 used 0 reserve 0 next out piece 0\n\
         series 4 published 0 used 0 reserve 0 next out piece 0",
    );
    s.publish(9, STRANGE, &three(5), "published 1");
    s.publish(4, STRANGE, &three(6), "published 1");
    s.send_packet(9, ROOM, "refused 14");
    log_in(s, 9, 1);
    log_in(s, 4, 1);
    s.send_packet(9, ROOM, "packet 41 more");
    s.send_packet(4, ROOM, "packet 42 more");
    s.open(FIRST + 4, &[9, 4], "refused 11");
    s.open(FIRST + 5, &[9, 9], "refused 11");
    s.send_packet(9, ROOM, "packet 4105 more");
    s.open(FIRST + 5, &[4, 9], "opened");
    places(
        s,
        "serving 1000000007 0\nseries 4 published 0 used 0 reserve 0 next out piece 0\n\
         series 9 published 0 used 0 reserve 0 next out piece 0",
    );
    s.publish(9, STRANGE, &three(7), "published 1");
    log_in(s, 9, 1);
    s.send_packet(9, ROOM, "packet 43 more");
}

/// A whole Send writes the unfinished message anew from its first packet, and steps over it.
fn whole_sends(s: &mut Script) {
    s.publish(9, STRANGE, &three(8), "published 2");
    s.publish(9, STRANGE, &three(9), "published 3");
    s.publish(4, STRANGE, &three(1), "published 1");
    log_in(s, 4, 1);
    // Too small: the message goes on.
    s.send(9, 4191, "refused 18");
    s.send_packet(9, ROOM, "packet 4105 more");
    // Of another series: the message goes on.
    s.send(4, ROOM, "sent 4180");
    places(
        s,
        "serving 1000000007 16466\nseries 4 published 1 used 4106 reserve 0 next 2 piece 0\n\
         series 9 published 3 used 12360 reserve 0 next 1 piece 2",
    );
    s.send(9, 4192, "sent 4192");
    places(
        s,
        "serving 1000000007 16466\nseries 4 published 1 used 4106 reserve 0 next 2 piece 0\n\
         series 9 published 3 used 12360 reserve 0 next 2 piece 0",
    );
    s.send_packet(9, ROOM, "packet 44 more");
    s.send(9, ROOM, "sent 4194");
    s.send_packet(9, ROOM, "packet 45 more");
    s.send_packet(9, ROOM, "packet 4105 more");
    s.send_packet(9, ROOM, "packet 46 last");
    s.send_packet(9, ROOM, "none");
    s.send(9, ROOM, "none");
}

/// Publishing meanwhile, taken and refused, in that series and another: the packets still to come are the same.
fn publications(s: &mut Script) {
    s.open(FIRST + 6, &[9, 4], "opened");
    s.publish(4, STRANGE, &plain(1), "published 1");
    s.publish(9, STRANGE, &three(3), "published 1");
    log_in(s, 9, 1);
    let whole = s.sent(9, ROOM).expect("a message");
    s.begins("sent 4184");
    log_in(s, 9, 1);
    let mut packets = s.send_packet(9, ROOM, "packet 39 more");
    s.publish(9, STRANGE, &three(2), "published 2");
    s.publish(4, STRANGE, &three(2), "published 2");
    packets.extend(s.send_packet(9, ROOM, "packet 4105 more"));
    s.publish(9, MATCHES, &[], "refused 10");
    s.publish(5, STRANGE, &[], "refused 13");
    s.publish(9, STRANGE, &vec![plain(4074); 8].concat(), "refused 18");
    let record = [&[0, 9, 0, 0, 0x77, 0x77, 0, 0, 0, 6][..], &plain(0)].concat();
    s.publish_all(&[&record[..], &record].concat(), &["published 3", "published 4", "taken 32 end"]);
    places(
        s,
        "serving 1000000008 12393\nseries 9 published 4 used 8262 reserve 0 next 1 piece 2\n\
         series 4 published 2 used 4131 reserve 0 next out piece 0",
    );
    packets.extend(s.send_packet(9, ROOM, "packet 40 last"));
    assert_eq!(packets, whole, "the same bytes");
    s.send_packet(9, ROOM, "packet 38 more");
    s.send_packet(9, ROOM, "packet 4105 more");
    s.send_packet(9, ROOM, "packet 39 last");
    s.send_packet(9, ROOM, "packet 36 last");
    s.send_packet(9, ROOM, "packet 36 last");
    s.send_packet(9, ROOM, "none");
}

/// Each series has its own place.
fn two_series(s: &mut Script) {
    s.open(FIRST + 7, &[4, 9, 2], "opened");
    s.publish(9, STRANGE, &three(1), "published 1");
    s.publish(4, STRANGE, &three(11), "published 1");
    s.publish(2, STRANGE, &three(21), "published 1");
    for series in [4, 9] {
        log_in(s, series, 1);
    }
    let mut nine = s.send_packet(9, ROOM, "packet 37 more");
    let mut four = s.send_packet(4, ROOM, "packet 47 more");
    s.send_packet(2, ROOM, "refused 14");
    four.extend(s.send_packet(4, ROOM, "packet 4105 more"));
    nine.extend(s.send_packet(9, ROOM, "packet 4105 more"));
    s.send_packet(5, ROOM, "refused 13");
    places(
        s,
        "serving 1000000009 12378\nseries 4 published 1 used 4126 reserve 0 next 1 piece 2\n\
         series 9 published 1 used 4106 reserve 0 next 1 piece 2\n\
         series 2 published 1 used 4146 reserve 0 next out piece 0",
    );
    nine.extend(s.send_packet(9, ROOM, "packet 38 last"));
    s.send_packet(9, ROOM, "none");
    four.extend(s.send_packet(4, ROOM, "packet 48 last"));
    for (series, packets) in [(4, four), (9, nine)] {
        log_in(s, series, 1);
        assert_eq!(s.sent(series, ROOM), Some(packets), "the same bytes");
    }
}

/// The last message, unfinished, has not been stepped over: neither form answers none.
fn last_message(s: &mut Script) {
    s.open(FIRST + 8, &[9], "opened");
    s.publish(9, STRANGE, &three(2), "published 1");
    log_in(s, 9, 1);
    s.send_packet(9, ROOM, "packet 38 more");
    s.send_packet(9, ROOM, "packet 4105 more");
    s.send_packet(9, 0, "refused 18");
    s.send(9, 0, "refused 18");
    s.send_packet(9, ROOM, "packet 39 last");
    s.send_packet(9, ROOM, "none");
    log_in(s, 9, 1);
    s.send_packet(9, ROOM, "packet 38 more");
    s.send(9, ROOM, "sent 4182");
    s.send(9, ROOM, "none");
    s.send_packet(9, ROOM, "none");
}

/// The biggest message there is, packet by packet: an output of 4,110 bytes is never too small.
fn biggest(s: &mut Script) {
    s.open(FIRST + 9, &[9], "opened");
    let mut content: Vec<u8> = (0..8).flat_map(|_| [plain(0), plain(4069)].concat()).collect();
    content.extend(plain(114));
    s.publish(9, STRANGE, &content, "published 1");
    s.publish(9, STRANGE, &[plain(4074), plain(0)].concat(), "published 2");
    log_in(s, 9, 1);
    for _ in 0..8 {
        s.send_packet(9, 4110, "packet 36 more");
        s.send_packet(9, 4110, "packet 4105 more");
    }
    s.send_packet(9, 4110, "packet 150 last");
    s.send_packet(9, 4109, "refused 18");
    s.send_packet(9, 4110, "packet 4110 more");
    s.send_packet(9, 4110, "packet 36 last");
    s.send_packet(9, 4110, "none");
}

/// Handed over as they are written. A connection of the receiving end, and its login, disturb the run alone.
fn over_the_line(s: &mut Script) {
    let day = Parts::answer(Some(FIRST + 10)).bytes();
    s.open(FIRST + 10, &[9], "opened");
    s.publish(9, STRANGE, &three(1), "published 1");
    s.publish(9, STRANGE, &three(2), "published 2");
    log_in(s, 9, 1);
    s.answer(9, &day, "answered 0");
    let mut packets = vec![];
    for (written, taken) in
        [("packet 37 more", "held 0"), ("packet 4105 more", "held 0"), ("packet 38 last", "message 1")]
    {
        packets.push(s.send_packet(9, ROOM, written));
        s.receive(&packets[packets.len() - 1], taken);
    }
    // Broken off by the connection; the message goes on, and its last packet has no chain.
    let first = s.send_packet(9, ROOM, "packet 38 more");
    s.receive(&first, "held 1");
    s.connect();
    s.answer(9, &day, "answered 1");
    let second = s.send_packet(9, ROOM, "packet 4105 more");
    s.receive(&second, "refused 17");
    let third = s.send_packet(9, ROOM, "packet 39 last");
    s.receive(&third, "refused 17");
    // The same packets as a run.
    for (packet, taken) in [(first, "held 1"), (second, "held 1"), (third, "message 2")] {
        s.receive(&packet, taken);
    }
    for packet in packets {
        s.receive(&packet, "again 2");
    }
    s.connect();
}

fn bad_lines(s: &mut Script) {
    for line in [
        "sendpacket",
        "sendpacket ",
        "sendpacket 9",
        "sendpacket 9 ",
        "sendpacket 9 65537",
        "sendpacket 9 100 1",
        "sendpacket 65536 100",
        "sendpacket x 100",
        "sendpacket 9 x",
        "sendpacket 9 -",
        "sendpacket  9 100",
        " sendpacket 9 100",
        "sendpackets 9 100",
        "sendPacket 9 100",
        "sendpacke 9 100",
        "send packet 9 100",
    ] {
        s.bad(line);
    }
}
