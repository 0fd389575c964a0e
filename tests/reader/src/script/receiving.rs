//! The worked examples of the receiving end.

use super::parts::*;
use super::{Script, ROOM};
use crate::start::{start_field_bytes, START_FIELD};

/// The series of the receiving end, in the opening's order.
pub const SERIES: [u16; 4] = [7, 1, 3, 9];
/// A day of the receiving end; its packets are made by hand, whatever the serving end's day is.
const TODAY: u32 = 500;

/// The worked examples of the receiving end.
pub fn examples(s: &mut Script) {
    before_an_opening(s);
    openings(s);
    asks(s);
    answers(s);
    answer_packets(s);
    receives(s);
    received_packets(s);
    receive_orders(s);
    chains(s);
    dropped_chains(s);
    kept_chains(s);
    full_chains(s);
    connects(s);
}

/// A packet of today's series 1, with tag.
fn piece(number: u32, chain: u8, content: &[Vec<u8>]) -> Vec<u8> {
    Parts::piece(Some(TODAY), 1, number, chain, content).bytes()
}

/// A packet of today's series 1 with some parts changed.
fn changed_piece(number: u32, change: impl Fn(&mut Parts)) -> Vec<u8> {
    let mut parts = Parts::piece(Some(TODAY), 1, number, b'S', &[plain(2)]);
    change(&mut parts);
    parts.bytes()
}

fn answering(mark: u32) -> Vec<u8> {
    Parts::answer(Some(mark)).bytes()
}

fn changed_answer(change: impl Fn(&mut Parts)) -> Vec<u8> {
    let mut parts = Parts::answer(Some(TODAY));
    change(&mut parts);
    parts.bytes()
}

/// Checks that need no series come first; then 13.
fn before_an_opening(s: &mut Script) {
    s.connect();
    s.ask(1, ROOM, &right(REQUEST), "refused 13");
    s.ask(1, 0, &right(REQUEST), "refused 13");
    s.ask(1, ROOM, &[0], "refused 7");
    s.ask(1, ROOM, &narrow(REQUEST), "refused 8");
    s.ask(1, ROOM, &wrong(REQUEST), "refused 9");
    s.ask(1, ROOM, &[], "refused 10");
    s.answer(1, &answering(TODAY), "refused 13");
    s.answer(1, &[], "refused 12");
    s.answer(1, &Parts::answer(None).bytes(), "refused 13");
    s.answer(1, &changed_answer(|p| p.chain = b'F'), "refused 10");
    s.receive(&[], "refused 12");
    s.receive(&[0, 2, 0, 0, 4, 0], "idle");
    s.receive(&[1, 0, 0, 0], "idle");
    s.receive(&[9, 1, 0, 2, 3, 4, 5], "idle");
    s.receive(&piece(1, b'S', &[]), "refused 13");
    s.receive(&changed_piece(1, |p| p.version = 2), "refused 4");
    s.bad("ropen 7 1 x");
}

fn openings(s: &mut Script) {
    s.open_end(&[], "refused 11");
    s.open_end(&[0], "refused 11");
    s.open_end(&[7, 0], "refused 11");
    s.open_end(&[7, 3, 7], "refused 11");
    s.open_end(&[1, 2, 3, 4, 5, 6, 7, 8, 9], "refused 11");
    s.ask(7, ROOM, &right(REQUEST), "refused 13");
    s.open_end(&SERIES, "opened");
    // Once: the same series, others, and what is wrong besides.
    s.open_end(&SERIES, "refused 11");
    s.open_end(&[5], "refused 11");
    s.open_end(&[], "refused 11");
    s.ask(5, ROOM, &right(REQUEST), "refused 13");
    s.states(
        "serving 20041234 39\nseries 1 published 2 used 39 reserve 0 next 3 piece 0\nreceiving 4\nseries 7 none last 0 out chain none\n\
         series 1 none last 0 out chain none\nseries 3 none last 0 out chain none\nseries 9 none last 0 out chain none",
    );
}

/// Without a day: start 1, no tag. Rows 7 to 10, 13 and 18, each alone and before the next.
fn asks(s: &mut Script) {
    let request = right(REQUEST);
    let long = 4 + 16 + request.len() + 12;
    s.ask(1, ROOM, &request, &format!("asked {long}"));
    s.ask(1, long, &request, &format!("asked {long}"));
    s.ask(1, long - 1, &request, "refused 18");
    s.ask(1, 0, &request, "refused 18");
    // 7: not whole fields, a field too long, more than one packet holds with the start field.
    let fill = 4068 - request.len() - 6;
    s.ask(9, ROOM, &[&request[..], &plain(fill)].concat(), "asked 4100");
    s.ask(9, ROOM, &[&request[..], &plain(fill + 1)].concat(), "refused 7");
    s.ask(9, ROOM, &[&request[..], &plain(fill + 12)].concat(), "refused 7");
    s.ask(9, ROOM, &plain(4075), "refused 7");
    s.ask(9, ROOM, &request[..request.len() - 1], "refused 7");
    // 8, 9, 10.
    s.ask(1, ROOM, &narrow(REQUEST), "refused 8");
    s.ask(1, ROOM, &[&request[..], &narrow(MATCH)].concat(), "refused 8");
    s.ask(1, ROOM, &wrong(REQUEST), "refused 9");
    s.ask(1, ROOM, &[&request[..], &wrong(MATCH)].concat(), "refused 9");
    s.ask(1, ROOM, &[], "refused 10");
    s.ask(1, ROOM, &right(ANSWER), "refused 10");
    s.ask(1, ROOM, &[&request[..], &request].concat(), "refused 10");
    s.ask(1, ROOM, &[&request[..], &start_field_bytes(1, 1)].concat(), "refused 10");
    s.ask(1, ROOM, &[&start_field_bytes(3, 9)[..], &request].concat(), "refused 10");
    // 13.
    s.ask(2, ROOM, &request, "refused 13");
    s.ask(0, ROOM, &request, "refused 13");
    // Two ways at once.
    s.ask(1, ROOM, &[&narrow(REQUEST)[..], &[0]].concat(), "refused 7");
    s.ask(1, ROOM, &[wrong(REQUEST), narrow(MATCH)].concat(), "refused 8");
    s.ask(1, ROOM, &[wrong(REQUEST), start_field_bytes(1, 1)].concat(), "refused 9");
    s.ask(1, ROOM, &[request.clone(), narrow(START_FIELD)].concat(), "refused 8");
    s.ask(2, ROOM, &[], "refused 10");
    s.ask(1, 0, &[], "refused 10");
    s.ask(2, 0, &request, "refused 13");
    // Further fields pass.
    let more = [plain(0), right(MATCH), request.clone(), right(ANSWER)].concat();
    s.ask(3, ROOM, &more, &format!("asked {}", 4 + 16 + more.len() + 12));
}

/// A first day, mark 0 too; equal, higher and lower marks; Ask with tag.
fn answers(s: &mut Script) {
    let request = right(REQUEST);
    let long = 4 + 6 + 16 + request.len() + 12;
    s.answer(9, &Parts::answer(None).bytes(), "refused 15");
    s.answer(9, &answering(0), "answered 0");
    s.ask(9, ROOM, &request, &format!("asked {long}"));
    s.ask(9, long - 1, &request, "refused 18");
    s.ask(9, long, &request, &format!("asked {long}"));
    s.receive(&Parts::piece(Some(0), 9, 1, b'S', &[]).bytes(), "message 1");
    s.receive(&Parts::piece(None, 9, 2, b'S', &[plain(1)]).bytes(), "message 2");
    // An equal mark keeps last, a lower one is refused, a higher one starts a new day.
    s.answer(9, &answering(0), "answered 2");
    s.ask(9, ROOM, &request, &format!("asked {long}"));
    s.answer(9, &answering(7), "answered 0");
    s.answer(9, &answering(6), "refused 15");
    s.answer(9, &answering(0), "refused 15");
    s.answer(9, &Parts::answer(None).bytes(), "refused 15");
    s.receive(&Parts::piece(Some(0), 9, 3, b'S', &[]).bytes(), "refused 15");
    s.receive(&Parts::piece(Some(7), 9, 1, b'S', &[]).bytes(), "message 1");
    s.answer(9, &answering(7), "answered 1");
    // Each series has its own day.
    s.answer(1, &answering(3), "answered 0");
    s.answer(1, &answering(TODAY), "answered 0");
    s.states(
        "serving 20041234 39\nseries 1 published 2 used 39 reserve 0 next 3 piece 0\nreceiving 4\nseries 7 none last 0 out chain none\n\
         series 1 500 last 0 in chain none\nseries 3 none last 0 out chain none\nseries 9 7 last 1 in chain none",
    );
}

/// Answer's packet, wrong in one way each, then in two.
fn answer_packets(s: &mut Script) {
    let good = answering(TODAY);
    let long = vec![0; 128];
    s.answer(1, &good[..3], "refused 12");
    s.answer(1, &good[..good.len() - 1], "refused 12");
    s.answer(1, &[&good[..], &[0]].concat(), "refused 12");
    s.answer(1, &[0, 0, 0, 0], "refused 12");
    s.answer(1, &[1, 2, 0, 0, 4, 0], "refused 12");
    s.answer(1, &changed_answer(|p| p.kind = 0), "refused 12");
    s.answer(1, &changed_answer(|p| p.kind = 2), "refused 12");
    s.answer(1, &[&[1, 0, 0, 15][..], &[1; 15]].concat(), "refused 12");
    s.answer(1, &[&[1, 0, 0x10, 0x01][..], &[1; 4097]].concat(), "refused 12");
    s.answer(1, &changed_answer(|p| p.extension = long.clone()), "refused 1");
    s.answer(1, &changed_answer(|p| p.extension = vec![5]), "refused 2");
    s.answer(1, &changed_answer(|p| p.extension = vec![5, 3, 0, 0, 1]), "refused 2");
    s.answer(1, &changed_answer(|p| p.extension = [&p.extension[..], &p.extension].concat()), "refused 2");
    s.answer(1, &changed_answer(|p| p.version = 0), "refused 4");
    s.answer(1, &changed_answer(|p| p.chain = b'T'), "refused 5");
    s.answer(1, &changed_answer(|p| p.length += 1), "refused 6");
    s.answer(1, &changed_answer(|p| p.fields = 2), "refused 7");
    s.answer(1, &Parts::answer(Some(TODAY)).with(&[vec![0; 5]]).bytes(), "refused 7");
    s.answer(1, &Parts::answer(Some(TODAY)).with(&[narrow(ANSWER)]).bytes(), "refused 8");
    s.answer(1, &Parts::answer(Some(TODAY)).with(&[wrong(ANSWER)]).bytes(), "refused 9");
    s.answer(1, &changed_answer(|p| p.tid = 0x0017), "refused 10");
    s.answer(1, &changed_answer(|p| p.tid = STRANGE), "refused 10");
    for letter in *b"FCL" {
        s.answer(1, &changed_answer(|p| p.chain = letter), "refused 10");
    }
    s.answer(1, &Parts::answer(Some(TODAY)).with(&[]).bytes(), "refused 10");
    s.answer(1, &Parts::answer(Some(TODAY)).with(&[right(ANSWER), right(ANSWER)]).bytes(), "refused 10");
    s.answer(1, &asking(Some(TODAY), None), "refused 10");
    s.answer(2, &good, "refused 13");
    s.answer(0, &good, "refused 13");
    s.answer(1, &answering(TODAY - 1), "refused 15");
    s.answer(1, &Parts::answer(None).bytes(), "refused 15");
    s.answer(1, &changed_answer(|p| p.series = 1), "refused 16");
    s.answer(1, &changed_answer(|p| p.number = 1), "refused 16");
    // 12 before 1, 1 before 2 and 4, 2 before 4, 4 to 10 in order, 10 before 13, 13 before 15, 15 before 16.
    s.answer(1, &changed_answer(|p| (p.kind, p.extension) = (2, long.clone())), "refused 12");
    s.answer(1, &changed_answer(|p| (p.extension, p.version) = (long.clone(), 2)), "refused 1");
    s.answer(1, &changed_answer(|p| (p.extension, p.version) = (vec![5], 2)), "refused 2");
    s.answer(1, &changed_answer(|p| (p.version, p.chain) = (2, b's')), "refused 4");
    s.answer(1, &changed_answer(|p| (p.chain, p.length) = (b's', 0)), "refused 5");
    s.answer(1, &changed_answer(|p| (p.length, p.fields) = (0, 9)), "refused 6");
    let mut parts = Parts::answer(Some(TODAY)).with(&[narrow(ANSWER)]);
    parts.fields = 2;
    s.answer(1, &parts.bytes(), "refused 7");
    s.answer(1, &Parts::answer(Some(TODAY)).with(&[wrong(ANSWER), narrow(MATCH)]).bytes(), "refused 8");
    let mut parts = Parts::answer(Some(TODAY)).with(&[wrong(ANSWER)]);
    parts.chain = b'F';
    s.answer(2, &parts.bytes(), "refused 9");
    s.answer(2, &changed_answer(|p| p.tid = 0x0017), "refused 10");
    s.answer(2, &answering(TODAY - 1), "refused 13");
    s.answer(2, &changed_answer(|p| p.series = 1), "refused 13");
    s.answer(1, &changed_answer(|p| (p.extension, p.number) = (vec![], 1)), "refused 15");
    // Start fields of any series and further fields pass; so do other tags.
    let more = [right(ANSWER), start_field_bytes(3, 0), right(5), plain(0)];
    s.answer(1, &Parts::answer(Some(TODAY)).with(&more).bytes(), "answered 0");
    s.answer(1, &changed_answer(|p| p.extension.extend([0x77, 1, 1, 6, 2, 0, 0])), "answered 0");
}

/// P10 and its like: numbers around last, S.
fn receives(s: &mut Script) {
    s.receive(&piece(0, b'S', &[]), "refused 16");
    s.receive(&piece(2, b'S', &[]), "refused 16");
    for number in 1..=5 {
        s.receive(&piece(number, b'S', &[plain(number as usize)]), &format!("message {number}"));
    }
    // P10, each from last 5.
    s.receive(&piece(7, b'S', &[]), "refused 16");
    s.receive(&piece(5, b'S', &[]), "again 5");
    s.receive(&piece(1, b'S', &[]), "again 5");
    s.receive(&piece(6, b'S', &[right(MATCH), plain(0)]), "message 6");
    s.receive(&piece(6, b'S', &[]), "again 6");
    s.receive(&piece(1_000_000, b'S', &[]), "refused 16");
    s.receive(&piece(1_000_001, b'S', &[]), "refused 16");
    s.receive(&piece(u32::MAX, b'S', &[]), "refused 16");
    // Contents of no field, of wrong widths, items and counts: Receive doesn't look at them.
    s.receive(&piece(7, b'S', &[]), "message 7");
    s.receive(&changed_piece(8, |p| *p = p.clone().with(&[narrow(MATCH), wrong(REQUEST)])), "message 8");
    s.receive(&changed_piece(9, |p| p.tid = MATCHES), "message 9");
    // Without tag it counts as of the kept day; other tags pass.
    s.receive(&changed_piece(10, |p| p.extension = vec![]), "message 10");
    s.receive(&changed_piece(11, |p| p.extension = vec![0x77, 1, 1, 6, 2, 0, 0]), "message 11");
    // Other days, lower and higher.
    s.receive(&changed_piece(12, |p| p.extension = vec![5, 4, 0, 0, 0, 0]), "refused 15");
    s.receive(&changed_piece(12, |p| p.extension = vec![5, 4, 0, 0, 1, 0xF5]), "refused 15");
    s.receive(&changed_piece(1, |p| p.extension = vec![5, 4, 0xFF, 0xFF, 0xFF, 0xFF]), "refused 15");
    // Series that aren't open, one that isn't logged in.
    s.receive(&changed_piece(12, |p| p.series = 2), "refused 13");
    s.receive(&changed_piece(12, |p| p.series = 0), "refused 13");
    s.receive(&changed_piece(1, |p| p.series = 7), "refused 14");
    // Login packets and answers are of series 0.
    s.receive(&asking(Some(TODAY), Some((1, 1))), "refused 13");
    s.receive(&answering(TODAY), "refused 13");
}

/// Receive's packet, wrong in one way each; idle.
fn received_packets(s: &mut Script) {
    let good = piece(12, b'S', &[plain(2)]);
    s.receive(&good[..3], "refused 12");
    s.receive(&good[..good.len() - 1], "refused 12");
    s.receive(&[&good[..], &[0]].concat(), "refused 12");
    s.receive(&[0, 0, 0, 0, 0], "refused 12");
    s.receive(&[1, 128, 0, 0], "refused 12");
    s.receive(&[&[1, 128, 0, 0][..], &[0; 128]].concat(), "refused 1");
    s.receive(&[&[2, 128, 0, 0][..], &[0; 128]].concat(), "refused 1");
    s.receive(&[&[1, 127, 0, 0][..], &[0; 127]].concat(), "refused 2");
    s.receive(&[&[2, 127, 0, 0][..], &[0; 127]].concat(), "idle");
    s.receive(&[0, 2, 0, 0, 4, 1], "refused 2");
    s.receive(&[1, 3, 0, 0, 4, 0, 0], "refused 2");
    s.receive(&[&[0, 12, 0, 0][..], &[5, 4, 0, 0, 0, 1, 5, 4, 0, 0, 0, 1]].concat(), "refused 2");
    s.receive(&[&[1, 0, 0, 15][..], &[1; 15]].concat(), "refused 3");
    s.receive(&[&[1, 0, 0x10, 0x01][..], &[1; 4097]].concat(), "refused 3");
    s.receive(&[&[0, 0, 0, 15][..], &[1; 15]].concat(), "idle");
    s.receive(&[0, 0, 0, 0], "idle");
    s.receive(&[1, 6, 0, 0, 5, 4, 0, 0, 0, 9], "idle");
    s.receive(&[255, 1, 0, 1, 5, 1], "idle");
    s.receive(&changed_piece(12, |p| p.extension = vec![5, 3, 0, 0, 1]), "refused 2");
    s.receive(&changed_piece(12, |p| p.version = 0), "refused 4");
    s.receive(&changed_piece(12, |p| p.chain = b'l'), "refused 5");
    s.receive(&changed_piece(12, |p| p.length = 0), "refused 6");
    s.receive(&changed_piece(12, |p| p.fields = 0), "refused 7");
    s.receive(&changed_piece(12, |p| p.fields = 2), "refused 7");
    s.receive(&good, "message 12");
}

/// Receive wrong in two ways; what counts before what.
fn receive_orders(s: &mut Script) {
    let long = vec![0; 128];
    s.receive(&changed_piece(13, |p| p.extension = long.clone())[..150], "refused 12");
    s.receive(&[&[1, 128, 0, 15][..], &[0; 143]].concat(), "refused 1");
    s.receive(&[&[1, 1, 0, 15][..], &[5; 16]].concat(), "refused 3");
    s.receive(&changed_piece(13, |p| (p.extension, p.version) = (long.clone(), 2)), "refused 1");
    s.receive(&changed_piece(13, |p| (p.extension, p.version) = (vec![5], 2)), "refused 2");
    s.receive(&changed_piece(13, |p| (p.version, p.chain) = (2, b's')), "refused 4");
    s.receive(&changed_piece(13, |p| (p.chain, p.length) = (b's', 0)), "refused 5");
    s.receive(&changed_piece(13, |p| (p.length, p.fields) = (0, 9)), "refused 6");
    s.receive(&changed_piece(13, |p| (p.fields, p.series) = (9, 2)), "refused 7");
    s.receive(&changed_piece(13, |p| (p.series, p.extension) = (2, vec![5, 4, 0, 0, 0, 0])), "refused 13");
    s.receive(&changed_piece(0, |p| (p.series, p.extension) = (7, vec![5, 4, 0, 0, 0, 0])), "refused 14");
    s.receive(&changed_piece(99, |p| p.extension = vec![5, 4, 0, 0, 0, 0]), "refused 15");
    s.receive(&changed_piece(12, |p| p.extension = vec![5, 4, 0, 0, 0, 0]), "refused 15");
    s.receive(&piece(14, b'C', &[]), "refused 16");
    s.receive(&piece(0, b'L', &[]), "refused 16");
    // "again" before 17.
    s.receive(&piece(12, b'C', &[]), "again 12");
    s.receive(&piece(12, b'L', &[]), "again 12");
    s.receive(&piece(1, b'F', &[]), "again 12");
}

/// Long messages: F, C, L.
fn chains(s: &mut Script) {
    s.answer(1, &answering(TODAY), "answered 12");
    s.receive(&piece(13, b'C', &[]), "refused 17");
    s.receive(&piece(13, b'L', &[]), "refused 17");
    s.receive(&piece(13, b'F', &[plain(1), plain(2)]), "held 12");
    s.receive(&piece(13, b'C', &[plain(3)]), "held 12");
    s.receive(&piece(13, b'C', &[]), "held 12");
    s.receive(&piece(13, b'L', &[plain(4)]), "message 13");
    // The whole chain again.
    for letter in *b"FCL" {
        s.receive(&piece(13, letter, &[plain(1)]), "again 13");
    }
    // Two packets, empty ones too.
    s.receive(&piece(14, b'F', &[]), "held 13");
    s.receive(&piece(14, b'L', &[]), "message 14");
    s.receive(&piece(15, b'F', &[plain(200)]), "held 14");
    s.receive(&piece(15, b'L', &[plain(0)]), "message 15");
    // A shorter one behind a longer: only what is held is handed on.
    s.receive(&piece(16, b'F', &[plain(5)]), "held 15");
    s.receive(&piece(16, b'L', &[plain(6)]), "message 16");
    // Tagged and untagged pieces.
    s.receive(&piece(17, b'F', &[plain(7)]), "held 16");
    s.receive(&changed_piece(17, |p| (p.chain, p.extension) = (b'C', vec![])), "held 16");
    s.receive(&piece(17, b'L', &[plain(8)]), "message 17");
    // F replaces a chain, of the same TID or another.
    s.receive(&piece(18, b'F', &[plain(9)]), "held 17");
    s.receive(&piece(18, b'F', &[plain(10)]), "held 17");
    s.receive(&changed_piece(18, |p| (p.chain, p.tid) = (b'F', MATCHES)), "held 17");
    s.receive(&piece(18, b'L', &[plain(11)]), "refused 17");
    s.receive(&piece(18, b'F', &[plain(12)]), "held 17");
    s.receive(&piece(18, b'C', &[plain(13)]), "held 17");
    s.receive(&piece(18, b'F', &[plain(14)]), "held 17");
    s.receive(&piece(18, b'L', &[plain(15)]), "message 18");
    // S in the middle of a chain hands on.
    s.receive(&piece(19, b'F', &[plain(9)]), "held 18");
    s.receive(&piece(19, b'S', &[plain(10)]), "message 19");
    s.receive(&piece(20, b'L', &[]), "refused 17");
}

/// Each packet of the series other than the next piece drops the chain: behind it, C and L are 17.
fn dropped_chains(s: &mut Script) {
    let first = piece(20, b'F', &[plain(1)]);
    let mut other_tid = Parts::piece(Some(TODAY), 1, 20, b'C', &[plain(2)]);
    other_tid.tid = MATCHES;
    let mut other_last = other_tid.clone();
    other_last.chain = b'L';
    let drops: [(Vec<u8>, &str); 10] = [
        (piece(19, b'S', &[]), "again 19"),
        (piece(1, b'F', &[]), "again 19"),
        (piece(18, b'C', &[]), "again 19"),
        (piece(19, b'L', &[]), "again 19"),
        (piece(0, b'C', &[]), "refused 16"),
        (piece(21, b'C', &[]), "refused 16"),
        (changed_piece(20, |p| (p.chain, p.extension) = (b'C', vec![5, 4, 0, 0, 0, 0])), "refused 15"),
        (changed_piece(19, |p| p.extension = vec![5, 4, 0, 0, 1, 0xF5]), "refused 15"),
        (other_tid.bytes(), "refused 17"),
        (other_last.bytes(), "refused 17"),
    ];
    for (i, (packet, answer)) in drops.iter().enumerate() {
        s.receive(&first, "held 19");
        s.receive(packet, answer);
        let letter = if i % 2 == 0 { b'C' } else { b'L' };
        s.receive(&piece(20, letter, &[plain(2)]), "refused 17");
    }
    // An answer that is taken drops it too, of the same day or of a new one.
    s.receive(&first, "held 19");
    s.answer(1, &answering(TODAY), "answered 19");
    s.receive(&piece(20, b'L', &[]), "refused 17");
    s.receive(&first, "held 19");
    s.answer(1, &answering(TODAY + 1), "answered 0");
    s.receive(&piece(20, b'L', &[]), "refused 15");
    s.receive(&changed_piece(1, |p| (p.chain, p.extension) = (b'L', vec![])), "refused 17");
}

/// What leaves a chain as it is: packets of other series, refusals below 15, refused calls, idle.
fn kept_chains(s: &mut Script) {
    let part = |series: u16, chain: u8, n: usize| Parts::piece(None, series, 1, chain, &[plain(n)]).bytes();
    s.answer(3, &answering(TODAY + 1), "answered 0");
    s.receive(&part(1, b'F', 3), "held 0");
    s.receive(&part(3, b'F', 4), "held 0");
    s.receive(&part(1, b'C', 5), "held 0");
    s.receive(&part(3, b'C', 6), "held 0");
    s.states(
        "serving 20041234 39\nseries 1 published 2 used 39 reserve 0 next 3 piece 0\nreceiving 4\nseries 7 none last 0 out chain none\n\
         series 1 501 last 0 in chain 20 2\nseries 3 501 last 0 in chain 22 2\nseries 9 7 last 1 in chain none",
    );
    s.receive(&part(9, b'S', 1), "again 1");
    s.receive(&part(7, b'F', 1), "refused 14");
    s.receive(&part(2, b'F', 1), "refused 13");
    s.receive(&[], "refused 12");
    s.receive(&[&part(1, b'L', 1)[..], &[0]].concat(), "refused 12");
    s.receive(&changed_piece(1, |p| p.extension = vec![0; 128]), "refused 1");
    s.receive(&changed_piece(1, |p| p.extension = vec![5]), "refused 2");
    s.receive(&[&[1, 0, 0, 15][..], &[1; 15]].concat(), "refused 3");
    s.receive(&changed_piece(1, |p| p.version = 2), "refused 4");
    s.receive(&changed_piece(1, |p| p.chain = b'X'), "refused 5");
    s.receive(&changed_piece(1, |p| p.length = 0), "refused 6");
    s.receive(&changed_piece(1, |p| p.fields = 9), "refused 7");
    s.receive(&[0, 2, 0, 0, 4, 0], "idle");
    s.receive(&[9, 0, 0, 0], "idle");
    s.answer(1, &answering(TODAY), "refused 15");
    s.answer(1, &changed_answer(|p| p.extension = vec![]), "refused 15");
    s.answer(1, &[], "refused 12");
    s.ask(1, ROOM, &right(REQUEST), &format!("asked {}", 38 + right(REQUEST).len()));
    s.ask(1, 0, &right(REQUEST), "refused 18");
    s.open_end(&SERIES, "refused 11");
    s.receive(&part(1, b'L', 7), "message 1");
    s.receive(&part(3, b'L', 8), "message 1");
}

/// Chains of exactly 32,768 bytes, and of one more.
fn full_chains(s: &mut Script) {
    let part = |number: u32, chain: u8, n: usize| Parts::piece(None, 3, number, chain, &[plain(n - 6)]).bytes();
    for (letter, length, answer) in [(b'L', 128, "message 2"), (b'L', 129, "refused 18"), (b'C', 129, "refused 18")] {
        let last = if letter == b'L' && length == 128 { 1 } else { 2 };
        for i in 0..8 {
            s.receive(&part(last + 1, if i == 0 { b'F' } else { b'C' }, 4080), &format!("held {last}"));
        }
        s.receive(&part(last + 1, letter, length), answer);
        // 18 drops the chain.
        s.receive(&part(3, b'L', 6), "refused 17");
    }
    s.receive(&part(3, b'F', 6), "held 2");
    s.receive(&part(3, b'L', 6), "message 3");
}

/// Connect clears login and chain of all, and keeps day and last.
fn connects(s: &mut Script) {
    s.receive(&Parts::piece(None, 1, 2, b'F', &[plain(3)]).bytes(), "held 1");
    s.connect();
    s.states(
        "serving 20041234 39\nseries 1 published 2 used 39 reserve 0 next 3 piece 0\nreceiving 4\nseries 7 none last 0 out chain none\n\
         series 1 501 last 1 out chain none\nseries 3 501 last 3 out chain none\nseries 9 7 last 1 out chain none",
    );
    for series in [1, 3, 9, 7] {
        s.receive(&Parts::piece(None, series, 2, b'L', &[]).bytes(), "refused 14");
    }
    s.ask(1, ROOM, &right(REQUEST), &format!("asked {}", 38 + right(REQUEST).len()));
    s.answer(1, &answering(TODAY + 1), "answered 1");
    s.receive(&Parts::piece(None, 1, 2, b'L', &[]).bytes(), "refused 17");
    s.receive(&Parts::piece(None, 1, 2, b'S', &[]).bytes(), "message 2");
    s.receive(&Parts::piece(None, 3, 4, b'S', &[]).bytes(), "refused 14");
    s.connect();
}
