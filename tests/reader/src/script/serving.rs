//! The worked examples of the serving end.

use super::parts::*;
use super::{Script, LOG, ROOM};
use crate::generate::raw_field;
use crate::serving::LOGIN;
use crate::start::{start_field_bytes, START_FIELD};

/// The worked examples of the serving end.
pub fn examples(s: &mut Script) {
    before_an_opening(s);
    openings(s);
    publications(s);
    login_starts(s);
    login_packets(s);
    login_orders(s);
    sends(s);
    full_log(s);
    bad_lines(s);
}

fn before_an_opening(s: &mut Script) {
    let answer = right(ANSWER);
    s.publish(1, STRANGE, &[], "refused 13");
    s.publish(1, STRANGE, &narrow(MATCH), "refused 8");
    s.login(1, ROOM, &asking(None, None), &answer, "refused 13");
    s.login(1, ROOM, &asking(Some(DAY), None), &answer, "refused 13");
    s.login(1, ROOM, &[], &answer, "refused 12");
    s.send(1, ROOM, "refused 13");
    s.send_packet(1, ROOM, "refused 13");
}

/// 11, wrong in one way each and in two; marks that are first, higher, equal and lower.
fn openings(s: &mut Script) {
    let answer = right(ANSWER);
    s.open(5, &[], "refused 11");
    s.open(5, &[0], "refused 11");
    s.open(5, &[1, 0], "refused 11");
    s.open(5, &[7, 3, 7], "refused 11");
    s.open(5, &[1, 2, 3, 4, 5, 6, 7, 8, 9], "refused 11");
    s.open(5, &[0, 2, 3, 4, 5, 6, 7, 8, 0], "refused 11");
    s.send(1, ROOM, "refused 13");
    s.open(0, &[2], "opened");
    s.open(0, &[2], "refused 11");
    s.open(5, &[65_535, 1, 2, 300, 4, 5, 6, 7], "opened");
    s.publish(300, STRANGE, &plain(3), "published 1");
    s.login(300, ROOM, &asking(None, None), &answer, &format!("login {}", 26 + answer.len()));
    s.open(5, &[300], "refused 11");
    s.open(4, &[300], "refused 11");
    s.open(4, &[], "refused 11");
    s.open(6, &[0], "refused 11");
    // A refused opening leaves day, log and logins.
    s.send(300, ROOM, "sent 39");
    s.send(300, ROOM, "none");
    s.publish(300, STRANGE, &[], "published 2");
    // An opening empties log and logins; a series that it doesn't name is closed.
    s.open(6, &[300, 1], "opened");
    s.send(300, ROOM, "refused 14");
    s.send(2, ROOM, "refused 13");
    s.publish(300, STRANGE, &[], "published 1");
}

/// The biggest message there is (02, No. 5): each field a packet of its own, 17 packets of 33,278 bytes together with
/// their places; an output of one byte less is too small.
pub fn biggest(s: &mut Script) {
    let answer = right(ANSWER);
    let mut content: Vec<u8> = (0..8).flat_map(|_| [plain(0), plain(4069)].concat()).collect();
    content.extend(plain(114));
    s.open(1_000_000_000, &[9], "opened");
    s.publish(9, STRANGE, &content, "published 1");
    s.login(9, ROOM, &asking(None, Some((9, 1))), &answer, &format!("login {}", 26 + answer.len()));
    s.send(9, 33_277, "refused 18");
    s.send(9, 33_278, "sent 33278");
    s.send(9, 33_278, "none");
}

/// Marks up to the highest; no day comes behind it.
pub fn last_marks(s: &mut Script) {
    s.open(u32::MAX - 1, &[9], "opened");
    s.open(u32::MAX, &[9], "opened");
    s.open(u32::MAX, &[9], "refused 11");
    s.login(9, ROOM, &asking(Some(u32::MAX), None), &right(ANSWER), &format!("login {}", 26 + right(ANSWER).len()));
}

/// Rows 7 to 10, 13 and 18, each alone and before the next; contents of every length.
fn publications(s: &mut Script) {
    s.open(DAY - 1, &[1, 2], "opened");
    let (row, bulletin) = (right(MATCH), right(0x0001));
    // Contents that pass: none, short, several packets, known fields, unlisted fields.
    s.publish(1, STRANGE, &[], "published 1");
    s.publish(1, STRANGE, &plain(0), "published 2");
    s.publish(2, STRANGE, &plain(1), "published 1");
    s.publish(1, 0x2004, &[], "published 3");
    s.publish(1, MATCHES, &row, "published 4");
    s.publish(1, MATCHES, &[&row[..], &row, &plain(9), &bulletin].concat(), "published 5");
    s.publish(2, BULLETIN, &bulletin, "published 2");
    s.publish(2, LOGIN, &right(ANSWER), "published 3");
    s.publish(1, STRANGE, &[plain(2034), plain(2034)].concat(), "published 6");
    s.publish(1, STRANGE, &[plain(2034), plain(2035)].concat(), "published 7");
    s.publish(2, STRANGE, &[plain(4074), plain(0), plain(4074)].concat(), "published 4");
    // 7: not whole fields, a field too long, too long in all.
    s.publish(1, STRANGE, &[0], "refused 7");
    s.publish(1, STRANGE, &plain(5)[..10], "refused 7");
    s.publish(1, STRANGE, &[plain(5), vec![0; 5]].concat(), "refused 7");
    s.publish(1, STRANGE, &plain(4075), "refused 7");
    s.publish(1, STRANGE, &[vec![plain(4074); 8], vec![plain(122)]].concat().concat(), "refused 18");
    s.publish(1, STRANGE, &[vec![plain(4074); 8], vec![plain(123)]].concat().concat(), "refused 7");
    // 8, 9, 10.
    s.publish(1, MATCHES, &narrow(MATCH), "refused 8");
    s.publish(1, STRANGE, &raw_field(START_FIELD, &[0, 1, 2]), "refused 8");
    s.publish(1, MATCHES, &wrong(MATCH), "refused 9");
    s.publish(1, STRANGE, &wrong(MATCH), "refused 9");
    s.publish(1, MATCHES, &[], "refused 10");
    s.publish(1, MATCHES, &[&row[..], &right(5), &right(5)].concat(), "refused 10");
    s.publish(1, BULLETIN, &[bulletin.clone(), bulletin.clone()].concat(), "refused 10");
    // 13.
    s.publish(3, STRANGE, &[], "refused 13");
    s.publish(0, STRANGE, &[], "refused 13");
    // Two ways at once: the lower number counts, wherever in the content it stands.
    s.publish(3, STRANGE, &[narrow(MATCH), vec![0]].concat(), "refused 7");
    s.publish(1, MATCHES, &[wrong(MATCH), narrow(MATCH)].concat(), "refused 8");
    s.publish(1, MATCHES, &[narrow(MATCH), right(5), right(5)].concat(), "refused 8");
    s.publish(1, BULLETIN, &[wrong(1), bulletin.clone()].concat(), "refused 9");
    s.publish(3, MATCHES, &wrong(MATCH), "refused 9");
    s.publish(3, MATCHES, &[], "refused 10");
    // What was refused changed nothing.
    s.publish(1, STRANGE, &[], "published 8");
}

/// Every kind of start.
fn login_starts(s: &mut Script) {
    let answer = right(ANSWER);
    let taken = format!("login {}", 26 + answer.len());
    s.open(DAY, &[1, 2], "opened");
    // With nothing published.
    s.login(1, ROOM, &asking(None, None), &answer, &taken);
    s.send(1, ROOM, "none");
    s.login(1, ROOM, &asking(None, Some((1, 1))), &answer, &taken);
    s.login(1, ROOM, &asking(None, Some((1, 2))), &answer, "refused 19");
    s.login(1, ROOM, &asking(None, Some((1, 0))), &answer, "refused 19");
    for (i, series) in [1, 1, 2, 1, 1].into_iter().enumerate() {
        let number = [1, 2, 1, 3, 4][i];
        s.publish(series, STRANGE, &plain(i), &format!("published {number}"));
    }
    // P11: four published; next 5 logs in and Send has none, 6 is 19.
    s.login(1, ROOM, &asking(Some(DAY), Some((1, 5))), &answer, &taken);
    s.send(1, ROOM, "none");
    s.login(1, ROOM, &asking(Some(DAY), Some((1, 6))), &answer, "refused 19");
    s.send(1, ROOM, "none");
    s.login(1, ROOM, &asking(Some(DAY), Some((1, 0))), &answer, "refused 19");
    s.login(1, ROOM, &asking(Some(DAY), Some((1, u32::MAX))), &answer, "refused 19");
    // Next 1, in the middle, and the last one; a login again moves the start.
    s.login(1, ROOM, &asking(Some(DAY), Some((1, 1))), &answer, &taken);
    s.send(1, ROOM, "sent 36");
    s.login(1, ROOM, &asking(Some(DAY), Some((1, 3))), &answer, &taken);
    s.send(1, ROOM, "sent 39");
    s.send(1, ROOM, "sent 40");
    s.send(1, ROOM, "none");
    s.login(1, ROOM, &asking(None, Some((1, 4))), &answer, &taken);
    s.send(1, ROOM, "sent 40");
    s.login(1, ROOM, &asking(Some(DAY), None), &answer, &taken);
    s.send(1, ROOM, "sent 36");
    // A lower mark starts at 1, whatever the number says.
    for number in [0, 1, 3, 6, u32::MAX] {
        s.login(1, ROOM, &asking(Some(DAY - 1), Some((1, number))), &answer, &taken);
        s.send(1, ROOM, "sent 36");
    }
    s.login(1, ROOM, &asking(Some(0), None), &answer, &taken);
    s.send(1, ROOM, "sent 36");
    // A higher mark; the start field of another series, whatever the mark; a series that isn't open.
    s.login(1, ROOM, &asking(Some(DAY + 1), Some((1, 1))), &answer, "refused 15");
    s.login(1, ROOM, &asking(Some(u32::MAX), None), &answer, "refused 15");
    s.login(1, ROOM, &asking(Some(DAY), Some((2, 1))), &answer, "refused 13");
    s.login(1, ROOM, &asking(Some(DAY - 1), Some((2, 1))), &answer, "refused 13");
    s.login(1, ROOM, &asking(None, Some((3, 1))), &answer, "refused 13");
    s.login(3, ROOM, &asking(None, None), &answer, "refused 13");
    s.login(3, ROOM, &asking(None, Some((3, 1))), &answer, "refused 13");
    // Another series has its own login.
    s.send(2, ROOM, "refused 14");
    s.login(2, ROOM, &asking(None, None), &answer, &taken);
    s.send(2, ROOM, "sent 38");
    s.send(1, ROOM, "sent 37");
}

/// Login's packet and content, wrong in one way each.
fn login_packets(s: &mut Script) {
    let answer = right(ANSWER);
    let taken = format!("login {}", 26 + answer.len());
    let good = changed(|_| {});
    // 12: fewer than four bytes, not as many as said, no message packet.
    s.login(1, ROOM, &[], &answer, "refused 12");
    s.login(1, ROOM, &good[..3], &answer, "refused 12");
    s.login(1, ROOM, &good[..good.len() - 1], &answer, "refused 12");
    s.login(1, ROOM, &[&good[..], &[0]].concat(), &answer, "refused 12");
    s.login(1, ROOM, &[0, 0, 0, 0], &answer, "refused 12");
    s.login(1, ROOM, &[1, 2, 0, 0, 4, 0], &answer, "refused 12");
    s.login(1, ROOM, &changed(|p| p.kind = 0), &answer, "refused 12");
    s.login(1, ROOM, &changed(|p| p.kind = 2), &answer, "refused 12");
    s.login(1, ROOM, &[&[1, 0, 0, 15][..], &[1; 15]].concat(), &answer, "refused 12");
    s.login(1, ROOM, &[&[1, 0, 0x10, 0x01][..], &[1; 4097]].concat(), &answer, "refused 12");
    // 1: extension above 127, all bytes there.
    s.login(1, ROOM, &changed(|p| p.extension = vec![0; 128]), &answer, "refused 1");
    s.login(1, ROOM, &changed(|p| p.extension = [vec![0x77, 125], vec![9; 125]].concat()), &answer, &taken);
    // 2: tags that don't end with the extension, a known tag of wrong length, 0x05 twice.
    s.login(1, ROOM, &changed(|p| p.extension = vec![5]), &answer, "refused 2");
    s.login(1, ROOM, &changed(|p| p.extension = vec![5, 3, 0, 0, 1]), &answer, "refused 2");
    s.login(1, ROOM, &changed(|p| p.extension = vec![0x77, 2, 1]), &answer, "refused 2");
    s.login(1, ROOM, &changed(|p| p.extension = vec![5, 4, 0, 0, 0, 1, 5, 4, 0, 0, 0, 1]), &answer, "refused 2");
    s.login(1, ROOM, &changed(|p| p.extension = vec![6, 2, 0, 1, 0x77, 0, 4, 0, 4, 0]), &answer, &taken);
    // 4 to 7.
    s.login(1, ROOM, &changed(|p| p.version = 2), &answer, "refused 4");
    s.login(1, ROOM, &changed(|p| p.chain = b's'), &answer, "refused 5");
    s.login(1, ROOM, &changed(|p| p.length += 1), &answer, "refused 6");
    s.login(1, ROOM, &changed(|p| p.length = 0), &answer, "refused 6");
    s.login(1, ROOM, &changed(|p| p.fields = 1), &answer, "refused 7");
    s.login(1, ROOM, &changed(|p| p.fields = 3), &answer, "refused 7");
    s.login(1, ROOM, &Parts::new(None, None).with(&[vec![0; 5]]).bytes(), &answer, "refused 7");
    // 7 of the answer's content: not whole fields, more than one packet holds.
    s.login(1, ROOM, &good, &[0], "refused 7");
    s.login(1, ROOM, &good, &answer[..answer.len() - 1], "refused 7");
    let fill = 4080 - answer.len() - 6;
    s.login(1, ROOM, &good, &[&answer[..], &plain(fill + 1)].concat(), "refused 7");
    s.login(1, ROOM, &good, &[&answer[..], &plain(fill)].concat(), "login 4106");
    // 8, 9: in the packet, in the content.
    s.login(1, ROOM, &Parts::new(None, None).with(&[narrow(REQUEST)]).bytes(), &answer, "refused 8");
    s.login(
        1,
        ROOM,
        &Parts::new(None, None).with(&[right(REQUEST), narrow(START_FIELD)]).bytes(),
        &answer,
        "refused 8",
    );
    s.login(1, ROOM, &good, &narrow(ANSWER), "refused 8");
    s.login(1, ROOM, &Parts::new(None, None).with(&[wrong(REQUEST)]).bytes(), &answer, "refused 9");
    s.login(1, ROOM, &good, &wrong(ANSWER), "refused 9");
    // 10: TID, chain letter, counts of the packet, start field twice, counts of the content.
    s.login(1, ROOM, &changed(|p| p.tid = 0x0017), &answer, "refused 10");
    s.login(1, ROOM, &changed(|p| p.tid = STRANGE), &answer, "refused 10");
    s.login(1, ROOM, &changed(|p| p.chain = b'F'), &answer, "refused 10");
    s.login(1, ROOM, &changed(|p| p.chain = b'C'), &answer, "refused 10");
    s.login(1, ROOM, &changed(|p| p.chain = b'L'), &answer, "refused 10");
    s.login(1, ROOM, &Parts::new(None, None).with(&[]).bytes(), &answer, "refused 10");
    s.login(1, ROOM, &Parts::new(None, None).with(&[right(REQUEST), right(REQUEST)]).bytes(), &answer, "refused 10");
    let start = start_field_bytes(1, 1);
    let twice = Parts::new(None, None).with(&[right(REQUEST), start.clone(), start.clone()]);
    s.login(1, ROOM, &twice.bytes(), &answer, "refused 10");
    s.login(1, ROOM, &good, &[], "refused 10");
    s.login(1, ROOM, &good, &[&answer[..], &answer].concat(), "refused 10");
    // Further fields pass: unlisted and unknown ones, in any order.
    let more = Parts::new(None, None).with(&[plain(3), start.clone(), right(MATCH), right(REQUEST)]);
    let content = [plain(0), answer.clone(), start, right(5)].concat();
    s.login(1, ROOM, &more.bytes(), &content, &format!("login {}", 26 + content.len()));
    // 16: header series or number not 0.
    s.login(1, ROOM, &changed(|p| p.series = 1), &answer, "refused 16");
    s.login(1, ROOM, &changed(|p| p.number = 1), &answer, "refused 16");
    s.login(1, ROOM, &changed(|p| p.number = 0x0100_0000), &answer, "refused 16");
    // 18: one byte too few, none at all; exactly enough.
    s.login(1, 25 + answer.len(), &good, &answer, "refused 18");
    s.login(1, 0, &good, &answer, "refused 18");
    s.login(1, 26 + answer.len(), &good, &answer, &taken);
}

/// Login wrong in two ways: the lower number counts, but 12 comes first.
fn login_orders(s: &mut Script) {
    let answer = right(ANSWER);
    let long = vec![0; 128];
    s.login(1, ROOM, &changed(|p| (p.kind, p.extension) = (2, long.clone())), &answer, "refused 12");
    s.login(1, ROOM, &changed(|p| p.extension = long.clone())[..150], &answer, "refused 12");
    s.login(1, ROOM, &changed(|p| (p.extension, p.version) = (long.clone(), 2)), &answer, "refused 1");
    s.login(1, ROOM, &changed(|p| (p.extension, p.version) = (vec![5], 2)), &answer, "refused 2");
    s.login(1, ROOM, &changed(|p| (p.version, p.chain) = (2, b's')), &answer, "refused 4");
    s.login(1, ROOM, &changed(|p| (p.chain, p.length) = (b's', 0)), &answer, "refused 5");
    s.login(1, ROOM, &changed(|p| (p.length, p.fields) = (0, 9)), &answer, "refused 6");
    // 6 of the packet, 7 of the content; 7 of the packet, 8 of the content, and the other way round.
    s.login(1, ROOM, &changed(|p| p.length = 0), &[0], "refused 6");
    s.login(1, ROOM, &changed(|p| p.fields = 9), &narrow(ANSWER), "refused 7");
    s.login(1, ROOM, &Parts::new(None, None).with(&[narrow(REQUEST)]).bytes(), &[0], "refused 7");
    s.login(1, ROOM, &Parts::new(None, None).with(&[wrong(REQUEST)]).bytes(), &narrow(ANSWER), "refused 8");
    s.login(1, ROOM, &Parts::new(None, None).with(&[narrow(REQUEST)]).bytes(), &wrong(ANSWER), "refused 8");
    s.login(1, ROOM, &changed(|p| p.tid = 0x0017), &wrong(ANSWER), "refused 9");
    s.login(1, ROOM, &Parts::new(None, None).with(&[wrong(REQUEST)]).bytes(), &[], "refused 9");
    s.login(3, ROOM, &changed(|p| p.chain = b'F'), &answer, "refused 10");
    s.login(3, ROOM, &asking(None, Some((3, 1))), &[], "refused 10");
    // 13 before 15, 15 before 16, 16 before 18, 18 before 19.
    s.login(1, ROOM, &asking(Some(DAY + 1), Some((2, 1))), &answer, "refused 13");
    s.login(3, ROOM, &asking(Some(DAY + 1), None), &answer, "refused 13");
    let mut later = Parts::new(Some(DAY + 1), Some((1, 1)));
    later.series = 1;
    s.login(1, ROOM, &later.bytes(), &answer, "refused 15");
    s.login(1, 0, &asking(Some(DAY + 1), None), &answer, "refused 15");
    s.login(1, 0, &changed(|p| p.series = 1), &answer, "refused 16");
    let far = asking(Some(DAY), Some((1, 99)));
    s.login(1, 25 + answer.len(), &far, &answer, "refused 18");
    s.login(1, 26 + answer.len(), &far, &answer, "refused 19");
    let mut far = Parts::new(Some(DAY), Some((1, 99)));
    far.number = 7;
    s.login(1, ROOM, &far.bytes(), &answer, "refused 16");
    s.login(2, ROOM, &asking(Some(DAY), Some((1, 99))), &answer, "refused 13");
    // What was refused changed nothing: the login of before stands.
    s.send(1, ROOM, "sent 36");
}

fn sends(s: &mut Script) {
    let answer = right(ANSWER);
    let taken = format!("login {}", 26 + answer.len());
    s.open(DAY + 1, &[2, 1, 7], "opened");
    // 13 and 14; 13 before 14 and before 18.
    s.send(3, ROOM, "refused 13");
    s.send(0, 0, "refused 13");
    s.send(1, ROOM, "refused 14");
    s.send(1, 0, "refused 14");
    s.publish(2, STRANGE, &plain(0), "published 1");
    s.publish(1, STRANGE, &[], "published 1");
    s.publish(2, MATCHES, &right(MATCH), "published 2");
    s.publish(1, STRANGE, &[plain(2034), plain(2034)].concat(), "published 2");
    s.publish(1, STRANGE, &[plain(2034), plain(2035)].concat(), "published 3");
    s.publish(1, STRANGE, &[plain(4074), plain(0), plain(4068), plain(0), plain(100)].concat(), "published 4");
    s.login(1, ROOM, &asking(Some(DAY + 1), Some((1, 1))), &answer, &taken);
    // None left, in a series without a message: the output isn't looked at.
    s.login(7, ROOM, &asking(None, None), &answer, &taken);
    s.send(7, 0, "none");
    // Short ones: an output one byte too small, then exactly as long.
    s.send(1, 29, "refused 18");
    s.send(1, 30, "sent 30");
    // P12: one packet, then two.
    s.send(1, 4109, "refused 18");
    s.send(1, 4110, "sent 4110");
    s.send(1, 4140, "refused 18");
    s.send(1, 4110, "refused 18");
    s.send(1, 4141, "sent 4141");
    // Three packets, F, C and L.
    s.send(1, 8361, "refused 18");
    s.send(1, 0, "refused 18");
    s.send(1, ROOM, "sent 8362");
    s.send(1, ROOM, "none");
    s.send(1, 0, "none");
    // A message published behind "none" is sent next; the other series goes its own way.
    s.publish(1, 0x2004, &[], "published 5");
    s.send(1, ROOM, "sent 30");
    s.send(1, ROOM, "none");
    s.send(2, ROOM, "refused 14");
    s.login(2, ROOM, &asking(None, Some((2, 2))), &answer, &taken);
    s.send(2, ROOM, &format!("sent {}", 30 + right(MATCH).len()));
    s.send(2, ROOM, "none");
}

/// The largest message, and a log filled to its last byte.
fn full_log(s: &mut Script) {
    s.open(DAY + 2, &[1, 2], "opened");
    let largest = [vec![plain(4074); 8], vec![plain(122)]].concat().concat();
    assert_eq!(largest.len(), 32_768);
    s.publish(1, STRANGE, &largest, "published 1");
    s.login(1, ROOM, &asking(None, None), &right(ANSWER), &format!("login {}", 26 + right(ANSWER).len()));
    s.send(1, 32_768 + 9 * 30 - 1, "refused 18");
    s.send(1, 32_768 + 9 * 30, "sent 33038");
    // One byte too many for what is left, then exactly as many; then nothing fits.
    let left = LOG - 16 - largest.len();
    let fill = |n: usize| [plain(4074), plain(n - 16 - 4080 - 6)].concat();
    s.publish(2, STRANGE, &fill(left + 1), "refused 18");
    s.publish(2, STRANGE, &fill(left), "published 1");
    s.publish(2, STRANGE, &[], "refused 18");
    s.publish(1, 0x2004, &[], "refused 18");
    // 7, 10 and 13 before 18, in a full log.
    s.publish(1, STRANGE, &[0], "refused 7");
    s.publish(1, MATCHES, &[], "refused 10");
    s.publish(3, STRANGE, &[], "refused 13");
    s.login(2, ROOM, &asking(None, None), &right(ANSWER), &format!("login {}", 26 + right(ANSWER).len()));
    s.send(2, ROOM, &format!("sent {}", left - 16 + 60));
    s.send(2, ROOM, "none");
    // An opening empties it.
    s.open(DAY + 3, &[1], "opened");
    s.publish(1, STRANGE, &[], "published 1");
    s.login(1, ROOM, &asking(None, None), &right(ANSWER), &format!("login {}", 26 + right(ANSWER).len()));
    s.send(1, ROOM, "sent 30");
}

/// Lines that are no call: words, numbers, bytes, counts of words, limits.
fn bad_lines(s: &mut Script) {
    for line in [
        "",
        " ",
        "sopen",
        "sopen ",
        "sopen x 1",
        "sopen 4294967296 1",
        "sopen 5 65536",
        "sopen 5 1 ",
        "sopen 5  1",
        "sopen 5 -1",
        " sopen 5 1",
        "Sopen 5 1",
        "sopens 5 1",
        "buffers 100 100",
        "publish 1 00007777",
        "publish 1 00007777 - -",
        "publish 1 7777 -",
        "publish 1 000007777 -",
        "publish 1 0000777G -",
        "publish 65536 00007777 -",
        "publish 1 00007777 0",
        "publish 1 00007777 000",
        "publish 1 00007777 0G",
        "publish 1 00007777 --",
        "publish 1 00007777 ",
        "login 1 65537 - -",
        "login 1 100 -",
        "login 1 100 - - -",
        "login 1 100 0 -",
        "login 1 100 - 0",
        "login x 100 - -",
        "login 1 x - -",
        "send 1",
        "send 1 65537",
        "send 1 100 1",
        "send 65536 100",
        "send 1 18446744073709551617",
        "ropen ",
        "ropen x",
        "ropen 65536",
        "ropen 1 ",
        "ropen 1  2",
        "ropens 1",
        "connect ",
        "connect 1",
        "ask 1 100",
        "ask 1 100 0",
        "ask 1 65537 -",
        "ask 65536 100 -",
        "ask x 100 -",
        "ask 1 100 - -",
        "answer 1",
        "answer 1 0",
        "answer 65536 -",
        "answer - -",
        "answer 1 - -",
        "receive",
        "receive ",
        "receive 0",
        "receive 0G",
        "receive 1 00",
        "receive - -",
        "state 1",
        "state ",
        "states",
    ] {
        s.bad(line);
    }
    // Small letters are read, and leading zeros.
    s.publish(1, 0xABCD, &[0, 0, 0xAB, 0xCD, 0, 1, 0xFF], "published 2");
    s.calls.last_mut().expect("a call").0 = "publish 0001 0000abcd 0000abcd0001fF".to_string();
    s.send(1, ROOM, "sent 37");
}
