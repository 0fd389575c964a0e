//! Both ends over a faulty line: what one end printed is given to the other, lost, repeated, late, out of order, broken off.
//! Packets that are given are copies of printed ones: those of a message as a run from its first on, or single ones in any
//! order and number, of all transmissions of the message (02, No. 10). Messages are sent whole or packet by packet; the
//! packets of an unfinished one are given as soon as they are printed.

use super::parts::*;
use super::receiving::SERIES;
use super::{Script, ROOM};
use crate::generate::Random;
use crate::packet::{cut_apart, read, Packet};
use std::collections::BTreeMap;

/// What the line has seen: login packets, answers with the series of their login, messages sent as lists of packets, of
/// those that are broken off the first few.
#[derive(Default)]
struct Line {
    logins: Vec<(u16, Vec<u8>)>,
    answers: Vec<(u16, Vec<u8>)>,
    messages: Vec<(u16, Vec<Vec<u8>>)>,
    /// How many of these are of earlier days.
    old: usize,
    /// Which of these is unfinished, of each series that has one: its next packet goes behind those that it has.
    unfinished: BTreeMap<u16, usize>,
}

/// A day: what it adds to the mark, the series that the serving end opens, in its order, and how many packets its long
/// messages have.
const DAYS: [(u32, &[u16], &[usize]); 5] = [
    (0, &[3, 1, 7], &[2, 3, 4]),
    (1, &[9, 1], &[17]),
    (2, &[1, 3, 9, 7], &[5, 9]),
    (70, &[7, 3], &[16]),
    (71, &[1, 9, 3, 7], &[2, 6]),
];

/// The days of the line with keeps and returns.
const NAMED_DAYS: [(u32, &[u16], &[usize]); 4] =
    [(0, &[1, 7, 3], &[3, 2, 2]), (5, &[9, 1], &[2, 4, 2]), (6, &[7, 3], &[3, 3, 2]), (70, &[3, 1, 9, 7], &[3, 2])];

/// A content that takes so many packets: fields of 0 and of 4,069 bytes in turn, of which no two fit into one.
fn long(packets: usize) -> Vec<u8> {
    (0..packets).flat_map(|i| plain(if i % 2 == 0 { 0 } else { 4069 })).collect()
}

/// The place of one of the last few, mostly; else of any.
fn late_place(r: &mut Random, count: usize) -> Option<usize> {
    let few = count.min(3);
    let i = if few == 0 || r.once_in(6) { r.below(count.max(1)) } else { count - 1 - r.below(few) };
    (i < count).then_some(i)
}

fn late<T: Clone>(r: &mut Random, all: &[T]) -> Option<T> {
    late_place(r, all.len()).map(|i| all[i].clone())
}

/// Days from a first mark on, over one receiving end, which is opened if it isn't yet. At the end of each day all has
/// arrived.
pub fn faulty_line(s: &mut Script, first: u32) {
    let (mut r, mut line) = (Random::new(197), Line::default());
    open_end(s);
    for day in DAYS {
        let series = day.1;
        a_day(s, &mut r, &mut line, first, day, |s, r, line| a_step(s, r, line, series));
        s.state();
        catch_up(s, &mut line, series);
        s.state();
        begin_anew(s, &mut line, series);
        line.old = line.messages.len();
    }
}

fn open_end(s: &mut Script) {
    if s.receiving.open.is_empty() {
        // Before the receiving end has its series, nothing arrives.
        s.open_end(&[], "refused 11");
        s.open_end(&SERIES, "opened");
    }
}

/// A day's opening and steps, with its long messages.
fn a_day(
    s: &mut Script,
    r: &mut Random,
    line: &mut Line,
    first: u32,
    (mark, series, longs): (u32, &[u16], &[usize]),
    mut step: impl FnMut(&mut Script, &mut Random, &mut Line),
) {
    // Every second series has a reserve, of which it needs more or less.
    let given: Vec<_> = series.iter().enumerate().map(|(i, &one)| (one, (i % 2 == 1).then_some(500))).collect();
    s.open_shares(first + mark, &given, "opened");
    line.unfinished.clear();
    let mut longs = longs.to_vec();
    for i in 0..220 {
        if i % 60 == 40 {
            if let Some(n) = longs.pop() {
                let one = series[r.below(series.len())];
                s.published(one, STRANGE, &long(n)).expect("room in the log");
            }
        }
        step(s, r, line);
    }
}

/// Likewise with keeps and returns (02, No. 13). Every name that is in use at first may be returned to and replaced; of
/// a fresh end the first one is kept before the opening. At the end of each day all has arrived behind the last return.
pub fn named_line(s: &mut Script, first: u32) {
    let (mut r, mut line) = (Random::new(145), Line::default());
    if s.receiving.open.is_empty() {
        s.keep("BEFORE", "kept");
    }
    open_end(s);
    s.state();
    for day in NAMED_DAYS {
        let series = day.1;
        a_day(s, &mut r, &mut line, first, day, |s, r, line| {
            if r.once_in(7) {
                named_step(s, r, line);
            } else {
                a_step(s, r, line, series);
            }
        });
        s.state();
        go_back(s, &mut r);
        catch_up(s, &mut line, series);
        s.state();
        begin_anew(s, &mut line, series);
        line.old = line.messages.len();
    }
}

/// The names of the named line; the last two are no names.
const NAMES: [&str; 8] = ["BEFORE", "FIVE", "SEVEN", "ABCDEFGH", "FIFTH", "A", "-", "five"];

fn keep(s: &mut Script, r: &mut Random) {
    let used = s.checkpoints.places.len();
    let name = if r.once_in(4) { NAMES[r.below(NAMES.len())] } else { NAMES[r.within(1, 3)] };
    // Until four are in use, those first.
    _ = s.kept(if used < 4 { NAMES[used] } else { name });
}

fn go_back(s: &mut Script, r: &mut Random) {
    let any = if r.once_in(3) { NAMES.len() } else { s.checkpoints.places.len().max(1) };
    _ = s.returned(NAMES[r.below(any)]);
}

/// A keep or a return; or one of them between two packets of a long message.
fn named_step(s: &mut Script, r: &mut Random, line: &mut Line) {
    match r.below(7) {
        0..=2 => keep(s, r),
        3..=4 => go_back(s, r),
        _ => {
            let long = |place: &usize| (2..=4).contains(&line.messages[*place].1.len());
            let places: Vec<usize> = (line.old..line.messages.len()).filter(long).collect();
            let Some(place) = late_place(r, places.len()) else { return keep(s, r) };
            let packets = line.messages[places[place]].1.clone();
            let at = r.within(1, packets.len() - 1);
            for (i, packet) in packets.iter().enumerate() {
                if i == at && r.once_in(3) {
                    go_back(s, r);
                } else if i == at {
                    keep(s, r);
                }
                s.received(packet);
            }
        }
    }
}

/// A call, a run of packets or some single ones, by chance.
fn a_step(s: &mut Script, r: &mut Random, line: &mut Line, series: &[u16]) {
    let one = series[r.below(series.len())];
    match r.below(21) {
        0..=2 => publish(s, r, one),
        3..=4 => ask(s, line, one),
        5..=6 => {
            if let Some((of, packet)) = late(r, &line.logins) {
                // Now and then to a login of another series.
                login(s, line, if r.once_in(8) { one } else { of }, &packet);
            }
        }
        7..=8 => {
            if let Some((of, packet)) = late(r, &line.answers) {
                _ = s.answered(of, &packet);
            }
        }
        9..=10 => send(s, line, one),
        11 => _ = send_packet(s, line, one),
        12 => as_written(s, r, line, one),
        13..=16 => run(s, r, line),
        17 => {
            if r.once_in(8) {
                s.connect();
            }
        }
        18 => refused(s, r, one),
        19 => singles(s, r, line),
        // A whole login without a fault.
        _ => whole_login(s, line, one),
    }
}

fn publish(s: &mut Script, r: &mut Random, series: u16) {
    let content = match r.below(5) {
        0 => vec![],
        1 => right(MATCH),
        2 => [plain(r.below(20)), plain(r.below(20))].concat(),
        _ => plain(r.below(40)),
    };
    let tid = if content == right(MATCH) { MATCHES } else { r.pick(&[STRANGE, 0x2004, 0x8000_0001]) };
    _ = s.published(series, tid, &content);
}

fn ask(s: &mut Script, line: &mut Line, series: u16) {
    if let Some(packet) = s.asked(series, ROOM, &right(REQUEST)) {
        line.logins.push((series, packet));
    }
}

fn login(s: &mut Script, line: &mut Line, series: u16, packet: &[u8]) {
    if let Some(answer) = s.logged_in(series, ROOM, packet, &right(ANSWER)) {
        line.answers.push((series, answer));
        line.unfinished.remove(&series);
    }
}

fn send(s: &mut Script, line: &mut Line, series: u16) {
    if let Some(bytes) = s.sent(series, ROOM) {
        line.messages.push((series, cut_apart(&bytes)));
        line.unfinished.remove(&series);
    }
}

/// Gives whether a packet was written.
fn send_packet(s: &mut Script, line: &mut Line, series: u16) -> bool {
    let Some((packet, last)) = s.sent_packet(series, ROOM) else { return false };
    let place = *line.unfinished.entry(series).or_insert(line.messages.len());
    if place == line.messages.len() {
        line.messages.push((series, vec![]));
    }
    line.messages[place].1.push(packet);
    if last {
        line.unfinished.remove(&series);
    }
    true
}

fn whole_login(s: &mut Script, line: &mut Line, series: u16) {
    ask(s, line, series);
    if let Some((_, packet)) = line.logins.last().filter(|(of, _)| *of == series).cloned() {
        login(s, line, series, &packet);
    }
    if let Some((_, packet)) = line.answers.last().filter(|(of, _)| *of == series).cloned() {
        _ = s.answered(series, &packet);
    }
}

/// A message of today or of an earlier day: all its packets or the first few, with calls of the serving end between them.
fn run(s: &mut Script, r: &mut Random, line: &mut Line) {
    let days = if r.once_in(10) { 0..line.old } else { line.old..line.messages.len() };
    let Some(place) = late_place(r, days.len()).map(|i| days.start + i) else { return };
    let packets = line.messages[place].1.len();
    // Long ones seldom arrive whole: the script stays small.
    let most = if packets > 4 && !r.once_in(6) { 3 } else { packets };
    let count = if r.once_in(4) || most < packets { r.within(1, most) } else { packets };
    for i in 0..count {
        s.received(&line.messages[place].1[i].clone());
        if r.once_in(12) {
            let series = s.serving.day.expect("a day").open[0].series;
            between(s, r, line, series);
        }
    }
}

/// Single packets of a message of several, of any of its transmissions: lost, repeated, late, and mostly the next one. Often
/// it is the message that is wanted next.
fn singles(s: &mut Script, r: &mut Random, line: &mut Line) {
    let wanted = |packet: &[u8]| match read(packet) {
        Packet::Message(one) => s.receiving.open.iter().any(|kept| {
            kept.series == one.series && kept.mark == one.mark && kept.last + 1 == one.number && kept.logged_in
        }),
        _ => false,
    };
    let long: Vec<usize> = (0..line.messages.len()).filter(|&place| line.messages[place].1.len() > 1).collect();
    let next: Vec<usize> = long.iter().copied().filter(|&place| wanted(&line.messages[place].1[0])).collect();
    let of = if next.is_empty() || r.once_in(4) { long } else { next };
    let Some((series, first)) =
        late_place(r, of.len()).map(|i| &line.messages[of[i]]).map(|of| (of.0, of.1[0].clone()))
    else {
        return;
    };
    let mut next = 0usize;
    for _ in 0..r.within(2, 7) {
        match r.below(9) {
            0 => next += 1,
            1 => next = next.saturating_sub(1),
            2 => next = r.below(next + 3),
            _ => {}
        }
        let of: Vec<&Vec<Vec<u8>>> = line.messages.iter().map(|of| &of.1).filter(|of| of[0] == first).collect();
        let Some(packet) = of[r.below(of.len())].get(next).cloned() else { continue };
        s.received(&packet);
        next += 1;
        match r.below(20) {
            0 => between(s, r, line, series),
            1 => ask(s, line, series),
            // A packet of another series.
            2 => {
                let others: Vec<&Vec<u8>> =
                    line.messages.iter().filter(|of| of.0 != series).map(|of| &of.1[0]).collect();
                if let Some(packet) = late_place(r, others.len()).map(|i| others[i].clone()) {
                    s.received(&packet);
                }
            }
            _ => {}
        }
    }
}

/// A call of the serving end within a run.
fn between(s: &mut Script, r: &mut Random, line: &mut Line, series: u16) {
    match r.below(4) {
        0 => publish(s, r, series),
        1 => send(s, line, series),
        2 => _ = send_packet(s, line, series),
        _ => refused_serving(s, r, series),
    }
}

/// A message packet by packet, each given as soon as it is printed, with calls of the serving end between: of this series a
/// login or a whole Send breaks it off. Of one that is unfinished first those that it has.
fn as_written(s: &mut Script, r: &mut Random, line: &mut Line, series: u16) {
    let place = line.unfinished.get(&series).copied().unwrap_or(line.messages.len());
    let mut given = 0;
    loop {
        while let Some(packet) = line.messages.get(place).and_then(|(_, packets)| packets.get(given)).cloned() {
            s.received(&packet);
            given += 1;
        }
        if given > 0 {
            match r.below(12) {
                0 => return,
                1 => {
                    if let Some((of, packet)) = late(r, &line.logins) {
                        login(s, line, of, &packet);
                    }
                }
                2 => {
                    let other = s.serving.day.expect("a day").open[0].series;
                    between(s, r, line, other);
                }
                3..=4 => publish(s, r, series),
                5 => _ = s.sent_packet(series, 25),
                _ => {}
            }
            if line.unfinished.get(&series) != Some(&place) {
                return;
            }
        }
        if !send_packet(s, line, series) {
            return;
        }
    }
}

/// Calls of the serving end that are refused.
fn refused_serving(s: &mut Script, r: &mut Random, series: u16) {
    let mark = s.serving.day.expect("a day").mark;
    match r.below(7) {
        0 => s.publish(series, STRANGE, &[1, 2, 3], "refused 7"),
        1 => s.publish(series, MATCHES, &[], "refused 10"),
        2 => s.publish(5, STRANGE, &[], "refused 13"),
        3 => s.send(5, ROOM, "refused 13"),
        4 => _ = s.send_packet(5, ROOM, "refused 13"),
        5 => s.open(mark, &[series], "refused 11"),
        _ => s.open(mark.saturating_sub(1), &[], "refused 11"),
    }
}

/// Calls of either end that are refused; most of all for want of room.
fn refused(s: &mut Script, r: &mut Random, series: u16) {
    match r.below(4) {
        0 => refused_serving(s, r, series),
        1 => s.open_end(&[series], "refused 11"),
        2 => s.ask(5, ROOM, &right(REQUEST), "refused 13"),
        _ => {
            _ = s.sent(series, 25);
            _ = s.sent_packet(series, 25);
            if s.asked(series, 11, &right(REQUEST)).is_some() {
                unreachable!("no room for it");
            }
        }
    }
}

/// A new line without faults: login of each series, and all messages that are left: whole, packet by packet, and begun
/// packet by packet but then whole, in turn.
fn catch_up(s: &mut Script, line: &mut Line, series: &[u16]) {
    s.connect();
    for &one in series {
        whole_login(s, line, one);
        let mut turn = 1;
        while arrives(s, line, one, turn % 3) {
            turn += 1;
        }
        s.begins("none");
    }
}

/// The next message is sent, and all its packets given; packet by packet of it so many at most, then whole, where this is
/// 0 or 1. Gives whether there was one.
fn arrives(s: &mut Script, line: &mut Line, series: u16, turn: usize) -> bool {
    let by_packets = if turn == 2 { usize::MAX } else { turn };
    let place = line.messages.len();
    for i in 0..by_packets {
        if !send_packet(s, line, series) {
            return false;
        }
        s.received(&line.messages[place].1[i].clone());
        if !line.unfinished.contains_key(&series) {
            return true;
        }
    }
    let place = line.messages.len();
    send(s, line, series);
    for packet in line.messages.get(place).map_or(vec![], |(_, packets)| packets.clone()) {
        s.received(&packet);
    }
    line.messages.len() > place
}

/// All has arrived. A login packet of before starts at an earlier number once more; the first message of several packets is
/// begun, and the next opening breaks it off.
fn begin_anew(s: &mut Script, line: &mut Line, series: &[u16]) {
    for &one in series {
        let first = line.logins.iter().find(|(of, _)| *of == one).cloned();
        login(s, line, one, &first.expect("a login").1);
        while send_packet(s, line, one) {
            if line.unfinished.contains_key(&one) {
                return;
            }
        }
    }
}
