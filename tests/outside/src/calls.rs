//! Random lists of calls on both sides. In an honest list only the line is at fault: packets are copies of what was written, and each
//! single one may be lost, repeated and late; demand 3 is checked on it. In a wild one packets are damaged or made up, logs altered,
//! and states set that no call made. Messages are sent whole and packet by packet. In lists of their own, ends are kept
//! under names and returned to.

use crate::accounts::Accounts;
use crate::checkpoints::both::Named;
use crate::effective::Happened;
use crate::ends::HANDED_ON;
use crate::history::{Delivery, History};
use crate::world::World;
use reader::cut::{write_placed, Header};
use reader::generate::{known_field_bytes, packet_input, raw_field, Random, FORMS};
use reader::items::known_field;
use reader::packet::{cut_apart, read, Packet, FIELD_HEADER, PLACE};
use reader::receiving::Chain;
use reader::serving::LOGIN;
use reader::start::start_field_bytes;
use std::collections::BTreeMap;
use std::rc::Rc;

pub mod boxes;
mod named;
pub mod orders;
mod packets;
mod pieces;
mod several;
mod shares;

use packets::any_piece;
use pieces::any_count;
use shares::{any_bytes, some_reserves};

const REQUEST: u32 = 0x0023;
const ANSWER: u32 = 0x0027;
const MATCH: u32 = 0x000A;
const MATCHES: u32 = 0x2002;
const STRANGE: u32 = 0x7777;
const BUFFER: usize = 32_768;
/// The most bytes of a packet and of a message, as the Sends write them.
const MOST_PACKET: usize = 4110;
const MOST_OUTPUT: usize = 33_278;

type Bytes = Rc<[u8]>;

/// Contents that the calls take or refuse, made once.
struct Contents {
    request: Vec<u8>,
    answer: Vec<u8>,
    row: Vec<u8>,
    /// Wrong ones of a login request, of an answer, of a message: rows 7 to 10; and right ones that just fit, or just don't.
    requests: Vec<Vec<u8>>,
    answers: Vec<Vec<u8>>,
    messages: Vec<(u32, Vec<u8>)>,
}

fn plain(length: usize) -> Vec<u8> {
    raw_field(STRANGE, &(0..length).map(|i| (i * 5 + length) as u8).collect::<Vec<_>>())
}

/// A content that takes so many packets.
fn long(packets: usize) -> Vec<u8> {
    (0..packets).flat_map(|i| plain(if i % 2 == 0 { i } else { 4069 })).collect()
}

impl Contents {
    fn new() -> Self {
        let right =
            |fid: u32| known_field_bytes(&mut Random::new(fid.into()), known_field(fid).expect("a known field"));
        let narrow = |fid: u32| raw_field(fid, &right(fid)[FIELD_HEADER + 1..]);
        let wrong = |fid: u32| {
            let mut field = right(fid);
            field[FIELD_HEADER] = 0x7F;
            field
        };
        let (request, answer, row) = (right(REQUEST), right(ANSWER), right(MATCH));
        // Around a login's content `of` with room for `most` bytes.
        let around = |of: &[u8], fid: u32, most: usize| {
            let fill = most - of.len() - FIELD_HEADER;
            vec![
                vec![],
                of[..of.len() - 1].to_vec(),
                narrow(fid),
                wrong(fid),
                [of, of].concat(),
                [of, &start_field_bytes(1, 1)].concat(),
                [of, &raw_field(4, &[0, 1])].concat(),
                [of, &wrong(MATCH)].concat(),
                [wrong(fid), narrow(MATCH)].concat(),
                [of, &plain(fill)].concat(),
                [of, &plain(fill + 1)].concat(),
                [of, &plain(4075)].concat(),
                [&plain(0), of, &row].concat(),
            ]
        };
        let largest = [vec![plain(4074); 8], vec![plain(122)]].concat().concat();
        let messages = vec![
            (STRANGE, vec![0]),
            (STRANGE, plain(4075)),
            (STRANGE, [&largest[..], &[0; 6]].concat()),
            (STRANGE, largest),
            (MATCHES, vec![]),
            (MATCHES, narrow(MATCH)),
            (MATCHES, wrong(MATCH)),
            (STRANGE, wrong(MATCH)),
            (MATCHES, [wrong(MATCH), narrow(MATCH)].concat()),
            (0x2003, [right(1), right(1)].concat()),
            (LOGIN, answer.clone()),
        ];
        let (requests, answers) = (around(&request, REQUEST, 4068), around(&answer, ANSWER, 4080));
        Contents { request, answer, row, requests, answers, messages }
    }

    fn request(&self, r: &mut Random) -> &[u8] {
        if r.once_in(8) {
            &self.requests[r.below(self.requests.len())]
        } else {
            &self.request
        }
    }

    fn answer(&self, r: &mut Random) -> &[u8] {
        if r.once_in(8) {
            &self.answers[r.below(self.answers.len())]
        } else {
            &self.answer
        }
    }

    /// In a large log more of several packets.
    fn message(&self, r: &mut Random, large: bool) -> (u32, Vec<u8>) {
        match r.below(24) {
            16..=21 if large => (STRANGE, long(r.within(2, 4))),
            0 => self.messages[r.below(self.messages.len())].clone(),
            1 => (STRANGE, long(r.within(2, 4))),
            2 if r.once_in(6) => (STRANGE, long(r.within(5, 17))),
            3..=5 => (MATCHES, self.row.clone()),
            6..=9 => (0x2004, vec![]),
            10..=12 => (STRANGE, [plain(r.below(9)), plain(r.below(9))].concat()),
            _ => (r.pick(&[STRANGE, 0x8000_0001]), plain(r.below(40))),
        }
    }
}

/// How a list is.
#[derive(Clone, Copy, PartialEq)]
enum Kind {
    Honest,
    /// Packets damaged or made up.
    Damaged,
    /// Also logs altered, and states that no call made.
    Wild,
}

/// What the line was given of a message: its packets; of one that is unfinished or broken off the first few. What it is once
/// it is sent, with all of them.
#[derive(Clone)]
struct Transmission {
    packets: Vec<Bytes>,
    sent: Option<Delivery>,
}

/// What the line has seen.
#[derive(Default)]
struct Line {
    logins: Vec<(u16, Bytes)>,
    answers: Vec<(u16, Bytes)>,
    messages: Vec<Transmission>,
    /// How many of the logins were asked for before the last return.
    asked_before: usize,
    /// Which of the messages is unfinished, by series, and what the whole Send would have written in place of its first packet.
    unfinished: BTreeMap<u16, (usize, Bytes)>,
}

pub struct Lists {
    pub world: World,
    contents: Contents,
    line: Line,
    history: History,
    /// Where the log keeps its length: what each series has of it.
    pub accounts: Accounts,
    kind: Kind,
    /// Series that the list is about.
    about: Vec<u16>,
    /// How often each answer was given, by call.
    pub answers: BTreeMap<(&'static str, &'static str, u8), u64>,
    pub calls: u64,
    /// Checks of demand 3, and how many of them are of its second half within a list.
    pub demand: u64,
    pub arrived: u64,
    /// What became of messages sent packet by packet.
    pub transmissions: BTreeMap<&'static str, u64>,
    /// What single packets came to, in honest lists.
    pub singles: BTreeMap<&'static str, u64>,
    /// Where places are kept: both sides of them, what happened at the receiving end of an honest list, the list's
    /// names, and which cases there were.
    pub named: Option<Named>,
    happened: Vec<Happened>,
    names: Vec<&'static [u8]>,
    pub cases: BTreeMap<&'static str, u64>,
    /// The calls of this list, for a difference.
    trace: Vec<String>,
    tracing: bool,
}

/// The place of one of the last few, mostly; else of any.
fn late_place(r: &mut Random, count: usize) -> Option<usize> {
    let few = count.min(3);
    let i = if few == 0 || r.once_in(6) { r.below(count.max(1)) } else { count - 1 - r.below(few) };
    (i < count).then_some(i)
}

fn late<T: Clone>(r: &mut Random, all: &[T]) -> Option<T> {
    late_place(r, all.len()).map(|i| all[i].clone())
}

/// None mostly, else any.
fn some_place(r: &mut Random) -> Option<u16> {
    if r.once_in(4) {
        return Some(r.pick(&[0, 1, 16, 65_535]));
    }
    None
}

/// A place around what is expected of a packet of that letter; sometimes none.
fn near_place(r: &mut Random, letter: u8, chain: Option<Chain>) -> Option<u16> {
    let pieces = if letter == b'C' || letter == b'L' { chain.map_or(0, |chain| chain.pieces) } else { 0 };
    match r.below(12) {
        0..=2 => None,
        3 => Some(pieces.wrapping_add(1) as u16),
        4 => Some(pieces.wrapping_sub(1) as u16),
        5 => Some(r.pick(&[0, 1, 2, 255, 256, 65_535])),
        // The count of a chain that S or F starts anew.
        6 => Some(chain.map_or(0, |chain| chain.pieces) as u16),
        _ => Some(pieces as u16),
    }
}

/// A packet of a chain letter, of a place or none, and of one of these marks, sometimes one more or less. What isn't whole
/// fields is written as none.
fn made_packet(
    r: &mut Random,
    tid: u32,
    (series, number): (u16, u32),
    (chain, place): (u8, Option<u16>),
    marks: [Option<u32>; 4],
    content: &[u8],
) -> Vec<u8> {
    let near = |r: &mut Random, mark: u32| mark.wrapping_add(r.pick(&[0, 0, 0, 0, 0, 0, 1, u32::MAX]));
    let mark = r.pick(&marks).map(|mark| near(r, mark));
    let whole = reader::makeup::shape_right(content, 4080);
    let mut out = vec![];
    let header = Header { tid, series, number, mark };
    write_placed(&mut out, &header, place, chain, if whole { content } else { &[] });
    out
}

/// Room for so many bytes: exactly enough, one byte less, none, more.
fn room(r: &mut Random, takes: usize) -> usize {
    match r.below(12) {
        0 => takes.saturating_sub(1),
        1 => r.below(takes + 1),
        2..=4 => takes + r.below(60),
        _ => takes,
    }
}

/// A packet with something changed: a byte of its head, any byte, its length, a place put in.
fn damaged(r: &mut Random, packet: &[u8]) -> Vec<u8> {
    let mut bytes = packet.to_vec();
    match r.below(9) {
        // A place more, right or of another length, before all other tags.
        8 if bytes.len() > 4 && bytes[1] < 100 => {
            let tag =
                r.pick(&[&[PLACE, 2, 0, 0][..], &[PLACE, 2, 0, 1], &[PLACE, 0], &[PLACE, 1, 0], &[PLACE, 3, 0, 0, 0]]);
            bytes[1] += tag.len() as u8;
            bytes.splice(4..4, tag.iter().copied());
        }
        0 => bytes.truncate(r.below(bytes.len() + 1)),
        1 => bytes.push(r.byte()),
        2 if !r.once_in(4) => bytes.clear(),
        // An extension of one byte too many, all there.
        2 if bytes.len() > 4 => {
            let missing = 128 - usize::from(bytes[1].min(128));
            bytes[1] = 128;
            bytes.splice(4..4, vec![0; missing]);
        }
        3..=5 if !bytes.is_empty() => {
            let at = r.below(bytes.len().min(30));
            bytes[at] = if r.once_in(2) {
                r.byte()
            } else {
                r.pick(&[0, 1, 2, 4, 5, 6, 16, PLACE, 128, b'S', b'F', b'C', b'L'])
            };
        }
        _ if !bytes.is_empty() => {
            let at = r.below(bytes.len());
            bytes[at] ^= 1 << r.below(8);
        }
        _ => {}
    }
    bytes
}

impl Default for Lists {
    fn default() -> Self {
        Lists {
            world: World::default(),
            contents: Contents::new(),
            line: Line::default(),
            history: History::default(),
            accounts: Accounts::default(),
            kind: Kind::Honest,
            about: vec![],
            answers: BTreeMap::new(),
            calls: 0,
            demand: 0,
            arrived: 0,
            transmissions: BTreeMap::new(),
            singles: BTreeMap::new(),
            named: None,
            happened: vec![],
            names: vec![],
            cases: BTreeMap::new(),
            trace: vec![],
            tracing: false,
        }
    }
}

impl Lists {
    fn note<T>(&mut self, call: &'static str, name: &'static str, answer: &Result<T, u8>) {
        self.calls += 1;
        let said = match answer {
            Ok(_) => (call, name, 0),
            Err(row) => (call, "refused", *row),
        };
        *self.answers.entry(said).or_default() += 1;
        if self.tracing {
            self.trace.push(format!("{call}: {} {}", said.1, said.2));
        }
    }

    /// A list of about so many calls; the first difference with the calls that led to it.
    pub fn list(&mut self, seed: u64, calls: usize) -> Result<(), String> {
        let before = self.calls;
        match self.try_list(seed, calls) {
            Ok(()) => Ok(()),
            Err(text) => {
                // Once more, for the trace.
                self.tracing = true;
                self.trace.clear();
                _ = self.try_list(seed, calls);
                let from = self.trace.len().saturating_sub(12);
                let trace = self.trace[from..].join("\n    ");
                self.tracing = false;
                Err(format!("list {seed}, call {}: {text}\n  before it:\n    {trace}", self.calls - before))
            }
        }
    }

    fn try_list(&mut self, seed: u64, calls: usize) -> Result<(), String> {
        let r = &mut Random::new(seed);
        self.kind = r.pick(&[Kind::Honest, Kind::Honest, Kind::Damaged, Kind::Wild]);
        self.line = Line::default();
        self.history = History::default();
        self.accounts.fresh();
        let many = if r.once_in(10) { 8 } else { r.within(1, 3) };
        self.about = (0..many as u16).map(|i| i + 1).collect();
        if r.once_in(4) {
            self.about[0] = r.pick(&[65_535, 256, 258]);
        }
        let log = match r.below(8) {
            0 => r.below(200),
            1 => 40_000,
            2 => 100_000,
            3..=4 => r.within(9000, 20_000),
            _ => r.within(500, 4000),
        };
        let spare = r.pick(&[0, 0, 1, 100]);
        self.world.fresh(log, many * BUFFER + spare)?;
        self.world.noise = (self.kind == Kind::Wild).then(|| r.clone());
        let until = self.calls + calls as u64;
        self.begin_named(r)?;
        if !r.once_in(8) {
            self.open_day(r)?;
            if self.world.serving.day.is_none() {
                self.open_day(r)?;
            }
            self.open_end(r)?;
        }
        while self.calls < until {
            self.step(r)?;
        }
        if self.kind == Kind::Honest {
            self.back_at_last(r)?;
            self.catch_up()?;
            self.counts()?;
        }
        Ok(())
    }

    fn series(&self, r: &mut Random) -> u16 {
        if r.once_in(20) {
            r.pick(&[0, 1, 2, 9, 65_535])
        } else {
            self.about[r.below(self.about.len())]
        }
    }

    fn step(&mut self, r: &mut Random) -> Result<(), String> {
        if self.named.is_some() && r.once_in(8) {
            return self.named_step(r);
        }
        // Where messages are long, more single packets of them.
        if self.large() && r.once_in(5) {
            return self.singles(r);
        }
        match r.below(100) {
            0 => self.open_day(r),
            1 => self.open_end(r),
            2 => self.connect(),
            3..=19 => self.publish(r),
            20..=22 => self.publish_several(r),
            23..=26 => {
                let series = self.series(r);
                self.ask(r, series)
            }
            27..=33 => self.login(r),
            34..=40 => self.answer(r),
            41..=52 => {
                let series = self.series(r);
                self.send(r, series)
            }
            53..=58 => {
                let series = self.under_way(r);
                self.send_packet(r, series).map(|_| ())
            }
            59..=63 => {
                let series = self.under_way(r);
                self.as_written(r, series)
            }
            64..=75 => self.run(r),
            76..=80 => self.singles(r),
            81..=86 => self.receive_several(r),
            87..=94 => {
                let series = self.series(r);
                self.whole_login(r, series)
            }
            _ if self.kind == Kind::Honest => self.run(r),
            95..=96 => self.made_up_chain(r),
            97 if self.kind == Kind::Wild => self.counted_chain(r),
            98 if self.kind == Kind::Wild && r.once_in(2) => self.any_accounts(r),
            _ if self.kind == Kind::Wild => {
                self.alter_any(r);
                Ok(())
            }
            _ => self.run(r),
        }
    }

    /// A list of series: mostly right ones, in any order.
    fn some_series(&self, r: &mut Random) -> Vec<u16> {
        let mut series = self.about.clone();
        r.shuffle(&mut series);
        if r.once_in(3) {
            series.truncate(r.within(1, series.len()));
        }
        match r.below(30) {
            0 => series.clear(),
            1 => series[0] = 0,
            2 => series.push(series[0]),
            3 => series = (1..=r.within(7, 10) as u16).collect(),
            _ => {}
        }
        series
    }

    fn open_day(&mut self, r: &mut Random) -> Result<(), String> {
        let mark = match self.world.serving.day {
            Some(day) => day.mark.wrapping_add(r.pick(&[0, 1, 1, 1, 2, u32::MAX])),
            None if r.once_in(10) => u32::MAX - 1,
            None => r.below(3) as u32,
        };
        let series = self.some_series(r);
        let log = self.log(r);
        let reserves = some_reserves(r, series.len(), log);
        let answer = self.world.open_day(mark, &series, &reserves, log)?;
        self.note("Opening, serving", "opened", &answer);
        if answer.is_ok() {
            self.history.opened(mark);
            if self.kind != Kind::Wild {
                self.accounts.opened(&series, &reserves, log);
            }
            while let Some(&series) = self.line.unfinished.keys().next() {
                self.broken_off(series, "an opening");
            }
        }
        Ok(())
    }

    fn open_end(&mut self, r: &mut Random) -> Result<(), String> {
        let series = self.some_series(r);
        let answer = self.world.open_end(&series)?;
        self.note("Opening, receiving", "opened", &answer);
        if answer.is_ok() {
            self.history.disturbed();
        }
        Ok(())
    }

    fn connect(&mut self) -> Result<(), String> {
        let answer = self.world.connect()?;
        self.note("Connect", "connected", &answer);
        self.history.disturbed();
        Ok(())
    }

    /// How much of the log is lent: all of it, or in a wild list less.
    fn log(&self, r: &mut Random) -> usize {
        let all = self.world.logs[0].len();
        let used = self.world.serving.day.map_or(0, |day| day.used).min(all);
        match r.below(20) {
            0 if self.kind == Kind::Wild => r.pick(&[used.saturating_sub(1), used, used + (all - used) / 2, 0]),
            _ => all,
        }
    }

    fn publish(&mut self, r: &mut Random) -> Result<(), String> {
        let series = self.series(r);
        let limit = if r.once_in(6) { self.at_the_limit(r, series) } else { None };
        let (tid, content) = limit.unwrap_or_else(|| self.contents.message(r, self.large()));
        let log = self.log(r);
        let answer = self.world.publish(series, tid, &content, log)?;
        self.note("Publish", "published", &answer);
        if self.kind != Kind::Wild {
            self.accounts.published(series, content.len(), &answer)?;
        }
        if answer.is_ok() && self.kind == Kind::Honest {
            self.history.published(series, tid, &content);
        }
        Ok(())
    }

    /// The log takes messages of several packets.
    fn large(&self) -> bool {
        self.world.logs[0].len() >= 9000
    }

    fn ask(&mut self, r: &mut Random, series: u16) -> Result<(), String> {
        let content = self.contents.request(r);
        let tag = self.world.receiving.open.iter().any(|one| one.series == series && one.mark.is_some());
        let room = room(r, 4 + if tag { 6 } else { 0 } + 16 + content.len() + 12);
        let answer = self.world.ask(series, content, room)?;
        self.note("Ask", "asked", &answer);
        if answer.is_ok() {
            self.line.logins.push((series, self.world.written[..].into()));
        }
        Ok(())
    }

    /// A login packet of the line; otherwise one of any start, or damaged.
    fn login(&mut self, r: &mut Random) -> Result<(), String> {
        let place = late_place(r, self.line.logins.len());
        let (mut series, mut packet) = place.map_or((1, [].into()), |place| self.line.logins[place].clone());
        if self.kind == Kind::Honest && packet.is_empty() {
            return Ok(());
        }
        if r.once_in(12) {
            series = self.series(r);
        }
        if self.kind != Kind::Honest {
            if r.once_in(3) {
                packet = self.made_up_login(r, series).into();
            }
            if r.once_in(4) {
                packet = damaged(r, &packet).into();
            }
        }
        let answers = self.line.answers.len();
        self.login_with(r, series, &packet)?;
        // Asked for before a return, it owes nothing.
        if self.line.answers.len() > answers && place.is_some_and(|place| place < self.line.asked_before) {
            self.history.let_off(series);
            self.case("a login asked for before the last return");
        }
        Ok(())
    }

    fn login_with(&mut self, r: &mut Random, series: u16, packet: &[u8]) -> Result<(), String> {
        let content = self.contents.answer(r);
        let room = room(r, 26 + content.len());
        let answer = self.world.login(series, packet, content, room)?;
        self.note("Login", "logged in", &answer);
        if answer.is_ok() {
            let packet: Bytes = self.world.written[..].into();
            self.line.answers.push((series, packet.clone()));
            self.broken_off(series, "a login");
            self.history.logged_in(series, packet);
        }
        Ok(())
    }

    /// A login packet with a mark and a start around what the serving end has.
    fn made_up_login(&self, r: &mut Random, series: u16) -> Vec<u8> {
        let day = self.world.serving.day;
        let mark = day.map_or(1, |day| day.mark);
        let published = day.and_then(|day| day.open.iter().find(|one| one.series == series).map(|one| one.published));
        let mut content = self.contents.request(r).to_vec();
        if !r.once_in(4) {
            let next = u64::from(published.unwrap_or(0)) + r.below(4) as u64;
            let number = if r.once_in(3) { r.pick(&[0, 1, u32::MAX]) } else { next.saturating_sub(1) as u32 };
            content.extend(start_field_bytes(if r.once_in(8) { self.series(r) } else { series }, number));
        }
        let place = some_place(r);
        made_packet(r, LOGIN, (0, 0), (b'S', place), [None, Some(mark), Some(mark), Some(mark)], &content)
    }

    fn answer(&mut self, r: &mut Random) -> Result<(), String> {
        let (mut series, mut packet) = late(r, &self.line.answers).unwrap_or((1, [].into()));
        if self.kind == Kind::Honest && packet.is_empty() {
            return Ok(());
        }
        if self.kind != Kind::Honest {
            if r.once_in(3) {
                series = self.series(r);
                let kept = self.world.receiving.open.iter().find(|one| one.series == series);
                let mark = kept.and_then(|one| one.mark).unwrap_or(r.below(3) as u32);
                let (content, place) = (self.contents.answer(r), some_place(r));
                let marks = [None, Some(mark), Some(mark), Some(mark)];
                packet = made_packet(r, LOGIN, (0, 0), (b'S', place), marks, content).into();
            }
            if r.once_in(4) {
                packet = damaged(r, &packet).into();
            }
        }
        self.answer_with(series, &packet)
    }

    fn answer_with(&mut self, series: u16, packet: &Bytes) -> Result<(), String> {
        let answer = self.world.answer(series, packet)?;
        self.note("Answer", "answered", &answer);
        self.history.delivered(&Delivery::Answer(series, packet.clone()));
        if let (Ok(last), Kind::Honest) = (answer, self.kind) {
            let Packet::Message(message) = read(packet) else { return Err("an answer that is no packet".to_string()) };
            self.demand += 1;
            self.heard_report(series, message.mark.unwrap_or(0), last);
            self.history.answered(series, message.mark.unwrap_or(0), last)?;
        }
        Ok(())
    }

    fn send(&mut self, r: &mut Random, series: u16) -> Result<(), String> {
        // How much it takes, to find outputs of exactly as many bytes.
        let log = self.log(r);
        let (mut copy, mut out) = (self.world.serving, std::mem::take(&mut self.world.written));
        let takes = match copy.send(series, &self.world.logs[1][..log], usize::MAX, &mut out) {
            Ok(Some(_)) => out.len(),
            _ => r.below(40),
        };
        self.world.written = out;
        let room = room(r, takes);
        self.send_with(series, log, room).map(|_| ())
    }

    /// Gives whether a message was sent.
    fn send_with(&mut self, series: u16, log: usize, room: usize) -> Result<bool, String> {
        let answer = self.world.send(series, log, room)?;
        let sent = matches!(answer, Ok(Some(_)));
        self.note("Send", if sent { "sent" } else { "none" }, &answer);
        if let Ok(Some(number)) = answer {
            let packets = cut_apart(&self.world.written);
            self.broken_off(series, "a whole Send");
            let sent = self.sent(series, number)?;
            self.line.messages.push(Transmission { packets, sent });
        }
        self.none_left(series, matches!(answer, Ok(None)))?;
        Ok(sent)
    }

    /// A message's packets, all or the first few. Otherwise any of them, damaged or made up.
    fn run(&mut self, r: &mut Random) -> Result<(), String> {
        if self.kind != Kind::Honest && r.once_in(3) {
            let packet = self.made_up_packet(r);
            return self.receive(r, &packet);
        }
        let Some(place) = late_place(r, self.line.messages.len()) else { return Ok(()) };
        let packets = self.line.messages[place].packets.len();
        let count = if r.once_in(5) { r.within(1, packets) } else { packets };
        for i in 0..count {
            if self.kind != Kind::Honest && r.once_in(8) {
                let packet = self.line.messages[place].packets[i].clone();
                match r.below(3) {
                    // Lost, damaged, doubled.
                    0 => continue,
                    1 => {
                        let packet = damaged(r, &packet);
                        self.receive(r, &packet)?;
                        continue;
                    }
                    _ => self.receive(r, &packet)?,
                }
            }
            self.hand_over(r, place, i)?;
        }
        Ok(())
    }

    /// Packet i of a message, in a run with those before it.
    fn hand_over(&mut self, r: &mut Random, place: usize, i: usize) -> Result<(), String> {
        let buffer = self.buffer(r);
        self.hand_over_with(place, i, buffer)
    }

    fn hand_over_with(&mut self, place: usize, i: usize, buffer: usize) -> Result<(), String> {
        let packet = self.line.messages[place].packets[i].clone();
        self.receive_with(&packet, buffer)?;
        let of = &self.line.messages[place];
        if let Some(sent) = of.sent.as_ref().filter(|_| i + 1 == of.packets.len()) {
            self.history.delivered(sent);
        }
        Ok(())
    }

    /// Any bytes, a packet that bears no message, or one around what the receiving end has.
    fn made_up_packet(&self, r: &mut Random) -> Vec<u8> {
        match r.below(4) {
            0 => {
                let form = r.pick(&FORMS);
                packet_input(r, form)
            }
            1 => r.pick(&[&[0, 2, 0, 0, 4, 0][..], &[1, 0, 0, 0], &[7, 0, 0, 1, 0], &[0, 2, 0, 0, 4, 1]]).to_vec(),
            _ => self.made_up_piece(r),
        }
    }

    /// A packet around what the receiving end has.
    fn made_up_piece(&self, r: &mut Random) -> Vec<u8> {
        let series = self.series(r);
        let kept = self.world.receiving.open.iter().find(|one| one.series == series).copied().unwrap_or_default();
        let number = kept.last.wrapping_add(r.pick(&[0, 1, 1, 1, 1, 1, 1, 2, u32::MAX]));
        let number = if r.once_in(20) { r.pick(&[0, 1, 1_000_000, 1_000_001, u32::MAX]) } else { number };
        let content = match r.below(10) {
            0 => plain(4074),
            1 => vec![],
            _ => plain(r.below(30)),
        };
        let (letter, tid) = (r.pick(b"SFFCCL"), r.pick(&[STRANGE, STRANGE, STRANGE, MATCHES]));
        let (mark, place) = (kept.mark, near_place(r, letter, kept.chain));
        made_packet(r, tid, (series, number), (letter, place), [None, mark, mark, mark], &content)
    }

    /// A chain up to the most bytes that it may have, and around them.
    fn made_up_chain(&mut self, r: &mut Random) -> Result<(), String> {
        if !r.once_in(4) {
            return Ok(());
        }
        let series = self.series(r);
        let kept = self.world.receiving.open.iter().find(|one| one.series == series).copied().unwrap_or_default();
        let of = (series, kept.last.wrapping_add(1));
        let places = r.once_in(2);
        for i in 0..8 {
            let letter = (if i == 0 { b'F' } else { b'C' }, places.then_some(i));
            let packet = made_packet(r, STRANGE, of, letter, [None; 4], &plain(4074));
            self.receive(r, &packet)?;
        }
        let last = plain(r.pick(&[0, 121, 122, 123, 124, 4074]));
        let place = r.pick(&[None, Some(7), Some(8), Some(8), Some(9)]);
        let letter = (r.pick(b"CL"), place);
        let packet = made_packet(r, STRANGE, of, letter, [None; 4], &last);
        self.receive(r, &packet)
    }

    /// How much of the chain buffer is lent.
    fn buffer(&self, r: &mut Random) -> usize {
        let (all, parts) = (self.world.buffers[0].len(), self.world.receiving.open.len() * BUFFER);
        let buffer = match r.below(24) {
            0 => parts.saturating_sub(1),
            1 => r.below(parts + 1),
            2..=6 => parts,
            _ => all,
        };
        buffer.min(all)
    }

    /// The chain buffer has all its parts; where it hasn't, nothing is owed any more.
    fn lent(&mut self, buffer: usize) {
        if buffer < self.world.receiving.open.len() * BUFFER {
            self.history.disturbed();
        }
    }

    fn receive(&mut self, r: &mut Random, packet: &[u8]) -> Result<(), String> {
        let buffer = self.buffer(r);
        self.receive_with(packet, buffer)
    }

    fn receive_with(&mut self, packet: &[u8], buffer: usize) -> Result<(), String> {
        self.lent(buffer);
        let answer = self.world.receive(packet, buffer)?;
        let name = answer.map_or("", |taken| ["idle", "again", "held", "message"][usize::from(taken.answer)]);
        self.note("Receive", name, &answer);
        let (Ok(taken), Kind::Honest) = (answer, self.kind) else { return Ok(()) };
        let Packet::Message(message) = read(packet) else { return Err("a packet sent that is no message".to_string()) };
        self.demand += 1;
        if taken.answer == HANDED_ON {
            let bytes = if taken.origin == crate::ends::IN_PACKET { packet } else { &self.world.buffers[0] };
            let content = taken.content.of(bytes).to_vec();
            self.history.handed_on(message.series, message.mark.unwrap_or(0), taken.tid, &content)?;
            self.heard_message(&message, taken.tid, content);
        }
        self.heard_report(message.series, self.history.day_of(message.series), taken.last);
        self.history.reported(message.series, taken.last)
    }

    /// A login without a fault of the line.
    fn whole_login(&mut self, r: &mut Random, series: u16) -> Result<(), String> {
        let before = (self.line.logins.len(), self.line.answers.len());
        self.ask(r, series)?;
        if self.line.logins.len() > before.0 {
            let packet = self.line.logins[before.0].1.clone();
            self.login_with(r, series, &packet)?;
        }
        if self.line.answers.len() > before.1 {
            let packet = self.line.answers[before.1].1.clone();
            self.answer_with(series, &packet)?;
        }
        Ok(())
    }

    /// All that is left of the day arrives, with large buffers; then as much is reported as was published. Messages are sent
    /// whole, packet by packet, and begun packet by packet but then whole, in turn.
    fn catch_up(&mut self) -> Result<(), String> {
        let all = self.world.buffers[0].len();
        if all < self.world.receiving.open.len() * BUFFER {
            return Ok(());
        }
        self.connect()?;
        for one in self.world.serving.day.map_or(vec![], |day| day.open.to_vec()) {
            let series = one.series;
            if !self.world.receiving.open.iter().any(|kept| kept.series == series) {
                continue;
            }
            let answer = self.world.ask(series, &self.contents.request, 5000)?;
            self.note("Ask", "asked", &answer);
            let packet = self.world.written.clone();
            let answer = self.world.login(series, &packet, &self.contents.answer, 5000)?;
            self.note("Login", "logged in", &answer);
            let packet: Bytes = self.world.written[..].into();
            self.broken_off(series, "a login");
            self.history.logged_in(series, packet.clone());
            self.answer_with(series, &packet)?;
            let (mut turn, arrived) = (usize::from(series), self.arrived);
            while self.arrives(series, turn % 3)? {
                turn += 1;
            }
            if self.arrived == arrived {
                return Err(format!("demand 3: all was delivered of series {series}, and doesn't count"));
            }
        }
        Ok(())
    }

    /// The log altered, or a state set that no call made.
    fn alter(&mut self, r: &mut Random) {
        self.line.unfinished.clear();
        let length = self.world.logs[0].len();
        let used = self.world.serving.day.map_or(0, |day| day.used).min(length);
        if used > 0 && !r.once_in(3) {
            let at = if r.once_in(2) { r.below(used) } else { r.below(used.min(40)) };
            let byte = self.world.logs[0][at] ^ (1 << r.below(8));
            for log in &mut self.world.logs {
                log[at] = byte;
            }
            return;
        }
        if let Some(day) = &mut self.world.serving.day {
            let place = r.below(day.open.len());
            let one = &mut day.open[place];
            match r.below(9) {
                7 => one.reserve = any_bytes(r, length),
                8 => one.used = any_bytes(r, length),
                0 => one.published = r.pick(&[999_998, 999_999, 1_000_000, 1_000_001, u32::MAX, 0]),
                1 => one.next = Some(r.pick(&[0, 1, 2, 999_999, 1_000_000, u64::from(u32::MAX), 1 << 32, u64::MAX])),
                2 => (one.next, one.piece) = (None, 0),
                5 if one.next.is_some() => one.piece = any_piece(r),
                3 => day.used = r.pick(&[0, 1, 15, 16, used, used + 1, usize::MAX]),
                4 => day.mark = r.pick(&[0, 1, u32::MAX]),
                _ => {}
            }
        }
        if !self.world.receiving.open.is_empty() {
            let place = r.below(self.world.receiving.open.len());
            let one = &mut self.world.receiving.open[place];
            match r.below(6) {
                0 => one.last = r.pick(&[999_998, 999_999, 1_000_000, 1_000_001, u32::MAX - 1, u32::MAX]),
                1 => one.mark = r.pick(&[None, Some(0), Some(u32::MAX)]),
                2 => one.logged_in = r.once_in(2),
                3 => {
                    let held = r.pick(&[0, 6, 32_640, 32_767, 32_768, 32_769, usize::MAX - 5, usize::MAX]);
                    one.chain = Some(Chain { tid: STRANGE, held, pieces: any_count(r) });
                }
                4 => one.last = r.below(4) as u32,
                _ => {}
            }
        }
        self.world.level();
    }
}
