//! Scripts for the player of calls (`ftdplay`): calls with the lines that the player has to print. The answers are the
//! models' (`serving`, `receiving`, `checkpoints`, `calendar`, `book`); each worked example also says by hand how its
//! answer begins.

use crate::book::{Book, Side};
use crate::calendar::{Calendar, Days, Session};
use crate::checkpoints::Checkpoints;
use crate::packet::said_length;
use crate::receiving::{Received, Receiving};
use crate::serving::{Served, Serving};
use crate::several::{Answer, Stop, RECORD_HEADER};

mod book;
mod calendar;
mod checkpoints;
mod line;
mod packets;
mod parts;
mod pieces;
mod receiving;
mod serving;
mod several;
mod shares;

pub use line::{faulty_line, named_line};

/// Room in the log and in the chain buffer.
pub const LOG: usize = 40_000;
pub const CHAIN: usize = 131_072;
/// An output with room for each answer and message.
pub const ROOM: usize = 65_536;

/// A script and what it prints, made call by call.
pub struct Script {
    serving: Serving,
    receiving: Receiving,
    checkpoints: Checkpoints,
    calendar: Calendar,
    days: Days,
    book: Book,
    log: Vec<u8>,
    chain: Vec<u8>,
    /// Each line, and what is printed for it: one line, for `state` and a bufferful several.
    pub calls: Vec<(String, String)>,
}

fn hex(bytes: &[u8]) -> String {
    if bytes.is_empty() {
        return "-".to_string();
    }
    bytes.iter().map(|byte| format!("{byte:02X}")).collect()
}

fn refused(row: u8) -> String {
    format!("refused {row}")
}

/// A price in units of 0.0001.
fn price_text(units: i64) -> String {
    let digits = format!("{:05}", units.unsigned_abs());
    let (whole, fraction) = digits.split_at(digits.len() - 4);
    format!("{}{whole}.{fraction}", if units < 0 { "-" } else { "" })
}

fn published_text(answer: Result<u32, u8>) -> String {
    answer.map_or_else(refused, |number| format!("published {number}"))
}

fn received_text(answer: Result<Received, u8>) -> String {
    match answer {
        Err(row) => refused(row),
        Ok(Received::Idle) => "idle".to_string(),
        Ok(Received::Again(last)) => format!("again {last}"),
        Ok(Received::Held(last)) => format!("held {last}"),
        Ok(Received::Message { last, tid, content }) => {
            format!("message {last} {tid:08X} {}", hex(content.bytes()))
        }
    }
}

/// What a bufferful took, and what it stopped at.
fn taken_text(answer: Answer) -> String {
    let stop = match answer.stop {
        Stop::End => "end".to_string(),
        Stop::Short(missing) => format!("short {missing}"),
        Stop::Refused(row) => refused(row),
        Stop::Message { .. } => "message".to_string(),
    };
    format!("taken {} {stop}", answer.taken)
}

/// A call that writes: its answer as text, and the bytes.
fn written(verb: &str, answer: Result<(), u8>, out: Vec<u8>) -> (String, Option<Vec<u8>>) {
    match answer {
        Ok(()) => (format!("{verb} {} {}", out.len(), hex(&out)), Some(out)),
        Err(row) => (refused(row), None),
    }
}

impl Script {
    /// The first line lays out the buffers.
    pub fn new(log: usize, chain: usize) -> Self {
        Script {
            serving: Serving::default(),
            receiving: Receiving::default(),
            checkpoints: Checkpoints::default(),
            calendar: Calendar::default(),
            days: Days::default(),
            book: Book::default(),
            log: vec![0; log],
            chain: vec![0; chain],
            calls: vec![(format!("buffers {log} {chain}"), "ok".to_string())],
        }
    }

    /// The lines of standard input, and those of standard output.
    pub fn texts(&self) -> (String, String) {
        let lines = |of: fn(&(String, String)) -> &String| self.calls.iter().flat_map(|c| [of(c), "\n"]).collect();
        (lines(|call| &call.0), lines(|call| &call.1))
    }

    fn add(&mut self, line: String, answer: String) {
        self.calls.push((line, answer));
    }

    /// The last answer begins with these two words, or is this one word.
    fn begins(&self, expected: &str) {
        self.first_words(2, expected);
    }

    /// The last answer's first words, so many, are these.
    fn first_words(&self, count: usize, expected: &str) {
        let (line, answer) = self.calls.last().expect("a call");
        let first = answer.split(' ').take(count).collect::<Vec<_>>().join(" ");
        assert_eq!(first, expected, "line {}: {}", self.calls.len(), &line[..line.len().min(120)]);
    }

    /// The last answer is this one.
    fn says(&self, expected: &str) {
        let (line, answer) = self.calls.last().expect("a call");
        assert_eq!(answer, expected, "line {}: {}", self.calls.len(), &line[..line.len().min(120)]);
    }

    // --- The calls ---

    /// Series with their reserves; without a colon it is 0.
    fn sopen(&mut self, mark: u32, given: &[(u16, Option<usize>)]) -> Result<(), u8> {
        let (series, reserves): (Vec<_>, Vec<_>) = given.iter().map(|one| (one.0, one.1.unwrap_or(0))).unzip();
        let answer = self.serving.open(mark, &series, &reserves, self.log.len());
        let reserve = |one: Option<usize>| one.map_or(String::new(), |reserve| format!(":{reserve}"));
        let words: String = given.iter().map(|one| format!(" {}{}", one.0, reserve(one.1))).collect();
        self.add(format!("sopen {mark}{words}"), answer.map_or_else(refused, |()| "opened".to_string()));
        answer
    }

    fn published(&mut self, series: u16, tid: u32, content: &[u8]) -> Result<u32, u8> {
        let answer = self.serving.publish(series, tid, content, &mut self.log);
        self.add(format!("publish {series} {tid:08X} {}", hex(content)), published_text(answer));
        answer
    }

    fn logged_in(&mut self, series: u16, room: usize, packet: &[u8], content: &[u8]) -> Option<Vec<u8>> {
        let mut out = vec![];
        let answer = self.serving.login(series, packet, content, room, &mut out);
        let (text, out) = written("login", answer, out);
        self.add(format!("login {series} {room} {} {}", hex(packet), hex(content)), text);
        out
    }

    fn sent(&mut self, series: u16, room: usize) -> Option<Vec<u8>> {
        let mut out = vec![];
        let answer = self.serving.send(series, &self.log, room, &mut out);
        let (text, out) = match answer {
            Ok(None) => ("none".to_string(), None),
            Ok(Some(_)) => written("sent", Ok(()), out),
            Err(row) => (refused(row), None),
        };
        self.add(format!("send {series} {room}"), text);
        out
    }

    /// One packet of the next message, and whether it is the last.
    fn sent_packet(&mut self, series: u16, room: usize) -> Option<(Vec<u8>, bool)> {
        let mut out = vec![];
        let answer = self.serving.send_packet(series, &self.log, room, &mut out);
        let (text, packet) = match answer {
            Ok(None) => ("none".to_string(), None),
            Ok(Some(one)) => {
                let word = if one.last { "last" } else { "more" };
                (format!("packet {} {word} {}", out.len(), hex(&out)), Some((out, one.last)))
            }
            Err(row) => (refused(row), None),
        };
        self.add(format!("sendpacket {series} {room}"), text);
        packet
    }

    fn ropen(&mut self, series: &[u16]) -> Result<(), u8> {
        let answer = self.receiving.open(series);
        let words: String = series.iter().map(|series| format!(" {series}")).collect();
        self.add(format!("ropen{words}"), answer.map_or_else(refused, |()| "opened".to_string()));
        answer
    }

    fn connect(&mut self) {
        self.receiving.connect();
        self.add("connect".to_string(), "connected".to_string());
    }

    fn asked(&mut self, series: u16, room: usize, content: &[u8]) -> Option<Vec<u8>> {
        let mut out = vec![];
        let answer = self.receiving.ask(series, content, room, &mut out);
        let (text, out) = written("asked", answer, out);
        self.add(format!("ask {series} {room} {}", hex(content)), text);
        out
    }

    fn answered(&mut self, series: u16, packet: &[u8]) -> Result<u32, u8> {
        let answer = self.receiving.answer(series, packet);
        let text = answer.map_or_else(refused, |last| format!("answered {last}"));
        self.add(format!("answer {series} {}", hex(packet)), text);
        answer
    }

    fn received(&mut self, packet: &[u8]) {
        let text = received_text(self.receiving.receive(packet, &mut self.chain));
        self.add(format!("receive {}", hex(packet)), text);
    }

    /// A bufferful of packets: the answers to the packets taken, each by the single call, and what the call for several
    /// says. Both leave the same.
    fn received_all(&mut self, packets: &[u8]) -> usize {
        let (mut single, mut chain) = (self.receiving, self.chain.clone());
        let answer = self.receiving.receive_several(packets, &mut self.chain);
        let mut lines = vec![];
        let mut rest = &packets[..answer.taken];
        while let Some(length) = said_length(rest) {
            lines.push(received_text(single.receive(&rest[..length], &mut chain)));
            rest = &rest[length..];
        }
        assert!(single == self.receiving && chain == self.chain, "single calls leave something else");
        lines.push(taken_text(answer));
        self.add(format!("receiveall {}", hex(packets)), lines.join("\n"));
        answer.taken
    }

    /// A bufferful of records, likewise.
    fn published_all(&mut self, records: &[u8]) -> usize {
        let (mut single, mut log) = (self.serving, self.log.clone());
        let answer = self.serving.publish_several(records, &mut self.log);
        let mut lines = vec![];
        let mut rest = &records[..answer.taken];
        while !rest.is_empty() {
            let number = |at: usize, n: usize| rest[at..at + n].iter().fold(0, |x, &byte| x << 8 | u32::from(byte));
            let end = RECORD_HEADER + number(6, 4) as usize;
            let content = &rest[RECORD_HEADER..end];
            lines.push(published_text(single.publish(number(0, 2) as u16, number(2, 4), content, &mut log)));
            rest = &rest[end..];
        }
        assert!(single == self.serving && log == self.log, "single calls leave something else");
        lines.push(taken_text(answer));
        self.add(format!("publishall {}", hex(records)), lines.join("\n"));
        answer.taken
    }

    /// A name as it stands in a line; `-` is the empty one.
    fn named(name: &str) -> &[u8] {
        if name == "-" {
            return &[];
        }
        name.as_bytes()
    }

    fn kept(&mut self, name: &str) -> Result<(), u8> {
        let answer = self.checkpoints.keep(&self.receiving, Self::named(name));
        self.add(format!("keep {name}"), answer.map_or_else(refused, |()| "kept".to_string()));
        answer
    }

    fn returned(&mut self, name: &str) -> Result<(), u8> {
        let answer = self.checkpoints.back(&mut self.receiving, Self::named(name));
        self.add(format!("return {name}"), answer.map_or_else(refused, |()| "returned".to_string()));
        answer
    }

    /// Both ends: a line each, and one for each open series. Then the places: how many names are in use, a line for
    /// each of them, and one for each series that was open.
    fn state(&mut self) {
        let or_none = |x: Option<u32>| x.map_or("none".to_string(), |x| x.to_string());
        let day = self.serving.day;
        let mut lines = vec![format!("serving {} {}", or_none(day.map(|d| d.mark)), day.map_or(0, |d| d.used))];
        for one in day.iter().flat_map(|day| day.open.iter()) {
            let next = one.next.map_or("out".to_string(), |next| next.to_string());
            let Served { series, published, used, reserve, piece, .. } = one;
            let account = format!("used {used} reserve {reserve}");
            lines.push(format!("series {series} published {published} {account} next {next} piece {piece}"));
        }
        lines.push(format!("receiving {}", self.receiving.open.len()));
        for one in self.receiving.open.iter() {
            let login = if one.logged_in { "in" } else { "out" };
            let chain = one.chain.map_or("none".to_string(), |chain| format!("{} {}", chain.held, chain.pieces));
            let mark = or_none(one.mark);
            lines.push(format!("series {} {mark} last {} {login} chain {chain}", one.series, one.last));
        }
        lines.push(format!("places {}", self.checkpoints.places.len()));
        for place in &self.checkpoints.places {
            lines.push(format!("place {}", String::from_utf8_lossy(&place.name)));
            for one in &place.kept {
                lines.push(format!("series {} {} last {}", one.series, or_none(one.mark), one.last));
            }
        }
        self.add("state".to_string(), lines.join("\n"));
    }

    // --- The calendar, each call with its answer ---

    fn set(&mut self, sessions: &[Session], holidays: &[u32], expected: &str) {
        let answer = self.calendar.set(sessions, holidays);
        let mut line = format!("calendar {}", sessions.len());
        for one in sessions {
            line += &format!(" {} {} {}", one.first, one.last, u32::from(one.late));
        }
        for holiday in holidays {
            line += &format!(" {holiday}");
        }
        self.add(line, answer.map_or_else(refused, |()| "set".to_string()));
        self.begins(expected);
    }

    fn ask_time(&mut self, seconds: u32, expected: &str) {
        let date = self.calendar.ask(&self.days, seconds);
        self.add(format!("ask {seconds}"), date.map_or("outside".to_string(), |date| format!("inside {date}")));
        self.begins(expected);
    }

    fn mark(&mut self, mark: u32, expected: &str) {
        let date = self.days.mark(mark);
        self.add(format!("mark {mark}"), format!("date {date}"));
        self.begins(expected);
    }

    // --- The book, each call with its answer ---

    fn start(&mut self, code: &[u8], expected: &str) {
        let answer = Book::start(code).map(|book| self.book = book);
        self.add(format!("book {}", hex(code)), answer.map_or_else(refused, |()| "started".to_string()));
        self.says(expected);
    }

    fn take(&mut self, tid: u32, content: &[u8], expected: &str) {
        let answer = self.book.take(tid, content);
        self.add(format!("take {tid:08X} {}", hex(content)), answer.map_or_else(refused, |()| "taken".to_string()));
        self.says(expected);
    }

    fn level(&mut self, side: Side, i: usize, expected: &str) {
        let letter = if side == Side::Buying { 'b' } else { 's' };
        let text = match self.book.level(side, i) {
            Some((price, quantity)) => format!("level {} {quantity}", price_text(price)),
            None => "none".to_string(),
        };
        self.add(format!("level {letter} {i}"), text);
        self.says(expected);
    }

    fn mean(&mut self, expected: &str) {
        let text = self.book.mean().map_or("none".to_string(), |price| format!("mean {}", price_text(price)));
        self.add("mean".to_string(), text);
        self.says(expected);
    }

    /// A line that is no call.
    fn bad(&mut self, line: &str) {
        let answer = format!("bad line {}", self.calls.len() + 1);
        self.add(line.to_string(), answer);
    }

    // --- The calls with what their answers begin with ---

    /// Without reserves.
    fn open(&mut self, mark: u32, series: &[u16], expected: &str) {
        let given: Vec<_> = series.iter().map(|&series| (series, None)).collect();
        self.open_shares(mark, &given, expected);
    }

    fn open_shares(&mut self, mark: u32, given: &[(u16, Option<usize>)], expected: &str) {
        _ = self.sopen(mark, given);
        self.begins(expected);
    }

    fn publish(&mut self, series: u16, tid: u32, content: &[u8], expected: &str) {
        _ = self.published(series, tid, content);
        self.begins(expected);
    }

    fn login(&mut self, series: u16, room: usize, packet: &[u8], content: &[u8], expected: &str) {
        _ = self.logged_in(series, room, packet, content);
        self.begins(expected);
    }

    fn send(&mut self, series: u16, room: usize, expected: &str) {
        _ = self.sent(series, room);
        self.begins(expected);
    }

    /// One packet: `packet LENGTH last`, `packet LENGTH more`, none, or a refusal. Gives the packet.
    fn send_packet(&mut self, series: u16, room: usize, expected: &str) -> Vec<u8> {
        let packet = self.sent_packet(series, room);
        self.first_words(3, expected);
        packet.map_or(vec![], |(packet, _)| packet)
    }

    fn open_end(&mut self, series: &[u16], expected: &str) {
        _ = self.ropen(series);
        self.begins(expected);
    }

    fn keep(&mut self, name: &str, expected: &str) {
        _ = self.kept(name);
        self.says(expected);
    }

    fn go_back(&mut self, name: &str, expected: &str) {
        _ = self.returned(name);
        self.says(expected);
    }

    fn ask(&mut self, series: u16, room: usize, content: &[u8], expected: &str) {
        _ = self.asked(series, room, content);
        self.begins(expected);
    }

    fn answer(&mut self, series: u16, packet: &[u8], expected: &str) {
        _ = self.answered(series, packet);
        self.begins(expected);
    }

    fn receive(&mut self, packet: &[u8], expected: &str) {
        self.received(packet);
        self.begins(expected);
    }

    /// A bufferful of packets, and what each line of the answer begins with. Gives how many bytes it took.
    fn receive_all(&mut self, packets: &[u8], expected: &[&str]) -> usize {
        let taken = self.received_all(packets);
        self.all_begin(expected);
        taken
    }

    fn publish_all(&mut self, records: &[u8], expected: &[&str]) -> usize {
        let taken = self.published_all(records);
        self.all_begin(expected);
        taken
    }

    /// Each line of the last answer is this one, or begins with these words.
    fn all_begin(&self, expected: &[&str]) {
        let lines: Vec<&str> = self.calls.last().expect("a call").1.split('\n').collect();
        assert_eq!(lines.len(), expected.len(), "line {}", self.calls.len());
        for (line, start) in lines.iter().zip(expected) {
            let begins = line.strip_prefix(start).is_some_and(|more| more.is_empty() || more.starts_with(' '));
            assert!(begins, "line {}: {} for {start}", self.calls.len(), &line[..line.len().min(120)]);
        }
    }

    /// The states of both ends, each line of them written by hand; behind them there is the place that was kept before
    /// the opening, and no other.
    fn states(&mut self, expected: &str) {
        self.state();
        let expected = format!("{expected}\nplaces 1\nplace BEFORE");
        assert_eq!(self.calls.last().expect("a call").1, expected, "line {}", self.calls.len());
    }
}

/// The whole script: the worked examples of both ends, of the calendar, of the book, of a bufferful, of one packet a
/// call, of every piece counted, of a share of the log and of named places, and both ends over a faulty line, without
/// keeps and returns and with them. Gives it with the places of the calls that the two faulty lines begin with.
pub fn whole_script() -> (Script, [usize; 2]) {
    let mut s = Script::new(LOG, CHAIN);
    serving::examples(&mut s);
    checkpoints::before_the_opening(&mut s);
    receiving::examples(&mut s);
    serving::biggest(&mut s);
    calendar::examples(&mut s);
    book::examples(&mut s);
    several::examples(&mut s);
    packets::examples(&mut s);
    pieces::examples(&mut s);
    shares::examples(&mut s);
    checkpoints::examples(&mut s);
    let from = s.calls.len();
    faulty_line(&mut s, 2_000_000_000);
    let named = s.calls.len();
    named_line(&mut s, 3_000_000_000);
    serving::last_marks(&mut s);
    (s, [from, named])
}
