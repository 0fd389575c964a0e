//! The script that stands in the repository is the one that the models make; every answer of every call is there; and over
//! the faulty lines what was handed on is what was published; with keeps and returns, what counts of it.

use reader::cut::{write_sent, Header};
use reader::packet::{read, said_length, MessagePacket, Packet};
use reader::script::{faulty_line, named_line, whole_script, Script, CHAIN, LOG};
use std::collections::{BTreeMap, BTreeSet};
use std::path::Path;

#[test]
fn script_of_the_repository() {
    let folder = Path::new(env!("CARGO_MANIFEST_DIR")).join("../../crates/ftdplay");
    let (input, output) = whole_script().0.texts();
    assert!(std::fs::read_to_string(folder.join("stdin")).unwrap() == input, "stdin differs: run bin/script");
    assert!(std::fs::read_to_string(folder.join("stdout")).unwrap() == output, "stdout differs: run bin/script");
}

/// Each answer of each call is there: refusals by number, and what was taken. 20 and 21 aren't: calls alone don't damage
/// the log, and a million messages are no small script; nor 3 of Login and Answer, which is 12 there.
#[test]
fn every_answer_is_there() {
    let (script, [from, _]) = whole_script();
    let mut seen: BTreeMap<(&str, &str), usize> = BTreeMap::new();
    for (line, answer) in &script.calls[..from] {
        let call = line.split(' ').next().unwrap_or("");
        let said = if answer.starts_with("refused") { answer } else { answer.split(' ').next().unwrap() };
        *seen.entry((call, said)).or_default() += 1;
    }
    let rows = |call: &str| -> Vec<u8> {
        let mut rows: Vec<u8> = seen
            .keys()
            .filter(|(of, _)| *of == call)
            .filter_map(|(_, said)| said.strip_prefix("refused ").map(|row| row.parse().unwrap()))
            .collect();
        rows.sort_unstable();
        rows
    };
    assert_eq!(rows("sopen"), [11]);
    assert_eq!(rows("publish"), [7, 8, 9, 10, 13, 18]);
    assert_eq!(rows("login"), [1, 2, 4, 5, 6, 7, 8, 9, 10, 12, 13, 15, 16, 18, 19]);
    assert_eq!(rows("send"), [13, 14, 18]);
    assert_eq!(rows("sendpacket"), [13, 14, 18]);
    assert_eq!(rows("ropen"), [11]);
    assert_eq!(rows("ask"), [7, 8, 9, 10, 13, 18]);
    assert_eq!(rows("answer"), [1, 2, 4, 5, 6, 7, 8, 9, 10, 12, 13, 15, 16]);
    assert_eq!(rows("receive"), [1, 2, 3, 4, 5, 6, 7, 12, 13, 14, 15, 16, 17, 18]);
    assert_eq!(rows("keep"), [31, 32]);
    assert_eq!(rows("return"), [31, 33]);
    assert_eq!(rows("calendar"), [26, 27]);
    assert_eq!(rows("book"), [9]);
    assert_eq!(rows("take"), [7, 8, 9, 10, 22, 23, 24]);
    for taken in [
        ("sopen", "opened"),
        ("publish", "published"),
        ("login", "login"),
        ("send", "sent"),
        ("send", "none"),
        ("sendpacket", "packet"),
        ("sendpacket", "none"),
        ("ropen", "opened"),
        ("connect", "connected"),
        ("ask", "asked"),
        ("answer", "answered"),
        ("receive", "idle"),
        ("receive", "again"),
        ("receive", "held"),
        ("receive", "message"),
        ("keep", "kept"),
        ("return", "returned"),
        ("state", "serving"),
        ("calendar", "set"),
        ("ask", "inside"),
        ("ask", "outside"),
        ("mark", "date"),
        ("book", "started"),
        ("take", "taken"),
        ("level", "level"),
        ("level", "none"),
        ("mean", "mean"),
        ("mean", "none"),
    ] {
        assert!(seen.contains_key(&taken), "{taken:?}");
    }
    println!("{} calls, {seen:?}", script.calls.len());
}

// --- Demand 3 of the faulty line, from its text alone ---

fn bytes(word: &str) -> Vec<u8> {
    if word == "-" {
        return vec![];
    }
    (0..word.len()).step_by(2).map(|i| u8::from_str_radix(&word[i..i + 2], 16).unwrap()).collect()
}

fn message(packet: &[u8]) -> MessagePacket<'_> {
    match read(packet) {
        Packet::Message(message) => message,
        other => panic!("{other:?}"),
    }
}

/// A series and a day; a message by TID and content.
type Flow = (u16, u32);
type Message = (u32, Vec<u8>);

/// What the line was given of a message: its packets, or of one that is unfinished or broken off the first few.
#[derive(Clone, Default, PartialEq)]
struct Sent {
    packets: Vec<Vec<u8>>,
    whole: bool,
}

/// What the receiving end was given: an answer with its series, a message whole.
#[derive(Clone, PartialEq)]
enum Delivery {
    Answer(u16, Vec<u8>),
    Message(Vec<Vec<u8>>),
}

/// Since the last login of a series: its answer and then every message sent, and all that was delivered.
struct SinceLogin {
    due: Vec<Delivery>,
    delivered: Vec<Delivery>,
    /// The number of the last message sent.
    number: Option<u32>,
}

/// What a call of the receiving end came to, where it counts in demand 3: a message handed on with its number, a
/// report, a keep and a return that were taken.
#[derive(Clone)]
enum Happened {
    HandedOn(Flow, u32, Message),
    Reported(Flow, u32),
    Kept(String),
    Returned(String),
}

/// What counts of a list (02, No. 13): of a list and a return, what counts of its part up to the last keep of that
/// name, this one included; of a list and anything else, what counts of the list, and this.
fn counts(all: &[Happened]) -> Vec<Happened> {
    let Some((last, before)) = all.split_last() else { return vec![] };
    if let Happened::Returned(name) = last {
        let kept = before.iter().rposition(|one| matches!(one, Happened::Kept(of) if of == name));
        return counts(&before[..=kept.expect("a return to a name that was kept")]);
    }
    [counts(before), vec![last.clone()]].concat()
}

#[derive(Default)]
struct History {
    day: u32,
    published: BTreeMap<Flow, Vec<Message>>,
    /// All that happened; and of what counts of it the messages with their numbers, and the last report of each series
    /// and day.
    happened: Vec<Happened>,
    handed_on: BTreeMap<Flow, Vec<(u32, Message)>>,
    reports: BTreeMap<Flow, u32>,
    /// The day of each series' last answer.
    answered: BTreeMap<u16, u32>,
    /// What was printed: login packets, and those of them that are behind the last return, answers with their series,
    /// messages as packets.
    logins: BTreeSet<Vec<u8>>,
    asked: BTreeSet<Vec<u8>>,
    answers: BTreeSet<(u16, Vec<u8>)>,
    messages: Vec<Sent>,
    /// Which of the messages is unfinished, by series.
    unfinished: BTreeMap<u16, usize>,
    /// The packet received last, if no other call of the receiving end came since: messages and places that it may be of, in
    /// a run from the first packet on. None where it came by itself.
    run: Vec<(usize, usize)>,
    /// By series, where no opening, no connection and no return came since its last login, which was asked for behind
    /// the last return.
    logged_in: BTreeMap<u16, SinceLogin>,
    /// What happened, counted.
    seen: BTreeMap<String, usize>,
}

impl History {
    fn call(&mut self, line: &str, answer: &str) {
        let words: Vec<&str> = line.split(' ').collect();
        let said: Vec<&str> = answer.split(' ').collect();
        let series = || words[1].parse::<u16>().unwrap();
        match (words[0], said[0]) {
            ("sopen", "opened") => {
                self.day = words[1].parse().unwrap();
                for series in self.unfinished.keys().copied().collect::<Vec<_>>() {
                    self.break_off(series, "an opening");
                }
                self.logged_in.clear();
            }
            ("publish", "published") => {
                let flow = self.published.entry((series(), self.day)).or_default();
                flow.push((u32::from_str_radix(words[2], 16).unwrap(), bytes(words[3])));
                assert_eq!(said[1].parse::<usize>().unwrap(), flow.len());
                if self.unfinished.contains_key(&series()) {
                    self.note("publish within a message");
                }
            }
            ("ask", "asked") => {
                self.logins.insert(bytes(said[2]));
                self.asked.insert(bytes(said[2]));
            }
            ("keep", "kept") => self.happened.push(Happened::Kept(words[1].to_string())),
            ("return", "returned") => self.returned(words[1]),
            ("login", _) => {
                assert!(self.logins.contains(&bytes(words[3])), "a login packet that was printed");
                if said[0] == "login" {
                    let answer = bytes(said[2]);
                    self.break_off(series(), "a login");
                    self.answers.insert((series(), answer.clone()));
                    let due = vec![Delivery::Answer(series(), answer)];
                    self.logged_in.insert(series(), SinceLogin { due, delivered: vec![], number: None });
                    if !self.asked.contains(&bytes(words[3])) {
                        self.logged_in.remove(&series());
                        self.note("a login asked for before the last return");
                    }
                }
            }
            ("send", "sent") => {
                let (all, mut packets) = (bytes(said[2]), vec![]);
                let mut rest = &all[..];
                while let Some(length) = said_length(rest) {
                    packets.push(rest[..length].to_vec());
                    rest = &rest[length..];
                }
                self.break_off(series(), "a whole Send");
                self.messages.push(Sent { packets, whole: false });
                self.finished(series(), self.messages.len() - 1);
            }
            ("sendpacket", "packet") => {
                let place = *self.unfinished.entry(series()).or_insert(self.messages.len());
                if place == self.messages.len() {
                    self.messages.push(Sent::default());
                }
                self.messages[place].packets.push(bytes(said[3]));
                self.packets_right(series(), place);
                if said[2] == "last" {
                    self.unfinished.remove(&series());
                    self.note(&format!("finished in {} packets", self.messages[place].packets.len()));
                    self.finished(series(), place);
                }
            }
            ("send" | "sendpacket", "none") => self.none_left(series()),
            ("answer", _) => {
                let packet = bytes(words[2]);
                assert!(self.answers.contains(&(series(), packet.clone())), "an answer that was printed");
                self.deliver(Delivery::Answer(series(), packet.clone()));
                if said[0] == "answered" {
                    let day = message(&packet).mark.expect("a tag");
                    self.answered.insert(series(), day);
                    self.reported((series(), day), said[1].parse().unwrap());
                }
            }
            ("receive", what) => self.receive(&bytes(words[1]), what, &said),
            ("ropen", "opened") | ("connect", _) => self.logged_in.clear(),
            _ => {}
        }
        if ["ropen", "connect", "ask", "answer", "keep", "return"].contains(&words[0]) {
            self.run.clear();
        }
        let said = if said[0] == "refused" { answer } else { said[0] };
        self.note(&format!("{} {said}", words[0]));
        self.agree();
    }

    /// The names that a line of `state` shows were kept before what follows.
    fn kept_before(&mut self, state: &str) {
        let names = state.lines().filter_map(|line| line.strip_prefix("place "));
        self.happened.extend(names.map(|name| Happened::Kept(name.to_string())));
    }

    fn reported(&mut self, flow: Flow, last: u32) {
        self.happened.push(Happened::Reported(flow, last));
        self.reports.insert(flow, last);
    }

    /// A return: other messages and reports count, and nothing is owed but for a login asked for behind it.
    fn returned(&mut self, name: &str) {
        let before = (self.handed_on.values().map(Vec::len).sum::<usize>(), self.reports.len());
        self.happened.push(Happened::Returned(name.to_string()));
        self.handed_on.clear();
        self.reports.clear();
        for one in counts(&self.happened) {
            match one {
                Happened::HandedOn(flow, number, message) => {
                    self.handed_on.entry(flow).or_default().push((number, message));
                }
                Happened::Reported(flow, last) => _ = self.reports.insert(flow, last),
                Happened::Kept(_) | Happened::Returned(_) => {}
            }
        }
        let now = (self.handed_on.values().map(Vec::len).sum::<usize>(), self.reports.len());
        match now.0.cmp(&before.0) {
            std::cmp::Ordering::Less => self.note("a return, and fewer messages count"),
            std::cmp::Ordering::Equal => self.note("a return, and as many messages count"),
            std::cmp::Ordering::Greater => self.note("a return, and more messages count"),
        }
        if now == (0, 0) && before.0 > 0 {
            self.note("a return to before all that happened");
        }
        self.logged_in.clear();
        self.asked.clear();
    }

    fn note(&mut self, what: &str) {
        *self.seen.entry(what.to_string()).or_default() += 1;
    }

    fn break_off(&mut self, series: u16, by: &str) {
        if self.unfinished.remove(&series).is_some() {
            self.note(&format!("broken off by {by}"));
        }
    }

    /// The packets are the first ones of the message published under their number. Gives whether they are all of them, and
    /// the number.
    fn packets_right(&self, series: u16, place: usize) -> (bool, u32) {
        let packets = self.messages[place].packets.concat();
        let number = message(&self.messages[place].packets[0]).number;
        let (tid, content) = &self.published[&(series, self.day)][number as usize - 1];
        let mut right = vec![];
        write_sent(&mut right, &Header { tid: *tid, series, number, mark: Some(self.day) }, content).unwrap();
        assert!(right.starts_with(&packets), "message {number} of series {series}: packets of the one published");
        (right == packets, number)
    }

    /// A message is sent whole; and since a login the numbers follow each other.
    fn finished(&mut self, series: u16, place: usize) {
        let (all, number) = self.packets_right(series, place);
        assert!(all, "message {number} of series {series}: all packets of the one published");
        self.messages[place].whole = true;
        let packets = self.messages[place].packets.clone();
        if let Some(since) = self.logged_in.get_mut(&series) {
            assert!(since.number.is_none_or(|last| number == last + 1), "the numbers follow each other");
            since.number = Some(number);
            since.due.push(Delivery::Message(packets));
        }
    }

    fn deliver(&mut self, what: Delivery) {
        for since in self.logged_in.values_mut() {
            since.delivered.push(what.clone());
        }
    }

    /// Demand 3's second half: where the last login's answer and then every message sent were delivered, whole and in order,
    /// n is the published count.
    fn none_left(&mut self, series: u16) {
        assert!(!self.unfinished.contains_key(&series), "none, and a message is unfinished");
        let Some(since) = self.logged_in.get(&series) else { return };
        let mut delivered = since.delivered.iter();
        if since.due.iter().all(|due| delivered.any(|one| one == due)) {
            let flow = (series, self.day);
            let published = self.published.get(&flow).map_or(0, Vec::len);
            assert_eq!(self.reports.get(&flow).copied().unwrap_or(0) as usize, published, "{flow:?} has all arrived");
            self.note("all arrived");
            if self.happened.iter().any(|one| matches!(one, Happened::Returned(_))) {
                self.note("all arrived behind a return");
            }
        }
    }

    fn receive(&mut self, packet: &[u8], what: &str, said: &[&str]) {
        let is = |m: usize, i: usize| self.messages[m].packets.get(i).is_some_and(|one| one == packet);
        let next = self.run.iter().filter(|&&(m, i)| is(m, i + 1)).map(|&(m, i)| (m, i + 1));
        let first = (0..self.messages.len()).filter(|&m| is(m, 0)).map(|m| (m, 0));
        self.run = next.chain(first).collect();
        assert!(self.messages.iter().any(|of| of.packets.iter().any(|one| one == packet)), "a packet that was printed");
        if self.run.is_empty() {
            self.note(&format!("a single packet: {what}"));
        }
        let whole = |&&(m, i): &&(usize, usize)| self.messages[m].whole && i + 1 == self.messages[m].packets.len();
        if let Some(&(m, _)) = self.run.iter().find(whole) {
            self.deliver(Delivery::Message(self.messages[m].packets.clone()));
        }
        if !self.run.is_empty()
            && self.run.iter().all(|&(m, i)| !self.messages[m].whole && i + 1 == self.messages[m].packets.len())
        {
            self.note("receive the last packet that was written so far");
        }
        let packet = message(packet);
        if ["again", "held", "message"].contains(&what) {
            let day = self.answered[&packet.series];
            self.reported((packet.series, day), said[1].parse().unwrap());
        }
        if what == "message" {
            let flow = (packet.series, packet.mark.expect("a tag"));
            let one = (u32::from_str_radix(said[2], 16).unwrap(), bytes(said[3]));
            self.happened.push(Happened::HandedOn(flow, packet.number, one.clone()));
            self.handed_on.entry(flow).or_default().push((packet.number, one));
            if packet.chain == b'L' {
                match self.run.iter().map(|&(m, _)| self.messages[m].packets.len()).max() {
                    Some(packets) => self.note(&format!("message of {packets} packets")),
                    None => self.note("message of single packets"),
                }
            }
        }
    }

    /// What was handed on of each series and day is the first n published, n the last report, under the numbers 1 to n;
    /// of what counts.
    fn agree(&self) {
        for flow in self.handed_on.keys().chain(self.reports.keys()) {
            let n = self.reports.get(flow).copied().unwrap_or(0) as usize;
            let handed_on = self.handed_on.get(flow).map_or(&[][..], |all| all);
            let published = self.published.get(flow).map_or(&[][..], |all| all);
            let first = published.get(..n).map(|first| (1..).zip(first).map(|(i, one)| (i, one)));
            let same = first.is_some_and(|first| first.eq(handed_on.iter().map(|(number, one)| (*number, one))));
            assert!(same, "{flow:?}: {n} reported, {} handed on", handed_on.len());
        }
    }
}

/// All calls of a line. At the end all has arrived: of every day, or where there are returns of the last one.
fn check_line(calls: &[(String, String)], returns: bool) -> History {
    let mut history = History::default();
    if returns {
        history.kept_before(&calls[0].1);
    }
    for (line, answer) in calls {
        history.call(line, answer);
    }
    for (flow, published) in history.published.iter().filter(|(flow, _)| !returns || flow.1 == history.day) {
        let n = history.reports.get(flow).copied().unwrap_or(0) as usize;
        assert_eq!(n, published.len(), "{flow:?} has all arrived");
    }
    history
}

/// Two fresh ends, and the same calls behind the worked examples.
#[test]
fn over_a_faulty_line() {
    let mut fresh = Script::new(LOG, CHAIN);
    faulty_line(&mut fresh, 0);
    let history = check_line(&fresh.calls[1..], false);
    println!("{} calls\n{:#?}", fresh.calls.len(), history.seen);
    let flows: Vec<_> = history.published.iter().map(|(flow, all)| (flow, all.len())).collect();
    println!("{flows:?}");
    assert_eq!(history.published.len(), 15, "series and days");
    for what in [
        "sopen refused 11",
        "publish refused 10",
        "login refused 13",
        "send none",
        "send refused 14",
        "send refused 18",
        "sendpacket packet",
        "sendpacket none",
        "sendpacket refused 13",
        "sendpacket refused 14",
        "sendpacket refused 18",
        "finished in 1 packets",
        "finished in 2 packets",
        "finished in 17 packets",
        "broken off by a login",
        "broken off by an opening",
        "broken off by a whole Send",
        "publish within a message",
        "receive the last packet that was written so far",
        "all arrived",
        "ask refused 18",
        "answer refused 15",
        "receive again",
        "receive held",
        "receive refused 14",
        "receive refused 15",
        "receive refused 16",
        "message of 2 packets",
        "message of 3 packets",
        "message of 17 packets",
        "receive refused 17",
        "a single packet: held",
        "a single packet: again",
        "a single packet: refused",
        "message of single packets",
    ] {
        assert!(history.seen.contains_key(what), "{what}");
    }
    let (script, [from, until]) = whole_script();
    let same = script.calls[from..until].iter().filter(|(line, _)| line.starts_with("receive")).count();
    assert_eq!(same, fresh.calls.iter().filter(|(line, _)| line.starts_with("receive")).count());
    check_line(&script.calls[from..until], false);
}

/// With keeps and returns: a fresh receiving end, and the calls behind the worked examples, which return to places that
/// were kept there.
#[test]
fn over_a_faulty_line_with_returns() {
    let mut fresh = Script::new(LOG, CHAIN);
    named_line(&mut fresh, 0);
    let first = fresh.calls.iter().position(|(line, _)| line == "state").unwrap();
    assert_eq!(fresh.calls[1], ("keep BEFORE".to_string(), "kept".to_string()));
    let alone = check_line(&fresh.calls[first..], true);
    let (script, [_, from]) = whole_script();
    let until = script.calls.iter().position(|(line, _)| line.starts_with("sopen 4294967294 ")).unwrap();
    let behind = check_line(&script.calls[from..until], true);
    println!("{} calls, {} calls\n{:#?}\n{:#?}", fresh.calls.len(), until - from, alone.seen, behind.seen);
    for what in [
        "keep kept",
        "keep refused 31",
        "keep refused 32",
        "return returned",
        "return refused 31",
        "return refused 33",
        "a return, and fewer messages count",
        "a return, and as many messages count",
        "a return, and more messages count",
        "a return to before all that happened",
        "a login asked for before the last return",
        "all arrived behind a return",
        "receive refused 14",
        "receive refused 17",
        "message of 2 packets",
        "message of single packets",
    ] {
        assert!(alone.seen.contains_key(what), "{what}, at a fresh end");
        assert!(behind.seen.contains_key(what), "{what}, behind the worked examples");
    }
}
