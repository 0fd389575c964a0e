//! The order of two serving ends in random pairs (document 02, No. 14): two ends that are fed by one list of
//! publications, cut at different places, with other series between; two boxes behind one exchange, and each of them
//! with the exchange; on one day or on two, with series open at one only. Then logs and states are altered. Each answer
//! is compared with the model's, and by itself: with the ends exchanged, of an end with itself, of a box and of the
//! serving end with its day; and as long as nothing is altered, with the lists that were published.

use super::{Bytes, Contents, BUFFER, MOST_OUTPUT, STRANGE};
use crate::boxes::world::{noisy_box, BoxWorld, Call};
use crate::boxes::{self, Boxed};
use crate::compare::Asked;
use crate::ends::Sender;
use crate::orders::{right, End, Order, Side, DIFFER, FIRST_START, REFUSED, SAME, SECOND_START};
use crate::world::{noisy_sender, World};
use reader::generate::{raw_field, Random};
use reader::makeup::{check, Direction};
use reader::packet::{cut_apart, u32_at};
use reader::serving::ENTRY_HEADER;
use std::collections::BTreeMap;

type Message = (u32, Vec<u8>);

/// One that is compared, with its log; and while nothing is altered, its mark and what it published in each open
/// series.
#[derive(Clone)]
struct One {
    end: End,
    log: Vec<u8>,
    mark: Option<u32>,
    lists: BTreeMap<u16, Vec<Message>>,
    whole: bool,
}

const NAMES: [&str; 5] = ["same", "first a start", "second a start", "differ", "refused"];
const CALLS: [&str; 3] = ["Order", "Order of boxes", "Order of a box and an end"];
/// What is to be seen of each call.
const ANSWERS: [(&str, u8); 7] = [
    ("same", 0),
    ("first a start", 0),
    ("second a start", 0),
    ("differ", 0),
    ("refused", 13),
    ("refused", 15),
    ("refused", 20),
];

pub struct Orders {
    pub side: Box<dyn Side>,
    /// Not set: nothing is compared with the model, and only the laws tell whether an answer is right.
    pub comparing: bool,
    ends: [World; 2],
    exchange: World,
    boxes: [BoxWorld; 2],
    contents: Contents,
    pub asked: Asked,
    pub pairs: u64,
    /// Answers that were compared with the published lists.
    pub by_lists: u64,
    /// How often each answer was given, by call.
    pub answers: BTreeMap<(&'static str, &'static str, u8), u64>,
}

/// A bit of one of these bytes altered, if there is one.
fn flip(r: &mut Random, bytes: &mut [u8]) {
    if !bytes.is_empty() {
        bytes[r.below(bytes.len())] ^= 1 << r.below(8);
    }
}

/// Where the entries of a log begin that nobody has altered.
fn heads(log: &[u8], used: usize) -> Vec<usize> {
    let (mut at, mut all) = (0, vec![]);
    while at < used {
        all.push(at);
        at += ENTRY_HEADER + u32_at(log, at + 12) as usize;
    }
    all
}

/// The order of two lists, by the request's words.
fn by_lists(first: &One, second: &One, series: u16) -> Order {
    let (Some(one), Some(two)) = (first.lists.get(&series), second.lists.get(&series)) else {
        return Order::refused(13);
    };
    if first.mark != second.mark {
        return Order::refused(15);
    }
    if one == two {
        return Order::answered(SAME);
    }
    if two.starts_with(one) {
        return Order::answered(FIRST_START);
    }
    if one.starts_with(two) {
        return Order::answered(SECOND_START);
    }
    let same = (0..).take_while(|&n| one.get(..n).is_some_and(|start| two.starts_with(start))).last();
    Order::differ(same.expect("none at least") as u32 + 1)
}

impl One {
    /// Used bytes and the open series, at either kind.
    fn numbers(&mut self) -> (&mut usize, Vec<(&mut u32, &mut u16)>) {
        match &mut self.end {
            End::Serving(Sender { used, series, count, .. }) => {
                (used, series.iter_mut().take(*count).map(|one| (&mut one.published, &mut one.series)).collect())
            }
            End::Box(Boxed { day: boxes::Day { used, series, count, .. }, .. }) => {
                (used, series.iter_mut().take(*count).map(|one| (&mut one.published, &mut one.series)).collect())
            }
        }
    }

    fn date(&mut self) -> &mut u32 {
        match &mut self.end {
            End::Serving(end) => &mut end.date,
            End::Box(of) => &mut of.day.date,
        }
    }

    /// A byte or a number altered of an entry, the log cut short, or a number of the state.
    fn alter(&mut self, r: &mut Random) {
        let used = *self.numbers().0;
        let heads = if self.whole { heads(&self.log, used) } else { vec![] };
        self.whole = false;
        let at = if heads.is_empty() { 0 } else { heads[r.below(heads.len())] };
        match r.below(14) {
            // TID, series, zero bytes, number, length.
            0 | 1 if !heads.is_empty() => flip(r, &mut self.log[at + 4..at + 8]),
            2 if !heads.is_empty() => self.log[at + 1] = r.pick(&[0, 1, 2, 3, 9]),
            3 if !heads.is_empty() => flip(r, &mut self.log[at + 2..at + 4]),
            4 if !heads.is_empty() => self.log[at + 11] = self.log[at + 11].wrapping_add(r.pick(&[1, 2, 255])),
            5 if !heads.is_empty() => self.log[at + 15] = self.log[at + 15].wrapping_add(r.pick(&[1, 16, 255])),
            // A content's byte.
            6 | 7 if !heads.is_empty() => {
                let length = u32_at(&self.log, at + 12) as usize;
                flip(r, &mut self.log[at + ENTRY_HEADER..][..length]);
            }
            8 => self.log.truncate(r.pick(&[at, used, used.saturating_sub(1), used / 2])),
            9 => {
                let near = [at, used.wrapping_add(1), used.wrapping_sub(1), 0, self.log.len(), usize::MAX];
                *self.numbers().0 = r.pick(&near);
            }
            10 | 11 => {
                let (_, mut open) = self.numbers();
                if open.is_empty() {
                    return;
                }
                let (published, series) = open.swap_remove(r.below(open.len()));
                if r.once_in(4) {
                    *series = r.pick(&[0, 1, 2, 9]);
                } else {
                    let near = [published.wrapping_add(1), published.wrapping_sub(1), 0, 1, 1_000_000, u32::MAX];
                    *published = r.pick(&near);
                }
            }
            12 => *self.date() = r.pick(&[0, 4, 5, 6, u32::MAX]),
            _ => {
                let length = self.log.len().min(used);
                flip(r, &mut self.log[..length]);
            }
        }
    }
}

/// The lists of a pair, in some order that keeps each by itself: messages of one series behind each other, or mixed.
fn mixed(r: &mut Random, lists: &BTreeMap<u16, Vec<Message>>) -> Vec<(u16, Message)> {
    let mut turns: Vec<u16> = lists.iter().flat_map(|(&series, all)| vec![series; all.len()]).collect();
    if !r.once_in(4) {
        r.shuffle(&mut turns);
    }
    let mut next: BTreeMap<u16, usize> = BTreeMap::new();
    let place = |series: u16, next: &mut BTreeMap<u16, usize>| {
        let n = next.entry(series).or_default();
        *n += 1;
        *n - 1
    };
    turns.iter().map(|&series| (series, lists[&series][place(series, &mut next)].clone())).collect()
}

impl Orders {
    pub fn new(side: Box<dyn Side>, of_boxes: fn() -> Box<dyn boxes::Side>) -> Self {
        Orders {
            side,
            comparing: true,
            ends: Default::default(),
            exchange: World::default(),
            boxes: [BoxWorld::new(of_boxes()), BoxWorld::new(of_boxes())],
            contents: Contents::new(),
            asked: Asked::default(),
            pairs: 0,
            by_lists: 0,
            answers: BTreeMap::new(),
        }
    }

    /// What should occur and didn't.
    pub fn missing(&self) -> Vec<String> {
        let all = CALLS.iter().flat_map(|&call| ANSWERS.iter().map(move |&(name, row)| (call, name, row)));
        let missing = all.filter(|one| !self.answers.contains_key(one));
        missing.map(|(call, name, row)| format!("{call}: {name} {row}")).collect()
    }

    /// Some pairs of one list of publications; the first difference.
    pub fn list(&mut self, seed: u64) -> Result<(), String> {
        let r = &mut Random::new(seed);
        let many = if r.once_in(10) { 8 } else { r.within(1, 3) };
        let about: Vec<u16> = (1..=many as u16).collect();
        let made = if r.once_in(3) { self.boxes(r, &about) } else { self.two_ends(r, &about) };
        self.compare(r, &about, made?).map_err(|text| format!("list {seed}: {text}"))
    }

    /// A message that Publish takes; some differ in a byte alone.
    fn message(&self, r: &mut Random) -> Message {
        loop {
            let (tid, content) = match r.below(4) {
                0 => (STRANGE, raw_field(STRANGE, &[r.below(4) as u8])),
                _ => self.contents.message(r, false),
            };
            if content.len() < 600 && check(tid, Direction::Down, &content, 600).is_ok() {
                return (tid, content);
            }
        }
    }

    fn lists(&self, r: &mut Random, about: &[u16]) -> BTreeMap<u16, Vec<Message>> {
        let list = |r: &mut Random| (0..r.below(5)).map(|_| self.message(r)).collect();
        about.iter().map(|&series| (series, list(r))).collect()
    }

    /// Two serving ends. Each gets a start of each series' list, seldom with a message that is another.
    fn two_ends(&mut self, r: &mut Random, about: &[u16]) -> Result<Vec<One>, String> {
        let (lists, mut all) = (self.lists(r, about), vec![]);
        for i in 0..2 {
            self.ends[i].fresh(16_000, 0)?;
            let mut own = lists.clone();
            own.retain(|_, _| !r.once_in(12));
            for list in own.values_mut() {
                if r.once_in(2) {
                    list.truncate(r.below(list.len() + 1));
                }
                if r.once_in(6) && !list.is_empty() {
                    let at = r.below(list.len());
                    list[at] = if r.once_in(2) { (list[at].0 ^ 1, list[at].1.clone()) } else { self.message(r) };
                }
            }
            let mut open: Vec<u16> = own.keys().copied().collect();
            r.shuffle(&mut open);
            let mark = if r.once_in(12) { 6 } else { 5 };
            // Where none is open it has no day.
            let log = self.ends[i].logs[0].len();
            let end = &mut self.ends[i];
            let opened = end.open_day(mark, &open, &vec![0; open.len()], log)?.is_ok();
            let mut published: BTreeMap<u16, Vec<Message>> = open.iter().map(|&series| (series, vec![])).collect();
            for (series, (tid, content)) in mixed(r, &own) {
                if end.publish(series, tid, &content, log)?.is_ok() {
                    published.entry(series).or_default().push((tid, content));
                }
            }
            let (sender, log) = (end.sender, end.logs[0].clone());
            let mark = opened.then_some(mark);
            all.push(One { end: End::Serving(sender), log, mark, lists: published, whole: true });
        }
        Ok(all)
    }

    /// An exchange and two boxes behind it, each of which has had a start of each series; seldom of an earlier day.
    fn boxes(&mut self, r: &mut Random, about: &[u16]) -> Result<Vec<One>, String> {
        self.exchange.fresh(16_000, 0)?;
        let (log, mut mark) = (self.exchange.logs[0].len(), 5);
        let mut published = BTreeMap::new();
        let mut all = vec![];
        for i in 0..2 {
            if i == 0 || r.once_in(8) {
                mark += i as u32;
                _ = self.exchange.open_day(mark, about, &vec![0; about.len()], log)?;
                published = about.iter().map(|&series| (series, vec![])).collect::<BTreeMap<u16, Vec<Message>>>();
            }
            let lists = self.lists(r, about);
            for (series, (tid, content)) in mixed(r, &lists) {
                if self.exchange.publish(series, tid, &content, log)?.is_ok() {
                    published.entry(series).or_default().push((tid, content));
                }
            }
            let mut open = about.to_vec();
            r.shuffle(&mut open);
            if r.once_in(6) {
                open.truncate(r.within(1, open.len()));
            }
            let own = if r.once_in(6) { r.below(400) } else { 16_000 };
            self.boxes[i].fresh(own, open.len() * BUFFER, false)?;
            self.boxes[i].call(Call::Open { reserves: vec![0; open.len()], series: open.clone() })?;
            for &series in &open {
                if !r.once_in(8) {
                    let most = if r.once_in(2) { usize::MAX } else { r.below(4) };
                    self.feed(i, series, most)?;
                }
            }
            let day = self.boxes[i].model.relay.below.day;
            // Where it has no day nothing is open at it.
            let taken = day.iter().flat_map(|day| day.open.iter()).map(|one| (one.series, one.published as usize));
            let lists = taken.map(|(series, count)| (series, published[&series][..count].to_vec())).collect();
            let (state, log) = (self.boxes[i].tried.state, self.boxes[i].tried.log.clone());
            all.push(One { end: End::Box(state), log, mark: day.map(|day| day.mark), lists, whole: true });
        }
        let (sender, log) = (self.exchange.sender, self.exchange.logs[0].clone());
        all.push(One { end: End::Serving(sender), log, mark: Some(mark), lists: published, whole: true });
        Ok(all)
    }

    /// A box is logged in to a series and gets the next messages, at most so many.
    fn feed(&mut self, i: usize, series: u16, most: usize) -> Result<(), String> {
        let (of, log) = (&mut self.boxes[i], self.exchange.logs[0].len());
        let content: Bytes = self.contents.request[..].into();
        let heard = of.call(Call::Ask { series, content, room: 5000 })?;
        let packet = of.written(&heard);
        _ = self.exchange.login(series, &packet, &self.contents.answer, 5000)?;
        let (packet, lent) = (self.exchange.written[..].into(), of.tried.log.len());
        of.call(Call::Answer { series, packet, log: lent })?;
        for _ in 0..most {
            let Ok(Some(_)) = self.exchange.send(series, log, MOST_OUTPUT)? else { break };
            for packet in cut_apart::<Bytes>(&self.exchange.written) {
                of.call(Call::Receive { packet, log: lent, buffer: of.tried.buffer.len() })?;
            }
        }
        Ok(())
    }

    /// All pairs of them, then altered more and more.
    fn compare(&mut self, r: &mut Random, about: &[u16], mut all: Vec<One>) -> Result<(), String> {
        for _ in 0..4 {
            for i in 0..all.len() {
                for j in i + 1..all.len() {
                    let mut series = about[r.below(about.len())];
                    if r.once_in(12) {
                        series = r.pick(&[0, 1, 2, 9, 65_535]);
                    }
                    self.pair(r, &all[i], &all[j], series)?;
                }
            }
            let one = r.below(all.len());
            all[one].alter(r);
        }
        Ok(())
    }

    /// What the side answers, of ends with any numbers where they don't count.
    fn answer(&mut self, r: &mut Random, first: &One, second: &One, series: u16) -> Option<(usize, Order)> {
        let (log, other) = (&first.log[..], &second.log[..]);
        Some(match (first.end, second.end) {
            (End::Serving(one), End::Serving(two)) => {
                (0, self.side.order((noisy_sender(r, one), log), (noisy_sender(r, two), other), series))
            }
            (End::Box(one), End::Box(two)) => {
                (1, self.side.box_order((noisy_box(r, one), log), (noisy_box(r, two), other), series))
            }
            (End::Box(one), End::Serving(two)) => {
                (2, self.side.box_order_with((noisy_box(r, one), log), (noisy_sender(r, two), other), series))
            }
            (End::Serving(_), End::Box(_)) => return None,
        })
    }

    fn pair(&mut self, r: &mut Random, first: &One, second: &One, series: u16) -> Result<(), String> {
        let Some((call, given)) = self.answer(r, first, second, series) else { return Ok(()) };
        self.pairs += 1;
        let (call, name) = (CALLS[call], NAMES[usize::from(given.answer.min(REFUSED))]);
        *self.answers.entry((call, name, given.refusal)).or_default() += 1;
        if self.comparing {
            let right = right((&first.end, &first.log), (&second.end, &second.log), series);
            self.asked.same(&format!("{call}, series {series}"), given, right)?;
        }
        self.laws(r, (first, second), series, given).map_err(|text| format!("{call}, series {series}: {text}"))
    }

    /// What holds of the answers alone.
    fn laws(&mut self, r: &mut Random, (first, second): (&One, &One), series: u16, given: Order) -> Result<(), String> {
        if let Some((_, back)) = self.answer(r, second, first, series) {
            self.asked.same("with the ends exchanged", back, given.exchanged())?;
        }
        for one in [first, second] {
            let (_, own) = self.answer(r, one, one, series).expect("two of a kind");
            if own != Order::answered(SAME) && ![13, 20].map(Order::refused).contains(&own) {
                return Err(format!("of an end with itself: {own:?}"));
            }
        }
        let plain = self.side.order((first.end.sender(), &first.log), (second.end.sender(), &second.log), series);
        self.asked.same("of the serving ends with these days", plain, given)?;
        if first.whole && second.whole {
            self.by_lists += 1;
            self.asked.same("by what was published", given, by_lists(first, second, series))?;
            // Behind one exchange nobody differs, and nobody is ahead of it.
            if let End::Box(_) = first.end {
                let ahead = given.answer == SECOND_START && matches!(second.end, End::Serving(_));
                if given.answer == DIFFER || ahead {
                    return Err(format!("behind one exchange: {given:?}"));
                }
            }
        }
        Ok(())
    }
}
