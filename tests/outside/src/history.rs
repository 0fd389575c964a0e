//! What happened over a line, and demand 3 on it: what was handed on of a series and day is the first n published, n the last
//! report; and n is the published count where all that was sent has arrived.

use crate::effective::Counted;
use std::collections::BTreeMap;
use std::rc::Rc;

/// A series and a day.
pub type Flow = (u16, u32);

/// What the receiving end was given: an answer with its series, or all packets of the message with this number.
#[derive(Clone, PartialEq)]
pub enum Delivery {
    Answer(u16, Rc<[u8]>),
    Message(u16, u32, u32),
}

/// Since the last login of a series: its answer and then every message sent, and all that was delivered.
struct SinceLogin {
    due: Vec<Delivery>,
    delivered: Vec<Delivery>,
    /// The number of the last message sent.
    number: Option<u32>,
}

#[derive(Default)]
pub struct History {
    day: u32,
    published: BTreeMap<Flow, Vec<(u32, Vec<u8>)>>,
    /// How many were handed on: always the first ones, or it was found at once.
    handed_on: BTreeMap<Flow, usize>,
    reports: BTreeMap<Flow, u32>,
    /// The day of each series' last answer.
    answered: BTreeMap<u16, u32>,
    /// By series, where no opening and no connection came since its last login, and no buffer was too small.
    logged_in: BTreeMap<u16, SinceLogin>,
}

impl History {
    pub fn opened(&mut self, mark: u32) {
        self.day = mark;
        self.logged_in.clear();
    }

    /// A connection or an opening of the receiving end, or a chain buffer that is too small: nothing is owed any more.
    pub fn disturbed(&mut self) {
        self.logged_in.clear();
    }

    /// Is anything owed for the series, as soon as it is delivered?
    pub fn owes(&self, series: u16) -> bool {
        self.logged_in.contains_key(&series)
    }

    /// A message of the series isn't taken for want of room: nothing is owed for it any more.
    pub fn let_off(&mut self, series: u16) {
        self.logged_in.remove(&series);
    }

    /// A return: as a connection; and of what was handed on and reported this counts from now on.
    pub fn returned(&mut self, counted: &Counted) {
        self.disturbed();
        self.handed_on = counted.handed_on.iter().map(|(&flow, all)| (flow, all.len())).collect();
        self.reports.clone_from(&counted.reports);
    }

    /// All that was published, by series and day.
    pub fn all_published(&self) -> &BTreeMap<Flow, Vec<(u32, Vec<u8>)>> {
        &self.published
    }

    /// The day of a series' last answer.
    pub fn day_of(&self, series: u16) -> u32 {
        self.answered[&series]
    }

    pub fn published(&mut self, series: u16, tid: u32, content: &[u8]) {
        self.published.entry((series, self.day)).or_default().push((tid, content.to_vec()));
    }

    pub fn logged_in(&mut self, series: u16, answer: Rc<[u8]>) {
        let due = vec![Delivery::Answer(series, answer)];
        self.logged_in.insert(series, SinceLogin { due, delivered: vec![], number: None });
    }

    /// A message is sent: whole, or with its last packet. Since a login the numbers follow each other.
    pub fn sent(&mut self, series: u16, number: u32) -> Result<Delivery, String> {
        let message = Delivery::Message(series, self.day, number);
        if let Some(since) = self.logged_in.get_mut(&series) {
            let before = since.number.replace(number);
            if before.is_some_and(|before| number != before + 1) {
                return Err(format!("message {number} of series {series} sent behind {before:?}"));
            }
            since.due.push(message.clone());
        }
        Ok(message)
    }

    /// Whether the call was refused or not.
    pub fn delivered(&mut self, what: &Delivery) {
        for since in self.logged_in.values_mut() {
            since.delivered.push(what.clone());
        }
    }

    /// None is left. Gives whether demand 3's second half says that all has arrived: the last login's answer and then every
    /// message sent were delivered, in order.
    pub fn none_left(&self, series: u16) -> Result<bool, String> {
        let Some(since) = self.logged_in.get(&series) else { return Ok(false) };
        let mut delivered = since.delivered.iter();
        let all = since.due.iter().all(|due| delivered.any(|one| one == due));
        if all {
            self.caught_up(series)?;
        }
        Ok(all)
    }

    /// A message handed on, of the day whose mark its packet bears. Its report comes behind it.
    pub fn handed_on(&mut self, series: u16, mark: u32, tid: u32, content: &[u8]) -> Result<(), String> {
        let count = self.handed_on.entry((series, mark)).or_default();
        let right = self.published.get(&(series, mark)).and_then(|all| all.get(*count));
        *count += 1;
        if right.is_some_and(|(of, bytes)| *of == tid && bytes == content) {
            return Ok(());
        }
        Err(format!("demand 3: message {count} handed on of series {series}, day {mark}, isn't the one published"))
    }

    /// How many were handed on of a series and day.
    pub fn handed(&self, series: u16, mark: u32) -> usize {
        self.handed_on.get(&(series, mark)).copied().unwrap_or(0)
    }

    /// Is this the message with that number, from 1, that was published of a series and day?
    pub fn is_published(&self, series: u16, mark: u32, number: usize, tid: u32, content: &[u8]) -> bool {
        let one = self.published.get(&(series, mark)).and_then(|all| all.get(number.wrapping_sub(1)));
        one.is_some_and(|(of, bytes)| *of == tid && bytes == content)
    }

    pub fn answered(&mut self, series: u16, mark: u32, last: u32) -> Result<(), String> {
        self.answered.insert(series, mark);
        self.reported(series, last)
    }

    /// A report is of the day of its series' last answer.
    pub fn reported(&mut self, series: u16, last: u32) -> Result<(), String> {
        let flow = (series, self.answered[&series]);
        self.reports.insert(flow, last);
        let count = self.handed_on.get(&flow).copied().unwrap_or(0);
        if count == last as usize {
            return Ok(());
        }
        Err(format!("demand 3: {last} reported of series {}, day {}, and {count} handed on", flow.0, flow.1))
    }

    /// All of a series' present day has arrived.
    pub fn caught_up(&self, series: u16) -> Result<(), String> {
        let flow = (series, self.day);
        let n = self.reports.get(&flow).copied().unwrap_or(0) as usize;
        let published = self.published.get(&flow).map_or(0, Vec::len);
        if n == published {
            return Ok(());
        }
        Err(format!("demand 3: {n} reported at the end of series {series}, day {}, of {published}", self.day))
    }
}
