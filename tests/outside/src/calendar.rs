//! The trading calendar of the library, and both sides on the same calendars, times and marks.

use crate::compare::Asked;
use reader::calendar::{self, Days, Session};
use reader::generate::Random;

/// Sessions in 8 places of three numbers (first second, last, 0 or late), holidays in 32; an unused place is 0.
#[repr(C)]
#[derive(Clone, Copy, Debug, PartialEq, Eq)]
pub struct Calendar {
    pub sessions: [u32; 24],
    pub holidays: [u32; 32],
}

#[repr(C)]
#[derive(Clone, Copy, Debug, PartialEq, Eq)]
pub struct Step {
    pub calendar: Calendar,
    pub refusal: u8,
}

#[repr(C)]
#[derive(Clone, Copy, Debug, Default, PartialEq, Eq)]
pub struct TradeTime {
    pub date: u32,
    pub inside: u8,
}

extern "C" {
    fn ftd_calendar_fresh() -> Calendar;
    fn ftd_set_calendar(
        calendar: Calendar,
        sessions: *const u32,
        session_numbers: usize,
        holidays: *const u32,
        holiday_count: usize,
    ) -> Step;
    fn ftd_ask_calendar(calendar: Calendar, seconds: u32) -> TradeTime;
    fn ftd_mark_date(mark: u32) -> u32;
}

pub fn fresh() -> Calendar {
    unsafe { ftd_calendar_fresh() }
}

pub fn set(calendar: Calendar, sessions: &[u32], holidays: &[u32]) -> Step {
    unsafe { ftd_set_calendar(calendar, sessions.as_ptr(), sessions.len(), holidays.as_ptr(), holidays.len()) }
}

pub fn ask(calendar: Calendar, seconds: u32) -> TradeTime {
    unsafe { ftd_ask_calendar(calendar, seconds) }
}

pub fn mark_date(mark: u32) -> u32 {
    unsafe { ftd_mark_date(mark) }
}

const DAY: usize = 86_400;

/// The last day in China that a time can have.
const LAST_DAY: usize = 49_710;

/// What a calendar is set to, and a day about which its holidays lie.
#[derive(Debug)]
pub struct Input {
    pub sessions: Vec<u32>,
    pub holidays: Vec<u32>,
    about: usize,
}

/// Sessions in any order that don't overlap, some of them touching.
fn sessions(r: &mut Random) -> Vec<u32> {
    let most = r.within(1, 9);
    let mut at = if r.once_in(3) { 0 } else { r.below(DAY / 2) };
    let mut all = vec![];
    while all.len() < most && at < DAY {
        let end = if r.once_in(8) { DAY } else { DAY.min(at + 1 + r.below(DAY / 4)) };
        let late = if r.once_in(2) { 0 } else { 1 + r.number(u32::MAX - 1) };
        all.push([at as u32, end as u32, late]);
        at = if r.once_in(3) { end } else { end + r.below(DAY / 8) };
    }
    r.shuffle(&mut all);
    if r.once_in(4) {
        // Nine, where there are enough; else one more that may overlap.
        let (first, second) = (r.below(DAY + 2) as u32, r.below(DAY + 2) as u32);
        all.push([first.min(second), first.max(second), 0]);
    }
    let mut numbers = all.concat();
    if r.once_in(6) && !numbers.is_empty() {
        let i = r.below(numbers.len());
        let other = numbers[r.below(numbers.len())];
        numbers[i] =
            r.pick(&[numbers[i].wrapping_add(1), numbers[i].saturating_sub(1), other, 86_400, 86_401, u32::MAX]);
    }
    if r.once_in(30) {
        numbers.pop();
    }
    numbers
}

/// Holidays about a day: some, or all weekdays from it on.
fn holidays(r: &mut Random, days: &Days, about: usize) -> Vec<u32> {
    let n = r.pick(&[0, 1, 5, 12, 31, 32, 32, 33]);
    let mut all: Vec<u32> = if r.once_in(2) {
        (0..n).map(|_| days.date(about + r.below(60))).collect()
    } else {
        (about + 1..).filter(|day| !matches!(day % 7, 2 | 3)).take(n).map(|day| days.date(day)).collect()
    };
    r.shuffle(&mut all);
    if r.once_in(8) && n > 0 {
        let i = r.below(n);
        all[i] = match r.below(3) {
            0 => r.pick(&[0, 16_001_231, 16_010_101, 99_991_231, 100_000_101, u32::MAX]),
            1 => (r.within(1595, 2110) * 10_000 + r.below(14) * 100 + r.below(33)) as u32,
            _ => all[i] + r.pick(&[1, 28, 70]),
        };
    }
    all
}

impl Input {
    pub fn new(r: &mut Random, days: &Days) -> Self {
        let about = if r.once_in(10) { LAST_DAY - r.below(60) } else { r.below(LAST_DAY) };
        Input { sessions: sessions(r), holidays: holidays(r, days, about), about }
    }

    /// A time: of any day, of the day before the holidays, or about them; at the border of a session.
    pub fn time(&self, r: &mut Random) -> u32 {
        if r.once_in(8) {
            return r.number(u32::MAX);
        }
        let day = if r.once_in(3) { self.about } else { (self.about + r.below(70)).saturating_sub(5) };
        let second = match self.sessions.len() {
            0 => r.below(DAY),
            n if r.once_in(2) => (self.sessions[r.below(n / 3 + 1) * 3 % n] as usize + r.below(3)).saturating_sub(1),
            n => (self.sessions[(r.below(n / 3 + 1) * 3 + 1) % n] as usize + r.below(3)).saturating_sub(1),
        };
        let seconds = (day * DAY + second).saturating_sub(8 * 3600);
        u32::try_from(seconds).unwrap_or(u32::MAX)
    }
}

/// A calendar on both sides, and the numbers that the library has to keep.
pub struct Both {
    pub days: Days,
    library: Calendar,
    model: calendar::Calendar,
    kept: Calendar,
}

impl Default for Both {
    fn default() -> Self {
        let kept = Calendar { sessions: [0; 24], holidays: [0; 32] };
        Both { days: Days::default(), library: fresh(), model: calendar::Calendar::default(), kept }
    }
}

impl Both {
    /// Set: the refusal, and all that the library keeps. Numbers that aren't three for each session are no sessions.
    pub fn set(&mut self, asked: &mut Asked, input: &Input) -> Result<u8, String> {
        let Input { sessions, holidays, .. } = input;
        let triples = sessions.chunks_exact(3);
        let right = if triples.remainder().is_empty() {
            let all: Vec<_> = triples.map(|s| Session { first: s[0], last: s[1], late: s[2] != 0 }).collect();
            self.model.set(&all, holidays).err().unwrap_or(0)
        } else {
            26
        };
        if right == 0 {
            self.kept = Calendar { sessions: [0; 24], holidays: [0; 32] };
            self.kept.sessions.iter_mut().zip(sessions).for_each(|(place, &n)| *place = n);
            self.kept.holidays.iter_mut().zip(holidays).for_each(|(place, &n)| *place = n);
        }
        let step = set(self.library, sessions, holidays);
        asked.same("set", step, Step { calendar: self.kept, refusal: right })?;
        self.library = step.calendar;
        Ok(right)
    }

    /// Ask; whether it is inside.
    pub fn ask(&self, asked: &mut Asked, seconds: u32) -> Result<u8, String> {
        let date = self.model.ask(&self.days, seconds);
        let right = TradeTime { date: date.unwrap_or(0), inside: date.is_some().into() };
        asked.same(&format!("time {seconds}"), ask(self.library, seconds), right)?;
        Ok(right.inside)
    }

    pub fn mark(&self, asked: &mut Asked, mark: u32) -> Result<(), String> {
        asked.same(&format!("mark {mark}"), mark_date(mark), self.days.mark(mark))
    }
}
