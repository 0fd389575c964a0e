//! Real dates and the trading calendar (request 7), reckoned day by day: dates are found by stepping from day to day,
//! with no closed form.

/// Days of a month in the Gregorian calendar; none where there is no such month.
pub fn month_days(year: u32, month: u32) -> u32 {
    let leap = if year % 100 == 0 { year % 400 == 0 } else { year % 4 == 0 };
    match month {
        2 if leap => 29,
        2 => 28,
        4 | 6 | 9 | 11 => 30,
        1..=12 => 31,
        _ => 0,
    }
}

/// YYYYMMDD as a number is a real date, from 1601 to 9999.
pub fn is_real(number: u32) -> bool {
    let (year, month, day) = (number / 10_000, number / 100 % 100, number % 100);
    (1601..=9999).contains(&year) && (1..=month_days(year, month)).contains(&day)
}

/// The day behind a date, as numbers YYYYMMDD.
pub fn day_after(number: u32) -> u32 {
    let (year, month, day) = (number / 10_000, number / 100 % 100, number % 100);
    if day < month_days(year, month) {
        number + 1
    } else if month < 12 {
        (year * 100 + month + 1) * 100 + 1
    } else {
        (year + 1) * 10_000 + 101
    }
}

/// Seconds from 1970 UTC that are the first of 1970 in China.
const EIGHT_HOURS: u64 = 8 * 3600;

/// The days of the years 1970 to 2106, in order.
pub struct Days {
    dates: Vec<u32>,
}

impl Default for Days {
    fn default() -> Self {
        let mut dates = vec![19_700_101];
        while let Some(&last) = dates.last() {
            if last == 21_061_231 {
                break;
            }
            dates.push(day_after(last));
        }
        Days { dates }
    }
}

impl Days {
    pub fn date(&self, day: usize) -> u32 {
        self.dates[day]
    }

    /// The China date of a mark.
    pub fn mark(&self, seconds: u32) -> u32 {
        self.date(china(seconds).0)
    }
}

/// Day and second of the day in China.
fn china(seconds: u32) -> (usize, u32) {
    let t = u64::from(seconds) + EIGHT_HOURS;
    ((t / 86_400) as usize, (t % 86_400) as u32)
}

#[derive(Clone, Copy, Debug, PartialEq, Eq)]
pub struct Session {
    pub first: u32,
    pub last: u32,
    pub late: bool,
}

/// A calendar; fresh with neither session nor holiday.
#[derive(Clone, Debug, Default, PartialEq, Eq)]
pub struct Calendar {
    sessions: Vec<Session>,
    holidays: Vec<u32>,
}

impl Calendar {
    /// Set, or the number of the refusal: then the calendar stays as it was.
    pub fn set(&mut self, sessions: &[Session], holidays: &[u32]) -> Result<(), u8> {
        let share = |a: &Session, b: &Session| a.first.max(b.first) < a.last.min(b.last);
        let wrong = sessions.len() > 8
            || sessions.iter().any(|s| s.first >= s.last || s.last > 86_400)
            || sessions.iter().enumerate().any(|(i, a)| sessions[i + 1..].iter().any(|b| share(a, b)));
        if wrong {
            return Err(26);
        }
        if holidays.len() > 32 || holidays.iter().any(|&h| !is_real(h)) {
            return Err(27);
        }
        *self = Calendar { sessions: sessions.to_vec(), holidays: holidays.to_vec() };
        Ok(())
    }

    fn trades(&self, days: &Days, day: usize) -> bool {
        // Day 0 was a Thursday, so days 2 and 3 are Saturday and Sunday.
        !matches!(day % 7, 2 | 3) && !self.holidays.contains(&days.date(day))
    }

    /// The trade date of a time inside a session.
    pub fn ask(&self, days: &Days, seconds: u32) -> Option<u32> {
        let (day, second) = china(seconds);
        let session = self.sessions.iter().find(|s| (s.first..s.last).contains(&second))?;
        if !self.trades(days, day) {
            return None;
        }
        let day = if session.late { (day + 1..).find(|&e| self.trades(days, e))? } else { day };
        Some(days.date(day))
    }
}
