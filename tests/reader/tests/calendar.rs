//! The trading calendar (request 7): worked examples, and the files that tests/calendar/make.py reckoned its own way.

use std::path::PathBuf;

use reader::calendar::{is_real, Calendar, Days, Session};
use reader::items::Kind;

fn session(first: u32, last: u32, late: bool) -> Session {
    Session { first, last, late }
}

fn evening_and_day() -> Calendar {
    let mut c = Calendar::default();
    let sessions = [
        session(75_600, 86_400, true),
        session(32_400, 36_900, false),
        session(37_800, 41_400, false),
        session(48_600, 54_000, false),
    ];
    let holidays = [20_240_101, 20_240_212, 20_240_213, 20_240_214, 20_240_215, 20_240_216, 20_240_404, 20_240_405];
    assert_eq!(c.set(&sessions, &holidays), Ok(()));
    c
}

#[test]
fn sets() {
    let set = |sessions: &[Session], holidays: &[u32]| Calendar::default().set(sessions, holidays);
    let touching: Vec<Session> = (0..9).map(|i| session(100 * i, 100 * i + 100, false)).collect();
    assert_eq!(set(&[], &[]), Ok(()));
    assert_eq!(set(&touching[..8], &[20_240_101; 32]), Ok(()));
    assert_eq!(set(&[session(86_399, 86_400, false)], &[20_240_229, 16_010_101, 99_991_231]), Ok(()));
    assert_eq!(set(&touching, &[0]), Err(26));
    assert_eq!(set(&[session(0, 100, false), session(200, 300, false), session(50, 150, true)], &[]), Err(26));
    assert_eq!(set(&[session(75_600, 9000, true)], &[]), Err(26));
    assert_eq!(set(&[session(86_399, 86_401, false)], &[]), Err(26));
    assert_eq!(set(&[], &[20_240_101; 33]), Err(27));
    assert_eq!(set(&[], &[20_230_229]), Err(27));
    assert_eq!(set(&[], &[100_000_101]), Err(27));
    let mut kept = evening_and_day();
    assert_eq!(kept.set(&[], &[0]), Err(27));
    assert_eq!(kept, evening_and_day());
}

#[test]
fn asked() {
    let days = Days::default();
    let c = evening_and_day();
    for (seconds, date) in [
        (1_707_397_200, Some(20_240_209)),
        (1_707_397_199, None),
        (1_707_483_600, Some(20_240_219)),
        (1_707_494_400, None),
        (1_707_699_600, None),
        (1_708_261_200, None),
        (1_708_304_400, Some(20_240_219)),
        (1_708_308_900, None),
        (1_712_152_800, Some(20_240_408)),
        (0, None),
        (3600, Some(19_700_101)),
        (520_563_600, Some(19_860_701)),
        (4_294_818_000, Some(21_060_208)),
        (u32::MAX, None),
    ] {
        assert_eq!(c.ask(&days, seconds), date, "{seconds}");
    }
    // All weekdays of 44 days: the next one is 47 days on.
    let holidays: Vec<u32> = (0..50_000)
        .filter(|d| !matches!(d % 7, 2 | 3))
        .map(|d| days.date(d))
        .filter(|date| (20_240_104..=20_240_216).contains(date))
        .collect();
    assert_eq!(holidays.len(), 32);
    let mut c = Calendar::default();
    assert_eq!(c.set(&[session(0, 86_400, true)], &holidays), Ok(()));
    assert_eq!(c.ask(&days, 1_704_254_400), Some(20_240_219));
    assert_eq!((days.mark(951_753_600), days.mark(u32::MAX)), (20_000_229, 21_060_207));
}

/// The records of a file: a letter and two numbers; behind S the numbers that it says and the answer.
#[test]
fn as_reckoned_elsewhere() {
    let folder = PathBuf::from(env!("CARGO_MANIFEST_DIR")).join("../../crates/calendarcheck/data");
    let days = Days::default();
    for (name, at_least) in [("items", 5000), ("examples", 60), ("days", 50_000), ("marks", 4000), ("times", 100_000)] {
        let bytes = std::fs::read(folder.join(name)).unwrap();
        let word = |at: usize| u32::from_be_bytes(bytes[at..at + 4].try_into().unwrap());
        let (mut at, mut records, mut calendar) = (0, 0, Calendar::default());
        while at < bytes.len() {
            let (letter, x, y) = (bytes[at], word(at + 1), word(at + 5));
            let item = &bytes[at + 1..at + 9];
            at += 9;
            match letter {
                b'V' => assert!(Kind::Date.value(item).is_some(), "{item:?}"),
                b'W' => assert!(Kind::Date.value(item).is_none(), "{item:?}"),
                b'D' => assert_eq!(days.date(x as usize), y),
                b'M' => assert_eq!(days.mark(x), y),
                b'A' => assert_eq!(calendar.ask(&days, x).unwrap_or(0), y, "{x}"),
                b'S' => {
                    let numbers: Vec<u32> = (0..x + y + 1).map(|i| word(at + 4 * i as usize)).collect();
                    at += 4 * numbers.len();
                    let (flat, rest) = numbers.split_at(x as usize);
                    let sessions: Vec<Session> = flat.chunks_exact(3).map(|s| session(s[0], s[1], s[2] != 0)).collect();
                    let answer = if x % 3 != 0 { Err(26) } else { calendar.set(&sessions, &rest[..y as usize]) };
                    assert_eq!(answer.err().map_or(0, u32::from), rest[y as usize]);
                }
                _ => panic!("letter {letter}"),
            }
            records += 1;
        }
        assert!(records >= at_least, "{name}: {records}");
    }
    assert!(is_real(20_240_229) && !is_real(20_230_229));
}
