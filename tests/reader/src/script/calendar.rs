//! The worked examples of the trading calendar (02, No. 7).

use super::Script;
use crate::calendar::Session;

const fn day(first: u32, last: u32) -> Session {
    Session { first, last, late: false }
}

const fn late(first: u32, last: u32) -> Session {
    Session { first, last, late: true }
}

/// A night and three parts of a day; New Year, a week in February, two days in April.
const USUAL: [Session; 4] = [late(75_600, 86_400), day(32_400, 36_900), day(37_800, 41_400), day(48_600, 54_000)];
const USUAL_HOLIDAYS: [u32; 8] =
    [20_240_101, 20_240_212, 20_240_213, 20_240_214, 20_240_215, 20_240_216, 20_240_404, 20_240_405];

/// So many sessions of 100 seconds that touch.
fn touching(n: u32) -> Vec<Session> {
    (0..n).map(|i| day(100 * i, 100 * i + 100)).collect()
}

/// All 32 weekdays from 20240104 to 20240216.
fn long_holidays() -> Vec<u32> {
    [104..=105, 108..=112, 115..=119, 122..=126, 129..=131, 201..=202, 205..=209, 212..=216]
        .into_iter()
        .flat_map(|days| days.map(|day| 20_240_000 + day))
        .collect()
}

/// The worked examples of the calendar.
pub fn examples(s: &mut Script) {
    s.ask_time(3600, "outside");
    s.mark(0, "date 19700101");
    sets(s);
    refusals(s);
    usual_times(s);
    other_times(s);
    marks(s);
    bad_lines(s);
}

fn sets(s: &mut Script) {
    s.set(&[], &[], "set");
    s.set(&touching(8), &[], "set");
    s.set(&[day(100, 200), day(0, 100)], &[], "set");
    s.set(&[day(86_399, 86_400)], &[], "set");
    s.set(&[], &long_holidays(), "set");
    s.set(&[], &[20_240_101; 32], "set");
    s.set(&[], &[20_240_106], "set");
    s.set(&[], &[20_240_229, 16_010_101, 99_991_231], "set");
    // Any number but 0 is late.
    s.set(&[late(0, 86_400)], &[], "set");
    s.calls.last_mut().expect("a call").0 = "calendar 1 0 86400 4294967295".to_string();
    s.ask_time(1_704_384_000, "inside 20240108");
}

/// 26 and 27; both: 26. The calendar stays.
fn refusals(s: &mut Script) {
    s.set(&[day(0, 86_400)], &[], "set");
    for sessions in [
        touching(9),
        touching(16),
        vec![day(0, 100), day(99, 200)],
        vec![day(100, 200), late(0, 101)],
        vec![day(0, 86_400), day(100, 200)],
        vec![day(100, 200), day(100, 200)],
        vec![day(0, 100), day(200, 300), day(50, 150)],
        vec![day(100, 100)],
        vec![late(75_600, 9000)],
        vec![day(86_399, 86_401)],
        vec![day(86_400, 86_401)],
        vec![day(0, u32::MAX)],
    ] {
        s.set(&sessions, &[], "refused 26");
    }
    s.set(&[], &[&long_holidays()[..], &[20_240_219]].concat(), "refused 27");
    s.set(&[], &[20_240_101; 33], "refused 27");
    s.set(&[], &[20_240_101; 64], "refused 27");
    for holiday in [20_230_229, 21_000_229, 16_001_231, 0, 20_240_100, 20_241_301, 100_000_101, u32::MAX] {
        s.set(&[], &[holiday], "refused 27");
    }
    s.set(&[day(100, 100)], &[20_230_229], "refused 26");
    s.set(&touching(9), &[20_240_101; 33], "refused 26");
    s.set(&touching(16), &[20_240_101; 64], "refused 26");
    s.ask_time(1_704_384_000, "inside 20240105");
}

fn usual_times(s: &mut Script) {
    s.set(&USUAL, &USUAL_HOLIDAYS, "set");
    for (seconds, expected) in [
        (1_707_397_200, "inside 20240209"),
        (1_707_397_199, "outside"),
        (1_707_483_600, "inside 20240219"),
        (1_707_494_399, "inside 20240219"),
        (1_707_494_400, "outside"),
        (1_707_699_600, "outside"),
        (1_708_088_400, "outside"),
        (1_708_261_200, "outside"),
        (1_708_304_399, "outside"),
        (1_708_304_400, "inside 20240219"),
        (1_708_308_899, "inside 20240219"),
        (1_708_308_900, "outside"),
        (1_712_152_800, "inside 20240408"),
        (1_703_858_400, "inside 20240102"),
        (0, "outside"),
        (3600, "inside 19700101"),
        (520_560_000, "outside"),
        (520_563_600, "inside 19860701"),
        (4_294_818_000, "inside 21060208"),
        (4_294_967_295, "outside"),
    ] {
        s.ask_time(seconds, expected);
    }
}

fn other_times(s: &mut Script) {
    // The next trading day is 47 days on.
    s.set(&[late(0, 86_400)], &long_holidays(), "set");
    s.ask_time(1_704_254_400, "inside 20240219");
    s.set(&[late(0, 86_400)], &[20_240_106, 20_240_108, 20_240_109], "set");
    s.ask_time(1_704_384_000, "inside 20240110");
    s.set(&[day(0, 86_400)], &[], "set");
    s.ask_time(0, "inside 19700101");
    s.ask_time(1_704_470_399, "inside 20240105");
    s.ask_time(1_704_470_400, "outside");
    s.ask_time(1_709_179_200, "inside 20240229");
    s.set(&[day(0, 25_200)], &[], "set");
    s.ask_time(4_294_940_399, "outside");
    s.set(&[late(0, 9000), late(75_600, 86_400)], &[], "set");
    s.ask_time(1_704_733_200, "inside 20240110");
    s.set(&[day(0, 9000), late(75_600, 86_400)], &[], "set");
    s.ask_time(1_704_474_000, "outside");
    s.ask_time(1_704_646_800, "inside 20240108");
}

fn marks(s: &mut Script) {
    for (mark, expected) in [
        (0, "date 19700101"),
        (57_599, "date 19700101"),
        (57_600, "date 19700102"),
        (951_753_599, "date 20000228"),
        (951_753_600, "date 20000229"),
        (951_839_999, "date 20000229"),
        (951_840_000, "date 20000301"),
        (1_704_038_399, "date 20231231"),
        (1_704_038_400, "date 20240101"),
        (1_709_136_000, "date 20240229"),
        (2_147_483_647, "date 20380119"),
        (2_147_483_648, "date 20380119"),
        (4_107_513_599, "date 21000228"),
        (4_107_513_600, "date 21000301"),
        (4_294_938_495, "date 21060207"),
        (4_294_938_496, "date 21060207"),
        (4_294_967_295, "date 21060207"),
    ] {
        s.mark(mark, expected);
    }
}

fn bad_lines(s: &mut Script) {
    s.bad(&format!("calendar 0{}", " 20240101".repeat(65)));
    s.bad(&format!("calendar 16{}{}", " 0 1 0".repeat(16), " 20240101".repeat(65)));
    s.bad(&format!("calendar 17{}", " 0 1 0".repeat(17)));
    for line in [
        "calendar",
        "calendar ",
        "calendar x",
        "calendar 1",
        "calendar 1 0 100",
        "calendar 2 0 100 0 100 200",
        "calendar 1 0 100 -",
        "calendar 1 0 100 4294967296",
        "calendar 0 x",
        "calendar 0 4294967296",
        "calendar 0 ",
        "calendar 0  20240101",
        "calendar 4294967295",
        "calendars 0",
        "ask",
        "ask ",
        "ask x",
        "ask 4294967296",
        "ask 0 ",
        "mark",
        "mark ",
        "mark x",
        "mark 4294967296",
        "mark 0 0",
        "marks 0",
    ] {
        s.bad(line);
    }
    s.ask_time(1_704_646_800, "inside 20240108");
}
