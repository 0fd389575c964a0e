//! The worked examples of a share of the log for each series (02, No. 11).

use super::parts::*;
use super::{Script, LOG, ROOM};
use crate::serving::ENTRY_HEADER;

/// The first of the days that the examples open.
const FIRST: u32 = 1_000_000_040;
/// A series for quotations, one for trade returns, and one whose reserve leaves the others 100 bytes of the log.
const QUOTES: u16 = 9;
const TRADES: u16 = 4;
const OTHER: u16 = 300;
const ALL_BUT_100: usize = LOG - 100;

/// The worked examples of a share of the log.
pub fn examples(s: &mut Script) {
    openings(s);
    sums_that_wrap(s);
    entries(s);
    beyond(s);
    quotations(s);
    bufferful(s);
    days(s);
    texts(s);
    bad_lines(s);
}

/// A content whose entry has so many bytes: 16, 22 to 4,096 (one field), 4,102 to 8,176 (two).
fn content(entry: usize) -> Vec<u8> {
    match entry - ENTRY_HEADER {
        0 => vec![],
        length if length <= 4080 => plain(length - 6),
        length => [plain(4074), plain(length - 4086)].concat(),
    }
}

fn publish(s: &mut Script, series: u16, entry: usize, expected: &str) {
    s.publish(series, STRANGE, &content(entry), expected);
}

/// The lines of the serving end, written by hand.
fn serving(s: &mut Script, expected: &str) {
    s.state();
    let said = &s.calls.last().expect("a call").1;
    let lines = said.split("\nreceiving ").next().expect("the serving end's lines");
    assert_eq!(lines, expected, "line {}", s.calls.len());
}

/// Reserves that together have the log's length, and one byte more; given and not given.
fn openings(s: &mut Script) {
    s.open_shares(FIRST, &[(QUOTES, Some(LOG))], "opened");
    serving(s, "serving 1000000040 0\nseries 9 published 0 used 0 reserve 40000 next out piece 0");
    publish(s, QUOTES, 22, "published 1");
    s.login(QUOTES, ROOM, &asking(None, None), &right(ANSWER), &format!("login {}", 26 + right(ANSWER).len()));
    s.open_shares(FIRST + 1, &[(QUOTES, Some(LOG + 1))], "refused 11");
    s.open_shares(FIRST + 1, &[(QUOTES, Some(20_000)), (TRADES, Some(20_001))], "refused 11");
    s.open_shares(FIRST + 1, &[(QUOTES, None), (TRADES, Some(LOG + 1))], "refused 11");
    s.open_shares(FIRST + 1, &[(QUOTES, Some(LOG)), (TRADES, None), (OTHER, Some(1))], "refused 11");
    // One row with the series and the day.
    s.open_shares(FIRST + 1, &[(QUOTES, Some(1)), (QUOTES, Some(1))], "refused 11");
    s.open_shares(FIRST + 1, &[(0, Some(1))], "refused 11");
    s.open_shares(FIRST, &[(QUOTES, Some(1))], "refused 11");
    s.open_shares(FIRST, &[(QUOTES, Some(LOG + 1))], "refused 11");
    let nine: Vec<_> = (1..=9).map(|series| (series, Some(1))).collect();
    s.open_shares(FIRST + 1, &nine, "refused 11");
    let most: Vec<_> = (1..=64).map(|series| (series, Some(1))).collect();
    s.open_shares(FIRST + 1, &most, "refused 11");
    // A refused opening leaves day, log, logins and reserves.
    serving(s, "serving 1000000040 22\nseries 9 published 1 used 22 reserve 40000 next 1 piece 0");
    s.send(QUOTES, ROOM, "sent 36");
    let eight = |last: usize| -> Vec<(u16, Option<usize>)> {
        (1..=8).map(|series| (series, Some(if series == 8 { last } else { 5000 }))).collect()
    };
    s.open_shares(FIRST + 1, &eight(5001), "refused 11");
    s.open_shares(FIRST + 1, &eight(5000), "opened");
    publish(s, 3, 5001, "refused 18");
    publish(s, 3, 5000, "published 1");
    publish(s, 3, 16, "refused 18");
    publish(s, 8, 5000, "published 1");
    s.open_shares(FIRST + 2, &[(QUOTES, None), (TRADES, Some(100)), (OTHER, Some(0))], "opened");
    serving(
        s,
        "serving 1000000042 0\nseries 9 published 0 used 0 reserve 0 next out piece 0\n\
         series 4 published 0 used 0 reserve 100 next out piece 0\nseries 300 published 0 used 0 reserve 0 next out piece 0",
    );
}

/// Reserves at the type's limit, and sums beyond it.
fn sums_that_wrap(s: &mut Script) {
    let half = 1 << 63;
    for reserves in [
        &[usize::MAX][..],
        &[usize::MAX, 0],
        &[usize::MAX, 1],
        &[1, usize::MAX],
        &[usize::MAX, 101],
        &[half, half],
        &[half, half + 50],
        &[0, half, 0, half],
        &[1 << 61; 8],
        &[usize::MAX; 8],
    ] {
        let given: Vec<_> = reserves.iter().zip(1..).map(|(&reserve, series)| (series, Some(reserve))).collect();
        s.open_shares(FIRST + 3, &given, "refused 11");
    }
}

/// The larger of bytes used and reserve, heads counted, an equal sum allowed: 100 bytes for two series, 60 of them reserved.
fn entries(s: &mut Script) {
    let given = [(QUOTES, None), (TRADES, Some(60)), (OTHER, Some(ALL_BUT_100))];
    s.open_shares(FIRST + 3, &given, "opened");
    publish(s, QUOTES, 41, "refused 18");
    publish(s, QUOTES, 40, "published 1");
    publish(s, QUOTES, 16, "refused 18");
    // The log has room for them, but not the account.
    publish(s, TRADES, 61, "refused 18");
    publish(s, TRADES, 38, "published 1");
    serving(
        s,
        "serving 1000000043 78\nseries 9 published 1 used 40 reserve 0 next out piece 0\n\
         series 4 published 1 used 38 reserve 60 next out piece 0\nseries 300 published 0 used 0 reserve 39900 next out piece 0",
    );
    publish(s, QUOTES, 16, "refused 18");
    publish(s, TRADES, 23, "refused 18");
    publish(s, TRADES, 22, "published 2");
    publish(s, TRADES, 16, "refused 18");
    // 7 to 10 and 13 come before.
    s.publish(TRADES, STRANGE, &[0], "refused 7");
    s.publish(TRADES, MATCHES, &[], "refused 10");
    s.publish(1, STRANGE, &[], "refused 13");
    publish(s, OTHER, 4000, "published 1");
    serving(
        s,
        "serving 1000000043 4100\nseries 9 published 1 used 40 reserve 0 next out piece 0\n\
         series 4 published 2 used 60 reserve 60 next out piece 0\n\
         series 300 published 1 used 4000 reserve 39900 next out piece 0",
    );
}

/// A series goes beyond its reserve as far as the others' shares leave room; what it has there it keeps.
fn beyond(s: &mut Script) {
    let given = [(QUOTES, Some(20)), (TRADES, Some(30)), (OTHER, Some(ALL_BUT_100))];
    s.open_shares(FIRST + 4, &given, "opened");
    publish(s, TRADES, 81, "refused 18");
    publish(s, TRADES, 58, "published 1");
    publish(s, TRADES, 23, "refused 18");
    publish(s, TRADES, 22, "published 2");
    publish(s, QUOTES, 22, "refused 18");
    publish(s, QUOTES, 16, "published 1");
    publish(s, QUOTES, 16, "refused 18");
    serving(
        s,
        "serving 1000000044 96\nseries 9 published 1 used 16 reserve 20 next out piece 0\n\
         series 4 published 2 used 80 reserve 30 next out piece 0\nseries 300 published 0 used 0 reserve 39900 next out piece 0",
    );
}

/// Quotations fill the log, and trade returns still go in up to their reserve; then the log is full to its last byte.
fn quotations(s: &mut Script) {
    let row = right(MATCH);
    let one = ENTRY_HEADER + row.len();
    s.open_shares(FIRST + 5, &[(QUOTES, None), (TRADES, Some(3 * one))], "opened");
    let largest = [vec![plain(4074); 8], vec![plain(122)]].concat().concat();
    s.publish(QUOTES, STRANGE, &largest, "published 1");
    let left = LOG - ENTRY_HEADER - largest.len() - 3 * one;
    s.publish(TRADES, MATCHES, &row, "published 1");
    publish(s, QUOTES, left + 1, "refused 18");
    publish(s, QUOTES, left, "published 2");
    publish(s, QUOTES, 16, "refused 18");
    s.publish(TRADES, MATCHES, &[row.clone(), row.clone(), plain(11)].concat(), "refused 18");
    s.publish(TRADES, MATCHES, &row, "published 2");
    publish(s, QUOTES, 16, "refused 18");
    s.publish(TRADES, MATCHES, &row, "published 3");
    publish(s, TRADES, 16, "refused 18");
    s.state();
    let said = s.calls.last().expect("a call").1.lines().next().expect("a line").to_string();
    assert_eq!(said, "serving 1000000045 40000");
    // Both are sent; the entries lie in the order of publication.
    let (answer, taken) = (right(ANSWER), format!("login {}", 26 + right(ANSWER).len()));
    s.login(TRADES, ROOM, &asking(None, None), &answer, &taken);
    for _ in 0..3 {
        s.send(TRADES, ROOM, &format!("sent {}", 30 + row.len()));
    }
    s.send(TRADES, ROOM, "none");
    s.login(QUOTES, ROOM, &asking(None, Some((QUOTES, 2))), &answer, &taken);
    s.send(QUOTES, ROOM, &format!("sent {}", left - ENTRY_HEADER + 60));
    s.send(QUOTES, ROOM, "none");
}

/// Each record by itself (No. 8): those before a refused one are in, and counted.
fn bufferful(s: &mut Script) {
    let record = |series: u16, entry: usize| {
        let content = content(entry);
        [&series.to_be_bytes()[..], &STRANGE.to_be_bytes(), &(content.len() as u32).to_be_bytes(), &content].concat()
    };
    s.open_shares(FIRST + 6, &[(QUOTES, None), (TRADES, Some(60)), (OTHER, Some(ALL_BUT_100))], "opened");
    let all =
        [record(QUOTES, 22), record(TRADES, 38), record(QUOTES, 22), record(TRADES, 22), record(QUOTES, 16)].concat();
    let taken = s.publish_all(&all, &["published 1", "published 1", "refused 18", "taken 64 refused 18"]);
    s.publish_all(&all[taken..], &["published 2", "published 2", "taken 26 end"]);
    serving(
        s,
        "serving 1000000046 98\nseries 9 published 2 used 38 reserve 0 next out piece 0\n\
         series 4 published 2 used 60 reserve 60 next out piece 0\nseries 300 published 0 used 0 reserve 39900 next out piece 0",
    );
}

/// A day brings its own reserves, for its own series; without them all of the log is anybody's.
fn days(s: &mut Script) {
    s.open_shares(FIRST + 7, &[(TRADES, Some(LOG)), (QUOTES, None)], "opened");
    publish(s, QUOTES, 16, "refused 18");
    s.open_shares(FIRST + 8, &[(QUOTES, Some(LOG)), (TRADES, Some(0))], "opened");
    publish(s, TRADES, 16, "refused 18");
    publish(s, QUOTES, 16, "published 1");
    s.open(FIRST + 9, &[QUOTES], "opened");
    publish(s, QUOTES, 22, "published 1");
    serving(s, "serving 1000000049 22\nseries 9 published 1 used 22 reserve 0 next out piece 0");
}

/// Leading zeros are read in series and reserve; the reserve has all of eight bytes.
fn texts(s: &mut Script) {
    s.open_shares(FIRST + 10, &[(QUOTES, Some(50)), (TRADES, Some(0))], "opened");
    s.calls.last_mut().expect("a call").0 = format!("sopen 0{} 0009:00000000000000000000050 00004", FIRST + 10);
    serving(
        s,
        "serving 1000000050 0\nseries 9 published 0 used 0 reserve 50 next out piece 0\n\
         series 4 published 0 used 0 reserve 0 next out piece 0",
    );
}

/// Lines that are no call: numbers that are empty, too large or none, a colon too many or somewhere else, series too many.
/// With wrapped numbers each would open.
fn bad_lines(s: &mut Script) {
    let day = FIRST + 11;
    for words in [
        "9:",
        ":9",
        ":",
        "::",
        "9::1",
        "9:1:",
        "9:1:1",
        ":9:1",
        "9:18446744073709551616",
        "9:18446744073709551617",
        "9:36893488147419103233",
        "9:99999999999999999999",
        "9:100000000000000000000",
        "65536:1",
        "65545:1",
        "9:-1",
        "9:+1",
        "9:x",
        "9:1x",
        "9:A",
        "9:0x10",
        "9: 1",
        "9 :1",
        "9:1 ",
        "9:1  4:1",
        "9;1",
        "9.1",
        "9:1,4:1",
        "9:1 4:",
        "9: 4:1",
        "9:1 4:1:1",
    ] {
        s.bad(&format!("sopen {day} {words}"));
    }
    s.bad(&format!("sopen {day}:1 9"));
    s.bad(&format!("sopen {day}:1"));
    let many: String = (1..=65).map(|series| format!(" {series}:1")).collect();
    s.bad(&format!("sopen {day}{many}"));
    s.bad("ropen 9:1");
    s.bad("ropen 9:0");
    // Nothing changed.
    publish(s, QUOTES, 22, "published 1");
    serving(
        s,
        "serving 1000000050 22\nseries 9 published 1 used 22 reserve 50 next out piece 0\n\
         series 4 published 0 used 0 reserve 0 next out piece 0",
    );
}
