//! The worked examples of named places (02, No. 13).

use super::parts::*;
use super::{Script, ROOM};

/// The day of the examples, and the next one.
const TODAY: u32 = 1_000_000_100;
const TOMORROW: u32 = TODAY + 1;

/// Keeps and returns before the receiving end is opened; one place stays.
pub fn before_the_opening(s: &mut Script) {
    for name in ["-", "--", "AAAAAAAAA", "@", "[", "A@", "[A", "a", "Aa", "A1", "A-", "1", "AAAAAAA@"] {
        s.keep(name, "refused 31");
        s.go_back(name, "refused 31");
    }
    s.go_back("BEFORE", "refused 33");
    ends(s, "receiving 0\nplaces 0");
    s.keep("BEFORE", "kept");
    s.go_back("BEFOR", "refused 33");
    s.go_back("BEFORES", "refused 33");
    s.go_back("BEFORE", "returned");
    s.keep("BEFORE", "kept");
    ends(s, "receiving 0\nplaces 1\nplace BEFORE");
}

/// The worked examples. Behind them four names are in use.
pub fn examples(s: &mut Script) {
    s.connect();
    for series in [1, 3, 7, 9] {
        s.answer(series, &answering(TODAY), "answered 0");
    }
    kept(s);
    returned(s);
    later(s);
    another_day(s);
    four(s);
    before(s);
    bad_lines(s);
}

fn answering(mark: u32) -> Vec<u8> {
    Parts::answer(Some(mark)).bytes()
}

/// A packet of series 1.
fn piece(mark: u32, number: u32, chain: u8, n: usize) -> Vec<u8> {
    Parts::piece(Some(mark), 1, number, chain, &[plain(n)]).bytes()
}

/// The lines of the receiving end and of its places, written by hand.
fn ends(s: &mut Script, expected: &str) {
    s.state();
    let said = &s.calls.last().expect("a call").1;
    let from = said.find("receiving ").expect("the receiving end's lines");
    assert_eq!(&said[from..], expected, "line {}", s.calls.len());
}

/// At last 5, and at last 7 within a chain, which goes on.
fn kept(s: &mut Script) {
    for number in 1..=5 {
        s.receive(&piece(TODAY, number, b'S', 1), &format!("message {number}"));
    }
    s.keep("FIVE", "kept");
    s.receive(&piece(TODAY, 6, b'S', 2), "message 6");
    s.receive(&piece(TODAY, 7, b'S', 3), "message 7");
    s.receive(&piece(TODAY, 8, b'F', 4), "held 7");
    s.keep("SEVEN", "kept");
    ends(
        s,
        "receiving 4\nseries 7 1000000100 last 0 in chain none\nseries 1 1000000100 last 7 in chain 10 1\n\
         series 3 1000000100 last 0 in chain none\nseries 9 1000000100 last 0 in chain none\nplaces 3\nplace BEFORE\n\
         place FIVE\nseries 7 1000000100 last 0\nseries 1 1000000100 last 5\nseries 3 1000000100 last 0\n\
         series 9 1000000100 last 0\n\
         place SEVEN\nseries 7 1000000100 last 0\nseries 1 1000000100 last 7\nseries 3 1000000100 last 0\n\
         series 9 1000000100 last 0",
    );
    s.receive(&piece(TODAY, 8, b'L', 5), "message 8");
}

/// Back to 5: nobody is logged in, and 6 comes again.
fn returned(s: &mut Script) {
    s.receive(&piece(TODAY, 9, b'F', 6), "held 8");
    s.go_back("FIVE", "returned");
    ends(
        s,
        "receiving 4\nseries 7 1000000100 last 0 out chain none\nseries 1 1000000100 last 5 out chain none\n\
         series 3 1000000100 last 0 out chain none\nseries 9 1000000100 last 0 out chain none\nplaces 3\nplace BEFORE\n\
         place FIVE\nseries 7 1000000100 last 0\nseries 1 1000000100 last 5\nseries 3 1000000100 last 0\n\
         series 9 1000000100 last 0\n\
         place SEVEN\nseries 7 1000000100 last 0\nseries 1 1000000100 last 7\nseries 3 1000000100 last 0\n\
         series 9 1000000100 last 0",
    );
    s.receive(&piece(TODAY, 6, b'S', 2), "refused 14");
    s.receive(&piece(TODAY, 9, b'L', 6), "refused 14");
    s.ask(1, ROOM, &right(REQUEST), &format!("asked {}", 38 + right(REQUEST).len()));
    s.answer(1, &answering(TODAY), "answered 5");
    s.receive(&piece(TODAY, 8, b'S', 4), "refused 16");
    s.receive(&piece(TODAY, 5, b'S', 1), "again 5");
    s.receive(&piece(TODAY, 6, b'S', 2), "message 6");
    // A refused keep or return changes nothing, and asks for no login.
    s.keep("five", "refused 31");
    s.go_back("SIX", "refused 33");
    s.go_back("six", "refused 31");
    s.receive(&piece(TODAY, 6, b'S', 2), "again 6");
}

/// To a place that was kept later; its chain wasn't kept. And once more.
fn later(s: &mut Script) {
    for _ in 0..2 {
        s.go_back("SEVEN", "returned");
        s.receive(&piece(TODAY, 8, b'L', 5), "refused 14");
        s.answer(1, &answering(TODAY), "answered 7");
        s.receive(&piece(TODAY, 8, b'L', 5), "refused 17");
        s.receive(&piece(TODAY, 8, b'F', 4), "held 7");
        s.receive(&piece(TODAY, 8, b'L', 5), "message 8");
    }
    s.receive(&Parts::piece(Some(TODAY), 3, 1, b'S', &[]).bytes(), "refused 14");
}

/// The mark goes down by a return, and the day that it takes back begins anew.
fn another_day(s: &mut Script) {
    for last in [8, 7] {
        s.answer(1, &answering(TODAY), &format!("answered {last}"));
        s.answer(1, &answering(TOMORROW), "answered 0");
        s.receive(&piece(TOMORROW, 1, b'S', 7), "message 1");
        s.answer(1, &answering(TODAY), "refused 15");
        s.go_back("SEVEN", "returned");
    }
    s.answer(1, &answering(TODAY), "answered 7");
}

/// 32 and a used name; names of one letter and of eight.
fn four(s: &mut Script) {
    s.keep("ABCDEFGH", "kept");
    s.keep("Z", "refused 32");
    s.keep("z", "refused 31");
    s.keep("ABCDEFGHI", "refused 31");
    s.keep("ABCDEFG", "refused 32");
    s.go_back("Z", "refused 33");
    s.receive(&piece(TODAY, 8, b'S', 1), "message 8");
    s.answer(3, &answering(TOMORROW), "answered 0");
    s.keep("FIVE", "kept");
    s.go_back("ABCDEFGH", "returned");
    s.go_back("FIVE", "returned");
    ends(
        s,
        "receiving 4\nseries 7 1000000100 last 0 out chain none\nseries 1 1000000100 last 8 out chain none\n\
         series 3 1000000101 last 0 out chain none\nseries 9 1000000100 last 0 out chain none\nplaces 4\nplace BEFORE\n\
         place FIVE\nseries 7 1000000100 last 0\nseries 1 1000000100 last 8\nseries 3 1000000101 last 0\n\
         series 9 1000000100 last 0\n\
         place SEVEN\nseries 7 1000000100 last 0\nseries 1 1000000100 last 7\nseries 3 1000000100 last 0\n\
         series 9 1000000100 last 0\n\
         place ABCDEFGH\nseries 7 1000000100 last 0\nseries 1 1000000100 last 7\nseries 3 1000000100 last 0\n\
         series 9 1000000100 last 0",
    );
}

/// What was kept before the opening: none and 0, and the end stays open. An Ask has no tag then.
fn before(s: &mut Script) {
    s.go_back("BEFORE", "returned");
    s.state();
    let said = &s.calls.last().expect("a call").1;
    assert!(said.contains(
        "receiving 4\nseries 7 none last 0 out chain none\nseries 1 none last 0 out chain none\n\
         series 3 none last 0 out chain none\nseries 9 none last 0 out chain none\nplaces 4\nplace BEFORE\nplace FIVE\n"
    ));
    s.open_end(&[1], "refused 11");
    s.ask(1, ROOM, &right(REQUEST), &format!("asked {}", 32 + right(REQUEST).len()));
    // A place kept then has no mark.
    s.keep("FIVE", "kept");
    s.answer(1, &answering(7), "answered 0");
    s.receive(&piece(7, 1, b'S', 1), "message 1");
    s.go_back("FIVE", "returned");
    ends(
        s,
        "receiving 4\nseries 7 none last 0 out chain none\nseries 1 none last 0 out chain none\n\
         series 3 none last 0 out chain none\nseries 9 none last 0 out chain none\nplaces 4\nplace BEFORE\n\
         place FIVE\nseries 7 none last 0\nseries 1 none last 0\nseries 3 none last 0\nseries 9 none last 0\n\
         place SEVEN\nseries 7 1000000100 last 0\nseries 1 1000000100 last 7\nseries 3 1000000100 last 0\n\
         series 9 1000000100 last 0\n\
         place ABCDEFGH\nseries 7 1000000100 last 0\nseries 1 1000000100 last 7\nseries 3 1000000100 last 0\n\
         series 9 1000000100 last 0",
    );
}

/// Lines that are no call.
fn bad_lines(s: &mut Script) {
    for line in ["keep", "keep A B", "keeps A", "Keep A", "return", "return A B", "returns A", "RETURN A"] {
        s.bad(line);
    }
}
