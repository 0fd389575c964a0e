//! The worked examples of the book (02, No. 2).

use super::{price_text, refused, Script};
use crate::book::Side::{Buying, Selling};
use crate::book_cases::{cases, content, Call, CODE};

/// The worked examples of the book.
pub fn examples(s: &mut Script) {
    no_contract(s);
    rows(s);
    best_first(s);
    lowest(s);
    greatest_sum(s);
    refusals(s);
    bad_lines(s);
}

/// Before the first start 7 to 10 hold, and nothing is kept.
fn no_contract(s: &mut Script) {
    s.level(Buying, 0, "none");
    s.level(Selling, 0, "none");
    s.mean("none");
    s.take(0x2001, &content("B=10@123.4500"), "taken");
    s.take(0x2002, &content("M5@123.4500"), "taken");
    s.take(0x2001, &content("M5@123.4500"), "refused 10");
    s.level(Buying, 0, "none");
    s.mean("none");
    s.start(b"cu0405", "refused 9");
    s.take(0x2001, &content("B=10@123.4500"), "taken");
    s.level(Buying, 0, "none");
}

/// The rows of the request's examples, but the two of many matches: each call with its answer, and all that is shown then.
fn rows(s: &mut Script) {
    for case in cases().into_iter().filter(|case| ![14, 15].contains(&case.row)) {
        let answer = |done: &str| if case.answer == 0 { done.to_string() } else { refused(case.answer) };
        match &case.call {
            Call::Start(code) => s.start(code, &answer("started")),
            Call::Take(tid, content) => s.take(*tid, content, &answer("taken")),
        }
        if let Some(shown) = case.shown {
            let parts: Vec<&str> = shown.split('|').collect();
            for (side, levels) in [(Buying, parts[0]), (Selling, parts[1])] {
                let levels: Vec<&str> = levels.split_whitespace().collect();
                for (i, level) in levels.iter().enumerate() {
                    let (quantity, price) = level.split_once('@').expect("a pair");
                    s.level(side, i, &format!("level {} {quantity}", price_text(price.parse().expect("a price"))));
                }
                s.level(side, levels.len(), "none");
            }
            let mean = parts[2].parse().map_or("none".to_string(), |mean| format!("mean {}", price_text(mean)));
            s.mean(&mean);
        }
    }
}

/// Each line written by hand.
fn best_first(s: &mut Script) {
    s.start(CODE, "started");
    s.take(0x2001, &content("B=10@123.4500, B=4@123.5000, B=7@120.0000, S=2@124.0000, S=9@123.9000"), "taken");
    s.level(Buying, 0, "level 123.5000 4");
    s.level(Buying, 1, "level 123.4500 10");
    s.level(Buying, 2, "level 120.0000 7");
    s.level(Buying, 3, "none");
    s.level(Selling, 0, "level 123.9000 9");
    s.level(Selling, 1, "level 124.0000 2");
    s.level(Selling, 2, "none");
    s.take(0x2002, &content("M5@123.4500, M3@123.4600"), "taken");
    s.mean("mean 123.4538");
    s.level(Buying, 1, "level 123.4500 5");
    for i in [63, 64, 4_294_967_295] {
        s.level(Buying, i, "none");
        s.level(Selling, i, "none");
    }
    // All places of a side.
    s.start(CODE, "started");
    let many = |from: u32| (from..from + 32).map(|i| format!("S={i}@{i}.0000")).collect::<Vec<_>>().join(",");
    s.take(0x2001, &content(&many(33)), "taken");
    s.take(0x2001, &content(&many(1)), "taken");
    s.level(Selling, 0, "level 1.0000 1");
    s.level(Selling, 31, "level 32.0000 32");
    s.level(Selling, 63, "level 64.0000 64");
    s.level(Selling, 64, "none");
    s.take(0x2001, &content("S=1@0.5000"), "refused 23");
    s.take(0x2001, &content("S=0@64.0000, S=1@0.5000"), "taken");
    s.level(Selling, 0, "level 0.5000 1");
    s.level(Selling, 63, "level 63.0000 63");
}

/// Zeros in front, the sign, the least and the greatest prices, the greatest quantity.
fn lowest(s: &mut Script) {
    s.start(CODE, "started");
    s.take(0x2001, &content("S=1@0.0000, S=2@0.0001, S=3@-0.0001, S=4@0.0010, S=5@-0.1000"), "taken");
    s.level(Selling, 0, "level -0.1000 5");
    s.level(Selling, 1, "level -0.0001 3");
    s.level(Selling, 2, "level 0.0000 1");
    s.level(Selling, 3, "level 0.0001 2");
    s.level(Selling, 4, "level 0.0010 4");
    s.take(0x2001, &content("B=4294967295@9999999.9999, B=1@-999999.9999, B=12@-10.0500"), "taken");
    s.level(Buying, 0, "level 9999999.9999 4294967295");
    s.level(Buying, 1, "level -10.0500 12");
    s.level(Buying, 2, "level -999999.9999 1");
    s.take(0x2002, &content("M1@-0.0001"), "taken");
    s.mean("mean -0.0001");
    s.take(0x2002, &content("M1@0.0000"), "taken");
    s.mean("mean 0.0000");
    s.take(0x2002, &content("M1@-0.0004"), "taken");
    s.mean("mean -0.0002");
}

/// Up to the limit of the sum and no further.
fn greatest_sum(s: &mut Script) {
    s.start(CODE, "started");
    for _ in 0..9 {
        s.take(0x2002, &content(&["M1000000@9999999.9999"; 10].join(",")), "taken");
    }
    s.mean("mean 9999999.9999");
    s.take(0x2002, &content("M1000000@9999999.9999"), "refused 24");
    s.take(0x2002, &content("M1000000@0.0090"), "taken");
    s.mean("mean 9890109.8901");
    s.take(0x2002, &content("M1@0.0001"), "refused 24");
    s.take(0x2002, &content("M1@0.0001, M1@-0.0001"), "refused 24");
    s.take(0x2002, &content("M1@-0.0001"), "taken");
    s.start(CODE, "started");
    for _ in 0..9 {
        s.take(0x2002, &content(&["M1000000@-999999.9999"; 100].join(",")), "taken");
    }
    s.mean("mean -999999.9999");
    s.take(0x2002, &content("M1000000@-999999.9999"), "refused 24");
    s.take(0x2002, &content("M900000@-0.1000"), "taken");
    s.take(0x2002, &content("M1@-0.0001"), "refused 24");
}

/// Codes of another length, and what is no whole field; the book stays.
fn refusals(s: &mut Script) {
    s.start(CODE, "started");
    s.take(0x2001, &content("B=10@123.4500"), "taken");
    s.start(b"", "refused 9");
    s.start(b"cu0405     ", "refused 9");
    s.start(&[b'a'; 1000], "refused 9");
    s.take(0x2001, &content("B=11@123.4500")[..38], "refused 7");
    s.take(0x2001, &[0], "refused 7");
    s.take(0x2001, &[], "refused 10");
    s.take(0x7777, &[], "taken");
    s.take(0xFFFF_FFFF, &content("B=11@123.4500"), "taken");
    s.level(Buying, 0, "level 123.4500 10");
}

fn bad_lines(s: &mut Script) {
    for line in [
        "book",
        "book ",
        "book cu0405",
        "book 6",
        "book 63753034303520202020 -",
        "book 63753034303520202020 ",
        "books 63753034303520202020",
        "take",
        "take 00002001",
        "take 00002001 ",
        "take 2001 -",
        "take 000020010 -",
        "take 0000200G -",
        "take 00002001 0",
        "take 00002001 - -",
        "take 1 00002001 -",
        "level",
        "level b",
        "level b ",
        "level 0",
        "level x 0",
        "level B 0",
        "level bs 0",
        "level - 0",
        "level  0",
        "level b x",
        "level b -1",
        "level b 4294967296",
        "level b 0 ",
        "level b 0 0",
        "levels b 0",
        "mean ",
        "mean 0",
        "means",
    ] {
        s.bad(line);
    }
    s.level(Buying, 0, "level 123.4500 10");
    s.mean("none");
}
