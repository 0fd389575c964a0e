//! The worked examples of request No. 2, and of No. 9.

use reader::book::{nearest, Book};
use reader::book_cases::{cases, content, make, matched, quotation, shown, CODE};

#[test]
fn worked_examples() {
    let mut book = Book::start(CODE).unwrap();
    for (i, case) in cases().iter().enumerate() {
        assert_eq!(make(&mut book, &case.call), case.answer, "row {}, call {i}", case.row);
        if let Some(said) = case.shown {
            assert_eq!(shown(&book), said, "row {}, call {i}", case.row);
        }
    }
}

#[test]
fn written_bytes() {
    let quoted = "0000000D00216375303430352020202000010030303030 3132332E343530300000000A00000000".replace(' ', "");
    let met = "0000000A001D637530343035202020200000303030303132332E343530300000000500";
    let hex = |bytes: &[u8]| bytes.iter().map(|b| format!("{b:02X}")).collect::<String>();
    assert_eq!(hex(&quotation(CODE, 1, 0, b"0000123.4500", 10)), quoted);
    assert_eq!(hex(&content("B=10@123.4500")), quoted);
    assert_eq!(hex(&matched(CODE, b"0000123.4500", 5)), met);
}

/// Quotients with their mean as request No. 9 says it, sums near their limits among them.
#[test]
fn nearest_quotients() {
    const LIMIT: i128 = 9_000_000_000_000_000_000;
    for (sum, volume, mean) in [
        (3, 2, 2),
        (1, 2, 0),
        (5, 2, 2),
        (7, 2, 4),
        (-1, 2, 0),
        (-3, 2, -2),
        (-5, 2, -2),
        (-7, 2, -4),
        (10, 4, 2),
        (14, 4, 4),
        (25, 10, 2),
        (15, 10, 2),
        (2, 3, 1),
        (1, 3, 0),
        (-2, 3, -1),
        (-5, 3, -2),
        (0, 5, 0),
        (9_876_300, 8, 1_234_538),
        (9_876_308, 8, 1_234_538),
        (LIMIT, 91_000_000, 98_901_098_901),
        (LIMIT / 2, LIMIT, 0),
        (LIMIT / 2 + 1, LIMIT, 1),
        (8_000_000_000_000_000_000, LIMIT, 1),
        (LIMIT / 2, LIMIT / 3, 2),
        (LIMIT - 1, 2, 4_500_000_000_000_000_000),
    ] {
        assert_eq!(nearest(sum, volume), mean, "{sum} / {volume}");
    }
}
