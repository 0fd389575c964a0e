//! The order of two serving ends (document 02, No. 14) by hand: each case with its answer, also with the ends
//! exchanged.

use reader::order::order;
use reader::order::Order::{self, Differ, FirstStarts, Same, SecondStarts};
use reader::serving::{Serving, ENTRY_HEADER};

const TID: u32 = 0x7777;

/// A serving end with its log.
type End = (Serving, Vec<u8>);

/// A message: its series, TID and content.
type Message = (u16, u32, &'static [u8]);

const A: Message = (1, TID, &[0, 0, 0x77, 0x77, 0, 1, 7]);
const B: Message = (1, TID, &[0, 0, 0x77, 0x77, 0, 2, 7, 8]);
const X: Message = (2, TID, &[]);
/// B with another TID.
const B_OTHER: Message = (1, TID + 1, B.2);

/// An end on a day with these series open, that has published this.
fn end(mark: u32, series: &[u16], published: &[Message]) -> End {
    let mut log = vec![0; 200];
    let mut end = Serving::default();
    end.open(mark, series, &vec![0; series.len()], log.len()).expect("a day");
    for &(series, tid, content) in published {
        end.publish(series, tid, content, &mut log).expect("a message");
    }
    (end, log)
}

/// On day 5 with series 1 and 2.
fn five(published: &[Message]) -> End {
    end(5, &[1, 2], published)
}

fn asked(first: &End, second: &End, series: u16) -> Result<Order, u8> {
    order(series, (&first.0, &first.1), (&second.0, &second.1))
}

/// The answer, and with the ends exchanged the one that goes with it.
fn right(first: &End, second: &End, series: u16, answer: Result<Order, u8>) {
    assert_eq!(asked(first, second, series), answer);
    let exchanged = match answer {
        Ok(FirstStarts) => Ok(SecondStarts),
        Ok(SecondStarts) => Ok(FirstStarts),
        other => other,
    };
    assert_eq!(asked(second, first, series), exchanged);
    for one in [first, second] {
        assert!(matches!(asked(one, one, series), Ok(Same) | Err(13 | 20)));
    }
}

/// The end with a byte of its log altered.
fn altered(of: &End, at: usize) -> End {
    let (end, mut log) = of.clone();
    log[at] ^= 1;
    (end, log)
}

/// The end with its log cut to so many bytes.
fn cut(of: &End, length: usize) -> End {
    (of.0, of.1[..length].to_vec())
}

/// Where the entries of a, x, b begin.
const ENTRIES: [usize; 3] = [0, ENTRY_HEADER + A.2.len(), 2 * ENTRY_HEADER + A.2.len()];

#[test]
fn one_is_a_start() {
    right(&end(5, &[1], &[]), &end(5, &[2, 1], &[]), 1, Ok(Same));
    right(&five(&[A, X, B]), &five(&[A, B]), 1, Ok(Same));
    right(&five(&[A, X, B]), &five(&[A]), 1, Ok(SecondStarts));
    right(&five(&[]), &five(&[A, X, B]), 1, Ok(FirstStarts));
    right(&five(&[A, X, B]), &five(&[A, B]), 2, Ok(SecondStarts));
}

#[test]
fn they_differ() {
    right(&five(&[A, X, B]), &five(&[A, A]), 1, Ok(Differ(2)));
    right(&five(&[A, X, B]), &five(&[A, B_OTHER, A]), 1, Ok(Differ(2)));
    right(&five(&[A, X, B]), &five(&[X, B]), 1, Ok(Differ(1)));
    // The first such number, also where a later one differs too.
    right(&five(&[A, B, B, B]), &five(&[A, A, B, A, X]), 1, Ok(Differ(2)));
    // A TID's byte altered is another message, and no damage.
    for at in 4..8 {
        right(&altered(&five(&[A, X, B]), at), &five(&[A]), 1, Ok(Differ(1)));
    }
    // Likewise a byte of a content: of its FID and of its value.
    for at in [0, 3, 6] {
        right(&altered(&five(&[A, X, B]), ENTRY_HEADER + at), &five(&[A]), 1, Ok(Differ(1)));
    }
}

/// 13 before 15: with marks differing, and the series open at one only.
#[test]
fn not_comparable() {
    right(&five(&[A, X, B]), &end(5, &[1], &[]), 2, Err(13));
    right(&five(&[A, X, B]), &end(6, &[1, 2], &[A]), 1, Err(15));
    right(&five(&[A, X, B]), &end(6, &[3], &[]), 2, Err(13));
    right(&five(&[A, X, B]), &(Serving::default(), vec![]), 1, Err(13));
    right(&five(&[A]), &five(&[A]), 0, Err(13));
    right(&five(&[]), &end(6, &[1, 2], &[]), 1, Err(15));
    // 15 before 20.
    right(&altered(&five(&[A, X, B]), 2), &end(6, &[1, 2], &[A]), 1, Err(15));
}

/// 20 in each of the three heads: series, zero bytes, number, length.
#[test]
fn damage_up_to_the_last_entry() {
    let whole = five(&[A, X, B]);
    for entry in ENTRIES {
        // The series becomes 257 or 258 by the first byte, 0 or 3 by the second.
        for at in [0, 1, 2, 3, 8, 11, 12, 15] {
            right(&altered(&whole, entry + at), &five(&[A]), 1, Err(20));
        }
    }
    // A content that isn't whole fields: the length of a's field.
    right(&altered(&whole, ENTRY_HEADER + 5), &five(&[A]), 1, Err(20));
    // Before any comparison: they differ at number 1 too.
    right(&altered(&five(&[B, X, B]), ENTRIES[2] + 3), &five(&[A, X, A]), 1, Err(20));
}

/// What stands behind the series' last entry doesn't count, but for the log's length; nothing published, nothing found.
#[test]
fn damage_behind_the_last_entry() {
    for at in [0, 1, 2, 3, 8, 11, 12, 15] {
        let behind = altered(&five(&[A, X]), ENTRIES[1] + at);
        right(&behind, &five(&[A]), 1, Ok(Same));
        right(&behind, &five(&[]), 2, Err(20));
    }
    right(&cut(&five(&[A]), 3), &five(&[]), 2, Ok(Same));
    right(&cut(&five(&[A]), 3), &five(&[]), 1, Err(20));
    // One byte less than is used, and that of x's entry alone.
    let used = 2 * ENTRY_HEADER + A.2.len();
    right(&cut(&five(&[A, X]), used), &five(&[A]), 1, Ok(Same));
    right(&cut(&five(&[A, X]), used - 1), &five(&[A]), 1, Err(20));
    // The used part itself ends before the last entry.
    let (mut short, log) = five(&[A, B]);
    short.day.as_mut().unwrap().used -= 1;
    right(&(short, log), &five(&[A, B]), 1, Err(20));
}
