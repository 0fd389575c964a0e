//! A share of the log for each series (document 02, No. 11): openings and publications with the answer written by hand, the
//! wrong rules that these tell from the right one, and over random lists the promise that an entry within its series'
//! reserve is never refused 18.

use reader::generate::{raw_field, Random};
use reader::serving::{Served, Serving, ENTRY_HEADER};
use reader::several::{Answer, Stop};

const TID: u32 = 0x7777;
const MOST: usize = usize::MAX;

/// A content whose entry has so many bytes: 16, or 22 and more.
fn content(entry: usize) -> Vec<u8> {
    match entry {
        16 => vec![],
        _ => raw_field(0x7777, &vec![7; entry - ENTRY_HEADER - 6]),
    }
}

/// An end on day 5 with series 1, 2, .. and these reserves.
fn opened(reserves: &[usize], log: usize) -> Serving {
    let mut end = Serving::default();
    let series: Vec<u16> = (1..).take(reserves.len()).collect();
    end.open(5, &series, reserves, log).expect("a day");
    end
}

/// Publishes an entry of so many bytes. What is refused leaves end and log.
fn publish(end: &mut Serving, series: u16, entry: usize, log: &mut [u8]) -> Result<u32, u8> {
    let before = (*end, log.to_vec());
    let answer = end.publish(series, TID, &content(entry), log);
    assert!(answer.is_ok() || before == (*end, log.to_vec()), "a refusal changed something");
    answer
}

/// Bytes used by each series.
fn used(end: &Serving) -> Vec<usize> {
    end.day.expect("a day").open.iter().map(|one| one.used).collect()
}

fn reserves(end: &Serving) -> Vec<usize> {
    end.day.expect("a day").open.iter().map(|one| one.reserve).collect()
}

// --- Opening ---

/// Reserves, the log's length, and whether the opening is taken.
const OPENINGS: [(&[usize], usize, bool); 18] = [
    (&[0], 0, true),
    (&[1], 0, false),
    (&[100], 100, true),
    (&[101], 100, false),
    (&[60, 40], 100, true),
    (&[60, 41], 100, false),
    (&[0, 101], 100, false),
    (&[1, 2, 3, 4, 5, 6, 7, 8], 36, true),
    (&[1, 2, 3, 4, 5, 6, 7, 8], 35, false),
    // The type's limits: sums that pass it, that wrap to 0 and to less than the log has.
    (&[MOST], 100, false),
    (&[MOST], MOST, true),
    (&[MOST, 1], MOST, false),
    (&[MOST, 1], 100, false),
    (&[1, MOST], 100, false),
    (&[1 << 63, 1 << 63], 100, false),
    (&[1 << 63, (1 << 63) + 50], 100, false),
    (&[1 << 61; 8], MOST, false),
    (&[MOST; 8], 100, false),
];

#[test]
fn openings() {
    for (reserves, log, taken) in OPENINGS {
        let series: Vec<u16> = (1..).take(reserves.len()).collect();
        let answer = Serving::default().open(5, &series, reserves, log);
        assert_eq!(answer, if taken { Ok(()) } else { Err(11) }, "{reserves:?} in {log}");
    }
}

/// Each wrong rule errs on one of the openings.
#[test]
fn wrong_openings() {
    let wrapped = |all: &[usize], log: usize| all.iter().fold(0usize, |sum, one| sum.wrapping_add(*one)) <= log;
    let below = |all: &[usize], log: usize| all.iter().map(|&one| one as u128).sum::<u128>() < log as u128;
    let each = |all: &[usize], log: usize| all.iter().all(|&one| one <= log);
    let any = |_: &[usize], _: usize| true;
    let right = |all: &[usize], log: usize| all.iter().map(|&one| one as u128).sum::<u128>() <= log as u128;
    let errs =
        |rule: &dyn Fn(&[usize], usize) -> bool| OPENINGS.iter().any(|(all, log, taken)| rule(all, *log) != *taken);
    assert!(!errs(&right));
    for (i, rule) in [&wrapped as &dyn Fn(&[usize], usize) -> bool, &below, &each, &any].into_iter().enumerate() {
        assert!(errs(rule), "rule {i}");
    }
}

/// One row with the others of 11; a refused opening leaves day, log, logins and reserves. As many reserves as series.
#[test]
fn refused_openings() {
    let (mut end, mut log) = (opened(&[40, 30], 100), [0; 100]);
    publish(&mut end, 2, 22, &mut log).unwrap();
    end.day.as_mut().unwrap().open[1].next = Some(1);
    let before = end;
    for (mark, series, reserves) in [
        (6, &[1, 2][..], &[100, 1][..]),
        (6, &[1, 2], &[100]),
        (6, &[1, 2], &[50, 50, 0]),
        (6, &[1, 2], &[]),
        (6, &[], &[]),
        (6, &[], &[0]),
        (6, &[1, 1], &[0, 0]),
        (5, &[1, 2], &[0, 0]),
        (5, &[1, 0], &[MOST, MOST]),
    ] {
        assert_eq!(end.open(mark, series, reserves, 100), Err(11), "{mark} {series:?} {reserves:?}");
        assert_eq!(end, before);
    }
    // A new day brings new reserves, in their series' order, and nothing is used of them.
    end.open(6, &[2, 9, 1], &[10, 20, 70], 100).unwrap();
    assert_eq!((reserves(&end), used(&end), end.day.unwrap().used), (vec![10, 20, 70], vec![0, 0, 0], 0));
}

// --- Publish ---

/// The log's length, bytes used and reserve of each series, which one gets an entry of how many bytes, and whether 18 meets it.
type Case = (usize, &'static [(usize, usize)], usize, usize, bool);

const ENTRIES: [Case; 27] = [
    // No reserves: as long as it fits.
    (38, &[(0, 0), (0, 0)], 0, 38, false),
    (38, &[(0, 0), (0, 0)], 0, 39, true),
    (60, &[(22, 0), (16, 0)], 1, 22, false),
    (60, &[(22, 0), (16, 0)], 1, 23, true),
    // Series 2 may have what isn't reserved for series 1, and not a byte more: the head counts.
    (100, &[(0, 60), (0, 0)], 1, 40, false),
    (100, &[(0, 60), (0, 0)], 1, 41, true),
    (100, &[(0, 60), (18, 0)], 1, 22, false),
    (100, &[(0, 60), (18, 0)], 1, 23, true),
    // Of its reserve series 1 has used some: that counts once.
    (100, &[(50, 60), (0, 0)], 1, 40, false),
    (100, &[(50, 60), (0, 0)], 1, 41, true),
    // Within its reserve, the others having all the rest: the content has 16 bytes less than the reserve.
    (100, &[(0, 60), (40, 0)], 0, 60, false),
    (100, &[(0, 60), (40, 0)], 0, 61, true),
    (100, &[(38, 60), (40, 0)], 0, 22, false),
    (100, &[(38, 60), (40, 0)], 0, 23, true),
    // Beyond its reserve, as far as the others' shares leave room.
    (100, &[(56, 60), (10, 20)], 0, 24, false),
    (100, &[(56, 60), (10, 20)], 0, 25, true),
    (100, &[(60, 60), (10, 15)], 0, 25, false),
    (100, &[(60, 60), (10, 15)], 0, 26, true),
    // A third series' reserve counts too.
    (100, &[(0, 30), (0, 30), (0, 0)], 2, 40, false),
    (100, &[(0, 30), (0, 30), (0, 0)], 2, 41, true),
    // A log lent shorter than the reserves together: 18 within a reserve too.
    (59, &[(0, 60), (0, 0)], 0, 16, true),
    (60, &[(0, 60), (0, 0)], 0, 16, false),
    // Numbers that no call leaves: sums that pass the type.
    (100, &[(0, MOST), (0, 1)], 1, 16, true),
    (100, &[(0, 1 << 63), (0, 1 << 63)], 0, 16, true),
    (100, &[(MOST, 0), (0, 0)], 0, 16, true),
    (100, &[(MOST - 15, 0), (0, 0)], 0, 16, true),
    (100, &[(MOST, MOST), (MOST, MOST)], 1, 16, true),
];

/// An end with these accounts.
fn with(accounts: &[(usize, usize)]) -> Serving {
    let mut end = opened(&vec![0; accounts.len()], 0);
    let day = end.day.as_mut().unwrap();
    for (one, &(used, reserve)) in day.open.iter_mut().zip(accounts) {
        *one = Served { used, reserve, ..*one };
    }
    day.used = accounts.iter().map(|&(used, _)| used).fold(0, |sum, one| if one > 1 << 40 { sum } else { sum + one });
    end
}

#[test]
fn entries() {
    for (length, accounts, at, entry, refused) in ENTRIES {
        let (mut end, mut log) = (with(accounts), vec![0; length]);
        let answer = publish(&mut end, at as u16 + 1, entry, &mut log);
        assert_eq!(answer, if refused { Err(18) } else { Ok(1) }, "{accounts:?} in {length}, {entry} for {at}");
        if !refused {
            let mut expected: Vec<usize> = accounts.iter().map(|&(used, _)| used).collect();
            expected[at] += entry;
            assert_eq!(used(&end), expected);
            assert_eq!(end.day.unwrap().used, expected.iter().sum::<usize>());
            assert_eq!(reserves(&end), accounts.iter().map(|&(_, reserve)| reserve).collect::<Vec<_>>());
        }
    }
}

/// Each wrong rule errs on one of the entries.
#[test]
fn wrong_entries() {
    type Rule<'a> = &'a dyn Fn(&Case) -> bool;
    let with_entry = |case: &Case| -> Vec<(u128, u128)> {
        let more = |i: usize| if i == case.2 { case.3 as u128 } else { 0 };
        case.1.iter().enumerate().map(|(i, &(used, reserve))| (used as u128 + more(i), reserve as u128)).collect()
    };
    let sum = |case: &Case, of: fn((u128, u128)) -> u128| with_entry(case).into_iter().map(of).sum::<u128>();
    let right = |case: &Case| sum(case, |(used, reserve)| used.max(reserve)) > case.0 as u128;
    let total = |case: &Case| sum(case, |(used, _)| used) > case.0 as u128;
    let both = |case: &Case| sum(case, |(used, reserve)| used + reserve) > case.0 as u128;
    let reserves = |case: &Case| sum(case, |(_, reserve)| reserve) > case.0 as u128 || total(case);
    let equal = |case: &Case| sum(case, |(used, reserve)| used.max(reserve)) >= case.0 as u128;
    let headless = |case: &Case| right(&(case.0, case.1, case.2, case.3 - ENTRY_HEADER, case.4));
    let own = |case: &Case| {
        let share = |(i, (used, reserve)): (usize, (u128, u128))| if i == case.2 { used.max(reserve) } else { used };
        with_entry(case).into_iter().enumerate().map(share).sum::<u128>() > case.0 as u128
    };
    let others = |case: &Case| {
        let share = |(i, (used, reserve)): (usize, (u128, u128))| if i == case.2 { used } else { used.max(reserve) };
        with_entry(case).into_iter().enumerate().map(share).sum::<u128>() > case.0 as u128
    };
    let wrapped = |case: &Case| {
        let shares = with_entry(case).into_iter().map(|(used, reserve)| (used as usize).max(reserve as usize));
        shares.fold(0usize, |sum, one| sum.wrapping_add(one)) > case.0
    };
    let errs = |rule: Rule| ENTRIES.iter().any(|case| rule(case) != case.4);
    assert!(!errs(&right));
    for (name, rule) in [
        ("only the total", &total as Rule),
        ("used + reserve", &both),
        ("reserves without what is used beyond them", &reserves),
        ("an equal sum refused", &equal),
        ("heads not counted", &headless),
        ("the reserve of the publishing series alone", &own),
        ("the reserves of the other series alone", &others),
        ("a wrapped sum", &wrapped),
    ] {
        assert!(errs(rule), "{name}");
    }
}

/// Quotations fill the log, and trade returns still go in (the request's own case): two series in a log of 200 bytes.
#[test]
fn quotations_and_trade_returns() {
    let (mut end, mut log) = (opened(&[0, 76], 200), [0; 200]);
    for number in 1..=3 {
        assert_eq!(publish(&mut end, 1, 38, &mut log), Ok(number));
    }
    assert_eq!(publish(&mut end, 1, 22, &mut log), Err(18));
    assert_eq!(publish(&mut end, 2, 38, &mut log), Ok(1));
    assert_eq!(publish(&mut end, 1, 16, &mut log), Err(18));
    assert_eq!(publish(&mut end, 2, 39, &mut log), Ok(2));
    assert_eq!(used(&end), [114, 77]);
    assert_eq!(publish(&mut end, 2, 16, &mut log), Err(18));
    // The entries adjoin in the order of publication: a reserve is no place.
    assert_eq!((log[0..2].to_vec(), log[114..116].to_vec()), (vec![0, 1], vec![0, 2]));
    assert_eq!((log[152..154].to_vec(), log[191]), (vec![0, 2], 0));
}

/// The length is that of the log lent with the call.
#[test]
fn other_lengths() {
    let (mut end, mut log) = (opened(&[60, 0], 100), [0; 120]);
    publish(&mut end, 2, 40, &mut log[..100]).unwrap();
    // Shorter, but not below its used part: 18 within the reserve too. Below: 20.
    assert_eq!(publish(&mut end, 1, 22, &mut log[..99]), Err(18));
    assert_eq!(publish(&mut end, 1, 22, &mut log[..40]), Err(18));
    assert_eq!(publish(&mut end, 1, 22, &mut log[..39]), Err(20));
    assert_eq!(publish(&mut end, 1, 22, &mut log[..100]), Ok(1));
    // Longer: more room, for the others too; then the promise is gone when it is short again.
    assert_eq!(publish(&mut end, 2, 22, &mut log[..120]), Err(18));
    assert_eq!(publish(&mut end, 2, 16, &mut log[..120]), Ok(2));
    assert_eq!(publish(&mut end, 1, 22, &mut log[..100]), Err(18));
    assert_eq!(publish(&mut end, 1, 22, &mut log[..116]), Ok(2));
}

/// 13, 20, 18, 21 in this order; a full series keeps its reserve.
#[test]
fn order() {
    let (mut end, mut log) = (opened(&[60, 0], 100), [0; 100]);
    publish(&mut end, 1, 22, &mut log).unwrap();
    end.day.as_mut().unwrap().open[0].published = 1_000_000;
    assert_eq!(publish(&mut end, 3, 200, &mut log[..21]), Err(13));
    assert_eq!(publish(&mut end, 1, 200, &mut log[..21]), Err(20));
    assert_eq!(publish(&mut end, 1, 101, &mut log), Err(18));
    assert_eq!(publish(&mut end, 1, 78, &mut log), Err(21));
    assert_eq!(publish(&mut end, 1, 38, &mut log), Err(21));
    assert_eq!(publish(&mut end, 2, 41, &mut log), Err(18));
    assert_eq!(publish(&mut end, 2, 40, &mut log), Ok(1));
}

/// Accounts that no call leaves: an entry that they let in but that doesn't fit is 18 too.
#[test]
fn accounts_below_the_log() {
    let (mut end, mut log) = (opened(&[0, 0], 0), [0; 100]);
    end.day.as_mut().unwrap().used = 80;
    assert_eq!(publish(&mut end, 1, 22, &mut log), Err(18));
    assert_eq!(publish(&mut end, 1, 16, &mut log), Ok(1));
    assert_eq!((used(&end), end.day.unwrap().used), (vec![16, 0], 96));
}

/// Both Sends know nothing of accounts.
#[test]
fn sends() {
    let (mut end, mut log, mut out) = (opened(&[60, 0], 100), [0; 100], vec![]);
    publish(&mut end, 1, 22, &mut log).unwrap();
    publish(&mut end, 1, 24, &mut log).unwrap();
    let one = &mut end.day.as_mut().unwrap().open[0];
    (one.next, one.used, one.reserve) = (Some(1), 0, MOST);
    assert_eq!(end.send(1, &log, 100, &mut out), Ok(Some(1)));
    assert_eq!(out.len(), 30 + 6);
    assert!(end.send_packet(1, &log, 100, &mut out).unwrap().unwrap().last);
    let one = end.day.unwrap().open[0];
    assert_eq!((one.next, one.used, one.reserve), (Some(3), 0, MOST));
}

/// Each record by itself (No. 8): those before a refused one are in, and counted.
#[test]
fn several() {
    let record = |series: u16, entry: usize| {
        let content = content(entry);
        [&series.to_be_bytes()[..], &TID.to_be_bytes(), &(content.len() as u32).to_be_bytes(), &content].concat()
    };
    let all = [record(2, 22), record(2, 18 + 6), record(1, 60), record(2, 16)].concat();
    let (mut end, mut log) = (opened(&[60, 0], 100), [0; 100]);
    assert_eq!(end.publish_several(&all, &mut log), Answer { stop: Stop::Refused(18), taken: 16 + 18 });
    assert_eq!(used(&end), [0, 22]);
    assert_eq!(end.publish_several(&all[34..], &mut log), Answer { stop: Stop::End, taken: 54 + 10 });
    assert_eq!(used(&end), [60, 38]);
}

// --- Random lists ---

/// Bytes of each series' entries, by walking the log.
fn walked(end: &Serving, log: &[u8]) -> Vec<usize> {
    let day = end.day.expect("a day");
    let mut found = vec![0; day.open.len()];
    let mut at = 0;
    while at < day.used {
        let number = |from: usize, n: usize| log[from..from + n].iter().fold(0, |x, &byte| x << 8 | usize::from(byte));
        let size = ENTRY_HEADER + number(at + 12, 4);
        let place = day.open.iter().position(|one| usize::from(one.series) == number(at, 2)).expect("an open series");
        found[place] += size;
        at += size;
    }
    assert_eq!(at, day.used);
    found
}

/// Reserves that together have at most so many bytes: none, all, what is left after some.
fn some_reserves(r: &mut Random, count: usize, log: usize) -> Vec<usize> {
    let mut left = log;
    let mut all: Vec<usize> = (0..count)
        .map(|_| {
            let most = left;
            let one = match r.below(4) {
                0 => 0,
                1 => most,
                _ => r.below(most + 1),
            };
            left -= one;
            one
        })
        .collect();
    r.shuffle(&mut all);
    all
}

/// With one length of the log: an entry is refused exactly if the shares, taken from the log's own entries, would pass it;
/// one within its series' reserve never; and the sum of the shares stays within it.
#[test]
fn promise() {
    let mut r = Random::new(11);
    let (mut taken, mut refused, mut within, mut old) = (0, 0, 0, 0);
    for _ in 0..3000 {
        let (length, count) = (r.within(0, 2500), r.within(1, 8));
        let mut log = vec![0; length];
        let given = if r.once_in(5) { vec![0; count] } else { some_reserves(&mut r, count, length) };
        let mut end = opened(&given, length);
        for _ in 0..40 {
            let place = r.below(count);
            let before = walked(&end, &log);
            let left = given[place].saturating_sub(before[place]);
            let free = length - before.iter().sum::<usize>();
            let entry = match r.below(7) {
                0..=3 => r.within(22, 80),
                4 => left.max(22),
                5 => (left + 1).max(22),
                _ => r.pick(&[16, free.max(22), free + 22]),
            };
            let fits = entry <= left;
            let answer = publish(&mut end, place as u16 + 1, entry, &mut log);
            let sum: usize = (0..count).map(|i| (before[i] + if i == place { entry } else { 0 }).max(given[i])).sum();
            assert_eq!(answer.is_ok(), sum <= length, "{given:?} in {length}: {before:?}, {entry} for {place}");
            assert!(answer.is_ok() || answer == Err(18));
            assert!(!fits || answer.is_ok(), "within its reserve");
            if given.iter().all(|&one| one == 0) {
                assert_eq!(answer.is_ok(), entry <= free, "without reserves");
                old += 1;
            }
            let after = walked(&end, &log);
            assert_eq!(used(&end), after);
            assert_eq!(reserves(&end), given);
            assert!((0..count).map(|i| after[i].max(given[i])).sum::<usize>() <= length);
            taken += usize::from(answer.is_ok());
            refused += usize::from(answer.is_err());
            within += usize::from(fits);
        }
        // All that is still reserved goes in.
        for place in 0..count {
            let left = given[place] - used(&end)[place].min(given[place]);
            if left >= 22 {
                assert!(publish(&mut end, place as u16 + 1, left, &mut log).is_ok(), "the rest of a reserve");
            }
        }
    }
    println!("{taken} taken, {refused} refused 18, {within} within a reserve, {old} without reserves");
    assert!(taken > 10_000 && refused > 10_000 && within > 5_000 && old > 10_000);
}
