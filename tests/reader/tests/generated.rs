//! The generator: what it calls valid is valid, its forms reach every answer, and a seed fixes its inputs.

use reader::generate::*;
use reader::items::values;
use reader::lister::lines;
use reader::makeup::{check, mode};
use reader::packet::{fields, read, Packet};
use reader::tables::{MESSAGES, TIDS};
use std::collections::BTreeMap;

/// 0 link, 1 to 7 refusals, 8 skipped, 9 message, 10 short.
fn answer(bytes: &[u8]) -> u8 {
    match read(bytes) {
        Packet::Link { .. } => 0,
        Packet::Refused(row) => row,
        Packet::Skipped { .. } => 8,
        Packet::Message(_) => 9,
        Packet::Short(_) => 10,
    }
}

#[test]
fn valid_packets_of_every_message() {
    let mut r = Random::new(5);
    for message in &MESSAGES {
        for _ in 0..50 {
            let bytes = message_packet(&mut r, message);
            let Packet::Message(m) = read(&bytes) else { panic!("{bytes:?}") };
            assert_eq!((m.tid, m.length), (message.tid, bytes.len()));
            assert_eq!(check(m.tid, message.direction, m.content, 4080), Ok(()), "{} {bytes:?}", message.name);
            for field in fields(m.content).flatten().filter(|field| (1..=46).contains(&field.fid)) {
                assert!(values(field.fid, field.value).is_some());
            }
        }
    }
}

#[test]
fn packet_forms_reach_every_answer() {
    let mut r = Random::new(6);
    let mut seen: BTreeMap<u8, usize> = BTreeMap::new();
    for i in 0..60_000 {
        let form = FORMS[i % FORMS.len()];
        let bytes = packet_input(&mut r, form);
        let answer = answer(&bytes);
        if form == Form::Valid {
            assert!([0, 8, 9].contains(&answer), "{answer} {bytes:?}");
        }
        if form == Form::Cut {
            assert!(answer == 10, "{answer} {bytes:?}");
        }
        *seen.entry(answer).or_default() += 1;
    }
    println!("{seen:?}");
    assert!((0..=10).all(|answer| seen.get(&answer).is_some_and(|&n| n >= 100)), "{seen:?}");
}

#[test]
fn content_forms_reach_every_answer() {
    let mut r = Random::new(7);
    let mut seen: BTreeMap<u8, usize> = BTreeMap::new();
    for i in 0..30_000 {
        let form = FORMS[i % FORMS.len()];
        let input = content_input(&mut r, form);
        let answer = check(input.tid, input.direction, &input.content, input.most).err().unwrap_or(0);
        assert!(form != Form::Valid || answer == 0, "{answer} {input:?}");
        *seen.entry(answer).or_default() += 1;
    }
    println!("{seen:?}");
    assert!([0, 7, 8, 9, 10].iter().all(|answer| seen.get(answer).is_some_and(|&n| n >= 500)), "{seen:?}");
}

#[test]
fn captures_hold_every_message() {
    let bytes = capture(8, 3_000_000);
    assert!(bytes.len() >= 3_000_000);
    let text = lines(&bytes);
    assert!(text.ends_with(&format!("\n{}\tend\n", bytes.len())), "{}", text.lines().last().unwrap());
    for tid in &TIDS {
        assert!(mode(tid.number).is_some() && text.contains(&format!("\tmsg\t{:08X}\t", tid.number)), "{}", tid.name);
    }
    for word in ["\theart\n", "\tlink\n", "\tskip\n", "\tS\t", "\tF\t", "\tC\t", "\tL\t"] {
        assert!(text.contains(word), "{word}");
    }
}

#[test]
fn a_seed_fixes_its_inputs() {
    assert_eq!(capture(9, 200_000), capture(9, 200_000));
    assert_ne!(capture(9, 2000), capture(10, 2000));
    let inputs = |seed| {
        let mut r = Random::new(seed);
        FORMS.map(|form| (capture_input(&mut r, form), content_input(&mut r, form).content))
    };
    assert_eq!(inputs(11), inputs(11));
}
