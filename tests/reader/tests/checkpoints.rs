//! Named places (document 02, No. 13) by hand: names, refusals and their order, what is kept and brought back, and what
//! counts of a list with returns in it.

use reader::checkpoints::{Checkpoint, Checkpoints, Position};
use reader::cut::{write_packet, write_sent, Header};
use reader::few::Few;
use reader::generate::{known_field_bytes, raw_field, Random};
use reader::items::known_field;
use reader::packet::cut_apart;
use reader::receiving::{Chain, Kept, Received, Receiving};
use reader::serving::{Serving, LOGIN};

const TID: u32 = 0x7777;

fn right(fid: u32) -> Vec<u8> {
    known_field_bytes(&mut Random::new(1), known_field(fid).unwrap())
}

fn answer(mark: u32) -> Vec<u8> {
    let mut out = vec![];
    write_packet(&mut out, &Header { tid: LOGIN, series: 0, number: 0, mark: Some(mark) }, b'S', &right(0x0027));
    out
}

/// A message of series 4, in as many packets as it takes.
fn message(mark: u32, number: u32, content: &[u8]) -> Vec<Vec<u8>> {
    let mut out = vec![];
    write_sent(&mut out, &Header { tid: TID, series: 4, number, mark: Some(mark) }, content).unwrap();
    cut_apart(&out)
}

fn kept(series: u16, mark: Option<u32>, last: u32) -> Kept {
    Kept { series, mark, last, logged_in: false, chain: None }
}

fn end(of: &[Kept]) -> Receiving {
    Receiving { open: Few::of(of.iter().copied()).unwrap() }
}

/// Series 4 on a day, logged in and within a chain.
fn within_a_chain(last: u32) -> Receiving {
    let chain = Some(Chain { tid: TID, held: 4070, pieces: 1 });
    end(&[Kept { logged_in: true, chain, ..kept(4, Some(9), last) }])
}

/// A before the opening, B at last 5, C and D at last 6.
fn four() -> Checkpoints {
    let mut places = Checkpoints::default();
    for (of, name) in
        [(end(&[]), b"A"), (within_a_chain(5), b"B"), (within_a_chain(6), b"C"), (within_a_chain(6), b"D")]
    {
        places.keep(&of, name).unwrap();
    }
    places
}

#[test]
fn names() {
    let refused: [&[u8]; 14] =
        [b"", b"AAAAAAAAA", b"@", b"[", b"A@", b"[A", b"a", b"Aa", b"A1", b"A ", b" A", b"A\0", b"\xC1", b"AAAAAAA@"];
    for name in refused {
        let (mut places, mut of) = (Checkpoints::default(), within_a_chain(7));
        assert_eq!(places.keep(&of, name), Err(31), "{name:?}");
        assert_eq!(places, Checkpoints::default());
        assert_eq!(places.back(&mut of, name), Err(31), "{name:?}");
        assert_eq!(of, within_a_chain(7));
    }
    for name in [&b"A"[..], b"Z", b"AZ", b"ZZZZZZZZ", b"ABCDEFGH"] {
        let (mut places, mut of) = (Checkpoints::default(), within_a_chain(7));
        assert_eq!(places.keep(&of, name), Ok(()), "{name:?}");
        assert_eq!(places.places, [Checkpoint { name: name.to_vec(), kept: vec![position(4, Some(9), 7)] }]);
        assert_eq!(places.back(&mut of, name), Ok(()), "{name:?}");
    }
}

fn position(series: u16, mark: Option<u32>, last: u32) -> Position {
    Position { series, mark, last }
}

/// Each of A, AA, AAA is a name of its own.
#[test]
fn a_front_is_another_name() {
    let mut places = Checkpoints::default();
    places.keep(&within_a_chain(1), b"AA").unwrap();
    assert_eq!(places.back(&mut within_a_chain(2), b"A"), Err(33));
    assert_eq!(places.back(&mut within_a_chain(2), b"AAA"), Err(33));
    places.keep(&within_a_chain(2), b"A").unwrap();
    assert_eq!(places.places.iter().map(|one| &one.name[..]).collect::<Vec<_>>(), [&b"AA"[..], b"A"]);
}

/// 32 with four in use, but for a used name; 33; 31 before both.
#[test]
fn four_names() {
    let mut places = four();
    assert_eq!(places.keep(&within_a_chain(7), b"E"), Err(32));
    assert_eq!(places.keep(&within_a_chain(7), b"e"), Err(31));
    assert_eq!(places.back(&mut within_a_chain(7), b"E"), Err(33));
    assert_eq!(places.back(&mut within_a_chain(7), b"e"), Err(31));
    assert_eq!(places, four());
    assert_eq!(places.keep(&within_a_chain(9), b"B"), Ok(()));
    // In its own place, the others as they were.
    assert_eq!(places.places[1], Checkpoint { name: b"B".to_vec(), kept: vec![position(4, Some(9), 9)] });
    for i in [0, 2, 3] {
        assert_eq!(places.places[i], four().places[i]);
    }
    assert_eq!(places.keep(&within_a_chain(7), b"E"), Err(32));
    // No name at all yet: 33, and 31 first.
    assert_eq!(Checkpoints::default().back(&mut within_a_chain(7), b"A"), Err(33));
    assert_eq!(Checkpoints::default().back(&mut within_a_chain(7), b""), Err(31));
}

/// Mark and last come back, login and chain are cleared; kept before the opening: none and 0.
#[test]
fn brought_back() {
    for (name, then) in [(b"A", kept(4, None, 0)), (b"B", kept(4, Some(9), 5)), (b"D", kept(4, Some(9), 6))] {
        for mut of in [within_a_chain(7), end(&[kept(4, Some(12), 0)]), end(&[kept(4, None, 0)])] {
            assert_eq!(four().back(&mut of, name), Ok(()));
            assert_eq!(of, end(&[then]));
        }
    }
    // Before the opening nothing is to be brought back, and the end can still be opened.
    let mut fresh = Receiving::default();
    assert_eq!(four().back(&mut fresh, b"B"), Ok(()));
    assert_eq!(fresh, Receiving::default());
    assert_eq!(fresh.open(&[4]), Ok(()));
}

/// To a later place, to an earlier one, and again: the places stay.
#[test]
fn again_and_again() {
    let (places, mut of) = (four(), within_a_chain(7));
    for (name, last) in [(b"B", 5), (b"D", 6), (b"D", 6), (b"B", 5), (b"C", 6)] {
        assert_eq!(places.back(&mut of, name), Ok(()));
        assert_eq!(of, end(&[kept(4, Some(9), last)]));
    }
    assert_eq!(places.back(&mut of, b"A"), Ok(()));
    assert_eq!(of, end(&[kept(4, None, 0)]));
    assert_eq!(places.back(&mut of, b"C"), Ok(()));
    assert_eq!(of, end(&[kept(4, Some(9), 6)]));
    assert_eq!(places, four());
}

/// A place of another end, with other series in another order, brings back what it has of the open ones.
#[test]
fn of_another_end() {
    let mut places = Checkpoints::default();
    places.keep(&end(&[kept(7, Some(3), 30), kept(4, Some(2), 20), kept(1, None, 0)]), b"OTHER").unwrap();
    let mut of = end(&[kept(1, Some(9), 90), kept(2, Some(9), 91), kept(7, Some(9), 92), kept(4, None, 0)]);
    assert_eq!(places.back(&mut of, b"OTHER"), Ok(()));
    assert_eq!(of, end(&[kept(1, None, 0), kept(2, None, 0), kept(7, Some(3), 30), kept(4, Some(2), 20)]));
}

/// A keep within a chain changes nothing of it; a return there drops it, and the message comes anew.
#[test]
fn kept_within_a_chain() {
    let content = [raw_field(TID, &[1; 4069]), raw_field(TID, &[2; 10])].concat();
    let (first, long) = (message(9, 1, &[]), message(9, 2, &content));
    assert_eq!(long.len(), 2);
    let (mut of, mut places, mut buffer) = (Receiving::default(), Checkpoints::default(), vec![0; 32_768]);
    of.open(&[4]).unwrap();
    assert_eq!(of.answer(4, &answer(9)), Ok(0));
    assert!(matches!(of.receive(&first[0], &mut buffer), Ok(Received::Message { last: 1, .. })));
    assert_eq!(of.receive(&long[0], &mut buffer), Ok(Received::Held(1)));
    let before = of;
    assert_eq!(places.keep(&of, b"TEST"), Ok(()));
    assert_eq!(of, before);
    assert!(matches!(of.receive(&long[1], &mut buffer), Ok(Received::Message { last: 2, .. })));
    let bytes = buffer.clone();
    assert_eq!(places.back(&mut of, b"TEST"), Ok(()));
    assert_eq!(of, end(&[kept(4, Some(9), 1)]));
    assert_eq!(buffer, bytes);
    // Not logged in, then no chain, then all of it once more.
    assert_eq!(of.receive(&long[1], &mut buffer), Err(14));
    assert_eq!(of.answer(4, &answer(9)), Ok(1));
    assert_eq!(of.receive(&long[1], &mut buffer), Err(17));
    assert_eq!(of.receive(&long[0], &mut buffer), Ok(Received::Held(1)));
    assert!(matches!(of.receive(&long[1], &mut buffer), Ok(Received::Message { last: 2, .. })));
}

/// A mark goes down by a return: the old day's answer, refused before, is taken again; then the new day starts anew.
#[test]
fn marks_go_down() {
    let (mut of, mut places) = (Receiving::default(), Checkpoints::default());
    of.open(&[4]).unwrap();
    assert_eq!(of.answer(4, &answer(9)), Ok(0));
    assert!(of.receive(&message(9, 1, &[])[0], &mut []).is_ok());
    assert_eq!(places.keep(&of, b"NINE"), Ok(()));
    assert_eq!(of.answer(4, &answer(10)), Ok(0));
    assert!(of.receive(&message(10, 1, &[])[0], &mut []).is_ok());
    assert_eq!(of.answer(4, &answer(9)), Err(15));
    assert_eq!(places.back(&mut of, b"NINE"), Ok(()));
    assert_eq!(of.answer(4, &answer(9)), Ok(1));
    assert_eq!(of.receive(&message(9, 1, &[])[0], &mut []), Ok(Received::Again(1)));
    assert!(matches!(of.receive(&message(9, 2, &[])[0], &mut []), Ok(Received::Message { last: 2, .. })));
    assert_eq!(of.answer(4, &answer(10)), Ok(0));
    assert!(matches!(of.receive(&message(10, 1, &[])[0], &mut []), Ok(Received::Message { last: 1, .. })));
}

/// Why the login has to be asked for behind the return: asked for before, it may start too high.
#[test]
fn asked_for_before_the_return() {
    let (request, said) = (right(0x0023), right(0x0027));
    let (mut serving, mut of, mut places) = (Serving::default(), Receiving::default(), Checkpoints::default());
    let (mut log, mut out) = (vec![0; 1000], vec![]);
    serving.open(3, &[4], &[0], 0).unwrap();
    of.open(&[4]).unwrap();
    serving.publish(4, TID, &[], &mut log).unwrap();
    let whole_login = |serving: &mut Serving, of: &mut Receiving, asked: &[u8], out: &mut Vec<u8>| {
        serving.login(4, asked, &said, 10_000, out).unwrap();
        of.answer(4, out)
    };
    of.ask(4, &request, 10_000, &mut out).unwrap();
    let asked = out.clone();
    assert_eq!(whole_login(&mut serving, &mut of, &asked, &mut out), Ok(0));
    places.keep(&of, b"A").unwrap();
    assert_eq!(serving.send(4, &log, 10_000, &mut out), Ok(Some(1)));
    assert!(matches!(of.receive(&out, &mut []), Ok(Received::Message { last: 1, .. })));
    of.ask(4, &request, 10_000, &mut out).unwrap();
    let too_high = out.clone();
    places.back(&mut of, b"A").unwrap();
    // None left, and nothing reported of one.
    assert_eq!(whole_login(&mut serving, &mut of, &too_high, &mut out), Ok(0));
    assert_eq!(serving.send(4, &log, 10_000, &mut out), Ok(None));
    // Asked for behind it, the message comes.
    of.ask(4, &request, 10_000, &mut out).unwrap();
    let asked = out.clone();
    assert_eq!(whole_login(&mut serving, &mut of, &asked, &mut out), Ok(0));
    assert_eq!(serving.send(4, &log, 10_000, &mut out), Ok(Some(1)));
    assert!(matches!(of.receive(&out, &mut []), Ok(Received::Message { last: 1, .. })));
    assert_eq!(serving.send(4, &log, 10_000, &mut out), Ok(None));
}
