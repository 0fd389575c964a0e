//! Every piece counted (document 02, No. 10): the worked examples, their packets and answers written by hand; and every order
//! of the packets of two long messages.

use reader::cut::{write_message, Header};
use reader::few::Few;
use reader::generate::{known_field_bytes, raw_field, Random};
use reader::items::known_field;
use reader::lister::list;
use reader::packet::{cut_apart, fields, read, Packet};
use reader::plain::{plain_packet, NotWritten};
use reader::receiving::{Chain, Kept, Received, Receiving, MOST_PIECES};
use reader::serving::Serving;
use reader::several::Stop;

/// The tag of day 9, and that of a place.
const DAY: [u8; 6] = [5, 4, 0, 0, 0, 9];

fn place(j: u16) -> Vec<u8> {
    vec![0x70, 2, (j >> 8) as u8, j as u8]
}

fn right(fid: u32) -> Vec<u8> {
    known_field_bytes(&mut Random::new(1), known_field(fid).unwrap())
}

/// A packet of series 4 with these tags: TID 0x7777, one field whose bytes are the text, or none.
fn packet(tags: &[u8], number: u32, letter: u8, text: &str) -> Vec<u8> {
    let content = if text.is_empty() { vec![] } else { raw_field(0x0101, text.as_bytes()) };
    let mut out = vec![1, tags.len() as u8, 0, 16 + content.len() as u8];
    out.extend(tags);
    out.extend([1, 0, 0, 0x77, 0x77, letter, 0, 4]);
    out.extend(number.to_be_bytes());
    out.extend([0, u8::from(!text.is_empty()), 0, content.len() as u8]);
    out.extend(content);
    out
}

/// A packet as the ends write it: the day's tag, then the place's.
fn piece(number: u32, letter: u8, j: u16, text: &str) -> Vec<u8> {
    packet(&[&DAY[..], &place(j)].concat(), number, letter, text)
}

/// The four packets of a message, and three of another.
fn four(number: u32) -> [Vec<u8>; 4] {
    [piece(number, b'F', 0, "a"), piece(number, b'C', 1, "b"), piece(number, b'C', 2, "c"), piece(number, b'L', 3, "d")]
}

fn three(number: u32) -> [Vec<u8>; 3] {
    [piece(number, b'F', 0, "x"), piece(number, b'C', 1, "y"), piece(number, b'L', 2, "z")]
}

/// A receiving end of series 4 on day 9, logged in, with its buffer.
struct End {
    end: Receiving,
    buffer: Vec<u8>,
}

impl End {
    fn new(last: u32) -> Self {
        let kept = Kept { series: 4, mark: Some(9), last, logged_in: true, chain: None };
        End { end: Receiving { open: Few::of([kept]).unwrap() }, buffer: vec![0; 32_768] }
    }

    /// The answer as text: a message with its fields' bytes, a refusal with its number.
    fn says(&mut self, packet: &[u8]) -> String {
        said(self.end.receive(packet, &mut self.buffer))
    }

    /// The packets one after the other.
    fn all(&mut self, packets: &[&[u8]]) -> Vec<String> {
        packets.iter().map(|packet| self.says(packet)).collect()
    }

    fn pieces(&self) -> Option<u32> {
        self.end.open[0].chain.map(|chain| chain.pieces)
    }

    fn last(&self) -> u32 {
        self.end.open[0].last
    }

    /// An open chain of TID 0x7777 with so many pieces, and no byte.
    fn with(pieces: u32) -> Self {
        let mut one = End::new(0);
        one.end.open[0].chain = Some(Chain { tid: 0x7777, held: 0, pieces });
        one
    }
}

fn said(answer: Result<Received, u8>) -> String {
    match answer {
        Err(row) => row.to_string(),
        Ok(Received::Idle) => "idle".to_string(),
        Ok(Received::Again(last)) => format!("again {last}"),
        Ok(Received::Held(last)) => format!("held {last}"),
        Ok(Received::Message { last, content, .. }) => {
            let text: Vec<u8> = fields(content.bytes()).flatten().flat_map(|field| field.value.to_vec()).collect();
            format!("message {last} {}", String::from_utf8(text).unwrap())
        }
    }
}

// --- What is written ---

/// A serving end of series 4 on day 9, logged in at number 1, with these contents published.
fn serving(contents: &[Vec<u8>]) -> (Serving, Vec<u8>) {
    let (mut end, mut log) = (Serving::default(), vec![0; 80_000]);
    end.open(9, &[4], &[0], 0).unwrap();
    for content in contents {
        end.publish(4, 0x7777, content, &mut log).unwrap();
    }
    end.day.as_mut().unwrap().open[0].next = Some(1);
    (end, log)
}

/// The packets of the next message, one by one.
fn one_by_one(end: &mut Serving, log: &[u8]) -> Vec<Vec<u8>> {
    let (mut packets, mut out) = (vec![], vec![]);
    while let Some(one) = end.send_packet(4, log, 4110, &mut out).unwrap() {
        packets.push(out.clone());
        if one.last {
            break;
        }
    }
    packets
}

#[test]
fn both_sends_write_the_place() {
    let content = [raw_field(0x0101, &[7; 4074]), raw_field(0x0102, &[])].concat();
    let (mut end, log) = serving(&[content.clone(), vec![]]);
    let mut whole = vec![];
    end.clone().send(4, &log, 65_536, &mut whole).unwrap();
    let first = [1, 10, 0x10, 0, 5, 4, 0, 0, 0, 9, 0x70, 2, 0, 0, 1, 0, 0, 0x77, 0x77, b'F', 0, 4, 0, 0, 0, 1, 0, 1];
    assert_eq!(whole[..28], first);
    let second = [
        [1, 10, 0, 22, 5, 4, 0, 0, 0, 9, 0x70, 2, 0, 1].as_slice(),
        &[1, 0, 0, 0x77, 0x77, b'L', 0, 4, 0, 0, 0, 1, 0, 1, 0, 6, 0, 0, 1, 2, 0, 0],
    ]
    .concat();
    assert_eq!(whole[4110..], second);
    assert_eq!(one_by_one(&mut end, &log).concat(), whole);
    // One packet is place 0.
    let single = one_by_one(&mut end, &log).concat();
    assert_eq!((single.len(), &single[..14]), (30, &[&[1, 10, 0, 16][..], &DAY, &place(0)].concat()[..]));
    // What is written for others has no place.
    let mut other = vec![];
    write_message(&mut other, &Header { tid: 0x7777, series: 4, number: 1, mark: Some(9) }, &content).unwrap();
    assert_eq!(other.len() + 2 * 4, whole.len());
    assert_eq!(other[..11], [1, 6, 0x10, 0, 5, 4, 0, 0, 0, 9, 1]);
}

#[test]
fn the_biggest_message() {
    let mut content: Vec<u8> =
        (0..8).flat_map(|_| [raw_field(0x0101, &[]), raw_field(0x0101, &[7; 4069])].concat()).collect();
    content.extend(raw_field(0x0101, &[8; 114]));
    assert_eq!(content.len(), 32_768);
    let (mut end, log) = serving(&[content]);
    let mut whole = vec![];
    assert_eq!(end.send(4, &log, 33_277, &mut whole), Err(18));
    assert_eq!(end.send(4, &log, 33_278, &mut whole), Ok(Some(1)));
    let places: Vec<_> = cut_apart::<Vec<u8>>(&whole)
        .iter()
        .map(|packet| match read(packet) {
            Packet::Message(message) => (message.mark, message.place),
            other => panic!("{other:?}"),
        })
        .collect();
    assert_eq!(whole.len(), 33_278);
    assert_eq!(places, (0..17).map(|j| (Some(9), Some(j))).collect::<Vec<_>>());
    // One packet of 4,080 content bytes: 4,110.
    let (mut end, log) = serving(&[raw_field(0x0101, &[7; 4074])]);
    assert_eq!(end.send_packet(4, &log, 4109, &mut whole), Err(18));
    assert!(end.send_packet(4, &log, 4110, &mut whole).is_ok_and(|one| one.is_some_and(|one| one.last)));
    assert_eq!(whole.len(), 4110);
}

/// Login's answer and Ask have tag 0x05 alone.
#[test]
fn logins_without_place() {
    let (mut end, _) = serving(&[]);
    let mut out = vec![];
    End::new(0).end.ask(4, &right(0x0023), 65_536, &mut out).unwrap();
    assert_eq!((out[1], &out[4..10]), (6, &DAY[..]));
    let asked = out.clone();
    end.login(4, &asked, &right(0x0027), 26 + right(0x0027).len(), &mut out).unwrap();
    assert_eq!((out[1], &out[4..10], out.len()), (6, &DAY[..], 26 + right(0x0027).len()));
}

// --- What is compared ---

#[test]
fn whole_and_in_order() {
    let (mut one, p) = (End::new(0), four(1));
    for (i, packet) in p[..3].iter().enumerate() {
        assert_eq!(one.says(packet), "held 0");
        assert_eq!(one.pieces(), Some(i as u32 + 1));
    }
    assert_eq!(one.says(&p[3]), "message 1 abcd");
    assert_eq!((one.pieces(), one.last()), (None, 1));
}

#[test]
fn lost() {
    let [f, c1, c2, l] = &four(1);
    // Both in the middle: L is 17. One of them: what comes behind it.
    assert_eq!(End::new(0).all(&[f, l]), ["held 0", "17"]);
    assert_eq!(End::new(0).all(&[f, c2, l]), ["held 0", "17", "17"]);
    assert_eq!(End::new(0).all(&[f, c1, l]), ["held 0", "held 0", "17"]);
    assert_eq!(End::new(0).all(&[c1, c2, l]), ["17", "17", "17"]);
    // After a difference the chain is gone, until F comes again.
    let mut one = End::new(0);
    assert_eq!(one.all(&[f, c2]), ["held 0", "17"]);
    assert_eq!(one.pieces(), None);
    assert_eq!(one.all(&[c1, c2, l]), ["17", "17", "17"]);
    assert_eq!(one.all(&[f, c1, c2, l]), ["held 0", "held 0", "held 0", "message 1 abcd"]);
}

#[test]
fn repeated_and_late() {
    let [f, c1, c2, l] = &four(1);
    // A piece again: 17, and the chain is gone.
    assert_eq!(End::new(0).all(&[f, c1, c1, c2, l]), ["held 0", "held 0", "17", "17", "17"]);
    assert_eq!(End::new(0).all(&[f, c1, c1, l]), ["held 0", "held 0", "17", "17"]);
    // Two that changed places.
    assert_eq!(End::new(0).all(&[f, c2, c1, l]), ["held 0", "17", "17", "17"]);
    // F again replaces: it is compared with 0, not with the chain.
    let mut one = End::new(0);
    assert_eq!(one.all(&[f, c1, f]), ["held 0"; 3]);
    assert_eq!(one.pieces(), Some(1));
    assert_eq!(one.all(&[c1, c2, f, f, c1, c2, l]), [&["held 0"; 6][..], &["message 1 abcd"]].concat());
    // L again, and the others: again.
    assert_eq!(one.all(&[l, c1, f, c2]), ["again 1"; 4]);
}

/// Packets of a transmission that is broken off and of one that is sent anew are the same bytes: in one chain they make up
/// the message.
#[test]
fn two_transmissions() {
    let content = [raw_field(0x0101, b"a"), raw_field(0x0101, &[b'b'; 4074]), raw_field(0x0101, b"c")].concat();
    let (mut serving, log) = serving(&[content]);
    let (mut first, mut out) = (vec![], vec![]);
    for _ in 0..2 {
        assert!(serving.send_packet(4, &log, 4110, &mut out).is_ok_and(|one| one.is_some_and(|one| !one.last)));
        first.push(out.clone());
    }
    // The whole Send breaks it off.
    assert_eq!(serving.send(4, &log, 65_536, &mut out), Ok(Some(1)));
    let anew = cut_apart::<Vec<u8>>(&out);
    assert_eq!((anew.len(), &anew[..2]), (3, &first[..]));
    let mut one = End::new(0);
    let message = format!("message 1 a{}c", "b".repeat(4074));
    assert_eq!(one.all(&[&anew[0], &first[1], &anew[2]]), ["held 0", "held 0", &message]);
    assert_eq!(End::new(0).all(&[&first[0], &anew[1], &anew[1]]), ["held 0", "held 0", "17"]);
    // The first of one, then the whole other one.
    assert_eq!(End::new(0).all(&[&first[0], &anew[0], &anew[1], &anew[2]])[3], message);
}

#[test]
fn letters_that_start() {
    // S and F are compared with 0, whatever is held.
    for j in [1, 2, 0xFFFF] {
        let mut one = End::new(0);
        assert_eq!(one.all(&[&piece(1, b'F', 0, "a"), &piece(1, b'S', j, "s")]), ["held 0", "17"]);
        assert_eq!((one.pieces(), one.last()), (None, 0));
        assert_eq!(one.says(&piece(1, b'F', j, "a")), "17");
    }
    let mut one = End::new(0);
    assert_eq!(one.says(&piece(1, b'F', 0, "a")), "held 0");
    assert_eq!(one.says(&piece(1, b'F', 1, "a")), "17");
    assert_eq!(one.pieces(), None);
    assert_eq!(one.all(&[&piece(1, b'F', 0, "a"), &piece(1, b'S', 0, "s")]), ["held 0", "message 1 s"]);
}

/// For numbers 1 to last the place isn't looked at; above last + 1 and for 0 it is 16.
#[test]
fn other_numbers() {
    for j in [0, 1, 7, 0xFFFF] {
        for letter in *b"SFCL" {
            let mut one = End::new(3);
            for number in [1, 3] {
                assert_eq!(one.all(&[&piece(4, b'F', 0, "a"), &piece(number, letter, j, "x")]), ["held 3", "again 3"]);
                assert_eq!(one.pieces(), None);
            }
            for number in [0, 5] {
                assert_eq!(one.all(&[&piece(4, b'F', 0, "a"), &piece(number, letter, j, "x")]), ["held 3", "16"]);
            }
        }
    }
    // The mark comes first, too: 15.
    let other = packet(&[&[5, 4, 0, 0, 0, 8][..], &place(5)].concat(), 4, b'S', "x");
    assert_eq!(End::new(3).says(&other), "15");
}

/// Without the tag nothing is compared; it counts as a piece.
#[test]
fn without_the_tag() {
    let [f, c1, c2, l] = &four(1);
    let plain = |letter, text| packet(&DAY, 1, letter, text);
    assert_eq!(End::new(0).all(&[&plain(b'F', "a"), &plain(b'L', "d")]), ["held 0", "message 1 ad"]);
    assert_eq!(End::new(0).says(&packet(&[], 1, b'S', "s")), "message 1 s");
    let mixed = End::new(0).all(&[&plain(b'F', "a"), c1, &plain(b'C', "x"), l]);
    assert_eq!(mixed, ["held 0", "held 0", "held 0", "message 1 abxd"]);
    assert_eq!(End::new(0).all(&[f, &plain(b'C', "x"), c1]), ["held 0", "held 0", "17"]);
    assert_eq!(End::new(0).all(&[f, &plain(b'C', "x"), c2, &plain(b'L', "d")])[3], "message 1 axcd");
    // Tags in another order, and others between them.
    let late = packet(&[&place(1)[..], &[0x77, 1, 0], &DAY].concat(), 1, b'L', "z");
    assert_eq!(End::new(0).all(&[f, &late]), ["held 0", "message 1 az"]);
    assert_eq!(End::new(0).all(&[f, c1, &late]), ["held 0", "held 0", "17"]);
    // A place without a mark.
    assert_eq!(End::new(0).all(&[f, &packet(&place(1), 1, b'L', "z")])[1], "message 1 az");
    assert_eq!(End::new(0).all(&[f, &packet(&place(2), 1, b'L', "z")])[1], "17");
}

/// The count stops at 65,536: no place agrees from then on.
#[test]
fn count_that_stops() {
    assert_eq!(MOST_PIECES, 65_536);
    let mut one = End::with(65_534);
    let empty = |j| piece(1, b'C', j, "");
    assert_eq!(one.says(&empty(65_534)), "held 0");
    assert_eq!((one.says(&empty(65_535)), one.pieces()), ("held 0".to_string(), Some(65_536)));
    for _ in 0..3 {
        assert_eq!((one.says(&packet(&DAY, 1, b'C', "")), one.pieces()), ("held 0".to_string(), Some(65_536)));
    }
    for j in [0, 1, 2, 3, 65_535] {
        assert_eq!(End::with(65_536).says(&empty(j)), "17");
        assert_eq!(End::with(65_536).says(&piece(1, b'L', j, "")), "17");
        let mut later = End { end: one.end, buffer: vec![0; 32_768] };
        assert_eq!((later.says(&empty(j)), later.pieces()), ("17".to_string(), None));
    }
    assert_eq!(one.says(&packet(&DAY, 1, b'L', "z")), "message 1 z");
    // Counted through from F on.
    let mut one = End::new(0);
    assert_eq!(one.says(&piece(1, b'F', 0, "a")), "held 0");
    for j in 1..=65_535 {
        assert_eq!(one.says(&empty(j)), "held 0", "{j}");
    }
    assert_eq!((one.says(&packet(&DAY, 1, b'C', "")), one.pieces()), ("held 0".to_string(), Some(65_536)));
    assert_eq!(one.says(&empty(0)), "17");
}

/// A wrong place comes before a buffer that is too small, and before a chain that is too long.
#[test]
fn before_18() {
    let p = four(1);
    let receive = |held: usize, buffer: usize, packet: &[u8]| {
        let mut one = End::with(1);
        one.end.open[0].chain.as_mut().unwrap().held = held;
        let said = said(one.end.receive(packet, &mut vec![0; buffer]));
        assert_eq!(one.pieces(), (said == "held 0").then_some(2));
        said
    };
    assert_eq!((receive(0, 32_767, &p[1]), receive(0, 32_767, &p[2])), ("18".to_string(), "17".to_string()));
    assert_eq!((receive(0, 0, &p[3]), receive(0, 0, &piece(1, b'F', 1, "a"))), ("17".to_string(), "17".to_string()));
    assert_eq!((receive(32_768, 32_768, &p[1]), receive(32_768, 32_768, &p[2])), ("18".to_string(), "17".to_string()));
    assert_eq!(receive(32_761, 32_768, &p[1]), "held 0");
    // S needs no buffer, but its place.
    assert_eq!(
        (receive(0, 0, &piece(1, b'S', 1, "s")), receive(0, 0, &piece(1, b'S', 0, ""))),
        ("17".to_string(), "message 1 ".to_string())
    );
}

/// Another TID is 17 as before, also with the right place.
#[test]
fn other_tid() {
    let mut other = piece(1, b'C', 1, "b");
    other[18] = 0x78;
    assert_eq!(End::new(0).all(&[&four(1)[0], &other, &four(1)[1]]), ["held 0", "17", "17"]);
}

/// An answer drops the chain: a piece of the new day's message doesn't fit behind one of the old day's.
#[test]
fn a_new_day() {
    let answer = |mark: u8| {
        let content = right(0x0027);
        let mut out = vec![1, 6, 0, 16 + content.len() as u8, 5, 4, 0, 0, 0, mark];
        out.extend([1, 0, 0, 0, 0x16, b'S', 0, 0, 0, 0, 0, 0, 0, 1, 0, content.len() as u8]);
        out.extend(content);
        out
    };
    let last = packet(&[&[5, 4, 0, 0, 0, 10][..], &place(1)].concat(), 1, b'L', "z");
    let mut one = End::new(0);
    assert_eq!(one.says(&piece(1, b'F', 0, "a")), "held 0");
    assert_eq!(one.end.answer(4, &answer(10)), Ok(0));
    assert_eq!(one.says(&last), "17");
    let mut one = End::new(0);
    assert_eq!(one.says(&piece(1, b'F', 0, "a")), "held 0");
    assert_eq!(one.end.answer(4, &answer(9)), Ok(0));
    assert_eq!(one.says(&piece(1, b'L', 1, "z")), "17");
}

/// L that hands on leaves no chain, with a count that the next message's pieces might agree with.
#[test]
fn the_next_message() {
    let (p, q) = (four(1), three(2));
    let mut one = End::new(0);
    assert_eq!(one.all(&[&p[0], &piece(1, b'L', 1, "b")]), ["held 0", "message 1 ab"]);
    assert_eq!(one.all(&[&q[1], &q[2]]), ["17", "17"]);
    assert_eq!(one.all(&[&q[0], &q[1], &q[2]])[2], "message 2 xyz");
}

/// A bufferful calls the same Receive: it stops at the first piece behind the gap.
#[test]
fn bufferful() {
    let (p, mut one) = (four(1), End::new(0));
    let bytes = [&p[0][..], &p[1], &p[3], &p[0], &p[1], &p[2], &p[3]].concat();
    let taken = p[0].len() + p[1].len() + p[3].len();
    let stop = one.end.receive_several(&bytes, &mut one.buffer);
    assert_eq!((stop.stop, stop.taken, one.pieces()), (Stop::Refused(17), taken, None));
    let rest = one.end.receive_several(&bytes[taken..], &mut one.buffer);
    assert!(matches!(rest.stop, Stop::Message { last: 1, buffer: true, start: 0, len: 28, .. }), "{rest:?}");
}

// --- Refusal 2 ---

/// Another length, or two of them, is 2 wherever tags are read; skipped packets are kept unread.
#[test]
fn wrong_tags() {
    let (mut serving, _) = serving(&[]);
    for (tags, row) in [
        (place(0), None),
        (place(0xFFFF), None),
        (vec![0x70, 0], Some(2)),
        (vec![0x70, 1, 0], Some(2)),
        (vec![0x70, 3, 0, 0, 0], Some(2)),
        (vec![0x70, 4, 0, 0, 0, 0], Some(2)),
        (vec![0x70, 2, 0], Some(2)),
        (vec![0x70], Some(2)),
        ([place(0), place(0)].concat(), Some(2)),
        ([place(0), place(1)].concat(), Some(2)),
        ([place(0), vec![0x77, 0], place(0)].concat(), Some(2)),
        // The neighbours are unknown, with any length and as often as they like.
        (vec![0x6F, 3, 1, 2, 3, 0x71, 0, 0x71, 0], None),
        (vec![0x77, 4, 0x70, 2, 0, 0, 0x70, 2, 0, 0], None),
    ] {
        for tags in [tags.clone(), [&DAY[..], &tags].concat(), [&tags[..], &DAY].concat()] {
            // What isn't whole stays at the end.
            if row.is_some() && tags.ends_with(&DAY) && reader::packet::tags(&tags).any(|tag| tag.is_err()) {
                continue;
            }
            let refused = |packet: Packet| match packet {
                Packet::Refused(row) => Some(row),
                _ => None,
            };
            // Reader and lister: message and link packets.
            let message = packet(&tags, 1, b'S', "s");
            assert_eq!(refused(read(&message)), row, "{tags:?}");
            let listed = |kind: u8, word: &str| match row {
                None => format!(
                    "0\t{word}\n{}\tend\n",
                    4 + tags.len() + if kind == 1 { message.len() - 4 - tags.len() } else { 0 }
                ),
                Some(row) => format!("0\trefused\t{row}\n"),
            };
            assert_eq!(list(&message), listed(1, "msg\t00007777\tS\t4\t1\t1"));
            for kind in [0, 1] {
                let link = [&[kind, tags.len() as u8, 0, 0][..], &tags].concat();
                assert_eq!(refused(read(&link)), row);
                assert_eq!(list(&link), listed(0, "link"));
                assert_eq!(End::new(0).says(&link), row.map_or("idle".to_string(), |row| row.to_string()));
                assert_eq!(plain_packet(kind, &tags, &[]).err(), row.map(NotWritten::Refused));
            }
            // Skipped ones: type 2, and type 0 with a body.
            for (kind, body) in [(2, 0), (255, 1), (0, 1)] {
                let skipped = [&[kind, tags.len() as u8, 0, body][..], &tags, &vec![7; body.into()]].concat();
                assert!(matches!(read(&skipped), Packet::Skipped { .. }));
                assert_eq!(list(&skipped), format!("0\tskip\n{}\tend\n", skipped.len()));
                assert_eq!(End::new(0).says(&skipped), "idle");
            }
            // Receive: 2 before series and number are known. Place 65,535 of S is 17.
            let said = match row {
                Some(row) => row.to_string(),
                None if tags.windows(4).any(|tag| tag == place(0xFFFF)) => "17".to_string(),
                None => "message 1 s".to_string(),
            };
            assert_eq!(End::new(0).says(&message), said);
            let mut elsewhere = message.clone();
            elsewhere[4 + tags.len() + 7] = 9;
            assert_eq!(End::new(0).says(&elsewhere), row.map_or("13".to_string(), |row| row.to_string()));
            // Login and Answer: a right one passes, whatever it says.
            let login = |content: Vec<u8>| {
                let mut out = vec![1, tags.len() as u8, 0, 16 + content.len() as u8];
                out.extend(&tags);
                out.extend([1, 0, 0, 0, 0x16, b'S', 0, 0, 0, 0, 0, 0, 0, 1, 0, content.len() as u8]);
                out.extend(content);
                out
            };
            let asked = login(right(0x0023));
            assert_eq!(serving.login(4, &asked, &right(0x0027), 65_536, &mut vec![]).err(), row);
            let dated = tags.starts_with(&DAY) || tags.ends_with(&DAY);
            let answered = row.or(if dated { None } else { Some(15) });
            assert_eq!(End::new(0).end.answer(4, &login(right(0x0027))).err(), answered);
        }
    }
}

// --- Demand 3's first half ---

/// Every order and number of the packets of two messages, up to seven in a row: what is handed on is the first n published, n
/// the last number.
#[test]
fn every_order() {
    let packets: Vec<Vec<u8>> = four(1).into_iter().chain([piece(2, b'F', 0, "v"), piece(2, b'L', 1, "w")]).collect();
    let published = ["message 1 abcd", "message 2 vw"];
    let mut counts = [0; 3];
    for order in 0..6usize.pow(7) {
        let (mut one, mut handed_on) = (End { end: End::new(0).end, buffer: vec![0; 32_768] }, vec![]);
        let mut rest = order;
        for _ in 0..7 {
            let said = one.says(&packets[rest % 6]);
            handed_on.extend(Some(said).filter(|said| said.starts_with("message")));
            assert!(published.starts_with(&handed_on.iter().map(|said| &said[..]).collect::<Vec<_>>()), "{order}");
            assert_eq!(one.last() as usize, handed_on.len());
            rest /= 6;
        }
        counts[handed_on.len()] += 1;
    }
    // Both arrive where F, C, C, L and then F, L stand in a row, among seven.
    println!("{counts:?}");
    assert!(counts.iter().all(|&count| count > 5), "{counts:?}");
}
