//! Values, link and skipped packets and start fields written; what the length and the tags say.

use reader::generate::{packet_input, Random, FORMS};
use reader::given::{given, Given};
use reader::items::{item, known_field, Kind, Value};
use reader::packet::{keeps_alive, mark, read, said_length, tags, Packet};
use reader::plain::{plain_input, plain_packet, NotWritten};
use reader::start::{start_field, start_field_bytes, start_input, Start, START_FIELD};
use reader::tables::FIELDS;

const PRICE: Kind = Kind::Float(12, 4);
const PERCENT: Kind = Kind::Float(4, 2);

fn float(kind: Kind, negative: bool, units: u64) -> Option<Vec<u8>> {
    kind.bytes(&Given::Float { negative, units })
}

#[test]
fn numbers_written() {
    assert_eq!(float(PRICE, false, 1_234_500).as_deref(), Some(&b"0000123.4500"[..]));
    assert_eq!(float(PRICE, true, 125_000).as_deref(), Some(&b"-000012.5000"[..]));
    assert_eq!(float(PRICE, true, 0), None);
    assert_eq!(float(PRICE, false, 0).as_deref(), Some(&b"0000000.0000"[..]));
    assert_eq!(float(PRICE, false, 99_999_999_999).as_deref(), Some(&b"9999999.9999"[..]));
    assert_eq!(float(PRICE, false, 100_000_000_000), None);
    assert_eq!(float(PRICE, true, 10_000_000_000), None);
    assert_eq!(float(PERCENT, true, 5).as_deref(), Some(&b"-.05"[..]));
    assert_eq!(float(PERCENT, true, 100), None);
    assert_eq!(PRICE.bytes(&Given::Number { negative: false, units: 1 }), None);
    let number = |negative, units| Kind::Number(3).bytes(&Given::Number { negative, units });
    assert_eq!(number(true, 8).as_deref(), Some(&b"-08"[..]));
    assert_eq!(number(false, 999).as_deref(), Some(&b"999"[..]));
    assert_eq!(
        (number(false, 1000), number(true, 100), number(true, 0), number(false, u64::MAX)),
        (None, None, None, None)
    );
}

#[test]
fn other_values_written() {
    let text = |bytes: &[u8]| Kind::Text(3).bytes(&Given::Text(bytes.to_vec()));
    assert_eq!(text(b"").as_deref(), Some(&b"   "[..]));
    assert_eq!(text(b" a").as_deref(), Some(&b" a "[..]));
    assert_eq!(text(b"abc").as_deref(), Some(&b"abc"[..]));
    assert_eq!((text(b"a "), text(b"abcd"), text(b"a\x7F"), text(b"abc ")), (None, None, None, None));
    let date = |given| Kind::Date.bytes(&Given::Date(given));
    assert_eq!(date(None).as_deref(), Some(&b"        "[..]));
    assert_eq!(date(Some((1601, 12, 31))).as_deref(), Some(&b"16011231"[..]));
    for wrong in [
        (10_000, 1, 1),
        (1600, 12, 31),
        (2023, 2, 29),
        (2004, 0, 1),
        (2004, 13, 1),
        (2004, 1, 0),
        (2004, 1, 32),
        (2004, 100, 1),
        (99, 1, 100),
    ] {
        assert_eq!(date(Some(wrong)), None);
    }
    let values = Kind::Char(&[1, 3]);
    assert_eq!((0..300).filter(|&x| values.bytes(&Given::Char(x)).is_some()).collect::<Vec<_>>(), [0, 1, 3]);
    assert_eq!((0..300).filter(|&x| Kind::Char(&[]).bytes(&Given::Char(x)).is_some()).count(), 256);
    assert_eq!(Kind::Word.bytes(&Given::Word(0xFFFE)), Some(vec![0xFF, 0xFE]));
    assert_eq!(Kind::Word.bytes(&Given::Word(0x1_0000)), None);
    assert_eq!(Kind::Int.bytes(&Given::Int(0xFF00_0001)), Some(vec![0xFF, 0, 0, 1]));
    assert_eq!(Kind::Int.bytes(&Given::Int(1 << 32)), None);
}

/// Of each row some values fit, and others don't.
#[test]
fn given_values_are_of_both_kinds() {
    let mut r = Random::new(3);
    for row in FIELDS.iter().flat_map(|field| field.items) {
        let written: Vec<_> = (0..200).map(|_| row.kind.bytes(&given(&mut r, row.kind))).collect();
        assert!(written.iter().flatten().count() >= 20, "{}", row.name);
        assert!(written.iter().filter(|bytes| bytes.is_none()).count() >= 10, "{}", row.name);
        assert!(written.iter().flatten().all(|bytes| row.kind.holds(bytes)));
    }
}

#[test]
fn items_by_place() {
    let field = b"MEMBER  \x0120041231-0000000012.50";
    assert_eq!(item(3, 0, field), Some(Some(Value::Text(b"MEMBER"))));
    assert_eq!(item(3, 1, field), Some(Some(Value::Char(1))));
    assert_eq!(item(3, 2, field), Some(Some(Value::Date(Some(20_041_231)))));
    assert_eq!(item(3, 3, field), Some(Some(Value::Float(-1250))));
    assert_eq!(item(3, 4, field), None);
    assert_eq!(item(3, 3, &field[..30]), None);
    assert_eq!(item(3, 3, &field[1..]), None);
    assert_eq!(item(3, 1, &field[1..]), Some(None));
    assert_eq!((item(0, 0, field), item(0x2F, 0, field), item(3, usize::MAX, field)), (None, None, None));
}

#[test]
fn said_lengths_and_tags() {
    assert_eq!(said_length(&[1, 2, 3]), None);
    assert_eq!(said_length(&[1, 2, 3, 4, 5]), Some(4 + 2 + 0x0304));
    assert_eq!(said_length(&[0xFF; 4]), Some(4 + 255 + 65_535));
    assert_eq!((mark(&[5, 4, 0, 0, 1, 2]), keeps_alive(&[5, 4, 0, 0, 1, 2])), (Some(0x0102), false));
    assert_eq!((mark(&[4, 0, 5, 4, 0, 0, 1]), keeps_alive(&[4, 0, 5, 4, 0, 0, 1])), (None, true));
    assert_eq!(mark(&[5, 3, 0, 0, 1, 5, 4, 0, 0, 0, 1]), None);
    assert!(!keeps_alive(&[7, 2, 4, 0]) && keeps_alive(&[4, 2, 0, 0]) && !keeps_alive(&[4]));
    let mut r = Random::new(4);
    for i in 0..6000 {
        let bytes = packet_input(&mut r, FORMS[i % FORMS.len()]);
        match read(&bytes) {
            Packet::Message(m) => assert_eq!((Some(m.length), m.mark), (said_length(&bytes), mark(m.extension))),
            Packet::Link { extension, mark: day, length, .. } => {
                assert_eq!((Some(length), day), (said_length(&bytes), mark(extension)));
                assert_eq!(keeps_alive(extension), tags(extension).any(|tag| tag.unwrap().0 == 4));
            }
            Packet::Skipped { length, .. } => assert_eq!(Some(length), said_length(&bytes)),
            Packet::Short(_) | Packet::Refused(_) => {}
        }
    }
}

#[test]
fn plain_packets() {
    use NotWritten::{NotPlain, Refused};
    assert_eq!(plain_packet(0, &[4, 0], &[]), Ok(vec![0, 2, 0, 0, 4, 0]));
    assert_eq!(plain_packet(9, &[4], &[7, 8]), Ok(vec![9, 1, 0, 2, 4, 7, 8]));
    assert_eq!(plain_packet(0, &[4], &[]), Err(Refused(2)));
    assert_eq!(plain_packet(1, &[5; 128], &[0; 15]), Err(Refused(1)));
    for (n, refused) in
        [(1, Refused(3)), (15, Refused(3)), (16, NotPlain), (4096, NotPlain), (4097, Refused(3)), (70_000, Refused(3))]
    {
        assert_eq!(plain_packet(1, &[4], &vec![0; n]), Err(refused));
    }
    assert!(plain_packet(0, &[4], &[0; 65_535]).is_ok());
    assert_eq!(plain_packet(0, &[4], &[0; 65_536]), Err(NotPlain));
    let mut r = Random::new(5);
    let answers: Vec<_> =
        (0..3000).map(|_| plain_input(&mut r)).map(|(k, e, b)| plain_packet(k, &e, &b).err()).collect();
    for answer in [None, Some(Refused(1)), Some(Refused(2)), Some(Refused(3)), Some(NotPlain)] {
        assert!(answers.iter().filter(|&&a| a == answer).count() >= 20, "{answer:?}");
    }
}

#[test]
fn start_fields() {
    assert_eq!(known_field(START_FIELD).unwrap().name, "DisseminationstartField");
    let bytes = start_field_bytes(0x0102, 3);
    assert_eq!(bytes, [0, 0, 0, 4, 0, 6, 1, 2, 0, 0, 0, 3]);
    assert_eq!(start_field(&bytes), Start::Next { series: 0x0102, number: 3 });
    assert_eq!(start_field(&[]), Start::Absent);
    assert_eq!(start_field(&bytes[..11]), Start::Absent);
    assert_eq!(start_field(&[0, 0, 0, 4, 0, 0]), Start::Misshapen);
    assert_eq!(start_field(&[&bytes[..], &[0, 0, 0, 4, 0, 0]].concat()), Start::Several);
    let mut r = Random::new(6);
    let found: Vec<_> = (0..1000).map(|_| start_field(&start_input(&mut r))).collect();
    let count = |right: fn(&Start) -> bool| found.iter().filter(|one| right(one)).count();
    assert!(count(|one| matches!(one, Start::Next { .. })) >= 100);
    assert!([Start::Absent, Start::Misshapen, Start::Several].iter().all(|one| found
        .iter()
        .filter(|f| *f == one)
        .count()
        >= 50));
}
