//! The tables, typed items (P9), make-up, and the check of content.

use reader::generate::{known_field_bytes, raw_field, Random};
use reader::items::{known_field, values, Kind, Value};
use reader::makeup::{check, known_message, mode, Direction, Mode};
use reader::tables::{FIELDS, MESSAGES, TIDS};

const PRICE: Kind = Kind::Float(12, 4);
const PERCENT: Kind = Kind::Float(4, 2);

fn units(kind: Kind, bytes: &[u8]) -> Option<i64> {
    match kind.value(bytes) {
        Some(Value::Number(n) | Value::Float(n)) => Some(n),
        None => None,
        other => panic!("{other:?}"),
    }
}

#[test]
fn totals_of_the_tables() {
    assert_eq!(FIELDS.len(), 46);
    assert_eq!(FIELDS.iter().map(|f| f.items.len()).sum::<usize>(), 379);
    assert_eq!(FIELDS.iter().map(|f| f.width).sum::<usize>(), 4410);
    assert_eq!(TIDS.len(), 32);
    assert_eq!(MESSAGES.len(), 52);
    assert_eq!(MESSAGES.iter().filter(|m| m.direction == Direction::Up).count(), 20);
    assert_eq!(MESSAGES.iter().map(|m| m.lines.len()).sum::<usize>(), 82);
    for (i, field) in FIELDS.iter().enumerate() {
        assert_eq!(field.fid as usize, i + 1);
        let mut at = 0;
        for item in field.items {
            assert_eq!((item.at, item.width), (at, item.kind.width()), "{} {}", field.name, item.name);
            at += item.width;
        }
        assert_eq!(at, field.width);
    }
    // Sorted, for the searches; and Table 7's messages have the TIDs of Appendix A.
    assert!(MESSAGES.windows(2).all(|m| (m[0].tid, m[0].direction) < (m[1].tid, m[1].direction)));
    assert!(MESSAGES.iter().all(|m| mode(m.tid).is_some()));
    assert!(TIDS.iter().all(|t| known_message(t.number, Direction::Down).is_some()));
}

#[test]
fn modes_by_range() {
    for tid in 0..0x3000 {
        let expected = match tid {
            0x1001..=0x1003 => Some(Mode::Private),
            0x2001..=0x2007 => Some(Mode::Broadcast),
            0x0016 | 0x0017 | 0x1005 => Some(Mode::Management),
            _ if TIDS.iter().any(|t| t.number == tid) => Some(Mode::Dialog),
            _ => None,
        };
        assert_eq!(mode(tid), expected, "{tid:04X}");
    }
}

#[test]
fn p9_and_floats() {
    assert_eq!(units(PRICE, b"0000123.4500"), Some(1_234_500));
    assert_eq!(units(PRICE, b"-000012.5000"), Some(-125_000));
    assert_eq!(units(PRICE, b"-000000.0000"), None);
    assert_eq!(units(PRICE, b"0000000.0000"), Some(0));
    assert_eq!(units(PRICE, b"9999999.9999"), Some(99_999_999_999));
    for wrong in [b"   0123.4500", b"00001234.500", b"0000123.45.0", b"00-0123.4500", b"+000123.4500", b"000012304500"]
    {
        assert_eq!(units(PRICE, wrong), None);
    }
    assert_eq!(units(PERCENT, b"-.05"), Some(-5));
    assert_eq!(units(PERCENT, b"9.99"), Some(999));
    assert_eq!(units(PERCENT, b"-.00"), None);
    assert_eq!(units(PERCENT, b"..05"), None);
    // P9 as an item of a packet's field: MarketMatchIncDataField's price.
    let row = known_field(0x000A).unwrap();
    let mut field = known_field_bytes(&mut Random::new(1), row);
    let price = row.items.iter().position(|item| item.name == "Price").unwrap();
    let at = 6 + row.items[price].at;
    for (bytes, value) in [(b"0000123.4500", Some(1_234_500)), (b"-000000.0000", None)] {
        field[at..at + 12].copy_from_slice(bytes);
        assert_eq!(values(0x000A, &field[6..]).map(|v| v[price]), value.map(Value::Float));
        assert_eq!(check(0x2002, Direction::Down, &field, 4080), if value.is_some() { Ok(()) } else { Err(9) });
    }
}

#[test]
fn numbers_dates_and_strings() {
    let number = Kind::Number(3);
    for (bytes, value) in [
        (b"000", Some(0)),
        (b"-08", Some(-8)),
        (b"999", Some(999)),
        (b"-00", None),
        (b"  8", None),
        (b"+08", None),
        (b"0-8", None),
        (b"8  ", None),
        (b"08.", None),
    ] {
        assert_eq!(units(number, bytes), value);
    }
    assert_eq!(units(Kind::Number(1), b"-"), None);

    for (bytes, value) in [
        (b"        ", Some(None)),
        (b"20040101", Some(Some(20_040_101))),
        (b"20041231", Some(Some(20_041_231))),
        (b"20240229", Some(Some(20_240_229))),
        (b"20000229", Some(Some(20_000_229))),
        (b"16010101", Some(Some(16_010_101))),
        (b"99991231", Some(Some(99_991_231))),
        (b"20230229", None),
        (b"19000229", None),
        (b"21000229", None),
        (b"20230431", None),
        (b"16001231", None),
        (b"00000101", None),
        (b"00000000", None),
        (b"20041301", None),
        (b"20040001", None),
        (b"20040100", None),
        (b"20040132", None),
        (b"       1", None),
        (b"2004 101", None),
    ] {
        assert_eq!(Kind::Date.value(bytes), value.map(Value::Date));
    }

    assert_eq!(Kind::Text(4).value(b" a  "), Some(Value::Text(b" a")));
    assert_eq!(Kind::Text(4).value(b"    "), Some(Value::Text(b"")));
    assert_eq!(Kind::Text(4).value(b"a   "), Some(Value::Text(b"a")));
    for byte in 0..=255 {
        assert_eq!(Kind::Text(2).value(&[b'x', byte]).is_some(), byte >= 0x20 && byte != 0x7F);
    }
}

#[test]
fn characters_and_integers() {
    for byte in 0..=255 {
        assert_eq!(Kind::Char(&[]).value(&[byte]), Some(Value::Char(byte)));
        assert_eq!(Kind::Char(&[1, 3]).value(&[byte]).is_some(), [0, 1, 3].contains(&byte));
    }
    assert_eq!(Kind::Word.value(&[0xFF, 0xFE]), Some(Value::Word(0xFFFE)));
    assert_eq!(Kind::Int.value(&[0xFF, 0, 0, 1]), Some(Value::Int(0xFF00_0001)));
    assert_eq!(Kind::Int.value(&[0, 0, 0]), None);
}

#[test]
fn types_that_the_appendices_decide() {
    let kind = |fid, name| known_field(fid).unwrap().items.iter().find(|item| item.name == name).unwrap().kind;
    assert_eq!(kind(0x0023, "TimeOut"), Kind::Number(3));
    assert_eq!(kind(0x0027, "TimeSpan"), Kind::Number(3));
    assert_eq!(kind(0x0001, "NewsUrgency"), Kind::Char(&[0, 1]));
    assert_eq!(kind(0x0001, "NewsType"), Kind::Text(3));
    assert_eq!(kind(0x0006, "ForceExitCode"), Kind::Char(&[0]));
    assert_eq!(kind(0x0007, "ShortCutKey"), Kind::Char(&[]));
    assert_eq!(kind(0x0007, "Fusepoint"), Kind::Text(6));
    assert_eq!(kind(0x0007, "StartTrdDate"), Kind::Date);
    assert_eq!(kind(0x0005, "TimeStamp"), Kind::Text(20));
    assert_eq!(kind(0x000E, "InsertTime"), Kind::Text(20));
    assert_eq!(kind(0x000E, "UpdateTime"), Kind::Text(8));
    assert_eq!(kind(0x000E, "HedgeFlag"), Kind::Char(&[1, 3]));
    assert_eq!(kind(0x002D, "OrderLocalId"), Kind::Text(24));
    assert_eq!(kind(0x0026, "MarketName"), Kind::Text(80));
    assert_eq!(kind(0x0013, "PreClose"), PRICE);
    assert_eq!(kind(0x0007, "HighLimitRate"), PERCENT);
}

#[test]
fn content_check() {
    use Direction::{Down, Up};
    let mut r = Random::new(2);
    let mut known = |fid| known_field_bytes(&mut r, known_field(fid).unwrap());
    let (login, start, other) = (known(0x0023), known(0x0004), raw_field(0x7777, b"any"));
    let mut wrong_item = login.clone();
    wrong_item[6 + 1] = 0;
    let wrong_width = raw_field(0x0004, &[0; 3]);

    let checked = |parts: &[&Vec<u8>], direction| {
        check(0x0016, direction, &parts.iter().copied().flatten().copied().collect::<Vec<_>>(), 4080)
    };
    assert_eq!(checked(&[&login], Up), Ok(()));
    assert_eq!(checked(&[&other, &start, &login], Up), Ok(()));
    assert_eq!(checked(&[&start], Up), Err(10));
    assert_eq!(checked(&[&login, &login], Up), Err(10));
    assert_eq!(checked(&[&login, &start, &start], Up), Err(10));
    assert_eq!(checked(&[&login], Down), Err(10));
    assert_eq!(checked(&[&wrong_item], Up), Err(9));
    // All widths before any item; shape before both; each before the counts.
    assert_eq!(checked(&[&wrong_item, &wrong_width], Up), Err(8));
    assert_eq!(checked(&[&wrong_item, &wrong_width, &vec![0]], Up), Err(7));
    // An unknown TID or direction passes the make-up alone.
    assert_eq!(check(0x7777, Down, &wrong_width, 4080), Err(8));
    assert_eq!(check(0x7777, Down, &wrong_item, 4080), Err(9));
    assert_eq!(check(0x7777, Down, &start, 4080), Ok(()));
    assert_eq!(check(0x2001, Up, &start, 4080), Ok(()));
    assert_eq!(check(0x2001, Down, &start, 4080), Err(10));
    assert_eq!(check(0x2004, Down, &[], 4080), Ok(()));
    // The limits of row 7.
    assert_eq!(check(0x7777, Down, &raw_field(0x7777, &[0; 4074]), 4080), Ok(()));
    assert_eq!(check(0x7777, Down, &raw_field(0x7777, &[0; 4074]), 4079), Err(7));
    assert_eq!(check(0x7777, Down, &raw_field(0x7777, &[0; 4075]), 32_768), Err(7));
    assert_eq!(check(0x7777, Down, &raw_field(0x7777, &[]).repeat(5461), 32_768), Ok(()));
    assert_eq!(check(0x7777, Down, &raw_field(0x7777, &[]).repeat(5462), 32_768), Err(7));
}

#[test]
fn makeup_of_each_message() {
    // Each line's count from none to two above its least, the other lines at their least.
    let mut r = Random::new(3);
    for message in &MESSAGES {
        for line in message.lines {
            for n in 0..line.least + 3 {
                let mut content = Vec::new();
                for other in message.lines {
                    let times = if other.fid == line.fid { n } else { other.least };
                    let field = known_field(other.fid).unwrap();
                    (0..times).for_each(|_| content.extend(known_field_bytes(&mut r, field)));
                }
                let right = n >= line.least && line.most.is_none_or(|most| n <= most);
                let expected = if right { Ok(()) } else { Err(10) };
                assert_eq!(check(message.tid, message.direction, &content, 32_768), expected, "{} {n}", message.name);
            }
        }
    }
}
