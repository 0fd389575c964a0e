//! The worked examples of request No. 2 (and of No. 9: the mean), each with its answers written by hand, as calls of a book.
//!
//! A message is written as its fields parted by commas: `B=10@123.4500` an absolute buying quotation, `B+2@..` and `B-3@..`
//! increments, `S` likewise selling, `M5@..` a match; a `'` in front names another contract.

use crate::book::{Book, Side};

pub const CODE: &[u8; 10] = b"cu0405    ";
const OTHER: &[u8; 10] = b"al0405    ";

/// A call of the book.
#[derive(Clone, Debug)]
pub enum Call {
    Start(Vec<u8>),
    Take(u32, Vec<u8>),
}

/// A call with its answer (0: done), and what is shown then, where the example says so: buying, selling, mean.
pub struct Case {
    pub row: u32,
    pub call: Call,
    pub answer: u8,
    pub shown: Option<&'static str>,
}

fn framed(fid: u32, bytes: &[u8]) -> Vec<u8> {
    let mut field = fid.to_be_bytes().to_vec();
    field.extend((bytes.len() as u16).to_be_bytes());
    field.extend(bytes);
    field
}

/// A price as Float 12,4.
fn price_text(price: &str) -> Vec<u8> {
    match price.strip_prefix('-') {
        Some(digits) => format!("-{digits:0>11}").into_bytes(),
        None => format!("{price:0>12}").into_bytes(),
    }
}

pub fn quotation(code: &[u8; 10], kind: u8, direction: u8, price: &[u8], volume: u32) -> Vec<u8> {
    let mut bytes = code.to_vec();
    bytes.extend([0, kind, direction]);
    bytes.extend(price);
    bytes.extend(volume.to_be_bytes());
    bytes.extend([0; 4]);
    framed(0x000d, &bytes)
}

pub fn matched(code: &[u8; 10], price: &[u8], volume: u32) -> Vec<u8> {
    let mut bytes = code.to_vec();
    bytes.extend([0, 0]);
    bytes.extend(price);
    bytes.extend(volume.to_be_bytes());
    bytes.push(0);
    framed(0x000a, &bytes)
}

fn field(text: &str) -> Vec<u8> {
    let (code, text) = match text.strip_prefix('\'') {
        Some(rest) => (OTHER, rest),
        None => (CODE, text),
    };
    let (what, price) = text.split_once('@').expect("a price");
    let price = price_text(price);
    if let Some(volume) = what.strip_prefix('M') {
        return matched(code, &price, volume.parse().expect("a volume"));
    }
    let direction = u8::from(what.starts_with('S'));
    let (kind, volume) = match &what[1..2] {
        "=" => (1, what[2..].parse().expect("a quantity")),
        _ => (0, what[1..].parse::<i64>().expect("an increment") as u32),
    };
    quotation(code, kind, direction, &price, volume)
}

/// The content of a message.
pub fn content(text: &str) -> Vec<u8> {
    text.split(',').filter(|part| !part.is_empty()).flat_map(|part| field(part.trim())).collect()
}

/// The TID of a message: a match's or a quotation's.
fn tid(text: &str) -> u32 {
    if text.trim_start_matches('\'').starts_with('M') {
        0x2002
    } else {
        0x2001
    }
}

struct Cases {
    row: u32,
    all: Vec<Case>,
}

impl Cases {
    fn row(&mut self, row: u32) {
        self.row = row;
        self.start(CODE, 0);
    }

    fn start(&mut self, code: &[u8], answer: u8) {
        self.all.push(Case { row: self.row, call: Call::Start(code.to_vec()), answer, shown: None });
    }

    fn raw(&mut self, tid: u32, content: Vec<u8>, answer: u8, shown: Option<&'static str>) {
        self.all.push(Case { row: self.row, call: Call::Take(tid, content), answer, shown });
    }

    fn take(&mut self, text: &str, answer: u8, shown: &'static str) {
        self.raw(tid(text), content(text), answer, Some(shown));
    }
}

fn quotations(c: &mut Cases) {
    c.row(1);
    c.take("B=10@123.4500", 0, "10@1234500||-");
    c.take("B=4@123.5000", 0, "4@1235000 10@1234500||-");
    c.take("B=7@120.0000", 0, "4@1235000 10@1234500 7@1200000||-");
    c.take("S=2@124.0000", 0, "4@1235000 10@1234500 7@1200000|2@1240000|-");
    c.take("S=9@123.9000", 0, "4@1235000 10@1234500 7@1200000|9@1239000 2@1240000|-");
    c.row(2);
    c.take("B=10@123.4500", 0, "10@1234500||-");
    c.take("B-3@123.4500", 0, "7@1234500||-");
    c.take("B-8@123.4500", 22, "7@1234500||-");
    c.take("B-7@123.4500", 0, "||-");
    c.take("B-1@123.4500", 22, "||-");
    c.take("B+2@123.4500", 0, "2@1234500||-");
    c.row(3);
    c.take("B=4294967295@123.4500", 0, "4294967295@1234500||-");
    c.take("B+1@123.4500", 22, "4294967295@1234500||-");
    c.take("B-2147483648@123.4500", 0, "2147483647@1234500||-");
    c.take("B+2147483647@123.4500", 0, "4294967294@1234500||-");
    c.take("B+2@123.4500", 22, "4294967294@1234500||-");
    c.take("B+1@123.4500", 0, "4294967295@1234500||-");
    c.take("M4294967295@123.4500", 24, "4294967295@1234500||-");
}

fn matches(c: &mut Cases) {
    c.row(4);
    c.take("B=5@123.4500", 0, "5@1234500||-");
    c.take("S=3@123.4500", 0, "5@1234500|3@1234500|-");
    c.take("M3@123.4500", 0, "2@1234500||1234500");
    c.take("M1@123.4500", 0, "1@1234500||1234500");
    c.take("M2@123.4500", 22, "1@1234500||1234500");
    c.row(5);
    c.take("B=10@123.4500", 0, "10@1234500||-");
    c.take("S=3@123.4500", 0, "10@1234500|3@1234500|-");
    c.take("M5@123.4500", 22, "10@1234500|3@1234500|-");
    c.row(6);
    c.take("B=5@123.4500", 0, "5@1234500||-");
    c.take("M5@123.4500", 0, "||1234500");
    c.take("M3@123.4500", 0, "||1234500");
    c.take("B+2@123.4500", 0, "2@1234500||1234500");
    c.row(7);
    c.take("B=5@123.4500", 0, "5@1234500||-");
    c.take("M5@123.4500, M3@123.4500", 0, "||1234500");
    c.row(8);
    c.take("B+5@123.4500", 0, "5@1234500||-");
    c.take("M2@123.4500", 0, "3@1234500||1234500");
    c.take("B+4@123.4500", 0, "7@1234500||1234500");
    c.take("B=5@123.4500", 0, "5@1234500||1234500");
    c.take("M1@123.4500", 0, "4@1234500||1234500");
    c.row(9);
    c.take("B=10@1.0000, B-1@2.0000", 22, "||-");
    c.take("M1@1.0000, M1000001@2.0000", 24, "||-");
    c.row(10);
    c.take("B=5@123.4500", 0, "5@1234500||-");
    c.take("M1000001@123.4500", 22, "5@1234500||-");
    c.take("B=2000000@123.4500", 0, "2000000@1234500||-");
    c.take("M1000001@123.4500", 24, "2000000@1234500||-");
    c.take("M1000000@123.4500", 0, "1000000@1234500||1234500");
    c.take("M1000001@1.0000", 24, "1000000@1234500||1234500");
    c.row(11);
    c.take("B=5@123.4500", 0, "5@1234500||-");
    c.take("M1000001@1.0000, M9@123.4500", 24, "5@1234500||-");
    c.take("M9@123.4500, M1000001@1.0000", 22, "5@1234500||-");
}

/// 64 buying levels, from 1.0000 to 64.0000.
fn many() -> String {
    (1..=64).map(|i| format!("B={i}@{i}.0000")).collect::<Vec<_>>().join(",")
}

fn levels(c: &mut Cases) {
    c.row(12);
    c.raw(0x2001, content(&many()), 0, None);
    for (text, answer) in [
        ("B=1@65.0000", 23),
        ("B+1@65.0000", 23),
        ("B=0@65.0000", 0),
        ("B-1@65.0000", 22),
        ("S=1@65.0000", 0),
        ("B=9@64.0000", 0),
    ] {
        c.raw(0x2001, content(text), answer, None);
    }
    c.row(13);
    c.raw(0x2001, content(&many()), 0, None);
    for (text, answer) in [
        ("B=1@65.0000, B=0@1.0000", 23),
        ("B=0@1.0000, B=1@65.0000", 0),
        ("B=1@66.0000, B-1@67.0000", 23),
        ("B-1@67.0000, B=1@66.0000", 22),
    ] {
        c.raw(0x2001, content(text), answer, None);
    }
}

fn sums(c: &mut Cases) {
    c.row(14);
    for _ in 0..90 {
        c.take("M1000000@9999999.9999", 0, "||99999999999");
    }
    c.take("M1000000@9999999.9999", 24, "||99999999999");
    c.take("M1000000@0.0090", 0, "||98901098901");
    c.take("M1@0.0001", 24, "||98901098901");
    c.take("M1@0.0001, M1@-0.0001", 24, "||98901098901");
    c.raw(0x2002, content("M1@-0.0001"), 0, None);
    c.row(15);
    let many = vec!["M1000000@-999999.9999"; 900].join(",");
    c.raw(0x2002, content(&many), 0, Some("||-9999999999"));
    c.take("M1000000@-999999.9999", 24, "||-9999999999");
    c.raw(0x2002, content("M900000@-0.1000"), 0, None);
    c.raw(0x2002, content("M1@-0.0001"), 24, None);
    c.row(16);
    c.take("M5@123.4500", 0, "||1234500");
    c.take("M3@123.4600", 0, "||1234538");
    c.row(17);
    c.take("M1@-0.0001", 0, "||-1");
    c.take("M1@0.0000", 0, "||0");
    c.take("M1@-0.0004", 0, "||-2");
    c.row(18);
    c.take("M0@123.4500", 0, "||-");
    c.take("M1@0.0000", 0, "||0");
    c.row(19);
    c.take(
        "B=1@-1.0000, B=2@1.0000, B=3@0.0000, S=4@1.0000, S=5@-1.0000, S=6@0.0000",
        0,
        "2@10000 3@0 1@-10000|5@-10000 6@0 4@10000|-",
    );
}

fn others(c: &mut Cases) {
    c.row(20);
    c.take("'B=5@123.4500", 0, "||-");
    c.take("'B-1@123.4500", 0, "||-");
    c.take("'M1000001@123.4500", 0, "||-");
    c.take("'M5@123.4500, M1@123.4500", 0, "||1234500");
    c.row(21);
    c.raw(0x2004, content("B=5@123.4500"), 0, Some("||-"));
    c.raw(0x7777, content("B=5@123.4500"), 0, Some("||-"));
    c.raw(0x2001, content("'B=5@123.4500, M5@123.4500"), 0, Some("||-"));
    c.raw(0x2001, content("M5@123.4500"), 10, Some("||-"));
    c.raw(0x2001, Vec::new(), 10, Some("||-"));
    c.raw(0x2003, content("B=5@123.4500"), 10, Some("||-"));
    c.row(22);
    let price = b"0000123.4500";
    let mut version = quotation(CODE, 1, 0, price, 5);
    version[16] = 1;
    let minus_zero = quotation(CODE, 1, 0, b"-000000.0000", 5);
    let elsewhere = quotation(OTHER, 1, 0, b"-000000.0000", 5);
    c.raw(0x2001, quotation(CODE, 1, 2, price, 5), 9, Some("||-"));
    c.raw(0x2001, quotation(CODE, 2, 0, price, 5), 9, Some("||-"));
    c.raw(0x2001, quotation(CODE, 1, 0x31, price, 5), 9, Some("||-"));
    c.raw(0x2001, version, 9, Some("||-"));
    c.raw(0x2001, minus_zero.clone(), 9, Some("||-"));
    c.raw(0x2001, elsewhere, 9, Some("||-"));
    c.raw(0x7777, minus_zero, 9, Some("||-"));
    c.raw(0x2001, framed(0x000d, &[0x20; 32]), 8, Some("||-"));
    c.raw(0x2001, [content("B-1@123.4500"), framed(0x000d, &[0x20; 32])].concat(), 8, Some("||-"));
    c.row = 23;
    c.start(b"          ", 0);
    c.start(b"cu0405", 9);
    c.start(b"cu0405   \x00", 9);
    c.start(b"cu0405   \x1f", 9);
    c.start(b"cu0405   \x7f", 9);
    c.start(b"cu0405   \xff", 0);
}

/// Row 24, of request No. 9: the mean to the nearest, at the exact half to the even last digit.
fn means(c: &mut Cases) {
    for (text, shown) in [
        ("M1@0.0001, M1@0.0002", "||2"),
        ("M1@0.0000, M1@0.0001", "||0"),
        ("M1@0.0002, M1@0.0003", "||2"),
        ("M1@0.0003, M1@0.0004", "||4"),
        ("M1@0.0000, M1@-0.0001", "||0"),
        ("M1@-0.0001, M1@-0.0002", "||-2"),
        ("M1@-0.0002, M1@-0.0003", "||-2"),
        ("M1@-0.0003, M1@-0.0004", "||-4"),
        ("M2@0.0002, M2@0.0003", "||2"),
        ("M2@0.0003, M2@0.0004", "||4"),
        ("M5@0.0002, M5@0.0003", "||2"),
        ("M5@0.0001, M5@0.0002", "||2"),
        ("M1@0.0000, M2@0.0001", "||1"),
        ("M2@0.0000, M1@0.0001", "||0"),
        ("M1@0.0000, M2@-0.0001", "||-1"),
        ("M4@123.4500, M4@123.4577", "||1234538"),
    ] {
        c.row(24);
        c.take(text, 0, shown);
    }
}

/// Rows 1 to 24.
pub fn cases() -> Vec<Case> {
    let mut c = Cases { row: 0, all: Vec::new() };
    quotations(&mut c);
    matches(&mut c);
    levels(&mut c);
    sums(&mut c);
    others(&mut c);
    means(&mut c);
    c.all
}

/// What the book shows: buying, selling and mean, in units.
pub fn shown(book: &Book) -> String {
    let side = |side| {
        let levels = (0..).map_while(|i| book.level(side, i)).map(|(price, quantity)| format!("{quantity}@{price}"));
        levels.collect::<Vec<_>>().join(" ")
    };
    let mean = book.mean().map_or("-".to_string(), |mean| mean.to_string());
    format!("{}|{}|{mean}", side(Side::Buying), side(Side::Selling))
}

/// Makes a call; gives its answer.
pub fn make(book: &mut Book, call: &Call) -> u8 {
    let answer = match call {
        Call::Start(code) => Book::start(code).map(|new| *book = new),
        Call::Take(tid, content) => book.take(*tid, content),
    };
    answer.err().unwrap_or(0)
}

/// The calls as `bookcheck` reads them (0 and a code, or 1, TID and content, behind the length in four bytes), and what it
/// prints: the answer and what is shown.
pub fn files() -> (Vec<u8>, String) {
    let mut book = Book::start(CODE).expect("a code");
    let (mut input, mut output) = (Vec::new(), String::new());
    for case in cases() {
        let (kind, bytes) = match &case.call {
            Call::Start(code) => (0, code.clone()),
            Call::Take(tid, content) => (1, [&tid.to_be_bytes()[..], content].concat()),
        };
        input.push(kind);
        input.extend((bytes.len() as u32).to_be_bytes());
        input.extend(bytes);
        let answer = make(&mut book, &case.call);
        output.push_str(&format!("{answer} {}\n", shown(&book)));
    }
    (input, output)
}
