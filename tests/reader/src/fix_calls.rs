//! The calls of the program `fixcheck` (request No. 12): frames read with an expected number, frames written, fields by
//! index and by tag; and the line that it has to print for each.

use crate::fix::{cut, framed, number, read, required, write_run, Field, Judgement, Message, MOST_FRAME, SOH};
use crate::fix_cases::{bytes, traps, worked};

#[derive(Clone, Debug, PartialEq, Eq)]
pub enum Call {
    Read { expected: u32, bytes: Vec<u8> },
    Write { room: u32, name: Vec<u8>, run: Vec<u8> },
    Index { i: u32, run: Vec<u8> },
    Tag { tag: u32, run: Vec<u8> },
}

// ─── The line ───

/// Bytes as text: `|` for the separator, the number behind a `\` of what can't be printed.
pub fn shown(bytes: &[u8]) -> String {
    let one = |&b: &u8| match b {
        SOH => "|".to_string(),
        b' '..=b'~' => char::from(b).to_string(),
        _ => format!("\\{b}"),
    };
    bytes.iter().map(one).collect()
}

/// A text with its place.
fn placed(start: usize, text: &[u8]) -> String {
    format!("{start}+{}={}", text.len(), shown(text))
}

/// The type's letter, `-` for others, and the tags of its own values.
fn own(kind: &[u8]) -> (&str, Option<u32>, Option<u32>) {
    match kind {
        b"0" => ("0", None, None),
        b"1" => ("1", Some(112), None),
        b"2" => ("2", Some(7), Some(16)),
        b"4" => ("4", Some(36), None),
        b"5" => ("5", None, None),
        b"A" => ("A", Some(98), Some(108)),
        _ => ("-", None, None),
    }
}

/// What a frame says: how it is judged; type and its place; number, own values and gap fill; the text of the first own
/// value; the fields.
fn said(bytes: &[u8], message: &Message) -> String {
    let judgement = match message.judgement {
        Judgement::Next => "next",
        Judgement::Again => "again",
        Judgement::Gap => "gap",
        Judgement::Reset => "reset",
    };
    let field = |tag: Option<u32>| message.fields.iter().find(|field| Some(field.tag) == tag);
    let value = |tag| field(tag).and_then(|field| number(field.text(bytes))).unwrap_or(0);
    let (letter, one, two) = own(message.kind);
    // 8 and 9 hold no separator, so the first one with "35=" behind it is where the body begins; 10 has seven bytes.
    let name = bytes.windows(4).position(|four| four == b"\x0135=").expect("a body") + 4;
    let run = name + message.kind.len() + 1;
    let text = field(one).map_or(placed(0, b""), |field| placed(field.start, field.text(bytes)));
    let fill = message.fields.iter().any(|field| field.tag == 123 && field.text(bytes) == b"Y");
    let kind = placed(name, message.kind);
    let values = format!("{}/{}/{}/{}", message.number, value(one), value(two), u8::from(fill));
    format!("{judgement} {letter}@{kind} {values} {text} {}", placed(run, &bytes[run..bytes.len() - 7]))
}

/// The fields of a run up to the first place where none stands: of its longest front that is whole.
fn fields_of(run: &[u8]) -> Vec<Field> {
    let ends = (0..=run.len()).rev().filter(|&n| n == 0 || run[n - 1] == SOH);
    ends.map(|n| cut(run, 0, n)).find_map(|cut| cut).expect("no bytes are whole")
}

fn field_line(field: Option<&Field>, run: &[u8]) -> String {
    field.map_or("none".to_string(), |field| format!("{}@{}", field.tag, placed(field.start, field.text(run))))
}

impl Call {
    /// Letter, number and bytes.
    fn parts(&self) -> (u8, u32, Vec<u8>) {
        match self {
            Call::Read { expected, bytes } => (b'r', *expected, bytes.clone()),
            Call::Write { room, name, run } => {
                assert!(name.len() < 10);
                (b'w', *room, [&[b'0' + name.len() as u8], name.as_slice(), run].concat())
            }
            Call::Index { i, run } => (b'i', *i, run.clone()),
            Call::Tag { tag, run } => (b't', *tag, run.clone()),
        }
    }

    /// The call as `fixcheck` reads it: the letter, the length of all behind it, the number, the bytes.
    pub fn bytes(&self) -> Vec<u8> {
        let (letter, number, rest) = self.parts();
        [&[letter], &(rest.len() as u32 + 4).to_be_bytes()[..], &number.to_be_bytes(), &rest].concat()
    }

    fn answer(&self) -> String {
        match self {
            Call::Read { expected, bytes } => {
                let answer = read(bytes, *expected);
                let found = answer.found.map_or_else(|row| format!("refused {row}"), |message| said(bytes, &message));
                format!("{} {found}", answer.expected)
            }
            Call::Write { room, name, run } => {
                let mut out = vec![0; *room as usize];
                let answer = write_run(name, run, &mut out);
                let told = answer.map_or_else(|row| format!("refused {row}"), |n| format!("written {n}"));
                format!("{} {told}", shown(&out))
            }
            Call::Index { i, run } => {
                let fields = fields_of(run);
                let field = fields.get(*i as usize);
                format!("{} {}", field_line(field, run), shown(field.map_or(b"", |field| field.text(run))))
            }
            Call::Tag { tag, run } => {
                let fields = fields_of(run);
                let field = fields.iter().find(|field| field.tag == *tag);
                let value = field.and_then(|field| number(field.text(run)));
                format!("{} {}", field_line(field, run), value.unwrap_or(0))
            }
        }
    }

    /// What `fixcheck` prints: the call, and what it answers.
    pub fn line(&self) -> String {
        let (letter, number, rest) = self.parts();
        format!("{}{number} {} -> {}", char::from(letter), shown(&rest), self.answer())
    }
}

// ─── The calls ───

/// A right body of each of the six types and of another, number 5.
const RIGHT: [&str; 7] = [
    "35=A|49=F|56=B|34=5|52=now|98=0|108=30|",
    "35=5|49=F|56=B|34=5|52=now|58=bye|",
    "35=0|49=F|56=B|34=5|52=now|112=T1|",
    "35=1|49=F|56=B|34=5|52=now|112=T1|",
    "35=2|49=F|56=B|34=5|52=now|7=3|16=4|",
    "35=4|49=F|56=B|34=5|52=now|36=9|",
    "35=UF001|34=5|58=own|",
];

struct Calls(Vec<Call>);

impl Calls {
    fn read(&mut self, expected: u32, bytes: impl Into<Vec<u8>>) {
        self.0.push(Call::Read { expected, bytes: bytes.into() });
    }

    /// A body in its frame.
    fn body(&mut self, expected: u32, body: &str) {
        self.read(expected, framed(&bytes(body)));
    }

    fn write(&mut self, room: usize, name: &str, run: &str) {
        self.0.push(Call::Write { room: room as u32, name: bytes(name), run: bytes(run) });
    }

    /// A body's type and fields, into as many bytes as its frame has.
    fn write_body(&mut self, body: &str) {
        let name = body.strip_prefix("35=").and_then(|rest| rest.split_once('|'));
        if let Some((name, run)) = name {
            self.write(framed(&bytes(body)).len(), name, run);
        }
    }

    fn index(&mut self, i: u32, run: &str) {
        self.0.push(Call::Index { i, run: bytes(run) });
    }

    fn tag(&mut self, tag: u32, run: &str) {
        self.0.push(Call::Tag { tag, run: bytes(run) });
    }
}

/// The frames with answers written by hand; a body that has a type is written too.
fn by_hand(c: &mut Calls) {
    for case in worked() {
        c.read(case.expected, case.bytes);
    }
    for case in traps() {
        let body = shown(&case.bytes);
        let from = body.find("|9=").expect("a length") + 1;
        let from = from + body[from..].find('|').expect("a separator") + 1;
        c.write_body(&body[from..body.len() - 7]);
        c.read(case.expected, case.bytes);
    }
}

/// Each type with each number, with and without the flag; sequence resets with gap fill too.
fn judged(c: &mut Calls) {
    let fill = format!("{}123=Y|", RIGHT[5]);
    for body in RIGHT.into_iter().chain([fill.as_str()]) {
        for expected in [5, 4, 6, u32::MAX] {
            c.body(expected, body);
            c.body(expected, &format!("{body}43=Y|"));
        }
        c.body(6, &format!("{body}43=N|"));
        c.body(5, &format!("{body}43=Y|43=Y|"));
    }
}

/// Each required tag missing, and twice.
fn tags(c: &mut Calls) {
    for body in RIGHT {
        let fields: Vec<&str> = body.split_inclusive('|').collect();
        let kind = &fields[0][3..fields[0].len() - 1];
        for tag in required(kind.as_bytes()) {
            let own = |field: &&str| field.starts_with(&format!("{tag}="));
            if let Some(one) = fields[1..].iter().find(|field| own(field)) {
                let left: String = fields.iter().filter(|field| !own(field)).copied().collect();
                c.body(5, &left);
                c.write_body(&left);
                c.body(5, &format!("{body}{one}"));
            } else {
                // The frame's own.
                c.body(5, &format!("{body}{tag}=1|"));
            }
        }
    }
}

/// Each tag that is a number in some type, with a text that is none, in each type.
fn numbers(c: &mut Calls) {
    for body in RIGHT {
        for tag in [34, 90, 93, 369, 98, 108, 95, 383, 384, 354, 7, 16, 36] {
            c.body(5, &format!("{body}{tag}=x|"));
        }
    }
    for text in ["1", "0", "000000000", "999999999", "1000000000", "0000000001", "1.", "1-", "a", "９"] {
        c.body(1, &format!("35=D|34={text}|"));
        c.body(5, &format!("35=4|49=F|56=B|34=5|52=now|36={text}|"));
        c.body(5, &format!("35=2|49=F|56=B|34=5|52=now|7={text}|16=1|"));
        c.body(5, &format!("35=2|49=F|56=B|34=5|52=now|7=1|16={text}|"));
    }
}

/// One short frame with each byte one more, the sum as it was and right again; cut at every place; with a byte behind it.
fn damaged(c: &mut Calls) {
    let whole = bytes("8=FIX.4.2|9=10|35=D|34=5|10=187|");
    for i in 0..whole.len() {
        let mut other = whole.clone();
        other[i] += 1;
        c.read(5, other.clone());
        if i < whole.len() - 7 {
            let sum: u32 = other[..whole.len() - 7].iter().map(|&b| u32::from(b)).sum();
            let end = whole.len() - 4;
            other[end..end + 3].copy_from_slice(format!("{:03}", sum % 256).as_bytes());
            c.read(5, other);
        }
        c.read(5, &whole[..i]);
    }
    c.read(5, [whole.as_slice(), b"8"].concat());
}

/// The limits: 4,096 bytes, 1,017 fields with 35, a digit more of the body length; any byte as a text.
fn sizes(c: &mut Calls) {
    // Of 4,096 bytes, with as many fields as there can be, and of one byte more.
    for more in ["", "x"] {
        let body = format!("35=D|34=5|{}1=xxx{more}|", "1=x|".repeat(1014));
        c.body(5, &body);
        c.write(if more.is_empty() { MOST_FRAME + 2 } else { 40 }, "D", &body[5..]);
    }
    for n in [99, 100, 999, 1000] {
        let body = format!("35=D|34=5|58={}|", "y".repeat(n - 14));
        if n % 100 == 0 {
            c.write_body(&body);
        } else {
            c.body(5, &body);
        }
    }
    let all: Vec<u8> = (0..=255).filter(|&b| b != SOH).collect();
    c.read(5, framed(&[b"35=D\x0134=5\x0158=".as_slice(), &all, b"\x01"].concat()));
    let data: Vec<u8> = (0..=255).collect();
    c.read(5, framed(&[b"35=D\x0134=5\x0195=256\x0196=".as_slice(), &data, b"\x01"].concat()));
}

/// A session: the caller applies resets, else the number that a read leaves goes into the next one.
fn session(c: &mut Calls) {
    const HEAD: &str = "49=FUND|56=BROKER|52=now|";
    for (expected, rest) in [
        (1, "35=A|34=1|98=0|108=30|"),
        (2, "35=0|34=2|"),
        (3, "35=0|34=5|"),
        (3, "35=2|34=6|7=1|16=0|"),
        (3, "35=0|34=3|43=Y|"),
        (4, "35=4|34=4|43=Y|123=Y|36=7|"),
        // The caller took the gap fill's number.
        (7, "35=0|34=6|43=Y|"),
        (7, "35=0|34=6|"),
        (7, "35=1|34=7|112=are you there|"),
        (8, "35=4|34=1|36=20|"),
        // The caller applied the reset.
        (20, "35=0|34=8|"),
        (20, "35=5|34=20|"),
    ] {
        let (kind, own) = rest.split_at(5);
        c.body(expected, &format!("{kind}{HEAD}{own}"));
    }
}

/// Written: 28 before 18 before 29; the output behind a frame stays.
fn written(c: &mut Calls) {
    let order = "34=5|";
    for room in [0, 31, 32, 33, 40] {
        c.write(room, "D", order);
    }
    for (name, run) in [
        ("", order),
        ("|", order),
        ("D|", order),
        ("D|34=5", "58=x|"),
        ("D", "34=5"),
        ("D", "34=5|58=|"),
        ("D", "34=5|58=a|b|"),
        ("D", "34=5|058=a|"),
        ("D", "34=5|1000000000=a|"),
        ("D", "34=x|"),
        ("D", "34=5|95=2|96=abc|"),
        ("2", "49=F|56=B|34=5|52=now|7=4|16=3|"),
        ("A", "49=F|56=B|34=5|52=now|98=x|108=30|"),
    ] {
        c.write(0, name, run);
        c.write(120, name, run);
    }
    for (name, run) in [("D", ""), ("D", "34=5|34=5|"), ("D", "34=5|43=Y|43=Y|"), ("0", "34=5|"), ("D", "34=5|10=187|")]
    {
        c.write(20, name, run);
        c.write(80, name, run);
    }
    c.write(100, "A", "49=F|56=B|34=5|52=now|98=0|108=30|95=5|96=a|b=c|");
    c.write(60, "D", "34=005|58=kept as it stands|");
}

/// Fields by index and by tag, in whole runs and in others.
fn queries(c: &mut Calls) {
    let logon = "49=FUND|56=BROKER|34=005|52=now|98=0|108=30|95=5|96=a|b=c|58=a|58=b|";
    for i in (0..13).chain([u32::MAX]) {
        c.index(i, logon);
    }
    for tag in [49, 56, 34, 52, 98, 108, 95, 96, 58, 43, 0, 9, 340, 999_999_999, u32::MAX] {
        c.tag(tag, logon);
    }
    for run in ["", "|", "34=5", "34=5|56", "34=5|=x|35=6|", "34=5|036=6|", "34=5|95=2|96=abc|36=6|", "34=5|36=|34=6|"]
    {
        for i in 0..3 {
            c.index(i, run);
        }
        c.tag(34, run);
        c.tag(36, run);
    }
    for text in ["0", "7", "000000007", "0000000007", "999999999", "1000000000", "x", "-7", "7 "] {
        c.tag(34, &format!("49=FUND|34={text}|"));
    }
}

pub fn calls() -> Vec<Call> {
    let mut c = Calls(vec![]);
    by_hand(&mut c);
    judged(&mut c);
    tags(&mut c);
    numbers(&mut c);
    damaged(&mut c);
    sizes(&mut c);
    session(&mut c);
    written(&mut c);
    queries(&mut c);
    c.0
}

/// Standard input and output of `fixcheck`.
pub fn files() -> (Vec<u8>, String) {
    let calls = calls();
    (calls.iter().flat_map(Call::bytes).collect(), calls.iter().map(|call| call.line() + "\n").collect())
}
