//! Our reader of frames beside QuickFIX: `quickfix ENGINE DICTIONARY [FRAMES [SEED]]`. ENGINE says what it makes of each frame
//! (../quickfix/engine.cpp). Frames that one side takes and the other doesn't, and judgements that differ, are counted by reason
//! (../quickfix/README.md); any difference without one makes the run fail. `quickfix frames [FRAMES [SEED]]` writes frames of the six
//! types that both sides take to standard output, for the engine to be timed with.

use reader::fix::{framed, length_tag, number, numbers, plain_number, read, required, Judgement, MOST_FRAME, SOH};
use reader::fix_cases::{traps, worked};
use reader::fix_frames::{expected_input, frame_input, right, Form, FORMS};
use reader::generate::Random;
use std::collections::BTreeMap;
use std::io::Write;
use std::process::{Command, Stdio};

struct Input {
    bytes: Vec<u8>,
    expected: u32,
}

// --- Frames that only the engine takes ---

/// What the engine lets pass.
const LENIENT: [&str; 8] = [
    "zeros in front of a tag or of the body length",
    "checksum not in three digits",
    "more than 4,096 bytes",
    "a number of ten digits or more, or with '-'",
    "last below first",
    "data apart from its length",
    "another byte than the separator behind data",
    "an empty text in a group",
];
const ZEROS: usize = 0;
const SUM: usize = 1;
const SIZE: usize = 2;
const LONG: usize = 3;
const RUN: usize = 4;
const APART: usize = 5;
const OPEN: usize = 6;
const EMPTY: usize = 7;

/// The engine's number: '-' or not, digits, as 32 bits hold it.
fn engine_number(text: &[u8]) -> Option<i32> {
    let (digits, minus) = match text.strip_prefix(b"-") {
        Some(digits) => (digits, true),
        None => (text, false),
    };
    if digits.is_empty() || !digits.iter().all(u8::is_ascii_digit) {
        return None;
    }
    let n = digits.iter().fold(0i32, |n, b| n.wrapping_mul(10).wrapping_add(i32::from(b - b'0')));
    Some(if minus { n.wrapping_neg() } else { n })
}

/// Our reader without the checks that `may` lets off; whether it takes the frame (30 aside).
fn lenient(bytes: &[u8], may: [bool; 8]) -> bool {
    lenient_read(bytes, may).is_some()
}

fn lenient_read(bytes: &[u8], may: [bool; 8]) -> Option<()> {
    let until = |from: usize, stop: u8| bytes[from..].iter().position(|&b| b == stop).map(|n| from + n);
    // A tag or the body length.
    let plain = |from: usize, to: usize| {
        let zeros = bytes[from..to].iter().take_while(|&&b| may[ZEROS] && b == b'0').count();
        plain_number(&bytes[from + zeros..to])
    };
    let from = bytes.len() - bytes.strip_prefix(b"8=FIX.4.2\x019=")?.len();
    let to = until(from, SOH)?;
    let length = plain(from, to)? as usize;
    let (body, end) = (to + 1, to + 1 + length);
    let trailer = bytes.get(end..)?.strip_prefix(b"10=")?.strip_suffix(&[SOH])?;
    let sum = bytes[..end].iter().fold(0, |sum: u8, &b| sum.wrapping_add(b));
    let right = if may[SUM] {
        engine_number(trailer) == Some(i32::from(sum))
    } else {
        trailer == format!("{sum:03}").as_bytes()
    };
    if !right || (!may[SIZE] && bytes.len() > MOST_FRAME) {
        return None;
    }
    // The cut.
    let mut fields: Vec<(u32, &[u8])> = vec![];
    let mut at = body;
    while at < end {
        let equal = until(at, b'=').filter(|&i| i < end)?;
        let tag = plain(at, equal)?;
        let start = equal + 1;
        let stop = match length_tag(tag) {
            None => until(start, SOH)?,
            Some(of) => {
                let before = if may[APART] {
                    fields.iter().rfind(|field| field.0 == of)
                } else {
                    fields.last().filter(|field| field.0 == of)
                };
                let text = before?.1;
                let n = if may[LONG] { engine_number(text)? } else { number(text)? as i32 };
                start + usize::try_from(n).ok()?
            }
        };
        let open = may[OPEN] && length_tag(tag).is_some();
        let empty = may[EMPTY] && [372, 385].contains(&tag) && fields.iter().any(|field| field.0 == 384);
        if (stop == start && !empty) || stop >= end || (bytes[stop] != SOH && !open) {
            return None;
        }
        fields.push((tag, &bytes[start..stop]));
        at = stop + 1;
    }
    let (&(35, kind), fields) = fields.split_first()? else {
        return None;
    };
    // Numbers, lost run, required tags.
    for &(tag, text) in fields {
        let right = if may[LONG] { engine_number(text).is_some() } else { number(text).is_some() };
        if numbers(kind).contains(&tag) && !right {
            return None;
        }
    }
    let all =
        |wanted: u32| fields.iter().filter(move |field| field.0 == wanted).filter_map(|field| engine_number(field.1));
    if !may[RUN] && kind == b"2" && all(16).any(|last| last != 0 && all(7).any(|first| last < first)) {
        return None;
    }
    let times = |tag: u32| fields.iter().filter(|field| field.0 == tag).count();
    let once = |tag: u32| times(tag) == usize::from(![8, 9, 35, 10].contains(&tag));
    (required(kind).iter().all(|&tag| once(tag)) && times(43) <= 1).then_some(())
}

/// The leniencies without which the frame isn't taken; none where all of them don't suffice.
fn only_engine(bytes: &[u8]) -> Vec<usize> {
    if !lenient(bytes, [true; 8]) {
        return vec![];
    }
    let without = |i: usize| {
        let mut may = [true; 8];
        may[i] = false;
        may
    };
    (0..8).filter(|&i| !lenient(bytes, without(i))).collect()
}

// --- Frames that only we take ---

const HEADER: [u32; 25] =
    [8, 9, 35, 49, 56, 115, 128, 90, 91, 34, 50, 142, 57, 143, 116, 144, 129, 145, 43, 97, 52, 122, 347, 369, 370];
const TRAILER: [u32; 3] = [93, 89, 10];

/// The tags of a type in the dictionary.
fn own_tags(kind: &[u8]) -> Option<&'static [u32]> {
    Some(match kind {
        b"0" | b"1" => &[112],
        b"2" => &[7, 16],
        b"3" => &[45, 371, 372, 373, 58, 354, 355],
        b"4" => &[123, 36],
        b"5" => &[58, 354, 355],
        b"A" => &[98, 108, 95, 96, 141, 383, 384],
        _ => return None,
    })
}

type Pairs<'a> = [(u32, &'a [u8])];

fn has(fields: &Pairs, tag: u32) -> bool {
    fields.iter().any(|field| field.0 == tag)
}

/// Header, body, trailer not in this order.
fn out_of_order(fields: &Pairs) -> bool {
    let part = |tag: u32| match tag {
        tag if HEADER.contains(&tag) => 0,
        tag if TRAILER.contains(&tag) => 2,
        _ => 1,
    };
    fields.windows(2).any(|two| part(two[0].0) > part(two[1].0))
}

/// The fields outside of groups, and how many groups the engine counts behind 384 in a logon: 372 begins one, and so does 385 where it is
/// the first or the second in a row.
fn split_groups<'a>(kind: &[u8], fields: &Pairs<'a>) -> (Vec<(u32, &'a [u8])>, usize) {
    let (mut rest, mut groups, mut inside, mut whole) = (vec![], 0, false, true);
    for &(tag, text) in fields {
        inside = kind == b"A" && (tag == 384 || (inside && [372, 385].contains(&tag)));
        match tag {
            372 if inside => {
                groups += 1;
                whole = false;
            }
            385 if inside => {
                groups += usize::from(whole);
                whole = true;
            }
            _ => {
                rest.push((tag, text));
                whole = true;
            }
        }
    }
    (rest, groups)
}

fn repeated(fields: &Pairs) -> bool {
    fields.iter().enumerate().any(|(i, field)| has(&fields[..i], field.0))
}

/// A time as the engine takes it: with a fraction of up to nine digits, or without.
fn time(text: &[u8]) -> bool {
    let (seconds, fraction) = text.split_at(text.len().min(17));
    let two = |at: usize| seconds[at..at + 2].iter().fold(0, |n, b| n * 10 + u32::from(b.wrapping_sub(b'0')));
    let digit = |b: &u8| b.is_ascii_digit();
    seconds.len() == 17
        && b"dddddddd-dd:dd:dd".iter().zip(seconds).all(|(&f, b)| if f == b'd' { digit(b) } else { f == *b })
        && (1..=12).contains(&two(4))
        && (1..=31).contains(&two(6))
        && two(9) < 24
        && two(12) < 60
        && two(15) <= 60
        && (fraction.is_empty()
            || (fraction[0] == b'.' && (2..=10).contains(&fraction.len()) && fraction[1..].iter().all(digit)))
}

/// A text that the dictionary has another form or range for.
fn odd_value(&(tag, text): &(u32, &[u8])) -> bool {
    match tag {
        43 | 97 | 123 | 141 => text != b"Y" && text != b"N",
        52 | 122 | 370 => !time(text),
        98 => !(text.len() == 1 && (b'0'..=b'6').contains(&text[0])),
        385 => text != b"S" && text != b"R",
        347 => ![b"ISO-2022-CN".as_slice(), b"UTF-8", b"GBK", b"GB2312"].contains(&text),
        7 | 16 | 34 | 36 | 45 | 90 | 93 | 95 | 108 | 354 | 369 | 371 | 373 | 383 | 384 => engine_number(text).is_none(),
        _ => false,
    }
}

/// What the engine says of frames, and the reason that it stands for.
const STRICT: [(&str, &str); 9] = [
    ("Invalid Message Type", "a type not in the dictionary"),
    ("Tag specified out of required order", "header, body and trailer in another order"),
    ("Required tag missing", "another type without a tag of its table"),
    ("Repeated tag not part of repeating group", "a tag twice that isn't required"),
    ("Incorrect data format for value", "a text of another form or range"),
    ("Value is incorrect (out of range) for this tag", "a text of another form or range"),
    ("Invalid tag number", "an unlisted tag"),
    ("Tag not defined for this message type", "an unlisted tag"),
    ("Repeating group count mismatch", "a group that isn't as counted"),
];

/// Whether a reason is there.
fn strict(reason: &str, kind: &[u8], fields: &Pairs) -> bool {
    let own = own_tags(kind);
    let known = |tag: u32| HEADER.contains(&tag) || TRAILER.contains(&tag) || own.is_some_and(|own| own.contains(&tag));
    let (rest, groups) = split_groups(kind, fields);
    match reason {
        "a type not in the dictionary" => own.is_none(),
        "header, body and trailer in another order" => out_of_order(fields),
        "another type without a tag of its table" => {
            kind == b"3" && [49, 56, 52, 45].iter().any(|&tag| !has(fields, tag))
        }
        "a tag twice that isn't required" => repeated(&rest),
        "a text of another form or range" => rest.iter().any(odd_value),
        // Outside of their group its tags are unlisted too.
        "an unlisted tag" => rest.iter().any(|field| !known(field.0)),
        "a group that isn't as counted" => {
            let count = fields.iter().find(|field| field.0 == 384).and_then(|field| engine_number(field.1));
            count.is_some_and(|count| count != groups as i32)
        }
        _ => false,
    }
}

/// The reason that the engine gives, if it is there.
fn only_we(why: &str, kind: &[u8], fields: &Pairs) -> Option<&'static str> {
    let &(_, reason) = STRICT.iter().find(|(says, _)| why.starts_with(says))?;
    strict(reason, kind, fields).then_some(reason)
}

// --- The judgement ---

// What a session of the engine does otherwise.
const NO_FIRST_TIME: &str = "a lower number with 43=Y and no 122: rejected";
const FIRST_TIME_LATER: &str = "a lower number with 43=Y and 122 after 52: rejected";
const LOWERING: &str = "a reset or gap fill that lowers the number: rejected";
const LOGOUT: &str = "a logout: taken with any number";
const RESEND_REQUEST: &str = "a resend request: taken with any number";
const RESET: &str = "a reset: applied";
const GAP_FILL: &str = "a gap fill: applied";
const RESET_LOGON: &str = "141=Y: applied";
const JUDGED: [&str; 8] =
    [NO_FIRST_TIME, FIRST_TIME_LATER, LOWERING, LOGOUT, RESEND_REQUEST, RESET, GAP_FILL, RESET_LOGON];

/// What a session of the engine that expects the number does: the types of what it sends, the number expected afterwards, and why it
/// isn't what we answer. `*` stands for whatever it sends again.
fn session(kind: &[u8], fields: &Pairs, expected: u32) -> (&'static str, u32, Option<&'static str>) {
    let text = |tag: u32| fields.iter().find(|field| field.0 == tag).map(|field| field.1);
    let yes = |tag: u32| text(tag) == Some(b"Y");
    let n = text(34).and_then(number).unwrap_or(0);
    let new = text(36).and_then(number).unwrap_or(0);
    // Before a session has started nothing is rejected.
    let reject = if kind == b"A" { ["-", "-"] } else { ["3", "35"] };
    let lower = || match (yes(43), kind, text(122)) {
        (false, ..) => ("5", expected, None),
        (true, b"4", _) => ("-", expected, None),
        (true, _, None) => (reject[0], expected, Some(NO_FIRST_TIME)),
        (true, _, Some(first)) if Some(first) > text(52) => (reject[1], expected, Some(FIRST_TIME_LATER)),
        _ => ("-", expected, None),
    };
    let applied = |by: &'static str| match new.cmp(&expected) {
        std::cmp::Ordering::Less => ("3", expected, Some(LOWERING)),
        _ => ("-", new, Some(by)),
    };
    match kind {
        b"5" if n == expected => ("5", expected + 1, None),
        b"5" => ("5", expected + 1, Some(LOGOUT)),
        b"2" if n == expected => ("*", expected + 1, None),
        b"2" => ("*", expected, Some(RESEND_REQUEST)),
        b"4" if !yes(123) => applied(RESET),
        b"A" if yes(141) && n >= 1 => ("A", 2, Some(RESET_LOGON)),
        b"A" if yes(141) => (if yes(43) { "-" } else { "5" }, 1, Some(RESET_LOGON)),
        b"A" if n > expected => ("A2", expected, None),
        _ if n < expected => lower(),
        _ if n > expected => ("2", expected, None),
        b"4" => applied(GAP_FILL),
        b"A" => ("A", expected + 1, None),
        b"1" => ("0", expected + 1, None),
        _ => ("-", expected + 1, None),
    }
}

// --- The run ---

fn shown(bytes: &[u8]) -> String {
    let text: Vec<u8> = bytes.iter().map(|&b| if b == SOH { b'|' } else { b }).collect();
    text.escape_ascii().to_string()
}

#[derive(Default)]
struct Run {
    counts: BTreeMap<(&'static str, String), u64>,
    failures: u64,
}

impl Run {
    fn count(&mut self, what: &'static str, reason: impl Into<String>) {
        *self.counts.entry((what, reason.into())).or_default() += 1;
    }

    fn fail(&mut self, why: &str, input: &Input, said: &str) {
        self.failures += 1;
        if self.failures <= 10 {
            println!("{why}, expected {}: {}", input.expected, shown(&input.bytes));
            println!(
                "  QuickFIX: {said}\n  reader:   {:?}",
                read(&input.bytes, input.expected).found.map(|m| m.judgement)
            );
        }
    }

    fn frame(&mut self, input: &Input, said: &str) {
        let (what, why) = said.split_once(' ').unwrap_or((said, ""));
        // The type and fields, whatever the number is: none is below 0.
        if lenient(&input.bytes, [false; 8]) != read(&input.bytes, 0).found.is_ok() {
            self.fail("both forms of the reader differ", input, said);
        }
        let found = match read(&input.bytes, 0).found {
            Ok(message) => message,
            Err(_) => {
                match what {
                    "taken" => {
                        let reasons = only_engine(&input.bytes);
                        if reasons.is_empty() {
                            self.fail("only QuickFIX takes it", input, said);
                        }
                        let names: Vec<&str> = reasons.iter().map(|&i| LENIENT[i]).collect();
                        self.count("only QuickFIX takes", names.join(" and "));
                    }
                    "kept" => self.count("kept from QuickFIX", "refused by us"),
                    _ => self.count("the same", "both refuse"),
                }
                return;
            }
        };
        let fields: Vec<(u32, &[u8])> =
            found.fields.iter().map(|field| (field.tag, field.text(&input.bytes))).collect();
        match what {
            "kept" => self.count("kept from QuickFIX", "taken by us"),
            "taken" => {
                if STRICT.iter().any(|&(_, reason)| strict(reason, found.kind, &fields)) {
                    self.fail("it had to be refused", input, said);
                }
                self.count("the same", "both take");
                self.judged(input, found.kind, &fields, why);
            }
            "dictionary" => match only_we(why, found.kind, &fields) {
                Some(reason) => self.count("only we take", reason),
                None => self.fail("only we take it", input, said),
            },
            _ => self.fail("its framing layer refuses it", input, said),
        }
    }

    fn judged(&mut self, input: &Input, kind: &[u8], fields: &Pairs, facts: &str) {
        let words: Vec<&str> = facts.split(' ').collect();
        // Expected numbers that the engine doesn't have, and types that aren't one of the six.
        if words.len() != 3 || kind == b"3" {
            return;
        }
        let (sent, after, reason) = session(kind, fields, input.expected);
        let same_sent = sent == words[0] || (sent == "*" && words[0].bytes().all(|b| b == b'4' || b == b'-'));
        if !same_sent || words[1] != after.to_string() {
            self.fail(&format!("it had to send {sent} and expect {after}"), input, facts);
            return;
        }
        if let Some(reason) = reason {
            self.count("judged otherwise", reason);
            return;
        }
        // Where no reason is named, it does what our answer says.
        let answer = read(&input.bytes, input.expected);
        let does = match answer.found.map(|message| message.judgement) {
            Ok(Judgement::Next) => "next",
            Ok(Judgement::Gap) if words[0].ends_with('2') => "gap",
            Ok(Judgement::Again) if words[0] == "-" && words[2] == "0" => "again",
            Err(30) if words[0] == "5" && words[2] == "0" => "30",
            _ => "",
        };
        if does.is_empty() || after != answer.expected {
            self.fail("judged otherwise", input, facts);
        }
        self.count("judged the same", does);
    }
}

fn put(all: &mut Vec<u8>, input: &Input) {
    all.extend(input.expected.to_be_bytes());
    all.extend((input.bytes.len() as u32).to_be_bytes());
    all.extend(&input.bytes);
}

fn main() {
    let words: Vec<String> = std::env::args().skip(1).collect();
    let number = |i: usize, or: u64| words.get(i).map_or(or, |word| word.parse().expect("a number"));
    if words.first().is_some_and(|word| word == "frames") {
        let mut r = Random::new(number(2, 1));
        let mut all = vec![];
        let mut left = number(1, 1000);
        while left > 0 {
            let parts = right(&mut r);
            let fields = parts.pairs();
            // Data is left out: a length inside of it might be taken for another one.
            let data = fields.iter().any(|field| length_tag(field.0).is_some());
            if parts.kind != b"3" && !data && !STRICT.iter().any(|&(_, reason)| strict(reason, &parts.kind, &fields)) {
                put(&mut all, &Input { bytes: framed(&parts.body()), expected: 1 });
                left -= 1;
            }
        }
        std::io::stdout().write_all(&all).expect("standard output");
        return;
    }

    let mut inputs: Vec<Input> =
        worked().into_iter().chain(traps()).map(|case| Input { bytes: case.bytes, expected: case.expected }).collect();
    let mut r = Random::new(number(3, 1));
    for i in 0..number(2, 100_000) as usize {
        // Every other one is right but for its order and its texts.
        let form = if i % 2 == 0 { Form::Whole } else { FORMS[i / 2 % FORMS.len()] };
        let bytes = frame_input(&mut r, form);
        let expected = expected_input(&mut r, &bytes);
        inputs.push(Input { bytes, expected });
    }
    let mut all = vec![];
    inputs.iter().for_each(|input| put(&mut all, input));
    let mut child = Command::new(&words[0])
        .arg(&words[1])
        .stdin(Stdio::piped())
        .stdout(Stdio::piped())
        .spawn()
        .unwrap_or_else(|e| panic!("{}: {e}", words[0]));
    let mut input = child.stdin.take().expect("a pipe");
    let writer = std::thread::spawn(move || drop(input.write_all(&all)));
    let output = child.wait_with_output().expect("the engine's output");
    writer.join().expect("a writer");
    let text = String::from_utf8(output.stdout).expect("lines");
    let lines: Vec<&str> = text.lines().collect();
    assert!(output.status.success() && lines.len() == inputs.len(), "the engine broke off ({})", output.status);

    let mut run = Run::default();
    for (input, said) in inputs.iter().zip(lines) {
        run.frame(input, said);
    }
    // A run of some size meets every reason, so that none stands there for nothing.
    let reasons = LENIENT.iter().chain(STRICT.iter().map(|(_, reason)| reason)).chain(&JUDGED);
    let missing = |reason: &&&str| !run.counts.keys().any(|(_, met)| met.contains(**reason));
    let missing: Vec<&&str> = if inputs.len() < 50_000 { vec![] } else { reasons.filter(missing).collect() };
    if !missing.is_empty() {
        println!("not met: {missing:?}");
        run.failures += 1;
    }
    println!("{} frames beside QuickFIX, {} differences without a reason", inputs.len(), run.failures);
    for ((what, reason), n) in &run.counts {
        println!("  {what}: {reason} {n}");
    }
    if run.failures > 0 {
        std::process::exit(1);
    }
}
