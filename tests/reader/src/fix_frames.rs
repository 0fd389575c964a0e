//! Frames of JR/T 0087-2012 for tests, from fixed seeds: whole ones of the six types and others, and wrong ones.

use crate::fix::{framed, length_tag, number, numbers, Pair, MOST_FRAME, SOH};
use crate::generate::Random;

/// What an input is like.
#[derive(Clone, Copy, Debug, PartialEq, Eq, PartialOrd, Ord)]
pub enum Form {
    /// Right, of one of the six types or another; texts that nothing is said about may be odd.
    Whole,
    /// Tags missing, repeated, or of the frame itself.
    Tags,
    /// Texts that aren't numbers, and lost runs that end before they begin.
    Numbers,
    /// Data with another length, apart from its length, or without.
    Data,
    /// Several of these.
    Several,
    /// The frame is wrong: length, sum, begin, end, cut, joined.
    Framing,
    /// Bytes changed, put in or left out, before the frame is made or afterwards.
    Bytes,
    /// Sizes about 4,096 and where the body length gets a digit more.
    Size,
    /// Bytes of any kind, in a frame or not.
    Random,
}

pub const FORMS: [Form; 9] = [
    Form::Whole,
    Form::Tags,
    Form::Numbers,
    Form::Data,
    Form::Several,
    Form::Framing,
    Form::Bytes,
    Form::Size,
    Form::Random,
];

/// Data tags, each behind its length tag.
const DATA: [(u32, u32); 4] = [(90, 91), (93, 89), (95, 96), (354, 355)];

const SIX: [&[u8]; 6] = [b"0", b"1", b"2", b"4", b"5", b"A"];
const TIME: &[u8] = b"20121226-01:00:00";

/// A type and its fields.
#[derive(Clone, Debug, Default, PartialEq, Eq)]
pub struct Parts {
    pub kind: Vec<u8>,
    pub fields: Vec<(u32, Vec<u8>)>,
}

impl Parts {
    pub fn pairs(&self) -> Vec<Pair<'_>> {
        self.fields.iter().map(|(tag, text)| (*tag, text.as_slice())).collect()
    }

    /// The fields as one run of bytes.
    pub fn run(&self) -> Vec<u8> {
        let mut run = Vec::with_capacity(256);
        for (tag, text) in &self.fields {
            run.extend(tag.to_string().bytes());
            run.push(b'=');
            run.extend(text);
            run.push(SOH);
        }
        run
    }

    pub fn body(&self) -> Vec<u8> {
        [b"35=", self.kind.as_slice(), &[SOH], &self.run()].concat()
    }

    fn add(&mut self, tag: u32, text: impl Into<Vec<u8>>) {
        self.fields.push((tag, text.into()));
    }

    fn add_data(&mut self, length: u32, data: u32, bytes: Vec<u8>) {
        self.add(length, bytes.len().to_string());
        self.add(data, bytes);
    }

    fn place(&self, tag: u32) -> Option<usize> {
        self.fields.iter().position(|field| field.0 == tag)
    }

    /// Puts a field somewhere.
    fn insert(&mut self, r: &mut Random, tag: u32, text: impl Into<Vec<u8>>) {
        let at = r.below(self.fields.len() + 1);
        self.fields.insert(at, (tag, text.into()));
    }

    fn any(&self, r: &mut Random) -> Option<usize> {
        (!self.fields.is_empty()).then(|| r.below(self.fields.len()))
    }
}

// --- Texts ---

fn name(r: &mut Random) -> Vec<u8> {
    if r.once_in(2) {
        return r.pick::<&[u8]>(&[b"FUND", b"BROKER"]).to_vec();
    }
    let n = r.within(1, 12);
    (0..n).map(|_| b'A' + r.below(26) as u8).collect()
}

/// A text without a separator: letters, any bytes, or one that looks like fields.
fn text(r: &mut Random) -> Vec<u8> {
    let n = r.within(1, 20);
    match r.below(8) {
        0 => r.bytes(n).iter().map(|&b| if b == SOH { b'=' } else { b }).collect(),
        1 => r.pick::<&[u8]>(&[b"=", b"10=123", b"34=5", b"8=FIX.4.2", b"Y", b"0", b" "]).to_vec(),
        2 => (0..n).map(|_| 0xA1 + r.below(0x5E) as u8).collect(),
        _ => (0..n).map(|_| b'a' + r.below(26) as u8).collect(),
    }
}

/// Data: separators may be inside.
fn data(r: &mut Random) -> Vec<u8> {
    let n = if r.once_in(20) { r.within(1, 300) } else { r.within(1, 12) };
    match r.below(4) {
        0 => r.bytes(n),
        1 => (0..n).map(|_| r.pick(&[SOH, b'=', b'1', b'0', b'3', b'4', b'a'])).collect(),
        2 => r.pick::<&[u8]>(&[b"\x01", b"\x0110=123\x01", b"a\x0134=7", b"=\x01\x01", b"x\x0143=Y\x01"]).to_vec(),
        _ => (0..n).map(|_| b'a' + r.below(26) as u8).collect(),
    }
}

/// A number's digits: mostly small, at times with zeros in front or as great as can be.
fn digits(r: &mut Random) -> Vec<u8> {
    let n = match r.below(12) {
        0 => r.pick(&[0, 1, 9, 10, 99_999_999, 100_000_000, 999_999_998, 999_999_999]),
        1 => r.below(1_000_000_000),
        _ => r.within(1, 20),
    };
    match r.below(8) {
        0 => format!("{n:0width$}", width = r.within(1, 9)).into_bytes(),
        _ => n.to_string().into_bytes(),
    }
}

/// Digits and others that aren't a number.
fn no_number(r: &mut Random) -> Vec<u8> {
    let texts: [&[u8]; 20] = [
        b"x",
        b"-1",
        b"-5",
        b"+5",
        b"5.0",
        b" 5",
        b"5 ",
        b"5x",
        b"0000000000",
        b"0000000005",
        b"0000000003",
        b"1000000000",
        b"9999999999",
        b"4294967296",
        b"4294967301",
        b"18446744073709551621",
        b"00000000000000000000000000000000005",
        b":",
        b"/",
        b"0x5",
    ];
    r.pick(&texts).to_vec()
}

fn flag(r: &mut Random) -> Vec<u8> {
    match r.below(16) {
        0 => r.pick::<&[u8]>(&[b"YY", b"y", b"X", b"n", b"YN", b"1", b" Y"]).to_vec(),
        1..=6 => b"N".to_vec(),
        _ => b"Y".to_vec(),
    }
}

fn time(r: &mut Random) -> Vec<u8> {
    match r.below(16) {
        0 => r.pick::<&[u8]>(&[b"now", b"20121226", b"20121226-25:00:00", b"20121226-01:00:00.1"]).to_vec(),
        1 => b"20121226-01:00:00.123".to_vec(),
        _ => TIME.to_vec(),
    }
}

// --- Right messages ---

/// Puts each data field directly behind its length.
fn rejoin(parts: &mut Parts) {
    for (length, data) in DATA {
        if let Some(at) = parts.place(data) {
            let field = parts.fields.remove(at);
            let at = parts.place(length).map_or(0, |at| at + 1);
            parts.fields.insert(at, field);
        }
    }
}

/// A message that is right: header, fields of its type, own fields, trailer; now and then in another order.
pub fn right(r: &mut Random) -> Parts {
    let kind = match r.below(24) {
        0 => {
            let n = r.within(1, 3);
            r.bytes(n).iter().map(|&b| if b == SOH { 0 } else { b }).collect()
        }
        1..=4 => r.pick::<&[u8]>(&[b"D", b"8", b"3", b"UF001", b"UFX", b"a", b"AA", b"00", b"44", b"B", b"="]).to_vec(),
        _ => r.pick(&SIX).to_vec(),
    };
    let mut parts = Parts { kind, fields: Vec::with_capacity(16) };
    let six = SIX.contains(&parts.kind.as_slice());
    let bare = !six && r.once_in(2);
    if !bare {
        parts.add(49, name(r));
        parts.add(56, name(r));
    }
    parts.add(34, digits(r));
    if !bare {
        parts.add(52, time(r));
    }
    if r.once_in(3) {
        parts.add(43, flag(r));
    }
    if r.once_in(4) {
        parts.add(122, time(r));
    }
    if r.once_in(3) {
        let tag = r.pick(&[115, 128, 50, 142, 57, 143, 116, 144, 129, 145, 347]);
        parts.add(tag, name(r));
    }
    if r.once_in(8) {
        parts.add(97, flag(r));
    }
    if r.once_in(8) {
        parts.add(369, digits(r));
    }
    if r.once_in(16) {
        parts.add(370, time(r));
    }
    if r.once_in(8) {
        let bytes = data(r);
        parts.add_data(90, 91, bytes);
    }
    own(r, &mut parts);
    if r.once_in(8) {
        let (tag, text) = (r.pick(&[5000, 8088, 8001, 1, 58, 36, 7, 999_999_999, 100_000_000]), text(r));
        if !numbers(&parts.kind).contains(&tag) {
            parts.insert(r, tag, text);
            rejoin(&mut parts);
        }
    }
    if r.once_in(8) {
        let bytes = data(r);
        parts.add_data(93, 89, bytes);
    }
    if r.once_in(8) {
        r.shuffle(&mut parts.fields);
        rejoin(&mut parts);
    }
    parts
}

/// The fields of its type.
fn own(r: &mut Random, parts: &mut Parts) {
    match parts.kind.as_slice() {
        b"A" => {
            parts.add(98, if r.once_in(12) { digits(r) } else { b"0".to_vec() });
            parts.add(108, digits(r));
            if r.once_in(2) {
                let bytes = data(r);
                parts.add_data(95, 96, bytes);
            }
            if r.once_in(4) {
                parts.add(141, flag(r));
            }
            if r.once_in(4) {
                parts.add(383, digits(r));
            }
            if r.once_in(6) {
                let n = r.within(1, 3);
                parts.add(384, n.to_string());
                for _ in 0..n {
                    parts.add(372, r.pick::<&[u8]>(&[b"D", b"8", b"UF001"]));
                    parts.add(385, r.pick::<&[u8]>(&[b"S", b"R"]));
                }
            }
        }
        b"1" => parts.add(112, text(r)),
        b"0" if r.once_in(2) => parts.add(112, text(r)),
        b"2" => {
            let first = digits(r);
            let last = match r.below(3) {
                0 => b"0".to_vec(),
                1 => first.clone(),
                _ => (number(&first).unwrap_or(0) + r.below(9) as u32).min(999_999_999).to_string().into_bytes(),
            };
            parts.add(7, first);
            parts.add(16, last);
        }
        b"4" => {
            if r.once_in(2) {
                parts.add(123, flag(r));
            }
            parts.add(36, digits(r));
        }
        b"5" => {
            if r.once_in(2) {
                parts.add(58, text(r));
            }
            if r.once_in(3) {
                let bytes = data(r);
                parts.add_data(354, 355, bytes);
            }
        }
        _ if r.once_in(2) => {
            let (tag, bytes) = (r.pick(&[95, 354]), data(r));
            parts.add_data(tag, tag + 1, bytes);
        }
        _ => {}
    }
}

// --- Wrong messages ---

fn wrong_tags(r: &mut Random, parts: &mut Parts) {
    let Some(at) = parts.any(r) else {
        return;
    };
    match r.below(8) {
        0..=2 => drop(parts.fields.remove(at)),
        3 | 4 => {
            let (tag, text) = parts.fields[at].clone();
            parts.insert(r, tag, text);
        }
        5 => {
            let (tag, text) = (r.pick(&[8, 9, 35, 10, 34, 49, 52, 56]), digits(r));
            parts.insert(r, tag, text);
        }
        6 => {
            for _ in 0..r.within(1, 2) {
                let text = flag(r);
                parts.insert(r, 43, text);
            }
        }
        _ => {
            let (tag, text) = (r.pick(&[123, 98, 108, 112, 7, 16, 36, 141]), digits(r));
            parts.insert(r, tag, text);
        }
    }
}

fn wrong_number(r: &mut Random, parts: &mut Parts) {
    if parts.kind == b"2" && r.once_in(2) {
        for _ in 0..r.within(1, 2) {
            let tag = r.pick(&[7, 16]);
            let text = digits(r);
            match parts.place(tag) {
                Some(at) if !r.once_in(4) => parts.fields[at].1 = text,
                _ => parts.insert(r, tag, text),
            }
        }
        return;
    }
    let listed: Vec<usize> =
        (0..parts.fields.len()).filter(|&i| numbers(&parts.kind).contains(&parts.fields[i].0)).collect();
    if listed.is_empty() || r.once_in(6) {
        let tag = r.pick(&[34, 36, 7, 16, 90, 93, 95, 98, 108, 354, 369, 383, 384]);
        let text = no_number(r);
        parts.insert(r, tag, text);
    } else {
        parts.fields[listed[r.below(listed.len())]].1 = no_number(r);
    }
}

fn wrong_data(r: &mut Random, parts: &mut Parts) {
    let (length, tag) = r.pick(&DATA);
    let at = match DATA.iter().find_map(|pair| parts.place(pair.1)) {
        Some(at) if at > 0 => at,
        _ => {
            let bytes = data(r);
            parts.add_data(length, tag, bytes);
            parts.fields.len() - 1
        }
    };
    let n = parts.fields[at].1.len();
    let of = length_tag(parts.fields[at].0).unwrap_or(length);
    match r.below(10) {
        0 => parts.fields[at - 1].1 = (n + 1).to_string().into_bytes(),
        1 => parts.fields[at - 1].1 = n.saturating_sub(1).to_string().into_bytes(),
        2 => parts.fields[at - 1].1 = r.below(n + 9).to_string().into_bytes(),
        3 => parts.fields[at - 1].1 = format!("{n:0width$}", width = r.within(2, 11)).into_bytes(),
        4 => parts.fields[at - 1].1 = no_number(r),
        5 => {
            let between = match r.below(4) {
                0 => (383, digits(r)),
                1 => (length, digits(r)),
                _ => (r.pick(&[58, 112, 5000]), text(r)),
            };
            parts.fields.insert(at, between);
        }
        6 => parts.fields.swap(at - 1, at),
        7 => drop(parts.fields.remove(at - 1)),
        8 => {
            // Another length in front, or one that no data follows.
            let text = digits(r);
            parts.fields.insert(at - 1, (of, text));
        }
        _ => parts.fields[at].1.clear(),
    }
}

/// A message of a form; what only frames can be like is left to `frame_input`.
fn message(r: &mut Random, form: Form) -> Parts {
    let mut parts = right(r);
    match form {
        Form::Tags => wrong_tags(r, &mut parts),
        Form::Numbers => wrong_number(r, &mut parts),
        Form::Data => wrong_data(r, &mut parts),
        Form::Several => {
            for _ in 0..r.within(2, 3) {
                match r.below(3) {
                    0 => wrong_tags(r, &mut parts),
                    1 => wrong_number(r, &mut parts),
                    _ => wrong_data(r, &mut parts),
                }
            }
        }
        Form::Size => size(r, &mut parts),
        _ => {}
    }
    parts
}

/// Fills up to a length: by one text, by data, by as many fields as there can be.
fn size(r: &mut Random, parts: &mut Parts) {
    let target = r.pick(&[9, 10, 11, 99, 100, 101, 999, 1000, 1001, 4070, 4071, 4072, 4073, 4074, 4095, 4096, 5000]);
    if target < 100 {
        parts.kind = b"D".to_vec();
        parts.fields.retain(|field| field.0 == 34);
    }
    let left = target.max(parts.body().len()) - parts.body().len();
    match r.below(3) {
        0 if left > 40 => {
            let digits = (left - 8).to_string();
            let mut bytes = r.bytes(left - 8 - digits.len());
            if r.once_in(4) {
                bytes.pop();
            }
            parts.add_data(95, 96, bytes);
        }
        1 => {
            for _ in 0..left / 4 {
                parts.add(1, b"x");
            }
            let rest = left % 4;
            if let Some(last) = parts.fields.last_mut().filter(|last| last.0 == 1) {
                last.1.resize(1 + rest, b'x');
            }
        }
        _ if left > 4 => parts.add(58, vec![b'x'; left - 4]),
        _ => {}
    }
}

// --- Inputs ---

/// Type and fields to be written: besides what frames can be like, empty texts and types, separators in texts, tags out of range.
pub fn parts_input(r: &mut Random, form: Form) -> Parts {
    let mut parts = message(r, form);
    match form {
        Form::Framing => {
            let at = parts.any(r);
            match (r.below(5), at) {
                (0, _) => parts.kind = r.pick::<&[u8]>(&[b"", b"\x01", b"A\x01", b"0\x0134=5", b"\x010"]).to_vec(),
                (1, Some(at)) => parts.fields[at].1.clear(),
                (2, Some(at)) => parts.fields[at].0 = r.pick(&[0, 1_000_000_000, u32::MAX, 999_999_999, 1 << 31]),
                (_, Some(at)) => {
                    let text = &mut parts.fields[at].1;
                    let place = r.below(text.len() + 1);
                    let more = r.pick::<&[u8]>(&[b"\x01", b"\x0158=b", b"\x0110=123"]);
                    text.splice(place..place, more.iter().copied());
                }
                _ => {}
            }
        }
        Form::Bytes => {
            if let Some(at) = parts.any(r) {
                parts.fields[at].1 = if r.once_in(2) { data(r) } else { text(r) };
            }
        }
        Form::Random => {
            parts.fields.clear();
            for _ in 0..r.below(6) {
                let tag = r.pick(&[34, 43, 95, 96, 49, 7, 16, 36, 52, 56, 112, 123, 90, 91]);
                let text = if r.once_in(2) { digits(r) } else { data(r) };
                parts.add(tag, text);
            }
        }
        _ => {}
    }
    parts
}

fn change(r: &mut Random, bytes: &mut Vec<u8>) {
    for _ in 0..r.within(1, 3) {
        if bytes.is_empty() {
            return;
        }
        let at = r.below(bytes.len());
        let b = if r.once_in(2) { r.byte() } else { r.pick(&[SOH, b'=', b'0', b'1', b'9', b'Y', b'-']) };
        match r.below(4) {
            0 => bytes.insert(at, b),
            1 => drop(bytes.remove(at)),
            2 => bytes[at] = bytes[at].wrapping_add(1),
            _ => bytes[at] = b,
        }
    }
}

/// A run of fields to be written with a type.
pub fn run_input(r: &mut Random, form: Form) -> (Vec<u8>, Vec<u8>) {
    let parts = parts_input(r, form);
    let mut run = parts.run();
    match form {
        Form::Bytes => change(r, &mut run),
        Form::Framing => odd_tag(r, &mut run),
        _ => {}
    }
    (parts.kind, run)
}

/// A tag that isn't written as it should be.
fn odd_tag(r: &mut Random, body: &mut Vec<u8>) {
    let starts: Vec<usize> =
        (0..body.len()).filter(|&i| body[i].is_ascii_digit() && (i == 0 || body[i - 1] == SOH)).collect();
    if starts.is_empty() {
        return;
    }
    let at = starts[r.below(starts.len())];
    let more = r.pick::<&[u8]>(&[b"0", b"00", b"-", b"+", b" ", b"1000000000", b"0000000000"]);
    body.splice(at..at, more.iter().copied());
}

/// The sum of a frame made right again, whatever else it is.
fn mend_sum(bytes: &mut [u8]) {
    if let Some(end) = bytes.len().checked_sub(7) {
        let sum = bytes[..end].iter().fold(0, |sum: u8, &b| sum.wrapping_add(b));
        let digits = format!("{sum:03}");
        bytes[end + 3..end + 6].copy_from_slice(digits.as_bytes());
    }
}

/// A frame around a body that isn't as it should be.
fn wrong_frame(r: &mut Random, body: &[u8]) -> Vec<u8> {
    let n = body.len();
    let with = |begin: &str, length: String| {
        let mut bytes = [begin.as_bytes(), length.as_bytes(), &[SOH], body, b"10=000\x01"].concat();
        mend_sum(&mut bytes);
        bytes
    };
    const BEGIN: &str = "8=FIX.4.2\x019=";
    let mut bytes = framed(body);
    let end = bytes.len() - 7;
    match r.below(16) {
        0 => with(BEGIN, format!("0{n}")),
        1 => with(BEGIN, format!("{n:09}")),
        2 => with(BEGIN, format!("{n:010}")),
        3 => with(BEGIN, (n + 1).to_string()),
        4 => with(BEGIN, n.saturating_sub(1).to_string()),
        5 => with(BEGIN, r.pick(&["0", "", "-1", "+10", "x", "999999999", "4294967306"]).to_string()),
        6 => {
            let begin = r.pick(&[
                "8=FIX.4.4\x019=",
                "8=CSIFP.1.0.0\x019=",
                "08=FIX.4.2\x019=",
                "8=FIX.4.2\x0109=",
                "8=fix.4.2\x019=",
                "8=FIX.4.2 \x019=",
                "9=",
                "8=FIX.4.2\x0134=5\x019=",
            ]);
            with(begin, n.to_string())
        }
        7 => {
            let at = end + 3 + r.below(3);
            bytes[at] = b'0' + (bytes[at] - b'0' + 1) % 10;
            bytes
        }
        8 => {
            // Another number of digits.
            let sum: u32 = bytes[..end].iter().map(|&b| u32::from(b)).sum();
            let wrong = match r.below(4) {
                0 => (sum % 256).to_string(),
                1 => format!("{:04}", sum % 256),
                2 => sum.to_string(),
                _ => format!("{:02}", sum % 256),
            };
            bytes.truncate(end + 3);
            bytes.extend(wrong.bytes());
            bytes.push(SOH);
            bytes
        }
        9 => {
            let more = r.byte();
            bytes.push(more);
            bytes
        }
        10 => {
            let more = r.pick::<&[u8]>(&[b"\x01", b"8", b"x", b"58=x\x01"]);
            bytes.splice(0..0, more.iter().copied());
            bytes
        }
        11 => {
            let more = right(r);
            bytes.extend(framed(&more.body()));
            bytes
        }
        12 => {
            let n = if r.once_in(2) { bytes.len() - 1 - r.below(8) } else { r.below(bytes.len()) };
            bytes.truncate(n);
            bytes
        }
        13 => {
            bytes[end..end + 3].copy_from_slice(r.pick(&[b"11=", b"010", b"10:", b"\x0110"]));
            bytes
        }
        14 => {
            let last = bytes.len() - 1;
            bytes[last] = r.pick(&[b'|', 0, 2, b'0']);
            bytes
        }
        _ => {
            let mut body = body.to_vec();
            odd_tag(r, &mut body);
            framed(&body)
        }
    }
}

/// Bytes to be read.
pub fn frame_input(r: &mut Random, form: Form) -> Vec<u8> {
    match form {
        Form::Framing => {
            let body = right(r).body();
            wrong_frame(r, &body)
        }
        Form::Bytes => {
            let mut body = right(r).body();
            if r.once_in(2) {
                change(r, &mut body);
                return framed(&body);
            }
            let mut bytes = framed(&body);
            change(r, &mut bytes);
            if r.once_in(2) {
                mend_sum(&mut bytes);
            }
            bytes
        }
        Form::Random => {
            let n = if r.once_in(16) { r.within(0, MOST_FRAME + 5) } else { r.below(80) };
            let bytes: Vec<u8> = match r.below(3) {
                0 => r.bytes(n),
                1 => (0..n).map(|_| r.pick(b"0123456789=\x01")).collect(),
                _ => {
                    let few = r.pick::<&[u8]>(&[b"35=0\x0134=5\x01", b"35=D\x0134=5\x01", b"35=4\x01", b""]);
                    let more = (0..n).map(|_| r.pick(b"3445=\x01"));
                    few.iter().copied().chain(more).collect()
                }
            };
            if r.once_in(4) {
                bytes
            } else {
                framed(&bytes)
            }
        }
        _ => framed(&message(r, form).body()),
    }
}

/// An expected number for some bytes: often about their 34.
pub fn expected_input(r: &mut Random, bytes: &[u8]) -> u32 {
    let sent = bytes.windows(4).position(|w| w == b"\x0134=").and_then(|at| {
        let text = bytes[at + 4..].split(|&b| b == SOH).next()?;
        number(text)
    });
    match (sent, r.below(16)) {
        (_, 0) | (None, _) => r.pick(&[0, 1, 2, 5, 999_999_999, 1_000_000_000, u32::MAX]),
        (_, 1) => r.number(u32::MAX),
        (Some(n), 2..=7) => n,
        (Some(n), 8..=11) => n + r.within(1, 3) as u32,
        (Some(n), _) => n.saturating_sub(r.within(1, 3) as u32),
    }
}
