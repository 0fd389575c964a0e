//! Frames of JR/T 0087-2012, after FIX 4.2 (request No. 12): read with the expected number, and written. Turned away are
//! 28, not one whole frame or a number wrong; 29, a required tag missing, it or the flag 43 twice; 30, any other lower
//! number; and in writing 18, an output shorter than the frame.

/// Bytes of a frame at most.
pub const MOST_FRAME: usize = 4096;

/// The separator behind every field.
pub const SOH: u8 = 1;

const BEGIN: &[u8] = b"8=FIX.4.2\x019=";
const MOST_TAG: u32 = 999_999_999;

/// A field: its tag, and where its text lies.
#[derive(Clone, Copy, Debug, PartialEq, Eq)]
pub struct Field {
    pub tag: u32,
    pub start: usize,
    pub len: usize,
}

impl Field {
    pub fn text<'a>(&self, bytes: &'a [u8]) -> &'a [u8] {
        &bytes[self.start..self.start + self.len]
    }
}

#[derive(Clone, Copy, Debug, PartialEq, Eq, PartialOrd, Ord)]
pub enum Judgement {
    Next,
    Again,
    Gap,
    Reset,
}

/// What a frame that isn't turned away says: its type, the fields behind 35 and before 10, and the number of 34.
#[derive(Clone, Debug, PartialEq, Eq)]
pub struct Message<'a> {
    pub judgement: Judgement,
    pub kind: &'a [u8],
    pub fields: Vec<Field>,
    pub number: u32,
}

/// A message or the number of the refusal, and the expected number afterwards.
#[derive(Clone, Debug, PartialEq, Eq)]
pub struct Answer<'a> {
    pub found: Result<Message<'a>, u8>,
    pub expected: u32,
}

/// A tag with its text.
pub type Pair<'a> = (u32, &'a [u8]);

/// A Number: 1 to 9 digits, zeros in front allowed.
pub fn number(text: &[u8]) -> Option<u32> {
    let right = (1..=9).contains(&text.len()) && text.iter().all(u8::is_ascii_digit);
    right.then(|| text.iter().fold(0, |n, b| n * 10 + u32::from(b - b'0')))
}

/// A Plain number, as tags and the body length: no zero in front.
pub fn plain_number(text: &[u8]) -> Option<u32> {
    number(text).filter(|_| text[0] != b'0')
}

/// The length tag of a data tag.
pub fn length_tag(tag: u32) -> Option<u32> {
    match tag {
        91 => Some(90),
        89 => Some(93),
        96 => Some(95),
        355 => Some(354),
        _ => None,
    }
}

/// Tags that have to be there exactly once.
pub fn required(kind: &[u8]) -> &'static [u32] {
    match kind {
        b"A" => &[8, 9, 35, 10, 49, 56, 34, 52, 98, 108],
        b"0" | b"5" => &[8, 9, 35, 10, 49, 56, 34, 52],
        b"1" => &[8, 9, 35, 10, 49, 56, 34, 52, 112],
        b"2" => &[8, 9, 35, 10, 49, 56, 34, 52, 7, 16],
        b"4" => &[8, 9, 35, 10, 49, 56, 34, 52, 36],
        _ => &[8, 9, 35, 10, 34],
    }
}

/// Tags whose texts have to be Numbers.
pub fn numbers(kind: &[u8]) -> &'static [u32] {
    match kind {
        b"A" => &[34, 90, 369, 93, 98, 108, 95, 383, 384],
        b"0" | b"1" => &[34, 90, 369, 93],
        b"5" => &[34, 90, 369, 93, 354],
        b"2" => &[34, 90, 369, 93, 7, 16],
        b"4" => &[34, 90, 369, 93, 36],
        _ => &[34],
    }
}

/// The fields of the bytes from one place to another, or none where they have no cut.
pub fn cut(bytes: &[u8], from: usize, to: usize) -> Option<Vec<Field>> {
    let mut fields: Vec<Field> = vec![];
    let mut at = from;
    while at < to {
        let digits = bytes[at..to].iter().position(|&b| b == b'=')?;
        let tag = plain_number(&bytes[at..at + digits])?;
        let start = at + digits + 1;
        let len = match length_tag(tag) {
            Some(length_tag) => {
                let before = fields.last().filter(|before| before.tag == length_tag)?;
                number(before.text(bytes))? as usize
            }
            None => bytes[start..to].iter().position(|&b| b == SOH)?,
        };
        if len == 0 || len >= to - start || bytes[start + len] != SOH {
            return None;
        }
        fields.push(Field { tag, start, len });
        at = start + len + 1;
    }
    Some(fields)
}

/// "10=", the sum of the bytes before it modulo 256 in three digits, SOH.
fn trailer(before: &[u8]) -> [u8; 7] {
    let sum = before.iter().fold(0, |sum: u8, &b| sum.wrapping_add(b));
    [b'1', b'0', b'=', b'0' + sum / 100, b'0' + sum / 10 % 10, b'0' + sum % 10, SOH]
}

/// The fields of one whole frame from 35 on, without 10.
fn frame(bytes: &[u8]) -> Option<Vec<Field>> {
    if bytes.len() > MOST_FRAME {
        return None;
    }
    let rest = bytes.strip_prefix(BEGIN)?;
    let digits = rest.iter().position(|&b| b == SOH)?;
    let body = BEGIN.len() + digits + 1;
    let end = body + plain_number(&rest[..digits])? as usize;
    if bytes.get(end..)? != trailer(&bytes[..end]) {
        return None;
    }
    cut(bytes, body, end).filter(|fields| fields.first().is_some_and(|first| first.tag == 35))
}

/// 28 once there is a frame: a text that has to be a Number isn't one, or the last of a lost run is below its first.
fn wrong_number(kind: &[u8], fields: &[Pair]) -> bool {
    if fields.iter().any(|&(tag, text)| numbers(kind).contains(&tag) && number(text).is_none()) {
        return true;
    }
    let all = |wanted: u32| fields.iter().filter(move |field| field.0 == wanted).filter_map(|field| number(field.1));
    kind == b"2" && all(16).any(|last| last != 0 && all(7).any(|first| last < first))
}

/// 29: a required tag missing or twice, or the flag twice. The frame's own 8, 9, 35 and 10 count.
fn wrong_tags(kind: &[u8], fields: &[Pair]) -> bool {
    let times = |tag: u32| {
        let own = usize::from([8, 9, 35, 10].contains(&tag));
        own + fields.iter().filter(|field| field.0 == tag).count()
    };
    required(kind).iter().any(|&tag| times(tag) != 1) || times(43) > 1
}

/// READ: one whole frame, judged by its number.
pub fn read(bytes: &[u8], expected: u32) -> Answer<'_> {
    let refused = |row: u8| Answer { found: Err(row), expected };
    let Some(mut fields) = frame(bytes) else {
        return refused(28);
    };
    let kind = fields.remove(0).text(bytes);
    let pairs: Vec<Pair> = fields.iter().map(|field| (field.tag, field.text(bytes))).collect();
    if wrong_number(kind, &pairs) {
        return refused(28);
    }
    if wrong_tags(kind, &pairs) {
        return refused(29);
    }
    let yes = |tag: u32| pairs.contains(&(tag, b"Y"));
    // 34 is there once, and a Number.
    let sent = pairs.iter().find(|field| field.0 == 34).and_then(|field| number(field.1)).unwrap_or(0);
    let (judgement, after) = if kind == b"4" && !yes(123) {
        (Judgement::Reset, expected)
    } else if sent == expected {
        (Judgement::Next, expected + 1)
    } else if sent > expected {
        (Judgement::Gap, expected)
    } else if yes(43) {
        (Judgement::Again, expected)
    } else {
        return refused(30);
    };
    Answer { found: Ok(Message { judgement, kind, fields, number: sent }), expected: after }
}

/// The frame of a body, whatever the body is.
pub fn framed(body: &[u8]) -> Vec<u8> {
    let mut bytes = [BEGIN, body.len().to_string().as_bytes(), &[SOH], body].concat();
    bytes.extend(trailer(&bytes));
    bytes
}

/// What comes once the body can be read back as it was meant: 28, 18, 29, written.
fn put(kind: &[u8], fields: &[Pair], body: &[u8], out: &mut [u8]) -> Result<usize, u8> {
    let bytes = framed(body);
    if bytes.len() > MOST_FRAME || wrong_number(kind, fields) {
        return Err(28);
    }
    if out.len() < bytes.len() {
        return Err(18);
    }
    if wrong_tags(kind, fields) {
        return Err(29);
    }
    out[..bytes.len()].copy_from_slice(&bytes);
    Ok(bytes.len())
}

/// WRITE: the frame of a type and fields, and its length. The bytes of the output behind it stay.
pub fn write(kind: &[u8], fields: &[Pair], out: &mut [u8]) -> Result<usize, u8> {
    if kind.is_empty() || kind.contains(&SOH) {
        return Err(28);
    }
    let mut body = [b"35=", kind, &[SOH]].concat();
    for (i, &(tag, text)) in fields.iter().enumerate() {
        if text.is_empty() || tag == 0 || tag > MOST_TAG {
            return Err(28);
        }
        let whole = match length_tag(tag) {
            Some(length_tag) => fields[..i].last().is_some_and(|&(before, length)| {
                before == length_tag && number(length).is_some_and(|length| length as usize == text.len())
            }),
            None => !text.contains(&SOH),
        };
        if !whole {
            return Err(28);
        }
        body.extend(tag.to_string().bytes());
        body.push(b'=');
        body.extend(text);
        body.push(SOH);
    }
    put(kind, fields, &body, out)
}

/// WRITE with the fields as one run of bytes `TAG=TEXT<SOH>..`.
pub fn write_run(kind: &[u8], run: &[u8], out: &mut [u8]) -> Result<usize, u8> {
    let body = [b"35=", kind, &[SOH], run].concat();
    let fields = cut(&body, 0, body.len()).ok_or(28)?;
    let pairs: Vec<Pair> = fields.iter().map(|field| (field.tag, field.text(&body))).collect();
    match pairs.split_first() {
        Some((&(35, first), rest)) if first == kind => put(kind, rest, &body, out),
        _ => Err(28),
    }
}
