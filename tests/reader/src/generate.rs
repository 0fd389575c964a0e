//! Inputs for tests, from fixed seeds: packets, contents, messages and captures, valid ones and others.

use crate::calendar::month_days;
use crate::cut::{write_message, write_sent, Header};
use crate::items::{known_field, Field, Kind};
use crate::makeup::{Direction, Message};
use crate::packet::{self, known_tag, FIELD_HEADER, MESSAGE_HEADER, MOST_CONTENT, MOST_MESSAGE, PLACE, TRADE_DATE};
use crate::tables::{FIELDS, MESSAGES};

/// A small generator of numbers (xorshift64*). The same seed gives the same inputs everywhere.
#[derive(Clone, Debug)]
pub struct Random(u64);

impl Random {
    pub fn new(seed: u64) -> Self {
        Random(seed.wrapping_mul(0x9E37_79B9_7F4A_7C15) ^ 0x6A09_E667_F3BC_C909 | 1)
    }

    pub fn next(&mut self) -> u64 {
        self.0 ^= self.0 >> 12;
        self.0 ^= self.0 << 25;
        self.0 ^= self.0 >> 27;
        self.0.wrapping_mul(0x2545_F491_4F6C_DD1D)
    }

    /// A number from 0 to n - 1.
    pub fn below(&mut self, n: usize) -> usize {
        ((self.next() >> 32) as usize * n) >> 32
    }

    /// A number from `low` to `high`, both included.
    pub fn within(&mut self, low: usize, high: usize) -> usize {
        low + self.below(high - low + 1)
    }

    /// True once in n times.
    pub fn once_in(&mut self, n: usize) -> bool {
        self.below(n) == 0
    }

    pub fn byte(&mut self) -> u8 {
        (self.next() >> 56) as u8
    }

    pub fn pick<T: Copy>(&mut self, of: &[T]) -> T {
        of[self.below(of.len())]
    }

    pub fn bytes(&mut self, n: usize) -> Vec<u8> {
        (0..n).map(|_| self.byte()).collect()
    }

    /// A wire number: often one at a border.
    pub fn number(&mut self, most: u32) -> u32 {
        match self.below(4) {
            0 => self.pick(&[0, 1, 2, 255, 256, 999_999, 1_000_000, 1_000_001, most - 1, most]).min(most),
            1 => self.below(300) as u32,
            _ => (self.next() >> 32) as u32 & most,
        }
    }

    pub fn shuffle<T>(&mut self, of: &mut [T]) {
        for i in (1..of.len()).rev() {
            of.swap(i, self.below(i + 1));
        }
    }
}

/// What an input is like.
#[derive(Clone, Copy, Debug, PartialEq, Eq)]
pub enum Form {
    Valid,
    /// Valid but for one place.
    Damaged,
    /// The first bytes of a valid one.
    Cut,
    Random,
    /// Valid, then changed at several places.
    Mutated,
    /// Lengths and counts at the borders.
    Extreme,
}

pub const FORMS: [Form; 6] = [Form::Valid, Form::Damaged, Form::Cut, Form::Random, Form::Mutated, Form::Extreme];

// --- Items and fields ---

/// Writes an item that is a value of its type.
pub fn item(r: &mut Random, kind: Kind, out: &mut Vec<u8>) {
    let from = out.len();
    match kind {
        Kind::Char([]) => out.push(r.byte()),
        Kind::Char(values) => {
            let i = r.below(values.len() + 1);
            out.push(values.get(i).copied().unwrap_or(0));
        }
        Kind::Word => out.extend((r.number(0xFFFF) as u16).to_be_bytes()),
        Kind::Int => out.extend(r.number(u32::MAX).to_be_bytes()),
        Kind::Text(a) => {
            let used = if r.once_in(4) { r.pick(&[0, 1, a]) } else { r.within(0, a) };
            let wide = r.once_in(4);
            for _ in 0..used {
                out.push(match r.byte() {
                    b if b >= 0x20 && b != 0x7F && (wide || b < 0x7F) => b,
                    b => b'0' + b % 64 % 62,
                });
            }
            out.resize(from + a, b' ');
        }
        Kind::Number(a) => digits(r, a, None, out),
        Kind::Float(a, b) => digits(r, a, Some(a - b - 1), out),
        Kind::Date if r.once_in(4) => out.extend([b' '; 8]),
        Kind::Date => {
            let (year, month) = (r.within(1601, 9999), r.within(1, 12));
            let day = r.within(1, month_days(year as u32, month as u32) as usize);
            out.extend(format!("{year:04}{month:02}{day:02}").bytes());
        }
    }
}

/// Digits of a Number or Float: zero, few or many, largest; minus if it isn't zero.
fn digits(r: &mut Random, width: usize, point: Option<usize>, out: &mut Vec<u8>) {
    let negative = r.once_in(3);
    let (least, most) = r.pick(&[(b'0', b'0'), (b'0', b'9'), (b'0', b'9'), (b'9', b'9')]);
    let zeros = r.below(width);
    let from = out.len();
    for at in 0..width {
        out.push(match at {
            0 if negative => b'-',
            _ if point == Some(at) => b'.',
            _ if at < zeros => b'0',
            _ => r.within(least.into(), most.into()) as u8,
        });
    }
    if negative && !out[from..].iter().any(|b| (b'1'..=b'9').contains(b)) {
        out[from + width - 1] = r.within(b'1'.into(), b'9'.into()) as u8;
    }
}

/// Changes an item to one that isn't a value, if its type has any.
pub(crate) fn spoil(r: &mut Random, kind: Kind, item: &mut [u8]) -> bool {
    let at = r.below(item.len());
    match kind {
        Kind::Char([]) | Kind::Word | Kind::Int => return false,
        Kind::Char(values) => {
            let others: Vec<u8> = (1..=255).filter(|b| !values.contains(b)).collect();
            item[0] = match r.below(3) {
                // Likely slips: a neighbour of the values, a digit as character.
                0 => others[r.below(4)],
                1 => r.pick(b"0123456789"),
                _ => r.pick(&others),
            };
        }
        Kind::Text(_) => item[at] = r.pick(&[0x00, 0x01, 0x09, 0x0A, 0x1F, 0x7F]),
        Kind::Number(a) if r.once_in(4) => minus_zero(item, a, None),
        Kind::Float(a, b) if r.once_in(4) => minus_zero(item, a, Some(a - b - 1)),
        Kind::Float(a, b) if at == a - b - 1 => item[at] = r.pick(b"0,- "),
        Kind::Number(_) | Kind::Float(..) => item[at] = r.pick(if at > 0 { b"- +./:\0a" } else { b" +./:\0\xB0a" }),
        Kind::Date if r.once_in(2) => {
            let word: &[u8; 8] =
                r.pick(&[b"00000000", b"20041301", b"20040001", b"20040132", b"20040100", b"2004010 ", b"       1"]);
            item.copy_from_slice(word);
        }
        Kind::Date => item[at] = r.pick(b"/:-.\0\xB0a"),
    }
    true
}

fn minus_zero(item: &mut [u8], width: usize, point: Option<usize>) {
    for at in 0..width {
        item[at] = if at == 0 {
            b'-'
        } else if point == Some(at) {
            b'.'
        } else {
            b'0'
        };
    }
}

/// A field with its FID and length.
pub fn raw_field(fid: u32, value: &[u8]) -> Vec<u8> {
    let mut out = fid.to_be_bytes().to_vec();
    out.extend((value.len() as u16).to_be_bytes());
    out.extend_from_slice(value);
    out
}

/// A field of Appendix D with items that are values.
pub fn known_field_bytes(r: &mut Random, field: &Field) -> Vec<u8> {
    let mut value = Vec::with_capacity(field.width);
    for row in field.items {
        item(r, row.kind, &mut value);
    }
    raw_field(field.fid, &value)
}

/// The bytes of a field of Appendix D, item `i` of them in the given form: a value, spoiled, cut, or any bytes.
pub fn item_input(r: &mut Random, field: &Field, i: usize, form: Form) -> Vec<u8> {
    let row = &field.items[i];
    let mut bytes = known_field_bytes(r, field)[FIELD_HEADER..].to_vec();
    let place = row.at..row.at + row.width;
    match form {
        Form::Valid => {}
        Form::Damaged => {
            spoil(r, row.kind, &mut bytes[place]);
        }
        // It ends within the item, or just before or behind it.
        Form::Cut => bytes.truncate(r.within(row.at, row.at + row.width)),
        Form::Random => {
            let any = r.bytes(row.width);
            bytes[place].copy_from_slice(&any);
        }
        Form::Mutated => {
            for _ in 0..r.within(1, 3) {
                bytes[row.at + r.below(row.width)] = r.pick(b" 0129-.+/:\0\x01\x1F\x7F\x80\xFF");
            }
        }
        Form::Extreme => {
            let byte = r.pick(b" 09-.\0\xFF");
            bytes[place].fill(byte);
            let more = r.below(20);
            bytes.extend(r.bytes(more));
        }
    }
    bytes
}

/// A FID outside Appendix D.
pub fn unknown_fid(r: &mut Random) -> u32 {
    match r.below(4) {
        0 => r.pick(&[0, 0x2F, 0x30, 0x0100, 0x0104, 0x0001_0001, 0x0400_0000, u32::MAX]),
        _ => r.number(u32::MAX) | 0x40,
    }
}

fn unknown_field(r: &mut Random, most: usize) -> Vec<u8> {
    let n = if r.once_in(4) { 0 } else { r.within(0, most) };
    let value = r.bytes(n);
    raw_field(unknown_fid(r), &value)
}

fn joined(fields: &[Vec<u8>]) -> Vec<u8> {
    fields.concat()
}

/// The fields of content, each with FID and length. Stops where one isn't whole.
fn parted(content: &[u8]) -> Vec<Vec<u8>> {
    packet::fields(content).map_while(|f| f.ok()).map(|f| raw_field(f.fid, f.value)).collect()
}

// --- Content ---

/// Content with the make-up of the message, at most `most` bytes: the listed fields, sometimes others, in any order.
/// With `full`, unlimited fields fill it.
pub fn content(r: &mut Random, message: &Message, most: usize, full: bool) -> Vec<u8> {
    let mut fields: Vec<Vec<u8>> = Vec::new();
    let mut length = 0;
    let mut add = |fields: &mut Vec<Vec<u8>>, field: Vec<u8>| {
        let fits = length + field.len() <= most;
        if fits {
            length += field.len();
            fields.push(field);
        }
        fits
    };
    for line in message.lines {
        let row = known_field(line.fid).expect("a field of Appendix D");
        for _ in 0..line.least {
            add(&mut fields, known_field_bytes(r, row));
        }
    }
    for line in message.lines {
        let row = known_field(line.fid).expect("a field of Appendix D");
        let more = match line.most {
            Some(most) => r.within(0, most - line.least),
            None if full => usize::MAX,
            None => r.below(4),
        };
        for _ in 0..more {
            if !add(&mut fields, known_field_bytes(r, row)) {
                break;
            }
        }
    }
    if r.once_in(4) {
        add(&mut fields, unknown_field(r, 40));
    }
    if r.once_in(8) {
        let row = &FIELDS[r.below(FIELDS.len())];
        if message.lines.iter().all(|line| line.fid != row.fid) {
            add(&mut fields, known_field_bytes(r, row));
        }
    }
    r.shuffle(&mut fields);
    joined(&fields)
}

/// Content changed at one place: a width, an item, a count, a length, or any byte.
fn damaged_content(r: &mut Random, content: Vec<u8>, message: &Message) -> Vec<u8> {
    let mut fields = parted(&content);
    let kind = r.below(8);
    if fields.is_empty() || kind == 7 {
        let row = &FIELDS[r.below(FIELDS.len())];
        fields.push(known_field_bytes(r, row));
        return joined(&fields);
    }
    let i = r.below(fields.len());
    match kind {
        // Another width.
        0 => {
            let fid = packet::u32_at(&fields[i], 0);
            let width = fields[i].len() - FIELD_HEADER;
            let any = r.below(900);
            let n = r.pick(&[0, width.saturating_sub(1), width + 1, any]);
            let mut value = fields[i][FIELD_HEADER..].to_vec();
            value.resize(n, b' ');
            fields[i] = raw_field(fid, &value);
        }
        // A wrong item, of any known field.
        1..=3 => {
            for k in 0..fields.len() {
                let at = (i + k) % fields.len();
                let row = known_field(packet::u32_at(&fields[at], 0));
                let Some(row) = row.filter(|row| FIELD_HEADER + row.width == fields[at].len()) else { continue };
                let first = r.below(row.items.len());
                let spoiled = (0..row.items.len()).any(|j| {
                    let row = &row.items[(first + j) % row.items.len()];
                    let from = FIELD_HEADER + row.at;
                    spoil(r, row.kind, &mut fields[at][from..from + row.width])
                });
                if spoiled {
                    break;
                }
            }
        }
        // One too few or too many of a listed field.
        4 => {
            fields.remove(i);
        }
        5 if !message.lines.is_empty() => {
            let line = &message.lines[r.below(message.lines.len())];
            fields.push(known_field_bytes(r, known_field(line.fid).expect("a field of Appendix D")));
        }
        // A length that isn't there.
        6 => {
            let n = packet::u16_at(&fields[i], 4);
            let n = r.pick(&[n.wrapping_sub(1), n + 1, n + 6, 4074, 4075, 0xFFFF]);
            fields[i][4..6].copy_from_slice(&n.to_be_bytes());
        }
        _ => {
            let at = r.below(fields[i].len());
            fields[i][at] ^= 1 << r.below(8);
        }
    }
    joined(&fields)
}

/// An input of the content check.
#[derive(Clone, Debug)]
pub struct ContentInput {
    pub tid: u32,
    pub direction: Direction,
    pub content: Vec<u8>,
    /// The limit of row 7.
    pub most: usize,
}

pub fn content_input(r: &mut Random, form: Form) -> ContentInput {
    let message = &MESSAGES[r.below(MESSAGES.len())];
    let most = r.pick(&[MOST_CONTENT, MOST_CONTENT - 12, MOST_MESSAGE]);
    let full = r.once_in(16);
    let valid = content(r, message, most, full);
    let content = match form {
        Form::Valid => valid,
        Form::Damaged => damaged_content(r, valid, message),
        Form::Cut => {
            let n = r.within(0, valid.len());
            valid[..n].to_vec()
        }
        Form::Random => random_content(r),
        Form::Mutated => {
            let mut bytes = damaged_content(r, valid, message);
            bytes = damaged_content(r, bytes, message);
            mutated(r, bytes)
        }
        Form::Extreme => message_content(r),
    };
    // The same content under another TID or direction, now and then.
    let other = &MESSAGES[r.below(MESSAGES.len())];
    let (tid, direction) = match r.below(if form == Form::Valid { 1 } else { 12 }) {
        1 => (other.tid, message.direction),
        2 => (message.tid, other.direction),
        3 => (r.number(u32::MAX), message.direction),
        _ => (message.tid, message.direction),
    };
    ContentInput { tid, direction, content, most }
}

/// Fields of known and unknown FIDs with random bytes and lengths near the width.
fn random_content(r: &mut Random) -> Vec<u8> {
    let mut out = Vec::new();
    for _ in 0..r.below(6) {
        let row = &FIELDS[r.below(FIELDS.len())];
        let n = if r.once_in(4) { r.below(60) } else { row.width };
        let value = if r.once_in(2) { r.bytes(n) } else { vec![r.pick(b" 0-.\0\x01"); n] };
        let fid = if r.once_in(6) { unknown_fid(r) } else { row.fid };
        out.extend(raw_field(fid, &value));
    }
    if r.once_in(4) {
        let n = r.below(12);
        out.extend(r.bytes(n));
    }
    out
}

/// Content for the cut of a message: sizes at the borders of a packet, of a field and of a message. It isn't always
/// content that can be cut.
pub fn message_content(r: &mut Random) -> Vec<u8> {
    let mut out = Vec::new();
    let most = r.pick(&[0, 6, 4079, 4080, 4081, 8160, 8161, 12_240, 32_767, 32_768, 32_769, 40_000]);
    let style = r.below(6);
    while out.len() < most {
        let left = most - out.len();
        let n = match style {
            0 => 0,
            1 => r.pick(&[4074, 4073, 2034, 2035, 2033]),
            2 => r.below(60),
            3 => r.within(1, 4074),
            // Up to the next packet's border, one byte less or one more.
            4 => (MOST_CONTENT - out.len() % MOST_CONTENT).saturating_sub(r.within(5, 7)),
            _ => r.pick(&[0, 1, 100, 1354, 1355, 4074]),
        };
        let n = n.min(left.saturating_sub(FIELD_HEADER));
        let fid = unknown_fid(r);
        let value = vec![r.byte(); n];
        out.extend(raw_field(fid, &value));
    }
    match r.below(12) {
        0 => out.truncate(most),
        1 => out.extend(raw_field(0x4000, &[7; 4075])),
        2 => {
            let n = r.below(8);
            out.extend(r.bytes(n));
        }
        _ => {}
    }
    out
}

/// The header of a message, often with numbers at the borders.
pub fn header(r: &mut Random, tid: u32) -> Header {
    let mark = if r.once_in(3) { None } else { Some(r.number(u32::MAX)) };
    Header { tid, series: r.number(0xFFFF) as u16, number: r.number(u32::MAX), mark }
}

// --- Packets ---

/// A tag run, at most `most` bytes: known tags with their length, unknown ones with any, 0x05 and 0x70 at most once.
pub fn extension(r: &mut Random, most: usize) -> Vec<u8> {
    let mut out = Vec::new();
    let mut once = vec![];
    for _ in 0..r.pick(&[0, 0, 1, 1, 2, 3, 8, 40]) {
        let kind = if r.once_in(4) { r.byte() } else { r.pick(&[0, 1, 2, 3, 4, 5, 5, 6, 7, PLACE, PLACE]) };
        if once.contains(&kind) {
            continue;
        }
        let n = known_tag(kind).unwrap_or_else(|| r.below(12));
        if out.len() + 2 + n <= most {
            once.extend(Some(kind).filter(|kind| [TRADE_DATE, PLACE].contains(kind)));
            out.extend([kind, n as u8]);
            out.extend(r.bytes(n));
        }
    }
    out
}

fn framed(kind: u8, extension: &[u8], body: &[u8]) -> Vec<u8> {
    let mut out = vec![kind, extension.len() as u8];
    out.extend((body.len() as u16).to_be_bytes());
    out.extend_from_slice(extension);
    out.extend_from_slice(body);
    out
}

/// The body of a message packet.
fn body(r: &mut Random, tid: u32, content: &[u8]) -> Vec<u8> {
    let count = packet::count_fields(content).unwrap_or(0) as u16;
    let mut out = vec![1];
    out.extend(tid.to_be_bytes());
    out.push(r.pick(b"SSSFCL"));
    out.extend((r.number(0xFFFF) as u16).to_be_bytes());
    out.extend(r.number(u32::MAX).to_be_bytes());
    out.extend(count.to_be_bytes());
    out.extend((content.len() as u16).to_be_bytes());
    out.extend_from_slice(content);
    out
}

/// A packet of the message with valid items and make-up.
pub fn message_packet(r: &mut Random, message: &Message) -> Vec<u8> {
    let full = r.once_in(32);
    let content = content(r, message, MOST_CONTENT, full);
    let extension = extension(r, 127);
    let body = body(r, message.tid, &content);
    framed(1, &extension, &body)
}

/// A link or skipped packet.
pub fn other_packet(r: &mut Random) -> Vec<u8> {
    let run = extension(r, 127);
    match r.below(6) {
        0 => vec![0, 2, 0, 0, 4, 0],
        1 => framed(0, &run, &[]),
        2 => framed(1, &run, &[]),
        3 => {
            let n = r.within(1, 40);
            framed(0, &run, &r.bytes(n))
        }
        _ => {
            // Its extension is unread: any bytes.
            let (kind, n, m) = (r.byte().max(2), r.below(128), r.pick(&[0, 1, 15, 16, 300]));
            framed(kind, &r.bytes(n), &r.bytes(m))
        }
    }
}

/// A packet that is read as link, skipped or message.
pub fn valid_packet(r: &mut Random) -> Vec<u8> {
    match r.below(16) {
        0..=2 => other_packet(r),
        3 => {
            let n = r.below(300);
            let content = unknown_field(r, n);
            let (extension, tid) = (extension(r, 127), r.number(u32::MAX));
            let body = body(r, tid, &content);
            framed(1, &extension, &body)
        }
        _ => {
            let message = &MESSAGES[r.below(MESSAGES.len())];
            message_packet(r, message)
        }
    }
}

/// One place of a packet changed: most often one that the reader looks at.
fn damaged(r: &mut Random, mut bytes: Vec<u8>) -> Vec<u8> {
    let body = 4 + usize::from(bytes[1]);
    let message = bytes[0] == 1 && bytes.len() >= body + MESSAGE_HEADER;
    let content = body + MESSAGE_HEADER;
    let at = match r.below(if message { 14 } else { 6 }) {
        0 => 0,
        1 => 1,
        2 => 2,
        3 => 3,
        4 if bytes[1] > 0 => 4 + r.below(bytes[1].into()),
        4..=6 => r.below(bytes.len()),
        7 => body,
        8 => body + 5,
        9 => body + 12 + r.below(2),
        10 => body + 14 + r.below(2),
        11 => body + r.below(MESSAGE_HEADER),
        // A field's FID or length.
        _ if bytes.len() > content => {
            let mut place = content;
            for _ in 0..r.below(4) {
                let next = place + FIELD_HEADER + usize::from(packet::u16_at(&bytes, place + 4));
                if next + FIELD_HEADER <= bytes.len() {
                    place = next;
                }
            }
            place + r.within(2, 5)
        }
        _ => r.below(bytes.len()),
    };
    let old = bytes[at];
    bytes[at] = match r.below(4) {
        0 => old.wrapping_add(1),
        1 => old.wrapping_sub(1),
        2 => old ^ 1 << r.below(8),
        _ => r.pick(&[0, 1, 2, 5, PLACE, 0x7F, 0x80, 0xFF, b's', b'S', b'F', b'C', b'L']),
    };
    bytes
}

/// Several changes: bytes set, put in, taken out, copied.
fn mutated(r: &mut Random, mut bytes: Vec<u8>) -> Vec<u8> {
    for _ in 0..r.within(1, 6) {
        if bytes.is_empty() {
            bytes.push(r.byte());
        }
        let at = if r.once_in(2) { r.below(bytes.len().min(40)) } else { r.below(bytes.len()) };
        match r.below(6) {
            0 => bytes.insert(at, r.byte()),
            1 => {
                bytes.remove(at);
            }
            2 => {
                let n = r.within(0, (bytes.len() - at).min(20));
                let part = bytes[at..at + n].to_vec();
                bytes.splice(at..at, part);
            }
            3 => bytes[at] = r.pick(&[0, 1, 2, 3, 4, 5, 6, 7, PLACE]),
            4 => bytes[at] ^= 1 << r.below(8),
            _ => bytes[at] = r.byte(),
        }
    }
    bytes
}

/// Lengths and counts at the borders.
fn extreme(r: &mut Random) -> Vec<u8> {
    let kind = r.pick(&[0, 1, 1, 1, 1, 2, 3, 0xFF]);
    let extension_length = r.pick(&[0, 0, 1, 2, 6, 126, 127, 128, 255]);
    let body_length: usize = r.pick(&[0, 1, 15, 16, 17, 21, 22, 23, 4089, 4095, 4096, 4096, 4097, 65_535]);
    let mut extension: Vec<u8> = match r.below(5) {
        0 => vec![0; extension_length],
        1 => r.bytes(extension_length),
        // One unknown tag as long as the extension.
        2 => [vec![0x77, extension_length.saturating_sub(2) as u8], vec![5; extension_length]].concat(),
        // Places, trade dates.
        3 => [PLACE, 2, 0, 1].iter().cycle().take(extension_length).copied().collect(),
        _ => [TRADE_DATE, 4, 0, 0, 0, 1].iter().cycle().take(extension_length).copied().collect(),
    };
    extension.truncate(extension_length);
    let content_length = body_length.saturating_sub(MESSAGE_HEADER);
    let content: Vec<u8> = match r.below(4) {
        0 if content_length >= FIELD_HEADER => raw_field(0x4000, &vec![9; content_length - FIELD_HEADER]),
        1 => vec![0; content_length / FIELD_HEADER * FIELD_HEADER],
        2 => r.bytes(content_length),
        _ => {
            let (a, b) = (content_length / 2, content_length - content_length / 2);
            [raw_field(1, &vec![0; a.saturating_sub(6)]), raw_field(2, &vec![0; b.saturating_sub(6)])].concat()
        }
    };
    let mut message = body(r, 0x2004, &content);
    if r.once_in(4) {
        let n = r.number(0xFFFF) as u16;
        message[12..14].copy_from_slice(&n.to_be_bytes());
    }
    message.resize(body_length, 0);
    let mut out = vec![kind, extension_length as u8];
    out.extend((body_length as u16).to_be_bytes());
    out.extend(extension);
    out.extend(message);
    match r.below(4) {
        0 => out.truncate(out.len() - 1),
        1 => out.push(r.byte()),
        2 => out.truncate(r.within(0, 5)),
        _ => {}
    }
    out
}

/// An input of the reader of packets.
pub fn packet_input(r: &mut Random, form: Form) -> Vec<u8> {
    match form {
        Form::Valid => {
            let mut bytes = valid_packet(r);
            if r.once_in(4) {
                // Bytes behind the packet aren't looked at.
                let n = r.below(20);
                bytes.extend(r.bytes(n));
            }
            bytes
        }
        Form::Damaged => {
            let bytes = valid_packet(r);
            damaged(r, bytes)
        }
        Form::Cut => {
            let mut bytes = valid_packet(r);
            let n = match r.below(3) {
                0 => r.below(bytes.len().min(30)),
                1 => bytes.len() - 1,
                _ => r.below(bytes.len()),
            };
            bytes.truncate(n);
            bytes
        }
        Form::Random => {
            let n = if r.once_in(8) { r.below(5000) } else { r.below(80) };
            let mut bytes = r.bytes(n);
            // A plausible start, mostly: else nearly all are refused by their first four bytes.
            for (at, most) in [(0, 3), (1, 9), (2, 1), (3, 60)] {
                if at < n && !r.once_in(8) {
                    bytes[at] = r.below(most) as u8;
                }
            }
            bytes
        }
        Form::Mutated => {
            let bytes = valid_packet(r);
            mutated(r, bytes)
        }
        Form::Extreme => extreme(r),
    }
}

// --- Captures ---

/// A capture of valid packets, at least `least` bytes: the messages of Appendix E in turn, both directions, long ones
/// cut into chains, with link and skipped packets between them.
pub fn capture(seed: u64, least: usize) -> Vec<u8> {
    let mut r = Random::new(seed);
    let mut out = Vec::with_capacity(least + MOST_MESSAGE);
    while out.len() < least {
        for message in &MESSAGES {
            if r.once_in(8) {
                let header = header(&mut r, message.tid);
                let content = content(&mut r, message, MOST_MESSAGE, true);
                // As the ends write it, or others.
                let write = if r.once_in(2) { write_sent } else { write_message };
                write(&mut out, &header, &content).expect("content that can be cut");
            } else {
                out.extend(message_packet(&mut r, message));
            }
            if r.once_in(3) {
                out.extend(other_packet(&mut r));
            }
        }
    }
    out
}

/// An input of the lister: packets of a few kinds, then the given form, then perhaps more.
pub fn capture_input(r: &mut Random, form: Form) -> Vec<u8> {
    let mut out = Vec::new();
    for _ in 0..r.below(6) {
        out.extend(valid_packet(r));
    }
    out.extend(packet_input(r, form));
    for _ in 0..r.below(3) {
        out.extend(valid_packet(r));
    }
    out
}

#[cfg(test)]
mod tests {
    use super::*;

    /// Items are values of their types, and spoiled ones aren't; only Word, Int and plain Char can't be spoiled.
    #[test]
    fn items_and_spoiled_items() {
        let mut r = Random::new(12);
        for row in FIELDS.iter().flat_map(|field| field.items) {
            for _ in 0..100 {
                let mut bytes = Vec::new();
                item(&mut r, row.kind, &mut bytes);
                assert!(row.kind.value(&bytes).is_some() && row.kind.holds(&bytes), "{} {bytes:?}", row.name);
                let spoiled = spoil(&mut r, row.kind, &mut bytes);
                assert_eq!(spoiled, !matches!(row.kind, Kind::Char([]) | Kind::Word | Kind::Int));
                let value = row.kind.value(&bytes);
                assert_eq!(value.is_none(), spoiled, "{} {bytes:?}", row.name);
                assert_eq!(row.kind.holds(&bytes), value.is_some());
            }
        }
    }
}
