//! Both sides on one input. Each function gives the first difference as text, with both answers.

use crate::{field, field_at, read, size, write, Date, Field, Packet, Resume, Size, Span, Written};
use crate::{LINK, MESSAGE, NOT_PLAIN, NO_START, REFUSED, SEVERAL_START, SKIPPED, START, WRONG_START};
use reader::cut::{write_message, Header};
use reader::generate::{raw_field, Random};
use reader::makeup::{self, Direction, Mode};
use reader::packet::{self, FIELD_HEADER, MOST_CONTENT};
use reader::plain::{plain_packet, NotWritten};
use reader::start::{start_field, start_field_bytes, Start};
use std::fmt::Debug;

/// The limits of row 7: a whole message, a packet, a packet that has to take a start field too.
pub const LIMITS: [usize; 3] = [32_768, 4080, 4068];

/// Both answers to one question, and how many questions were put.
#[derive(Default)]
pub struct Asked(pub u64);

impl Asked {
    pub fn same<T: PartialEq + Debug>(&mut self, what: &str, library: T, reader: T) -> Result<(), String> {
        self.0 += 1;
        if library == reader {
            return Ok(());
        }
        Err(format!("{what}\n  library: {library:?}\n  reader:  {reader:?}"))
    }
}

/// The reader's answer in the library's numbers.
pub fn numbers(bytes: &[u8]) -> Packet {
    let mark = |mark: Option<u32>| (mark.unwrap_or(0), u8::from(mark.is_some()));
    let at = |place: Option<u16>| (place.unwrap_or(0), u8::from(place.is_some()));
    let behind = |extension: &[u8]| Span { start: 4, len: extension.len() };
    match packet::read(bytes) {
        packet::Packet::Short(missing) => Packet { missing, ..Packet::default() },
        packet::Packet::Refused(refusal) => Packet { answer: REFUSED, refusal, ..Packet::default() },
        packet::Packet::Link { kind, extension, mark: day, place, length } => {
            let ((date, dated), (place, placed)) = (mark(day), at(place));
            let extension = behind(extension);
            Packet { answer: LINK, kind, size: length, extension, date, dated, place, placed, ..Packet::default() }
        }
        packet::Packet::Skipped { kind, extension, body, length } => Packet {
            answer: SKIPPED,
            kind,
            size: length,
            extension: behind(extension),
            content: Span { start: length - body.len(), len: body.len() },
            ..Packet::default()
        },
        packet::Packet::Message(m) => {
            let ((date, dated), (place, placed)) = (mark(m.mark), at(m.place));
            Packet {
                answer: MESSAGE,
                kind: 1,
                size: m.length,
                extension: behind(m.extension),
                content: Span { start: m.content_at, len: m.content.len() },
                tid: m.tid,
                number: m.number,
                series: m.series,
                fields: m.count,
                chain: m.chain,
                date,
                dated,
                place,
                placed,
                ..Packet::default()
            }
        }
    }
}

/// A packet: all that was read of it, each field by walking, and some by index: the first ones, the last, and behind the last.
pub fn packet(asked: &mut Asked, bytes: &[u8]) -> Result<Packet, String> {
    let found = read(bytes);
    asked.same("read", found, numbers(bytes))?;
    let count = usize::from(found.fields);
    if found.answer == MESSAGE {
        let content = found.content.of(bytes);
        let mut at = 0;
        for (i, one) in packet::fields(content).enumerate() {
            let one = one.map_err(|()| format!("field {i} of a message packet isn't whole"))?;
            let here = Field { start: at + FIELD_HEADER, len: one.value.len(), fid: one.fid, found: 1 };
            asked.same(&format!("field {i} at {at}"), field_at(content, at), here)?;
            if i < 3 || i + 1 == count {
                let there = Field { start: found.content.start + here.start, ..here };
                asked.same(&format!("field {i}"), field(bytes, i), there)?;
            }
            at = here.start + here.len;
        }
        asked.same("where the fields end", field_at(content, at), Field::default())?;
    }
    for i in [count, count + 1, usize::MAX] {
        asked.same(&format!("field {i}, behind the last"), field(bytes, i), Field::default())?;
    }
    Ok(found)
}

/// The field at a place of any content, whole or not.
pub fn place(asked: &mut Asked, content: &[u8], at: usize) -> Result<(), String> {
    let left = content.get(at..).unwrap_or(&[]);
    let right = match packet::fields(left).next() {
        Some(Ok(one)) => Field { start: at + FIELD_HEADER, len: one.value.len(), fid: one.fid, found: 1 },
        _ => Field::default(),
    };
    asked.same(&format!("field at {at}"), field_at(content, at), right)
}

/// The content check, rows 7 to 10.
pub fn check(asked: &mut Asked, tid: u32, direction: Direction, content: &[u8], limit: usize) -> Result<u8, String> {
    let answer = crate::check(tid, direction, content, limit);
    let right = makeup::check(tid, direction, content, limit).err().unwrap_or(0);
    asked.same(&format!("check of {tid:#06x} {direction:?} within {limit}"), answer, right)?;
    Ok(answer)
}

/// The same in both directions and within each limit.
pub fn checks(asked: &mut Asked, tid: u32, content: &[u8]) -> Result<(), String> {
    for direction in [Direction::Up, Direction::Down] {
        for limit in LIMITS {
            check(asked, tid, direction, content, limit)?;
        }
    }
    Ok(())
}

/// What is written, or its refusal: into an output with room to spare, one that just fits, and ones that are too small.
/// Behind what is written, and where nothing is, the output stays as it was.
pub fn output(
    asked: &mut Asked,
    r: &mut Random,
    right: Result<&[u8], u8>,
    write: impl Fn(&mut [u8]) -> Written,
) -> Result<(), String> {
    let takes = right.map_or(40, <[u8]>::len);
    let pattern = r.byte();
    for room in [takes + r.below(40), takes, takes.saturating_sub(1), r.below(takes + 1)] {
        let mut out = vec![pattern; room];
        let written = write(&mut out);
        let mut left = vec![pattern; room];
        let answer = match right {
            Err(refusal) => Written { bytes: 0, refusal },
            Ok(bytes) if room < bytes.len() => Written { bytes: 0, refusal: 18 },
            Ok(bytes) => {
                left[..bytes.len()].copy_from_slice(bytes);
                Written { bytes: bytes.len(), refusal: 0 }
            }
        };
        asked.same(&format!("written with room for {room}"), written, answer)?;
        asked.0 += 1;
        if out != left {
            let at = out.iter().zip(&left).position(|(a, b)| a != b).unwrap_or(0);
            return Err(format!(
                "output with room for {room}, from byte {at} on\n  library: {}\n  reader:  {}",
                hex(&out[at..]),
                hex(&left[at..])
            ));
        }
    }
    Ok(())
}

/// A message cut and written.
pub fn message(asked: &mut Asked, r: &mut Random, header: &Header, content: &[u8]) -> Result<(), String> {
    let mut right = Vec::new();
    let packets = write_message(&mut right, header, content);
    let takes = match packets {
        Some(packets) => Size { packets, bytes: right.len(), refusal: 0 },
        None => Size { refusal: 7, ..Size::default() },
    };
    asked.same("size", size(header, content), takes)?;
    output(asked, r, packets.map(|_| &right[..]).ok_or(7), |out| write(header, content, out))
}

/// A field written: FID, length and bytes; 7 above 4,074 bytes.
pub fn field_written(asked: &mut Asked, r: &mut Random, fid: u32, bytes: &[u8]) -> Result<(), String> {
    let right = if bytes.len() > MOST_CONTENT - FIELD_HEADER { Err(7) } else { Ok(raw_field(fid, bytes)) };
    output(asked, r, right.as_deref().map_err(|row| *row), |out| crate::write_field(fid, bytes, out))
}

/// The length that the first four bytes say, and what the tags behind them say: those of the extension, as far as it is
/// there.
pub fn head(asked: &mut Asked, bytes: &[u8]) -> Result<(), String> {
    asked.same("length said", crate::said_length(bytes), packet::said_length(bytes).unwrap_or(0))?;
    let behind = bytes.get(4..).unwrap_or(&[]);
    let extent = bytes.get(1).map_or(0, |&n| usize::from(n));
    tags(asked, behind.get(..extent).unwrap_or(behind))
}

/// What the tags of any bytes say.
pub fn tags(asked: &mut Asked, extension: &[u8]) -> Result<(), String> {
    let mark = packet::mark(extension);
    let date = Date { date: mark.unwrap_or(0), dated: mark.is_some().into() };
    asked.same("trade date", crate::trade_date(extension), date)?;
    asked.same("keep-alive", crate::keep_alive(extension), packet::keeps_alive(extension).into())
}

/// A link or skipped packet written; gives the refusal, 0 for none.
pub fn plain(asked: &mut Asked, r: &mut Random, kind: u8, extension: &[u8], body: &[u8]) -> Result<u8, String> {
    let right = plain_packet(kind, extension, body).map_err(|refused| match refused {
        NotWritten::Refused(row) => row,
        NotWritten::NotPlain => NOT_PLAIN,
    });
    output(asked, r, right.as_deref().map_err(|row| *row), |out| crate::write_plain(kind, extension, body, out))?;
    Ok(right.err().unwrap_or(0))
}

/// The start field of any content; gives which answer it is.
pub fn start(asked: &mut Asked, content: &[u8]) -> Result<u8, String> {
    let right = match start_field(content) {
        Start::Absent => Resume { answer: NO_START, ..Resume::default() },
        Start::Next { series, number } => Resume { answer: START, series, number },
        Start::Misshapen => Resume { answer: WRONG_START, ..Resume::default() },
        Start::Several => Resume { answer: SEVERAL_START, ..Resume::default() },
    };
    asked.same("start field", crate::find_resume(content), right)?;
    Ok(right.answer)
}

/// A start field written.
pub fn start_written(asked: &mut Asked, r: &mut Random, series: u16, number: u32) -> Result<(), String> {
    output(asked, r, Ok(&start_field_bytes(series, number)), |out| crate::write_resume(series, number, out))
}

/// The mode of a message.
pub fn mode(asked: &mut Asked, tid: u32) -> Result<u8, String> {
    let right = match makeup::mode(tid) {
        None => 0,
        Some(Mode::Private) => 1,
        Some(Mode::Broadcast) => 2,
        Some(Mode::Management) => 3,
        Some(Mode::Dialog) => 4,
    };
    asked.same(&format!("mode of {tid:#06x}"), crate::mode(tid), right)?;
    Ok(right)
}

/// Bytes as text, all of them.
pub fn hex(bytes: &[u8]) -> String {
    bytes.iter().map(|b| format!("{b:02X}")).collect::<Vec<_>>().join(" ")
}
