//! A bufferful cut at every place: streams of packets and of records, each given to the library in two parts for every cut, and each
//! part until it is through, beside the single calls of library and model for one packet, or record, after the other.

use crate::ends::{
    self, Receiver, Sender, HANDED_ON, IN_PACKET, SEVERAL_END, SEVERAL_MESSAGE, SEVERAL_REFUSED, SEVERAL_SHORT,
};
use reader::cut::{write_packet, write_placed, write_sent, Header};
use reader::generate::{raw_field, Random};
use reader::packet::{said_length, u16_at, u32_at, MOST_MESSAGE};
use reader::receiving::{Kept, Received, Receiving};
use reader::serving::Serving;
use reader::several::RECORD_HEADER;
use std::fmt::Debug;

const MARK: u32 = 7;
const SERIES: [u16; 2] = [5, 2];
const STRANGE: u32 = 0x7777;

/// Last, TID and content of a message, or a refusal.
type Heard = Result<(u32, u32, Vec<u8>), u8>;

pub fn record(series: u16, tid: u32, content: &[u8]) -> Vec<u8> {
    let length = content.len() as u32;
    [&series.to_be_bytes()[..], &tid.to_be_bytes(), &length.to_be_bytes(), content].concat()
}

/// How long the record at the front is, as its head says.
pub fn record_length(bytes: &[u8]) -> usize {
    RECORD_HEADER + u32_at(bytes, 6) as usize
}

/// How many streams were cut at how many places, and the calls that it took.
#[derive(Default)]
pub struct Cuts {
    pub streams: u64,
    pub places: u64,
    pub calls: u64,
    pub messages: u64,
    pub refusals: u64,
}

/// What a call of the library answers: message or refusal, bytes taken, and the bytes missing where it is through.
struct Step {
    heard: Option<Heard>,
    taken: usize,
    missing: Option<usize>,
}

/// What a stream comes to: the end, the lent bytes, what was heard, and what is left.
#[derive(PartialEq)]
struct Outcome<E> {
    end: E,
    lent: Vec<u8>,
    heard: Vec<Heard>,
    rest: Vec<u8>,
}

/// How a stream is cut into inputs: bytes of a head, and the length that it says.
#[derive(Clone, Copy)]
struct Form {
    head: usize,
    length: fn(&[u8]) -> usize,
}

const PACKETS: Form = Form { head: 4, length: |bytes| said_length(bytes).unwrap_or(4) };
const RECORDS: Form = Form { head: RECORD_HEADER, length: record_length };

impl Form {
    /// The inputs that are whole, and the rest.
    fn cut(self, mut bytes: &[u8]) -> (Vec<&[u8]>, &[u8]) {
        let mut all = vec![];
        while bytes.len() >= self.head && (self.length)(bytes) <= bytes.len() {
            let (one, rest) = bytes.split_at((self.length)(bytes));
            all.push(one);
            bytes = rest;
        }
        (all, bytes)
    }

    /// How many bytes of a rest are missing.
    fn missing(self, rest: &[u8]) -> usize {
        match rest.len() {
            0 => 0,
            n if n < self.head => self.head - n,
            n => (self.length)(rest) - n,
        }
    }
}

/// An end that is logged in to both series.
fn logged_in() -> Receiving {
    let mut end = Receiving::default();
    end.open(&SERIES).expect("an end");
    for (i, &series) in SERIES.iter().enumerate() {
        end.open[i] = Kept { series, mark: Some(MARK), last: 0, logged_in: true, chain: None };
    }
    end
}

/// The first difference of two outcomes.
fn same<E: PartialEq + Debug>(what: &str, given: &Outcome<E>, right: &Outcome<E>) -> Result<(), String> {
    if given == right {
        return Ok(());
    }
    let part = if given.heard != right.heard {
        format!("heard\n  given: {:?}\n  right: {:?}", given.heard, right.heard)
    } else if given.end != right.end {
        format!("the end\n  given: {:?}\n  right: {:?}", given.end, right.end)
    } else if given.rest != right.rest {
        format!("the rest: {} bytes for {}", given.rest.len(), right.rest.len())
    } else {
        "the lent bytes".to_string()
    };
    Err(format!("{what}: {part}"))
}

impl Cuts {
    /// Both parts of a stream until they are through, each time with what wasn't taken.
    fn drive(
        &mut self,
        form: Form,
        stream: &[u8],
        at: usize,
        mut call: impl FnMut(&[u8]) -> Step,
    ) -> Result<(Vec<Heard>, Vec<u8>), String> {
        let (mut kept, mut heard, mut calls) = (vec![], vec![], 0);
        for part in [&stream[..at], &stream[at..]] {
            kept.extend_from_slice(part);
            loop {
                calls += 1;
                let step = call(&kept);
                kept.drain(..step.taken);
                match (step.heard, step.missing) {
                    (Some(one), _) if step.taken >= form.head => heard.push(one),
                    (None, Some(missing)) if missing == form.missing(&kept) => break,
                    _ => return Err(format!("a call took {} bytes, {:?} are missing", step.taken, step.missing)),
                }
            }
        }
        self.calls += calls;
        if calls != heard.len() as u64 + 2 {
            return Err(format!("{calls} calls for {} messages and refusals", heard.len()));
        }
        Ok((heard, kept))
    }

    /// Cuts the stream at every place, and compares with what the single calls came to.
    fn every<E: PartialEq + Debug>(
        &mut self,
        stream: &[u8],
        right: &Outcome<E>,
        mut cut: impl FnMut(&mut Self, usize) -> Result<Outcome<E>, String>,
    ) -> Result<(), String> {
        self.streams += 1;
        self.messages += right.heard.iter().filter(|one| one.is_ok()).count() as u64;
        self.refusals += right.heard.iter().filter(|one| one.is_err()).count() as u64;
        for at in 0..=stream.len() {
            self.places += 1;
            let what = format!("a stream of {} bytes, cut at {at}", stream.len());
            let given = cut(self, at).map_err(|text| format!("{what}: {text}"))?;
            same(&what, &given, right)?;
        }
        Ok(())
    }

    /// A stream of packets.
    pub fn packets(&mut self, stream: &[u8]) -> Result<(), String> {
        let mut model = logged_in();
        let start: Receiver = ends::receiver(&model);
        let room = SERIES.len() * MOST_MESSAGE;
        let (inputs, rest) = PACKETS.cut(stream);

        let mut lent = vec![0; room];
        let mut heard: Vec<Heard> = vec![];
        for input in &inputs {
            match model.receive(input, &mut lent) {
                Ok(Received::Message { last, tid, content }) => heard.push(Ok((last, tid, content.bytes().to_vec()))),
                Ok(_) => {}
                Err(row) => heard.push(Err(row)),
            }
        }
        let right = Outcome { end: ends::receiver(&model), lent, heard, rest: rest.to_vec() };

        let (mut end, mut lent, mut heard) = (start, vec![0; room], vec![]);
        for input in &inputs {
            let answer = end.receive(input, &mut lent);
            end = answer.end;
            if answer.refusal != 0 {
                heard.push(Err(answer.refusal));
            } else if answer.answer == HANDED_ON {
                let from = if answer.origin == IN_PACKET { input } else { &lent[..] };
                heard.push(Ok((answer.last, answer.tid, answer.content.of(from).to_vec())));
            }
        }
        same("single Receives", &Outcome { end: end.meant(), lent, heard, rest: rest.to_vec() }, &right)?;

        self.every(stream, &right, |cuts, at| {
            let (mut end, mut lent) = (start, vec![0; room]);
            let (heard, rest) = cuts.drive(PACKETS, stream, at, |bytes| {
                let answer = end.receive_several(bytes, &mut lent);
                end = answer.end;
                let from = if answer.origin == IN_PACKET { bytes } else { &lent[..] };
                let (heard, missing) = match answer.answer {
                    SEVERAL_MESSAGE => (Some(Ok((answer.last, answer.tid, answer.content.of(from).to_vec()))), None),
                    SEVERAL_REFUSED => (Some(Err(answer.refusal)), None),
                    SEVERAL_END | SEVERAL_SHORT => (None, Some(answer.missing)),
                    _ => (None, None),
                };
                Step { heard, taken: answer.taken, missing }
            })?;
            Ok(Outcome { end: end.meant(), lent, heard, rest })
        })
    }

    /// A stream of records, with a log of so many bytes and these reserves of it.
    pub fn records(&mut self, stream: &[u8], reserves: &[usize], room: usize) -> Result<(), String> {
        let mut model = Serving::default();
        model.open(MARK, &SERIES, reserves, room).expect("a day");
        let start: Sender = ends::sender(&model);
        let (inputs, rest) = RECORDS.cut(stream);

        let (mut lent, mut heard) = (vec![0; room], vec![]);
        for input in &inputs {
            if let Err(row) = model.publish(u16_at(input, 0), u32_at(input, 2), &input[RECORD_HEADER..], &mut lent) {
                heard.push(Err(row));
            }
        }
        let right = Outcome { end: ends::sender(&model), lent, heard, rest: rest.to_vec() };

        let (mut end, mut lent, mut heard) = (start, vec![0; room], vec![]);
        for input in &inputs {
            let answer = end.publish(u16_at(input, 0), u32_at(input, 2), &input[RECORD_HEADER..], &mut lent);
            end = answer.end;
            if answer.refusal != 0 {
                heard.push(Err(answer.refusal));
            }
        }
        same("single Publishes", &Outcome { end: end.meant(), lent, heard, rest: rest.to_vec() }, &right)?;

        self.every(stream, &right, |cuts, at| {
            let (mut end, mut lent) = (start, vec![0; room]);
            let (heard, rest) = cuts.drive(RECORDS, stream, at, |bytes| {
                let answer = end.publish_several(bytes, &mut lent);
                end = answer.end;
                let heard = (answer.answer == SEVERAL_REFUSED).then_some(Err(answer.refusal));
                let missing = matches!(answer.answer, SEVERAL_END | SEVERAL_SHORT).then_some(answer.missing);
                Step { heard, taken: answer.taken, missing }
            })?;
            Ok(Outcome { end: end.meant(), lent, heard, rest })
        })
    }

    /// So many random streams of packets and of records, and one with a message of three full packets.
    pub fn streams(&mut self, seed: u64, count: u64) -> Result<(), String> {
        self.packets(&long_stream())?;
        for i in 0..count {
            let r = &mut Random::new(seed * 1_000_003 + i);
            let named = |text: String| format!("stream {i}: {text}");
            self.packets(&packet_stream(r)).map_err(named)?;
            let stream = record_stream(r);
            let room = r.pick(&[0, 100, 2000, 2000, 2000, 40_000]);
            let reserves: Vec<usize> = SERIES.iter().map(|_| r.below(room / SERIES.len() + 1)).collect();
            let none = r.once_in(2);
            self.records(&stream, if none { &[0; SERIES.len()] } else { &reserves }, room).map_err(named)?;
        }
        Ok(())
    }
}

fn field(r: &mut Random) -> Vec<u8> {
    let length = r.below(12);
    raw_field(STRANGE, &r.bytes(length))
}

/// A message of three full packets between short ones.
fn long_stream() -> Vec<u8> {
    let of = |number| Header { tid: STRANGE, series: SERIES[1], number, mark: Some(MARK) };
    let mut out = vec![];
    for (number, fields) in [(1, 1), (2, 3), (3, 0)] {
        write_sent(&mut out, &of(number), &vec![raw_field(STRANGE, &[7; 4000]); fields].concat()).expect("fields");
        out.extend([0, 2, 0, 0, 4, 0]);
    }
    out
}

/// Messages in one packet and in chains, with and without places, pieces of them lost or misplaced; again, too far, of another
/// day or series; link and skipped packets; damaged ones. Some streams end within a packet.
fn packet_stream(r: &mut Random) -> Vec<u8> {
    let mut out = vec![];
    let (mut end, mut lent) = (logged_in(), vec![0; SERIES.len() * MOST_MESSAGE]);
    for _ in 0..r.within(1, 9) {
        let place = r.below(2);
        let number = end.open[place].last + 1;
        let mut header = Header { tid: STRANGE, series: SERIES[place], number, mark: Some(MARK) };
        let from = out.len();
        match r.below(16) {
            0 => out.extend([0, 2, 0, 0, 4, 0]),
            1 => out.extend([9, 1, 0, 2, 5, 5, 5]),
            // 1 and 3, all bytes there.
            2 => out.extend([&[1, 128, 0, 0][..], &[0; 128]].concat()),
            3 => out.extend([&[1, 0, 0, 15][..], &[0; 15]].concat()),
            4 => header.number -= 1,
            5 => header.number += 1,
            6 => header.mark = r.pick(&[None, Some(MARK + 1)]),
            7 => header.series = 9,
            8..=11 => {
                let (pieces, places) = (r.within(2, 4), !r.once_in(3));
                for i in 0..pieces {
                    let letter = if i == 0 {
                        b'F'
                    } else if i + 1 < pieces {
                        b'C'
                    } else {
                        b'L'
                    };
                    if !r.once_in(9) {
                        let place = if r.once_in(12) { r.below(5) } else { i };
                        write_placed(&mut out, &header, places.then_some(place as u16), letter, &field(r));
                    }
                    if r.once_in(6) {
                        out.extend([1, 0, 0, 0]);
                    }
                }
            }
            _ => {}
        }
        if out.len() == from {
            write_packet(&mut out, &header, b'S', &field(r));
        }
        if r.once_in(8) && out.len() > from + 4 {
            // Behind the first four bytes, so that the next packet stands where it is looked for.
            let at = from + 4 + r.below(out.len() - from - 4);
            out[at] ^= 1 << r.below(8);
        }
        for packet in PACKETS.cut(&out[from..]).0 {
            _ = end.receive(packet, &mut lent);
        }
    }
    if r.once_in(2) {
        out.truncate(out.len() - r.below(out.len().min(30)));
    }
    out
}

/// Records that are taken and refused; some streams end within one.
fn record_stream(r: &mut Random) -> Vec<u8> {
    let mut out = vec![];
    for _ in 0..r.within(1, 9) {
        let series = r.pick(&[SERIES[0], SERIES[1], SERIES[1], 9]);
        let content = match r.below(6) {
            0 => vec![],
            1 => vec![0; 5],
            _ => [field(r), field(r)].concat(),
        };
        out.extend(record(series, r.pick(&[STRANGE, STRANGE, 0x2003]), &content));
    }
    match r.below(4) {
        0 => out.truncate(out.len() - r.below(out.len().min(30))),
        1 => {
            let at = out.len();
            out.extend(record(SERIES[0], STRANGE, &[]));
            out[at + 6..].copy_from_slice(&r.pick(&[32_769, u32::MAX]).to_be_bytes());
        }
        _ => {}
    }
    out
}
