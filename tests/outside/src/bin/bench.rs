//! The benchmark: `bench [RUNS [PASSES [ONLY]]]`. Both sides in turn on the same bytes. A ratio is the reader's time over the
//! library's: above 1 the library is faster. Each run gives the ratio of the best passes and that of the medians; printed are the
//! median of the runs and their range. Times are processor time of this thread, so that other work on the machine counts less.

use outside::bench::Bench;
use reader::cut::{cut, write_message, Header};
use reader::generate::{capture, content, raw_field, Random};
use reader::makeup::{self, Direction};
use reader::packet::{self, Packet};
use reader::tables::MESSAGES;
use std::arch::x86_64::{_mm_loadu_si128, _mm_storeu_si128};
use std::hint::black_box;

/// The reader as a function that isn't inlined and gives the library's struct.
#[inline(never)]
fn called_read(bytes: &[u8]) -> outside::Packet {
    outside::compare::numbers(bytes)
}

#[inline(never)]
fn called_field_at(content: &[u8], at: usize) -> outside::Field {
    match content.get(at..).and_then(|left| packet::fields(left).next()) {
        Some(Ok(one)) => {
            outside::Field { start: at + packet::FIELD_HEADER, len: one.value.len(), fid: one.fid, found: 1 }
        }
        _ => outside::Field::default(),
    }
}

/// Packets, by one side's function.
fn answered(packets: &[&[u8]], read: impl Fn(&[u8]) -> outside::Packet) -> u64 {
    packets.iter().map(|bytes| read(bytes)).map(|p| u64::from(p.tid) + u64::from(p.number) + p.size as u64).sum()
}

/// Packets with their fields, by one side's functions.
fn walked(
    packets: &[&[u8]],
    read: impl Fn(&[u8]) -> outside::Packet,
    field_at: impl Fn(&[u8], usize) -> outside::Field,
) -> u64 {
    let mut sum = 0;
    for bytes in packets {
        let p = read(bytes);
        if p.answer == outside::MESSAGE {
            let content = p.content.of(bytes);
            let mut at = 0;
            loop {
                let field = field_at(content, at);
                if field.found == 0 {
                    break;
                }
                sum += u64::from(field.fid) + field.len as u64;
                at = field.start + field.len;
            }
        }
    }
    sum
}

/// A copy as the library's loop does it: two 16-byte moves a turn, as x86-64 without extensions has them.
#[inline(never)]
fn copied_by_16(from: &[u8], to: &mut [u8]) {
    let to = &mut to[..from.len()];
    let whole = from.len() / 32 * 32;
    for i in (0..whole).step_by(32) {
        // Inside both slices, which have the same length: i + 32 <= whole.
        unsafe {
            let (f, t) = (from.as_ptr().add(i), to.as_mut_ptr().add(i));
            let (low, high) = (_mm_loadu_si128(f.cast()), _mm_loadu_si128(f.add(16).cast()));
            _mm_storeu_si128(t.cast(), low);
            _mm_storeu_si128(t.add(16).cast(), high);
        }
    }
    to[whole..].copy_from_slice(&from[whole..]);
}

/// The contents of a message's packets copied to their places in the output, by one way of copying.
fn copied(parts: &[&[u8]], out: &mut [u8], copy: impl Fn(&[u8], &mut [u8])) -> u64 {
    let mut to = 0;
    for part in black_box(parts) {
        to += 26;
        copy(part, &mut out[to..]);
        to += part.len();
    }
    u64::from(out[to - 1]) + to as u64
}

fn main() {
    let bench = Bench::by_arguments();

    let bytes = capture(1, 8 << 20);
    let mut packets = vec![];
    let mut at = 0;
    while at < bytes.len() {
        let end = at + outside::read(&bytes[at..]).size;
        packets.push(&bytes[at..end]);
        at = end;
    }
    // Each message content, with a direction in which its make-up is right, if there is one.
    let contents: Vec<(u32, Direction, &[u8])> = packets
        .iter()
        .filter_map(|bytes| match packet::read(bytes) {
            Packet::Message(m) => {
                let right = |d: &Direction| makeup::check(m.tid, *d, m.content, 4080).is_ok();
                let direction = [Direction::Down, Direction::Up].into_iter().find(right).unwrap_or(Direction::Down);
                Some((m.tid, direction, m.content))
            }
            _ => None,
        })
        .collect();
    let fields: usize = contents.iter().map(|(_, _, content)| packet::fields(content).count()).sum();
    if bench.only.is_none() {
        println!(
            "{:.1} MB, {} packets, {} message packets, {fields} fields; {} runs of {} passes",
            bytes.len() as f64 / 1e6,
            packets.len(),
            contents.len(),
            bench.runs,
            bench.passes
        );
    }

    bench.compare(
        "read",
        || answered(&packets, outside::read),
        || {
            packets
                .iter()
                .map(|bytes| match packet::read(bytes) {
                    Packet::Message(m) => u64::from(m.tid) + u64::from(m.number) + m.length as u64,
                    Packet::Link { length, .. } | Packet::Skipped { length, .. } => length as u64,
                    _ => 0,
                })
                .sum()
        },
    );
    bench.compare(
        "read with fields",
        || walked(&packets, outside::read, outside::field_at),
        || {
            let mut sum = 0;
            for bytes in &packets {
                if let Packet::Message(m) = packet::read(bytes) {
                    for field in packet::fields(m.content).flatten() {
                        sum += u64::from(field.fid) + field.value.len() as u64;
                    }
                }
            }
            sum
        },
    );
    // The same with the reader behind the library's boundary: its functions are called, and give the library's structs.
    bench.compare("read, as a call", || answered(&packets, outside::read), || answered(&packets, called_read));
    bench.compare(
        "with fields, as calls",
        || walked(&packets, outside::read, outside::field_at),
        || walked(&packets, called_read, called_field_at),
    );
    bench.compare(
        "fields by index",
        || packets.iter().map(|bytes| (0..8).map(|i| outside::field(bytes, i).len as u64).sum::<u64>()).sum(),
        || {
            let one = |bytes, i| packet::field(bytes, i).map_or(0, |value| value.len() as u64);
            packets.iter().map(|bytes| (0..8).map(|i| one(bytes, i)).sum::<u64>()).sum()
        },
    );
    bench.compare(
        "check (7 to 10)",
        || {
            contents
                .iter()
                .map(|(tid, direction, content)| u64::from(outside::check(*tid, *direction, content, 4080)))
                .sum()
        },
        || {
            contents
                .iter()
                .map(|(tid, direction, content)| {
                    u64::from(makeup::check(*tid, *direction, content, 4080).err().unwrap_or(0))
                })
                .sum()
        },
    );

    // Long messages: market data, many short fields, few long ones. The library writes into an output that is there and isn't
    // cleared, the reader behind a vector that keeps its room.
    let mut r = Random::new(2);
    let market = MESSAGES.iter().find(|m| m.tid == 0x2004).expect("MarketMatchData");
    let short: Vec<u8> = (0..1024).flat_map(|i| raw_field(0x4000, &[i as u8; 26])).collect();
    let long: Vec<u8> = (0..32).flat_map(|i| raw_field(0x4000, &[i; 1018])).collect();
    let market = content(&mut r, market, 32_768, true);
    let header = Header { tid: 0x2004, series: 3, number: 1_000_000, mark: Some(20_040_101) };
    let mut out = vec![0; 40_000];
    let mut vector = Vec::with_capacity(40_000);
    for (name, content) in
        [("write, market data", &market), ("write, 1024 fields", &short), ("write, 32 fields", &long)]
    {
        let times = if bench.only.is_some() { 100 } else { 1000 };
        bench.compare(
            name,
            || (0..times).map(|_| outside::write(&header, black_box(content), &mut out).bytes as u64).sum(),
            || {
                let mut one = || {
                    vector.clear();
                    write_message(&mut vector, &header, black_box(content));
                    vector.len() as u64
                };
                (0..times).map(|_| one()).sum()
            },
        );
        // Without the bytes: where the cuts are.
        bench.compare(
            &name.replace("write", "cut"),
            || (0..times).map(|_| outside::size(&header, black_box(content)).packets as u64).sum(),
            || (0..times).map(|_| cut(black_box(content)).map_or(0, |parts| parts.len() as u64)).sum(),
        );
        // The copying alone, in Rust: as the library does it, and by memcpy, as the reader does it.
        let parts = cut(content).expect("content that can be cut");
        let mut other = vec![0; 40_000];
        bench.compare(
            &name.replace("write", "copy"),
            || (0..times).map(|_| copied(&parts, &mut out, copied_by_16)).sum(),
            || (0..times).map(|_| copied(&parts, &mut other, |from, to| to[..from.len()].copy_from_slice(from))).sum(),
        );
        if bench.only.is_none() {
            println!("{:<24} {} bytes of content, written {times} times a pass", "", content.len());
        }
    }
}
