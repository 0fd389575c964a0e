//! Send on long logs: `sends [PASSES]`. The wanted entry is the last one of logs of 1, 10 and 60 MB, with messages of 200 and of
//! 2,000 content bytes in fields of 50. Beside the proved library stands the same walk and the same writing in safe Rust. Printed
//! are the best times of the passes, processor time of this thread, for an entry and for a field, and the ratio of both sides.

use outside::bench::now;
use outside::ends::{Sender, Served};
use std::hint::black_box;

/// Fields of 44 bytes behind FID and length: 50 each.
fn content(size: usize) -> Vec<u8> {
    let mut c = vec![];
    while c.len() < size {
        c.extend([0, 0, 0x12, 0x34, 0, 44]);
        c.extend((0..44).map(|i| (i % 251) as u8));
    }
    c
}

/// A log of one series, as many entries as fit.
fn log_of(bytes: usize, content: &[u8]) -> (Vec<u8>, u32) {
    let mut log = Vec::with_capacity(bytes);
    let mut number = 0u32;
    while log.len() + 16 + content.len() <= bytes {
        number += 1;
        log.extend(1u16.to_be_bytes());
        log.extend([0, 0]);
        log.extend(0x1001u32.to_be_bytes());
        log.extend(number.to_be_bytes());
        log.extend((content.len() as u32).to_be_bytes());
        log.extend(content);
    }
    (log, number)
}

/// Whole fields of at most 4,074 bytes, at most 32,768 in all.
fn shaped(mut c: &[u8]) -> bool {
    if c.len() > 32768 {
        return false;
    }
    while c.len() >= 6 {
        let n = 6 + u16::from_be_bytes([c[4], c[5]]) as usize;
        if n > 4080 || n > c.len() {
            return false;
        }
        c = &c[n..];
    }
    c.is_empty()
}

/// The entry wanted, after the checks of row 20 on all before it and on itself.
fn find<'a>(open: &[u16], mut log: &'a [u8], series: u16, number: u32) -> Option<(u32, &'a [u8])> {
    let mut last = [0u32; 8];
    loop {
        if log.len() < 16 {
            return None;
        }
        let s = u16::from_be_bytes([log[0], log[1]]);
        let place = open.iter().position(|&x| x == s)?;
        let k = u32::from_be_bytes([log[8], log[9], log[10], log[11]]);
        let n = u32::from_be_bytes([log[12], log[13], log[14], log[15]]) as usize;
        if log.len() - 16 < n || log[2] != 0 || log[3] != 0 || k.checked_sub(1) != Some(last[place]) {
            return None;
        }
        let content = &log[16..16 + n];
        if !shaped(content) {
            return None;
        }
        if s == series && k == number {
            return Some((u32::from_be_bytes([log[4], log[5], log[6], log[7]]), content));
        }
        last[place] = k;
        log = &log[16 + n..];
    }
}

/// The packets of a message, written to the start of the output.
fn write(date: u32, series: u16, number: u32, tid: u32, content: &[u8], out: &mut [u8]) -> Option<usize> {
    let mut pieces: Vec<(usize, usize, u16)> = vec![];
    let (mut from, mut at, mut count) = (0, 0, 0u16);
    while at < content.len() {
        let n = 6 + u16::from_be_bytes([content[at + 4], content[at + 5]]) as usize;
        if at + n - from > 4080 {
            pieces.push((from, at, count));
            from = at;
            count = 0;
        }
        at += n;
        count += 1;
    }
    pieces.push((from, at, count));
    let size = pieces.iter().map(|p| 30 + p.1 - p.0).sum();
    if out.len() < size {
        return None;
    }
    let mut to = 0;
    for (i, &(from, end, count)) in pieces.iter().enumerate() {
        let body = (16 + end - from) as u16;
        let letter = match (i == 0, i + 1 == pieces.len()) {
            (true, true) => b'S',
            (true, false) => b'F',
            (false, true) => b'L',
            _ => b'C',
        };
        let p = &mut out[to..to + 30 + end - from];
        p[..2].copy_from_slice(&[1, 10]);
        p[2..4].copy_from_slice(&body.to_be_bytes());
        p[4..6].copy_from_slice(&[5, 4]);
        p[6..10].copy_from_slice(&date.to_be_bytes());
        p[10..12].copy_from_slice(&[0x70, 2]);
        p[12..14].copy_from_slice(&(i as u16).to_be_bytes());
        p[14] = 1;
        p[15..19].copy_from_slice(&tid.to_be_bytes());
        p[19] = letter;
        p[20..22].copy_from_slice(&series.to_be_bytes());
        p[22..26].copy_from_slice(&number.to_be_bytes());
        p[26..28].copy_from_slice(&count.to_be_bytes());
        p[28..30].copy_from_slice(&(body - 16).to_be_bytes());
        p[30..].copy_from_slice(&content[from..end]);
        to += p.len();
    }
    Some(size)
}

fn main() {
    let passes: usize = std::env::args().nth(1).map_or(7, |a| a.parse().expect("a number of passes"));
    for size in [200, 2000] {
        let c = content(size);
        let fields = c.len() / 50;
        for megabytes in [1, 10, 60] {
            let (log, number) = log_of(megabytes * 1_000_000, &c);
            let mut end = Sender { used: log.len(), count: 1, date: 7, dated: 1, ..Sender::default() };
            let used = log.len();
            end.series[0] =
                Served { next: number.into(), piece: 0, reserve: 0, used, published: number, series: 1, login: 1 };
            let (mut ours, mut theirs) = (vec![0u8; 40_000], vec![0u8; 40_000]);
            let (mut library, mut rust) = (f64::MAX, f64::MAX);
            for _ in 0..passes {
                let start = now();
                let sent = black_box(end.send(1, &log, &mut ours));
                library = library.min(now() - start);
                let start = now();
                let wrote = black_box(
                    find(&[1], &log, 1, number).and_then(|(tid, c)| write(7, 1, number, tid, c, &mut theirs)),
                );
                rust = rust.min(now() - start);
                assert_eq!(
                    (sent.answer, Some(sent.bytes), sent.number),
                    (1, wrote, number),
                    "both sides send the same message"
                );
                assert_eq!(ours, theirs, "every byte of both outputs");
            }
            let entries = number as f64;
            println!(
                "messages of {size:4} bytes, log of {megabytes:2} MB, {number:6} entries: library {:6.1} ns an entry, {:5.2} a field; Rust {:6.1} and {:5.2}; ratio {:.2}",
                library * 1e6 / entries, library * 1e6 / entries / fields as f64, rust * 1e6 / entries, rust * 1e6 / entries / fields as f64, rust / library
            );
        }
    }
}
