//! Times the reader on a generated capture: `speed [SEED [BYTES]]`.

use reader::generate::{capture, content, header, Random};
use reader::packet::{fields, read, Packet};
use reader::{cut, lister, makeup, tables};
use std::hint::black_box;
use std::time::Instant;

/// The best of five runs, in seconds.
fn best(mut run: impl FnMut()) -> f64 {
    let times = (0..5).map(|_| {
        let start = Instant::now();
        run();
        start.elapsed().as_secs_f64()
    });
    times.fold(f64::MAX, f64::min)
}

/// Hands each packet of a capture on, and gives their number.
fn packets(capture: &[u8], mut take: impl FnMut(&Packet)) -> usize {
    let (mut at, mut count) = (0, 0);
    while at < capture.len() {
        let packet = read(&capture[at..]);
        at += match packet {
            Packet::Skipped { length, .. } | Packet::Link { length, .. } => length,
            Packet::Message(m) => m.length,
            Packet::Short(_) | Packet::Refused(_) => panic!("a valid capture"),
        };
        take(&packet);
        count += 1;
    }
    count
}

fn main() {
    let mut words = std::env::args().skip(1).map(|word| word.parse().expect("a number"));
    let seed = words.next().unwrap_or(1);
    let capture = capture(seed, words.next().unwrap_or(8 << 20) as usize);
    let megabytes = capture.len() as f64 / 1e6;
    let count = packets(&capture, |_| {});
    let show = |name: &str, seconds: f64| {
        println!("{name}: {:.0} packets/s, {:.0} MB/s", count as f64 / seconds, megabytes / seconds);
    };
    println!("{count} packets, {megabytes:.1} MB");
    show(
        "read, with fields",
        best(|| {
            packets(&capture, |packet| {
                if let Packet::Message(m) = packet {
                    fields(m.content).flatten().for_each(|field| {
                        black_box(field);
                    });
                }
            });
        }),
    );
    show(
        "read and checked (7 to 10)",
        best(|| {
            packets(&capture, |packet| {
                if let Packet::Message(m) = packet {
                    let _ = black_box(makeup::check(m.tid, makeup::Direction::Down, m.content, 4080));
                }
            });
        }),
    );
    show(
        "listed",
        best(|| {
            black_box(lister::lines(&capture));
        }),
    );
    let mut r = Random::new(seed);
    let message = tables::MESSAGES.iter().find(|m| m.tid == 0x2004).expect("MarketMatchData");
    let (header, content) = (header(&mut r, message.tid), content(&mut r, message, 32_768, true));
    let mut out = Vec::new();
    let seconds = best(|| {
        for _ in 0..1000 {
            out.clear();
            black_box(cut::write_message(&mut out, &header, black_box(&content)));
        }
    });
    println!("long message of {} bytes: {:.1} us to cut and write", content.len(), seconds * 1000.0);
}
