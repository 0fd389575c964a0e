//! The benchmark of frames: `bench_frames [RUNS [PASSES [ONLY]]]`, as `bench`. Frames of few, many and the most bytes, read
//! and written, beside the reader.

use outside::bench::Bench;
use outside::frames;
use reader::fix;
use std::hint::black_box;

const HEAD: &str = "49=FUND|56=BROKER|34=5|52=20121226-01:00:00|";

/// A type and its fields, `|` for the separator.
fn frame(bench: &Bench, what: &str, name: &str, fields: &str, times: usize) {
    let run: Vec<u8> = fields.bytes().map(|b| if b == b'|' { fix::SOH } else { b }).collect();
    let mut bytes = vec![0; fix::MOST_FRAME];
    let n = fix::write_run(name.as_bytes(), &run, &mut bytes).expect("a frame");
    bytes.truncate(n);
    bench.compare(
        &format!("{what} ({n} bytes) read"),
        || {
            let mut sum = 0;
            for _ in 0..times {
                let read = frames::read(black_box(&bytes), 5);
                assert_eq!(read.answer, 1);
                sum += u64::from(read.expected) + read.name.len as u64 + u64::from(read.number);
            }
            sum
        },
        || {
            let mut sum = 0;
            for _ in 0..times {
                let read = fix::read(black_box(&bytes), 5);
                let message = read.found.expect("a frame");
                assert_eq!(message.judgement, fix::Judgement::Next);
                black_box(&message.fields);
                sum += u64::from(read.expected) + message.kind.len() as u64 + u64::from(message.number);
            }
            sum
        },
    );
    let (mut ours, mut theirs) = (vec![0; n], vec![0; n]);
    bench.compare(
        &format!("{what} ({n} bytes) written"),
        || (0..times).map(|_| frames::write(name.as_bytes(), black_box(&run), &mut ours).bytes as u64).sum(),
        || {
            (0..times)
                .map(|_| fix::write_run(name.as_bytes(), black_box(&run), &mut theirs).expect("room") as u64)
                .sum()
        },
    );
}

fn main() {
    let bench = Bench::by_arguments();
    if bench.only.is_none() {
        println!("{} runs of {} passes; the times of a pass", bench.runs, bench.passes);
    }
    frame(&bench, "heartbeat", "0", HEAD, 1000);
    frame(&bench, "logon", "A", &format!("{HEAD}98=0|108=30|95=9|96=a secret.|"), 1000);
    let order: String = (0..60).map(|i| format!("{}=field {i}|", 5000 + i)).collect();
    frame(&bench, "order, 64 fields", "D", &format!("{HEAD}{order}"), 100);
    frame(&bench, "order, the most fields", "D", &format!("34=5|{}", "1=x|".repeat(1015)), 10);
    frame(&bench, "order, one long text", "D", &format!("34=5|58={}|", "x".repeat(4058)), 20);
}
