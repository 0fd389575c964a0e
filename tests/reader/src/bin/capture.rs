//! Writes a generated capture to standard output: `capture SEED BYTES`.

use std::io::Write;

fn main() -> std::io::Result<()> {
    let mut words = std::env::args().skip(1).map(|word| word.parse().expect("a number"));
    let seed = words.next().unwrap_or(1);
    let least = words.next().unwrap_or(1 << 20) as usize;
    std::io::stdout().write_all(&reader::generate::capture(seed, least))
}
