//! Lists standard input: the lister's lines, or with the word `all` those of a capture of any length.

use std::io::{Read, Write};

fn main() -> std::io::Result<()> {
    let mut input = Vec::new();
    std::io::stdin().read_to_end(&mut input)?;
    let all = std::env::args().nth(1).is_some_and(|word| word == "all");
    let text = if all { reader::lister::lines(&input) } else { reader::lister::list(&input) };
    std::io::stdout().write_all(text.as_bytes())
}
