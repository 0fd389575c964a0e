//! Writes the script for `ftdplay` into a folder: `stdin`, the calls, and `stdout`, what they have to print.

use reader::script::whole_script;
use std::fs::write;
use std::path::PathBuf;

fn main() -> std::io::Result<()> {
    let folder = PathBuf::from(std::env::args().nth(1).expect("a folder"));
    let (input, output) = whole_script().0.texts();
    write(folder.join("stdin"), input)?;
    write(folder.join("stdout"), output)
}
