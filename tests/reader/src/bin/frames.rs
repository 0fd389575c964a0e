//! Writes the calls for `fixcheck` into a folder: `stdin`, the calls, and `stdout`, what it has to print.

use reader::fix_calls::files;
use std::fs::write;
use std::path::PathBuf;

fn main() -> std::io::Result<()> {
    let folder = PathBuf::from(std::env::args().nth(1).expect("a folder"));
    let (input, output) = files();
    write(folder.join("stdin"), input)?;
    write(folder.join("stdout"), output)
}
