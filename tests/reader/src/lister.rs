//! The lister's lines.

use crate::packet::{keeps_alive, read, Packet};
use std::fmt::Write;

/// The most bytes that the lister takes.
pub const MOST_INPUT: usize = 65_536;

/// What `ftdlist` prints for the input.
pub fn list(input: &[u8]) -> String {
    if input.len() > MOST_INPUT {
        "0\tlong\n".to_string()
    } else {
        lines(input)
    }
}

/// The lines of a capture of any length.
pub fn lines(input: &[u8]) -> String {
    let mut text = String::new();
    let mut at = 0;
    while at < input.len() {
        let length = match read(&input[at..]) {
            Packet::Short(_) => {
                writeln!(text, "{at}\tshort").unwrap();
                return text;
            }
            Packet::Refused(row) => {
                writeln!(text, "{at}\trefused\t{row}").unwrap();
                return text;
            }
            Packet::Skipped { length, .. } => {
                writeln!(text, "{at}\tskip").unwrap();
                length
            }
            Packet::Link { kind, extension, length, .. } => {
                let heart = kind == 0 && keeps_alive(extension);
                writeln!(text, "{at}\t{}", if heart { "heart" } else { "link" }).unwrap();
                length
            }
            Packet::Message(m) => {
                let chain = char::from(m.chain);
                writeln!(text, "{at}\tmsg\t{:08X}\t{chain}\t{}\t{}\t{}", m.tid, m.series, m.number, m.count).unwrap();
                m.length
            }
        };
        at += length;
    }
    writeln!(text, "{at}\tend").unwrap();
    text
}
