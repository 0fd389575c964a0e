//! Link and skipped packets written (4.1).

use crate::generate::{self, Random};
use crate::packet::{read, Packet, MESSAGE_HEADER, MOST_CONTENT, PLACE};

/// Why one isn't written.
#[derive(Clone, Copy, Debug, PartialEq, Eq)]
pub enum NotWritten {
    /// Row 1, 2 or 3 of the refusal table.
    Refused(u8),
    /// A message packet, or a body that two bytes can't count: the table has no row for it.
    NotPlain,
}

/// The packet's bytes. They are what reads as a link or skipped packet of the type, extension and body.
pub fn plain_packet(kind: u8, extension: &[u8], body: &[u8]) -> Result<Vec<u8>, NotWritten> {
    if extension.len() > 127 {
        return Err(NotWritten::Refused(1));
    }
    if kind == 1 && !body.is_empty() {
        let message = (MESSAGE_HEADER..=MESSAGE_HEADER + MOST_CONTENT).contains(&body.len());
        return Err(if message { NotWritten::NotPlain } else { NotWritten::Refused(3) });
    }
    let length = u16::try_from(body.len()).map_err(|_| NotWritten::NotPlain)?;
    let mut out = vec![kind, extension.len() as u8];
    out.extend(length.to_be_bytes());
    out.extend_from_slice(extension);
    out.extend_from_slice(body);
    match read(&out) {
        Packet::Refused(row) => Err(NotWritten::Refused(row)),
        Packet::Link { .. } | Packet::Skipped { .. } => Ok(out),
        other => unreachable!("{other:?}"),
    }
}

/// Type, extension and body of a packet to be written: often right ones, and lengths at the borders.
pub fn plain_input(r: &mut Random) -> (u8, Vec<u8>, Vec<u8>) {
    let kind = if r.once_in(8) { r.byte() } else { r.pick(&[0, 0, 0, 1, 1, 2, 3, 255]) };
    let mut extension = match r.below(8) {
        0 => {
            let n: usize = r.pick(&[0, 1, 2, 126, 127, 128, 129, 255, 256, 383]);
            if r.once_in(2) {
                // One unknown tag as long as the extension.
                [vec![0x77, n.saturating_sub(2) as u8], vec![5; n]].concat()[..n].to_vec()
            } else {
                r.bytes(n)
            }
        }
        1 => generate::extension(r, 300),
        _ => generate::extension(r, 127),
    };
    if !extension.is_empty() && r.once_in(3) {
        let at = r.below(extension.len());
        extension[at] = r.pick(&[0, 1, 2, 4, 5, 6, 7, PLACE, 0xFF]);
    }
    let n = match r.below(64) {
        0 => r.pick(&[65_534, 65_535, 65_536, 65_537, 70_000, 131_072]),
        1..=3 => r.pick(&[4095, 4096, 4097]),
        4..=15 => r.pick(&[1, 14, 15, 16, 17, 255, 256, 257]),
        16..=23 => r.below(600),
        _ => 0,
    };
    let body = if n < 1000 { r.bytes(n) } else { vec![r.byte(); n] };
    (kind, extension, body)
}
