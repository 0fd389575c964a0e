//! Packets: the bench examples P1 to P8, the order of the refusals, tags and fields.

use reader::generate::raw_field;
use reader::packet::{field, read, MessagePacket, Packet};

/// The 20-byte packet of the lister's example.
const EMPTY: [u8; 20] = [1, 0, 0, 16, 1, 0, 0, 0x20, 4, b'S', 0, 1, 0, 0, 0, 1, 0, 0, 0, 0];

fn message(bytes: &[u8]) -> MessagePacket<'_> {
    match read(bytes) {
        Packet::Message(m) => m,
        other => panic!("{other:?}"),
    }
}

/// A message packet with the extension and the fields.
fn packet(extension: &[u8], fields: &[Vec<u8>]) -> Vec<u8> {
    let content = fields.concat();
    let mut out = vec![1, extension.len() as u8];
    out.extend((16 + content.len() as u16).to_be_bytes());
    out.extend_from_slice(extension);
    out.extend(&EMPTY[4..16]);
    out.extend((fields.len() as u16).to_be_bytes());
    out.extend((content.len() as u16).to_be_bytes());
    out.extend(content);
    out
}

#[test]
fn p1_to_p6() {
    assert_eq!(read(&[]), Packet::Short(4));
    let heart = [0, 2, 0, 0, 4, 0];
    assert_eq!(read(&heart), Packet::Link { kind: 0, extension: &[4, 0], mark: None, place: None, length: 6 });
    assert_eq!(read(&heart[..5]), Packet::Short(1));
    assert_eq!(read(&[1, 0x80, 0, 0]), Packet::Refused(1));
    assert_eq!(read(&[1, 0x7F, 0, 0]), Packet::Short(127));
    assert_eq!(read(&[1, 0x80]), Packet::Short(2));
    assert_eq!(read(&[2, 0x7F, 0xFF, 0xFF]), Packet::Short(65_662));
    assert_eq!(read(&[0, 2, 0, 0, 4, 1]), Packet::Refused(2));
    assert_eq!(read(&[1, 0, 0, 15]), Packet::Refused(3));
    assert_eq!(read(&[1, 0, 0, 16]), Packet::Short(16));
    assert_eq!(read(&[1, 0, 0x10, 0]), Packet::Short(4096));
    assert_eq!(read(&[1, 0, 0x10, 1]), Packet::Refused(3));
}

#[test]
fn p7_and_p8() {
    let m = message(&EMPTY);
    assert_eq!((m.tid, m.chain, m.series, m.number, m.count, m.content_at, m.length), (0x2004, b'S', 1, 1, 0, 20, 20));
    for (at, byte, row) in [(4, 2, 4), (9, b's', 5), (19, 1, 6), (17, 1, 7)] {
        let mut bytes = EMPTY;
        bytes[at] = byte;
        assert_eq!(read(&bytes), Packet::Refused(row));
    }
}

#[test]
fn order_of_refusals() {
    // All places wrong; each mended in turn shows the next number.
    let mut bytes = vec![1, 128, 0, 15];
    assert_eq!(read(&bytes), Packet::Refused(1));
    bytes[1] = 2;
    assert_eq!(read(&bytes), Packet::Refused(3));
    bytes[3] = 17;
    assert_eq!(read(&bytes), Packet::Short(19));
    bytes.extend([4, 1, 2, 0, 0, 0, 0, b's', 0, 0, 0, 0, 0, 0, 0, 1, 0, 0, 0]);
    assert_eq!(read(&bytes), Packet::Refused(2));
    bytes[5] = 0;
    assert_eq!(read(&bytes), Packet::Refused(4));
    bytes[6] = 1;
    assert_eq!(read(&bytes), Packet::Refused(5));
    bytes[11] = b'C';
    assert_eq!(read(&bytes), Packet::Refused(6));
    bytes[20..22].copy_from_slice(&[0, 1]);
    assert_eq!(read(&bytes), Packet::Refused(7));
}

#[test]
fn skipped_packets() {
    // Row 1 holds for them, row 2 doesn't; type 0x02 without a body is skipped, type 0x00 with one too.
    assert_eq!(read(&[2, 0x80, 0, 0]), Packet::Refused(1));
    assert_eq!(read(&[2, 1, 0, 0, 9]), Packet::Skipped { kind: 2, extension: &[9], body: &[], length: 5 });
    assert_eq!(read(&[0, 0, 0, 1, 9, 8]), Packet::Skipped { kind: 0, extension: &[], body: &[9], length: 5 });
    assert_eq!(read(&[2, 0, 0, 1]), Packet::Short(1));
}

#[test]
fn tags() {
    let date = [5, 4, 1, 2, 3, 4];
    assert_eq!(message(&packet(&date, &[])).mark, Some(0x0102_0304));
    assert_eq!(message(&packet(&[], &[])).mark, None);
    // Known tags at their lengths and others; unknown ones with any length; known ones but 0x05 and 0x70 may repeat.
    for (kind, length) in [(0, 0), (1, 4), (2, 1), (3, 1), (4, 0), (5, 4), (6, 2), (0x70, 2)] {
        for n in 0..6 {
            let run = [vec![kind, n], vec![0; n.into()]].concat();
            let right = n == length;
            assert_eq!(matches!(read(&packet(&run, &[])), Packet::Message(_)), right, "{kind} {n}");
            let twice = [run.clone(), run].concat();
            assert_eq!(matches!(read(&packet(&twice, &[])), Packet::Message(_)), right && kind != 5 && kind != 0x70);
        }
    }
    assert_eq!(message(&packet(&[7, 3, 1, 2, 3, 0xFF, 0], &[])).extension, [7, 3, 1, 2, 3, 0xFF, 0]);
    assert_eq!(read(&packet(&[7], &[])), Packet::Refused(2));
    assert_eq!(read(&packet(&[7, 3, 1, 2], &[])), Packet::Refused(2));
    assert_eq!(read(&[[0, 12, 0, 0].to_vec(), date.to_vec(), date.to_vec()].concat()), Packet::Refused(2));
}

#[test]
fn field_i() {
    let mut bytes = packet(&[4, 0], &[raw_field(1, b"first"), raw_field(0xFFFF_FFFF, b""), raw_field(3, &[7; 300])]);
    bytes.extend(EMPTY);
    assert_eq!(field(&bytes, 0), Some(&b"first"[..]));
    assert_eq!(field(&bytes, 1), Some(&b""[..]));
    assert_eq!(field(&bytes, 2), Some(&[7; 300][..]));
    assert_eq!(field(&bytes, 3), None);
    assert_eq!(message(&bytes).field(1).unwrap().fid, 0xFFFF_FFFF);
    for other in [&[][..], &[0, 2, 0, 0, 4, 0], &[2, 0, 0, 1, 1], &[1, 0, 0, 15], &EMPTY] {
        assert_eq!(field(other, 0), None);
    }
}

#[test]
fn fields_that_are_not_whole() {
    let full = packet(&[], &[raw_field(1, &[0; 4074])]);
    assert_eq!(message(&full).length, 4100);
    assert_eq!(message(&packet(&[], &vec![raw_field(1, &[]); 680])).count, 680);
    for (at, byte) in [(24, 0xF0), (25, 0xE9), (25, 0xEB), (17, 0), (17, 2), (16, 1)] {
        let mut bytes = full.clone();
        bytes[at] = byte;
        assert_eq!(read(&bytes), Packet::Refused(7), "{at}");
    }
}
