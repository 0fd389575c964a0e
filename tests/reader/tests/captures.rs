//! The lister: its example, and all records of the captures that stand in the repository.

use reader::lister::{lines, list};
use std::path::Path;

const EXAMPLE: [u8; 26] = [0, 2, 0, 0, 4, 0, 1, 0, 0, 16, 1, 0, 0, 0x20, 4, b'S', 0, 1, 0, 0, 0, 1, 0, 0, 0, 0];

#[test]
fn example() {
    assert_eq!(list(&EXAMPLE), "0\theart\n6\tmsg\t00002004\tS\t1\t1\t0\n26\tend\n");
    assert_eq!(list(&[]), "0\tend\n");
    assert_eq!(list(&EXAMPLE[..25]), "0\theart\n6\tshort\n");
    assert_eq!(list(&[0, 2, 0, 0, 4, 0, 2, 0x80, 0, 0]), "0\theart\n6\trefused\t1\n");
    assert_eq!(list(&[1, 2, 0, 0, 4, 0, 0, 0, 0, 0, 3, 0, 0, 0]), "0\tlink\n6\tlink\n10\tskip\n14\tend\n");
    assert_eq!(list(&[0, 8, 0, 0, 0x77, 1, 4, 6, 2, 1, 1, 4]), "0\trefused\t2\n");
    assert_eq!(list(&[0, 7, 0, 0, 0x77, 1, 4, 6, 2, 1, 1]), "0\tlink\n11\tend\n");
}

#[test]
fn long_input() {
    let links = [0; 65_540];
    assert_eq!(list(&links), "0\tlong\n");
    assert_eq!(list(&links[..65_537]), "0\tlong\n");
    assert!(list(&links[..65_536]).ends_with("65532\tlink\n65536\tend\n"));
    assert!(lines(&links).ends_with("65536\tlink\n65540\tend\n"));
}

#[test]
fn records_of_the_repository() {
    let folder = Path::new(env!("CARGO_MANIFEST_DIR")).join("../../crates/captures/data");
    let mut records = 0;
    for entry in std::fs::read_dir(folder).expect("the folder of captures") {
        let path = entry.unwrap().path();
        let bytes = std::fs::read(&path).unwrap();
        let number = |at: usize| u32::from_be_bytes(bytes[at..at + 4].try_into().unwrap()) as usize;
        let mut at = 0;
        while at < bytes.len() {
            let (capture, text) = (at + 8, at + 8 + number(at));
            let end = text + number(at + 4);
            assert_eq!(list(&bytes[capture..text]).as_bytes(), &bytes[text..end], "{} at {at}", path.display());
            at = end;
            records += 1;
        }
    }
    assert!(records > 100, "{records}");
    println!("{records} records");
}

#[test]
fn sample_of_the_repository() {
    let path = Path::new(env!("CARGO_MANIFEST_DIR")).join("../../samples/capture.bin");
    let text = list(&std::fs::read(path).unwrap());
    assert!(text.starts_with("0\theart\n"), "{text}");
    println!("{text}");
}
