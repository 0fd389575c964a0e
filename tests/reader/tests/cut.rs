//! The cut of a message into packets: P12, and the extreme sizes.

use reader::cut::{cut, write_message, Header};
use reader::generate::{message_content, raw_field, Random};
use reader::packet::{read, Packet};

const HEADER: Header = Header { tid: 0x2004, series: 3, number: 9, mark: Some(0x0131_CA7B) };

/// Chain letters and content lengths of the packets; the joined content is the message's.
fn packets(header: &Header, content: &[u8]) -> Option<(String, Vec<usize>)> {
    let mut out = Vec::new();
    let count = write_message(&mut out, header, content)?;
    let (mut letters, mut lengths, mut joined, mut at) = (String::new(), Vec::new(), Vec::new(), 0);
    while at < out.len() {
        let Packet::Message(m) = read(&out[at..]) else { panic!("{:?}", read(&out[at..])) };
        assert_eq!((m.tid, m.series, m.number, m.mark), (header.tid, header.series, header.number, header.mark));
        assert_eq!(m.extension.len(), if header.mark.is_some() { 6 } else { 0 });
        letters.push(m.chain.into());
        lengths.push(m.content.len());
        joined.extend_from_slice(m.content);
        at += m.length;
    }
    assert_eq!(joined, content);
    assert_eq!(count, lengths.len());
    Some((letters, lengths))
}

fn sizes(fields: &[usize]) -> Option<(String, Vec<usize>)> {
    let content: Vec<u8> = fields.iter().flat_map(|&n| raw_field(0x7777, &vec![1; n])).collect();
    packets(&HEADER, &content)
}

fn answer(letters: &str, lengths: &[usize]) -> Option<(String, Vec<usize>)> {
    Some((letters.to_string(), lengths.to_vec()))
}

#[test]
fn p12_and_extreme_sizes() {
    assert_eq!(sizes(&[2034, 2034]), answer("S", &[4080]));
    assert_eq!(sizes(&[2034, 2035]), answer("FL", &[2040, 2041]));
    assert_eq!(sizes(&[]), answer("S", &[0]));
    assert_eq!(sizes(&[4074]), answer("S", &[4080]));
    assert_eq!(sizes(&[4075]), None);
    assert_eq!(sizes(&[4074, 0]), answer("FL", &[4080, 6]));
    assert_eq!(sizes(&[0; 680]), answer("S", &[4080]));
    assert_eq!(sizes(&[0; 681]), answer("FL", &[4080, 6]));
    assert_eq!(sizes(&[4000, 100, 100]), answer("FL", &[4006, 212]));
    // 32,768 bytes: in the fewest packets, in many, and one byte more.
    assert_eq!(
        sizes(&[[4074; 8].to_vec(), vec![122]].concat()),
        answer("FCCCCCCCL", &[[4080; 8].to_vec(), vec![128]].concat())
    );
    assert_eq!(sizes(&[[4074; 8].to_vec(), vec![123]].concat()), None);
    assert_eq!(sizes(&[2042; 16]), answer("FCCCCCCCCCCCCCCL", &[2048; 16]));
    assert_eq!(packets(&Header { mark: None, ..HEADER }, &[]), answer("S", &[0]));
    assert_eq!(cut(&[0]), None);
}

#[test]
fn bytes_of_the_lister_example() {
    let mut out = Vec::new();
    write_message(&mut out, &Header { tid: 0x2004, series: 1, number: 1, mark: None }, &[]);
    assert_eq!(out, [1, 0, 0, 16, 1, 0, 0, 0x20, 4, b'S', 0, 1, 0, 0, 0, 1, 0, 0, 0, 0]);
    out.clear();
    write_message(&mut out, &HEADER, &raw_field(0x0102_0304, &[7]));
    let head = [1, 6, 0, 23, 5, 4, 1, 0x31, 0xCA, 0x7B, 1, 0, 0, 0x20, 4, b'S', 0, 3, 0, 0, 0, 9, 0, 1, 0, 7];
    assert_eq!(out, [&head[..], &[1, 2, 3, 4, 0, 1, 7]].concat());
}

#[test]
fn each_packet_holds_as_many_fields_as_fit() {
    let mut r = Random::new(4);
    let mut taken = 0;
    for _ in 0..3000 {
        let content = message_content(&mut r);
        let Some(parts) = cut(&content) else { continue };
        taken += 1;
        assert_eq!(parts.concat(), content);
        for pair in parts.windows(2) {
            let next = 6 + usize::from(u16::from_be_bytes([pair[1][4], pair[1][5]]));
            assert!(!pair[0].is_empty() && pair[0].len() + next > 4080);
        }
        packets(&HEADER, &content).expect("packets");
    }
    assert!((1000..2900).contains(&taken), "{taken}");
}
