//! A bufferful against the single calls, cut at every place.

use reader::cut::{write_message, Header};
use reader::packet::{said_length, MOST_MESSAGE};
use reader::receiving::{Kept, Received, Receiving};
use reader::serving::Serving;
use reader::several::{drive, Answer, Stop};

/// TID, content and last of a message, or a refusal.
type Heard = Result<(u32, Vec<u8>, u32), u8>;

fn note(len: usize) -> Vec<u8> {
    let mut field = vec![0x77, 0, 0, 1];
    field.extend((len as u16).to_be_bytes());
    field.resize(6 + len, 0x41);
    field
}

/// An end that is logged in to series 3.
fn end() -> Receiving {
    let mut end = Receiving::default();
    end.open(&[3]).unwrap();
    end.open[0] = Kept { series: 3, mark: Some(7), last: 0, logged_in: true, chain: None };
    end
}

fn packet(number: u32, content: &[u8]) -> Vec<u8> {
    let mut out = Vec::new();
    write_message(&mut out, &Header { tid: 0x2004, series: 3, number, mark: Some(7) }, content).unwrap();
    out
}

/// Messages short and long, again, a gap, link, skipped and damaged packets.
fn stream() -> Vec<u8> {
    let long = [note(2000), note(2000), note(2000)].concat();
    let mut out = packet(1, &note(3));
    out.extend([0, 2, 0, 0, 4, 0]);
    out.extend(packet(2, &long));
    out.extend(packet(2, &note(1)));
    out.extend([9, 1, 0, 2, 5, 5, 5]);
    out.extend([1, 0, 0, 3, 1, 1, 1]);
    out.extend(packet(4, &note(1)));
    let mut broken = vec![1, 130, 0, 1];
    broken.resize(4 + 131, 0);
    out.extend(broken);
    out.extend(packet(3, &[]));
    out
}

fn one_by_one(end: &mut Receiving, buffer: &mut [u8], mut bytes: &[u8]) -> Vec<Heard> {
    let mut heard = Vec::new();
    while let Some(length) = said_length(bytes).filter(|&length| length <= bytes.len()) {
        match end.receive(&bytes[..length], buffer) {
            Ok(Received::Message { last, tid, content }) => heard.push(Ok((tid, content.bytes().to_vec(), last))),
            Ok(_) => {}
            Err(row) => heard.push(Err(row)),
        }
        bytes = &bytes[length..];
    }
    heard
}

#[test]
fn cut_at_every_place() {
    let stream = stream();
    let (mut plain, mut plain_buffer) = (end(), vec![0; MOST_MESSAGE]);
    let expected = one_by_one(&mut plain, &mut plain_buffer, &stream);
    assert_eq!(expected.len(), 6);
    for at in 0..=stream.len() {
        let (mut end, mut buffer) = (end(), vec![0; MOST_MESSAGE]);
        let (mut waiting, mut heard, mut calls) = (Vec::new(), Vec::new(), 0);
        for read in [&stream[..at], &stream[at..]] {
            let lent = std::cell::RefCell::new(&mut buffer);
            drive(
                &mut waiting,
                read,
                |bytes| {
                    calls += 1;
                    end.receive_several(bytes, &mut lent.borrow_mut())
                },
                |stop, bytes| match stop {
                    Stop::Message { last, tid, buffer, start, len } => {
                        let lent = lent.borrow();
                        let from = if buffer { &lent[..] } else { bytes };
                        heard.push(Ok((tid, from[start..start + len].to_vec(), last)));
                    }
                    Stop::Refused(row) => heard.push(Err(row)),
                    Stop::End | Stop::Short(_) => {}
                },
            );
        }
        assert_eq!((&heard, end, &buffer, waiting.len()), (&expected, plain, &plain_buffer, 0), "cut at {at}");
        assert_eq!(calls, heard.len() + 2);
    }
}

#[test]
fn short_and_end() {
    let mut buffer = vec![0; MOST_MESSAGE];
    for (bytes, stop) in [
        (&[][..], Stop::End),
        (&[1], Stop::Short(3)),
        (&[1, 128, 0, 0], Stop::Short(128)),
        (&[1, 0, 0, 15], Stop::Short(15)),
        (&[1, 255, 255, 255], Stop::Short(65_790)),
    ] {
        assert_eq!(end().receive_several(bytes, &mut buffer), Answer { stop, taken: 0 });
    }
    let whole = [&[1, 0, 0, 15][..], &[0; 15]].concat();
    assert_eq!(end().receive_several(&whole, &mut buffer), Answer { stop: Stop::Refused(3), taken: 19 });
}

fn record(series: u16, content: &[u8]) -> Vec<u8> {
    let head = [&series.to_be_bytes()[..], &0x2004_u32.to_be_bytes(), &(content.len() as u32).to_be_bytes()];
    [&head.concat(), content].concat()
}

#[test]
fn records() {
    let bytes = [record(3, &note(1)), record(5, &note(1)), record(3, &note(2)), record(3, &[1])].concat();
    let (mut end, mut log) = (Serving::default(), vec![0; 200]);
    end.open(7, &[3], &[0], 0).unwrap();
    let second = end.publish_several(&bytes, &mut log);
    assert_eq!(second, Answer { stop: Stop::Refused(13), taken: 17 + 17 });
    let last = end.publish_several(&bytes[34..], &mut log);
    assert_eq!(last, Answer { stop: Stop::Refused(7), taken: 18 + 11 });
    let mut plain = Serving::default();
    let mut plain_log = vec![0; 200];
    plain.open(7, &[3], &[0], 0).unwrap();
    plain.publish(3, 0x2004, &note(1), &mut plain_log).unwrap();
    plain.publish(3, 0x2004, &note(2), &mut plain_log).unwrap();
    assert_eq!((end, log), (plain, plain_log));
    let short = |bytes: &[u8]| Serving::default().publish_several(bytes, &mut []);
    assert_eq!(short(&[]), Answer { stop: Stop::End, taken: 0 });
    assert_eq!(short(&[255; 9]), Answer { stop: Stop::Short(1), taken: 0 });
    assert_eq!(short(&[255; 10]), Answer { stop: Stop::Short(4_294_967_295), taken: 0 });
}
