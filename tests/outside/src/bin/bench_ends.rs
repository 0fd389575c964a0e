//! The benchmark of the two ends: `bench_ends [RUNS [PASSES [ONLY]]]`, as `bench`. Beside the library stands the model, once inlined
//! with its state in place, once as a function that isn't inlined and takes and gives its state by value, as the library does.

use outside::bench::Bench;
use outside::ends::{Receiver, Sender, HANDED_ON, SEVERAL_END};
use outside::several::record;
use reader::cut::{write_sent, Header};
use reader::generate::{known_field_bytes, raw_field, Random};
use reader::items::known_field;
use reader::packet::{said_length, u16_at, u32_at};
use reader::receiving::{Received, Receiving};
use reader::serving::{OnePacket, Serving};
use reader::several::Stop;
use std::hint::black_box;

const TID: u32 = 0x2002;
const DAY: u32 = 20_041_231;
const ROOM: usize = 40_000;

// --- The model behind a boundary ---

#[inline(never)]
fn called_publish(
    mut end: Serving,
    series: u16,
    tid: u32,
    content: &[u8],
    log: &mut [u8],
) -> (Serving, Result<u32, u8>) {
    let answer = end.publish(series, tid, content, log);
    (end, answer)
}

#[inline(never)]
fn called_login(
    mut end: Serving,
    series: u16,
    packet: &[u8],
    content: &[u8],
    out: &mut Vec<u8>,
) -> (Serving, Result<(), u8>) {
    let answer = end.login(series, packet, content, ROOM, out);
    (end, answer)
}

#[inline(never)]
fn called_send(mut end: Serving, series: u16, log: &[u8], out: &mut Vec<u8>) -> (Serving, Result<Option<u32>, u8>) {
    let answer = end.send(series, log, ROOM, out);
    (end, answer)
}

#[inline(never)]
fn called_send_packet(
    mut end: Serving,
    series: u16,
    log: &[u8],
    out: &mut Vec<u8>,
) -> (Serving, Result<Option<OnePacket>, u8>) {
    let answer = end.send_packet(series, log, ROOM, out);
    (end, answer)
}

#[inline(never)]
fn called_connect(mut end: Receiving) -> Receiving {
    end.connect();
    end
}

#[inline(never)]
fn called_ask(end: Receiving, series: u16, content: &[u8], out: &mut Vec<u8>) -> Result<(), u8> {
    end.ask(series, content, ROOM, out)
}

#[inline(never)]
fn called_answer(mut end: Receiving, series: u16, packet: &[u8]) -> (Receiving, Result<u32, u8>) {
    let answer = end.answer(series, packet);
    (end, answer)
}

#[inline(never)]
fn called_receive<'a>(
    mut end: Receiving,
    packet: &'a [u8],
    buffer: &'a mut [u8],
) -> (Receiving, Result<Received<'a>, u8>) {
    let answer = end.receive(packet, buffer);
    (end, answer)
}

/// Last and the length of what is handed on.
fn taken(answer: Result<Received<'_>, u8>) -> u64 {
    match answer {
        Ok(Received::Again(last) | Received::Held(last)) => last.into(),
        Ok(Received::Message { last, content, .. }) => u64::from(last) + content.bytes().len() as u64,
        _ => 0,
    }
}

// --- What they work on ---

fn right(fid: u32) -> Vec<u8> {
    known_field_bytes(&mut Random::new(fid.into()), known_field(fid).expect("a known field"))
}

/// Both sides' serving ends with so many messages published in a log, logged in at a number.
struct Day {
    library: Sender,
    model: Serving,
    log: Vec<u8>,
}

fn day(messages: u32, tid: u32, content: &[u8], next: u64) -> Day {
    let mut model = Serving::default();
    let mut log = vec![0; messages as usize * (16 + content.len())];
    model.open(DAY, &[1, 2, 3], &[0; 3], log.len()).expect("a day");
    for _ in 0..messages {
        model.publish(2, tid, content, &mut log).expect("room");
    }
    model.day.as_mut().expect("a day").open[1].next = Some(next);
    Day { library: outside::ends::sender(&model), model, log }
}

/// The packets of a message.
fn packets(number: u32, content: &[u8]) -> Vec<Vec<u8>> {
    let mut out = vec![];
    write_sent(&mut out, &Header { tid: TID, series: 2, number, mark: Some(DAY) }, content).expect("content");
    let (mut rest, mut all) = (&out[..], vec![]);
    while let Some(length) = said_length(rest) {
        all.push(rest[..length].to_vec());
        rest = &rest[length..];
    }
    all
}

fn publications(bench: &Bench, name: &str, content: &[u8], count: usize) {
    let start = day(0, TID, &[], 1);
    let mut logs = [(); 3].map(|()| vec![0; count * (16 + content.len())]);
    let [ours, theirs, called] = &mut logs;
    let mut library = || {
        let (mut end, mut sum) = (start.library, 0);
        for _ in 0..count {
            let answer = end.publish(2, TID, black_box(content), ours);
            end = answer.end;
            sum += u64::from(answer.number);
        }
        sum + end.used as u64
    };
    bench.compare(name, &mut library, || {
        let (mut end, mut sum) = (start.model, 0);
        for _ in 0..count {
            sum += u64::from(end.publish(2, TID, black_box(content), theirs).unwrap_or(0));
        }
        sum + end.day.map_or(0, |day| day.used as u64)
    });
    bench.compare(&format!("{name}, as a call"), &mut library, || {
        let (mut end, mut sum) = (start.model, 0);
        for _ in 0..count {
            let answer;
            (end, answer) = called_publish(end, 2, TID, black_box(content), called);
            sum += u64::from(answer.unwrap_or(0));
        }
        sum + end.day.map_or(0, |day| day.used as u64)
    });
}

/// Sends from the state that the day is in: so many, and that so often.
fn sends(bench: &Bench, name: &str, day: &Day, sends: usize, times: usize) {
    let mut out = vec![0; ROOM];
    let mut vectors = [(); 2].map(|()| Vec::with_capacity(ROOM));
    let [theirs, called] = &mut vectors;
    let mut library = || {
        let mut sum = 0;
        for _ in 0..times {
            let mut end = day.library;
            for _ in 0..sends {
                let answer = end.send(2, &day.log, &mut out);
                end = answer.end;
                sum += u64::from(answer.number) + answer.bytes as u64;
            }
        }
        sum
    };
    bench.compare(name, &mut library, || {
        let mut sum = 0;
        for _ in 0..times {
            let mut end = day.model;
            for _ in 0..sends {
                let number = end.send(2, &day.log, ROOM, theirs).ok().flatten();
                sum += number.map_or(0, |number| u64::from(number) + theirs.len() as u64);
            }
        }
        sum
    });
    bench.compare(&format!("{name}, as a call"), &mut library, || {
        let mut sum = 0;
        for _ in 0..times {
            let mut end = day.model;
            for _ in 0..sends {
                let answer;
                (end, answer) = called_send(end, 2, &day.log, called);
                sum += answer.ok().flatten().map_or(0, |number| u64::from(number) + called.len() as u64);
            }
        }
        sum
    });
}

/// Packets sent one by one from the state that the day is in: so many, and that so often.
fn packet_sends(bench: &Bench, name: &str, day: &Day, packets: usize, times: usize) {
    let mut out = vec![0; ROOM];
    let mut vectors = [(); 2].map(|()| Vec::with_capacity(ROOM));
    let [theirs, called] = &mut vectors;
    let sum_of = |answer: Result<Option<OnePacket>, u8>, out: &[u8]| {
        let one = answer.ok().flatten();
        one.map_or(0, |one| u64::from(one.number) + u64::from(one.last) + out.len() as u64)
    };
    let mut library = || {
        let mut sum = 0;
        for _ in 0..times {
            let mut end = day.library;
            for _ in 0..packets {
                let answer = end.send_packet(2, &day.log, &mut out);
                end = answer.end;
                sum += u64::from(answer.number) + u64::from(answer.last) + answer.bytes as u64;
            }
        }
        sum
    };
    bench.compare(name, &mut library, || {
        let mut sum = 0;
        for _ in 0..times {
            let mut end = day.model;
            for _ in 0..packets {
                sum += sum_of(end.send_packet(2, &day.log, ROOM, theirs), theirs);
            }
        }
        sum
    });
    bench.compare(&format!("{name}, as a call"), &mut library, || {
        let mut sum = 0;
        for _ in 0..times {
            let mut end = day.model;
            for _ in 0..packets {
                let answer;
                (end, answer) = called_send_packet(end, 2, &day.log, called);
                sum += sum_of(answer, called);
            }
        }
        sum
    });
}

/// Packets received one behind the other from last 0 on, and that so often.
fn receives(bench: &Bench, name: &str, packets: &[Vec<u8>], times: usize) {
    let mut model = Receiving::default();
    model.open(&[1, 2, 3]).expect("an end");
    let one = &mut model.open[1];
    (one.mark, one.logged_in) = (Some(DAY), true);
    let start = outside::ends::receiver(&model);
    let mut buffers = [(); 3].map(|()| vec![0; 3 * 32_768]);
    let [ours, theirs, called] = &mut buffers;
    let mut library = || {
        let mut sum = 0;
        for _ in 0..times {
            let mut end: Receiver = start;
            for packet in packets {
                let answer = end.receive(packet, ours);
                end = answer.end;
                sum += u64::from(answer.last) + answer.content.len as u64;
            }
        }
        sum
    };
    bench.compare(name, &mut library, || {
        let mut sum = 0;
        for _ in 0..times {
            let mut end = model;
            for packet in packets {
                sum += taken(end.receive(packet, theirs));
            }
        }
        sum
    });
    bench.compare(&format!("{name}, as a call"), &mut library, || {
        let mut sum = 0;
        for _ in 0..times {
            let mut end = model;
            for packet in packets {
                let answer;
                (end, answer) = called_receive(end, packet, called);
                sum += taken(answer);
            }
        }
        sum
    });
}

/// A stream of packets through the call for several until it is through, beside one Receive a packet, both of the library, and
/// beside the model.
fn bufferfuls(bench: &Bench, name: &str, stream: &[u8], times: usize) {
    let mut model = Receiving::default();
    model.open(&[1, 2, 3]).expect("an end");
    let one = &mut model.open[1];
    (one.mark, one.logged_in) = (Some(DAY), true);
    let start = outside::ends::receiver(&model);
    let mut buffers = [(); 3].map(|()| vec![0; 3 * 32_768]);
    let [ours, singles, theirs] = &mut buffers;
    let mut several = || {
        let mut sum = 0;
        for _ in 0..times {
            let (mut end, mut at): (Receiver, usize) = (start, 0);
            loop {
                let answer = end.receive_several(&stream[at..], ours);
                end = answer.end;
                at += answer.taken;
                sum += u64::from(answer.last) + answer.content.len as u64;
                if answer.answer == SEVERAL_END {
                    break;
                }
            }
        }
        sum
    };
    bench.compare_as(name, ["several", "singles"], &mut several, || {
        let mut sum = 0;
        for _ in 0..times {
            let (mut end, mut at): (Receiver, usize) = (start, 0);
            while at < stream.len() {
                let length = outside::said_length(&stream[at..]);
                let answer = end.receive(&stream[at..at + length], singles);
                end = answer.end;
                at += length;
                if answer.answer == HANDED_ON {
                    sum += u64::from(answer.last) + answer.content.len as u64;
                }
            }
        }
        sum
    });
    bench.compare(&format!("{name}, several"), &mut several, || {
        let mut sum = 0;
        for _ in 0..times {
            let (mut end, mut at) = (model, 0);
            loop {
                let answer = end.receive_several(&stream[at..], theirs);
                at += answer.taken;
                match answer.stop {
                    Stop::Message { last, len, .. } => sum += u64::from(last) + len as u64,
                    Stop::Refused(_) | Stop::Short(_) => {}
                    Stop::End => break,
                }
            }
        }
        sum
    });
}

/// A stream of records in one call, beside one Publish a record, both of the library, and beside the model.
fn record_bufferfuls(bench: &Bench, name: &str, content: &[u8], count: usize) {
    let start = day(0, TID, &[], 1);
    let records: Vec<u8> = (0..count).flat_map(|_| record(2, TID, content)).collect();
    let mut logs = [(); 3].map(|()| vec![0; count * (16 + content.len())]);
    let [ours, singles, theirs] = &mut logs;
    let mut several = || start.library.publish_several(black_box(&records), ours).end.used as u64;
    bench.compare_as(name, ["several", "singles"], &mut several, || {
        let mut end = start.library;
        for one in black_box(&records).chunks(10 + content.len()) {
            end = end.publish(u16_at(one, 0), u32_at(one, 2), &one[10..], singles).end;
        }
        end.used as u64
    });
    bench.compare(&format!("{name}, several"), &mut several, || {
        let mut end = start.model;
        end.publish_several(black_box(&records), theirs);
        end.day.map_or(0, |day| day.used as u64)
    });
}

/// Connect: hardly more than the state, taken and given.
fn connects(bench: &Bench, times: usize) {
    let mut start = Receiving::default();
    start.open(&[1, 2, 3]).expect("an end");
    let receiver = outside::ends::receiver(&start);
    bench.compare(
        "Connect, as a call",
        || {
            let mut end = receiver;
            for _ in 0..times {
                end = black_box(end).connect();
            }
            end.count as u64
        },
        || {
            let mut end = start;
            for _ in 0..times {
                end = called_connect(black_box(end));
            }
            end.open.len() as u64
        },
    );
}

/// Ask, Login and Answer, each so often from one state.
fn logins(bench: &Bench, times: usize) {
    let (request, content) = (right(0x0023), right(0x0027));
    let serving = day(10, TID, &right(0x000A), 1);
    let mut receiving = Receiving::default();
    receiving.open(&[1, 2, 3]).expect("an end");
    (receiving.open[1].mark, receiving.open[1].last) = (Some(DAY), 4);
    let receiver = outside::ends::receiver(&receiving);
    let (mut asked, mut answered) = (vec![], vec![]);
    receiving.ask(2, &request, ROOM, &mut asked).expect("a login packet");
    serving.model.clone().login(2, &asked, &content, ROOM, &mut answered).expect("an answer");
    let mut out = vec![0; ROOM];
    let mut vectors = [(); 2].map(|()| Vec::with_capacity(ROOM));
    let [theirs, called] = &mut vectors;

    let mut ask = || (0..times).map(|_| receiver.request_login(2, black_box(&request), &mut out).bytes as u64).sum();
    bench.compare("Ask", &mut ask, || {
        let mut one = || receiving.ask(2, black_box(&request), ROOM, theirs).map_or(0, |()| theirs.len() as u64);
        (0..times).map(|_| one()).sum()
    });
    bench.compare("Ask, as a call", &mut ask, || {
        let mut one = || called_ask(receiving, 2, black_box(&request), called).map_or(0, |()| called.len() as u64);
        (0..times).map(|_| one()).sum()
    });

    let mut login = || {
        let mut end = serving.library;
        let mut one = || {
            let answer = end.login(2, black_box(&asked), &content, &mut out);
            end = answer.end;
            answer.bytes as u64
        };
        (0..times).map(|_| one()).sum()
    };
    bench.compare("Login", &mut login, || {
        let mut end = serving.model;
        let mut one = || end.login(2, black_box(&asked), &content, ROOM, theirs).map_or(0, |()| theirs.len() as u64);
        (0..times).map(|_| one()).sum()
    });
    bench.compare("Login, as a call", &mut login, || {
        let mut end = serving.model;
        let mut one = || {
            let answer;
            (end, answer) = called_login(end, 2, black_box(&asked), &content, called);
            answer.map_or(0, |()| called.len() as u64)
        };
        (0..times).map(|_| one()).sum()
    });

    let mut answer = || {
        let (mut end, mut sum) = (receiver, 0);
        for _ in 0..times {
            let answer = end.confirm_login(2, black_box(&answered));
            end = answer.end;
            sum += u64::from(answer.last);
        }
        sum
    };
    bench.compare("Answer", &mut answer, || {
        let mut end = receiving;
        (0..times).map(|_| u64::from(end.answer(2, black_box(&answered)).unwrap_or(0))).sum()
    });
    bench.compare("Answer, as a call", &mut answer, || {
        let (mut end, mut sum) = (receiving, 0);
        for _ in 0..times {
            let answer;
            (end, answer) = called_answer(end, 2, black_box(&answered));
            sum += u64::from(answer.unwrap_or(0));
        }
        sum
    });
}

fn main() {
    let bench = Bench::by_arguments();
    let row = right(0x000A);
    let long: Vec<u8> = (0..17).flat_map(|i| raw_field(0x7777, &vec![7; if i % 2 == 0 { 0 } else { 4069 }])).collect();
    let whole: Vec<u8> = (0..8).flat_map(|_| row.clone()).collect();
    if bench.only.is_none() {
        println!(
            "{} runs of {} passes; short messages of {} bytes in one field, one of {} in 8, a long one of {} in 17",
            bench.runs,
            bench.passes,
            row.len(),
            whole.len(),
            long.len()
        );
    }
    publications(&bench, "Publish, 1,000 short", &row, 1000);
    publications(&bench, "Publish, 1,000 of 8", &whole, 1000);
    sends(&bench, "Send, 10 of a short log", &day(10, TID, &row, 1), 10, 100);
    sends(&bench, "Send, the last of 10,000", &day(10_000, TID, &row, 10_000), 1, 10);
    sends(&bench, "Send, 17 packets", &day(1, 0x7777, &long, 1), 1, 500);
    packet_sends(&bench, "Send, 17 one by one", &day(1, 0x7777, &long, 1), 17, 500);
    let singles: Vec<Vec<u8>> = (1..=1000).flat_map(|number| packets(number, &row)).collect();
    receives(&bench, "Receive, 1,000 S", &singles, 1);
    let chain = packets(1, &long);
    assert_eq!(chain.len(), 17);
    receives(&bench, "Receive, 17 packets", &chain, 100);
    let megabyte: Vec<u8> = (1..)
        .flat_map(|number| packets(number, &row))
        .take_while({
            let mut total = 0;
            move |packet| {
                total += packet.len();
                total <= 1_000_000
            }
        })
        .flatten()
        .collect();
    bufferfuls(&bench, "A megabyte of S", &megabyte, 1);
    bufferfuls(&bench, "17 packets", &chain.concat(), 100);
    record_bufferfuls(&bench, "1,000 records", &row, 1000);
    connects(&bench, 1000);
    logins(&bench, 1000);
}
