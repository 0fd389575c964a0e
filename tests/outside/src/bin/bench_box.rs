//! The benchmark of the box: `bench_box [RUNS [PASSES [ONLY]]]`, as `bench`. Its Receive that publishes beside
//! ftd_receive and ftd_publish one behind the other, its Send of a seat beside ftd_send, all of the library; and both
//! beside the model. Needs the feature `box`.

use outside::bench::Bench;
use outside::boxes::{boxed, places, Boxed, Library, Places, Side};
use outside::ends::{Receiver, Sender, HANDED_ON, IN_PACKET};
use reader::cut::{write_packet, write_sent, Header};
use reader::generate::{known_field_bytes, raw_field, Random};
use reader::items::known_field;
use reader::packet::cut_apart;
use reader::receiving::{Received, Receiving};
use reader::relay::{Place, Relay};
use reader::serving::{Serving, LOGIN};
use std::hint::black_box;

const TID: u32 = 0x2002;
const STRANGE: u32 = 0x7777;
const DAY: u32 = 20_041_231;
const ROOM: usize = 40_000;
const SERIES: [u16; 3] = [1, 2, 3];
const BUFFER: usize = 3 * 32_768;
const SEAT: usize = 9;

fn right(fid: u32) -> Vec<u8> {
    known_field_bytes(&mut Random::new(fid.into()), known_field(fid).expect("a known field"))
}

/// A box with a day open, logged in from above to series 2.
fn relay(log: usize) -> Relay {
    let mut relay = Relay::default();
    relay.open(&SERIES, &[0; 3]).expect("a box");
    let mut answer = vec![];
    write_packet(&mut answer, &Header { tid: LOGIN, series: 0, number: 0, mark: Some(DAY) }, b'S', &right(0x0027));
    relay.answer(2, &answer, log).expect("a day");
    relay
}

/// The same as two ends.
fn ends(log: usize) -> (Receiver, Sender) {
    let mut serving = Serving::default();
    serving.open(DAY, &SERIES, &[0; 3], log).expect("a day");
    let mut receiving = Receiving::default();
    receiving.open(&SERIES).expect("an end");
    (receiving.open[1].mark, receiving.open[1].logged_in) = (Some(DAY), true);
    (outside::ends::receiver(&receiving), outside::ends::sender(&serving))
}

/// The packets of a message.
fn packets(tid: u32, number: u32, content: &[u8]) -> Vec<Vec<u8>> {
    let mut out = vec![];
    write_sent(&mut out, &Header { tid, series: 2, number, mark: Some(DAY) }, content).expect("content");
    cut_apart(&out)
}

/// Packets received one behind the other, and published where they hand a message on; of a message the first few
/// before, unmeasured.
fn receives(bench: &Bench, name: &str, packets: &[Vec<u8>], before: usize, log: usize, times: usize) {
    let mut lent = [(); 3].map(|()| (vec![0; log], vec![0; BUFFER]));
    let [(box_log, box_buffer), (log_2, buffer_2), (model_log, model_buffer)] = &mut lent;
    let (mut model, (mut receiver, sender)) = (relay(log), ends(log));
    for packet in &packets[..before] {
        model.receive(packet, model_log, model_buffer).expect("held");
        receiver = receiver.receive(packet, buffer_2).end;
    }
    box_buffer.copy_from_slice(model_buffer);
    let (start, packets): (Boxed, &[Vec<u8>]) = (boxed(&model), &packets[before..]);
    let mut library = || {
        let mut sum = 0;
        for _ in 0..times {
            let mut state = start;
            for packet in packets {
                let answer = Library.receive(state, black_box(packet), box_log, box_buffer);
                state = answer.state;
                sum += u64::from(answer.last) + answer.content.len as u64;
            }
        }
        sum
    };
    bench.compare_as(name, ["box", "two calls"], &mut library, || {
        let mut sum = 0;
        for _ in 0..times {
            let (mut end, mut day) = (receiver, sender);
            for packet in packets {
                let answer = end.receive(black_box(packet), buffer_2);
                end = answer.end;
                if answer.answer == HANDED_ON {
                    let bytes = if answer.origin == IN_PACKET { &packet[..] } else { &buffer_2[..] };
                    day = day.publish(2, answer.tid, answer.content.of(bytes), log_2).end;
                }
                sum += u64::from(answer.last) + answer.content.len as u64;
            }
            black_box(day);
        }
        sum
    });
    bench.compare(&format!("{name}, model"), &mut library, || {
        let mut sum = 0;
        for _ in 0..times {
            let mut state = model;
            for packet in packets {
                sum += match state.receive(black_box(packet), model_log, model_buffer) {
                    Ok(Received::Again(last) | Received::Held(last)) => last.into(),
                    Ok(Received::Message { last, content, .. }) => u64::from(last) + content.bytes().len() as u64,
                    _ => 0,
                };
            }
        }
        sum
    });
}

/// Sends of a seat from number 1 on: so many, and that so often.
fn sends(bench: &Bench, name: &str, tid: u32, content: &[u8], messages: u32, times: usize) {
    let mut log = vec![0; messages as usize * (16 + content.len())];
    let (mut model, mut serving, mut buffer) = (relay(log.len()), Serving::default(), vec![0; BUFFER]);
    serving.open(DAY, &SERIES, &[0; 3], log.len()).expect("a day");
    for number in 1..=messages {
        for packet in packets(tid, number, content) {
            model.receive(&packet, &mut log, &mut buffer).expect("published");
        }
        serving.publish(2, tid, content, &mut log.clone()).expect("room");
    }
    model.seats[SEAT][1] = Some(Place { next: 1, piece: 0 });
    serving.day.as_mut().expect("a day").open[1].next = Some(1);
    let (state, start, sender): (Boxed, Places, Sender) =
        (boxed(&model), places(&model), outside::ends::sender(&serving));
    let (mut out, mut out_2, mut vector) = (vec![0; ROOM], vec![0; ROOM], Vec::with_capacity(ROOM));
    let mut at = start;
    let place = outside::boxes::place_at(SEAT, 1);
    let mut library = || {
        let mut sum = 0;
        for _ in 0..times {
            at[place + 1] = 1;
            for _ in 0..messages {
                let answer = Library.send(state, SEAT, 2, &mut at, &log, &mut out);
                sum += u64::from(answer.number) + answer.bytes as u64;
            }
        }
        sum
    };
    bench.compare_as(name, ["box", "ftd_send"], &mut library, || {
        let mut sum = 0;
        for _ in 0..times {
            let mut end = sender;
            for _ in 0..messages {
                let answer = end.send(2, &log, &mut out_2);
                end = answer.end;
                sum += u64::from(answer.number) + answer.bytes as u64;
            }
        }
        sum
    });
    bench.compare(&format!("{name}, model"), &mut library, || {
        let mut sum = 0;
        for _ in 0..times {
            model.seats[SEAT][1] = Some(Place { next: 1, piece: 0 });
            for _ in 0..messages {
                let number = model.send(SEAT, 2, &log, ROOM, &mut vector).ok().flatten();
                sum += number.map_or(0, |number| u64::from(number) + vector.len() as u64);
            }
        }
        sum
    });
}

fn main() {
    let bench = Bench::by_arguments();
    let row = right(0x000A);
    let long: Vec<u8> = (0..17).flat_map(|i| raw_field(STRANGE, &vec![7; if i % 2 == 0 { 0 } else { 4069 }])).collect();
    if bench.only.is_none() {
        println!(
            "{} runs of {} passes; short messages of {} bytes in one field, a long one of {} in 17",
            bench.runs,
            bench.passes,
            row.len(),
            long.len()
        );
    }
    let singles: Vec<Vec<u8>> = (1..=1000).flat_map(|number| packets(TID, number, &row)).collect();
    receives(&bench, "Receive, 1,000 S", &singles, 0, 1000 * (16 + row.len()), 1);
    let chain = packets(STRANGE, 1, &long);
    assert_eq!(chain.len(), 17);
    receives(&bench, "Receive, 17 packets", &chain, 0, 16 + long.len(), 100);
    receives(&bench, "Receive, the L of 17", &chain, 16, 16 + long.len(), 100);
    sends(&bench, "Send, 10 of a short log", TID, &row, 10, 100);
    sends(&bench, "Send, 17 packets", STRANGE, &long, 1, 500);
}
