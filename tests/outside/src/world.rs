//! Both ends on both sides: the proved ones through the library, and the models. Each call is made on both, and every answer,
//! every number of the state and every byte that was lent are compared.

use crate::compare::{hex, Asked};
use crate::ends::{
    self, Confirmed, LoggedIn, Published, PublishedSeveral, Received, ReceivedSeveral, Receiver, ReceiverOpened,
    Sender, SenderOpened, Sent, SentPacket, Served,
};
use crate::ends::{SEND_MESSAGE, SEND_NONE, SEND_REFUSED};
use crate::Written;
use reader::generate::Random;
use reader::receiving::Receiving;
use reader::serving::{OnePacket, Serving};

/// What a call answers on both sides, or their first difference.
pub type Both<T> = Result<Result<T, u8>, String>;

/// What stands in an output before a call.
pub(crate) const PATTERN: u8 = 0xA5;

#[derive(Default)]
pub struct World {
    pub asked: Asked,
    pub serving: Serving,
    pub sender: Sender,
    pub receiving: Receiving,
    pub receiver: Receiver,
    /// The log and the chain buffer, on the library's side and on the model's.
    pub logs: [Vec<u8>; 2],
    pub buffers: [Vec<u8>; 2],
    output: Vec<u8>,
    /// Where it is set, what a state doesn't have is lent as any numbers, and a flag as any but 0.
    pub noise: Option<Random>,
    /// What the model wrote last.
    pub written: Vec<u8>,
}

/// Bytes that should be the same on both sides.
pub(crate) fn same_bytes(asked: &mut Asked, what: &str, library: &[u8], reader: &[u8]) -> Result<(), String> {
    asked.0 += 1;
    if library == reader {
        return Ok(());
    }
    let at = library.iter().zip(reader).position(|(a, b)| a != b).unwrap_or(library.len().min(reader.len()));
    let part = |bytes: &[u8]| hex(&bytes[at.min(bytes.len())..bytes.len().min(at + 40)]);
    Err(format!("{what}, from byte {at} on\n  library: {}\n  reader:  {}", part(library), part(reader)))
}

/// A flag that is set, as any number but 0.
pub(crate) fn flag(r: &mut Random, of: &mut u8) -> bool {
    if *of != 0 {
        *of = r.within(1, 255) as u8;
    }
    *of != 0
}

/// The same end with any numbers where they don't count.
pub(crate) fn noisy_sender(r: &mut Random, mut end: Sender) -> Sender {
    if !flag(r, &mut end.dated) {
        end.date = r.next() as u32;
    }
    for (i, one) in end.series.iter_mut().enumerate() {
        if i >= end.count {
            let (next, piece, published) = (r.next(), r.next(), r.next() as u32);
            let (reserve, used) = (r.next() as usize, r.next() as usize);
            *one = Served { next, piece, reserve, used, published, series: r.pick(&[0, 1, 2, 3]), login: r.byte() };
        } else if !flag(r, &mut one.login) {
            (one.next, one.piece) = (r.next(), r.next());
        }
    }
    end
}

pub(crate) fn noisy_receiver(r: &mut Random, mut end: Receiver) -> Receiver {
    for (i, one) in end.series.iter_mut().enumerate() {
        if i >= end.count {
            (one.series, one.last, one.login) = (r.pick(&[0, 1, 2, 3]), r.next() as u32, r.byte());
            (one.dated, one.chain) = (r.byte(), r.byte());
        }
        flag(r, &mut one.login);
        if !flag(r, &mut one.dated) {
            one.date = r.next() as u32;
        }
        if !flag(r, &mut one.chain) {
            (one.tid, one.held, one.pieces) = (r.next() as u32, r.next() as usize, r.next() as u32);
        }
    }
    end
}

impl World {
    /// Two fresh ends, a log and a chain buffer.
    pub fn fresh(&mut self, log: usize, buffer: usize) -> Result<(), String> {
        self.serving = Serving::default();
        self.receiving = Receiving::default();
        self.sender = Sender::fresh();
        self.receiver = Receiver::fresh();
        for (bytes, length) in [(&mut self.logs, log), (&mut self.buffers, buffer)] {
            for side in bytes {
                side.clear();
                side.resize(length, 0);
            }
        }
        self.asked.same("a fresh serving end", self.sender, ends::sender(&self.serving))?;
        self.asked.same("a fresh receiving end", self.receiver, ends::receiver(&self.receiving))
    }

    /// The library's states are set to the models'.
    pub fn level(&mut self) {
        self.sender = ends::sender(&self.serving);
        self.receiver = ends::receiver(&self.receiving);
    }

    /// The serving end as it is lent to the library.
    fn sender(&mut self) -> Sender {
        self.noise.as_mut().map_or(self.sender, |r| noisy_sender(r, self.sender))
    }

    /// The receiving end as it is lent to the library.
    pub(crate) fn receiver(&mut self) -> Receiver {
        self.noise.as_mut().map_or(self.receiver, |r| noisy_receiver(r, self.receiver))
    }

    /// The ends that the library answers with; where any numbers were lent, without what they don't have.
    fn sender_left(&self, end: Sender) -> Sender {
        if self.noise.is_some() {
            end.meant()
        } else {
            end
        }
    }

    fn receiver_left(&self, end: Receiver) -> Receiver {
        if self.noise.is_some() {
            end.meant()
        } else {
            end
        }
    }

    fn lend(&mut self, room: usize) {
        self.output.clear();
        self.output.resize(room, PATTERN);
        self.written.clear();
    }

    /// What the model wrote stands in the library's output, and behind it what stood there before.
    fn same_output(&mut self, taken: bool) -> Result<(), String> {
        self.asked.0 += 1;
        let length = if taken { self.written.len() } else { 0 };
        same_bytes(&mut self.asked, "output", &self.output[..length.min(self.output.len())], &self.written[..length])?;
        match self.output[length..].iter().position(|&byte| byte != PATTERN) {
            None => Ok(()),
            Some(at) => Err(format!("output, byte {} behind what is written is changed", length + at)),
        }
    }

    /// Lends the first bytes of the log, so many; none of them changes.
    pub fn open_day(&mut self, mark: u32, series: &[u16], reserves: &[usize], log: usize) -> Both<()> {
        let answer = self.serving.open(mark, series, reserves, log);
        let right = SenderOpened { end: ends::sender(&self.serving), refusal: answer.err().unwrap_or(0) };
        let mut given = self.sender().open(mark, series, reserves, &self.logs[0][..log]);
        same_bytes(&mut self.asked, "log", &self.logs[0], &self.logs[1])?;
        given.end = self.sender_left(given.end);
        self.asked.same("Opening, serving", given, right)?;
        self.sender = right.end;
        Ok(answer)
    }

    /// Lends the first bytes of the log, so many.
    pub fn publish(&mut self, series: u16, tid: u32, content: &[u8], log: usize) -> Both<u32> {
        let end = self.sender();
        let [library, reader] = &mut self.logs;
        let answer = self.serving.publish(series, tid, content, &mut reader[..log]);
        let right = Published {
            end: ends::sender(&self.serving),
            number: answer.unwrap_or(0),
            refusal: answer.err().unwrap_or(0),
        };
        let mut given = end.publish(series, tid, content, &mut library[..log]);
        same_bytes(&mut self.asked, "log", library, reader)?;
        given.end = self.sender_left(given.end);
        self.asked.same("Publish", given, right)?;
        self.sender = right.end;
        Ok(answer)
    }

    pub fn login(&mut self, series: u16, packet: &[u8], content: &[u8], room: usize) -> Both<()> {
        self.lend(room);
        let answer = self.serving.login(series, packet, content, room, &mut self.written);
        let bytes = if answer.is_ok() { self.written.len() } else { 0 };
        let right = LoggedIn { end: ends::sender(&self.serving), bytes, refusal: answer.err().unwrap_or(0) };
        let mut given = self.sender().login(series, packet, content, &mut self.output);
        given.end = self.sender_left(given.end);
        self.asked.same("Login", given, right)?;
        self.same_output(answer.is_ok())?;
        self.sender = right.end;
        Ok(answer)
    }

    pub fn send(&mut self, series: u16, log: usize, room: usize) -> Both<Option<u32>> {
        self.lend(room);
        let answer = self.serving.send(series, &self.logs[1][..log], room, &mut self.written);
        let none = Sent { end: ends::sender(&self.serving), bytes: 0, number: 0, answer: SEND_NONE, refusal: 0 };
        let right = match answer {
            Ok(None) => none,
            Ok(Some(number)) => Sent { bytes: self.written.len(), number, answer: SEND_MESSAGE, ..none },
            Err(refusal) => Sent { answer: SEND_REFUSED, refusal, ..none },
        };
        let mut given = self.sender().send(series, &self.logs[0][..log], &mut self.output);
        given.end = self.sender_left(given.end);
        self.asked.same("Send", given, right)?;
        self.same_output(matches!(answer, Ok(Some(_))))?;
        self.sender = right.end;
        Ok(answer)
    }

    pub fn send_packet(&mut self, series: u16, log: usize, room: usize) -> Both<Option<OnePacket>> {
        self.lend(room);
        let answer = self.serving.send_packet(series, &self.logs[1][..log], room, &mut self.written);
        let end = ends::sender(&self.serving);
        let none = SentPacket { end, bytes: 0, number: 0, answer: SEND_NONE, refusal: 0, last: 0 };
        let right = match answer {
            Ok(None) => none,
            Ok(Some(OnePacket { number, last })) => {
                SentPacket { bytes: self.written.len(), number, answer: SEND_MESSAGE, last: last.into(), ..none }
            }
            Err(refusal) => SentPacket { answer: SEND_REFUSED, refusal, ..none },
        };
        let mut given = self.sender().send_packet(series, &self.logs[0][..log], &mut self.output);
        given.end = self.sender_left(given.end);
        self.asked.same("Send packet", given, right)?;
        self.same_output(matches!(answer, Ok(Some(_))))?;
        self.sender = right.end;
        Ok(answer)
    }

    pub fn open_end(&mut self, series: &[u16]) -> Both<()> {
        let answer = self.receiving.open(series);
        let right = ReceiverOpened { end: ends::receiver(&self.receiving), refusal: answer.err().unwrap_or(0) };
        let mut given = self.receiver().open(series);
        given.end = self.receiver_left(given.end);
        self.asked.same("Opening, receiving", given, right)?;
        self.receiver = right.end;
        Ok(answer)
    }

    pub fn connect(&mut self) -> Both<()> {
        self.receiving.connect();
        let right = ends::receiver(&self.receiving);
        let given = self.receiver().connect();
        self.asked.same("Connect", self.receiver_left(given), right)?;
        self.receiver = right;
        Ok(Ok(()))
    }

    pub fn ask(&mut self, series: u16, content: &[u8], room: usize) -> Both<()> {
        self.lend(room);
        let answer = self.receiving.ask(series, content, room, &mut self.written);
        let bytes = if answer.is_ok() { self.written.len() } else { 0 };
        let right = Written { bytes, refusal: answer.err().unwrap_or(0) };
        let given = self.receiver().request_login(series, content, &mut self.output);
        self.asked.same("Ask", given, right)?;
        self.same_output(answer.is_ok())?;
        Ok(answer)
    }

    pub fn answer(&mut self, series: u16, packet: &[u8]) -> Both<u32> {
        let answer = self.receiving.answer(series, packet);
        let end = ends::receiver(&self.receiving);
        let right = Confirmed { end, last: answer.unwrap_or(0), refusal: answer.err().unwrap_or(0) };
        let mut given = self.receiver().confirm_login(series, packet);
        given.end = self.receiver_left(given.end);
        self.asked.same("Answer", given, right)?;
        self.receiver = right.end;
        Ok(answer)
    }

    /// Lends the first bytes of the chain buffer, so many.
    pub fn receive(&mut self, packet: &[u8], buffer: usize) -> Both<Received> {
        let end = self.receiver();
        let [library, reader] = &mut self.buffers;
        let from = reader.as_ptr();
        let answer = self.receiving.receive(packet, &mut reader[..buffer]);
        let mut right = ends::received(Receiver::default(), answer, packet.as_ptr(), from);
        right.end = ends::receiver(&self.receiving);
        let mut given = end.receive(packet, &mut library[..buffer]);
        same_bytes(&mut self.asked, "chain buffer", library, reader)?;
        given.end = self.receiver_left(given.end);
        self.asked.same("Receive", given, right)?;
        self.receiver = right.end;
        Ok(if right.refusal == 0 { Ok(right) } else { Err(right.refusal) })
    }
    /// A bufferful of packets; lends the first bytes of the chain buffer, so many. (A refusal is an answer here.)
    pub fn receive_several(&mut self, packets: &[u8], buffer: usize) -> Result<ReceivedSeveral, String> {
        let end = self.receiver();
        let [library, reader] = &mut self.buffers;
        let answer = self.receiving.receive_several(packets, &mut reader[..buffer]);
        let right = ends::received_several(ends::receiver(&self.receiving), answer);
        let mut given = end.receive_several(packets, &mut library[..buffer]);
        same_bytes(&mut self.asked, "chain buffer", library, reader)?;
        given.end = self.receiver_left(given.end);
        self.asked.same("Receive several", given, right)?;
        self.receiver = right.end;
        Ok(right)
    }

    /// A bufferful of records; lends the first bytes of the log, so many.
    pub fn publish_several(&mut self, records: &[u8], log: usize) -> Result<PublishedSeveral, String> {
        let end = self.sender();
        let [library, reader] = &mut self.logs;
        let answer = self.serving.publish_several(records, &mut reader[..log]);
        let right = ends::published_several(ends::sender(&self.serving), answer);
        let mut given = end.publish_several(records, &mut library[..log]);
        same_bytes(&mut self.asked, "log", library, reader)?;
        given.end = self.sender_left(given.end);
        self.asked.same("Publish several", given, right)?;
        self.sender = right.end;
        Ok(right)
    }
}
