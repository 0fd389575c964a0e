//! The differential test: `differ [INPUTS [SEED [LISTER]]]`. Both sides on generated inputs, on each row of the table
//! of items, on link and skipped packets, start fields and modes, on trading calendars, on books of a contract, on
//! frames of JR/T 0087, then on a generated capture of some megabytes; LISTER is the program that lists captures. Each
//! difference is printed with its bytes; any makes the run fail.

use outside::book::Books;
use outside::calendar::{Both, Input};
use outside::compare::{self, hex, Asked};
use outside::{frames, items, Packet, LINK, MESSAGE, SKIPPED, UNUSED};
use reader::fix_cases::{traps, worked};
use reader::fix_frames;
use reader::generate::{
    capture, capture_input, content_input, header, item_input, message_content, packet_input, unknown_fid, Form,
    Random, FORMS,
};
use reader::given::{given, Given};
use reader::lister;
use reader::makeup::Direction;
use reader::packet::fields;
use reader::plain::plain_input;
use reader::start::start_input;
use reader::tables::{FIELDS, TIDS};
use std::collections::{BTreeMap, BTreeSet};
use std::io::Write;
use std::process::{Command, Stdio};
use std::time::Instant;

/// More differences than these aren't printed.
const MOST: usize = 10;

/// The kinds of an item's value, by number.
const ITEMS: [&str; 10] =
    ["none", "no value", "Char", "Word", "Int", "String", "Number", "Float", "Date", "Date, unused"];

#[derive(Default)]
struct Run {
    asked: Asked,
    inputs: u64,
    bytes: u64,
    differences: usize,
    /// How often each answer was given, by what was asked.
    answers: BTreeMap<(&'static str, u8), u64>,
}

impl Run {
    fn note(&mut self, what: &str, bytes: &[u8], found: Result<(), String>) {
        self.inputs += 1;
        self.bytes += bytes.len() as u64;
        if let Err(text) = found {
            self.differences += 1;
            println!("DIFFERENCE in {what}, {} bytes: {text}\n  bytes:   {}", bytes.len(), hex(bytes));
            if self.differences >= MOST {
                println!("{MOST} differences: stopped");
                std::process::exit(1);
            }
        }
    }

    fn count(&mut self, what: &'static str, answer: u8) {
        *self.answers.entry((what, answer)).or_default() += 1;
    }

    fn packet(&mut self, what: &str, bytes: &[u8]) -> Packet {
        let found = compare::packet(&mut self.asked, bytes);
        let packet = *found.as_ref().unwrap_or(&Packet::default());
        self.count("read", if packet.refusal == 0 { 100 + packet.answer } else { packet.refusal });
        let mut rest = found.and_then(|_| compare::head(&mut self.asked, bytes));
        if rest.is_ok() && packet.answer == MESSAGE {
            let content = packet.content.of(bytes);
            for direction in [Direction::Up, Direction::Down] {
                rest = rest
                    .and_then(|()| compare::check(&mut self.asked, packet.tid, direction, content, 4080).map(|_| ()));
            }
        }
        self.note(what, bytes, rest);
        packet
    }

    fn generated(&mut self, r: &mut Random, i: u64) {
        let form = FORMS[(i / 20) as usize % FORMS.len()];
        match i % 20 {
            0..=12 => {
                let bytes = packet_input(r, form);
                self.packet(&format!("a packet ({form:?})"), &bytes);
            }
            13..=18 => {
                let input = content_input(r, form);
                let given = compare::check(&mut self.asked, input.tid, input.direction, &input.content, input.most);
                self.count("check", *given.as_ref().unwrap_or(&255));
                let at = r.below(input.content.len() + 3);
                let all = given
                    .and_then(|_| compare::checks(&mut self.asked, input.tid, &input.content))
                    .and_then(|()| compare::place(&mut self.asked, &input.content, at))
                    .and_then(|()| compare::start(&mut self.asked, &input.content))
                    .and_then(|_| self.first_items(&input.content));
                self.note(
                    &format!("a content ({form:?}), {:#06x} {:?}", input.tid, input.direction),
                    &input.content,
                    all,
                );
            }
            _ => {
                // Every other message is one of content that is right.
                let content = if i % 40 < 20 { message_content(r) } else { content_input(r, Form::Valid).content };
                let tid = r.number(u32::MAX);
                let header = header(r, tid);
                let refusal = outside::size(&header, &content).refusal;
                self.count("written", refusal);
                let found = compare::message(&mut self.asked, r, &header, &content);
                self.note(&format!("a message, {header:?}"), &content, found);
            }
        }
    }

    /// The items of a content's first fields, of whatever FID and width they are.
    fn first_items(&mut self, content: &[u8]) -> Result<(), String> {
        let mut whole = fields(content).map_while(Result::ok).take(2);
        whole.try_for_each(|field| items::read_all(&mut self.asked, field.fid, field.value))
    }

    /// Each row of the table: so many items read, in each form, and as many values of and around its type written; each
    /// byte; and each number that is no kind.
    fn rows(&mut self, r: &mut Random, rounds: usize) {
        for field in &FIELDS {
            for i in 0..field.items.len() {
                let what = format!("{} of {}", field.items[i].name, field.name);
                for round in 0..rounds {
                    let bytes = item_input(r, field, i, FORMS[round % FORMS.len()]);
                    let kind = items::read(&mut self.asked, field.fid, i, &bytes);
                    self.count("item read", 100 + kind.as_ref().unwrap_or(&100));
                    self.note(&what, &bytes, kind.map(|_| ()));
                    let value = given(r, field.items[i].kind);
                    let fits = items::written(&mut self.asked, r, field.fid, i, &value);
                    self.count("item written", if fits == Ok(true) { 0 } else { 9 });
                    self.note(&format!("{what}, {value:?}"), &[], fits.map(|_| ()));
                }
                for x in 0..=256u16 {
                    let mut bytes = vec![x as u8; field.items[i].at];
                    bytes.push(x as u8);
                    let found = items::read(&mut self.asked, field.fid, i, &bytes)
                        .and_then(|_| items::written(&mut self.asked, r, field.fid, i, &Given::Char(x.into())));
                    self.note(&format!("{what}, byte {x}"), &bytes, found.map(|_| ()));
                }
                for kind in [0, 1].into_iter().chain(UNUSED + 1..=255) {
                    let found = items::not_written(&mut self.asked, r, field.fid, i, kind);
                    self.note(&format!("{what}, kind {kind}"), &[], found);
                }
            }
        }
        // Items that there are not.
        for round in 0..20 * rounds {
            let field = &FIELDS[round % FIELDS.len()];
            let (fid, i) = match r.below(3) {
                0 => (unknown_fid(r), r.below(3)),
                1 => (field.fid, field.items.len() + r.below(3)),
                _ => (field.fid, r.pick(&[1 << 16, 1 << 32, usize::MAX - 1, usize::MAX])),
            };
            let bytes = item_input(r, field, 0, Form::Valid);
            let value = given(r, field.items[0].kind);
            let found = items::read(&mut self.asked, fid, i, &bytes)
                .and_then(|_| items::written(&mut self.asked, r, fid, i, &value));
            self.note(&format!("item {i} of {fid:#06x}, {value:?}"), &bytes, found.map(|_| ()));
        }
    }

    /// Link and skipped packets written, start fields read and written, modes.
    fn others(&mut self, r: &mut Random, rounds: u64) {
        for _ in 0..rounds {
            let (kind, extension, body) = plain_input(r);
            let found = compare::plain(&mut self.asked, r, kind, &extension, &body);
            self.count("plain packet", *found.as_ref().unwrap_or(&254));
            let found = found.and_then(|_| compare::tags(&mut self.asked, &extension));
            self.note(&format!("a packet of type {kind} with a body of {}", body.len()), &extension, found);

            let content = start_input(r);
            let (series, number) = (r.number(0xFFFF) as u16, r.number(u32::MAX));
            let found = compare::start(&mut self.asked, &content);
            self.count("start field", 100 + found.as_ref().unwrap_or(&100));
            let found = found.and_then(|_| compare::start_written(&mut self.asked, r, series, number));
            self.note(&format!("a start field, {series} {number}"), &content, found);

            let n = if r.once_in(4) { r.within(4060, 4090) } else { r.below(60) };
            let (fid, value) = (r.number(u32::MAX), r.bytes(n));
            let found = compare::field_written(&mut self.asked, r, fid, &value);
            self.note(&format!("a field written, {fid:#06x}"), &value, found);

            let tid = r.number(u32::MAX);
            let found = compare::mode(&mut self.asked, tid).map(|_| ());
            self.note("a mode", &[], found);
        }
        for tid in (0..0x1_0000).chain(TIDS.iter().flat_map(|row| [row.number | 0x1_0000, row.number << 16])) {
            let mode = compare::mode(&mut self.asked, tid);
            self.count("mode", 100 + mode.as_ref().unwrap_or(&100));
            self.note("a mode", &[], mode.map(|_| ()));
        }
    }

    /// Trading calendars, one set behind the other, each asked for some times; dates of marks.
    fn calendars(&mut self, r: &mut Random, rounds: u64) {
        let mut both = Both::default();
        for _ in 0..rounds {
            let input = Input::new(r, &both.days);
            let found = both.set(&mut self.asked, &input);
            self.count("calendar", *found.as_ref().unwrap_or(&255));
            self.note(&format!("a calendar, {input:?}"), &[], found.map(|_| ()));
            for _ in 0..4 {
                let time = input.time(r);
                let found = both.ask(&mut self.asked, time);
                self.count("time", 100 + found.as_ref().unwrap_or(&100));
                let found = found.and_then(|_| both.mark(&mut self.asked, time));
                self.note(&format!("a time, with {input:?}"), &[], found);
            }
        }
    }

    /// Books of a contract: lists of calls from a fresh one on, all that each leaves.
    fn books(&mut self, r: &mut Random, rounds: u64) {
        let mut books = Books::new(r);
        for _ in 0..rounds {
            if r.once_in(40) {
                books = Books::new(r);
            }
            if books.young() || r.once_in(60) {
                let code = books.code(r);
                let found = books.start(&mut self.asked, r, &code);
                self.count("book started", *found.as_ref().unwrap_or(&255));
                self.note("a book's start", &code, found.map(|_| ()));
            }
            let (tid, content) = books.message(r);
            let found = books.take(&mut self.asked, r, tid, &content);
            self.count("book took", *found.as_ref().unwrap_or(&255));
            let different = found.is_err();
            self.note(&format!("a message to a book, {tid:#06x}"), &content, found.map(|_| ()));
            if different {
                books = Books::new(r);
            }
        }
    }

    /// Frames: the worked ones with the answers that are written beside them, then generated ones, read and written.
    fn frames(&mut self, r: &mut Random, rounds: u64) {
        for case in worked().into_iter().chain(traps()) {
            let found = frames::read_both(&mut self.asked, r, &case.bytes, case.expected).and_then(|answer| {
                let right = case.answer.map_or_else(|row| row, |judgement| 100 + judgement as u8);
                self.asked.same("the answer by hand", answer, right)?;
                Ok(answer)
            });
            self.count("frame", *found.as_ref().unwrap_or(&255));
            self.note(case.what, &case.bytes, found.map(|_| ()));
        }
        for i in 0..rounds {
            let form = fix_frames::FORMS[i as usize % fix_frames::FORMS.len()];
            let bytes = fix_frames::frame_input(r, form);
            let expected = fix_frames::expected_input(r, &bytes);
            let found = frames::read_both(&mut self.asked, r, &bytes, expected);
            self.count("frame", *found.as_ref().unwrap_or(&255));
            self.note(&format!("a frame ({form:?}), expected {expected}"), &bytes, found.map(|_| ()));
            let (name, fields) = fix_frames::run_input(r, form);
            let found = frames::write_both(&mut self.asked, r, &name, &fields);
            self.count("frame written", *found.as_ref().unwrap_or(&255));
            self.note(&format!("a frame to be written ({form:?}), type {name:?}"), &fields, found.map(|_| ()));
        }
    }

    /// A part of the test, with its figures.
    fn part(&mut self, what: &str, test: impl FnOnce(&mut Self)) {
        let start = Instant::now();
        let before = (self.inputs, self.asked.0);
        test(self);
        println!(
            "{what}: {} inputs, {} answers compared, {:.1} s",
            self.inputs - before.0,
            self.asked.0 - before.1,
            start.elapsed().as_secs_f64()
        );
        self.tell();
    }

    /// How often each answer was given, by what was asked; then they are counted anew.
    fn tell(&mut self) {
        for ((what, answer), n) in std::mem::take(&mut self.answers) {
            // An answer by its name, where it isn't a refusal; 200, 254 and 255 stand for a difference.
            let names: &[&str] = match what {
                "read" => &["short", "link", "skipped", "message"],
                "item read" => &ITEMS,
                "start field" => &["none", "one", "of another width", "several"],
                "mode" => &["unknown", "private", "broadcast", "management", "dialog"],
                "time" => &["outside", "inside"],
                "frame" => &["next", "again", "gap", "reset"],
                _ => &[],
            };
            let name = match (what, answer) {
                (_, 100..) if usize::from(answer) < 100 + names.len() => names[usize::from(answer - 100)].to_string(),
                ("plain packet", outside::NOT_PLAIN) => "not plain".to_string(),
                (_, 0) => "passed".to_string(),
                (_, n) => format!("refused {n}"),
            };
            println!("  {what}: {name} {n}");
        }
    }

    /// A capture, packet by packet; gives the places where packets start.
    fn capture(&mut self, bytes: &[u8]) -> Vec<usize> {
        let (mut at, mut places, mut seen) = (0, vec![], BTreeSet::new());
        while at < bytes.len() {
            places.push(at);
            // Reading to the end of the capture each time is what a walker does; the bytes behind aren't looked at.
            let packet = outside::read(&bytes[at..]);
            if ![LINK, SKIPPED, MESSAGE].contains(&packet.answer) {
                let rest = &bytes[at..bytes.len().min(at + 4300)];
                self.note("a capture", rest, Err(format!("at {at} a packet was expected, not {packet:?}")));
                return places;
            }
            let (from, to) = (at, (at + packet.size).min(bytes.len()));
            self.packet("a packet of a capture", &bytes[from..to]);
            seen.insert(packet.tid);
            at += packet.size;
        }
        let missing: Vec<_> = TIDS.iter().filter(|tid| !seen.contains(&tid.number)).map(|tid| tid.name).collect();
        if !missing.is_empty() {
            self.note("a capture", &[], Err(format!("it lacks messages of {missing:?}")));
        }
        places
    }

    /// What the lister prints, beside the reader's lines.
    fn listed(&mut self, program: &str, bytes: &[u8]) {
        let mut child = Command::new(program)
            .stdin(Stdio::piped())
            .stdout(Stdio::piped())
            .spawn()
            .unwrap_or_else(|e| panic!("{program}: {e}"));
        let mut input = child.stdin.take().expect("a pipe");
        let given = bytes.to_vec();
        // The lister may stop reading where the input is too long.
        let writer = std::thread::spawn(move || drop(input.write_all(&given)));
        let output = child.wait_with_output().expect("the lister's output");
        writer.join().expect("a writer");
        let (text, right) = (String::from_utf8_lossy(&output.stdout).into_owned(), lister::list(bytes));
        let found = if text == right && output.status.success() {
            Ok(())
        } else {
            let at = text.lines().zip(right.lines()).take_while(|(a, b)| a == b).count();
            Err(format!(
                "line {} ({})\n  library: {:?}\n  reader:  {:?}",
                at + 1,
                output.status,
                text.lines().nth(at),
                right.lines().nth(at)
            ))
        };
        self.asked.0 += 1;
        self.note("a listing", bytes, found);
    }
}

fn main() {
    let words: Vec<String> = std::env::args().skip(1).collect();
    let number = |i: usize, or: u64| words.get(i).map_or(or, |word| word.parse().expect("a number"));
    let (inputs, seed) = (number(0, 1_200_000), number(1, 1));
    let mut run = Run::default();
    let mut r = Random::new(seed);

    let start = Instant::now();
    for i in 0..inputs {
        run.generated(&mut r, i);
    }
    let seconds = start.elapsed().as_secs_f64();
    println!(
        "generated inputs: {} ({:.0} MB), {} answers compared, {seconds:.1} s",
        run.inputs,
        run.bytes as f64 / 1e6,
        run.asked.0
    );
    run.tell();

    let rounds = (inputs / 1000) as usize;
    run.part("each row of the table of items", |run| run.rows(&mut Random::new(seed), rounds));
    run.part("plain packets, fields, start fields and modes", |run| run.others(&mut Random::new(seed), inputs / 10));
    run.part("trading calendars and marks", |run| run.calendars(&mut Random::new(seed), inputs / 20));
    run.part("books of a contract", |run| run.books(&mut Random::new(seed), inputs / 10));
    run.part("frames of JR/T 0087", |run| run.frames(&mut Random::new(seed), inputs / 10));

    let start = Instant::now();
    let before = (run.inputs, run.asked.0);
    let bytes = capture(seed, if inputs < 1_000_000 { 3 << 20 } else { 12 << 20 });
    let places = run.capture(&bytes);
    println!(
        "capture of {:.1} MB with every TID of Appendix A: {} packets, {} answers compared, {:.1} s",
        bytes.len() as f64 / 1e6,
        run.inputs - before.0,
        run.asked.0 - before.1,
        start.elapsed().as_secs_f64()
    );

    if let Some(program) = words.get(2) {
        let start = Instant::now();
        let before = run.inputs;
        let mut from = 0;
        for pair in places.windows(2) {
            // As many whole packets as the lister takes.
            if pair[1] - from > lister::MOST_INPUT {
                run.listed(program, &bytes[from..pair[0]]);
                from = pair[0];
            }
        }
        run.listed(program, &bytes[from..]);
        // The most bytes that it takes, and one more; parts that end inside a packet.
        for n in [0, 1, 3, 4, 65_535, 65_536, 65_537, 100_000] {
            run.listed(program, &bytes[..n]);
        }
        for form in FORMS {
            for _ in 0..20 {
                let input = capture_input(&mut r, form);
                run.listed(program, &input);
            }
        }
        println!("listings compared: {}, {:.1} s", run.inputs - before, start.elapsed().as_secs_f64());
    }
    println!("{} inputs, {} answers compared, {} differences", run.inputs, run.asked.0, run.differences);
    if run.differences > 0 {
        std::process::exit(1);
    }
}
