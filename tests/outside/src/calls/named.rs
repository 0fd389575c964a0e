//! Named places in the lists of calls (document 02, No. 13): keeps and returns between the other calls, before the
//! opening, within messages, under wrong and unknown names; of other ends and of any numbers, where the list isn't
//! honest. Of an honest one what counts is kept, and demand 3 is checked on it at each return and at the end.

use super::{Kind, Lists};
use crate::checkpoints::both::Named;
use crate::checkpoints::{code, Checkpoint, Checkpoints, Series, Side};
use crate::effective::{counted, effective, Happened};
use reader::few::Few;
use reader::generate::Random;
use reader::packet::MessagePacket;
use reader::receiving::{Kept, Receiving};

/// Of each list some, in any order. The last two differ in their eighth letter alone.
const NAMES: [&[u8]; 7] = [b"A", b"B", b"AA", b"TEST", b"ZZZZZZZZ", b"ABCDEFGH", b"ABCDEFGX"];
const WRONG: [&[u8]; 14] = [
    b"",
    b"AAAAAAAAA",
    b"@",
    b"[",
    b"A@",
    b"[A",
    b"a",
    b"test",
    b"A ",
    b"A\0",
    b"A1",
    b"\xC1",
    b"ZZZZZZZZZ",
    &[b'A'; 300],
];

/// What is to be seen.
const ANSWERS: [(&str, &str, u8); 6] = [
    ("Keep", "kept", 0),
    ("Keep", "refused", 31),
    ("Keep", "refused", 32),
    ("Return", "returned", 0),
    ("Return", "refused", 31),
    ("Return", "refused", 33),
];
const CASES: [&str; 17] = [
    "kept before the opening",
    "kept under a used name",
    "kept under a used name, with four in use",
    "kept within a chain",
    "kept of another end",
    "returned before the opening",
    "returned to a place kept before the opening",
    "returned within a chain",
    "returned to a later place",
    "returned with nothing to bring back",
    "a return, and a mark goes down",
    "a return, and a last number goes down",
    "a return, and a last number goes up",
    "a login asked for before the last return",
    "all has arrived behind a return",
    "any numbers: a count above 4",
    "any numbers: equal names",
];

impl Lists {
    /// Lists with named places, which a side answers for.
    pub fn of_named(side: Box<dyn Side>) -> Self {
        Lists { named: Some(Named::new(side)), ..Lists::default() }
    }

    pub(super) fn case(&mut self, what: &'static str) {
        *self.cases.entry(what).or_default() += 1;
    }

    /// What should occur in lists with named places and didn't.
    pub fn named_missing(&self) -> Vec<String> {
        let answers = ANSWERS.iter().filter(|one| !self.answers.contains_key(one));
        let answers = answers.map(|(call, name, row)| format!("{call}: {name} {row}"));
        let cases = CASES.iter().filter(|&what| !self.cases.contains_key(what)).map(|what| what.to_string());
        answers.chain(cases).collect()
    }

    /// No name in use; some keeps and returns before all other calls.
    pub(super) fn begin_named(&mut self, r: &mut Random) -> Result<(), String> {
        self.happened.clear();
        let Some(named) = &mut self.named else { return Ok(()) };
        named.fresh(&mut self.world)?;
        self.names = NAMES.to_vec();
        r.shuffle(&mut self.names);
        self.names.truncate(r.within(2, 6));
        while r.once_in(3) {
            self.keep(r)?;
        }
        if r.once_in(6) {
            self.back(r)?;
        }
        Ok(())
    }

    pub(super) fn named_step(&mut self, r: &mut Random) -> Result<(), String> {
        match r.below(12) {
            0..=4 => self.keep(r),
            5..=8 => self.back(r),
            9..=10 => self.within_a_message(r),
            _ if self.kind == Kind::Wild && r.once_in(2) => {
                self.any_numbers(r);
                Ok(())
            }
            _ if self.kind != Kind::Honest => self.keep_another(r),
            _ => self.back(r),
        }
    }

    /// One of the list's names, mostly; else a wrong one, or any.
    fn name(&self, r: &mut Random) -> &'static [u8] {
        match r.below(16) {
            0 => r.pick(&WRONG),
            1 => r.pick(&NAMES),
            _ => self.names[r.below(self.names.len())],
        }
    }

    fn keep(&mut self, r: &mut Random) -> Result<(), String> {
        let name = self.name(r);
        let named = self.named.as_mut().expect("named places");
        let (used, four) = (named.model.places.iter().any(|one| one.name == name), named.model.places.len() == 4);
        let answer = named.keep(&mut self.world, name)?;
        self.note("Keep", "kept", &answer);
        if answer.is_err() {
            return Ok(());
        }
        if self.kind == Kind::Honest {
            self.happened.push(Happened::Kept(name.to_vec()));
        }
        if used {
            self.case(if four { "kept under a used name, with four in use" } else { "kept under a used name" });
        }
        if self.world.receiving.open.is_empty() {
            self.case("kept before the opening");
        }
        if self.world.receiving.open.iter().any(|one| one.chain.is_some()) {
            self.case("kept within a chain");
        }
        Ok(())
    }

    fn back(&mut self, r: &mut Random) -> Result<(), String> {
        let named = self.named.as_mut().expect("named places");
        let used: Vec<&'static [u8]> =
            NAMES.iter().copied().filter(|&name| named.model.places.iter().any(|one| one.name == name)).collect();
        let name = if used.is_empty() || r.once_in(6) { self.name(r) } else { used[r.below(used.len())] };
        let named = self.named.as_mut().expect("named places");
        let empty = named.model.places.iter().any(|one| one.name == name && one.kept.is_empty());
        let before = self.world.receiving;
        let answer = named.back(&mut self.world, name)?;
        self.note("Return", "returned", &answer);
        if answer.is_ok() {
            self.returned(name)?;
            self.note_return(&before, empty);
        }
        Ok(())
    }

    /// A return that was taken: what counts is another list from now on.
    fn returned(&mut self, name: &[u8]) -> Result<(), String> {
        self.line.asked_before = self.line.logins.len();
        if self.kind != Kind::Honest {
            return Ok(());
        }
        let kept = self.happened.iter().rposition(|one| matches!(one, Happened::Kept(of) if of == name));
        if kept.is_some_and(|kept| !effective(&self.happened).is_ok_and(|counts| counts.contains(&kept))) {
            self.case("returned to a later place");
        }
        self.happened.push(Happened::Back(name.to_vec()));
        self.demand += 1;
        let counted = counted(&self.happened)?;
        counted.agrees(self.history.all_published())?;
        self.history.returned(&counted);
        Ok(())
    }

    /// Which cases a return was, by the end before it and now.
    fn note_return(&mut self, before: &Receiving, empty: bool) {
        let now = self.world.receiving;
        let pairs: Vec<(&Kept, &Kept)> = before.open.iter().zip(now.open.iter()).collect();
        let same = |one: &(&Kept, &Kept)| (one.0.mark, one.0.last) == (one.1.mark, one.1.last);
        let of_a_day = |one: &(&Kept, &Kept)| one.0.mark == one.1.mark;
        let cases = [
            ("returned before the opening", pairs.is_empty()),
            ("returned to a place kept before the opening", !pairs.is_empty() && empty),
            ("returned within a chain", pairs.iter().any(|one| one.0.chain.is_some())),
            ("returned with nothing to bring back", !pairs.is_empty() && pairs.iter().all(same)),
            ("a return, and a mark goes down", pairs.iter().any(|one| one.1.mark < one.0.mark && one.1.mark.is_some())),
            ("a return, and a last number goes down", pairs.iter().any(|one| of_a_day(one) && one.1.last < one.0.last)),
            ("a return, and a last number goes up", pairs.iter().any(|one| of_a_day(one) && one.1.last > one.0.last)),
        ];
        for (what, _) in cases.iter().filter(|one| one.1) {
            self.case(what);
        }
    }

    /// Before all that is left arrives, once in two lists a return.
    pub(super) fn back_at_last(&mut self, r: &mut Random) -> Result<(), String> {
        if self.named.is_some() && r.once_in(2) {
            self.back(r)?;
        }
        Ok(())
    }

    /// Demand 3's first half and No. 12's numbers, on what counts of the whole list.
    pub(super) fn counts(&mut self) -> Result<(), String> {
        if self.named.is_none() {
            return Ok(());
        }
        self.demand += 1;
        counted(&self.happened)?.agrees(self.history.all_published())
    }

    /// A keep or a return between two packets of a message. It counts as no run, whatever it comes to.
    fn within_a_message(&mut self, r: &mut Random) -> Result<(), String> {
        if r.once_in(2) {
            // So that something is wanted that was sent.
            let series = self.series(r);
            self.whole_login(r, series)?;
            self.send(r, series)?;
        }
        let long: Vec<usize> =
            (0..self.line.messages.len()).filter(|&place| self.line.messages[place].packets.len() > 1).collect();
        let Some(place) = super::late_place(r, long.len()) else { return Ok(()) };
        let packets = self.line.messages[long[place]].packets.clone();
        let at = r.within(1, packets.len() - 1);
        for (i, packet) in packets.iter().enumerate() {
            if i == at && r.once_in(3) {
                self.back(r)?;
            } else if i == at {
                self.keep(r)?;
            }
            self.receive(r, packet)?;
        }
        Ok(())
    }

    /// A place of another end: other series, in another order, with other marks.
    fn keep_another(&mut self, r: &mut Random) -> Result<(), String> {
        let own = self.world.receiving;
        let mut series = [self.about.clone(), vec![2, 9, 300]].concat();
        r.shuffle(&mut series);
        series.truncate(r.within(1, 8));
        let kept = series.iter().map(|&series| {
            let (mark, last) = (r.pick(&[None, Some(0), Some(1), Some(2), Some(u32::MAX)]), r.below(9) as u32);
            Kept { series, mark, last, logged_in: r.once_in(2), chain: None }
        });
        self.world.receiving = Receiving { open: Few::of(kept).expect("at most eight") };
        self.world.level();
        self.keep(r)?;
        self.case("kept of another end");
        self.world.receiving = own;
        self.world.level();
        Ok(())
    }

    /// Checkpoints that no call made.
    fn any_numbers(&mut self, r: &mut Random) {
        let named = self.named.as_mut().expect("named places");
        let mut numbers = Checkpoints { count: r.pick(&[0, 1, 2, 3, 4, 5, 9, 1 << 32, usize::MAX]), ..named.numbers };
        for place in &mut numbers.places {
            if r.once_in(3) {
                continue;
            }
            let names = [code(b"A"), code(b"B"), code(b"TEST"), code(b"AA"), 0, 0x61, code(b"A") << 8, u64::MAX];
            let mut one = Series::default();
            let series = [(); 8].map(|()| {
                let near = self.about[r.below(self.about.len())];
                one.series = r.pick(&[near, near, 0, 1, 2]);
                (one.date, one.dated) = (r.pick(&[0, 1, 2, u32::MAX]), r.pick(&[0, 1, 1, 255]));
                one.last = r.pick(&[0, 1, 2, 3, 999_999, 1_000_000, u32::MAX]);
                one
            });
            *place = Checkpoint { name: r.pick(&names), count: r.pick(&[0, 1, 2, 3, 8, 9, 255, usize::MAX]), series };
        }
        let used = &numbers.places[..numbers.count.min(4)];
        let equal = (1..used.len()).any(|i| used[..i].iter().any(|one| one.name == used[i].name));
        let above = numbers.count > 4;
        named.set(numbers);
        if above {
            self.case("any numbers: a count above 4");
        }
        if equal {
            self.case("any numbers: equal names");
        }
    }

    // --- What an honest list with named places has heard ---

    pub(super) fn heard_report(&mut self, series: u16, day: u32, last: u32) {
        if self.named.is_some() {
            self.happened.push(Happened::Reported((series, day), last));
        }
    }

    pub(super) fn heard_message(&mut self, message: &MessagePacket, tid: u32, content: Vec<u8>) {
        if self.named.is_some() {
            let flow = (message.series, message.mark.unwrap_or(0));
            self.happened.push(Happened::HandedOn(flow, message.number, tid, content));
        }
    }
}
