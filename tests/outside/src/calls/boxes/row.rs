//! Three boxes in a row behind an exchange, and a last end that may keep places and return to them (document 02, No. 14
//! and 13). The lists for the box check each line by itself, and what each node hands on with what the exchange
//! published; here it is what counts at the last end, that no day runs ahead of the one above it, and that the whole
//! list is there where all was delivered on each line.

use super::{Boxes, ABOVE, LINES};
use crate::boxes::world::BoxWorld;
use crate::boxes::Side;
use crate::calls::{Kind, MOST_OUTPUT};
use crate::checkpoints;
use crate::checkpoints::both::Named;
use crate::effective::{counted, Happened};
use reader::generate::Random;
use reader::packet::MessagePacket;

/// The line to the last end.
const LAST: usize = LINES - 1;
const NAMES: [&[u8]; 6] = [b"A", b"B", b"TEST", b"ZZZZZZZZ", b"AA", b"a"];

/// What happens at the last end, of an honest list, and its named places.
pub(super) struct Row {
    named: Named,
    happened: Vec<Happened>,
}

impl Boxes {
    /// Three boxes in a row, each answered for by such a side, and an end whose places another side answers for.
    pub fn in_a_row(side: impl Fn() -> Box<dyn Side>, named: Box<dyn checkpoints::Side>) -> Self {
        let mut boxes = Boxes::new(side());
        boxes.worlds.extend((1..LAST).map(|_| BoxWorld::new(side())));
        boxes.ends.truncate(1);
        boxes.row = Some(Row { named: Named::new(named), happened: vec![] });
        boxes
    }

    /// What should occur in rows and didn't.
    pub fn row_missing(&self) -> Vec<&'static str> {
        let counts = &self.counts;
        let all = [
            ("a keep at the last end", counts.kept),
            ("a return at the last end", counts.returned),
            ("that all has arrived on a line", counts.arrived[1]),
            ("that the whole list has arrived at the last end", counts.whole),
            ("that it has, behind a return", counts.whole_behind),
            (
                "a message that a box's log doesn't take",
                counts.seen.get("Receive: 18 of the log").copied().unwrap_or(0),
            ),
        ];
        all.iter().filter(|one| one.1 == 0).map(|one| one.0).collect()
    }

    pub(super) fn begin_row(&mut self, r: &mut Random) -> Result<(), String> {
        let Some(row) = &mut self.row else { return Ok(()) };
        row.happened.clear();
        row.named.fresh(&mut self.ends[0])?;
        if r.once_in(3) {
            self.keep(r)?;
        }
        Ok(())
    }

    /// Keeps and returns; calls of seats beside the row; a day that overtakes a message; or a series' next messages,
    /// all the way down.
    pub(super) fn row_step(&mut self, r: &mut Random, series: u16) -> Result<(), String> {
        match r.below(13) {
            0..=1 => self.keep(r),
            2 => self.back(r),
            3..=5 => {
                for _ in 0..r.within(1, 6) {
                    self.other_seat(r)?;
                }
                Ok(())
            }
            6 => self.overtaken(r, series),
            7..=9 => {
                for line in 0..LINES {
                    self.whole_login(r, line, series)?;
                    self.pass(r, line, series)?;
                }
                Ok(())
            }
            _ => {
                self.publish(r)?;
                for line in 0..LINES {
                    self.pass(r, line, series)?;
                }
                Ok(())
            }
        }
    }

    /// A message is on its way to a box when another series brings that the next day.
    fn overtaken(&mut self, r: &mut Random, series: u16) -> Result<(), String> {
        let line = r.below(LAST);
        let log = self.log(r, self.above(line));
        let Some(place) = self.send_with(line, series, log, MOST_OUTPUT)? else { return Ok(()) };
        self.open_day(r)?;
        let other = self.series(r);
        for above in 0..=line {
            self.whole_login(r, above, other)?;
        }
        for i in 0..self.lines[line].messages[place].packets.len() {
            self.hand_over(r, line, place, i)?;
        }
        Ok(())
    }

    fn keep(&mut self, r: &mut Random) -> Result<(), String> {
        let (name, row) = (r.pick(&NAMES), self.row.as_mut().expect("a row"));
        self.counts.calls += 1;
        if row.named.keep(&mut self.ends[0], name)?.is_ok() && self.kind == Kind::Honest {
            row.happened.push(Happened::Kept(name.to_vec()));
            self.counts.kept += 1;
        }
        Ok(())
    }

    /// A return: what counts is another list from then on, and still a start of the exchange's.
    fn back(&mut self, r: &mut Random) -> Result<(), String> {
        let (name, row) = (r.pick(&NAMES), self.row.as_mut().expect("a row"));
        self.counts.calls += 1;
        if row.named.back(&mut self.ends[0], name)?.is_err() {
            return Ok(());
        }
        self.lines[LAST].asked_before = self.lines[LAST].logins.len();
        if self.kind == Kind::Honest {
            row.happened.push(Happened::Back(name.to_vec()));
            let counted = counted(&row.happened)?;
            counted.agrees(self.histories[ABOVE].all_published())?;
            self.histories[LAST].returned(&counted);
            self.counts.demand += 1;
            self.counts.returned += 1;
        }
        Ok(())
    }

    /// A report of the last end.
    pub(super) fn reported(&mut self, line: usize, series: u16, last: u32) {
        if let (Some(row), LAST) = (&mut self.row, line) {
            row.happened.push(Happened::Reported((series, self.histories[line].day_of(series)), last));
        }
    }

    /// A message that the last end hands on.
    pub(super) fn handed_on(&mut self, line: usize, message: &MessagePacket, tid: u32, content: Vec<u8>) {
        if let (Some(row), LAST) = (&mut self.row, line) {
            let flow = (message.series, message.mark.unwrap_or(0));
            row.happened.push(Happened::HandedOn(flow, message.number, tid, content));
        }
    }

    /// No day runs ahead of the one above it.
    pub(super) fn days(&self) -> Result<(), String> {
        for line in 0..LINES {
            let above = self.day(line).map(|day| day.mark);
            let below = match self.below(line) {
                Some(of) => self.worlds[of].model.relay.below.day.map(|day| day.mark),
                None => self.open(line).iter().filter_map(|one| one.mark).max(),
            };
            if below > above {
                return self.of_line(line, Err(format!("day {below:?} below, {above:?} above")));
            }
        }
        Ok(())
    }

    /// Would Send answer none on a line?
    fn none_due(&self, line: usize, series: u16) -> bool {
        let Some((day, place)) = self.day(line).and_then(|day| day.place(series).map(|place| (day, place))) else {
            return false;
        };
        let next = match self.above(line) {
            Some(of) => self.worlds[of].model.relay.seats[self.seats[line - 1]][place].map(|one| one.next),
            None => day.open[place].next,
        };
        next.is_some_and(|next| next > day.open[place].published.into())
    }

    /// Where on each line the last login's answer and all that was sent since have been delivered, and none is left,
    /// all days are the exchange's, and the last end has its whole list. (That it has a start of it was checked message
    /// by message.)
    pub(super) fn whole_row(&mut self, series: u16) -> Result<(), String> {
        let Some(row) = &self.row else { return Ok(()) };
        for line in 0..LINES {
            if !self.none_due(line, series) || !self.of_line(line, self.histories[line].none_left(series))? {
                return Ok(());
            }
        }
        let marks: Vec<Option<u32>> = (0..LINES).map(|line| self.day(line).map(|day| day.mark)).collect();
        let mark = marks[0].expect("a day with none left");
        if marks.iter().any(|&other| other != Some(mark)) {
            return Err(format!("all was delivered of series {series} on each line, and the days are {marks:?}"));
        }
        let all = self.histories[ABOVE].all_published().get(&(series, mark)).map_or(0, Vec::len);
        let handed = self.histories[LAST].handed(series, mark);
        if handed != all {
            return Err(format!("the row: {handed} of {all} messages of series {series}, day {mark}, at the last end"));
        }
        self.counts.demand += 1;
        self.counts.whole += u64::from(all > 0);
        let back = row.happened.iter().any(|one| matches!(one, Happened::Back(_)));
        self.counts.whole_behind += u64::from(all > 0 && back);
        Ok(())
    }

    /// Of what counts at last: the exchange's first ones, as many as were reported, with the numbers from 1 on.
    pub(super) fn end_row(&mut self) -> Result<(), String> {
        let Some(row) = &self.row else { return Ok(()) };
        self.counts.demand += 1;
        counted(&row.happened)?.agrees(self.histories[ABOVE].all_published())
    }
}
