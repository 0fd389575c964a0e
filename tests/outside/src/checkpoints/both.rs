//! Named places on both sides: each call is made on the side that is tried and on the model, and every answer and every
//! number of places and end is compared, also of what doesn't count: that comes back as it was lent, flags as 0 or 1
//! and without the date of a series that has none.

use super::stand_in::{kept_of, normal, unchanged};
use super::{code, places, Checkpoint, Checkpoints, KeptStep, Returned, Series, Side};
use crate::ends::{self, Receiver};
use crate::world::{flag, Both, World};
use reader::checkpoints as model;
use reader::generate::Random;

pub struct Named {
    pub side: Box<dyn Side>,
    /// Where it is false the lists go on with what the side answers, and only what happens tells whether it was right.
    pub comparing: bool,
    pub model: model::Checkpoints,
    pub numbers: Checkpoints,
}

/// A series' part that doesn't count, of any numbers.
fn any_series(r: &mut Random) -> Series {
    Series { date: r.next() as u32, last: r.next() as u32, series: r.pick(&[0, 1, 2, 3]), dated: r.byte() }
}

/// The same checkpoints with any numbers where they don't count.
fn noisy(r: &mut Random, mut of: Checkpoints) -> Checkpoints {
    for (i, place) in of.places.iter_mut().enumerate() {
        let used = i < of.count;
        if !used {
            (place.name, place.count) = (r.pick(&[code(b"A"), code(b"B"), r.clone().next()]), r.below(12));
        }
        for (j, one) in place.series.iter_mut().enumerate() {
            if !used || j >= place.count {
                *one = any_series(r);
            } else if !flag(r, &mut one.dated) {
                one.date = r.next() as u32;
            }
        }
    }
    of
}

fn answered(refusal: u8) -> Result<(), u8> {
    if refusal == 0 {
        Ok(())
    } else {
        Err(refusal)
    }
}

impl Named {
    pub fn new(side: Box<dyn Side>) -> Self {
        Named { side, comparing: true, model: model::Checkpoints::default(), numbers: Checkpoints::default() }
    }

    pub fn fresh(&mut self, world: &mut World) -> Result<(), String> {
        (self.model, self.numbers) = (model::Checkpoints::default(), self.side.fresh());
        world.asked.same("fresh checkpoints", self.numbers, Checkpoints::default())
    }

    /// Sets numbers that no call made.
    pub fn set(&mut self, numbers: Checkpoints) {
        (self.model, self.numbers) = (places(&numbers), numbers);
    }

    /// What is lent to the side: checkpoints and end.
    fn lent(&self, world: &mut World) -> (Checkpoints, Receiver) {
        let lent = world.noise.as_mut().map_or(self.numbers, |r| noisy(r, self.numbers));
        (lent, world.receiver())
    }

    pub fn keep(&mut self, world: &mut World, name: &[u8]) -> Both<()> {
        let (lent, end) = self.lent(world);
        let given = self.side.keep(lent, end, name);
        if !self.comparing {
            self.set(given.checkpoints);
            return Ok(answered(given.refusal));
        }
        let answer = self.model.keep(&world.receiving, name);
        world.asked.same("Keep, the refusal", given.refusal, answer.err().unwrap_or(0))?;
        let mut right = lent;
        for one in right.places.iter_mut().flat_map(|place| &mut place.series) {
            *one = normal(*one);
        }
        if answer.is_ok() {
            let place = self.model.places.iter().position(|one| one.name == name).expect("just kept");
            right.count = lent.count.max(self.model.places.len());
            right.places[place] =
                Checkpoint { name: code(name), count: end.count, series: end.series.each_ref().map(kept_of) };
        }
        let right = KeptStep { checkpoints: right, refusal: answer.err().unwrap_or(0) };
        world.asked.same("Keep", given, right)?;
        world.asked.same("Keep, the places", &places(&given.checkpoints), &self.model)?;
        self.numbers = given.checkpoints;
        Ok(answer)
    }

    pub fn back(&mut self, world: &mut World, name: &[u8]) -> Both<()> {
        let (lent, end) = self.lent(world);
        let given = self.side.back(lent, end, name);
        if !self.comparing {
            world.receiving = ends::receiving(&given.end);
            world.level();
            return Ok(answered(given.refusal));
        }
        let answer = self.model.back(&mut world.receiving, name);
        // The model of all eight places, open or not, says what comes back of each.
        let mut all = ends::receiving(&Receiver { count: end.series.len(), ..end });
        let series = match self.model.back(&mut all, name) {
            Ok(()) => ends::receiver(&all).series,
            Err(_) => end.series.map(unchanged),
        };
        let right = Returned { end: Receiver { series, count: end.count }, refusal: answer.err().unwrap_or(0) };
        world.asked.same("Return", given, right)?;
        let open = ends::receiver(&ends::receiving(&given.end));
        world.asked.same("Return, the end", open, ends::receiver(&world.receiving))?;
        world.receiver = open;
        Ok(answer)
    }
}
