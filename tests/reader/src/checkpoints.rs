//! Named places of a receiving end to come back to (document 02, No. 13): Keep lays every series' mark and last away
//! under a name, Return brings them back, with login and chain cleared. The places are beside the end's own state; no
//! other call looks at them.

use crate::receiving::Receiving;

/// At most so many names are in use.
pub const MOST_NAMES: usize = 4;
/// A name has at most so many letters.
pub const MOST_LETTERS: usize = 8;

/// A series as it was when it was kept.
#[derive(Clone, Copy, Debug, Default, PartialEq, Eq)]
pub struct Position {
    pub series: u16,
    pub mark: Option<u32>,
    pub last: u32,
}

/// A place: its name, and the series that were open, in the opening's order. Before the opening there were none.
#[derive(Clone, Debug, Default, PartialEq, Eq)]
pub struct Checkpoint {
    pub name: Vec<u8>,
    pub kept: Vec<Position>,
}

/// All places, in the order in which their names came first.
#[derive(Clone, Debug, Default, PartialEq, Eq)]
pub struct Checkpoints {
    pub places: Vec<Checkpoint>,
}

/// 1 to 8 letters A to Z.
fn is_name(name: &[u8]) -> bool {
    let letter = |byte: &u8| (b'A'..=b'Z').contains(byte);
    (1..=MOST_LETTERS).contains(&name.len()) && name.iter().all(letter)
}

impl Checkpoints {
    fn place(&self, name: &[u8]) -> Option<usize> {
        self.places.iter().position(|one| one.name == name)
    }

    /// Keep: marks and last numbers of the end under the name; a used name gets them in place of the old ones.
    pub fn keep(&mut self, end: &Receiving, name: &[u8]) -> Result<(), u8> {
        if !is_name(name) {
            return Err(31);
        }
        let kept = end.open.iter().map(|one| Position { series: one.series, mark: one.mark, last: one.last }).collect();
        match self.place(name) {
            Some(place) => self.places[place].kept = kept,
            None if self.places.len() >= MOST_NAMES => return Err(32),
            None => self.places.push(Checkpoint { name: name.to_vec(), kept }),
        }
        Ok(())
    }

    /// Return: each open series' mark and last as they were kept, none and 0 where it wasn't open then; login and chain
    /// are cleared. All places stay.
    pub fn back(&self, end: &mut Receiving, name: &[u8]) -> Result<(), u8> {
        if !is_name(name) {
            return Err(31);
        }
        let kept = &self.places[self.place(name).ok_or(33)?].kept;
        for one in end.open.iter_mut() {
            let then = kept.iter().find(|then| then.series == one.series).copied().unwrap_or_default();
            (one.mark, one.last) = (then.mark, then.last);
            (one.logged_in, one.chain) = (false, None);
        }
        Ok(())
    }
}
