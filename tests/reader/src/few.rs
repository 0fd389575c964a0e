//! A list of at most eight: the open series of an end.

use std::ops::{Deref, DerefMut};

/// At most so many series are open.
pub const MOST_SERIES: usize = 8;

#[derive(Clone, Copy, Debug, Default)]
pub struct Few<T> {
    all: [T; MOST_SERIES],
    count: usize,
}

impl<T: Copy + Default> Few<T> {
    /// The list of these; none where there are more than eight.
    pub fn of(these: impl IntoIterator<Item = T>) -> Option<Self> {
        let mut few = Few::default();
        for one in these {
            *few.all.get_mut(few.count)? = one;
            few.count += 1;
        }
        Some(few)
    }
}

impl<T> Deref for Few<T> {
    type Target = [T];

    fn deref(&self) -> &[T] {
        &self.all[..self.count]
    }
}

impl<T> DerefMut for Few<T> {
    fn deref_mut(&mut self) -> &mut [T] {
        &mut self.all[..self.count]
    }
}

impl<T: PartialEq> PartialEq for Few<T> {
    fn eq(&self, other: &Self) -> bool {
        **self == **other
    }
}

/// The rule of both openings: 1 to 8 differing series from 1 up.
pub fn may_open(series: &[u16]) -> bool {
    let doubled = (1..series.len()).any(|i| series[..i].contains(&series[i]));
    (1..=MOST_SERIES).contains(&series.len()) && !series.contains(&0) && !doubled
}
