//! Named places of a receiving end (document 02, No. 13): the checkpoints by value and the calls, as C sees them; the
//! model's places in these numbers; and the two sides that answer the calls, the library and, in its place or
//! deliberately wrong, the definitions written in Rust.

use crate::ends::Receiver;
use reader::checkpoints::{self as model, Position, MOST_NAMES};
use reader::few::MOST_SERIES;
use std::mem::size_of;

pub mod both;
pub mod stand_in;

#[repr(C)]
#[derive(Clone, Copy, Debug, Default, PartialEq, Eq)]
pub struct Series {
    pub date: u32,
    pub last: u32,
    pub series: u16,
    pub dated: u8,
}

#[repr(C)]
#[derive(Clone, Copy, Debug, Default, PartialEq, Eq)]
pub struct Checkpoint {
    pub name: u64,
    pub count: usize,
    pub series: [Series; MOST_SERIES],
}

/// `struct ftd_checkpoints`.
#[repr(C)]
#[derive(Clone, Copy, Debug, Default, PartialEq, Eq)]
pub struct Checkpoints {
    pub count: usize,
    pub places: [Checkpoint; MOST_NAMES],
}

#[repr(C)]
#[derive(Clone, Copy, Debug, PartialEq, Eq)]
pub struct KeptStep {
    pub checkpoints: Checkpoints,
    pub refusal: u8,
}

#[repr(C)]
#[derive(Clone, Copy, Debug, PartialEq, Eq)]
pub struct Returned {
    pub end: Receiver,
    pub refusal: u8,
}

// The sizes that C has.
const _: () = {
    assert!(size_of::<Series>() == 12 && size_of::<Checkpoint>() == 112 && size_of::<Checkpoints>() == 456);
    assert!(size_of::<KeptStep>() == 464 && size_of::<Returned>() == 272);
};

/// What answers the calls.
pub trait Side {
    fn name(&self) -> String;
    fn fresh(&self) -> Checkpoints;
    fn keep(&self, of: Checkpoints, end: Receiver, name: &[u8]) -> KeptStep;
    fn back(&self, of: Checkpoints, end: Receiver, name: &[u8]) -> Returned;
}

// --- The library ---

/// The library's calls. Compiled with the feature `checkpoints` alone.
#[cfg(feature = "checkpoints")]
pub struct Library;

#[cfg(feature = "checkpoints")]
mod library {
    use super::*;

    extern "C" {
        fn ftd_checkpoints_fresh() -> Checkpoints;
        fn ftd_keep(of: Checkpoints, end: Receiver, name: *const u8, name_len: usize) -> KeptStep;
        fn ftd_return(of: Checkpoints, end: Receiver, name: *const u8, name_len: usize) -> Returned;
    }

    impl Side for Library {
        fn name(&self) -> String {
            "library".to_string()
        }

        fn fresh(&self) -> Checkpoints {
            unsafe { ftd_checkpoints_fresh() }
        }

        fn keep(&self, of: Checkpoints, end: Receiver, name: &[u8]) -> KeptStep {
            unsafe { ftd_keep(of, end, name.as_ptr(), name.len()) }
        }

        fn back(&self, of: Checkpoints, end: Receiver, name: &[u8]) -> Returned {
            unsafe { ftd_return(of, end, name.as_ptr(), name.len()) }
        }
    }
}

// --- The model in the library's numbers ---

/// A name of at most eight bytes as one number, the first in the lowest byte.
pub fn code(name: &[u8]) -> u64 {
    name.iter().rev().fold(0, |code, &byte| code << 8 | u64::from(byte))
}

/// The name of a number, also of one that no name has.
fn letters(code: u64) -> Vec<u8> {
    let bytes = code.to_le_bytes();
    let count = bytes.iter().rposition(|&byte| byte != 0).map_or(0, |last| last + 1);
    bytes[..count].to_vec()
}

/// The model of any numbers: what is behind a count doesn't count.
pub fn places(of: &Checkpoints) -> model::Checkpoints {
    let position =
        |one: &Series| Position { series: one.series, mark: (one.dated != 0).then_some(one.date), last: one.last };
    let place = |one: &Checkpoint| model::Checkpoint {
        name: letters(one.name),
        kept: one.series.iter().take(one.count).map(position).collect(),
    };
    model::Checkpoints { places: of.places.iter().take(of.count).map(place).collect() }
}
