//! The order of two serving ends (document 02, No. 14): the calls, as C sees them; the model's answers in these
//! numbers; and the two sides that answer the calls, the library and, in its place or deliberately wrong, the
//! definitions written in Rust.

use crate::boxes::{self, Boxed, PLACES};
use crate::ends::{self, Sender, Served};
use reader::order;
use reader::serving::Serving;
use std::mem::size_of;

pub mod stand_in;

pub const SAME: u8 = 0;
pub const FIRST_START: u8 = 1;
pub const SECOND_START: u8 = 2;
pub const DIFFER: u8 = 3;
pub const REFUSED: u8 = 4;

/// `struct ftd_order`.
#[repr(C)]
#[derive(Clone, Copy, Debug, Default, PartialEq, Eq)]
pub struct Order {
    pub number: u32,
    pub answer: u8,
    pub refusal: u8,
}

// The size that C has.
const _: () = assert!(size_of::<Order>() == 8);

impl Order {
    pub fn answered(answer: u8) -> Self {
        Order { answer, ..Order::default() }
    }

    pub fn differ(number: u32) -> Self {
        Order { number, answer: DIFFER, refusal: 0 }
    }

    pub fn refused(refusal: u8) -> Self {
        Order { number: 0, answer: REFUSED, refusal }
    }

    /// First and second exchanged.
    pub fn exchanged(self) -> Self {
        let answer = match self.answer {
            FIRST_START => SECOND_START,
            SECOND_START => FIRST_START,
            other => other,
        };
        Order { answer, ..self }
    }
}

/// What answers the calls: of two serving ends, of two boxes, of a box and a serving end, each with its log.
pub trait Side {
    fn name(&self) -> String;
    fn order(&self, first: (Sender, &[u8]), second: (Sender, &[u8]), series: u16) -> Order;
    fn box_order(&self, first: (Boxed, &[u8]), second: (Boxed, &[u8]), series: u16) -> Order;
    fn box_order_with(&self, first: (Boxed, &[u8]), second: (Sender, &[u8]), series: u16) -> Order;
}

// --- The library ---

/// The library's calls. Compiled with the feature `order` alone.
#[cfg(feature = "order")]
pub struct Library;

#[cfg(feature = "order")]
mod library {
    use super::*;

    extern "C" {
        fn ftd_order(
            first: Sender,
            log: *const u8,
            log_len: usize,
            second: Sender,
            other: *const u8,
            other_len: usize,
            series: u16,
        ) -> Order;
        fn ftd_box_order(
            first: Boxed,
            log: *const u8,
            log_len: usize,
            second: Boxed,
            other: *const u8,
            other_len: usize,
            series: u16,
        ) -> Order;
        fn ftd_box_order_with(
            first: Boxed,
            log: *const u8,
            log_len: usize,
            second: Sender,
            other: *const u8,
            other_len: usize,
            series: u16,
        ) -> Order;
    }

    impl Side for Library {
        fn name(&self) -> String {
            "library".to_string()
        }

        fn order(&self, (first, log): (Sender, &[u8]), (second, other): (Sender, &[u8]), series: u16) -> Order {
            unsafe { ftd_order(first, log.as_ptr(), log.len(), second, other.as_ptr(), other.len(), series) }
        }

        fn box_order(&self, (first, log): (Boxed, &[u8]), (second, other): (Boxed, &[u8]), series: u16) -> Order {
            unsafe { ftd_box_order(first, log.as_ptr(), log.len(), second, other.as_ptr(), other.len(), series) }
        }

        fn box_order_with(&self, (first, log): (Boxed, &[u8]), (second, other): (Sender, &[u8]), series: u16) -> Order {
            unsafe { ftd_box_order_with(first, log.as_ptr(), log.len(), second, other.as_ptr(), other.len(), series) }
        }
    }
}

// --- One that is compared, and the model's answer in the library's numbers ---

/// A serving end or a box, by value.
#[derive(Clone, Copy, Debug)]
pub enum End {
    Serving(Sender),
    Box(Boxed),
}

impl End {
    /// The serving end with the same day; of a box nobody is logged in.
    pub fn sender(&self) -> Sender {
        match self {
            End::Serving(end) => *end,
            End::Box(of) => {
                let served = |one: &boxes::DaySeries| Served {
                    reserve: one.reserve,
                    used: one.used,
                    published: one.published,
                    series: one.series,
                    ..Served::default()
                };
                let boxes::Day { used, count, date, dated, .. } = of.day;
                Sender { used, series: of.day.series.each_ref().map(served), count, date, dated }
            }
        }
    }

    fn serving(&self) -> Serving {
        match self {
            End::Serving(end) => ends::serving(end),
            End::Box(of) => boxes::relay(of, &[0; PLACES]).below,
        }
    }
}

/// The model's answer.
pub fn right((first, log): (&End, &[u8]), (second, other): (&End, &[u8]), series: u16) -> Order {
    match order::order(series, (&first.serving(), log), (&second.serving(), other)) {
        Ok(order::Order::Same) => Order::answered(SAME),
        Ok(order::Order::FirstStarts) => Order::answered(FIRST_START),
        Ok(order::Order::SecondStarts) => Order::answered(SECOND_START),
        Ok(order::Order::Differ(number)) => Order::differ(number),
        Err(refusal) => Order::refused(refusal),
    }
}
