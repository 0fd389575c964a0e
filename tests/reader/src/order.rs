//! The order of two serving ends with their logs, for a series (document 02, No. 14): what each has published there,
//! read off its own log, is compared, so that a standby takes the fuller one. Nothing is changed; seats, logins and
//! reserves play no part. A box is compared by its day below.

use crate::serving::Serving;
use std::cmp::Ordering;

/// How two lists of messages stand to each other.
#[derive(Clone, Copy, Debug, PartialEq, Eq)]
pub enum Order {
    /// The same messages, none among them too.
    Same,
    /// The first has fewer, and those are the second's first ones.
    FirstStarts,
    /// Likewise the second.
    SecondStarts,
    /// Both have a message of this number, the first with another TID or content.
    Differ(u32),
}

/// 13 unless the series is open at both, 15 if the marks differ, 20 if Send of either's last entry of the series would
/// find damage; then the order.
pub fn order(series: u16, (first, log): (&Serving, &[u8]), (second, other): (&Serving, &[u8])) -> Result<Order, u8> {
    let open = |end: &Serving| end.day.filter(|day| day.place(series).is_some()).ok_or(13);
    let (one, two) = (open(first)?, open(second)?);
    if one.mark != two.mark {
        return Err(15);
    }
    let one = one.messages(log, series).ok_or(20)?;
    let two = two.messages(other, series).ok_or(20)?;
    if let Some(before) = one.iter().zip(&two).position(|(one, two)| one != two) {
        return Ok(Order::Differ(before as u32 + 1));
    }
    Ok(match one.len().cmp(&two.len()) {
        Ordering::Equal => Order::Same,
        Ordering::Less => Order::FirstStarts,
        Ordering::Greater => Order::SecondStarts,
    })
}
