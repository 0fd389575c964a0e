//! A book beside the flow (request No. 2), with sorted vectors: the levels of one contract from quotations and matches,
//! and the mean match price (to the nearest: request No. 9).

use crate::makeup::{check, Direction};
use crate::packet::{fields, u32_at};

/// Levels a side.
pub const MOST_LEVELS: usize = 64;
const MOST_QUANTITY: i64 = 4_294_967_295;
const MOST_VOLUME: u32 = 1_000_000;
const MOST_SUM: i128 = 9_000_000_000_000_000_000;
const MOST_BYTES: usize = 32_768;

#[derive(Clone, Copy, Debug, PartialEq, Eq)]
pub enum Side {
    Buying,
    Selling,
}

/// Pairs of price (in units of 0.0001) and quantity, best first, and the sums over the matches. The default one is of no
/// contract: ten bytes that are no code.
#[derive(Clone, Debug, Default, PartialEq, Eq)]
pub struct Book {
    code: [u8; 10],
    buying: Vec<(i64, u32)>,
    selling: Vec<(i64, u32)>,
    turnover: i128,
    volume: i128,
}

/// Where a price stands, or belongs, on a side.
fn place(levels: &[(i64, u32)], side: Side, price: i64) -> Result<usize, usize> {
    match side {
        Side::Buying => levels.binary_search_by(|level| price.cmp(&level.0)),
        Side::Selling => levels.binary_search_by(|level| level.0.cmp(&price)),
    }
}

fn quantity(levels: &[(i64, u32)], side: Side, price: i64) -> u32 {
    place(levels, side, price).map_or(0, |i| levels[i].1)
}

fn put(levels: &mut Vec<(i64, u32)>, side: Side, price: i64, quantity: u32) {
    match (place(levels, side, price), quantity) {
        (Ok(i), 0) => {
            levels.remove(i);
        }
        (Ok(i), _) => levels[i].1 = quantity,
        (Err(_), 0) => {}
        (Err(i), _) => levels.insert(i, (price, quantity)),
    }
}

/// The price that checked bytes say, in units: digits with a point among them, behind a minus or not.
fn price(bytes: &[u8]) -> i64 {
    let units = bytes.iter().filter(|b| b.is_ascii_digit()).fold(0, |n, b| n * 10 + i64::from(b - b'0'));
    if bytes[0] == b'-' {
        -units
    } else {
        units
    }
}

/// The whole number nearest to a quotient, of two that are equally near the even one: chosen between the two around it.
pub fn nearest(sum: i128, volume: i128) -> i64 {
    let below = sum.div_euclid(volume);
    let off = |n: i128| (n * volume - sum).abs();
    let nearest = [below, below + 1].into_iter().min_by_key(|&n| (off(n), n.rem_euclid(2)));
    nearest.expect("one of two") as i64
}

impl Book {
    /// A book of no contract: no accepted field has ten bytes 0 for its code.
    pub fn fresh() -> Self {
        Book { code: [0; 10], buying: Vec::new(), selling: Vec::new(), turnover: 0, volume: 0 }
    }

    /// Start: ten bytes that are a String's value, or 9.
    pub fn start(code: &[u8]) -> Result<Self, u8> {
        let code: [u8; 10] = code.try_into().map_err(|_| 9)?;
        if code.iter().any(|&b| b < 0x20 || b == 0x7f) {
            return Err(9);
        }
        Ok(Book { code, buying: Vec::new(), selling: Vec::new(), turnover: 0, volume: 0 })
    }

    fn side(&mut self, side: Side) -> &mut Vec<(i64, u32)> {
        match side {
            Side::Buying => &mut self.buying,
            Side::Selling => &mut self.selling,
        }
    }

    /// Take: 7 to 10, then field by field 22, 23, 24. A refused message leaves the book.
    pub fn take(&mut self, tid: u32, content: &[u8]) -> Result<(), u8> {
        check(tid, Direction::Down, content, MOST_BYTES)?;
        let mut next = self.clone();
        for field in fields(content).flatten() {
            match (tid, field.fid) {
                (0x2001, 0x000d) if field.value[..10] == self.code => next.quote(field.value)?,
                (0x2002, 0x000a) if field.value[..10] == self.code => next.matched(field.value)?,
                _ => {}
            }
        }
        *self = next;
        Ok(())
    }

    fn quote(&mut self, bytes: &[u8]) -> Result<(), u8> {
        let price = price(&bytes[13..25]);
        let volume = u32_at(bytes, 25);
        let side = match bytes[12] {
            0 => Side::Buying,
            1 => Side::Selling,
            _ => return Ok(()),
        };
        let levels = self.side(side);
        let old = quantity(levels, side, price);
        let new = match bytes[11] {
            0 => i64::from(old) + i64::from(volume as i32),
            1 => i64::from(volume),
            _ => return Ok(()),
        };
        if !(0..=MOST_QUANTITY).contains(&new) {
            return Err(22);
        }
        if new > 0 && old == 0 && levels.len() == MOST_LEVELS {
            return Err(23);
        }
        put(levels, side, price, new as u32);
        Ok(())
    }

    fn matched(&mut self, bytes: &[u8]) -> Result<(), u8> {
        let price = price(&bytes[12..24]);
        let volume = u32_at(bytes, 24);
        let old = [Side::Buying, Side::Selling].map(|side| (side, quantity(self.side(side), side, price)));
        if old.iter().any(|&(_, old)| old > 0 && volume > old) {
            return Err(22);
        }
        let turnover = self.turnover + i128::from(price) * i128::from(volume);
        let total = self.volume + i128::from(volume);
        if volume > MOST_VOLUME || turnover.abs() > MOST_SUM || total > MOST_SUM {
            return Err(24);
        }
        for (side, old) in old {
            if old > 0 {
                put(self.side(side), side, price, old - volume);
            }
        }
        self.turnover = turnover;
        self.volume = total;
        Ok(())
    }

    /// Level: the pair at a place, best first.
    pub fn level(&self, side: Side, i: usize) -> Option<(i64, u32)> {
        match side {
            Side::Buying => self.buying.get(i).copied(),
            Side::Selling => self.selling.get(i).copied(),
        }
    }

    pub fn code(&self) -> [u8; 10] {
        self.code
    }

    /// The sums over the matches: price times volume, and volume.
    pub fn sums(&self) -> (i64, i64) {
        (self.turnover as i64, self.volume as i64)
    }

    /// Mean: the sum of price times volume over the sum of volumes, to the nearest (request No. 9).
    pub fn mean(&self) -> Option<i64> {
        (self.volume > 0).then(|| nearest(self.turnover, self.volume))
    }
}
