//! The book of a contract of the library, and both sides on the same lists of calls.

use crate::compare::Asked;
use reader::book::{self, Side, MOST_LEVELS};
use reader::book_cases::{matched, quotation};
use reader::generate::{raw_field, Random};

/// A price in units of 0.0001, and the quantity there; 0, 0 where the place isn't used.
#[repr(C)]
#[derive(Clone, Copy, Debug, Default, PartialEq, Eq)]
pub struct Level {
    pub price: i64,
    pub quantity: u32,
}

#[repr(C)]
#[derive(Clone, Copy, Debug, PartialEq, Eq)]
pub struct Book {
    pub code: [u8; 10],
    pub buying: [Level; MOST_LEVELS],
    pub selling: [Level; MOST_LEVELS],
    pub turnover: i64,
    pub volume: i64,
}

#[repr(C)]
#[derive(Clone, Copy, Debug, PartialEq, Eq)]
pub struct Step {
    pub book: Book,
    pub refusal: u8,
}

#[repr(C)]
#[derive(Clone, Copy, Debug, Default, PartialEq, Eq)]
pub struct Listed {
    pub price: i64,
    pub quantity: u32,
    pub found: u8,
}

#[repr(C)]
#[derive(Clone, Copy, Debug, Default, PartialEq, Eq)]
pub struct Mean {
    pub price: i64,
    pub found: u8,
}

extern "C" {
    fn ftd_book_fresh() -> Book;
    fn ftd_book_start(book: Book, code: *const u8, count: usize) -> Step;
    fn ftd_book_take(book: Book, tid: u32, content: *const u8, count: usize) -> Step;
    fn ftd_book_level(book: Book, side: u8, place: usize) -> Listed;
    fn ftd_book_mean(book: Book) -> Mean;
}

pub fn fresh() -> Book {
    unsafe { ftd_book_fresh() }
}

impl Book {
    pub fn start(self, code: &[u8]) -> Step {
        unsafe { ftd_book_start(self, code.as_ptr(), code.len()) }
    }

    pub fn take(self, tid: u32, content: &[u8]) -> Step {
        unsafe { ftd_book_take(self, tid, content.as_ptr(), content.len()) }
    }

    /// Side 0 is buying, any other number selling.
    pub fn level(self, side: u8, place: usize) -> Listed {
        unsafe { ftd_book_level(self, side, place) }
    }

    pub fn mean(self) -> Mean {
        unsafe { ftd_book_mean(self) }
    }
}

/// The model's book in the library's numbers.
pub fn numbers(model: &book::Book) -> Book {
    let levels = |side| {
        std::array::from_fn(|i| {
            model.level(side, i).map_or(Level::default(), |(price, quantity)| Level { price, quantity })
        })
    };
    let (turnover, volume) = model.sums();
    Book { code: model.code(), buying: levels(Side::Buying), selling: levels(Side::Selling), turnover, volume }
}

pub const QUOTATIONS: u32 = 0x2001;
pub const MATCHES: u32 = 0x2002;
const HIGHEST: i64 = 99_999_999_999;
const LOWEST: i64 = -9_999_999_999;
const MOST_VOLUME: u32 = 1_000_000;
const MOST_SUM: i64 = 9_000_000_000_000_000_000;
const MOST_CONTENT: usize = 32_768;

/// Units of 0.0001 as a Float 12,4.
pub fn price_bytes(units: i64) -> Vec<u8> {
    let (whole, part) = (units.unsigned_abs() / 10_000, units.unsigned_abs() % 10_000);
    if units < 0 {
        format!("-{whole:06}.{part:04}").into_bytes()
    } else {
        format!("{whole:07}.{part:04}").into_bytes()
    }
}

/// A book on both sides, and the codes and prices that a list of calls is about.
pub struct Books {
    library: Book,
    model: book::Book,
    own: [u8; 10],
    other: [u8; 10],
    lowest: i64,
    apart: i64,
    prices: usize,
    started: bool,
}

impl Books {
    /// A fresh book. Prices lie near each other, so that most meet a level, about zero or an end of what a price can be
    /// at times; some lists have more of them than a side has places.
    pub fn new(r: &mut Random) -> Self {
        let prices = r.pick(&[2, 5, 20, 66, 70, 150]);
        let apart = r.pick(&[1, 1, 500, 10_000]);
        let reach = apart * prices as i64;
        let lowest = match r.below(6) {
            0 => LOWEST,
            1 => HIGHEST - reach,
            2 => -reach / 2,
            _ => r.below(2_000_000) as i64,
        };
        let mut other = *b"cu0405    ";
        let own = r.pick(&[other, *b"          ", *b"al\xff\x20\x80~z 1 "]);
        match r.below(3) {
            0 => other[9] = b'.',
            1 => other[0] = b'd',
            _ => other[5] = b'6',
        }
        let (library, model) = (fresh(), book::Book::fresh());
        Books { library, model, own, other, lowest, apart, prices, started: false }
    }

    /// No contract yet: at times it stays so for some messages.
    pub fn young(&self) -> bool {
        !self.started
    }

    /// The contract's code, or one that may be none.
    pub fn code(&self, r: &mut Random) -> Vec<u8> {
        let mut code = self.own.to_vec();
        match r.below(8) {
            0 => code.truncate(r.below(10)),
            1 => code.push(b' '),
            2 => code[r.below(10)] = r.pick(&[0, 0x1f, 0x20, 0x7e, 0x7f, 0x80, 0xff]),
            _ => {}
        }
        code
    }

    fn price(&self, r: &mut Random) -> i64 {
        let price = self.lowest + self.apart * r.below(self.prices + 1) as i64;
        if r.once_in(30) {
            return r.pick(&[LOWEST, -1, 0, 1, HIGHEST]);
        }
        price.clamp(LOWEST, HIGHEST)
    }

    fn held(&self, side: Side, price: i64) -> u32 {
        (0..MOST_LEVELS)
            .map_while(|i| self.model.level(side, i))
            .find(|level| level.0 == price)
            .map_or(0, |level| level.1)
    }

    /// A price that a level has, mostly.
    fn met(&self, r: &mut Random, side: Side) -> i64 {
        let among = if r.once_in(3) { MOST_LEVELS } else { 4 };
        match self.model.level(side, r.below(among)) {
            Some(level) if !r.once_in(4) => level.0,
            _ => self.price(r),
        }
    }

    /// A quotation: absolute, or an increment that just leaves a quantity, or just doesn't.
    fn quotation(&self, r: &mut Random, code: &[u8; 10], filling: bool) -> Vec<u8> {
        let side = r.pick(&[Side::Buying, Side::Selling]);
        let direction = u8::from(side == Side::Selling);
        let price = if filling { self.price(r) } else { self.met(r, side) };
        let old = self.held(side, price);
        let (kind, volume) = if filling || r.once_in(3) {
            (
                1,
                if filling {
                    1 + r.below(9) as u32
                } else {
                    r.pick(&[0, 0, 1, 7, 0x8000_0000, u32::MAX - 1, u32::MAX])
                },
            )
        } else {
            let volume = match r.below(8) {
                0 => old.wrapping_neg(),
                1 if r.once_in(3) => (old + u32::from(old < u32::MAX)).wrapping_neg(),
                2 => u32::MAX - old,
                3 if r.once_in(3) => (u32::MAX - old).wrapping_add(1),
                4 => r.pick(&[0, 1, 0x7fff_ffff, 0x8000_0000, u32::MAX]),
                5 => (old / 2).wrapping_neg(),
                _ => r.below(20) as u32,
            };
            (0, volume)
        };
        quotation(code, kind, direction, &price_bytes(price), volume)
    }

    /// A match: at a level, of all that it has, one more, part of it; about the limit of a volume; anywhere.
    fn matched(&self, r: &mut Random, code: &[u8; 10]) -> Vec<u8> {
        let side = r.pick(&[Side::Buying, Side::Selling]);
        let price = self.met(r, side);
        let held = [Side::Buying, Side::Selling].map(|side| self.held(side, price));
        let least = held.into_iter().filter(|&n| n > 0).min().unwrap_or(0);
        let volume = match r.below(10) {
            0 => r.pick(&[MOST_VOLUME, MOST_VOLUME, MOST_VOLUME + 1, u32::MAX]),
            1 => least.saturating_add(1),
            2..=4 => least,
            5 => 0,
            _ => r.below(least.min(40) as usize + 1) as u32,
        };
        matched(code, &price_bytes(price), volume)
    }

    /// Matches that bring the sum of price times volume near its limit, to it, and past it, on either side of zero; and
    /// away from it.
    fn limit(&self, r: &mut Random) -> Vec<u8> {
        let (sum, _) = self.model.sums();
        let up = sum >= 0;
        let (left, most) = if up { (MOST_SUM - sum, HIGHEST) } else { (MOST_SUM + sum, -LOWEST) };
        let signed = |price: i64| if up { price } else { -price };
        let one = |price: i64, volume: u32| matched(&self.own, &price_bytes(signed(price)), volume);
        if left > most * i64::from(MOST_VOLUME) {
            // From zero on at times to the other side.
            let (price, many) = if sum == 0 && r.once_in(2) {
                (LOWEST, 900)
            } else {
                (signed(most), left / most / i64::from(MOST_VOLUME))
            };
            let field = matched(&self.own, &price_bytes(price), MOST_VOLUME);
            return field.repeat((many as usize).min(MOST_CONTENT / field.len()));
        }
        if left > most {
            let price = left / i64::from(MOST_VOLUME);
            return one(if r.once_in(3) { price + 1 } else { price }, MOST_VOLUME);
        }
        match r.below(4) {
            0 => one(left, 1),
            1 if left < most => one(left + 1, 1),
            2 if left < most => [one(left + 1, 1), one(-1, 1)].concat(),
            _ => [one(-1, 1), one(left.min(most), 1), one(1, 1)].concat(),
        }
    }

    fn some_code(&self, r: &mut Random) -> [u8; 10] {
        if r.once_in(6) {
            self.other
        } else {
            self.own
        }
    }

    /// A message: TID and content.
    pub fn message(&self, r: &mut Random) -> (u32, Vec<u8>) {
        let quoting = !r.once_in(3);
        let tid = match r.below(12) {
            0 => r.pick(&[0x2003, 0x2004, 0x0012, 0x7777, MATCHES, QUOTATIONS]),
            _ if quoting => QUOTATIONS,
            _ => MATCHES,
        };
        if tid == MATCHES && r.once_in(12) {
            return (tid, self.limit(r));
        }
        let filling = quoting && self.prices > 60 && r.once_in(8);
        let many = match r.below(30) {
            _ if filling => r.within(40, 200),
            0 => r.within(10, 60),
            1 if r.once_in(8) => r.within(838, 842),
            _ => r.within(1, 4),
        };
        let mut content = vec![];
        for _ in 0..many {
            let code = self.some_code(r);
            content.extend(match r.below(25) {
                0 if !filling => raw_field(0x7777, &[7; 3]),
                1 if !filling && quoting => self.matched(r, &code),
                1 if !filling => self.quotation(r, &code, false),
                _ if quoting => self.quotation(r, &code, filling),
                _ => self.matched(r, &code),
            });
        }
        match r.below(40) {
            0 => content.truncate(r.below(content.len() + 1)),
            1 => {
                let at = r.below(content.len());
                content[at] = r.byte();
            }
            2 => {
                // Version, kind or side of a quotation, a sign or a digit of its price.
                let at = r.within(16, 19).min(content.len() - 1);
                content[at] = r.pick(&[0, 1, 2, b'0', b'1', b'-']);
            }
            3 => content.push(0),
            4 => content.extend(raw_field(0x000d, &[b' '; 32])),
            _ => {}
        }
        (tid, content)
    }

    /// All that is left: the answer, the state, each level and the mean.
    fn compare(
        &mut self,
        asked: &mut Asked,
        r: &mut Random,
        what: &str,
        step: Step,
        refusal: u8,
    ) -> Result<u8, String> {
        asked.same(what, step, Step { book: numbers(&self.model), refusal })?;
        self.library = step.book;
        let selling = r.pick(&[1, 1, 2, 255]);
        for (side, number) in [(Side::Buying, 0), (Side::Selling, selling)] {
            let beyond = r.pick(&[65, 128, 1 << 32, usize::MAX]);
            let places = || (0..=MOST_LEVELS).chain([beyond]);
            let listed = places().map(|i| self.library.level(number, i)).collect();
            let right: Vec<_> = places()
                .map(|i| self.model.level(side, i))
                .map(|level| level.map_or(Listed::default(), |(price, quantity)| Listed { price, quantity, found: 1 }))
                .collect();
            asked.same(&format!("{what}, {side:?}"), listed, right)?;
        }
        let mean = self.model.mean().map_or(Mean::default(), |price| Mean { price, found: 1 });
        asked.same(&format!("{what}, mean"), self.library.mean(), mean)?;
        Ok(refusal)
    }

    pub fn start(&mut self, asked: &mut Asked, r: &mut Random, code: &[u8]) -> Result<u8, String> {
        let refusal = match book::Book::start(code) {
            Ok(book) => {
                self.model = book;
                self.started = true;
                // Another code than the list's was taken: the list is about it from now on.
                self.own = code.try_into().expect("ten bytes");
                0
            }
            Err(row) => row,
        };
        self.compare(asked, r, "start", self.library.start(code), refusal)
    }

    pub fn take(&mut self, asked: &mut Asked, r: &mut Random, tid: u32, content: &[u8]) -> Result<u8, String> {
        let refusal = self.model.take(tid, content).err().unwrap_or(0);
        self.compare(asked, r, "take", self.library.take(tid, content), refusal)
    }
}
