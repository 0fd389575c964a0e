//! The definitions in the library's place, on the numbers and bytes that are lent: both logs are gone along entry by
//! entry. With a fault it is one of the wrong programs, for the tests of the tests.

use super::{End, Order, Side, FIRST_START, SAME, SECOND_START};
use crate::boxes::Boxed;
use crate::ends::Sender;
use reader::makeup::shape_right;
use reader::packet::{u16_at, u32_at, MOST_MESSAGE};
use reader::serving::ENTRY_HEADER;

/// A wrong program.
#[derive(Clone, Copy, Debug, PartialEq, Eq)]
pub enum Fault {
    /// TIDs aren't compared.
    TidIgnored,
    /// Contents are compared by their lengths alone.
    LengthsAlone,
    /// Differing numbers are counted from 0.
    FromZero,
    /// The last number that differs, not the first.
    LastNumber,
    /// Where one has fewer it is a start, whatever it has.
    FewerFirst,
    /// First and second exchanged.
    Exchanged,
    /// The entries of other series are compared too.
    AllSeries,
    /// Marks aren't compared.
    MarksIgnored,
    /// 15 before 13.
    MarksFirst,
    /// Open at one is enough.
    OpenAtOne,
    /// A log cut short ends the list, and is no damage.
    CutShort,
    /// Damage behind the last entry counts.
    BehindLast,
    /// Where nothing is published the log's length counts.
    NothingLooks,
    /// Damage of the second's log isn't looked for.
    SecondTrusted,
    /// 20 only where no message before the damage differs.
    DifferFirst,
    /// An entry's series may be any.
    AnySeries,
    /// Its zero bytes may be any.
    AnyZero,
    /// Its number may be any.
    AnyNumber,
    /// Its content may be any bytes.
    AnyShape,
}

pub const FAULTS: [Fault; 19] = [
    Fault::TidIgnored,
    Fault::LengthsAlone,
    Fault::FromZero,
    Fault::LastNumber,
    Fault::FewerFirst,
    Fault::Exchanged,
    Fault::AllSeries,
    Fault::MarksIgnored,
    Fault::MarksFirst,
    Fault::OpenAtOne,
    Fault::CutShort,
    Fault::BehindLast,
    Fault::NothingLooks,
    Fault::SecondTrusted,
    Fault::DifferFirst,
    Fault::AnySeries,
    Fault::AnyZero,
    Fault::AnyNumber,
    Fault::AnyShape,
];

impl Fault {
    /// Is it shut out by the laws of the order, without a comparison of each answer?
    pub fn by_laws(self) -> bool {
        use Fault::*;
        !matches!(self, CutShort | BehindLast | NothingLooks | DifferFirst | AnySeries | AnyZero | AnyNumber | AnyShape)
    }
}

/// The definitions, right or with a fault.
#[derive(Default)]
pub struct StandIn {
    pub fault: Option<Fault>,
}

/// The messages of a series, and whether damage was found behind them.
struct Gone<'a> {
    messages: Vec<(u32, &'a [u8])>,
    damaged: bool,
}

impl StandIn {
    fn is(&self, fault: Fault) -> bool {
        self.fault == Some(fault)
    }

    /// The log, entry by entry, up to the series' last one.
    fn gone_along<'a>(&self, of: &Sender, log: &'a [u8], series: u16, trusted: bool) -> Gone<'a> {
        let open = &of.series[..of.count.min(of.series.len())];
        let published = open.iter().find(|one| one.series == series).map_or(0, |one| one.published);
        let mut gone = Gone { messages: vec![], damaged: false };
        let cut = log.len() < of.used;
        if published == 0 {
            gone.damaged = self.is(Fault::NothingLooks) && cut;
            return gone;
        }
        gone.damaged = cut && !self.is(Fault::CutShort) && !trusted;
        let used = &log[..of.used.min(log.len())];
        let (mut at, mut earlier, mut own, mut through) = (0, vec![], 0, false);
        while !gone.damaged && (!through || self.is(Fault::BehindLast) && at < used.len()) {
            let Some(head) = used.get(at..).and_then(|rest| rest.get(..ENTRY_HEADER)) else {
                gone.damaged = !(cut && self.is(Fault::CutShort) || trusted);
                break;
            };
            let (from, length) = (at + ENTRY_HEADER, u32_at(head, 12) as usize);
            let Some(content) = used.get(from..).and_then(|rest| rest.get(..length)) else {
                gone.damaged = !(cut && self.is(Fault::CutShort) || trusted);
                break;
            };
            let its = u16_at(head, 0);
            let number = 1 + earlier.iter().filter(|&&one| one == its).count() as u32;
            earlier.push(its);
            let strange = !open.iter().any(|one| one.series == its) && !self.is(Fault::AnySeries);
            let nonzero = u16_at(head, 2) != 0 && !self.is(Fault::AnyZero);
            let misnumbered = u32_at(head, 8) != number && !self.is(Fault::AnyNumber);
            let misshapen = !shape_right(content, MOST_MESSAGE) && !self.is(Fault::AnyShape);
            if (strange || nonzero || misnumbered || misshapen) && !trusted {
                gone.damaged = true;
                break;
            }
            if (its == series || self.is(Fault::AllSeries)) && !through {
                gone.messages.push((u32_at(head, 4), content));
            }
            own += u32::from(its == series);
            through = own == published;
            at = from + length;
        }
        gone
    }

    fn differ(&self, one: &(u32, &[u8]), two: &(u32, &[u8])) -> bool {
        let tid = one.0 != two.0 && !self.is(Fault::TidIgnored);
        tid || if self.is(Fault::LengthsAlone) { one.1.len() != two.1.len() } else { one.1 != two.1 }
    }

    fn of(&self, (first, log): (Sender, &[u8]), (second, other): (Sender, &[u8]), series: u16) -> Order {
        let open = |of: &Sender| of.series.iter().take(of.count).any(|one| one.series == series);
        let (here, there) = (open(&first), open(&second));
        let dates = first.dated != 0 && second.dated != 0 && first.date != second.date;
        if dates && self.is(Fault::MarksFirst) {
            return Order::refused(15);
        }
        if !here && !there || !(here && there) && !self.is(Fault::OpenAtOne) {
            return Order::refused(13);
        }
        if dates && !self.is(Fault::MarksIgnored) {
            return Order::refused(15);
        }
        let one = self.gone_along(&first, log, series, false);
        let two = self.gone_along(&second, other, series, self.is(Fault::SecondTrusted));
        let (n, m) = (one.messages.len(), two.messages.len());
        let mut numbers = (0..n.min(m)).filter(|&i| self.differ(&one.messages[i], &two.messages[i]));
        let differing = if self.is(Fault::LastNumber) { numbers.last() } else { numbers.next() };
        if (one.damaged || two.damaged) && !(self.is(Fault::DifferFirst) && differing.is_some()) {
            return Order::refused(20);
        }
        if let Some(before) = differing.filter(|_| n == m || !self.is(Fault::FewerFirst)) {
            return Order::differ(before as u32 + u32::from(!self.is(Fault::FromZero)));
        }
        let order = Order::answered(if n == m {
            SAME
        } else if n < m {
            FIRST_START
        } else {
            SECOND_START
        });
        if self.is(Fault::Exchanged) {
            order.exchanged()
        } else {
            order
        }
    }
}

impl Side for StandIn {
    fn name(&self) -> String {
        self.fault.map_or("definitions".to_string(), |fault| format!("{fault:?}"))
    }

    fn order(&self, first: (Sender, &[u8]), second: (Sender, &[u8]), series: u16) -> Order {
        self.of(first, second, series)
    }

    fn box_order(&self, first: (Boxed, &[u8]), second: (Boxed, &[u8]), series: u16) -> Order {
        self.of((End::Box(first.0).sender(), first.1), (End::Box(second.0).sender(), second.1), series)
    }

    fn box_order_with(&self, first: (Boxed, &[u8]), second: (Sender, &[u8]), series: u16) -> Order {
        self.of((End::Box(first.0).sender(), first.1), second, series)
    }
}
