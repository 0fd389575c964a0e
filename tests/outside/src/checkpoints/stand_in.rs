//! The definitions in the library's place, on the numbers that are lent. With a fault it is one of the wrong programs,
//! for the tests of the tests.

use super::{code, Checkpoint, Checkpoints, KeptStep, Returned, Series, Side};
use crate::ends::{Kept, Receiver};
use reader::checkpoints::{MOST_LETTERS, MOST_NAMES};

/// A wrong program.
#[derive(Clone, Copy, Debug, PartialEq, Eq)]
pub enum Fault {
    /// A return keeps the login.
    LoginKept,
    /// A return keeps the chain.
    ChainKept,
    /// The last number comes back, the mark stays.
    LastAlone,
    /// The mark comes back, the last number stays.
    MarkAlone,
    /// What was kept before the opening brings nothing back.
    OpenedSince,
    /// Keeping under a used name leaves what was there.
    NotReplaced,
    /// A series is brought back only where it doesn't go down.
    OnlyUp,
    /// The first series alone is kept.
    FirstSeries,
    /// A return is to the first place, whatever its name.
    FirstPlace,
    /// Only the first seven letters of a name are compared.
    SevenLetters,
    /// A series that wasn't open when it was kept stays as it is.
    OthersStay,
    /// By the series' places in the opening, not by their numbers.
    ByPlace,
    /// 32 for a used name, too.
    FifthUsed,
    /// A fifth name takes the first place.
    FifthReplaces,
    /// 32 and 33 before 31.
    WrongLast,
    /// A name may have no letter.
    NoLetter,
    /// A name may have nine letters, of which eight count.
    NineLetters,
    /// '@' and '[' are letters.
    BesideLetters,
    /// Lower case is as upper case.
    LowerCase,
    /// Of equal names the last place counts.
    LastOfEqual,
    /// A count above 4 is none.
    CountAbove,
    /// A kept count above 8 is none.
    KeptAbove,
    /// Flags come back as they were lent.
    FlagsStay,
    /// A refused keeping takes a place.
    RefusedCounts,
    /// A refused return clears the logins.
    RefusedClears,
}

pub const FAULTS: [Fault; 25] = [
    Fault::LoginKept,
    Fault::ChainKept,
    Fault::LastAlone,
    Fault::MarkAlone,
    Fault::OpenedSince,
    Fault::NotReplaced,
    Fault::OnlyUp,
    Fault::FirstSeries,
    Fault::FirstPlace,
    Fault::SevenLetters,
    Fault::OthersStay,
    Fault::ByPlace,
    Fault::FifthUsed,
    Fault::FifthReplaces,
    Fault::WrongLast,
    Fault::NoLetter,
    Fault::NineLetters,
    Fault::BesideLetters,
    Fault::LowerCase,
    Fault::LastOfEqual,
    Fault::CountAbove,
    Fault::KeptAbove,
    Fault::FlagsStay,
    Fault::RefusedCounts,
    Fault::RefusedClears,
];

impl Fault {
    /// Is it shut out by demand 3 on what counts, without a comparison of each answer?
    pub fn by_demand(self) -> bool {
        use Fault::*;
        matches!(
            self,
            LoginKept
                | LastAlone
                | MarkAlone
                | OpenedSince
                | NotReplaced
                | OnlyUp
                | FirstSeries
                | FirstPlace
                | SevenLetters
                | OthersStay
        )
    }
}

/// The definitions, right or with a fault.
#[derive(Default)]
pub struct StandIn {
    pub fault: Option<Fault>,
}

/// A series' part of a checkpoint, as it comes back.
pub(super) fn normal(one: Series) -> Series {
    let dated = u8::from(one.dated != 0);
    Series { date: if dated == 0 { 0 } else { one.date }, dated, ..one }
}

/// What a checkpoint keeps of a series of an end.
pub(super) fn kept_of(one: &Kept) -> Series {
    normal(Series { date: one.date, last: one.last, series: one.series, dated: one.dated })
}

/// A series of an end, as it comes back where nothing is changed.
pub(super) fn unchanged(one: Kept) -> Kept {
    let Series { date, dated, .. } = kept_of(&one);
    Kept { date, dated, login: u8::from(one.login != 0), chain: u8::from(one.chain != 0), ..one }
}

impl StandIn {
    fn is(&self, fault: Fault) -> bool {
        self.fault == Some(fault)
    }

    fn wrong_name(&self, name: &[u8]) -> bool {
        let (first, last) = if self.is(Fault::BesideLetters) { (b'@', b'[') } else { (b'A', b'Z') };
        let lower = |byte: u8| self.is(Fault::LowerCase) && byte.is_ascii_lowercase();
        let most = MOST_LETTERS + usize::from(self.is(Fault::NineLetters));
        name.is_empty() && !self.is(Fault::NoLetter)
            || name.len() > most
            || !name.iter().all(|&byte| (first..=last).contains(&byte) || lower(byte))
    }

    fn code(&self, name: &[u8]) -> u64 {
        let most = if self.is(Fault::SevenLetters) { 7 } else { MOST_LETTERS };
        let name = &name[..name.len().min(most)];
        code(&if self.is(Fault::LowerCase) { name.to_ascii_uppercase() } else { name.to_vec() })
    }

    /// How many names are in use.
    fn used(&self, of: &Checkpoints) -> usize {
        match of.count {
            count if count > MOST_NAMES && self.is(Fault::CountAbove) => 0,
            count => count.min(MOST_NAMES),
        }
    }

    fn find(&self, of: &Checkpoints, name: u64) -> Option<usize> {
        let mut names = of.places[..self.used(of)].iter();
        if self.is(Fault::LastOfEqual) {
            return names.rposition(|one| one.name == name);
        }
        names.position(|one| one.name == name)
    }

    fn normal(&self, mut of: Checkpoints) -> Checkpoints {
        for one in of.places.iter_mut().flat_map(|place| &mut place.series) {
            *one = if self.is(Fault::FlagsStay) { *one } else { normal(*one) };
        }
        of
    }

    fn kept(&self, of: &mut Checkpoints, end: &Receiver, name: &[u8]) -> u8 {
        let (code, wrong) = (self.code(name), self.wrong_name(name));
        if wrong && !self.is(Fault::WrongLast) {
            if self.is(Fault::RefusedCounts) && of.count < MOST_NAMES {
                of.count += 1;
            }
            return 31;
        }
        let place = match self.find(of, code) {
            Some(_) if self.is(Fault::FifthUsed) && of.count >= MOST_NAMES => return 32,
            Some(_) if self.is(Fault::NotReplaced) => return 0,
            Some(place) => place,
            None if of.count >= MOST_NAMES && self.is(Fault::FifthReplaces) => 0,
            None if of.count >= MOST_NAMES => return 32,
            None if wrong => return 31,
            None => {
                of.count += 1;
                of.count - 1
            }
        };
        let mut series = end.series.each_ref().map(kept_of);
        if self.is(Fault::FirstSeries) {
            for one in &mut series[1..] {
                (one.date, one.dated, one.last) = (0, 0, 0);
            }
        }
        of.places[place] = Checkpoint { name: code, count: end.count, series };
        0
    }

    /// A series with what was kept of it.
    fn brought_back(&self, place: &Checkpoint, i: usize, one: &Kept) -> Kept {
        let count = if self.is(Fault::KeptAbove) && place.count > place.series.len() { 0 } else { place.count };
        let now = kept_of(one);
        let found = match self.fault {
            Some(Fault::ByPlace) => place.series.iter().take(count).nth(i),
            _ => place.series.iter().take(count).find(|then| then.series == one.series),
        };
        let mut then = found.copied().map_or(Series::default(), normal);
        match self.fault {
            Some(Fault::LastAlone) => (then.date, then.dated) = (now.date, now.dated),
            Some(Fault::MarkAlone) => then.last = now.last,
            Some(Fault::OpenedSince) if count == 0 => then = now,
            Some(Fault::OthersStay) if found.is_none() => then = now,
            Some(Fault::OnlyUp) if (then.dated, then.date, then.last) < (now.dated, now.date, now.last) => then = now,
            _ => {}
        }
        let mut left =
            Kept { series: one.series, date: then.date, dated: then.dated, last: then.last, ..Kept::default() };
        if self.is(Fault::LoginKept) {
            left.login = u8::from(one.login != 0);
        }
        if self.is(Fault::ChainKept) && one.chain != 0 {
            (left.chain, left.tid, left.held, left.pieces) = (1, one.tid, one.held, one.pieces);
        }
        left
    }
}

impl Side for StandIn {
    fn name(&self) -> String {
        self.fault.map_or("definitions".to_string(), |fault| format!("{fault:?}"))
    }

    fn fresh(&self) -> Checkpoints {
        Checkpoints::default()
    }

    fn keep(&self, of: Checkpoints, end: Receiver, name: &[u8]) -> KeptStep {
        let mut checkpoints = self.normal(of);
        let refusal = self.kept(&mut checkpoints, &end, name);
        KeptStep { checkpoints, refusal }
    }

    fn back(&self, of: Checkpoints, mut end: Receiver, name: &[u8]) -> Returned {
        let found = if self.is(Fault::FirstPlace) {
            (self.used(&of) > 0).then_some(0)
        } else {
            self.find(&of, self.code(name))
        };
        let refusal = match found {
            None if self.is(Fault::WrongLast) => 33,
            _ if self.wrong_name(name) => 31,
            None => 33,
            Some(_) => 0,
        };
        let lent = end.series;
        for (i, one) in end.series.iter_mut().enumerate() {
            *one = match found.filter(|_| refusal == 0) {
                Some(place) => self.brought_back(&of.places[place], i, &lent[i]),
                None => unchanged(*one),
            };
            if refusal != 0 && self.is(Fault::RefusedClears) {
                one.login = 0;
            }
        }
        Returned { end, refusal }
    }
}
