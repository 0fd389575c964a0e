//! Reserves and entries about their limits in the lists of calls (document 02, No. 11).

use super::{plain, Lists, STRANGE};
use reader::generate::Random;

/// A content of so many bytes, in fields of any lengths; none where there is no such content.
fn sized(mut length: usize) -> Option<Vec<u8>> {
    let mut content = vec![];
    if length > 32_768 || (1..6).contains(&length) {
        return None;
    }
    while length > 4080 {
        // What is left is a field.
        content.extend(plain(4000));
        length -= 4006;
    }
    if length > 0 {
        content.extend(plain(length - 6));
    }
    Some(content)
}

/// Parts of so many bytes, in any order.
fn parts(r: &mut Random, count: usize, mut bytes: usize) -> Vec<usize> {
    let mut all = vec![];
    for i in 0..count {
        let one = match r.below(3) {
            _ if i + 1 == count => bytes,
            0 => 0,
            1 => bytes / 2,
            _ => r.below(bytes + 1),
        };
        bytes -= one;
        all.push(one);
    }
    r.shuffle(&mut all);
    all
}

/// A reserve that no log has: about the type's limit, and such that some of them wrap.
fn beyond(r: &mut Random) -> usize {
    r.pick(&[usize::MAX, usize::MAX - 1, 1 << 63, (1 << 63) + 50, 1 << 62, 1 << 61, 1 << 32, 0, 1])
}

/// Any number of an account: what no call leaves too.
pub(super) fn any_bytes(r: &mut Random, log: usize) -> usize {
    match r.below(3) {
        0 => beyond(r),
        1 => log.wrapping_add(r.below(3)).wrapping_sub(1),
        _ => r.below(log + 40),
    }
}

/// Reserves for so many series and a log of so many bytes: none, all of it, a byte more, a part of it, beyond all logs; sometimes
/// not as many as there are series.
pub(crate) fn some_reserves(r: &mut Random, count: usize, log: usize) -> Vec<usize> {
    let mut all = match r.below(20) {
        0..=5 => vec![0; count],
        6..=7 => parts(r, count, log),
        8 => parts(r, count, log + 1),
        9 => (0..count).map(|_| beyond(r)).collect(),
        // So few that they are used up.
        10..=15 => {
            let some = r.below(400);
            parts(r, count, some.min(log))
        }
        _ => {
            let some = r.below(log + 1);
            parts(r, count, some)
        }
    };
    match r.below(40) {
        0 => all.push(0),
        1 => _ = all.pop(),
        _ => {}
    }
    all
}

impl Lists {
    /// A publication on accounts that no call left: any numbers, two reserves whose sum passes the type, bytes used that the entry
    /// would bring beyond it. Then the accounts are put back.
    pub(super) fn any_accounts(&mut self, r: &mut Random) -> Result<(), String> {
        let length = self.world.logs[0].len();
        let Some(day) = &mut self.world.serving.day else { return Ok(()) };
        let (before, place) = (day.open, r.below(day.open.len()));
        let half = 1 << 63;
        match r.below(4) {
            0 => day.open[place].reserve = any_bytes(r, length),
            1 => day.open[place].used = any_bytes(r, length),
            2 => day.open[place].used = usize::MAX - r.below(60),
            _ => {
                let other = r.below(day.open.len());
                (day.open[place].reserve, day.open[other].reserve) = (half, half + r.below(60));
            }
        }
        self.world.level();
        self.publish(r)?;
        if let Some(day) = &mut self.world.serving.day {
            for (one, was) in day.open.iter_mut().zip(before.iter()) {
                (one.reserve, one.used) = (was.reserve, was.used);
            }
        }
        self.world.level();
        Ok(())
    }

    /// A content whose entry just keeps its series within its reserve, or within what the others' shares leave of the log; or a
    /// byte more.
    pub(super) fn at_the_limit(&self, r: &mut Random, series: u16) -> Option<(u32, Vec<u8>)> {
        let day = self.world.serving.day?;
        let own = day.open.iter().find(|one| one.series == series)?;
        let others = day.open.iter().filter(|one| one.series != series);
        let others: u128 = others.map(|one| one.used.max(one.reserve) as u128).sum();
        let left = (self.world.logs[0].len() as u128).checked_sub(others)?.checked_sub(own.used as u128)? as usize;
        let entry = match r.below(4) {
            0 => own.reserve.checked_sub(own.used)?,
            1 => own.reserve.checked_sub(own.used)?.checked_add(1)?,
            2 => left,
            _ => left + 1,
        };
        Some((STRANGE, sized(entry.checked_sub(16)?)?))
    }
}
