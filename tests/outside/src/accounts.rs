//! What each series was promised of the log and what it used of it, from the answers alone, and the promise of document 02, No. 11
//! on it: where the log has had one length since the opening, an entry within its series' reserve is never refused 18.

use std::collections::BTreeMap;

/// Bytes of an entry besides its content.
const HEAD: usize = 16;

#[derive(Default)]
pub struct Accounts {
    /// Of the log since the opening.
    length: usize,
    /// By series: bytes used, and the reserve.
    series: BTreeMap<u16, (usize, usize)>,
    /// How many entries were within their reserve, how many of these when the log had no room left that wasn't reserved.
    pub within: u64,
    pub squeezed: u64,
    /// How many were refused 18 where the log still had the bytes.
    pub kept_out: u64,
}

impl Accounts {
    /// The ends are fresh: nothing is open.
    pub fn fresh(&mut self) {
        self.series.clear();
    }

    pub fn opened(&mut self, series: &[u16], reserves: &[usize], length: usize) {
        self.length = length;
        self.series = series.iter().zip(reserves).map(|(&one, &reserve)| (one, (0, reserve))).collect();
    }

    fn used(&self) -> usize {
        self.series.values().map(|one| one.0).sum()
    }

    fn shares(&self) -> usize {
        self.series.values().map(|&(used, reserve)| used.max(reserve)).sum()
    }

    /// The answer to a content that is published.
    pub fn published<T>(&mut self, series: u16, content: usize, answer: &Result<T, u8>) -> Result<(), String> {
        let (total, shares) = (self.used(), self.shares());
        let Some((used, reserve)) = self.series.get_mut(&series) else { return Ok(()) };
        let entry = HEAD + content;
        let within = *used + entry <= *reserve;
        match answer {
            Err(18) if within => {
                return Err(format!(
                    "the promise of No. 11: an entry of {entry} bytes of series {series} is refused 18, with {used} used of \
                     {reserve} reserved"
                ));
            }
            Err(18) => self.kept_out += u64::from(total + entry <= self.length),
            Err(_) => {}
            Ok(_) => {
                *used += entry;
                self.within += u64::from(within);
                self.squeezed += u64::from(within && shares == self.length);
            }
        }
        if self.shares() > self.length {
            return Err(format!(
                "the shares of all series pass the log, with an entry of {entry} bytes of series {series}"
            ));
        }
        Ok(())
    }
}
