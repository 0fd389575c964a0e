//! What counts of a list with keeps and returns (document 02, No. 13), by the request's words: the messages and reports
//! up to the keeping, earlier returns likewise, followed by those after the return; and on it demand 3's first half and
//! No. 12's numbers. It is read off the list of what happened alone.

use crate::history::Flow;
use std::collections::{BTreeMap, BTreeSet};

/// What a call of the receiving end came to; refused calls came to nothing.
pub enum Happened {
    /// A message handed on: its number, TID and content.
    HandedOn(Flow, u32, u32, Vec<u8>),
    Reported(Flow, u32),
    Kept(Vec<u8>),
    Back(Vec<u8>),
}

/// The places in the list of what counts of it, in order. Of a list and one more that is no return: what counts of the
/// list, and this one. Of a list and a return: what counts of its part up to the last keeping under the name, this one
/// included.
pub fn effective(all: &[Happened]) -> Result<Vec<usize>, String> {
    let Some((last, before)) = all.split_last() else { return Ok(vec![]) };
    if let Happened::Back(name) = last {
        let kept = before.iter().rposition(|one| matches!(one, Happened::Kept(of) if of == name));
        let kept = kept.ok_or_else(|| format!("a return to {name:?}, which was never kept"))?;
        return effective(&all[..=kept]);
    }
    let mut counts = effective(before)?;
    counts.push(before.len());
    Ok(counts)
}

/// What counts, by series and day: the messages handed on, and the last number reported.
#[derive(Default)]
pub struct Counted<'a> {
    pub handed_on: BTreeMap<Flow, Vec<(u32, u32, &'a [u8])>>,
    pub reports: BTreeMap<Flow, u32>,
}

pub fn counted(all: &[Happened]) -> Result<Counted<'_>, String> {
    let mut counted = Counted::default();
    for place in effective(all)? {
        match &all[place] {
            Happened::HandedOn(flow, number, tid, content) => {
                counted.handed_on.entry(*flow).or_default().push((*number, *tid, content));
            }
            Happened::Reported(flow, last) => _ = counted.reports.insert(*flow, *last),
            Happened::Kept(_) | Happened::Back(_) => {}
        }
    }
    Ok(counted)
}

impl Counted<'_> {
    /// For each series and day, handed on are the first n published, n the last number reported, and their numbers are
    /// 1 to n. Published is counted of the whole list.
    pub fn agrees(&self, published: &BTreeMap<Flow, Vec<(u32, Vec<u8>)>>) -> Result<(), String> {
        let flows: BTreeSet<&Flow> = self.handed_on.keys().chain(self.reports.keys()).collect();
        for flow in flows {
            let n = self.reports.get(flow).copied().unwrap_or(0);
            let handed_on = self.handed_on.get(flow).map_or(&[][..], |all| all);
            let first = published.get(flow).map_or(&[][..], |all| all).get(..n as usize);
            let same = first.is_some_and(|first| {
                first.iter().map(|(tid, content)| (*tid, &content[..])).eq(handed_on.iter().map(|one| (one.1, one.2)))
            });
            if !same || !handed_on.iter().map(|one| one.0).eq(1..=n) {
                let numbers: Vec<u32> = handed_on.iter().map(|one| one.0).collect();
                return Err(format!("demand 3, of what counts: {n} reported of {flow:?}, handed on {numbers:?}"));
            }
        }
        Ok(())
    }
}
