//! Two sides timed in turn. Times are processor time of this thread.

use std::hint::black_box;

#[repr(C)]
struct Time {
    seconds: i64,
    nanoseconds: i64,
}

extern "C" {
    fn clock_gettime(clock: i32, time: *mut Time) -> i32;
}

/// Processor time of this thread, in milliseconds (Linux).
pub fn now() -> f64 {
    const CLOCK_THREAD_CPUTIME_ID: i32 = 3;
    let mut time = Time { seconds: 0, nanoseconds: 0 };
    assert_eq!(unsafe { clock_gettime(CLOCK_THREAD_CPUTIME_ID, &mut time) }, 0);
    time.seconds as f64 * 1e3 + time.nanoseconds as f64 / 1e6
}

pub struct Bench {
    pub runs: usize,
    pub passes: usize,
    /// A work and a side, `NAME/library` or `NAME/reader`: one pass of it alone.
    pub only: Option<String>,
}

impl Bench {
    /// `[RUNS [PASSES [ONLY]]]`.
    pub fn by_arguments() -> Self {
        let words: Vec<String> = std::env::args().skip(1).collect();
        let number = |i: usize, or: usize| words.get(i).map_or(or, |word| word.parse().expect("a number"));
        Bench { runs: number(0, 5), passes: number(1, 21), only: words.get(2).cloned() }
    }

    /// Library and reader.
    pub fn compare(&self, name: &str, library: impl FnMut() -> u64, reader: impl FnMut() -> u64) {
        self.compare_as(name, ["library", "reader"], library, reader);
    }

    /// Times two sides that answer the same number, so that no work can be left out.
    pub fn compare_as(
        &self,
        name: &str,
        [first, second]: [&str; 2],
        mut library: impl FnMut() -> u64,
        mut reader: impl FnMut() -> u64,
    ) {
        match self.only.as_deref() {
            // One pass of one side, for a profile.
            Some(only) if only == format!("{name}/{first}") => {
                black_box(library());
                return;
            }
            Some(only) if only == format!("{name}/{second}") => {
                black_box(reader());
                return;
            }
            Some(_) => return,
            None => {}
        }
        assert_eq!(library(), reader(), "{name}: both sides give the same");
        let time = |side: &mut dyn FnMut() -> u64| {
            let start = now();
            black_box(side());
            now() - start
        };
        let (mut bests, mut medians) = (vec![], vec![]);
        let (mut library_best, mut reader_best) = (f64::MAX, f64::MAX);
        for _ in 0..self.runs {
            let (mut ours, mut theirs) = (vec![], vec![]);
            for _ in 0..self.passes {
                ours.push(time(&mut library));
                theirs.push(time(&mut reader));
            }
            ours.sort_by(f64::total_cmp);
            theirs.sort_by(f64::total_cmp);
            bests.push(theirs[0] / ours[0]);
            medians.push(theirs[theirs.len() / 2] / ours[ours.len() / 2]);
            library_best = library_best.min(ours[0]);
            reader_best = reader_best.min(theirs[0]);
        }
        bests.sort_by(f64::total_cmp);
        medians.sort_by(f64::total_cmp);
        let spread = |r: &[f64]| format!("{:.2} ({:.2} to {:.2})", r[r.len() / 2], r[0], r[r.len() - 1]);
        println!(
            "{name:<24} {first} {library_best:8.3} ms, {second} {reader_best:8.3} ms; ratio of bests {}, of medians {}",
            spread(&bests),
            spread(&medians)
        );
    }
}
