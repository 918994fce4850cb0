//! One line of the benchmark: an automaton of a family in a mode, settled by the library, by Figure 2 and by the
//! naive sweep, with times, and with table and count compared.

use crate::automaton::MODES;
use crate::clock::timed;
use crate::families::Family;
use crate::{figure2, lucorphane, naive};
use std::hint::black_box;

/// Seconds that the others may take for one automaton and mode.
#[derive(Clone, Copy)]
pub struct Caps {
    pub figure2: f64,
    pub naive: f64,
    pub counted: f64,
}

/// The size up to which the plain naive sweep always runs to its end.
pub const ALWAYS_NAIVE: usize = 16;

/// Seconds, or the cap that was not enough.
pub type Seconds = Result<f64, f64>;

/// What came of a comparison.
#[derive(Clone, Copy, PartialEq)]
pub enum Compared {
    Same(&'static str),
    Differs(&'static str),
    NotRun,
}

pub struct Row {
    pub family: &'static Family,
    pub n: usize,
    pub mode: u8,
    pub library: f64,
    pub figure2: Seconds,
    pub naive: Seconds,
    pub sweeps: Option<u64>,
    pub raises: u64,
    pub table: Compared,
    pub count: Compared,
}

/// What `run` gives within the cap, and the seconds it takes: the best of three if that is under a second. A run of
/// less than 50 microseconds is repeated within the time taken, and the time divided.
fn best<T>(cap: f64, mut run: impl FnMut(f64) -> Option<T>) -> (Option<T>, Seconds) {
    let (out, first) = timed(|| run(cap));
    if out.is_none() {
        return (None, Err(cap));
    }
    if first > 1.0 {
        return (out, Ok(first));
    }
    let repeats = if first < 50e-6 { (1e-3 / first).ceil().min(1e5) as usize } else { 1 };
    let mut least = first;
    for _ in 0..2 {
        let ((), time) = timed(|| {
            for _ in 0..repeats {
                black_box(run(cap));
            }
        });
        least = least.min(time / repeats as f64);
    }
    (out, Ok(least))
}

fn compared<T: PartialEq>(name: &'static str, ours: T, theirs: T) -> Compared {
    if ours == theirs { Compared::Same(name) } else { Compared::Differs(name) }
}

impl Row {
    pub fn run(family: &'static Family, n: usize, mode: u8, caps: Caps) -> Row {
        let auto = family.at(n);
        let lent = lucorphane::Automaton {
            n: n as u64,
            k: auto.k as u64,
            start: auto.start as u64,
            accept: &auto.accept,
            moves: &auto.moves,
        };
        let mut table = vec![0; auto.positions(mode)];
        let (Some(raises), Ok(library)) = best(f64::INFINITY, |_| lent.settle(mode.into(), &mut table).ok()) else {
            panic!("a sound automaton was refused");
        };
        let (fast, figure2) = best(caps.figure2, |cap| figure2::settle(&auto, mode, cap));
        let always = n <= ALWAYS_NAIVE;
        let cap = if always { f64::INFINITY } else { caps.naive };
        let (plain, naive) = best(cap, |cap| naive::settle(&auto, mode, cap));
        let counted = || naive::counted(&auto, mode, caps.counted);
        assert!(!always || plain == counted(), "the two naive runs differ");
        let (name, swept) = if plain.is_some() { ("naive", plain) } else { ("counted", counted()) };
        let count = swept.as_ref().map_or(Compared::NotRun, |s| compared(name, raises, s.raises));
        let table = match (&fast, &swept) {
            (Some(fast), _) => compared("Figure 2", &table, &fast.table),
            (None, Some(swept)) => compared(name, &table, &swept.table),
            (None, None) => Compared::NotRun,
        };
        let sweeps = swept.map(|s| s.sweeps);
        Row { family, n, mode, library, figure2, naive, sweeps, raises, table, count }
    }

    pub fn differs(&self) -> bool {
        [self.table, self.count].iter().any(|c| matches!(c, Compared::Differs(_)))
    }

    /// The library's time by Figure 2's; a bound from above if Figure 2 did not come to its end.
    pub fn ratio(&self) -> f64 {
        let (Ok(time) | Err(time)) = self.figure2;
        self.library / time
    }

    pub fn name(&self) -> String {
        format!("{} k{} {}", self.family.name, self.family.k, MODES[self.mode as usize])
    }

    pub const HEAD: &'static str = "\
| n | family | k | mode | library s | Figure 2 s | ratio | naive s | sweeps | raises | table | count |
|---|---|---|---|---|---|---|---|---|---|---|---|";

    pub fn line(&self) -> String {
        let below = if self.figure2.is_err() { "< " } else { "" };
        format!(
            "| {} | {} | {} | {} | {} | {} | {below}{} | {} | {} | {} | {} | {} |",
            self.n,
            self.family.name,
            self.family.k,
            MODES[self.mode as usize],
            digits(self.library),
            seconds(self.figure2),
            digits(self.ratio()),
            seconds(self.naive),
            self.sweeps.map_or("?".into(), |sweeps| sweeps.to_string()),
            self.raises,
            told(self.table),
            told(self.count),
        )
    }
}

/// A number with three digits that count.
pub fn digits(x: f64) -> String {
    let places = if x > 0.0 { 2 - x.log10().floor() as i32 } else { 0 };
    format!("{x:.*}", places.clamp(0, 9) as usize)
}

fn seconds(time: Seconds) -> String {
    match time {
        Ok(time) => digits(time),
        Err(cap) => format!("> {cap}"),
    }
}

fn told(c: Compared) -> String {
    match c {
        Compared::Same(name) => format!("= {name}"),
        Compared::Differs(name) => format!("DIFFERS from {name}"),
        Compared::NotRun => "not run".into(),
    }
}
