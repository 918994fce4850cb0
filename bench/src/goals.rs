//! Growth and goals of a run of the benchmark.

use crate::automaton::MODES;
use crate::families::Family;
use crate::row::{digits, Compared, Row};

const RATIO: f64 = 1.0;
const QUARTER: f64 = 0.25;
const SECONDS: f64 = 5.0;
const POWER: f64 = 4.5;

/// The size that the goals are about, and the one that growth is measured from.
const FULL_SIZE: usize = 64;
const HALF_SIZE: usize = 32;

/// Families with every or nearly every move, or with many letters.
fn dense_or_many_letters(family: &Family) -> bool {
    family.k == 16 || family.name == "full"
}

fn grows(family: &Family) -> bool {
    ["full", "ladder", "lock"].contains(&family.name)
}

/// The power of n by which the library's time grows from half the size to the full one.
struct Growth<'a> {
    half: &'a Row,
    full: &'a Row,
}

impl Growth<'_> {
    fn power(&self) -> f64 {
        (self.full.library / self.half.library).log2()
    }
}

fn growths(rows: &[Row]) -> Vec<Growth<'_>> {
    let same = |a: &Row, b: &Row| std::ptr::eq(a.family, b.family) && a.mode == b.mode;
    let halves: Vec<&Row> = rows.iter().filter(|r| r.n == HALF_SIZE && grows(r.family)).collect();
    rows.iter()
        .filter(|r| r.n == FULL_SIZE)
        .filter_map(|full| Some(Growth { half: halves.iter().find(|half| same(half, full))?, full }))
        .collect()
}

pub fn print_growth(rows: &[Row]) {
    println!("| family | k | mode | n = {HALF_SIZE}, s | n = {FULL_SIZE}, s | power |");
    println!("|---|---|---|---|---|---|");
    for g in growths(rows) {
        println!(
            "| {} | {} | {} | {} | {} | {:.2} |",
            g.full.family.name,
            g.full.family.k,
            MODES[g.full.mode as usize],
            digits(g.half.library),
            digits(g.full.library),
            g.power(),
        );
    }
}

/// One goal: of the rows' values, none may be above the limit. A value that is only bounded, as the ratio where
/// Figure 2 was not done, and whose bound is above it decides nothing.
fn print_goal(what: &str, limit: f64, values: &[(String, f64, bool)]) {
    let above = |exact: bool| -> Vec<String> {
        let rows = values.iter().filter(|v| v.1 > limit && v.2 == exact);
        rows.map(|(name, x, _)| format!("{name} {}", digits(*x))).collect()
    };
    let (missed, open) = (above(true), above(false));
    let verdict = match (values.iter().max_by(|a, b| a.1.total_cmp(&b.1)), missed.is_empty(), open.is_empty()) {
        (None, _, _) => "not run".into(),
        (Some((name, x, _)), true, true) => format!("met by all {} rows; the greatest is {name} {}", values.len(), digits(*x)),
        (_, false, _) => format!("MISSED by {} of {} rows: {}", missed.len(), values.len(), missed.join(", ")),
        _ => format!("not decided, since Figure 2 was not done: {}", open.join(", ")),
    };
    println!("- {what}: {verdict}.");
}

pub fn print_goals(rows: &[Row]) {
    let full: Vec<&Row> = rows.iter().filter(|r| r.n == FULL_SIZE).collect();
    let ratio = |r: &&Row| (r.name(), r.ratio(), r.figure2.is_ok());
    let ratios: Vec<_> = full.iter().map(ratio).collect();
    let dense: Vec<_> = full.iter().filter(|r| dense_or_many_letters(r.family)).map(ratio).collect();
    let times: Vec<_> = rows.iter().map(|r| (format!("{} n{}", r.name(), r.n), r.library, true)).collect();
    let powers: Vec<_> = growths(rows).iter().map(|g| (g.full.name(), g.power(), true)).collect();
    print_goal(&format!("Ratio at most {RATIO} at n = {FULL_SIZE}"), RATIO, &ratios);
    print_goal(
        &format!("Ratio at most {QUARTER} at n = {FULL_SIZE} on the dense and many-letter families, which are full (k 4 and 16), random k 16, ladder_dense and lock_dense"),
        QUARTER,
        &dense,
    );
    print_goal(&format!("No library time above {SECONDS} s"), SECONDS, &times);
    print_goal(
        &format!("Growth from n = {HALF_SIZE} to {FULL_SIZE} below the power {POWER} on full, ladder and lock"),
        POWER,
        &powers,
    );
}

/// How many tables and counts were compared, and with what.
pub fn print_compared(rows: &[Row]) {
    for (what, of) in [("tables", (|r| r.table) as fn(&Row) -> Compared), ("counts", |r| r.count)] {
        let how_many = |c: Compared| rows.iter().filter(|r| of(r) == c).count();
        let same: Vec<String> = ["Figure 2", "naive", "counted"]
            .map(|name| (name, how_many(Compared::Same(name))))
            .iter()
            .filter(|(_, count)| *count > 0)
            .map(|(name, count)| format!("{count} are those of {name}"))
            .collect();
        let differ = rows.iter().filter(|r| matches!(of(r), Compared::Differs(_))).count();
        println!("- Of {} {what}, {}; {differ} differ, {} were not compared.", rows.len(), same.join(", "), how_many(Compared::NotRun));
    }
}
