//! Figure 2 of the SIAM paper: lifting with a list of pending positions, first in first out, with the best
//! neighbour measure B of each position and, for Duplicator's, the count C of neighbours that have it.
//!
//! It departs from the paper in three things. Document 01 has dead ends and positions whose entry is fixed: those
//! that are lost begin in the list, and those that are idle never enter it. Modes 0 and 1 are played by it too,
//! with T = 1. And the edges are not stored one by one: those of a position are a row of offsets that depends on
//! one state (and letter) of the automaton, so all rows stay in the cache. Building them is part of `settle`.

use crate::automaton::Automaton;
use crate::clock;
use crate::pending::Pending;

/// What a run gave; `lifts` counts the entries written.
pub struct Outcome {
    pub table: Vec<u32>,
    pub lifts: u64,
}

/// Rows of offsets, one after the other.
struct Rows {
    begin: Vec<u32>,
    offset: Vec<u32>,
}

/// Rows and offsets.
type Pairs = Vec<(u32, u32)>;

fn put(pairs: &mut Pairs, row: usize, offset: usize) {
    pairs.push((row as u32, offset as u32));
}

impl Rows {
    /// The offsets of each row, in the order in which they come.
    fn new(count: usize, pairs: Pairs) -> Rows {
        let mut begin = vec![0u32; count + 1];
        for &(row, _) in &pairs {
            begin[row as usize + 1] += 1;
        }
        for row in 0..count {
            begin[row + 1] += begin[row];
        }
        let mut next = begin.clone();
        let mut offset = vec![0u32; pairs.len()];
        for (row, o) in pairs {
            let place = &mut next[row as usize];
            offset[*place as usize] = o;
            *place += 1;
        }
        Rows { begin, offset }
    }

    #[inline]
    fn row(&self, row: usize) -> &[u32] {
        &self.offset[self.begin[row] as usize..self.begin[row + 1] as usize]
    }
}

/// The four kinds of rows, at b and a state, or at b, a state and a letter.
struct Edges {
    /// From Spoiler's (b, q, ·) to the place of (b', r, 0, a) among Duplicator's.
    ahead_spoiler: Rows,
    /// From Duplicator's (b, ·, q', a) to Spoiler's (b', 0, r').
    ahead_duplicator: Rows,
    /// Before Spoiler's (b', ·, r'): the places of (b, 0, q', a) among Duplicator's.
    behind_spoiler: Rows,
    /// Before Duplicator's (b', r, ·, a): Spoiler's (b, q, 0).
    behind_duplicator: Rows,
}

impl Edges {
    fn of(auto: &Automaton, mode: u8) -> Edges {
        let (n, k, planes) = (auto.n, auto.k, auto.planes(mode));
        let owed = |b: usize, r: usize| if mode == 2 && auto.accepts(r) { 1 } else { b };
        let met = |b: usize, r: usize| if mode == 2 && auto.accepts(r) { 0 } else { b };
        let list = || Pairs::with_capacity(planes * auto.moves.len() / 3);
        let (mut ahead_s, mut ahead_d, mut behind_s, mut behind_d) = (list(), list(), list(), list());
        let mut targets = list();
        for (q, a, r) in auto.steps() {
            put(&mut targets, r, q * k + a);
            for b in 0..planes {
                put(&mut behind_d, (owed(b, r) * n + r) * k + a, (b * n + q) * n);
                put(&mut ahead_d, (b * n + q) * k + a, met(b, r) * n * n + r);
                put(&mut behind_s, met(b, r) * n + r, (b * n * n + q) * k + a);
            }
        }
        // by target: the entries that Spoiler reads for one target's letters lie side by side
        let by_target = Rows::new(n, targets);
        for r in 0..n {
            for &from in by_target.row(r) {
                let (q, a) = (from as usize / k, from as usize % k);
                for b in 0..planes {
                    put(&mut ahead_s, b * n + q, (owed(b, r) * n + r) * n * k + a);
                }
            }
        }
        let rows = planes * n;
        Edges {
            ahead_spoiler: Rows::new(rows, ahead_s),
            ahead_duplicator: Rows::new(rows * k, ahead_d),
            behind_spoiler: Rows::new(rows, behind_s),
            behind_duplicator: Rows::new(rows * k, behind_d),
        }
    }
}

/// How a Spoiler's position makes its entry of the greatest one step on.
#[derive(Clone, Copy, PartialEq)]
enum Kind {
    High,
    Counting,
    Resetting,
    Idle,
    Lost,
}

fn kind(auto: &Automaton, mode: u8, b: usize, q: usize, p: usize) -> Kind {
    let (red, blue) = (auto.accepts(q), auto.accepts(p));
    match mode {
        0 => Kind::High,
        1 if red && !blue => Kind::Lost,
        1 => Kind::High,
        2 if b == 0 => Kind::Resetting,
        2 if blue => Kind::Idle,
        2 => Kind::Counting,
        _ if blue => Kind::Resetting,
        _ if red => Kind::Counting,
        _ => Kind::High,
    }
}

/// The least table at rest, or nothing if that takes more than `cap` seconds.
pub fn settle(auto: &Automaton, mode: u8, cap: f64) -> Option<Outcome> {
    let end = clock::now() + cap;
    let (n, k, planes, top) = (auto.n, auto.k, auto.planes(mode), auto.ceiling(mode));
    let spoilers = auto.spoilers(mode);
    let positions = auto.positions(mode);
    let edges = Edges::of(auto, mode);
    let mut kinds = Vec::with_capacity(spoilers);
    let mut rho = vec![0u32; positions];
    let mut best = vec![0u32; positions];
    let mut count = vec![0u8; positions - spoilers];
    let mut pending = Pending::new(positions);

    // B cut to the position's priority: one that resets heeds T alone, one whose entry is final nothing.
    for b in 0..planes {
        for q in 0..n {
            for p in 0..n {
                let v = kinds.len();
                let kind = kind(auto, mode, b, q, p);
                match kind {
                    Kind::High => {}
                    Kind::Resetting => best[v] = top - 1,
                    Kind::Idle => best[v] = top,
                    Kind::Counting | Kind::Lost => pending.put(v),
                }
                kinds.push(kind);
            }
        }
    }
    for b in 0..planes {
        for q in 0..n {
            for p in 0..n {
                for a in 0..k {
                    let w = ((b * n + q) * n + p) * k + a;
                    count[w] = edges.ahead_duplicator.row((b * n + p) * k + a).len() as u8;
                    if count[w] == 0 {
                        pending.put(spoilers + w);
                    }
                }
            }
        }
    }

    let (mut lifts, mut taken) = (0u64, 0u64);
    while let Some(v) = pending.take() {
        taken += 1;
        if taken % 65536 == 0 && clock::now() > end {
            return None;
        }
        let old = rho[v];
        if v < spoilers {
            let (row, p) = (v / n, v % n);
            let base = spoilers + p * k;
            let mut high = 0;
            for &o in edges.ahead_spoiler.row(row) {
                high = high.max(rho[base + o as usize]);
            }
            let kind = kinds[v];
            let new = match kind {
                Kind::High => high,
                Kind::Counting => (high + 1).min(top),
                Kind::Resetting => if high == top { top } else { 0 },
                Kind::Idle => 0,
                Kind::Lost => top,
            };
            best[v] = if new == top { top } else if kind == Kind::Resetting { top - 1 } else { high };
            if new == old {
                continue;
            }
            rho[v] = new;
            lifts += 1;
            let (b, q) = (row / n, row % n);
            let base = spoilers + q * n * k;
            for &o in edges.behind_spoiler.row(b * n + p) {
                let w = base + o as usize;
                if best[w] == old && !pending.has(w) {
                    if count[w - spoilers] == 1 {
                        pending.put(w);
                    } else {
                        count[w - spoilers] -= 1;
                    }
                }
            }
        } else {
            let w = v - spoilers;
            let (pair, a) = (w / k, w % k);
            let (row, p) = (pair / n, pair % n);
            let (b, q) = (row / n, row % n);
            let base = q * n;
            let (mut low, mut having) = (top, 0u8);
            for &o in edges.ahead_duplicator.row((b * n + p) * k + a) {
                let entry = rho[base + o as usize];
                if entry < low {
                    low = entry;
                    having = 1;
                } else if entry == low {
                    having += 1;
                }
            }
            best[v] = low;
            count[w] = having;
            if low == old {
                continue;
            }
            rho[v] = low;
            lifts += 1;
            for &o in edges.behind_duplicator.row(row * k + a) {
                let u = o as usize + p;
                if low > best[u] && !pending.has(u) {
                    pending.put(u);
                }
            }
        }
    }
    Some(Outcome { table: rho, lifts })
}
