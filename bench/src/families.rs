//! The families of the benchmark, each a function of its size and a seed.
//!
//! The seed draws random's moves and marks, and in all others the numbering of the states. Sweeps and
//! raises do not depend on the numbering: a sweep is Spoiler's half, then Duplicator's, each reading
//! only the other's entries.

use crate::automaton::{Automaton, Builder, Draw};

/// A family at given letters and seed, for any number of states from 8.
pub struct Family {
    pub name: &'static str,
    pub k: usize,
    pub seed: u64,
    pub build: fn(usize, usize, u64) -> Automaton,
}

impl Family {
    pub fn at(&self, n: usize) -> Automaton {
        (self.build)(n, self.k, self.seed)
    }
}

/// The families of the benchmark. Random with two letters mostly settles in some ten sweeps; its seed is one
/// whose automata climb to T in modes 2 and 3, with 32 states and with 64.
pub const FAMILIES: [Family; 9] = [
    Family { name: "full", k: 4, seed: 1, build: full },
    Family { name: "full", k: 16, seed: 1, build: full },
    Family { name: "random", k: 2, seed: 1164, build: random_fifth },
    Family { name: "random", k: 16, seed: 1, build: random_twentieth },
    Family { name: "chain", k: 1, seed: 1, build: chain },
    Family { name: "ladder", k: 3, seed: 1, build: ladder },
    Family { name: "lock", k: 2, seed: 1, build: lock },
    Family { name: "ladder_dense", k: 16, seed: 1, build: ladder_dense },
    Family { name: "lock_dense", k: 16, seed: 1, build: lock_dense },
];

/// Every move, no accepting state. In mode 2 all entries with b = 1 climb to T together.
pub fn full(n: usize, k: usize, seed: u64) -> Automaton {
    let mut b = Builder::new(n, k);
    for q in 0..n {
        for a in 0..k {
            for r in 0..n {
                b.step(q, a, r);
            }
        }
    }
    b.finish(seed)
}

/// Two targets for each state and letter, `accepting` states marked, all drawn.
pub fn random(n: usize, k: usize, accepting: usize, seed: u64) -> Automaton {
    let mut draw = Draw::new(seed ^ 0x72616e646f6d);
    let mut b = Builder::new(n, k);
    for q in draw.order(n).into_iter().take(accepting) {
        b.accept(q);
    }
    for q in 0..n {
        for a in 0..k {
            let r = draw.below(n);
            b.step(q, a, r);
            b.step(q, a, (r + 1 + draw.below(n - 1)) % n);
        }
    }
    b.finish(seed)
}

/// Random, one state in five accepting.
pub fn random_fifth(n: usize, k: usize, seed: u64) -> Automaton {
    random(n, k, (n / 5).max(1), seed)
}

/// Random, one state in twenty accepting.
pub fn random_twentieth(n: usize, k: usize, seed: u64) -> Automaton {
    random(n, k, (n / 20).max(1), seed)
}

/// A line n-1, n-2, .., 0 with a loop on 0, by every letter; only n-1 accepts, where no move leads.
/// With b = 1 no obligation is ever met: nearly half the table climbs to T, one a sweep.
pub fn chain(n: usize, k: usize, seed: u64) -> Automaton {
    let mut b = Builder::new(n, k);
    b.accept(n - 1);
    for a in 0..k {
        for q in 1..n {
            b.step(q, a, q - 1);
        }
        b.step(0, a, 0);
    }
    b.finish(seed)
}

/// Obligations that climb one after the other: in mode 2 about (n/3)² climbs to T, a sweep a raise.
///
/// Red stands on a rail x(i), which accepts; Blue on a rung y(j), which does not. By letter 0 Red stays,
/// and Blue stays or steps onto z(j), which accepts and meets the obligation. From z(j) letter 0 leads Blue
/// down to y(j-1) with a new obligation; from z(1) letter 1 leads Red down to x(i-1) and Blue up to the
/// last rung. So z(j) helps Blue only while the rung before (i,j) is not lost: (x(i), y(j)) climbs to T
/// after that one has, and the first climb begins because z(1) cannot answer x(1)'s letter 2. All other
/// answers lead Blue to `safe`, which accepts and loops on every letter.
fn ladder_on(b: &mut Builder, n: usize, k: usize) -> usize {
    let rungs = (n - 1) / 3;
    let rails = n - 1 - 2 * rungs;
    let x = |i: usize| i;
    let y = |j: usize| rails + j;
    let z = |j: usize| rails + rungs + j;
    let safe = n - 1;
    b.accept(safe);
    for a in 0..k {
        b.step(safe, a, safe);
    }
    for i in 0..rails {
        b.accept(x(i));
        b.step(x(i), 0, x(i));
        if i == 0 {
            b.step(x(i), 2, x(i));
        } else {
            b.step(x(i), 1, x(i - 1));
        }
    }
    for j in 0..rungs {
        b.accept(z(j));
        b.step(y(j), 0, y(j));
        b.step(y(j), 0, z(j));
        b.step(y(j), 1, safe);
        b.step(y(j), 2, safe);
        if j == 0 {
            b.step(z(j), 0, safe);
            b.step(z(j), 1, y(rungs - 1));
        } else {
            b.step(z(j), 0, y(j - 1));
            b.step(z(j), 1, safe);
            b.step(z(j), 2, safe);
        }
    }
    3
}

/// Two rings of coprime lengths walked in step: in mode 3 one climb to T, a lap of both rings a raise.
///
/// Red walks a ring of p states and Blue one of r states by letter 0; none of them accepts. By letter 1
/// Red closes its ring over a twin of its first state that accepts. Blue answers letter 1 by stepping to
/// `safe`, which accepts and loops on every letter, but for the last state of its ring, which must
/// close the ring too. So only every p·r rounds can Spoiler count one. A quarter of the states accepts, to
/// make T large.
fn lock_on(b: &mut Builder, n: usize, k: usize) -> usize {
    let marked = n / 4;
    let (p, r) = coprime(n - marked);
    let red = |i: usize| i % p;
    let blue = |j: usize| p + j % r;
    let twin = n - 2;
    let safe = n - 1;
    for q in n - marked..n {
        b.accept(q);
    }
    for a in 0..k {
        b.step(safe, a, safe);
    }
    for i in 0..p {
        b.step(red(i), 0, red(i + 1));
    }
    b.step(red(p - 1), 1, twin);
    b.step(twin, 0, red(1));
    for j in 0..r {
        b.step(blue(j), 0, blue(j + 1));
        b.step(blue(j), 1, if j == r - 1 { blue(0) } else { safe });
    }
    2
}

/// Two coprime numbers of the given sum, as near to each other as can be, the larger first.
fn coprime(sum: usize) -> (usize, usize) {
    fn gcd(a: usize, b: usize) -> usize {
        if b == 0 { a } else { gcd(b, a % b) }
    }
    let mut r = sum / 2;
    while gcd(sum - r, r) != 1 {
        r -= 1;
    }
    (sum - r, r)
}

/// Every move by the letters from `first` on. Blue can always answer them by stepping to the
/// family's safe state, so no entry of a position with an older letter changes.
fn idle(b: &mut Builder, n: usize, k: usize, first: usize) {
    for a in first..k {
        for q in 0..n - 1 {
            for r in 0..n {
                b.step(q, a, r);
            }
        }
    }
}

pub fn ladder(n: usize, k: usize, seed: u64) -> Automaton {
    let mut b = Builder::new(n, k);
    ladder_on(&mut b, n, k);
    b.finish(seed)
}

pub fn lock(n: usize, k: usize, seed: u64) -> Automaton {
    let mut b = Builder::new(n, k);
    lock_on(&mut b, n, k);
    b.finish(seed)
}

pub fn ladder_dense(n: usize, k: usize, seed: u64) -> Automaton {
    let mut b = Builder::new(n, k);
    let used = ladder_on(&mut b, n, k);
    idle(&mut b, n, k, used);
    b.finish(seed)
}

pub fn lock_dense(n: usize, k: usize, seed: u64) -> Automaton {
    let mut b = Builder::new(n, k);
    let used = lock_on(&mut b, n, k);
    idle(&mut b, n, k, used);
    b.finish(seed)
}
