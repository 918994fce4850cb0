//! The defined settle: clear, then sweep the positions in ascending order until a whole sweep raises nothing.
//!
//! `settle` lifts every position in every sweep, along rows of moves. `counted` leaves out those none of
//! whose successors rose since their last lift, which are at rest: same table, same raises, same sweeps.

use crate::automaton::Automaton;
use crate::clock;

/// What a run gave, the last sweep, which raises nothing, counted.
#[derive(PartialEq, Eq)]
pub struct Outcome {
    pub table: Vec<u32>,
    pub raises: u64,
    pub sweeps: u64,
}

/// The game of an automaton in a mode, with its moves by state and by state and letter.
struct Game<'a> {
    auto: &'a Automaton,
    mode: u8,
    top: u32,
    spoilers: usize,
    by_state: Vec<Vec<(usize, usize)>>,
    by_letter: Vec<Vec<usize>>,
}

impl<'a> Game<'a> {
    fn new(auto: &'a Automaton, mode: u8) -> Game<'a> {
        let mut by_state = vec![vec![]; auto.n];
        let mut by_letter = vec![vec![]; auto.n * auto.k];
        for (q, a, r) in auto.steps() {
            by_state[q].push((a, r));
            by_letter[q * auto.k + a].push(r);
        }
        Game { auto, mode, top: auto.ceiling(mode), spoilers: auto.spoilers(mode), by_state, by_letter }
    }

    fn spoilers_number(&self, b: usize, q: usize, p: usize) -> usize {
        (b * self.auto.n + q) * self.auto.n + p
    }

    fn duplicators_number(&self, b: usize, q: usize, p: usize, a: usize) -> usize {
        self.spoilers + self.spoilers_number(b, q, p) * self.auto.k + a
    }

    /// The bit after Red has moved to r.
    fn owed(&self, b: usize, r: usize) -> usize {
        if self.mode == 2 && self.auto.accepts(r) { 1 } else { b }
    }

    /// The bit after Blue has moved to r.
    fn met(&self, b: usize, r: usize) -> usize {
        if self.mode == 2 && self.auto.accepts(r) { 0 } else { b }
    }

    fn high(&self, table: &[u32], b: usize, q: usize, p: usize) -> u32 {
        let entry = |&(a, r): &(usize, usize)| table[self.duplicators_number(self.owed(b, r), r, p, a)];
        self.by_state[q].iter().map(entry).max().unwrap_or(0)
    }

    fn low(&self, table: &[u32], b: usize, q: usize, p: usize, a: usize) -> u32 {
        let entry = |&r: &usize| table[self.spoilers_number(self.met(b, r), q, r)];
        self.by_letter[p * self.auto.k + a].iter().map(entry).min().unwrap_or(self.top)
    }

    /// The value asked for at Spoiler's (q,q').
    fn asked(&self, table: &[u32], b: usize, q: usize, p: usize) -> u32 {
        let (red, blue) = (self.auto.accepts(q), self.auto.accepts(p));
        let high = self.high(table, b, q, p);
        let lost_or_none = if high == self.top { self.top } else { 0 };
        let one_more = (high + 1).min(self.top);
        match self.mode {
            0 => high,
            1 => if red && !blue { self.top } else { high },
            2 => if b == 0 { lost_or_none } else if blue { 0 } else { one_more },
            _ => if blue { lost_or_none } else if red { one_more } else { high },
        }
    }

    /// Spoiler's b, q and q' at a number.
    fn spot(&self, v: usize) -> (usize, usize, usize) {
        let n = self.auto.n;
        (v / n / n, v / n % n, v % n)
    }
}

/// The defined settle, every position lifted in every sweep; nothing if that takes more than `cap` seconds.
pub fn settle(auto: &Automaton, mode: u8, cap: f64) -> Option<Outcome> {
    let end = clock::now() + cap;
    let game = Game::new(auto, mode);
    let (n, k, planes) = (auto.n, auto.k, auto.planes(mode));
    let mut out = Outcome { table: vec![0; auto.positions(mode)], raises: 0, sweeps: 0 };
    loop {
        let before = out.raises;
        let mut v = 0;
        let mut put = |table: &mut [u32], asked: u32| {
            if asked > table[v] {
                table[v] = asked;
                out.raises += 1;
            }
            v += 1;
        };
        for b in 0..planes {
            for q in 0..n {
                for p in 0..n {
                    let asked = game.asked(&out.table, b, q, p);
                    put(&mut out.table, asked);
                }
            }
        }
        for b in 0..planes {
            for q in 0..n {
                for p in 0..n {
                    for a in 0..k {
                        let asked = game.low(&out.table, b, q, p, a);
                        put(&mut out.table, asked);
                    }
                }
            }
        }
        out.sweeps += 1;
        if out.raises == before {
            return Some(out);
        }
        if clock::now() > end {
            return None;
        }
    }
}

/// Positions to lift in a half of a sweep, each once.
struct Marks {
    list: Vec<u32>,
    flag: Vec<bool>,
}

impl Marks {
    fn put(&mut self, v: usize) {
        if !self.flag[v] {
            self.flag[v] = true;
            self.list.push(v as u32);
        }
    }

    fn take_all(&mut self) -> Vec<u32> {
        let list = std::mem::take(&mut self.list);
        for &v in &list {
            self.flag[v as usize] = false;
        }
        list
    }
}

/// The defined settle's table, raises and sweeps, without the lifts that cannot raise.
pub fn counted(auto: &Automaton, mode: u8, cap: f64) -> Option<Outcome> {
    let end = clock::now() + cap;
    let game = Game::new(auto, mode);
    let (n, k, planes, spoilers) = (auto.n, auto.k, auto.planes(mode), game.spoilers);
    let positions = auto.positions(mode);
    let mut into = vec![vec![]; n];
    let mut into_by = vec![vec![]; n * k];
    for (q, a, r) in auto.steps() {
        into[r].push((q, a));
        into_by[r * k + a].push(q);
    }
    let mut marks = Marks { list: (0..positions as u32).collect(), flag: vec![true; positions] };
    let mut out = Outcome { table: vec![0; positions], raises: 0, sweeps: 0 };
    let table = &mut out.table;
    let mut later = marks.take_all();
    let mut turn = later.split_off(spoilers);
    std::mem::swap(&mut later, &mut turn);
    loop {
        let before = out.raises;
        for &v in &later {
            marks.put(v as usize);
        }
        for &v in &turn {
            let (b, q, p) = game.spot(v as usize);
            let asked = game.asked(table, b, q, p);
            let old = table[v as usize];
            if asked > old {
                table[v as usize] = asked;
                out.raises += 1;
                for from in 0..planes {
                    if game.met(from, p) == b {
                        for &(blue, a) in &into[p] {
                            let w = game.duplicators_number(from, q, blue, a);
                            if table[w] == old {
                                marks.put(w);
                            }
                        }
                    }
                }
            }
        }
        for v in marks.take_all() {
            let w = v as usize - spoilers;
            let ((b, q, p), a) = (game.spot(w / k), w % k);
            let asked = game.low(table, b, q, p, a);
            if asked > table[v as usize] {
                table[v as usize] = asked;
                out.raises += 1;
                for from in 0..planes {
                    if game.owed(from, q) == b {
                        for &red in &into_by[q * k + a] {
                            marks.put(game.spoilers_number(from, red, p));
                        }
                    }
                }
            }
        }
        turn = marks.take_all();
        later = vec![];
        out.sweeps += 1;
        if out.raises == before {
            return Some(out);
        }
        if out.sweeps % 256 == 0 && clock::now() > end {
            return None;
        }
    }
}
