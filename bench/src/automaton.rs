//! An automaton as plain data, in the bytes that the library is lent, and a builder for it.

/// The modes' names, at their numbers.
pub const MODES: [&str; 4] = ["ordinary", "direct", "delayed", "fair"];

/// States 0 to n-1, letters 0 to k-1; moves are three bytes each (from, letter, to), ascending.
#[derive(Clone, Debug, PartialEq, Eq)]
pub struct Automaton {
    pub n: usize,
    pub k: usize,
    pub start: usize,
    pub accept: Vec<u8>,
    pub moves: Vec<u8>,
}

impl Automaton {
    /// Whether q accepts.
    pub fn accepts(&self, q: usize) -> bool {
        self.accept[q] == 1
    }

    /// How many states accept.
    pub fn accepting(&self) -> usize {
        self.accept.iter().filter(|&&mark| mark == 1).count()
    }

    /// The moves as (from, letter, to).
    pub fn steps(&self) -> impl Iterator<Item = (usize, usize, usize)> + '_ {
        self.moves.chunks_exact(3).map(|m| (m[0] as usize, m[1] as usize, m[2] as usize))
    }

    /// How many values the bit b has in a mode.
    pub fn planes(&self, mode: u8) -> usize {
        if mode == 2 { 2 } else { 1 }
    }

    /// How many positions are Spoiler's.
    pub fn spoilers(&self, mode: u8) -> usize {
        self.planes(mode) * self.n * self.n
    }

    /// P, the number of positions.
    pub fn positions(&self, mode: u8) -> usize {
        self.spoilers(mode) * (1 + self.k)
    }

    /// T, the entry that means lost.
    pub fn ceiling(&self, mode: u8) -> u32 {
        let f = self.accepting();
        let t = match mode {
            2 => self.n * (self.n - f) + 1,
            3 => f * (self.n - f) + 1,
            _ => 1,
        };
        t as u32
    }
}

/// Numbers from a seed (splitmix64).
pub struct Draw(u64);

impl Draw {
    pub fn new(seed: u64) -> Draw {
        Draw(seed)
    }

    pub fn next(&mut self) -> u64 {
        self.0 = self.0.wrapping_add(0x9e37_79b9_7f4a_7c15);
        let mut z = self.0;
        z = (z ^ (z >> 30)).wrapping_mul(0xbf58_476d_1ce4_e5b9);
        z = (z ^ (z >> 27)).wrapping_mul(0x94d0_49bb_1331_11eb);
        z ^ (z >> 31)
    }

    /// A number below `end`.
    pub fn below(&mut self, end: usize) -> usize {
        (self.next() % end as u64) as usize
    }

    /// 0 to n-1 in an order drawn.
    pub fn order(&mut self, n: usize) -> Vec<usize> {
        let mut order: Vec<usize> = (0..n).collect();
        for i in (1..n).rev() {
            order.swap(i, self.below(i + 1));
        }
        order
    }
}

/// Moves and marks in any order, with the states numbered as the family finds easiest.
pub struct Builder {
    n: usize,
    k: usize,
    accept: Vec<u8>,
    moves: Vec<[u8; 3]>,
}

impl Builder {
    pub fn new(n: usize, k: usize) -> Builder {
        Builder { n, k, accept: vec![0; n], moves: Vec::new() }
    }

    pub fn accept(&mut self, q: usize) {
        self.accept[q] = 1;
    }

    pub fn step(&mut self, from: usize, letter: usize, to: usize) {
        assert!(from < self.n && letter < self.k && to < self.n);
        self.moves.push([from as u8, letter as u8, to as u8]);
    }

    /// The automaton, its states renumbered by an order drawn from the seed; start is what was 0.
    pub fn finish(self, seed: u64) -> Automaton {
        let order = Draw::new(seed).order(self.n);
        let mut accept = vec![0; self.n];
        for q in 0..self.n {
            accept[order[q]] = self.accept[q];
        }
        let mut moves: Vec<[u8; 3]> =
            self.moves.iter().map(|m| [order[m[0] as usize] as u8, m[1], order[m[2] as usize] as u8]).collect();
        moves.sort_unstable();
        moves.dedup();
        Automaton { n: self.n, k: self.k, start: order[0], accept, moves: moves.concat() }
    }
}
