//! The game of an automaton in a mode as document 01 numbers and describes it, for the model of the calls. It
//! shares nothing with the library, and nothing with Figure 2 or the naive sweep.

/// P, the number of positions.
pub fn positions(n: usize, k: usize, mode: u64) -> usize {
    spoilers(n, mode) * (1 + k)
}

fn spoilers(n: usize, mode: u64) -> usize {
    if mode == 2 { 2 * n * n } else { n * n }
}

pub struct Game {
    pub n: usize,
    k: usize,
    mode: u64,
    accept: Vec<bool>,
    /// The targets of the moves, at from·k + letter.
    targets: Vec<Vec<usize>>,
    pub spoilers: usize,
    pub top: u32,
}

impl Game {
    /// Of a sound automaton.
    pub fn new(n: usize, k: usize, marks: &[u8], moves: &[u8], mode: u64) -> Game {
        let accept: Vec<bool> = marks.iter().map(|&mark| mark == 1).collect();
        let mut targets = vec![vec![]; n * k];
        for m in moves.chunks_exact(3) {
            targets[m[0] as usize * k + m[1] as usize].push(m[2] as usize);
        }
        let f = accept.iter().filter(|&&mark| mark).count();
        let top = match mode {
            2 => n * (n - f) + 1,
            3 => f * (n - f) + 1,
            _ => 1,
        };
        Game { n, k, mode, accept, targets, spoilers: spoilers(n, mode), top: top as u32 }
    }

    pub fn positions(&self) -> usize {
        positions(self.n, self.k, self.mode)
    }

    /// Gives `to` the positions one step on.
    fn each_step(&self, v: usize, mut to: impl FnMut(usize)) {
        let (n, k) = (self.n, self.k);
        if v < self.spoilers {
            let (b, q, p) = (v / n / n, v / n % n, v % n);
            for a in 0..k {
                for &r in &self.targets[q * k + a] {
                    let b = if self.mode == 2 && self.accept[r] { 1 } else { b };
                    to(self.spoilers + (b * n * n + r * n + p) * k + a);
                }
            }
        } else {
            let (pair, a) = ((v - self.spoilers) / k, (v - self.spoilers) % k);
            let (b, q, p) = (pair / n / n, pair / n % n, pair % n);
            for &r in &self.targets[p * k + a] {
                let b = if self.mode == 2 && self.accept[r] { 0 } else { b };
                to(b * n * n + q * n + r);
            }
        }
    }

    /// The positions one step on.
    pub fn steps(&self, v: usize) -> Vec<usize> {
        let mut steps = vec![];
        self.each_step(v, |to| steps.push(to));
        steps
    }

    /// The value asked for at a position.
    pub fn asked(&self, table: &[u32], v: usize) -> u32 {
        if v >= self.spoilers {
            let mut low = self.top;
            self.each_step(v, |to| low = low.min(table[to]));
            return low;
        }
        let mut high = 0;
        self.each_step(v, |to| high = high.max(table[to]));
        let lost_only = if high == self.top { high } else { 0 };
        let one_more = self.top.min(high + 1);
        let b = v / self.n / self.n;
        let (red, blue) = (self.accept[v / self.n % self.n], self.accept[v % self.n]);
        match self.mode {
            0 => high,
            1 => if red && !blue { self.top } else { high },
            2 => if b == 0 { lost_only } else if blue { 0 } else { one_more },
            _ => if blue { lost_only } else if red { one_more } else { high },
        }
    }

    /// Writes the greater of the old entry and the value asked for; 1 if the entry rose, else 0.
    pub fn lift(&self, table: &mut [u32], v: usize) -> usize {
        let asked = self.asked(table, v);
        let rose = asked > table[v];
        table[v] = table[v].max(asked);
        rose as usize
    }

    /// Lifts the positions in ascending order; the raises.
    fn sweep(&self, table: &mut [u32]) -> usize {
        (0..self.positions()).map(|v| self.lift(table, v)).sum()
    }

    /// Sweeps until one raises nothing; the raises.
    pub fn sweep_to_rest(&self, table: &mut [u32]) -> usize {
        let mut raises = 0;
        loop {
            match self.sweep(table) {
                0 => return raises,
                more => raises += more,
            }
        }
    }

    pub fn settle(&self, table: &mut [u32]) -> usize {
        table.fill(0);
        self.sweep_to_rest(table)
    }

    /// Whether so many sweeps from the cleared table are enough.
    pub fn settles_within(&self, sweeps: usize) -> bool {
        let mut table = vec![0; self.positions()];
        (0..sweeps).any(|_| self.sweep(&mut table) == 0)
    }

    /// The lowest position that is not at rest.
    pub fn restless(&self, table: &[u32]) -> Option<usize> {
        (0..self.positions()).find(|&v| self.asked(table, v) > table[v])
    }

    /// Whether the beginning of the pair (q,q') is below T.
    pub fn related(&self, table: &[u32], q: usize, p: usize) -> bool {
        let b = (self.mode == 2 && self.accept[q] && !self.accept[p]) as usize;
        table[b * self.n * self.n + q * self.n + p] < self.top
    }
}
