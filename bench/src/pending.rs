//! Figure 2's list L, first in first out: each operation takes constant time.

/// A ring of positions, and a flag for each that is in it.
pub struct Pending {
    ring: Vec<u32>,
    first: usize,
    count: usize,
    flag: Vec<bool>,
}

impl Pending {
    pub fn new(positions: usize) -> Pending {
        Pending { ring: vec![0; positions], first: 0, count: 0, flag: vec![false; positions] }
    }

    #[inline]
    pub fn has(&self, v: usize) -> bool {
        self.flag[v]
    }

    #[inline]
    pub fn put(&mut self, v: usize) {
        let mut end = self.first + self.count;
        if end >= self.ring.len() {
            end -= self.ring.len();
        }
        self.ring[end] = v as u32;
        self.count += 1;
        self.flag[v] = true;
    }

    #[inline]
    pub fn take(&mut self) -> Option<usize> {
        if self.count == 0 {
            return None;
        }
        let v = self.ring[self.first] as usize;
        self.first += 1;
        if self.first == self.ring.len() {
            self.first = 0;
        }
        self.count -= 1;
        self.flag[v] = false;
        Some(v)
    }
}
