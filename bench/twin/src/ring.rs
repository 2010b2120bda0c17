//! The boundary of the region as a ring of edges in a run of indices, as the planner carries it along: the same search, turns and cuts.

use crate::plane::Constraint;

/// The line at infinity. Index 0 names it, and index k + 1 entry k.
const HORIZON: Constraint = Constraint { a: 0, b: 0, c: 1 };

/// The neighbours of a new edge.
#[derive(Clone, Copy)]
pub struct Edge {
    pub before: Constraint,
    pub behind: Constraint,
}

/// n edges from place lo on; where n is 0, no ring is held.
pub struct Ring<'a> {
    run: &'a mut [u16],
    lo: usize,
    n: usize,
    size: Constraint,
}

impl<'a> Ring<'a> {
    /// The triangle of the floors and the line at infinity, in the middle of the run.
    pub fn new(lx: i64, ly: i64, run: &'a mut [u16]) -> Self {
        let lo = run.len() / 2;
        run[lo..lo + 3].copy_from_slice(&[2, 0, 1]);
        Ring { run, lo, n: 3, size: Constraint { a: -1, b: -1, c: 1 - lx - ly } }
    }

    fn edge(&self, entries: &[Constraint], place: usize) -> Constraint {
        match self.run[place] {
            0 => HORIZON,
            k => entries[usize::from(k) - 1],
        }
    }

    fn keeps(h: Constraint, p: Constraint, q: Constraint) -> bool {
        !h.broken_by(p.meet(q))
    }

    fn corner_keeps(&self, entries: &[Constraint], h: Constraint, p: usize, q: usize) -> bool {
        Self::keeps(h, self.edge(entries, p), self.edge(entries, q))
    }

    fn at_place(&self, entries: &[Constraint], h: Constraint, p: usize, q: usize) -> bool {
        Self::keeps(self.size, self.edge(entries, p), h) && Self::keeps(self.size, h, self.edge(entries, q))
    }

    /// The edge behind which h belongs: the first, the last, or found by halving the angles from the first.
    fn seek(&self, entries: &[Constraint], h: Constraint) -> usize {
        let (lo, last) = (self.lo, self.n - 1);
        if self.at_place(entries, h, lo, lo + 1) {
            return 0;
        }
        if self.at_place(entries, h, lo + last, lo) {
            return last;
        }
        let first = self.edge(entries, lo);
        let late = !Self::keeps(self.size, first, h);
        let (mut from, mut to) = (0, self.n);
        while from + 1 < to {
            let middle = from + (to - from) / 2;
            let x = self.edge(entries, lo + middle);
            let first_half = Self::keeps(self.size, first, x);
            let before = if first_half == late { late } else { Self::keeps(self.size, x, h) };
            if before {
                from = middle;
            } else {
                to = middle;
            }
        }
        from
    }

    /// Turns the ring to begin after its edge k, the shorter way if there is room.
    fn turn_to(&mut self, k: usize) {
        let (up, n) = (k + 1, self.n);
        let down = n - up;
        let spare = self.run.len() - self.lo - n;
        if down < self.lo && (down <= up || spare < up) {
            for _ in 0..down {
                self.run[self.lo - 1] = self.run[self.lo + n - 1];
                self.lo -= 1;
            }
        } else if up <= spare {
            for _ in 0..up {
                self.run[self.lo + n] = self.run[self.lo];
                self.lo += 1;
            }
        }
    }

    /// Entry m enters. Its neighbours, if it cuts the ring and leaves some of it.
    pub fn insert(&mut self, entries: &[Constraint], m: usize) -> Option<Edge> {
        if self.n < 2 {
            return None;
        }
        let h = entries[m];
        let k = self.seek(entries, h);
        let inner = 0 < k && k + 1 < self.n;
        if inner && self.corner_keeps(entries, h, self.lo + k, self.lo + k + 1) {
            return None;
        }
        self.turn_to(k);
        let mut end = self.lo + self.n;
        if !inner && self.corner_keeps(entries, h, end - 1, self.lo) {
            return None;
        }
        while self.lo + 1 < end && !self.corner_keeps(entries, h, self.lo, self.lo + 1) {
            self.lo += 1;
        }
        if end - self.lo < 2 {
            self.n = 0;
            return None;
        }
        while !self.corner_keeps(entries, h, end - 2, end - 1) {
            end -= 1;
        }
        self.lo -= 1;
        self.run[self.lo] = (m + 1) as u16;
        self.n = end - self.lo;
        Some(Edge { before: self.edge(entries, end - 1), behind: self.edge(entries, self.lo + 1) })
    }
}
