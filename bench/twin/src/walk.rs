//! The walk along the chain.

use crate::book::Chain;
use crate::plane::{Constraint, Point, Ray};
use crate::ring::{Edge, Ring};

pub enum Outcome {
    Impossible { place: usize, witness: Witness },
    Unlimited { start: Point, ray: Ray },
    Best(Point),
}

/// Entries by index with their weights; a weight of 0 is no entry.
pub struct Witness {
    pub entries: [usize; 3],
    pub weights: [i64; 3],
}

pub struct Answer {
    pub outcome: Outcome,
    pub moves: usize,
    pub open: usize,
}

/// Directions that keep every rule: from lo to hi, or none.
#[derive(Clone, Copy)]
struct Cone {
    lo: Ray,
    hi: Ray,
    empty: bool,
}

/// What the walk holds between two rules.
struct Held {
    start: Point,
    cone: Cone,
    ray: Option<Ray>,
    best: Point,
    moves: usize,
    open: usize,
}

impl Held {
    fn begin(chain: &Chain) -> Self {
        let corner = Point { x: chain.lx, y: chain.ly, d: 1 };
        let cone = Cone { lo: Ray { dx: 1, dy: 0 }, hi: Ray { dx: 0, dy: 1 }, empty: false };
        let ray = cone.gaining(chain.p, chain.q);
        Held { start: corner, cone, ray, best: corner, moves: 0, open: usize::from(ray.is_some()) }
    }

    /// One more rule h. Where its edge lies between those of two others, the ends of the edge stand for the passes. Says whether a pair
    /// moved.
    #[inline(always)]
    fn step<const TUNED: bool>(&mut self, chain: &Chain, m: usize, edge: Option<Edge>) -> Result<bool, Witness> {
        let (h, earlier, (p, q)) = (chain.entries[m], &chain.entries[..m], (chain.p, chain.q));
        let moved = self.ray.is_none() && h.broken_by(self.best);
        self.moves += usize::from(moved);
        let restarted = h.broken_by(self.start);
        if restarted {
            self.start = match edge.and_then(|edge| edge.end(h, 0, 0)) {
                Some(v) => v.reduced::<TUNED>(),
                None => restart::<TUNED>(earlier, h)?,
            };
        }
        self.cone.cut(h);
        let was_open = self.ray.is_some();
        if was_open {
            self.ray = self.cone.gaining(p, q);
            self.open += usize::from(self.ray.is_some());
        }
        if moved || (was_open && self.ray.is_none()) {
            let v = edge.and_then(|edge| edge.end(h, p, q)).unwrap_or_else(|| tightest::<TUNED>(earlier, upward(h, p, q)).0);
            self.best = v.reduced::<TUNED>();
        }
        Ok(moved || restarted)
    }

    fn answer(self) -> Answer {
        let outcome = match self.ray {
            Some(ray) => Outcome::Unlimited { start: self.start, ray: ray.reduced() },
            None => Outcome::Best(self.best),
        };
        Answer { outcome, moves: self.moves, open: self.open }
    }

    fn impossible(self, place: usize, witness: Witness) -> Answer {
        Answer { outcome: Outcome::Impossible { place, witness }, moves: self.moves, open: self.open }
    }
}

/// Entries for each rule of the chain, and some more, that the passes may look at before the walk carries the region's boundary along, and
/// rules for which that has room. Where few rules are left, it does not pay off.
const ALLOWED: usize = 16;
const MORE: usize = 1_024;
const LEFT: usize = 48;
const RULES: usize = 8_190;
/// Room for the rings of 255 rules and of 8,190, on both sides.
const SHORT: usize = 530;
const LONG: usize = 16_400;

/// Carrying, it carries the region's boundary along once its passes have looked at many entries.
pub fn walk<const TUNED: bool, const CARRYING: bool>(chain: &Chain) -> Answer {
    let mut held = Held::begin(chain);
    let rules = chain.count - 2;
    let mut budget = ALLOWED * rules + MORE;
    for m in 2..chain.count {
        match held.step::<TUNED>(chain, m, None) {
            Err(witness) => return held.impossible(m - 1, witness),
            Ok(true) if CARRYING => {
                budget = budget.saturating_sub(m + 1);
                if budget == 0 && LEFT < chain.count - m - 1 && rules <= RULES {
                    return carry_on::<TUNED>(chain, held, m + 1);
                }
            }
            Ok(_) => {}
        }
    }
    held.answer()
}

/// The rest of the walk, with room for its ring.
#[inline(never)]
fn carry_on<const TUNED: bool>(chain: &Chain, held: Held, from: usize) -> Answer {
    if chain.count <= 257 {
        return carried::<TUNED>(chain, held, from, &mut [0; SHORT]);
    }
    carried::<TUNED>(chain, held, from, &mut [0; LONG])
}

/// From entry `from` on, with the ring of the entries before it.
#[inline(never)]
fn carried<const TUNED: bool>(chain: &Chain, mut held: Held, from: usize, run: &mut [u16]) -> Answer {
    let mut ring = Ring::new(chain.lx, chain.ly, run);
    (2..from).for_each(|m| {
        ring.insert(chain.entries, m);
    });
    for m in from..chain.count {
        let edge = ring.insert(chain.entries, m);
        if let Err(witness) = held.step::<TUNED>(chain, m, edge) {
            return held.impossible(m - 1, witness);
        }
    }
    held.answer()
}

impl Edge {
    /// The end of the edge of h in the direction in which the pass would walk, if it is a point.
    fn end(&self, h: Constraint, p: i64, q: i64) -> Option<Point> {
        let v = if is_upward(h, p, q) { self.before.meet(h) } else { h.meet(self.behind) };
        (v.d > 0).then_some(v)
    }
}

/// The new start point on the line of h, or a certificate that there is none.
fn restart<const TUNED: bool>(earlier: &[Constraint], h: Constraint) -> Result<Point, Witness> {
    let m = earlier.len();
    if h.a == 0 && h.b == 0 {
        return Err(Witness { entries: [m, 0, 0], weights: [1, 0, 0] });
    }
    let (v, j) = tightest::<TUNED>(earlier, upward(h, 0, 0));
    match earlier.iter().position(|k| k.broken_by(v)) {
        None => Ok(v.reduced::<TUNED>()),
        Some(k) => Err(certificate(earlier, h, j, k)),
    }
}

/// The three determinants cancel a and b.
fn certificate(earlier: &[Constraint], h: Constraint, j: usize, k: usize) -> Witness {
    let (u, w) = (earlier[j], earlier[k]);
    Witness { entries: [earlier.len(), j, k], weights: [u.against(w).abs(), w.against(h).abs(), h.against(u).abs()] }
}

/// The line of h, turned so that its ray (b, -a) goes up in gain, then down in x + y, then down in x.
fn upward(h: Constraint, p: i64, q: i64) -> Constraint {
    if is_upward(h, p, q) {
        h
    } else {
        h.turned()
    }
}

fn is_upward(h: Constraint, p: i64, q: i64) -> bool {
    let gain = p * h.b - q * h.a;
    gain > 0 || (gain == 0 && (h.b < h.a || (h.b == h.a && h.b < 0)))
}

/// The first meeting point along the line's ray with a constraint that the ray goes against, and that constraint. Tuned, it starts from the
/// point at infinity, which each such constraint breaks, and asks nothing else.
fn tightest<const TUNED: bool>(earlier: &[Constraint], line: Constraint) -> (Point, usize) {
    let mut v = Point { x: line.b, y: -line.a, d: 0 };
    let mut made_by = usize::MAX;
    for (i, k) in earlier.iter().enumerate() {
        if k.against(line) > 0 && (!TUNED && made_by == usize::MAX || k.broken_by(v)) {
            v = k.meet(line);
            made_by = i;
        }
    }
    (v, made_by)
}

impl Cone {
    fn cut(&mut self, h: Constraint) {
        if self.empty {
            return;
        }
        match (h.along(self.lo) > 0, h.along(self.hi) > 0) {
            (false, false) => {}
            (false, true) => self.hi = Ray { dx: h.b, dy: -h.a },
            (true, false) => self.lo = Ray { dx: -h.b, dy: h.a },
            (true, true) => self.empty = true,
        }
    }

    /// The flattest gaining ray.
    fn gaining(&self, p: i64, q: i64) -> Option<Ray> {
        let gains = |d: &Ray| p * d.dx + q * d.dy > 0;
        [self.lo, self.hi].into_iter().filter(|_| !self.empty).find(gains)
    }
}
