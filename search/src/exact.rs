//! The exhaustive search of one list of rules. Every two of floors and rules that are not parallel meet in a pair; the allowed ones among
//! these are the corners. With both floors in force an allowed pair exists only if a corner does, and the start pair and the best pair are
//! corners. Numbers are 128-bit integers and nothing is remembered from one list to the next.

use std::cmp::Ordering;

/// A rule as planned: a·x + b·y at most c.
#[derive(Clone, Copy, Debug, PartialEq)]
pub struct Line {
    pub a: i128,
    pub b: i128,
    pub c: i128,
}

/// What a book's header says: the objective, and the floors of x and y as rules.
#[derive(Clone, Copy, Debug, PartialEq)]
pub struct Terms {
    pub p: i128,
    pub q: i128,
    pub floors: [Line; 2],
}

/// The pair x = X/D, y = Y/D.
#[derive(Clone, Copy, Debug, PartialEq)]
pub struct Pair {
    pub x: i128,
    pub y: i128,
    pub d: i128,
}

#[derive(Clone, Debug, PartialEq)]
pub enum Outcome {
    Impossible,
    Unlimited { start: Pair, dx: i128, dy: i128 },
    Best(Pair),
}

impl Line {
    /// How far a pair is from the line, times D: below 0 where the rule is broken.
    pub fn slack(&self, v: &Pair) -> i128 {
        self.c * v.d - self.a * v.x - self.b * v.y
    }

    pub fn kept_by(&self, v: &Pair) -> bool {
        self.slack(v) >= 0
    }

    /// Both ways along the line.
    pub fn ways(&self) -> [(i128, i128); 2] {
        [(self.b, -self.a), (-self.b, self.a)]
    }

    /// Whether the rule is kept for ever along a direction.
    pub fn allows(&self, (dx, dy): (i128, i128)) -> bool {
        self.a * dx + self.b * dy <= 0
    }
}

/// x not below lx and y not below ly.
pub fn floors(lx: i128, ly: i128) -> [Line; 2] {
    [Line { a: -1, b: 0, c: -lx }, Line { a: 0, b: -1, c: -ly }]
}

/// The outcome of an objective, the floors and the rules.
pub fn outcome(terms: &Terms, rules: &[Line]) -> Outcome {
    let &Terms { p, q, floors } = terms;
    let lawful = candidates(rules).filter(|&d| lawful(p, q, rules, d));
    chosen(p, q, &corners(&entries(&floors, rules)), lawful)
}

/// The outcome that corners and lawful candidates make.
pub fn chosen(p: i128, q: i128, corners: &[Pair], lawful: impl Iterator<Item = (i128, i128)>) -> Outcome {
    let Some(start) = corners.iter().min_by(|v, w| by_place(v, w)) else {
        return Outcome::Impossible;
    };
    if let Some((dx, dy)) = least_steep(lawful) {
        return Outcome::Unlimited { start: reduced(start), dx, dy };
    }
    let best = corners.iter().min_by(|v, w| by_gain(p, q, w, v).then(by_place(v, w)));
    Outcome::Best(reduced(best.unwrap()))
}

/// The start pair: the first corner by least x + y, then least x.
pub fn start(floors: &[Line; 2], rules: &[Line]) -> Option<Pair> {
    corners(&entries(floors, rules)).iter().min_by(|v, w| by_place(v, w)).map(reduced)
}

/// The floors, and after them the rules.
pub fn entries(floors: &[Line; 2], rules: &[Line]) -> Vec<Line> {
    floors.iter().chain(rules).copied().collect()
}

/// Every pair where two entries meet and that keeps all entries. In long chains the last rules are often the tightest, so that they are
/// asked first.
pub fn corners(entries: &[Line]) -> Vec<Pair> {
    let pairs = entries.iter().enumerate().flat_map(|(i, h)| entries[..i].iter().map(move |k| (h, k)));
    let meetings = pairs.filter_map(|(h, k)| meeting(h, k));
    meetings.filter(|v| entries.iter().rev().all(|e| e.kept_by(v))).collect()
}

/// Where two lines meet, by Cramer's rule.
pub fn meeting(h: &Line, k: &Line) -> Option<Pair> {
    let d = h.a * k.b - k.a * h.b;
    let x = h.c * k.b - k.c * h.b;
    let y = h.a * k.c - k.a * h.c;
    match d.signum() {
        0 => None,
        s => Some(Pair { x: x * s, y: y * s, d: d * s }),
    }
}

/// Least x + y first, then least x.
fn by_place(v: &Pair, w: &Pair) -> Ordering {
    ((v.x + v.y) * w.d).cmp(&((w.x + w.y) * v.d)).then((v.x * w.d).cmp(&(w.x * v.d)))
}

fn by_gain(p: i128, q: i128, v: &Pair, w: &Pair) -> Ordering {
    ((p * v.x + q * v.y) * w.d).cmp(&((p * w.x + q * w.y) * v.d))
}

/// The directions that may be given: along the axes, and along the line of each rule both ways.
fn candidates(rules: &[Line]) -> impl Iterator<Item = (i128, i128)> + '_ {
    [(1, 0), (0, 1)].into_iter().chain(rules.iter().flat_map(Line::ways))
}

fn lawful(p: i128, q: i128, rules: &[Line], along: (i128, i128)) -> bool {
    gains(p, q, along) && rules.iter().all(|r| r.allows(along))
}

/// Whether a direction lowers neither rate and earns with each step.
pub fn gains(p: i128, q: i128, (dx, dy): (i128, i128)) -> bool {
    dx >= 0 && dy >= 0 && (dx, dy) != (0, 0) && p * dx + q * dy > 0
}

/// The direction with the smallest slope, divided by its greatest common divisor.
fn least_steep(directions: impl Iterator<Item = (i128, i128)>) -> Option<(i128, i128)> {
    directions.min_by(|d, e| (d.1 * e.0).cmp(&(e.1 * d.0))).map(|(dx, dy)| (dx / divisor(dx, dy), dy / divisor(dx, dy)))
}

pub fn reduced(v: &Pair) -> Pair {
    let g = divisor(divisor(v.x, v.y), v.d);
    Pair { x: v.x / g, y: v.y / g, d: v.d / g }
}

/// The greatest common divisor of two numbers, not both 0, by halving and subtracting.
pub fn divisor(m: i128, n: i128) -> i128 {
    let (mut m, mut n) = (m.unsigned_abs(), n.unsigned_abs());
    if m == 0 || n == 0 {
        return (m + n) as i128;
    }
    let twos = (m | n).trailing_zeros();
    m >>= m.trailing_zeros();
    while n != 0 {
        n >>= n.trailing_zeros();
        (m, n) = (m.min(n), m.abs_diff(n));
    }
    (m << twos) as i128
}

#[cfg(test)]
mod tests {
    use super::*;

    #[test]
    fn divisors_are_the_greatest() {
        for (m, n) in (0..60).flat_map(|m| (1..60).map(move |n| (m, n))) {
            let plain = (1..=60).filter(|k| m % k == 0 && n % k == 0).max().unwrap();
            assert_eq!(divisor(m, -n), plain);
        }
    }
}
