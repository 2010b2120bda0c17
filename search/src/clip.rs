//! All prefixes of a chain in one pass, for books that are too long for the exhaustive search of every prefix. Each entry's line is cut by
//! the other entries in chain order. What is left of it is a stretch, and the ends of the stretches are the corners. An end stays a corner
//! from the prefix that has both of its entries up to the entry that cuts it off. The tests compare this with the exhaustive search.

use crate::exact::{chosen, entries, gains, meeting, Line, Outcome, Pair, Terms};

/// How many entries stand before the rules.
const FLOORS: usize = 2;

/// A corner or a direction, and the prefixes that have it: those of `from` entries or more and of fewer than `until`.
struct Life<T> {
    of: T,
    from: usize,
    until: usize,
}

/// What the entries so far leave of a line: its ends, where it has any, each with the entry that made it.
struct Stretch<'a> {
    line: &'a Line,
    place: usize,
    ends: [Option<(Pair, usize)>; 2],
    corners: Vec<Life<Pair>>,
}

/// The outcomes of the prefixes of 0, 1, .. n rules.
pub fn each(terms: &Terms, rules: &[Line]) -> Vec<Outcome> {
    let &Terms { p, q, floors } = terms;
    let entries = entries(&floors, rules);
    let corners: Vec<Life<Pair>> = (0..entries.len()).flat_map(|i| corners_on(&entries, i)).collect();
    let directions = directions(p, q, rules);
    (FLOORS..=entries.len()).map(|m| chosen(p, q, &alive(&corners, m).collect::<Vec<_>>(), alive(&directions, m))).collect()
}

/// The corners that all entries together leave; one may be there more than once.
pub fn corners(floors: &[Line; 2], rules: &[Line]) -> Vec<Pair> {
    let entries = entries(floors, rules);
    let corners: Vec<Life<Pair>> = (0..entries.len()).flat_map(|i| corners_on(&entries, i)).collect();
    alive(&corners, entries.len()).collect()
}

/// The outcome of all rules together.
pub fn whole(terms: &Terms, rules: &[Line]) -> Outcome {
    let &Terms { p, q, floors } = terms;
    let entries = entries(&floors, rules);
    let corners: Vec<Life<Pair>> = (0..entries.len()).flat_map(|i| corners_on(&entries, i)).collect();
    chosen(p, q, &alive(&corners, entries.len()).collect::<Vec<_>>(), alive(&directions(p, q, rules), entries.len()))
}

/// What a prefix of m entries has.
fn alive<T: Copy>(lives: &[Life<T>], m: usize) -> impl Iterator<Item = T> + '_ {
    lives.iter().filter(move |life| life.from <= m && m < life.until).map(|life| life.of)
}

/// The corners on the line of entry i.
fn corners_on(entries: &[Line], i: usize) -> Vec<Life<Pair>> {
    let mut stretch = Stretch { line: &entries[i], place: i, ends: [None, None], corners: Vec::new() };
    let others = entries.iter().enumerate().filter(|(j, _)| *j != i);
    let last = others.map(|(j, e)| (j, stretch.cut(j, e))).find(|(_, left)| !left).map_or(entries.len(), |(j, _)| j);
    stretch.retire(0, last);
    stretch.retire(1, last);
    stretch.corners
}

impl Stretch<'_> {
    /// Cuts the stretch by entry j and says whether anything is left. An entry that is not parallel bounds one end, and the stretch keeps
    /// the entry if this end does.
    fn cut(&mut self, j: usize, entry: &Line) -> bool {
        let turn = self.line.a * entry.b - entry.a * self.line.b;
        if turn == 0 {
            return self.runs_within(entry);
        }
        let end = usize::from(turn > 0);
        let kept = |end: Option<(Pair, usize)>| end.map(|(v, _)| entry.kept_by(&v));
        if kept(self.ends[end]) == Some(true) {
            return true;
        }
        self.retire(end, j);
        self.ends[end] = meeting(self.line, entry).map(|v| (v, j));
        kept(self.ends[1 - end]) != Some(false)
    }

    /// Whether the line keeps an entry that is parallel to it, or that has a = b = 0.
    fn runs_within(&self, entry: &Line) -> bool {
        let Line { a, b, c } = self.line;
        (a * entry.a + b * entry.b) * c <= (a * a + b * b) * entry.c
    }

    /// Notes an end that entry j cuts off, if it was a corner of any prefix.
    fn retire(&mut self, end: usize, j: usize) {
        if let Some((of, made)) = self.ends[end].take() {
            let life = Life { of, from: self.place.max(made) + 1, until: j + 1 };
            self.corners.extend(Some(life).filter(|l| l.from < l.until));
        }
    }
}

/// The candidates that lower neither rate and earn, each up to the first rule against it.
fn directions(p: i128, q: i128, rules: &[Line]) -> Vec<Life<(i128, i128)>> {
    let along_rules = rules.iter().zip(FLOORS + 1..).flat_map(|(r, from)| r.ways().map(|of| (of, from)));
    let candidates = [((1, 0), FLOORS), ((0, 1), FLOORS)].into_iter().chain(along_rules);
    let until = |of| rules.iter().position(|r| !r.allows(of)).unwrap_or(rules.len()) + FLOORS + 1;
    candidates
        .filter(|&(of, _)| gains(p, q, of))
        .map(|(of, from)| Life { of, from, until: until(of) })
        .filter(|l| l.from < l.until)
        .collect()
}
