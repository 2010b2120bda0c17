//! The start pair after every prefix by the search, against the planner's view of its walk. The count is of the rules that the start pair
//! before them does not keep; the rule that leaves no pair is one of them, and no rule after it.

use crate::book::{to_hex, MOST_RULES};
use crate::clip;
use crate::damage::damage;
use crate::exact::{start, Line, Outcome, Pair, Terms};
use crate::families::source;
use crate::layout::Layout;
use crate::planner::{Planner, Seen};
use crate::program::short_stored_books;
use crate::random::Random;
use crate::read::read_as;

/// The longest chain whose prefixes are searched anew; those of others are searched in one pass.
const ANEW: usize = 40;

/// The start pairs after 0, 1, .. n rules. Where nothing is earned, the best pair is the start pair.
fn start_pairs(floors: [Line; 2], rules: &[Line]) -> Vec<Option<Pair>> {
    if rules.len() <= ANEW {
        return (0..=rules.len()).map(|k| start(&floors, &rules[..k])).collect();
    }
    let pair = |outcome| match outcome {
        Outcome::Best(v) => Some(v),
        _ => None,
    };
    clip::each(&Terms { p: 0, q: 0, floors }, rules).into_iter().map(pair).collect()
}

/// The start pair and the count after 0, 1, .. n rules.
fn expected(floors: [Line; 2], rules: &[Line]) -> Vec<(Option<Pair>, usize)> {
    let pairs = start_pairs(floors, rules);
    let lost = |i: usize| i > 0 && pairs[i - 1].is_some_and(|v| !rules[i - 1].kept_by(&v));
    let counts = (0..pairs.len()).scan(0, |count, i| {
        *count += usize::from(lost(i));
        Some(*count)
    });
    pairs.iter().copied().zip(counts).collect()
}

/// What must be seen after 0, 1, .. n rules: of a refused book its refusal.
fn views(layout: &Layout, book: &[u8]) -> Vec<Seen> {
    match read_as(layout, book) {
        Err(refused) => vec![Seen::Refused(refused)],
        Ok(a) => {
            let rules: Vec<Line> = a.rules.iter().map(|r| r.line).collect();
            expected(a.terms.floors, &rules).into_iter().map(|(start, count)| Seen::After { start, count }).collect()
        }
    }
}

/// Every prefix of a book, or some where there are many, and some lengths beyond its chain. Says how many were looked at.
fn try_starts(planner: &Planner, name: &str, book: &[u8], random: &mut Random) -> Result<u64, String> {
    let right = views(&planner.layout, book);
    let n = right.len() - 1;
    let inside = if n <= MOST_RULES { (0..=n).collect() } else { sampled(n, random) };
    for &k in inside.iter().chain(&[n + 1, n + planner.layout.records, usize::MAX]) {
        let (right, seen) = (&right[k.min(n)], planner.start_after(book, k));
        if seen.as_ref() != Ok(right) {
            return Err(format!(
                "mismatch: {name}: start after {k}\nbook    {}\nright   {right:?}\nseen    {seen:?}",
                to_hex(book)
            ));
        }
    }
    Ok(inside.len() as u64)
}

/// Both ends, the lengths around 255, and some between. To plan every prefix of a long chain would take minutes.
fn sampled(n: usize, random: &mut Random) -> Vec<usize> {
    let between = (0..32).map(|_| random.below(n + 1));
    [0, 1, 254, 255, 256, n - 1, n].into_iter().chain(between).collect()
}

/// Stored and random books. One in twenty is longer, one in two hundred much longer, one in a thousand as long as the version has them, and
/// one in eight damaged.
pub fn starts(planner: &Planner, seed: u64, books: u64) -> Result<u64, String> {
    let mut random = Random::new(seed);
    let mut prefixes = 0;
    for (name, book) in short_stored_books(&planner.layout) {
        prefixes += try_starts(planner, name, &book, &mut random)?;
    }
    for i in 1..=books {
        let (name, book) = random_book(&planner.layout, &mut random, i);
        prefixes += try_starts(planner, name, &book, &mut random)?;
    }
    Ok(prefixes)
}

fn random_book(layout: &Layout, random: &mut Random, i: u64) -> (&'static str, Vec<u8>) {
    let most = match i {
        _ if i % 1_000 == 0 => layout.most_rules(),
        _ if i % 200 == 0 => MOST_RULES,
        _ if i % 20 == 0 => ANEW,
        _ => 12,
    };
    let n = random.below(most + 1);
    let (name, source) = source(layout, random, n);
    let mut book = source.scattered_as(layout, 3, random);
    if random.one_in(8) {
        damage(layout, random, &mut book);
    }
    (name, book)
}

#[cfg(test)]
mod tests {
    use super::*;
    use crate::exact::floors;

    fn lines(rules: &[(i128, i128, i128)]) -> Vec<Line> {
        rules.iter().map(|&(a, b, c)| Line { a, b, c }).collect()
    }

    fn counts(rules: &[(i128, i128, i128)]) -> Vec<usize> {
        expected(floors(0, 0), &lines(rules)).iter().map(|s| s.1).collect()
    }

    #[test]
    fn every_rule_breaks_it() {
        assert_eq!(counts(&[(-1, -1, -4), (0, 1, 3), (-2, -1, -6)]), [0, 1, 2, 3]);
    }

    #[test]
    fn none_does_or_only_the_last() {
        assert_eq!(counts(&[(1, 2, 8), (3, 1, 9)]), [0, 0, 0]);
        assert_eq!(counts(&[(1, 2, 8), (3, 1, 9), (-1, 0, -1)]), [0, 0, 0, 1]);
    }

    #[test]
    fn an_impossible_prefix_ends_it() {
        assert_eq!(counts(&[(1, 1, 3), (-1, -1, -4), (-1, 0, -1), (0, -1, -5)]), [0, 0, 1, 1, 1]);
        assert_eq!(counts(&[(0, 0, -1), (0, 0, -1)]), [0, 1, 1]);
    }

    #[test]
    fn it_has_the_smaller_total() {
        assert_eq!(counts(&[(-2, -1, -6), (0, 1, 0)]), [0, 1, 1]);
        assert_eq!(counts(&[(-2, -1, -6), (1, 0, 0)]), [0, 1, 2]);
        let pairs: Vec<_> = expected(floors(0, 0), &lines(&[(-2, -1, -6), (-1, -1, -4)])).iter().map(|s| s.0).collect();
        assert_eq!(pairs, [(0, 0), (3, 0), (2, 2)].map(|(x, y)| Some(Pair { x, y, d: 1 })));
    }

    #[test]
    fn the_floors_are_where_it_begins() {
        let seen = expected(floors(-3, 2), &lines(&[(-1, 0, 3), (-1, 0, 2), (1, 0, -3)]));
        let pair = |x, y| Some(Pair { x, y, d: 1 });
        assert_eq!(seen, [(pair(-3, 2), 0), (pair(-3, 2), 0), (pair(-2, 2), 1), (None, 2)]);
    }
}
