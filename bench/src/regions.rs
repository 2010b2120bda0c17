//! Regions whose corners are listed, with floors of zero. All allow pairs.

use crate::chains;
use search::book::{Rule, Source};
use search::random::Random;

/// One book of n rules of one sort.
pub type Region = fn(&mut Random, usize) -> Source;

pub const REGIONS: [(&str, Region); 6] = [
    ("random", |random, n| chains::SORTS[0].1(random, n).swap_remove(0)),
    ("polygon, by angle", |_, n| book(polygon(n))),
    ("polygon, in random order", |random, n| book(shuffled(random, polygon(n)))),
    ("a large ring before a small one", |random, n| book(rings(random, n).concat())),
    ("two rings, mixed", |random, n| {
        let both = rings(random, n).concat();
        book(shuffled(random, both))
    }),
    ("open", |random, n| chains::SORTS[2].1(random, n).swap_remove(0)),
];

/// a, b and c of a rule.
type Side = [i64; 3];

fn book(sides: Vec<Side>) -> Source {
    let rule = |(i, [a, b, c]): (usize, &Side)| Rule { kind: 1, a: *a as i16, b: *b as i16, c: *c as i32, label: i as u16 };
    Source { p: 1, q: 1, lx: 0, ly: 0, rules: sides.iter().enumerate().map(rule).collect() }
}

fn shuffled(random: &mut Random, mut sides: Vec<Side>) -> Vec<Side> {
    random.shuffle(&mut sides);
    sides
}

fn divisor(a: i64, b: i64) -> i64 {
    if b == 0 {
        a.abs()
    } else {
        divisor(b, a % b)
    }
}

/// So many directions in the order of their angles, with each also the opposite one, so that they close a polygon.
fn directions(n: usize) -> Vec<[i64; 2]> {
    let half = |reach: i64| (0..=reach).flat_map(move |y| (-reach..=reach).map(move |x| [x, y]));
    let upper = |[x, y]: &[i64; 2]| (*y > 0 || *x > 0) && divisor(*x, *y) == 1;
    let mut found: Vec<[i64; 2]> = half(60).filter(upper).collect();
    found.sort_by_key(|[x, y]| x * x + y * y);
    let mut all: Vec<[i64; 2]> = found[..n.div_ceil(2)].iter().flat_map(|&[x, y]| [[x, y], [-x, -y]]).collect();
    all.sort_by(|v, w| (v[1] as f64).atan2(v[0] as f64).total_cmp(&(w[1] as f64).atan2(w[0] as f64)));
    all
}

/// Where a polygon's walk begins, so that all of it has positive x and y.
const BEGIN: [i64; 2] = [200_000, 200_000];

/// The sides of a polygon whose corners are whole numbers: its edges are the directions, one behind the other. Of an odd number of sides
/// one side is left out, and its neighbours meet farther out.
fn polygon(n: usize) -> Vec<Side> {
    let mut at = BEGIN;
    let mut side = |[x, y]: [i64; 2]| {
        let side = [y, -x, y * at[0] - x * at[1]];
        at = [at[0] + x, at[1] + y];
        side
    };
    let mut sides: Vec<Side> = directions(n).into_iter().map(&mut side).collect();
    sides.truncate(n);
    sides
}

/// A polygon three times as large around its middle, and then the polygon. The middle lies halfway to where half the walk leads.
fn rings(random: &mut Random, n: usize) -> [Vec<Side>; 2] {
    let steps = directions(n - n / 2);
    let twice_middle = |k: usize| 2 * BEGIN[k] + steps[..steps.len() / 2].iter().map(|step| step[k]).sum::<i64>();
    let middle = [twice_middle(0), twice_middle(1)];
    let large = polygon(n - n / 2).iter().map(|[a, b, c]| [*a, *b, 3 * c - a * middle[0] - b * middle[1]]).collect();
    [shuffled(random, large), shuffled(random, polygon(n / 2))]
}

#[cfg(test)]
mod tests {
    use super::*;
    use search::corners::corners_of;
    use search::layout::TWO;
    use search::read::read_as;

    fn count(region: Region, n: usize) -> usize {
        let book = region(&mut Random::new(n as u64), n).packed_as(&TWO);
        let read = read_as(&TWO, &book).expect("an accepted book");
        corners_of(&read.terms, &read.rules).len()
    }

    #[test]
    fn every_rule_of_a_polygon_is_a_side() {
        for n in [16, 54, 255, 1_024] {
            assert_eq!([count(REGIONS[1].1, n), count(REGIONS[2].1, n)], [n, n]);
        }
    }

    #[test]
    fn every_region_has_a_corner_and_rings_those_of_the_small_one() {
        assert!(REGIONS.iter().all(|(_, region)| count(*region, 255) > 0));
        assert!([3, 4].iter().all(|i| count(REGIONS[*i].1, 256) == 128));
    }
}
