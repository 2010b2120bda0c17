//! The measured chains, with floors of zero. All are accepted and allow pairs, so that planner and twin must print the same line.

use crate::regions;
use search::book::{Rule, Source};
use search::random::Random;

/// Chains of n rules of one sort.
pub type Chains = fn(&mut Random, usize) -> Vec<Source>;

pub const SORTS: [(&str, Chains); 3] = [("random", random), ("adversarial", adversarial), ("open", open)];

/// Sorts for which it matters whether passes are made to the end of the chain.
pub const CARRIED: [(&str, Chains); 6] = [
    ("random", random),
    ("adversarial, both pairs", adversarial),
    ("adversarial, best pair", best_pair),
    ("adversarial, start pair", start_pair),
    ("open", open),
    ("polygon", |random, n| vec![regions::REGIONS[2].1(random, n)]),
];

/// How many different chains are measured together: so many long ones that a processor cannot learn their branches by heart. Of two chains
/// of 8,190 rules it was seen to learn them for one planner and not for the other.
fn different(n: usize) -> usize {
    match n {
        0..=255 => 32,
        256..=1_000 => 8,
        _ => 16,
    }
}

/// Any coefficients; c is not negative, so that (0, 0) is allowed. Few rules move the best pair.
fn random(random: &mut Random, n: usize) -> Vec<Source> {
    let mut number = |low| random.between(low, 32_767) as i16;
    let mut chain = || {
        let rules: Vec<Rule> = (0..n).map(|i| rule(i, number(-32_767), number(-32_767), i32::from(number(0)) * 30_000)).collect();
        Source { p: number(1), q: number(1), lx: 0, ly: 0, rules }
    };
    (0..different(n)).map(|_| chain()).collect()
}

/// Every rule moves the best pair and the start pair. The objective is least x; the rules are tangents of a parabola that opens to
/// larger x, from far out towards its tip and from both sides in turn, so that each cuts off the corner of the two before it. Of the longest
/// there are two, since each takes some 40 ms.
fn adversarial(random: &mut Random, n: usize) -> Vec<Source> {
    let mut chain = || {
        let (tip_x, tip_y) = tip(random, n);
        let rules = (0..n).map(|i| tangent(i, n, tip_x, tip_y)).collect();
        Source { p: -1, q: 0, lx: 0, ly: 0, rules }
    };
    (0..different(n).min(if n <= 1_000 { 32 } else { 2 })).map(|_| chain()).collect()
}

/// A tip so far out that the tangents farthest from it meet where x and y are positive, and so near that their c is in range.
fn tip(random: &mut Random, n: usize) -> (i64, i64) {
    if n <= 255 {
        (random.between(20_000, 1_000_000), random.between(200, 1_000_000))
    } else if n <= 4_095 {
        (random.between(5_000_000, 10_000_000), random.between(3_000, 200_000))
    } else {
        (random.between(17_000_000, 25_000_000), random.between(5_000, 110_000))
    }
}

/// x - 2t(y - tip_y) at least tip_x - t².
fn tangent(i: usize, n: usize, tip_x: i64, tip_y: i64) -> Rule {
    let t = (n / 2 + 1 - i / 2) as i64 * if i % 2 == 0 { -1 } else { 1 };
    rule(i, -1, (2 * t) as i16, (t * t + 2 * t * tip_y - tip_x) as i32)
}

/// Every rule moves the start pair, and none a best pair: the same tangents where x earns, so that every prefix is unlimited.
fn start_pair(random: &mut Random, n: usize) -> Vec<Source> {
    adversarial(random, n).into_iter().map(|chain| Source { p: 1, ..chain }).collect()
}

/// Every rule from the third on moves the best pair, and none the start pair: tangents of a parabola that opens to smaller x, likewise,
/// where x earns. They allow (0, 0).
fn best_pair(random: &mut Random, n: usize) -> Vec<Source> {
    let mut chain = || {
        let (tip_x, tip_y) = (random.between(100_000_000, 200_000_000), random.between(5_000, 10_000));
        let rules = (0..n).map(|i| turned(i, n, tip_x, tip_y)).collect();
        Source { p: 1, q: 0, lx: 0, ly: 0, rules }
    };
    (0..different(n).min(if n <= 1_000 { 32 } else { 2 })).map(|_| chain()).collect()
}

/// x + 2t(y - tip_y) at most tip_x + t².
fn turned(i: usize, n: usize, tip_x: i64, tip_y: i64) -> Rule {
    let t = (n / 2 + 1 - i / 2) as i64 * if i % 2 == 0 { -1 } else { 1 };
    rule(i, 1, (2 * t) as i16, (tip_x + t * t + 2 * t * tip_y) as i32)
}

/// The direction (1, 1) goes away from every rule's line, so that every prefix is unlimited; the start pair moves now and then. Two rules
/// that the direction runs along could be impossible together.
fn open(random: &mut Random, n: usize) -> Vec<Source> {
    let mut one = |i| {
        let (a, b) = (random.between(-32_767, 32_767) as i16, random.between(-32_767, 32_767) as i16);
        let c = random.between(-1_000_000_000, 1_000_000_000) as i32;
        match (i32::from(a) + i32::from(b)).signum() {
            -1 => rule(i, a, b, c),
            0 => rule(i, -1, -1, c),
            _ => rule(i, -a, -b, c),
        }
    };
    (0..different(n)).map(|_| Source { p: 1, q: 1, lx: 0, ly: 0, rules: (0..n).map(&mut one).collect() }).collect()
}

/// Every other rule is written as kind 2.
fn rule(i: usize, a: i16, b: i16, c: i32) -> Rule {
    let label = i as u16;
    if i % 2 == 0 {
        Rule { kind: 1, a, b, c, label }
    } else {
        Rule { kind: 2, a: -a, b: -b, c: -c, label }
    }
}

#[cfg(test)]
mod tests {
    use super::*;
    use search::judge::expected_as;
    use search::layout::TWO;
    use search::prefixes::Way;

    fn shown(chains: Chains, n: usize) -> Vec<String> {
        let (some, way) = if n > 100 { (1, Way::OnePass) } else { (different(n), Way::Anew) };
        let chains = chains(&mut Random::new(n as u64), n);
        chains.iter().take(some).map(|chain| expected_as(&TWO, &chain.packed_as(&TWO), way).shown()).collect()
    }

    /// The same chains where nothing is earned, so that the start pair's moves are what is counted.
    fn idle(random: &mut Random, n: usize) -> Vec<Source> {
        adversarial(random, n).into_iter().map(|chain| Source { p: 0, ..chain }).collect()
    }

    #[test]
    fn adversarial_rules_all_move() {
        for n in [16, 64, 255, 1_000, 4_095] {
            for line in [shown(adversarial, n), shown(idle, n)].concat() {
                assert!(line.starts_with("best") && line.ends_with(&format!(" {n} 0")), "{line}");
            }
        }
    }

    #[test]
    fn one_pair_moves_alone() {
        for n in [16, 64, 255, 1_000, 4_095] {
            assert!(shown(best_pair, n).iter().all(|line| line.starts_with("best") && line.ends_with(&format!(" {} 2", n - 2))));
            assert!(shown(start_pair, n)
                .iter()
                .all(|line| line.starts_with("unlimited") && line.ends_with(&format!(" 0 {}", n + 1))));
        }
    }

    #[test]
    fn open_chains_stay_open() {
        for n in [40, 4_095] {
            for line in shown(open, n) {
                assert!(line.starts_with("unlimited") && line.ends_with(&format!(" 0 {}", n + 1)), "{line}");
            }
        }
    }

    #[test]
    fn random_chains_allow_pairs() {
        let lines = [shown(random, 40), shown(random, 4_095)].concat();
        assert!(lines.iter().all(|line| line.starts_with("best") || line.starts_with("unlimited")));
    }
}
