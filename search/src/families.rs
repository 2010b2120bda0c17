//! Random rules and floors, one function a family: each aims at a situation that a planner gets wrong.

use crate::book::{Rule, Source};
use crate::layout::Layout;
use crate::random::Random;

type Numbers = (i64, i64, i64);
type Family = fn(&mut Random, usize) -> Vec<Numbers>;

pub const TOP: i64 = 32_767;
pub const FAR: i64 = 1_000_000_000;

const FAMILIES: [(&str, Family); 16] = [
    ("small", small),
    ("bounded", bounded),
    ("parallel", parallel),
    ("duplicates", duplicates),
    ("one corner", one_corner),
    ("large corner", large_corner),
    ("flat", flat),
    ("extreme", extreme),
    ("extreme around a pair", extreme_feasible),
    ("near parallel", near_parallel),
    ("greatest corner", greatest_corner),
    ("open", open),
    ("open, then closed", open_then_closed),
    ("tangents", tangents),
    ("wedge", wedge),
    ("uniform", uniform),
];

/// A random source of n rules for a version, with the name of its family; labels are distinct but in one book in sixteen.
pub fn source(layout: &Layout, random: &mut Random, n: usize) -> (&'static str, Source) {
    let (name, family) = random.pick(&FAMILIES);
    let mut rules = family(random, n);
    if random.one_in(3) {
        random.shuffle(&mut rules);
    }
    if random.one_in(4) {
        twist(random, &mut rules);
    }
    let (lx, ly) = floors(layout, random, &mut rules);
    let (p, q) = objective(random, &rules);
    let mut rules = labelled(random, &rules);
    match random.below(16) {
        0 => repeat_label(random, &mut rules),
        1 => near_label(random, &mut rules),
        _ => (),
    }
    (name, Source { p: p as i16, q: q as i16, lx, ly, rules })
}

/// A random source whose counts are as great as n rules can make them, or nearly: each rule moves the best pair, or each prefix is open.
/// In one of three the last rules bound what was open or contradict each other.
pub fn busy_source(layout: &Layout, random: &mut Random, n: usize) -> (&'static str, Source) {
    let (name, mut rules, (p, q)) = match random.below(3) {
        0 => ("tangents, all moving", tangents(random, n), (-1, 0)),
        1 => ("tangents, all open", tangents(random, n), (1, random.between(0, 3))),
        _ => ("open along a direction", open_along(random, n), (1, 1)),
    };
    if random.one_in(3) {
        twist(random, &mut rules);
    }
    let (lx, ly) = if layout.floors { (floor(random), floor(random)) } else { (0, 0) };
    carry(&mut rules, lx, ly);
    (name, Source { p, q: q as i16, lx: lx as i16, ly: ly as i16, rules: labelled(random, &rules) })
}

/// A random source whose walk comes to carry the region's boundary along. Most rules move a pair, and rules that move none stand among
/// them, so that the change-over comes early, late, or not at all. The last rules touch what stands before them.
pub fn carried_source(layout: &Layout, random: &mut Random, n: usize) -> (&'static str, Source) {
    let mut rules = tangents(random, n);
    let idle = random.below(5);
    rules.iter_mut().filter(|_| random.below(8) < idle).for_each(|rule| *rule = (1, 1, FAR));
    for i in n - random.below(n / 2 + 1)..n {
        rules[i] = touching(random, &rules[..i]);
    }
    let (p, q) = random.pick(&[(-1, 0), (-1, 0), (-1, 1), (0, 0), (1, 0), (1, 2)]);
    let (lx, ly) = if layout.floors { (floor(random), floor(random)) } else { (0, 0) };
    carry(&mut rules, lx, ly);
    ("carried", Source { p, q, lx: lx as i16, ly: ly as i16, rules: labelled(random, &rules) })
}

/// A rule that touches earlier ones, most often the last few: one of them again or as a multiple, parallel to it, through the corner of two,
/// its other side, or a rule without a line. One in four hundred leaves no pair.
fn touching(random: &mut Random, earlier: &[Numbers]) -> Numbers {
    let reach = if random.one_in(3) { earlier.len() } else { earlier.len().min(6) };
    let mut one = || earlier[earlier.len() - 1 - random.below(reach)];
    let ((a, b, c), (d, e, f)) = (one(), one());
    let rule = match random.below(8) {
        0 => (a, b, c),
        1 => (2 * a, 2 * b, 2 * c),
        2 => (a, b, c + random.between(-3, 3)),
        3 | 4 => (a + d, b + e, c + f),
        5 => (2 * a + d, 2 * b + e, 2 * c + f - random.between(0, 1)),
        6 => (-a, -b, -c + random.between(0, 1_000) * random.between(0, 1_000)),
        _ => (0, 0, random.between(0, 2)),
    };
    let lawful = rule.0.abs() <= TOP && rule.1.abs() <= TOP && rule.2.abs() <= FAR;
    match random.below(400) {
        0 => (-a, -b, -c - 1),
        _ if lawful => rule,
        _ => (a, b, c),
    }
}

/// A hundred books of up to 29 rules, for a program: to start one costs more than to plan.
pub fn hundred_books(layout: &Layout, random: &mut Random) -> Vec<(&'static str, Vec<u8>)> {
    let mut book = || {
        let n = random.below(30);
        let (name, source) = source(layout, random, n);
        (name, source.scattered_as(layout, 9, random))
    };
    (0..100).map(|_| book()).collect()
}

/// The longest books of a version, for a program: some of any family, some whose counts are as great as they can be.
pub fn longest_books(layout: &Layout, random: &mut Random) -> Vec<(&'static str, Vec<u8>)> {
    let book = |i: usize| {
        let n = layout.most_rules() - random.below(i + 1);
        let (name, source) = if i % 2 == 0 { busy_source(layout, random, n) } else { source(layout, random, n) };
        (name, source.scattered_as(layout, 9, random))
    };
    (0..8).map(book).collect()
}

/// The floors: zero in a version that has none and in a third of the other books. Most rules are carried along, so that they stand to the
/// floors' corner as their family has them stand to (0, 0); the others are cut by floors that they do not know.
fn floors(layout: &Layout, random: &mut Random, rules: &mut [Numbers]) -> (i16, i16) {
    if !layout.floors || random.one_in(3) {
        return (0, 0);
    }
    let (lx, ly) = (floor(random), floor(random));
    if !random.one_in(3) {
        carry(rules, lx, ly);
    }
    if random.one_in(6) {
        clash(random, rules, lx, ly);
    }
    (lx as i16, ly as i16)
}

/// Zero, small of either sign, anything, or at an end of the range.
fn floor(random: &mut Random) -> i64 {
    match random.below(8) {
        0 => 0,
        1 | 2 => random.between(1, 9),
        3 | 4 => random.between(-9, -1),
        5 => random.between(-TOP - 1, TOP),
        6 => random.between(-300, 300),
        _ => random.pick(&[-TOP - 1, -TOP - 1, TOP, TOP, -TOP, TOP - 1]),
    }
}

/// Moves rules by a pair, as far as c can follow.
fn carry(rules: &mut [Numbers], x: i64, y: i64) {
    rules.iter_mut().for_each(|(a, b, c)| *c = (*c + *a * x + *b * y).clamp(-FAR, FAR));
}

/// One rule that leaves a floor, or both together, no room or just their own line or corner.
fn clash(random: &mut Random, rules: &mut [Numbers], lx: i64, ly: i64) {
    if rules.is_empty() {
        return;
    }
    let at = random.below(rules.len());
    let (a, b) = random.pick(&[(1, 0), (0, 1), (1, 1), (2, 3)]);
    let times = random.pick(&[1, 1, 3, 1_000]);
    rules[at] = (times * a, times * b, times * (a * lx + b * ly) - random.pick(&[0, 1, 1]));
}

/// The last rules bound what was open or contradict each other, so that much happens late.
fn twist(random: &mut Random, rules: &mut [Numbers]) {
    let far = random.pick(&[10, 1_000, 30_000]);
    let (x, y) = (random.between(0, far), random.between(0, far));
    let (a, b) = (random.between(-9, 9), random.between(1, 9));
    let end = match random.below(4) {
        0 => vec![(1, 1, x + y)],
        1 => vec![(1, 0, x), (0, 1, y)],
        2 => vec![(a, b, a * x + b * y), (-a, -b, -a * x - b * y - 1)],
        _ => vec![(1, 0, x), (0, 1, y), (-1, -1, -x - y - 1)],
    };
    if let Some(first) = rules.len().checked_sub(end.len()) {
        rules[first..].copy_from_slice(&end);
    }
}

/// Records for the rules: kinds at random, kind 2 written the other way round.
fn labelled(random: &mut Random, rules: &[Numbers]) -> Vec<Rule> {
    let first = random.word() as u16;
    let step = 2 * random.below(30_000) as u16 + 1;
    let mut label = first;
    rules
        .iter()
        .map(|&(a, b, c)| {
            let sign = random.pick(&[1, -1]);
            label = label.wrapping_add(step);
            let kind = if sign == 1 { 1 } else { 2 };
            Rule { kind, a: (sign * a) as i16, b: (sign * b) as i16, c: (sign * c) as i32, label }
        })
        .collect()
}

/// Two labels that differ in one bit alone, or the ends of the range, which one rule in the book may have already.
fn near_label(random: &mut Random, rules: &mut [Rule]) {
    if rules.len() < 2 {
        return;
    }
    let from = random.below(rules.len());
    let to = (from + 1 + random.below(rules.len() - 1)) % rules.len();
    rules[from].label = random.pick(&[rules[from].label, 0, 32_767, 32_768, 65_535]);
    let bit = if random.one_in(2) { 15 } else { random.below(16) };
    rules[to].label = rules[from].label ^ 1 << bit;
}

/// A label typed twice: at neighbours, anywhere, or at every rule; often one at the end of the range.
fn repeat_label(random: &mut Random, rules: &mut [Rule]) {
    if rules.len() < 2 {
        return;
    }
    let from = random.below(rules.len());
    let label = random.pick(&[rules[from].label, 65_535]);
    rules[from].label = label;
    match random.below(4) {
        0 => rules.iter_mut().for_each(|r| r.label = label),
        1 => rules[(from + 1) % rules.len()].label = label,
        _ => rules[random.below(rules.len())].label = label,
    }
}

/// Small, zero, extreme, or tied with a rule.
fn objective(random: &mut Random, rules: &[Numbers]) -> (i64, i64) {
    match random.below(6) {
        0 if !rules.is_empty() => {
            let (a, b, _) = random.pick(rules);
            let sign = random.pick(&[1, 1, -1]);
            (sign * a, sign * b)
        }
        1 => (coefficient(random), coefficient(random)),
        2 => (random.between(-1, 1), random.between(-1, 1)),
        3 => (random.between(1, 5), random.between(1, 5)),
        _ => (random.between(-4, 4), random.between(-4, 4)),
    }
}

fn many(n: usize, mut one: impl FnMut() -> Numbers) -> Vec<Numbers> {
    (0..n).map(|_| one()).collect()
}

fn small(random: &mut Random, n: usize) -> Vec<Numbers> {
    many(n, || (random.between(-3, 3), random.between(-3, 3), random.between(-5, 12)))
}

fn bounded(random: &mut Random, n: usize) -> Vec<Numbers> {
    many(n, || (random.between(-1, 5), random.between(-1, 5), random.between(0, 30)))
}

/// Multiples of two or three normals, either way round.
fn parallel(random: &mut Random, n: usize) -> Vec<Numbers> {
    let normals: Vec<(i64, i64)> = (0..3).map(|_| (random.between(-4, 4), random.between(-4, 4))).collect();
    many(n, || {
        let (a, b) = random.pick(&normals);
        let times = random.pick(&[1, 1, 2, 3, -1]);
        (times * a, times * b, random.between(-4, 20) * random.pick(&[1, times]))
    })
}

fn duplicates(random: &mut Random, n: usize) -> Vec<Numbers> {
    let pool = bounded(random, 4);
    many(n, || {
        let (a, b, c) = random.pick(&pool);
        let times = random.pick(&[1, 1, 1, 2, 5]);
        (times * a, times * b, times * c)
    })
}

/// Rules through one small pair or a hair beside it.
fn one_corner(random: &mut Random, n: usize) -> Vec<Numbers> {
    let (x, y) = (random.between(0, 5), random.between(0, 5));
    let aside = [0, 0, 0, 0, 1, if random.one_in(3) { -1 } else { 0 }];
    many(n, || {
        let (a, b) = (random.between(-6, 6), random.between(-6, 6));
        (a, b, a * x + b * y + random.pick(&aside))
    })
}

/// The same with large coefficients and a far corner.
fn large_corner(random: &mut Random, n: usize) -> Vec<Numbers> {
    let (x, y) = (random.between(0, 15_000), random.between(0, 15_000));
    let slack = random.pick(&[0, 0, 1, 1000]);
    many(n, || {
        let (a, b) = (coefficient(random), coefficient(random));
        (a, b, (a * x + b * y + random.between(0, slack)).clamp(-FAR, FAR))
    })
}

/// Many rules with a = b = 0, few of them broken.
fn flat(random: &mut Random, n: usize) -> Vec<Numbers> {
    let low = if random.one_in(3) { -1 } else { 0 };
    many(n, || match random.below(3) {
        0 => (0, 0, random.between(low, 2) * random.pick(&[1, 1, FAR / 2])),
        1 => (random.between(0, 3), 0, random.between(0, 9)),
        _ => (random.between(-2, 3), random.between(-2, 3), random.between(0, 9)),
    })
}

fn coefficient(random: &mut Random) -> i64 {
    match random.below(4) {
        0 => random.pick(&[TOP, -TOP]),
        1 => random.pick(&[TOP - 1, 1 - TOP, 1, -1, 0]),
        _ => random.between(-TOP, TOP),
    }
}

fn extreme(random: &mut Random, n: usize) -> Vec<Numbers> {
    let low = random.pick(&[-1, 0, 0]);
    many(n, || {
        let c = match random.below(3) {
            0 => FAR * random.between(low, 1),
            1 => random.pick(&[FAR - 1, 1, 0, low, low * (FAR - 1)]),
            _ => random.between(low * FAR, FAR),
        };
        (coefficient(random), coefficient(random), c)
    })
}

/// Extreme rules that a chosen pair keeps, often barely.
fn extreme_feasible(random: &mut Random, n: usize) -> Vec<Numbers> {
    let (x, y) = (random.between(0, 30_000), random.between(0, 30_000));
    many(n, || {
        let (a, b) = (coefficient(random), coefficient(random));
        let least = a * x + b * y;
        let slack = random.pick(&[0, 1, 40_000, FAR]);
        if least.abs() > FAR {
            (0, 0, 0)
        } else {
            (a, b, (least + random.between(0, slack)).min(FAR))
        }
    })
}

/// Normals that differ in the last unit, with c close to the top.
fn near_parallel(random: &mut Random, n: usize) -> Vec<Numbers> {
    let sign = random.pick(&[1, 1, -1]);
    many(n, || {
        let a = TOP - random.between(0, 3);
        let b = random.pick(&[1, 1, -1]) * (TOP - random.between(0, 3));
        let turn = random.pick(&[1, 1, 1, sign]);
        (turn * a, turn * b, turn * (FAR - random.between(0, 5)))
    })
}

/// Rules that meet in pairs with X or Y close to the greatest: b is at one end of its range and then at the other, c at its top.
fn greatest_corner(random: &mut Random, n: usize) -> Vec<Numbers> {
    let upright = random.one_in(2);
    let turn = random.pick(&[1, 1, -1]);
    many(n, || {
        let (a, b) = (random.between(0, TOP), random.pick(&[TOP, -TOP]));
        let (a, b) = if upright { (b, a) } else { (a, b) };
        (turn * a, turn * b, turn * (FAR - random.pick(&[0, 0, 0, 1])))
    })
}

/// A direction that lowers neither rate keeps every rule, so that prefixes stay open for long.
fn open(random: &mut Random, n: usize) -> Vec<Numbers> {
    let (dx, dy) = (random.between(0, 3), random.between(0, 3));
    let top = random.pick(&[6, 6, TOP]);
    many(n, || {
        let (a, b) = (random.between(-top, top), random.between(-top, top));
        let sign = if a * dx + b * dy > 0 && !random.one_in(20) { -1 } else { 1 };
        (sign * a, sign * b, random.between(-20, 40))
    })
}

/// The direction (1, 1) keeps every rule.
fn open_along(random: &mut Random, n: usize) -> Vec<Numbers> {
    many(n, || {
        let a = random.between(-TOP, TOP);
        (a, random.between(-TOP, -a.max(0)), random.between(-FAR, FAR))
    })
}

/// The direction (1, 1) keeps every rule but perhaps the last.
fn open_then_closed(random: &mut Random, n: usize) -> Vec<Numbers> {
    let mut rules = open_along(random, n);
    if let Some(last) = rules.last_mut().filter(|_| random.one_in(2)) {
        *last = (random.between(1, TOP), random.between(1, TOP), FAR);
    }
    rules
}

/// Tangents of a parabola over which the least x lies, each cutting a little off.
fn tangents(random: &mut Random, n: usize) -> Vec<Numbers> {
    let reach = n as i64 / 2 + 1;
    let tall = random.between(reach, reach.max(300));
    let aside = random.pick(&[0, 0, 1]);
    (0..n as i64)
        .map(|i| {
            let t = (reach - i / 2) * if i % 2 == 0 { -1 } else { 1 };
            (-1, 2 * t, t * t + 2 * t * tall - reach * reach - 1 + random.between(-aside, aside))
        })
        .collect()
}

/// Two kinds of rules that leave less and less room and may close it.
fn wedge(random: &mut Random, n: usize) -> Vec<Numbers> {
    let mut room = random.between(1, 40) * n as i64;
    let scale = random.pick(&[1, 3, 1000]);
    many(n, || {
        room -= random.between(0, 45);
        let (a, b) = (random.between(1, 9), random.between(1, 9));
        if random.one_in(2) {
            (a, b, ((a + b) * (50 * n as i64 + room) * scale).min(FAR))
        } else {
            (-a, -b, (-(a + b) * 50 * n as i64 * scale).max(-FAR))
        }
    })
}

fn uniform(random: &mut Random, n: usize) -> Vec<Numbers> {
    let low = random.pick(&[-FAR, 0, 0]);
    many(n, || (random.between(-TOP, TOP), random.between(-TOP, TOP), random.between(low, FAR)))
}
