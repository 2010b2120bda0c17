//! Stored books of up to 255 rules, with the line each must print: the greatest moves, open and place, and labels that are hard to tell
//! apart or typed twice far from each other.

use crate::book::{Rule, Source, MOST_RULES};
use crate::stored::{source, Stored};

/// Kind, a, b and c.
type Numbers = (u8, i16, i16, i32);

pub fn books() -> Vec<Stored> {
    [lengths(), all_move(), impossible(), open(), far_labels(), near_labels()].into_iter().flatten().collect()
}

fn stored(name: &'static str, p: i16, q: i16, rules: &[Numbers], line: &'static str) -> Stored {
    Stored { name, book: source(p, q, rules).packed(), line }
}

/// The longest book, and one record more.
fn lengths() -> Vec<Stored> {
    let book = source(0, 0, &[(2, 1, 1, 2); MOST_RULES]).packed();
    let longer = [&book[..], &[0; 12]].concat();
    vec![
        Stored { name: "edge: 3,072 bytes", book, line: "best 0 2 1 1 0" },
        Stored { name: "edge: 3,084 bytes", book: longer, line: "refused 1 0" },
    ]
}

/// Tangents of a parabola that opens to larger x, from far out towards its tip and from both sides in turn: each cuts off the corner with
/// least x of those before it. With the objective -x every rule is a move, with the objective x every prefix is open.
pub fn tangents(n: usize) -> Vec<Numbers> {
    let reach = n as i32 / 2 + 1;
    let one = |i: i32| {
        let t = (reach - i / 2) * if i % 2 == 0 { -1 } else { 1 };
        (1, -1, (2 * t) as i16, t * t + 2 * t * 1_000 - reach * reach - 3_616)
    };
    (0..n as i32).map(one).collect()
}

/// x + y at most 10,000, then at most one less each time.
fn falling(n: usize) -> Vec<Numbers> {
    (0..n as i32).map(|i| (1, 1, 1, 10_000 - i)).collect()
}

/// Rules i·x - 256·y at most i² for i from 1 on: the direction that is given becomes steeper with each.
pub fn steeper(n: usize) -> Vec<Numbers> {
    (1..=n as i16).map(|i| (1, i, -256, i32::from(i).pow(2))).collect()
}

/// Rules x + i·y at most 900,000,000 + i², which leave much room.
fn wide(n: usize) -> Vec<Numbers> {
    (1..=n as i16).map(|i| (1, 1, i, 900_000_000 + i32::from(i).pow(2))).collect()
}

/// The greatest number of moves, and one less.
fn all_move() -> Vec<Stored> {
    let one_less = [&tangents(254)[..], &[(1, 0, 0, 0)]].concat();
    let greatest_x = [(1, 32767, -32767, 1_000_000_000), (1, 32766, 32767, 1_000_000_000)];
    vec![
        stored("255 moves", -1, 0, &tangents(255), "best 39996 2001 2 255 0"),
        stored("254 moves, the last rule is kept", -1, 0, &one_less, "best 19996 1000 1 254 0"),
        stored("254 moves, each to a parallel rule", 1, 1, &falling(255), "best 0 9746 1 254 1"),
        stored("251 moves", -1, 0, &tangents(251), "best 38980 2001 2 251 0"),
        stored(
            "the greatest X in the last two of 255 rules",
            1,
            0,
            &[&wide(253)[..], &greatest_x].concat(),
            "best 65534000000000 1000000000 2147319811 2 1",
        ),
    ]
}

/// Chains that end without a pair, after many moves, with and without rules after that.
fn impossible() -> Vec<Stored> {
    let (end, above) = ((1, 1, 0, 0), (2, 1, 1, 10_000));
    let ended = |n: usize| [&tangents(n)[..], &[end]].concat();
    let amid = [&tangents(255)[..99], &[end], &tangents(255)[99..254]].concat();
    vec![
        stored("impossible after 255 moves", -1, 0, &ended(254), "impossible 255 255 0 *"),
        stored("impossible after 61 moves", -1, 0, &ended(60), "impossible 61 61 0 *"),
        stored("impossible after 100 moves, 155 rules follow", -1, 0, &amid, "impossible 100 100 0 *"),
        stored(
            "impossible after 255 open prefixes",
            1,
            1,
            &[&steeper(254)[..], &[(1, 0, 0, -1)]].concat(),
            "impossible 255 0 255 *",
        ),
        stored(
            "impossible after 128 open prefixes and 127 moves",
            1,
            1,
            &[&steeper(127)[..], &falling(127), &[above]].concat(),
            "impossible 255 127 128 *",
        ),
    ]
}

/// The greatest number of open prefixes, and one less.
fn open() -> Vec<Stored> {
    vec![
        stored("256 open prefixes, the start pair moves", 1, 0, &tangents(255), "unlimited 39996 2001 2 1 0 0 256"),
        stored("256 open prefixes, the direction turns", 1, 1, &steeper(255), "unlimited 0 0 1 256 255 0 256"),
        stored(
            "255 open prefixes, the last rule closes",
            1,
            1,
            &[&steeper(254)[..], &falling(1)].concat(),
            "best 0 10000 1 0 255",
        ),
        stored("128 open prefixes, then 127 moves", 1, 1, &[&steeper(127)[..], &falling(128)].concat(), "best 0 9873 1 127 128"),
    ]
}

/// A chain of 255 equal rules with these labels.
fn labelled(labels: &[u16]) -> Vec<u8> {
    let rule = |&label: &u16| Rule { kind: 2, a: 1, b: 1, c: 2, label };
    Source { p: 0, q: 0, lx: 0, ly: 0, rules: labels.iter().map(rule).collect() }.packed()
}

/// 255 labels from 101 on, with some set to others.
fn labels(set: &[(usize, u16)]) -> Vec<u16> {
    let mut labels: Vec<u16> = (101..101 + MOST_RULES as u16).collect();
    set.iter().for_each(|&(at, label)| labels[at] = label);
    labels
}

/// A name, the labels that are set, by the rule's place, and the line.
type Labels = (&'static str, &'static [(usize, u16)], &'static str);

/// A label typed twice, far apart or at the end of a long chain.
fn far_labels() -> Vec<Stored> {
    let rows: [Labels; 8] = [
        ("12: far apart", &[(254, 101)], "refused 12 255"),
        ("12: far apart, another after it", &[(253, 101)], "refused 12 254"),
        ("12: 65,535 first and last", &[(0, 65_535), (254, 65_535)], "refused 12 255"),
        ("12: 65,535 in the last two", &[(253, 65_535), (254, 65_535)], "refused 12 255"),
        ("12: 65,535 three times, the second counts", &[(3, 65_535), (200, 65_535), (254, 65_535)], "refused 12 201"),
        ("12: 32,768 first and last", &[(0, 32_768), (254, 32_768)], "refused 12 255"),
        ("12: 0 first and last", &[(0, 0), (254, 0)], "refused 12 255"),
        ("12: 65,535 once", &[(254, 65_535)], "best 0 2 1 1 0"),
    ];
    rows.iter().map(|&(name, set, line)| Stored { name, book: labelled(&labels(set)), line }).collect()
}

/// Labels on a long chain that differ in one bit alone: in bit 15 each from its partner; then 0 first and every single bit last, 65,535
/// first and every label that lacks one bit last.
fn near_labels() -> Vec<Stored> {
    let partners: Vec<u16> = (0..MOST_RULES as u16).map(|i| if i < 128 { i } else { 32_768 + i - 128 }).collect();
    let bits = |first: u16| {
        let last = (0..16).map(|k| (239 + k, first ^ 1 << k));
        let middle = (1..239).map(|i| (i, 0x5A00 + i as u16));
        labels(&[(0, first)].into_iter().chain(middle).chain(last).collect::<Vec<_>>())
    };
    vec![
        Stored { name: "12: labels that differ in bit 15 alone", book: labelled(&partners), line: "best 0 2 1 1 0" },
        Stored { name: "12: labels of one bit", book: labelled(&bits(0)), line: "best 0 2 1 1 0" },
        Stored { name: "12: labels that lack one bit", book: labelled(&bits(65_535)), line: "best 0 2 1 1 0" },
    ]
}
