//! The pass that cuts lines says of every chain what the exhaustive search of each prefix says.

use search::book::Source;
use search::clip;
use search::exact::{outcome, Line};
use search::families::{busy_source, source};
use search::judge::{expected, expected_as};
use search::layout::{ONE, TWO};
use search::prefixes::{search, Way};
use search::random::Random;
use search::read::read_as;

/// Random chains of at most so many rules, with floors, those with a label typed twice left out.
fn agree(seed: u64, books: usize, most: usize) {
    let mut random = Random::new(seed);
    for _ in 0..books {
        let n = most - random.below(most / 2 + 1);
        let (name, source) = source(&TWO, &mut random, n);
        let Ok(book) = read_as(&TWO, &source.packed_as(&TWO)) else { continue };
        let rules: Vec<Line> = book.rules.iter().map(|r| r.line).collect();
        let said = |way| search(&book.terms, &rules, way);
        assert_eq!(said(Way::Anew), said(Way::OnePass), "{name}: {source:?}");
    }
}

#[test]
fn on_short_chains() {
    agree(1, 6_000, 4);
    agree(2, 6_000, 12);
}

#[test]
fn on_long_chains() {
    agree(3, 200, 60);
    agree(4, 12, 255);
}

/// Some prefixes of a chain of 4,095 rules, planned as books of their own, and a short one by the exhaustive search.
fn prefixes_agree(name: &str, source: &Source) {
    let book = read_as(&TWO, &source.packed_as(&TWO)).unwrap();
    let rules: Vec<Line> = book.rules.iter().map(|r| r.line).collect();
    let each = clip::each(&book.terms, &rules);
    assert_eq!(outcome(&book.terms, &rules[..200]), each[200], "{name}");
    for k in [0, 1, 2, 256, 1_000, 4_094, 4_095] {
        assert_eq!(clip::whole(&book.terms, &rules[..k]), each[k], "{name}, {k} rules");
    }
}

#[test]
fn on_the_longest_chains() {
    let mut random = Random::new(5);
    for make in [source, busy_source, busy_source, busy_source] {
        let (name, source) = make(&TWO, &mut random, TWO.most_rules());
        prefixes_agree(name, &source);
    }
}

/// A book says the same in both versions, since records keep their places.
#[test]
fn in_both_versions() {
    let mut random = Random::new(6);
    for n in (0..=255).step_by(3) {
        let (name, source) = source(&ONE, &mut random, n);
        let (one, two) = (expected(&source.packed(), Way::OnePass), expected_as(&TWO, &source.packed_as(&TWO), Way::OnePass));
        assert_eq!(one.shown(), two.shown(), "{name}");
    }
}
