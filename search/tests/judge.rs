//! The judge and the codec themselves: right lines pass, lines with one thing wrong do not.

use search::book::{from_hex, Rule, Source};
use search::judge::{expected, expected_as, Expected};
use search::layout::TWO;
use search::prefixes::Way;
use search::random::Random;
use search::read::read;

fn source(p: i16, q: i16, rules: &[(u8, i16, i16, i32)]) -> Source {
    let rules = rules.iter().zip(7..).map(|(&(kind, a, b, c), label)| Rule { kind, a, b, c, label }).collect();
    Source { p, q, lx: 0, ly: 0, rules }
}

fn verdicts(source: &Source, right: &str, wrong: &[&str]) {
    judged(&expected(&source.packed(), Way::Anew), right, wrong);
}

fn judged(expected: &Expected, right: &str, wrong: &[&str]) {
    assert_eq!(expected.judge(right.as_bytes()), Ok(()));
    for line in wrong {
        assert!(expected.judge(line.as_bytes()).is_err(), "{line:?} passed");
    }
}

#[test]
fn best_is_exact() {
    let tens = source(1, 1, &[(1, 10, 0, 14), (1, 0, 10, 14)]);
    let wrong = [
        "best 14 14 10 0 2\n",
        "best 7 7 5 1 2\n",
        "best 7 7 5 0 1\n",
        "best 7 7 5 0 2",
        "best 7 7 5 0 2\n\n",
        "best 7 7 5 0 2 \n",
        "best 7 7 5  0 2\n",
        "best 7 7 5 0 02\n",
        "best 7 7 5 0 2 0\n",
        "best 7 7 50 2\n",
        "best +7 7 5 0 2\n",
        "unlimited 7 7 5 0 2\n",
        "best 7 7 5 0\n",
        "Best 7 7 5 0 2\n",
        "",
        "\n",
        "refused 1 0\n",
        "best 7 7 5 -0 2\n",
    ];
    verdicts(&tens, "best 7 7 5 0 2\n", &wrong);
}

#[test]
fn unlimited_is_exact() {
    let tilted = source(1, 0, &[(1, 1, -1, 2)]);
    let wrong =
        ["unlimited 0 0 1 2 2 0 2\n", "unlimited 0 0 1 0 1 0 2\n", "unlimited 1 0 1 1 1 0 2\n", "unlimited 0 0 1 1 1 0 1\n"];
    verdicts(&tilted, "unlimited 0 0 1 1 1 0 2\n", &wrong);
}

#[test]
fn witnesses_are_judged_by_their_property() {
    let rules = [(1, 0, 0, 5), (2, 1, 1, 4), (1, 1, 0, 1), (1, 0, 1, 1), (1, 0, 1, -9)];
    let wrong = [
        "impossible 4 2 0 3 2 1 3 1 4 0\n",
        "impossible 4 2 0 3 3 1 2 1 4 1\n",
        "impossible 4 2 0 3 2 1 3 1 3 1\n",
        "impossible 4 2 0 2 2 1 3 1 4 1\n",
        "impossible 4 2 0 3 2 1 3 1 4 2\n",
        "impossible 4 2 0 3 2 -1 3 -1 4 -1\n",
        "impossible 4 2 0 2 Y 1 5 1\n",
        "impossible 5 2 0 3 2 1 3 1 4 1\n",
        "impossible 4 2 0 3 2 1 3 1 4\n",
        "impossible 4 2 0 0\n",
        "impossible 4 2 0\n",
        "impossible 4 2 0 1 1 1\n",
        "impossible 4 3 0 3 2 1 3 1 4 1\n",
        "impossible 4 2 0 3 2 01 3 1 4 1\n",
        "impossible 4 2 0 4 1 1 2 1 3 1 4 1\n",
        "impossible 4 2 0 3 2 2147352579 3 2147352579 4 2147352579\n",
    ];
    let source = source(-1, -1, &rules);
    verdicts(&source, "impossible 4 2 0 3 2 1 3 1 4 1\n", &wrong);
    verdicts(&source, "impossible 4 2 0 3 2 2147352578 3 2147352578 4 2147352578\n", &[]);
}

#[test]
fn floors_come_first() {
    let below = source(0, 0, &[(1, 1, 1, -1)]);
    let wrong = [
        "impossible 1 1 0 3 1 1 X 1 Y 1\n",
        "impossible 1 1 0 3 Y 1 X 1 1 1\n",
        "impossible 1 1 0 2 X 1 1 1\n",
        "impossible 1 1 0 3 x 1 y 1 1 1\n",
    ];
    verdicts(&below, "impossible 1 1 0 3 X 1 Y 1 1 1\n", &wrong);
}

#[test]
fn floors_have_their_numbers() {
    let with_floors = |rules: &[(u8, i16, i16, i32)]| {
        let source = Source { lx: -7, ly: 3, ..source(-1, -1, rules) };
        expected_as(&TWO, &source.packed_as(&TWO), Way::Anew)
    };
    let wrong = ["best 7 3 1 0 0\n", "best 0 0 1 0 0\n", "best -7 3 -1 0 0\n", "best --7 3 1 0 0\n", "best -7 -3 1 0 0\n"];
    judged(&with_floors(&[]), "best -7 3 1 0 0\n", &wrong);
    let wrong = ["impossible 1 1 0 2 X 1 1 1\n", "impossible 1 1 0 1 1 1\n", "impossible 1 1 0 2 Y 2 1 1\n"];
    judged(&with_floors(&[(1, 0, 1, 2)]), "impossible 1 1 0 2 Y 1 1 1\n", &wrong);
    judged(&with_floors(&[(1, 0, 1, 2)]), "impossible 1 1 0 2 Y 2147352578 1 2147352578\n", &[]);
}

#[test]
fn a_scattered_book_reads_as_the_packed_one() {
    let source = source(3, -4, &[(1, 1, 2, 8), (2, -32767, 1, -1_000_000_000), (1, 0, 0, 0)]);
    let mut random = Random::new(5);
    for _ in 0..200 {
        let (one, two) = (read(&source.packed()).unwrap(), read(&source.scattered(9, &mut random)).unwrap());
        assert_eq!(one.terms, two.terms);
        assert!(one.rules.iter().map(|r| r.line).eq(two.rules.iter().map(|r| r.line)));
    }
}

#[test]
fn hexadecimal_is_whole_bytes() {
    assert_eq!(from_hex("0a Ff"), Some(vec![10, 255]));
    assert_eq!(from_hex("0a f"), None);
    assert_eq!(from_hex("0g"), None);
}
