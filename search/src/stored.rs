//! Stored books with the line each must print, the witness as *: class examples, students' slips, edges, and every cause that turns a
//! book back, but the repacker's 11, on both sides of its boundary. By Cramer's rule no corner has an X or Y above 65,534·10⁹;
//! books below reach it, one of them with the greatest D after division, 32,767·65,533.

use crate::book::{from_hex, Rule, Source};
use crate::long;

pub struct Stored {
    pub name: &'static str,
    pub book: Vec<u8>,
    pub line: &'static str,
}

/// Objective, rules (kind, a, b, c) and line.
type Row = (&'static str, (i16, i16), &'static [(u8, i16, i16, i32)], &'static str);

const BOOKS: &[Row] = &[
    ("class: none [0, 0]", (0, 0), &[], "best 0 0 1 0 0"),
    ("class: none [1, 1]", (1, 1), &[], "unlimited 0 0 1 1 0 0 1"),
    ("class: two links", (1, 1), &[(1, 1, 2, 8), (1, 3, 1, 9)], "best 2 3 1 1 1"),
    ("class: fifths", (1, 1), &[(1, 2, 3, 7), (1, 3, 2, 7)], "best 7 7 5 1 1"),
    ("class: a tie", (2, 1), &[(1, 2, 1, 4)], "best 2 0 1 0 1"),
    ("class: along 1 1", (1, 0), &[(1, 1, -1, 2)], "unlimited 0 0 1 1 1 0 2"),
    ("class: parallel", (1, 0), &[(1, 1, 1, 3), (2, 1, 1, 4)], "impossible 2 1 1 *"),
    ("class: below the floor", (0, 0), &[(1, 1, 0, -1)], "impossible 1 1 0 *"),
    ("class: 0 at most -1", (0, 0), &[(1, 0, 0, -1)], "impossible 1 1 0 *"),
    ("class: three rules", (-1, -1), &[(2, 1, 1, 4), (1, 1, 0, 1), (1, 0, 1, 1)], "impossible 3 2 0 *"),
    ("class: 0 at most 0", (0, 0), &[(1, 0, 0, 0)], "best 0 0 1 0 0"),
    ("class: the largest c", (1, 0), &[(1, 32767, 0, 1_000_000_000)], "best 1000000000 0 32767 0 1"),
    ("slip: a gaining direction, no pair", (0, 1), &[(1, 1, 0, -1)], "impossible 1 0 1 *"),
    ("slip: parallel rules passed over", (1, 1), &[(1, 1, 1, 5), (1, 1, -1, 9), (1, 2, 2, 6), (1, -1, -1, -3)], "best 0 3 1 1 1"),
    ("slip: parallel and apart", (0, 0), &[(2, 1, 1, 4), (1, 2, 2, 7)], "impossible 2 2 0 *"),
    ("slip: tied corners", (1, 1), &[(1, 1, 0, 4), (1, 0, 1, 4), (1, 1, 1, 6)], "best 2 4 1 1 2"),
    ("slip: tied corners, last first", (1, 1), &[(1, 1, 1, 6), (1, 0, 1, 4), (1, 1, 0, 4)], "best 2 4 1 1 1"),
    ("slip: a direction with gain 0", (-1, 0), &[(1, 1, 0, 7)], "best 0 0 1 0 0"),
    ("slip: a direction with gain 0, tilted", (1, -1), &[(1, 1, -1, 2)], "best 2 0 1 0 1"),
    ("slip: 14/10", (0, 1), &[(1, 0, 10, 14)], "best 0 7 5 0 1"),
    ("slip: 14/10 on both", (1, 1), &[(1, 10, 0, 14), (1, 0, 10, 14)], "best 7 7 5 0 2"),
    ("slip: dividing before comparing, 4/3 and 5/4", (1, 0), &[(1, 3, 0, 4), (1, 4, 0, 5)], "best 5 0 4 1 1"),
    ("tie: a fraction has the smaller total", (3, 1), &[(1, 3, 1, 7)], "best 7 0 3 0 1"),
    ("tie: the smaller total is on the y axis", (1, 2), &[(1, 1, 2, 7)], "best 0 7 2 0 1"),
    ("tie: of equal totals the least x", (3, 3), &[(1, 0, 2, 5), (1, 1, 1, 4)], "best 3 5 2 0 2"),
    ("tie: neither end is on an axis", (3, 1), &[(1, 3, 1, 12), (2, 1, 0, 1), (2, 0, 1, 1)], "best 11 3 3 1 1"),
    ("tie: a start pair with the smaller total", (1, 0), &[(2, 2, 1, 6)], "unlimited 3 0 1 1 0 0 2"),
    ("tie: a start pair whose total is a fraction", (1, 1), &[(2, 3, 1, 8), (2, 1, 3, 7)], "unlimited 17 13 8 1 0 0 3"),
    ("tie: of start pairs with equal totals the least x", (1, 1), &[(2, 1, 1, 4), (1, 0, 1, 3)], "unlimited 1 3 1 1 0 0 3"),
    ("tie: a rule keeps the smaller total", (2, 1), &[(1, 2, 1, 4), (1, 0, 1, 0)], "best 2 0 1 0 1"),
    ("tie: a rule breaks the smaller total", (2, 1), &[(1, 2, 1, 4), (1, 1, 0, 0)], "best 0 4 1 1 1"),
    ("tie: a rule keeps the start pair alone", (-1, 0), &[(2, 2, 1, 6), (1, 0, 1, 0)], "best 3 0 1 2 0"),
    ("tie: a rule breaks the start pair alone", (0, -1), &[(2, 2, 1, 6), (1, 1, 0, 0)], "best 0 6 1 2 0"),
    ("a start pair that moves", (1, 1), &[(2, 2, 0, 3), (1, 3, -1, 1)], "unlimited 3 7 2 1 3 0 3"),
    ("every rule breaks the start pair", (0, 0), &[(2, 1, 1, 4), (1, 0, 1, 3), (2, 2, 1, 6)], "best 2 2 1 3 0"),
    ("only the last rule breaks the start pair", (1, 1), &[(1, 1, 2, 8), (1, 3, 1, 9), (2, 1, 0, 1)], "best 2 3 1 1 1"),
    (
        "an impossible prefix, then lawful rules",
        (1, 0),
        &[(1, 1, 1, 3), (2, 1, 1, 4), (2, 1, 0, 1), (2, 0, 1, 5)],
        "impossible 2 1 1 *",
    ),
    ("the steepest direction", (0, 1), &[(1, 1, 0, 4)], "unlimited 0 0 1 0 1 0 2"),
    ("edge: a and b of -32,767", (-1, -1), &[(1, -32767, -32767, -1)], "best 0 1 32767 1 0"),
    (
        "edge: the largest pair",
        (1, 1),
        &[(1, 32767, -32766, 1_000_000_000), (1, -32766, 32767, 1_000_000_000)],
        "best 1000000000 1000000000 1 0 2",
    ),
    (
        "edge: X and D close to their limits, nothing to divide by",
        (1, 0),
        &[(1, 32767, -32767, 1_000_000_000), (1, 32765, 32767, 999_999_999)],
        "best 65533999967233 1999967233 2147287044 0 2",
    ),
    (
        "edge: the greatest X and the greatest D",
        (1, 0),
        &[(1, 32767, -32767, 1_000_000_000), (1, 32766, 32767, 1_000_000_000)],
        "best 65534000000000 1000000000 2147319811 0 2",
    ),
    (
        "edge: the greatest Y and the greatest D",
        (0, 1),
        &[(2, 32767, -32767, -1_000_000_000), (1, 32767, 32766, 1_000_000_000)],
        "best 1000000000 65534000000000 2147319811 0 2",
    ),
    (
        "edge: the greatest X, a small D",
        (1, 0),
        &[(1, 2, -32767, 1_000_000_000), (1, 1, 32767, 1_000_000_000)],
        "best 65534000000000 1000000000 98301 0 2",
    ),
    (
        "edge: the greatest X in a start pair",
        (1, 0),
        &[(2, 32767, -32767, 1_000_000_000), (2, 32766, 32767, 1_000_000_000)],
        "unlimited 65534000000000 1000000000 2147319811 1 0 0 3",
    ),
    (
        "edge: the greatest X is broken",
        (1, 0),
        &[(1, 32767, -32767, 1_000_000_000), (1, 32766, 32767, 1_000_000_000), (1, 32767, 0, 999_999_999)],
        "best 999999999 0 32767 1 2",
    ),
    ("edge: objective of -32,767", (-32767, 32767), &[(1, 0, 1, 1)], "best 0 1 1 0 1"),
    ("edge: q of -32,767", (32767, -32767), &[(1, 1, 0, 1)], "best 1 0 1 0 1"),
    ("edge: c of -1,000,000,000", (-1, 0), &[(1, -1, 0, -1_000_000_000)], "best 1000000000 0 1 1 0"),
    ("edge: c of -1,000,000,000, kind 2", (-1, -1), &[(2, 1, 1, -1_000_000_000)], "best 0 0 1 0 0"),
    ("4: p is -32,768", (-32768, 0), &[], "refused 4 0"),
    ("4: q is -32,768", (0, -32768), &[], "refused 4 0"),
    ("8: kind 0", (0, 0), &[(1, 0, 0, 0), (0, 0, 0, 0)], "refused 8 2"),
    ("8: kind 3 before 9 and 10", (0, 0), &[(3, -32768, 0, i32::MAX)], "refused 8 1"),
    ("9: a is -32,768", (0, 0), &[(1, -32768, 0, 0)], "refused 9 1"),
    ("9: b is -32,768 before 10", (0, 0), &[(2, 0, -32768, 1_000_000_001)], "refused 9 1"),
    ("10: c above its range", (0, 0), &[(1, 0, 0, 1_000_000_001)], "refused 10 1"),
    ("10: c below its range", (0, 0), &[(2, 0, 0, -1_000_000_001)], "refused 10 1"),
    ("10: after an impossible prefix", (0, 0), &[(1, 0, 0, -1), (1, 0, 0, 1_000_000_001)], "refused 10 2"),
];

/// Books that only their bytes can say.
const BYTES: &[(&str, &str, &str)] = &[
    ("two links", "020101000100020000000000 00010300 01000b0009000000 010101000200 0a0008000000", "best 2 3 1 1 1"),
    ("1: no bytes", "", "refused 1 0"),
    ("1: 11 bytes", "0001000000000000000000", "refused 1 0"),
    ("1: 13 bytes", "00010000000000000000000000", "refused 1 0"),
    ("1: before 2", "00020000000000000000000000", "refused 1 0"),
    ("2: version 0", "000000000000000000000000", "refused 2 0"),
    ("2: version 2 before 3, 4 and 5", "000200800000070000000001", "refused 2 0"),
    ("3: count too large", "000100000000010000000000", "refused 3 0"),
    ("3: count too large by 256, before 4", "000100800000000100000000", "refused 3 0"),
    ("3: count too small", "010100000000010000000000 000100000000070000000000 000100000000080000000000", "refused 3 0"),
    ("4: before 5", "000100800000000000000001", "refused 4 0"),
    ("5: the first byte", "000100000000000001000000", "refused 5 0"),
    ("5: the second byte", "000100000000000000010000", "refused 5 0"),
    ("5: the third byte", "000100000000000000000100", "refused 5 0"),
    ("5: the last byte", "000100000000000000000001", "refused 5 0"),
    ("5: before 6", "010100000000000000000080", "refused 5 0"),
    ("6: the first link", "010100000000000000000000", "refused 6 0"),
    ("6: a rule's link", "010100000000010000000000 020100000000000000000000", "refused 6 1"),
    ("7: a record leads to itself", "010100000000010000000000 010100000000000000000000", "refused 7 1"),
    ("7: round", "020100000000020000000000 020100000000010000000000 010100000000000000000000", "refused 7 1"),
    ("8: before the 6 of its link", "010100000000010000000000 090300000000070000000000", "refused 8 1"),
    ("9: before the 7 of its link", "010100000000010000000000 010100800000070000000000", "refused 9 1"),
    ("10 before 7 in one record", "010100000000010000000000 01010000000000000000ff7f", "refused 10 1"),
    ("12: neighbours", "010100000000020000000000 020100000000070000000000 000100000000070000000000", "refused 12 2"),
    (
        "12: the later has the lower index",
        "020100000000020000000000 000100000000070000000000 010100000000070000000000",
        "refused 12 1",
    ),
    ("12: label 0 is a label", "010100000000020000000000 020100000000000000000000 000100000000000000000000", "refused 12 2"),
    (
        "12: with another between",
        "030100000000030000000000 0001000000000a0b00000000 010100000000000b00000000 0201000000000a0b00000000",
        "refused 12 1",
    ),
    ("12: half a label is none", "010100000000020000000000 020100000000070000000000 000100000000070100000000", "best 0 0 1 0 0"),
    (
        "12: before the 6 of its link",
        "010100000000020000000000 020100000000070000000000 090100000000070000000000",
        "refused 12 2",
    ),
    (
        "12: before the 7 of its link",
        "020100000000020000000000 020100000000000000000000 010100000000000000000000",
        "refused 12 1",
    ),
    ("12: after 8", "010100000000020000000000 020100000000070000000000 000300000000070000000000", "refused 8 2"),
    ("12: after 9", "010100000000020000000000 020100000000070000000000 000100800000070000000000", "refused 9 2"),
    ("12: after 10", "010100000000020000000000 020100000000070000000000 00010000000007000000ff7f", "refused 10 2"),
    (
        "12: a spare record's label is free",
        "010100000000020000000000 000100000000070000000000 000100000000070000000000",
        "best 0 0 1 0 0",
    ),
    ("spare records are not looked at", "000100000000010000000000 ffffffffffffffffffffffff", "best 0 0 1 0 0"),
];

pub fn books() -> Vec<Stored> {
    let plain = BOOKS.iter().map(|&(name, (p, q), rules, line)| Stored { name, book: source(p, q, rules).packed(), line });
    let bytes = BYTES.iter().map(|&(name, hex, line)| Stored { name, book: from_hex(hex).unwrap(), line });
    plain.chain(bytes).chain(long::books()).collect()
}

/// The rules in chain order, labelled from 101 on, with floors of zero.
pub fn source(p: i16, q: i16, rules: &[(u8, i16, i16, i32)]) -> Source {
    let rule = |(i, &(kind, a, b, c)): (usize, &(u8, i16, i16, i32))| Rule { kind, a, b, c, label: 101 + i as u16 };
    Source { p, q, lx: 0, ly: 0, rules: rules.iter().enumerate().map(rule).collect() }
}

#[cfg(test)]
mod tests {
    use super::*;
    use std::collections::BTreeSet;

    #[test]
    fn every_book_has_a_name_of_its_own() {
        let books = books();
        let names: BTreeSet<&str> = books.iter().map(|s| s.name).collect();
        assert_eq!(names.len(), books.len());
    }
}
