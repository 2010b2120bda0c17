//! Stored books of version 2 with the line each must print, the witness as *: what version 1 does not have, floors among it, and chains of
//! 4,095 rules.

use crate::book::{from_hex, Rule, Source};
use crate::layout::TWO;
use crate::long::{steeper, tangents};
use crate::stored::{source, Stored};

const MOST: usize = 4_095;

/// Books that only their bytes can say.
const BYTES: &[(&str, &str, &str)] = &[
    ("two: no rules", "0000 02 00 0000 0000 0000 00000000", "best 0 0 1 0 0"),
    ("two: 13 bytes", "0000 02 00 0000 0000 0000 000000", "refused 1 0"),
    ("two: 15 bytes", "0000 02 00 0000 0000 0000 00000000 00", "refused 1 0"),
    ("two: version 1", "0000 01 00 0000 0000 0000 00000000", "refused 2 0"),
    ("two: a record of version 1", "0001 0000 0000 0000 00000000", "refused 1 0"),
    ("two: header byte 3", "0000 02 01 0000 0000 0000 00000000", "refused 2 0"),
    ("two: header byte 3 before 3", "0000 02 80 0000 0000 0100 00000000", "refused 2 0"),
    ("two: count too large by 256", "0000 02 00 0000 0000 0001 00000000", "refused 3 0"),
    ("two: 3 before 4", "0000 02 00 0080 0000 0001 00000000", "refused 3 0"),
    ("two: header byte 10", "0000 02 00 0000 0000 0000 01000000", "best 1 0 1 0 0"),
    ("two: header byte 11", "0000 02 00 0000 0000 0000 00010000", "best 256 0 1 0 0"),
    ("two: header byte 12", "0000 02 00 0000 0000 0000 0000ff00", "best 0 255 1 0 0"),
    ("two: header byte 13", "0000 02 00 0000 0000 0000 00000080", "best 0 -32768 1 0 0"),
    (
        "two: a first link with its high byte alone",
        "0001 02 00 0000 0000 0100 00000000 0000 01 00 0000 0000 0700 00000000",
        "refused 6 0",
    ),
    ("two: a link of 257", "0100 02 00 0000 0000 0100 00000000 0101 01 00 0000 0000 0700 00000000", "refused 6 1"),
    ("two: a rule's byte 3", "0100 02 00 0000 0000 0100 00000000 0000 01 01 0000 0000 0700 00000000", "refused 8 1"),
    ("two: a rule's byte 3, kind 2", "0100 02 00 0000 0000 0100 00000000 0000 02 80 0000 0000 0700 00000000", "refused 8 1"),
    ("two: a rule's byte 3 before 9", "0100 02 00 0000 0000 0100 00000000 0000 01 01 0080 0000 0700 00000000", "refused 8 1"),
    ("two: a spare record's byte 3", "0000 02 00 0000 0000 0100 00000000 0000 01 01 0000 0000 0700 00000000", "best 0 0 1 0 0"),
    ("two: c after byte 3", "0100 02 00 0100 0000 0100 00000000 0000 01 00 0100 0000 0700 00ca9a3b", "best 1000000000 0 1 0 1"),
];

/// Objective, floors, rules (kind, a, b, c) and line.
type Row = (&'static str, (i16, i16), (i16, i16), &'static [(u8, i16, i16, i32)], &'static str);

/// By Cramer's rule X and Y of a corner are at most 65,534·10⁹ below zero too; the floors' lowest numbers let books reach that.
const FLOORS: &[Row] = &[
    ("floors: positive", (0, 0), (3, 5), &[], "best 3 5 1 0 0"),
    ("floors: negative", (-1, -1), (-3, -5), &[], "best -3 -5 1 0 0"),
    ("floors: mixed", (1, 1), (-3, 5), &[(1, 1, 2, 8), (1, 3, 1, 9)], "best -2 5 1 0 1"),
    ("floors: the lowest", (-1, -1), (-32768, -32768), &[], "best -32768 -32768 1 0 0"),
    ("floors: the highest", (-1, -1), (32767, 32767), &[], "best 32767 32767 1 0 0"),
    ("floors: the lowest and the highest", (1, 0), (-32768, 32767), &[], "unlimited -32768 32767 1 1 0 0 1"),
    ("floors: the highest and the lowest", (0, 0), (32767, -32768), &[(2, 1, 1, 0)], "best 32767 -32767 1 1 0"),
    ("floors: a pair below zero", (1, 1), (-10, -10), &[(1, 2, 3, -7), (1, 3, 2, -7)], "best -7 -7 5 1 1"),
    ("floors: a rule that zero would not keep", (1, 0), (-4, 0), &[(1, 1, 0, -1)], "best -1 0 1 0 1"),
    ("floors: lower than each rule", (-1, -1), (-3, -3), &[(2, 1, 0, -2), (2, 0, 1, -1)], "best -2 -1 1 2 0"),
    ("floors: a tie", (2, 1), (-1, -1), &[(1, 2, 1, 4)], "best 5 -2 2 0 1"),
    ("floors: a tied start pair", (1, 0), (-7, -4), &[(2, 2, 1, -9)], "unlimited -5 -8 2 1 0 0 2"),
    ("floors: impossible by x and a rule", (0, 0), (-4, 0), &[(1, 1, 0, -5)], "impossible 1 1 0 *"),
    ("floors: x keeps its own line alone", (0, 0), (-4, 0), &[(1, 1, 0, -4)], "best -4 0 1 0 0"),
    ("floors: impossible by y and a rule", (0, 0), (-4, 32767), &[(1, 0, 32767, 1_000_000_000)], "impossible 1 1 0 *"),
    ("floors: impossible by y and kind 2", (0, 1), (0, -32768), &[(2, 0, -1, 32769)], "impossible 1 0 1 *"),
    ("floors: impossible by both", (0, 0), (-2, 3), &[(1, 1, 1, 0)], "impossible 1 1 0 *"),
    ("floors: both keep their corner alone", (0, 0), (-2, 3), &[(1, 1, 1, 1)], "best -2 3 1 0 0"),
    ("floors: impossible by both, weights 2 and 3", (1, 1), (-32768, 32767), &[(1, 2, 3, 32764)], "impossible 1 0 1 *"),
    ("floors: unlimited from below zero", (1, 0), (-5, -6), &[(1, 1, -1, 2)], "unlimited -5 -6 1 1 1 0 2"),
    ("floors: a start pair below zero moves", (1, 1), (-5, -6), &[(2, 2, 0, -3), (1, 3, -1, 1)], "unlimited -3 -11 2 1 3 0 3"),
    ("floors: a direction with gain 0", (1, -1), (-5, -6), &[(1, 1, -1, -2)], "best -5 -3 1 0 1"),
    (
        "floors: the least X and the greatest D",
        (1, 0),
        (-32768, -32768),
        &[(1, 32767, 32767, -1_000_000_000), (1, 32766, -32767, -1_000_000_000)],
        "best -65534000000000 1000000000 2147319811 1 1",
    ),
    (
        "floors: the least Y and the greatest D",
        (0, 1),
        (-32768, -32768),
        &[(1, 32767, 32767, -1_000_000_000), (2, 32767, -32766, 1_000_000_000)],
        "best 1000000000 -65534000000000 2147319811 1 1",
    ),
];

pub fn books() -> Vec<Stored> {
    let bytes = BYTES.iter().map(|&(name, hex, line)| Stored { name, book: from_hex(hex).unwrap(), line });
    let with_floors = FLOORS.iter().map(|&(name, (p, q), (lx, ly), rules, line)| {
        let book = Source { lx, ly, ..source(p, q, rules) }.packed_as(&TWO);
        Stored { name, book, line }
    });
    bytes.chain(with_floors).chain(lengths()).chain(links()).chain(far_records()).chain(chains()).collect()
}

/// The longest book, and one record more.
fn lengths() -> [Stored; 2] {
    let book = source(0, 0, &[(2, 1, 1, 2); MOST]).packed_as(&TWO);
    let longer = [&book[..], &[0; 14]].concat();
    [
        Stored { name: "two: 57,344 bytes", book, line: "best 0 2 1 1 0" },
        Stored { name: "two: 57,358 bytes", book: longer, line: "refused 1 0" },
    ]
}

/// A book of n alike rules, one in each record, with another link in one of them.
fn linked(n: usize, record: usize, link: u16) -> Vec<u8> {
    let mut book = source(0, 0, &vec![(2, 1, 1, 2); n]).packed_as(&TWO);
    book[record * TWO.width()..][..2].copy_from_slice(&link.to_le_bytes());
    book
}

/// Links around 256, and the greatest. The records before the one that a first link leads to are spare.
fn links() -> Vec<Stored> {
    let stored = |name, book, line| Stored { name, book, line };
    vec![
        stored("two: a first link of 255", linked(300, 0, 255), "best 0 2 1 1 0"),
        stored("two: a first link of 256", linked(300, 0, 256), "best 0 2 1 1 0"),
        stored("two: a first link of 256 among 255", linked(255, 0, 256), "refused 6 0"),
        stored("two: a first link of 4,095", linked(MOST, 0, 4_095), "best 0 2 1 1 0"),
        stored("two: a first link of 4,096", linked(MOST, 0, 4_096), "refused 6 0"),
        stored("two: a first link of 65,535", linked(MOST, 0, 65_535), "refused 6 0"),
        stored("two: the last of 4,095 leads to 255", linked(MOST, MOST, 255), "refused 7 4095"),
        stored("two: the last of 4,095 leads to 256", linked(MOST, MOST, 256), "refused 7 4095"),
        stored("two: the last of 4,095 leads to itself", linked(MOST, MOST, 4_095), "refused 7 4095"),
        stored("two: the last of 4,095 leads to 4,096", linked(MOST, MOST, 4_096), "refused 6 4095"),
    ]
}

/// Causes in records above 255, whose indices need both bytes.
fn far_records() -> Vec<Stored> {
    let changed = |at: usize, bytes: &[u8]| {
        let mut book = source(0, 0, &[(2, 1, 1, 2); 300]).packed_as(&TWO);
        book[at..at + bytes.len()].copy_from_slice(bytes);
        book
    };
    let last = 300 * TWO.width();
    vec![
        Stored { name: "two: the last of 300 leads to 301", book: changed(last, &[45, 1]), line: "refused 6 300" },
        Stored { name: "two: the last of 300 leads to 257", book: changed(last, &[1, 1]), line: "refused 7 300" },
        Stored { name: "two: the last of 300 leads to 1", book: changed(last, &[1, 0]), line: "refused 7 300" },
        Stored { name: "two: the last of 300 of no kind", book: changed(last + 2, &[3]), line: "refused 8 300" },
        Stored {
            name: "two: the last of 300 with the first's label",
            book: changed(last + 8, &[101, 0]),
            line: "refused 12 300",
        },
        Stored { name: "two: the last of 300 with 65,535", book: changed(last + 8, &[255, 255]), line: "best 0 2 1 1 0" },
    ]
}

/// The greatest moves, open and place, and a label that stands first and last.
fn chains() -> Vec<Stored> {
    let packed =
        |name, p, q, rules: &[(u8, i16, i16, i32)], line| Stored { name, book: source(p, q, rules).packed_as(&TWO), line };
    let ended = [&tangents(MOST - 1)[..], &[(1, 1, 0, 0)]].concat();
    let rule = |i: usize| Rule { kind: 2, a: 1, b: 1, c: 2, label: 65_535 - (i % 4_094) as u16 };
    let twice = Source { p: 0, q: 0, lx: 0, ly: 0, rules: (0..MOST).map(rule).collect() };
    vec![
        packed("two: 4,095 moves", -1, 0, &tangents(MOST), "best 8395836 2001 2 4095 0"),
        packed("two: 4,096 open prefixes, the start pair moves", 1, 0, &tangents(MOST), "unlimited 8395836 2001 2 1 0 0 4096"),
        packed("two: 4,096 open prefixes, the direction turns", 1, 1, &steeper(MOST), "unlimited 0 0 1 256 4095 0 4096"),
        packed("two: impossible after 4,095 moves", -1, 0, &ended, "impossible 4095 4095 0 *"),
        Stored { name: "two: 65,535 in records 1 and 4,095", book: twice.packed_as(&TWO), line: "refused 12 4095" },
    ]
}

#[cfg(test)]
mod tests {
    use super::*;
    use crate::judge::expected_as;
    use crate::prefixes::Way;

    #[test]
    fn the_search_finds_the_stored_lines() {
        for s in books() {
            assert_eq!(expected_as(&TWO, &s.book, Way::OnePass).shown(), s.line, "{}", s.name);
        }
    }
}
