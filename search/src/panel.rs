//! The panel: how far the best pair is from each rule, by the search's own arithmetic, against the library's lines and the panel
//! program's.

use crate::book::{to_hex, Source, MOST_RULES};
use crate::clip;
use crate::damage::damage;
use crate::exact::{divisor, outcome, Line, Outcome, Pair};
use crate::families::source;
use crate::layout::Layout;
use crate::planner::Planner;
use crate::program::{inputs, printed, stored_books};
use crate::random::Random;
use crate::read::{read_as, Accepted, Entry};
use crate::stored;

/// What a book's panel must print: a line a rule for a best outcome, nothing for any other, and the line of a refusal.
fn right(layout: &Layout, book: &[u8]) -> String {
    let Accepted { terms, rules } = match read_as(layout, book) {
        Ok(accepted) => accepted,
        Err(r) => return format!("refused {} {}\n", r.number, r.record),
    };
    let lines: Vec<Line> = rules.iter().map(|r| r.line).collect();
    let found = if lines.len() > MOST_RULES { clip::whole(&terms, &lines) } else { outcome(&terms, &lines) };
    match found {
        Outcome::Best(v) => rules.iter().map(|r| row(r, &v)).collect(),
        _ => String::new(),
    }
}

/// Label, numerator and denominator.
fn row(rule: &Entry, v: &Pair) -> String {
    let left = rule.line.slack(v);
    let g = divisor(left, v.d);
    format!("{} {} {}\n", rule.label, left / g, v.d / g)
}

/// Objective, rules (kind, a, b, c), labelled from 101 on, and the panel.
type Stored = (&'static str, (i16, i16), &'static [(u8, i16, i16, i32)], &'static str);

/// The largest numerator that three lawful rules can make is 4·32,767²·10⁹, some 4.29·10¹⁸; the last book comes
/// within a millionth of it.
const PANELS: &[Stored] = &[
    ("panel: no rules", (0, 0), &[], ""),
    ("panel: two links", (1, 1), &[(1, 1, 2, 8), (1, 3, 1, 9)], "101 0 1\n102 0 1\n"),
    ("panel: fifths", (1, 1), &[(1, 2, 3, 7), (1, 3, 2, 7), (2, 1, 1, 1)], "101 0 1\n102 0 1\n103 9 5\n"),
    ("panel: reduced", (1, 1), &[(1, 10, 0, 14), (1, 0, 10, 14), (1, 10, 0, 16)], "101 0 1\n102 0 1\n103 2 1\n"),
    ("panel: kind 2 is turned round", (-1, -1), &[(2, 1, 0, 3), (2, 0, 2, -3)], "101 0 1\n102 3 1\n"),
    ("panel: 0 at most 5", (0, 0), &[(1, 0, 0, 5)], "101 5 1\n"),
    ("panel: unlimited", (1, 0), &[(1, 1, -1, 2)], ""),
    ("panel: impossible", (0, 0), &[(1, 1, 0, -1)], ""),
    ("panel: refused", (0, 0), &[(1, 0, 0, 0), (0, 0, 0, 0)], "refused 8 2\n"),
    (
        "panel: the largest numerator",
        (1, 0),
        &[(1, 32767, -32767, 1_000_000_000), (1, 32765, 32767, 999_999_999), (1, -32767, -32766, 1_000_000_000)],
        "101 0 1\n102 0 1\n103 4294705151852680189 2147287044\n",
    ),
];

fn sources() -> impl Iterator<Item = (&'static str, Source)> {
    PANELS.iter().map(|&(name, (p, q), rules, _)| (name, stored::source(p, q, rules)))
}

/// Compares what was printed with what is right.
fn judge(layout: &Layout, name: &str, book: &[u8], printed: Result<Vec<u8>, String>) -> Result<(), String> {
    let right = right(layout, book);
    match printed {
        Ok(lines) if lines == right.as_bytes() => Ok(()),
        other => {
            let shown = other.map_or_else(|why| why, |lines| String::from_utf8_lossy(&lines).into_owned());
            Err(format!("mismatch: {name}: another panel\nbook    {}\nright   {right}\nprinted {shown}", to_hex(book)))
        }
    }
}

/// The stored panels, the stored books, and random books of 0 to 12 rules, one in fifty of up to 255, one in five hundred of any length,
/// one in six damaged.
pub fn panels(planner: &Planner, seed: u64, random_books: u64) -> Result<u64, String> {
    stored_panels(planner)?;
    let try_panel = |name: &str, book: &[u8]| judge(&planner.layout, name, book, planner.panel(book));
    stored_books(&planner.layout).iter().try_for_each(|(name, book)| try_panel(name, book))?;
    let mut random = Random::new(seed);
    for i in 1..=random_books {
        let (name, book) = random_book(&planner.layout, &mut random, i);
        try_panel(name, &book)?;
    }
    Ok(random_books)
}

/// The search itself must find the stored panels.
fn stored_panels(planner: &Planner) -> Result<(), String> {
    for ((name, source), &(_, _, _, panel)) in sources().zip(PANELS) {
        let book = source.packed_as(&planner.layout);
        judge(&planner.layout, name, &book, planner.panel(&book))?;
        let right = right(&planner.layout, &book);
        if right != panel {
            return Err(format!("mismatch: {name}: stored {panel}, searched {right}\nbook    {}", to_hex(&book)));
        }
    }
    Ok(())
}

fn random_book(layout: &Layout, random: &mut Random, i: u64) -> (&'static str, Vec<u8>) {
    let most = match i {
        _ if i % 500 == 0 => layout.most_rules(),
        _ if i % 50 == 0 => MOST_RULES,
        _ => 12,
    };
    let n = random.below(most + 1);
    let (name, source) = source(layout, random, n);
    let mut book = source.scattered_as(layout, 3, random);
    if random.one_in(6) {
        damage(layout, random, &mut book);
    }
    (name, book)
}

/// A version's panel program on the stored panels and on what its plan program is run on.
pub fn program(layout: &Layout, path: &str, seed: u64) -> Result<u64, String> {
    let mut random = Random::new(seed);
    let mut all: Vec<(&str, Vec<u8>)> = sources().map(|(name, source)| (name, source.packed_as(layout))).collect();
    all.extend(inputs(layout, &mut random));
    for (name, book) in &all {
        judge(layout, name, book, printed(path, book, random.below(book.len() + 1)))?;
    }
    Ok(all.len() as u64)
}
