//! The parts of the test run. Every book is planned and its line judged; the first mismatch ends the run.

use crate::book::{to_hex, Source, MOST_RULES};
use crate::damage::damage;
use crate::families::{busy_source, carried_source, source};
use crate::judge::expected_as;
use crate::layout::{Layout, TWO};
use crate::planner::{self, Planner};
use crate::prefixes::Way;
use crate::program::{short_stored_books, stored_books_of_one};
use crate::random::Random;
use crate::read::read_as;
use crate::{stored, stored_two};
use std::fmt;

/// How many books came to each end.
#[derive(Default)]
pub struct Tally {
    best: u64,
    unlimited: u64,
    impossible: u64,
    refused: u64,
}

impl Tally {
    fn count(&mut self, line: &str) {
        *match line.as_bytes().first() {
            Some(b'b') => &mut self.best,
            Some(b'u') => &mut self.unlimited,
            Some(b'i') => &mut self.impossible,
            _ => &mut self.refused,
        } += 1;
    }
}

impl fmt::Display for Tally {
    fn fmt(&self, f: &mut fmt::Formatter) -> fmt::Result {
        let Tally { best, unlimited, impossible, refused } = self;
        write!(f, "{best} best, {unlimited} unlimited, {impossible} impossible, {refused} refused")
    }
}

/// Plans a book, judges the line, and gives the right one.
fn try_book(planner: &Planner, name: &str, book: &[u8], way: Way) -> Result<String, String> {
    try_line_as(&planner.layout, name, book, way, planner.line(book))
}

/// Judges what was printed for a book of a version, and gives the right line.
pub fn try_line_as(layout: &Layout, name: &str, book: &[u8], way: Way, line: Result<Vec<u8>, String>) -> Result<String, String> {
    let right = expected_as(layout, book, way);
    let printed = line.as_ref().map_or("nothing".into(), |line| String::from_utf8_lossy(line).trim_end().to_string());
    line.and_then(|line| right.judge(&line)).map_err(|why| {
        format!("mismatch: {name}: {why}\nbook    {}\nright   {}\nprinted {printed}", to_hex(book), right.shown())
    })?;
    Ok(right.shown())
}

/// The stored books of a version; the search itself must find the stored lines. Those of version 1 are tried in version 2 too, where some
/// are turned back for other causes, and those with 5 have floors instead.
pub fn stored_lines(planner: &Planner, tally: &mut Tally) -> Result<u64, String> {
    let two = planner.layout == TWO;
    let (books, way) = if two { (stored_two::books(), Way::OnePass) } else { (stored::books(), Way::Anew) };
    for s in &books {
        let right = try_book(planner, s.name, &s.book, way)?;
        if right != s.line {
            return Err(format!("mismatch: {}: stored {}, searched {right}\nbook    {}", s.name, s.line, to_hex(&s.book)));
        }
        tally.count(&right);
    }
    let rewritten = if two { stored_books_of_one(&TWO) } else { Vec::new() };
    for (name, book) in &rewritten {
        tally.count(&try_book(planner, name, book, Way::OnePass)?);
    }
    Ok((books.len() + rewritten.len()) as u64)
}

/// The stored books of up to 300 rules once more, with buffers that are too short. The twin is not asked: it writes what it has to say.
pub fn short_buffers(planner: &Planner) -> Result<(), String> {
    let books = if cfg!(feature = "standin") { Vec::new() } else { short_stored_books(&planner.layout) };
    let named = |name: &str, book: &[u8], why| format!("mismatch: {name}: {why}\nbook    {}", to_hex(book));
    books.iter().try_for_each(|(name, book)| planner.short_buffers(book).map_err(|why| named(name, book, why)))
}

/// How long random books are: at most so many rules, one in four nearly as long as that. Every prefix is searched anew of those with up to
/// `anew` rules and of one in a hundred of the others with up to 255, and in one pass of the rest.
pub struct Lengths {
    pub most: usize,
    pub anew: usize,
}

/// Random books, one in six damaged.
pub fn random_books(planner: &Planner, tally: &mut Tally, seed: u64, books: u64, lengths: Lengths) -> Result<u64, String> {
    let mut random = Random::new(seed);
    let Lengths { most, anew } = lengths;
    for i in 0..books {
        let n = if random.one_in(4) { most - random.below(most / 12 + 1) } else { random.below(most + 1) };
        let (name, book) = random_book(&planner.layout, &mut random, n);
        let way = if n <= anew || n <= MOST_RULES && i % 100 == 0 { Way::Anew } else { Way::OnePass };
        tally.count(&try_book(planner, name, &book, way)?);
    }
    Ok(books)
}

fn random_book(layout: &Layout, random: &mut Random, n: usize) -> (&'static str, Vec<u8>) {
    let (name, source) = source(layout, random, n);
    let spare = random.pick(&[3, 3, 3, layout.most_rules()]);
    let mut book = if random.one_in(4) { source.packed_as(layout) } else { source.scattered_as(layout, spare, random) };
    if random.one_in(6) {
        damage(layout, random, &mut book);
    }
    (name, book)
}

/// Books of so many rules or more, whose counts are as great as they can be, or nearly.
pub fn busy_books(planner: &Planner, tally: &mut Tally, seed: u64, books: u64, least: usize) -> Result<u64, String> {
    let mut random = Random::new(seed);
    for _ in 0..books {
        let n = least + random.below(planner.layout.records - least);
        let (name, source) = busy_source(&planner.layout, &mut random, n);
        let book = source.scattered_as(&planner.layout, 3, &mut random);
        tally.count(&try_book(planner, name, &book, Way::OnePass)?);
    }
    Ok(books)
}

/// Books of so many rules whose walk comes to carry the region's boundary along, with ties and parallels behind the change-over.
pub fn carried_books(
    planner: &Planner,
    tally: &mut Tally,
    seed: u64,
    books: u64,
    least: usize,
    most: usize,
) -> Result<u64, String> {
    let mut random = Random::new(seed);
    for _ in 0..books {
        let n = least + random.below(most + 1 - least);
        let (name, source) = carried_source(&planner.layout, &mut random, n);
        let book = source.scattered_as(&planner.layout, 3, &mut random);
        tally.count(&try_book(planner, name, &book, Way::OnePass)?);
    }
    Ok(books)
}

/// Long books, damaged once or twice, of which those that are turned back are tried: they cost no search.
pub fn damaged_books(planner: &Planner, tally: &mut Tally, seed: u64, books: u64) -> Result<u64, String> {
    let mut random = Random::new(seed);
    let mut tried = 0;
    while tried < books {
        let (name, book) = damaged_book(&planner.layout, &mut random);
        if read_as(&planner.layout, &book).is_err() {
            tally.count(&try_book(planner, name, &book, Way::OnePass)?);
            tried += 1;
        }
    }
    Ok(books)
}

fn damaged_book(layout: &Layout, random: &mut Random) -> (&'static str, Vec<u8>) {
    let n = random.below(layout.most_rules() + 1);
    let (name, source) = source(layout, random, n);
    let mut book = source.scattered_as(layout, 3, random);
    for _ in 0..random.between(1, 2) {
        damage(layout, random, &mut book);
    }
    (name, book)
}

/// The same rules in ten random orders: same outcome, pair and direction. One book in ten is long.
pub fn orders(planner: &Planner, seed: u64, books: u64) -> Result<u64, String> {
    let mut random = Random::new(seed);
    for i in 0..books {
        let n = random.below(if i % 10 == 0 { planner.layout.records } else { 13 });
        let (name, source) = source(&planner.layout, &mut random, n);
        ten_orders(planner, name, &source, &mut random)?;
    }
    Ok(books)
}

fn ten_orders(planner: &Planner, name: &str, source: &Source, random: &mut Random) -> Result<(), String> {
    let first = source.packed_as(&planner.layout);
    let said = order_free(planner, &first)?;
    for _ in 0..10 {
        let book = reordered(&planner.layout, source, random);
        if order_free(planner, &book)? != said {
            return Err(format!("mismatch: {name}: another order\nbook    {}\nother   {}", to_hex(&first), to_hex(&book)));
        }
    }
    Ok(())
}

/// An alike book: rules shuffled, some turned round.
fn reordered(layout: &Layout, source: &Source, random: &mut Random) -> Vec<u8> {
    let mut other = source.clone();
    random.shuffle(&mut other.rules);
    for r in other.rules.iter_mut().filter(|_| random.one_in(4)) {
        (r.kind, r.a, r.b, r.c) = (3 - r.kind, -r.a, -r.b, -r.c);
    }
    other.scattered_as(layout, 3, random)
}

/// What the planner's line says that no order may change.
fn order_free(planner: &Planner, book: &[u8]) -> Result<Vec<String>, String> {
    let line = planner.line(book).map_err(|why| format!("mismatch: {why}\nbook    {}", to_hex(book)))?;
    let text = String::from_utf8_lossy(&line);
    let kept = match text.split(' ').next() {
        Some("best") => 4,
        Some("unlimited") => 6,
        _ => 1,
    };
    Ok(text.split(' ').take(kept).map(String::from).collect())
}

/// Books of either version in turn, those of version 2 with floors, and what the planner of version 2 says of their repacked form: the
/// same, but for the witness. The repacked form is its own, and rules in another order in version 2 have the same outcome, pair and
/// direction.
pub fn both_versions(seed: u64, books: u64) -> Result<u64, String> {
    let mut random = Random::new(seed);
    for i in 0..books {
        let planner = if i % 2 == 0 { &planner::ONE } else { &planner::TWO };
        let n = random.below(if i % 20 < 2 { MOST_RULES + 1 } else { 13 });
        let (name, source) = source(&planner.layout, &mut random, n);
        let book = source.scattered_as(&planner.layout, 9, &mut random);
        if read_as(&planner.layout, &book).is_ok() {
            let other = reordered(&TWO, &source, &mut random);
            said_alike(planner, &book, &other).map_err(|why| format!("mismatch: {name}: {why}\nbook    {}", to_hex(&book)))?;
        }
    }
    Ok(books)
}

/// Compares what is said of an accepted book, of its repacked form, and of the same rules and floors in another order in version 2.
fn said_alike(planner: &Planner, book: &[u8], other: &[u8]) -> Result<(), String> {
    let two = &planner::TWO;
    let packed = planner.repack(book, TWO.width() * TWO.records)?.map_err(|r| format!("not repacked: {r:?}"))?;
    let lines = (planner.line(book)?, two.line(&packed)?);
    if without_witness(&lines.0) != without_witness(&lines.1) {
        return Err(format!("the repacked form {} has another line", to_hex(&packed)));
    }
    if two.repack(&packed, packed.len())? != Ok(packed) {
        return Err("the repacked form is not its own".into());
    }
    if order_free(planner, book)? != order_free(two, other)? {
        return Err(format!("another order in version 2: {}", to_hex(other)));
    }
    Ok(())
}

/// A line up to its counts.
fn without_witness(line: &[u8]) -> Vec<String> {
    let text = String::from_utf8_lossy(line);
    let kept = if text.starts_with("impossible") { 4 } else { usize::MAX };
    text.split(' ').take(kept).map(String::from).collect()
}
