//! Batches from outside: many objectives for one book of version 2, each searched as a book of its own; the objectives' bytes, the output's
//! size and the order of the causes by the text of the request.

use crate::book::{to_hex, MOST_RULES};
use crate::clip;
use crate::damage::damage;
use crate::exact::{outcome, Line, Outcome, Pair, Terms};
use crate::families::source;
use crate::layout::{signed, TWO};
use crate::program::{inputs, printed_of, short_stored_books, streams_with};
use crate::random::Random;
use crate::read::{read_as, Refused};
use std::fmt;

extern "C" {
    fn vishalneq_batch(
        book: *const u8,
        book_len: usize,
        objectives: *const u8,
        objectives_len: usize,
        out: *mut u8,
        out_len: usize,
    ) -> usize;
}

/// What stands for a refusal is this many times its number, plus its record; a count is less.
const REFUSED: usize = 65_536;

/// What stands in the output before a call.
const BEFORE: u8 = 0xA5;

/// A book with more rules is searched by cutting lines.
const FEW: usize = 40;

const ANSWER: usize = 32;

/// How many batches were answered, and how many turned back.
#[derive(Default)]
pub struct Tally {
    batches: u64,
    answers: u64,
    refused: u64,
}

impl fmt::Display for Tally {
    fn fmt(&self, f: &mut fmt::Formatter) -> fmt::Result {
        let Tally { batches, answers, refused } = self;
        write!(f, "{batches} batches with {answers} answers, {refused} turned back")
    }
}

/// The answer to one objective, as bytes.
fn answer(terms: &Terms, rules: &[Line]) -> [u8; ANSWER] {
    let found = if rules.len() <= FEW { outcome(terms, rules) } else { clip::whole(terms, rules) };
    let (number, pair) = match found {
        Outcome::Best(pair) => (1, pair),
        Outcome::Unlimited { start, .. } => (2, start),
        Outcome::Impossible => (3, Pair { x: 0, y: 0, d: 0 }),
    };
    let mut bytes = [0; ANSWER];
    bytes[0] = number;
    for (place, n) in [pair.x, pair.y, pair.d].into_iter().enumerate() {
        bytes[8 * place + 8..][..8].copy_from_slice(&(n as i64).to_le_bytes());
    }
    bytes
}

/// What a batch must come to: the first cause that applies, or the bytes of all answers.
fn right(book: &[u8], objectives: &[u8], room: usize) -> Result<Vec<u8>, Refused> {
    let accepted = read_as(&TWO, book)?;
    let lines: Vec<Line> = accepted.rules.iter().map(|r| r.line).collect();
    let lawful_length = (1..=32).any(|n| 4 * n == objectives.len());
    let numbers: Vec<i128> = objectives.chunks_exact(2).map(signed).collect();
    if !lawful_length || numbers.contains(&-32_768) {
        return Err(Refused { number: 16, record: 0 });
    }
    if room < ANSWER * (objectives.len() / 4) {
        return Err(Refused { number: 11, record: 0 });
    }
    let floors = accepted.terms.floors;
    Ok(numbers.chunks(2).flat_map(|n| answer(&Terms { p: n[0], q: n[1], floors }, &lines)).collect())
}

/// The answers to some objectives at the start of a buffer.
pub fn batch(book: &[u8], objectives: &[u8], out: &mut [u8]) -> usize {
    // SAFETY: the three slices are live for the call, and `out` is lent for writing to this call alone.
    unsafe { vishalneq_batch(book.as_ptr(), book.len(), objectives.as_ptr(), objectives.len(), out.as_mut_ptr(), out.len()) }
}

/// What the batch under test comes to; bytes after the answers, and all of them where it is turned back, must stay as they were.
fn tried(book: &[u8], objectives: &[u8], room: usize) -> Result<Result<Vec<u8>, Refused>, String> {
    let mut out = vec![BEFORE; room];
    let told = batch(book, objectives, &mut out);
    let filled = if told < REFUSED { told } else { 0 };
    if filled > room || out[filled..].iter().any(|&b| b != BEFORE) {
        return Err("a byte after the answers was changed".into());
    }
    out.truncate(filled);
    Ok(if told < REFUSED { Ok(out) } else { Err(Refused { number: (told / REFUSED) as u32, record: told % REFUSED }) })
}

fn try_batch(name: &str, book: &[u8], objectives: &[u8], room: usize, tally: &mut Tally) -> Result<(), String> {
    let (right, seen) = (right(book, objectives, room), tried(book, objectives, room)?);
    if right != seen {
        return Err(format!(
            "mismatch: {name}: a batch with {room} bytes of output\nbook       {}\nobjectives {}\nright      {right:?}\nseen       {seen:?}",
            to_hex(book),
            to_hex(objectives)
        ));
    }
    tally.batches += 1;
    match seen {
        Ok(bytes) => tally.answers += (bytes.len() / ANSWER) as u64,
        Err(_) => tally.refused += 1,
    }
    Ok(())
}

/// Objectives: nothing at all, the axes, along and against a rule's normal, across it, the greatest, and any.
fn objective(random: &mut Random, rules: &[Line]) -> (i64, i64) {
    let small = |n: i128| n.clamp(-32_767, 32_767) as i64;
    let rule = if rules.is_empty() { Line { a: 1, b: 1, c: 0 } } else { rules[random.below(rules.len())] };
    let (a, b) = (small(rule.a), small(rule.b));
    match random.below(12) {
        0 => (0, 0),
        1 => (1, 0),
        2 => (0, 1),
        3 => (a, b),
        4 => (-a, -b),
        5 => (b, -a),
        6 => (-b, a),
        7 => (32_767, -32_767),
        8 => (-1, random.between(-3, 3)),
        9 => (random.between(-3, 3), random.between(-3, 3)),
        _ => (random.between(-32_767, 32_767), random.between(-32_767, 32_767)),
    }
}

/// As many as are lawful, now and then one byte or one objective off, or with a number that none may be.
fn objectives(random: &mut Random, rules: &[Line]) -> Vec<u8> {
    let n = random.pick(&[1, 1, 2, 3, 5, 31, 32]);
    let mut bytes: Vec<u8> = (0..n)
        .flat_map(|_| {
            let (p, q) = objective(random, rules);
            [(p as i16).to_le_bytes(), (q as i16).to_le_bytes()].concat()
        })
        .collect();
    if random.one_in(8) {
        let length = random.pick(&[0, 1, 3, 5, 127, 129, 132, 256]);
        bytes.resize(length, 0);
    }
    if random.one_in(12) && bytes.len() >= 4 {
        let at = 2 * random.below(bytes.len() / 2);
        bytes[at..at + 2].copy_from_slice(&(-32_768i16).to_le_bytes());
    }
    bytes
}

fn room(random: &mut Random, objectives: &[u8]) -> usize {
    let exact = 8 * objectives.len();
    random.pick(&[exact, exact, exact + 1, exact + 40, 1_024, exact.saturating_sub(1), 0])
}

/// Stored books and random ones, of up to 12 rules, now and then up to 255; one in eight is damaged.
pub fn batches(seed: u64, books: u64) -> Result<Tally, String> {
    let (mut random, mut tally) = (Random::new(seed), Tally::default());
    let mut tries = |name: &str, book: &[u8], random: &mut Random| {
        let rules: Vec<Line> = read_as(&TWO, book).map_or(Vec::new(), |a| a.rules.iter().map(|r| r.line).collect());
        let objectives = objectives(random, &rules);
        let room = room(random, &objectives);
        try_batch(name, book, &objectives, room, &mut tally)
    };
    for (name, book) in short_stored_books(&TWO) {
        tries(name, &book, &mut random)?;
    }
    for i in 1..=books {
        let most = if i % 100 == 0 { MOST_RULES } else { 12 };
        let n = random.below(most + 1);
        let (name, source) = source(&TWO, &mut random, n);
        let mut book = source.scattered_as(&TWO, 3, &mut random);
        if random.one_in(8) {
            damage(&TWO, &mut random, &mut book);
        }
        tries(name, &book, &mut random)?;
    }
    Ok(tally)
}

/// A book with more bytes has few objectives in the program's run, since one takes half a second to search.
const LONG: usize = 4_200;

/// The line of an answer.
fn line(answer: &[u8]) -> String {
    let number = |at: usize| signed(&answer[at..at + 8]);
    let pair = || format!("{} {} {}", number(8), number(16), number(24));
    match answer[0] {
        1 => format!("best {}\n", pair()),
        2 => format!("unlimited {}\n", pair()),
        _ => "impossible\n".into(),
    }
}

/// The lines of a batch, or that of its refusal.
fn lines(book: &[u8], objectives: &[u8]) -> String {
    match right(book, objectives, 8 * objectives.len()) {
        Err(r) => format!("refused {} {}\n", r.number, r.record),
        Ok(bytes) => bytes.chunks(ANSWER).map(line).collect(),
    }
}

/// Runs the program on all books that a plan program is run on, with some objectives each; a book that is missing has a line on standard
/// error and none on standard output. Says how many runs there were.
pub fn program(path: &str, seed: u64) -> Result<u64, String> {
    let mut random = Random::new(seed);
    let books = inputs(&TWO, &mut random);
    for (name, book) in &books {
        let rules: Vec<Line> = read_as(&TWO, book).map_or(Vec::new(), |a| a.rules.iter().map(|r| r.line).collect());
        let mut objectives = objectives(&mut random, &rules);
        objectives.truncate(if book.len() > LONG { 8 } else { 256 });
        let (right, told) = (lines(book, &objectives), printed_of(path, book, &objectives, random.below(objectives.len() + 1))?);
        if told != right {
            let (book, objectives) = (to_hex(book), to_hex(&objectives));
            return Err(format!(
                "mismatch: {name}: a batch\nbook       {book}\nobjectives {objectives}\nright\n{right}printed\n{told}"
            ));
        }
    }
    let (out, error) = streams_with(path, &[], &[0; 4], 4)?;
    if !out.is_empty() || error.is_empty() {
        return Err("a missing book must have a line on standard error alone".into());
    }
    Ok(books.len() as u64 + 1)
}

#[cfg(test)]
mod tests {
    use super::*;
    use crate::stored::source;

    #[test]
    fn lines_of_the_class_example() {
        let book = source(0, 0, &[(1, 1, 2, 8), (1, 3, 1, 9)]).packed_as(&TWO);
        assert_eq!(lines(&book, &[1, 0, 1, 0, 0, 0, 0, 0]), "best 2 3 1\nbest 0 0 1\n");
        assert_eq!(lines(&book, &[1, 0, 1]), "refused 16 0\n");
        assert_eq!(lines(&source(0, 0, &[]).packed_as(&TWO), &[1, 0, 0, 0]), "unlimited 0 0 1\n");
        assert_eq!(lines(&source(0, 0, &[(1, 1, 0, -1)]).packed_as(&TWO), &[1, 0, 0, 0]), "impossible\n");
    }
}
