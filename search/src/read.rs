//! Reading rule books by the text of the format: which book is turned back and why, and what an accepted one says.

use crate::exact::{floors, Line, Terms};
use crate::layout::{signed, unsigned, Layout, Record, ONE};

/// A rule as planned (kind 2 turned round), with the record that holds it.
#[derive(Clone, Copy, Debug)]
pub struct Entry {
    pub line: Line,
    pub record: usize,
    pub label: usize,
}

/// An accepted book: the objective and the floors, and the rules in chain order.
#[derive(Debug)]
pub struct Accepted {
    pub terms: Terms,
    pub rules: Vec<Entry>,
}

/// A book that is turned back, with the number of the cause and the record.
#[derive(Clone, Copy, Debug, PartialEq)]
pub struct Refused {
    pub number: u32,
    pub record: usize,
}

/// Reads a book of version 1.
pub fn read(book: &[u8]) -> Result<Accepted, Refused> {
    read_as(&ONE, book)
}

pub fn read_as(layout: &Layout, book: &[u8]) -> Result<Accepted, Refused> {
    check_header(layout, book).map_err(|number| Refused { number, record: 0 })?;
    let rules = follow(layout, book)?;
    Ok(Accepted { terms: terms(layout, book), rules })
}

/// What a header with nothing against it says. Where the version has no floors in it, they are zero.
fn terms(layout: &Layout, book: &[u8]) -> Terms {
    let header = layout.record(book, 0);
    let [p, q] = header.pair.map(signed);
    let (x, y) = header.last.split_at(2);
    let floors = if layout.floors { floors(signed(x), signed(y)) } else { floors(0, 0) };
    Terms { p, q, floors }
}

fn check_header(layout: &Layout, book: &[u8]) -> Result<(), u32> {
    let width = layout.width();
    if book.len() < width || book.len() > width * layout.records || book.len() % width != 0 {
        return Err(1);
    }
    let header = layout.record(book, 0);
    if header.kind != layout.version || !all_zero(header.pad) {
        return Err(2);
    }
    if unsigned(header.word) != book.len() / width - 1 {
        return Err(3);
    }
    if header.pair.map(signed).contains(&-32768) {
        return Err(4);
    }
    if !layout.floors && !all_zero(header.last) {
        return Err(5);
    }
    Ok(())
}

fn all_zero(bytes: &[u8]) -> bool {
    bytes.iter().all(|b| *b == 0)
}

/// The rules along the chain, or the first cause that turns the book back.
fn follow(layout: &Layout, book: &[u8]) -> Result<Vec<Entry>, Refused> {
    let count = book.len() / layout.width() - 1;
    let mut rules: Vec<Entry> = Vec::new();
    let mut holder = 0;
    loop {
        let link = unsigned(layout.record(book, holder).link);
        if link == 0 {
            return Ok(rules);
        }
        if link > count {
            return Err(Refused { number: 6, record: holder });
        }
        if rules.iter().any(|r| r.record == link) {
            return Err(Refused { number: 7, record: holder });
        }
        let record = layout.record(book, link);
        let line = rule(&record).map_err(|number| Refused { number, record: link })?;
        let label = unsigned(record.word);
        if rules.iter().any(|r| r.label == label) {
            return Err(Refused { number: 12, record: link });
        }
        rules.push(Entry { line, record: link, label });
        holder = link;
    }
}

/// The rule of one record, kind 2 turned round, or the cause against it.
fn rule(record: &Record) -> Result<Line, u32> {
    let ([a, b], c) = (record.pair.map(signed), signed(record.last));
    if ![1, 2].contains(&record.kind) || !all_zero(record.pad) {
        return Err(8);
    }
    if a == -32768 || b == -32768 {
        return Err(9);
    }
    if c < -1_000_000_000 || c > 1_000_000_000 {
        return Err(10);
    }
    Ok(if record.kind == 1 { Line { a, b, c } } else { Line { a: -a, b: -b, c: -c } })
}
