//! Reading and repacking from outside, compared with a repacker written here from the format's text. Books go in batches to the program
//! `book_vectors`, which says of each what it reads as and what its repacking does to an output; to the library's repackers; and to the
//! programs that only repack.

use crate::book::{to_hex, MOST_RULES};
use crate::damage::damage;
use crate::exact::Terms;
use crate::families::source;
use crate::layout::{signed, Layout, Record, ONE, TWO};
use crate::planner::Planner;
use crate::program::{inputs, printed, stored_books, streams};
use crate::random::Random;
use crate::read::{read_as, Accepted, Entry, Refused};
use std::fmt;

/// The program reads a batch into this many bytes.
const MOST_BYTES: usize = 65_536;

/// A book of this length is too long in either version, and fits into a batch.
const MOST_BOOK: usize = 60_000;

/// The longest chain that the program shows, and the longest output that it lends to the repacker.
const SHOWN: Limits = Limits { rules: MOST_RULES, room: 4_096 };

/// The version that every repacker writes.
const WRITTEN: Layout = TWO;

/// How many rules a random book has at most, and how long its output may be.
#[derive(Clone, Copy)]
struct Limits {
    rules: usize,
    room: usize,
}

/// A book of a version, and the length of the output it is repacked into.
struct Case {
    layout: Layout,
    name: &'static str,
    book: Vec<u8>,
    room: usize,
}

/// How many books came to each end.
#[derive(Default)]
pub struct Tally {
    repacked: u64,
    refused: u64,
    without_room: u64,
}

impl Tally {
    fn count(&mut self, repacked: &Result<Vec<u8>, Refused>) {
        *match repacked {
            Ok(_) => &mut self.repacked,
            Err(Refused { number: 11, .. }) => &mut self.without_room,
            Err(_) => &mut self.refused,
        } += 1;
    }
}

impl fmt::Display for Tally {
    fn fmt(&self, f: &mut fmt::Formatter) -> fmt::Result {
        let Tally { repacked, refused, without_room } = self;
        let all = repacked + refused + without_room;
        write!(f, "{all} books: {repacked} repacked, {refused} refused, {without_room} without room")
    }
}

/// What repacking a book fills of an output of so many bytes, or why it fills nothing. The header's last bytes are carried over: they are
/// the floors, or the zeros that a version without floors must have there.
pub fn repack(layout: &Layout, book: &[u8], room: usize) -> Result<Vec<u8>, Refused> {
    let rules = read_as(layout, book)?.rules;
    let n = rules.len();
    if room < WRITTEN.width() * (n + 1) {
        return Err(Refused { number: 11, record: 0 });
    }
    let header = layout.record(book, 0);
    let mut out = packed(usize::from(n > 0), WRITTEN.version, header.pair, &(n as u16).to_le_bytes(), header.last);
    for (place, rule) in (1..).zip(&rules) {
        let Record { kind, pair, word, last, .. } = layout.record(book, rule.record);
        out.extend(packed(if place < n { place + 1 } else { 0 }, kind, pair, word, last));
    }
    Ok(out)
}

/// A record of the repacked form.
fn packed(link: usize, kind: u8, pair: [&[u8]; 2], word: &[u8], last: &[u8]) -> Vec<u8> {
    let (link, zeros) = (&link.to_le_bytes()[..WRITTEN.link_bytes], &[0; 8][..WRITTEN.pad_bytes]);
    [link, &[kind], zeros, pair[0], pair[1], word, last].concat()
}

/// A rule of the chain: its record, kind, a, b, c and label, and then a, b and c as they are planned.
fn shown_rule(layout: &Layout, book: &[u8], rule: &Entry) -> String {
    let record = layout.record(book, rule.record);
    let ([a, b], c) = (record.pair.map(signed), signed(record.last));
    let Entry { line, record: index, label } = rule;
    format!(" | {index} {} {a} {b} {c} {label} as {} {} {}", record.kind, line.a, line.b, line.c)
}

/// What a book reads as.
fn shown_reading(layout: &Layout, book: &[u8]) -> String {
    match read_as(layout, book) {
        Err(Refused { number, record }) => format!("refused {number} {record}"),
        Ok(Accepted { terms: Terms { p, q, .. }, rules }) => {
            let chain: String = rules.iter().map(|r| shown_rule(layout, book, r)).collect();
            format!("accepted {p} {q} {}{chain}", rules.len())
        }
    }
}

/// The two lines that the program must print for a case.
fn right(case: &Case, tally: &mut Tally) -> [String; 2] {
    let reading = format!("{} {}", case.name, shown_reading(&case.layout, &case.book));
    let repacked = repack(&case.layout, &case.book, case.room);
    tally.count(&repacked);
    let packed = match repacked {
        Ok(out) => format!("0 0 {} {}", out.len(), to_hex(&out)),
        Err(Refused { number, record }) => format!("{number} {record} 0 "),
    };
    [reading, format!("  packed {packed} changed 0")]
}

/// A case as the program reads it.
fn written(case: &Case) -> Vec<u8> {
    let length = |n: usize| (n as u16).to_le_bytes();
    let (name, version) = (case.name.as_bytes(), usize::from(case.layout.version));
    [&length(name.len())[..], name, &length(version), &length(case.book.len()), &case.book, &length(case.room)].concat()
}

/// Puts a batch through the program and compares each case's two lines.
fn try_batch(path: &str, cases: &[Case], random: &mut Random, tally: &mut Tally) -> Result<(), String> {
    let input: Vec<u8> = cases.iter().flat_map(written).collect();
    let output = printed(path, &input, random.below(input.len() + 1))?;
    let output = String::from_utf8_lossy(&output);
    let mut lines = output.split_terminator('\n');
    for case in cases {
        let right = right(case, tally);
        let told = [lines.next().unwrap_or("nothing"), lines.next().unwrap_or("nothing")];
        if told != right {
            let Case { book, room, .. } = case;
            let (right, told, book) = (right.join("\n"), told.join("\n"), to_hex(book));
            return Err(format!(
                "mismatch: another reading or repacking, room {room}\nbook    {book}\nright   {right}\nprinted {told}"
            ));
        }
    }
    match lines.next() {
        Some(line) => Err(format!("mismatch: a line after the last case: {line}")),
        None => Ok(()),
    }
}

/// A random book, packed or scattered, damaged once or twice in two of five, with an output of about the length that it needs.
fn random_case(layout: Layout, limits: Limits, random: &mut Random) -> Case {
    let most = if random.one_in(16) { limits.rules } else { 12 };
    let n = random.below(most + 1);
    let (name, source) = source(&layout, random, n);
    let need = WRITTEN.width() * (n + 1);
    let spare = random.pick(&[0, 3, 9, limits.rules]).min(limits.rules - n);
    let mut book = if random.one_in(4) { source.packed_as(&layout) } else { source.scattered_as(&layout, spare, random) };
    for _ in 0..random.pick(&[0, 0, 0, 1, 2]) {
        damage(&layout, random, &mut book);
    }
    book.truncate(MOST_BOOK);
    let any = random.below(limits.room + 1);
    let room = random.pick(&[need, need, need + 1, need - 1, limits.room, 0, any]);
    Case { layout, name, book, room }
}

/// A version's stored books, each with room, and so many random books.
fn cases(layout: Layout, limits: Limits, random: &mut Random, random_books: u64) -> Vec<Case> {
    let stored = stored_books(&layout).into_iter().filter(|(_, book)| book.len() <= limits.room);
    let with_room = stored.map(|(name, book)| Case { layout, name, book, room: limits.room });
    with_room.chain((0..random_books).map(|_| random_case(layout, limits, random))).collect()
}

/// Puts all cases of both versions through the program, as many at a time as it takes.
pub fn repacks(path: &str, seed: u64, random_books: u64) -> Result<Tally, String> {
    let mut random = Random::new(seed);
    let mut tally = Tally::default();
    let mut all = cases(ONE, SHOWN, &mut random, random_books / 2);
    all.extend(cases(TWO, SHOWN, &mut random, random_books.div_ceil(2)));
    let mut rest = &all[..];
    while !rest.is_empty() {
        let (batch, others) = rest.split_at(fitting(rest));
        try_batch(path, batch, &mut random, &mut tally)?;
        rest = others;
    }
    Ok(tally)
}

/// Puts a version's cases through the library's repacker, with books as long as the version has them.
pub fn library(planner: &Planner, seed: u64, random_books: u64) -> Result<Tally, String> {
    let limits = Limits { rules: planner.layout.most_rules(), room: WRITTEN.width() * WRITTEN.records + 99 };
    let mut random = Random::new(seed);
    let mut tally = Tally::default();
    for Case { layout, name, book, room } in cases(planner.layout, limits, &mut random, random_books) {
        let (right, told) = (repack(&layout, &book, room), planner.repack(&book, room));
        if told.as_ref() != Ok(&right) {
            let book = to_hex(&book);
            return Err(format!("mismatch: {name}: repacked, room {room}\nbook    {book}\nright   {right:?}\ntold    {told:?}"));
        }
        tally.count(&right);
    }
    Ok(tally)
}

/// A version's program that only repacks, on what its plan program is run on: the repacked form on standard output, or the line of the
/// refusal on standard error, and nothing on the other.
pub fn program(layout: &Layout, path: &str, seed: u64) -> Result<Tally, String> {
    let mut random = Random::new(seed);
    let mut tally = Tally::default();
    for (name, book) in inputs(layout, &mut random) {
        let right = repack(layout, &book, WRITTEN.width() * WRITTEN.records);
        tally.count(&right);
        let streams = streams(path, &book, random.below(book.len() + 1))?;
        let expected = match right {
            Ok(packed) => (packed, Vec::new()),
            Err(Refused { number, record }) => (Vec::new(), format!("refused {number} {record}\n").into_bytes()),
        };
        if streams != expected {
            return Err(format!(
                "mismatch: {name}: repacked\nbook    {}\nright   {expected:?}\nprinted {streams:?}",
                to_hex(&book)
            ));
        }
    }
    Ok(tally)
}

/// How many of the first cases fit into one input, at least one.
fn fitting(cases: &[Case]) -> usize {
    let sizes = cases.iter().scan(0, |size, case| {
        *size += written(case).len();
        Some(*size)
    });
    sizes.take_while(|size| *size <= MOST_BYTES).count().max(1)
}

#[cfg(test)]
mod tests {
    use super::*;

    #[test]
    fn a_repacked_book_is_its_own_repacked_form() {
        let mut random = Random::new(1);
        for layout in [ONE, TWO] {
            let books = (0..2_000).map(|_| random_case(layout, SHOWN, &mut random).book);
            let packed: Vec<Vec<u8>> = books.filter_map(|book| repack(&layout, &book, SHOWN.room).ok()).collect();
            assert!(packed.len() > 1_000);
            assert!(packed.iter().all(|book| repack(&WRITTEN, book, book.len()).as_ref() == Ok(book)));
        }
    }

    #[test]
    fn a_scattered_book_repacks_to_the_packed_one() {
        let mut random = Random::new(2);
        for (n, layout) in (0..=MOST_RULES).step_by(5).zip([ONE, TWO].into_iter().cycle()) {
            let (_, source) = source(&layout, &mut random, n);
            let (packed, scattered) = (source.packed_as(&WRITTEN), source.scattered_as(&layout, 20, &mut random));
            if read_as(&layout, &scattered).is_ok() {
                assert_eq!(repack(&layout, &scattered, packed.len() - 1), Err(Refused { number: 11, record: 0 }));
                assert_eq!(repack(&layout, &scattered, packed.len()), Ok(packed));
            }
        }
    }
}
