//! The corners that the static library writes, 24 bytes each, into buffers that are too short by a byte, just long enough and longer,
//! against the search's list.

use crate::book::{to_hex, Rule, Source};
use crate::corners::corners_of;
use crate::damage::damage;
use crate::exact::Pair;
use crate::families::source;
use crate::layout::TWO;
use crate::program::short_stored_books;
use crate::random::Random;
use crate::read::{read_as, Accepted, Refused};

/// What stands for a refusal is this many times its number, plus its record or, with 11, how many corners there are.
const REFUSED: usize = 65_536;
/// Room for the corners of every book: of 4,095 rules and two floors.
pub const CORNERS: usize = 24 * 4_097;
const BEFORE: u8 = 0xA5;

extern "C" {
    fn vishalneq_corners(book: *const u8, book_len: usize, out: *mut u8, out_len: usize) -> usize;
}

/// The corners of a book at the start of a buffer.
pub fn corners(book: &[u8], out: &mut [u8]) -> usize {
    // SAFETY: both slices are live for the call, and `out` is lent for writing to this call alone.
    unsafe { vishalneq_corners(book.as_ptr(), book.len(), out.as_mut_ptr(), out.len()) }
}

fn bytes(list: &[Pair]) -> Vec<u8> {
    list.iter().flat_map(|v| [v.x, v.y, v.d]).flat_map(|z| (z as i64).to_le_bytes()).collect()
}

/// What must be handed back, and what a buffer must hold then.
fn right(list: &Result<Vec<u8>, Refused>, room: usize) -> (usize, Vec<u8>) {
    let untouched = vec![BEFORE; room];
    match list {
        Err(refused) => (REFUSED * refused.number as usize + refused.record, untouched),
        Ok(list) if list.len() > room => (REFUSED * 11 + list.len() / 24, untouched),
        Ok(list) => (list.len() / 24, [list, &untouched[list.len()..]].concat()),
    }
}

/// A book in buffers around what its corners take.
fn try_book(name: &str, book: &[u8]) -> Result<(), String> {
    let list = read_as(&TWO, book).map(|Accepted { terms, rules }| bytes(&corners_of(&terms, &rules)));
    let taken = list.as_ref().map_or(24, Vec::len);
    for room in [0, taken.saturating_sub(1), taken, taken + 5] {
        let mut out = vec![BEFORE; room];
        let told = corners(book, &mut out);
        if (told, &out) != (right(&list, room).0, &right(&list, room).1) {
            return Err(format!(
                "mismatch: {name}: corners in {room} bytes\nbook    {}\ntold    {told}\nwritten {out:?}",
                to_hex(book)
            ));
        }
    }
    Ok(())
}

/// A region by its name, its floors, and a, b and c of its rules.
type Shape = (&'static str, [i16; 2], &'static [(i16, i16, i32)]);

const SHAPES: [Shape; 11] = [
    ("a point", [0, 0], &[(1, 1, 0)]),
    ("a segment", [0, 0], &[(1, 1, 3), (-1, -1, -3)]),
    ("a ray", [0, 0], &[(0, 1, 0)]),
    ("a strip", [0, 0], &[(1, 0, 5)]),
    ("a strip across", [0, 0], &[(1, -1, 2), (-1, 1, 3)]),
    ("a wedge", [0, 0], &[(1, -2, 0), (-2, 1, 0)]),
    ("empty", [0, 0], &[(1, 1, -1)]),
    ("many lines through one corner", [0, 0], &[(1, 0, 4), (0, 1, 4), (1, 1, 8), (2, 1, 12), (1, 2, 12)]),
    ("repeated and parallel lines", [0, 0], &[(1, 1, 4), (1, 1, 4), (2, 2, 8), (1, 1, 5), (-1, -1, -1)]),
    ("the least and the greatest floor", [-32_768, 32_767], &[(1, 1, 7), (3, 2, 50_000), (0, 0, 0)]),
    ("the greatest and the least floor", [32_767, -32_768], &[(1, 1, 7), (2, 3, 50_000)]),
];

fn shaped() -> Vec<(&'static str, Vec<u8>)> {
    let book = |(name, [lx, ly], sides): Shape| {
        let rule = |(i, &(a, b, c)): (usize, &(i16, i16, i32))| Rule { kind: 1, a, b, c, label: i as u16 };
        (name, Source { p: 1, q: 1, lx, ly, rules: sides.iter().enumerate().map(rule).collect() }.packed_as(&TWO))
    };
    SHAPES.into_iter().map(book).collect()
}

/// Stored books and so many random ones, some of them damaged. Says how many there were.
pub fn corner_bytes(seed: u64, books: u64) -> Result<u64, String> {
    let mut random = Random::new(seed);
    let stored = [short_stored_books(&TWO), shaped()].concat();
    for (name, book) in &stored {
        try_book(name, book)?;
    }
    for _ in 0..books {
        let most = if random.one_in(50) { 255 } else { 12 };
        let n = random.below(most + 1);
        let (name, source) = source(&TWO, &mut random, n);
        let mut book = source.scattered_as(&TWO, 3, &mut random);
        if random.one_in(8) {
            damage(&TWO, &mut random, &mut book);
        }
        try_book(name, &book)?;
    }
    Ok(stored.len() as u64 + books)
}
