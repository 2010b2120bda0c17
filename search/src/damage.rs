//! Damaged books: one thing about the bytes is changed. The result is often refused, and where it is not it must be planned.

use crate::layout::Layout;
use crate::random::Random;

/// Damages a book that has a header; one that an earlier damage left with less stays as it is.
pub fn damage(layout: &Layout, random: &mut Random, book: &mut Vec<u8>) {
    let (width, pair) = (layout.width(), layout.pair_at());
    if book.len() < width {
        return;
    }
    let records = book.len() / width;
    let record = random.below(records) * width;
    match random.below(10) {
        0 => flip(random, book),
        1 => book.truncate(random.below(book.len() + 1)),
        2 => book.extend((0..random.pick(&[1, width - 1, width, width * layout.records])).map(|i| i as u8)),
        3 => set(book, record, &random.below(records + 2).to_le_bytes()[..layout.link_bytes]),
        4 => kind(layout, random, book, record),
        5 => set(book, record + pair + 2 * random.below(2), &i16::MIN.to_le_bytes()),
        6 => far(random, book, record + pair + 6),
        7 => label(layout, random, book),
        8 => set(book, pair + 4 + random.below(6), &[random.word() as u8]),
        _ => header(layout, random, book),
    }
}

/// One bit or one byte anywhere.
fn flip(random: &mut Random, book: &mut [u8]) {
    let at = random.below(book.len());
    book[at] ^= if random.one_in(2) { 1 << random.below(8) } else { random.between(1, 255) as u8 };
}

/// The kind of a record or the version of the header, or one of the zeros after it.
fn kind(layout: &Layout, random: &mut Random, book: &mut [u8], record: usize) {
    let at = record + layout.link_bytes + random.below(1 + layout.pad_bytes);
    book[at] = random.pick(&[0, 1, 2, 3, 255]);
}

/// A c at the edge of its range or beyond.
fn far(random: &mut Random, book: &mut [u8], at: usize) {
    let c: i32 = random.pick(&[1_000_000_001, -1_000_000_001, i32::MIN, i32::MAX, 1_000_000_000]);
    set(book, at, &c.to_le_bytes());
}

/// The label of one record into another, on the chain or spare.
fn label(layout: &Layout, random: &mut Random, book: &mut [u8]) {
    let (width, word) = (layout.width(), layout.pair_at() + 4);
    let records = book.len() / width;
    if records > 1 {
        let (from, to) = (1 + random.below(records - 1), 1 + random.below(records - 1));
        let label = [book[from * width + word], book[from * width + word + 1]];
        set(book, to * width + word, &label);
    }
}

/// Several wrong things in the header at once, so that the order of the tests shows.
fn header(layout: &Layout, random: &mut Random, book: &mut [u8]) {
    let pair = layout.pair_at();
    for at in [layout.link_bytes, pair - 1, pair + 1, pair + 4, pair + 6] {
        if random.one_in(2) {
            book[at] ^= 0x80;
        }
    }
}

fn set(book: &mut [u8], at: usize, bytes: &[u8]) {
    book[at..at + bytes.len()].copy_from_slice(bytes);
}
