//! The planner's twin: the same algorithm in plain Rust with i64, for the benchmark. It reads the same bytes and writes the same line.
//! One rule at a time it keeps the start pair, the cone of directions and the best pair; a broken pair moves to the tightest point on the
//! line of the rule that broke it. At most three passes over the earlier entries for each rule; where nothing is broken there is none, but
//! for the one that finds the best pair when gains come to have a top. Once the passes have looked at many entries, the tuned twin carries
//! the region's boundary along, as the planner does; the quadratic twin goes on with its passes.

mod book;
mod line;
mod plane;
mod ring;
mod version;
mod walk;

use book::{Chain, Refused};
use plane::Constraint;
use version::{One, Two, Version};
use walk::Answer;

/// Room for the floors and 30 rules, for the floors and 255, and for the floors and 4,095.
const SHORT: usize = 32;
const LONG: usize = 257;
const LONGEST: usize = 4_097;

/// Room for the floors and as many rules of two books.
const TWO_SHORT: usize = 62;
const TWO_LONG: usize = 512;
const TWO_LONGEST: usize = 8_192;

/// Writes the line of a version 1 book at the start of `out` and returns its length, as one would write it.
#[inline(never)]
pub fn plan_line(book: &[u8], out: &mut [u8]) -> usize {
    planned::<One, LONG, false, false>(book, out)
}

/// The same with the planner's shortcuts: a run for two floors and 255 rules is long to clear, so short books have a short one; a point
/// is divided in another order; a pass starts from the point at infinity; and the boundary is carried along after many passes.
#[inline(never)]
pub fn tuned_line(book: &[u8], out: &mut [u8]) -> usize {
    if book::entries::<One>(book) <= SHORT {
        planned::<One, SHORT, true, true>(book, out)
    } else {
        planned::<One, LONG, true, true>(book, out)
    }
}

/// The line of a version 2 book, with the planner's shortcuts and its three sizes of runs.
#[inline(never)]
pub fn tuned_line2(book: &[u8], out: &mut [u8]) -> usize {
    line2::<true>(book, out)
}

/// The same with passes to the end of the chain.
#[inline(never)]
pub fn quadratic_line2(book: &[u8], out: &mut [u8]) -> usize {
    line2::<false>(book, out)
}

#[inline(always)]
fn line2<const CARRYING: bool>(book: &[u8], out: &mut [u8]) -> usize {
    match book::entries::<Two>(book) {
        0..=SHORT => planned::<Two, SHORT, true, CARRYING>(book, out),
        0..=LONG => planned::<Two, LONG, true, CARRYING>(book, out),
        _ => planned::<Two, LONGEST, true, CARRYING>(book, out),
    }
}

/// The panel of a version 1 book, with the planner's shortcuts.
#[inline(never)]
pub fn tuned_panel(book: &[u8], out: &mut [u8]) -> usize {
    if book::entries::<One>(book) <= SHORT {
        panelled::<One, SHORT>(book, out)
    } else {
        panelled::<One, LONG>(book, out)
    }
}

/// The panel of a version 2 book.
#[inline(never)]
pub fn tuned_panel2(book: &[u8], out: &mut [u8]) -> usize {
    match book::entries::<Two>(book) {
        0..=SHORT => panelled::<Two, SHORT>(book, out),
        0..=LONG => panelled::<Two, LONG>(book, out),
        _ => panelled::<Two, LONGEST>(book, out),
    }
}

/// The line of two books of version 2 joined, each half of the bytes. It does not name books in a witness or a refusal.
#[inline(never)]
pub fn joint_halves(books: &[u8], out: &mut [u8]) -> usize {
    halves::<true>(books, out)
}

/// The same with passes to the end of the chain.
#[inline(never)]
pub fn quadratic_halves(books: &[u8], out: &mut [u8]) -> usize {
    halves::<false>(books, out)
}

#[inline(always)]
fn halves<const CARRYING: bool>(books: &[u8], out: &mut [u8]) -> usize {
    let (site, tenant) = books.split_at(books.len() / 2);
    match book::entries::<Two>(site).max(book::entries::<Two>(tenant)) {
        0..=SHORT => joined::<TWO_SHORT, CARRYING>(site, tenant, out),
        0..=LONG => joined::<TWO_LONG, CARRYING>(site, tenant, out),
        _ => joined::<TWO_LONGEST, CARRYING>(site, tenant, out),
    }
}

/// Plans two books joined likewise.
#[inline(never)]
fn joined<const SIZE: usize, const CARRYING: bool>(site: &[u8], tenant: &[u8], out: &mut [u8]) -> usize {
    let (mut entries, mut records) = ([Constraint::NONE; SIZE], [0; SIZE]);
    let mut chain = Chain::empty(&mut entries, &mut records);
    match book::join::<Two>(site, tenant, &mut chain) {
        Ok(()) => line::answer(&walk::walk::<true, CARRYING>(&chain), &chain, out),
        Err((number, record)) => line::refused(number, record, out),
    }
}

/// Plans a book with its entries in runs of a size that has room for them. Each size is a function of its own, so that a short book takes
/// little of the stack.
#[inline(never)]
fn planned<V: Version, const SIZE: usize, const TUNED: bool, const CARRYING: bool>(book: &[u8], out: &mut [u8]) -> usize {
    let (mut entries, mut records) = ([Constraint::NONE; SIZE], [0; SIZE]);
    let mut chain = Chain::empty(&mut entries, &mut records);
    match answered::<V, TUNED, CARRYING>(book, &mut chain) {
        Ok(answer) => line::answer(&answer, &chain, out),
        Err((number, record)) => line::refused(number, record, out),
    }
}

/// Makes the panel of a book likewise.
#[inline(never)]
fn panelled<V: Version, const SIZE: usize>(book: &[u8], out: &mut [u8]) -> usize {
    let (mut entries, mut records) = ([Constraint::NONE; SIZE], [0; SIZE]);
    let mut chain = Chain::empty(&mut entries, &mut records);
    match answered::<V, true, true>(book, &mut chain) {
        Ok(answer) => line::panel(&answer, &chain, |record| book::label::<V>(book, record), out),
        Err((number, record)) => line::refused(number, record, out),
    }
}

/// Reads a book into an empty chain and walks along it.
#[inline(always)]
fn answered<V: Version, const TUNED: bool, const CARRYING: bool>(book: &[u8], chain: &mut Chain) -> Result<Answer, Refused> {
    book::read::<V>(book, chain)?;
    Ok(walk::walk::<TUNED, CARRYING>(chain))
}
