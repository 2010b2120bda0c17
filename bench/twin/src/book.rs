//! Reads the chain once into a flat run of entries, floors first.

use crate::plane::Constraint;
use crate::version::Version;

/// The number of a cause and the record.
pub type Refused = (u8, u16);

pub struct Chain<'a> {
    pub p: i64,
    pub q: i64,
    /// The floors' corner, where the walk begins.
    pub lx: i64,
    pub ly: i64,
    pub count: usize,
    pub entries: &'a mut [Constraint],
    pub records: &'a mut [u16],
}

impl<'a> Chain<'a> {
    /// Puts the floors where a header has them.
    fn set_floors(&mut self, lx: i64, ly: i64) {
        (self.lx, self.ly) = (lx, ly);
        self.entries[0].c = -lx;
        self.entries[1].c = -ly;
    }

    /// No rules: the floors alone, at zero, in runs that were cleared.
    pub fn empty(entries: &'a mut [Constraint], records: &'a mut [u16]) -> Self {
        entries[0].a = -1;
        entries[1].b = -1;
        Chain { p: 0, q: 0, lx: 0, ly: 0, count: 2, entries, records }
    }
}

/// The entries that a book's chain can have at most: the floors, and a rule for each record after the header.
pub fn entries<V: Version>(book: &[u8]) -> usize {
    book.len() / V::WIDTH + 1
}

/// The bytes of a record.
fn record<V: Version>(book: &[u8], at: usize) -> &[u8] {
    &book[V::WIDTH * at..V::WIDTH * at + V::WIDTH]
}

/// The label of a record.
pub fn label<V: Version>(book: &[u8], at: usize) -> usize {
    word::<V>(record::<V>(book, at))
}

/// Fills the chain, or answers the number of the cause and the record.
pub fn read<V: Version>(book: &[u8], chain: &mut Chain) -> Result<(), Refused> {
    check_header::<V>(book).map_err(|number| (number, 0))?;
    chain.p = short(book, V::PAIR);
    chain.q = short(book, V::PAIR + 2);
    if V::FLOORS {
        chain.set_floors(short(book, V::PAIR + 6), short(book, V::PAIR + 8));
    }
    let mut seen = V::UNMARKED;
    let mut labels = [0u64; 1024];
    let mut at = 0;
    loop {
        let link = V::link(record::<V>(book, at));
        if link == 0 {
            return Ok(());
        }
        if link >= book.len() / V::WIDTH {
            return Err((6, at as u16));
        }
        if V::mark(&mut seen, link) {
            return Err((7, at as u16));
        }
        at = link;
        let rule = record::<V>(book, at);
        chain.entries[chain.count] = decode::<V>(rule).map_err(|number| (number, at as u16))?;
        if set(&mut labels, word::<V>(rule)) {
            return Err((12, at as u16));
        }
        chain.records[chain.count] = at as u16;
        chain.count += 1;
    }
}

/// Fills the chain with a site's rules and then a tenant's, under the tenant's objective and the greater floors.
pub fn join<V: Version>(site: &[u8], tenant: &[u8], chain: &mut Chain) -> Result<(), Refused> {
    read::<V>(site, chain)?;
    let (lx, ly) = (chain.lx, chain.ly);
    read::<V>(tenant, chain)?;
    chain.set_floors(lx.max(chain.lx), ly.max(chain.ly));
    Ok(())
}

/// Sets a bit in words, and says whether it was set before.
pub fn set(words: &mut [u64], bit: usize) -> bool {
    let before = words[bit / 64] >> (bit % 64) & 1 == 1;
    words[bit / 64] |= 1 << (bit % 64);
    before
}

fn check_header<V: Version>(book: &[u8]) -> Result<(), u8> {
    let (n, pair) = (book.len(), V::PAIR);
    if n < V::WIDTH || n > V::WIDTH * V::RECORDS || n % V::WIDTH != 0 {
        Err(1)
    } else if V::kind(book) != V::NUMBER {
        Err(2)
    } else if word::<V>(book) != n / V::WIDTH - 1 {
        Err(3)
    } else if short(book, pair) == -32768 || short(book, pair + 2) == -32768 {
        Err(4)
    } else if !V::FLOORS && book[pair + 6..pair + 10] != [0; 4] {
        Err(5)
    } else {
        Ok(())
    }
}

fn decode<V: Version>(r: &[u8]) -> Result<Constraint, u8> {
    let (a, b, at) = (short(r, V::PAIR), short(r, V::PAIR + 2), V::PAIR + 6);
    let c = i64::from(i32::from_le_bytes([r[at], r[at + 1], r[at + 2], r[at + 3]]));
    match V::kind(r) {
        1 | 2 if a == -32768 || b == -32768 => Err(9),
        1 | 2 if !(-1_000_000_000..=1_000_000_000).contains(&c) => Err(10),
        1 => Ok(Constraint { a, b, c }),
        2 => Ok(Constraint { a, b, c }.turned()),
        _ => Err(8),
    }
}

/// The count in a header, or the label of a rule.
fn word<V: Version>(r: &[u8]) -> usize {
    usize::from(u16::from_le_bytes([r[V::PAIR + 4], r[V::PAIR + 5]]))
}

fn short(bytes: &[u8], at: usize) -> i64 {
    i64::from(i16::from_le_bytes([bytes[at], bytes[at + 1]]))
}
