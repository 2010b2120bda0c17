//! How a version of the format writes a record. The compiler knows all of it, so that a reader of either version has constant offsets.

/// After the kind, with its zeros, come four bytes of p and q or a and b, two of the count or the label, and four of c, of the floors or of
/// zeros.
pub trait Version {
    const NUMBER: u16;
    const WIDTH: usize;
    const RECORDS: usize;
    /// Where p and q, or a and b, begin in a record.
    const PAIR: usize;
    /// Whether a header ends with the floors, or with zeros.
    const FLOORS: bool;
    /// Which records the chain has come to.
    type Marks;
    const UNMARKED: Self::Marks;

    /// Marks a record, and says whether it was marked before.
    fn mark(marks: &mut Self::Marks, record: usize) -> bool;
    fn link(record: &[u8]) -> usize;
    /// The kind, or the version in a header; with a byte that must be zero and is not, it is none that there is.
    fn kind(record: &[u8]) -> u16;
}

pub struct One;
pub struct Two;

impl Version for One {
    const NUMBER: u16 = 1;
    const WIDTH: usize = 12;
    const RECORDS: usize = 256;
    const PAIR: usize = 2;
    const FLOORS: bool = false;
    type Marks = [bool; 256];
    const UNMARKED: Self::Marks = [false; 256];

    fn mark(marks: &mut Self::Marks, record: usize) -> bool {
        std::mem::replace(&mut marks[record], true)
    }

    fn link(record: &[u8]) -> usize {
        usize::from(record[0])
    }

    fn kind(record: &[u8]) -> u16 {
        u16::from(record[1])
    }
}

impl Version for Two {
    const NUMBER: u16 = 2;
    const WIDTH: usize = 14;
    const RECORDS: usize = 4_096;
    const PAIR: usize = 4;
    const FLOORS: bool = true;
    type Marks = [u64; 64];
    const UNMARKED: Self::Marks = [0; 64];

    fn mark(marks: &mut Self::Marks, record: usize) -> bool {
        crate::book::set(marks, record)
    }

    fn link(record: &[u8]) -> usize {
        usize::from(u16::from_le_bytes([record[0], record[1]]))
    }

    fn kind(record: &[u8]) -> u16 {
        u16::from_le_bytes([record[2], record[3]])
    }
}
