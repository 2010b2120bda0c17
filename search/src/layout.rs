//! How a version writes its records. Version 1 is what is meant wherever no layout is named.

/// How many bytes a link has, how many bytes of zero follow the kind or the version, the version's number, how many records a book may
/// have, the header among them, and whether the header ends with the floors, x first, or with zeros.
#[derive(Clone, Copy, Debug, PartialEq)]
pub struct Layout {
    pub link_bytes: usize,
    pub pad_bytes: usize,
    pub version: u8,
    pub records: usize,
    pub floors: bool,
}

pub const ONE: Layout = Layout { link_bytes: 1, pad_bytes: 0, version: 1, records: 256, floors: false };
pub const TWO: Layout = Layout { link_bytes: 2, pad_bytes: 1, version: 2, records: 4_096, floors: true };

/// The bytes of a record by their parts. The kind is the version in a header, the word a label or a count, the last part c, the floors or
/// zeros.
pub struct Record<'a> {
    pub link: &'a [u8],
    pub kind: u8,
    pub pad: &'a [u8],
    pub pair: [&'a [u8]; 2],
    pub word: &'a [u8],
    pub last: &'a [u8],
}

impl Layout {
    /// The version with this number.
    pub fn of_version(number: &str) -> Result<Layout, String> {
        match number {
            "1" => Ok(ONE),
            "2" => Ok(TWO),
            _ => Err(format!("no such version: {number}")),
        }
    }

    /// The bytes of a record.
    pub fn width(&self) -> usize {
        self.pair_at() + 10
    }

    pub fn most_rules(&self) -> usize {
        self.records - 1
    }

    /// Where p and q, or a and b, begin in a record. Then come four bytes of these, two of the word and four of the last part.
    pub fn pair_at(&self) -> usize {
        self.link_bytes + 1 + self.pad_bytes
    }

    pub fn record<'a>(&self, book: &'a [u8], index: usize) -> Record<'a> {
        let bytes = &book[self.width() * index..self.width() * (index + 1)];
        let (link, rest) = bytes.split_at(self.link_bytes);
        let (pad, rest) = rest[1..].split_at(self.pad_bytes);
        Record { link, kind: bytes[self.link_bytes], pad, pair: [&rest[..2], &rest[2..4]], word: &rest[4..6], last: &rest[6..] }
    }
}

/// A number without a sign, low byte first.
pub fn unsigned(bytes: &[u8]) -> usize {
    bytes.iter().rev().fold(0, |n, &b| 256 * n + usize::from(b))
}

/// A number in two's complement, low byte first.
pub fn signed(bytes: &[u8]) -> i128 {
    let n = unsigned(bytes) as i128;
    let all = 1 << (8 * bytes.len());
    if n < all / 2 {
        n
    } else {
        n - all
    }
}

#[cfg(test)]
mod tests {
    use super::*;

    #[test]
    fn numbers_have_their_signs() {
        assert_eq!([&[0, 128][..], &[255, 127], &[255; 4], &[0, 202, 154, 59]].map(signed), [-32_768, 32_767, -1, 1_000_000_000]);
    }

    #[test]
    fn lengths_are_those_of_the_documents() {
        assert_eq!([ONE, TWO].map(|v| (v.width(), v.width() * v.records)), [(12, 3_072), (14, 57_344)]);
    }
}
