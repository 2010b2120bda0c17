//! Writing rule books: the chain through any records in any order, spare records full of noise.

use crate::layout::{Layout, ONE};
use crate::random::Random;

pub const MOST_RULES: usize = 255;

/// A rule as a record has it; kind 2 is not turned round. Unlawful values can be written too.
#[derive(Clone, Copy, Debug, PartialEq)]
pub struct Rule {
    pub kind: u8,
    pub a: i16,
    pub b: i16,
    pub c: i32,
    pub label: u16,
}

/// What a book says: the objective, the floors and the rules in chain order. A version that has no floors writes zeros for them.
#[derive(Clone, Debug, PartialEq)]
pub struct Source {
    pub p: i16,
    pub q: i16,
    pub lx: i16,
    pub ly: i16,
    pub rules: Vec<Rule>,
}

impl Source {
    /// The repacked form in version 1: rule i in record i + 1, nothing spare.
    pub fn packed(&self) -> Vec<u8> {
        self.packed_as(&ONE)
    }

    pub fn packed_as(&self, layout: &Layout) -> Vec<u8> {
        let places: Vec<usize> = (1..=self.rules.len()).collect();
        let blank = vec![0; layout.width() * (self.rules.len() + 1)];
        self.written(layout, &places, blank)
    }

    /// The chain through random records of version 1, with up to `spare` records of noise between them.
    pub fn scattered(&self, spare: usize, random: &mut Random) -> Vec<u8> {
        self.scattered_as(&ONE, spare, random)
    }

    pub fn scattered_as(&self, layout: &Layout, spare: usize, random: &mut Random) -> Vec<u8> {
        let count = (self.rules.len() + random.below(spare + 1)).min(layout.most_rules());
        let mut places: Vec<usize> = (1..=count).collect();
        random.shuffle(&mut places);
        let noise = (0..layout.width() * (count + 1)).map(|_| random.word() as u8).collect();
        self.written(layout, &places, noise)
    }

    /// Rule i goes to record places[i] of the given bytes.
    fn written(&self, layout: &Layout, places: &[usize], mut bytes: Vec<u8>) -> Vec<u8> {
        let width = layout.width();
        let link = |i: usize| if i < self.rules.len() { places[i] } else { 0 };
        let count = (bytes.len() / width - 1) as u16;
        let floors = if layout.floors { [self.lx, self.ly].map(i16::to_le_bytes).concat() } else { vec![0; 4] };
        bytes[..width].copy_from_slice(&record(layout, link(0), layout.version, [self.p, self.q], count, &floors));
        for (i, r) in self.rules.iter().enumerate() {
            let at = places[i] * width;
            bytes[at..at + width].copy_from_slice(&record(layout, link(i + 1), r.kind, [r.a, r.b], r.label, &r.c.to_le_bytes()));
        }
        bytes
    }
}

/// The bytes of one record.
fn record(layout: &Layout, link: usize, kind: u8, pair: [i16; 2], word: u16, last: &[u8]) -> Vec<u8> {
    let (link, zeros) = (&link.to_le_bytes()[..layout.link_bytes], &[0; 8][..layout.pad_bytes]);
    let [first, second] = pair.map(i16::to_le_bytes);
    [link, &[kind], zeros, &first, &second, &word.to_le_bytes(), last].concat()
}

/// Bytes as hexadecimal digits.
pub fn to_hex(bytes: &[u8]) -> String {
    bytes.iter().map(|b| format!("{b:02x}")).collect()
}

/// Hexadecimal digits as bytes; spaces are passed over.
pub fn from_hex(text: &str) -> Option<Vec<u8>> {
    let digits: Option<Vec<u8>> = text.chars().filter(|c| !c.is_whitespace()).map(|c| c.to_digit(16).map(|d| d as u8)).collect();
    let digits = digits?;
    (digits.len() % 2 == 0).then(|| digits.chunks(2).map(|d| d[0] * 16 + d[1]).collect())
}
