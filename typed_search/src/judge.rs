//! Whether the lines that a program prints are the right ones, and how many texts came to each end.

use crate::process::printed;
use crate::random::Random;
use crate::reading::line;
use crate::texts::text;
use std::fmt;

/// The program reads all its texts into 65,536 bytes.
const MOST_BYTES: usize = 60_000;
const MOST_TEXTS: usize = 1_000;

#[derive(Default)]
pub struct Tally {
    pub texts: usize,
    accepted: usize,
    not_read: usize,
    products: usize,
    ranges: usize,
}

impl Tally {
    fn count(&mut self, line: &str) {
        self.texts += 1;
        *match line {
            "refused 13 0" => &mut self.not_read,
            "refused 14 0" => &mut self.products,
            "refused 15 0" => &mut self.ranges,
            _ => &mut self.accepted,
        } += 1;
    }
}

impl fmt::Display for Tally {
    fn fmt(&self, f: &mut fmt::Formatter) -> fmt::Result {
        let Tally { texts, accepted, not_read, products, ranges } = self;
        write!(f, "{texts} texts: {accepted} accepted, {not_read} refused 13, {products} refused 14, {ranges} refused 15")
    }
}

/// Random texts through a program that reads a text a line.
pub fn random_texts(program: &str, seed: u64, count: usize) -> Result<Tally, String> {
    let mut random = Random::new(seed);
    let mut tally = Tally::default();
    while tally.texts < count {
        let texts = batch(&mut random, count - tally.texts);
        try_texts(program, &texts, &mut tally)?;
    }
    Ok(tally)
}

/// As many texts as the program takes at once, at most so many.
fn batch(random: &mut Random, most: usize) -> Vec<Vec<u8>> {
    let mut size = 0;
    let mut texts = Vec::new();
    while texts.len() < most.min(MOST_TEXTS) && size < MOST_BYTES {
        let text = text(random);
        size += text.len() + 1;
        texts.push(text);
    }
    texts
}

fn try_texts(program: &str, texts: &[Vec<u8>], tally: &mut Tally) -> Result<(), String> {
    let input: Vec<u8> = texts.iter().flat_map(|text| [text, &b"\n"[..]].concat()).collect();
    let printed = printed(program, &[&input])?;
    let mut lines = printed.split_inclusive(|&byte| byte == b'\n');
    texts.iter().try_for_each(|text| {
        let right = line(text);
        tally.count(&right);
        compare(text, &right, lines.next().unwrap_or(b""))
    })?;
    match lines.next() {
        None => Ok(()),
        Some(more) => Err(format!("mismatch: {program} prints more lines than there are texts: {}", more.escape_ascii())),
    }
}

/// The printed line must be the right one with a line feed.
pub fn compare(text: &[u8], right: &str, printed: &[u8]) -> Result<(), String> {
    if printed.strip_suffix(b"\n") == Some(right.as_bytes()) {
        return Ok(());
    }
    Err(format!("mismatch\ntext    \"{}\"\nright   {right}\nprinted {}", text.escape_ascii(), printed.escape_ascii()))
}

#[cfg(test)]
mod tests {
    use super::*;

    #[test]
    fn only_the_right_line_passes() {
        assert_eq!(compare(b"x<=1", "rule 1 1 0 1", b"rule 1 1 0 1\n"), Ok(()));
        let wrong: [&[u8]; 5] = [b"", b"\n", b"rule 1 1 0 1", b"rule 1 1 0 1\n\n", b"rule 1 1 0 2\n"];
        assert!(wrong.iter().all(|printed| compare(b"x<=1", "rule 1 1 0 1", printed).is_err()));
    }

    #[test]
    fn a_batch_fits_and_has_no_line_feeds() {
        let texts = batch(&mut Random::new(1), 5_000);
        assert!(texts.len() > 100 && texts.iter().map(|text| text.len() + 1).sum::<usize>() <= 65_536);
        assert!(!texts.concat().contains(&b'\n'));
    }
}
