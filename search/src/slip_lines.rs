//! The lines of slips through the check program: read here by splitting at spaces, and judged by the checker of `slips`. The planner's
//! slips, slips with a field damaged, entries in another order, and texts that are no line.

use crate::book::to_hex;
use crate::families::source;
use crate::layout::TWO;
use crate::program::{printed_of, short_stored_books, streams_with};
use crate::random::Random;
use crate::slips::{damaged, right, slip, Said};

/// A floor's letter, or a record's index.
fn entry(code: i64) -> String {
    match code {
        0 => "X".into(),
        1 => "Y".into(),
        _ => (i128::from(code) - 1).to_string(),
    }
}

/// The line of a slip but for its line feed, with as many entries as it counts.
fn line(n: &[i64]) -> String {
    let used: String = (0..n[1].clamp(0, 3) as usize).map(|i| format!(" {} {}", entry(n[8 + 2 * i]), n[9 + 2 * i])).collect();
    match n[0] {
        1 => format!("best {} {} {} {} {}{used}", n[2], n[3], n[4], n[7], n[1]),
        2 => format!("unlimited {} {} {} {} {}", n[2], n[3], n[4], n[5], n[6]),
        3 => format!("impossible {}{used}", n[1]),
        other => format!("{other} {used}"),
    }
}

/// A number of 64 bits in the one way in which it is written.
fn number(word: &str) -> Option<i64> {
    word.parse::<i64>().ok().filter(|z| z.to_string() == word)
}

fn code(word: &str) -> Option<i64> {
    match word {
        "X" => Some(0),
        "Y" => Some(1),
        _ => number(word).filter(|&r| r >= 1).and_then(|r| r.checked_add(1)),
    }
}

/// The numbers of a line, if it is one.
fn read(text: &str) -> Option<Vec<i64>> {
    let words: Vec<&str> = text.strip_suffix('\n').unwrap_or(text).split(' ').collect();
    let numbers = |from: usize, to: usize| words.get(from..to)?.iter().map(|w| number(w)).collect::<Option<Vec<i64>>>();
    let entries = |from: usize, count: i64| -> Option<Vec<i64>> {
        if !(0..=3).contains(&count) || words.len() != from + 2 * count as usize {
            return None;
        }
        let mut all = Vec::new();
        for pair in words[from..].chunks(2) {
            all.extend([code(pair[0])?, number(pair[1])?]);
        }
        all.resize(6, 0);
        Some(all)
    };
    match words[0] {
        "best" => {
            let n = numbers(1, 6)?;
            Some([&[1, n[4], n[0], n[1], n[2], 0, 0, n[3]][..], &entries(6, n[4])?].concat())
        }
        "unlimited" if words.len() == 6 => {
            let n = numbers(1, 6)?;
            Some([&[2, 0, n[0], n[1], n[2], n[3], n[4], 0][..], &[0; 6]].concat())
        }
        "impossible" => {
            let n = numbers(1, 2)?;
            Some([&[3, n[0], 0, 0, 0, 0, 0, 0][..], &entries(2, n[0])?].concat())
        }
        _ => None,
    }
}

fn expected(book: &[u8], text: &str) -> String {
    match right(&TWO, book, &read(text).unwrap_or_default()) {
        Said::Answered(true) => "yes\n".into(),
        Said::Answered(false) => "no\n".into(),
        Said::Refused(r) => format!("refused {} {}\n", r.number, r.record),
    }
}

/// A text that may be no line any more: a byte left out, doubled or changed, a word changed, or something at an end.
fn spoilt(text: &str, random: &mut Random) -> String {
    let mut bytes = text.as_bytes().to_vec();
    let at = random.below(bytes.len());
    match random.below(8) {
        0 => drop(bytes.remove(at)),
        1 => bytes.insert(at, bytes[at]),
        2 => bytes[at] = random.pick(b"0123456789 -+XYxy\n\r\tb.,"),
        3 => bytes.insert(at, random.pick(b"0123456789 -+XY\n\r\0")),
        4 => bytes.extend(random.pick(&[&b" "[..], b"\n", b"\r\n", b"\n\n", b" 0", b" X 1", b"0"])),
        5 => bytes.truncate(at),
        6 => return text.replacen(' ', random.pick(&[" 0", " +", " -", " 9223372036854775808", " 99999999999999999999999"]), 1),
        _ => return text.replacen(' ', &" 0".repeat(random.below(3) + 1), random.below(3)),
    }
    String::from_utf8_lossy(&bytes).into_owned()
}

/// The two entries of a slip that has two, exchanged.
fn exchanged(n: &[i64; 14]) -> [i64; 14] {
    let mut other = *n;
    if n[1] >= 2 {
        (other[8], other[10]) = (n[10], n[8]);
        (other[9], other[11]) = (n[11], n[9]);
    }
    other
}

fn try_text(path: &str, book: &[u8], text: &str) -> Result<u64, String> {
    let (right, told) = (expected(book, text), printed_of(path, book, text.as_bytes(), text.len() / 2)?);
    if told != right {
        return Err(format!("mismatch: check\nbook    {}\ntext    {text:?}\nright   {right}\nprinted {told}", to_hex(book)));
    }
    Ok(1)
}

fn try_book(path: &str, book: &[u8], random: &mut Random) -> Result<u64, String> {
    let Ok(numbers) = slip(book)? else {
        return try_text(path, book, "best 0 0 1 1 0\n");
    };
    let own = line(&numbers);
    let mut tried = try_text(path, book, &own)? + try_text(path, book, &format!("{own}\n"))?;
    tried += try_text(path, book, &line(&exchanged(&numbers)))?;
    for _ in 0..6 {
        let mut other = damaged(&numbers, random);
        other.resize(14, 0);
        tried += try_text(path, book, &format!("{}\n", line(&other)))?;
        tried += try_text(path, book, &spoilt(&own, random))?;
    }
    Ok(tried)
}

/// Stored books and random ones, and texts of other sorts.
pub fn program(path: &str, seed: u64) -> Result<u64, String> {
    let mut random = Random::new(seed);
    let mut tried = 0;
    for (_, book) in short_stored_books(&TWO) {
        tried += try_book(path, &book, &mut random)?;
    }
    for _ in 0..100 {
        let n = random.below(12);
        let (_, source) = source(&TWO, &mut random, n);
        tried += try_book(path, &source.scattered_as(&TWO, 3, &mut random), &mut random)?;
    }
    let (_, source) = source(&TWO, &mut random, 3);
    let book = source.packed_as(&TWO);
    for text in ["", "\n", "yes", "best", "best ", "impossible 0", "impossible", "unlimited 0 0 1 1 1 1", "BEST 0 0 1 1 0"] {
        tried += try_text(path, &book, text)?;
    }
    tried += try_text(path, &book, &" ".repeat(100_000))?;
    tried += try_text(path, &[0; 60_000], "best 0 0 1 1 0\n")?;
    let (out, error) = streams_with(path, &[], b"best 0 0 1 1 0\n", 0)?;
    if !out.is_empty() || error.is_empty() {
        return Err("a missing book must have a line on standard error alone".into());
    }
    Ok(tried + 1)
}

#[cfg(test)]
mod tests {
    use super::*;

    #[test]
    fn lines_of_slips() {
        let best = "best 2 3 1 5 2 1 2 X 1";
        assert_eq!(read(best), Some(vec![1, 2, 2, 3, 1, 0, 0, 5, 2, 2, 0, 1, 0, 0]));
        assert_eq!(read(best).map(|n| line(&n)), Some(best.into()));
        assert_eq!(read("impossible 1 3 1\n"), Some(vec![3, 1, 0, 0, 0, 0, 0, 0, 4, 1, 0, 0, 0, 0]));
        assert_eq!(read("unlimited -1 0 1 1 1"), Some(vec![2, 0, -1, 0, 1, 1, 1, 0, 0, 0, 0, 0, 0, 0]));
        for text in
            ["", "best", "best 2 3 1 5 2 1 2", "best 2 3 1 5 0 ", "best 02 3 1 5 0", "impossible 1 0 1", "best 2 3 1 5 -0"]
        {
            assert_eq!(read(text), None, "{text}");
        }
    }
}
