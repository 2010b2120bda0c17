//! The typed program's own path: one text on its standard input, of which one line feed at the very end is no part, at the edges of its length.

use crate::judge::compare;
use crate::process::printed;
use crate::reading::line;

/// Runs the program on every input, in two pieces, and says how many there were.
pub fn program(path: &str) -> Result<usize, String> {
    let inputs = inputs();
    for input in &inputs {
        let (first, second) = input.split_at(input.len() / 2);
        compare(input, &line(text_of(input)), &printed(path, &[first, second])?)?;
    }
    Ok(inputs.len())
}

fn text_of(input: &[u8]) -> &[u8] {
    input.strip_suffix(b"\n").unwrap_or(input)
}

/// Endings that a program may take for the end of the text, after a short text and after ones of 120 and 121 bytes; and far too long ones. A
/// program that drops what is beyond its buffer would accept many that are refused.
fn inputs() -> Vec<Vec<u8>> {
    let longest = longest();
    let too_long = [&longest[..], b"1"].concat();
    let texts: [&[u8]; 5] = [b"", b"2*(x + 3*y) - y <= 40 + x", b"x*y<=1", &longest, &too_long];
    let ends: [&[u8]; 8] = [b"", b"\n", b"\n\n", b"\r\n", b"\0", b" ", b"\n ", b" \n"];
    let mut inputs: Vec<Vec<u8>> = texts.iter().flat_map(|text| ends.map(|end| [text, end].concat())).collect();
    let filled = |byte| [&longest[..], &vec![byte; 70_000 - longest.len()]].concat();
    inputs.extend([filled(b' '), filled(b'\n'), vec![b' '; 70_000], vec![b'\n'; 70_000]]);
    inputs
}

/// A lawful text of 120 bytes. One more digit would leave it lawful but for its length.
fn longest() -> Vec<u8> {
    [&b"x<=1"[..], &b"+1".repeat(58)].concat()
}

#[cfg(test)]
mod tests {
    use super::*;

    fn right(input: &[u8]) -> String {
        line(text_of(input))
    }

    #[test]
    fn one_line_feed_at_the_end_is_no_part_of_the_text() {
        assert_eq!(right(b"x<=1"), "rule 1 1 0 1");
        assert_eq!(right(b"x<=1\n"), "rule 1 1 0 1");
        assert_eq!(right(b"x<=1\n\n"), "refused 13 0");
        assert_eq!(right(b"x<=1\r\n"), "refused 13 0");
        assert_eq!(right(b"\n"), "refused 13 0");
    }

    #[test]
    fn the_longest_text_is_lawful_and_only_its_length_stops_a_longer_one() {
        let longest = longest();
        assert_eq!((longest.len(), right(&longest)), (120, "rule 1 1 0 59".to_string()));
        assert_eq!(right(&[&longest[..], b"\n"].concat()), "rule 1 1 0 59");
        assert_eq!(right(&[&longest[..], b"1"].concat()), "refused 13 0");
        assert_eq!(right(&[&longest[..118], b"1"].concat()), "rule 1 1 0 68");
    }
}
