//! The corners of a region: where every two entries meet, those that keep all entries, in order and without repeats; against what the
//! corner program prints. Books that are too long for that are searched by cutting lines.

use crate::book::to_hex;
use crate::clip;
use crate::exact::{self, entries, reduced, Line, Pair, Terms};
use crate::layout::TWO;
use crate::program::{inputs, printed};
use crate::random::Random;
use crate::read::{read_as, Accepted, Entry};

/// The longest chain whose corners are searched by trying every two entries.
const TRIED: usize = 60;

/// Smaller x first, and then smaller y; none twice.
fn ordered(found: &[Pair]) -> Vec<Pair> {
    let mut list: Vec<Pair> = found.iter().map(reduced).collect();
    list.sort_by(|v, w| (v.x * w.d).cmp(&(w.x * v.d)).then((v.y * w.d).cmp(&(w.y * v.d))));
    list.dedup();
    list
}

fn listed(floors: &[Line; 2], rules: &[Line]) -> Vec<Pair> {
    if rules.len() <= TRIED {
        ordered(&exact::corners(&entries(floors, rules)))
    } else {
        ordered(&clip::corners(floors, rules))
    }
}

/// The corners of an accepted book.
pub fn corners_of(terms: &Terms, rules: &[Entry]) -> Vec<Pair> {
    listed(&terms.floors, &rules.iter().map(|r| r.line).collect::<Vec<Line>>())
}

/// The lines of a book's corners, or that of its refusal.
fn expected(book: &[u8]) -> String {
    match read_as(&TWO, book) {
        Err(r) => format!("refused {} {}\n", r.number, r.record),
        Ok(Accepted { terms, rules }) => {
            corners_of(&terms, &rules).iter().map(|v| format!("{} {} {}\n", v.x, v.y, v.d)).collect()
        }
    }
}

/// Runs the program on all that a plan program is run on. Says how many books there were.
pub fn program(path: &str, seed: u64) -> Result<u64, String> {
    let mut random = Random::new(seed);
    let books = inputs(&TWO, &mut random);
    for (name, book) in &books {
        let (right, told) = (expected(book), printed(path, book, random.below(book.len() + 1))?);
        if told != right.as_bytes() {
            let told = String::from_utf8_lossy(&told).to_string();
            return Err(format!("mismatch: {name}: corners\nbook    {}\nright   {right}\nprinted {told}", to_hex(book)));
        }
    }
    Ok(books.len() as u64)
}

#[cfg(test)]
mod tests {
    use super::*;
    use crate::exact::floors;

    fn points(rules: &[(i128, i128, i128)]) -> Vec<(i128, i128, i128)> {
        let rules: Vec<Line> = rules.iter().map(|&(a, b, c)| Line { a, b, c }).collect();
        let list = listed(&floors(0, 0), &rules);
        assert_eq!(list, ordered(&clip::corners(&floors(0, 0), &rules)));
        list.iter().map(|v| (v.x, v.y, v.d)).collect()
    }

    #[test]
    fn corners_of_the_class_example() {
        assert_eq!(points(&[(1, 2, 8), (3, 1, 9)]), [(0, 0, 1), (0, 4, 1), (2, 3, 1), (3, 0, 1)]);
    }

    #[test]
    fn a_segment_a_point_and_nothing() {
        assert_eq!(points(&[(1, 1, 3), (-1, -1, -3)]), [(0, 3, 1), (3, 0, 1)]);
        assert_eq!(points(&[(1, 1, 0), (1, -1, 0), (2, 2, 0)]), [(0, 0, 1)]);
        assert_eq!(points(&[(1, 0, -1)]), []);
    }
}
