//! Whether something in a witness is spare: whether the other entries still clash where one is given up. Here every pair of fractions
//! counts, also below the floors.

use crate::exact::Line;

/// Whether an entry can be given up so that the others still allow no pair. A witness has three entries at most, so that two are left.
pub fn has_spare(lines: &[Line]) -> bool {
    let without = |i: usize| [&lines[..i], &lines[i + 1..]].concat();
    (0..lines.len()).any(|i| !allow_a_pair(&without(i)))
}

/// Whether up to two entries allow some pair. Two whose lines cross do; a rule with a = b = 0 allows every pair or none.
fn allow_a_pair(lines: &[Line]) -> bool {
    let possible = |l: &Line| (l.a, l.b) != (0, 0) || l.c >= 0;
    lines.iter().all(possible) && lines.windows(2).all(|l| !leave_no_strip(&l[0], &l[1]))
}

/// Whether two lines are parallel, their rules point towards each other, and there is nothing between them.
fn leave_no_strip(h: &Line, k: &Line) -> bool {
    let towards = -(h.a * k.a + h.b * k.b);
    h.a * k.b == k.a * h.b && towards > 0 && h.c * towards + k.c * (h.a * h.a + h.b * h.b) < 0
}

#[cfg(test)]
mod tests {
    use super::*;

    fn lines(rules: &[(i128, i128, i128)]) -> Vec<Line> {
        rules.iter().map(|&(a, b, c)| Line { a, b, c }).collect()
    }

    #[test]
    fn conflicts_without_a_spare_entry() {
        let all: [&[_]; 4] =
            [&[(0, 0, -1)], &[(-1, 0, 0), (1, 0, -1)], &[(1, 1, 3), (-2, -2, -8)], &[(-1, -1, -4), (1, 0, 1), (0, 1, 1)]];
        assert!(all.iter().all(|rules| !has_spare(&lines(rules))));
    }

    #[test]
    fn conflicts_with_one() {
        let all: [&[_]; 3] =
            [&[(-1, 0, 0), (1, 0, -1), (0, 0, 0)], &[(0, 0, -1), (1, 0, 5)], &[(1, 1, 3), (-2, -2, -8), (1, 1, 2)]];
        assert!(all.iter().all(|rules| has_spare(&lines(rules))));
    }
}
