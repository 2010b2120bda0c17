//! What is said of a chain: its outcome, and place, moves and open by the outcomes of all its prefixes.

use crate::clip;
use crate::exact::{outcome, Line, Outcome, Terms};

/// How the prefixes are planned: each anew by the exhaustive search, or all in one pass by cutting lines, which serves long chains.
#[derive(Clone, Copy, PartialEq)]
pub enum Way {
    Anew,
    OnePass,
}

#[derive(Debug, PartialEq)]
pub struct Chain {
    pub outcome: Outcome,
    /// The least number of rules that allow no pair; 0 unless impossible.
    pub place: usize,
    pub moves: usize,
    pub open: usize,
}

pub fn search(terms: &Terms, rules: &[Line], way: Way) -> Chain {
    let n = rules.len();
    let each = match way {
        Way::Anew => (0..=n).map(|k| outcome(terms, &rules[..k])).collect(),
        Way::OnePass => clip::each(terms, rules),
    };
    let moves = (0..n).filter(|&i| matches!(&each[i], Outcome::Best(v) if !rules[i].kept_by(v))).count();
    let open = each.iter().filter(|o| matches!(o, Outcome::Unlimited { .. })).count();
    let place = each.iter().position(|o| *o == Outcome::Impossible).unwrap_or(0);
    Chain { outcome: each[n].clone(), place, moves, open }
}
