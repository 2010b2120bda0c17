//! Whether a printed line is right. All of it is fixed by the book but the witness, which is judged by its property.

use crate::exact::{Line, Outcome, Terms};
use crate::layout::{Layout, ONE};
use crate::prefixes::{search, Way};
use crate::read::{read_as, Accepted, Entry};
use crate::spare::has_spare;

/// The greatest weight of a witness.
const HEAVIEST: i128 = 2_147_352_578;

/// What a book's line must say.
pub struct Expected {
    /// The fields up to the counts: word, pair, direction, place, or the refusal.
    head: String,
    /// Moves and open; a refusal has none.
    counts: Option<(usize, usize)>,
    /// What a witness may name, if there must be one.
    witness: Option<Nameable>,
}

/// The floors, which rank first, and the rules up to the place.
struct Nameable {
    floors: [Line; 2],
    rules: Vec<Named>,
}

/// A rule with the name that a witness has for it, and its rank among the entries: floors have 0 and 1.
#[derive(Clone, Debug)]
pub struct Named {
    pub name: String,
    pub rank: usize,
    pub line: Line,
}

impl Named {
    /// A rule of a single book goes by its record.
    fn of(entry: &Entry) -> Named {
        Named { name: entry.record.to_string(), rank: entry.record + 1, line: entry.line }
    }
}

/// The right line of a book of version 1 by the search.
pub fn expected(book: &[u8], way: Way) -> Expected {
    expected_as(&ONE, book, way)
}

pub fn expected_as(layout: &Layout, book: &[u8], way: Way) -> Expected {
    match read_as(layout, book) {
        Ok(Accepted { terms, rules }) => expected_of(&terms, rules.iter().map(Named::of).collect(), way),
        Err(r) => turned_back(format!("refused {} {}", r.number, r.record)),
    }
}

/// The line of something that is turned back.
pub fn turned_back(head: String) -> Expected {
    Expected { head, counts: None, witness: None }
}

/// The right line of a list of rules.
pub fn expected_of(terms: &Terms, mut rules: Vec<Named>, way: Way) -> Expected {
    let lines: Vec<Line> = rules.iter().map(|r| r.line).collect();
    let chain = search(terms, &lines, way);
    let head = match chain.outcome {
        Outcome::Best(v) => format!("best {} {} {}", v.x, v.y, v.d),
        Outcome::Unlimited { start: v, dx, dy } => format!("unlimited {} {} {} {dx} {dy}", v.x, v.y, v.d),
        Outcome::Impossible => format!("impossible {}", chain.place),
    };
    rules.truncate(chain.place);
    let witness = (chain.place > 0).then_some(Nameable { floors: terms.floors, rules });
    Expected { head, counts: Some((chain.moves, chain.open)), witness }
}

impl Expected {
    /// Says what is wrong with the line, if anything is.
    pub fn judge(&self, line: &[u8]) -> Result<(), String> {
        let line = std::str::from_utf8(line).map_err(|_| "not text")?;
        let line = line.strip_suffix('\n').ok_or("no line feed at the end")?;
        let rest = line.strip_prefix(self.head.as_str()).ok_or("another line is right")?;
        let mut fields = rest.split(' ');
        if fields.next() != Some("") {
            return Err("another line is right".into());
        }
        self.judge_counts(&mut fields)?;
        let fields: Vec<&str> = fields.collect();
        match &self.witness {
            Some(nameable) => judge_witness(&fields, nameable),
            None if fields.is_empty() => Ok(()),
            None => Err("more fields than the line has".into()),
        }
    }

    fn judge_counts<'a>(&self, fields: &mut impl Iterator<Item = &'a str>) -> Result<(), String> {
        let mut next = || fields.next().and_then(number).ok_or("a count is missing");
        match self.counts {
            Some((moves, open)) if (next()?, next()?) != (moves as i128, open as i128) => Err("other counts are right".into()),
            _ => Ok(()),
        }
    }

    /// The line in one piece, with * for the witness.
    pub fn shown(&self) -> String {
        let counts = self.counts.map_or(String::new(), |(moves, open)| format!(" {moves} {open}"));
        format!("{}{counts}{}", self.head, if self.witness.is_some() { " *" } else { "" })
    }
}

/// A count or a weight as it is printed: no sign, no leading zero.
fn number(text: &str) -> Option<i128> {
    text.parse::<i128>().ok().filter(|n| *n >= 0 && n.to_string() == text)
}

/// An entry of a witness with its weight.
struct Term {
    rank: usize,
    line: Line,
    weight: i128,
}

fn judge_witness(fields: &[&str], nameable: &Nameable) -> Result<(), String> {
    let (count, fields) = fields.split_first().ok_or("no witness")?;
    let terms = fields.chunks(2).map(|f| term(f, nameable)).collect::<Result<Vec<Term>, _>>()?;
    if !(1..=3).contains(&terms.len()) || *count != terms.len().to_string() {
        return Err("wrong number of entries".into());
    }
    if terms.windows(2).any(|t| t[0].rank >= t[1].rank) {
        return Err("entries out of order".into());
    }
    let sum = |f: fn(&Line) -> i128| terms.iter().map(|t| t.weight * f(&t.line)).sum::<i128>();
    if sum(|l| l.a) != 0 || sum(|l| l.b) != 0 {
        return Err("the weighted sums of a and b are not 0".into());
    }
    if sum(|l| l.c) >= 0 {
        return Err("the weighted sum of c is not below 0".into());
    }
    if has_spare(&terms.iter().map(|t| t.line).collect::<Vec<_>>()) {
        return Err("an entry is spare: the others clash without it".into());
    }
    Ok(())
}

fn term(fields: &[&str], nameable: &Nameable) -> Result<Term, String> {
    let &[name, weight] = fields else {
        return Err("an entry without a weight".into());
    };
    let weight = number(weight).filter(|w| (1..=HEAVIEST).contains(w)).ok_or("a weight out of range")?;
    let (rank, line) = match name {
        "X" => (0, nameable.floors[0]),
        "Y" => (1, nameable.floors[1]),
        _ => {
            let rule = nameable.rules.iter().find(|r| r.name == name).ok_or("an entry that is none of the first rules")?;
            (rule.rank, rule.line)
        }
    };
    Ok(Term { rank, line, weight })
}
