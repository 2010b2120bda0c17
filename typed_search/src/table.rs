//! A side, read by a table over all spans of its items: for each span what it is as a factor, as a term and as a side, shorter spans first, every
//! split tried. Two ways to read one span would end the run.

use crate::items::Item;
use crate::value::{checked, joined, negated, Value};

#[derive(Clone, Copy)]
pub struct Cell {
    pub value: Value,
    /// How deep its parentheses nest.
    pub depth: usize,
}

/// One cell a span that is something.
struct Spans {
    width: usize,
    cells: Vec<Option<Cell>>,
}

impl Spans {
    fn new(items: usize) -> Self {
        let width = items + 1;
        Spans { width, cells: vec![None; width * width] }
    }

    fn at(&self, from: usize, to: usize) -> Option<Cell> {
        self.cells[from * self.width + to]
    }

    fn put(&mut self, from: usize, to: usize, cell: Option<Cell>) {
        self.cells[from * self.width + to] = cell;
    }
}

struct Table<'a> {
    items: &'a [Item],
    factors: Spans,
    terms: Spans,
    sides: Spans,
}

/// The side that all the items are together, if they are one.
pub fn side(items: &[Item]) -> Option<Cell> {
    let n = items.len();
    let mut table = Table { items, factors: Spans::new(n), terms: Spans::new(n), sides: Spans::new(n) };
    let spans = (1..=n).flat_map(|length| (0..=n - length).map(move |from| (from, from + length)));
    spans.for_each(|(from, to)| table.fill(from, to));
    table.sides.at(0, n)
}

impl Table<'_> {
    /// A factor is a term too, and a term a side, so that they are put in this order.
    fn fill(&mut self, from: usize, to: usize) {
        self.factors.put(from, to, self.factor(from, to));
        let products = self.splits(from, to, &self.terms, b"*", &self.factors);
        let term = only(self.factors.at(from, to).into_iter().chain(products));
        self.terms.put(from, to, term);
        let sums = self.splits(from, to, &self.sides, b"+-", &self.terms);
        let side = only(term.into_iter().chain(sums));
        self.sides.put(from, to, side);
    }

    /// A number, a letter, a minus before a factor, or a side in parentheses. No span is two of these.
    fn factor(&self, from: usize, to: usize) -> Option<Cell> {
        match &self.items[from..to] {
            [item] => leaf(*item).map(|value| Cell { value, depth: 0 }),
            [Item::Byte(b'-'), ..] => {
                let Cell { value, depth } = self.factors.at(from + 1, to)?;
                Some(Cell { value: negated(value), depth })
            }
            [Item::Byte(b'('), .., Item::Byte(b')')] => {
                let Cell { value, depth } = self.sides.at(from + 1, to - 1)?;
                Some(Cell { value, depth: depth + 1 })
            }
            _ => None,
        }
    }

    /// Every way to read the span as a left part, one of the operators and a right part.
    fn splits<'b>(
        &'b self,
        from: usize,
        to: usize,
        lefts: &'b Spans,
        operators: &'b [u8],
        rights: &'b Spans,
    ) -> impl Iterator<Item = Cell> + 'b {
        (from + 1..to).filter_map(move |at| {
            let Item::Byte(operator) = self.items[at] else { return None };
            let operator = operators.iter().copied().find(|&o| o == operator)?;
            let (left, right) = (lefts.at(from, at)?, rights.at(at + 1, to)?);
            Some(Cell { value: joined(left.value, operator, right.value), depth: left.depth.max(right.depth) })
        })
    }
}

fn leaf(item: Item) -> Option<Value> {
    match item {
        Item::Number(n) => Some(checked([0, 0, n])),
        Item::Byte(b'x') => Some(Ok([1, 0, 0])),
        Item::Byte(b'y') => Some(Ok([0, 1, 0])),
        _ => None,
    }
}

/// The one derivation of a span, if it has any: each text is read in one way.
fn only(mut derivations: impl Iterator<Item = Cell>) -> Option<Cell> {
    let first = derivations.next();
    assert!(derivations.next().is_none(), "a span with two derivations");
    first
}
